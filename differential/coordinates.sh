#!/bin/sh
# Reads the reals of all points, directions and vectors of real files by the program `compare_reals` and by Rust, and compares them bit for bit.
#
#   coordinates.sh DECIMALS_PROGRAM FOLDER..     the files *.stp and *.step below these folders
#
# Each text is read once. The last lines are how many the reading of any real refuses, and `differences N`; the exit status is 0 where both
# are 0, and where the program answers 13 to as many as coordinates.rs counts outside the class.
# Environment: TMPDIR has to have room for the texts and two times the answers.
set -eu
[ $# -ge 2 ] || { sed -n '2,8s/^# \{0,1\}//p' "$0" >&2; exit 2; }
here=$(CDPATH='' cd -- "$(dirname -- "$0")" && pwd)
. "$here/lines.sh"
program=$(CDPATH='' cd -- "$(dirname -- "$1")" && pwd)/$(basename -- "$1")
[ -x "$program" ] || { echo "coordinates.sh: $1 is no executable" >&2; exit 2; }
shift
work=$(mktemp -d)
trap 'rm -rf "$work"' EXIT
trap 'exit 130' INT TERM
rustc --edition 2021 -C opt-level=3 -o "$work/oracle" "$here/decimals.rs"
rustc --edition 2021 -C opt-level=3 -o "$work/coordinates" "$here/coordinates.rs"
"$work/coordinates" "$@" >"$work/stream" 2>"$work/figures" || { cat "$work/figures" >&2; exit 1; }
cat "$work/figures"
"$work/oracle" <"$work/stream" >"$work/expected"
compare coordinates
outside=$(grep -c '^13 ' "$work/actual" || true)
refused=$(grep -vc ' [0-9a-f]\{16\}$' "$work/actual" || true)
infinite=$(grep -c ' [7f]ff0000000000000$' "$work/actual" || true)
echo "texts $made, the class refuses $outside with 13, infinite $infinite"
echo "refused $refused"
echo "differences $differing"
grep -q "distinct $outside, in files" "$work/figures" && [ "$refused" -eq 0 ] && [ "$differing" -eq 0 ]
