#!/bin/sh
# Times the proved readings of a real, the class's and that of any real, beside Rust's str::parse::<f64> and prints the table in markdown.
#
#   reals.sh [WORK_FOLDER]
#
# WORK_FOLDER is kept, so that a second run proves only what changed (default: a folder under the system's temp folder).
# Environment: OBJECT, as for run.sh.
set -eu
here=$(CDPATH='' cd -- "$(dirname -- "$0")" && pwd)
work=${1:-${TMPDIR:-$(dirname "$(mktemp -u)")}/hooflift-bench}
mkdir -p "$work"
work=$(CDPATH='' cd -- "$work" && pwd)
object=$(sh "$here/object.sh" "$work")
rustc --edition 2021 -C opt-level=3 -C codegen-units=1 -C link-arg="$object" -o "$work/reals" "$here/reals.rs" >&2

echo "$(date -u +%Y-%m-%d), $(uname -m), $(sed -n 's/^model name[^:]*: //p' /proc/cpuinfo | head -n 1), $(rustc --version | cut -d' ' -f1-2)"
echo
"$work/reals"

command -v valgrind >/dev/null || exit 0
# What a side's run has more than a run of neither.
instructions() { # instructions SIDE
    valgrind --tool=callgrind --callgrind-out-file=/dev/null "$work/reals" once "$1" 2>&1 |
        sed -n 's/.*Collected : \([0-9]*\).*/\1/p'
}
none=$(instructions none)
printf '\n| side | instructions for each of the mixed coordinates |\n|---|---|\n'
for side in rust proved any; do
    total=$(instructions "$side")
    awk -v s="$side" -v t="$((total - none))" 'BEGIN { printf "| %s | %.1f |\n", s, t / 1000000 }'
done
