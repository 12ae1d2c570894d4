#!/bin/sh
# Writes the replay: cases as `stdin`, the oracle's answers to them as `stdout`.
#
#   replay.sh FOLDER
#
# The chosen list, 1100 cases of the stream `parameters` and 150 of `lookups`; then without walks the unit files written by hand and, of
# 3000 cases of the stream `units`, those of up to 800 bytes and the last 150.
# Environment: ORACLE, an executable of the oracle (default: built by build.sh).
set -eu
[ $# -eq 1 ] || { sed -n '2,8s/^# \{0,1\}//p' "$0" >&2; exit 2; }
here=$(CDPATH='' cd -- "$(dirname -- "$0")" && pwd)
oracle=${ORACLE:-}
[ -n "$oracle" ] || oracle=$("$here/build.sh")
mkdir -p "$1"
work=$(mktemp -d)
trap 'rm -rf "$work"' EXIT
die() {
    echo "replay.sh: $*" >&2
    exit 1
}
{
    python3 "$here/generate.py" chosen
    python3 "$here/generate.py" parameters 1100 5
    python3 "$here/generate.py" lookups 150 5
} >"$1/stdin"
"$oracle" --part all <"$1/stdin" >"$1/stdout"

cases=$(($(python3 "$here/generate.py" chosen --count) + 1100 + 150))
answered=$(grep -c '^case ' "$1/stdout")
[ "$answered" -eq "$cases" ] || die "$cases cases, $answered answers"
# What the program `answers` tells with the walks in the gate's run.
grep -q "WALKS: usize = $cases;" "$here/../crates/answers/src/main.rt" || die "crates/answers tells other cases than the first $cases with walks"
# Each refusal and reason occurs many times, and so do accepted files.
for answer in 'refused 1/0' 'refused 3/0' 'refused 4/0' 'refused 5/0' 'refused 6/0' 'refused 7/1' 'refused 7/2' \
    'refused 7/3' 'refused 7/4' 'refused 7/5' 'refused 7/6' 'refused 7/7' scan; do
    found=$(grep -c "^${answer}[@ ]" "$1/stdout" || true)
    [ "$found" -ge 20 ] || die "$answer occurs $found times only"
    echo "$answer: $found"
done
# So does each reader's answer, and each of its refusals.
for reader in ref opt_ref i64 f64 opt_f64 measure enum bool str ref_list i64_list f64_list ref_grid f64_grid; do
    found=$(grep "^$reader @" "$1/stdout" | grep -vc ' [0-9]*/0@[0-9]*$' || true)
    [ "$found" -ge 50 ] || die "$reader answers $found times only"
    for number in 10 11 12; do
        grep -q "^$reader @[0-9]* $number/0@" "$1/stdout" || die "no $number of $reader"
    done
    echo "$reader: $found"
done
for reader in f64 opt_f64 measure f64_list f64_grid; do
    grep -q "^$reader @[0-9]* 13/0@" "$1/stdout" || die "no 13 of $reader"
done

# The units: points.py has the answers to the files written by hand, one and more for each rule.
{
    python3 "$here/generate.py" unitrules
    python3 "$here/generate.py" units 2850 5 --most 800
    python3 "$here/generate.py" units 3000 5 --skip 2850
} >"$work/stdin"
"$oracle" --part rows,lookup,texts,units <"$work/stdin" | awk -v first="$cases" '/^case /{ $2 += first } { print }' >"$work/stdout"
python3 "$here/points.py" "$oracle" --part all
unitcases=$(grep -c '^case ' "$work/stdout")
[ "$unitcases" -ge 1100 ] || die "$unitcases unit files only"
for answer in 3/0 4/0 6/0 10/0 11/0 12/0 13/0 15/0; do
    found=$(grep -c "^units $answer@" "$work/stdout" || true)
    [ "$found" -ge 5 ] || die "units $answer occurs $found times only"
    echo "units $answer: $found"
done
for resolved in 0 1; do
    found=$(grep -c "^units [0-9a-f]* [0-9a-f]* [0-9a-f]* $resolved\$" "$work/stdout" || true)
    [ "$found" -ge 300 ] || die "units that end in $resolved: $found only"
    echo "units .. $resolved: $found"
done
cat "$work/stdin" >>"$1/stdin"
cat "$work/stdout" >>"$1/stdout"
if grep -q 'panic$' "$1/stdout"; then
    die "the original panicked"
fi
size=$(wc -c <"$1/stdin")
[ "$size" -lt 1100000 ] || die "the stream has $size bytes, 1100000 are too many"
echo "cases $cases, unit files $unitcases, bytes $size"
