#!/bin/sh
# Times the task `scale` of the program desk on hostile unit files, each kind at three lengths, and prints a table in markdown.
#
#   units.sh DESK_PROGRAM
#
# A figure is the least processor time of five runs, less that of a file with one record, in milliseconds and in nanoseconds for each byte
# of the file.
# The last three kinds grow with the square of the length (docs/DECISIONS.md, 'What is not linear').
set -eu
[ $# -eq 1 ] || { sed -n '2,8s/^# \{0,1\}//p' "$0" >&2; exit 2; }
here=$(CDPATH='' cd -- "$(dirname -- "$0")" && pwd)
work=$(mktemp -d)
trap 'rm -rf "$work"' EXIT
# The program chooses its rooms by the stack limit.
# shellcheck disable=SC3045
ulimit -s 1000000

# Milliseconds of processor time, the least of five runs.
spent() {
    python3 - "$@" <<'END'
import os, subprocess, sys
least = None
for _ in range(5):
    before = os.times()
    subprocess.run(sys.argv[1:], check=True, stdout=subprocess.DEVNULL)
    after = os.times()
    took = after.children_user + after.children_system - before.children_user - before.children_system
    least = took if least is None else min(least, took)
print(round(least * 1000))
END
}

printf 'ISO-10303-21;DATA;#1=A();' >"$work/one"
floor=$(spent "$1" scale "$work/one")
echo "| kind | N | bytes | answer | ms | ns a byte |"
echo "|---|---|---|---|---|---|"
while read -r kind sizes; do
    for n in $sizes; do
        python3 "$here/units.py" "$kind" "$n" >"$work/file"
        bytes=$(wc -c <"$work/file")
        answer=$("$1" scale "$work/file" | head -n 1)
        took=$(($(spent "$1" scale "$work/file") - floor))
        echo "| $kind | $n | $bytes | $answer | $took | $((took * 1000000 / bytes)) |"
    done
done <<END
chain 25000 50000 100000
contexts 25000 50000 100000
units 25000 50000 100000
tolerances 25000 50000 100000
circle 25000 50000 100000
wide 1000 2000 4000
long 2500 5000 10000
many 1000 2000 4000
END
