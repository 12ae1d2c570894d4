#!/bin/sh
# Writes the cases that the gate gives to the program `asks` as `stdin`, and the oracle's answers to them as `stdout`.
#
#   asks.sh FOLDER
#
# The chosen list, two files of lists and texts around a room for one, the cases that the coverage-guided search found (found.run), 150 cases
# of the stream `parameters`, of 100 of `lookups` those of up to 600 bytes, the unit files written by hand, and of 300 cases of the stream `units`
# those of up to 800 bytes.
# Environment: ORACLE, MANY: executables of the oracle and of many/ (default: built).
set -eu
[ $# -eq 1 ] || { sed -n '2,9s/^# \{0,1\}//p' "$0" >&2; exit 2; }
here=$(CDPATH='' cd -- "$(dirname -- "$0")" && pwd)
oracle=${ORACLE:-}
[ -n "$oracle" ] || oracle=$("$here/build.sh")
many=${MANY:-}
[ -n "$many" ] || many=$("$here/many.sh")
mkdir -p "$1"
die() {
    echo "asks.sh: $*" >&2
    exit 1
}
make="python3 $here/generate.py"
case_of() { # case_of TEXT
    printf '%d\n%s' "${#1}" "$1"
}
{
    $make chosen
    # Lists, grids and texts that a room for one holds, and that it does not.
    case_of "ISO-10303-21;DATA;#1=A(((#1)));#2=A(((#1,#2)));#3=A(((#1),()));#4=A(((1.)));#5=A(((1.,2.)));#6=A(((1.),()));"
    case_of "ISO-10303-21;DATA;#1=A((#1));#2=A((#1,#2));#3=A((1));#4=A((1,2));#5=A(('a','b'));#6=A('ab');#7=A();#8=A('');"
    cat "$here/found.run"
    $make parameters 150 7
    $make lookups 100 7 --most 600
    $make unitrules
    $make units 300 7 --most 800
} >"$1/stdin"
"$oracle" --part asks <"$1/stdin" >"$1/stdout"
# Each answer and each refusal that the program can print occurs.
"$many" compare "$1/stdout" "$1/stdout" >"$1/counts"
for said in 'i answer' 'i 14/0' 'w answer' 'w empty' 'y answer' 'c answer' 'c 3/0' 'c 4/0' 'c 6/0' 'u resolved' 'u unresolved' 'u 3/0' 'u 4/0' \
    'u 6/0' 'u 10/0' 'u 11/0' 'u 12/0' 'u 13/0' 'u 15/0' 'n answer' 'n 10/0' 'n 11/0' 'str 16/0' 'ref_list 16/0' 'i64_list 16/0' \
    'f64_list 16/0' 'ref_grid 16/0' 'f64_grid 16/0' 'nine 9/0' 'kept 9/0' 'kept 16/0' 'read 9/0' 'read 16/0' 'full 8/0' 'r answer' 'h answer'; do
    grep "^said $said " "$1/counts" || die "no $said"
done
if grep -qE '^driver |panic$' "$1/stdout"; then
    die "the driver and the original part, or the original panicked"
fi
grep -E '^(cases|lines|rows) ' "$1/counts"
rm -f "$1/counts"
