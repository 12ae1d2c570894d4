#!/bin/sh
# Compares the program `compare_reals` with Rust's own reading of decimals, byte for byte, on all streams.
#
#   decimals.sh DECIMALS_PROGRAM [WORK_FOLDER]
#   decimals.sh replay FOLDER       writes the chosen list as FOLDER/stdin, and Rust's answers to it as FOLDER/stdout
#
# Environment: STREAMS (default: chosen exhaustive class ties edges outside malformed wide halves hard doubles borders), COUNT (decimals of
# `class` and of `ties`, 1300000 each; of `edges`, `outside` and `malformed` a thirteenth), ANY (decimals of the last five, 5000000 in all), SEED (1).
# A line has two answers, the class's and that of any real. The last lines are how many decimals had each, and `differences N`; the
# exit status is 0 where N is 0.
set -eu
[ $# -ge 1 ] || { sed -n '2,10s/^# \{0,1\}//p' "$0" >&2; exit 2; }
here=$(CDPATH='' cd -- "$(dirname -- "$0")" && pwd)
. "$here/lines.sh"
export PYTHONDONTWRITEBYTECODE=1
make="python3 $here/decimals.py"
if [ "$1" != replay ] && [ $# -ge 2 ]; then
    mkdir -p "$2"
    work=$(CDPATH='' cd -- "$2" && pwd)
else
    work=$(mktemp -d)
    trap 'rm -rf "$work"' EXIT
    trap 'exit 130' INT TERM
fi
rustc --edition 2021 -C opt-level=3 -o "$work/oracle" "$here/decimals.rs"

# How often each answer stands in a file.
tally() { # tally FILE
    awk '$0 == "too long for this program" { long++; next }
        { class[length($1) == 16 ? "value" : $1]++ }
        length($2) != 16 { next }
        { high = substr($2, 1, 3) }
        high == "7ff" || high == "fff" { infinite++; next }
        high != "000" && high != "800" { normal++; next }
        substr($2, 4) == "0000000000000" { zero++; next }
        { subnormal++ }
        END { printf "class: value %d, 12 %d, 13 %d; any: zero %d, subnormal %d, normal %d, infinite %d; too long %d",
            class["value"], class["12"], class["13"], zero, subnormal, normal, infinite, long }' "$1"
}

if [ "$1" = replay ]; then
    [ $# -eq 2 ] || { sed -n '2,10s/^# \{0,1\}//p' "$0" >&2; exit 2; }
    mkdir -p "$2"
    $make chosen >"$2/stdin"
    "$work/oracle" <"$2/stdin" >"$2/stdout"
    if grep '^Rust ' "$2/stdout" >&2; then exit 1; fi
    echo "chosen: $(wc -l <"$2/stdout") decimals, $(wc -c <"$2/stdin") bytes: $(tally "$2/stdout")"
    exit 0
fi

program=$(CDPATH='' cd -- "$(dirname -- "$1")" && pwd)/$(basename -- "$1")
[ -x "$program" ] || { echo "decimals.sh: $1 is no executable" >&2; exit 2; }
count=${COUNT:-1300000}
any=${ANY:-5000000}
seed=${SEED:-1}
decimals=0
values=0
reals=0
differences=0
for stream in ${STREAMS:-chosen exhaustive class ties edges outside malformed wide halves hard doubles borders}; do
    case $stream in
    chosen | exhaustive) $make "$stream" ;;
    class | ties) $make "$stream" "$count" "$seed" ;;
    wide) $make "$stream" $((any / 5 * 2)) "$seed" ;;
    hard | doubles) $make "$stream" $((any / 5)) "$seed" ;;
    halves | borders) $make "$stream" $((any / 10)) "$seed" ;;
    *) $make "$stream" $((count / 13)) "$seed" ;;
    esac >"$work/stream"
    "$work/oracle" <"$work/stream" >"$work/expected"
    compare "$stream"
    echo "$stream: decimals $made differences $differing | $(tally "$work/expected")"
    case $stream in
    ties) $make tally <"$work/stream" | tail -n 1 ;;
    wide | halves | hard | doubles | borders) $make reach <"$work/stream" ;;
    esac
    values=$((values + $(grep -c '^[0-9a-f]\{16\} ' "$work/expected" || true)))
    reals=$((reals + $(grep -c ' [0-9a-f]\{16\}$' "$work/expected" || true)))
    decimals=$((decimals + made))
    differences=$((differences + differing))
done
echo "decimals $decimals"
echo "of the class $values"
echo "reals $reals"
echo "differences $differences"
[ "$differences" -eq 0 ]
