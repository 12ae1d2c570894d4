#!/bin/sh
# The whole comparison with the Rust original: makes ten million cases and more, answers them by both sides, compares, and counts.
#
#   all.sh [WORK_FOLDER]
#
# WORK_FOLDER is kept (default: a folder under the system's temp folder). What is wanted is installed from Debian where it is lacking, but
# for cargo and rustc, 1.88 or newer, which Debian has not.
# Environment:
#   ANSWERS, ASKS  the two programs (default: those of target/bin, which ./step proves and builds first where they are not there or are older
#                  than their sources; x86-64 code)
#   STREAMS        which streams run (default: exhaustive grammar long damaged found chosen parameters lookups units unitrules real)
#   EXHAUSTIVE     most cases of `exhaustive` (default: all, 5,668,110)
#   GRAMMAR, LONG, DAMAGED  cases of these three (default 3700000, 300000 and 1300000)
#   DRAWN          cases of each of `parameters`, `lookups` and `units`, which generate.py makes (default 20000)
#   ASKED          of so many chunks one is answered by `asks` too (default 8); the streams that are no chunks are always
#   FUZZ           seconds of coverage-guided search by each program (default 0: the cases that are kept alone, since fuzz.sh builds its
#                  programs by ../shared/perf/native.sh, which calls the kit before today's)
#   SEED           (default 1)    CHUNK  cases made at once (default 100000)    JOBS  chunks at a time (default: the processors)
#   ORACLE, MANY, REAL  as in compare.sh; MANY is the executable of many/
# The last lines are the figures; the status is 0 only where nothing differs that docs/DIFFERENCES.md does not list, and each answer that
# figures.py names occurred.
set -eu
case ${1:-} in -*) sed -n '2,22s/^# \{0,1\}//p' "$0" >&2; exit 2 ;; esac
here=$(CDPATH='' cd -- "$(dirname -- "$0")" && pwd)
root=$(CDPATH='' cd -- "$here/.." && pwd)
work=${1:-${TMPDIR:-$(dirname "$(mktemp -u)")}/differential-all}
mkdir -p "$work"
work=$(CDPATH='' cd -- "$work" && pwd)
say() { echo "all.sh: $*" >&2; }
streams=${STREAMS:-exhaustive grammar long damaged found chosen parameters lookups units unitrules real}
seed=${SEED:-1}
chunk=${CHUNK:-100000}
jobs=${JOBS:-$(nproc)}

# What is wanted.
command -v python3 >/dev/null || "$here/install.sh" python3
ORACLE=${ORACLE:-}
[ -n "$ORACLE" ] || ORACLE=$("$here/build.sh" "$work/oracle")
MANY=${MANY:-}
[ -n "$MANY" ] || MANY=$("$here/many.sh" "$work/many")
# ./step proves and builds a program where need be, and here gives it no case.
program() { # program NAME
    "$root/step" "$1" </dev/null >&2
    echo "$root/target/bin/$1"
}
ANSWERS=${ANSWERS:-$(program answers)}
ASKS=${ASKS:-$(program asks)}
real=${REAL:-$work/real}
if [ -z "$(ls "$real" 2>/dev/null)" ]; then
    mkdir -p "$real"
    sh "$root/../shared/real.sh" "$real" >&2 || say "no real files"
fi
TALLY=$work/tally
DIFFERENCES=$work/differences
rm -rf "$TALLY"
mkdir -p "$TALLY"
: >"$DIFFERENCES"
export ORACLE MANY ANSWERS ASKS TALLY DIFFERENCES

# Coverage-guided: each search begins with the cases that are kept.
cp "$here/found.run" "$work/found.run"
if [ "${FUZZ:-0}" -gt 0 ]; then
    for name in answers asks; do
        SECONDS_EACH=$FUZZ SEED=$seed NATIVE=$work/native "$here/fuzz.sh" "$name" "$work/found.$name" "$work/fuzz" >&2
    done
    "$MANY" union "$work/found.answers" "$work/found.asks" >"$work/found.run"
fi

# The chunks of a stream, one to a line: NAME PART SKIP TAKE COMMAND..
chunks() { # chunks NAME CASES ASKED COMMAND..
    name=$1 total=$2 asked=$3 skip=0 k=0
    shift 3
    while [ "$skip" -lt "$total" ]; do
        take=$((total - skip))
        [ "$take" -le "$chunk" ] || take=$chunk
        echo "$name all $skip $take $*"
        [ $((k % asked)) -ne 0 ] || echo "$name asks $skip $take $*"
        skip=$((skip + take)) k=$((k + 1))
    done
}
asked=${ASKED:-8}
drawn=${DRAWN:-20000}
make="python3 $here/generate.py"
for stream in $streams; do
    case $stream in
        exhaustive) chunks exhaustive "$("$MANY" exhaustive --take "${EXHAUSTIVE:-10000000}" --count)" "$asked" "$MANY" exhaustive ;;
        grammar) chunks grammar "${GRAMMAR:-3700000}" "$asked" "$MANY" grammar "${GRAMMAR:-3700000}" "$seed" ;;
        long) chunks long "${LONG:-300000}" "$asked" "$MANY" long "${LONG:-300000}" "$seed" ;;
        damaged)
            find "$real" -type f -size -3000k | LC_ALL=C sort >"$work/names"
            # shellcheck disable=SC2046
            [ ! -s "$work/names" ] ||
                chunks damaged "${DAMAGED:-1300000}" "$asked" "$MANY" damaged "${DAMAGED:-1300000}" "$seed" $(cat "$work/names") ;;
        found) chunks found "$("$MANY" run "$work/found.run" --count)" 1 "$MANY" run "$work/found.run" ;;
        chosen | unitrules) chunks "$stream" "$($make "$stream" --count)" 1 "$make" "$stream" ;;
        parameters | lookups | units) chunks "$stream" "$drawn" 1 "$make" "$stream" "$drawn" "$seed" ;;
        real) ;;
        *) say "no stream $stream"; exit 2 ;;
    esac
done >"$work/chunks"
xargs -P "$jobs" -L 1 "$here/chunk.sh" <"$work/chunks"

# Real files are read by name: the two that are larger than the program's rooms are left out there.
case " $streams " in *" real "*)
    STREAMS=real PART=all REAL=$real "$here/compare.sh" "$ANSWERS" "$work/compare" >"$work/real.figures" || true
    cat "$work/real.figures" ;;
esac
"$here/figures.py" "$TALLY" "$work/real.figures" "$DIFFERENCES"
