#!/bin/sh
# Compares the program `compare_strings` with the Rust original's decode_string, byte for byte, on all streams; where a string names one of the
# pages B to I, which the original forgets, with pages.py.
#
#   texts.sh TEXTS_PROGRAM [WORK_FOLDER]
#   texts.sh replay FOLDER       writes the replay's list as FOLDER/stdin, and the answers to it as FOLDER/stdout
#
# Environment: STREAMS (default: chosen malformed rooms groups grouprooms exhaustive generated pages paged), COUNT (strings of `generated`
# and of `paged`, 500000), SEED (1), ORACLE (the driver `texts`, where it is built already).
# The last line is `differences N`; the exit status is 0 where N is 0.
set -eu
usage() { sed -n '2,10s/^# \{0,1\}//p' "$0" >&2; exit 2; }
[ $# -ge 1 ] || usage
here=$(CDPATH='' cd -- "$(dirname -- "$0")" && pwd)
. "$here/lines.sh"
export PYTHONDONTWRITEBYTECODE=1
make="python3 $here/texts.py"
if [ "$1" != replay ] && [ $# -ge 2 ]; then
    mkdir -p "$2"
    work=$(CDPATH='' cd -- "$2" && pwd)
else
    work=$(mktemp -d)
    trap 'rm -rf "$work"' EXIT
    trap 'exit 130' INT TERM
fi
oracle=${ORACLE:-}
[ -n "$oracle" ] || oracle=$(dirname "$("$here/build.sh")")/texts

# How often each answer stands in a file.
tally() { # tally FILE
    awk '{ n[$1 == "plain" || $1 == "text" || $0 == "16" ? $1 : "words"]++ }
        END { printf "plain %d, text %d, 16 %d, in words %d", n["plain"], n["text"], n["16"], n["words"] }' "$1"
}

# Runs the driver, whose last words go to $work/outside.
driver() { # driver [rooms]
    "$oracle" "$@" 2>"$work/outside" || { cat "$work/outside" >&2; exit 2; }
}

# The answers to the lines in a file: the driver's, but to those that it answers by `paged` those of pages.py. Where there are any, pages.py
# reads all strings of the file, and must say the same as the driver of the others.
answer() { # answer NAME LINES ANSWERS
    driver <"$2" >"$3"
    case $(cat "$work/outside") in *" paged 0") return 0 ;; esac
    mv "$3" "$work/driver"
    # a line that is no string is answered in words, and pages.py takes none
    paste "$work/driver" "$2" | LC_ALL=C awk -F '\t' '$1 !~ /^line / { print $2 }' >"$work/strings"
    python3 "$here/pages.py" decode <"$work/strings" >"$work/pages" || { echo "texts.sh: $1: pages.py has no answers" >&2; exit 2; }
    # as strings: awk would take two of these lines for numbers and round them
    LC_ALL=C awk -v pages="$work/pages" -v name="$1" '
        /^line / { print; next }
        {
            if ((getline page <pages) != 1) page = "nothing"
            if (page == "nothing" || $0 != "paged" && $0 "" != page "") {
                printf "texts.sh: %s: at line %d pages.py says %s, and the driver %s\n", name, NR, substr(page, 1, 200), substr($0, 1, 200) | "cat >&2"
                exit 2
            }
            print page
        }' "$work/driver" >"$3" || exit 2
}

if [ "$1" = replay ]; then
    [ $# -eq 2 ] || usage
    mkdir -p "$2"
    {
        $make malformed | awk 'length < 1000 || length == 65536'
        $make chosen
        $make chosen | awk 'length <= 32' | driver rooms
        printf 5C5C # the last line lacks its LF
    } >"$2/stdin"
    answer replay "$2/stdin" "$2/stdout"
    echo "replay: $(wc -l <"$2/stdout") strings, $(wc -c <"$2/stdin") bytes: $(tally "$2/stdout"), $(cat "$work/outside")"
    exit 0
fi

program=$(CDPATH='' cd -- "$(dirname -- "$1")" && pwd)/$(basename -- "$1")
[ -x "$program" ] || { echo "texts.sh: $1 is no executable" >&2; exit 2; }
strings=0
differences=0
for stream in ${STREAMS:-chosen malformed rooms groups grouprooms exhaustive generated pages paged}; do
    case $stream in
    rooms) $make chosen | driver rooms ;;
    grouprooms) $make groups | driver rooms ;;
    generated | paged) $make "$stream" "${COUNT:-500000}" "${SEED:-1}" ;;
    *) $make "$stream" ;;
    esac >"$work/stream"
    answer "$stream" "$work/stream" "$work/expected"
    compare "$stream"
    echo "$stream: strings $made differences $differing | $(tally "$work/expected"), $(cat "$work/outside")"
    strings=$((strings + made))
    differences=$((differences + differing))
done
echo "strings $strings"
echo "differences $differences"
[ "$differences" -eq 0 ]
