#!/bin/sh
# Compares a program with the Rust original, byte for byte, on all streams.
#
#   compare.sh ANSWERS_PROGRAM [WORK_FOLDER]
#
# ANSWERS_PROGRAM reads a run of cases on standard input, or files given as arguments, and prints the text form.
# Environment:
#   STREAMS    which streams run (default: chosen exhaustive generated damaged real; also parameters lookups units)
#   COUNT      cases of `generated` (default 200000)
#   DAMAGED    cases of `damaged` (default 20000)
#   PARAMETERS cases of `parameters` (default 300000)
#   LOOKUPS    cases of `lookups` (default 200000)
#   UNITS      cases of `units` (default 300000)
#   EXHAUSTIVE most cases of `exhaustive` (default: all)
#   SEED       seed of the streams that are drawn (default 1)
#   CHUNK      cases made and held on the disk at once (default 50000; of `damaged` and the last three streams a tenth)
#   PART       which lines are compared: rows, lookup, texts, units, walks, joined by commas, or all (default: rows; walks for
#              `parameters`, lookup,texts,walks for `lookups`, units for `units`)
#   READERS    the readers whose lines are compared, joined by commas (default: all)
#   SHOW       how many differing cases of a stream are shown (default 1)
#   REAL       folder of real files (default: WORK_FOLDER/real, fetched by ../shared/real.sh if empty)
#   ORACLE     executable of the oracle (default: built by build.sh in WORK_FOLDER/oracle)
# Lines of other parts and readers that the program prints are not looked at.
# The last line is `differences N`; the exit status is 0 where N is 0.
set -eu
[ $# -ge 1 ] || { sed -n '2,24s/^# \{0,1\}//p' "$0" >&2; exit 2; }
here=$(CDPATH='' cd -- "$(dirname -- "$0")" && pwd)
answers=$(CDPATH='' cd -- "$(dirname -- "$1")" && pwd)/$(basename -- "$1")
[ -x "$answers" ] || { echo "compare.sh: $1 is no executable" >&2; exit 2; }
if [ $# -ge 2 ]; then
    mkdir -p "$2"
    work=$(CDPATH='' cd -- "$2" && pwd)
else
    work=$(mktemp -d)
    trap 'rm -rf "$work"' EXIT
    trap 'exit 130' INT TERM
fi
streams=${STREAMS:-chosen exhaustive generated damaged real}
count=${COUNT:-200000}
damaged=${DAMAGED:-20000}
seed=${SEED:-1}
chunk=${CHUNK:-50000}
parameters=${PARAMETERS:-300000}
lookups=${LOOKUPS:-200000}
units=${UNITS:-300000}
readers=${READERS:-ref,opt_ref,i64,f64,opt_f64,measure,enum,bool,str,ref_list,i64_list,f64_list,ref_grid,f64_grid,skip}
show=${SHOW:-1}
part=${PART:-rows}
real=${REAL:-$work/real}
make="python3 $here/generate.py"

oracle=${ORACLE:-}
[ -n "$oracle" ] || oracle=$("$here/build.sh" "$work/oracle")

# The program chooses its rooms by the stack limit.
# shellcheck disable=SC3045
ulimit -s 1000000 2>/dev/null || echo "compare.sh: the stack stays at $(ulimit -s) KiB" >&2

differences=0
begin() { # begin NAME
    name=$1
    cases=0 differing=0 left_out=0 shown=0
    : >"$work/tally"
    : >"$work/kinds"
}

# The oracle's answers, and the program's without the lines that are not looked at.
ask() { # ask [FILE]: one file, or the run in stream
    if [ $# -eq 1 ]; then
        "$oracle" --part "$part" --readers "$readers" "$1" >"$work/expected"
        status=0
        "$answers" "$1" >"$work/printed" || status=$?
    else
        "$oracle" --part "$part" --readers "$readers" <"$work/stream" >"$work/expected"
        status=0
        "$answers" <"$work/stream" >"$work/printed" || status=$?
    fi
    if [ "$part" = all ] && [ -z "${READERS:-}" ]; then
        mv "$work/printed" "$work/actual"
        return
    fi
    awk -v parts="$part" -v readers="$readers" '
        function named(list, k, n, words) { n = split(list, words, ","); for (k = 1; k <= n; k++) on[words[k]] = 1 }
        function lines(part, list, k, n, words) {
            n = split(list, words, ",")
            for (k = 1; k <= n; k++) if (!(part in on) && !("all" in on)) drop[words[k]] = 1
        }
        BEGIN {
            named(parts)
            every = "ref,opt_ref,i64,f64,opt_f64,measure,enum,bool,str,ref_list,i64_list,f64_list,ref_grid,f64_grid"
            lines("lookup", "l,f"); lines("texts", "name,system"); lines("units", "units")
            lines("walks", "walk,part,skip," every)
            named(readers)
            n = split(every, one, ",")
            for (k = 1; k <= n; k++) if (!(one[k] in on)) drop[one[k]] = 1
        }
        !($1 in drop)' "$work/printed" >"$work/actual"
    rm -f "$work/printed"
}

# The answers of one run, or of one file, stand in expected and actual; STATUS is the program's exit status.
judge() { # judge STATUS FIRST STREAM [--file]
    made=$(grep -c '^case ' "$work/expected" || true)
    cases=$((cases + made))
    awk '/^refused /{ split($2, a, "@"); n["refused " a[1]]++; next } /^scan /{ n["accepted"]++; next }
        /^panic$/{ n["panic"]++ } / panic$/{ n["panic " $1]++ } /^driver /{ n["driver"]++ }
        /^units /{ split($2, a, "@"); n[$2 ~ "/" ? "units " a[1] : "units " ($NF == 1 ? "resolved" : "unresolved")]++ } END { for (k in n) print n[k], k }' "$work/expected" >>"$work/tally"
    [ "$1" -eq 0 ] || echo "$name: the program ended with status $1 (run from case $2)" >&2
    if cmp -s "$work/expected" "$work/actual"; then
        return 0
    fi
    # shellcheck disable=SC2086
    python3 "$here/differ.py" ${4:-} "$3" "$work/expected" "$work/actual" "$name" "$2" "$((show - shown))" >"$work/found" 2>"$work/first"
    read -r found out kinds <"$work/found"
    cat "$work/first"
    shown=$((shown + found))
    [ "$shown" -le "$show" ] || shown=$show
    for kind in $kinds; do
        echo "${kind##*:} ${kind%:*}" >>"$work/kinds"
    done
    differing=$((differing + found))
    left_out=$((left_out + out))
}

finish() {
    LC_ALL=C sort -k2 "$work/tally" | awk -v head="$name: cases $cases differences $differing left out $left_out" '
        { k = $2 ($3 == "" ? "" : " " $3); if (!(k in n)) order[++m] = k; n[k] += $1 }
        END { line = head " |"; for (i = 1; i <= m; i++) line = line " " order[i] ": " n[order[i]] ","
              sub(/[,|]$/, "", line); print line }'
    [ "$differing" -eq 0 ] || awk -v name="$name" '{ n[$2] += $1 } END { for (k in n) print name ": " n[k] " differ first at a line " k }' "$work/kinds"
    differences=$((differences + differing))
}

run() { # run NAME CASES CHUNK ARGUMENTS.. of generate.py
    begin "$1"
    total=$2 step=$3 skip=0
    shift 3
    while [ "$skip" -lt "$total" ]; do
        take=$((total - skip))
        [ "$take" -le "$step" ] || take=$step
        $make "$@" --skip "$skip" --take "$take" --out "$work/stream"
        ask
        [ "$(grep -c '^case ' "$work/expected")" -eq "$take" ] || { echo "$name: the oracle stopped" >&2; exit 2; }
        judge "$status" "$skip" "$work/stream"
        skip=$((skip + take))
    done
    finish
}

fetch() {
    if [ -z "$(ls "$real" 2>/dev/null)" ]; then
        mkdir -p "$real"
        if [ -x "$here/../../shared/real.sh" ]; then
            "$here/../../shared/real.sh" "$real" >&2 || true
        fi
    fi
    [ -n "$(ls "$real" 2>/dev/null)" ]
}

for stream in $streams; do
    case $stream in
        chosen) run chosen "$($make chosen --count)" "$chunk" chosen ;;
        exhaustive)
            total=$($make exhaustive --count)
            [ "${EXHAUSTIVE:-$total}" -ge "$total" ] || total=$EXHAUSTIVE
            run exhaustive "$total" "$chunk" exhaustive ;;
        generated) run generated "$count" "$chunk" generated "$count" "$seed" ;;
        parameters | lookups | units)
            case $stream in
                parameters) total=$parameters part=${PART:-walks} ;;
                lookups) total=$lookups part=${PART:-lookup,texts,walks} ;;
                units) total=$units part=${PART:-units} ;;
            esac
            run "$stream" "$total" "$(((chunk + 9) / 10))" "$stream" "$total" "$seed"
            part=${PART:-rows} ;;
        damaged)
            if fetch; then
                run damaged "$damaged" "$(((chunk + 9) / 10))" damaged "$damaged" "$seed" "$real"/*
            else
                echo "damaged: skipped, no real files"
            fi ;;
        real)
            if fetch; then
                begin real
                for file in "$real"/*; do
                    name="real $(basename "$file")"
                    ask "$file"
                    judge "$status" 0 "$file" --file
                done
                name=real
                finish
            else
                echo "real: skipped, no real files"
            fi ;;
        *) echo "compare.sh: no stream $stream" >&2; exit 2 ;;
    esac
done
rm -f "$work/stream" "$work/expected" "$work/actual" "$work/tally" "$work/found" "$work/first" "$work/kinds"
echo "differences $differences"
[ "$differences" -eq 0 ]
