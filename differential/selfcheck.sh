#!/bin/sh
# Checks the oracle itself: the same answers twice, no `driver` line, the points written by hand, check.py's other eyes, and for decimals
# nearest.py's whole numbers.
#
#   selfcheck.sh [WORK_FOLDER]
#
# Environment: STREAMS (default: chosen exhaustive generated parameters lookups units decimals), COUNT, PARAMETERS, LOOKUPS, UNITS,
# SEED and ORACLE as for compare.sh; DECIMALS (default 50000: so many of each stream that decimals.py draws); CHUNK (default 5000;
# `chosen` and `exhaustive` are one chunk); LOOKED (default 2: so many chunks of a stream are looked at by check.py, which is slow).
# The last line is `wrong N`; the exit status is 0 where N is 0.
set -eu
here=$(CDPATH='' cd -- "$(dirname -- "$0")" && pwd)
export PYTHONDONTWRITEBYTECODE=1
if [ $# -ge 1 ]; then
    mkdir -p "$1"
    work=$(CDPATH='' cd -- "$1" && pwd)
else
    work=$(mktemp -d)
    trap 'rm -rf "$work"' EXIT
    trap 'exit 130' INT TERM
fi
oracle=${ORACLE:-}
[ -n "$oracle" ] || oracle=$("$here/build.sh" "$work/oracle")
seed=${SEED:-1}
chunk=${CHUNK:-5000}
looked=${LOOKED:-2}

wrong=0
bad() {
    echo "$*"
    wrong=$((wrong + 1))
}
python3 "$here/points.py" "$oracle" --part all || bad "points: not all as written"

# Decimals by Rust, under decimals.rs, and by nearest.py; and the ties must lie where decimals.py says.
decimals() {
    rustc --edition 2021 -C opt-level=3 -o "$work/decimals" "$here/decimals.rs"
    python3 "$here/decimals.py" tried || bad "decimals: other ties, or nearer ones, than decimals.py computes"
    for kind in chosen exhaustive class ties edges outside malformed wide halves hard doubles borders; do
        case $kind in
            chosen | exhaustive) python3 "$here/decimals.py" "$kind" ;;
            *) python3 "$here/decimals.py" "$kind" "${DECIMALS:-50000}" "$seed" ;;
        esac >"$work/stream"
        "$work/decimals" <"$work/stream" >"$work/one"
        python3 "$here/nearest.py" <"$work/stream" >"$work/two"
        cmp "$work/one" "$work/two" || bad "decimals, $kind: nearest.py has other answers"
        line="decimals, $kind: $(wc -l <"$work/two")"
        case $kind in
            chosen | ties)
                python3 "$here/decimals.py" tally <"$work/stream" >"$work/look" || { cat "$work/look"; bad "decimals, $kind: not all ties are there"; }
                line="$line | $(tail -n 1 "$work/look")"
                ;;
        esac
        echo "$line"
    done
    rm -f "$work/decimals"
}

for stream in ${STREAMS:-chosen exhaustive generated parameters lookups units decimals}; do
    part=all arguments=
    case $stream in
        decimals) decimals; continue ;;
        chosen | exhaustive) total=$(python3 "$here/generate.py" "$stream" --count) step=$total ;;
        generated) total=${COUNT:-200000} ;;
        parameters) total=${PARAMETERS:-300000} ;;
        lookups) total=${LOOKUPS:-200000} ;;
        # Walks over so many parts are long, and the other streams have them.
        units) total=${UNITS:-300000} part=lookup,texts,units ;;
        *) echo "selfcheck.sh: no stream $stream" >&2; exit 2 ;;
    esac
    case $stream in
        chosen | exhaustive) ;;
        *) step=$chunk arguments="$total $seed" ;;
    esac
    skip=0 chunks=0
    : >"$work/tally"
    while [ "$skip" -lt "$total" ]; do
        take=$((total - skip))
        [ "$take" -le "$step" ] || take=$step
        # shellcheck disable=SC2086
        python3 "$here/generate.py" "$stream" $arguments --skip "$skip" --take "$take" --out "$work/stream"
        "$oracle" --part "$part" <"$work/stream" >"$work/one"
        "$oracle" --part "$part" <"$work/stream" >"$work/two"
        cmp -s "$work/one" "$work/two" || bad "$stream: two runs from case $skip on differ"
        [ "$(grep -c '^case ' "$work/one")" -eq "$take" ] || bad "$stream: not all cases from $skip on are answered"
        if grep -a -m 3 '^driver ' "$work/one"; then
            bad "$stream: the driver and the original part (from case $skip on)"
        fi
        if [ "$chunks" -lt "$looked" ]; then
            python3 "$here/check.py" "$work/stream" "$work/one" >"$work/look" || { cat "$work/look"; bad "$stream: check.py (from case $skip on)"; }
        fi
        awk '/^scan /{ n["accepted"]++ } /^refused /{ n["refused"]++ } /panic$/{ n["panic"]++ }
            $2 ~ /^@/ { split($3, a, "/"); n["readers " ($3 ~ /^[0-9]+\/0@/ ? a[1] : "answer")]++ }
            /^units /{ split($2, a, "/"); n["units " ($2 ~ "/" ? a[1] : $NF == 1 ? "resolved" : "unresolved")]++ }
            /^part /{ split($3, a, "/"); n["part " ($3 ~ "/" ? a[1] : "found")]++ }
            END { for (k in n) print n[k], k }' "$work/one" >>"$work/tally"
        skip=$((skip + take)) chunks=$((chunks + 1))
    done
    LC_ALL=C sort -k2 "$work/tally" | awk -v line="$stream: cases $total |" '
        { k = $2 ($3 == "" ? "" : " " $3); if (!(k in n)) order[++m] = k; n[k] += $1 }
        END { for (i = 1; i <= m; i++) line = line " " order[i] ": " n[order[i]] (i < m ? "," : ""); print line }'
done
rm -f "$work/stream" "$work/one" "$work/two" "$work/tally" "$work/look"
echo "wrong $wrong"
[ "$wrong" -eq 0 ]
