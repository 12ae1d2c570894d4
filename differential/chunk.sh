#!/bin/sh
# Answers a part of a stream by both sides and compares the answers as they are printed; called by all.sh.
#
#   chunk.sh NAME PART SKIP TAKE COMMAND..
#
# COMMAND makes the stream and takes --skip and --take. NAME.PART.SKIP in the folder TALLY gets the counts (`many compare`, `oracle
# --listed`). Where the answers differ, DIFFERENCES gets the first differing case, by differ.py.
# Environment: ORACLE, MANY, TALLY, DIFFERENCES, and the programs that answer: ANSWERS for the part `all`, ASKS for `asks`.
set -eu
here=$(CDPATH='' cd -- "$(dirname -- "$0")" && pwd)
name=$1 part=$2 skip=$3 take=$4
shift 4
case $part in asks) program=$ASKS ;; *) program=$ANSWERS ;; esac
work=$(mktemp -d)
trap 'rm -rf "$work"' EXIT
# The program chooses its rooms by the stack limit.
# shellcheck disable=SC3045
ulimit -s 1000000 2>/dev/null || true
"$@" --skip "$skip" --take "$take" >"$work/run"
mkfifo "$work/expected" "$work/actual"
"$ORACLE" --part "$part" --listed "$work/listed" <"$work/run" >"$work/expected" &
"$program" <"$work/run" >"$work/actual" &
status=0
"$MANY" compare "$work/expected" "$work/actual" >"$work/tally" || status=$?
wait
if [ "$status" -ne 0 ]; then
    rm -f "$work/expected" "$work/actual"
    "$ORACLE" --part "$part" <"$work/run" >"$work/expected"
    "$program" <"$work/run" >"$work/actual" || true
    found=$(python3 "$here/differ.py" "$work/run" "$work/expected" "$work/actual" "$name $part" "$skip" 1 2>>"$DIFFERENCES")
    # shellcheck disable=SC2086
    set -- $found
    grep -v '^differ ' "$work/tally" >"$work/counts" || true
    { cat "$work/counts"; echo "differences $1"; echo "out $2"; } >"$work/tally"
fi
cat "$work/tally" "$work/listed" >"$TALLY/$name.$part.$skip"
