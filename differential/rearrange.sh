#!/bin/sh
# Rearranges generated closed files within demand 3's premises: a reader must give the same answers before and after. Rearranges some
# against each premise, and shows the counterexamples of docs/AUDIT.md: there the answers must differ.
#
#   rearrange.sh ANSWERS_PROGRAM|oracle [WORK_FOLDER]
#
# ANSWERS_PROGRAM reads a run of cases on standard input and prints the text form; `oracle` is the Rust original under its driver.
# Environment: COUNT (files, 100000), SEED (1), CHUNK (files asked for at once, 500), SHOW (how many differing files are shown, 1), ORACLE
# (an executable already built).
# The last line is `differences N`. The exit status is 0 where N is 0, at least a third of the files each have repeated ids, several
# contexts and refused units, and what is rearranged against a premise is seen to differ.
set -eu
[ $# -ge 1 ] || { sed -n '2,11s/^# \{0,1\}//p' "$0" >&2; exit 2; }
here=$(CDPATH='' cd -- "$(dirname -- "$0")" && pwd)
export PYTHONDONTWRITEBYTECODE=1
if [ $# -ge 2 ]; then
    mkdir -p "$2"
    work=$(CDPATH='' cd -- "$2" && pwd)
else
    work=$(mktemp -d)
    trap 'rm -rf "$work"' EXIT
    trap 'exit 130' INT TERM
fi
if [ "$1" = oracle ]; then
    program=${ORACLE:-}
    [ -n "$program" ] || program=$("$here/build.sh" "$work/oracle")
    set -- "$program" --part rows,lookup,texts,units
else
    program=$(CDPATH='' cd -- "$(dirname -- "$1")" && pwd)/$(basename -- "$1")
    [ -x "$program" ] || { echo "rearrange.sh: $1 is no executable" >&2; exit 2; }
    set -- "$program"
fi

# The program chooses its rooms by the stack limit.
# shellcheck disable=SC3045
ulimit -s 1000000 2>/dev/null || echo "rearrange.sh: the stack stays at $(ulimit -s) KiB" >&2
python3 "$here/rearrange.py" run "${COUNT:-100000}" "${SEED:-1}" "${CHUNK:-500}" "${SHOW:-1}" "$work" "$@"
