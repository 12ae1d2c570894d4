#!/bin/sh
# Searches for cases by coverage: libFuzzer over a program of this repository, built for this machine from the module that is proved.
#
#   fuzz.sh PROGRAM FOUND [WORK_FOLDER]
#
# PROGRAM is `answers` or `asks`. FOUND gets a run of cases: those of found.run and those that were found, without those that cover nothing of
# their own. Nothing is compared here: all.sh answers the run by both sides.
# The last line is `found N`. WORK_FOLDER is kept, so that a second run builds nothing anew.
# The module is made by ../shared/perf/native.sh, beside the repository, which calls the kit before the one that KIT names: with today's kit nothing
# is built here, and all.sh leaves the search out.
# Environment:
#   SECONDS_EACH  how long the search lasts (default 120)
#   MOST          the longest case (default 600 bytes)
#   SEED          libFuzzer's seed (default 1)
#   NATIVE        where the module is proved and kept (default: a folder in WORK_FOLDER)
#   CLANG         a clang with libFuzzer's library (default: clang-14, else clang; installed from Debian if need be)
set -eu
[ $# -ge 2 ] || { sed -n '2,18s/^# \{0,1\}//p' "$0" >&2; exit 2; }
here=$(CDPATH='' cd -- "$(dirname -- "$0")" && pwd)
program=$1
found=$2
work=${3:-${TMPDIR:-$(dirname "$(mktemp -u)")}/differential-fuzz}
mkdir -p "$work"
work=$(CDPATH='' cd -- "$work" && pwd)
say() { echo "fuzz.sh: $*" >&2; }
many=${MANY:-}
[ -n "$many" ] || many=$("$here/many.sh" "$work/many")

clang=${CLANG:-}
if [ -z "$clang" ]; then
    command -v clang-14 >/dev/null || command -v clang >/dev/null || "$here/install.sh" clang
    clang=$(command -v clang-14 || command -v clang)
fi
if ! echo 'int LLVMFuzzerTestOneInput(const char *b, unsigned long n) { return 0; }' |
    "$clang" -x c - -fsanitize=fuzzer -o "$work/probe" 2>/dev/null; then
    "$here/install.sh" libclang-rt-14-dev || "$here/install.sh" libclang-rt-dev
fi

# The module as it is handed to the kit's clang, proved in a copy; what is proved already here is not proved again.
if [ ! -x "$work/$program-fuzz" ]; then
    native=${NATIVE:-$work/native}
    mkdir -p "$native/repo"
    if [ -d "$here/../target" ] && [ ! -d "$native/repo/target" ]; then
        cp -a "$here/../target" "$native/repo/target"
    fi
    sh "$here/../../shared/perf/native.sh" -w "$native" "$here/.." "$program" >&2
    home=${RATTLE_HOME:-$(cd "$(dirname "$(readlink -f "$(command -v rt)")")/.." && pwd -P)}
    machine=$(uname -m)
    "$home/on/$machine/toolchain/bin/clang" --target="$machine-unknown-linux-gnu" --no-default-config -fPIC -O2 \
        -mllvm -trap-unreachable -mllvm -no-trap-after-noreturn \
        -fsanitize-coverage=inline-8bit-counters,pc-table,trace-cmp -x ir "$native/$program.ll" -c -o "$work/$program.o"
    objcopy --redefine-sym main=program_main --redefine-sym read=program_read --redefine-sym write=program_write \
        "$work/$program.o" "$work/$program-fuzz.o"
    "$clang" -O2 -fsanitize=fuzzer -o "$work/$program-fuzz" "$here/fuzz.c" "$work/$program-fuzz.o" >&2
fi

# The search begins with what was found before, and with some cases of each stream.
rm -rf "$work/seeds" "$work/corpus" "$work/merged"
mkdir -p "$work/seeds" "$work/corpus" "$work/merged"
mkdir -p "$work/seeds/found"
[ ! -s "$here/found.run" ] || "$many" split "$work/seeds/found" <"$here/found.run"
"$many" grammar 600 "${SEED:-1}" | "$many" split "$work/seeds/grammar"
for skip in 70000 3500000 3700000 4200000 4285000 4700000; do
    "$many" exhaustive --skip "$skip" --take 40 | "$many" split "$work/seeds/exhaustive$skip"
done
python3 "$here/generate.py" unitrules | "$many" split "$work/seeds/unitrules"
python3 "$here/generate.py" parameters 200 "${SEED:-1}" | "$many" split "$work/seeds/parameters"
python3 "$here/generate.py" lookups 60 "${SEED:-1}" | "$many" split "$work/seeds/lookups"
"$work/$program-fuzz" -seed="${SEED:-1}" -max_len="${MOST:-600}" -max_total_time="${SECONDS_EACH:-120}" -dict="$here/fuzz.dict" \
    -print_final_stats=1 "$work/corpus" "$work"/seeds/* >"$work/log" 2>&1 || { tail -n 20 "$work/log" >&2; exit 1; }
grep -E 'Done|stat::number_of_executed_units' "$work/log" >&2

# Without those that cover nothing of their own.
"$work/$program-fuzz" -merge=1 -max_len="${MOST:-600}" "$work/merged" "$work/corpus" "$work"/seeds/* >"$work/log" 2>&1 ||
    { tail -n 20 "$work/log" >&2; exit 1; }
grep 'MERGE-OUTER.*new files' "$work/log" | sed 's/.*MERGE-OUTER: //' >&2
find "$work/merged" -type f >"$work/names"
xargs "$many" files <"$work/names" >"$work/found"
"$many" union "$work/found" >"$found"
echo "found $("$many" run "$found" --count)"
