#!/bin/sh
# Times the proved scan beside the Rust original's and prints the tables in markdown.
#
#   run.sh [WORK_FOLDER]
#
# WORK_FOLDER is kept, so that a second run proves only what changed (default: a folder under the system's temp folder).
# Environment:
#   REAL      folder of real files (default: WORK_FOLDER/real, fetched by ../shared/real.sh if empty)
#   ORIGINAL  folder of the original's scan.rs, as for ../differential/build.sh
#   OBJECT    the proved library, a static library or its object file, where it is built already (default: proved and built by object.sh)
#   COUNTED   a small file whose instructions are counted, where valgrind is there (default: the smallest real file
#             above 50 KB; `none` leaves the count out)
set -eu
here=$(CDPATH='' cd -- "$(dirname -- "$0")" && pwd)
shared=$here/../../shared
work=${1:-${TMPDIR:-$(dirname "$(mktemp -u)")}/hooflift-bench}
mkdir -p "$work/bench/.cargo"
work=$(CDPATH='' cd -- "$work" && pwd)
say() { echo "run.sh: $*" >&2; }

real=${REAL:-$work/real}
mkdir -p "$real"
if [ -z "$(ls -A "$real")" ]; then
    say "fetching real files"
    sh "$shared/real.sh" "$real" >&2
fi
[ -n "$(ls -A "$real")" ] || { say "no real files in $real"; exit 1; }

# The proved library.
object=$(sh "$here/object.sh" "$work")

# The original, and the program with both.
say "building the original"
"$here/../differential/build.sh" "$work/original" >/dev/null
cp "$work/original/.cargo/config.toml" "$work/bench/.cargo/config.toml"
cat >"$work/bench/Cargo.toml" <<TOML
[workspace]

[package]
name = "bench"
version = "0.0.0"
edition = "2024"

[[bin]]
name = "bench"
path = "$here/src/main.rs"

[dependencies]
cad-step = { path = "../original/cad-step" }

[profile.release]
codegen-units = 1
TOML
# One program for each place of the proved code within a line of 64 bytes: its loops are aligned to 16 bytes only, so
# where a host's linker happens to put them changes its time.
build() { # build SKIP
    printf '.section .text.before,"axR",@progbits\n.p2align 6\n.skip %d, 0x90\n' $((64 + $1)) >"$work/before.s"
    ${CC:-cc} -c "$work/before.s" -o "$work/before.o"
    # Cargo reads its configuration from the folder it runs in. It does not look at the object files: the old program goes.
    rm -f "$work/target/release/bench" "$work/target/release/deps/bench-"*
    (cd "$work/bench" && CARGO_TARGET_DIR="$work/target" cargo rustc --offline --release --quiet -- \
        -C link-arg="$work/before.o" -C link-arg="$object" >&2)
    cp "$work/target/release/bench" "$work/bench-$1"
}
for skip in 0 16 32 48; do build "$skip"; done
program=$work/bench-0

echo "$(date -u +%Y-%m-%d), $(uname -m), $(sed -n 's/^model name[^:]*: //p' /proc/cpuinfo | head -n 1), $(rustc --version | cut -d' ' -f1-2)"
echo
"$program" "$real"/*
printf '\n## Placement of the proved code\n\n'
for skip in 0 16 32 48; do
    edit="1s/^| /| place, /; 3,\$ s/^| /| $skip, /"
    [ "$skip" = 0 ] || edit="1,2d; s/^| /| $skip, /"
    "$work/bench-$skip" real "$real"/* | sed "$edit"
done

counted=${COUNTED:-$(find "$real" -type f -size +50k -printf '%s %p\n' | sort -n | sed -n '1s/^[0-9]* //p')}
if [ "$counted" = none ] || ! command -v valgrind >/dev/null; then exit 0; fi
# What a side's run has more than a run of neither.
instructions() { # instructions SIDE
    valgrind --tool=callgrind --callgrind-out-file=/dev/null "$program" once "$1" "$counted" 2>&1 |
        sed -n 's/.*Collected : \([0-9]*\).*/\1/p'
}
none=$(instructions none)
size=$(wc -c <"$counted")
printf '\n## Instructions, %s, %s bytes\n\n| side | instructions | a byte |\n|---|---|---|\n' "$(basename "$counted")" "$size"
for side in rust proved; do
    total=$(instructions "$side")
    awk -v s="$side" -v t="$((total - none))" -v n="$size" 'BEGIN { printf "| %s | %d | %.2f |\n", s, t, t / n }'
done
printf '\nOf these, by function that was not inlined:\n\n```\n'
for side in rust proved; do
    sh "$shared/perf/counts.sh" '(:|\?)(cad_step::|memchr::|hooflift_scan|[a-z]+::[a-z_]+)' "$program" once "$side" "$counted" |
        grep -E 'cad_step::|memchr::|hooflift_scan|(error|lex|record|statement|scan|export)::' | grep -v 'std::\|core::\|alloc::' |
        sed -E "s/^ *([0-9,]+) \([^)]*\) +[^:]*:/$side \1 /"
done
printf '```\n'
