#!/bin/sh
# Times the proved id index beside the Rust original's dense table, counts the lines of memory that a lookup touches, and prints the
# tables in markdown.
#
#   lookups.sh [WORK_FOLDER]
#
# WORK_FOLDER is kept, so that a second run proves only what changed (default: a folder under the system's temp folder).
# Environment: ORIGINAL, OBJECT, REAL, COUNTED, as for run.sh. The largest table of the original that is built takes 1.4 GB.
set -eu
here=$(CDPATH='' cd -- "$(dirname -- "$0")" && pwd)
work=${1:-${TMPDIR:-$(dirname "$(mktemp -u)")}/hooflift-bench}
mkdir -p "$work/lookups/.cargo"
work=$(CDPATH='' cd -- "$work" && pwd)
object=$(sh "$here/object.sh" "$work")

"$here/../differential/build.sh" "$work/original" >/dev/null
cp "$work/original/.cargo/config.toml" "$work/lookups/.cargo/config.toml"
cat >"$work/lookups/Cargo.toml" <<TOML
[workspace]

[package]
name = "lookups"
version = "0.0.0"
edition = "2024"

[[bin]]
name = "lookups"
path = "$here/lookups.rs"

[dependencies]
cad-step = { path = "../original/cad-step" }

[profile.release]
codegen-units = 1
TOML
# Cargo does not look at the object file: the old program goes.
rm -f "$work/target/release/lookups" "$work/target/release/deps/lookups-"*
(cd "$work/lookups" && CARGO_TARGET_DIR="$work/target" cargo rustc --offline --release --quiet -- -C link-arg="$object" >&2)
program=$work/target/release/lookups

real=${REAL:-$work/real}
mkdir -p "$real"
if [ -z "$(ls -A "$real")" ]; then
    sh "$here/../../shared/real.sh" "$real" >&2
fi

echo "$(date -u +%Y-%m-%d), $(uname -m), $(lscpu | sed -n 's/^Model name: *//p' | head -n 1), $(rustc --version | cut -d' ' -f1-2), load $(cut -d' ' -f1 /proc/loadavg)"
echo
"$program" "$real"/*

# The original's table for the file of 9 March takes 16 GiB: it is asked for under a limit, so that no machine has to give it.
limit=8388608
echo "The file of 9 March, proved: $("$program" march proved)"
status=0
said=$( (ulimit -c 0 && ulimit -v "$limit" && RUST_BACKTRACE=0 exec "$program" march rust) 2>&1) || status=$?
echo "The file of 9 March, Rust, with $((limit / 1048576)) GiB of memory: $said (status $status)"

command -v valgrind >/dev/null || exit 0
# What a side's run has more than a run of neither, on the smallest file that is timed.
counted=${COUNTED:-$(find "$real" -type f -size +98k -printf '%s %p\n' | sort -n | sed -n '1s/^[0-9]* //p')}
instructions() { # instructions SIDE
    valgrind --tool=callgrind --callgrind-out-file=/dev/null "$program" once "$1" "$counted" 2>&1 |
        sed -n 's/.*Collected : \([0-9]*\).*/\1/p'
}
lookups=$("$program" once none "$counted" | cut -d' ' -f1)
printf '\nInstructions a lookup, all %s references of %s: ' "$lookups" "$(basename "$counted")"
awk -v r="$(instructions rust)" -v p="$(instructions proved)" -v n="$(instructions none)" -v c="$lookups" \
    'BEGIN { printf "Rust %.1f, proved %.1f\n", (r - n) / c, (p - n) / c }'
