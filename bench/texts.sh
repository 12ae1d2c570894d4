#!/bin/sh
# Times the proved decoding of strings beside the Rust original's decode_string and prints the tables in markdown.
#
#   texts.sh [WORK_FOLDER]
#
# WORK_FOLDER is kept, so that a second run proves only what changed (default: a folder under the system's temp folder).
# Environment: ORIGINAL, OBJECT, as for run.sh.
set -eu
here=$(CDPATH='' cd -- "$(dirname -- "$0")" && pwd)
work=${1:-${TMPDIR:-$(dirname "$(mktemp -u)")}/hooflift-bench}
mkdir -p "$work/texts/.cargo"
work=$(CDPATH='' cd -- "$work" && pwd)
object=$(sh "$here/object.sh" "$work")

"$here/../differential/build.sh" "$work/original" >/dev/null
cp "$work/original/.cargo/config.toml" "$work/texts/.cargo/config.toml"
cat >"$work/texts/Cargo.toml" <<TOML
[workspace]

[package]
name = "texts"
version = "0.0.0"
edition = "2024"

[[bin]]
name = "texts"
path = "$here/texts.rs"

[dependencies]
cad-step = { path = "../original/cad-step" }

[profile.release]
codegen-units = 1
TOML
# Cargo does not look at the object file: the old program goes.
rm -f "$work/target/release/texts" "$work/target/release/deps/texts-"*
(cd "$work/texts" && CARGO_TARGET_DIR="$work/target" cargo rustc --offline --release --quiet -- -C link-arg="$object" >&2)
program=$work/target/release/texts

echo "$(date -u +%Y-%m-%d), $(uname -m), $(sed -n 's/^model name[^:]*: //p' /proc/cpuinfo | head -n 1), $(rustc --version | cut -d' ' -f1-2)"
echo
"$program"

command -v valgrind >/dev/null || exit 0
# What a side's run has more than a run of neither, for each string.
instructions() { # instructions SIDE LIST
    valgrind --tool=callgrind --callgrind-out-file=/dev/null "$program" once "$1" "$2" 2>&1 |
        sed -n 's/.*Collected : \([0-9]*\).*/\1/p'
}
more() { # more SIDE LIST
    awk -v a="$(instructions "$1" "$2")" -v b="$(instructions none "$2")" -v n="$("$program" once none "$2")" \
        'BEGIN { printf "%.1f", (a - b) / n }'
}
printf '\n| side | instructions for each plain string of 6 to 20 bytes | with one `\\X2\\` directive |\n|---|---|---|\n'
for side in rust proved; do
    echo "| $side | $(more "$side" plain) | $(more "$side" escaped) |"
done
