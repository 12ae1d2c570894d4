#!/bin/sh
# Times the proved argument reader beside the Rust original's and prints the tables in markdown.
#
#   walks.sh [WORK_FOLDER]
#
# WORK_FOLDER is kept, so that a second run proves only what changed (default: a folder under the system's temp folder).
# Environment: ORIGINAL, OBJECT, REAL, COUNTED, as for run.sh.
set -eu
here=$(CDPATH='' cd -- "$(dirname -- "$0")" && pwd)
work=${1:-${TMPDIR:-$(dirname "$(mktemp -u)")}/hooflift-bench}
mkdir -p "$work/walks/.cargo"
work=$(CDPATH='' cd -- "$work" && pwd)
object=$(sh "$here/object.sh" "$work")

"$here/../differential/build.sh" "$work/original" >/dev/null
cp "$work/original/.cargo/config.toml" "$work/walks/.cargo/config.toml"
cat >"$work/walks/Cargo.toml" <<TOML
[workspace]

[package]
name = "walks"
version = "0.0.0"
edition = "2024"

[[bin]]
name = "walks"
path = "$here/walks.rs"

[dependencies]
cad-step = { path = "../original/cad-step" }

[profile.release]
codegen-units = 1
TOML
# Cargo does not look at the object file: the old program goes.
rm -f "$work/target/release/walks" "$work/target/release/deps/walks-"*
(cd "$work/walks" && CARGO_TARGET_DIR="$work/target" cargo rustc --offline --release --quiet -- -C link-arg="$object" >&2)
program=$work/target/release/walks

real=${REAL:-$work/real}
mkdir -p "$real"
if [ -z "$(ls -A "$real")" ]; then
    sh "$here/../../shared/real.sh" "$real" >&2
fi

echo "$(date -u +%Y-%m-%d), $(uname -m), $(sed -n 's/^model name[^:]*: //p' /proc/cpuinfo | head -n 1), $(rustc --version | cut -d' ' -f1-2)"
echo
"$program" "$real"/*

command -v valgrind >/dev/null || exit 0
# What a side's run has more than a run of neither, on the smallest file that is timed.
counted=${COUNTED:-$(find "$real" -type f -size +98k -printf '%s %p\n' | sort -n | sed -n '1s/^[0-9]* //p')}
instructions() { # instructions SIDE WHAT
    valgrind --tool=callgrind --callgrind-out-file=/dev/null "$program" once "$1" "$2" "$counted" 2>&1 |
        sed -n 's/.*Collected : \([0-9]*\).*/\1/p'
}
none=$(instructions none none)
printf '\n| instructions, %s | Rust | proved | proved / Rust |\n|---|---|---|---|\n' "$(basename "$counted")"
for what in skip points; do
    awk -v w="$what" -v r="$(instructions rust "$what")" -v p="$(instructions proved "$what")" -v n="$none" \
        'BEGIN { printf "| %s | %d | %d | %.2f |\n", w, r - n, p - n, (p - n) / (r - n) }'
done
