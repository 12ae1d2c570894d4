#!/bin/sh
# Opens large and hostile files with the proved library and with the Rust original, one process each, and prints a table in markdown:
# the answer, the processor time, and the memory that was taken beyond what making the file took.
#
#   hostile.sh [WORK_FOLDER]
#
# Environment: OBJECT, as for run.sh; NAMES, some of the files; LIMIT, the memory in KiB that a side gets (default 12 GiB);
# SECONDS_EACH, the time (default 900).
set -eu
here=$(CDPATH='' cd -- "$(dirname -- "$0")" && pwd)
work=${1:-${TMPDIR:-$(dirname "$(mktemp -u)")}/hooflift-bench}
mkdir -p "$work/hostile/.cargo"
work=$(CDPATH='' cd -- "$work" && pwd)
object=$(sh "$here/object.sh" "$work")

"$here/../differential/build.sh" "$work/original" >/dev/null
cp "$work/original/.cargo/config.toml" "$work/hostile/.cargo/config.toml"
cat >"$work/hostile/Cargo.toml" <<TOML
[workspace]

[package]
name = "hostile"
version = "0.0.0"
edition = "2024"

[[bin]]
name = "hostile"
path = "$here/hostile.rs"

[dependencies]
cad-step = { path = "../original/cad-step" }

[profile.release]
codegen-units = 1
TOML
# Cargo does not look at the object file: the old program goes.
rm -f "$work/target/release/hostile" "$work/target/release/deps/hostile-"*
(cd "$work/hostile" && CARGO_TARGET_DIR="$work/target" cargo rustc --offline --release --quiet -- -C link-arg="$object" >&2)
program=$work/target/release/hostile

one() { # one NAME SIDE: bytes, answer, seconds, megabytes
    status=0
    said=$( (ulimit -c 0 && ulimit -v "${LIMIT:-12582912}" && RUST_BACKTRACE=0 exec timeout "${SECONDS_EACH:-900}" "$program" "$1" "$2") 2>&1) || status=$?
    if [ "$status" -ne 0 ]; then
        said=$(printf -- '-\t%s (status %s)\t-\t-' "$(printf %s "$said" | tr '\n\t' '  ')" "$status")
    fi
    printf '%s' "$said"
}

echo "$(date -u +%Y-%m-%d), $(uname -m), $(lscpu | sed -n 's/^Model name: *//p' | head -n 1), $(rustc --version | cut -d' ' -f1-2), load $(cut -d' ' -f1 /proc/loadavg)"
echo
echo "| File | Bytes | Proved | seconds | MB | Rust | seconds | MB | time, proved / Rust |"
echo "|---|---|---|---|---|---|---|---|---|"
"$program" names | while IFS='	' read -r name what; do
    case " ${NAMES:-$name} " in *" $name "*) ;; *) continue ;; esac
    p=$(one "$name" proved)
    r=$(one "$name" rust)
    printf '%s\t%s\n' "$p" "$r" | awk -F'\t' -v what="$what" '{
        ratio = ($3 ~ /^[0-9]/ && $7 ~ /^[0-9]/ && $7 > 0) ? sprintf("%.2f", $3 / $7) : "-"
        printf "| %s | %s | %s | %s | %s | %s | %s | %s | %s |\n", what, $1, $2, $3, $4, $6, $7, $8, ratio }'
done
