#!/bin/sh
# Builds the fast generator and comparer (many/) with rustc alone, and prints the executable's path.
#
#   many.sh [BUILD_FOLDER]
set -eu
here=$(CDPATH='' cd -- "$(dirname -- "$0")" && pwd)
build=${1:-${TMPDIR:-$(dirname "$(mktemp -u)")}/differential-many}
command -v rustc >/dev/null || "$here/install.sh" rustc
mkdir -p "$build"
rustc --edition 2021 -C opt-level=3 -o "$build/many" "$here/many/main.rs" >&2
echo "$build/many"
