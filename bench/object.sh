#!/bin/sh
# Proves the crate `export_c`, the C functions of the library `export`, and prints the path of its static library, which is x86-64 code.
#
#   object.sh WORK_FOLDER
#
# What is proved is kept in the crates' out/, so that a second run proves only what changed.
# Environment: OBJECT, such a library, or its object file, that is built already: it is printed.
set -eu
here=$(CDPATH='' cd -- "$(dirname -- "$0")" && pwd)
work=$1
object=${OBJECT:-}
if [ -z "$object" ]; then
    command -v rt >/dev/null || { echo "object.sh: no rt on the path: the Rattle kit is not installed" >&2; exit 1; }
    echo "object.sh: proving the library export (some minutes the first time)" >&2
    mkdir -p "$work"
    (cd "$here/../crates/export_c" && rt lib) >"$work/export_c.log" 2>&1 || { tail -n 20 "$work/export_c.log" >&2; exit 1; }
    object=$work/libexport_c.a
    cp "$here/../crates/export_c/out/libexport_c.a" "$object"
    ${CC:-cc} -O2 -o "$work/refuses" "$here/refuses.c" "$object"
    "$work/refuses"
fi
[ -f "$object" ] || { echo "object.sh: no library $object" >&2; exit 1; }
echo "$(CDPATH='' cd -- "$(dirname -- "$object")" && pwd)/$(basename -- "$object")"
