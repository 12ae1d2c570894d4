#!/bin/sh
# Proves the crates that hosts call and joins their static libraries into one, target/staticlib/libhooflift.a, whose path it prints.
#
#   bindings/library.sh
#
# A static library has the functions of its own crate and no others, and all else in it is local; so the crates stay small, and one
# archive has the objects of them all. It is x86-64 code, whatever this machine is.
set -eu
root=$(CDPATH='' cd -- "$(dirname -- "$0")/.." && pwd -P)
crates=$(sed -n 's/^\(export[a-z_]*\) staticlib:.*/\1/p' "$root/crates.txt")
rt=$(command -v rt) || { echo "library.sh: no rt on the path: the Rattle kit is not installed" >&2; exit 2; }
kit=$(cd "$(dirname "$(readlink -f "$rt")")/.." && pwd -P)
ar=$kit/toolchain/bin/llvm-ar
out=$root/target/staticlib
library=$out/libhooflift.a
mkdir -p "$out"
cd "$root"
set --
for crate in $crates; do
    archive=crates/$crate/out/lib$crate.a
    # shellcheck disable=SC2046
    if [ ! -f "$archive" ] ||
        [ -n "$(find $(tools/built_on.sh "$crate") crates.txt -name out -prune -o -type f -newer "$archive" -print | head -n 1)" ]; then
        echo "library.sh: proving $crate" >&2
        (cd "crates/$crate" && "$rt" lib) >"$out/$crate.log" 2>&1 || { tail -n 20 "$out/$crate.log" >&2; exit 1; }
        touch "$archive"
    fi
    set -- "$@" "$root/$archive"
done
rm -f "$library"
work=$(mktemp -d)
trap 'rm -rf "$work"' EXIT
for archive; do (cd "$work" && "$ar" x "$archive"); done
"$ar" rcs "$library" "$work"/*.o
echo "$library"
