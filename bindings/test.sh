#!/bin/sh
# Builds the library and runs both bindings: the Rust crate's tests and doc examples, and the C example, whose output is compared with the
# program `list`'s, on files and on refusals.
#
#   bindings/test.sh [FILE..]      further files that the C example lists
#
# The library is x86-64 code, as is all that the kit builds: this needs such a machine, the Rattle kit, a C compiler (CC, or cc) and cargo,
# 1.70 or newer; nothing is downloaded.
set -eu
root=$(CDPATH='' cd -- "$(dirname -- "$0")/.." && pwd -P)
say() { echo "test.sh: $*" >&2; }
work=$(mktemp -d)
trap 'rm -rf "$work"' EXIT
machine=$(uname -m)
[ "$machine" = x86_64 ] || { say "the library is built for x86-64, and this machine is $machine, for which the Rattle kit has no emulator"; exit 2; }
compiler=${CC:-cc}
command -v "$compiler" >/dev/null || { say "no $compiler, which compiles the C example"; exit 2; }
library=$("$root/bindings/library.sh")

# Every function that the header declares, and no other, is in the library.
sed -n 's/^[a-z0-9_]* \(hooflift_[a-z0-9_]*\)(.*/\1/p' "$root/include/hooflift.h" | sort >"$work/declared"
nm "$library" | sed -n 's/.* T \(.*\)/\1/p' | sort >"$work/there"
diff "$work/declared" "$work/there" >&2 || { say "the header and the library differ"; exit 1; }

"$compiler" -O2 -std=c11 -D_POSIX_C_SOURCE=200809L -Wall -Wextra -Werror -pedantic -static -I"$root/include" \
    -o "$work/list" "$root/bindings/c/list.c" "$library"
cp "$root/crates/desk/data/one.stp" "$work/example.stp"
: >"$work/empty.stp"
printf 'ISO-10303-21;DATA;;' >"$work/reason.stp"
printf 'ISO-10303-21;/*/;' >"$work/comment.stp"
printf 'ISO-10303-21;DATA;#1=A(1);#1=A(2);#4294967295=B();ENDSEC;' >"$work/ids.stp"
printf 'ISO-10303-21;DATA;#1=A((1);#2=B(2));' >"$work/deep.stp"
printf 'ISO-10303-21;DATA;#4294967296=A();' >"$work/large.stp"
printf 'ISO-10303-21;DATA;#1=A\n\tB(1);' >"$work/lines.stp"
for file in "$work"/*.stp "$@"; do
    "$root/step" list "$file" >"$work/expected"
    "$work/list" "$file" >"$work/printed"
    cmp -s "$work/expected" "$work/printed" || { say "$file: the C example prints something else than list"; exit 1; }
done
"$root/step" list "$work"/*.stp >"$work/expected"
"$work/list" "$work"/*.stp >"$work/printed"
cmp "$work/expected" "$work/printed"
say "the C example prints what list prints"

export HOOFLIFT_LIB="${library%/*}" CARGO_TARGET_DIR="$root/target/rust"
cd "$root/bindings/rust"
cargo test --offline --quiet
say "all well"
