#!/bin/sh
# Builds the oracle: the Rust original, unchanged, under the driver in oracle/; and beside it `texts`, under texts.rs.
#
#   build.sh [BUILD_FOLDER]
#
# Prints the path of the executable on standard output, everything else on standard error. The original is read from
# ../shared/docs/src beside the repository, or from the folder that ORIGINAL names (the one that holds scan.rs). The
# build folder lies outside the repository (default: a folder under the system's temp folder), and nothing of the
# original is kept here.
set -eu
here=$(CDPATH='' cd -- "$(dirname -- "$0")" && pwd)
original=${ORIGINAL:-$here/../../shared/docs/src/native/crates/cad-step/src}
build=${1:-${TMPDIR:-$(dirname "$(mktemp -u)")}/differential-oracle}
say() { echo "build.sh: $*" >&2; }

for tool in cargo rustc; do
    command -v "$tool" >/dev/null || { say "$tool is wanted, 1.88 or newer, which Debian has not: rustup has it"; exit 1; }
done
release=$(rustc --version | cut -d' ' -f2)
minor=${release#*.}
if [ "${release%%.*}" -eq 1 ] && [ "${minor%%.*}" -lt 88 ]; then
    say "rustc 1.88 or newer is wanted (edition 2024, let chains), and this is $release: rustup has a newer one than Debian"
    exit 1
fi
[ -f "$original/scan.rs" ] || { say "the original is not at $original (set ORIGINAL)"; exit 1; }

# The three crates that the original leans on, as Debian packages.
packages='librust-memchr-dev librust-thiserror-dev librust-rustc-hash-dev'
lacking=
for package in $packages; do
    [ "$(dpkg-query -W -f='${db:Status-Status}' "$package" 2>/dev/null)" = installed ] || lacking="$lacking $package"
done
if [ -n "$lacking" ]; then
    # shellcheck disable=SC2086
    if ! "$here/install.sh" $lacking; then
        say "these Debian packages are wanted, and could not be installed:$lacking"
        exit 1
    fi
fi
source=$(dpkg -L librust-memchr-dev | sed -n 's,/memchr-[0-9][^/]*$,,p' | head -n 1)
[ -d "$source" ] || { say "the crates of $packages are not found"; exit 1; }

mkdir -p "$build/cad-step/src" "$build/oracle/src/bin" "$build/.cargo"
build=$(CDPATH='' cd -- "$build" && pwd)

# A file is copied only where it changed, so that a second build is quick.
put() { # put FROM TO
    cmp -s "$1" "$2" || { cp "$1" "$2" && chmod u+w "$2"; }
}
for file in error kind lib scan units value; do
    put "$original/$file.rs" "$build/cad-step/src/$file.rs"
done
# lib.rs declares two modules that are not there; nothing that is compared touches them.
for file in lower presentation; do
    put "$here/oracle/stand-in/$file.rs" "$build/cad-step/src/$file.rs"
done
for file in "$here"/oracle/*.rs; do
    put "$file" "$build/oracle/src/$(basename "$file")"
done
put "$here/texts.rs" "$build/oracle/src/bin/texts.rs"

cat >"$build/new" <<'END'
[package]
name = "cad-step"
version = "0.0.0"
edition = "2024"

[dependencies]
memchr = "*"
thiserror = "*"
rustc-hash = "*"
END
put "$build/new" "$build/cad-step/Cargo.toml"
cat >"$build/new" <<'END'
[package]
name = "oracle"
version = "0.0.0"
edition = "2024"

[dependencies]
cad-step = { path = "../cad-step" }
END
put "$build/new" "$build/oracle/Cargo.toml"
cat >"$build/new" <<'END'
[workspace]
members = ["cad-step", "oracle"]
resolver = "2"

[profile.release]
panic = "unwind"
END
put "$build/new" "$build/Cargo.toml"
cat >"$build/new" <<END
[source.crates-io]
replace-with = "packages"

[source.packages]
directory = "$source"

[net]
offline = true
END
put "$build/new" "$build/.cargo/config.toml"
rm -f "$build/new"

# Cargo reads its configuration from the folder it runs in.
(cd "$build" && CARGO_TARGET_DIR="$build/target" cargo build --offline --release --quiet --package oracle >&2)
echo "$build/target/release/oracle"
