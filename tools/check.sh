#!/bin/sh
# A contributor's checks in one: what the gate does not look at.
#
#   tools/check.sh [quick]
#
# Each check has a line: `ok` or `FAILED`, and what it said. `quick` leaves out the bindings' test, which builds the library first (minutes). The
# proofs themselves are the gate's, .ci/run. Needs the Rattle kit, python3, git, a C compiler, Debian's shellcheck, and for the bindings
# cargo; a check whose tool is missing fails and says so.
set -u
cd "$(dirname "$0")/.." || exit 2
passed=0 failed=0

# check NAME COMMAND..: runs a command, and shows what it printed where its status is not 0.
check() {
    name=$1
    shift
    if said=$("$@" 2>&1); then
        passed=$((passed + 1))
        echo "ok      $name"
    else
        failed=$((failed + 1))
        echo "FAILED  $name: $*"
        printf '%s\n' "$said" | tail -n 40 | sed 's/^/          /'
    fi
}

kit_is_known() {
    grep -qxF "$(rt version)" KIT || {
        echo "the kit is '$(rt version)', and the file KIT names those that .ci/run has passed with:"
        cat KIT
        echo "run .ci/run with this one; where it passes, add its line to KIT"
        return 1
    }
}

versions_agree() {
    version=$(cat VERSION)
    grep -q "^#define HOOFLIFT_VERSION \"$version\"$" include/hooflift.h || { echo "include/hooflift.h has another version than $version"; return 1; }
    grep -q "^version = \"$version\"$" bindings/rust/Cargo.toml || { echo "bindings/rust/Cargo.toml has another version than $version"; return 1; }
    grep -q "^## $version" CHANGELOG.md || { echo "CHANGELOG.md has no entry for $version"; return 1; }
}

# What `rt fmt` writes is asked of the kit's own rattle, since rt has no check that writes nothing.
layout_is_kept() {
    rt=$(command -v rt) || { echo "no rt on the path: the Rattle kit is not installed"; return 1; }
    # shellcheck disable=SC2046
    "$(dirname "$(readlink -f "$rt")")/rattle" fmt --check $(git ls-files 'crates/*.rt' 'crates/*.antt')
}

scripts_are_clean() {
    command -v shellcheck >/dev/null || { echo "no shellcheck (Debian's package shellcheck)"; return 1; }
    # stack and memory limits are no POSIX words, and names that a sourced script sets are not seen
    # shellcheck disable=SC2046
    shellcheck -S warning -e SC3045,SC2154 step .ci/run $(git ls-files '*.sh')
}

header_compiles() {
    for language in c c++; do
        printf '#include "hooflift.h"\nint main(void) { return HOOFLIFT_VERSION[0] == 0; }\n' |
            cc -x "$language" -Wall -Wextra -Werror -pedantic -fsyntax-only -Iinclude - || return 1
    done
}

no_half_done_work() {
    if [ -n "$(find wip -type f 2>/dev/null)" ]; then
        find wip -type f
        return 1
    fi
}

check 'the kit is one that the gate has passed with' kit_is_known
check 'one version everywhere' versions_agree
check 'layout of code and definitions' layout_is_kept
check 'names that the pages cite exist' python3 tools/cited.py
check 'pages: cells, sentences, links, sections' python3 tools/pages.py
check 'requirements and the definitions that cite them' python3 tools/requirements.py --check
check 'lines that the pages link to' python3 tools/lines.py --check
check 'what must be believed is listed' python3 tools/believe.py --check
check 'proofs hold nothing idle' python3 tools/lean_proofs.py --check
check 'crates.txt lists what each crate names' python3 tools/named_crates.py
check 'the picture of the layers' python3 tools/layers.py --check
check 'the picture of the speed' python3 bench/speed.py --check
check 'scripts' scripts_are_clean
check 'the header alone, as C and C++' header_compiles
check 'nothing half done' no_half_done_work
[ "${1:-}" = quick ] || check 'bindings: library, C example, Rust crate' bindings/test.sh
echo "$passed passed, $failed failed"
[ "$failed" -eq 0 ]
