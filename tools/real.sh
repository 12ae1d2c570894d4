#!/bin/sh
# Fetches real STEP files from Debian packages, for trying the programs and for comparison runs. None is kept in the repository.
#
#   tools/real.sh FOLDER
#
# Needs a Debian with network, after `apt-get update`. 35 files, 2 MB the largest, from freecad-common, gmsh-doc and netgen-doc; each is
# named by its package, its number there, and its own name. Of a package with more than 40 such files, 40 are taken at even distances.
set -eu
[ $# -eq 1 ] || { sed -n '2,7s/^# \{0,1\}//p' "$0" >&2; exit 2; }
for tool in apt-get dpkg-deb gunzip; do
    command -v "$tool" >/dev/null || { echo "real.sh: no $tool: this needs a Debian system" >&2; exit 2; }
done
mkdir -p "$1"
folder=$(CDPATH='' cd -- "$1" && pwd)
work=$(mktemp -d)
trap 'rm -rf "$work"' EXIT
trap 'exit 130' INT TERM
chmod 755 "$work"
status=0
for package in freecad-common gmsh-doc netgen-doc; do
    mkdir "$work/$package"
    if ! (cd "$work/$package" && apt-get download -qq "$package" >"$work/log" 2>&1); then
        echo "real.sh: $package was not fetched (apt-get update first?):" >&2
        sed 's/^/  /' "$work/log" >&2
        status=1
        continue
    fi
    dpkg-deb --extract "$work/$package"/*.deb "$work/$package/all"
    (cd "$work/$package/all" && find . -type f | grep -iE '\.(stp|step)(\.gz)?$' | LC_ALL=C sort) | awk '
        { name[NR] = $0 }
        END { n = NR < 40 ? NR : 40; for (k = 0; k < n; k++) print k + 1, name[int(k * NR / n) + 1] }' >"$work/chosen"
    taken=0
    while read -r number name; do
        file=$work/$package/all/$name
        case $file in *.gz) gunzip "$file" && file=${file%.gz} ;; esac
        # other kinds of file have the same ending
        head -c 200 "$file" | grep -q ISO-10303-21 || continue
        mv "$file" "$folder/$package-$(printf %03d "$number")-$(basename "$file" | tr -c 'A-Za-z0-9._\n-' _)"
        taken=$((taken + 1))
    done <"$work/chosen"
    echo "$package: $taken files"
done
exit $status
