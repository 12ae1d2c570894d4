#!/bin/sh
# Holds the program `compare_strings` against the tables of ISO 8859-1 to 8859-9: 864 codes, each by two sources that are not the program's.
#
#   pages.sh TEXTS_PROGRAM
#
# The sources are those of pages.py: the C library's iconv, and the charmaps of Debian's package `locales`, which is installed where it is
# lacking. The last line is `differences N`; the exit status is 0 where N is 0.
set -eu
[ $# -eq 1 ] || { sed -n '2,7s/^# \{0,1\}//p' "$0" >&2; exit 2; }
here=$(CDPATH='' cd -- "$(dirname -- "$0")" && pwd)
. "$here/lines.sh"
export PYTHONDONTWRITEBYTECODE=1
program=$(CDPATH='' cd -- "$(dirname -- "$1")" && pwd)/$(basename -- "$1")
[ -x "$program" ] || { echo "pages.sh: $1 is no executable" >&2; exit 2; }
work=$(mktemp -d)
trap 'rm -rf "$work"' EXIT
trap 'exit 130' INT TERM
if [ "$(dpkg-query -W -f='${db:Status-Status}' locales 2>/dev/null)" != installed ]; then
    "$here/install.sh" locales || { echo "pages.sh: the Debian package locales is wanted, and could not be installed" >&2; exit 2; }
fi

codes=0
differences=0
for source in iconv charmaps; do
    python3 "$here/pages.py" --source "$source" source >"$work/named" || exit 2
    echo "$source: $(cat "$work/named")"
    python3 "$here/pages.py" --source "$source" tables >"$work/tables" || exit 2
    cut -d ' ' -f 1 "$work/tables" >"$work/stream"
    sed 's/.* /text /' "$work/tables" >"$work/expected"
    compare "$source"
    [ "$made" -eq 864 ] || { echo "pages.sh: $source has $made codes, and 864 are wanted" >&2; exit 2; }
    # A string begins with `\P` and the letter, in hex 5c50 and 41 to 49; what is not defined is U+FFFD.
    undefined=$(awk '{ n[substr($1, 6, 1)] += $2 == "efbfbd" }
        END { for (i = 1; i <= 9; i++) printf " %s %d", substr("ABCDEFGHI", i, 1), n[i] }' "$work/tables")
    echo "$source: codes $made differences $differing | undefined:$undefined"
    codes=$((codes + made))
    differences=$((differences + differing))
done
echo "codes $codes"
echo "differences $differences"
[ "$differences" -eq 0 ]
