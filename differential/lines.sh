# Sourced by the scripts whose programs answer a line by a line: decimals.sh, coordinates.sh, texts.sh, pages.sh.
#
#   compare STREAM   runs $program over $work/stream and compares its lines with those of $work/expected: sets `made` (lines) and
#                    `differing`, and shows the first line that differs
# shellcheck shell=sh disable=SC2034,SC2154
compare() {
    status=0
    "$program" <"$work/stream" >"$work/actual" || status=$?
    [ "$status" -eq 0 ] || echo "$1: the program ended with status $status" >&2
    made=$(wc -l <"$work/expected")
    differing=0
    if ! cmp -s "$work/expected" "$work/actual"; then
        # as strings: awk would take two of these lines for numbers and round them
        paste "$work/expected" "$work/actual" | awk -F '\t' '$1 "" != $2 "" { print NR }' >"$work/lines"
        differing=$(wc -l <"$work/lines")
        at=$(head -n 1 "$work/lines")
        [ "$differing" -gt 0 ] || differing=1
        echo "$1: the first difference is at line ${at:-?}:"
        if [ -n "$at" ]; then
            for part in stream expected actual; do
                echo "  $part: $(sed -n "${at}p" "$work/$part" | cut -c 1-200 | cat -v)"
            done
        fi
    fi
}
