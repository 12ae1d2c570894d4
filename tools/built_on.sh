#!/bin/sh
# Prints the folders of some crates and of all that they are built on, one to a line, from the repository on.
#
#   tools/built_on.sh CRATE..
#
# crates.txt lists for each crate what its own files name; what these are built on follows from their lines. Libraries of the kit are left out.
# What rt makes of a crate stands in its folder too, in out/, which is none of its sources.
root=$(CDPATH='' cd -- "$(dirname -- "$0")/.." && pwd -P)
exec awk -v todo="$*" '
    { sub(/#.*/, ""); colon = index($0, ":"); split($0, word, /[ :]/); if (colon) on[word[1]] = substr($0, colon + 1) }
    END {
        while (todo != "") {
            split(todo, word, " "); name = word[1]; sub(/^ *[^ ]+ */, "", todo)
            if ((name in on) && !(name in done)) { done[name] = 1; todo = on[name] " " todo; print "crates/" name }
            sub(/^ */, "", todo)
        }
    }' "$root/crates.txt"
