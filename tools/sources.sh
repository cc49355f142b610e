#!/bin/sh
# Prints the hash of all that the program is proved from: `sh tools/sources.sh`. That is crates.txt and HANDLES,
# and the .rt and .antt files in src/, specs/ and proofs/ of the crate quaestor and of each crate that it uses,
# as crates.txt says. It is the SHA-256 of the list of these files, in the order of their names, each with its
# own SHA-256, as sha256sum writes it. Left out are tests (the crates of tests, tests.rt and the folders tests),
# must-fail edits and READMEs, of which the program has nothing.
#
# `sh tools/sources.sh --list` prints that list, and `--crates` the names of the crates. With the name of a crate
# behind that, or alone, all is of that crate, and of crates.txt only the lines of the crates that it uses.
cd "$(dirname "$0")/.." || exit 2
LC_ALL=C; export LC_ALL

what=
case $1 in --list | --crates) what=$1; shift ;; esac
named=$1
top=${1:-quaestor}

# That crate and those that it uses, at any depth.
used() {
    awk -v top="$top" '
        { sub(/#.*/, "") }
        /:/ { name = $1; sub(/:.*/, "", name); sub(/^[^:]*:/, ""); uses[name] = $0 }
        END {
            queue[last = 1] = top
            for (i = 1; i <= last; i++) {
                if (!(queue[i] in uses) || queue[i] in seen) continue
                seen[queue[i]] = 1; print queue[i]
                count = split(uses[queue[i]], names, " ")
                for (j = 1; j <= count; j++) queue[++last] = names[j]
            }
        }' crates.txt
}

# The lines of these crates, where one is named.
lines() {
    [ -z "$named" ] || used | while read -r crate; do sed -n "s/^$crate\( [^:]*\)*:.*/&/p" crates.txt; done | sha256sum | sed 's/-$/crates.txt/'
}

list() {
    lines
    {
        printf '%s\n' HANDLES
        [ -n "$named" ] || echo crates.txt
        used | while read -r crate; do
            for part in src specs proofs; do
                [ -d "crates/$crate/$part" ] || continue
                find "crates/$crate/$part" -type f \( -name '*.rt' -o -name '*.antt' \) ! -name tests.rt ! -path '*/tests/*'
            done
        done
    } | sort | xargs sha256sum
}

[ "$what" = --list ] && { list; exit; }
[ "$what" = --crates ] && { used; exit; }
list | sha256sum | cut -d ' ' -f 1
