#!/bin/sh
# Tests the style that rt does not: `sh tools/lint.sh`, or `make lint`. It prints a line for each
# thing that it finds, and its status is 1 where it found any. Folders named out are skipped.
cd "$(dirname "$0")/.." || exit 2
LC_ALL=C; export LC_ALL
files() { find crates -name out -prune -o -type f -path "$1" -print | sort; }
crates=$(sed 's/#.*//' crates.txt | awk -F '[: ]' 'NF > 1 { print $1 }')

found=$({
    # A definition that clauses cite has a comment above it.
    files 'crates/*/specs/*.antt' | while read -r file; do
        awk -v file="$file" '
            /^ *(abbrev|unfoldable) pub |^ *pub (record|data) / { if (before !~ /^ *--/) print file ":" NR ": no comment above: " $0 }
            { before = $0 }' "$file"
    done

    # A module begins with its `//!` line. A line aims at 100 columns and ends by 110; imports,
    # clauses and literals are on one line, however long.
    files 'crates/*/src/*.rt' | while read -r file; do
        awk -v file="$file" '
            NR == 1 && !/^\/\/!/ { print file ":1: no //! line at the head of the module" }
            { text = $0; gsub(/[\200-\277]/, "", text) }
            length(text) > 110 && !/^ *((pub )?(ghost )?use |ensures |requires |ghost |\(record |[a-z_]+ : |→ |≡ |b?")/ { print file ":" NR ": over 110 columns" }
            END { if (NR > 800) print file ": over 800 lines" }' "$file"
    done

    # Each crate has its README.
    for crate in $crates; do
        [ -f "crates/$crate/README.md" ] || echo "crates/$crate: no README.md"
    done

    # A function that a document names is declared.
    {
        find crates -name out -prune -o -path '*/src/*.rt' -exec cat {} + | grep -oE '(fn|mod) [A-Za-z_0-9]+'
        grep -ohE '`[A-Za-z]+::[a-z_]+`' README.md docs/*.md crates/*/README.md
    } | awk '/^(fn|mod) / { known[$2] = 1; next }
        { gsub(/`/, ""); name = $0; sub(/.*::/, "", name); if (!(name in known) && !seen[$0]++) print "no function " $0 ", which a document names" }'

    # Each rule has its own plain words, and no number of an outside document.
    grep -rnIE --exclude-dir=out '(^|[^A-Za-z0-9_/.{"-])[DTWRL][0-9]+(\.[0-9]+)?([^A-Za-z0-9_]|$)' crates docs ./*.md

    # Each text that a must-fail edit takes away is exactly once in its file.
    files 'crates/*/must-fail/*.edit' | xargs awk '
        function close_edit(    i) {
            for (i = 1; i <= texts; i++) if (count[i] != 1) print edit ": its text is " count[i] + 0 " times in " file ": " old[i]
        }
        FNR == 1 { close_edit(); texts = 0; edit = FILENAME; crate = edit; sub(/\/must-fail\/.*/, "", crate); file = "" }
        /^file: / && file == "" {
            file = $0; sub(/^file: */, "", file); path = crate "/" file
            if (!(path in lines)) { lines[path] = 0; while ((getline line < path) > 0) text[path, ++lines[path]] = line; close(path) }
            if (!lines[path]) print edit ": there is no " path
        }
        /^old: / {
            old[++texts] = substr($0, 6); count[texts] = 0
            for (n = 1; n <= lines[path]; n++) {
                rest = text[path, n]
                while (at = index(rest, old[texts])) { count[texts]++; rest = substr(rest, at + length(old[texts])) }
            }
        }
        END { close_edit() }'
} 2>&1)

[ -z "$found" ] && exit 0
printf '%s\n' "$found"
exit 1
