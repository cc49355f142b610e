#!/bin/sh
# Tests that crates.txt and docs/ARCHITECTURE.md have one map: `sh tools/map.sh`, or `make lint`. In
# crates.txt a crate uses only crates that are listed above it, of its own layer or a lower one. The table of
# ARCHITECTURE has the same crates in the same layers and the same order. So has its drawing, where a crate
# has an arrow to another of its layer exactly where it uses it. A crate's README that names a layer names its
# own. The life of a write has at most twelve stations. It prints a line for each thing that is otherwise, and
# its status is 1 where it printed any.
cd "$(dirname "$0")/.." || exit 2
LC_ALL=C; export LC_ALL
page=docs/ARCHITECTURE.md

found=$(awk -v page="$page" '
    function crates_in(text,    rest) { gsub(/->|,/, " ", text); return text }

    # crates.txt
    FILENAME == "crates.txt" {
        if (/^# Layer [0-9]+: /) { layer = $3 + 0 }
        sub(/#.*/, "")
        if (!/:/) next
        count = split($0, words, /[: ]+/)
        name = words[1]
        if (!layer) print FILENAME ": " name " is in no layer"
        if (layer < highest) print FILENAME ": layer " layer " of " name " comes after layer " highest
        highest = layer; layer_of[name] = layer; listed[++total] = name
        for (i = 2; i <= count; i++) if (words[i] != "") uses[name, words[i]] = 1
        next
    }
    # the drawing: the first block of text
    FILENAME == page && /^```/ { blocks++; next }
    FILENAME == page && blocks == 1 && $1 ~ /^[0-9]+$/ {
        line = $0; sub(/^ *[0-9]+ +[A-Za-z]+ +/, "", line)
        groups = split(line, group, /   +/)
        for (i = 1; i <= groups; i++) {
            steps = split(group[i], step, / *-> */)
            for (j = 1; j <= steps; j++) {
                names = split(step[j], name_of, /, */)
                for (k = 1; k <= names; k++) {
                    name = name_of[k]; gsub(/ /, "", name); if (name == "") continue
                    drawn[name] = $1 + 0
                    if (j > 1) { before = split(step[j - 1], from, /, */); for (m = 1; m <= before; m++) { sub(/ +$/, "", from[m]); arrow[from[m], name] = 1 } }
                }
            }
        }
    }
    # the table
    FILENAME == page && /^## / { section = $0 }
    FILENAME == page && /^\| Layer \|/ { table = 1; next }
    FILENAME == page && !/^\|/ { table = 0 }
    FILENAME == page && table && !/^\|--/ {
        split($0, cell, /\|/)
        if (cell[2] ~ /[0-9]/) row_layer = cell[2] + 0
        name = cell[3]; gsub(/[` ]/, "", name)
        row++
        if (listed[row] != name) print page ": row " row " of the layers is " name ", and crates.txt has " listed[row]
        else if (layer_of[name] != row_layer) print page ": " name " is in layer " row_layer ", and in crates.txt in layer " layer_of[name]
    }
    FILENAME == page && section ~ /Life of a write/ && /^[0-9]+\. / { stations++ }
    FILENAME != page && match($0, /Layer [0-9]+/) {
        name = FILENAME; sub(/^crates\//, "", name); sub(/\/.*/, "", name)
        if (substr($0, RSTART + 6, RLENGTH - 6) + 0 != layer_of[name]) print FILENAME ":" FNR ": " substr($0, RSTART, RLENGTH) ", but crates.txt has " name " in layer " layer_of[name]
    }
    END {
        if (row != total) print page ": the layers have " row + 0 " crates, and crates.txt has " total
        if (!stations || stations > 12) print page ": the life of a write has " stations + 0 " stations"
        for (i = 1; i <= total; i++) {
            name = listed[i]; place[name] = i
            if (drawn[name] != layer_of[name]) print page ": the drawing does not have " name " in layer " layer_of[name]
        }
        for (name in drawn) if (!(name in layer_of)) print page ": draws " name ", which crates.txt does not have"
        for (pair in uses) {
            split(pair, ends, SUBSEP)
            if (!(ends[2] in place)) continue
            if (place[ends[2]] >= place[ends[1]]) print "crates.txt: " ends[1] " is listed above " ends[2] ", which it uses"
            if (layer_of[ends[2]] > layer_of[ends[1]]) print "crates.txt: " ends[1] " uses " ends[2] " of a higher layer"
            if (layer_of[ends[2]] == layer_of[ends[1]] && !(pair in arrow)) print page ": the drawing has no arrow from " ends[1] " to " ends[2]
        }
        for (pair in arrow) if (!(pair in uses)) { split(pair, ends, SUBSEP); print page ": draws an arrow from " ends[1] " to " ends[2] ", which it does not use" }
    }' crates.txt "$page" crates/*/README.md)
[ -z "$found" ] && exit 0
printf '%s\n' "$found"
exit 1
