#!/bin/sh
# Tests that what the documents name is there: `sh tools/words.sh`, or `make lint`. Each word in
# backquotes of docs/PROVED.md, MODEL.md, BELIEVE.md and ARCHITECTURE.md that looks like a name of ours
# (a function, a clause, a definition, a type or a variant) must be declared in crates/, and each path
# must be a file or the end of one. The names of PROVED with `.specs.` are tested by tools/claims.sh. Of the
# other pages, where backquotes have more than names, that holds of paths, and of what follows "Shows in" or
# "Definition" in a line. It prints a line for each that is not there, and its status is 1 where it
# printed any.
cd "$(dirname "$0")/.." || exit 2
LC_ALL=C; export LC_ALL
known=$(mktemp) || exit 2
trap 'rm -f "$known"' EXIT

# What is declared: functions, types, variants and fields, clauses and ghost members; definitions,
# records, constructors and their fields. Behind them the files, each with a `/` ahead.
{
    find crates -path '*/src/*.rt' -exec cat {} + |
        grep -oE '(fn|struct|enum|trait|const|type|mod|ensures[*]?|requires|ghost) +[A-Za-z_][A-Za-z0-9_]*|^ +(pub )?[A-Za-z_][A-Za-z0-9_]*(,| *[:({])' |
        sed -E 's/^ *(pub |fn |struct |enum |trait |const |type |mod |ensures[*]? |requires |ghost )*//; s/ *[,:({]$//'
    find crates -path '*/specs/*.antt' -exec cat {} + |
        grep -oE '(^|pub |record |data )[A-Za-z_][A-Za-z0-9_]* +:|(record|data) [A-Za-z_][A-Za-z0-9_]*|^ +[a-z_][A-Za-z0-9_]* :' |
        sed -E 's/^ *(pub |record |data )*//; s/ *:$//'
    sed 's/#.*//' crates.txt | tr ':' ' ' | tr ' ' '\n'
    find . -name out -prune -o -type f -print | sed 's/^\.//'
} | sort -u > "$known"

found=$(awk '
    FILENAME == ARGV[1] {
        if (/^\//) { path = $0; file[path] = 1; while (sub(/^\/[^\/]*/, "", path) && path != "") file[path] = 1 }
        else known[$0] = 1
        next
    }
    {
        rest = $0
        named = FILENAME ~ /(PROVED|MODEL|BELIEVE|ARCHITECTURE)\.md$/ ? 1 : match($0, /Shows in|Definition/) ? RSTART : 1 + length($0)
        while (match(rest, /`[^`]+`/)) {
            text = substr(rest, RSTART + 1, RLENGTH - 2); rest = substr(rest, RSTART + RLENGTH)
            is_named = length($0) - length(rest) > named
            if ((FILENAME, text, is_named) in seen) continue
            seen[FILENAME, text, is_named] = 1
            if (text ~ /\.(antt|rt|md|sh|py)$/ || text ~ /^(crates\.txt|HANDLES|Makefile)$/) { if (!(("/" text) in file)) print FILENAME ": no file " text; continue }
            if (!is_named || text ~ /[^A-Za-z0-9_:.]/ || text ~ /[0-9]\./ || text ~ /\.specs\./ || text == "impl" || text == "Display") continue
            count = split(text, words, /[:.]+/)
            for (i = 1; i <= count; i++) if (words[i] ~ /^[A-Za-z_]/ && !(words[i] in known)) print FILENAME ": nothing is named " words[i] " (" text ")"
        }
    }' "$known" README.md docs/*.md)
[ -z "$found" ] && exit 0
printf '%s\n' "$found"
exit 1
