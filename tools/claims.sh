#!/bin/sh
# Tests that each claim of docs/PROVED.md is there: `sh tools/claims.sh`, or `make lint`. Of each row of
# its tables of claims, the second column names functions, as `crate::function` or `crate::Type::function`,
# each with the clauses (`ensures`, or members of a trait's implementation) that carry the claim; one with
# no clause behind it has a clause without a name. The third column names definitions, as
# `crate.specs.File.definition` or `crate.specs.File.Record.field`, as imports name them. A claim has one
# home: no crate's README has a table of claims, and no page but docs/PROTOCOL.md a table of routes or of
# refusals. It prints a line for each thing that is otherwise, and its status is 1 where it printed any.
#
# `sh tools/claims.sh --list` prints all that a claim may name.
cd "$(dirname "$0")/.." || exit 2
LC_ALL=C; export LC_ALL
page=docs/PROVED.md
known=$(mktemp) || exit 2
trap 'rm -f "$known"' EXIT

# Functions: `C::f`, `C::T::f`; their clauses: `C::f.clause`; those with a clause without a name: `C::f.`
sources() { find crates -name out -prune -o -path '*/src/*.rt' ! -name tests.rt ! -path '*_tests/*' -print | sort; }
specs() { find crates -name out -prune -o -path '*/specs/*.antt' ! -name Lib.antt -print | sort; }
{
    awk '
        FNR == 1 { crate = FILENAME; sub(/^crates\//, "", crate); sub(/\/.*/, "", crate); type = ""; fun = "" }
        { sub(/\/\/.*/, "") }
        /^(pub(\([a-z]+\))? )?(impl|trait|unsafe impl)[ <]/ {
            type = $0; sub(/^(pub(\([a-z]+\))? )?(impl|trait)/, "", type)
            if (sub(/^<([^<>]|<[^<>]*>)*>/, "", type)) ;
            sub(/^.* for /, "", type); sub(/^ *&?/, "", type); sub(/[^A-Za-z0-9_].*/, "", type); fun = ""
        }
        /^}/ { type = ""; fun = "" }
        type != "" && /^ +ghost [A-Za-z_]+ *[:=]/ { name = $2; sub(/:$/, "", name); print crate "::" type; print crate "::" type "." name }
        /^ *(pub(\([a-z]+\))? )?(const )?(extern "C" )?fn / {
            name = $0; sub(/^ *(pub(\([a-z]+\))? )?(const )?(extern "C" )?fn /, "", name); sub(/[^A-Za-z0-9_].*/, "", name)
            fun = crate "::" (type == "" ? "" : type "::") name
            print fun
        }
        fun != "" && /^ *ensures[*]? / { name = $2; if (name ~ /^\{/) name = ""; print fun "." name }' $(sources)
    awk '
        FNR == 1 { file = FILENAME; sub(/^crates\//, "", file); gsub(/\//, ".", file); sub(/\.antt$/, "", file); head = ""; in_module = 0 }
        /^ *--/ || /^(pub )?use / { next }
        /^module / { in_module = 1; head = ""; next }
        in_module { if ($0 ~ /^  /) $0 = substr($0, 3); else if ($0 != "") in_module = 0 }
        /^(abbrev|unfoldable|pub|record|data|mutual|[A-Za-z_][A-Za-z0-9_]* +:)/ {
            head = $0
            while (sub(/^(abbrev|unfoldable|pub|record|data|mutual)( +|$)/, "", head)) continue
            sub(/[^A-Za-z0-9_\047-].*/, "", head)
            if (head != "") print file "." head
        }
        /^ +(pub )?((data|record) )?[A-Za-z_][A-Za-z0-9_\047-]* *[:({]/ {
            name = $0; sub(/^ +(pub )?((data|record) )?/, "", name); sub(/[^A-Za-z0-9_\047-].*/, "", name)
            print file "." (head == "" ? "" : head ".") name
        }' $(specs)
} | sort -u > "$known"
[ "$1" = --list ] && { cat "$known"; exit 0; }

found=$(awk -F '|' -v known="$known" -v page="$page" '
    BEGIN { while ((getline name < known) > 0) there[name] = 1 }
    function missing(text) { print page ":" NR ": there is no " text }
    # a function without a clause behind it
    function close_function() { if (fun != "" && !claused && !((fun ".") in there)) missing("clause of " fun " without a name"); fun = "" }
    /^\| Claim \|/ { claims = ($3 ~ /Function/); next }
    /^\|--/ { next }
    !/^\|/ { claims = 0; next }
    claims {
        if (NF != 6) { print page ":" NR ": a claim has four columns"; next }
        rest = $3; fun = ""; any = 0
        while (match(rest, /`[^`]+`/)) {
            name = substr(rest, RSTART + 1, RLENGTH - 2); rest = substr(rest, RSTART + RLENGTH)
            if (name ~ /::/) { close_function(); fun = name; claused = 0; any = 1; if (!(name in there)) { missing("function " name); claused = 1 } }
            else { if (!((fun "." name) in there)) missing("clause " name " of " fun); claused = 1 }
        }
        close_function()
        if (!any) print page ":" NR ": names no function"
        rest = $4
        while (match(rest, /`[^`]+`/)) {
            name = substr(rest, RSTART + 1, RLENGTH - 2); rest = substr(rest, RSTART + RLENGTH)
            if (!(name in there)) missing("definition " name)
        }
        count++
    }
    END { if (!count) print page ": has no claims" }' "$page"
    grep -L 'docs/PROVED\.md' crates/*/README.md | sed 's/$/: no link to docs\/PROVED.md/'
    grep -nE '^\| *Claim *\|' crates/*/README.md | sed 's/:|.*/: claims are in docs\/PROVED.md alone/'
    grep -nE '^\|.*(`\/v1\/|`\{"error")' README.md docs/*.md crates/*/README.md | grep -vE '^docs/(PROTOCOL|PROVED)\.md:' | sed 's/:|.*/: routes and refusals are in docs\/PROTOCOL.md alone/'
)
[ -z "$found" ] && exit 0
printf '%s\n' "$found"
exit 1
