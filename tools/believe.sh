#!/bin/sh
# Finds what the top call's contract reaches, and tests that it is marked: `sh tools/believe.sh`, or
# `make lint`. It begins with the clauses of `run` and of `Status::code`, and with the traits that `run`
# asks of its arguments. It follows each name, by the imports of its file, to its definition in specs/ or
# to its type in src/, and so on; of a type with a model, to that alone. A name that a variable shares
# counts too, so it may find more than is reached, and never less.
#
# A file of specs/ with a definition that is reached begins with `-- Believed. `, each other one with
# `-- Internal. `; of a file that only `read`, `world` and `crash` reach either is taken. docs/BELIEVE.md lists these files, and the files of src/ with types that are reached,
# once each, each after those that it uses, and names the kit's crates that they cite. The script prints
# a line for each thing that is otherwise, and its status is 1 where it printed any.
#
# `sh tools/believe.sh --set` writes the marks; `--list` prints the files with what is reached in each.
cd "$(dirname "$0")/.." || exit 2
LC_ALL=C; export LC_ALL
page=docs/BELIEVE.md
reached=$(mktemp) || exit 2
trap 'rm -f "$reached" "$reached.line" "$reached.served"' EXIT

specs() { find crates -name out -prune -o -path '*/specs/*.antt' ! -name Lib.antt -print | sort; }
sources() { find crates -name out -prune -o -path '*/src/*.rt' ! -name tests.rt ! -path '*_tests/*' -print | sort; }

# Prints a line for each file that is reached, with the names; for the kit's crates, `kit NAME`. With the
# word `served`, what `read`, `world` and `crash` reach besides is left out.
closure() {
    awk -v part="$1" '
        # the names of an import: `PATH.{a, b as c}`, `PATH as x` or `PATH`
        function import(file, path, names,    parts, count, i, pair, target, target_of, kit) {
            sub(/^Rattle\./, "", path)
            if (!match(path, /^[a-z_0-9]+\.specs\./)) return
            kit = path; sub(/\..*/, "", kit)
            sub(/^[a-z_0-9]+\.specs\./, "", path)
            if (path ~ /^declared\./) {
                if (path ~ /\.TheConstants$/) target = "constant"
                else { sub(/\.TheVariants$/, "", path); target = path; sub(/.*\./, "", target) }
                path = "declared"
            } else { sub(/\..*/, "", path); target = "" }
            if (names !~ /^\{/) { alias[file, names] = kit SUBSEP path SUBSEP target; return }
            gsub(/[{}]/, "", names)
            count = split(names, parts, /, */)
            for (i = 1; i <= count; i++) {
                split(parts[i], pair, / as /)
                target_of = kit SUBSEP path SUBSEP (target == "constant" || target == "" ? pair[1] : target)
                imported[file, (pair[2] == "" ? pair[1] : pair[2])] = target_of
                if (pair[1] !~ /^[A-Za-z_]/) signs[file, ++sign_count[file]] = target_of
            }
        }
        function import_line(file, line,    path, names) {
            sub(/;.*/, "", line)
            if (line ~ / as [A-Za-z_]+$/ && line !~ /\{/) { path = line; sub(/ as .*/, "", path); names = line; sub(/.* as /, "", names) }
            else if (line ~ /\.\{/) { path = line; sub(/\.\{.*/, "", path); names = line; sub(/^[^{]*/, "", names) }
            else { path = line; names = line; sub(/.*\./, "", names) }
            import(file, path, names)
        }
        # the names of `use crate::a::{X, Y}` in code
        function use_line(file, crate, line,    kit, parts, count, i, pair) {
            gsub(/[ \t]+/, " ", line); sub(/;.*/, "", line)
            kit = line; sub(/::.*/, "", kit); if (kit == "crate" || kit == "super" || kit == "self") kit = crate
            if (line ~ /\{/) sub(/^[^{]*/, "", line); else sub(/.*::/, "", line)
            gsub(/[{}]/, "", line)
            count = split(line, parts, /, */)
            for (i = 1; i <= count; i++) { sub(/^ */, "", parts[i]); sub(/.*::/, "", parts[i]); split(parts[i], pair, / as /); imported[file, (pair[2] == "" ? pair[1] : pair[2])] = kit SUBSEP "declared" SUBSEP pair[1] }
        }
        function declare(file, name) { if (!((file, name) in defined)) defined[file, name] = node }
        function open_node(file, name) { node = file "#" name; home[node] = file; title[node] = name; declare(file, name) }

        FNR == 1 {
            file = FILENAME; sub(/^crates\//, "", file)
            crate = file; sub(/\/.*/, "", crate); own[crate] = 1
            node = ""; using = ""; inside = 0; in_module = 0; is_spec = (file ~ /\.antt$/)
        }
        is_spec {
            if ($0 ~ /^(pub )?use /) { line = $0; sub(/^(pub )?use /, "", line); import_line(file, line); node = ""; next }
            if ($0 ~ /^ *--/) next
            if ($0 ~ /^module /) { in_module = 1; node = ""; next }
            if (in_module) { if ($0 ~ /^  /) $0 = substr($0, 3); else if ($0 != "") in_module = 0 }
            if ($0 ~ /^(abbrev|unfoldable|pub|record|data|mutual|[a-z_]+ +:)/) {
                head = $0
                multiple = (head ~ /^((abbrev|unfoldable) )?mutual/ || head ~ /^(pub )?data /)
                while (sub(/^(abbrev|unfoldable|pub|record|data|mutual)( +|$)/, "", head)) continue
                sub(/ .*/, "", head)
                if (head != "" && head !~ /^[A-Za-z_]/) signs[file, ++sign_count[file]] = crate SUBSEP file SUBSEP head
                open_node(file, head == "" ? "mutual" FNR : head)
            }
            if (multiple && node != "" && $0 ~ /^ +(pub )?((data|record) )?[A-Za-z_][A-Za-z0-9_\047-]* *[:({]/) {
                name = $0; sub(/^ +(pub )?((data|record) )?/, "", name); sub(/[^A-Za-z0-9_\047-].*/, "", name); declare(file, name)
                if (title[node] ~ /^mutual/) title[node] = name
            }
            if (node != "") text[node] = text[node] "\n" $0
            next
        }
        {
            sub(/\/\/.*/, "")
            # what the program does as a client
            if (part == "served" && crate == "quaestor_prog") {
                if ($0 ~ /^ *ensures (read|simulation) |^ *type Link|^ *ghost links|^ *fn (reach|hear|note|keep_link)[(<]/) client = 1
                else if ($0 ~ /^ *(ensures [a-z]+ |type |ghost [a-z]+:|fn |\{$)|^}/ && !($0 ~ /^ *ensures (gives|links|unused|unasked|count) /)) client = 0
                if (client) next
            }
            if (using != "") { using = using " " $0; if ($0 ~ /;/) { use_line(file, crate, using); using = "" } ; next }
            if ($0 ~ /^ *ghost use /) { line = $0; sub(/^ *ghost use /, "", line); import_line(file, line); next }
            if ($0 ~ /^impl.* Model for /) { model = $0; sub(/.* Model for /, "", model); sub(/[^A-Za-z0-9_].*/, "", model) }
            if ($0 ~ /^ +ghost Value = /) value[crate, model] = $0
            if ($0 ~ /^(pub )?use /) { line = $0; sub(/^(pub )?use /, "", line); if (line ~ /;/) use_line(file, crate, line); else using = line; next }
            if ($0 ~ /^(pub(\([a-z]+\))? )?(struct|enum|trait|const|type) /) {
                head = $0; sub(/^(pub(\([a-z]+\))? )?(struct|enum|trait|const|type) /, "", head); sub(/[^A-Za-z0-9_].*/, "", head)
                open_node(file, head); where[crate, head] = node; anywhere[head] = node; inside = 1
            }
            root = (crate == "quaestor_prog" && $0 ~ /^ *pub fn (run|code)[<(]/)
            if (root) { open_node(file, "fn" FNR); roots[++root_count] = node; inside = 2 }
            if (inside) text[node] = text[node] "\n" $0
            if (inside == 1 && ($0 ~ /^}/ || $0 ~ /;$/ && text[node] !~ /\{/)) inside = 0
            if (inside == 2 && $0 ~ /^ *\{$/) inside = 0
        }

        function reach(found) {
            if (found != "" && node != "" && home[found] != file && !(found in modelled)) uses[file " " home[found]] = 1
            if (found != "" && !(found in seen)) { seen[found] = 1; queue[++last] = found }
        }
        # what an import names
        function follow(target,    parts, found, file) {
            split(target, parts, SUBSEP)
            if (parts[2] ~ /\.antt$/) { reach(defined[parts[2], parts[3]]); return }
            if (!(parts[1] in own)) { if (parts[1] != "std" && parts[2] != "") kits[parts[1]] = 1; return }
            if (parts[2] == "declared") { reach((parts[1], parts[3]) in where ? where[parts[1], parts[3]] : (parts[3] in anywhere ? anywhere[parts[3]] : "")); return }
            file = parts[1] "/specs/" parts[2] ".antt"
            if ((file, parts[3]) in defined) reach(defined[file, parts[3]])
            else if ((file, parts[3]) in imported) follow(imported[file, parts[3]])
        }
        END {
            # a type with a model is seen as that, whatever it is made of
            for (name in value) if (name in where) { text[where[name]] = value[name]; sub(/Value/, "", text[where[name]]); modelled[where[name]] = 1 }
            if (part == "served") for (name in text) if (home[name] ~ /^(quaestor_prog|command_line)\// && title[name] ~ /^(IsRead|ReadAsk|AreReadOptions|HasSimulated)$/) text[name] = ""
            node = ""
            for (i = 1; i <= root_count; i++) reach(roots[i])
            if (root_count != 2) print "the clauses of run and of Status::code are not found" > "/dev/stderr"
            for (i = 1; i <= last; i++) {
                node = queue[i]; file = home[node]; rest = text[node]
                if (title[node] ~ /^fn[0-9]+$/) node = ""
                # its file may use the operators that it defines or imports
                for (s = 1; s <= sign_count[file]; s++) follow(signs[file, s])
                while (match(rest, /[A-Za-z_][A-Za-z0-9_\047-]*([.:]+[A-Za-z_][A-Za-z0-9_\047-]*)*/)) {
                    word = substr(rest, RSTART, RLENGTH); before = RSTART > 1 ? substr(rest, RSTART - 1, 1) : ""
                    rest = substr(rest, RSTART + RLENGTH)
                    if (before == ".") continue
                    tail = word; head = word; sub(/[.:].*/, "", head); sub(/^[^.:]*[.:]*/, "", tail); sub(/[.:].*/, "", tail)
                    if ((file, head) in alias) {
                        split(alias[file, head], parts, SUBSEP)
                        follow(parts[2] == "declared" ? alias[file, head] : parts[1] SUBSEP parts[2] SUBSEP tail)
                    }
                    else if ((file, head) in defined) reach(defined[file, head])
                    else if ((file, head) in imported) follow(imported[file, head])
                }
            }
            for (i = 1; i <= last; i++) if (title[queue[i]] !~ /^fn[0-9]+$/ && !(queue[i] in modelled)) names[home[queue[i]]] = names[home[queue[i]]] " " title[queue[i]]
            for (file in names) print file names[file]
            for (kit in kits) print "kit " kit
            for (pair in uses) print "uses " pair
        }' $(specs) $(sources) | sort
}
closure > "$reached"
closure served > "$reached.served"

case "$1" in
    --list) grep -v '^uses ' "$reached"; exit 0 ;;
esac

found=$(
    # The marks.
    specs | while read -r path; do
        file=${path#crates/}
        if grep -q "^$file " "$reached"; then mark=Believed; else mark=Internal; fi
        read -r first < "$path"
        if [ "$mark" = Believed ] && ! grep -q "^$file " "$reached.served"; then
            case "$first" in "-- Believed. "*|"-- Internal. "*) [ "$1" = --set ] || continue ;; esac
        fi
        case "$first" in
            "-- $mark. "*) ;;
            *)  if [ "$1" = --set ]; then
                    awk -v mark="$mark" 'NR == 1 { sub(/^-- (Believed|Internal)\. /, "-- "); sub(/^-- /, "-- " mark ". ") } { print }' "$path" > "$reached.line" && cat "$reached.line" > "$path"
                else
                    echo "$path: does not begin with \"-- $mark. \", as the top call's contract says (sh tools/believe.sh --set)"
                fi ;;
        esac
    done

    # The page.
    if [ "$1" != --set ]; then
        grep -oE '^\| `[a-z_]+/(specs|src)/[A-Za-z_/]+\.(antt|rt)`' "$page" | tr -d '`| ' > "$reached.line"
        awk -v page="$page" 'FNR == NR { at[$1] = NR; next }
            $1 == "uses" && ($2 in at) && ($3 in at) { later[$2, $3] = at[$3] > at[$2] }
            # two files that use each other stand in either order
            END { for (pair in later) { split(pair, of, SUBSEP); if (later[pair] && !((of[2], of[1]) in later)) print page ": lists " of[1] " before " of[2] ", which it uses" } }' "$reached.line" "$reached"
        sort -o "$reached.line" "$reached.line"
        uniq -d "$reached.line" | while read -r file; do echo "$page: lists $file twice"; done
        awk '$1 ~ /\// { print $1 }' "$reached" | sort | comm -23 - "$reached.line" | while read -r file; do echo "$page: does not list $file, which the top call's contract reaches"; done
        awk '$1 ~ /\// { print $1 }' "$reached" | sort | comm -13 - "$reached.line" | uniq | while read -r file; do echo "$page: lists $file, which the top call's contract does not reach"; done
        awk '$1 == "kit" { print $2 }' "$reached" | while read -r kit; do grep -q "\`$kit\`" "$page" || echo "$page: does not name the kit's crate $kit, which the top call's contract reaches"; done
    fi
)
[ -z "$found" ] && exit 0
printf '%s\n' "$found"
exit 1
