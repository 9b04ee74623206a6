#!/usr/bin/env bash
# What the documents name exists, and what they count is so. Nothing has to be proved for it.
#   documents.sh          every fault on standard error
set -euo pipefail
export LC_ALL=C.UTF-8
cd "$(dirname "$0")/.."
mkdir -p build/documents
faults=0
fault() { printf '%s\n' "$*" >&2; faults=$((faults + 1)); }
texts=(README.md docs/PROOF.md docs/HOW.md docs/DECISIONS.md docs/LANDINGS.md docs/CONTRIBUTING.md docs/SPEED.md docs/FORMAT.md docs/RULES.md docs/CHANCE.md)
for t in "${texts[@]}"; do [ -f "$t" ] || fault "$t: is not there"; done
code=(README.md docs/PROOF.md docs/HOW.md docs/DECISIONS.md docs/CONTRIBUTING.md tools/subjects.txt)
# the texts that tell the tree as it is: LANDINGS and CHANGELOG tell what was
present=("${code[@]}" docs/SPEED.md docs/FORMAT.md docs/RULES.md docs/CHANCE.md docs/EDITS.md crates/README.md second/README.md compare/README.md)

# ---- names of definitions, theorems, functions and crates
# all words of the tree without its comments, once each; crates/NAME/out is what `rt` leaves, with copies of other crates' files
words=build/documents/words
{ find crates -not -path 'crates/*/out/*' -name '*.antt' -exec sed 's/--.*//' {} +; find crates -not -path 'crates/*/out/*' -name '*.rt' -exec sed 's,//.*,,' {} +; cat include/mulgreddi.h tools/*.[ch] tools/install.sh Makefile; } |
    grep -oE "[A-Za-z_][A-Za-z0-9_'′₁₂-]*" | sort -u > "$words"
sed -n 's/^\([a-z][a-z0-9_]*\)\( staticlib\)\{0,1\}:.*/\1/p' crates.txt | sort > build/documents/crates
sort -u "$words" build/documents/crates > build/documents/known
git ls-files | sed 's,.*/,,' | sort -u > build/documents/tracked
for t in "${code[@]}"; do
    [ -f "$t" ] || continue
    # a word between backquotes, a path `crate::function`, a field `Record.field`, a file `name.c`, an ending `_of_a_name`; the rest is no name
    { grep -v '^    ' "$t" | grep -oE '`[^`]+`' || true; } | tr -d '`' | { grep -E "^[A-Za-z_][A-Za-z0-9_:.'′₁₂-]*$" || true; } | sed 's/.*:://' | sort -u > build/documents/named
    files='\.(c|h|sh|rs|cpp|md|rule|txt|rt)$'
    { grep -E "$files" build/documents/named || true; } | comm -23 - build/documents/tracked | sed "s,^,$t: no such file: ,"
    { grep -vE "$files|^_" build/documents/named || true; } | tr '.' '\n' | { grep . || true; } | sort -u | comm -23 - build/documents/known | sed "s,^,$t: no such name: ,"
    { grep '^_' build/documents/named || true; } | while read -r name; do grep -qE -- "$name\$" "$words" || echo "$t: no name ends so: $name"; done
done > build/documents/names
# ---- words with an underscore, wherever they stand: a name of the tree, an edit, a file or folder (with or without its ending), a word of the programs beside it
{
    cat build/documents/known
    git ls-files second compare bench tests tools examples | { grep -E '\.(rs|c|h|cpp|sh|py|toml)$' || true; } | { grep -vx tests/documents.sh || true; } | xargs cat | grep -oE '[A-Za-z0-9_]+'
    git ls-files | tr '/' '\n' | sed 'p; s/\.[a-z]*$//'
} | grep _ | sort -u > build/documents/underscored
for t in "${present[@]}"; do
    [ -f "$t" ] || { echo "$t: is not there"; continue; }
    # an indented block is a session or a text of a user's, and an ending in backquotes is held above
    { grep -v '^    ' "$t" | grep -oE '[A-Za-z0-9_][A-Za-z0-9_.-]*\.(c|h|sh|rs|cpp|py|md|rt|antt)\b' || true; } | { grep -v '^NAME\.' || true; } | sort -u | comm -23 - build/documents/tracked | sed "s,^,$t: no such file: ,"
    { grep -v '^    ' "$t" | sed -E 's/`_[^`]*`//g' | grep -oE '[A-Za-z0-9]+(_[A-Za-z0-9]+)+' || true; } | sort -u | comm -23 - build/documents/underscored | sed "s,^,$t: no crate\, function or file: ,"
done > build/documents/loose
# ---- files and edits, as crate/specs/File, crate/proofs/File, crate/src, crate/edit
for t in "${code[@]}"; do
    [ -f "$t" ] || continue
    { grep -oE '\b[a-z][a-z0-9_]*/[A-Za-z0-9_]+(/[A-Za-z0-9_]+)*' "$t" || true; } | sort -u | while IFS=/ read -r crate part rest; do
        [ -d "crates/$crate" ] || continue
        # build/ has what make leaves, and mulgreddi/ is a place of an installation
        case $crate/$part in build/libmulgreddi | build/listing | build/log | build/mulgreddi | mulgreddi/bin | mulgreddi/lib) continue ;; esac
        case $part in
        specs | proofs | src)
            at=crates/$crate/$part${rest:+/$rest}
            [ -e "$at" ] || [ -e "$at.antt" ] || [ -e "$at.rt" ] || echo "$t: no such file: $crate/$part/$rest" ;;
        must-fail) ;;
        *) [ -e "crates/$crate/must-fail/$part.edit" ] || [ -e "crates/$crate/$part" ] || [ -e "crates/$crate/specs/$part.antt" ] ||
            [ -e "crates/$crate/proofs/$part.antt" ] || [ -d "crates/$crate/proofs/$part" ] || echo "$t: no such edit or file: $crate/$part" ;;
        esac
    done
done > build/documents/files
# ---- the map of docs/PROOF.md, section 1: what a definition is called stands in one of the files beside it, or in one that its cell names
awk -F' [|] ' '
    function text(path,    line, all) {
        if (path in known) return known[path]
        all = " "
        while ((getline line < path) > 0) all = all line " "
        close(path)
        return known[path] = all
    }
    /^## / { on = /^## 1\./ }
    on && /^[|] / && NF == 3 && $3 !~ /^(file|---)/ {
        found = " "; crate = ""; cell = $2
        gsub(/`[^`]*`/, "", cell)
        m = split($3 ", " cell, part, /[;,()|] */)
        for (i = 1; i <= m; i++) {
            gsub(/[ |]+$/, "", part[i])
            name = part[i]; whole = 0
            if (match(name, /^[a-z][a-z0-9_]*\/(specs|proofs|src)/)) { crate = substr(name, 1, RLENGTH); name = substr(name, RLENGTH + 2); whole = name == "" }
            if (crate != "" && name ~ /^[A-Z][A-Za-z0-9]*$/) found = found text("crates/" crate "/" name ".antt")
            if (whole) {
                list = "find crates/" crate " -type f -not -path \"crates/*/out/*\""
                while ((list | getline path) > 0) found = found text(path)
                close(list)
            }
        }
        m = split($2, piece, "`")
        for (i = 2; i <= m; i += 2) {
            name = piece[i]; sub(/\..*/, "", name)
            if (!index(found, name)) print FILENAME ":" FNR ": " name " is in none of these files: " $3
        }
    }' docs/PROOF.md > build/documents/map
# ---- theorems with their file in parentheses, "(`one_parent`, OneParent)" or "(Pursuit, `unique`)": some file of that name has each
find crates \( -path '*/specs/*.antt' -o -path '*/proofs/*.antt' \) -not -path 'crates/*/out/*' | awk '
    function words_of(file,    line, all, i, m, at) {
        if (file in known) return known[file]
        all = " "
        m = split(paths[file], at, " ")
        for (i = 1; i <= m; i++) { while ((getline line < at[i]) > 0) { sub(/--.*/, "", line); gsub(/[^A-Za-z0-9_-]+/, " ", line); all = all line " " } close(at[i]) }
        return known[file] = all
    }
    NR == FNR { name = $0; sub(/.*\//, "", name); sub(/\.antt$/, "", name); paths[name] = paths[name] " " $0; next }
    {
        rest = $0
        while (match(rest, /\([^()]*\)/)) {
            group = substr(rest, RSTART + 1, RLENGTH - 2); rest = substr(rest, RSTART + RLENGTH)
            parts = split(group, part, ";")
            for (p = 1; p <= parts; p++) {
                if (part[p] ~ /[a-z0-9_]\/(specs|proofs)/) continue
                all = ""; files = ""; pieces = split(part[p], piece, "`")
                for (i = 1; i <= pieces; i += 2) {
                    m = split(piece[i], word, /[ ,]+/)
                    for (j = 1; j <= m; j++) if (word[j] in paths) { files = files " " word[j]; all = all words_of(word[j]) }
                }
                if (all == "") continue
                for (i = 2; i <= pieces; i += 2) {
                    name = piece[i]; sub(/.*\./, "", name); gsub(/[^A-Za-z0-9_-]+/, " ", name); sub(/ $/, "", name)
                    if (name !~ / / && !index(all, " " name " ")) print FILENAME ":" FNR ": `" piece[i] "` is not in" files
                }
            }
        }
    }' - docs/HOW.md docs/PROOF.md docs/DECISIONS.md > build/documents/theorems
# ---- README's table of the C entries: every entry stands there, and an example of its row calls it
grep -oE '^(mulgreddi_[a-z]+|uint32_t) mulgreddi_[a-z_]+\(' include/mulgreddi.h | sed 's/.* //; s/(//' | while read -r entry; do
    row=$(grep -E "^\| .*\`(mulgreddi)?${entry#mulgreddi}\`.* \|.* \|.* \|$" README.md | head -1 || true)
    [ -n "$row" ] || { echo "README.md: no row for $entry"; continue; }
    shown=0
    for example in $(sed 's/.*| //' <<< "${row% |}" | { grep -oE '[a-z]+\.c' || echo '*.c'; }); do
        ! grep -qE "\b$entry\b" examples/$example || shown=1
    done
    [ $shown = 1 ] || echo "README.md: no example of its row calls $entry"
done > build/documents/entries
# ---- links to files
for t in "${texts[@]}" docs/CHANGELOG.md docs/history/*.md crates/README.md docs/EDITS.md second/README.md compare/README.md; do
    [ -f "$t" ] || continue
    { grep -oE '\]\([^)# ]+' "$t" || true; } | sed 's/^](//' | sort -u | while read -r link; do
        case $link in http*) ;; *) [ -e "$(dirname "$t")/$link" ] || echo "$t: no such link: $link" ;; esac
    done
done > build/documents/links
# ---- sections that are cited: "HOW.md, section 4", "section 4 of HOW", or a section of the text itself; and the anchors of links
numbered() { sed -nE 's/^##+ ([0-9]+)\. .*/\1/p' "$1"; }
anchors() { sed -nE 's/^#+ +//p' "$1" | sed -E 's/[^A-Za-z0-9 _-]//g; s/ /-/g' | tr 'A-Z' 'a-z'; }
cites='((00[0-9]|paper)[^ ]*,? |[A-Z]{3,}(\.md)?[])A-Za-z.(/]*,? )?[Ss]ections? [0-9]+(\.[0-9]+)?((, [0-9]+)*,? (and|to|or) [0-9]+)?( of \[?(docs/)?[A-Z]{3,})?'
{
    git ls-files -- '*.antt' '*.rt' '*.[ch]' '*.rs' '*.sh' '*.py' Makefile '*.md' '*.txt' | { grep -vxE 'docs/0[12]-.*|docs/LANDINGS.md|docs/history/.*|tests/documents.sh' || true; } | xargs grep -HoE "$cites" || true
    grep -HoE "$cites" docs/LANDINGS.md || true
} | sort -u | while IFS=: read -r t cite; do
    case $cite in 00[0-9]* | paper*) continue ;; esac
    of=$(grep -oE '[A-Z]{3,}' <<< "$cite" | head -1 || true)
    in=${of:+docs/$of.md}; in=${in:-$t}; [ "$of" != README ] || in=README.md
    [ -f "$in" ] || { echo "$t: $cite: no such text: $in"; continue; }
    for n in $(sed -E 's/.*[Ss]ections? ([0-9., andtor]*).*/\1/; s/[a-z,]/ /g' <<< "$cite"); do
        numbered "$in" | grep -qxF -- "$n" || echo "$t: no such section of $in: $n"
    done
done > build/documents/sections
for t in "${texts[@]}" docs/CHANGELOG.md docs/history/*.md crates/README.md docs/EDITS.md second/README.md compare/README.md; do
    [ -f "$t" ] || continue
    { grep -oE '\]\([^) ]*#[^) ]+' "$t" || true; } | sed 's/^](//' | sort -u | while IFS='#' read -r link anchor; do
        case $link in http*) continue ;; esac
        at=${link:+$(dirname "$t")/$link}; at=${at:-$t}
        { [ -f "$at" ] && anchors "$at" | grep -qxF -- "$anchor"; } || echo "$t: no such heading: $link#$anchor"
    done
done >> build/documents/sections
# ---- headings that are cited by their words: docs/FORMAT.md, "A rule as text"
git ls-files -- '*.antt' '*.rt' '*.[ch]' '*.rs' '*.sh' '*.py' Makefile '*.md' '*.txt' | { grep -vxE 'docs/0[12]-.*|tests/documents.sh' || true; } |
    { xargs grep -HoE '\b[A-Z]{3,}\.md\)?, \\?"[^"\\]+' || true; } | sort -u | while IFS=: read -r t cite; do
    of=${cite%%.md*} title=${cite#*\"}
    in=docs/$of.md; [ "$of" != README ] || in=README.md
    grep -qE "^#+ ([0-9]+\. )?${title//./\\.}\$" "$in" || echo "$t: no such heading of $in: $title"
done >> build/documents/sections
# ---- decisions that are cited
sed -n 's/^- \*\*\([0-9]*\)\..*/\1/p' docs/DECISIONS.md > build/documents/numbers
sort build/documents/numbers > build/documents/decisions
list='[0-9]+((, | and | or | to )[0-9]+)*'
{
    # "DECISIONS 5, 12 and 13", "[docs/DECISIONS.md](docs/DECISIONS.md), 52", "decision 88", "88 of DECISIONS", and in its own text "see 102", "point 52" and the table of requests
    git ls-files -- '*.antt' '*.rt' '*.[ch]' '*.rs' '*.sh' '*.py' Makefile '*.md' '*.txt' | { grep -vxE 'docs/0[12]-.*|tests/documents.sh' || true; } |
        xargs grep -HoE "DECISIONS(\.md)?[])A-Za-z.(/]*,? (points? )?$list|[Dd]ecisions? $list|\b$list of \[?(docs/)?DECISIONS" || true
    grep -HoE "(\bsee|[Pp]oints?) $list" docs/DECISIONS.md || true
    # a point "**Title** (33)" of HOW or SPEED
    { grep -HoE "^- \*\*[^*]*\*\* \($list\)" docs/HOW.md docs/SPEED.md || true; } | sed 's/:.*\*\* /:/'
    sed -nE 's/^\| (01|M-[0-9]+|[0-9]+) \| ([0-9][0-9, to]*) \|$/docs\/DECISIONS.md:\2/p' docs/DECISIONS.md
} | sort -u | while IFS=: read -r t cite; do
    { grep -oE "$list" <<< "$cite" || true; } | sed 's/, \| and \| or \| to /\n/g' | sort -u | comm -23 - build/documents/decisions | sed "s,^,$t: no such decision: ,"
done > build/documents/cited
uniq -d build/documents/decisions | sed 's/^/docs\/DECISIONS.md: twice: /' > build/documents/twice
awk '$1 + 0 < last + 0 { print "docs/DECISIONS.md: " $1 " stands behind " last } { last = $1 }' build/documents/numbers >> build/documents/twice
# ---- counts: crates, edits, entries, the files and lines of the reading list
crates=$(wc -l < build/documents/crates)
edits=$(find crates -path '*/must-fail/*.edit' -not -path 'crates/*/out/*' | wc -l)
entries=$(grep -cE '^(mulgreddi_[a-z]+|uint32_t) mulgreddi_[a-z_]+\(' include/mulgreddi.h)
{
    # a figure before one of these words is one of the tree as it is; DECISIONS tells what was counted when something was decided
    for t in "${present[@]}"; do
        [ -f "$t" ] && [ "$t" != docs/DECISIONS.md ] || continue
        { grep -oE '\b[0-9][0-9,]* (crates\b|must-fail edits|edits\b|wrong versions|passed, 0 failed|C entries)' "$t" || true; } |
            sort -u | while read -r n what; do
            case $what in
            crates) is=$crates ;;
            must-fail* | edits | wrong*) is=$edits ;;
            passed*) is=$((crates + edits)) ;;
            C*) is=$entries ;;
            esac
            [ "${n//,/}" = "$is" ] || echo "$t: $n $what, the tree has $is"
        done
    done
    grep -q "There are $edits\." docs/EDITS.md || echo "docs/EDITS.md: does not say that there are $edits"
    # rows of the reading list: subject | crate: File, File; crate: File | lines
    files=0 lines=0 told=0
    while IFS='|' read -r _ subject list count _; do
        n=0
        while read -r crate names; do
            for name in ${names//,/ }; do
                file=crates/$crate/specs/$name.antt
                [ -f "$file" ] || { echo "docs/PROOF.md: the reading list names $crate: $name, which is not there"; continue; }
                long=$(wc -l < "$file"); n=$((n + long)); files=$((files + 1)); told=$((told + $(grep -cvE '^ *$|^use ' "$file")))
                [ "$long" -lt 100 ] || grep -qF "$crate/specs/$name ($long, of which $(grep -c '^use ' "$file") are \`use\`)" docs/PROOF.md ||
                    echo "docs/PROOF.md: the reading list has $crate/specs/$name, $long lines, $(grep -c '^use ' "$file") of them \`use\`"
            done
        done < <(tr ';' '\n' <<< "$list" | sed 's/://')
        lines=$((lines + n))
        [ "$n" -eq $((count)) ] || echo "docs/PROOF.md: the reading list counts$count lines for$subject, there are $n"
    done < <(awk '/^\*\*The reading list/ { on = 1 } on && /^\| / && !/^\| subject/ { print; seen = 1 } on && seen && !/^\|/ { exit }' docs/PROOF.md)
    said="$files files, $(printf "%'d" $lines) lines, of which $(printf "%'d" $told) are neither blank nor"
    LC_ALL=C grep -qF "$(echo "$said" | sed ':a;s/\B[0-9]\{3\}\b/,&/;ta')" docs/PROOF.md || echo "docs/PROOF.md: the reading list has $said \`use\`"
} > build/documents/counts
# ---- what PROOF says of the code's form, which no contract holds: 01's labelled loop, and where the toolchain's `check::same` compares
grep -qx "    'clauses: loop {" crates/rule_entries/src/lib.rt && grep -qx "                continue 'clauses;" crates/rule_entries/src/lib.rt ||
    fault "docs/PROOF.md: no label leaves a clause in crates/rule_entries"
for crate in rule_same sheet_cycles; do
    grep -qrx 'use check::same;' "crates/$crate/src" || fault "docs/PROOF.md: $crate does not use check::same"
done
parts=(build/documents/{names,loose,files,map,theorems,entries,links,sections,cited,twice,counts})
cat "${parts[@]}" >&2
faults=$((faults + $(cat "${parts[@]}" | wc -l)))
[ "$faults" -eq 0 ] || { echo "$faults faults in the documents" >&2; exit 1; }
echo 'the documents name what there is'
