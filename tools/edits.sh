#!/usr/bin/env bash
# The must-fail edits: wrong versions of the code or of a definition that the prover must refuse, crates/NAME/must-fail/LABEL.edit.
#   edits.sh check   each edit begins with a line that tells the wrong version, and each text that it replaces stands once in its file;
#                    `rt ci` would say so only after everything is proved
#   edits.sh refused LOG   the line `rt: ok` of this log of `rt ci` tells that every edit was refused, and none was bad
#   edits.sh table   prints docs/EDITS.md, from the first line of each edit
set -euo pipefail
export LC_ALL=C
cd "$(dirname "$0")/.."
edits() { find crates -path '*/must-fail/*.edit' -not -path 'crates/*/out/*' | sort; }

check() {
    edits | awk '
    function bad(what) { print edit ": " what > "/dev/stderr"; faults++ }
    # the text of a file of the crate, as the pairs before have left it
    function load(path,    line, text) {
        if (path in texts) return
        text = ""
        while ((getline line < path) > 0) text = text line "\n"
        close(path)
        texts[path] = text
    }
    {
        edit = $0
        crate = edit
        sub(/\/must-fail\/.*/, "", crate)
        split("", texts)
        path = ""; old = ""; pairs = 0; number = 0
        while ((getline line < edit) > 0) {
            number++
            if (number == 1 && line !~ /^# ./) bad("its first line does not tell the wrong version")
            if (line ~ /^file: /) { path = crate "/" substr(line, 7); load(path) }
            else if (line ~ /^old: /) old = substr(line, 6)
            else if (line ~ /^new:/) {
                new = substr(line, 5)
                sub(/^ /, "", new)
                at = old == "" ? 0 : index(texts[path], old)
                if (!at) bad("its text does not stand in " path ": " old)
                else {
                    rest = substr(texts[path], at + length(old))
                    if (index(rest, old)) bad("its text stands more than once in " path ": " old)
                    texts[path] = substr(texts[path], 1, at - 1) new rest
                }
                old = ""; pairs++
            }
        }
        close(edit)
        if (!pairs) bad("it replaces nothing")
        edits++
    }
    END {
        if (faults) exit 1
        print edits " must-fail edits apply"
    }'
}

# by the subjects of tools/subjects.txt
table() {
    edits | awk '
    BEGIN {
        while ((getline line < "tools/subjects.txt") > 0) {
            if (line == "" || line ~ /^#/) continue
            split(line, column, "|")
            title[++titles] = column[2]
            m = split(column[1], word, " ")
            for (j = 1; j <= m; j++) subject[word[j]] = titles
        }
    }
    {
        split($0, part, "/")
        crate = part[2]; label = part[4]
        sub(/\.edit$/, "", label)
        found = 0; longest = 0
        for (p in subject) if (index(crate, p) == 1 && length(p) > longest) { longest = length(p); found = subject[p] }
        if (!found) { print crate ": no subject in tools/subjects.txt" > "/dev/stderr"; faults++; next }
        getline told < $0
        defined = 0
        while ((getline line < $0) > 0) if (line ~ /^file: specs\//) defined = 1
        close($0)
        sub(/^# /, "", told)
        if (defined && told !~ /^(defined|computed): /) told = "defined: " told
        gsub(/\|/, "\\|", told)
        rows[found] = rows[found] "| " told " | " crate "/" label " |\n"
        count++
    }
    END {
        if (faults) exit 1
        print "# Wrong versions that the prover refuses"
        print ""
        print "Each line is a must-fail edit: a wrong version of the code or, where it says \"defined\" or \"computed\", of a contract or a definition. The gate tries all of them, and the"
        print "prover has to refuse each. `tools/edits.sh table` writes this page from the first line of each edit, crates/CRATE/must-fail/LABEL.edit. There are " count "."
        for (i = 1; i <= titles; i++) if (rows[i] != "") {
            print "\n## " title[i] "\n\n| wrong version | edit |\n|---|---|"
            printf "%s", rows[i]
        }
    }'
}

# `rt ci` lets a bad edit pass, one that cannot be applied, compiled or read
refused() {
    local there told
    there=$(edits | wc -l)
    told=$(grep '^rt: ok; ' "$1") || { echo "$1: no line begins with rt: ok" >&2; return 1; }
    if grep -qE '[,;:] [1-9][0-9]* bad\b' <<< "$told" || ! grep -qE "; must-fail edits: $there refused\b" <<< "$told"; then
        echo "of $there must-fail edits not every one was refused for what it says: $told" >&2
        return 1
    fi
    echo "$there must-fail edits refused"
}

case "${1:-}" in
check) check ;;
refused) refused "${2:?no log}" ;;
table) table ;;
*) sed -n '2,/^set/{/^#/s/^# \{0,1\}//p}' "$0" >&2; exit 2 ;;
esac
