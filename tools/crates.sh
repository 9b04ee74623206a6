#!/usr/bin/env bash
# Prints crates/README.md, the map of the crates: for each subject of tools/subjects.txt its crates in the order of crates.txt, from below,
# each with the head comment of its source. It fails where a crate has no subject or no head comment.
set -euo pipefail
export LC_ALL=C
cd "$(dirname "$0")/.."
sed -n 's/^\([a-z][a-z0-9_]*\)\( staticlib\)\{0,1\}:.*/\1/p' crates.txt | awk '
BEGIN {
    while ((getline line < "tools/subjects.txt") > 0) {
        if (line == "" || line ~ /^#/) continue
        split(line, column, "|")
        title[++titles] = column[2]; told[titles] = column[3]
        m = split(column[1], word, " ")
        for (j = 1; j <= m; j++) subject[word[j]] = titles
    }
}
{
    crate = $1; found = 0; longest = 0
    for (p in subject) if (index(crate, p) == 1 && length(p) > longest) { longest = length(p); found = subject[p] }
    if (!found) { print crate ": no subject in tools/subjects.txt" > "/dev/stderr"; faults++; next }
    path = "crates/" crate "/src/lib.rt"
    if ((getline line < path) < 0) { path = "crates/" crate "/src/main.rt"; getline line < path }
    head = ""
    do { if (line !~ /^\/\/ /) break; head = head " " substr(line, 4) } while ((getline line < path) > 0)
    close(path)
    if (head == "") { print path ": no head comment" > "/dev/stderr"; faults++; next }
    gsub(/\|/, "\\|", head)
    rows[found] = rows[found] "| " crate " |" head " |\n"
    count++
}
END {
    if (faults) exit 1
    print "# The crates"
    print ""
    print "The map: " count " crates by subject, in the order of the data, from a file to an answer in C. `tools/crates.sh` writes this page from tools/subjects.txt and the head comment of each crate."
    print ""
    print "A name begins with its subject. One that ends in `_spec` has the definitions under the code of that subject, with worked examples. Its laws stand in a crate `_laws` where there is one:"
    print "each must-fail edit proves its crate again, and an edit of a definition should fail at an example. In a crate, specs/NAME.antt has definitions and contracts, src/NAME.rt the code (lib.rt first), proofs/ the laws and"
    print "a folder for each function, must-fail/ the wrong versions. docs/PROOF.md has the list of files that a reader must believe, docs/HOW.md tells how each thing goes."
    for (i = 1; i <= titles; i++) if (rows[i] != "") {
        print "\n## " title[i] "\n\n" told[i] "\n\n| crate | what it has |\n|---|---|"
        printf "%s", rows[i]
    }
}'
