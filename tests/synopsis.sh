#!/usr/bin/env bash
# synopsis.sh TOOL MAN: the synopsis of the man page is that of `--help`, and the page tells of every command.
set -euo pipefail
tool=$1 page=$2
# a macro of one font sets its words apart, one of two fonts does not; .br ends a line
printed=$(awk '
    function plain(text) { gsub(/\\f[A-Z]/, "", text); gsub(/\\-/, "-", text); return text }
    /^\.SH/ { on = $2 == "SYNOPSIS"; next }
    !on { next }
    $1 == ".br" { print line; line = ""; next }
    { words = ""; gap = $1 ~ /^\.[BI]$/ ? " " : ""
      if ($1 ~ /^\.([BI]|[BIR][BIR])$/) for (i = 2; i <= NF; i++) words = words (i > 2 ? gap : "") $i; else words = $0
      line = line (line == "" ? "" : " ") plain(words) }
    END { print line }' "$page" | grep -v '^mulgreddi-listing ')
listed=$("$tool" --help | sed -n 's/^  \([a-z-]*\) */mulgreddi \1 /p')
diff <(echo "$listed") <(echo "$printed") || { echo "$page: the synopsis is not that of --help"; exit 1; }
told=$(awk '/^\.SH/ { on = $2 == "COMMANDS"; next } on && tp { gsub(/"[^"]*"/, ""); for (i = 2; i <= NF; i++) print $i } { tp = $1 == ".TP" }' "$page")
for command in $(awk '{ print $2 }' <<< "$listed"); do
    grep -qx "$command" <<< "$told" || { echo "$page: nothing is told of $command"; exit 1; }
done
echo "synopsis: $(wc -l <<< "$listed") commands, in the man page as in --help"
