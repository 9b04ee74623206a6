#!/usr/bin/env bash
# round_trip.sh SHOW WRITE RULE..: what the program SHOW prints of a rule file, the program WRITE turns into the writer's file of the same
# rule, which is what `tidy` makes of an accepted one; so it is the file itself, where it has no preface but names. What is shown of that
# file is the same text. A file that is refused is shown or not by the number of its refusal. Event tables stand beside their rules.
set -euo pipefail
show=$1 write=$2
shift 2
work=$(mktemp -d)
trap 'rm -rf "$work"' EXIT
fail() { echo "round trip: $1"; exit 1; }
rules=0 tables=0 refused=0
for file in "$@"; do
    status=0
    "$show" check "$file" > "$work/checked" 2> "$work/told" || status=$?
    if [ $status = 2 ]; then
        number=$(grep -o 'refused [0-9]*' "$work/told" | head -n 1)
        status=0
        "$show" show "$file" > "$work/text" 2> /dev/null || status=$?
        [ $status = 2 ] || fail "$file: refused, and show answers $status"
        case $number in
        'refused 11' | 'refused '2[0-3]) tail -n 1 "$work/text" | grep -q '^initial s[0-7]$' || fail "$file: $number, and not shown" ;;
        *) [ ! -s "$work/text" ] || fail "$file: $number, and shown" ;;
        esac
        refused=$((refused + 1))
        continue
    fi
    "$show" show "$file" > "$work/text" || fail "$file: not shown"
    "$write" write "$work/text" > "$work/back.rule" || fail "$file: its text is not written"
    "$show" tidy "$file" | cmp - "$work/back.rule" || fail "$file: another rule was written"
    preface=$(sed -n 's/^# preface bytes that are not names, left out here: //p' "$work/text")
    tail -c +$((${preface:-0} + 1)) "$file" | cmp - "$work/back.rule" || fail "$file: another file was written"
    "$write" show "$work/back.rule" | diff <(grep -v '^# preface' "$work/text") - || fail "$file: another text is shown of the same rule"
    rules=$((rules + 1))
    table=${file%.rule}.events
    [ -e "$table" ] || continue
    "$show" show-events "$file" "$table" > "$work/text" || fail "$table: not shown"
    "$write" write-events "$file" "$work/text" > "$work/back.events" || fail "$table: its text is not written"
    cmp "$table" "$work/back.events" || fail "$table: another table was written"
    tables=$((tables + 1))
done
echo "round trip: $rules rules, $tables event tables, $refused refused files"
