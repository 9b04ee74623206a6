#!/usr/bin/env bash
# rules.sh TOOL CHANCE DOCS FOLDER: the texts of the cookbook, DOCS/RULES.md, are what it says. A text behind a line `<!-- rule: NAME -->` is
# written, byte for byte, as the file FOLDER/NAME; TOOL judges the words in the lines `Accepts:` and `Rejects:` behind it so, and CHANCE reads
# off it, with equal weights, the figure of the line `Chance:`. A text behind `<!-- refused: N -->` is refused by N; one behind
# `<!-- no room: N -->` is a rule whose build is. The commands `mulgreddi-chance` in DOCS/CHANCE.md print what stands there; what it shows besides of
# the output of CHANCE stands in its stored output.
set -euo pipefail
tool=$1 chance=$2 cookbook=$3/RULES.md page=$3/CHANCE.md folder=$4
work=$(mktemp -d)
trap 'rm -rf "$work"' EXIT
fail() { echo "$cookbook: $1"; exit 1; }

rules=0 refused=0 words=0 runs=0 marked=0 name='' number='' full='' told='' inside=0

# a rule is left when all three of its lines have been seen
leave() { [ -z "$name" ] || [ "$told" = 'Accepts Rejects Chance ' ] || fail "$name: not the lines Accepts, Rejects, Chance, but: $told"; }

# judge STATUS LINE: every word in backquotes has this exit status
judge() {
    local some=0 word status
    while IFS= read -r word; do
        status=0
        "$tool" judge "$folder/$name" "$word" > "$work/out" 2> "$work/err" || status=$?
        [ $status = "$1" ] || fail "$name: $word: status $status in place of $1: $(cat "$work/out" "$work/err")"
        some=1 words=$((words + 1))
    done < <(grep -o '`[^`]*`' <<< "$2" | tr -d '`')
    [ $some = 1 ] || fail "$name: no word in: $2"
}

write() {
    local status=0
    [ $marked = 1 ] || fail "a text without a mark before it: $(cat "$work/text")"
    marked=0
    "$tool" write "$work/text" > "$work/rule" 2> "$work/err" || status=$?
    if [ -n "$full" ]; then
        [ $status = 0 ] || fail "a text is refused: $(cat "$work/err")"
        "$tool" list "$work/rule" > "$work/out" 2> "$work/err" || status=$?
        [ $status = 2 ] && grep -qE "refused $full(:|\$)" "$work/out" "$work/err" || fail "a build is not refused by $full: status $status"
        refused=$((refused + 1)) full=''
    elif [ -n "$number" ]; then
        [ $status = 2 ] && grep -qE "refused $number(:|\$)" "$work/err" || fail "a text is not refused by $number: status $status, $(cat "$work/err")"
        refused=$((refused + 1)) number=''
    else
        [ $status = 0 ] || fail "$name: status $status, $(cat "$work/err")"
        cmp "$work/rule" "$folder/$name" || fail "$name: the text is another rule than the file"
        rules=$((rules + 1))
    fi
}

while IFS= read -r line; do
    case $line in
    '<!-- rule: '*' -->') leave; marked=1 name=${line#<!-- rule: } name=${name% -->} told='' ;;
    '<!-- refused: '*' -->') leave; marked=1 name='' number=${line#<!-- refused: } number=${number% -->} ;;
    '<!-- no room: '*' -->') leave; marked=1 name='' full=${line#<!-- no room: } full=${full% -->} ;;
    '```') inside=$((1 - inside)); if [ $inside = 1 ]; then : > "$work/text"; else write; fi ;;
    '- Accepts: '*) judge 0 "$line"; told+='Accepts ' ;;
    '- Rejects: '*) judge 1 "$line"; told+='Rejects ' ;;
    '- Chance: '*)
        figure=$("$chance" "$folder/$name" '*=1' | sed -n 's/^  chance \([^,]*\),.*/\1/p')
        [ "$line" = "- Chance: $figure" ] || fail "$name: the chance is $figure"
        told+='Chance ' ;;
    *) if [ $inside = 1 ]; then printf '%s\n' "$line" >> "$work/text"; fi ;;
    esac
done < "$cookbook"
leave
[ $inside = 0 ] && [ $rules -gt 0 ] && [ $refused -gt 0 ] || fail 'no texts, or one that does not end'

# the commands of CHANCE.md, run in FOLDER, and the lines behind each
command=''
held() {
    [ -n "$command" ] || return 0
    (cd "$folder" && PATH=$work:$PATH && eval "$command") > "$work/out" 2>&1 || true
    diff "$work/shown" "$work/out" || fail "CHANCE.md: not what is printed: $command"
    runs=$((runs + 1)) command=''
}
ln -s "$(realpath "$chance")" "$work/mulgreddi-chance"
while IFS= read -r line; do
    case $line in
    '    $ mulgreddi-chance '*) held; command=${line#'    $ '}; : > "$work/shown" ;;
    '    '*) if [ -n "$command" ]; then printf '%s\n' "${line#'    '}" >> "$work/shown"
        elif grep -qE '^(  |Right|Wrong)' <<< "${line#'    '}"; then
            grep -Fxq -e "${line#'    '}" "$folder/chance.expected" || fail "CHANCE.md: not in the output: $line"
        fi ;;
    *) held ;;
    esac
done < "$page"
held
[ $runs -gt 0 ] || fail 'CHANCE.md: no commands'
echo "cookbook: $rules rules, as written, with $words words and their chances; $refused texts refused; $runs commands of CHANCE.md"
