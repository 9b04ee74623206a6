#!/usr/bin/env bash
# combine.sh TOOL OTHER FOLDER: `and`, `or` and `not` on the random rules of FOLDER, 0.rule and on, which have two letters. What TOOL makes of
# rules accepts the words that it should: each is judged by OTHER on the rules and on what was made of them. By `equal` a rule is that of
# `not not`, and De Morgan's laws hold, but a rule is not equal to its `not`. Both programs print the same texts of what they make, and give the
# same reasons for each word.
set -euo pipefail
tool=$(realpath "$1") other=$(realpath "$2")
cd "$3"
words=()
for lead in '' 0 1 0,1 1,0,0; do
    for cycle in 0 1 0,1 0,0,1 1,1,0 0,1,1,1,0; do words+=("$lead:$cycle"); done
done
fail() { echo "combine: $1"; exit 1; }
# verdicts FILE: yes or no for each word, a line each
verdicts() { "$other" judge "$1" "${words[@]}" 2> /dev/null | awk '{ print $2 }' || true; }
# make OUT COMMAND RULE..: 1 where the rule would be too large
make() {
    local status=0
    "$tool" "$2" --out="$1" "${@:3}" > made 2> refused || status=$?
    [ $status = 0 ] && return 0
    [ $status = 2 ] && grep -qE 'refused (3|8):' refused || fail "$*: status $status, $(cat refused)"
    return 1
}
# table TEST RULE..: the verdicts on the last rule are what awk makes of those on the others
table() {
    local columns=() rule
    for rule in "${@:2}"; do verdicts "$rule" > "$rule.verdicts"; columns+=("$rule.verdicts"); done
    paste -d ' ' "${columns[@]}" | awk -v words=${#words[@]} "{ n++ } !($1) { print; wrong = 1 } END { exit wrong || n != words }" || fail "$*: other words"
    judged=$((judged + ${#words[@]}))
}
# alike COMMAND..: both programs print the same and have the same exit status
alike() {
    local one=0 two=0
    "$tool" "$@" > one 2> /dev/null || one=$?
    "$other" "$@" > two 2> /dev/null || two=$?
    [ $one = $two ] && cmp -s one two || fail "$*: the two programs differ"
    compared=$((compared + 1))
}
equal() { "$tool" equal --quiet "$1" "$2" || fail "$1 and $2 are not equal"; equals=$((equals + 1)); }
made=0 judged=0 equals=0 compared=0
count=$(ls [0-9]*.rule | wc -l)
for ((i = 0; i < count; i++)); do
    a=$i.rule b=$(((i + 1) % count)).rule
    alike not $a
    alike and $a $b
    alike or $b $a
    alike judge --why $a "${words[@]}"
    if make not_a.rule not $a; then
        made=$((made + 1))
        table '($1 == "yes") == ($2 == "no")' $a not_a.rule
        if "$tool" equal --quiet $a not_a.rule; then fail "$a is equal to its not"; fi
        if make back.rule not not_a.rule; then equal back.rule $a; fi
    fi
    if make and.rule and $a $b; then
        made=$((made + 1))
        table '($3 == "yes") == ($1 == "yes" && $2 == "yes")' $a $b and.rule
    fi
    if make or.rule or $a $b; then
        made=$((made + 1))
        table '($3 == "yes") == ($1 == "yes" || $2 == "yes")' $a $b or.rule
    fi
    if make and.rule and $a $b && make not_and.rule not and.rule && make not_a.rule not $a && make not_b.rule not $b && make or_not.rule or not_a.rule not_b.rule; then
        equal not_and.rule or_not.rule
    fi
done
[ $made -gt $count ] && [ $equals -gt $count ] || fail "only $made rules made, $equals found equal"
echo "combine: $made rules made of $count, $judged words judged on them, $equals times equal by not not and De Morgan; $compared answers of both programs"
