#!/usr/bin/env bash
# chance_wrong.sh PROGRAM FOLDER: PROGRAM, which works on tables that are not right, tells no chance.
set -euo pipefail
program=$1 folder=$2 tried=0
# SPOILT, what is told
tells() {
    local status=0 said
    said=$(SPOILT=$1 "$program" "$folder/before.rule" '*=1' 2>&1 > /dev/null) || status=$?
    [ -z "$(SPOILT=$1 "$program" "$folder/before.rule" '*=1' 2> /dev/null)" ] || { echo "$1: a chance is told"; exit 1; }
    [ $status = 3 ] && [[ $said == *"$2"* ]] || { echo "$1: status $status: $said"; exit 1; }
    tried=$((tried + 1))
}
tells lost 'the chance of the accepted words, 0, and that of the rejected ones, 0.5, do not add up to 1'
tells added 'the table has two cores before one'
[ "$("$program" "$folder/before.rule" '*=1' | sed -n 's/^  chance \([^,]*\),.*/\1/p')" = 0.5 ]
echo "chance: $tried tables that are not right are noticed"
