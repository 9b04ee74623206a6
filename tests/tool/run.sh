#!/usr/bin/env bash
# Runs the commands of transcripts and holds what they print to what is stored there.
#   run.sh [--answers] PROGRAM EXAMPLES OUT TRANSCRIPT..
# A line "$ COMMAND" is run by bash in a copy of the folder EXAMPLES, `mulgreddi` being PROGRAM and
# `mulgreddi-chance` the program chance beside it. After it stand its standard output, its
# standard error with "! " before each line, and "= STATUS" where the exit status is not 0. With --answers standard error is left out:
# another program words it otherwise. What is printed now goes to the folder OUT, under the transcript's name.
set -u
answers=0
if [ "$1" = --answers ]; then answers=1; shift; fi
program=$(realpath "$1") examples=$(realpath "$2") out=$3
shift 3
mkdir -p "$out"
work=$(mktemp -d)
trap 'rm -rf "$work"' EXIT
mkdir "$work/bin" "$work/here"
ln -s "$program" "$work/bin/mulgreddi"
ln -s "$(dirname "$program")/chance" "$work/bin/mulgreddi-chance"
PATH=$work/bin:$PATH
failed=0
for transcript in "$@"; do
    for file in "$examples"/*.{rule,events,log}; do
        if [ -e "$file" ]; then cp "$file" "$work/here"; fi
    done
    now=$out/$(basename "$transcript")
    grep '^\$ ' "$transcript" | while IFS= read -r line; do
        printf '%s\n' "$line"
        (cd "$work/here" && bash -o pipefail -c "${line#\$ }" < /dev/null > ../stdout 2> ../stderr)
        status=$?
        cat "$work/stdout"
        [ $answers = 1 ] || sed 's/^/! /' "$work/stderr"
        [ $status = 0 ] || printf '= %d\n' $status
    done > "$now"
    rm -rf "$work/here"/*
    if [ $answers = 1 ]; then
        sed '/^! /d' "$transcript" | diff -u - "$now" || failed=1
    else
        diff -u "$transcript" "$now" || failed=1
    fi
done
exit $failed
