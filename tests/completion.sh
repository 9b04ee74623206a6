#!/usr/bin/env bash
# completion.sh TOOL SCRIPT: what bash completes on the command line of TOOL by the script, in a folder of three files.
set -euo pipefail
tool=$(realpath "$1") script=$(realpath "$2")
work=$(mktemp -d)
trap 'rm -rf "$work"' EXIT
cd "$work"
touch one.rule 'two words.rule' other.log
. "$script"
complete -p mulgreddi > /dev/null
# expect ANSWERS WORD..: the last word is completed to the answers, which have | between them
expect()
{
    COMP_WORDS=("$tool" "${@:2}") COMP_CWORD=$(($# - 1))
    _mulgreddi
    got=$(printf '%s\n' "${COMPREPLY[@]-}" | sort | paste -sd '|')
    [ "$got" = "$1" ] || { echo "${*:2}: completed to '$got', not to '$1'"; exit 1; }
}
expect 'judge' ju
expect 'same|same-word' sam
expect '--version' --v
expect 'stricter' help str
expect '--transitions=|--trimmed' build --tr
expect '--choices' judge --ch
expect '--why' judge --w
expect '--decoded' list --d
expect 'equal' eq
expect '--help' loop --
expect 'one.rule|other.log' judge o
expect 'two words.rule' build --codes = t
expect 'one.rule|other.log|two words.rule' build --codes =
expect '' judge nothing
# the shell may end at unset variables, and a user may have no HOME
(set -u; unset HOME; expect 'judge' ju; expect 'one.rule|other.log' judge o)
(set -u; HOME=$work/my\&home; mkdir -p "$HOME/bin"; ln -s "$tool" "$HOME/bin/mulgreddi"; tool='~/bin/mulgreddi'; expect 'judge' ju)
echo 'completion: commands, options and files'
