# Completion of mulgreddi for bash: commands, their options, and files. It asks `mulgreddi --help`, so it knows what that version knows.
_mulgreddi()
{
    local word=${COMP_WORDS[COMP_CWORD]} program=${COMP_WORDS[0]} home=~ help commands
    COMPREPLY=()
    # bash knows the home of a user who has no HOME
    if [[ $program == '~/'* ]]; then program=$home/${program#'~/'}; fi
    help=$("$program" --help 2> /dev/null) || return 0
    commands=$(sed -n 's/^  \([a-z-]*\) .*/\1/p' <<< "$help")
    if [ "$COMP_CWORD" = 1 ]; then
        mapfile -t COMPREPLY < <(compgen -W "$commands help --help --version" -- "$word")
    elif [ "${COMP_WORDS[1]}" = help ]; then
        mapfile -t COMPREPLY < <(compgen -W "$commands" -- "$word")
    elif [[ $word == -?* ]]; then
        mapfile -t COMPREPLY < <(compgen -W "$(awk -v name="${COMP_WORDS[1]}" '$1 == name' <<< "$help" | grep -o -e '--[a-z]*=\?') --help" -- "$word")
        # the value comes right behind the =
        if [ "${#COMPREPLY[@]}" = 1 ] && [[ ${COMPREPLY[0]} == *= ]]; then compopt -o nospace 2> /dev/null || :; fi
    else
        # bash takes the = of an option for a word of its own
        if [ "$word" = = ]; then word=; fi
        compopt -o filenames 2> /dev/null || :
        mapfile -t COMPREPLY < <(compgen -f -- "$word")
    fi
    return 0
}
complete -F _mulgreddi mulgreddi
