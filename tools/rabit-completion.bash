# Completions of bash for rabit. The commands and their options are read from the table that lies beside the wrapper.

# Prints the table of commands of the command that is completed.
_rabit_table() {
    local home
    home=$(readlink -f "$(type -P "$1" 2>/dev/null || printf '%s' "$1")") || return
    home=${home%/*}
    cat "$home/commands" 2>/dev/null || cat "$home/tools/commands" 2>/dev/null
}

_rabit() {
    local word=${COMP_WORDS[COMP_CWORD]} option=${COMP_WORDS[COMP_CWORD - 1]} line names='help --help --version' options=
    COMPREPLY=()
    # `--look=2` comes as three words
    [ "$word" = = ] && word=
    [ "$option" = = ] && option=${COMP_WORDS[COMP_CWORD - 2]}
    while IFS= read -r line; do
        case $line in '#'* | '') continue ;; esac
        names+=" ${line%% *}"
        if [ "${line%% *}" = "${COMP_WORDS[1]}" ]; then
            options=${line#*[}
            [ "$options" = "$line" ] && options=
        fi
    done < <(_rabit_table "$1")
    if [ "$COMP_CWORD" -eq 1 ] || { [ "$COMP_CWORD" -eq 2 ] && [ "${COMP_WORDS[1]}" = help ]; }; then
        mapfile -t COMPREPLY < <(compgen -W "$names" -- "$word")
        return
    fi
    case $option in
    --look) mapfile -t COMPREPLY < <(compgen -W '1 2 3 4 5 6' -- "$word") ;;
    --limit) mapfile -t COMPREPLY < <(compgen -W '1000 20000 100000' -- "$word") ;;
    --letters) mapfile -t COMPREPLY < <(compgen -W '1 2 3 4' -- "$word") ;;
    *)
        # (behind `--` all words are names)
        if [[ $word == -* && " ${COMP_WORDS[*]:0:COMP_CWORD} " != *' -- '* ]]; then
            # what is left of `--finite] [--look K] [--limit N]` are the options' names
            options=${options//[][]/}
            mapfile -t COMPREPLY < <(compgen -W "${options// [A-Z]/}" -- "$word")
        else
            compopt -o filenames 2>/dev/null
            mapfile -t COMPREPLY < <(compgen -f -- "$word")
        fi
        ;;
    esac
}
complete -F _rabit rabit ./rabit
