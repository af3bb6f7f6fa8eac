# Completions of bash for rabit-tool.
_rabit_tool() {
    local word=${COMP_WORDS[COMP_CWORD]} before=${COMP_WORDS[COMP_CWORD - 1]} options=
    COMPREPLY=()
    if [ "$COMP_CWORD" -eq 1 ]; then
        mapfile -t COMPREPLY < <(compgen -W "import export lint draw explain many report help --version" -- "$word")
        return
    fi
    case $before in
    help)
        mapfile -t COMPREPLY < <(compgen -W "import export lint draw explain many report" -- "$word")
        return
        ;;
    --command)
        mapfile -t COMPREPLY < <(compgen -W "include cross" -- "$word")
        return
        ;;
    --program | --ssh)
        mapfile -t COMPREPLY < <(compgen -c -- "$word" && compgen -f -- "$word")
        return
        ;;
    --out)
        mapfile -t COMPREPLY < <(compgen -d -- "$word")
        return
        ;;
    --ap | --jobs | --timeout | --together | --drawn) return ;;
    esac
    case ${COMP_WORDS[1]} in
    import) options="--output --ap --labels-of --complete" ;;
    export) options="--hoa --dot --output" ;;
    lint) options="--program" ;;
    draw) options="--output" ;;
    explain) options="--json --program" ;;
    many) options="--jobs --hosts --ssh --out --command --second --timeout --together --resume --program" ;;
    report) options="--output --drawn" ;;
    esac
    case $word in
    -*) mapfile -t COMPREPLY < <(compgen -W "$options --help" -- "$word") ;;
    *)
        if [ "${COMP_WORDS[1]}" = report ] && [ "$before" != -o ] && [ "$before" != --output ]; then
            mapfile -t COMPREPLY < <(compgen -d -- "$word")
        else
            mapfile -t COMPREPLY < <(compgen -f -- "$word")
        fi
        ;;
    esac
}
complete -o filenames -F _rabit_tool rabit-tool
