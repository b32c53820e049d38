# Completion of kz for bash. Written by `make manual` from the program's own table.
_kz() {
    local word=${COMP_WORDS[COMP_CWORD]} before=${COMP_WORDS[COMP_CWORD - 1]} options=
    if [ "$COMP_CWORD" -eq 1 ]; then
        mapfile -t COMPREPLY < <(compgen -W 'check build plan vehicle same show chart pack unpack import demo help --help --version' -- "$word")
        return
    fi
    case $before in
        -o|--output) mapfile -t COMPREPLY < <(compgen -f -- "$word"); return ;;
        --k|--trials) COMPREPLY=(); return ;;
    esac
    case ${COMP_WORDS[1]} in
        check) options='--json -h --help' ;;
        build) options='-o --output --hex --json -h --help' ;;
        plan) options='--k --trials --settle -o --output --hex --progress --json -h --help' ;;
        vehicle) options='-o --output --hex --json -h --help' ;;
        same) options='--json -h --help' ;;
        show) options='--json -h --help' ;;
        chart) options='-o --output --json -h --help' ;;
        pack) options='-o --output --hex --json -h --help' ;;
        unpack) options='-o --output --json -h --help' ;;
        import) options='-o --output --hex --json -h --help' ;;
        demo) options='-o --output --json -h --help' ;;
        help) [ "$COMP_CWORD" -gt 2 ] || options='check build plan vehicle same show chart pack unpack import demo' ;;
    esac
    if [[ $word == -* || ${COMP_WORDS[1]} == help ]]; then
        mapfile -t COMPREPLY < <(compgen -W "$options" -- "$word")
    else
        mapfile -t COMPREPLY < <(compgen -f -- "$word")
    fi
}
complete -o filenames -F _kz kz
