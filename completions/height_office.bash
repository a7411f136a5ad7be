# Completion of height_office for bash. Made by tools/command_pages.
_height_office() {
    local word=${COMP_WORDS[COMP_CWORD]} before=${COMP_WORDS[COMP_CWORD - 1]} options=
    COMPREPLY=()
    if [ "$COMP_CWORD" = 1 ]; then
        mapfile -t COMPREPLY < <(compgen -W 'list adjust review explain page check book mend help --help --version' -- "$word")
        return
    fi
    case $before in
        --benchmarks | --weights | --out | --certificate)
            compopt -o filenames
            mapfile -t COMPREPLY < <(compgen -f -- "$word")
            return
            ;;
        --limit | --blunder | --title)
            return
            ;;
    esac
    case ${COMP_WORDS[1]} in
        list) options='--help' ;;
        adjust) options='--benchmarks --weights --limit --blunder --out --help' ;;
        review) options='--benchmarks --weights --limit --blunder --out --help' ;;
        explain) options='--benchmarks --weights --limit --blunder --csv --help' ;;
        page) options='--title --benchmarks --weights --limit --blunder --out --help' ;;
        check) options='--benchmarks --weights --certificate --inputs --help' ;;
        book) options='--heights --help' ;;
        mend) options='--help' ;;
        help) options='list adjust review explain page check book mend' ;;
    esac
    if [[ $word == -* || ${COMP_WORDS[1]} == help ]]; then
        mapfile -t COMPREPLY < <(compgen -W "$options" -- "$word")
    else
        compopt -o filenames
        mapfile -t COMPREPLY < <(compgen -f -- "$word")
    fi
}
complete -F _height_office height_office
