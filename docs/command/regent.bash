# Completion of regent's words for bash.
_regent() {
    local word=${COMP_WORDS[COMP_CWORD]}
    if [ "$COMP_CWORD" -eq 1 ]; then
        mapfile -t COMPREPLY < <(compgen -W "run check sample build install help" -- "$word")
        return
    fi
    case ${COMP_WORDS[1]} in
    run) mapfile -t COMPREPLY < <(compgen -W "--workers --turns --dump --trace" -- "$word"; compgen -f -X '!*.rg' -- "$word"; compgen -d -- "$word") ;;
    check) mapfile -t COMPREPLY < <(compgen -f -X '!*.rg' -- "$word"; compgen -d -- "$word") ;;
    sample) mapfile -t COMPREPLY < <(compgen -W "--workers" -- "$word") ;;
    install) mapfile -t COMPREPLY < <(compgen -d -- "$word") ;;
    esac
}
complete -o filenames -F _regent regent
