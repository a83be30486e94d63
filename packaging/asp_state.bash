# Completion of asp_state's words for bash.
_asp_state() {
    local word=${COMP_WORDS[COMP_CWORD]}
    local command=${COMP_WORDS[1]}
    local commands='serve visit pipe trace replay mirror drive farm load gate id'
    if [ "$COMP_CWORD" -eq 1 ]; then
        mapfile -t COMPREPLY < <(compgen -W "$commands --help --version --build --unproved" -- "$word")
        return
    fi
    case $command:$COMP_CWORD in
        pipe:5 | trace:5 | drive:2)
            # Names with spaces are quoted, and a folder gets its slash.
            compopt -o filenames
            mapfile -t COMPREPLY < <(compgen -f -- "$word")
            ;;
        gate:2) mapfile -t COMPREPLY < <(compgen -W 'cookie url --help' -- "$word") ;;
        serve:5)
            compopt -o filenames
            mapfile -t COMPREPLY < <(compgen -d -- "$word")
            ;;
        visit:4) mapfile -t COMPREPLY < <(compgen -W 'exclusive readonly off' -- "$word") ;;
        visit:5) mapfile -t COMPREPLY < <(compgen -W 'save keep abandon' -- "$word") ;;
        --help:2 | --unproved:2) mapfile -t COMPREPLY < <(compgen -W "$commands" -- "$word") ;;
        *:2) mapfile -t COMPREPLY < <(compgen -W '--help' -- "$word") ;;
        *) COMPREPLY=() ;;
    esac
}
complete -F _asp_state asp_state
