# Completion of scramotp-host in bash: its words, options, and the path of the socket. Nothing of the line is ever expanded or run.
_scramotp_host() {
    local offered="--socket --help unlock enrol edit"
    COMPREPLY=()
    [[ $COMP_CWORD -eq 1 ]] && offered="ctl --help"
    [[ " ${COMP_WORDS[*]:0:COMP_CWORD} " == *" unlock "* ]] && offered="--help"
    [[ " ${COMP_WORDS[*]:0:COMP_CWORD} " == *" enrol "* ]] && offered="--count --help"
    case $3 in
    --socket | edit) compopt -o default 2>/dev/null ;;
    --count) ;;
    *) mapfile -t COMPREPLY < <(compgen -W "$offered" -- "$2") ;;
    esac
}

complete -F _scramotp_host scramotp-host
