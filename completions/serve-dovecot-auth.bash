# Completion of serve-dovecot-auth in bash: options, groups and files. Nothing of the line is ever expanded or run.
_serve_dovecot_auth() {
    local options="--plain --master --userdb --mode --group --control --daily --alarm --places --idle --grace --patience --delay --guesses"
    options+=" --kilobytes --connections --logins --help"
    COMPREPLY=()
    case $3 in
    --group) mapfile -t COMPREPLY < <(compgen -g -- "$2") ;;
    --master | --control | --alarm) compopt -o default 2>/dev/null ;;
    --plain | --help | [!-]* | =)
        if [[ $2 == -* ]]; then
            mapfile -t COMPREPLY < <(compgen -W "$options" -- "$2")
        else
            compopt -o default 2>/dev/null
        fi
        ;;
    esac
}

complete -F _serve_dovecot_auth serve-dovecot-auth
