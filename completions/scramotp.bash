# Completion of scramotp in bash: commands, options, values, files, and the names of the accounts in the book that --book names.
# Nothing of the line or of a book is ever expanded or run. A name that begins with a hyphen is not offered: it needs --name=NAME.

# Splits a line into words as bash does: `words` are these without quotes. Of the last one, `raw` is the text as it was typed, `head` the
# part of it that readline leaves alone, and `quote` the quote that is open at its end.
_scramotp_split() {
    local line=$1 char word=
    words=() raw= head= quote=
    while [[ $line ]]; do
        char=${line:0:1} line=${line:1}
        if [[ ! $quote && $char == [[:blank:]] ]]; then
            [[ $raw ]] && words+=("$word")
            word= raw= head=
            continue
        fi
        raw+=$char
        case $quote$char in
        "''" | '""') quote= head=$raw ;;
        \' | \") quote=$char head=$raw ;;
        \\ | \"\\) word+=${line:0:1} raw+=${line:0:1} line=${line:1} ;;
        *)
            word+=$char
            # An @ begins the part that readline completes, as for hosts; each other one of these ends the part before it.
            [[ ! $quote && $COMP_WORDBREAKS == *"$char"* ]] && head=${raw%@}
            ;;
        esac
    done
    words+=("$word")
}

# Prints the names of the accounts in a book, one in each line, by the tool that is installed beside the program.
_scramotp_accounts() {
    local program tool line
    program=$(realpath -- "$(type -P scramotp)" 2>/dev/null) || return
    tool=${program%/bin/*}/share/scramotp/list-accounts
    [[ -f $1 && -x $tool ]] || return
    # What follows the last colon and space is what the account has.
    "$tool" "$1" </dev/null 2>/dev/null | while IFS= read -r line; do [[ $line == -* ]] || printf '%s\n' "${line%: *}"; done
}

# The book that --book names among these words, without its quotes.
_scramotp_book() {
    local book= before= word
    for word; do
        [[ $before == --book ]] && book=$word
        [[ $word == --book=* ]] && book=${word#*=}
        before=$word
    done
    printf '%s\n' "${book/#\~\//$HOME/}"
}

# Offers each of these that goes on from `plain`, quoted; and within quotes only those that need none, since readline may drop the quote.
_scramotp_offer() {
    local value shown
    for value; do
        [[ $value == "$plain"* ]] || continue
        printf -v shown %q "$value"
        [[ $quote && $shown != "$value" ]] && continue
        shown=$glue$quote$shown
        [[ $shown == "$head"* ]] && COMPREPLY+=("${shown#"$head"}")
    done
}

# The options of a command.
_scramotp_options() {
    case $1 in
    keys) echo --mechanism --salt --count --help ;;
    enrol) echo --book --name --count --random --help ;;
    code) echo --secret --digits --counter --moment --hash --t0 --step --help ;;
    verify) echo --book --name --moment --help ;;
    unlock) echo --book --name --help ;;
    login) echo --book --name --mechanism --as --socket --random --client-nonce --server-nonce --moment --help ;;
    hall) echo --book --help ;;
    audit) echo --book --log --help ;;
    report) echo --book --log --account --event --help ;;
    upgrade) echo --log --help ;;
    esac
}

_scramotp() {
    local words raw head quote plain glue= option= given values
    COMPREPLY=()
    _scramotp_split "${COMP_LINE:0:COMP_POINT}"
    [[ ${#words[@]} -gt 1 ]] || return
    plain=${words[-1]} given=("${words[@]:1:${#words[@]}-2}")
    [[ ${#given[@]} -gt 1 && ${given[-1]} == --* && ${given[-1]} != *=* ]] && option=${given[-1]}
    [[ ${#given[@]} -gt 0 && $plain == --*=* ]] && option=${plain%%=*} glue=${plain%%=*}= plain=${plain#*=}
    case $option in
    --book | --log | --socket | --random) compopt -o default 2>/dev/null ;;
    --mechanism) _scramotp_offer SCRAM-SHA-1 SCRAM-SHA-256 ;;
    --hash) _scramotp_offer sha1 sha256 sha512 ;;
    --digits) _scramotp_offer 6 7 8 ;;
    --event) _scramotp_offer accepted refused passed failed locked no-token left busy halted ;;
    --name | --as | --account)
        mapfile -t values < <(_scramotp_accounts "$(_scramotp_book "${given[@]}")")
        _scramotp_offer "${values[@]}"
        ;;
    '')
        if [[ ${#given[@]} -eq 0 ]]; then
            _scramotp_offer keys enrol code verify unlock login hall audit report upgrade --help --version
        else
            for option in $(_scramotp_options "${given[0]}"); do
                [[ " ${given[*]} " == *" $option"[\ =]* ]] || _scramotp_offer "$option"
            done
        fi
        ;;
    esac
}

complete -F _scramotp scramotp
