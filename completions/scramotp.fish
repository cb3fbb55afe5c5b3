# Completion of scramotp in fish: commands, options, values, files, and the names of the accounts in the book that --book names.
# A name that begins with a hyphen is not offered: it needs --name=NAME.

# The names of the accounts in the book, by the tool that is installed beside the program.
function __scramotp_accounts
    set -l book
    set -l before
    for word in (commandline -opc)
        test "$before" = --book; and set book $word
        string match -q -- '--book=*' $word; and set book (string replace -- --book= '' $word)
        set before $word
    end
    set book (string replace -r '^~/' $HOME/ -- $book)
    set -l tool (string replace -r '/bin/[^/]*$' /share/scramotp/list-accounts -- (realpath (command -s scramotp)))
    test -f "$book"; and test -x "$tool"; or return
    # What follows the last colon and space is what the account has.
    $tool $book 2>/dev/null </dev/null | string match -v -- '-*' | string replace -r ': [^:]*$' ''
end

# Whether the next word is the first after the program; and whether that is this command.
function __scramotp_begins
    test (count (commandline -opc)) -eq 1
end

function __scramotp_runs
    set -l words (commandline -opc)
    test (count $words) -gt 1; and test $words[2] = $argv[1]
end

complete -c scramotp -f
complete -c scramotp -n __scramotp_begins -a keys -d 'Print the stored key and the server key of a password'
complete -c scramotp -n __scramotp_begins -a enrol -d 'Add an account with a password to a book'
complete -c scramotp -n __scramotp_begins -a code -d 'Print a one-time code'
complete -c scramotp -n __scramotp_begins -a verify -d "Check one-time codes against an account's token"
complete -c scramotp -n __scramotp_begins -a unlock -d "Unlock an account's token"
complete -c scramotp -n __scramotp_begins -a login -d "Run one login, as server and as client, and print the server's log"
complete -c scramotp -n __scramotp_begins -a hall -d 'Check up to 64 logins at a time, given as events, and print their log'
complete -c scramotp -n __scramotp_begins -a audit -d 'Check a log against the book that it began with'
complete -c scramotp -n __scramotp_begins -a report -d 'List who was let in by a log, who was refused, and why'
complete -c scramotp -n __scramotp_begins -a upgrade -d 'Convert a log from version 1 to version 2, which numbers its sessions'
complete -c scramotp -n __scramotp_begins -s h -l help -d 'Print help'
complete -c scramotp -n __scramotp_begins -s V -l version -d 'Print version'

complete -c scramotp -n '__scramotp_runs keys' -l mechanism -x -a 'SCRAM-SHA-1 SCRAM-SHA-256' -d 'SCRAM-SHA-1 or SCRAM-SHA-256'
complete -c scramotp -n '__scramotp_runs keys' -l salt -x -d 'The salt'
complete -c scramotp -n '__scramotp_runs keys' -l count -x -d 'The iteration count'
complete -c scramotp -n '__scramotp_runs keys' -s h -l help -d 'Print help'

complete -c scramotp -n '__scramotp_runs enrol' -l book -r -F -d 'The account book'
complete -c scramotp -n '__scramotp_runs enrol' -l name -x -a '(__scramotp_accounts)' -d "The account's name"
complete -c scramotp -n '__scramotp_runs enrol' -l count -x -d 'The iteration count'
complete -c scramotp -n '__scramotp_runs enrol' -l random -r -F -d 'The file to read random bytes from'
complete -c scramotp -n '__scramotp_runs enrol' -s h -l help -d 'Print help'

complete -c scramotp -n '__scramotp_runs code' -l secret -x -d 'The secret'
complete -c scramotp -n '__scramotp_runs code' -l digits -x -a '6 7 8' -d 'The number of digits'
complete -c scramotp -n '__scramotp_runs code' -l counter -x -d 'HOTP: the counter'
complete -c scramotp -n '__scramotp_runs code' -l moment -x -d 'TOTP: the time'
complete -c scramotp -n '__scramotp_runs code' -l hash -x -a 'sha1 sha256 sha512' -d 'TOTP: the hash function'
complete -c scramotp -n '__scramotp_runs code' -l t0 -x -d 'TOTP: the time at which step 0 begins'
complete -c scramotp -n '__scramotp_runs code' -l step -x -d 'TOTP: the length of a step in seconds'
complete -c scramotp -n '__scramotp_runs code' -s h -l help -d 'Print help'

complete -c scramotp -n '__scramotp_runs verify' -l book -r -F -d 'The account book'
complete -c scramotp -n '__scramotp_runs verify' -l name -x -a '(__scramotp_accounts)' -d "The account's name"
complete -c scramotp -n '__scramotp_runs verify' -l moment -x -d 'The time of the codes'
complete -c scramotp -n '__scramotp_runs verify' -s h -l help -d 'Print help'

complete -c scramotp -n '__scramotp_runs unlock' -l book -r -F -d 'The account book'
complete -c scramotp -n '__scramotp_runs unlock' -l name -x -a '(__scramotp_accounts)' -d "The account's name"
complete -c scramotp -n '__scramotp_runs unlock' -s h -l help -d 'Print help'

complete -c scramotp -n '__scramotp_runs login' -l book -r -F -d 'The account book'
complete -c scramotp -n '__scramotp_runs login' -l name -x -a '(__scramotp_accounts)' -d "The account's name"
complete -c scramotp -n '__scramotp_runs login' -l mechanism -x -a 'SCRAM-SHA-1 SCRAM-SHA-256' -d 'SCRAM-SHA-1 or SCRAM-SHA-256'
complete -c scramotp -n '__scramotp_runs login' -l as -x -a '(__scramotp_accounts)' -d 'The name to act as (authorization identity)'
complete -c scramotp -n '__scramotp_runs login' -l socket -r -F -d 'The path of the socket to create'
complete -c scramotp -n '__scramotp_runs login' -l random -r -F -d 'The file to read random bytes from'
complete -c scramotp -n '__scramotp_runs login' -l client-nonce -x -d "The client's nonce"
complete -c scramotp -n '__scramotp_runs login' -l server-nonce -x -d "The server's part of the nonce"
complete -c scramotp -n '__scramotp_runs login' -l moment -x -d 'The time of the codes'
complete -c scramotp -n '__scramotp_runs login' -s h -l help -d 'Print help'

complete -c scramotp -n '__scramotp_runs hall' -l book -r -F -d 'The account book'
complete -c scramotp -n '__scramotp_runs hall' -s h -l help -d 'Print help'

complete -c scramotp -n '__scramotp_runs audit' -l book -r -F -d 'The account book'
complete -c scramotp -n '__scramotp_runs audit' -l log -r -F -d 'The log to check'
complete -c scramotp -n '__scramotp_runs audit' -s h -l help -d 'Print help'

complete -c scramotp -n '__scramotp_runs report' -l book -r -F -d 'The account book'
complete -c scramotp -n '__scramotp_runs report' -l log -r -F -d 'The log to report'
complete -c scramotp -n '__scramotp_runs report' -l account -x -a '(__scramotp_accounts)' -d 'Only the rows of this account'
set -l __scramotp_events accepted refused passed failed locked no-token left busy halted
complete -c scramotp -n '__scramotp_runs report' -l event -x -a "$__scramotp_events" -d 'Only the rows of this kind'
complete -c scramotp -n '__scramotp_runs report' -s h -l help -d 'Print help'

complete -c scramotp -n '__scramotp_runs upgrade' -l log -r -F -d 'The log to convert'
complete -c scramotp -n '__scramotp_runs upgrade' -s h -l help -d 'Print help'
