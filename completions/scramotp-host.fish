# Completion of scramotp-host in fish: its words, options, and the path of the socket.
complete -c scramotp-host -n 'test (count (commandline -opc)) -eq 1' -f -a ctl -d 'Work on a book while a host serves'
complete -c scramotp-host -n 'not __fish_seen_subcommand_from unlock enrol edit; and test (count (commandline -opc)) -gt 1' \
    -f -a 'unlock enrol edit'
complete -c scramotp-host -n 'not __fish_seen_subcommand_from unlock enrol edit' -l socket -r -F -d 'The second socket of the host'
complete -c scramotp-host -n '__fish_seen_subcommand_from enrol' -l count -x -d 'The iteration count'
complete -c scramotp-host -s h -l help -d 'Print help'
