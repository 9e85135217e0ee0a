# fish completion of ymodem-tty(1)

set -l commands send receive
complete -c ymodem-tty -f
complete -c ymodem-tty -s h -l help -d 'Print help'
complete -c ymodem-tty -n "not __fish_seen_subcommand_from $commands" -r -l device -d 'The terminal of the line (else standard input and output)'
complete -c ymodem-tty -n "not __fish_seen_subcommand_from $commands" -x -l speed -d 'The bits a second of the line'
complete -c ymodem-tty -n "not __fish_seen_subcommand_from $commands" -x -l flow -a 'none hard soft' -d 'The flow control of the line'
complete -c ymodem-tty -n "not __fish_seen_subcommand_from $commands" -a send -d 'Sends files over a serial line, in order'
complete -c ymodem-tty -n "not __fish_seen_subcommand_from $commands" -a receive -d 'Receives files over a serial line into a folder'
complete -c ymodem-tty -n '__fish_seen_subcommand_from send receive' -l verbose -d 'Tells what it does, also if standard error is no terminal'
complete -c ymodem-tty -n '__fish_seen_subcommand_from send receive' -l quiet -d 'Tells nothing but its report and faults'
complete -c ymodem-tty -n '__fish_seen_subcommand_from send receive' -r -F -l record -d 'Records what passes on the line, for `ymodem explain`'
complete -c ymodem-tty -n '__fish_seen_subcommand_from send' -l short -d 'Sends blocks of 128 bytes alone'
complete -c ymodem-tty -n '__fish_seen_subcommand_from send' -F
complete -c ymodem-tty -n '__fish_seen_subcommand_from receive' -l single -d 'Acknowledges the first EOT of a file (else the second)'
complete -c ymodem-tty -n '__fish_seen_subcommand_from receive' -l no-sync -d 'Acknowledges a file before it has reached the disk'
complete -c ymodem-tty -n '__fish_seen_subcommand_from receive' -l discard-parts -d 'Removes a NAME.part that was left, when NAME comes'
complete -c ymodem-tty -n '__fish_seen_subcommand_from receive' -a '(__fish_complete_directories)' -d 'The folder to receive into'
