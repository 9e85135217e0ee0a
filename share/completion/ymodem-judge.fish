# fish completion of ymodem-judge(1)

complete -c ymodem-judge -f
complete -c ymodem-judge -s h -l help -d 'Print help'
complete -c ymodem-judge -a 'sender receiver' -d 'What the peer does'
complete -c ymodem-judge -x -l only -d 'Plays this case alone'
complete -c ymodem-judge -l json -d 'Prints an object of JSON for each case'
complete -c ymodem-judge -l elsewhere -d 'The receiver stores elsewhere'
complete -c ymodem-judge -x -l jobs -d 'So many cases are tried at once'
