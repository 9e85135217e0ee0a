# bash completion of ymodem(1)

_ymodem() {
    local cur=${COMP_WORDS[COMP_CWORD]} prev=${COMP_WORDS[COMP_CWORD - 1]} command= words
    COMPREPLY=()
    # bash splits at =, as in --record=FILE
    [ "$prev" != = ] || prev=${COMP_WORDS[COMP_CWORD - 2]}
    # bash itself completes names of files: it knows how they are quoted
    case $prev in
    -p | --port | --only) return ;;
    --stored) compopt -o dirnames; return ;;
    --line | --record | --there | --back | --chart) compopt -o default; return ;;
    esac
    [ "$COMP_CWORD" -gt 1 ] && command=${COMP_WORDS[1]}
    case $command in
    '') words='sb rb send receive play loop explain judge help --help -h --version -V' ;;
    play) words='--help -h' ;;
    loop) words='--port -p --verbose --quiet --help -h' ;;
    send) words='--port -p --short --record --verbose --quiet --help -h' ;;
    receive) words='--port -p --single --eager --keep --no-sync --discard-parts --record --verbose --quiet --help -h' ;;
    sb) words='--line --short --record --verbose --quiet --help -h' ;;
    rb) words='--line --single --no-sync --discard-parts --record --verbose --quiet --help -h' ;;
    explain) words='--there --back --turned --chart --help -h' ;;
    judge) words='sender receiver --port -p --line --only --stored --list --json --help -h' ;;
    help) words='sb rb send receive play loop explain judge help' ;;
    *) words= ;;
    esac
    case $command:$cur in
    :* | *:-* | help:* | judge:*) COMPREPLY=($(compgen -W "$words" -- "$cur")) ;;
    send:* | sb:* | explain:*) compopt -o default ;;
    receive:* | rb:*) compopt -o dirnames ;;
    esac
}

complete -F _ymodem ymodem
