# bash completion of ymodem-judge(1)

_ymodem_judge() {
    local cur=${COMP_WORDS[COMP_CWORD]} prev=${COMP_WORDS[COMP_CWORD - 1]}
    # bash splits at =, as in --jobs=4
    [ "$prev" != = ] || prev=${COMP_WORDS[COMP_CWORD - 2]}
    case $prev in
    --only | --jobs) COMPREPLY=(); return ;;
    esac
    COMPREPLY=($(compgen -W 'sender receiver --only --json --elsewhere --jobs --help -h' -- "$cur"))
}

complete -F _ymodem_judge ymodem-judge
