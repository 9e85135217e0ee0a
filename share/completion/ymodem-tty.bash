# bash completion of ymodem-tty(1)

_ymodem_tty() {
    local word rest=$COMP_LINE typed=() last=-1 at=1 command= words= front=
    # bash splits at = and :, as in --device=/dev/ttyS0: what no space parts is one word here
    for word in "${COMP_WORDS[@]:0:COMP_CWORD+1}"; do
        if [[ $last -ge 0 && $rest != [[:space:]]* ]] &&
            [[ $word == [=:]* || ${typed[last]} == *[=:] ]]; then
            typed[last]+=$word
        else
            typed[++last]=$word
        fi
        rest=${rest#"${rest%%[![:space:]]*}"}
        rest=${rest#"$word"}
    done
    local cur=${typed[last]} prev=${typed[last - 1]}
    case $cur in --*=*) prev=${cur%%=*} cur=${cur#*=} ;; esac
    # where it does not split there, what it replaces begins with the option
    case $word in --*=*) front=${word%%=*}= ;; esac
    # what the words say of the line stands before the command
    while [ "$at" -lt "$last" ]; do
        case ${typed[at]} in
        --device=* | --speed=* | --flow=*) at=$((at + 1)) ;;
        --device | --speed | --flow) at=$((at + 2)) ;;
        *) command=${typed[at]}; break ;;
        esac
    done
    COMPREPLY=()
    # bash itself completes names of files: it knows how they are quoted
    case $command:$prev in
    :--device | ?*:--record) compopt -o default; return ;;
    :--speed) return ;;
    :--flow) words='none hard soft' ;;
    *)
        case $command:$cur in
        :*) words='send receive --device --speed --flow --help -h' ;;
        send:-*) words='--short --record --verbose --quiet --help -h' ;;
        receive:-*)
            words='--single --no-sync --discard-parts --record --verbose --quiet --help -h'
            ;;
        send:*) compopt -o default; return ;;
        receive:*) compopt -o dirnames; return ;;
        esac
        ;;
    esac
    COMPREPLY=($(compgen -P "$front" -W "$words" -- "$cur"))
}

complete -F _ymodem_tty ymodem-tty
