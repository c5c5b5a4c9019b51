# Completion of ygg's words in bash: its commands, and for each of these the files and words that it takes, in their order.

_ygg() {
    local commands='verify certify check print replay explain play format run solve cnf decide demo --help --version' word=${COMP_WORDS[COMP_CWORD]} takes names
    COMPREPLY=()
    if [ "$COMP_CWORD" -eq 1 ]; then
        COMPREPLY=($(compgen -W "$commands" -- "$word"))
        return
    fi
    case ${COMP_WORDS[1]} in
    verify | certify | print) takes='layer' ;;
    check) takes='layer any' ;;
    replay | explain | play) takes='layer any' ;;
    format) takes='layer any' ;;
    run) takes='layer any any any' ;;
    solve) takes='any' ;;
    cnf | decide) takes='layer obligation' ;;
    esac
    case $(set -- $takes && shift $((COMP_CWORD - 2)) 2>/dev/null && printf %s "${1-}") in
    layer) COMPREPLY=($(compgen -f -X '!*.ygg' -- "$word") $(compgen -d -S / -- "$word")) ;;
    any) COMPREPLY=($(compgen -f -- "$word")) ;;
    # a budget of 1 names all obligations, and is quick
    obligation)
        names=$("${COMP_WORDS[0]}" verify "${COMP_WORDS[2]}" 1 2>/dev/null | sed -n 's/^\(holds\|fails\|spent\) \([^ ]*\).*/\2/p')
        COMPREPLY=($(compgen -W "$names" -- "$word"))
        ;;
    esac
}

complete -o filenames -F _ygg ygg
