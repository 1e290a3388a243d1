# Completion of span for bash: commands, options, numbers of workers, and files. tools/texts compares it with the program's help.

_span() {
    local word=${COMP_WORDS[COMP_CWORD]} before='' command='' at
    [ "$COMP_CWORD" -lt 1 ] || before=${COMP_WORDS[COMP_CWORD - 1]}
    COMPREPLY=()
    # bash splits --workers=4 into three words
    if [ "$word" = = ]; then
        word=''
    elif [ "$before" = = ] && [ "$COMP_CWORD" -gt 1 ]; then
        before=${COMP_WORDS[COMP_CWORD - 2]}
    fi
    for ((at = 1; at < COMP_CWORD; at++)); do
        case ${COMP_WORDS[at]} in
        -*) ;;
        *)
            command=${COMP_WORDS[at]}
            break
            ;;
        esac
    done
    case $before in
    --workers)
        mapfile -t COMPREPLY < <(compgen -W '1 2 3 4 5 6 7 8 9 10 11 12 13 14 15 16' -- "$word")
        return
        ;;
    --account) return ;;
    esac
    local words=''
    case $command in
    '') words='margin explain whatif session roll faults check plan help -h --help -V --version' ;;
    help) words='margin explain whatif session roll faults check plan' ;;
    margin | whatif | session | roll) words='--workers -h --help' ;;
    explain) words='--account -h --help' ;;
    faults | check | plan) words='-h --help' ;;
    esac
    case $command:$word in
    :* | help:* | *:-*) mapfile -t COMPREPLY < <(compgen -W "$words" -- "$word") ;;
    *)
        compopt -o filenames 2>/dev/null
        mapfile -t COMPREPLY < <(compgen -f -- "$word")
        ;;
    esac
}

complete -F _span span
