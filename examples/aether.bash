# Completion in bash of the commands, options and log files of `aether`, as `aether` and as `./aether`: source it, or install it as docs/MANUAL.md says.

# Log files, and folders in which some may stand.
_aether_logs() {
    compgen -f -X '!*.log' -- "$1"
    compgen -d -- "$1"
}

_aether() {
    local IFS=$'\n' word=${COMP_WORDS[COMP_CWORD]} before='' words='' takes_log=no
    [ "$COMP_CWORD" = 0 ] || before=${COMP_WORDS[COMP_CWORD - 1]}
    if [ "$COMP_CWORD" = 1 ]; then
        words=$'new\nrun\nrecover\ndump\ndemo\ncut\nupgrade\nship\nfollow\nasof\nstatement\n--help\n--version'
    else
        case $before,${COMP_WORDS[1]} in
        '<,'*) takes_log=yes ;;
        --workers,* | --slots,*) words=$(seq 1 16) ;;
        --ring,*) words=$'1024\n4096\n16384\n65536\n262144\n1048576' ;;
        *,run) words=$'--workers\n--ring\n--slots\n--wait' takes_log=yes ;;
        *,demo) words=$'--workers\n--ring\n--slots' takes_log=yes ;;
        *,new | *,cut | *,upgrade | *,follow) takes_log=yes ;;
        esac
    fi
    # shellcheck disable=SC2207
    COMPREPLY=($(compgen -W "$words" -- "$word"))
    # shellcheck disable=SC2207
    [ "$takes_log" = no ] || COMPREPLY+=($(_aether_logs "$word"))
}

complete -o filenames -o bashdefault -F _aether aether ./aether
