# Completions of bash for mortarleek, mortarleek-agent, mortarleek-add, mortarleek-filter,
# mortarleek-log, mortarleek-setup and mortarleek-status.

# The words of compgen that say what may stand here.
_mortarleek_offer() { mapfile -t COMPREPLY < <(compgen "$@"); }

_mortarleek_agent() {
    case $3:$2 in
    -a:*) _mortarleek_offer -f -- "$2" ;;
    -E:*) _mortarleek_offer -W 'sha256' -- "$2" ;;
    -O:*) _mortarleek_offer -W 'allow-remote-pkcs11 no-restrict-websafe' -- "$2" ;;
    -t:*) _mortarleek_offer -W '30m 1h 8h 1d' -- "$2" ;;
    --confirm-limit:*) _mortarleek_offer -W '30 1m 5m' -- "$2" ;;
    --log:*) _mortarleek_offer -d -- "$2" ;;
    --log-days:*) _mortarleek_offer -W '0 7 30' -- "$2" ;;
    *:-*) _mortarleek_offer -W '--reuse --restart --stand-in --record --record-or-stop --log --log-days --confirm-limit -a -c -D -d -E -k -O -P -s -T -t -U -u' -- "$2" ;;
    *) _mortarleek_offer -c -- "$2" ;;
    esac
}

_mortarleek_add() {
    case $3:$2 in
    -E:*) _mortarleek_offer -W 'md5 sha256' -- "$2" ;;
    -t:*) _mortarleek_offer -W '30m 1h 8h 1d' -- "$2" ;;
    -u:*) _mortarleek_offer -W '1 3' -- "$2" ;;
    --for:*) _mortarleek_offer -W 'login git login,git file ca sshsig other all' -- "$2" ;;
    -h:*) _mortarleek_offer -A hostname -- "$2" ;;
    *:-*) _mortarleek_offer -W '--any-agent --for -C -c -D -d -E -H -h -k -L -l -N -q -T -t -u -v -X -x' -- "$2" ;;
    *) _mortarleek_offer -f -- "$2" ;;
    esac
}

# Behind its own words stands a command, with the words of that command.
_mortarleek_filter() {
    case $3:$2 in
    -k:*) mapfile -t COMPREPLY < <(compgen -f -X '!*.pub' -- "$2"; compgen -d -- "$2") ;;
    -a:*) _mortarleek_offer -f -- "$2" ;;
    --sign-only:*) _mortarleek_offer -W 'login git login,git file ca sshsig other all' -- "$2" ;;
    *:-*) _mortarleek_offer -W '-a -k --end --sign-only' -- "$2" ;;
    *) mapfile -t COMPREPLY < <(compgen -c -- "$2"; compgen -f -- "$2") ;;
    esac
}

_mortarleek_log() {
    case $3:$2 in
    -t:*) _mortarleek_offer -W '30m 1h 8h 1d' -- "$2" ;;
    --confirm-limit:*) _mortarleek_offer -W '30 1m 5m' -- "$2" ;;
    --host:*) _mortarleek_offer -A hostname -- "$2" ;;
    --since:*) _mortarleek_offer -W 'today yesterday' -- "$2" ;;
    *:-*) _mortarleek_offer -W '-f -t --confirm-limit --host --json --key --since' -- "$2" ;;
    *) _mortarleek_offer -f -- "$2" ;;
    esac
}

_mortarleek_setup() { _mortarleek_offer -W '--yes --remove' -- "$2"; }

_mortarleek_status() { _mortarleek_offer -W '--try' -- "$2"; }

_mortarleek() {
    if [ "$COMP_CWORD" = 1 ]; then
        _mortarleek_offer -W 'add agent audit drill filter log replay serve setup status --version' -- "$2"
        return
    fi
    case ${COMP_WORDS[1]} in
    agent) _mortarleek_agent "$@" ;;
    add) _mortarleek_add "$@" ;;
    filter) _mortarleek_filter "$@" ;;
    log) _mortarleek_log "$@" ;;
    setup) _mortarleek_setup "$@" ;;
    status) _mortarleek_status "$@" ;;
    --version) COMPREPLY=() ;;
    drill) _mortarleek_offer -W '1000 100000' -- "$2" ;;
    *) _mortarleek_offer -f -- "$2" ;;
    esac
}

complete -o filenames -F _mortarleek mortarleek
complete -o filenames -F _mortarleek_agent mortarleek-agent
complete -o filenames -F _mortarleek_add mortarleek-add
complete -o filenames -F _mortarleek_filter mortarleek-filter
complete -o filenames -F _mortarleek_log mortarleek-log
complete -o filenames -F _mortarleek_setup mortarleek-setup
complete -o filenames -F _mortarleek_status mortarleek-status
