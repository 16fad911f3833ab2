# shellcheck shell=sh
# shellcheck disable=SC2154,SC2034,SC2317 # who sources it sets and reads these variables, and calls by names
# What mortarleek, mortarleek-agent with its guard, mortarleek-add, mortarleek-filter and
# mortarleek-status share, which source it. `me` is the name that errors begin with, and `here` the
# folder beside which programs are looked for.

# The standard input with a question mark for each character that is no printable one, on which a terminal
# would act or which it wouldn't show, but for line feeds: letters of UTF-8 stay where the locale has them.
shown() {
    case ${LC_ALL:-${LC_CTYPE:-${LANG-}}} in
    *[uU][tT][fF]8* | *[uU][tT][fF]-8*) ;;
    *)
        LC_ALL=C tr -c '\012\040-\176' '?'
        return
        ;;
    esac
    tr '\000' '\001' | LC_ALL=C awk '
        BEGIN { for (i = 1; i < 256; i++) code[sprintf("%c", i)] = i }
        /^[ -~]*$/ { print; next }
        {
            for (at = 1; at <= length($0); at += size) {
                size = size_of($0, at)
                printf "%s", size ? substr($0, at, size) : "?"
                if (!size) size = 1
            }
            print ""
        }
        # The bytes of the character that begins there, or 0 where it is none to be shown.
        function size_of(text, at, first, more, char, i, next_one) {
            first = code[substr(text, at, 1)]
            if (first < 128) return first >= 32 && first < 127
            more = first < 194 ? 0 : first < 224 ? 1 : first < 240 ? 2 : first < 245 ? 3 : 0
            char = first - (more == 1 ? 192 : more == 2 ? 224 : 240)
            for (i = 1; i <= more; i++) {
                next_one = code[substr(text, at + i, 1)]
                if (next_one < 128 || next_one > 191) return 0
                char = char * 64 + next_one - 128
            }
            # Controls, the soft hyphen, marks of direction and of no width, surrogates, and what is nobody'"'"'s letter.
            if (more == 0 || char < 161 || char == 173 || char == 1564 || char == 6158) return 0
            if (more == 2 && char < 2048 || more == 3 && char < 65536) return 0
            if (char >= 8203 && char <= 8207 || char >= 8232 && char <= 8238 || char >= 8288 && char <= 8303) return 0
            if (char >= 55296 && char <= 63743 || char >= 64976 && char <= 65007 || char == 65279) return 0
            if (char >= 65520 && char <= 65535 && char != 65532 && char != 65533 || char >= 917504) return 0
            return more + 1
        }'
}

# Says one line on standard error.
complain() {
    case $* in
    *[[:cntrl:]]* | *[!\ -~]*) { printf '%s' "$*" | tr '\n' '?' && echo; } | shown >&2 ;;
    *) printf '%s\n' "$*" >&2 ;;
    esac
}
say() { complain "$me: $*"; }
die() { say "$@"; exit 1; }
# The status and the words of OpenSSH's tools where an option's word is none, or words make no sense
# together.
fatal() { complain "$@"; exit 255; }
# Where words are no use: how to use it, on standard error. Where a user asks for that, on standard output.
usage() { tell_usage >&2; exit "${usage_status:-1}"; }
help() { tell_usage; exit 0; }

# Without these nothing here tells whose a file is, and an agent of ours would be taken for nobody's.
for needed in id ls readlink stat; do
    command -v "$needed" > /dev/null || die "$needed isn't there: PATH lacks it, or install coreutils"
done

# Where a program lies: installed, or in the folder in which it was built.
program() {
    for place in "$here/../libexec/mortarleek" "$here/../libexec" "$here" "$here/../bin"; do
        if [ -f "$place/$1" ] && [ -x "$place/$1" ]; then
            printf '%s\n' "$(cd "$place" && pwd)/$1"
            return
        fi
    done
    return 1
}

# PROGRAM isn't there: says so, with what to do about it where this was built and where it was installed.
lacks() {
    if [ -f "$here/../crates.txt" ]; then die "$1 is not built: make"; fi
    die "$1 is missing beside this program: install mortarleek anew"
}

# COMMAND: becomes it, with the agent's own list of the environment: docs/DECISIONS.md, "A child process gets". None of
# these variables names code that is loaded or run, as LD_PRELOAD and BASH_ENV do.
become() {
    # What has a = would be another variable for env.
    case $1 in *=*) set -- sh -c 'exec "$@"' sh "$@" ;; esac
    exec env -i ${PATH+"PATH=$PATH"} ${HOME+"HOME=$HOME"} ${LANG+"LANG=$LANG"} ${TERM+"TERM=$TERM"} \
        ${DISPLAY+"DISPLAY=$DISPLAY"} ${XAUTHORITY+"XAUTHORITY=$XAUTHORITY"} \
        ${WAYLAND_DISPLAY+"WAYLAND_DISPLAY=$WAYLAND_DISPLAY"} \
        ${XDG_RUNTIME_DIR+"XDG_RUNTIME_DIR=$XDG_RUNTIME_DIR"} \
        ${DBUS_SESSION_BUS_ADDRESS+"DBUS_SESSION_BUS_ADDRESS=$DBUS_SESSION_BUS_ADDRESS"} \
        ${LANGUAGE+"LANGUAGE=$LANGUAGE"} ${LC_ALL+"LC_ALL=$LC_ALL"} ${LC_CTYPE+"LC_CTYPE=$LC_CTYPE"} \
        ${LC_MESSAGES+"LC_MESSAGES=$LC_MESSAGES"} \
        ${XDG_CURRENT_DESKTOP+"XDG_CURRENT_DESKTOP=$XDG_CURRENT_DESKTOP"} \
        ${XDG_SESSION_TYPE+"XDG_SESSION_TYPE=$XDG_SESSION_TYPE"} \
        ${DESKTOP_SESSION+"DESKTOP_SESSION=$DESKTOP_SESSION"} \
        ${KDE_FULL_SESSION+"KDE_FULL_SESSION=$KDE_FULL_SESSION"} \
        ${KDE_SESSION_VERSION+"KDE_SESSION_VERSION=$KDE_SESSION_VERSION"} \
        ${GDK_SCALE+"GDK_SCALE=$GDK_SCALE"} ${GDK_DPI_SCALE+"GDK_DPI_SCALE=$GDK_DPI_SCALE"} \
        ${QT_SCALE_FACTOR+"QT_SCALE_FACTOR=$QT_SCALE_FACTOR"} ${XCURSOR_SIZE+"XCURSOR_SIZE=$XCURSOR_SIZE"} \
        ${XCURSOR_THEME+"XCURSOR_THEME=$XCURSOR_THEME"} \
        ${MORTARLEEK_MANAGER+"MORTARLEEK_MANAGER=$MORTARLEEK_MANAGER"} "$@"
}

# SOCKET COMMAND: runs a program that reads no variable but the agent's socket, where it has one.
alone() {
    asks_at=$1
    shift
    case $1 in *=*) set -- sh -c 'exec "$@"' sh "$@" ;; esac
    env -i ${PATH+"PATH=$PATH"} ${asks_at:+"SSH_AUTH_SOCK=$asks_at"} "$@"
}

# What `make` wrote beside the programs: the version, the commit and the toolchain, a line each.
version() {
    for place in "$here/../libexec/mortarleek" "$here" "$here/../bin"; do
        if [ -f "$place/version" ]; then
            cat "$place/version"
            return
        fi
    done
    printf 'mortarleek, of a version that nobody wrote down: make\n'
}

# PROGRAM ...: whether each is what was proved, a line each, by the file PROVED.
proofs() {
    if teller=$(program proof_of); then
        "$teller" "$@"
    else
        for told in "$@"; do printf '%s: NOT compared: no proof_of is there: make install\n' "${told##*/}"; done
    fi
}

# The lines of `proofs` on the standard input, with programs of which the same is said in one: what, of which, why.
by_verdict() {
    awk '
        { name = $0; sub(/: .*/, "", name); said = substr($0, length(name) + 3) }
        said in names { names[said] = names[said] ", " name; next }
        { order[++count] = said; names[said] = name }
        END {
            for (i = 1; i <= count; i++) {
                verdict = order[i]
                sub(/: .*/, "", verdict)
                print verdict ": " names[order[i]] ": " substr(order[i], length(verdict) + 3)
            }
        }'
}

# FILE: prints its mode and its owner, as `ls -n` shows them, and sets variables of these names.
mode_and_owner() {
    read -r mode _ owner _ << END
$(ls -ldn -- "$1" 2> /dev/null)
END
    printf '%s %s\n' "$mode" "$owner"
}

# FOLDER belongs to this user, and nobody else can enter it.
is_private() {
    case $(mode_and_owner "$1/.") in
    drwx------*" $(id -u)") return 0 ;;
    *) return 1 ;;
    esac
}

# PATH: the first folder on the way to it, and on that of each link, in which other users than root can
# put one thing into another's place: others may write there, and it isn't sticky; or it or a link
# there is another user's. Status 1 where there is none, or nothing at PATH.
open_to_others() {
    case $1 in /*) left=$1/ ;; *) left=$PWD/$1/ ;; esac
    place='' links=0 user=$(id -u)
    # In a user namespace root's files may look like another's.
    mode_and_owner / > /dev/null
    root=$owner
    while [ -d "$place/." ]; do
        mode_and_owner "$place/." > /dev/null
        case $owner in "$user" | "$root") ;; *) break ;; esac
        case $mode in ?????w???[!tT]* | ????????w[!tT]*) break ;; esac
        name=.
        while [ -n "$left" ]; do
            name=${left%%/*} left=${left#*/}
            case $name in '' | .) ;; *) break ;; esac
        done
        case $name in '' | .) return 1 ;; ..) place=${place%/*}; continue ;; esac
        if [ ! -h "$place/$name" ]; then
            place=$place/$name
            continue
        fi
        mode_and_owner "$place/$name" > /dev/null
        case $owner in "$user" | "$root") ;; *) break ;; esac
        links=$((links + 1))
        [ "$links" -le 40 ] || return 1
        left=$(readlink -- "$place/$name")/$left
        case $left in /*) place='' ;; esac
    done
    [ -d "$place/." ] || return 1
    printf '%s\n' "${place:-/}"
}

# The folder below which private ones are made: XDG_RUNTIME_DIR where it is this user's alone, else
# TMPDIR.
session_folder() {
    place=${TMPDIR:-/tmp}
    if [ -n "${XDG_RUNTIME_DIR-}" ] && is_private "$XDG_RUNTIME_DIR"; then place=$XDG_RUNTIME_DIR; fi
    case $place in /*) ;; *) place=$PWD/$place ;; esac
    printf '%s\n' "${place%/}"
}

# BASE: makes a folder of this user's alone whose name is BASE and eight letters, and sets `private` to it.
# Who could put another in its place would get what is handed over there, keys among it: where others
# can, or where none can be made, it sets `why`.
make_private() {
    if why=$(open_to_others "${1%/*}/"); then
        why="$why: others may change what stands there"
        return 1
    fi
    why="${1%/*}: no such folder"
    [ -d "${1%/*}/" ] || return 1
    why="${1%/*}: no folder can be made there"
    private=$(mktemp -d "$1-XXXXXXXX" 2> /dev/null)
}

# FILE: its device and its number, which tell it from every other, and its owner. A link is itself.
identity() { stat -c '%d:%i:%u' -- "$1" 2> /dev/null; }

# FILE ...: a line for each that is there. It is another one where another file stands there, or its
# bytes, its mode or its owner have changed.
identities() { stat -L -c '%d %i %z|%n' -- "$@" 2> /dev/null; }

# FILE and all folders above it are root's, and nobody else may write there.
is_roots() {
    place=$(readlink -f -- "$1" 2> /dev/null) || return 1
    while :; do
        mode_and_owner "${place:-/}" > /dev/null
        case $mode:$owner in ?????w*:* | ????????w*:*) return 1 ;; *:0) ;; *) return 1 ;; esac
        [ -n "${place#/}" ] || return 0
        place=${place%/*}
    done
}

# A word with a control character can't be told to a shell in one line, and is nothing to show on a
# terminal.
has_control() {
    case $1 in *[[:cntrl:]]*) return 0 ;; *) return 1 ;; esac
}

lf='
'
# OPTION WORDS, with commas between them: puts what the programs call these purposes behind `purposes`, a
# line each.
name_purposes() {
    ! has_control "$2" || die "$1: a word with control characters"
    case ,$2, in *,,*) die "$1 '$2': a word is empty" ;; esac
    rest=$2,
    while [ -n "$rest" ]; do
        word=${rest%%,*} rest=${rest#*,}
        case $word in
        all) word="login${lf}sshsig${lf}certificate${lf}other" ;;
        git | file) word=sshsig:$word ;;
        ca) word=certificate ;;
        esac
        purposes=$purposes$word$lf
    done
}

# LIFE in seconds, as OpenSSH's tools read it, or nothing: numbers, each with a unit or none, of at
# most 2^31 - 1 together.
seconds() {
    left=$1 sum=0
    [ -n "$left" ] || return 1
    while [ -n "$left" ]; do
        count=${left%%[!0-9]*}
        left=${left#"$count"}
        [ -n "$count" ] || return 1
        count=${count#"${count%%[!0]*}"}
        [ ${#count} -le 10 ] || return 1
        case $left in
        [mM]*) unit=60 ;;
        [hH]*) unit=3600 ;;
        [dD]*) unit=86400 ;;
        [wW]*) unit=604800 ;;
        [sS]* | '') unit=1 ;;
        *) return 1 ;;
        esac
        left=${left#?}
        sum=$((sum + ${count:-0} * unit))
        [ "$sum" -le 2147483647 ] || return 1
    done
    printf '%s\n' "$sum"
}

# WORD MARK REPLACEMENT: the word, with the replacement for each mark.
replaced() {
    left=$1 made=
    while :; do
        case $left in
        *"$2"*) made=$made${left%%"$2"*}$3 left=${left#*"$2"} ;;
        *) break ;;
        esac
    done
    printf '%s\n' "$made$left"
}

# WORD as a shell has to see it.
quoted() {
    case $1 in
    *[!A-Za-z0-9_./:@%+,=-]*) printf "'%s'\n" "$(replaced "$1" "'" "'\\''")" ;;
    *) printf '%s\n' "$1" ;;
    esac
}

# WORD as csh and fish have to see it. In quotes a backslash stands for itself in csh, and not before a
# quote or another in fish; csh expands ! there too, and splits at blanks what `eval` gets. So each of
# these stands outside of quotes, behind a backslash, which both read alike.
quoted_for_csh() {
    case $1 in
    *[!A-Za-z0-9_./:@%+,=-]*) ;;
    *) printf '%s\n' "$1"; return ;;
    esac
    left=$1 made=
    while :; do
        rest=${left#"${left%%[\\\'! ]*}"}
        [ -n "$rest" ] || break
        made=$made${left%"$rest"}"'\\${rest%"${rest#?}"}'" left=${rest#?}
    done
    printf "'%s'\n" "$made$left"
}

# PATH can't be told to csh, which expands braces, and may expand patterns, in what `eval` gets by backquotes, quoted
# or not.
csh_expands() {
    case $1 in *[][{}*?]*) return 0 ;; *) return 1 ;; esac
}

# SOCKET PID: the lines that the shell is to evaluate. PID is told to it as a variable only where
# the agent stays behind, as ssh-agent does.
tell() {
    if [ "$shell" = csh ]; then
        printf 'setenv SSH_AUTH_SOCK %s;\n' "$(quoted_for_csh "$1")"
        [ -n "$foreground" ] || printf 'setenv SSH_AGENT_PID %s;\n' "$2"
    else
        printf 'SSH_AUTH_SOCK=%s; export SSH_AUTH_SOCK;\n' "$(quoted "$1")"
        [ -n "$foreground" ] || printf 'SSH_AGENT_PID=%s; export SSH_AGENT_PID;\n' "$2"
    fi
    printf 'echo Agent pid %s;\n' "$2"
}

# SOCKET is this user's, and nobody listens there. Where no tool can try, it is taken for one that
# lives.
is_stale() {
    case $(mode_and_owner "$1") in
    s*" $(id -u)") ;;
    *) return 1 ;;
    esac
    tool=$(program add_tool || command -v ssh-add) || return 1
    alone "$1" timeout 5 "$tool" -l > /dev/null 2>&1 < /dev/null
    [ $? = 2 ]
}

# COMMAND ...: what it prints in `said`, with another control character for each NUL, and its status in `ended`.
hear() {
    said=$({ "$@"; printf '\n%s' "$?"; } | tr '\000' '\001')
    ended=${said##*"$lf"} said=${said%"$lf"*}
}

# FORM COMMAND ...: the agent's keys, as the command tells them by the options -l and -L, in the form of one of
# these: a line for each key, of printable characters. Comments may hold line feeds and a line that looks like
# another key's: that stands in both lists alike, where a key has another line in each. Ends with the command's
# status.
tell_keys() {
    how=$1 tries=0
    shift
    while :; do
        hear "$@" -l
        prints=$said
        if [ "$ended" != 0 ]; then
            printf '%s' "$prints" | shown
            return "$ended"
        fi
        hear "$@" -L
        keys=$said
        hear "$@" -l
        many=$(printf '%s' "$keys" | wc -l)
        if [ "$said" = "$prints" ] && [ "$(printf '%s' "$prints" | wc -l)" = "$many" ]; then break; fi
        tries=$((tries + 1))
        if [ "$tries" = 5 ]; then
            say "the agent's keys change while they are listed"
            return 1
        fi
    done
    { printf '%s\n' "$many" && printf '%s' "$keys$prints"; } | LC_ALL=C awk -v how="$how" '
        NR == 1 { many = $1; next }
        NR <= many + 1 { key[NR - 1] = $0; next }
        {
            is_key = key[++at] ~ /^[a-z][a-z0-9@.-]* AAAA[A-Za-z0-9+\/]*=*( |$)/ && $0 ~ /^[0-9]+ [A-Z0-9]+:/
            if (at > 1) printf "%s", is_key ? "\n" : "?"
            printf "%s", how == "-L" ? key[at] : $0
        }
        END { if (at) print "" }' | shown
}

# FOLDER is the private folder of an agent whose guard runs: that keeps the file `running` locked.
is_running() {
    [ ! -h "$1" ] && is_private "$1" && [ -f "$1/running" ] && [ ! -h "$1/running" ] || return 1
    if command -v flock > /dev/null; then
        ! flock -n -s "$1/running" true 2> /dev/null && [ -f "$1/running" ]
    else
        kill -0 "$(running number "$1")" 2> /dev/null
    fi
}

# NAME FOLDER: what the file `running` says of number, version or record.
running() { sed -n "s/^$1 //p" "$2/running"; }

# SOCKET is of an agent of mortarleek-agent's that runs: it stands in that one's private folder, or
# is its socket by another name beside it, where nobody else can put another in its place. Sets
# `folder` to that folder.
is_ours() {
    ! unsafe=$(open_to_others "$1") || return 1
    socket=$(readlink -f -- "$1" 2> /dev/null) || socket=$1
    found=$(identity "$socket")
    case $found in *:"$(id -u)") ;; *) return 1 ;; esac
    for held in "$socket" "${socket%/*}"/.mortarleek-????????/agent.*; do
        folder=${held%/*}
        case $held in */mortarleek-????????/agent.* | */.mortarleek-????????/agent.*) ;; *) continue ;; esac
        if [ -S "$held" ] && [ "$(identity "$held")" = "$found" ] && is_running "$folder"; then return; fi
    done
    return 1
}

# The agent is one of mortarleek-agent's that has no program that asks.
cannot_ask() { is_ours "${SSH_AUTH_SOCK-}" && [ -e "$folder/asks_nobody" ]; }

# COMMAND: runs it while this process alone has the lock of $path, as agent_prog and filter_proxy take
# it: a plain file that stays. It is descriptor 9, which what is started meanwhile isn't handed. Sets
# `why` where the lock can't be had.
under_lock() {
    why="$path: in use"
    [ -e "$path.lock" ] || [ -h "$path.lock" ] || (set -C && : > "$path.lock") 2> /dev/null
    if [ -h "$path.lock" ] || { [ -e "$path.lock" ] && [ ! -f "$path.lock" ]; }; then
        why="$path.lock: is there, and is no plain file, as the lock of $path has to be: remove it"
        return 1
    elif [ ! -r "$path.lock" ]; then
        why="$path.lock: can't be made or read, and $path needs it as its lock: whose folder is it?"
        return 1
    fi
    # shellcheck disable=SC2094 # nothing is read of it
    locked "$@" 9< "$path.lock"
}

locked() {
    if ! timeout 10 flock 9; then
        why="$path.lock: another program has held this lock for ten seconds"
        return 1
    fi
    "$@" 9<&-
}

# Gives $socket the name that -a asked for. A link is made or refused in one step.
claim() {
    ln -- "$socket" "$path" 2> /dev/null && return
    is_stale "$path" && rm -f -- "$path"
    ln -- "$socket" "$path" 2> /dev/null
}

# Takes that name away, where it is still that socket's, which was $claimed.
unclaim() {
    [ "$(identity "$path")" != "$claimed" ] || rm -f -- "$path"
}
