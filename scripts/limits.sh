# The limits under which the program runs. To be sourced, with `say` and `speaks`.
# shellcheck shell=bash

# What a connection takes of them: a socket, what waits for it and, once a call of it had to wait, what wakes it; the stack
# of its thread, in KiB, which is 4 MiB, and the least of what it keeps.
readonly connection_files=3 connection_kib=4200
# What the program takes beside its connections.
readonly own_files=16 own_kib=200000

# KiB of a size such as 512M or 4G.
as_kib() {
    case $1 in
        *[!0-9KMGkmg]* | '' | [!0-9]*) return 1 ;;
        *[Kk]) echo $((10#${1%?})) ;;
        *[Mm]) echo $((10#${1%?} * 1024)) ;;
        *[Gg]) echo $((10#${1%?} * 1048576)) ;;
        *) echo $((10#$1 / 1024)) ;;
    esac
}

# The most memory that a server may take, in KiB: DCERPC_MEMORY, or three quarters of the machine's.
memory_limit() {
    local wish=${DCERPC_MEMORY:-}
    if [ -z "$wish" ]; then
        awk '/^MemTotal:/ { print int($2 * 3 / 4) }' /proc/meminfo
    elif [ "$wish" = none ]; then
        echo unlimited
    else
        as_kib "$wish"
    fi
}

# The number of connections that the words ask for, or nothing.
connections_asked() {
    local word is_next=''
    for word in "$@"; do
        case $word in
            --connections) is_next=1 && continue ;;
            --connections=*) word=${word#*=} is_next=1 ;;
        esac
        if [ -n "$is_next" ]; then
            case $word in *[!0-9]* | '' | ????????*) ;; *) echo "$word" ;; esac
            return
        fi
    done
}

# How many connections may be open at once under the limits as they are.
connections_held() {
    local files kib held
    files=$(ulimit -S -n) kib=$(ulimit -S -v) held=1000000
    [ "$files" = unlimited ] || held=$(((files - own_files) / connection_files))
    [ "$kib" = unlimited ] || [ $(((kib - own_kib) / connection_kib)) -ge $held ] || held=$(((kib - own_kib) / connection_kib))
    echo $((held > 0 ? held : 0))
}

# The stack of the thread of `main`, and of the threads of calls: some 4.9 MiB are needed to read the deepest value of a call
# script, and some 2.8 for a stub. Where the limit is none the C library gives threads 2. Those of a server have 4 MiB, as
# its connections' have, so that more of them have room under the limit of memory.
limit_stack() {
    local most=8192
    [ "$1" != serve ] || most=4096
    ulimit -S -s $most 2>/dev/null || say_to_person "the stack has $(ulimit -S -s) KiB (ulimit -s), where $most are wanted"
}

# A server may open as many files as the system lets it, and takes memory up to a bound, so that want of it is refused
# and ends nothing. A build with run-time checks maps far more than it takes, so it has no such bound.
limit_server() {
    local kib asked held
    ulimit -S -n "$(ulimit -H -n)" 2>/dev/null
    if [ "$program" != "$unproved" ]; then
        kib=$(memory_limit) || { say "DCERPC_MEMORY is a size such as 512M or 4G, or none"; exit 1; }
        ulimit -S -v "$kib" 2>/dev/null
    fi
    asked=$(connections_asked "$@") held=$(connections_held)
    if [ -n "$asked" ] && [ "$asked" -gt "$held" ]; then
        say_to_person "about $held of these $asked connections can be open at once: files (ulimit -n) $(ulimit -S -n), memory (DCERPC_MEMORY) $(ulimit -S -v) KiB"
    fi
}
