# Clients of a served program and what is looked at of the server, for the scripts beside it; they source it after
# serving.sh, and set `script` to their name. It wants bash's /dev/tcp.
# shellcheck shell=bash

probe=127a0c5f4d3b6f4e8a90b1c2d3e4f50601000000
echo=dec0ad0b11112222333344445555666601000000
ndr=045d888aeb1cc9119fe808002b10486002000000

fail() { # WHAT
    echo "$script: $1" >&2
    exit 1
}

octets() { printf "$(sed 's/../\\x&/g' <<<"$1")"; } # HEX

# A bind of one context, and a call of probe_open behind it. Both are answered by 104 octets.
bind() { echo "05000b03100000004800000001000000b810b810000000000100000000000100$1$ndr"; } # INTERFACE
open=05000003100000001c00000002000000040000000000000005000000
whole=$(bind "$probe")$open

# Fragments of a request: the first, one of those behind it, and the last.
fragment() { # FLAGS LENGTH OCTETS
    octets "050000${1}10000000${2}0000020000000000000000000000"
    head -c "$3" /dev/zero
}

# A client of one call: it has to be answered, within ten seconds.
call_beside() {
    exec 3<>"/dev/tcp/127.0.0.1/$port"
    octets "$whole" >&3
    [ "$(timeout 10 head -c 104 <&3 | wc -c)" = 104 ] || fail 'a call beside was not answered'
    exec 3>&-
    beside=$((${beside:-0} + 1))
}

# Connects as descriptor 4, first of all that do.
connect() {
    exec 4<>"/dev/tcp/127.0.0.1/$port"
}

# So many that connect and say nothing, and their end.
connect_silent() { # COUNT
    local n descriptor
    silent=()
    for ((n = 0; n < $1; n++)); do
        exec {descriptor}<>"/dev/tcp/127.0.0.1/$port"
        silent+=("$descriptor")
    done
}

go_silent() {
    local descriptor
    for descriptor in "${silent[@]}"; do exec {descriptor}>&-; done
}

threads() { find "/proc/$server/task" -mindepth 1 -maxdepth 1 | wc -l; }

descriptors() { find "/proc/$server/fd" -mindepth 1 | wc -l; }

# What the server has before anybody comes.
note_rest() { rest="$(threads) threads, $(descriptors) descriptors" held='' beside=0; }

# What it has while the clients of a case are there.
note_held() { held="$(threads) threads, $(descriptors) descriptors"; }

# The server is to have no more than at rest again, within ten seconds or so many.
await_rest() { # [SECONDS]
    local tries now
    for ((tries = 0; tries < ${1:-10} * 10; tries++)); do
        now="$(threads) threads, $(descriptors) descriptors"
        if [ "$now" = "$rest" ]; then return 0; fi
        sleep 0.1
    done
    fail "the server has $now, where it had $rest"
}

# The lines and journals of a server that has ended.
judge() { # CONNECTIONS
    [ "$(grep -c '^connection ' "$work/out")" = "$1" ] || fail "not a line for each of $1 connections"
    [ "$(grep -c '^group ' "$work/log")" = "$(grep -c '^shut' "$work/log")" ] || fail 'a group is not shut'
    "$program" audit "$work/log" >"$work/verdicts" || fail "a journal is not legal: $(grep -v legal "$work/verdicts" | head -n 1)"
}

# The last connection comes and goes; the server ends with that status, and what it leaves is judged. A line says what was
# held, and how many calls of others were answered meanwhile.
end() { # STATUS CONNECTIONS WHAT MOST-KIB CLIENTS OCTETS
    local most
    await_rest
    most=$(memory VmHWM)
    exec 3<>"/dev/tcp/127.0.0.1/$port"
    exec 3>&-
    finish "$1"
    judge "$2"
    [ "$most" -le "$4" ] || fail "$3: the server had $most KiB"
    told "$3" "$5" "$6" "$most"
}

told() { # WHAT CLIENTS OCTETS KIB
    awk -v what="$1" -v clients="$2" -v octets="$3" -v most="$4" -v held="$held" -v beside="$beside" 'BEGIN {
        printf "%-44s %5d clients, %9.0f octets%s, %.1f MiB at most; %d calls beside answered\n", what, clients, octets, held ? ", " held : "", most / 1024, beside
    }'
}

ended() { # NUMBER AS
    grep -qx "connection $1 $2" "$work/out" || fail "not '$2': $(grep "^connection $1 " "$work/out")"
}
