#!/usr/bin/env bash
# Whether `dcerpc serve` outlasts clients that mean it ill, over the loopback: 1,000 that connect and say nothing, with
# descriptors for all of them and with 256 in all; one that says nothing for more than a minute, beside one that asks on
# and reads no answer, and holds on for more than a minute; one that does so and goes; one that sends 64 MiB as one
# request; one that is refused and sends 32 MiB more; one that vanishes at each octet of a bind and a call; and 100 with
# up to 60 MiB of a request that they don't finish, where the server may take 512 MiB in all. In each case the server has
# to go on, to answer a client that means it well meanwhile (of the last case: afterwards), to be done with each
# connection, its thread and its descriptors, to end with the status that belongs to how they ended, and to leave legal
# journals of groups that are all shut. Last, its door is shut from outside. A line for each case has what was held: the
# clients and the octets that they could send, the threads and descriptors of the server meanwhile, and the memory that it
# had at most. What isn't so ends the script with 1.
#
# usage: hostile.sh [CASE..], of: silent few minute unread long refused vanish unfinished door
set -eu
top=$(cd "$(dirname "$0")/.." && pwd)
source "$top/bench/timing.sh"
work=$(mktemp -d)
source "$top/bench/serving.sh"
script=hostile.sh
source "$top/bench/clients.sh"
trap stop EXIT

build_dcerpc
ulimit -n 4096 # the server has two descriptors for a connection

# So many silent ones, with so many descriptors for the server.
say_nothing() { # COUNT DESCRIPTORS WHAT
    ulimit -S -n "$2"
    start $(($1 + 2))
    ulimit -S -n 4096
    note_rest
    connect_silent "$1"
    sleep 2
    kill -0 "$server" || fail 'want of descriptors ended the server'
    note_held
    [ "$2" = 4096 ] || [ "$(descriptors)" -ge 200 ] || fail "only $(descriptors) descriptors of $2 are used"
    # (where there are none left, the next one waits until another one has gone)
    [ "$2" != 4096 ] || call_beside
    go_silent
    [ "$2" = 4096 ] || call_beside
    end 0 $(($1 + 2)) "$3" $(($1 * 100)) "$1" 0
    [ "$(grep -c ' closed$' "$work/out")" = $(($1 + 2)) ] || fail 'one that said nothing was not closed'
}

case_silent() { say_nothing 1000 4096 '1,000 that say nothing'; }

case_few() { say_nothing 1000 256 '1,000 that say nothing, 256 descriptors'; }

# An echo of 4,096 octets, to be asked 16,257 times.
make_requests() {
    printf '[uuid(0badc0de-1111-2222-3333-444455556666), version(1.0)] interface echo {\n  error_status_t block([in] unsigned long n, [in, out, size_is(n)] byte d[]); }\n' >"$work/idl"
    {
        octets 0500000310000000201000000200000008100000000000000010000000100000
        head -c 4096 /dev/zero
    } >"$work/request"
    for ((n = 0; n < 16257; n++)); do echo "$work/request"; done >"$work/requests"
}

# Asks on descriptor 4 until the server takes no more, as nobody reads its answers. It must not take all 64 MiB.
ask_on() {
    octets "$(bind "$echo")" >&4
    if xargs timeout 5 cat <"$work/requests" >&4 2>"$work/complaints"; then fail 'the server took 64 MiB whose answers nobody reads'; fi
}

# One says nothing, and is heard of no more behind a minute. One reads no answer, and so is it.
case_minute() {
    start 4 --idl "$work/idl"
    note_rest
    exec 5<>"/dev/tcp/127.0.0.1/$port"
    sleep 0.5
    connect
    ask_on
    note_held
    call_beside
    [ "$(timeout 90 cat <&5 | wc -c)" = 0 ] || fail 'one that said nothing got octets'
    await_rest 90
    exec 4>&- 5>&-
    end 8 4 'one that says nothing, one that reads nothing' 65536 2 67108864
    ended 1 link
    ended 2 link
}

case_unread() {
    start 3 --idl "$work/idl"
    note_rest
    connect
    ask_on
    note_held
    call_beside
    exec 4>&-
    end 8 3 'one that reads no answer and goes' 65536 1 67108864
    ended 1 link
}

# A bind, and a stub of 64 MiB in fragments of 4,256 octets: 15,768 and one of 256.
make_long() {
    octets "$(bind "$probe")"
    fragment 01 b810 4256
    fragment 00 b810 4256 >"$work/next"
    for ((n = 1; n < 15768; n++)); do echo "$work/next"; done | xargs cat
    fragment 02 1801 256
}

case_long() {
    start 3
    note_rest
    connect
    cat "$work/long" >&4
    [ "$(timeout 10 head -c 88 <&4 | tail -c 32 | head -c 3 | od -An -tx1)" = ' 05 00 03' ] || fail 'a request of 64 MiB got no fault'
    note_held
    call_beside
    exec 4>&-
    end 0 3 'one that sends 64 MiB as a request' 131072 1 "$(stat -c %s "$work/long")"
    ended 1 closed
}

# A bind to a group that isn't there is refused; the refusal comes though 32 MiB follow.
case_refused() {
    start 3
    note_rest
    connect
    octets 05000b03100000001c00000001000000b810b810ffffffff00000000 >&4
    head -c 33554432 /dev/zero >&4 || fail 'one that was refused was cut off'
    [ "$(timeout 10 cat <&4 | head -c 3 | od -An -tx1)" = ' 05 00 0d' ] || fail 'no refusal came'
    note_held
    call_beside
    exec 4>&-
    end 8 3 'one that is refused and sends 32 MiB more' 16384 1 33554460
    ended 1 refused
}

case_vanish() {
    local n
    start 102
    note_rest
    for ((n = 0; n < 100; n++)); do
        connect
        octets "${whole:0:$((2 * n))}" >&4
        exec 4>&-
    done
    call_beside
    end 8 102 'one that vanishes at each octet' 16384 100 4950
    ended 1 closed
}

# 100 that begin a request and don't finish it, each with up to 60 MiB, where the server may have 512 MiB in all.
case_unfinished() {
    local n sender senders=()
    case $program in *unproved*) echo 'left out: a build with run-time checks has no bound of memory' && return ;; esac
    head -c 62914560 "$work/long" >"$work/begun"
    mkfifo "$work/gate"
    bounded=524288
    start 102
    bounded=
    note_rest
    for ((n = 0; n < 100; n++)); do
        # (it stays after it has sent what it could, or was cut off)
        (
            exec 4<>"/dev/tcp/127.0.0.1/$port"
            timeout 60 cat "$work/begun" >&4 2>/dev/null || true
            echo sent >>"$work/sent"
            read -r _ <"$work/gate" || true
        ) &
        senders+=("$!")
    done
    for ((n = 0; n < 900; n++)); do
        if [ "$(wc -l 2>/dev/null <"$work/sent")" = 100 ]; then break; fi
        kill -0 "$server" 2>/dev/null || fail 'want of memory ended the server'
        sleep 0.1
    done
    note_held
    for sender in "${senders[@]}"; do kill "$sender" 2>/dev/null || true; done
    wait "${senders[@]}" 2>/dev/null || true
    await_rest 60
    call_beside
    end 5 102 '100 that finish no request, 512 MiB' 524288 100 $((100 * 62914560))
    [ "$(grep -c ' memory$' "$work/out")" -ge 50 ] || fail "only $(grep -c ' memory$' "$work/out") of 100 were refused memory"
}

# A door that is shut from outside, as the launcher does it: the server ends once the one that is there has gone.
case_door() {
    start 3
    note_rest
    connect
    octets "$whole" >&4
    [ "$(timeout 10 head -c 104 <&4 | wc -c)" = 104 ] || fail 'a call was not answered'
    PYTHONPATH="$top/scripts" python3 -c "import server; server.close_door($server)"
    sleep 0.5
    if { exec 3<>"/dev/tcp/127.0.0.1/$port"; } 2>/dev/null; then fail 'a door that was shut let somebody in'; fi
    kill -0 "$server" || fail 'a server whose door was shut did not wait'
    exec 4>&-
    finish 0
    judge 1
    ended 1 closed
    echo 'a door that is shut from outside'
}

make_requests
make_long >"$work/long"
names=("$@")
[ $# -gt 0 ] || names=(silent few minute unread long refused vanish unfinished door)
for name in "${names[@]}"; do "case_$name"; done
