#!/usr/bin/env bash
# How a server that the launcher runs stops by SIGINT and SIGTERM: at the first nobody else is let in, and those who are
# there are answered until they go; at the second their connections are ended; in both cases lines and journals are
# printed, and judged. At the third it is killed. A line for each case; what isn't so ends the script with 1.
set -eu
top=$(cd "$(dirname "$0")/.." && pwd)
source "$top/bench/timing.sh"
work=$(mktemp -d)
source "$top/bench/serving.sh"
script=signs.sh
source "$top/bench/clients.sh"
trap stop EXIT

build_dcerpc
export DCERPC_SAY=no
# (a command that a script starts beside itself isn't told of SIGINT, unless it asks for it)
launch=(env --default-signal=INT --default-signal=TERM python3 "$top/scripts/supervise.py")

# Calls on the connection that is there, which is bound with the first call.
call_there() { # BIND
    octets "$1$open" >&4
    [ "$(timeout 10 head -c $((${#1} > 0 ? 104 : 48)) <&4 | wc -c)" = $((${#1} > 0 ? 104 : 48)) ] || fail 'a connection that is there was not answered'
}

sign() { # SIGN
    kill -s "$1" "$server"
    sleep 0.5
}

is_refused() { ! { exec 3<>"/dev/tcp/127.0.0.1/$port"; } 2>/dev/null; }

# The server ends within ten seconds, with that status.
ends() { # STATUS
    local tries
    for tries in {1..100}; do
        if ! kill -0 "$server" 2>/dev/null; then break; fi
        sleep 0.1
    done
    if kill -0 "$server" 2>/dev/null; then fail 'the server does not end'; fi
    finish "$1"
}

for sign in INT TERM; do
    start 3
    sign "$sign"
    ends 0
    judge 0
    echo "SIG$sign: a server at which nobody is ends"

    start 3
    connect
    call_there "$(bind "$probe")"
    sign "$sign"
    is_refused || fail 'somebody was let in'
    kill -0 "$server" || fail 'the server did not wait for the one that is there'
    call_there ''
    exec 4>&-
    ends 0
    judge 1
    ended 1 closed
    [ "$(grep -c '^end ' "$work/log")" = 2 ] || fail 'a call is not in the journal'
    echo "SIG$sign: nobody else is let in, the one that is there is answered, and the server ends once it goes"

    start 3
    connect
    call_there "$(bind "$probe")"
    sign "$sign"
    sign "$sign"
    [ "$(timeout 10 cat <&4 | wc -c)" = 0 ] || fail 'an ended connection got octets'
    ends 0
    exec 4>&-
    judge 1
    ended 1 closed
    [ "$(grep -c '^shut 1:' "$work/log")" = 1 ] || fail 'a handle was not run down'
    echo "SIG$sign twice: the connection is ended, and its handle is run down"
done

# One whose second connection is in the middle of a PDU
start 3
connect
exec 5<>"/dev/tcp/127.0.0.1/$port"
octets "${whole:0:60}" >&5
call_there "$(bind "$probe")"
sign INT
sign TERM
ends 8
exec 4>&- 5>&-
judge 2
echo 'SIGINT, SIGTERM: one in the middle of a PDU is cut'

# One that sends on and reads nothing: its put is ended too
printf '[uuid(0badc0de-1111-2222-3333-444455556666), version(1.0)] interface echo {\n  error_status_t block([in] unsigned long n, [in, out, size_is(n)] byte d[]); }\n' >"$work/idl"
{
    octets 0500000310000000201000000200000008100000000000000010000000100000
    head -c 4096 /dev/zero
} >"$work/request"
for ((n = 0; n < 4096; n++)); do echo "$work/request"; done >"$work/requests"
start 3 --idl "$work/idl"
connect
octets "$(bind "$echo")" >&4
xargs timeout 2 cat <"$work/requests" >&4 2>/dev/null || true
sign TERM
sign TERM
ends 8
exec 4>&-
judge 1
ended 1 link
echo 'SIGTERM twice: one that reads no answer is ended'

# One that can't end, since the system has stopped it
start 3
connect
call_there "$(bind "$probe")"
kill -s STOP "$(ps -o pid= --ppid "$server")"
sign TERM
sign TERM
kill -0 "$server" || fail 'the second sign killed the server'
sign TERM
ends 137
exec 4>&-
[ ! -s "$work/out" ] || fail 'a killed server printed something'
echo 'SIGTERM three times: one that does not end is killed'
