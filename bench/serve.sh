#!/usr/bin/env bash
# Times calls of `dcerpc serve` over the loopback, made by `dcerpc call`: calls a second over 1, 4 and 16 connections,
# each by a caller of its own with one call out at a time, of the probe, where a handle is opened and closed, and of the
# store, where 4 or 4,096 octets are appended to a file and read. Each rate is the greatest of three, from the start of
# the first caller to the end of the last. A file has 16 MiB at most, and the three runs append no more than that. After
# each rate stands how it is to that of one connection, and the memory that the server has then, the files of all three
# among it.
# Then what a call of the probe costs after many calls, and beside connections that say nothing.
# Last, what a connection costs that says nothing, of 200. Servers and clients share the processors of the machine.
set -eu
top=$(cd "$(dirname "$0")/.." && pwd)
source "$top/bench/timing.sh"
work=$(mktemp -d)
source "$top/bench/serving.sh"
trap stop EXIT

build_dcerpc

# Sets `time` to the least microseconds of three runs of the script in the file `script`.
timed() { # CONNECTIONS INTERFACE CALLS
    time=
    for _ in 1 2 3; do
        calls_of "$1" "$2" "$work/script" "$3"
        if [ -z "$time" ] || [ "$took" -lt "$time" ]; then time=$took; fi
    done
}

# The last connection comes and goes, and the server ends.
end() {
    exec 3<>"/dev/tcp/127.0.0.1/$port"
    exec 3>&-
    finish 0
}

for case in "0 20000 probe" "4 20000 store, 4 octets" "4096 1200 store, 4,096 octets"; do
    read -r octets rounds what <<<"$case"
    rounds=$(sized "$rounds")
    one=
    for connections in 1 4 16; do
        each=$((rounds < connections ? 1 : rounds / connections))
        start $((3 * connections + 1))
        if [ "$octets" = 0 ]; then
            probe_script "$each" >"$work/script"
            timed "$connections" probe $((2 * each))
        else
            store_script "$each" "$octets" >"$work/script"
            timed "$connections" store $((2 * each + 2))
        fi
        memory=$(memory VmRSS)
        end
        awk -v what="$what, $connections connections" -v calls=$((each * connections * 2)) \
            -v time="$time" -v memory="$memory" -v one="$one" 'BEGIN {
            rate = calls * 1e6 / time
            printf "%-36s %8.0f calls a second", what, rate
            if (one != "") printf ", %.2f times those of one", rate * one / 1e6
            printf ", %.1f MiB\n", memory / 1024
        }'
        if [ -z "$one" ]; then one=$(awk -v calls=$((each * 2)) -v time="$time" 'BEGIN { print time / calls }'); fi
    done
done

# Calls of the probe over one connection, after more and more calls, and beside more and more connections that say
# nothing: what one costs, and how it is to the one before.
cost() { # WHAT ROUNDS IDLE
    local descriptor descriptors=()
    start $((4 + $3))
    for ((n = 0; n < $3; n++)); do
        exec {descriptor}<>"/dev/tcp/127.0.0.1/$port"
        descriptors+=("$descriptor")
    done
    probe_script "$2" >"$work/script"
    timed 1 probe $((2 * $2))
    for descriptor in "${descriptors[@]}"; do exec {descriptor}>&-; done
    end
    awk -v what="$1" -v time="$time" -v calls=$((2 * $2)) -v before="$before" 'BEGIN {
        printf "%-36s %8.2f microseconds a call", what, time / calls
        if (before != "") printf ", %.2f times the one before", time / calls / before
        printf "\n"
    }'
    before=$(awk -v time="$time" -v calls=$((2 * $2)) 'BEGIN { print time / calls }')
}

before=
for rounds in 5000 10000 20000; do
    rounds=$(sized "$rounds")
    cost "$((2 * rounds)) calls" "$rounds" 0
done
before=
for idle in 0 100 200 400; do cost "$idle connections that say nothing" "$(sized 20000)" "$idle"; done

count=200
start "$count"
before=$(memory VmRSS)
descriptors=()
for ((n = 0; n < count; n++)); do
    exec {descriptor}<>"/dev/tcp/127.0.0.1/$port"
    descriptors+=("$descriptor")
done
sleep 2
after=$(memory VmRSS)
for descriptor in "${descriptors[@]}"; do exec {descriptor}>&-; done
finish 0
awk -v count="$count" -v before="$before" -v after="$after" 'BEGIN {
    printf "%-36s %8.1f KiB a connection\n", "connections that say nothing", (after - before) / count
}'
