#!/usr/bin/env bash
# Times `dcerpc call` against `dcerpc serve` over the loopback, each run against a server of its own. First scripts of
# 2,500 to 20,000 rounds on one connection, which open a handle of the probe and close it, each by a name of its own;
# then scripts that append 1 to 16 MiB to a file of the store and read them again, 4,096 octets a call; then such of one
# append and one read alone, so that 1 to 16 MiB of octets stand in one value's text, of 3 characters an octet. Each
# time is the least of three runs, from the start of `call` to its end, and stands to the one before. A run that doesn't
# end with 0, of the caller or of the server, or a call that isn't answered as it should be, ends the script. Caller and
# server share the processors.
set -eu
top=$(cd "$(dirname "$0")/.." && pwd)
source "$top/bench/timing.sh"
work=$(mktemp -d)
source "$top/bench/serving.sh"
trap stop EXIT

build_dcerpc

# Sets `time` to the least microseconds of three runs of a script of so many calls, each against a server of its own.
played() { # INTERFACE SCRIPT CALLS
    time=
    for _ in 1 2 3; do
        start 1
        calls_of 1 "$@"
        finish 0
        if [ -z "$time" ] || [ "$took" -lt "$time" ]; then time=$took; fi
    done
}

before=
for rounds in 2500 5000 10000 20000; do
    rounds=$(sized "$rounds")
    probe_script "$rounds" >"$work/script"
    played probe "$work/script" $((2 * rounds))
    show "$((2 * rounds)) calls" "$time" "$before"
    before=$time
    awk -v calls=$((2 * rounds)) -v time="$time" 'BEGIN { printf "%-24s %9.0f a second\n", "", calls * 1e6 / time }'
done

before=
for size in 1 4 16; do
    calls=$(sized $((size * 256)))
    store_script "$calls" 4096 >"$work/script"
    played store "$work/script" $((calls * 2 + 2))
    show "$size MiB, 4,096 a call" "$time" "$before"
    before=$time
done

before=
for size in 1 4 16; do
    store_script 1 "$(sized $((size * 1048576)))" >"$work/script"
    played store "$work/script" 4
    show "$size MiB in one text" "$time" "$before"
    before=$time
done
