#!/usr/bin/env bash
# Times `decode` and `encode` beside plain copies of as many octets in the same run: arrays of 4 KiB, 16 MiB and 64 MiB of
# bytes, a million structures of five numbers, 100,000 unique and as many full pointers, a ring of 256 full pointers, and
# texts. Prints octets a second, how many times the copies' time that is, and the memory that it took, in times the stub:
# of encoding, what it took beside the message. Then stubs of each shape, each twice as large as the one before, with the
# ratio of the times. Each time is the least of three; making the stubs isn't counted.
set -eu
top=$(cd "$(dirname "$0")/.." && pwd)
source "$top/bench/timing.sh"
build_bench

# octets and microseconds of the copies; then of decoding, and of encoding, the least microseconds and the KiB of that run
run() { # SHAPE N TIMES
    for _ in 1 2 3; do "$bench" ndr "$@"; done | awk '
        NF != 16 { exit 1 }
        copied == "" || $4 < copied { copied = $4 }
        decoded == "" || $6 < decoded { decoded = $6; room = $10 - $8 }
        encoded == "" || $12 < encoded { encoded = $12; more = $16 - $14 }
        END { print $2, copied, decoded, room, encoded, more }'
}

line() { # WHAT SHAPE N TIMES
    run "$2" "$(sized "$3")" "$(sized "$4")" | awk -v what="$1" -v times="$(sized "$4")" '
        function show(verb, time, room) {
            printf "%-24s %9d octets %s %8.1f MB/s, %7.2f times a copy", what, $1, verb, $1 * times / time, time / ($2 > 0 ? $2 : 1)
            if (times == 1) printf ", memory %.2f times the stub", room * 1024 / $1
            printf "\n"
        }
        { show("decoded", $3, $4); show("encoded", $5, $6) }'
}

line "4 KiB of bytes" bytes 4096 10000
line "16 MiB of bytes" bytes 16777216 1
line "64 MiB of bytes" bytes 67108856 1
line "1,000,000 structures" structures 1000000 1
line "100,000 unique pointers" unique 100000 1
line "100,000 full pointers" full 100000 1
line "a ring of 256" ring 256 1000
line "100,000 texts" texts 100000 1

doubled() { # SHAPE LEAST
    local n now before=
    for n in $2 $(($2 * 2)) $(($2 * 4)) $(($2 * 8)); do
        n=$(sized "$n")
        now=$(run "$1" "$n" 1 | awk '{ print $3, $5 }')
        awk -v what="$1 $n" -v now="$now" -v before="$before" 'BEGIN {
            split(now, n, " ")
            split(before, b, " ")
            printf "%-24s decoded %7.3f s", what, n[1] / 1e6
            if (b[1] > 0) printf ", %.2f times the one before", n[1] / b[1]
            printf "; encoded %7.3f s", n[2] / 1e6
            if (b[2] > 0) printf ", %.2f times the one before", n[2] / b[2]
            printf "\n"
        }'
        before=$now
    done
}

doubled bytes 8000000
doubled structures 125000
doubled unique 125000
doubled full 125000
doubled texts 50000
