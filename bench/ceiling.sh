#!/usr/bin/env bash
# Calls a second of `dcerpc serve` over the loopback beside the most that there can be: `bench/bare.c` answers the same
# requests with what has the right shape, and does nothing else. `bench/caller.c` calls both, one call out at a time on each
# connection, in short runs that alternate, since what a shared machine does changes within minutes and only runs side by
# side can be compared. It prints the median of each, and that of the ratio of each pair.
#
# The probe and the store with 4,096 octets over 1, 4, 16 and 64 connections; then 1, 2 and 16 connections that append to
# one cursor in turn, which has nothing to stand beside; then lookups in the endpoint map. With OTHER=PORT and OTHER_NAME
# another server's endpoint map is called beside (`bench/samba.sh`). It wants a C compiler. ROUNDS=31 takes so many runs of
# each.
#
# usage: ceiling.sh [probe] [store] [cursor] [map]
set -eu
top=$(cd "$(dirname "$0")/.." && pwd)
source "$top/bench/timing.sh"
work=$(mktemp -d)
source "$top/bench/serving.sh"
bare=
trap 'kill $bare 2>/dev/null || true; stop' EXIT

build_dcerpc
for name in caller bare; do cc -O2 -pthread -o "$work/$name" "$top/bench/$name.c"; done
rounds=${ROUNDS:-15}

# A yardstick at a port that nobody has.
start_bare() {
    for bare_port in {21950..21999}; do
        if ! is_listening "$bare_port"; then break; fi
    done
    "$work/bare" "$bare_port" &
    bare=$!
    until is_listening "$bare_port"; do
        kill -0 "$bare" || exit 1
        sleep 0.05
    done
}

# Runs of both in turn, each pair in a line of the file `pairs`. Each round has a server of its own, so that its journals
# don't grow on.
run_pairs() { # OTHER-PORT KIND CONNECTIONS CALLS [OCTETS]
    local n other=$1
    shift
    : >"$work/pairs"
    for ((n = 0; n < rounds; n++)); do
        start "$2"
        if [ $((n % 2)) = 0 ]; then
            ours=$("$work/caller" "$port" "$@")
            theirs=$([ -z "$other" ] || "$work/caller" "$other" "$@")
        else
            theirs=$([ -z "$other" ] || "$work/caller" "$other" "$@")
            ours=$("$work/caller" "$port" "$@")
        fi
        finish 0
        echo "$ours ${theirs:-0}" >>"$work/pairs"
    done
}

# The medians of what is in the file.
show_pairs() { # WHAT CONNECTIONS OTHER-NAME
    awk -v what="$1" -v connections="$2" -v other="$3" '
        function median(of,   n, i, j, it) {
            n = 0
            for (i in of) n++
            for (i = 2; i <= n; i++) for (j = i; j > 1 && of[j - 1] > of[j]; j--) { it = of[j]; of[j] = of[j - 1]; of[j - 1] = it }
            return of[int((n + 1) / 2)]
        }
        { ours[NR] = $1; theirs[NR] = $2; if ($2 > 0) ratio[NR] = $1 / $2 }
        END {
            printf "%-36s %8.0f calls a second", what ", " connections " connections", median(ours)
            if (other != "") printf ", %.2f of %s", median(ratio), other
            printf "\n"
            if (other != "") printf "%-36s %8.0f calls a second\n", other ", " what ", " connections " connections", median(theirs)
        }' "$work/pairs"
}

parts=" ${*:-probe store cursor map} "
start_bare
if [[ $parts == *' probe '* ]]; then
    for connections in 1 4 16 64; do
        run_pairs "$bare_port" probe "$connections" "$(sized 20000)"
        show_pairs probe "$connections" 'the ceiling'
    done
fi
if [[ $parts == *' store '* ]]; then
    for connections in 1 4 16 64; do
        run_pairs "$bare_port" store "$connections" "$(sized 8000)" 4096
        show_pairs 'store, 4,096 octets' "$connections" 'the ceiling'
    done
fi
if [[ $parts == *' cursor '* ]]; then
    for connections in 1 2 16; do
        run_pairs '' cursor "$connections" "$(sized 20000)" 64
        show_pairs 'one cursor in turn' "$connections" ''
    done
fi
if [[ $parts == *' map '* ]]; then
    for connections in 1 4; do
        run_pairs "${OTHER:-$bare_port}" lookup "$connections" "$(sized 10000)"
        show_pairs 'endpoint map' "$connections" "${OTHER_NAME:-the ceiling}"
    done
fi
