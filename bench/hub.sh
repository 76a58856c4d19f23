#!/usr/bin/env bash
# Times calls on a hub by `bench hub`, each accepted, taken and ended: calls a second by 1, 2 and 4 threads in one group,
# in groups of one shard and in groups of different shards, with the ratio to one thread; and how the cost of a call of
# one thread grows with the calls before, with the open groups and with the live handles. A connection leaves after 250
# calls and joins again. Where it isn't said that journals fold, the connection that opened the group stays, so nothing is
# folded; where it is said, each thread has a group of its own, in which a connection leaves as soon as the next one has
# joined. A time is what the program says of its threads, from before the first one starts until the last one is done, so
# that the journals are dropped at its end, by one thread, is no part of it. What it takes to issue the handles is timed
# alone and taken off. Each time is the least of three.
set -eu
top=$(cd "$(dirname "$0")/.." && pwd)
source "$top/bench/timing.sh"
build_bench
calls=250

# The least time of the threads of three runs, in microseconds. A run that failed ends the script.
told() { # THREADS STEP GROUPS HANDLES VISITS ROLLS
    local best='' time
    for _ in 1 2 3; do
        time=$("$bench" hub "$1" "$2" "$3" "$4" "$5" "$calls" "$6" 2>&1 >/dev/null) || {
            echo "failed: $bench hub $*: $time" >&2
            return 1
        }
        if [ -z "$best" ] || [ "$time" -lt "$best" ]; then best=$time; fi
    done
    echo "$best"
}

# Of so many visits by each thread, in microseconds. No time or a run that failed ends the script.
visited() { # THREADS STEP GROUPS HANDLES VISITS [ROLLS]
    local bare whole
    bare=$(told "$1" "$2" "$3" "$4" 0 "${6-0}") || return 1
    whole=$(told "$1" "$2" "$3" "$4" "$5" "${6-0}") || return 1
    [ "$whole" -gt "$bare" ] || { echo "too few visits to time: $*" >&2; return 1; }
    echo $((whole - bare))
}

show_rate() { # WHAT CALLS MICROSECONDS [RATE]
    awk -v what="$1" -v calls="$2" -v time="$3" -v one="${4-}" 'BEGIN {
        rate = calls * 1e6 / time
        printf "%-38s %9.0f calls a second", what, rate
        if (one != "") printf ", %.2f times those of one thread", rate / one
        printf "\n"
    }'
}

show_cost() { # WHAT CALLS MICROSECONDS [BEFORE]
    awk -v what="$1" -v calls="$2" -v time="$3" -v before="${4-}" 'BEGIN {
        printf "%-38s %9.3f microseconds a call", what, time / calls
        if (before != "") printf ", %.2f times the one before", time / calls / before
        printf "\n"
    }'
}

visits=$(sized 400)
for case in "0 0 one group" "16 0 groups of one shard" "1 0 groups of different shards" "1 1 different shards, folding"; do
    read -r step rolls what <<<"$case"
    one=
    for threads in 1 2 4; do
        time=$(visited "$threads" "$step" $((64 - 64 * rolls)) 0 "$visits" "$rolls")
        made=$((threads * visits * calls))
        show_rate "$threads threads, $what" "$made" "$time" "$one"
        if [ -z "$one" ]; then one=$((made * 1000000 / time)); fi
    done
done

cost() { # WHAT GROUPS HANDLES VISITS [ROLLS]: and keeps the cost in `before`
    local time visits
    visits=$(sized "$4")
    time=$(visited 1 1 "$2" "$3" "$visits" "${5-0}")
    show_cost "$1" $((visits * calls)) "$time" "$before"
    before=$(awk -v calls=$((visits * calls)) -v time="$time" 'BEGIN { print time / calls }')
}

before=
for visits in 200 400 800 1600; do cost "$((visits * calls)) calls" 1 0 "$visits"; done
before=
for visits in 200 400 800 1600; do cost "$((visits * calls)) calls, folding" 0 0 "$visits" 1; done
before=
for groups in 1 16 256 1024; do cost "$groups groups are open" "$groups" 0 400; done
before=
for handles in 1 1000 8000 64000; do cost "$handles handles are live" 1 "$(sized "$handles")" 400; done
