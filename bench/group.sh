#!/usr/bin/env bash
# Times a group by `bench group`, and how the cost of what is done there grows with the calls that wait and with the live
# handles: of a call (accepted, taken and ended), of one that is accepted while the oldest of those that wait is
# cancelled, of a connection that joins and leaves while another stays, and of one that leaves while a call of it waits.
# Of a call also with the entries of the journal, and where it closes the oldest handle. And what a connection costs that
# joins before the last one leaves, so that the journal is folded, with as many folds and with more, and with more live
# handles. What it takes to make the group is timed alone and taken off, so what is timed is done often enough to take
# longer. Each time is the least of nine, and stands beside the least of its row.
set -eu
top=$(cd "$(dirname "$0")/.." && pwd)
source "$top/bench/timing.sh"
build_bench
RUNS=9

# The time of one of so many, in thousandths of a microsecond: calls, closes or connections. A group that stops early
# ends the script.
each() { # COUNT LIVE WAITING ROUNDS CLOSES VISITS CANCELS LEAVES DROPS
    local count=$1 bare whole said
    shift
    said=$("$bench" group "$@")
    case $said in *entries) ;; *) echo "$said: $*" >&2; return 1 ;; esac
    bare=$(least 0 "$bench" group "$1" "$2")
    whole=$(least 0 "$bench" group "$@")
    echo $(((whole - bare) * 1000 / count))
}

# Enters a time in the row that is shown next. No time ends the script.
enter() { # TIME WHAT
    [ -n "$1" ] || return 1
    row+="$1 $2"$'\n'
}

# Shows the row, and how each of its times stands to the least.
show_row() { # EACH
    awk -v each="$1" 'NF > 1 {
        time[++count] = $1
        what[count] = substr($0, length($1) + 2)
        if (least == "" || $1 < least) least = $1
    } END {
        for (i = 1; i <= count; i++) {
            printf "%-40s %9.3f microseconds a %s", what[i], time[i] / 1000, each
            if (least > 0) printf ", %.2f times the least", time[i] / least
            printf "\n"
        }
    }' <<<"$row"
    row=
}

row=
for rounds in 10000 20000 40000 80000; do
    rounds=$(sized "$rounds")
    time=$(each "$rounds" 2 0 "$rounds")
    enter "$time" "$((rounds * 3)) entries"
done
show_row call

# Shows how the cost stands to the calls that wait and to the live handles.
against() { # WHAT EACH ROUNDS [CLOSES VISITS CANCELS LEAVES DROPS]
    local what=$1 each=$2 waiting live time
    shift 2
    for waiting in 1 16 250; do
        time=$(each "$count" 2 "$waiting" "$@")
        enter "$time" "$what, $waiting calls wait"
    done
    show_row "$each"
    for live in 1 1000 64000; do
        live=$(sized "$live")
        time=$(each "$count" "$live" 0 "$@")
        enter "$time" "$what, $live handles are live"
    done
    show_row "$each"
}

count=$(sized 200000)
against call call "$count"
count=$(sized 400000)
against cancel call 0 0 0 "$count"
count=$(sized 1000000)
against leave connection 0 0 0 0 "$count"
against "leave with a call" connection 0 0 0 0 0 "$count"

for live in 1000 4000 16000 64000; do
    live=$(sized "$live")
    count=$((live / 2))
    time=$(each "$count" "$live" 0 0 "$count")
    enter "$time" "closes, $live live"
done
show_row call
RUNS=3
count=$(sized 500)
for visits in 10000 20000 40000; do
    visits=$(sized "$visits")
    time=$(each "$visits" 2 0 0 0 "$visits")
    enter "$time" "$visits folds"
done
show_row connection
for live in 2 1000 8000 64000; do
    live=$(sized "$live")
    time=$(each "$count" "$live" 0 0 0 "$count")
    enter "$time" "folds, $live live"
done
show_row connection
