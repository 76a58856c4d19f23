#!/usr/bin/env bash
# Times lookups of a whole map of 4,096 entries, each call from its stub: all at once, and in pieces of 1,024, 256 and 64
# entries. A call costs the map's length once, and what it gives: so n pieces cost n times the map's length at most, and
# the entries once. Each time is the least of three.
set -eu
top=$(cd "$(dirname "$0")/.." && pwd)
source "$top/bench/timing.sh"
build_bench
rounds=$(sized 20)

for most in 4096 1024 256 64; do
    for _ in 1 2 3; do "$bench" epm "$most" "$rounds" time; done | awk -v most="$most" -v rounds="$rounds" '
        NF != 4 { exit 1 }
        best == "" || $4 < best { best = $4; entries = $2 }
        END { calls = rounds * 4096 / most; printf "%5d entries a call %9.3f s, %8.1f us a call, %6.2f us an entry\n", most, best / 1e6, best / calls, best / entries }'
done
