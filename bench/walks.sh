#!/usr/bin/env bash
# Runs the walks over calls of groups and of hubs, and compares what they print with what is kept beside them: stories
# of groups, whose answers were written by hand or computed by another program (`group_stories`); a walk that compares
# each answer, fold and journal with what the plain rules say of the whole journal (`group_walk`); and one over the
# calls of a hub (`hub_walk`). It ends with 1 at the first that differs.
set -eu
top=$(cd "$(dirname "$0")/.." && pwd)
source "$top/bench/timing.sh"

for walk in group_stories group_walk hub_walk; do
    build_bench "$walk"
    kept=$top/bench/crates/$walk
    input=/dev/null
    if [ -f "$kept/stdin" ]; then input=$kept/stdin; fi
    "$bench" <"$input" | diff - "$kept/stdout" >&2 || { echo "walks.sh: $walk differs" >&2; exit 1; }
    echo "$walk: as kept, $(wc -l <"$kept/stdout") lines"
done
