#!/usr/bin/env bash
# Runs `hub_walk` once for each block of memory that it asks the C library for, and refuses it that one. The walk makes
# a call again that was refused, so each run has to print what the run with ample memory prints. Prints how many runs
# there were, and ends with 1 at the first that prints something else. It wants a C compiler.
set -eu
top=$(cd "$(dirname "$0")/.." && pwd)
source "$top/bench/timing.sh"
source "$top/bench/refusing.sh"
build_bench hub_walk
program=$bench
folder=$(mktemp -d)
trap 'rm -rf "$folder"' EXIT
make_refuser "$folder"

run() { # REFUSED: its output; how much it asked for is in the file `asked`
    REFUSED=$1 ASKED=$folder/asked LD_PRELOAD=$refuser "$program" 2>/dev/null
}

ample=$(run 0)
count=$(cat "$folder/asked")
for refused in $(seq 1 "${PART:-1}" "$count"); do
    status=0
    printed=$(run "$refused") || status=$?
    if [ "$status" != 0 ] || [ "$printed" != "$ample" ]; then
        echo "block $refused: status $status, $printed" >&2
        exit 1
    fi
done
echo "$ample"
echo "$(seq 1 "${PART:-1}" "$count" | wc -l) of $count blocks of memory, each refused in turn: the same"
