#!/usr/bin/env bash
# Runs the scripts beside it that time something, one after the other, and prints what docs/BENCHMARKS.md has of them: a line
# `$ bench/NAME.sh`, and its lines. docs/graphs.py draws them from a file with that. On standard error it says how long each
# took and how busy the machine was before it; a script that fails is said there, and the others go on. The machine
# should have nothing else to do.
#
# usage: all.sh [NAME..], of these unless said: ceiling rest serve call replay audit idl (which want the program alone), and
# group hub ndr epm (which want the program of bench/crates/bench, and have it proved and built where it isn't).
set -u
top=$(cd "$(dirname "$0")/.." && pwd)
names=("$@")
[ $# -gt 0 ] || names=(ceiling rest serve call replay audit idl group hub ndr epm)
failed=0
for name in "${names[@]}"; do
    read -r load _ </proc/loadavg
    from=$SECONDS
    echo "\$ bench/$name.sh"
    if ! "$top/bench/$name.sh"; then
        failed=1
        echo "all.sh: $name failed" >&2
    fi
    echo "all.sh: $name took $((SECONDS - from)) s, beginning at a load of $load" >&2
done
exit $failed
