# What the scripts beside it time with; they source it, and set `top` to the repository.
#
# Set DCERPC to a program `dcerpc` that is built already; else the repository's is built. What a script needs beside it
# is proved and built once, in a copy of the repository in BENCH_ROOM or below the folder for temporary files, and again
# only when its sources change. PART=100 tries a script with a hundredth of each size.

# Sets `program` to `dcerpc`. The repository's is proved and built where it isn't or is older than its sources: no figure
# is one of an unproved build.
build_dcerpc() {
    program=${DCERPC:-}
    if [ -n "$program" ]; then return 0; fi
    program=$top/crates/dcerpc/out/dcerpc
    "$top/prove"
}

# Sets `bench` to the program of that name in `bench/crates`, which is built where it isn't or its sources have changed.
build_bench() { # [NAME]
    local name=${1-bench} sum
    local room=${BENCH_ROOM:-${TMPDIR:-/tmp}/dcerpc-bench-$UID}/$name
    sum=$("$top/tools/lay.py" "$room" "$name") || return 1
    bench=$room/crates/$name/out/$name
    if [ -x "$bench" ] && [ "$sum" = "$(cat "$room/built" 2>/dev/null)" ]; then return 0; fi
    rm -f "$bench"
    # It plays the program too, which prints more than nothing: only that it is there counts.
    (cd "$room" && rt ci </dev/null >"$room/said" 2>&1) || :
    if [ ! -x "$bench" ]; then
        tail -n 20 "$room/said" >&2
        return 1
    fi
    echo "$sum" >"$room/built"
}

# A size of a script, or the part of it that is asked for.
sized() { # SIZE
    local size=$(($1 / ${PART:-1}))
    echo $((size > 0 ? size : 1))
}

# The least time of three runs of a command, or of RUNS, in microseconds. A run that ends with another status ends the script.
least() { # STATUS COMMAND..
    local wanted=$1 from time best='' status run
    shift
    for ((run = 0; run < ${RUNS:-3}; run++)); do
        status=0
        from=${EPOCHREALTIME/./}
        "$@" >/dev/null 2>&1 || status=$?
        time=$((${EPOCHREALTIME/./} - from))
        if [ "$status" != "$wanted" ]; then
            echo "status $status, not $wanted: $*" >&2
            return 1
        fi
        if [ -z "$best" ] || [ "$time" -lt "$best" ]; then best=$time; fi
    done
    echo "$best"
}

# A time in a line, and how it stands to the one before it where there is one. No time ends the script.
show() { # WHAT MICROSECONDS [MICROSECONDS]
    [ -n "$2" ] || return 1
    awk -v what="$1" -v now="$2" -v before="${3-}" 'BEGIN {
        printf "%-24s %9.3f s", what, now / 1e6
        if (before > 0) printf ", %.2f times the one before", now / before
        printf "\n"
    }'
}
