# Compiles the program with run-time checks and without a proof, as `rt try` does. To be sourced after program.sh.
# shellcheck shell=bash

# What the checks may use: no freed memory is kept back for long, and no second stack stands beside that of each
# thread. A check that fails ends the program with status 124, which is none of its own.
readonly unproved_checks=exitcode=124:detect_stack_use_after_return=0:quarantine_size_mb=8:thread_local_quarantine_size_kb=16:malloc_context_size=0:allocator_release_to_os_interval_ms=1000

# The file below a folder that some process runs, whether or not a loader started it.
run_below() {
    cat /proc/[0-9]*/maps 2>/dev/null | awk -v below="$1/" '
        index($6, below) == 1 && $2 ~ /x/ { print $6; exit }'
}

# Copies what `rt try` compiled to a file, while that waits for the other end of a pipe.
catch_program() {
    local room=$1 to=$2 found
    exec 3>"$room/script" || return 1
    found=$(run_below "$room/tmp")
    [ -n "$found" ] && cp "$found" "$to"
}

# `rt try` compiles the program into a folder that is gone once it has ended, so it is given a pipe to read, in place
# of a script, and copied while it waits.
try_program() {
    local room=$1 to=$2 try catch status=0
    mkdir "$room/tmp" && mkfifo "$room/script" || return 1
    (cd "$top/crates/dcerpc" && TMPDIR=$room/tmp exec rt try -- replay "$room/script") \
        </dev/null >"$room/said" 2>&1 &
    try=$!
    catch_program "$room" "$to" &
    catch=$!
    # The one that ends first is the copy, unless nothing was compiled.
    wait -n "$try" "$catch" || status=$?
    kill "$catch" 2>/dev/null
    wait "$try" "$catch" 2>/dev/null
    if [ "$status" != 0 ] || [ ! -s "$to" ]; then
        tail -n 20 "$room/said" >&2
        return 1
    fi
    chmod 755 "$to"
}

# Makes the unproved program, unless another launcher made it meanwhile.
make_unproved() (
    mkdir -p "${unproved%/*}" || exit 1
    exec 9>"${unproved%/*}/lock"
    if command -v flock >/dev/null; then
        flock 9
        if is_fresh unproved; then exit 0; fi
    fi
    sum=$(sum_of_sources unproved)
    room=$(mktemp -d) || exit 1
    trap 'rm -rf "$room"' EXIT
    try_program "$room" "$unproved.new" || exit 1
    [ "$sum" = "$(sum_of_sources unproved)" ] || { say "the sources changed meanwhile: call it again"; exit 1; }
    mv "$unproved.new" "$unproved" && note_fresh unproved "$unproved"
)
