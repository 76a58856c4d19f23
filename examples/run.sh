#!/usr/bin/env bash
# Runs the callers beside it against a server of the built-in services, and compares what each prints with the file that
# says so. `run.sh NAME..` runs these alone. The last line says how many passed.
set -u
here=$(cd "$(dirname "$0")" && pwd) || exit 1
readonly here top=${here%/*}
work=$(mktemp -d) || exit 1
trap 'rm -rf "$work"; [ -z "${server:-}" ] || kill -9 "$server" 2>/dev/null' EXIT
names=("$@")
[ $# -gt 0 ] || names=(probe store_impacket tour_impacket)

# How many connections a caller makes, and how many of them the server doesn't close itself.
declare -A connections=([tour_impacket]=17) closed=([tour_impacket]=14)

# The Python that has what a caller imports: Debian's own, where another one stands in front of it on the path.
python_for() {
    local it
    for it in python3 /usr/bin/python3; do
        if [[ $1 != *_impacket ]] || "$it" -c 'import impacket' 2>/dev/null; then
            echo "$it"
            return
        fi
    done
    return 1
}

# Starts a server of so many connections at a port that nobody has, and sets `server` and `port`.
serve() { # CONNECTIONS
    rm -f "$work/at"
    DCERPC_LISTENING=$work/at "$top/dcerpc" serve 127.0.0.1:0 --connections "$1" >"$work/lines" 2>"$work/journals" &
    server=$!
    until [ -s "$work/at" ]; do
        kill -0 "$server" 2>/dev/null || { cat "$work/journals" >&2; return 1; }
        sleep 0.1
    done
    port=$(sed 's/.*://' "$work/at")
}

# Runs a caller, and looks at what it prints, how its connections ended and whether the journals are legal.
try() { # NAME
    local python status=0 count=${connections[$1]:-1} wanted
    wanted=${closed[$1]:-$count}
    python=$(python_for "$1") || { echo "skipped: $1 needs impacket (Debian: python3-impacket)"; return 2; }
    serve "$count" || return 1
    timeout 60 "$python" "$here/$1.py" 127.0.0.1 "$port" >"$work/said" 2>&1 || status=$?
    diff "$here/$1.out" "$work/said" >&2 && [ "$status" = 0 ] || { kill "$server" && return 1; }
    wait "$server" || status=$?
    server=''
    [ "$status" = $((wanted == count ? 0 : 8)) ] && [ "$(grep -cE '^connection [0-9]+ closed$' "$work/lines")" = "$wanted" ] || {
        cat "$work/lines" >&2
        return 1
    }
    "$top/dcerpc" audit "$work/journals" >"$work/verdicts"
}

passed=0 failed=0
for name in "${names[@]}"; do
    status=0
    try "$name" || status=$?
    case $status in
        0) echo "passed: $name" && passed=$((passed + 1)) ;;
        1) echo "failed: $name" && failed=$((failed + 1)) ;;
    esac
done
echo "$passed passed, $failed failed"
[ "$failed" = 0 ]
