#!/usr/bin/env bash
# Whom the end of a call wakes, on a server over the loopback: calls that wait for one another on one cursor, readers behind
# a writer, and calls whose neighbour in the row is cancelled or loses its client. `bench/turns.py` says what has to come.
# The first thing that isn't so ends the script with 1.
set -eu
top=$(cd "$(dirname "$0")/.." && pwd)
source "$top/bench/timing.sh"
build_dcerpc
exec python3 "$top/bench/turns.py" "$program" "${PART:-1}"
