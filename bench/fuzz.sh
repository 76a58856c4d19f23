#!/usr/bin/env bash
# Gives `dcerpc` octets that are changed at random, for so many seconds, a minute unless said: interface texts to `idl`,
# journals to `audit`, scripts to `replay`, and streams of PDUs to a server over the loopback. `bench/fuzz.py` says what
# counts as wrong. It prints how many runs there were and how they ended, and ends with 1 where one was wrong: what was
# given then is kept in the folder that it names. SEED=N makes the same changes again.
#
# usage: fuzz.sh [SECONDS]
set -eu
top=$(cd "$(dirname "$0")/.." && pwd)
source "$top/bench/timing.sh"
build_dcerpc
ulimit -c 0
exec python3 "$top/bench/fuzz.py" "$program" "${1:-60}" "${SEED:-}"
