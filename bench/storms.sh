#!/usr/bin/env bash
# Storms of cancels on a server over the loopback: 10,000 co_cancels for one call that waits, and 10,000 rounds of a request
# and its co_cancel while another call runs. `bench/storms.py` says what has to come of them. The first thing that isn't so
# ends the script with 1.
set -eu
top=$(cd "$(dirname "$0")/.." && pwd)
source "$top/bench/timing.sh"
build_dcerpc
ulimit -c 0
exec python3 "$top/bench/storms.py" "$program" "${PART:-1}"
