#!/usr/bin/env bash
# What a server takes while nobody calls it, and what it keeps: `bench/rest.py` says of what. PART=100 tries a hundredth.
set -eu
top=$(cd "$(dirname "$0")/.." && pwd)
source "$top/bench/timing.sh"
build_dcerpc
ulimit -n 4096
exec python3 "$top/bench/rest.py" "$program" "${PART:-1}"
