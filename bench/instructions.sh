#!/usr/bin/env bash
# Counts the instructions that a call takes in a server, by valgrind's callgrind, which has to be installed. The count is the
# same however busy the machine is.
set -eu
top=$(cd "$(dirname "$0")/.." && pwd)
source "$top/bench/timing.sh"
build_dcerpc
exec python3 "$top/bench/instructions.py" "$program" "${PART:-1}"
