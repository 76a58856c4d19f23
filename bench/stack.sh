#!/usr/bin/env bash
# How much of the stack the deepest input takes, on each thread that the program starts: `bench/stack.py` says how it is
# found. A line for each input has the least stack with which the program does with it what it does with ample stack, and
# what the product gives that thread. An input for which the product's stack doesn't suffice ends the script with 1. It
# wants a C compiler. PART=10 tries a tenth of the long ones.
set -eu
top=$(cd "$(dirname "$0")/.." && pwd)
source "$top/bench/timing.sh"
build_dcerpc
ulimit -c 0
exec python3 "$top/bench/stack.py" "$program" "${PART:-1}"
