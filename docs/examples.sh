#!/usr/bin/env bash
# Runs each example of README.md and docs/WALKTHROUGH.md and compares its output. DCERPC=path names another program than
# ./dcerpc. The last line says how many passed; where one failed the status is 1.
exec "$(dirname "$(readlink -f "$0")")/examples.py"
