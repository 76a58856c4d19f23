#!/usr/bin/env bash
# Checks that the documents and the repository say the same, in some seconds: the map as it is drawn, crates, files, functions
# and links that documents name, and the list of definitions. Prints what differs, and then ends with 1.
set -u
cd "$(dirname "$0")/.." || exit 1
status=0
docs/map.py --check || status=1
docs/check.py || status=1
docs/definitions.sh || status=1
exit "$status"
