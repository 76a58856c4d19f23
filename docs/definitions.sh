#!/usr/bin/env bash
# Compares the files that docs/DEFINITIONS.md lists with those that the contract of `run` speaks of: the imports of
# rpc_app/src/top.rt, and of each file under specs/ so reached. Prints what differs, and then ends with 1.
set -u
top=$(cd "$(dirname "$0")/.." && pwd) || exit 1
cd "$top/crates" || exit 1

# The files of definitions, and of the types that these speak of, that a file imports.
imports() {
    sed 's/--.*//' "$1" |
        grep -oE 'use Rattle\.[a-z0-9_]+\.specs\.(declared\.[a-z0-9_]+|[A-Z][A-Za-z0-9]*)' |
        sed -E 's/use Rattle\.([a-z0-9_]+)\.specs\.declared\.(.*)/\1\/src\/\2.rt/; s/use Rattle\.([a-z0-9_]+)\.specs\.(.*)/\1\/specs\/\2.antt/'
}

reached() {
    local waiting=(rpc_app/src/top.rt) file next
    local -A seen=()
    while [ ${#waiting[@]} -gt 0 ]; do
        file=${waiting[0]}
        waiting=("${waiting[@]:1}")
        for next in $(imports "$file"); do
            if [ ! -f "$next" ] || [ -n "${seen[$next]-}" ]; then continue; fi
            seen[$next]=yes
            echo "$next"
            if [ "${next##*.}" = antt ]; then waiting+=("$next"); fi
        done
    done
}

diff <(grep -oE '^\| `[a-z0-9_]+/(specs|src)/[A-Za-z0-9_]+\.(antt|rt)`' "$top/docs/DEFINITIONS.md" | tr -d '|` ' | sort) <(reached | sort)
