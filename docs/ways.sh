#!/usr/bin/env bash
# How many ways lead down through crates.txt from each library, itself the first: the gate sums up files over each of them.
# Prints the libraries with the most, and the sum of all. A crate that names both another and what that stands on has
# the other's ways and these.
set -eu
cd "$(dirname "$0")/.."

awk -F: '
    function ways(crate,    parts, count, i, found) {
        if (crate in known) return known[crate]
        found = 1
        count = split(stands_on[crate], parts, " ")
        for (i = 1; i <= count; i++) if (parts[i] in stands_on) found += ways(parts[i])
        return known[crate] = found
    }
    /^[a-z]/ {
        split($1, head, " ")
        stands_on[head[1]] = $2
        if ($1 !~ / staticlib/ && system("test -e crates/" head[1] "/src/main.rt")) is_library[head[1]] = 1
    }
    END {
        for (crate in is_library) { sum += ways(crate); print ways(crate), crate | "sort -rn | head -n 20" }
        close("sort -rn | head -n 20")
        print sum, "in all"
    }' crates.txt
