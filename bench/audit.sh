#!/usr/bin/env bash
# Times `dcerpc audit` on a text of journals that is nearly all lines of one kind: 1 to 64 MiB of calls of a base, of
# Joins, of Joins with a Leave after each, of Accepts, of Accepts with a Cancel after each or with a Take and an End, and
# of groups, with the ratio of each time to the one before.
# Then that of journals that hold much open at once: calls that all run before the first of them ends; calls of one
# handle, shared by all, or used by one after the other while the others wait; connections that leave with a call
# waiting; and handles that are closed from the first on. Each time is the least of three.
set -eu
top=$(cd "$(dirname "$0")/.." && pwd)
. "$top/bench/timing.sh"
build_dcerpc
text=$(mktemp)
trap 'rm -f "$text"' EXIT

journal() { # KIND OCTETS
    awk -v kind="$1" -v octets="$2" '
    function put(line) { print line; n += length(line) + 1 }
    function accept(k) { put("accept " k " 1 1.0 little answer - -") }
    BEGIN {
        if (kind == "groups") {
            for (g = 1; n < octets; g++) { put("group " g " boot 0000000000000001"); put("join 1"); put("leave 1"); put("shut -") }
            exit
        }
        put("group 1 boot 0000000000000001")
        if (kind == "base-calls") {
            put("base 9 1 4294967295 4294967295 1 1:0:5")
            for (k = 1; n < octets; k++)
                put("base-call " k " 1 1.0 little answer shares:0:0000000000000000000000010000000100000001,opens:0:" k + 1 " - taken")
        } else {
            put("join 1")
            for (k = 1; n < octets; k++) {
                if (kind == "joins" || kind == "leaves") put("join " k + 1)
                else accept(k)
                if (kind == "leaves") put("leave " k + 1)
                if (kind == "cancels") put("cancel " k)
                if (kind == "calls") { put("take " k " -"); put("end " k " - out:-") }
            }
        }
    }'
}

held() { # KIND COUNT
    awk -v kind="$1" -v count="$2" '
    function wire(h) { return sprintf("00000000%016x%08x%08x", 1, 1, h) }
    function accept(k, c, slots) { print "accept " k " " c " 1.0 little answer " slots " -" }
    function run(k, cookies, results) { print "take " k " " cookies; print "end " k " " results " out:-" }
    BEGIN {
        print "group 1 boot 0000000000000001"
        if (kind == "connections") {
            for (c = 1; c <= count; c++) print "join " c
            for (c = 1; c <= count; c++) accept(c, c, "-")
            for (c = 1; c <= count; c++) print "leave " c
            print "shut -"
            exit
        }
        print "join 1"
        if (kind == "handles") {
            for (k = 1; k <= count; k++) { accept(k, 1, "opens:0:" k); run(k, "none", "issue:" k ":5") }
            for (k = 1; k <= count; k++) { accept(count + k, 1, "changes:0:" wire(k)); run(count + k, "5", "close") }
            exit
        }
        accept(1, 1, "opens:0:1")
        run(1, "none", "issue:1:5")
        slot = kind == "open-calls" ? "-" : (kind == "one-shared" ? "shares:0:" : "holds:0:") wire(1)
        cookie = kind == "open-calls" ? "-" : "5"
        result = kind == "open-calls" ? "-" : "none"
        for (k = 2; k <= count; k++) accept(k, 1, slot)
        if (kind == "one-held") for (k = 2; k <= count; k++) run(k, cookie, result)
        else {
            for (k = 2; k <= count; k++) print "take " k " " cookie
            for (k = 2; k <= count; k++) print "end " k " " result " out:-"
        }
    }'
}

for kind in base-calls joins leaves accepts cancels calls groups; do
    before=
    for mib in 1 4 16 64; do
        journal "$kind" "$(sized $((mib * 1048576 - 200)))" >"$text"
        time=$(least 0 "$program" audit "$text")
        show "$kind $mib MiB" "$time" "$before"
        before=$time
    done
done

for kind in open-calls one-shared one-held connections handles; do
    before=
    # (a file holds no more than 300,000 handles that are opened and closed)
    for count in 25000 100000 $([ "$kind" = handles ] && echo 300000 || echo 400000); do
        count=$(sized "$count")
        held "$kind" "$count" >"$text"
        time=$(least 0 "$program" audit "$text")
        show "$kind $count" "$time" "$before"
        before=$time
    done
done
