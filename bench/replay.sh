#!/usr/bin/env bash
# Times `dcerpc replay`: scripts of 2,000 to 16,000 rounds that open a handle each, with the ratio of
# each time to the one before; a file of 64 MiB that is refused at its last line; and files of 16 MiB to
# nearly 64 MiB that are taken, each with the most memory that its replay has, by the size of the file:
# appends to files of the store, appends in fragments, and requests that come octet by octet; and one that
# opens a million connections, on which nothing comes, with the memory by the connection too. Then it times
# `dcerpc load` of 25,000 to 100,000 steps.
set -eu
top=$(cd "$(dirname "$0")/.." && pwd)
source "$top/bench/timing.sh"
work=$(mktemp -d)
trap 'rm -rf "$work"' EXIT

bind=05000b03100000004800000001000000d016d016000000000100000000000100127a0c5f4d3b6f4e8a90b1c2d3e4f50601000000045d888aeb1cc9119fe808002b10486002000000

# a number as eight digits, the least octet first
little() { printf '%02x%02x%02x%02x' $(($1 & 255)) $(($1 >> 8 & 255)) $(($1 >> 16 & 255)) $(($1 >> 24 & 255)); }

script() { # ROUNDS
    printf 'boot 0000000000000001\nopen 1\nsend 1 %s\n' "$bind"
    local n
    for ((n = 1; n <= $1; n++)); do
        printf 'send 1 05000003100000001c000000%s0400000000000000%s\nrun 1\nfinish 1\n' "$(little $((n + 1)))" "$(little "$n")"
    done
    printf 'lose 1\n'
}

build_dcerpc
before=
for rounds in 2000 4000 8000 16000; do
    rounds=$(sized "$rounds")
    script "$rounds" >"$work/script"
    time=$(least 0 "$program" replay "$work/script")
    show "$rounds rounds" "$time" "$before"
    before=$time
done

{
    printf 'boot 0000000000000001\nopen 1\nsend 1 '
    head -c 67108817 /dev/zero | tr '\0' '0'
} | head -c 67108863 >"$work/long"
echo >>"$work/long"
time=$(least 2 "$program" replay "$work/long")
show "64 MiB refused" "$time"

# Scripts of so many octets at most, in rounds of a request, a run and a finish.
long_script() { # appends|fragments|octets MOST
    awk -v kind="$1" -v most="$2" '
        function le(n, octets,   text) {
            for (; octets > 0; octets--) { text = text sprintf("%02x", n % 256); n = int(n / 256) }
            return text
        }
        function repeated(text, count,   all) {
            for (; count > 0; count--) all = all text
            return all
        }
        function request(flags, op, hint, stub) {
            return "0500" "00" flags "10000000" le(24 + length(stub) / 2, 2) "0000" le(call, 4) le(hint, 4) "0000" le(op, 2) stub
        }
        function send(octets) { round = round "send 1 " octets "\n" }
        # an append of data to the cursor, in so many fragments
        function append(data, count,   whole, hint, n) {
            whole = "00000000" "0403020106050807" "00000001" sprintf("%08x", files) le(length(data) * count / 2, 4) le(length(data) * count / 2, 4)
            hint = 28 + length(data) * count / 2
            send(request(count == 1 ? "03" : "01", 1, hint, whole data))
            for (n = 2; n <= count; n++) send(request(n < count ? "00" : "02", 1, hint - 28, data))
        }
        function octet_by_octet(octets,   n) {
            for (n = 1; n < length(octets); n += 2) round = round "send 1 " substr(octets, n, 2) "\n"
        }
        # a file takes 16 MiB
        function open_file() {
            files++
            send(request("03", 0, 14, "0200000000000000" "02000000" sprintf("%02x", 96 + files) "00"))
            round = round "run 1\nfinish 1\n"
            call++
        }
        BEGIN {
            store = "7e3c1d9bf4520b4a8e6d1f0c2a3b4d5e"
            probe = "127a0c5f4d3b6f4e8a90b1c2d3e4f506"
            ndr = "045d888aeb1cc9119fe808002b104860"
            round = "boot 0102030405060708\nopen 1\n"
            call = 1
            send("05000b03100000004800000001000000d016d016000000000100000000000100" (kind == "octets" ? probe : store) "01000000" ndr "02000000")
            call = 2
            data = repeated("61626364", 1000)
            while (size + length(round) + 20 < most) {
                printf "%s", round
                size += length(round)
                round = ""
                if (kind == "octets") octet_by_octet(request("03", 1, 20, repeated("00", 20)))
                else {
                    if (taken % 4000 == 0) open_file()
                    count = kind == "appends" ? 1 : 16
                    append(data, count)
                    taken += count
                }
                round = round "run 1\nfinish 1\n"
                call++
            }
            printf "lose 1\n"
        }'
}

# Times a file that is taken, and prints the most memory that its replay has.
show_taken() { # WHAT [CONNECTIONS]
    local time
    time=$(least 0 "$program" replay "$work/long")
    show "$1" "$time" "$before"
    before=$time
    /usr/bin/time -f %M -o "$work/most" "$program" replay "$work/long" >/dev/null 2>&1
    awk -v most="$(cat "$work/most")" -v size="$(stat -c %s "$work/long")" -v count="${2-}" 'BEGIN {
        printf "%-24s %9.2f times the file", "most memory", most * 1024 / size
        if (count > 0) printf ", %.0f octets a connection", most * 1024 / count
        printf "\n"
    }'
}

for kind in appends fragments octets; do
    before=
    for mib in 16 32 64; do
        long_script "$kind" "$(sized $((mib * 1048576)))" >"$work/long"
        show_taken "$mib MiB of $kind"
    done
done

{
    echo 'boot 0000000000000001'
    seq -f 'open %.0f' "$(sized 1000000)"
} >"$work/long"
before=
show_taken '1,000,000 connections' "$(sized 1000000)"

before=
for steps in 25000 50000 100000; do
    steps=$(sized "$steps")
    time=$(least 0 "$program" load 7 "$steps")
    show "load of $steps steps" "$time" "$before"
    before=$time
done
