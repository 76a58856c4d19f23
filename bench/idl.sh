#!/usr/bin/env bash
# Times `dcerpc idl`: interface texts of 64 KiB to 1 MiB that are read, checked and printed, with the ratio
# of each time to the one before, a text of 1 MiB of names alone, and one that departs at its end. Then
# texts of many parts of one shape that are read, checked and tabled (`dcerpc replay --idl`, with a script of
# nothing), each twice as large as the one before: interfaces, texts that break a rule, and types that nest too
# deep for a table (status 5). Each time is the least of three; making the texts isn't counted.
set -eu
top=$(cd "$(dirname "$0")/.." && pwd)
work=$(mktemp -d)
trap 'rm -rf "$work"' EXIT

# an interface of at most so many octets, of structures and operations
text() { # OCTETS
    awk -v most="$1" 'BEGIN {
        head = "[uuid(5f0c7a12-3b4d-4e6f-8a90-b1c2d3e4f506), version(1.0)]\ninterface i {\n"
        printf "%s", head
        size = length(head) + 2
        for (n = 1; ; n++) {
            decl = sprintf("typedef struct { unsigned long n%d; [size_is(n%d)] byte octets[]; } s%d;\nlong f%d([in] s%d *a, [in, out] long *b);\n", n, n, n, n, n)
            if (size + length(decl) > most) break
            printf "%s", decl
            size += length(decl)
        }
        print "}"
    }'
}

. "$top/bench/timing.sh"

build_dcerpc
before=
for kib in 64 128 256 512 1024; do
    text "$(sized $((kib * 1024)))" >"$work/text"
    time=$(least 0 "$program" idl "$work/text")
    show "$kib KiB" "$time" "$before"
    before=$time
done

text "$(sized 1048570)" | head -c -2 >"$work/early"
show "1 MiB that ends early" "$(least 2 "$program" idl "$work/early")"

{
    printf '[version(1)]interface i{enum e{a'
    for ((n = 0; n < 65536; n++)); do printf ',a%04x_names' "$n"; done
    printf '};}'
} | head -c 1048576 >"$work/names"
show "65,537 names of one enum" "$(least 2 "$program" idl "$work/names")"

# an interface of so many parts of one shape
shaped() { # SHAPE N
    awk -v shape="$1" -v count="$2" 'BEGIN {
        printf "[uuid(5f0c7a12-3b4d-4e6f-8a90-b1c2d3e4f506)"
        if (shape == "endpoints") for (k = 0; k < count; k++) printf ",endpoint(\"\")"
        print "]\ninterface i {"
        if (shape == "structures") {
            print "typedef long s0;"
            for (k = 0; k < count; k++) printf "typedef struct { long a; s%d *b; } s%d;\n", k, k + 1
        }
        if (shape == "operations") for (k = 0; k < count; k++) printf "long f%d([in] long a, [in, out] long *b, [in, size_is(a)] byte c[]);\n", k
        if (shape == "constants") for (k = 0; k < count; k++) printf "const long c%d = 5; typedef long a%d[c%d];\n", k, k, k
        if (shape == "tags") {
            print "struct t0 { long a; };"
            for (k = 0; k < count; k++) printf "struct t%d { struct t%d *b; };\n", k + 1, k
        }
        if (shape == "names") {
            printf "typedef enum { n"
            for (k = 0; k < count; k++) printf ", n%d", k
            print " } e;"
        }
        if (shape == "labels") {
            print "typedef union switch (long t) {"
            for (k = 0; k < count; k++) printf "case %d: ", k
            print "default: long a; } u;"
        }
        if (shape == "attributes") {
            printf "long f([in"
            for (k = 0; k < count; k++) printf ", unique"
            print "] long *a);"
        }
        if (shape == "declarators" || shape == "both") {
            printf shape == "both" ? "typedef [unique" : "typedef [unique, string"
            if (shape == "both") for (k = 0; k < count; k++) printf ", string"
            printf "] char *d"
            for (k = 0; k < count; k++) printf ", *d%d", k
            print ";"
        }
        if (shape == "sizes") {
            printf "long f("
            for (k = 0; k < count; k++) printf "[in, size_is(z)] byte p%d[], ", k
            print "[in] long z);"
        }
        if (shape == "nested") {
            print "struct t0 { long a; };"
            for (k = 0; k < count; k++) printf "struct t%d { struct t%d a; };\n", k + 1, k
        }
        if (shape == "arrays") {
            print "typedef long a0;"
            for (k = 0; k < count; k++) printf "typedef a%d a%d[1];\n", k, k + 1
        }
        if (shape == "stars") {
            printf "void f([in] long "
            for (k = 0; k < count; k++) printf "*"
            print "a);"
        }
        print "}"
    }'
}

echo 'boot 0000000000000001' >"$work/nothing"
doubled() { # SHAPE LEAST
    local shape=$1 n time status before=
    for n in $2 $(($2 * 2)) $(($2 * 4)) $(($2 * 8)); do
        n=$(sized "$n")
        shaped "$shape" "$n" >"$work/text"
        status=0
        "$program" replay --idl "$work/text" "$work/nothing" >"$work/out" 2>/dev/null || status=$?
        case $status in 0 | 2 | 5) ;; *) echo "status $status: $shape $n" >&2; return 1 ;; esac
        time=$(least "$status" "$program" replay --idl "$work/text" "$work/nothing")
        show "$shape $n" "$time" "$before"
        before=$time
    done
    echo "octets $(wc -c <"$work/text"), status $status $(head -n 1 "$work/out")"
}
doubled structures 2800
doubled operations 1500
doubled constants 2600
doubled tags 3000
doubled names 8000
doubled declarators 8000
doubled labels 10000
doubled attributes 16000
doubled both 7000
doubled sizes 3500
doubled endpoints 9000
doubled nested 3000
doubled arrays 4000
doubled stars 100000
