#!/usr/bin/env bash
# Begins a service of your own: copies hello's crates, `hello_desk` and `hello_server`, as NAME_desk and NAME_server, with
# an interface NAME of a new UUID, and lists them in crates.txt. docs/SERVICES.md says what to change in them.
#
# usage: docs/new_service.sh NAME, of small letters
set -eu
cd "$(dirname "$(readlink -f "$0")")/.."

fail() {
    printf 'new_service: %s\n' "$1" >&2
    exit 1
}

[ $# = 1 ] || fail 'usage: docs/new_service.sh NAME'
readonly name=$1
[[ $name =~ ^[a-z]+$ ]] || fail "a name has small letters alone: $name"
[ "$name" != hello ] || fail 'hello is there'
for crate in "${name}_desk" "${name}_server"; do
    if [ -e "crates/$crate" ] || grep -qE "^$crate( |:)" crates.txt; then fail "there is a crate $crate"; fi
done
readonly type=${name^} constant=${name^^}
uuid=$(cat /proc/sys/kernel/random/uuid)
readonly uuid

# The text of a file, with the new service's names and the interface's new identifier.
renamed() {
    sed -E "s/uuid\([0-9a-f-]{36}\)/uuid($uuid)/; s/hello/$name/g; s/Hello/$type/g; s/HELLO/$constant/g" "$1"
}

# The files of a crate, without what is made of them.
sources() { (cd "$1" && find . -type f -not -path './out/*'); }

for from in crates/hello_desk crates/hello_server; do
    while IFS= read -r file; do
        to=crates/${name}_${from##*_}/${file//hello/$name}
        to=${to//Hello/$type}
        mkdir -p "$(dirname "$to")"
        renamed "$from/$file" >"$to"
    done < <(sources "$from")
done

# A line of crates.txt for each, after hello's.
listed=$(mktemp)
trap 'rm -f "$listed"' EXIT
while IFS= read -r line; do
    printf '%s\n' "$line"
    case $line in
        hello_desk[\ :]* | hello_server[\ :]*) printf '%s\n' "${line//hello/$name}" ;;
    esac
done <crates.txt >"$listed"
cat "$listed" >crates.txt

# Shorter or longer names fill other lines.
for crate in "${name}_desk" "${name}_server"; do
    ! command -v rt >/dev/null || (cd "crates/$crate" && rt fmt >/dev/null)
done

printf 'crates/%s_desk and crates/%s_server: the interface %s has the identifier %s\n' "$name" "$name" "$name" "$uuid"
