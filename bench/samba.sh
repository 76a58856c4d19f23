#!/usr/bin/env bash
# Lookups in the endpoint map of `dcerpc serve` beside those in Samba's, by `bench/ceiling.sh map`. Samba's is started with
# folders of its own, at port 135 of 127.0.0.1 alone, and ended afterwards. It wants Debian's package samba, and a user who
# may listen at that port.
set -eu
top=$(cd "$(dirname "$0")/.." && pwd)
room=$(mktemp -d)
samba=
trap '[ -z "$samba" ] || kill "$samba" 2>/dev/null || true; rm -rf "$room"' EXIT
program=/usr/libexec/samba/samba-dcerpcd
[ -x "$program" ] || { echo 'samba.sh: there is no samba-dcerpcd (Debian: samba)' >&2; exit 1; }
if grep -q ' 0100007F:0087 00000000:0000 0A' /proc/net/tcp; then echo 'samba.sh: port 135 is taken' >&2; exit 1; fi

{
    printf '[global]\nserver role = standalone server\ninterfaces = 127.0.0.1\nbind interfaces only = yes\n'
    printf 'rpc start on demand helpers = no\nlog level = 0\nlog file = %s/log\n' "$room"
    for folder in lock state cache pid private ncalrpc; do
        mkdir "$room/$folder"
        case $folder in
            private | ncalrpc) printf '%s dir = %s\n' "$folder" "$room/$folder" ;;
            *) printf '%s directory = %s\n' "$folder" "$room/$folder" ;;
        esac
    done
} >"$room/smb.conf"
"$program" --libexec-rpcds -F -s "$room/smb.conf" >"$room/said" 2>&1 &
samba=$!
# (its map is full once those whom it starts have registered)
sleep 10
grep -q ' 0100007F:0087 00000000:0000 0A' /proc/net/tcp || { cat "$room/said" >&2; exit 1; }
OTHER=135 OTHER_NAME="Samba" "$top/bench/ceiling.sh" map
