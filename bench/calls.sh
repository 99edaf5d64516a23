#!/usr/bin/env bash
# The calls of the system that a transfer takes: of `send` and of `receive`, one process to the other, and then of a `connector`
# between both, by `strace -c -f`. Each line has a call, how often it was made, and that by the exchanges, which are the connections
# that were made. Other programs on the machine do not change them much. Needs `strace`, `unshare` and `ip`, and the right to make a
# network of its own. Manually: bench/calls.sh [BYTES [WORKERS [PROGRAM]]]
set -euo pipefail
top=$(cd "$(dirname "$0")/.." && pwd)
bytes=${1:-1600000}
workers=${2:-4}
program=${3:-$top/crates/ilpstream/out/ilpstream}
if [ -z "${ALONE-}" ]; then
    [ $# -gt 2 ] || "$top/ilpstream" --version >&2 # builds it, if it is older than its sources
    ALONE=yes exec unshare --map-root-user --net "$0" "$bytes" "$workers" "$program"
fi
ip link set lo up

room=$(mktemp -d)
trap 'kill $(jobs -p) 2>/dev/null || true; rm -r "$room"' EXIT
head -c "$bytes" /dev/urandom >"$room/sent"
secret=$(od -An -N32 -tx1 /dev/urandom | tr -d ' \n')
ends=(--secret "$secret" --address example.bob --peer example.alice)
starts=(--secret "$secret" --address example.alice --peer example.bob --workers "$workers")

await() { # until something listens at port $1
    until grep -qE "^ *[0-9]+: [0-9A-F]{8}:$(printf %04X "$1") [0-9A-F]{8}:0000 0A" /proc/net/tcp; do
        kill -0 "$!"
        sleep 0.05
    done
}

counted() { # runs a command, and counts its calls in the file $1
    strace -c -f -o "$room/$1" "$program" "${@:2}"
}

table() { # of the calls in the file $1, by the connections in $2
    local exchanges
    exchanges=$(awk '$NF == "connect" { print $4 }' "$room/$2")
    echo "$1, $exchanges exchanges:"
    awk -v exchanges="$exchanges" '$4 ~ /^[0-9]+$/ { printf "%-20s %8d %8.2f\n", $NF, $4, $4 / exchanges }' "$room/$1" | sort -k 2nr
}

counted receive receive --listen 127.0.0.1:7771 --token t "${ends[@]}" >"$room/received" &
await 7771
counted send send --to 127.0.0.1:7771 --token t "${starts[@]}" <"$room/sent"
wait
cmp "$room/sent" "$room/received"
table send send
table receive send

printf '%s\n' 'account 0 0 alice - -' 'account 0 0 bob 127.0.0.1:7772 hub' 'route example.bob 1' >"$room/table"
mkfifo "$room/control"
"$program" receive --listen 127.0.0.1:7772 --token hub "${ends[@]}" >"$room/received" &
receiver=$!
await 7772
counted connector connector --listen 127.0.0.1:7770 --own example.hub --endless --control "$room/control" <"$room/table" &
connector=$!
await 7770
"$program" send --to 127.0.0.1:7770 --token alice "${starts[@]}" <"$room/sent"
wait "$receiver"
echo stop >"$room/control"
wait "$connector"
cmp "$room/sent" "$room/received"
table connector connector
