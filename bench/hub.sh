#!/usr/bin/env bash
# How many chunks of 1, 64 and 4,096 bytes pass one ring of a hub from thread to thread in a second of the clock, and how
# many bytes are sent from a writer of one hub to a reader of another, both in memory, with 1, 2 and 4 workers of each; each the best
# of the runs, and the processor's seconds that they took. Run it manually, on a quiet machine of more than one core:
# bench/hub.sh [RUNS]
set -euo pipefail
cd "$(dirname "$0")/../crates/bench"
runs=${1:-3}

echo "proving and building bench if it is older than its sources" >&2
rt run -- hub 0 0 0 0 >&2

seconds() { # of the clock and of the processor that the program takes with these arguments, the run of the least time
    local TIMEFORMAT='%R %U %S'
    for _ in $(seq "$runs"); do
        { time out/bench hub "$@" >/dev/null; } 2>&1
    done | sort -n | head -n 1
}

rate() { # amount, heading, words
    local amount=$1 heading=$2
    shift 2
    seconds "$@" | awk -v amount="$amount" -v heading="$heading" '{
        printf "%-32s %14.0f a second, %6.2f s of the clock, %6.2f s of the processor\n", heading, amount / $1, $1, $2 + $3
    }'
}

for length in 1 64 4096; do
    rate 4000000 "chunks of $length bytes" 4000000 "$length"
done

chunks=10000 # of 4,096 bytes
for workers in 1 2 4; do
    rate $((chunks * 4096)) "bytes, $workers workers" 0 0 "$chunks" "$workers"
done
