#!/usr/bin/env bash
# What it costs two ends in memory to pass 1 MiB, 64 MiB and 1 GiB in Prepares of 16,000 bytes, on one stream and on 64:
# bytes a second of the processor's time, and also the cipher and the hash alone over as many bytes, as parts of it, and
# the peak of memory. Then what the next packet costs a sender with streams that are open and Prepares of 80 bytes in flight, in
# microseconds of the processor's time: if no stream has bytes due, and if one has 80; also by another program `bench`, of
# another commit say, if it is given. Of each the best of the runs, all in one run of this script. Needs GNU time. Manually,
# on a quiet machine: bench/end.sh [RUNS [OTHER]]
set -euo pipefail
cd "$(dirname "$0")/../crates/bench"
runs=${1:-3}
other=${2-}

echo "proving and building bench if it is older than its sources" >&2
rt run -- end 0 1 0 0 >&2

milliseconds() { # of the processor's time that a program takes with these arguments
    local TIMEFORMAT='%U %S' taken least=
    for _ in $(seq "$runs"); do
        taken=$({ time "$@" >/dev/null; } 2>&1 | awk '{ printf "%.0f\n", ($1 + $2) * 1000 }')
        if [ -z "$least" ] || [ "$taken" -lt "$least" ]; then
            least=$taken
        fi
    done
    echo "$least"
}

start=$(milliseconds out/bench end 0 1 0 0) # in which 64 streams open
printf '%12s %8s %16s %8s %8s %11s\n' bytes streams "bytes a second" cipher hash memory
for packets in 66 4195 67109; do # the fewest that hold as many bytes
    sealed=$(($(milliseconds out/bench end 0 1 "$packets" 0) - start))
    hashed=$(($(milliseconds out/bench end 0 1 0 "$packets") - start))
    for streams in 1 64; do
        taken=$(($(milliseconds out/bench end "$packets" "$streams" 0 0) - start))
        memory=$(/usr/bin/time -f %M out/bench end "$packets" "$streams" 0 0 2>&1 >/dev/null)
        awk -v bytes=$((packets * 16000)) -v streams="$streams" -v taken="$taken" -v sealed="$sealed" -v hashed="$hashed" -v memory="$memory" 'BEGIN {
            printf "%12d %8d %16.0f %8.2f %8.2f %8d kB\n", bytes, streams, bytes * 1000 / taken, sealed / taken, hashed / taken, memory
        }'
    done
done

microseconds() { # that one next packet takes by a program: PROGRAM STREAMS FLIGHTS BUSY
    local times=200000 whole empty
    whole=$(milliseconds "$1" cost "$2" "$3" "$times" "$4")
    empty=$(milliseconds "$1" cost "$2" "$3" 0 "$4")
    awk -v taken=$((whole - empty)) -v times="$times" 'BEGIN { printf "%.3f\n", taken * 1000 / times }'
}

printf '\n%8s %8s %6s %12s %12s\n' streams flights busy microseconds "${other:+other}"
for busy in 0 1; do
    for streams in 1 64; do
        for flights in 1 16 63; do
            printf '%8d %8d %6d %12.2f' "$streams" "$flights" "$busy" "$(microseconds out/bench "$streams" "$flights" "$busy")"
            if [ -n "$other" ]; then
                printf ' %12.2f' "$(microseconds "$other" "$streams" "$flights" "$busy")"
            fi
            printf '\n'
        done
    done
done
