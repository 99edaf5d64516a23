#!/usr/bin/env bash
# Bytes that st_aes seals a second at 64, 1,024, 1,500 and 16,384 bytes, built for x86-64-v2 (the kit's level, which the gate builds)
# and for x86-64-v3 (AVX2), and of OpenSSL's AES-256-GCM with and without the processor's AES instructions, and what Key::new costs
# and one block, in one run. Of each the best of the rounds, in each of which each program runs for the given seconds, in turns. Run
# it manually, on a quiet machine: bench/aes.sh [SECONDS [ROUNDS]]
set -euo pipefail
cd "$(dirname "$0")/../crates/bench_aes"
seconds=${1:-1}
rounds=${2:-5}
room=$(mktemp -d)
trap 'rm -rf "$room"' EXIT

echo "proving and building bench_aes if it is older than its sources" >&2
levels=x86-64-v2
if grep -qw avx2 /proc/cpuinfo; then
    levels="x86-64-v2 x86-64-v3"
    rt run --cpu=x86-64-v3 -- 0 0 >&2
    cp out/bench_aes "$room/x86-64-v3"
fi
rt run -- 0 0 >&2
cp out/bench_aes "$room/x86-64-v2"

milliseconds() { # of the processor's time, as OpenSSL counts its own, that the program takes with these arguments
    local TIMEFORMAT=%U taken
    taken=$({ time "$room/$level" "$@" >/dev/null; } 2>&1)
    echo $((10#${taken/./}))
}

each() { # picoseconds of one round of those that the arguments ask for; @ is their number, which fills the seconds
    local times=1000 taken=0
    while [ "$taken" -lt 100 ]; do
        times=$((times * 4))
        taken=$(milliseconds "${@//@/$times}")
    done
    times=$((times * seconds * 1000 / taken))
    echo $(($(milliseconds "${@//@/$times}") * 1000000000 / times))
}

openssl_rate() { # bytes a second at $1 bytes
    openssl speed -mr -seconds "$seconds" -bytes "$1" -evp aes-256-gcm 2>/dev/null | awk -F: '/^\+F:/ { printf "%.0f\n", $NF }'
}

most() { # the greatest of the numbers in a file
    sort -n "$1" | tail -n 1
}

printf '%6s  %-32s  %14s  %s\n' bytes "" "bytes a second" "of openssl without AES instructions, with them"
for bytes in 64 1024 1500 16384; do
    rm -f "$room"/*.rates
    for _ in $(seq "$rounds"); do
        openssl_rate "$bytes" >>"$room/with.rates"
        OPENSSL_ia32cap="~0x200000200000000:~0" openssl_rate "$bytes" >>"$room/without.rates"
        for level in $levels; do
            echo $((bytes * 1000000000000 / $(each "$bytes" @))) >>"$room/$level.rates"
        done
    done
    with=$(most "$room/with.rates") without=$(most "$room/without.rates")
    for level in $levels; do
        awk -v bytes="$bytes" -v ours="$(most "$room/$level.rates")" -v with="$with" -v without="$without" -v level="$level" 'BEGIN {
            printf "%6d  %-32s  %14.0f  %.2f  %.2f\n", bytes, "st_aes, " level, ours, ours / without, ours / with
        }'
    done
    printf '%6d  %-32s  %14.0f\n' "$bytes" "openssl without AES instructions" "$without" "$bytes" openssl "$with"
done

least() { # the least of what each round of these arguments gives
    for _ in $(seq "$rounds"); do
        each "$@"
    done | sort -n | head -n 1
}

for level in $levels; do
    block=$(least 0 0 0 @)
    key=$(($(least 0 0 @) - $(least 0 @)))
    awk -v key="$key" -v block="$block" -v level="$level" 'BEGIN {
        printf "%s: Key::new takes %.2f microseconds, one block %.3f: as long as %.0f blocks\n", level, key / 1e6, block / 1e6, key / block
    }'
done
