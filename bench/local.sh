#!/usr/bin/env bash
# Time and peak memory of `local` over 1 MiB of random bytes, next to a baseline in Rust (bench/local_baseline.rs) built for the same
# level of processors: over no hop, one and eight, on one stream and on 32. The best of the runs of each by the clock, the whole
# process, in turns; *ratio* is the baseline's time by ours. First `cat`, which is what a process and its pipes cost alone. Needs GNU
# time and `rustc`. Manually, on a quiet machine: bench/local.sh [RUNS [PROGRAM [LEVEL]]]. LEVEL is x86-64-v2 or x86-64-v3, that for
# which PROGRAM was built.
set -euo pipefail
top=$(cd "$(dirname "$0")/.." && pwd)
runs=${1:-9}
program=${2:-$top/crates/ilpstream/out/ilpstream}
[ $# -gt 1 ] || "$top/ilpstream" --version >&2 # builds it, if it is older than its sources
level=${3:-x86-64-$(cat "$program.level" 2>/dev/null || echo v2)}

room=$(mktemp -d)
trap 'rm -r "$room"' EXIT
rustc --edition 2024 -O -C target-cpu="$level" -o "$room/baseline" "$top/bench/local_baseline.rs"
"$room/baseline" --check
head -c 1048576 /dev/urandom >"$room/input"

measure() { # runs what follows the name $1, and appends the nanoseconds and the kilobytes of memory
    local from memory
    from=$(date +%s%N)
    memory=$(/usr/bin/time -f %M "${@:2}" 2>&1 <"$room/input" >"$room/output")
    echo $(($(date +%s%N) - from)) "$memory" >>"$room/$1"
    cmp "$room/input" "$room/output" >&2
}

least() {
    sort -n "$room/$1" | head -n 1
}

compare() { # `local` with these arguments
    rm -f "$room/ours" "$room/theirs"
    for _ in $(seq "$runs"); do
        measure ours "$program" local "$@"
        measure theirs "$room/baseline" "$@"
    done
    echo "$(least ours) $(least theirs)" | awk -v row="$*" '{
        printf "%-24s %8.4f %8.4f %6.2f %10.1f %10.1f\n", row, $1 / 1e9, $3 / 1e9, $3 / $1, $2 / 1e3, $4 / 1e3
    }'
}

for _ in $(seq "$runs"); do
    measure cat cat
done
printf '%-24s %8s %8s %6s %10s %10s\n' "$level" seconds baseline ratio "memory, MB" baseline
least cat | awk '{ printf "%-24s %8.4f %8s %6s %10.1f\n", "cat", $1 / 1e9, "-", "-", $2 / 1e3 }'
for streams in 1 32; do
    for hops in 0 1 8; do
        compare --hops "$hops" --streams "$streams"
    done
done
echo "load average: $(cut -d' ' -f1-3 /proc/loadavg), $(nproc) cores"
