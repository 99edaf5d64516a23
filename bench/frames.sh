#!/usr/bin/env bash
# Time and peak memory of `frames`, next to a baseline in Rust (bench/frames_baseline.rs) and, if one is named, another build of
# the program, over three inputs (bench/frames_input.py) which fill the windows of all 64 streams: 8.4 million bytes of lines with
# frames of 16,000 bytes; 12.1 million of lines with frames of 40 bytes; and these in another order. The best of seven runs of
# each, in turns. Each one's bytes a second are also given as a part of the last one's. Needs GNU time, and `rustc` for the
# baseline. Manually, on a quiet machine: bench/frames.sh [OTHER_PROGRAM]. PROGRAM names the program, if it is not the one of this
# repository.
set -euo pipefail
top=$(cd "$(dirname "$0")/.." && pwd)
program=${PROGRAM:-$top/crates/ilpstream/out/ilpstream}
room=$(mktemp -d)
trap 'rm -rf "$room"' EXIT

[ -n "${PROGRAM-}" ] || "$top/ilpstream" --version >&2 # builds it, if it is older than its sources
programs=("$program" "$@")
if command -v rustc >/dev/null; then
    rustc -O -o "$room/baseline" "$top/bench/frames_baseline.rs"
    programs+=("$room/baseline")
else
    echo "no rustc here, so there is no baseline" >&2
fi

measure() { # runs the program number $1, and appends the nanoseconds and the kilobytes of memory
    local from memory
    from=$(date +%s%N)
    memory=$(/usr/bin/time -f %M "${programs[$1]}" frames 2>&1 <"$room/input" >"$room/answer.$1")
    echo $(($(date +%s%N) - from)) "$memory" >>"$room/times.$1"
}

least() {
    sort -n "$room/times.$1" | head -n 1
}

compare() { # over the input that these arguments give, named $1
    local last=$((${#programs[@]} - 1)) number
    echo "$1:"
    "$top/bench/frames_input.py" "${@:2}" >"$room/input"
    rm -f "$room"/times.*
    for _ in 1 2 3 4 5 6 7; do
        for number in "${!programs[@]}"; do
            measure "$number"
        done
    done
    for number in "${!programs[@]}"; do
        cmp "$room/answer.0" "$room/answer.$number"
        echo "$(least "$number") $(least $last)" | awk -v program="${programs[$number]##*/}" -v from="$(wc -c <"$room/input")" \
            -v to="$(wc -c <"$room/answer.$number")" -v other="${programs[$last]##*/}" '{
            printf "%s: %d bytes in, %d out, %.3f seconds, %.1f ns a byte, %d kB of memory, %.2f of %s\n",
                program, from, to, $1 / 1e9, $1 / from, $2, $3 / $1, other
        }'
    done
}

compare "frames of 16,000 bytes" 1
compare "frames of 40 bytes" 1 40
compare "frames of 40 bytes in another order" 1 40 7
echo "load average: $(cut -d' ' -f1-3 /proc/loadavg), $(nproc) cores"
