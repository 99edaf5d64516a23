#!/usr/bin/env bash
# Prepares a second through one hop in memory: each arrives, and if it is forwarded it is settled with a Fulfill that fits
# before the next one arrives (`arrive` and `settle` of st_hop).
#
# - 2, 100 and 10,000 accounts, each with a route; the addresses are within all of the routes in turn
# - the same next to 10,000 Prepares that are open all the time, forwarded and without an answer
# - an address of 1,023 characters to which no route leads, so that each Prepare is rejected with F02: with 10,000 accounts,
#   and with one route more, whose prefix has 1,023 characters, so that each of the address's 512 segments costs a look-up
#
# A Prepare is of one unit and has no data. st_hop has no limit of accounts, routes or open Prepares that these sizes meet.
#
# The best of the runs by the clock, less the best of as many runs in turns with them in which the same hop is made, with its
# open Prepares, and nothing else arrives. If another build of the program is named, it is measured in turns with it, and
# each rate is also given as a part of the other's. Manually, on a quiet machine: bench/hop.sh [OTHER_PROGRAM]. PROGRAM names
# the program, if it is not the one of this repository; RUNS is how many runs are made of each, 7 if it is not set.
set -euo pipefail
top=$(cd "$(dirname "$0")/.." && pwd)
program=${PROGRAM:-$top/crates/bench/out/bench}
runs=${RUNS:-7}
programs=("$program" "$@")
room=$(mktemp -d)
trap 'rm -rf "$room"' EXIT

if [ -z "${PROGRAM-}" ]; then
    echo "proving and building bench if it is older than its sources" >&2
    (cd "$top/crates/bench" && rt run -- hop 0 0 0 0 0 >&2)
fi

measure() { # runs program number $1 with the arguments after $2, and appends the nanoseconds to the file $2.$1
    local from number=$1 file=$2
    shift 2
    from=$(date +%s%N)
    "${programs[$number]}" hop "$@" >"$room/answer"
    echo $(($(date +%s%N) - from)) >>"$room/$file.$number"
}

is_answer() { # whether the program forwarded and fulfilled $1 Prepares, and rejected $2
    local answer
    answer=$(cat "$room/answer")
    [ "$answer" = "$1 forwarded, $1 fulfilled, $2 rejected" ] || { echo "a program printed: $answer" >&2 && exit 1; }
}

taken() { # nanoseconds that the Prepares take program number $1
    local before whole
    before=$(sort -n "$room/before.$1" | head -n 1)
    whole=$(sort -n "$room/whole.$1" | head -n 1)
    echo $((whole > before ? whole - before : 1))
}

row() { # the row's name, the accounts, the Prepares that are open, fulfilled and rejected, and 1 if there is a long route
    local name=$1 accounts=$2 open=$3 fulfilled=$4 rejected=$5 long=$6 number
    rm -f "$room"/*
    for _ in $(seq "$runs"); do
        for number in "${!programs[@]}"; do
            measure "$number" before "$accounts" "$open" 0 0 "$long"
            is_answer 0 0
            measure "$number" whole "$accounts" "$open" "$fulfilled" "$rejected" "$long"
            is_answer "$fulfilled" "$rejected"
        done
    done
    for number in "${!programs[@]}"; do
        [ ${#programs[@]} = 1 ] || printf '%s: ' "${programs[$number]}"
        echo "$(taken "$number") $(taken $((${#programs[@]} - 1)))" | awk -v name="$name" -v prepares=$((fulfilled + rejected)) '{
            printf "%s: %d Prepares, %.3f seconds, %.0f Prepares a second", name, prepares, $1 / 1e9, prepares * 1e9 / $1
            print $1 == $2 ? "" : sprintf(", %.2f of the other", $2 / $1)
        }'
    done
}

for accounts in 2 100 10000; do
    row "$accounts accounts" "$accounts" 0 1000000 0 0
done
for accounts in 2 100 10000; do
    row "$accounts accounts, 10000 open" "$accounts" 10000 1000000 0 0
done
row "10000 accounts, 1023 characters, no route" 10000 0 0 300000 0
row "10000 accounts, a route of 1023 characters, 1023 characters, no route" 10000 0 0 20000 1
echo "load average: $(cut -d' ' -f1-3 /proc/loadavg), $(nproc) cores"
