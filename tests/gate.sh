#!/usr/bin/env bash
# The whole gate: `rt ci`; then the program that it built, run as whoever uses it does; the bindings for C, Rust and Python; the
# documents' examples, numbers, links and prose; the man page and completions; whether the prover refuses the wrong bodies of
# tests/refused; and whether those that only tests see can still be made. Each line of `rt ci` on a crate bears the minute in which
# it was printed. Before the last line are the processor's time by crate and the time of the whole, which is 150 minutes at most;
# the last line counts all.
set -u
cd "$(dirname "$(readlink -f "${BASH_SOURCE[0]}")")/.." || exit 1
room=$(mktemp -d)
trap 'rm -rf "$room"' EXIT

# Puts the minutes since the start before each line on a crate.
stamped() {
    while IFS= read -r line; do
        case $line in
            "rt: "* | "== "*) echo "[$((SECONDS / 60)) min] $line" ;;
            *) printf '%s\n' "$line" ;;
        esac
    done
}

# As many checks side by side as there are processors, if each can have 4.5 GB. By itself rt counts on up to twice of what a
# check was seen to take, 3.5 GB at most, and then leaves a processor idle.
processors=$(nproc)
available=$(sed -nE 's/^MemAvailable: *([0-9]+) kB$/\1/p' /proc/meminfo)
if [ "$((available / processors))" -ge 4500000 ]; then
    export RT_JOBS=${RT_JOBS:-$processors}
fi

# The libraries that tests/bindings.py built here before: `rt ci` refuses a repository with a link, and that test builds them anew.
rm -rf bind/out
# And those of an earlier `rt ci`: at its end it puts them back in place of those that it made, which the tests below need.
rm -rf crates/*/out/rlib

tests/times.py $$ >"$room/times" &
times=$!
rt ci | stamped | tee "$room/ci"
status=${PIPESTATUS[0]}

# Runs a test, for at most the given minutes, and shows what it printed. It writes to a file, so that a process that it left
# keeps nothing waiting. One that ends otherwise than well counts as failed, also if it was stopped before it printed a sum.
step() {
    local result=0 said
    said=$(mktemp "$room/step.XXXXXX")
    timeout "$1m" "${@:2}" >"$said" 2>&1 </dev/null || result=$?
    cat "$said"
    if [ "$result" != 0 ] && ! grep -qE '^[0-9]+ passed, [1-9][0-9]* failed$' "$said"; then
        printf '%s\n' "$2: status $result" '0 passed, 1 failed'
    fi
}

program() {
    if [ -x crates/ilpstream/out/ilpstream ]; then
        step 30 tests/program.py
        step 15 tests/edges.py
        step 5 tests/opens.py
        step 5 tests/control.py
        step 10 tests/causes.py
        step 20 tests/ledger.py --kills=12
        step 10 tests/payments.py --kills=8
        step 10 tests/examples.py
        step 10 tests/scaling.py
    else
        printf '%s\n' "the program was not built, so it was not run" '0 passed, 1 failed'
    fi
    step 15 tests/readme.py
}

documents() {
    step 5 tests/documents.py
    step 5 tests/prose.py
    step 5 tests/generated.py
    step 5 tests/style.py
    step 5 tests/manual.py
    step 5 tests/timing.py
    step 5 tests/timing.py --cpu=x86-64-v3
    step 5 tests/timing.py --fixtures
    step 5 tests/seen_by_tests.py --look
    step 5 tests/refused.py --look
}

# (1,000,000 hostile inputs for each reader)
bindings() {
    ILPSTREAM_HOSTILE=1000000 step 45 tests/bindings.py
    step 20 tests/memory.py
}

edits() { step 60 tests/refused.py --gate; }

# If there are four processors, the program's runs, most of which wait, run at the same time as the others, which leave them the
# processor (nice). What each prints is shown once it has ended.
parts=(program documents bindings edits)
if [ "$processors" -ge 4 ]; then
    program >"$room/program" &
    waits=$!
    (
        renice -n 10 -p "$BASHPID" >"$room/renice"
        edits >"$room/edits" &
        documents >"$room/documents"
        bindings >"$room/bindings"
        wait
    )
    wait "$waits"
else
    for part in "${parts[@]}"; do
        "$part" >"$room/$part"
    done
fi
for part in "${parts[@]}"; do
    cat "$room/$part"
done

kill "$times" && wait "$times"
cat "$room/times"
echo "the gate took $((SECONDS / 60)) minutes on $processors cores"
if [ "$SECONDS" -gt 9000 ]; then
    echo "that is more than the 150 minutes that it may take"
    echo "0 passed, 1 failed" >>"$room/program"
fi
cat "$room/ci" "${parts[@]/#/$room/}" | sed -nE 's/^([0-9]+) passed, ([0-9]+) failed$/\1 \2/p' | {
    passed=0 failed=0
    while read -r well ill; do
        passed=$((passed + well)) failed=$((failed + ill))
    done
    echo "$passed passed, $failed failed"
    [ "$status" = 0 ] && [ "$failed" = 0 ]
}
