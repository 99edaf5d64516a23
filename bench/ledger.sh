#!/usr/bin/env bash
# Exchanges a second of a connector with and without `--ledger`, with 1, 8 and 64 requests at once: each is a Prepare that is forwarded
# and fulfilled (bench/ledger_load.rs), so that with `--ledger` each is a booking that is on the disk before its Fulfill is passed
# back, and the books are compared with the count. Next to them, in turns of one run, python's sqlite3 with journal_mode=WAL and
# synchronous=FULL, as a program would keep the same books: two UPDATEs a booking, and as many bookings a commit as there are
# requests at once; and what the disk does at best, 64 bytes appended and synced. The best of the runs of each. Needs `rustc` and
# Python 3. Run manually, on a quiet machine: bench/ledger.sh [RUNS [PROGRAM [FOLDER]]]. FOLDER is on the disk that is measured.
set -euo pipefail
top=$(cd "$(dirname "$0")/.." && pwd)
runs=${1:-5}
program=${2:-$top/crates/ilpstream/out/ilpstream}
[ $# -gt 1 ] || "$top/ilpstream" --version >&2 # builds it, if it is older than its sources
seconds=2
hub=27770
neighbour=27771

room=$(mktemp -d)
folder=$(mktemp -d -p "${3:-${TMPDIR:-/tmp}}")
connector=
trap '[ -z "$connector" ] || kill "$connector"; rm -r "$room" "$folder"' EXIT
rustc -O -o "$room/load" "$top/bench/ledger_load.rs"
printf '%s\n' 'account NAME=payer 9000000000000000000 1000 payer-at-hub - -' \
    "account NAME=payee 0 0 payee-at-hub 127.0.0.1:$neighbour hub-at-payee" 'route test.payee 1' >"$room/table"

listens() { # at port $1
    grep -qE "^ *[0-9]+: [0-9A-F]{8}:$(printf %04X "$1") [0-9A-F]{8}:0000 0A" /proc/net/tcp
}

exchanges() { # with $1 requests at once and the options after it: the number of Fulfills, and the nanoseconds
    local count=$1
    shift
    "$program" connector --listen "127.0.0.1:$hub" --own test.hub --requests 2147483647 --workers 16 "$@" <"$room/table" &
    connector=$!
    until listens "$hub"; do
        kill -0 "$connector"
        sleep 0.01
    done
    "$room/load" "$hub" "$neighbour" "$count" "$seconds" "$(date -u -d '+25 seconds' +%Y%m%d%H%M%S%3N)"
    kill "$connector"
    wait "$connector" || true
    connector=
}

booked() { # the same with books, which have to have one unit for each
    rm -f "$folder"/books*
    exchanges "$1" --ledger "$folder/books" >"$room/came"
    cat "$room/came"
    "$program" ledger "$folder/books" >"$room/books"
    grep -qx "account payer claims $(cut -d' ' -f1 "$room/came") dues 0" "$room/books" || { cat "$room/books" >&2 && exit 1; }
}

lite() { # by sqlite3, $1 bookings a commit; the disk alone, if it is 0
    python3 - "$folder" "$1" "$seconds" <<'PYTHON'
import os, sqlite3, sys, time
folder, count, seconds = sys.argv[1], int(sys.argv[2]), float(sys.argv[3])
if count == 0:
    file = os.open(f"{folder}/raw", os.O_CREAT | os.O_WRONLY | os.O_TRUNC | os.O_APPEND)
else:
    for end in ("", "-wal", "-shm"):
        if os.path.exists(f"{folder}/sqlite{end}"):
            os.remove(f"{folder}/sqlite{end}")
    books = sqlite3.connect(f"{folder}/sqlite", isolation_level=None)
    books.execute("PRAGMA journal_mode=WAL")
    books.execute("PRAGMA synchronous=FULL")
    books.execute("CREATE TABLE account (id INTEGER PRIMARY KEY, name TEXT NOT NULL, claims INTEGER NOT NULL, dues INTEGER NOT NULL) STRICT")
    books.execute("INSERT INTO account VALUES (1, 'payer', 0, 0), (2, 'payee', 0, 0)")
done, begun = 0, time.perf_counter_ns()
while time.perf_counter_ns() < begun + seconds * 1e9:
    if count == 0:
        os.write(file, b"x" * 64)
        os.fdatasync(file)
        done += 1
        continue
    books.execute("BEGIN")
    for _ in range(count):
        books.execute("UPDATE account SET claims = claims + 1 WHERE id = 1")
        books.execute("UPDATE account SET dues = dues + 1 WHERE id = 2")
    books.execute("COMMIT")
    done += count
print(done, time.perf_counter_ns() - begun)
PYTHON
}

most() { # the greatest rate a second of the runs in a file, and after it the least
    awk '{ it = $1 * 1e9 / $2; if (it > most) most = it; if (NR == 1 || it < least) least = it } END { printf "%.0f %.0f\n", most, least }' "$1"
}

printf '%8s %18s %18s %6s %18s %6s %14s\n' "at once" "without --ledger" "with --ledger" ratio "sqlite3, bookings" ratio "disk, syncs"
for count in 1 8 64; do
    rm -f "$room"/*.runs
    for _ in $(seq "$runs"); do
        exchanges "$count" >>"$room/without.runs"
        booked "$count" >>"$room/with.runs"
        lite "$count" >>"$room/lite.runs"
        lite 0 >>"$room/disk.runs"
    done
    echo "$(most "$room/without.runs") $(most "$room/with.runs") $(most "$room/lite.runs") $(most "$room/disk.runs")" | awk -v count="$count" '{
        printf "%8d %18.0f %18.0f %6.2f %18.0f %6.2f %14.0f\n", count, $1, $3, $3 / $1, $5, $3 / $5, $7
        printf "%8s %18.0f %18.0f %6s %18.0f %6s %14.0f\n", "worst", $2, $4, "", $6, "", $8
    }'
done
echo "load average: $(cut -d' ' -f1-3 /proc/loadavg), $(nproc) cores, $(df --output=fstype "$folder" | tail -n 1)"
