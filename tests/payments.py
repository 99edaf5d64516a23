#!/usr/bin/env python3
"""Books payments with references, and adjustments, in a connector's books: payments.py [PROGRAM [WORD]] [--kills=N] [--seed=N]. With
a WORD, only the tests whose names have it. Python's sqlite3 reads the books, from copies of both files. A line for each test says
what was seen, or what is wrong; the last line counts them."""
import os
import random
import re
import subprocess
import time

from books import copied, ledger, with_sqlite
from peers import HOST, answer, asked, fulfill, message, prepare, request
from play import PROGRAM, main, option, shared_object, test, want
from repository import read, write

KILLS = int(option("kills", "50"))
SEED = option("seed", str(int(time.time())))
OWED = 1_000_000  # what alice owes, and what bob is owed
YEAR = 365 * 86_400_000  # milliseconds
PRINTABLE = bytes(range(0x20, 0x7F)).decode()
TAKEN_APART = re.search(r"```sql\n(SELECT id, name, moment.*?)```", read("docs/OPERATING.md"), re.DOTALL)[1]


def rows(play, path, statement):
    return with_sqlite(copied(path, f"{play.room}/copy"), statement)[0]


def sums(play, path):
    """By name, what an account owes the connector and what it is owed."""
    return {name: (claims, dues) for name, claims, dues in rows(play, path, "SELECT name, claims, dues FROM account")}


def entries(play, path):
    """The lines of entries that were made manually: the name, the text of the side, and the amount; and their moments."""
    found = rows(play, path, "SELECT id, name, side, amount, moment FROM payment ORDER BY id")
    want([it[0] for it in found] == list(range(1, len(found) + 1)), f"the lines are numbered {[it[0] for it in found]}")
    return [it[1:4] for it in found], [it[4] for it in found]


def pay_through(play, path, amount, times=1):
    """A connector with the books forwards Prepares from alice to bob, which bob fulfills, and is then killed."""
    bob = play.peer(lambda _, stream: (message(stream), stream.sendall(answer(fulfill()))))
    table = f"account NAME=alice {2**60} {2**40} alice-at-hub - -\naccount NAME=bob 0 0 bob-at-hub {HOST}:{bob.port} hub-at-bob\nroute test.b 1\n"
    it = play.connector(table, f"--ledger={path}")
    for _ in range(times):
        _, body = asked((HOST, it.port), request("alice-at-hub", prepare(amount, 20, "test.b")))
        want(body[:1] == b"\x0d", f"a Prepare is answered {body!r}")
    it.kill()
    it.wait()


def books(play):
    """Books in which alice owes, and bob is owed."""
    path = f"{play.room}/books"
    pay_through(play, path, OWED)
    want(sums(play, path) == {"alice": (OWED, 0), "bob": (0, OWED)}, f"the books have {sums(play, path)}")
    return path


def line(name, claims, dues, word=""):
    return f"account {name} claims {claims} dues {dues}{word}\n"


@test()
def a_reference_is_booked_once(play):
    path = books(play)
    told = [ledger(path, "settle", "alice", "10", "--reference", "INV 1") for _ in range(20)]
    left = OWED - 10
    want(told == [("0", line("alice", left, 0))] + [("0", line("alice", left, 0, " booked before"))] * 19, f"20 times: {told}")
    # (another side, another account and another reference are other ones)
    others = [("bob", "-10", "INV 1"), ("alice", "10", "INV 2"), ("alice", "10", "INV"), ("alice", "10", "INV 11")]
    told = [ledger(path, "settle", name, amount, "--reference", text) for name, amount, text in others]
    lines = [line("bob", 0, OWED - 10), line("alice", left - 10, 0), line("alice", left - 20, 0), line("alice", left - 30, 0)]
    want(told == [("0", it) for it in lines], f"others: {told}")
    before = entries(play, path)
    # (another amount, and the same one that is added)
    told = [ledger(path, "settle", "alice", "11", "--reference", "INV 1")[0], ledger(path, "settle", "alice", "9", "--reference", "INV 1")[0]]
    told.append(ledger(path, "adjust", "alice", "claims", "10", "--reference", "INV 1")[0])
    want(told == ["125"] * 3, f"another amount under the same reference: {told}")
    want(entries(play, path) == before, "a refused entry is kept")
    # (without a reference each is booked)
    told = [ledger(path, "settle", "alice", "1") for _ in range(3)]
    want(told == [("0", line("alice", left - 30 - n, 0)) for n in (1, 2, 3)], f"without a reference: {told}")
    want([it[0][1] for it in zip(entries(play, path)[0])][-3:] == ["claims"] * 3, f"lines {entries(play, path)[0]}")
    return f"20 times, with {len(entries(play, path)[0])} lines"


@test()
def references_of_all_characters(play):
    path = books(play)
    texts = ["x", "x" * 128, PRINTABLE, " ", "  ", "--reference", "-", "claims", "+claims x", "'; DROP TABLE payment; --", "stood"]
    for count, text in enumerate(texts, 1):
        for again in range(2):
            told = ledger(path, "settle", "alice", "1", "--reference", text)
            want(told == ("0", line("alice", OWED - count, 0, " booked before" if again else "")), f"{text!r}: {told}")
    found = entries(play, path)[0]
    want(found == [("alice", f"claims {text}", 1) for text in texts], f"lines {found}")
    refused = ["", "x" * 129, "é", "tab\there", "line\n", "\x7f"]
    told = [ledger(path, "settle", "alice", "1", "--reference", it)[0] for it in refused]
    told += [ledger(path, "settle", "alice", "1", *words)[0] for words in (["--referenc", "x"], ["x", "--reference"])]
    told += [ledger(path, "adjust", "alice", "claims", "1", *words)[0] for words in (["--reference"], ["x", "y"])]
    want(set(told) == {"98"}, f"bad texts: {told}")
    # (of four words after FILE nothing is said)
    counts = [("settle", "alice", "1", "--reference"), ("settle", "alice", "1", "x"), ("adjust", "alice", "claims", "1")]
    told += [ledger(path, *words)[0] for words in counts]
    want(told[-3:] == ["2"] * 3, f"four words: {told[-3:]}")
    want(entries(play, path)[0] == found, "a bad text is kept")
    return f"{len(texts)} texts; {len(told)} are refused"


@test()
def a_reference_is_booked_once_over_kills(play):
    path, rng = books(play), random.Random(SEED)
    begun = time.monotonic()
    want(ledger(path)[0] == "0", "no books")
    taken, booked, killed, amount = time.monotonic() - begun, 0, 0, 7
    for number in range(KILLS):
        words = ["settle", "alice", str(amount), "--reference", f"run {number}"]
        for again in range(20):
            it = subprocess.Popen([PROGRAM, "ledger", path, *words], stdout=subprocess.PIPE, stderr=subprocess.PIPE)
            if again < 19:
                time.sleep(rng.uniform(0, 1.5 * taken) if again < 4 else rng.uniform(0, 0.2 * taken))
                it.kill()
            out, errors = it.communicate()
            killed += it.returncode != 0
            want(it.returncode in (0, -9) and not errors, f"`settle` ended with {it.returncode} {errors!r}")
        booked += amount
        want(it.returncode == 0 and out.decode().startswith(line("alice", OWED - booked, 0)[:-1]), f"run {number}: {out!r}, seed {SEED}")
        found = sums(play, path)["alice"]
        want(found == (OWED - booked, 0), f"run {number} leaves {found}, and {booked} are booked, seed {SEED}")
    found = entries(play, path)[0]
    want(found == [("alice", f"claims run {n}", amount) for n in range(KILLS)], f"lines {found}, seed {SEED}")
    return f"{KILLS} references, each 20 times, with {killed} kills, seed {SEED}"


@test()
def an_adjustment_after_a_restored_backup(play):
    path = books(play)
    backup = f"{play.room}/backup"
    copied(path, backup)
    pay_through(play, path, 250, times=4)
    lost = sums(play, path)
    copied(backup, path)
    want(sums(play, path) != lost, "the backup has all")
    for name, side in (("alice", "claims"), ("bob", "dues")):
        for again in range(3):
            told = ledger(path, "adjust", name, side, "1000", "--reference", "backup of May 3")
            both = lost[name]
            want(told == ("0", line(name, *both, " booked before" if again else "")), f"{name}: {told}")
    want(sums(play, path) == lost, f"{sums(play, path)} in place of {lost}")
    found = entries(play, path)[0]
    wanted = [("alice", "+claims backup of May 3", 1000), ("bob", "+dues backup of May 3", 1000)]
    want(found == wanted, f"lines {found}")
    # (OPERATING's query takes the column apart)
    apart = [(*it[:2], *it[3:]) for it in rows(play, path, TAKEN_APART)]
    want(apart == [(1, "alice", 1000, "claims", "backup of May 3"), (2, "bob", 1000, "dues", "backup of May 3")], f"taken apart: {apart}")
    told = [ledger(path, "adjust", "alice", "claims", "999", "--reference", "backup of May 3")[0]]
    told.append(ledger(path, "settle", "alice", "1000", "--reference", "backup of May 3")[0])
    told.append(ledger(path, "adjust", "nobody", "claims", "1", "--reference", "x")[0])
    told.append(ledger(path, "adjust", "alice", "claims", str(2**63 - 1), "--reference", "x")[0])
    told += [ledger(path, "adjust", "alice", *words, "--reference", "x")[0] for words in (["claims", "0"], ["claims", "-1"], ["both", "1"], ["claims", str(2**63)])]
    want(told == ["125", "125", "116", "117", "98", "98", "98", "98"], f"refused: {told}")
    want(sums(play, path) == lost and entries(play, path)[0] == found, "a refused adjustment is kept")
    # (the greatest sum, and all of it is paid)
    most = 2**63 - 1
    told = [ledger(path, "adjust", "alice", "claims", str(most - lost["alice"][0]), "--reference", "most"), ledger(path, "settle", "alice", str(most))]
    want(told == [("0", line("alice", most, 0)), ("0", line("alice", 0, 0))], f"the most: {told}")
    pay_through(play, path, 5)
    want(sums(play, path)["alice"] == (5, 0), f"a connector continues with {sums(play, path)}")
    return f"{wanted}"


@test()
def an_adjustment_that_is_killed(play):
    path, rng = books(play), random.Random(SEED)
    begun = time.monotonic()
    want(ledger(path)[0] == "0", "no books")
    taken, added = time.monotonic() - begun, 0
    for number in range(KILLS):
        it = subprocess.Popen([PROGRAM, "ledger", path, "adjust", "bob", "claims", "3", "--reference", str(number)], stdout=subprocess.DEVNULL, stderr=subprocess.PIPE)
        time.sleep(rng.uniform(0, 1.5 * taken))
        it.kill()
        _, errors = it.communicate()
        want(it.returncode in (0, -9) and not errors, f"`adjust` ended with {it.returncode} {errors!r}")
        more = sums(play, path)["bob"][0] - added
        want(more in (0, 3) and (more or it.returncode), f"`adjust` ended with {it.returncode}, and {more} was added, seed {SEED}")
        added += more
        want(sum(it[2] for it in entries(play, path)[0]) == added, f"{added} were added, and the lines say {entries(play, path)[0]}, seed {SEED}")
    return f"{added // 3} of {KILLS} booked, seed {SEED}"


@test()
def moments_never_fall(play):
    path, rng = books(play), random.Random(SEED)
    library = shared_object(play, "clock")
    leads, before = [0, -YEAR, YEAR, 0, -50 * YEAR, 20 * YEAR, -1, 1], []
    leads += [rng.randrange(-YEAR, 21 * YEAR) for _ in range(50 - len(leads))]
    for number, lead in enumerate(leads):
        write(f"{play.room}/lead", str(lead))
        env = {**os.environ, "LD_PRELOAD": library, "CLOCK_FILE": f"{play.room}/lead"}
        words = ["--reference", str(number)] if number % 2 else []
        clock = int(time.time() * 1000) + lead
        told = ledger(path, "settle", "alice", "1", *words, env=env)
        want(told == ("0", line("alice", OWED - number - 1, 0)), f"{lead}: {told}")
        moments = entries(play, path)[1]
        wanted = max([clock, *before])
        want(moments[:-1] == before, f"older moments {moments} and {before}")
        want(wanted <= moments[-1] <= wanted + 60_000, f"the moment {moments[-1]} at {clock} behind {before[-3:]}, seed {SEED}")
        before = moments
    want(before == sorted(before), f"moments fall in {before}")
    return f"{len(leads)} clocks, {len(set(before))} moments, seed {SEED}"


if __name__ == "__main__":
    raise SystemExit(main())
