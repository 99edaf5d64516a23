#!/usr/bin/env python3
"""Kills `connector --ledger` and starts it again, fills its disk, and gives it files that are damaged, taken or no books:
ledger.py [PROGRAM [WORD]] [--kills=N] [--seed=N] [--places=N]. With a WORD, only the tests whose names have it. Two neighbours in Python send
each other Prepares through the connector and note which Fulfills they gave and took. Python's sqlite3 reads the books, from copies
of both files. A line for each test says what was seen, or what is wrong; the last line counts them."""
import collections
import concurrent.futures
import contextlib
import hashlib
import itertools
import os
import random
import re
import shutil
import socket
import sqlite3
import subprocess
import threading
import time

from books import copied, files_of, ledger, with_sqlite
from peers import (
    HOST,
    Peer,
    answer,
    ended,
    fields_at,
    free_port,
    fulfill,
    is_whole,
    listens,
    message,
    prepare,
    reject,
    request,
    totals,
    use_up,
)
from play import (
    PROGRAM,
    STAY,
    Wrong,
    disk,
    has_to_listen,
    main,
    option,
    shared_object,
    some_bytes,
    stands,
    test,
    until_it_listens,
    want,
)
from repository import TOP, read_bytes, write_bytes

KILLS = int(option("kills", "12"))
PLACES = int(option("places", "100"))  # of all, in files with bits that are changed, and cuts
SEED = option("seed", str(int(time.time())))
SENDERS = 8  # threads of each neighbour that send, and workers of the connector
LIMIT = 2**60
# Units of a Prepare. They are drawn from a range so large that sums of different Prepares differ.
MOST = 2**36
MONEY, PIECE = 20_000, 100  # units of a transfer by `send`, and of its greatest Prepare
REFUSALS = {"110", "111", "112", "113", "114", "115"}  # of books that cannot be opened
NAMES = "alice", "bob"


# The books, as sqlite3 and as `ledger` read them.


class Books(collections.namedtuple("Books", "starts sums")):
    """The count of starts, and by name what an account owes the connector and what it is owed: (claims, dues)."""

    def claims(self, name):
        return self.sums.get(name, (0, 0))[0]

    def dues(self, name):
        return self.sums.get(name, (0, 0))[1]


def is_unmade(path):
    """Whether a kill ended the making of books before their first commit: the first byte of the file, which is written last, is 0 or
    not there, and the log has no commit. sqlite3 then finds no database, and the next connector makes the books."""
    with open(path, "rb") as file:
        is_begun = file.read(1) in (b"", b"\0")
    return is_begun and not has_commit(f"{path}-wal")


def has_commit(log):
    """Whether there is a log, and a commit in it."""
    return os.path.exists(log) and os.path.getsize(log) >= 32 and len(Log(log).ends) > 0


def books_in(path, room):
    """What sqlite3 reads in a copy of the books, which has to pass its test of integrity."""
    copy = copied(path, f"{room}/copy")
    if not os.path.exists(copy) or is_unmade(copy):
        return Books(0, {})
    integrity, starts, tables = with_sqlite(copy, "PRAGMA integrity_check", "PRAGMA user_version", "SELECT name FROM sqlite_schema")
    want(integrity == [("ok",)], f"sqlite3 says {integrity}")
    if not tables:
        return Books(0, {})
    want(tables == [("account",), ("payment",), ("books",), ("fulfillment",)], f"the tables and views are {tables}")
    rows = with_sqlite(copy, "SELECT name, claims, dues FROM account")[0]
    want(len({name for name, _, _ in rows}) == len(rows), f"a name twice in {rows}")
    return Books(starts[0][0], {name: (claims, dues) for name, claims, dues in rows})


def books_of(path):
    """How `ledger FILE` ended, and the books that it printed: a line for each account, and a last one with the starts."""
    told, text = ledger(path)
    if told != "0":
        return told, None
    *lines, last = text.split("\n")[:-1]
    rows = [re.fullmatch(r"account (.*) claims (\d+) dues (\d+)", it) for it in lines]
    starts = re.fullmatch(r"starts (\d+)", last)
    want(all(rows) and starts, f"`ledger` prints {text!r}")
    return told, Books(int(starts[1]), {row[1]: (int(row[2]), int(row[3])) for row in rows})


def same_books(path, wanted):
    told, found = books_of(path)
    want(found == wanted, f"`ledger` {told} finds {found}, and there is {wanted}")


# Neighbours that note what they gave and took.


class Gate:
    """Lets exchanges begin while a connector runs, and waits for the end of those that did."""

    def __init__(self):
        self.changed, self.is_open, self.is_over, self.inside = threading.Condition(), False, False, 0

    def enter(self):
        """Whether an exchange is to begin, once one may."""
        with self.changed:
            self.changed.wait_for(lambda: self.is_open or self.is_over)
            self.inside += not self.is_over
            return not self.is_over

    def leave(self):
        with self.changed:
            self.inside -= 1
            self.changed.notify_all()

    def open(self):
        with self.changed:
            self.is_open = True
            self.changed.notify_all()

    def shut(self):
        with self.changed:
            self.is_open = False

    def empty(self):
        """Waits until no exchange is under way."""
        with self.changed:
            want(self.changed.wait_for(lambda: not self.inside, 60), "an exchange outlives its connector")

    def end(self):
        with self.changed:
            self.is_over = True
            self.changed.notify_all()


class Way:
    """The Prepares from one neighbour to another. Each has a number, which its address and its preimage are made of. `sent`,
    `taken` and `refused` are those of the connector's present life."""

    def __init__(self, payer, payee, prefix, rate):
        self.payer, self.payee, self.prefix, self.rate = payer, payee, prefix, rate
        self.rng = random.Random(f"{SEED} {payer}")
        self.numbers, self.amounts = itertools.count(1), {}
        self.met, self.given, self.strange = collections.Counter(), set(), []
        self.paid = self.unanswered = self.fulfilled = self.pending = 0  # sums over the lives that have ended, in units
        self.begin()

    def begin(self):
        self.sent, self.taken, self.refused = set(), set(), {}

    def due(self, number):
        """What the connector owes for a Prepare that is fulfilled."""
        return self.amounts[number] * self.rate[0] // self.rate[1]

    def meet(self, body):
        """A Prepare is at its payee. Gives the answer: a Reject for one in eight, a Fulfill for the others."""
        at = fields_at(body)
        number = int(re.search(rb"%s\.(\d+)" % self.prefix.encode(), body)[1])
        self.met[number] += 1
        if int.from_bytes(body[at : at + 8], "big") != self.due(number):
            self.strange.append(number)
        if number % 8 == 0:
            return reject(b"F99", b"test.end")
        self.given.add(number)
        return fulfill(number.to_bytes(32, "big"))

    def exchange(self, port):
        """Sends a Prepare, and notes what was sent back. If nobody listens, nothing is sent."""
        try:
            stream = socket.create_connection((HOST, port), timeout=60)
        except OSError:
            time.sleep(0.005)
            return
        number, amount = next(self.numbers), self.rng.randrange(1, MOST)
        self.amounts[number] = amount
        self.sent.add(number)
        preimage = number.to_bytes(32, "big")
        packet = prepare(amount, 30, f"{self.prefix}.{number}", preimage)
        try:
            with stream:
                stream.sendall(request(f"{self.payer}-at-hub", packet))
                head, body = message(stream)
        except OSError:
            return
        # A connection without an answer is closed before its first byte, and has no other status.
        if head and not head.startswith(b"HTTP/1.1 200 "):
            self.strange.append(head)
        if body == fulfill(preimage):
            self.taken.add(number)
        elif body[:1] == b"\x0e":
            self.refused[number] = body[2:5].decode()


class Neighbour(Peer):
    """Answers the Prepares that arrive for it, each after up to 20 ms."""

    def __init__(self, name, way):
        self.name, self.way = name, way
        super().__init__(self.take)

    def take(self, _, stream):
        head, body = message(stream)
        if not is_whole(head, body):  # the connector was killed meanwhile
            return
        if f"Authorization: Bearer hub-at-{self.name}\r\n".encode() not in head:
            self.way.strange.append(head)
            return
        time.sleep(self.way.rng.random() * 0.02)
        stream.sendall(answer(self.way.meet(body)))


# A connector that keeps books, between two neighbours.


class Connector:
    """A connector with books, which may be started again and again: what its table has of each account, by name, and the routes,
    each with the account's name and the rate."""

    def __init__(self, play, path):
        self.play, self.path, self.port, self.rng = play, path, free_port(), random.Random(SEED)
        self.accounts, self.routes = {}, {}

    def table(self, names=None):
        """A table with these accounts, in this order; in one that is drawn, with all of them."""
        names = names or self.rng.sample(sorted(self.accounts), len(self.accounts))
        lines = [f"account NAME={name} {self.accounts[name]}" for name in names]
        lines += [f"route {prefix} {names.index(name)}{rate}" for prefix, (name, rate) in self.routes.items() if name in names]
        return "\n".join(lines) + "\n", names

    def start(self, table=None, requests=STAY, port=None, words=(), own="test.hub", **how):
        """The connector begins, with the accounts in an order that is drawn."""
        words = [*words, f"--listen={HOST}:{port or self.port}", f"--own={own}", f"--requests={requests}", f"--workers={SENDERS}"]
        with self.play.file((table or self.table()[0]).encode()) as given:
            it = self.play.start("connector", [*words, f"--ledger={self.path}"], given=given, **how)
        it.port = port or self.port
        return it


def killed(it):
    """A kill ends a connector, which has not ended by itself."""
    it.kill()
    _, errors = it.communicate()
    want(it.returncode == -9 and not errors, f"before its kill a connector ended with {it.returncode} {errors!r}")


class Hub(Connector):
    """A connector between two neighbours. A rate of three for two is on one way, so that claims and dues are of different
    amounts."""

    def __init__(self, play, path):
        super().__init__(play, path)
        self.ways = [Way("alice", "bob", "test.b", (3, 2)), Way("bob", "alice", "test.a", (1, 1))]
        neighbours = [Neighbour("bob", self.ways[0]), Neighbour("alice", self.ways[1])]
        play.peers += neighbours
        self.accounts = {it.name: line_of(it.name, it.port) for it in neighbours}
        self.routes = {"test.b": ("bob", " 3 2"), "test.a": ("alice", "")}
        self.books, self.tally, self.gate = Books(0, {}), collections.Counter(), Gate()
        play.open.append(self)
        for way in self.ways * SENDERS:
            threading.Thread(target=self.send_on, args=(way,), daemon=True).start()

    def close(self):
        self.gate.end()

    def send_on(self, way):
        while self.gate.enter():
            try:
                way.exchange(self.port)
            finally:
                self.gate.leave()

    def serve(self, **how):
        """The connector begins, and all neighbours send once it listens."""
        it = self.start(**how)
        has_to_listen(it, "a connector")
        self.gate.open()
        return it

    def stop(self, it, listened=True):
        """A kill ends a life of the connector."""
        self.gate.shut()
        killed(it)
        self.gate.empty()
        self.account(listened)

    def live(self, seconds, **how):
        """A life of the given seconds with all neighbours sending, which a kill ends. Whether it listened."""
        it = self.start(**how)
        self.gate.open()
        time.sleep(seconds)
        listened = listens(it.port)
        self.stop(it, listened)
        return listened

    def account(self, listened):
        """A life has ended. Compares what the books have more than before with what each neighbour gave and took in it."""
        before, after = self.books, books_in(self.path, self.play.room)
        more = after.starts - before.starts
        want(more == 1 or (more == 0 and not listened), f"starts {before.starts}, then {after.starts}; it listened: {listened}")
        for way in self.ways:
            self.compare(way, before, after)
        self.books = after

    def compare(self, way, before, after):
        """In this life the books have each Fulfill that was passed on, once, none for which a Reject was sent back, and of those that were
        given and not answered, with claim and due, any or none."""
        claims = after.claims(way.payer) - before.claims(way.payer) - sum(way.amounts[it] for it in way.taken)
        dues = after.dues(way.payee) - before.dues(way.payee) - sum(map(way.due, way.taken))
        unanswered = way.sent - way.taken - set(way.refused)
        pending = sorted(unanswered & way.given)
        kept = sum_of(pending, claims, dues, way)
        told = f"{way.payer} to {way.payee}: claims {claims} and dues {dues} beside {len(way.taken)} that were passed on"
        want(kept is not None, f"{told}, and {[(way.amounts[it], way.due(it)) for it in pending]} were open")
        want(not way.strange, f"{way.payee} met {way.strange[:3]}")
        want(all(way.met[it] <= 1 for it in way.sent), f"{way.payee} met a Prepare twice")
        self.tally.update(passed=len(way.taken), open=len(pending), kept=len(kept))
        self.tally.update(f"answered {it}" for it in way.refused.values())
        way.paid += sum(way.amounts[it] for it in way.taken)
        way.unanswered += sum(way.amounts[it] for it in unanswered)
        way.fulfilled += sum(way.due(it) for it in way.sent & way.given)
        # (what was sent back once the books refused is answered with T01 and never owed, though its payee gave it)
        way.pending += sum(way.due(it) for it in way.sent & way.given - way.taken)
        way.begin()

    def laws(self):
        """On each link, over all lives: what is claimed and was not paid, or was fulfilled and is not owed, is not below nothing,
        and at most what was open at the ends of lives."""
        for way in self.ways:
            more, less = self.books.claims(way.payer) - way.paid, way.fulfilled - self.books.dues(way.payee)
            want(0 <= more <= way.unanswered, f"claims from {way.payer} {more} above {way.paid}, of {way.unanswered} unanswered")
            want(0 <= less <= way.pending, f"dues to {way.payee} {less} below {way.fulfilled}, of {way.pending} pending")

    def served(self, seconds=0.5, **how):
        """A life in which the connector listens, and which a kill ends the given seconds later."""
        it = self.serve(**how)
        time.sleep(seconds)
        self.stop(it)

    def some_sums(self):
        """Books in which something is owed both ways."""
        it, until = self.serve(), time.monotonic() + 30
        while min(len(way.taken) for way in self.ways) < 50 and time.monotonic() < until:
            time.sleep(0.05)
        self.stop(it)
        want(all(self.books.claims(it) and self.books.dues(it) for it in NAMES), f"nothing is owed in {self.books}")
        return self.books


def line_of(name, port):
    """What a table has of a neighbour after its name."""
    return f"{LIMIT} {MOST} {name}-at-hub {HOST}:{port} hub-at-{name}"


def sum_of(numbers, claims, dues, way):
    """Which of these Prepares have these sums, as a set; None if none have."""
    for count in range(len(numbers) + 1):
        for some in itertools.combinations(numbers, count):
            if sum(way.amounts[it] for it in some) == claims and sum(map(way.due, some)) == dues:
                return set(some)
    return None


def told_by(hub, **how):
    """How a connector ends by itself that is started with the books of a hub."""
    return ended(hub.start(**how), 20)


class Transfers:
    """Transfers by `send` to `receive` over connectors, one after the other, until they are to be over."""

    def __init__(self, play, port, sender, receiver):
        self.play, self.hub, self.sender, self.receiver, self.is_over, self.wrong = play, port, sender, receiver, False, []
        self.port, self.count, self.unanswered, self.paid, self.credited = free_port(), 0, 0, 0, 0
        self.thread = threading.Thread(target=self.run, daemon=True)

    def lines(self):
        """What the table of a connector has of the sender, and of the receiver."""
        yield self.sender, f"{LIMIT} {PIECE} {self.sender}-at-hub - -"
        yield self.receiver, f"0 0 {self.receiver}-at-hub {HOST}:{self.port} hub-at-{self.receiver}"

    def run(self):
        while not self.is_over:
            try:
                self.one(some_bytes(300_000))
            except Wrong as wrong:
                self.wrong.append(str(wrong))
                return

    def one(self, content):
        here, there, secret = f"test.{self.sender}", f"test.{self.receiver}", os.urandom(32).hex()
        receiver = self.play.receive(port=self.port, token=f"hub-at-{self.receiver}", address=there, peer=here, secret=secret)
        ways = {"token": f"{self.sender}-at-hub", "address": here, "peer": there, "secret": secret}
        sender = self.play.send(self.hub, content, f"--money={MONEY}", **ways)
        told = ended(sender, 120), ended(receiver, 20)
        # A kill loses the answer to the last Prepare if the receiver has ended with all: nothing answers the sender again.
        is_unanswered = told == ("58", "0")
        with open(receiver.path, "rb") as file:
            want((told == ("0", "0") or is_unanswered) and file.read() == content, f"send {told[0]}, receive {told[1]}")
        self.count += 1
        self.unanswered += is_unanswered
        self.paid += totals(sender.totals)["paid"]
        self.credited += totals(receiver.totals)["credited"]

    def end(self, *connectors):
        """Has the last transfer end over these connectors, and checks all of them."""
        self.is_over, until = True, time.monotonic() + 180
        while self.thread.is_alive() and time.monotonic() < until:
            for it in connectors:
                stands(it, "connector")
            self.thread.join(0.1)
        want(not self.thread.is_alive() and not self.wrong, f"transfers: {self.wrong or 'the last one does not end'}")

    def compare(self, kills, *sums):
        """What was paid, what connectors booked on the way, and what was credited. A kill finds one Prepare open for each of the
        sender's four workers."""
        row = [self.paid, *sums, self.credited]
        told = f"{self.count} transfers from {self.sender} to {self.receiver} paid, booked and credited {row}"
        want(all(0 <= more - less <= 4 * kills * PIECE for less, more in zip(row, row[1:])), told)
        want(self.unanswered <= kills, f"{self.unanswered} transfers had no last answer, with {kills} kills")
        return f"{told}, {self.unanswered} without the last answer"


# Kills.


def moment(rng):
    """After the given seconds a connector is killed: one in five times while it begins."""
    return rng.uniform(0, 0.04) if rng.random() < 0.2 else rng.uniform(0.04, 0.7)


@test()
def kills_at_random_moments(play):
    hub = Hub(play, f"{play.room}/books")
    transfers = Transfers(play, hub.port, "carol", "dave")
    hub.accounts.update(transfers.lines())
    hub.routes["test.dave"] = ("dave", "")
    transfers.thread.start()
    listened = 0
    for _ in range(KILLS):
        listened += hub.live(moment(hub.rng))
        if hub.books.sums and hub.rng.random() < 0.25:
            same_books(hub.path, hub.books)
    # A life that lasts until the transfers have ended, and is then killed too.
    last = hub.serve()
    transfers.end(last)
    hub.stop(last)
    hub.laws()
    same_books(hub.path, hub.books)
    stays_whole(hub)
    counts = ", ".join(f"{name} {count}" for name, count in sorted(hub.tally.items()))
    sums = hub.books.claims("carol"), hub.books.dues("dave")
    want(sums[0] == sums[1], f"claims from carol and dues to dave are {sums}")
    return f"seed {SEED}: {KILLS} kills, {listened} of them while it served; {counts}; {transfers.compare(KILLS + 1, *sums)}"


@test()
def two_connectors_are_killed(play):
    one, two = Connector(play, f"{play.room}/one"), Connector(play, f"{play.room}/two")
    there, back = Transfers(play, one.port, "carol", "dan"), Transfers(play, two.port, "frank", "erin")
    (carol, dan), (frank, erin) = there.lines(), back.lines()
    one.accounts = dict([carol, erin, ("two", f"{LIMIT} {PIECE} two-at-one {HOST}:{two.port} one-at-two")])
    two.accounts = dict([frank, dan, ("one", f"{LIMIT} {PIECE} one-at-two {HOST}:{one.port} two-at-one")])
    one.routes, two.routes = {"test.dan": ("two", ""), "test.erin": ("erin", "")}, {"test.dan": ("dan", ""), "test.erin": ("one", "")}
    lives = {it: it.start() for it in (one, two)}
    there.thread.start()
    back.thread.start()
    for _ in range(KILLS):
        it = one.rng.choice((one, two))
        time.sleep(moment(one.rng))
        killed(lives[it])
        books_in(it.path, play.room)
        lives[it] = it.start()
    for it in (there, back):
        it.end(*lives.values())
    for it in lives.values():
        killed(it)
    first, second = books_in(one.path, play.room), books_in(two.path, play.room)
    for books, names in ((first, ("carol", "two", "erin")), (second, ("frank", "one", "dan"))):
        sender, other, receiver = names
        want(books.claims(sender) == books.dues(other) and books.claims(other) == books.dues(receiver), f"{books}")
    told = there.compare(KILLS, first.claims("carol"), first.dues("two"), second.claims("one"), second.dues("dan"))
    return f"{told}; {back.compare(KILLS, second.claims('frank'), second.dues('one'), first.claims('two'), first.dues('erin'))}"


def stays_whole(hub):
    """A last life that ends by itself leaves the sums as they were, in its totals and in the books."""
    table, names = hub.table()
    it = hub.start(table=table, requests=3)
    use_up(it, it.port, "alice-at-hub")
    told = ended(it, 20)
    want(told == "0", f"connector {told} after three requests")
    found = totals(it.totals)
    for at, name in enumerate(names):
        sums = found.get(f"account {at} claims"), found.get(f"account {at} dues"), found.get(f"account {at} held")
        want(sums == (*hub.books.sums[name], 0), f"totals of {name} are {sums}, and the books have {hub.books.sums[name]}")
    hub.account(True)
    same_books(hub.path, hub.books)


@test()
def kills_while_a_file_is_made(play):
    hub = Hub(play, f"{play.room}/books")
    begun = time.monotonic()
    first = hub.serve()
    taken = time.monotonic() - begun
    hub.stop(first)
    files = collections.Counter()
    for life in range(KILLS):
        hub.path, hub.books = f"{play.room}/books{life}", Books(0, {})
        hub.live(hub.rng.uniform(0, taken) * hub.rng.random())
        files[f"{len(files_of(hub.path))} files and {len(hub.books.sums)} accounts"] += 1
        hub.stop(hub.serve())
    return f"{KILLS} in up to {taken:.3f} s, with {dict(files)}"


@test()
def a_payment_is_killed(play):
    hub = Hub(play, f"{play.room}/books")
    before = hub.some_sums()
    begun = time.monotonic()
    same_books(hub.path, before)
    taken, booked = time.monotonic() - begun, 0
    for _ in range(KILLS):
        it = subprocess.Popen([PROGRAM, "ledger", hub.path, "settle", "alice", "1"], stdout=subprocess.DEVNULL, stderr=subprocess.PIPE)
        time.sleep(hub.rng.uniform(0, 1.5 * taken))
        it.kill()
        _, errors = it.communicate()
        want(it.returncode in (0, -9) and not errors, f"`ledger settle` ended with {it.returncode} {errors!r}")
        after = books_in(hub.path, play.room)
        less = before.claims("alice") - after.claims("alice")
        want(less == 1 or (less == 0 and it.returncode), f"`ledger settle` ended with {it.returncode}, and {less} is off the claims")
        booked, before = booked + less, after
    payments = with_sqlite(copied(hub.path, f"{play.room}/copy"), "SELECT count(*) FROM payment")[0]
    want(payments == [(booked,)], f"{booked} payments were booked, and {payments} stand there")
    return f"{booked} of {KILLS} booked"


# Disks and files.


# What proves claims.

KEEP = "--keep-fulfillments"


def proofs_in(path, room):
    """The lines of the table of fulfillments in a copy of the books."""
    return with_sqlite(copied(path, f"{room}/copy"), "SELECT id, name, condition, fulfillment, amount, moment FROM fulfillment ORDER BY id")[0]


def proves(hub, rows, begun):
    """Each line proves a claim to its account: its fulfillment fits its condition, is that of a Prepare which the account sent and its
    payee fulfilled, has its amount, and came since a moment, in order."""
    ways = {way.payer: way for way in hub.ways}
    for _, name, condition, fulfillment, amount, _ in rows:
        way, number = ways[name], int.from_bytes(fulfillment, "big")
        want(hashlib.sha256(fulfillment).digest() == condition, f"{fulfillment!r} does not fit {condition!r}")
        want(number in way.met and number % 8 and way.amounts[number] == amount, f"{name} sent no {number} of {amount}")
    moments = [it[5] for it in rows]
    want(all(begun - 1 <= it <= 1000 * time.time() + 1 for it in moments), f"moments {moments[:3]} of a life since {begun}")
    want(len({(it[1], it[3]) for it in rows}) == len(rows), "a fulfillment is kept twice")


def claimed_by(rows, name):
    return sum(amount for _, owner, _, _, amount, _ in rows if owner == name)


@test()
def fulfillments_are_kept_through_kills(play):
    hub, rows = Hub(play, f"{play.room}/books"), []
    for _ in range(KILLS):
        begun, before = 1000 * time.time(), rows
        hub.live(hub.rng.random(), words=[KEEP])
        rows = proofs_in(hub.path, play.room) if os.path.exists(hub.path) and hub.books.starts else []
        want(rows[: len(before)] == before and [it[0] for it in rows] == [*range(1, len(rows) + 1)], "a line is lost or changed")
        proves(hub, rows[len(before) :], begun)
        for way in hub.ways:
            want(claimed_by(rows, way.payer) == hub.books.claims(way.payer), f"{way.payer} owes {hub.books.claims(way.payer)}, of which {claimed_by(rows, way.payer)} are proved")
    want(rows, "no fulfillment is kept")
    return f"{KILLS} kills, and {len(rows)} lines prove all claims"


@test()
def fulfillments_are_kept_where_asked(play):
    hub = Hub(play, f"{play.room}/books")
    hub.some_sums()
    want(not proofs_in(hub.path, play.room), "fulfillments are kept that nobody asked for")
    before = {name: hub.books.claims(name) for name in NAMES}
    hub.served(words=[KEEP])
    rows = proofs_in(hub.path, play.room)
    for name in NAMES:
        want(claimed_by(rows, name) == hub.books.claims(name) - before[name] > 0, f"{name}: {claimed_by(rows, name)} are proved")
    hub.served()
    want(proofs_in(hub.path, play.room) == rows, "a life that keeps none changes the table")
    told, _ = ledger(hub.path, "settle", "alice", "1")
    want(told == "0" and proofs_in(hub.path, play.room) == rows, f"settle {told} changes the table")
    hub.books = books_in(hub.path, play.room)
    hub.served(words=[KEEP])
    more = proofs_in(hub.path, play.room)
    want(more[: len(rows)] == rows and len(more) > len(rows), "the next life does not continue after them")
    words = [f"--listen={HOST}:{free_port()}", "--own=test.hub", "--requests=1", KEEP]
    ran = subprocess.run([PROGRAM, "connector", *words], stdin=subprocess.DEVNULL, capture_output=True, timeout=60, check=False)
    want(ran.returncode == 2 and b"--ledger <FILE>" in ran.stderr, f"without books: {ran.returncode} {ran.stderr!r}")
    return f"{len(more)} lines"


@test()
def a_table_of_fulfillments_that_was_changed(play):
    hub = Hub(play, f"{play.room}/books")
    for _ in range(5):
        hub.served(words=[KEEP])
        in_one_file(hub.path)
        rows = proofs_in(hub.path, play.room)
        if len(rows) > 1:
            break
    want(len(rows) > 1, f"in five lives {len(rows)} lines were kept")
    plain, first, second = without_sums(hub.path, f"{play.room}/plain"), rows[0][0], rows[1][0]
    fill = [f"INSERT INTO fulfillment VALUES ({id}, '{name}', X'{condition.hex()}', X'{proof.hex()}', {amount}, {moment})" for id, name, condition, proof, amount, moment in rows[:9]]
    with_sqlite(plain, *fill)
    want(books_of(plain)[0] == "0", "books with fulfillments are not read")
    kinds = {
        "lines that were removed": ("DELETE FROM fulfillment WHERE id < 5", "0"),
        "no line": ("DELETE FROM fulfillment", "0"),
        "an id below 0": (f"UPDATE fulfillment SET id = -3 WHERE id = {first}", "110"),
        "an amount below 0": (f"UPDATE fulfillment SET amount = -3 WHERE id = {second}", "110"),
    }
    for kind, (statement, wanted) in kinds.items():
        other = copied(plain, f"{play.room}/other")
        with_sqlite(other, statement)
        want(books_of(other)[0] == wanted, f"{kind}: {books_of(other)[0]}")
    return ", ".join(kinds)


def is_no_database(path, room):
    """Whether sqlite3 reads no database in a copy of the books."""
    try:
        with_sqlite(copied(path, f"{room}/copy"), "PRAGMA user_version")
    except sqlite3.DatabaseError as error:
        return str(error) == "file is not a database"
    return False


def with_failing(hub, library, way, call):
    """The environment in which this call on the books fails in this way."""
    return {**os.environ, "LD_PRELOAD": library, "FAIL_PATH": hub.path, "FAIL_AT": str(call), "FAIL_WITH": way}


def life_with(hub, library, way, call):
    """A life in which this call on the books fails in this way, and then one without. How the first one ended, and whether it
    listened before that."""
    it = hub.start(env=with_failing(hub, library, way, call))
    listened = until_it_listens(it)
    if listened:
        hub.gate.open()
    with contextlib.suppress(subprocess.TimeoutExpired):
        it.wait(10)
    hub.gate.shut()
    serves = it.poll() is None
    if serves:
        it.kill()
    told = ended(it, 1)
    hub.gate.empty()
    # If the first page of a new file was half written there are no books yet: the next connector makes them.
    if listened or hub.books.starts or not is_no_database(hub.path, hub.play.room):
        hub.account(any(way.taken for way in hub.ways))
    hub.stop(hub.serve())
    return "serves" if serves else "killed" if told == "WRONG -9 b''" else told, listened


@test(("kill", "killed"), ("error", "112"), ("full", "113"))
def a_call_on_the_books_meets(play, way, wanted):
    hub, library, found = Hub(play, ""), shared_object(play, "failing"), collections.Counter()
    drawn = [hub.rng.randrange(1_000) for _ in range(KILLS // 4)]
    for at, call in enumerate([*range(1, 2 * KILLS + 1), *drawn]):
        hub.path, hub.books = f"{play.room}/books{at}", Books(0, {})
        for life in ("new", "kept"):
            told, listened = life_with(hub, library, way, call)
            found[told] += 1
            # (a file that cannot be synced before it is read is not opened: 111)
            is_so = told in (wanted, "serves") or (told, way, listened) == ("111", "error", False)
            want(is_so, f"connector {told} where call {call} on {life} books meets {way}; it listened: {listened}")
    want(found[wanted] > found["serves"], f"most calls are not made: {dict(found)}")
    return f"seed {SEED}: {dict(found)}"


@test()
def a_sync_of_the_books_fails(play):
    hub, library, seen = Hub(play, f"{play.room}/books"), shared_object(play, "failing"), collections.Counter()
    hub.some_sums()
    runs = max(4 * KILLS, 10)
    for _ in range(runs):
        call = hub.rng.randrange(24, 64)  # (a start has some 17)
        it = hub.start(env=with_failing(hub, library, "sync", call))
        want(until_it_listens(it), f"seed {SEED}: a connector does not listen where sync {call} fails")
        hub.gate.open()
        told = ended(it, 20)
        hub.gate.shut()
        hub.gate.empty()
        want(told == "112", f"seed {SEED}: connector {told} where sync {call} fails")
        lost = {way.payer: way.given - way.taken - set(way.refused) for way in hub.ways}
        seen["without an answer"] += sum(map(len, lost.values()))
        # None of those that were answered with a Reject is in the books, of those without an answer any are.
        hub.account(True)
    want(seen["without an answer"] >= runs // 2, f"seed {SEED}: {dict(seen)} in {runs} runs")
    hub.served()
    hub.laws()
    return f"seed {SEED}: 112 for each of {runs}; {dict(seen)}; {hub.tally['kept']} of {hub.tally['open']} in the books; none with a Reject"


@test()
def a_read_of_the_books_fails(play):
    hub, library = Hub(play, f"{play.room}/books"), shared_object(play, "failing")
    found, sums = [], hub.some_sums()
    # (each of the first eight, and then fewer and fewer)
    for call in itertools.accumulate(itertools.repeat(1), lambda call, one: call + one + call // 8):
        it = hub.start(env=with_failing(hub, library, "read", call))
        if until_it_listens(it):
            break
        found.append(ended(it, 1))
        want(found[-1] == "112", f"connector {found[-1]} where read {call} of the books fails")
        same_books(hub.path, sums)
    want(found, "no read was seen")
    hub.stop(it, listened=True)
    return f"112 for each of {len(found)}"


@test()
def a_disk_of_2_mb_that_fills(play):
    place, within, seen = disk(play, "2m")
    hub = Hub(play, f"{place}/books")
    it = hub.start(program=within)
    hub.gate.open()
    told = ended(it, 120)
    hub.gate.shut()
    hub.gate.empty()
    want(told == "113", f"connector {told} on a full disk")
    larger = copied(f"{seen}/books", f"{play.room}/books")
    again = hub.start(program=within)
    told = "listens" if until_it_listens(again) else ended(again, 20)
    want(told in ("113", "listens"), f"connector {told} on a disk that was full")
    hub.path = larger
    hub.account(True)
    passed = hub.tally["passed"]
    hub.port = free_port()
    hub.served()
    hub.laws()
    return f"113 after {passed} that were passed on, and all of them are on a larger disk; on the full one {told}"


@test()
def a_second_connector_on_one_file(play):
    hub = Hub(play, f"{play.room}/books")
    hub.some_sums()
    first = hub.serve()
    told = [told_by(hub, port=free_port()) for _ in range(2)] + [ledger(hub.path)[0], ledger(hub.path, "settle", "alice", "1")[0]]
    want(told == ["111"] * 4, f"two connectors and two `ledger` beside one: {told}")
    time.sleep(0.3)
    hub.stop(first)
    return "111"


def read_of(path, room):
    """What sqlite3 reads of a file that may be damaged; None if it refuses."""
    try:
        return books_in(path, room)
    except (sqlite3.Error, Wrong):
        return None


class Damaged:
    """Copies of books with something wrong, of which each is read. It is refused, or read as sqlite3 reads it."""

    def __init__(self, play, path, wanted):
        self.play, self.path, self.wanted, self.tally, self.others = play, path, wanted, collections.Counter(), set()

    def look(self, what, kind, file, change):
        """Reads a copy of which one file is changed by a function."""
        copy = copied(self.path, f"{self.play.room}/damaged")
        with open(copy + file, "r+b") as it:
            change(it)
        kept = copied(copy, f"{self.play.room}/kept")
        told, found = books_of(copy)
        if found is None:
            want(told in REFUSALS, f"{what}: {told}")
            self.tally[f"{kind} refused"] += 1
        elif found == self.wanted:
            self.tally[f"{kind} without an effect"] += 1
        else:
            others = read_of(kept, self.play.room)
            want(found == others, f"{what}: {found}, where sqlite3 reads {others}, and the whole file has {self.wanted}")
            self.tally[f"{kind} read otherwise, as sqlite3 does"] += 1
            self.others.add(what)

    def cut(self, kind, file, size):
        self.look(f"{kind} to {size} bytes", kind, file, lambda it: it.truncate(size))

    def turn(self, kind, file, place):
        """Changes the byte at a place."""

        def change(it):
            it.seek(place)
            byte = it.read(1)[0]
            it.seek(place)
            it.write(bytes([byte ^ 0x55]))

        self.look(f"{kind} at {place}", kind, file, change)

    def told(self):
        return "; ".join(f"{name}: {count}" for name, count in sorted(self.tally.items()))


def in_one_file(path):
    """Has sqlite3 write all into the database, and leave no log."""
    with_sqlite(path, "PRAGMA wal_checkpoint(TRUNCATE)")
    want(not os.path.exists(f"{path}-wal"), "sqlite3 leaves a log")


def places(rng, size, count):
    return sorted(rng.sample(range(size), min(size, count)))


@test()
def a_file_that_was_cut(play):
    hub = Hub(play, f"{play.room}/books")
    damaged = Damaged(play, hub.path, hub.some_sums())
    for size in places(hub.rng, os.path.getsize(f"{hub.path}-wal"), 40):
        damaged.cut("a log cut", "-wal", size)
    in_one_file(hub.path)
    same_books(hub.path, hub.books)
    whole = os.path.getsize(hub.path)
    # (one of a byte counts as a new one, as an empty one is)
    for size in [2, 99, 100, 511, 4_095, 4_096, whole - 4_096, whole - 1, *places(hub.rng, whole, 20)]:
        damaged.cut("the database cut", "", max(2, size))
    others = [it for it in damaged.others if it.startswith("the database")]
    want(not others, f"{others} give other sums")
    return damaged.told()


@test()
def a_file_with_a_changed_byte(play):
    hub = Hub(play, f"{play.room}/books")
    damaged = Damaged(play, hub.path, hub.some_sums())
    for place in places(hub.rng, os.path.getsize(f"{hub.path}-wal"), 100):
        damaged.turn("a byte of the log", "-wal", place)
    in_one_file(hub.path)
    pages, root = with_sqlite(hub.path, "PRAGMA page_size", "SELECT rootpage FROM sqlite_schema WHERE name = 'account'")
    size, root = pages[0][0], root[0][0]
    for place in range(100):
        damaged.turn("a byte of the header", "", place)
    for place in places(hub.rng, os.path.getsize(hub.path), 150):
        damaged.turn("a byte of the database", "", place)
    # (the rows are at the end of their page)
    for place in range(root * size - 60, root * size):
        damaged.turn("a byte of the rows", "", place)
    places_of = {int(it.split()[-1]) for it in damaged.others if "log" not in it}
    strange = [it for it in places_of if not (60 <= it < 64 or (root - 1) * size <= it < root * size)]
    want(not strange, f"bytes at {strange} give other sums, and are neither the starts nor in the page of the sums")
    return damaged.told()


class Log:
    """The log of books, as SQLite's file format has it: the offset of its first frame of this life, and which of them end a commit."""

    def __init__(self, path):
        with open(path, "rb") as file:
            self.bytes = file.read()
        self.page = int.from_bytes(self.bytes[8:12], "big")
        self.frames, self.ends = [], []
        for at in range(32, len(self.bytes) - self.page - 23, 24 + self.page):
            if self.bytes[at + 8 : at + 16] != self.bytes[16:24]:
                break
            self.frames.append(at)
            if int.from_bytes(self.bytes[at + 4 : at + 8], "big"):
                self.ends.append(at + 24 + self.page)


def flipped(path, place, bit):
    """Changes one bit of a file."""
    with open(path, "r+b") as file:
        file.seek(place)
        byte = file.read(1)[0]
        file.seek(place)
        file.write(bytes([byte ^ 1 << bit]))


def contents(path):
    """What the files of books have, by name."""
    found = {}
    for it in files_of(path):
        with open(it, "rb") as file:
            found[it[len(path) :]] = file.read()
    return found


def refuses(hub, path, what, starts=False, wanted=("110",)):
    """`ledger`, or a connector too, refuses books with one of these numbers, and writes nothing."""
    before = contents(path)
    told = [books_of(path)[0]]
    if starts:
        hub.path, kept = path, hub.path
        told.append(told_by(hub, port=free_port()))
        hub.path = kept
    want(all(it in wanted for it in told), f"{what}: {told}")
    want(contents(path) == before, f"{what}: the books were changed")


def lived(hub, seconds=1.0):
    """Books after a life that a kill ended, in which something was booked: their log has the bookings of that life. On a machine with
    other work it takes a longer one."""
    hub.some_sums()
    for longer in 1, 3, 9:
        hub.served(longer * seconds)
        log = Log(f"{hub.path}-wal")
        if len(log.ends) > 20:
            return log
    raise Wrong(f"a log of {len(log.ends)} commits")


@test()
def a_log_with_a_changed_bit(play):
    hub = Hub(play, f"{play.room}/books")
    log, rng = lived(hub), random.Random(SEED)
    # A change in one of the last commits looks as if that had been torn by a crash.
    certain, late = log.ends[-5], 0
    for at in range(50):
        place, bit = rng.randrange(32 if at < 5 else certain), rng.randrange(8)
        copy = copied(hub.path, f"{play.room}/damaged")
        flipped(f"{copy}-wal", place, bit)
        refuses(hub, copy, f"seed {SEED}: bit {bit} at {place} of {log.ends[-1]}", starts=at % 10 == 0)
    for _ in range(20):
        place = rng.randrange(certain, log.ends[-1])
        copy = copied(hub.path, f"{play.room}/damaged")
        flipped(f"{copy}-wal", place, rng.randrange(8))
        told, found = books_of(copy)
        is_so = told == "110" or (found and all(found.claims(it) <= hub.books.claims(it) for it in NAMES))
        want(is_so, f"seed {SEED}: a bit at {place} of {log.ends[-1]}: {told} {found}")
        late += told == "110"
    same_books(hub.path, hub.books)
    return f"seed {SEED}: 110 for each of 50 in {len(log.ends) - 5} commits, and for {late} of 20 in the last five"


@test()
def a_torn_commit_is_no_damage(play):
    hub = Hub(play, f"{play.room}/books")
    log, rng, found = lived(hub), random.Random(SEED), collections.Counter()
    for _ in range(50):
        last = rng.randrange(3, len(log.ends))
        begin, end = log.ends[last - 1], log.ends[last]
        sums = []
        # As a crash leaves it: of the last commit, each sector is there or not. With none or all of them it is the commit before, or
        # this one.
        for kept in (0.0, 1.0, rng.random()):
            torn = bytearray(log.bytes[:end]) + bytes(len(log.bytes) - end)
            for sector in range(begin // 512, end // 512 + 1):
                if rng.random() >= kept:
                    low, high = max(begin, sector * 512), min(end, sector * 512 + 512)
                    torn[low:high] = bytes(high - low)
            copy = copied(hub.path, f"{play.room}/torn")
            write_bytes(f"{copy}-wal", torn)
            told, books = books_of(copy)
            want(told == "0", f"seed {SEED}: commit {last} with {kept:.2f} of its sectors: {told}")
            sums.append(books)
        want(sums[2] in sums[:2], f"seed {SEED}: part of commit {last} gives {sums[2]}, beside {sums[:2]}")
        found["before" if sums[2] == sums[0] else "after"] += 1
    same_books(hub.path, hub.books)
    return f"seed {SEED}: {dict(found)}"


@test()
def pages_have_sums_and_each_log_has_salts_of_its_own(play):
    """A page ends with 8 bytes for its sum, which byte 20 of the file says. The 8 bytes of a log from byte 16 on are its salts."""
    hub, salts = Hub(play, f"{play.room}/books"), []
    hub.some_sums()
    for _ in range(6):
        hub.served(0.3)
        salts.append(read_bytes(f"{hub.path}-wal")[16:24])
    want(read_bytes(hub.path)[20] == 8, f"{read_bytes(hub.path)[20]} bytes for a sum")
    want(len(set(salts)) == 6, f"salts {[it.hex() for it in salts]}")
    hub.close()
    return "6 logs"


def begins_of(path):
    """The database file, and the header of its log."""
    return [it[:None if not end else 32] for end, it in sorted(contents(path).items())]


def copied_running(path, to):
    """A copy of both files of one moment, taken while a connector writes them."""
    while True:
        copied(path, to)
        if begins_of(path) == begins_of(to):
            return to


@test()
def a_log_of_another_moment(play):
    hub, rng, found = Hub(play, f"{play.room}/books"), random.Random(SEED), collections.Counter()
    hub.some_sums()
    moments = []
    for at in range(12):
        it = hub.serve()
        # (in some lives the log is folded while the connector serves, at 1,000 frames)
        for part in range(3):
            time.sleep(rng.uniform(0.05, 0.4))
            if part < 2:
                moments.append(copied_running(hub.path, f"{play.room}/running{at}-{part}"))
        hub.stop(it)
        moments.append(copied(hub.path, f"{play.room}/killed{at}"))
    pairs = [(one, two) for one in moments for two in moments if one != two]
    for one, two in rng.sample(pairs, 50):
        copy = copied(two, f"{play.room}/mixed")
        shutil.copyfile(one, copy)
        told, books = books_of(copy)
        # The log continues from this file too if nothing was folded between the two moments: then it is the moment of the log. A log
        # without a commit, as a fold leaves it, says nothing: then it is that of the file.
        says = has_commit(f"{two}-wal")
        same = books_of(copied(two, f"{play.room}/same") if says else alone(one, f"{play.room}/same"))[1]
        want(told == "110" or (told == "0" and books == same), f"seed {SEED}: the file of {one} beside the log of {two}: {told} {books}")
        found[told] += 1
    want(found["110"] > 25, f"seed {SEED}: {dict(found)}")
    same_books(hub.path, hub.books)
    return f"seed {SEED}: {dict(found)}"


def lives(play, number, count=8):
    """Books with a number of their own, and copies of them: each is of a life that a kill ended, with a commit in its log."""
    hub, rng = Hub(play, f"{play.room}/books{number}"), random.Random(f"{SEED} {number}")
    hub.some_sums()
    copies = []
    while len(copies) < count:
        hub.served(rng.uniform(0.2, 0.6))
        # A log without a commit, as a fold leaves it, says nothing of its file: then the next life counts.
        if has_commit(f"{hub.path}-wal"):
            copies.append(copied(hub.path, f"{play.room}/killed{number}-{len(copies)}"))
    hub.close()
    return hub, copies


def mixed(file, log, to):
    """Books with the database file of one copy, and the log of another."""
    copied(log, to)
    shutil.copyfile(file, to)
    return to


@test()
def a_log_of_other_books(play):
    rng, moments = random.Random(SEED), []
    for number in range(2):
        hub, copies = lives(play, number)
        moments += [(number, it) for it in copies]
    pairs = [(one, two) for here, one in moments for there, two in moments if here != there]
    for one, two in rng.sample(pairs, 50):
        copy = mixed(one, two, f"{play.room}/mixed")
        refuses(hub, copy, f"seed {SEED}: the file of {one} beside the log of {two}", starts=rng.random() < 0.1)
    return f"seed {SEED}: 110 for each of 50 pairs"


def history_of(path, room):
    """The books of each moment since the last fold: those of the file alone, and those after each commit of its log."""
    found = [books_of(alone(path, f"{room}/moment"))]
    for end in Log(f"{path}-wal").ends:
        copy = copied(path, f"{room}/moment")
        os.truncate(f"{copy}-wal", end)
        found.append(books_of(copy))
    want(all(told == "0" for told, _ in found), f"a commit of {path} is refused")
    return [books for _, books in found]


class AnyBytes:
    """Books with a bit changed, or cut, at each 512th byte of both files, or at PLACES of these: what a read of them gives."""

    def __init__(self, play, hub):
        self.play, self.hub, self.rng, self.tally = play, hub, random.Random(SEED), collections.Counter()
        self.serving = threading.Lock()

    def look(self, kind, path, moments):
        """Each has the sums of one of these moments, or is refused, with nothing written. A connector is tried at some."""
        places = [(file, place) for file in ("", "-wal") for place in range(self.rng.randrange(512), os.path.getsize(path + file), 512)]
        some = sorted(self.rng.sample(places, min(len(places), PLACES)))
        cases = [(*it, bit, self.rng.random() < 0.02) for it in some for bit in (self.rng.randrange(8), None)]
        with concurrent.futures.ThreadPoolExecutor(4) as pool:
            tried = [pool.submit(self.one, kind, path, f"{self.play.room}/damaged{at}", moments, *it) for at, it in enumerate(cases)]
            self.tally.update(it.result() for it in tried)

    def one(self, kind, path, copy, moments, file, place, bit, serves):
        copied(path, copy)
        if bit is None:
            os.truncate(copy + file, place)
            what = f"seed {SEED}: {kind}: FILE{file} cut to {place} bytes"
        else:
            flipped(copy + file, place, bit)
            what = f"seed {SEED}: {kind}: bit {bit} at {place} of FILE{file}"
        before = contents(copy)
        told, books = books_of(copy)
        if told == "0":
            want(books in moments, f"{what}: {books} is of no moment of these books since the last fold")
        else:
            want(told in REFUSALS and contents(copy) == before, f"{what}: {told}, or the books were changed")
            if serves:
                with self.serving:
                    refuses(self.hub, copy, what, starts=True, wanted=REFUSALS)
        for it in files_of(copy):
            os.remove(it)
        return told

    def told(self):
        return ", ".join(f"{told}: {count}" for told, count in sorted(self.tally.items()))


@test()
def any_bytes_of_books(play):
    hub = Hub(play, f"{play.room}/books")
    lived(hub, 0.3)
    tried = AnyBytes(play, hub)
    tried.look("these books", hub.path, history_of(hub.path, play.room))
    same_books(hub.path, hub.books)
    return f"seed {SEED}: {tried.told()}"


def may_be_torn(file, log):
    """Whether each byte of the count of commits in a database file is that of the commit before a log, or of the log's last one. Then
    a first page that does not fit its sum looks like one that a fold left unfinished."""
    with open(file, "rb") as it:
        there = it.read(44)[40:]
    it = Log(f"{log}-wal")
    counts = [it.bytes[at + 64 : at + 68] for at in it.frames if at < it.ends[-1] and it.bytes[at : at + 4] == b"\0\0\0\1"]
    before = (int.from_bytes(counts[0], "big") - 1).to_bytes(4, "big")
    return all(byte in pair for byte, *pair in zip(there, before, counts[-1]))


@test(("of other books",), ("of an earlier life",), ("of a later life",))
def any_bytes_beside_a_log(play, which):
    hub, own = lives(play, 0)
    file = own[2 if which == "of a later life" else 6]
    logs = {"of other books": lives(play, 1)[1], "of an earlier life": own[:5], "of a later life": own[4:]}[which]
    log = next(it for it in logs if which == "of other books" or not may_be_torn(file, it))
    tried, copy = AnyBytes(play, hub), mixed(file, log, f"{play.room}/mixed")
    refuses(hub, copy, f"seed {SEED}: a log {which}", starts=True)
    # Without a commit of that log it is the books of the last fold.
    tried.look(f"a log {which}", copy, [books_of(alone(file, f"{play.room}/moment"))[1]])
    return f"seed {SEED}: {tried.told()}"


@test()
def new_books_are_in_the_log(play):
    hub, found = Hub(play, f"{play.room}/books"), []
    for _ in range(3):
        it = hub.serve()
        time.sleep(0.2)
        hub.stop(it)
        with open(it.log, encoding="utf-8") as file:
            found += [line.split(" ", 1)[1] for line in file if " books " in line]
    want(found == ["books new\n"], f"the log of three lives has {found}")
    return "once in three lives"


@test()
def copies_while_a_connector_runs(play):
    hub, rng, copy = Hub(play, f"{play.room}/books"), random.Random(SEED), f"{play.room}/taken"
    hub.some_sums()
    it, before, moments = hub.serve(), hub.books, []
    for at in range(50):
        time.sleep(rng.uniform(0, 0.1))
        there = [way.paid + sum(way.amounts[one] for one in list(way.taken)) for way in hub.ways]
        told = subprocess.run([f"{TOP}/examples/books/copy", hub.path, copy], env={**os.environ, "PROGRAM": PROGRAM}, capture_output=True, timeout=60, check=False)
        sent = [way.paid + way.unanswered + sum(way.amounts[one] for one in list(way.sent)) for way in hub.ways]
        want(told.returncode == 0 and files_of(copy) == [copy], f"seed {SEED}: copy {at} ended with {told.returncode} {told.stderr!r}")
        told, books = books_of(copy)
        want(told == "0", f"seed {SEED}: copy {at} is refused with {told}")
        for way, least, most in zip(hub.ways, there, sent):
            claims = books.claims(way.payer)
            want(least <= claims <= most, f"seed {SEED}: copy {at} has claims from {way.payer} of {claims}, not from {least} to {most}")
            want(claims >= before.claims(way.payer), f"seed {SEED}: copy {at} is older than the one before")
        # On this way a claim is as large as its due, and one commit has both.
        want(books.claims("bob") == books.dues("alice"), f"seed {SEED}: copy {at} is of no moment: {books}")
        before = books
        moments.append(books.claims("bob"))
    hub.stop(it)
    want(len(set(moments)) > 10, f"seed {SEED}: the copies are of {len(set(moments))} moments")
    return f"seed {SEED}: 50 copies, of {len(set(moments))} moments"


def alone(path, to):
    """A copy of the database file, without its log."""
    for old in files_of(to):
        os.remove(old)
    shutil.copyfile(path, to)
    return to


@test()
def the_log_is_folded_into_the_file(play):
    hub = Hub(play, f"{play.room}/books")
    before = hub.some_sums()
    it = hub.serve()
    told, found = books_of(alone(hub.path, f"{play.room}/alone"))
    hub.stop(it)
    want(found == before, f"the file alone, after a start: {told} {found}, and there was {before}")
    it = hub.start(requests=3)
    use_up(it, it.port, "alice-at-hub")
    told = ended(it, 20)
    hub.account(True)
    want(told == "0", f"connector {told} after three requests")
    same_books(alone(hub.path, f"{play.room}/alone"), hub.books)
    same_books(hub.path, hub.books)
    return "the file alone has what there was at a start, and all at an end"


@test()
def no_new_books_beside_a_log(play):
    hub = Hub(play, f"{play.room}/books")
    lived(hub, 0.3)
    it = hub.start(requests=3)
    use_up(it, it.port, "alice-at-hub")
    want(ended(it, 20) == "0", "a connector does not end after three requests")
    ended_well = copied(hub.path, f"{play.room}/ended")
    hub.account(True)
    hub.served(0.3)
    ways = {"missing": None, "empty": b"", "of one byte": b"S", "of a zero": b"\0", "of zeros": bytes(4_096)}
    for kind, path in ("killed", hub.path), ("ended", ended_well):
        for what, content in ways.items():
            copy = copied(path, f"{play.room}/lone")
            os.remove(copy)
            if content is not None:
                write_bytes(copy, content)
            wanted = ("110", "114") if what == "of zeros" else ("110",)
            refuses(hub, copy, f"{kind}, and the file is {what}", starts=True, wanted=wanted)
    # The first page of a database that has no tables, which earlier connectors left next to a log with all that there was.
    hub.path, hub.books = f"{play.room}/first", Books(0, {})
    with_sqlite(hub.path, "PRAGMA journal_mode = WAL", "PRAGMA user_version = 0", "VACUUM")
    stays_as_it_is(hub, "a database with no tables, and no log")
    return f"110 for each of {2 * len(ways)}, and for a database with no tables"


def away(path, again=False):
    """Moves a file to another name, or back."""
    here, there = (f"{path}.away", path) if again else (path, f"{path}.away")
    os.rename(here, there)


@test(*itertools.product(("", "-wal"), ("moved", "removed", "replaced", "cut", "cut in half")))
def a_file_of_a_connector_that_runs_is(play, file, what):
    hub = Hub(play, f"{play.room}/books")
    hub.some_sums()
    it, path = hub.serve(), f"{hub.path}{file}"
    time.sleep(0.3)
    if what.startswith("cut"):
        # (without a booking under way: a cut within one may come before the connector looks again)
        hub.gate.shut()
        hub.gate.empty()
        size = os.path.getsize(path)
        os.truncate(path, size - 1 if what == "cut" else size // 2)
        hub.gate.open()
    elif what == "removed":
        os.remove(path)
    else:
        away(path)
    if what == "replaced":
        shutil.copyfile(f"{path}.away", path)
    told = ended(it, 20)
    hub.gate.shut()
    hub.gate.empty()
    want(told == "112", f"connector {told} once {path} is {what}")
    if what in ("moved", "replaced"):
        away(path, again=True)
        # Each Fulfill that was passed on is in the files that were moved.
        hub.account(True)
        hub.served()
        hub.laws()
    return "112, and each Fulfill that was passed on is booked"


def other_files(rng):
    """Files that hold no books."""
    yield "a text", b"account alice claims 500 dues 0\nstarts 3\n"
    yield "two bytes", b"SQ"
    yield "the first bytes of a database", b"SQLite format 3\0"
    yield "random bytes", rng.randbytes(5_000)
    yield "random pages", rng.randbytes(8_192)
    yield "zeros", bytes(4_096)


OTHER_TABLES = {
    "another table": ["CREATE TABLE money (id INTEGER PRIMARY KEY)"],
    "a table of that name": ["CREATE TABLE account (id INTEGER PRIMARY KEY, name TEXT, claims INTEGER, dues INTEGER)"],
    "a view of that name": ["CREATE VIEW account AS SELECT 1 AS id, 'alice' AS name, 500 AS claims, 0 AS dues"],
}
CHANGES = {
    "an index": "CREATE INDEX by_name ON account (name)",
    "a trigger": "CREATE TRIGGER twice AFTER UPDATE ON account BEGIN DELETE FROM payment; END",
    "a table more": "CREATE TABLE more (id INTEGER PRIMARY KEY)",
    "a name twice": "INSERT INTO account SELECT max(id) + 1, 'alice', 0, 0 FROM account",
    "a claim below 0": "UPDATE account SET claims = -1 WHERE name = 'alice'",
    "a gap": "UPDATE account SET id = 77 WHERE name = 'bob'",
}


def stays_as_it_is(hub, kind, wanted=("110",)):
    """A connector and `ledger` refuse a file with one of these numbers, and leave it."""
    before = read_bytes(hub.path)
    told = told_by(hub), ledger(hub.path)[0], ledger(hub.path, "settle", "alice", "1")[0]
    want(len(set(told)) == 1 and told[0] in wanted, f"{kind}: {told}")
    want(read_bytes(hub.path) == before, f"{kind}: it is changed")


@test()
def a_file_of_something_else(play):
    hub = Hub(play, f"{play.room}/books")
    for kind, content in other_files(hub.rng):
        write_bytes(hub.path, content)
        stays_as_it_is(hub, kind, ("110", "114"))
    for kind, statements in OTHER_TABLES.items():
        os.remove(hub.path)
        with_sqlite(hub.path, *statements)
        stays_as_it_is(hub, kind)
    hub.path = f"{play.room}/changed"
    hub.some_sums()
    in_one_file(hub.path)
    for kind, statement in CHANGES.items():
        hub.path = copied(f"{play.room}/changed", f"{play.room}/other")
        # (a sqlite3 that writes spoils the sums of its pages, so that they are damaged)
        with_sqlite(hub.path, statement)
        stays_as_it_is(hub, kind, ("110", "114"))
    return "each is left"


@test()
def no_file(play):
    hub = Hub(play, f"{play.room}/books")
    told = [ledger(hub.path)[0], ledger(hub.path, "settle", "alice", "1")[0]]
    want(told == ["110"] * 2 and not files_of(hub.path), f"`ledger` {told}, and then there are {files_of(hub.path)}")
    with open(hub.path, "wb"):
        pass
    told = ledger(hub.path)[0]
    want(told == "110" and os.path.getsize(hub.path) == 0, f"`ledger` {told} on an empty file")
    hub.some_sums()
    return "110, and none is made; an empty one is for a connector to fill"


@test()
def a_file_that_cannot_be_opened(play):
    hub = Hub(play, f"{play.room}/books")
    hub.some_sums()
    os.link(hub.path, f"{play.room}/second")
    found = {"a second name": (told_by(hub), ledger(hub.path)[0])}
    os.remove(f"{play.room}/second")
    same_books(hub.path, hub.books)
    hub.path = play.room
    found["a folder"] = told_by(hub), ledger(hub.path)[0]
    hub.path = f"{play.room}/none/books"
    found["no folder"] = told_by(hub), ledger(hub.path)[0].replace("110", "111")  # (`ledger` finds no file)
    want(all(told == ("111", "111") for told in found.values()), f"{found}")
    return "111"


# Whose books they are.


def stamp_of(path, room):
    """What a copy of the books says of itself."""
    rows = with_sqlite(copied(path, f"{room}/copy"), "SELECT schema, identity, address FROM books")[0]
    want(len(rows) == 1 and re.fullmatch("[0-9a-f]{32}", rows[0][1]), f"the books say {rows}")
    return rows[0]


@test()
def books_say_what_they_are(play):
    hub, found = Hub(play, f"{play.room}/books"), set()
    for at in range(5):
        hub.path, hub.books = f"{play.room}/books-{at}", Books(0, {})
        hub.served()
        found.add(stamp_of(hub.path, play.room))
    want({(schema, own) for schema, _, own in found} == {(2, "test.hub")} and len(found) == 5, f"five books say {found}")
    before = stamp_of(hub.path, play.room)
    for _ in range(3):
        hub.served()
        want(stamp_of(hub.path, play.room) == before, f"a kill or a start changes what the books say: {before}")
    return f"five identities, one of which is {before[1]}; kills and starts keep it"


@test()
def books_of_another_address(play):
    hub = Hub(play, f"{play.room}/books")
    before = hub.some_sums()
    in_one_file(hub.path)
    content = read_bytes(hub.path)
    for own in ("test.hub2", "test.hu", "g.other.connector", "test.Hub"):
        told = told_by(hub, own=own)
        want(told == "110", f"connector {told} as {own} with the books of test.hub")
    want(read_bytes(hub.path) == content, "books of another address are changed")
    same_books(hub.path, before)
    hub.served()
    return "110, and they are left; `ledger` reads them, and their own connector goes on"


def without_sums(path, to):
    """Another file with these tables and views, and no rows, whose pages do not end in sums."""
    for old in files_of(to):
        os.remove(old)
    texts = with_sqlite(path, "SELECT sql FROM sqlite_schema")[0]
    with_sqlite(to, "PRAGMA journal_mode = WAL", "PRAGMA user_version = 1", *[it for it, in texts])
    return to


def said_as(text):
    """Statements that put this text in place of that of the view, and leave its number."""
    quoted = text.replace("'", "''")
    return ["PRAGMA writable_schema = ON", f"UPDATE sqlite_schema SET sql = '{quoted}' WHERE name = 'books'", "PRAGMA writable_schema = RESET"]


@test()
def books_that_say_something_else(play):
    hub, made = Hub(play, f"{play.room}/books"), "CREATE VIEW books AS SELECT"
    hub.some_sums()
    in_one_file(hub.path)
    identity = stamp_of(hub.path, play.room)[1]
    plain = without_sums(hub.path, f"{play.room}/plain")
    want(books_of(plain)[0] == "0", f"books without sums are not read: {books_of(plain)[0]}")
    kinds = {
        "no view": ["DROP VIEW books"],
        "another version": said_as(f"{made} 1 AS schema, '{identity}' AS identity, 'test.hub' AS address"),
        "a later version": said_as(f"{made} 3 AS schema, '{identity}' AS identity, 'test.hub' AS address"),
        "a short identity": said_as(f"{made} 2 AS schema, '{identity[1:]}' AS identity, 'test.hub' AS address"),
        "no table of fulfillments": ["DROP TABLE fulfillment"],
        "another table of fulfillments": ["DROP TABLE fulfillment", "CREATE TABLE fulfillment (id INTEGER PRIMARY KEY, name TEXT) STRICT"],
        "a table in place of it": ["DROP VIEW books", "CREATE TABLE books (schema, identity, address)"],
        "a second view": ["CREATE VIEW more AS SELECT 1 AS one"],
    }
    for kind, statements in kinds.items():
        hub.path = copied(f"{play.room}/books", f"{play.room}/other")
        # (a sqlite3 that writes spoils the sums of its pages, so that they are damaged)
        with_sqlite(hub.path, *statements)
        stays_as_it_is(hub, kind, ("110", "114"))
        # One whose pages have no sums is refused for what it says.
        hub.path = without_sums(hub.path, plain)
        stays_as_it_is(hub, f"{kind}, without sums")
    return f"110, and they are left: {', '.join(kinds)}"


# Names, limits and payments.


@test()
def accounts_by_their_names(play):
    hub = Hub(play, f"{play.room}/books")
    wanted = hub.some_sums()
    for names in (["alice", "bob"], ["bob", "alice"]):
        it = hub.start(table=hub.table(names)[0], requests=1)
        use_up(it, it.port, "alice-at-hub")
        told, found = ended(it, 20), totals(it.totals)
        sums = {name: (found.get(f"account {at} claims"), found.get(f"account {at} dues")) for at, name in enumerate(names)}
        want(told == "0" and sums == wanted.sums, f"connector {told} with {names}: {sums}, and the books have {wanted.sums}")
        hub.account(True)
    hub.accounts["erin"] = line_of("erin", 1)
    hub.served()
    want(hub.books.sums.get("erin") == (0, 0), f"books with a name more: {hub.books}")
    hub.served(table=hub.table(["bob", "alice"])[0])
    before = hub.books
    told = told_by(hub, table=hub.table(["bob", "erin"])[0])
    want(told == "122", f"connector {told} without alice, which owes and is owed")
    want(books_in(hub.path, play.room) == before, "a refused table changes the books")
    return "two orders, a name more, one less; 122 where it owes"


@test()
def a_limit_below_what_is_owed(play):
    hub = Hub(play, f"{play.room}/books")
    hub.some_sums()
    for name in NAMES:
        want(ledger(hub.path, "settle", name, str(-hub.books.dues(name)))[0] == "0", f"all that is owed to {name} is not settled")
        hub.books = books_in(hub.path, play.room)
        owed = hub.books.claims(name)
        hub.accounts[name] = line_with(hub.accounts[name], owed - 1)
        told = told_by(hub)
        want(told == "123", f"connector {told} where {name} owes {owed} and may owe {owed - 1}")
        want(books_in(hub.path, play.room) == hub.books, "a refused limit changes the books")
        hub.accounts[name] = line_with(hub.accounts[name], owed)
        hub.served()
        hub.accounts[name] = line_with(hub.accounts[name], LIMIT)
    return "123 for one unit, and not for none"


def line_with(line, limit):
    return f"{limit} {line.partition(' ')[2]}"


@test()
def payments(play):
    hub = Hub(play, f"{play.room}/books")
    before = hub.some_sums()
    same_books(hub.path, before)
    claims, dues = before.sums["alice"]
    for amount, wanted in ((200, (claims - 200, dues)), (-200, (claims - 200, dues - 200))):
        told, text = ledger(hub.path, "settle", "alice", str(amount))
        found = books_in(hub.path, play.room)
        line = f"account alice claims {wanted[0]} dues {wanted[1]}\n"
        want((told, text) == ("0", line) and found.sums["alice"] == wanted, f"settle {amount} {told} {text!r} leaves {found}")
    for amount in (claims - 199, 199 - dues, 2**63 - 1, 1 - 2**63):
        told, _ = ledger(hub.path, "settle", "alice", str(amount))
        want(told == "121", f"settle {amount} {told} of {found}")
    told, _ = ledger(hub.path, "settle", "nobody", "1")
    want(told == "116", f"settle of a name that is not there {told}")
    want(books_in(hub.path, play.room) == found, "a refused payment changes the books")
    for name in NAMES:
        for side in (0, 1):
            amount = found.sums[name][side]
            told, _ = ledger(hub.path, "settle", name, str(-amount if side else amount))
            want(told == "0", f"settle of all that {name} has {told}")
    last = books_in(hub.path, play.room)
    want(set(last.sums.values()) == {(0, 0)} and last.starts == before.starts, f"all is settled, and there is {last}")
    rows = with_sqlite(copied(hub.path, f"{play.room}/copy"), "SELECT * FROM payment ORDER BY 1")[0]
    want(len(rows) == 6 and [it[1] for it in rows] == ["alice"] * 4 + ["bob"] * 2, f"payments {rows}")
    hub.books = last
    hub.served()
    return f"121 above what is owed; the table has {rows[0]} and {rows[1]}"


if __name__ == "__main__":
    raise SystemExit(main())
