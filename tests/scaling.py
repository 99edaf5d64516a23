#!/usr/bin/env python3
"""Runs what docs/SCALING.md describes: scaling.py [PROGRAM [WORD]]. Three connectors with the tables of that page, each with books of
its own, behind an nginx with examples/nginx/spread.conf, which senders reach over TLS by examples/nginx/onward.conf. Transfers
over one and two of them, by what nginx refuses, next to a connector that is killed; and copies of books, taken under load, that
are whole. A line for each test; the last one counts them. Needs nginx and openssl (tests/installed.py)."""
import collections
import glob
import random
import re
import shutil
import signal
import sqlite3
import threading
import time

from installed import certificate, end as end_script, said, served
from peers import HOST, asked, free_ports, prepare, request, totals
from play import PROGRAM, STAY, Wrong, arrives, comes, has_to_listen, main, option, some_bytes, test, want
from repository import TOP, read

PAGE = f"{TOP}/docs/SCALING.md"
HUBS = {"one": "10.0.0.11:7770", "two": "10.0.0.12:7770", "three": "10.0.0.13:7770"}
ENDS = {"frank": ("10.0.0.21:7771", 1), "bob": ("10.0.0.22:7771", 2), "dave": ("10.0.0.23:7771", 3)}
TRANSFERS = {("alice", 1): "bob", ("carol", 2): "dave", ("erin", 3): "frank"}  # over two connectors each
ALONE = {("alice", 1): "frank", ("carol", 2): "bob", ("erin", 3): "dave"}  # over one
COPIES = 20  # that are made under load
SEED = int(option("seed", random.randrange(10**6)))


def tables():
    """The page's tables, by the connector."""
    found = re.findall(r"(?ms)^The table of connector (\w+):\n\n```text\n(.*?)```", read(PAGE))
    want([name for name, _ in found] == list(HUBS), f"tables of {[name for name, _ in found]}")
    return dict(found)


class Hubs:
    """The three connectors behind nginx, and what is sent by them."""

    def __init__(self, play, most=100_000):
        self.play, self.most = play, most
        ports = free_ports(len(HUBS) + len(ENDS) + 2)
        self.front, self.way, *ports = ports
        self.ports = dict(zip([*HUBS, *ENDS], ports))
        self.hubs = {}
        for name in HUBS:
            self.begin(name)
        certificate(play)
        changes = [(at, f"{HOST}:{self.ports[name]}") for name, at in HUBS.items()]
        changes += [("listen 443 ssl", f"listen {HOST}:{self.front} ssl"), ("listen 127.0.0.1:7780", f"listen {HOST}:{self.way}")]
        changes += [("proxy_pass https://hub.example;", f"proxy_pass https://{HOST}:{self.front};\nproxy_ssl_name hub.example;")]
        self.nginx = served(play, self.way, "spread", "onward", changes=changes)

    def books(self, name):
        return f"{self.play.room}/{name}.books"

    def begin(self, name):
        """Starts a connector with the page's table, in which each host is this one."""
        table = tables()[name].replace(" 100000 ", f" {self.most} ")
        for other, at in [*HUBS.items(), *((end, place) for end, (place, _) in ENDS.items())]:
            table = table.replace(at, f"{HOST}:{self.ports[other]}")
        number = list(HUBS).index(name) + 1
        ways = [f"--listen={HOST}:{self.ports[name]}", f"--own=example.hub.{number}", f"--requests={STAY}", f"--ledger={self.books(name)}"]
        it = self.play.start("connector", ways, given=self.play.file(table.encode()))
        it.port = self.ports[name]
        has_to_listen(it, f"connector {name}")
        self.hubs[name] = it

    def kill(self, name):
        self.hubs[name].kill()
        self.hubs[name].wait()

    def sums(self, name):
        """The books of a connector that was killed: of each account its claims and its dues, if it has any."""
        status, told = said([PROGRAM, "ledger", self.books(name)])
        want(status == 0, f"the books of {name}: {told}")
        return sums_of(told)

    def receive(self, end, sender, **how):
        place, number = ENDS[end]
        hub = list(HUBS)[number - 1]
        ways = {"token": f"{hub}-at-{end}", "address": f"example.hub.{number}.{end}", "peer": f"example.{sender}"}
        return self.play.receive(port=self.ports[end], **ways, **how)

    def send(self, sender, number, end, content, *words):
        ways = {"token": f"{number}.{sender}", "address": f"example.{sender}", "peer": f"example.hub.{ENDS[end][1]}.{end}"}
        return self.play.send(self.way, content, *words, **ways)


def sums_of(told):
    rows = re.findall(r"(?m)^account (\S+) claims (\d+) dues (\d+)$", told)
    return {name: (int(claims), int(dues)) for name, claims, dues in rows if (claims, dues) != ("0", "0")}


def transfers(hubs, plan, money=500, size=300_000):
    """Transfers side by side, which all end well; what each paid and was credited is its money."""
    content, ends = some_bytes(size), []
    for (sender, number), end in plan.items():
        receiver = hubs.receive(end, sender)
        ends.append((hubs.send(sender, number, end, content, f"--money={money}"), receiver))
    for sender, receiver in ends:
        arrives(sender, receiver, content, 60)
        found = totals(sender.totals).get("paid"), totals(receiver.totals).get("credited")
        want(found == (money, money), f"paid and credited {found}, of {money}")


@test()
def transfers_over_one_and_over_two_of_the_connectors(play):
    hubs = Hubs(play)
    begun = time.monotonic()
    transfers(hubs, TRANSFERS)
    transfers(hubs, ALONE, 70)
    taken = time.monotonic() - begun
    for name in HUBS:
        hubs.kill(name)
    wanted = {
        "one": {"alice": (570, 0), "frank": (0, 570), "two": (0, 500), "three": (500, 0)},
        "two": {"carol": (570, 0), "bob": (0, 570), "one": (500, 0), "three": (0, 500)},
        "three": {"erin": (570, 0), "dave": (0, 570), "one": (0, 500), "two": (500, 0)},
    }
    found = {name: hubs.sums(name) for name in HUBS}
    want(found == wanted, f"books {found}")
    return f"6 in {taken:.1f} s"


@test()
def what_no_connector_takes_is_refused(play):
    hubs, found = Hubs(play), {}
    tokens = {"1.alice": b"200", "1.bob": b"401", "2.alice": b"401", "4.alice": b"401", "alice": b"401", "1xalice": b"401", "x1.alice": b"401", "1.ALICE": b"401"}
    for token in tokens:
        found[token] = asked((HOST, hubs.way), request(token, prepare(0, 20, "example.none")))[0][9:12]
    want(found == tokens, f"statuses {found}")
    # (what only looks like the head that is read, and what does not, and is)
    head, body = request("none", prepare(0, 20, "example.none")).split(b"\r\n\r\n", 1)
    status = asked((HOST, hubs.way), head.replace(b"Authorization: Bearer none", b"authorization: bearer   1.alice") + b"\r\n\r\n" + body)[0][9:12]
    want(status == b"200", f"another spelling of the scheme: {status}")
    for line in (b"X-Authorization: Bearer 1.alice", b"Authorization : Bearer 1.alice"):
        status = asked((HOST, hubs.way), head.replace(b"Authorization: Bearer none", line) + b"\r\n\r\n" + body)[0][9:12]
        want(status in (b"400", b"401"), f"{line!r}: {status}")
    # Two such lines: nginx chooses by one of them, and no connector takes them for an account's.
    status = asked((HOST, hubs.way), head.replace(b"Bearer none", b"Bearer 1.none\r\nAuthorization: Bearer 2.carol") + b"\r\n\r\n" + body)[0][9:12]
    want(status in (b"400", b"401"), f"two lines: {status}")
    return " ".join(f"{token} {status.decode()}" for token, status in found.items())


@test()
def a_connector_is_killed_beside_the_others(play):
    hubs = Hubs(play)
    transfers(hubs, TRANSFERS)
    hubs.kill("two")
    # Those of the others continue; a packet for two is answered for by one, and what is for two itself by nginx.
    transfers(hubs, {("alice", 1): "frank", ("erin", 3): "dave"}, 70)
    _, body = asked((HOST, hubs.way), request("1.alice", prepare(0, 20, "example.hub.2.bob")))
    status = asked((HOST, hubs.way), request("2.carol", prepare(0, 20, "example.hub.1.frank")))[0][9:12]
    want(body[2:5] == b"T01" and status == b"502", f"answers {body[:20]!r}, {status}")
    # A sender's tries outlive a restart.
    content, receiver = some_bytes(50_000), hubs.receive("bob", "carol")
    sender = hubs.send("carol", 2, "bob", content, "--money=30")
    time.sleep(2)
    hubs.begin("two")
    arrives(sender, receiver, content, 30)
    transfers(hubs, TRANSFERS, 9)
    for name in HUBS:
        hubs.kill(name)
    found = hubs.sums("two")
    want(found == {"carol": (539, 0), "bob": (0, 539), "one": (509, 0), "three": (0, 509)}, f"the books of two: {found}")
    return "T01, 502"


# Copies of books under load.


def is_stopped(process):
    """Whether each thread of a process is stopped, or over."""
    for path in glob.glob(f"/proc/{process.pid}/task/*/stat"):
        try:
            if read(path).rpartition(") ")[2][0] not in "TtZX":
                return False
        except FileNotFoundError:
            pass
    return True


def copied(process, books, to):
    """A copy of a running connector's books, as the page has it: for how long the process was stopped."""
    begun = time.monotonic()
    process.send_signal(signal.SIGSTOP)
    try:
        want(comes(lambda: is_stopped(process), 5), "the process is not stopped")
        for end in ("", "-wal"):
            shutil.copyfile(books + end, to + end)
    finally:
        process.send_signal(signal.SIGCONT)
    return time.monotonic() - begun


class Load:
    """Transfers of 100 units in packets of 10 at most, three at once, again and again until it is ended."""

    def __init__(self, hubs):
        self.hubs, self.rounds, self.is_over, self.wrong = hubs, 0, threading.Event(), None
        self.thread = threading.Thread(target=self.run)
        self.thread.start()

    def run(self):
        try:
            while not self.is_over.is_set():
                transfers(self.hubs, TRANSFERS, 100, 20_000)
                self.rounds += 1
        except Exception as error:  # reported at the end
            self.wrong = error

    def end(self):
        self.is_over.set()
        self.thread.join()
        if self.wrong:
            raise self.wrong


@test()
def copies_of_books_that_are_taken_under_load(play):
    rng, hubs = random.Random(SEED), Hubs(play, most=10)
    load, paused, copies = Load(hubs), [], []
    try:
        for number in range(COPIES):
            name = rng.choice(list(HUBS))
            copies.append((name, f"{play.room}/{number}.copy"))
            time.sleep(rng.uniform(0, 0.2))
            paused.append(copied(hubs.hubs[name], hubs.books(name), copies[-1][1]))
    finally:
        load.end()
    found = collections.defaultdict(list)
    for name, path in copies:
        status, told = said([PROGRAM, "ledger", path])
        want(status == 0, f"{path}, seed {SEED}: {told}")
        # (then it is one file)
        shutil.copyfile(path, path + ".alone")
        alone = said([PROGRAM, "ledger", path + ".alone"])
        want(alone == (0, told), f"{path}, seed {SEED}: {told}, and without its log {alone}")
        found[name].append(sums_of(told))
    for name in HUBS:
        hubs.kill(name)
        rows = [*found[name], hubs.sums(name)]
        for row, later in zip(rows, rows[1:]):
            # A booking is whole, and none is lost.
            want(sum(it[0] for it in row.values()) == sum(it[1] for it in row.values()), f"seed {SEED}, {name}: {row}")
            want(all(row[it][side] <= later.get(it, (0, 0))[side] for it in row for side in (0, 1)), f"seed {SEED}, {name}: {row}, then {later}")
        paid = sorted(claims for claims, _ in rows[-1].values() if claims)
        want(paid == [100 * load.rounds] * 2, f"seed {SEED}, {name}: {rows[-1]} behind {load.rounds} rounds")
    moments = len({f"{name} {row}" for name in HUBS for row in found[name]})
    return f"{COPIES} copies of {moments} moments, seed {SEED}, each in {1000 * max(paused):.0f} ms at most, {load.rounds} rounds"


@test()
def other_ways_to_copy_are_refused(play):
    hubs = Hubs(play)
    transfers(hubs, ALONE)
    for name in HUBS:
        source = sqlite3.connect(hubs.books(name), timeout=1)
        try:
            source.execute("SELECT count(*) FROM sqlite_master").fetchall()
            raise Wrong("sqlite3 reads the books of a connector that runs")
        except sqlite3.Error as error:
            told = str(error)
        finally:
            source.close()
        want(told == "database is locked", told)
        status, told = said([PROGRAM, "ledger", hubs.books(name)])
        want((status, told) == (1, "fault 111"), f"ledger: {told}")
    transfers(hubs, ALONE, 70)
    return "database is locked, 111"


if __name__ == "__main__":
    end_script(main())
