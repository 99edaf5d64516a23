#!/usr/bin/env python3
"""Runs `send`, `receive` and `connector` on loopback under random circumstances for some time: soak.py PROGRAM SECONDS [SEED].
With SEED/NUMBER as its seed it runs that one round. Each round draws, from the seed and its number, a topology, transfers, what
the proxies between neighbours spoil, and events: connections that send nothing or garbage, links that are gone, processes that
are stopped for some seconds or killed. What is wrong is printed with the round's draw. One connector stays through all rounds,
and its open files, threads and memory are checked. A summary is printed each minute, and at the end `N rounds, M wrong`."""
import collections
import dataclasses
import glob
import os
import random
import re
import resource
import select
import signal
import socket
import sys
import tempfile
import threading
import time
import traceback

from edges import feed, hold, threads
from peers import HOST, Peer, ended, fields_at, free_ports, give_back, is_whole, message, prepare, request, totals, use_up
from play import STAY, Play, Wrong, some_bytes, want

PROGRAM = os.path.realpath(sys.argv[1]) if len(sys.argv) > 1 else ""
AT_ONCE = 3  # rounds side by side
CORES = 1.0  # processors that all of it takes on average
LANES = 6  # transfers that the connector that stays can forward at once, two of each round
LIFE = 25  # seconds below which no exchange has timed out: a connector waits 29 for an answer
SILENCE = 31  # seconds until an exchange with a silent neighbour has ended
GONE = 6  # seconds in which neighbours may be gone, so that a sender stays: 200 failures take some ten
SLACK = 10  # seconds that a process may be late on a machine that has other work
SPEEDS = 20_000, 2_000_000  # bytes a second over a connector: about those of an unproved and of a proved program
WORK = 600  # seconds by which a bound is longer at most, if the processes of a round run or wait for a processor meanwhile
AMPLE = 1_000_000  # units that no transfer reaches, however many of its answers are lost
KILLED = {"WRONG -9 b''": "killed", "WRONG -15 b''": "killed"}


# What a round draws.


@dataclasses.dataclass
class Transfer:
    size: int
    money: int
    most: int
    workers: int
    patience: int
    pause: float  # seconds over which its input is fed, 0 for a file


@dataclasses.dataclass
class Plan:
    shape: str
    paths: list  # of each transfer the names of its nodes: s0, connectors, r0
    transfers: list
    workers: dict  # of each connector
    limit: int = 10**12
    packet: int = AMPLE  # MAX of an account
    rate: tuple = (1, 1)
    least: str = "1:1"
    relays: dict = dataclasses.field(default_factory=dict)  # of a link the share of connections that are spoiled, and silences
    events: list = dataclasses.field(default_factory=list)  # (seconds, what, node or link, how)

    def links(self):
        return sorted({link for path in self.paths for link in zip(path, path[1:])})

    def hubs(self):
        return sorted({node for path in self.paths for node in path[1:-1]})


SHAPES = ["direct", "one", "one", "two", "both", "many", "stays", "stays", "stays"]
SIZES = [0, 1, 100, 16_000, 16_001, 16_384, 16_385, 65_535, 65_536, 65_537, 131_072, 1_000_000]
REQUEST_PARTS = ["before it", "in the head", "behind the head", "in the body"]
HOSTILE = ["nothing", "half a head", "half a body", "garbage", "another token", "too long", "no packet", "closed at once"]


def draw_paths(rng, shape, lanes):
    if shape == "both":
        return [["s0", "A", "B", "r0"], ["s1", "B", "A", "r1"]]
    middle = {"direct": [], "one": ["A"], "two": ["A", "B"], "many": ["A"], "stays": ["L"]}[shape]
    return [[f"s{lane}", *middle, f"r{lane}"] for lane in lanes]


def draw_transfer(rng, largest, share):
    sizes = [size for size in SIZES if size <= largest] + [rng.randrange(most) for most in (largest, largest, 5_000)]
    money = rng.choice([0, 0, 1, 500, 1_000, rng.randrange(1_001)])
    most = rng.choice([AMPLE, AMPLE, AMPLE, money, money // 2])
    pause = rng.choice([0, 0, 0, rng.uniform(0.2, 3)])
    return Transfer(int(rng.choice(sizes) * share), money, most, rng.choice([1, 2, 4, 4, 8, 16]), rng.choice([3, 8, 25, 60]), pause)


def draw_money(rng, plan):
    """Limits, and a rate if there is one transfer over connectors of its own."""
    plan.packet = rng.choice([AMPLE, AMPLE, 100])
    if plan.shape in ("one", "two") and rng.random() < 0.3:
        plan.rate, plan.packet = rng.choice([(1, 2), (3, 2), (2, 3)]), AMPLE
        plan.least = rng.choice([f"{plan.rate[0] ** len(plan.hubs())}:{plan.rate[1] ** len(plan.hubs()) + 1}", "1:1"])
        plan.transfers[0].most = AMPLE
    elif plan.shape in ("one", "many") and rng.random() < 0.2:
        plan.limit = max(it.money for it in plan.transfers)


def draw_events(rng, plan, span):
    """What happens during the round, within some seconds."""
    nodes = sorted({node for path in plan.paths for node in path} - {"L"})
    for _ in range(rng.choice([0, 1, 1, 2, 3])):
        at, kind = rng.uniform(0, span), rng.choice(["hostile", "hostile", "gone", "deaf", "stop", "kill", "kill", "term"])
        if kind == "hostile":
            served = [node for path in plan.paths for node in path[1:]]
            plan.events.append((at, kind, rng.choice(served), (rng.choice(HOSTILE), rng.choice([0.2, 1, 3, 40]))))
        elif kind in ("gone", "deaf"):
            if plan.relays:
                plan.events.append((at, kind, rng.choice(sorted(plan.relays)), rng.uniform(0.1, 5)))
        elif kind == "stop":
            plan.events.append((at, kind, rng.choice(nodes), rng.uniform(0.5, 3)))
        else:
            node = rng.choice(nodes)
            back = rng.choice([0.1, 1, 4, None]) if node in "AB" else None
            plan.events.append((at, kind, node, back))
    plan.events.sort(key=lambda event: event[0])


def draw(rng, speed, lanes):
    """A round's circumstances. `speed` is about how many bytes a second are sent over a connector."""
    shape = rng.choice(SHAPES)
    if shape != "stays":
        lanes = range(rng.choice([2, 3, 4]) if shape == "many" else 1)
    paths = draw_paths(rng, shape, lanes)
    largest = min(4_000_000, 4 * speed)
    transfers = [draw_transfer(rng, largest, 1 / len(paths)) for _ in paths]
    plan = Plan(shape, paths, transfers, {name: rng.choice([1, 2, 4, 16]) for name in "AB"})
    draw_money(rng, plan)
    if rng.random() < 0.6:
        for link in plan.links():
            if rng.random() < 0.6:
                plan.relays[link] = (rng.choice([0, 0.05, 0.2, 0.5]), rng.choice([0, 0, 0, 0, 1]))
    draw_events(rng, plan, 0.3 + 1.3 * sum(it.size for it in transfers) / speed + max(it.pause for it in transfers))
    return plan


# What is between neighbours.


class Relay(Peer):
    """Passes each request on to a neighbour, and its answer back, but for those that it cuts off, slows down or keeps."""

    def __init__(self, rng, share, silences, target, port):
        self.rng, self.share, self.silences, self.target = rng, share, silences, target
        self.lock, self.hears, self.paused = threading.Lock(), threading.Event(), collections.Counter()
        # Lost answers, the units of those that were Fulfills, and the requests that a neighbour may have taken without an answer.
        self.lost, self.units, self.unknown = 0, 0, 0
        self.hears.set()
        super().__init__(self.pass_one, port)

    def way(self):
        """On which side an exchange is spoiled, in which place, and how."""
        with self.lock:
            if self.rng.random() >= self.share:
                return None, None, None
            then = self.rng.choice(["close", "reset", "slow", "hold"] if self.silences else ["close", "reset", "slow"])
            self.silences -= then == "hold"
            return self.rng.choice(["request", "answer"]), self.rng.choice(REQUEST_PARTS), then

    def lose(self, request, answer):
        with self.lock:
            self.lost += 1
            if not answer:
                self.unknown += 1
            elif answer[1][:1] == b"\x0d":
                at = fields_at(request)
                self.units += int.from_bytes(request[at : at + 8], "big")

    def pass_one(self, _, stream):
        self.hears.wait()
        head, body = message(stream)
        if not is_whole(head, body):
            return
        side, part, then = self.way()
        if side == "request" and then != "slow":
            self.cut(stream, head, body, part, then)
            return
        answer = self.ask(head + body, side == "request")
        if not answer or has_left(stream) or (side == "answer" and then != "slow"):
            self.lose(body, answer)
        if answer and side == "answer":
            spoil(stream, *answer, part, then)
        elif answer:
            stream.sendall(b"".join(answer))

    def ask(self, content, is_slow):
        """The answer of the neighbour, as its head and its body; nothing if it has none."""
        try:
            with socket.create_connection((HOST, self.target), timeout=120) as stream:
                if is_slow:
                    drip_fast(stream, content)
                else:
                    stream.sendall(content)
                answer = message(stream)
                return answer if is_whole(*answer) else ()
        except OSError:
            return ()

    def cut(self, stream, head, body, part, then):
        """Passes a part of a request on, and then closes both connections, or waits until the neighbour that sent it does."""
        with socket.create_connection((HOST, self.target), timeout=120) as onward:
            onward.sendall((head + body)[: place(head, body, part)])
            finish(stream, then)

    def pause(self, kind):
        self.paused[kind] += 1
        if kind == "deaf":
            self.hears.clear()
        else:
            self.close()

    def resume(self, kind):
        """Ends a pause; of those of one kind at once the last to end counts."""
        self.paused[kind] -= 1
        if self.paused[kind]:
            return
        if kind == "deaf":
            self.hears.set()
            return
        for _ in range(50):  # the last listener may not have ended yet
            try:
                self.listen(self.port)
                return
            except OSError:
                time.sleep(0.02)
        raise OSError(f"port {self.port} stays taken")


def place(head, body, part):
    return {"before it": 0, "in the head": 20, "behind the head": len(head), "in the body": len(head) + len(body) // 2}[part]


def has_left(stream):
    """Whether the other side has closed a connection."""
    if not select.select([stream], [], [], 0)[0]:
        return False
    try:
        return stream.recv(1, socket.MSG_PEEK) == b""
    except OSError:
        return True


def drip_fast(stream, content):
    """A message of which some hundred bytes are sent one at a time."""
    for byte in content[:100]:
        stream.sendall(bytes([byte]))
        time.sleep(0.002)
    for byte in content[100:600]:
        stream.sendall(bytes([byte]))
    stream.sendall(content[600:])


def finish(stream, then):
    """Leaves a connection to be closed, has it be closed by a reset, or waits until the other side closes it."""
    if then == "hold":
        hold(stream)
    if then == "reset":
        stream.setsockopt(socket.SOL_SOCKET, socket.SO_LINGER, b"\1\0\0\0\0\0\0\0")


def spoil(stream, head, body, part, then):
    """Sends an answer slowly, or a part of it."""
    if then == "slow":
        drip_fast(stream, head + body)
        return
    stream.sendall((head + body)[: place(head, body, part)])
    finish(stream, then)


def busy(process, fields=2):
    """The seconds for which the threads of a process ran (the first field of the kernel's account) or waited for a processor."""
    taken = 0
    try:
        for thread in os.listdir(f"/proc/{process.pid}/task"):
            with open(f"/proc/{process.pid}/task/{thread}/schedstat", encoding="ascii") as file:
                taken += sum(map(int, file.read().split()[:fields]))
    except OSError:  # it has ended
        pass
    return taken / 1e9


def hostile(token, kind):
    """What a connection sends that brings no packet, and how an answer to it begins, if there is one."""
    good = request(token, prepare(0, 30, "test.nobody"))
    return {
        "nothing": (b"", b""),
        "half a head": (good[:60], b""),
        "half a body": (good[:-9], b""),
        "garbage": (os.urandom(300).replace(b"\r", b"x") + b"\r\n\r\n", b"HTTP/1.1 400 "),
        "another token": (request("another", prepare(5, 30, "test.r0")), b"HTTP/1.1 401 "),
        "too long": (good.replace(b"Content-Length: ", b"Content-Length: 9999"), b"HTTP/1.1 413 "),
        "no packet": (request(token, b"\0"), b"HTTP/1.1 200 "),
        "closed at once": (b"", b""),
    }[kind]


# A round.


class Round:
    """The processes of a round, its relays and what happened to them. `stays` is the connector that stays."""

    def __init__(self, plan, seed, speed, play, stays):
        self.speed, self.slack = speed, SLACK if speed == SPEEDS[0] else SLACK / 2
        self.plan, self.play, self.stays, self.rng = plan, play, stays, random.Random(f"{seed} relays")
        self.nodes, self.relays, self.killed, self.wrong = {}, {}, set(), []
        self.ports, self.contents, self.ends, self.sent, self.taken, self.used_up = {}, {}, {}, 0, 0, False
        self.killed_hubs, self.dismissed, self.given, self.exact = set(), set(), [], 0
        self.endless = {whom for _, what, whom, _ in plan.events if what in ("kill", "term")}
        play.secret = bytes(self.rng.randrange(256) for _ in range(32)).hex()

    def port_of(self, link):
        """The address to which the first node of a link sends."""
        return self.relays[link].port if link in self.relays else self.ports[link[1]]

    def own_hubs(self):
        return [hub for hub in self.plan.hubs() if hub != "L"]

    def begin(self):
        """Starts all, from the receivers to the senders."""
        plan = self.plan
        names = sorted({node for path in plan.paths for node in path[1:]} - {"L"})
        # (relays too, so that no outgoing connection takes the port of one while it is gone)
        self.given = free_ports(len(names) + len(plan.relays))
        relay_ports = self.given[len(names) :]
        self.ports = {"L": self.stays.port, **dict(zip(names, self.given))}
        # The connector that stays sends to ports that do not change: a receiver, or the relay before it, listens there.
        self.ports.update({other: self.stays.ports[other] for hub, other in set(plan.links()) - set(plan.relays) if hub == "L"})
        for link, port in zip(plan.relays, relay_ports):
            self.relay(link, port)
        for path, it in zip(plan.paths, plan.transfers):
            self.receive(path, it)
        for hub in self.own_hubs():
            self.connector(hub)
        self.began, self.stayed = time.monotonic(), busy(self.stays.process)
        for path, it in zip(plan.paths, plan.transfers):
            self.send(path, it)

    def relay(self, link, port):
        port = self.stays.ports[link[1]] if link[0] == "L" else port
        self.relays[link] = Relay(random.Random(self.rng.random()), *self.plan.relays[link], self.ports[link[1]], port)
        self.play.peers.append(self.relays[link])

    def receive(self, path, it):
        words = [f"--patience={it.patience}"]
        name, before = path[-1], path[-2]
        ways = {"token": f"{before}-{name}", "address": f"test.{name}", "peer": f"test.{path[0]}"}
        begun = time.time()
        self.nodes[name] = self.play.receive(*words, most=it.most, port=self.ports[name], **ways)
        self.nodes[name].begun = begun

    def connector(self, name):
        requests = STAY if name in self.endless else self.requests(name)
        words = [f"--workers={self.plan.workers[name]}"]
        self.nodes[name] = self.play.connector(self.table(name), *words, port=self.ports[name], requests=requests)

    def requests(self, name):
        """More than its neighbours send it: 200 failures of each sender, and some for each packet."""
        paths = [it for path, it in zip(self.plan.paths, self.plan.transfers) if name in path]
        return sum(300 + it.size // 8_000 + 2 * it.money // self.plan.packet for it in paths)

    def neighbours(self, name):
        """The neighbours of a connector, in the order of its accounts."""
        found = []
        for path in self.plan.paths:
            if name in path:
                at = path.index(name)
                found += [path[at - 1], path[at + 1]]
        return list(dict.fromkeys(found))

    def table(self, name):
        lines, neighbours, links = [], self.neighbours(name), self.plan.links()
        num, den = self.plan.rate
        for other in neighbours:
            limit = self.plan.limit if other[0] == "s" else 10**12
            way = "- -" if (name, other) not in links else f"{HOST}:{self.port_of((name, other))} {name}-{other}"
            lines.append(f"account {limit} {self.plan.packet} {other}-{name} {way}")
        for path in self.plan.paths:
            if name in path:
                lines.append(f"route test.{path[-1]} {neighbours.index(path[path.index(name) + 1])} {num} {den}")
        return "\n".join(lines) + "\n"

    def send(self, path, it):
        name, link = path[0], (path[0], path[1])
        given = self.contents[path[-1]] = content = some_bytes(it.size)
        if it.pause:
            given, writer = self.play.pipe()
            threading.Thread(target=feed, args=(writer, content, it.pause), daemon=True).start()
        words = [f"--money={it.money}", f"--workers={it.workers}", f"--least={self.plan.least}"]
        ways = {"token": "-".join(link), "address": f"test.{name}", "peer": f"test.{path[-1]}"}
        self.nodes[name] = self.play.send(self.port_of(link), given, *words, **ways)

    # What happens.

    def happen(self):
        """The events of the plan, each at its moment, and what undoes them. It ends early if all ends have ended."""
        todo = sorted(((at, n, what, whom, how) for n, (at, what, whom, how) in enumerate(self.plan.events)), key=lambda it: it[:2])
        while todo:
            at, n, what, whom, how = todo.pop(0)
            while time.monotonic() < self.began + at and not self.is_over():
                time.sleep(0.01)
            if self.is_over() and what not in ("continue", "back"):
                continue
            undo = getattr(self, f"do_{what}")(whom, how)
            if undo:
                todo = sorted([*todo, (at + undo[0], n + 100, *undo[1:])], key=lambda it: it[:2])

    def is_over(self):
        return all(it.poll() is not None for name, it in self.nodes.items() if name[0] in "sr")

    def do_kill(self, node, back, how=signal.SIGKILL):
        process = self.nodes[node]
        if process.poll() is not None:
            return None
        self.killed.add(node)
        process.send_signal(how)
        process.send_signal(signal.SIGCONT)
        if node in self.plan.hubs():
            process.wait()
            self.killed_hubs.add(node)
        return (back, "start", node, None) if back else None

    def do_term(self, node, back):
        return self.do_kill(node, back, signal.SIGTERM)

    def do_start(self, node, _):
        self.connector(node)
        self.killed.discard(node)

    def do_stop(self, node, seconds):
        self.nodes[node].send_signal(signal.SIGSTOP)
        return seconds, "continue", node, None

    def do_continue(self, node, _):
        self.nodes[node].send_signal(signal.SIGCONT)

    def do_gone(self, link, seconds):
        self.relays[link].pause("gone")
        return seconds, "back", link, "gone"

    def do_deaf(self, link, seconds):
        self.relays[link].pause("deaf")
        return seconds, "back", link, "deaf"

    def do_back(self, link, kind):
        self.relays[link].resume(kind)

    def do_hostile(self, node, how):
        threading.Thread(target=self.intrude, args=(node, *how), daemon=True).start()

    def intrude(self, node, kind, seconds):
        """A connection to a node that brings no packet: what it is answered with is checked."""
        before = next(path[path.index(node) - 1] for path in self.plan.paths if node in path)
        content, begins = hostile(f"{before}-{node}", kind)
        try:
            with self.play.connect(self.ports[node], content) as stream:
                stream.settimeout(0 if kind == "closed at once" else seconds)
                told = stream.recv(13)
                if told and not (begins and begins.startswith(told)):
                    self.wrong.append(f"{node} answers {told!r} to {kind}")
        except OSError:
            pass

    # How it ends.

    def silences(self):
        """How many times an exchange may have to wait for its time-out."""
        kept = sum(silences for _, silences in self.plan.relays.values())
        return kept + sum(what == "hostile" and how[1] > 3 for _, what, _, how in self.plan.events)

    def delays(self):
        """For how many seconds events may keep a request from its receiver."""
        return sum(how[1] if what == "hostile" else how or 0 for _, what, _, how in self.plan.events)

    def bound(self):
        """For how many seconds a sender may last: 200 failures, each packet, and what keeps it from them."""
        packets = 200 + sum(it.size / 16_000 + it.money / self.plan.packet for it in self.plan.transfers)
        spoiled = sum(share for share, _ in self.plan.relays.values())
        largest = max(min(it.size, 16_000) for it in self.plan.transfers)
        work = packets * (0.05 + largest / self.speed + 0.3 * spoiled)
        return 10 + SLACK + work + sum(it.pause for it in self.plan.transfers) + SILENCE * self.silences() + self.delays()

    def wait(self):
        """Waits for all processes, each for as long as it may last."""
        last = max([at for at, *_ in self.plan.events], default=0)
        until = self.began + last + self.bound()
        for path in self.plan.paths:
            self.end(path[0], max(1, until - time.monotonic()))
        self.sent = time.monotonic() - self.began
        for path, it in zip(self.plan.paths, self.plan.transfers):
            if self.ends[path[0]] != "0" and it.patience > SLACK:
                time.sleep(0.3)
                self.dismiss(path[-1])
            self.end(path[-1], it.patience + SLACK + (SILENCE if self.silences() else 0))
        self.taken = time.monotonic() - self.began
        for it in self.play.open + list(self.relays.values()):
            it.close()
        for hub in self.own_hubs():
            self.end_hub(hub)

    def dismiss(self, name):
        """Stops a receiver that would wait for long, because its sender has ended without success."""
        if self.nodes[name].poll() is None:
            self.nodes[name].terminate()
            self.dismissed.add(name)

    def work(self):
        """By how many seconds a bound is longer: four times those for which the processes that there are ran, or waited for a
        processor. (A thread that waits for another one, which waits for a processor, is not in the kernel's account.)"""
        stays = busy(self.stays.process) - self.stayed if "L" in self.plan.hubs() else 0
        return min(WORK, 4 * (stays + sum(busy(process) for process in self.nodes.values())))

    def end(self, name, bound):
        """Waits for a process. The time for which the machine keeps it from running does not count."""
        process, until = self.nodes[name], time.monotonic() + bound
        while process.poll() is None and (time.monotonic() < until or time.monotonic() < until + self.work()):
            time.sleep(0.05)
        told = ended(process, 0.1)
        if name in self.killed | self.dismissed:
            told = KILLED.get(told, told)
        self.ends[name] = told

    def end_hub(self, name):
        hub = self.nodes[name]
        if name in self.endless:
            self.killed.add(name)
            self.killed_hubs.add(name)
            hub.kill()
        else:
            self.used_up |= hub.poll() is not None
            for _ in range(8):
                threading.Thread(target=self.ask, args=(hub, f"{self.neighbours(name)[0]}-{name}"), daemon=True).start()
        self.end(name, 60)

    def ask(self, hub, token):
        """Uses up the requests of a connector."""
        while hub.poll() is None:
            use_up(hub, hub.port, token)

    # What is asserted.

    def check(self):
        for name, told in self.ends.items():
            kinds = {"s": ("0", "58", "59"), "r": ("0", "88")}.get(name[0], ("0",))
            if told not in kinds and told != "killed":
                self.wrong.append(f"{name} ends with {told}")
        for path, it in zip(self.plan.paths, self.plan.transfers):
            self.check_bytes(path, it)
            self.check_patience(path, it)
            self.check_money(path, it)
            self.check_success(path, it)
        for hub in self.own_hubs():
            if hub not in self.killed_hubs:
                self.check_hub(hub)
        for link in self.plan.links():
            if "L" not in link:
                self.compare([link])
        for path in self.plan.paths:
            if "L" in path:
                self.compare(list(zip(path, path[1:])))

    def expect(self, is_so, told):
        if not is_so:
            self.wrong.append(told)

    def output(self, name):
        with open(self.nodes[name].path, "rb") as file:
            return file.read()

    def check_bytes(self, path, it):
        content, came = self.contents[path[-1]], self.output(path[-1])
        sent, received = self.ends[path[0]], self.ends[path[-1]]
        told = f"{path[0]} {sent}, {path[-1]} {received}, {len(came)} of {len(content)} bytes"
        self.expect(content.startswith(came), f"no beginning: {told}")
        if received == "0" or (sent == "0" and received != "killed"):
            self.expect(came == content and received == "0", f"not whole: {told}")
        self.expect(sent != "59" or it.most < AMPLE, f"stalls: {told}")
        if received == "0" and not self.may_lose(path):
            self.expect(sent == "0", f"one side alone: {told}")
        ends = [totals(self.nodes[name].totals) for name in (path[0], path[-1])]
        if all(ends):
            self.expect(ends[1]["delivered"] == len(came) <= ends[0]["accepted"] <= len(content), f"bytes counted: {ends}, {told}")

    def check_patience(self, path, it):
        """A receiver ends with 88 after its patience, and not long after it if its sender has ended. A file of totals is
        written at the end."""
        sender, receiver = self.nodes[path[0]], self.nodes[path[-1]]
        if self.ends[path[-1]] != "88":
            return
        by = os.stat(receiver.totals).st_mtime
        lasted = by - receiver.begun
        self.expect(lasted > it.patience - 0.1, f"{path[-1]} 88 after {lasted:.1f} of {it.patience} s")
        if self.ends[path[0]] in ("0", "58", "59") and not self.plan.relays and not self.plan.events:
            late = by - os.stat(sender.totals).st_mtime - it.patience
            self.expect(late < SLACK, f"{path[-1]} 88 {late:.1f} s later than its patience")

    def check_money(self, path, it):
        sent, received = (totals(self.nodes[name].totals) for name in (path[0], path[-1]))
        for name, report in ((path[0], sent), (path[-1], received)):
            self.expect(report or self.ends[name] == "killed", f"{name} {self.ends[name]} has no totals")
        self.expect(sent.get("paid", 0) <= it.money, f"{sent.get('paid')} paid of {it.money}")
        self.expect(received.get("credited", 0) <= it.most, f"{received} with a receive max of {it.most}")
        if self.ends[path[0]] == "0":
            self.expect(sent.get("paid") == it.money and sent.get("accepted") == it.size, f"{path[0]} 0 and {sent}")

    def is_quick(self):
        """Whether no exchange can have timed out: each began while its sender ran, or was left by one that was killed."""
        return (self.taken if any(name[0] == "s" for name in self.killed) else self.sent) <= LIFE

    def may_lose(self, path):
        """Whether an answer on the way of a transfer may have been lost."""
        links = list(zip(path, path[1:]))
        is_lossy = any(link in self.relays and self.relays[link].lost for link in links)
        return is_lossy or not self.is_quick() or self.used_up or bool(set(path) & (self.killed | self.killed_hubs))

    def spoiled(self, path, it):
        """Why a transfer may fail, if anything is why."""
        down = sum(how for _, what, whom, how in self.plan.events if what == "gone" and set(whom) <= set(path))
        down += sum(how or 99 for _, what, whom, how in self.plan.events if what in ("kill", "term") and whom in path)
        quiet = self.delays() + SILENCE * self.silences() + it.pause + self.slack
        return {
            "killed": bool({path[0], path[-1]} & self.killed) or down > GONE or self.used_up,
            "impatient": it.patience < quiet,
            "poor": it.most < it.money or (it.most < AMPLE and self.may_lose(path)),
            "limited": self.plan.limit < 10**12 and self.may_lose(path),
            "little arrives": self.plan.rate[0] < self.plan.rate[1] and self.plan.least == "1:1" and it.money > 0,
        }

    def check_success(self, path, it):
        why = [name for name, is_so in self.spoiled(path, it).items() if is_so]
        pair = self.ends[path[0]], self.ends[path[-1]]
        if not why:
            allowed = [("0", "0"), ("58", "0")] if self.may_lose(path) else [("0", "0")]
            self.expect(pair in allowed, f"{path[0]} {pair[0]}, {path[-1]} {pair[1]}, and nothing kept them from it")
        elif why == ["poor"] and not self.may_lose(path) and it.patience <= SLACK:
            self.expect(pair == ("59", "88"), f"{path[0]} {pair[0]}, {path[-1]} {pair[1]} if the receiver accepts too little")
            self.expect(self.output(path[-1]) == self.contents[path[-1]], f"{path[-1]} is not whole if it accepts too little")

    def check_hub(self, name):
        found = totals(self.nodes[name].totals)
        claims, dues, reserved = (sum(n for key, n in found.items() if key.endswith(word)) for word in ("claims", "dues", "held"))
        num, den = self.plan.rate
        self.expect(found and not reserved, f"{name} has {found}")
        self.expect(claims == dues if num == den else dues * den <= claims * num, f"{name} claims {claims} and owes {dues}")

    def amount(self, link, name):
        """What one side of a link reports of the money that was sent over it; None if it reports nothing."""
        if name in self.killed_hubs:
            return None
        found = totals(self.nodes[name].totals)
        if name[0] in "sr":
            return found.get("paid" if name[0] == "s" else "credited")
        other = link[1] if name == link[0] else link[0]
        word = "dues" if name == link[0] else "claims"
        return found.get(f"account {self.neighbours(name).index(other)} {word}")

    def compare(self, links):
        """Both ends of links in a row report the same, but for the Fulfills that were lost there."""
        first, last = links[0][0], links[-1][1]
        gave, took = self.amount(links[0], first), self.amount(links[-1], last)
        if gave is None or took is None:
            return
        relays = [self.relays[link] for link in links if link in self.relays]
        lost = sum(relay.units for relay in relays)
        is_exact = self.is_quick() and not any(relay.unknown for relay in relays) and not {first, last} & self.killed
        told = f"{first} says {gave} and {last} says {took}, and {lost} were lost"
        self.expect(gave + lost == took if is_exact else gave <= took, told)
        self.exact += is_exact


# The connector that stays.


class Stays:
    """A connector that forwards transfers of all rounds, and what was seen of it: open files, threads and memory."""

    def __init__(self, play, workers):
        found = free_ports(LANES)
        self.ports = {f"r{lane}": port for lane, port in enumerate(found)}
        lines = []
        for lane, port in enumerate(found):
            lines += [f"account {10**12} {AMPLE} s{lane}-L - -", f"account 0 0 none{lane} {HOST}:{port} L-r{lane}"]
        lines += [f"route test.r{lane} {2 * lane + 1}" for lane in range(LANES)]
        self.process = play.connector("\n".join(lines) + "\n", f"--workers={workers}")
        self.port, self.workers, self.seen = self.process.port, workers, []
        self.lanes, self.lock = set(range(LANES)), threading.Lock()

    def take(self, count):
        with self.lock:
            taken = sorted(self.lanes)[:count]
            self.lanes -= set(taken)
            return taken

    def put(self, lanes):
        with self.lock:
            self.lanes |= set(lanes)

    def look(self):
        """Notes open files, threads and memory in kB."""
        place = f"/proc/{self.process.pid}"
        try:
            with open(f"{place}/status", encoding="ascii") as file:
                memory = int(re.search(r"(?m)^VmRSS:\s*(\d+)", file.read())[1])
            self.seen.append((time.monotonic(), len(os.listdir(f"{place}/fd")), threads(self.process), memory))
        except (OSError, TypeError):  # it has ended
            pass

    def grows(self):
        """What has grown. The least of the last five minutes is compared with what a connector needs that waits (files, threads)
        and with the most of the first ten minutes (memory)."""
        begun = self.seen[0][0]
        now = self.seen[-1][0]
        last = [it for it in self.seen if it[0] > now - 300]
        first = [it for it in self.seen if it[0] < begun + 600]
        files, count, memory = (min(it[n] for it in last) for n in (1, 2, 3))
        told = f"{files} open files, {count} threads, {memory} kB"
        is_more = files > 10 or count > self.workers + 18 or memory > 1.25 * max(it[3] for it in first) + 16_000
        return told, is_more


# All rounds.


class Soak:
    def __init__(self, seconds, seed):
        self.seconds, self.seed, self.begun = seconds, seed, time.monotonic()
        self.rounds, self.wrong, self.lock, self.tally = 0, 0, threading.Lock(), collections.Counter()
        self.next = 0
        self.speed = 0

    def measure(self):
        """How many bytes a second are sent over a connector."""
        with Play() as play:
            receiver = play.receive()
            hub = play.before(receiver)
            content = some_bytes(60_000)
            begun = time.monotonic()
            want(ended(play.send(hub.port, content), 120) == "0" and ended(receiver, 20) == "0", "the first transfer fails")
            speed = len(content) / (time.monotonic() - begun)
        # One of two, so that a seed draws the same rounds again.
        self.speed = SPEEDS[speed > 20 * SPEEDS[0]]
        print(f"seed {self.seed}: {speed:.0f} bytes a second over a connector, taken for {self.speed}", flush=True)

    def one(self, number, stays):
        """Plays a round."""
        seed = f"{self.seed}/{number}"
        rng = random.Random(seed)
        lanes = stays.take(rng.choice([1, 1, 2]))
        plan = draw(rng, self.speed, lanes)
        with Play() as play:
            it = Round(plan, seed, self.speed, play, stays)
            try:
                it.begin()
                it.happen()
                it.wait()
                it.check()
                self.count(it)
            except Wrong as error:
                it.wrong.append(str(error))
            except Exception:  # a round that breaks off is wrong
                it.wrong.append(traceback.format_exc())
        give_back(it.given)
        stays.put(lanes)
        self.report(seed, it)

    def count(self, it):
        with self.lock:
            self.tally[it.plan.shape] += 1
            for path in it.plan.paths:
                self.tally[f"send {it.ends[path[0]]}, receive {it.ends[path[-1]]}"] += 1
                self.tally["bytes"] += len(it.output(path[-1]))
            for _, what, *_ in it.plan.events:
                self.tally[what] += 1
            self.tally["answers lost"] += sum(relay.lost for relay in it.relays.values())
            self.tally["used up"] += it.used_up
            self.tally["links compared exactly"] += it.exact
            self.tally["units lost"] += sum(relay.units for relay in it.relays.values())

    def report(self, seed, it):
        for path in glob.glob("core*"):
            it.wrong.append(f"a core: {path}")
            os.remove(path)
        with self.lock:
            self.rounds += 1
            self.wrong += bool(it.wrong)
            if it.wrong:
                lost = {link: relay.lost for link, relay in it.relays.items()}
                facts = f"ends {it.ends}, {it.taken:.1f} s, answers lost {lost}, killed {sorted(it.killed)}"
                print(f"WRONG round {seed}: {'; '.join(it.wrong)}\n  {facts}\n  {it.plan}", flush=True)

    def many(self, stays):
        """Plays rounds until the time is over, and rests if all of it takes more than its share of the processors."""
        while time.monotonic() < self.begun + self.seconds:
            with self.lock:
                number, self.next = self.next, self.next + 1
            self.one(number, stays)
            while self.processors(stays) > CORES * (time.monotonic() - self.begun) and time.monotonic() < self.begun + self.seconds:
                time.sleep(0.2)

    def processors(self, stays):
        """The seconds of a processor that were used."""
        used = [resource.getrusage(who) for who in (resource.RUSAGE_SELF, resource.RUSAGE_CHILDREN)]
        return sum(it.ru_utime + it.ru_stime for it in used) + busy(stays.process, 1)

    def summary(self, stays):
        told, is_more = stays.grows()
        counts = ", ".join(f"{name} {count}" for name, count in sorted(self.tally.items()))
        taken = time.monotonic() - self.begun
        share = f"{self.processors(stays) / taken:.2f} processors"
        ended_so_far = f"{taken / 60:.0f} min: {self.rounds} rounds, {self.wrong} wrong"
        print(f"{ended_so_far}; {share}; {counts}; the connector that stays: {told}", flush=True)
        if is_more:
            self.wrong += 1
            print(f"WRONG the connector that stays grows: {told}; {stays.seen[:: max(1, len(stays.seen) // 20)]}", flush=True)

    def expect_some(self):
        """Many rounds, of which none compares what it is to, show nothing."""
        lacking = [name for name in ("send 0, receive 0", "links compared exactly", "answers lost", "hostile") if not self.tally[name]]
        if self.rounds >= 50 and lacking:
            self.wrong += 1
            print(f"WRONG in {self.rounds} rounds there is not one of: {'; '.join(lacking)}", flush=True)

    def run(self):
        with Play() as play:
            stays = Stays(play, 4)
            workers = [threading.Thread(target=self.many, args=(stays,), daemon=True) for _ in range(AT_ONCE)]
            for it in workers:
                it.start()
            told = self.begun
            while any(it.is_alive() for it in workers) and stays.process.poll() is None:
                time.sleep(1)
                stays.look()
                if time.monotonic() > told + 60:
                    told += 60
                    self.summary(stays)
            self.seconds = 0  # if the connector ended, the rounds that there are end too
            for it in workers:
                it.join()
            self.summary(stays)
            self.expect_some()
            if stays.process.poll() is not None:
                raise Wrong(f"the connector that stays {ended(stays.process, 1)}")


def main():
    seed, _, number = (sys.argv[3] if len(sys.argv) > 3 else str(int(time.time()))).partition("/")
    resource.setrlimit(resource.RLIMIT_CORE, (resource.RLIM_INFINITY, resource.RLIM_INFINITY))
    os.environ.setdefault("ASAN_OPTIONS", "quarantine_size_mb=8")
    with tempfile.TemporaryDirectory(prefix="soak-") as room:
        os.chdir(room)
        soak = Soak(float(sys.argv[2]), seed)
        try:
            soak.measure()
            if number:
                with Play() as play:
                    soak.one(int(number), Stays(play, 4))
            else:
                soak.run()
        except Wrong as wrong:
            soak.wrong += 1
            print(f"WRONG {wrong}")
    print(f"{soak.rounds} rounds, {soak.wrong} wrong")
    return 1 if soak.wrong or not soak.rounds else 0


if __name__ == "__main__":
    sys.exit(main())
