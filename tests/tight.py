#!/usr/bin/env python3
"""Runs the commands with too little memory: tight.py [PROGRAM [WORD]] [-v]. What may be allocated is set a step higher from run to run,
from a step above what the program just starts in to what it runs well in. A run writes a beginning of what it should and reports a
numbered fault, or it writes all and has status 0. With a WORD, only the tests whose names have it. A line for each command has the
ways in which its runs ended, each once; the last line counts them."""
import functools
import os
import re
import resource
import subprocess
import sys
import tempfile
import time

from peers import GIVING, HOST, SECRET, asked, free_port, request
from play import PROGRAM, main, some_bytes, test, until_it_listens, want
from repository import write_bytes

INPUT = some_bytes(70_000)
TABLE = b"account 500 500 alice - -\naccount 500 500 bob 127.0.0.1:9 hub\nroute example.bob 1\n"
# A hop that needs more memory than a step.
ROUTES = TABLE + b"".join(b"route example.bob.%d 1\n" % n for n in range(4_000))
STEP = 64 * 1024
# The stack of a thread. In less space a receiver waits 20 seconds for a thread and ends with 80.
STACK = 8 * 1024 * 1024
# This number of runs that end well ends a sweep, and this number of steps is too large.
WELL, STEPS = 8, 1_000
# More seconds than any run may take, and the seconds in which a connector is asked until it ends.
BOUND, ASKED = 60, 2


class Run:
    """The program with these arguments over a file's bytes, limited to this much space; to all that there is if that is 0."""

    def __init__(self, words, space, given=os.devnull):
        limit = (lambda: resource.setrlimit(resource.RLIMIT_DATA, (space, space))) if space else None
        self.out = tempfile.TemporaryFile()
        # (while a port is tried, no process begins: it would have that socket until it runs its program)
        with open(given, "rb") as file, GIVING:
            self.ran = subprocess.Popen([PROGRAM, *words], stdin=file, stdout=self.out, stderr=subprocess.PIPE, preexec_fn=limit)

    def ending(self, whole, bound=BOUND):
        """How it ended, and what is wrong with that or with what it wrote; it is stopped after the given seconds."""
        try:
            _, errors = self.ran.communicate(timeout=bound)
            return judged(self.ran.returncode, errors, self.written(), whole)
        except subprocess.TimeoutExpired:
            self.ran.kill()
            self.ran.communicate()
            return "waits" if whole.startswith(self.written()) else "WRONG: waits, and wrote what was not sent"

    def written(self):
        self.out.seek(0)
        return self.out.read()


def judged(status, errors, written, whole):
    fault = re.fullmatch(rb"fault (\d+)\n", errors)
    if not whole.startswith(written):
        return f"WRONG: wrote what was not sent, {errors!r}"
    if status == 1 and fault:
        return f"fault {fault[1].decode()}"
    if status == 0 and written == whole:
        return "well"
    return f"WRONG: status {status}, {len(written)} bytes, {errors[:200]!r}"


@functools.cache
def least():
    """The least space in which the program starts."""
    low, high = 0, 1 << 30
    while high - low > 4096:
        middle = (low + high) // 2
        well = Run(["--version"], middle).ran.wait(BOUND) == 0
        low, high = (low, middle) if well else (middle, high)
    return high


def is_up(port, it):
    """Whether a run listens at a port before it ends."""
    it.ran.port = port
    return until_it_listens(it.ran)


def ask(port, ran):
    """Sends requests that hold no packet until a connector ends, for some seconds: one that has no memory for a request may leave
    it without an answer."""
    until = time.monotonic() + ASKED
    while ran.poll() is None and time.monotonic() < until:
        asked((HOST, port), request("alice", b"\0"), ASKED)


def local(given):
    return lambda space: Run(["local", "--hops=2"], space, given).ending(INPUT)


def words():
    """The version, asked for with words that want 500 kB."""
    return lambda space: Run(["--version", *["x" * 100_000] * 5], space).ending(b"ilpstream 0.1.0\n")


def connector(table, books=None):
    """A connector; if books are named, one that makes them, and they are read afterwards if there are any."""

    def run(space):
        port = free_port()
        for path in [f"{books}{end}" for end in ("", "-wal") if books]:
            if os.path.exists(path):
                os.remove(path)
        kept = [f"--ledger={books}"] if books else []
        it = Run(["connector", f"--listen={HOST}:{port}", "--own=example.hub", "--requests=1", *kept], space, table)
        if is_up(port, it):
            ask(port, it.ran)
        told = it.ending(b"", 1)
        if books:
            read = subprocess.run([PROGRAM, "ledger", books], stdin=subprocess.DEVNULL, capture_output=True, check=False)
            if read.returncode and read.stderr != b"fault 110\n":
                return f"WRONG: {told}, and then {read.stderr!r}"
        return told

    return run


def transfer(given, tight):
    """A transfer in which `send` or `receive` is limited to the space. The other may wait for the one that is, and that one for it."""

    def run(space):
        port = free_port()
        own = ["--token=t", f"--secret={SECRET}"]
        receive = Run(
            ["receive", f"--listen={HOST}:{port}", *own, "--address=test.b", "--peer=test.a"],
            space if tight == "receive" else 0)
        if not is_up(port, receive):
            return receive.ending(INPUT)
        send = Run(
            ["send", f"--to={HOST}:{port}", *own, "--address=test.a", "--peer=test.b", "--workers=2"],
            space if tight == "send" else 0, given)
        sent = send.ending(b"")
        received = receive.ending(INPUT, BOUND if sent == "well" else 0.2)
        told, other = (sent, received) if tight == "send" else (received, sent)
        return told if not other.startswith("WRONG") else f"{told}, the other: {other}"

    return run


def sweep(run, low):
    """The ways in which runs end in more and more space, each once, the numbered ones in their order."""
    met, well, space = set(), 0, low
    for _ in range(STEPS):
        space += STEP
        told = run(space)
        if "-v" in sys.argv:
            print(f"   {space}: {told}", flush=True)
        met.add(told)
        well = well + 1 if told == "well" else 0
        if well == WELL:
            return ", ".join(sorted(met))
    return f"WRONG: does not end well, {', '.join(sorted(met))}"


# How the line of a command begins. A connector of one account needs no more than the least; a receiver that cannot answer waits for a
# request that it can.
WANTED = {"words": "fault 99, well", "local": "fault 99, well", "send": "fault "}
WAITS = "waits, well"  # in the line of a receiver


@test(*[(it,) for it in ("words", "local", "connector", "routes", "connector with books", "receive", "send")])
def too_little_memory_for(play, command):
    paths = {}
    for name, content in (("bytes", INPUT), ("table", TABLE), ("routes", ROUTES)):
        paths[name] = f"{play.room}/{name}"
        write_bytes(paths[name], content)
    runs = {
        "words": words(),
        "local": local(paths["bytes"]),
        "connector": connector(paths["table"]),
        "routes": connector(paths["routes"]),
        "connector with books": connector(paths["table"], f"{play.room}/books"),
        "receive": transfer(paths["bytes"], "receive"),
        "send": transfer(paths["bytes"], "send"),
    }
    told = sweep(runs[command], max(least(), STACK) if command == "receive" else least())
    want("WRONG" not in told and told.startswith(WANTED.get(command, "")), told)
    want(command != "receive" or WAITS in told, told)
    return told


if __name__ == "__main__":
    raise SystemExit(main())
