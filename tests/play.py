"""What tests of the real program start and share: a test's processes, with a folder of their own, that end with it; the list of
the tests of a file; and how they are run and counted. A file of tests is called FILE.py [PROGRAM [WORD]]."""
import os
import pty
import shlex
import socket
import subprocess
import sys
import tempfile
import time
from concurrent.futures import ThreadPoolExecutor

from peers import GIVING, HOST, SECRET, Peer, ended, free_port, listens
from repository import BUILT, TOP, read_bytes

WORDS = [it for it in sys.argv[1:] if not it.startswith("--")]
PROGRAM = os.path.realpath(WORDS[0] if WORDS else BUILT)
STAY = 2_147_483_647  # requests of a connector that does not end by itself
AT_ONCE = 16  # tests that wait, side by side
TESTS, WAITING, ONCE = [], [], set()
RESULTS = []  # of the tests that ran: True, False, or None of one that was skipped


class Wrong(Exception):
    """What a test saw, if that is not right."""


class Skipped(Exception):
    """Why a test cannot be made on this machine."""


def want(is_so, told):
    if not is_so:
        raise Wrong(told)


def test(*rows, waits=False, again=True):
    """Has a function be a test, once for each row of its arguments; if it waits, at the same time as others that do, and if it then
    fails, again alone, unless it is not to be."""

    def listed(function):
        for row in rows or [()]:
            words = " ".join(map(str, row))
            (WAITING if waits else TESTS).append((f"{function.__name__.replace('_', ' ')} {words}".strip(), function, row))
        if not again:
            ONCE.add(function)
        return function

    return listed


def some_bytes(count):
    return bytes(n % 251 for n in range(count % 251)) + bytes(range(251)) * (count // 251)


def comes(is_so, seconds=10):
    """Whether something is so within some seconds."""
    until = time.monotonic() + seconds
    while not (found := is_so()) and time.monotonic() < until:
        time.sleep(0.02)
    return found


def until_it_listens(process):
    """Whether a command listens within 30 seconds."""
    return comes(lambda: process.poll() is not None or listens(process.port), 30) and process.poll() is None


def has_to_listen(process, what):
    if not until_it_listens(process):
        raise Wrong(f"{what} does not listen: {ended(process, 1)}")


def listening(start):
    """Has a command begin that listens: at the port that is given, or at a free one; at another if that was used meanwhile."""

    def begun(play, *words, port=None, **how):
        for _ in range(1 if port else 3):
            it = start(play, *words, port=port or free_port(), **how)
            if until_it_listens(it):
                return it
            told = ended(it, 1)
            if told != "80":
                break
        raise Wrong(f"a command does not listen: {told}")

    return begun


def shared_object(play, name):
    """A library for LD_PRELOAD, made of a source of these tests."""
    path = f"{play.room}/{name}.so"
    try:
        subprocess.run(["cc", "-O", "-shared", "-fPIC", "-o", path, f"{TOP}/tests/{name}.c", "-ldl"], check=True, capture_output=True)
    except (OSError, subprocess.CalledProcessError) as error:
        raise Skipped(f"no cc: {error}") from None
    return path


def arrives(sender, receiver, content, seconds=20):
    """Both ends of a transfer end well, the sender within some seconds, and all bytes arrived. How long it took."""
    begun = time.monotonic()
    told = ended(sender, seconds), ended(receiver, 10)
    came = read_bytes(receiver.path)
    want(told == ("0", "0") and came == content, f"send {told[0]}, receive {told[1]}, and {len(came)} of {len(content)} bytes arrived")
    return f"{time.monotonic() - begun:.1f} s"


def executable(path, text):
    """Makes a program of a text. Another process writes it: one that begins in this process meanwhile would have the file open, and a
    file that is open for writing cannot be run."""
    subprocess.run(["tee", path], input=text, encoding="utf-8", stdout=subprocess.DEVNULL, check=True)
    os.chmod(path, 0o755)
    return path


def stands(process, command):
    """A command has not ended."""
    if process.poll() is not None:
        raise Wrong(f"{command} {ended(process, 1)}")


class Play:
    """What a test started, with a folder of its own. All of it ends with the test."""

    def __init__(self):
        self.folder = tempfile.TemporaryDirectory(prefix="play-")
        self.room, self.started, self.peers, self.open, self.count = self.folder.name, [], [], [], 0
        self.secret = SECRET

    def __enter__(self):
        return self

    def __exit__(self, *_):
        for process in self.started:
            if process.poll() is None:
                process.kill()
            process.wait()
            if process.stderr:
                process.stderr.close()
        for it in self.peers + self.open:
            it.close()
        self.folder.cleanup()

    def start(self, command, words, given=subprocess.DEVNULL, out=subprocess.DEVNULL, **how):
        # (while a port is tried, no process begins: it would have that socket until it runs its program)
        with GIVING:
            self.count += 1
            totals, log = f"{self.room}/{self.count}.totals", how.pop("log", f"{self.room}/{self.count}.log")
            words = [how.pop("program", PROGRAM), command, *words, f"--totals={totals}", f"--log={log}"]
            how.setdefault("stderr", subprocess.PIPE)
            process = subprocess.Popen(words, stdin=given, stdout=out, **how)
        process.totals, process.log = totals, log
        self.started.append(process)
        return process

    def file(self, content):
        """A file with these bytes, open for reading."""
        file = tempfile.TemporaryFile(dir=self.room)
        file.write(content)
        file.seek(0)
        self.open.append(file)
        return file

    @listening
    def receive(self, *words, token="t", address="test.b", peer="test.a", most=1_000_000, secret=None, port=None, path=None, **how):
        """A receiver that listens; `path` is that of what it writes."""
        path = path or f"{self.room}/{port}.out"
        with open(path, "wb") as out:
            ways = [f"--listen={HOST}:{port}", f"--token={token}", f"--address={address}", f"--peer={peer}"]
            it = self.start("receive", [*ways, f"--secret={secret or self.secret}", f"--receive-max={most}", *words], out=out, **how)
        it.port, it.path = port, path
        return it

    @listening
    def connector(self, table, *words, port=None, requests=STAY, **how):
        """A connector that listens, with this table."""
        ways = [f"--listen={HOST}:{port}", "--own=test.hub", f"--requests={requests}"]
        it = self.start("connector", [*ways, *words], given=self.file(table.encode()), **how)
        it.port = port
        return it

    def before(self, receiver, *words, **how):
        """A connector of two accounts: the sender's, and the receiver's or a peer's. It accepts any money."""
        return self.connector(table_to(receiver.port), *words, **how)

    def send(self, port, given, *words, token="t", address="test.a", peer="test.b", secret=None, host=HOST, **how):
        if isinstance(given, bytes):
            given = self.file(given)
        ways = [f"--to={host}:{port}", f"--token={token}", f"--address={address}", f"--peer={peer}", f"--secret={secret or self.secret}"]
        return self.start("send", [*ways, *words], given=given, **how)

    def peer(self, handle):
        it = Peer(handle)
        self.peers.append(it)
        return it

    def pipe(self):
        """A silent input, and the file that it is written by."""
        given, writer = os.pipe()
        writer = os.fdopen(writer, "wb", buffering=0)
        given = os.fdopen(given, "rb")
        self.open += [writer, given]
        return given, writer

    def terminal(self):
        """A pseudo-terminal: the file that has what is written to it, and the one that it is written to."""
        files = [os.fdopen(it, "r+b", buffering=0) for it in pty.openpty()]
        self.open += files
        return files

    def connect(self, port, content=b""):
        """A connection on which so much is sent and then nothing."""
        stream = socket.create_connection((HOST, port), timeout=60)
        self.open.append(stream)
        stream.sendall(content)
        return stream

    def knock(self, port):
        """A connection that is closed at once, if one is accepted."""
        try:
            self.connect(port).close()
        except OSError:
            pass


def disk(play, size):
    """A folder on a disk of its own, of this size, in a mount namespace that ends with the test: the folder's path there, a program
    that is the tested one within it, and the path by which this process sees the folder."""
    place = f"{play.room}/disk"
    os.mkdir(place)
    shell = f'mount -t tmpfs -o size={size} none "$1" && echo mounted && exec sleep 1000'
    own = [] if os.getuid() == 0 else ["--user"]
    ways = ["unshare", "--mount", *own, *["--map-root-user"] * len(own)]
    try:
        it = subprocess.Popen([*ways, "sh", "-c", shell, "sh", place], stdout=subprocess.PIPE, stderr=subprocess.PIPE)
    except OSError as error:
        raise Skipped(f"no unshare: {error}") from None
    play.started.append(it)
    with it.stdout as told:
        if told.readline() != b"mounted\n":
            raise Skipped(f"no disk of its own: {it.stderr.read().decode().strip()}")
    within = f"{play.room}/within"
    words = ["nsenter", f"--target={it.pid}", "--mount", *own, *["--preserve-credentials"] * len(own), PROGRAM]
    executable(within, f'#!/bin/sh\nexec {shlex.join(words)} "$@"\n')
    return place, within, f"/proc/{it.pid}/root{place}"


def table_to(port):
    return f"account 1000000000 1000000 t - -\naccount 0 0 u {HOST}:{port} t\nroute test.b 1\n"


def tried(name, function, row):
    """A line that says what a test saw, and whether it passed; None in its place if it was skipped."""
    try:
        with Play() as play:
            return True, f"{name}: {function(play, *row)}"
    except Wrong as wrong:
        return False, f"{name}: WRONG: {wrong}"
    except Skipped as why:
        return None, f"{name}: skipped: {why}"
    except Exception as error:  # a test that breaks off is one that failed
        return False, f"{name}: WRONG: {type(error).__name__}: {error}"


def main():
    """Runs the tests. One that waits runs at the same time as others, which may make it late: if it fails, it is tried once more, alone."""
    word = WORDS[1] if len(WORDS) > 1 else ""
    waiting, others = ([it for it in tests if word in it[0]] for tests in (WAITING, TESTS))
    results, again = RESULTS, []
    with ThreadPoolExecutor(max_workers=AT_ONCE) as pool:
        begun = [(it, pool.submit(tried, *it)) for it in waiting]
        for it in others:
            show(results, *tried(*it))
        for it, work in begun:
            passed, told = work.result()
            if passed is False and it[1] not in ONCE:
                print(f"{told}; it is tried again, alone", flush=True)
                again.append(it)
            else:
                show(results, passed, told)
    for it in again:
        show(results, *tried(*it))
    print(f"{results.count(True)} passed, {results.count(False)} failed")
    return 0 if results and all(results) else 1


def show(results, passed, told):
    """Prints what a test saw, and notes whether it passed."""
    results.append(passed)
    print(told, flush=True)


def option(name, default):
    """The value of `--NAME=VALUE` among a file's words."""
    found = [it.partition("=")[2] for it in sys.argv[1:] if it.startswith(f"--{name}=")]
    return found[-1] if found else default
