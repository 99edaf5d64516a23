#!/usr/bin/env python3
"""Runs the commands with streams and files as an operator may leave them: opens.py [PROGRAM [WORD]]. With standard streams that are
closed, with files of totals that have a mode, an owner and others next to them, and with files and addresses that cannot be opened. With a WORD, only the tests whose names have it. A line
for each test; the last line counts them. No test takes more than half a minute."""
import glob
import itertools
import os
import re
import select
import stat
import subprocess
import sys

from commands import script, without
from peers import HOST, ended, free_port, use_up
from play import PROGRAM, STAY, arrives, main, some_bytes, stands, table_to, test, want
from repository import read, write

CONTENT = some_bytes(50_000)
# each way to close some of the descriptors 0 to 2
CLOSED = [("".join(it),) for count in (1, 2, 3) for it in itertools.combinations("012", count)]
FOREIGN = "not a connector's\n"


def refused_at_once(process, closed, fault):
    """A command ended with a fault, which it could report if it has standard error, and had made no file."""
    told = ended(process, 20)
    want(told == (fault if "2" not in closed else "WRONG 1 b''"), f"it ended with {told}")
    made = [it for it in (process.totals, process.log) if os.path.exists(it)]
    want(not made, f"it made {made}")
    return told


def has_its_own_text(process):
    """The files of totals and events have nothing but lines of totals and events."""
    lines = read(process.totals).splitlines()
    want(all(re.fullmatch(r"[a-z]+( [a-z0-9A-Z]+)* \d+", it) for it in lines), f"totals {lines[:5]}")
    lines = read(process.log).splitlines()
    want(lines and all(re.match(r"\d{4}-\d\d-\d\dT[\d:.]+Z [a-z]", it) for it in lines), f"events {lines[:5]}")


# Standard streams that are closed.


@test(*CLOSED, waits=True)
def a_sender_started_without(play, closed):
    receiver = play.receive()
    sender = play.send(receiver.port, CONTENT, "--money=500", program=without(play, closed))
    if "0" in closed:
        told = refused_at_once(sender, closed, "90")
        stands(receiver, "receive")
        want(os.path.getsize(receiver.path) == 0, "something came")
        return told
    told = arrives(sender, receiver, CONTENT)
    has_its_own_text(sender)
    return told


@test(waits=True)
def a_sender_without_an_input_or_files(play):
    receiver = play.receive()
    ways = [f"--to={HOST}:{receiver.port}", "--token=t", f"--secret={play.secret}", "--address=test.a", "--peer=test.b", "--money=500"]
    ran = subprocess.run([without(play, "0"), "send", *ways], capture_output=True, timeout=10, check=False)
    want((ran.returncode, ran.stderr) == (1, b"fault 90\n"), f"{ran}")
    stands(receiver, "receive")
    want(os.path.getsize(receiver.path) == 0, "something came")
    return "90"


@test(*CLOSED, waits=True)
def a_receiver_started_without(play, closed):
    if "1" in closed:
        ways = [f"--listen={HOST}:{free_port()}", "--token=t", f"--secret={play.secret}", "--address=test.b", "--peer=test.a"]
        with open(f"{play.room}/out", "wb") as out:
            it = play.start("receive", ways, out=out, program=without(play, closed))
        return refused_at_once(it, closed, "91")
    receiver = play.receive(program=without(play, closed))
    told = arrives(play.send(receiver.port, CONTENT, "--money=500"), receiver, CONTENT)
    has_its_own_text(receiver)
    return told


@test(*CLOSED, waits=True)
def a_connector_started_without(play, closed):
    if "0" in closed:
        ways = [f"--listen={HOST}:{free_port()}", "--own=test.hub", f"--requests={STAY}"]
        it = play.start("connector", ways, given=play.file(table_to(1).encode()), program=without(play, closed))
        return refused_at_once(it, closed, "90")
    receiver = play.receive()
    hub = play.before(receiver, requests=100, program=without(play, closed))
    told = arrives(play.send(hub.port, CONTENT, "--money=500"), receiver, CONTENT)
    use_up(hub, hub.port, "t")
    want(ended(hub, 10) == "0", "the connector does not end")
    has_its_own_text(hub)
    return told


def bytes_of(*paths):
    found = []
    for path in paths:
        with open(path, "rb") as file:
            found.append(file.read())
    return found


@test(*CLOSED, waits=True)
def a_ledger_printed_without(play, closed):
    books = f"{play.room}/books"
    hub = play.connector(table_to(1), f"--ledger={books}")
    hub.kill()
    hub.wait()
    before = bytes_of(books, f"{books}-wal")
    ran = subprocess.run([without(play, closed), "ledger", books], capture_output=True, stdin=subprocess.DEVNULL, timeout=20, check=False)
    lines = b"account 0 claims 0 dues 0\naccount 1 claims 0 dues 0\nstarts 1\n"
    wanted = (1, b"", b"fault 91\n" if "2" not in closed else b"") if "1" in closed else (0, lines, b"")
    want((ran.returncode, ran.stdout, ran.stderr) == wanted, f"{ran}")
    want("1" not in closed or bytes_of(books, f"{books}-wal") == before, "the books are changed")
    return ran.returncode


ALONE = {
    "frames": (b"010c010201000101140701010100026162\n", b"stream 1 2 6162\n"),
    "local": (b"abcd", b"abcd"),
    "explain 97": (b"", None),
}


@test(*[(command, *closed) for command in ALONE for closed in CLOSED])
def run_without(play, command, closed):
    given, wanted = ALONE[command]
    ran = subprocess.run([without(play, closed), *command.split()], input=given, capture_output=True, timeout=20, check=False)
    reads = command != "explain 97" and "0" in closed
    fault = b"fault 90\n" if reads else b"fault 91\n" if "1" in closed else b""
    want((ran.returncode, ran.stderr) == (1 if fault else 0, b"" if "2" in closed else fault), f"{ran}")
    want(fault or wanted in (None, ran.stdout), f"it printed {ran.stdout!r}")
    return f"{ran.returncode}"


# A file of totals, and those next to it.


def at_files_of_totals(play, act):
    """Does something with the names of the files of totals that the next commands have."""
    for number in range(play.count + 1, play.count + 5):
        act(f"{play.room}/{number}.totals")


def connector_that_ends(play, **how):
    hub = play.connector(table_to(1), requests=1, **how)
    use_up(hub, hub.port, "none")
    told = ended(hub, 20)
    want(told == "0", f"connector {told}")
    want(read(hub.totals).startswith("account 0 claims 0 "), f"it says {read(hub.totals)!r}")
    return hub


@test((0o600,), (0o640,), (0o666,))
def a_file_of_totals_that_is_replaced_keeps_its_mode(play, mode):
    owner = (12_345, 23_456) if os.getuid() == 0 else (os.getuid(), os.getgid())

    def made(path):
        write(path, "of an earlier run\n")
        os.chmod(path, mode)
        os.chown(path, *owner)

    at_files_of_totals(play, made)
    found = os.stat(connector_that_ends(play).totals)
    want(stat.S_IMODE(found.st_mode) == mode, f"mode {found.st_mode:o} of {mode:o}")
    want((found.st_uid, found.st_gid) == owner, f"owner {found.st_uid}, {found.st_gid}")
    return f"{mode:o}"


@test()
def a_new_file_of_totals_has_the_mode_of_any_new_file(play):
    found = os.stat(connector_that_ends(play, program=script(play, "umask 027", f'exec {PROGRAM} "$@"')).totals)
    want(stat.S_IMODE(found.st_mode) == 0o640, f"mode {found.st_mode:o}")
    return "640"


@test()
def a_file_beside_totals_that_is_not_the_connectors_stays(play):
    at_files_of_totals(play, lambda path: write(f"{path}.new", FOREIGN))
    # (the number of a process stays if it runs another program)
    taken = 'for it; do case $it in --totals=*) echo "not a connector'"'"'s" >"${it#*=}.new.$$.0" ;; esac; done'
    hub = connector_that_ends(play, program=script(play, taken, f'exec {PROGRAM} "$@"'))
    beside = sorted(glob.glob(f"{hub.totals}.new*"))
    want(beside == [f"{hub.totals}.new", f"{hub.totals}.new.{hub.pid}.0"], f"beside it are {beside}")
    want(all(read(it) == FOREIGN for it in beside), "one was written")
    return "two"


# What keeps a command from its work, in words.


def run_at(play, words, errors):
    """Runs a command that ends with status 1, over a table as its input."""
    given = play.file(table_to(1).encode())
    ran = subprocess.run([PROGRAM, *words], stdin=given, stdout=subprocess.DEVNULL, stderr=errors, timeout=20, check=False)
    want(ran.returncode == 1, f"status {ran.returncode}")
    return ran.stderr


def came_to(above):
    """What was written to a terminal. The system hands it on after the writer, so it is read until nothing comes for half a second."""
    found = b""
    while select.select([above], [], [], 0.5)[0]:
        found += above.read(4_096)
    return found.replace(b"\r\n", b"\n").decode()


def told_by_command(play, words):
    """What a command writes to standard error, if that is a terminal, and if it is a pipe."""
    above, below = play.terminal()
    run_at(play, words, below)
    return came_to(above), run_at(play, words, subprocess.PIPE).decode()


def ways_of(play, command, *others):
    """The arguments of a command, in which others take the place of those of the same option."""
    ends = ["--token=t", f"--secret={play.secret}", "--address=test.a", "--peer=test.b"]
    ways = {
        "send": [f"--to={HOST}:1", *ends],
        "receive": [f"--listen={HOST}:{free_port()}", *ends],
        "connector": [f"--listen={HOST}:{free_port()}", "--own=test.hub", "--requests=1"],
    }[command]
    given = {it.partition("=")[0].replace("-file", "") for it in others}
    return [command, *(it for it in ways if it.partition("=")[0] not in given), *others]


OBSTACLES = [
    ("send", "--log=/nowhere/log", "98", "cannot open --log /nowhere/log: not found"),
    ("receive", "--log=/", "98", "cannot open --log /: is a directory"),
    ("connector", "--log=/nowhere/log", "98", "cannot open --log /nowhere/log: not found"),
    ("send", "--totals=/nowhere/totals", "98", "cannot open --totals /nowhere/totals: not found"),
    ("connector", "--totals=/nowhere/totals", "98", "cannot make a file next to --totals /nowhere/totals: not found"),
    ("connector", "--totals=/", "98", "cannot open --totals /: is a directory"),
    ("send", "--random=/nowhere/random", "90", "cannot open --random /nowhere/random: not found"),
    ("send", "--token-file=/nowhere/token", "98", "cannot read --token-file /nowhere/token: not found"),
    ("receive", "--token-file=/dev/null", "98", "cannot read --token-file /dev/null: bad first line"),
    ("receive", "--secret-file=/dev/null", "98", "cannot read --secret-file /dev/null: bad first line"),
    ("receive", "--listen=192.0.2.1:7771", "80", "cannot listen on 192.0.2.1:7771: no address of this host"),
    ("connector", "--listen=192.0.2.1:7770", "80", "cannot listen on 192.0.2.1:7770: no address of this host"),
    ("receive", "--listen=nowhere.invalid:7771", "80", "cannot listen on nowhere.invalid:7771: unknown name"),
    ("send", "--to=h:65536", "98", "--to is HOST:PORT, with a port up to 65535"),
    ("send", "--token=a b", "98", "--token is 1 to 255 visible characters"),
    ("receive", "--secret=00", "98", "--secret is 64 hexadecimal digits"),
    ("send", "--address=a/b", "98", "--address is an ILP address"),
    ("receive", "--peer=.b", "98", "--peer is an ILP address"),
    ("send", "--least=3", "98", "--least is NUM:DEN, each from 1 to 4294967295"),
    ("send", "--money=+5", "98", "a number has digits alone"),
    ("receive", "--listen=here", "98", "--listen is HOST:PORT, with a port up to 65535"),
    ("connector", "--own=test hub", "98", "--own is an ILP address"),
]


@test(*OBSTACLES)
def it_says_of(play, command, option, fault, words):
    found = told_by_command(play, ways_of(play, command, option))
    want(found == (f"fault {fault}\n{words}\n", f"fault {fault}\n"), f"it told {found}")
    return fault


@test(("receive",), ("connector",))
def an_address_in_use_is_told_by(play, command):
    port = play.receive().port
    log = f"{play.room}/log"
    words = f"cannot listen on {HOST}:{port}: address in use"
    found = told_by_command(play, ways_of(play, command, f"--listen={HOST}:{port}", f"--log={log}"))
    want(found == (f"fault 80\n{words}\n", "fault 80\n"), f"it told {found}")
    last = read(log).splitlines()[-1].partition(" ")[2]
    want(last == f'end fault=80 words="{words}"', f"the log says {last!r}")
    return "80"


if __name__ == "__main__":
    sys.exit(main())
