#!/usr/bin/env python3
"""Asks `connector` and `receive` things while they run: control.py [PROGRAM [WORD]]. An endless connector, the line that says where a
command listens, the lines of `--control`, and a table that is read anew. With a WORD, only the tests whose names have it. A line for
each test; the last line counts them. No test takes more than three quarters of a minute."""
import errno
import os
import re
import socket
import subprocess
import threading
import time

from peers import HOST, answer, asked, ended, free_port, fulfill, listens, message, prepare, request, totals
from play import PROGRAM, Wrong, arrives, comes, executable, has_to_listen, main, some_bytes, stands, table_to, test, want
from repository import read, read_bytes, write, write_bytes

CONTENT = some_bytes(50_000)
# the longest time between an order and what it does
SOON = 3


def told_by(path):
    """The text of a file, and none if it is not there."""
    try:
        return read(path, "ascii", "replace")
    except FileNotFoundError:
        return ""


def lines(process, path=None):
    """The lines of a log, without their dates."""
    return [it.partition(" ")[2] for it in told_by(path or process.log).split("\n")[:-1]]


def awaits(is_so, told, bound=SOON):
    """Waits until something is so."""
    if not comes(is_so, bound):
        raise Wrong(told() if callable(told) else told)


def logs(process, line, bound=SOON):
    awaits(lambda: line in lines(process), lambda: f"no line {line!r}: {lines(process)[-5:]}", bound)


def fifo(play):
    path = f"{play.room}/control{len(os.listdir(play.room))}"
    os.mkfifo(path)
    return path


def order(path, *words):
    """Writes lines to a pipe that is read."""
    pipe = os.open(path, os.O_WRONLY | os.O_NONBLOCK)
    try:
        os.write(pipe, "".join(f"{it}\n" for it in words).encode())
    finally:
        os.close(pipe)


def connector(play, table, *words, requests="--endless", port=None, **how):
    """A connector that listens. Its table is standard input if it is a text, and else none."""
    port = port or free_port()
    given = subprocess.DEVNULL if table is None else play.file(table.encode())
    it = play.start("connector", [f"--listen={HOST}:{port}", "--own=test.hub", requests, *words], given=given, **how)
    it.port = port
    has_to_listen(it, "a connector")
    return it


def stops(process, control, bound=SOON):
    """A command ends well by the line `stop`, and says so."""
    order(control, "stop")
    told = ended(process, bound)
    want(told == "0", f"it ended with {told}")
    last = lines(process)[-1]
    want(last == "end ok", f"the last line is {last!r}")


def transfers(play, port, receiver, money=500):
    sender = play.send(port, CONTENT, f"--money={money}")
    arrives(sender, receiver, CONTENT, 30)


def answered(hub, amount):
    """The answer to a Prepare of an amount."""
    return asked((HOST, hub.port), request("t", prepare(amount, 30, "test.b")))[1]


def refused_at(port):
    """Whether nothing accepts a connection at a port."""
    try:
        socket.create_connection((HOST, port), timeout=1).close()
    except OSError as error:
        return error.errno == errno.ECONNREFUSED
    return False


# A connector without end.


@test(waits=True)
def an_endless_connector(play):
    receiver = play.receive()
    hub = connector(play, table_to(receiver.port))
    for _ in range(2_000):
        play_once(hub.port)
    stands(hub, "connector")
    transfers(play, hub.port, receiver)
    stands(hub, "connector")
    start = lines(hub)[0]
    want(start.endswith(" workers=4 requests=endless"), f"it begins with {start!r}")
    return start


def play_once(port):
    """A connection that is closed without a request: to any other connector it counts."""
    socket.create_connection((HOST, port), timeout=30).close()


@test(("--requests=5", "--endless"), ())
def exactly_one_of_requests_and_endless(play, *words):
    ways = [PROGRAM, "connector", f"--listen={HOST}:{free_port()}", "--own=test.hub", *words]
    ran = subprocess.run(ways, capture_output=True, stdin=subprocess.DEVNULL, timeout=20, check=False)
    both = b"error: the argument '--requests <N>' cannot be used with '--endless'\n"
    neither = b"error: the following required arguments were not provided:\n  <--requests <N>|--endless>\n"
    want(ran.returncode == 2 and ran.stderr.startswith(both if words else neither), f"{ran}")
    return ran.returncode


@test(waits=True)
def a_number_of_requests_ends_it_still(play):
    hub = connector(play, table_to(free_port()), requests="--requests=3")
    for _ in range(3):
        play_once(hub.port)
    told = ended(hub, 10)
    want(told == "0", told)
    return told


# The port at which a command listens.


def said_by(process, bound=10):
    """The first line of standard error, while the process runs."""
    os.set_blocking(process.stderr.fileno(), False)
    found = b""
    until = time.monotonic() + bound
    while not found.endswith(b"\n") and time.monotonic() < until:
        found += process.stderr.read() or b""
        time.sleep(0.02)
    os.set_blocking(process.stderr.fileno(), True)
    return found


def any_port(play, command, *words):
    """A command that listens at a port that the system gives."""
    if command == "connector":
        ways = [f"--listen={HOST}:0", "--own=test.hub", "--requests=1", *words]
        return play.start("connector", ways, given=play.file(table_to(1).encode()))
    ways = [f"--listen={HOST}:0", "--token=t", "--address=test.b", "--peer=test.a", f"--secret={play.secret}", *words]
    return play.start("receive", ways)


@test(("connector",), ("receive",), waits=True)
def a_port_that_is_given_is_told_by(play, command):
    it = any_port(play, command, "--verbose")
    said = said_by(it)
    found = re.fullmatch(rb"listening address=127\.0\.0\.1:(\d+)\n", said)
    want(found, f"standard error {said!r}")
    port = int(found[1])
    want(listens(port), f"nothing listens at {port}")
    want(f"listening address={HOST}:{port}" in lines(it), f"log {lines(it)}")
    return port


@test(("connector",), ("receive",), waits=True)
def the_log_alone_tells_it_without_verbose(play, command):
    it = any_port(play, command)
    awaits(lambda: any(one.startswith("listening address=") for one in lines(it)), lambda: f"log {lines(it)}", 10)
    port = int(lines(it)[1].rpartition(":")[2])
    want(listens(port), f"nothing listens at {port}")
    it.kill()
    want(it.communicate()[1] == b"", "something is on standard error")
    return lines(it)[1]


@test(waits=True)
def an_address_in_use_is_not_told_as_listening(play):
    receiver = play.receive()
    ways = [f"--listen={HOST}:{receiver.port}", "--own=test.hub", "--requests=1", "--verbose"]
    it = play.start("connector", ways, given=play.file(table_to(1).encode()))
    told = ended(it, 10)
    want(told == "80" and not any(one.startswith("listening") for one in lines(it)), f"{told} {lines(it)}")
    return told


# The lines of `--control`.


def not_pipes(play):
    file, folder = f"{play.room}/file", f"{play.room}/folder"
    write(file, "stop\n")
    os.mkdir(folder)
    return {"nothing": (f"{play.room}/none", "not found"), "a file": (file, "not a pipe"), "a folder": (folder, "not a pipe")}


@test(*[(command, what) for command in ("connector", "receive") for what in ("nothing", "a file", "a folder")], waits=True)
def no_pipe_for(play, command, what):
    path, why = not_pipes(play)[what]
    it = any_port(play, command, f"--control={path}")
    told = ended(it, 10)
    want(told == "98", told)
    last = lines(it)[-1]
    want(last == f'end fault=98 words="cannot open --control {path}: {why}"', f"log {last!r}")
    want(not any(one.startswith("listening") for one in lines(it)), "it listened")
    return why


@test(waits=True)
def a_connector_that_stops(play):
    control, receiver = fifo(play), play.receive()
    hub = connector(play, table_to(receiver.port), f"--control={control}")
    transfers(play, hub.port, receiver)
    began = time.monotonic()
    stops(hub, control)
    took = time.monotonic() - began
    found = totals(hub.totals)
    want(found.get("account 0 claims") == 500 and found.get("account 1 dues") == 500, f"totals {found}")
    want('control line="stop"' in lines(hub), f"log {lines(hub)[-4:]}")
    want(refused_at(hub.port), "something listens still")
    want(took < 2, f"it took {took:.2f} seconds")
    return f"{took:.2f} s"


def held_back(play, seconds):
    """A neighbour that answers each Prepare with its Fulfill, after some seconds."""

    def handle(_, stream):
        message(stream)
        time.sleep(seconds)
        stream.sendall(answer(fulfill()))

    return play.peer(handle)


@test(waits=True)
def what_is_open_is_finished_and_nothing_more_is_taken(play):
    control, books = fifo(play), f"{play.room}/books"
    slow = held_back(play, 3)
    hub = connector(play, table_to(slow.port), f"--control={control}", f"--ledger={books}")
    answers = []
    asking = [threading.Thread(target=lambda: answers.append(answered(hub, 70))) for _ in range(8)]
    for it in asking:
        it.start()
    awaits(lambda: slow.number == 8, "not all came to the neighbour", 10)
    order(control, "stop")
    awaits(lambda: refused_at(hub.port), "a connection is accepted after the stop")
    stands(hub, "connector")
    told = ended(hub, 15)
    for it in asking:
        it.join()
    want(told == "0", f"it ended with {told}")
    kinds = [body[:1] for body in answers]
    want(kinds == [b"\x0d"] * 8, f"answers {kinds}")
    want(totals(hub.totals).get("account 0 claims") == 560, f"totals {totals(hub.totals)}")
    ran = subprocess.run([PROGRAM, "ledger", books], capture_output=True, timeout=20, check=False)
    want(b"account 0 claims 560 dues 0\n" in ran.stdout, f"books {ran}")
    want(lines(hub)[-1] == "end ok", f"log {lines(hub)[-1]!r}")
    return f"{len(answers)} answers"


@test(waits=True)
def a_silent_connection_holds_a_stop_up_for_half_a_minute_at_most(play):
    control = fifo(play)
    hub = connector(play, table_to(free_port()), f"--control={control}")
    play.connect(hub.port, b"POST /ilp HTTP/1.1\r\n")
    time.sleep(0.5)
    began = time.monotonic()
    stops(hub, control, 36)
    took = time.monotonic() - began
    return f"{took:.1f} s"


@test(waits=True)
def a_stop_while_many_connect(play):
    """None of those that come is left without an answer but by a refused or a closed connection, and the connector ends."""
    control, receiver = fifo(play), play.receive()
    hub = connector(play, table_to(receiver.port), f"--control={control}", "--workers=16")
    over, count = threading.Event(), [0]

    def press():
        while not over.is_set():
            asked((HOST, hub.port), request("t", b"\0"), 5)
            count[0] += 1

    pressing = [threading.Thread(target=press) for _ in range(16)]
    for it in pressing:
        it.start()
    time.sleep(1)
    try:
        stops(hub, control, 10)
    finally:
        over.set()
        for it in pressing:
            it.join()
    return f"{count[0]} requests"


@test(waits=True)
def totals_are_written_when_they_are_asked_for(play):
    control, receiver = fifo(play), play.receive()
    hub = connector(play, table_to(receiver.port), f"--control={control}")
    transfers(play, hub.port, receiver)
    want(not os.path.exists(hub.totals) or totals(hub.totals) == {}, "the totals are there before")
    order(control, "totals")
    awaits(lambda: totals(hub.totals).get("account 0 claims") == 500, lambda: f"totals {totals(hub.totals)}")
    want(any(re.match(r"totals neighbour=0 claims=500 ", it) for it in lines(hub)), f"log {lines(hub)}")
    stands(hub, "connector")
    return "500"


@test(waits=True)
def totals_of_a_receiver_are_written_when_they_are_asked_for(play):
    control = fifo(play)
    receiver = play.receive(f"--control={control}")
    given, writer = play.pipe()
    sender = play.send(receiver.port, given, "--money=500")
    writer.write(CONTENT)
    awaits(lambda: os.path.getsize(receiver.path) == len(CONTENT), "not all came", 20)

    def told():
        order(control, "totals")
        time.sleep(0.3)
        return totals(receiver.totals) == {"accepted": 0, "delivered": len(CONTENT), "credited": 500, "paid": 0}

    awaits(told, lambda: f"totals {totals(receiver.totals)}", 5)
    writer.write(b"x" * 60_000)
    writer.close()
    want((ended(sender, 30), ended(receiver, 30)) == ("0", "0"), "the transfer does not end")
    found = totals(receiver.totals)
    want(found == {"accepted": 0, "delivered": len(CONTENT) + 60_000, "credited": 500, "paid": 0}, f"at the end {found}")
    return found["delivered"]


@test(waits=True)
def a_receiver_that_stops(play):
    control = fifo(play)
    receiver = play.receive(f"--control={control}")
    given, writer = play.pipe()
    sender = play.send(receiver.port, given, "--money=500")
    writer.write(CONTENT)
    awaits(lambda: os.path.getsize(receiver.path) == len(CONTENT), "not all came", 20)
    stops(receiver, control)
    want(read_bytes(receiver.path) == CONTENT, "another file came")
    want(totals(receiver.totals).get("delivered") == len(CONTENT), f"totals {totals(receiver.totals)}")
    sender.kill()
    return "stopped"


@test(waits=True)
def a_receiver_that_waits_for_its_first_request_stops(play):
    control = fifo(play)
    receiver = play.receive(f"--control={control}", "--patience=60")
    stops(receiver, control)
    return "stopped"


@test(("connector",), ("receive",), waits=True)
def a_log_that_was_moved_is_opened_anew_by(play, command):
    control = fifo(play)
    it = connector(play, table_to(1), f"--control={control}") if command == "connector" else play.receive(f"--control={control}")
    old = f"{play.room}/old.log"
    os.rename(it.log, old)
    order(control, "totals")
    awaits(lambda: 'control line="totals"' in lines(it, old), "the log is not at the place that it was moved to")
    order(control, "log")
    awaits(lambda: os.path.exists(it.log) and 'control line="log"' in lines(it), lambda: f"the new log {lines(it)}")
    before = told_by(old)
    stops(it, control)
    want(told_by(old) == before and before.endswith("\n"), "the old log is written to")
    want(lines(it)[0] == 'control line="log"' and lines(it)[-1] == "end ok", f"the new log {lines(it)}")
    return len(lines(it))


@test(waits=True)
def a_log_that_cannot_be_opened_anew_stays(play):
    control, folder = fifo(play), f"{play.room}/logs"
    os.mkdir(folder)
    hub = connector(play, table_to(1), f"--control={control}", log=f"{folder}/log")
    old = f"{play.room}/old"
    os.rename(folder, old)
    order(control, "log")
    wanted = 'control failed line="log" words="not found"'
    awaits(lambda: wanted in lines(hub, f"{old}/log"), lambda: f"log {lines(hub, old + '/log')}")
    order(control, "stop")
    want(ended(hub, SOON) == "0", "it does not end")
    want(lines(hub, f"{old}/log")[-1] == "end ok", "the old log is not continued")
    return wanted


@test(waits=True)
def another_line_does_nothing(play):
    control, receiver = fifo(play), play.receive()
    hub = connector(play, table_to(receiver.port), f"--control={control}")
    order(control, "halt", "Stop", "stop ", "", "table", "x" * 5_000, 'st"op\\')
    for line in ("halt", "Stop", "stop ", "", "table", 'st\\"op\\\\'):
        logs(hub, f'control unknown line="{line}"')
    want(f'control unknown line="{"x" * 256}.."' in lines(hub), f"log {lines(hub)[-3:]}")
    stands(hub, "connector")
    transfers(play, hub.port, receiver)
    stops(hub, control)
    return "7 lines"


@test(waits=True)
def a_line_that_comes_in_parts(play):
    control = fifo(play)
    hub = connector(play, table_to(1), f"--control={control}")
    pipe = os.open(control, os.O_WRONLY | os.O_NONBLOCK)
    os.write(pipe, b"st")
    time.sleep(0.6)
    stands(hub, "connector")
    os.close(pipe)
    order(control, "op")
    told = ended(hub, SOON)
    want(told == "0", told)
    return told


@test(waits=True)
def a_flood_of_lines_holds_no_transfer_up(play):
    control, receiver = fifo(play), play.receive()
    hub = connector(play, table_to(receiver.port), f"--control={control}")
    over = threading.Event()

    def flood():
        pipe = os.open(control, os.O_WRONLY | os.O_NONBLOCK)
        while not over.is_set():
            try:
                os.write(pipe, b"nothing of this is known\n" * 100)
            except BlockingIOError:
                time.sleep(0.001)
        os.close(pipe)

    flooding = threading.Thread(target=flood)
    flooding.start()
    try:
        transfers(play, hub.port, receiver)
        stands(hub, "connector")
    finally:
        over.set()
        flooding.join()
    return f"{len(lines(hub))} lines of the log"


@test(waits=True)
def two_orders_at_once(play):
    control, receiver = fifo(play), play.receive()
    hub = connector(play, table_to(receiver.port), f"--control={control}")
    transfers(play, hub.port, receiver)
    order(control, "totals", "log", "stop")
    told = ended(hub, SOON)
    want(told == "0", told)
    want([it for it in lines(hub) if it.startswith("control")] == [f'control line="{it}"' for it in ("totals", "log", "stop")], f"log {lines(hub)}")
    return told


# A table in a file, and one that is read anew.


def table_file(play, table):
    path = f"{play.room}/table"
    write_table(path, table)
    return path


def write_table(path, table):
    write(f"{path}.next", table)
    os.replace(f"{path}.next", path)


def renews(hub, control, path, table, answer_line='control line="table"'):
    """Has a connector read its table anew."""
    write_table(path, table)
    before = lines(hub).count(answer_line)
    order(control, "table")
    awaits(lambda: lines(hub).count(answer_line) == before + 1, lambda: f"log {lines(hub)[-5:]}")


def named(*accounts, routes=()):
    """A table of accounts, each with its name, its limit, its token, and the port of its neighbour or 0; and routes to the places."""
    found = [f"account NAME={name} {limit} 1000000 {token} {f'{HOST}:{port} {token}' if port else '- -'}\n" for name, limit, token, port in accounts]
    return "".join(found) + "".join(f"route {prefix} {place}\n" for prefix, place in routes)


@test(waits=True)
def a_table_in_a_file(play):
    receiver = play.receive()
    hub = connector(play, None, f"--table={table_file(play, table_to(receiver.port))}")
    transfers(play, hub.port, receiver)
    return "transferred"


@test(waits=True)
def a_table_in_a_file_needs_no_input(play):
    path = executable(f"{play.room}/closed", f'#!/bin/bash\nexec {PROGRAM} "$@" <&-\n')
    hub = connector(play, None, f"--table={table_file(play, table_to(1))}", program=path)
    stands(hub, "connector")
    return "listens"


@test(("none", "98", "cannot read --table {}: not found"), ("folder", "98", "cannot read --table {}: is a directory"), ("bad", "96", "the table is bad"), waits=True)
def a_table_file_that_is(play, what, fault, words):
    path = f"{play.room}/table"
    if what == "folder":
        os.mkdir(path)
    if what == "bad":
        write_table(path, "account 1\n")
    it = play.start("connector", [f"--listen={HOST}:{free_port()}", "--own=test.hub", "--endless", f"--table={path}"])
    told = ended(it, 10)
    want(told == fault, f"it ended with {told}")
    last = lines(it)[-1]
    want(what == "folder" or last == f'end fault={fault} words="{words.format(path)}"', f"log {last!r}")
    return told


BOOKS = ((False,), (True,))


@test(*BOOKS, waits=True)
def accounts_keep_their_sums_by_name_with_books(play, has_books):
    """The places of accounts change, one is added, and a route leads to it."""
    control, first, second = fifo(play), play.receive(token="u"), play.receive(token="v")
    alice, bob, carol = ("alice", 10_000, "t", 0), ("bob", 10_000, "u", first.port), ("carol", 10_000, "v", second.port)
    path = table_file(play, named(alice, bob, routes=[("test.b", 1)]))
    books = [f"--ledger={play.room}/books"] if has_books else []
    hub = connector(play, None, f"--table={path}", f"--control={control}", *books)
    transfers(play, hub.port, first, 500)
    renews(hub, control, path, named(carol, bob, alice, routes=[("test.b", 0)]))
    transfers(play, hub.port, second, 70)
    stops(hub, control)
    found = totals(hub.totals)
    wanted = {"account 0 dues": 70, "account 1 dues": 500, "account 2 claims": 570, "account 0 claims": 0, "account 1 claims": 0, "account 2 dues": 0}
    want({it: found.get(it) for it in wanted} == wanted, f"totals {found}")
    if has_books:
        ran = subprocess.run([PROGRAM, "ledger", f"{play.room}/books"], capture_output=True, timeout=20, check=False)
        want({b"account alice claims 570 dues 0", b"account bob claims 0 dues 500", b"account carol claims 0 dues 70", b"starts 2"} == set(ran.stdout.splitlines()), f"books {ran}")
    return "570"


@test(waits=True)
def a_limit_that_is_lowered_counts_from_then_on(play):
    control, slow = fifo(play), held_back(play, 0)
    path = table_file(play, table_to(slow.port))
    hub = connector(play, None, f"--table={path}", f"--control={control}")
    want(answered(hub, 70)[:1] == b"\x0d", "the first is not fulfilled")
    renews(hub, control, path, table_to(slow.port).replace("account 1000000000", "account 100", 1))
    # (what is asked before the table of before is done with may still be fulfilled, and then the limit does not fit)
    time.sleep(1)
    want(answered(hub, 70)[:1] == b"\x0e", "a Prepare above the limit is fulfilled")
    want(totals(hub.totals).get("account 0 claims") is None, "totals before they are asked for")
    stops(hub, control)
    want(totals(hub.totals)["account 0 claims"] == 70, f"totals {totals(hub.totals)}")
    return "70"


BAD = {
    "a bad line": ("account 1\n", ["table line=1 words="], "the table is bad"),
    "two of one name": (named(("a", 1, "t", 0), ("a", 1, "u", 0)), ["table line=2 words="], "the table is bad"),
    "no text": ("\udcff\n", [], "the table is bad"),
    "no file": (None, [], "not found"),
}


@test(*[(it,) for it in BAD], waits=True)
def a_table_changes_nothing_with(play, what):
    table, told, why = BAD[what]
    control, receiver = fifo(play), play.receive()
    path = table_file(play, table_to(receiver.port))
    hub = connector(play, None, f"--table={path}", f"--control={control}")
    if table is None:
        os.remove(path)
    else:
        write_bytes(path, table.encode("ascii", "surrogateescape"))
    order(control, "table")
    logs(hub, f'control failed line="table" words="{why}"')
    want(all(any(it.startswith(one) for it in lines(hub)) for one in told), f"log {lines(hub)}")
    transfers(play, hub.port, receiver)
    stops(hub, control)
    want(totals(hub.totals)["account 0 claims"] == 500, f"totals {totals(hub.totals)}")
    return why


MISFITS = {
    "an account that is owed left out": (lambda port: named(("alice", 10_000, "t", 0)), "the table lacks an account of the books at which something is owed"),
    "a limit below what is owed": (lambda port: named(("alice", 499, "t", 0), ("bob", 0, "u", port), routes=[("test.b", 1)]), "an account owes more than its limit"),
}


@test(*[(what, has_books) for what in MISFITS for has_books in (False, True)], waits=True)
def a_table_that_does_not_fit_with(play, what, has_books):
    """The connector continues by the table of before."""
    control, slow = fifo(play), held_back(play, 0)
    path = table_file(play, named(("alice", 10_000, "t", 0), ("bob", 0, "u", slow.port), routes=[("test.b", 1)]))
    books = [f"--ledger={play.room}/books"] if has_books else []
    hub = connector(play, None, f"--table={path}", f"--control={control}", *books)
    want(answered(hub, 500)[:1] == b"\x0d", "the first is not fulfilled")
    make, why = MISFITS[what]
    why = why if has_books else "the table does not fit what is owed, or out of memory"
    write_table(path, make(slow.port))
    order(control, "table")
    logs(hub, f'control failed line="table" words="{why}"', 5)
    want(answered(hub, 500)[:1] == b"\x0d", "the next is not fulfilled")
    stops(hub, control)
    found = totals(hub.totals)
    want((found["account 0 claims"], found["account 1 dues"]) == (1_000, 1_000), f"totals {found}")
    return why


@test(*BOOKS, waits=True)
def no_connection_is_refused_while_tables_are_read_anew_with_books(play, has_books):
    control, slow = fifo(play), held_back(play, 0)
    path = table_file(play, table_to(slow.port))
    books = [f"--ledger={play.room}/books"] if has_books else []
    hub = connector(play, None, f"--table={path}", f"--control={control}", *books)
    over, answers = threading.Event(), []

    def press():
        while not over.is_set():
            answers.append(asked((HOST, hub.port), request("t", prepare(1, 30, "test.b")), 20)[1][:1])

    pressing = [threading.Thread(target=press) for _ in range(8)]
    for it in pressing:
        it.start()
    try:
        for _ in range(10):
            renews(hub, control, path, table_to(slow.port), 'control line="table"')
            time.sleep(0.3)
    finally:
        over.set()
        for it in pressing:
            it.join()
    stops(hub, control)
    want(set(answers) == {b"\x0d"}, f"answers {set(answers)}")
    found = totals(hub.totals)["account 0 claims"]
    want(found == len(answers), f"claims {found} of {len(answers)} answers")
    want(len([it for it in lines(hub) if it.startswith("listening")]) == 1, "it listened anew")
    return f"{len(answers)} answers"


@test(waits=True)
def requests_are_counted_from_table_to_table(play):
    control = fifo(play)
    path = table_file(play, table_to(1))
    hub = connector(play, None, f"--table={path}", f"--control={control}", requests="--requests=20")
    for _ in range(8):
        asked((HOST, hub.port), request("t", b"\0"))
    renews(hub, control, path, table_to(2))
    time.sleep(0.5)
    for _ in range(11):
        asked((HOST, hub.port), request("t", b"\0"))
    time.sleep(0.5)
    stands(hub, "connector")
    asked((HOST, hub.port), request("t", b"\0"))
    told = ended(hub, 5)
    want(told == "0", told)
    return "20"


@test(waits=True)
def a_stop_goes_before_a_table(play):
    control, slow = fifo(play), held_back(play, 2)
    path = table_file(play, table_to(slow.port))
    hub = connector(play, None, f"--table={path}", f"--control={control}")
    asking = threading.Thread(target=asked, args=((HOST, hub.port), request("t", prepare(70, 30, "test.b"))))
    asking.start()
    awaits(lambda: slow.number == 1, "nothing came to the neighbour", 10)
    order(control, "table")
    logs(hub, 'control line="table"')
    order(control, "stop", "table")
    logs(hub, 'control failed line="table" words="it is stopped"')
    told = ended(hub, 10)
    asking.join()
    want(told == "0", told)
    want(totals(hub.totals)["account 0 claims"] == 70, f"totals {totals(hub.totals)}")
    return told


if __name__ == "__main__":
    raise SystemExit(main())
