#!/usr/bin/env python3
"""Whether the logs of `send`, `receive` and `connector` say why: causes.py [PROGRAM [WORD]]. A transfer is made to fail for one
cause after another, and each is distinguished by the sender's log alone. Each event is seen once with its whole line. A bad table is reported with
its line, for each rule of the whole table. No secret and no token is in any output, and what a peer sends forges no line. The last
line counts the tests."""
import fcntl
import os
import re
import resource
import select
import signal
import sys
import threading
import time

from peers import HOST, Full, answer, asked, ended, free_port, fulfill, message, prepare, reject, request
from play import comes, disk, main, some_bytes, stands, table_to, test, want
from repository import read as read_text, read_bytes, write

DATE = r"\d{4}-\d\d-\d\dT\d\d:\d\d:\d\d\.\d{3}Z "


def lines(process):
    """The lines of a process's log without their dates, each of which has one."""
    text = read_text(process.log, "ascii")
    want(text.endswith("\n") and "\r" not in text, f"log {text[-80:]!r}")
    found = text.split("\n")[:-1]
    for line in found:
        want(re.match(DATE, line), f"line {line!r}")
    return [line.partition(" ")[2] for line in found]


def read(path):
    """The bytes of a file, and none if it is not there: a connector that is stopped by a signal leaves no totals."""
    try:
        with open(path, "rb") as file:
            return file.read()
    except FileNotFoundError:
        return b""


def kinds(process, *left_out):
    """Which different lines a log has, but those of these events."""
    return sorted({it for it in lines(process) if it.split(" ")[0] not in left_out})


def causes(process):
    """Which different lines say why a transfer failed: all but what it began with, what was left out, and its totals."""
    return kinds(process, "start", "more", "totals")


def fails(play, port, fault, words, *wanted, given=some_bytes(10_000), options=(), bound=60, **how):
    """A sender ends with a fault, and its log has these lines besides its last one."""
    sender = play.send(port, given, "--workers=2", *options, **how)
    told = ended(sender, bound)
    want(told == str(fault), f"send {told}")
    last = f'end fault={fault} words="{words}"'
    seen = causes(sender)
    want(seen == sorted([*wanted, last]), f"log {seen}")
    return " / ".join(wanted)


def answering(play, body):
    """A peer that answers each request with these bytes of an ILP packet."""

    def handle(_, stream):
        message(stream)
        stream.sendall(answer(body))

    return play.peer(handle)


FAILED = "the connection failed"


# Ten causes and more, each of which is distinguished by the sender's log.


@test(waits=True)
def nobody_listens(play):
    return fails(play, free_port(), 58, FAILED, "exchange neighbour=0 cause=refused")


@test(waits=True)
def a_name_that_does_not_resolve(play):
    # (no resolver is asked for a name with an empty part)
    return fails(play, free_port(), 58, FAILED, "exchange neighbour=0 cause=name", host="no..name")


@test(waits=True)
def another_token(play):
    hub = play.before(play.receive())
    return fails(play, hub.port, 58, FAILED, "exchange neighbour=0 cause=link fault=83 status=401", token="x")


@test(waits=True)
def no_route(play):
    hub = play.before(play.receive())
    return fails(play, hub.port, 58, FAILED, 'exchange neighbour=0 cause=reject code=F02 triggered_by="test.hub" message=""', peer="test.c")


@test(waits=True)
def a_limit_that_is_used_up(play):
    hub = play.connector(table_to(play.receive().port).replace("account 1000000000", "account 10", 1))
    return fails(play, hub.port, 58, FAILED, 'exchange neighbour=0 cause=reject code=T04 triggered_by="test.hub" message=""', options=["--money=500"], given=b"")


@test(waits=True)
def no_way_on(play):
    hub = play.connector(table_to(free_port()))
    return fails(play, hub.port, 58, FAILED, 'exchange neighbour=0 cause=reject code=T01 triggered_by="test.hub" message=""')


@test(waits=True)
def another_secret(play):
    hub = play.before(play.receive(secret="ff" * 32))
    return fails(play, hub.port, 58, FAILED, 'exchange neighbour=0 cause=reject code=F06 triggered_by="test.b" message=""')


@test(waits=True)
def another_address_of_the_receiver(play):
    hub = play.before(play.receive(address="test.b.else"))
    return fails(play, hub.port, 58, FAILED, 'exchange neighbour=0 cause=reject code=F02 triggered_by="test.b.else" message=""')


@test(waits=True)
def too_little_that_arrives(play):
    hub = play.before(play.receive())
    wanted = 'exchange neighbour=0 cause=reject code=F99 triggered_by="test.b" message=""'
    return fails(play, hub.port, 58, FAILED, wanted, options=["--money=500", "--least=2:1"], given=b"")


@test(waits=True)
def a_receive_max_that_is_met(play):
    """Bytes arrive whole, money up to the receive max, and the sender says at which limit it waits."""
    receiver = play.receive(most=300)
    sender = play.send(play.before(receiver).port, b"", "--money=500", "--workers=1")
    told = ended(sender, 60)
    want(told == "59", f"send {told}")
    seen = kinds(sender, "start", "more", "totals", "end", "closed")
    wanted = [
        'exchange neighbour=0 cause=reject code=F99 triggered_by="test.b" message=""',
        "waits at=stream-money stream=1 receive_max=300 total=300",
    ]
    want(seen == wanted, f"log {seen}")
    return wanted[1]


@test(waits=True)
def answers_that_are_cut(play):
    peer = play.peer(lambda _, stream: message(stream))
    return fails(play, peer.port, 58, FAILED, "exchange neighbour=0 cause=link fault=85")


@test(waits=True)
def answers_that_are_no_packet(play):
    return fails(play, answering(play, b"no packet").port, 58, FAILED, "exchange neighbour=0 cause=answer")


@test(waits=True)
def fulfills_that_do_not_fit(play):
    return fails(play, answering(play, fulfill()).port, 58, FAILED, "exchange neighbour=0 cause=fulfillment")


@test(waits=True)
def a_server_that_is_out_of_order(play):
    def handle(_, stream):
        message(stream)
        stream.sendall(b"HTTP/1.1 503 Busy\r\nContent-Length: 0\r\n\r\n")

    return fails(play, play.peer(handle).port, 58, FAILED, "exchange neighbour=0 cause=link fault=83 status=503")


# A bad table is reported with its line.

ACCOUNTS = "account NAME=a 1 1 a - -\n\naccount 1 1 b - -\n"
TABLES = {
    "no limit": (ACCOUNTS + "account x 1 c - -\n", 4, "LIMIT is a number from 0 to 2^63 - 1"),
    "one name": (ACCOUNTS + "route no! 9\naccount NAME=1 1 1 c - -\n", 5, "each name stands once, and an account without NAME= has its number as its name"),
    "no address": (ACCOUNTS + "route test.b 1\nroute test..c 1\nroute test.b 1\n", 5, "PREFIX is an ILP address"),
    "no account": (ACCOUNTS + "route test.b 1\n \nroute test.c 2\n", 6, "ACCOUNT is the number of an account of the table, from 0"),
    "one prefix": (ACCOUNTS + "route test.b 1\nroute test.c 1\nroute test.b 0 1 2\n", 6, "each PREFIX stands once"),
}


@test(*[(rule,) for rule in TABLES], waits=True)
def a_bad_table_is_told_by_its_line(play, rule):
    table, line, words = TABLES[rule]
    hub = play.start("connector", [f"--listen={HOST}:{free_port()}", "--own=test.hub", "--requests=1"], given=play.file(table.encode()))
    told = ended(hub, 10)
    want(told == "96", f"connector {told}")
    seen = lines(hub)[1:]
    want(seen == [f'table line={line} words="{words}"', 'end fault=96 words="the table is bad"'], f"log {seen}")
    return seen[0]


# What a peer sends is escaped.


@test(waits=True)
def a_message_forges_no_line(play):
    text = b'no"\\\r\n2026-01-01T00:00:00.000Z end ok\n\xc3\xa9'
    escaped = r"no\"\\\x0d\x0a2026-01-01T00:00:00.000Z end ok\x0a\xc3\xa9"
    wanted = f'exchange neighbour=0 cause=reject code=F00 triggered_by="test.x" message="{escaped}"'
    return fails(play, answering(play, reject(b"F00", b"test.x", text)).port, 58, FAILED, wanted)


# A character, how it is written in a line, and how often it has room in 256 characters of the line.
CHARACTERS = {"plain": ("x", "x", 256), "newline": ("\n", r"\x0a", 64), "accent": ("\u00e9", r"\xc3\xa9", 32), "face": ("\U0001f600", r"\xf0\x9f\x98\x80", 16)}


@test(*[(name,) for name in CHARACTERS], waits=True)
def a_message_of_65_kb_is_cut(play, name):
    """As much as a body holds. Uncut it would be a line of up to 260 kB."""
    character, escaped, count = CHARACTERS[name]
    text = (character * 65_000).encode()[:65_000]
    wanted = f'exchange neighbour=0 cause=reject code=F00 triggered_by="test.x" message="{escaped * count}.."'
    peer = answering(play, reject(b"F00", b"test.x", text))
    sender = play.send(peer.port, some_bytes(10_000), "--workers=2")
    told = ended(sender, 60)
    want(told == "58", f"send {told}")
    with open(sender.log, "rb") as file:
        longest = max(map(len, file))
    want(longest < 1_200, f"a line of {longest} bytes")
    seen = causes(sender)
    want(wanted in seen and len(seen) == 2, f"log {seen}")
    return f"the longest line has {longest} bytes"


# The other side's log, of which a line is written once its answer was sent.


def logs(process, wanted, *left_out):
    """The log of a process that continues has just these kinds of lines, within ten seconds, but for these events."""
    left_out = ("start", "listening", "more", "totals", *left_out)
    comes(lambda: kinds(process, *left_out) == wanted)
    seen = kinds(process, *left_out)
    want(seen == wanted, f"log {seen}")
    return " / ".join(seen)


def refusal(play, port):
    """Makes a connection whose token is not known, and waits for its answer. Its address."""
    stream = play.connect(port, request("x", b"\0"))
    message(stream)
    return "{}:{}".format(*stream.getsockname())


@test(waits=True)
def a_connector_says_what_it_refused_and_what_failed(play):
    hub = play.connector(table_to(free_port()))
    ended(play.send(hub.port, some_bytes(1_000), "--workers=1"), 60)
    refused = refusal(play, hub.port)
    return logs(hub, [f'connection status=401 from="{refused}"', "exchange neighbour=1 cause=refused"])


@test(waits=True)
def a_receiver_says_what_it_refused(play):
    receiver = play.receive()
    ended(play.send(receiver.port, some_bytes(1_000), "--workers=1", secret="ff" * 32), 60)
    refused, cut = refusal(play, receiver.port), play.connect(receiver.port, b"POST")
    name = "{}:{}".format(*cut.getsockname())
    cut.close()
    return logs(receiver, [f'connection cut from="{name}"', f'connection status=401 from="{refused}"', "refused neighbour=0 code=F06 reason=31"])


@test(waits=True)
def connections_that_are_left_out_are_of_no_neighbour(play):
    hub, found = play.connector(table_to(free_port())), []
    until = time.monotonic() + 20
    # (each second has ten lines at most)
    while not found and time.monotonic() < until:
        refusal(play, hub.port)
        found = kinds(hub, "start", "listening", "connection", "totals")
    want(found and all(re.fullmatch(r"more event=connection count=\d+", it) for it in found), f"log {found}")
    return " / ".join(found)


def asked_once(play, hub, seconds):
    """A connector is given a Prepare that expires after the given seconds, and answers T01."""
    _, body = asked((HOST, hub.port), request("t", prepare(0, seconds, "test.b")), 20)
    want(body[2:5] == b"T01", f"answer {body[:20]!r}")


@test(waits=True)
def a_connector_whose_neighbour_takes_no_connection(play):
    full = Full(lambda _, stream: message(stream))
    play.peers.append(full)
    hub = play.before(full)
    asked_once(play, hub, 3)
    return logs(hub, ["exchange neighbour=1 cause=timeout"])


@test((HOST,), ("localhost",), waits=True)
def a_connector_without_descriptors_before(play, host):
    hub = play.connector(table_to(free_port()).replace(HOST, host), "--workers=1")
    time.sleep(0.5)
    # No file can be opened any more. A blocked accept has its number already, so that the next connection is still taken.
    resource.prlimit(hub.pid, resource.RLIMIT_NOFILE, (3, resource.prlimit(hub.pid, resource.RLIMIT_NOFILE)[1]))
    asked_once(play, hub, 5)
    # (it ends once it cannot accept for a second)
    return logs(hub, ["exchange neighbour=1 cause=descriptors"], "end")


@test(waits=True)
def a_log_is_appended_to_and_has_no_secret(play):
    content, secret, token = some_bytes(50_000), "a1" * 32, "token-of-this-run"
    receiver = play.receive(secret=secret, token=token)
    hub = play.connector(f"account 1000000000 1000000 {token}-s - -\naccount 0 0 u {HOST}:{receiver.port} {token}\nroute test.b 1\n")
    sender = play.send(hub.port, content, "--money=500", secret=secret, token=f"{token}-s")
    want(ended(sender, 30) == "0" and ended(receiver, 30) == "0", "a transfer failed")
    hub.terminate()
    hub.wait()
    for process in sender, receiver, hub:
        text = read(process.log) + read(process.totals)
        for hidden in secret, token, bytes.fromhex(secret).decode("latin-1"):
            want(hidden.encode("latin-1") not in text, f"{hidden!r} is in the log")
    want(lines(sender)[-1] == "end ok" and lines(receiver)[-1] == "end ok", "no end")
    return f"{len(lines(sender))}, {len(lines(receiver))} and {len(lines(hub))} lines"


@test(waits=True)
def at_most_ten_lines_a_second(play):
    sender = play.send(free_port(), some_bytes(1_000), "--workers=4")
    ended(sender, 60)
    with open(sender.log, encoding="ascii") as file:
        seconds = [line[:19] for line in file if " exchange " in line]
    most = max(map(seconds.count, set(seconds)))
    left = sum(int(it.rpartition("=")[2]) for it in lines(sender) if it.startswith("more "))
    want(most <= 10 and len(seconds) + left >= 200, f"{most} a second, {len(seconds)} lines, {left} left out")
    return f"{len(seconds)} lines, {left} left out"


@test(waits=True)
def a_log_that_is_full_changes_nothing_but_the_status(play):
    content = some_bytes(50_000)
    receiver = play.receive()
    sender = play.send(receiver.port, content, log="/dev/full")
    told = ended(sender, 30), ended(receiver, 30)
    want(told == ("91", "0"), f"send {told[0]}, receive {told[1]}")
    want(read_bytes(receiver.path) == content, "not all came")
    sender = play.send(free_port(), content, log="/dev/full")
    told = ended(sender, 60)
    want(told == "58", f"send {told}")
    return "91, and 58 where that is the fault"


@test(waits=True)
def totals_are_told_each_minute(play):
    given, writer = play.pipe()
    receiver = play.receive()
    sender = play.send(receiver.port, given, "--money=7")
    writer.write(bytes(1_000))
    time.sleep(62)
    writer.write(bytes(500))
    time.sleep(1)
    writer.close()
    told = ended(sender, 30), ended(receiver, 30)
    want(told == ("0", "0"), f"send {told[0]}, receive {told[1]}")
    seen = [[it for it in lines(process) if it.startswith("totals ")] for process in (sender, receiver)]
    wanted = [
        [f"totals accepted={count} delivered=0 credited=0 paid=7" for count in (1_000, 1_500)],
        [f"totals accepted=0 delivered={count} credited=7 paid=0" for count in (1_000, 1_500)],
    ]
    want(seen == wanted, f"log {seen}")
    return " / ".join(seen[0])


def a_line_each_second(file, over):
    """Reads a pipe as slowly as that."""
    while not over.wait(1):
        file.read(96)


def a_page(play, name):
    """A named pipe that takes one page, and its reader."""
    path = f"{play.room}/{name}"
    os.mkfifo(path)
    file = os.fdopen(os.open(path, os.O_RDONLY | os.O_NONBLOCK), "rb", buffering=0)
    play.open.append(file)
    fcntl.fcntl(file.fileno(), fcntl.F_SETPIPE_SZ, 4_096)
    return path, file


@test(waits=True)
def a_reader_of_a_log_holds_nothing_up(play):
    (slow, file), (silent, _) = a_page(play, "slow"), a_page(play, "silent")
    over = threading.Event()
    threading.Thread(target=a_line_each_second, args=[file, over]).start()
    seconds = []
    try:
        begun, logs = time.monotonic(), [{}, {"log": slow}, {"log": silent}]
        for it in [play.send(free_port(), some_bytes(1_000), **log) for log in logs]:
            told = ended(it, 60)
            want(told == "58", f"send {told}")
            seconds.append(time.monotonic() - begun)
    finally:
        over.set()
    told = f"{seconds[0]:.1f} seconds with a file, {seconds[1]:.1f} with a slow reader, {seconds[2]:.1f} with one that reads nothing"
    want(max(seconds[1:]) < 1.2 * seconds[0] + 2, told)
    return told


@test(waits=True)
def a_pipe_without_a_reader_stops_no_transfer(play):
    """Nobody opens the pipe of the sender's log, nor that of the receiver's, nor the connector's."""
    paths = [f"{play.room}/{name}" for name in ("sender", "hub", "receiver")]
    for it in paths:
        os.mkfifo(it)
    content = some_bytes(50_000)
    receiver = play.receive(log=paths[2])
    hub = play.before(receiver, log=paths[1])
    begun = time.monotonic()
    sender = play.send(hub.port, content, log=paths[0])
    told = ended(sender, 20), ended(receiver, 20)
    want(told == ("0", "0"), f"send {told[0]}, receive {told[1]}")
    want(read_bytes(receiver.path) == content, "not all came")
    stands(hub, "connector")
    return f"{time.monotonic() - begun:.1f} seconds"


@test(waits=True)
def a_reader_that_comes_late_has_all_lines(play):
    path = f"{play.room}/pipe"
    os.mkfifo(path)
    given, writer = play.pipe()
    receiver = play.receive()
    sender = play.send(receiver.port, given, log=path)
    writer.write(bytes(1_000))
    time.sleep(1)
    with open(path, "rb") as log:
        writer.close()
        text = log.read()
    told = ended(sender, 30), ended(receiver, 30)
    want(told == ("0", "0"), f"send {told[0]}, receive {told[1]}")
    want(re.fullmatch(rb"(?:%b[^\n]+\n)+" % DATE.encode(), text), f"log {text!r}")
    seen = [it.split(b" ")[1] for it in text.splitlines()]
    want(seen[0] == b"start" and text.endswith(b" end ok\n"), f"log {text!r}")
    return f"{len(seen)} lines"


@test(waits=True)
def long_messages_and_a_silent_reader_stop_no_connector(play):
    """The connector's log is a pipe of 64 kB that nobody reads, and each answer on its way on has a message of 65 kB."""
    path = f"{play.room}/pipe"
    os.mkfifo(path)
    play.open.append(os.fdopen(os.open(path, os.O_RDONLY | os.O_NONBLOCK), "rb", buffering=0))
    peer = answering(play, reject(b"T00", b"test.x", b"x" * 65_000))
    hub = play.connector(table_to(peer.port), log=path)
    begun = time.monotonic()
    for number in range(40):
        head, _ = asked((HOST, hub.port), request("t", prepare(1, 10, "test.b")), 5)
        want(head.startswith(b"HTTP/1.1 200 "), f"answer {number}: {head!r}")
    seconds = time.monotonic() - begun
    want(seconds < 10, f"{seconds:.1f} seconds for 40 answers")
    return f"40 answers in {seconds:.1f} seconds"


def reads_on(file, found, over):
    """Reads a pipe to a list until nobody has it open any more, or it is over."""
    while not over.is_set():
        if select.select([file], [], [], 0.05)[0]:
            found.append(file.read(65_536) or b"")


@test(waits=True)
def what_finds_no_room_is_counted(play):
    """130 accounts have ten packets refused each, and nobody reads: a page of the pipe is full, 1,024 lines wait, and the others are
    lost. Once the pipe is read, whole lines come, and one that reports those that were lost."""
    path, file = a_page(play, "log")
    hub = play.connector("".join(f"account 1 1 t{number} - -\n" for number in range(130)), log=path)
    packet = prepare(1, 60, "test.nowhere")
    for number in range(1_300):
        head, _ = asked((HOST, hub.port), request(f"t{number % 130}", packet), 5)
        want(head.startswith(b"HTTP/1.1 200 "), f"answer {number}: {head!r}")
    found, over = [], threading.Event()
    reader = threading.Thread(target=reads_on, args=[file, found, over])
    reader.start()
    until = time.monotonic() + 30
    try:
        while b"connection" not in b"".join(found) and time.monotonic() < until:
            asked((HOST, hub.port), request("x", packet), 5)
            time.sleep(0.1)
    finally:
        over.set()
        reader.join()
    text = b"".join(found).decode()
    text = text[: text.rindex("\n") + 1]
    want(re.fullmatch(rf"(?:{DATE}[^\n]+\n)+", text), "a line is not whole")
    seen = [it.partition(" ")[2] for it in text.splitlines()]
    lost = [int(it.removeprefix("more lost=")) for it in seen if it.startswith("more lost=")]
    refused = sum(it.startswith("refused ") for it in seen)
    at = next(place for place, it in enumerate(seen) if it.startswith("more lost="))
    want(at >= 1_024, f"lost are told in line {at}")
    others = sum(not it.startswith(("refused ", "more lost=", "start ", "listening ", "totals ")) for it in seen[:at])
    want(others == 0 and len(lost) == 1 and refused + lost[0] >= 1_300, f"{refused} lines, {lost} lost, {others} others")
    return f"{refused} lines, {lost[0]} lost"


@test(waits=True)
def a_log_whose_disk_was_full_goes_on(play):
    """The first line is cut if the disk is full. Once there is room, it is completed, and all lines since are written."""
    place, within, seen = disk(play, "64k")
    before = ("x" * 99 + "\n") * 40 + "y" * 65 + "\n"  # 30 bytes less than a page
    write(f"{seen}/log", before)
    with open(f"{seen}/filler", "wb", buffering=0) as file:
        try:
            while file.write(bytes(4_096)):
                pass
        except OSError:
            pass
    hub = play.connector(table_to(free_port()), program=within, log=f"{place}/log")
    for _ in range(5):
        asked((HOST, hub.port), request("x", b"\0"), 5)
    full = read_text(f"{seen}/log", "ascii")
    want(len(full) == 4_096 and full.startswith(before), f"the log has {len(full)} bytes on a full disk")
    os.remove(f"{seen}/filler")
    hub.log = f"{seen}/log"
    asked((HOST, hub.port), request("x", b"\0"), 5)
    comes(lambda: read(hub.log).count(b" connection status=401 ") == 6 and read(hub.log).endswith(b"\n"))
    text = read_text(hub.log, "ascii").removeprefix(before)
    refused = rf'{DATE}connection status=401 from="127\.0\.0\.1:\d+"\n'
    want(re.fullmatch(rf"{DATE}start [^\n]+\n{DATE}listening [^\n]+\n(?:{refused}){{6}}", text), f"log {text!r}")
    return "each line is whole"


# What a terminal shows while a transfer runs.

BEHIND = rb"(?:, \d+:[0-5]\d:[0-5]\d left)?(?: \(waits at the limit of \d+ (?:bytes|units)\))?(?: \(last failure: [a-z]+ T\d\d\))?"
LINE = rb"\r\d+ bytes(?: \(\d+ %%\))?, \d+ bytes/s, \d+ units%b\x1b\[K\r" % BEHIND
CLEARED = rb"\r\x1b\[K"


def written(file, bound):
    """What is written to a terminal until nobody has it open any more, or for the given seconds."""
    found, until = b"", time.monotonic() + bound
    while select.select([file], [], [], max(until - time.monotonic(), 0))[0]:
        try:
            found += os.read(file.fileno(), 4_096)
        except OSError:  # nobody has it open
            break
    return found


def shows(play, file, process, begun):
    """How many lines a process that ends well shows: at most four a second, and the last one is cleared."""
    text = written(file, 30)
    want(process.wait(10) == 0, f"status {process.returncode}, terminal {text[-80:]!r}")
    want(re.fullmatch(rb"(?:%b)+%b" % (LINE, CLEARED), text), f"terminal {text!r}")
    count = len(re.findall(LINE, text))
    most = 4 * (time.monotonic() - begun) + 1
    want(2 <= count <= most, f"{count} lines where {most:.0f} are the most")
    return count, text


@test(waits=True)
def a_terminal_shows_how_far_a_sender_is(play):
    receiver = play.receive()
    file, terminal = play.terminal()
    receiver.send_signal(signal.SIGSTOP)
    threading.Timer(1.5, receiver.send_signal, [signal.SIGCONT]).start()
    begun = time.monotonic()
    sender = play.send(receiver.port, some_bytes(200_000), stderr=terminal)
    terminal.close()
    count, text = shows(play, file, sender, begun)
    want(b" %), " in text, f"terminal {text!r}")
    return f"{count} lines, as {text.split(bytes([13]))[1]!r}"


@test(waits=True)
def a_terminal_shows_how_far_a_receiver_is_and_a_pipe_shows_nothing(play):
    given, writer = play.pipe()
    file, terminal = play.terminal()
    begun = time.monotonic()
    receiver = play.receive(stderr=terminal)
    terminal.close()
    sender = play.send(receiver.port, given, "--money=7")
    for _ in range(4):
        writer.write(bytes(1_000))
        time.sleep(0.4)
    writer.close()
    count, text = shows(play, file, receiver, begun)
    want(re.search(rb"\r[123]000 bytes, \d+ bytes/s, 7 units", text), f"terminal {text!r}")
    want(ended(sender, 10) == "0", "send printed something, or failed")
    return f"{count} lines"


def slow(play, receiver, seconds):
    """A peer that passes requests on to a receiver, one at a time, and each answer back after the given seconds."""
    turn = threading.Lock()

    def handle(_, stream):
        head, body = message(stream)
        with turn:
            time.sleep(seconds)
            stream.sendall(b"".join(asked((HOST, receiver.port), head + body)))

    return play.peer(handle)


@test(waits=True)
def a_terminal_shows_the_time_left_of_a_file(play):
    size = 1_000_000
    receiver = play.receive()
    file, terminal = play.terminal()
    sender = play.send(slow(play, receiver, 0.2).port, some_bytes(size), stderr=terminal)
    terminal.close()
    _, text = shows(play, file, sender, time.monotonic())
    found = re.findall(rb"\r(\d+) bytes \((\d+) %\), (\d+) bytes/s, 0 units, (\d+):(\d\d):(\d\d) left\x1b", text)
    want(len(found) > 20, f"terminal {text!r}")
    for bytes_, percent, rate, *time_left in (map(int, it) for it in found):
        seconds = (time_left[0] * 60 + time_left[1]) * 60 + time_left[2]
        want(percent == bytes_ * 100 // size, f"{percent} % of {bytes_}")
        want((size - bytes_) // (rate + 1) <= seconds <= (size - bytes_) // rate, f"{seconds} s for the rest of {bytes_} at {rate}")
    return f"{len(found)} lines, at first {found[0]}"


@test(("send",), ("receive",), waits=True)
def a_terminal_shows_the_pace_of_the_last_seconds_of(play, command):
    # All comes at once, and then nothing for a quarter of a minute.
    given, writer = play.pipe()
    file, terminal = play.terminal()
    ways = {command: {"stderr": terminal}}
    receiver = play.receive(**ways.get("receive", {}))
    play.send(receiver.port, given, **ways.get("send", {}))
    terminal.close()
    writer.write(some_bytes(60_000))
    text = written(file, 16)
    rates = [int(it) for it in re.findall(rb"\r60000 bytes, (\d+) bytes/s, 0 units\x1b", text)]
    want(rates and max(rates) > 10_000, f"terminal {text!r}")
    want(rates[-1] == 0, f"{rates[-1]} bytes/s in the end")
    return f"{max(rates)} bytes/s, and then 0"


@test(waits=True)
def a_terminal_shows_that_a_sender_waits_at_a_limit(play):
    given, writer = play.pipe()
    file, terminal = play.terminal()
    receiver = play.receive(most=5)
    sender = play.send(receiver.port, given, "--money=12", stderr=terminal)
    terminal.close()
    for _ in range(5):  # (bytes are sent on meanwhile)
        writer.write(bytes(1_000))
        time.sleep(0.4)
    text = written(file, 1)
    want(re.search(rb"\r5000 bytes, \d+ bytes/s, 5 units \(waits at the limit of 5 units\)(?: \(last failure: reject F99\))?\x1b", text), f"terminal {text!r}")
    want("waits at=stream-money stream=1 receive_max=5 total=5" in lines(sender), "the log has no such line")
    return "5 of 12 units"


@test(waits=True)
def a_terminal_says_why_exchanges_fail(play):
    peer = answering(play, reject(b"T00", b"test.x", b"\x1b[2J\n"))
    file, terminal = play.terminal()
    play.send(peer.port, some_bytes(1_000), "--workers=1", stderr=terminal)
    terminal.close()
    text = written(file, 2)
    want(re.match(LINE, text) and b" (last failure: reject T00)\x1b[K\r" in text, f"terminal {text!r}")
    want(b"\x1b[2J" not in text and b"test.x" not in text, f"terminal {text!r}")
    return f"{text.count(bytes([27]))} lines"


if __name__ == "__main__":
    sys.exit(main())
