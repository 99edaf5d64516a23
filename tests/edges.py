#!/usr/bin/env python3
"""Runs `send`, `receive` and `connector` at their edges: edges.py [PROGRAM [WORD]]. Links that fail and recover, peers that stop,
many connections, too few threads and files. With a WORD, only the tests whose names have it. A line for each test says how long
it took or what was measured, or what is wrong; the last line counts them. Tests that wait for a time-out run side by side."""
import fcntl
import glob
import os
import pty
import re
import resource
import select
import shlex
import socket
import struct
import subprocess
import sys
import termios
import threading
import time

from peers import (
    HOST,
    Full,
    Peer,
    answer,
    asked,
    ended,
    fields_at,
    free_port,
    free_ports,
    fulfill,
    message,
    prepare,
    request,
    totals,
    use_up,
)
from play import PROGRAM, Skipped, Wrong, arrives, comes, executable, main, shared_object, some_bytes, stands, table_to, test, want
from repository import read, read_bytes, write

MANY = 200  # transfers at once


def whole(receiver, content, bound):
    """A receiver ends well in these seconds, and wrote these bytes."""
    told = ended(receiver, bound)
    came = read_bytes(receiver.path)
    want(told == "0" and came == content, f"receive {told}, {len(came)} of {len(content)} bytes, {'' if content.startswith(came) else 'not '}a beginning")


def ends_well(process, bound):
    told = ended(process, bound)
    want(told == "0", f"send {told} in {bound} seconds")


def pass_on(port, stream):
    """Passes one request on to a receiver, and its answer back."""
    head, body = message(stream)
    if head:
        stream.sendall(b"".join(asked((HOST, port), head + body)))


def hold(stream):
    """Waits until the other side closes a connection."""
    while stream.recv(4_096):
        pass


def drip(stream, content=b"POST /ilp HTTP/1.1\r\nX: " + b"x" * 10_000):
    """Sends a byte each second until the other side closes, or this one does."""
    try:
        for byte in content:
            stream.sendall(bytes([byte]))
            time.sleep(1)
    except OSError:
        pass


# Two connectors that send to each other.


@test((1,), (2,), (4,), (16,))
def both_ways_by_workers(play, workers):
    content = some_bytes(2_000_000)
    hubs, ends, sends = dict(zip("ab", free_ports(2))), {}, {}
    for side, other in ("ab", "ba"):
        ends[side] = play.receive(token=f"r{side}", address=f"test.{side}.in", peer=f"test.{other}.out")
    for side, other in ("ab", "ba"):
        table = f"account 0 0 s{side} - -\naccount 0 0 {other}{side} {HOST}:{hubs[other]} {side}{other}\n"
        table += f"account 0 0 none {HOST}:{ends[side].port} r{side}\nroute test.{other} 1\nroute test.{side} 2\n"
        play.connector(table, f"--workers={workers}", port=hubs[side])
    begun = time.monotonic()
    for side, other in ("ab", "ba"):
        sends[side] = play.send(hubs[side], content, token=f"s{side}", address=f"test.{side}.out", peer=f"test.{other}.in")
    for side in "ab":
        ends_well(sends[side], max(1, 60 - (time.monotonic() - begun)))
    for side in "ab":
        whole(ends[side], content, 10)
    return f"{time.monotonic() - begun:.1f} s"


# Connections that send nothing, or too slowly.


def beside(play, port, count, each):
    """Opens connections that send nothing, or a byte each second."""
    for _ in range(count):
        stream = play.connect(port)
        if each == "a byte each second":
            threading.Thread(target=drip, args=(stream,), daemon=True).start()


@test((4, "nothing"), (20, "nothing"), (4, "a byte each second"), waits=True)
def a_connector_beside_connections_that_send(play, count, each):
    content = some_bytes(50_000)
    receiver = play.receive()
    hub = play.before(receiver)
    beside(play, hub.port, count, each)
    return arrives(play.send(hub.port, content), receiver, content, 15)


@test((1, "nothing"), (300, "nothing"), (4, "a byte each second"), waits=True)
def a_receiver_beside_connections_that_send(play, count, each):
    content = some_bytes(50_000)
    receiver = play.receive()
    beside(play, receiver.port, count, each)
    return arrives(play.send(receiver.port, content), receiver, content, 15)


@test((10,), (100,), waits=True)
def a_receiver_whose_output_stops_has_requests_wait(play, count):
    """100 are more than may wait to be judged. Once the output is read again, each is answered, and all arrives."""
    content, path, came = some_bytes(300_000), f"{play.room}/output", []
    os.mkfifo(path)
    output = os.open(path, os.O_RDONLY | os.O_NONBLOCK)
    receiver = play.receive(path=path)
    sender = play.send(receiver.port, content)
    comes(lambda: waits_in(output) == 65_536, 10)
    time.sleep(0.5)
    streams = [play.connect(receiver.port, request("t", prepare(0, 30, "test.b"))) for _ in range(count)]
    time.sleep(1)
    early = len(select.select(streams, [], [], 0)[0])
    os.set_blocking(output, True)
    while part := os.read(output, 65_536):
        came.append(part)
    os.close(output)
    ends_well(sender, 10)
    told = ended(receiver, 10)
    want(told == "0" and b"".join(came) == content, f"receive {told}, {len(b''.join(came))} of {len(content)} bytes")
    answered = sum(message(it)[1][:1] == b"\x0e" for it in streams)
    want((early, answered) == (0, count), f"{early} of {count} requests had a response early, and {answered} in the end")
    return f"{answered} responses"


def waits_in(pipe):
    """How many bytes a pipe has."""
    return struct.unpack("i", fcntl.ioctl(pipe, termios.FIONREAD, bytes(4)))[0]


@test(waits=True)
def a_receiver_with_patience_beside_a_silent_connection(play):
    content = some_bytes(50_000)
    receiver = play.receive("--patience=4")
    beside(play, receiver.port, 1, "nothing")
    time.sleep(1)
    return arrives(play.send(receiver.port, content), receiver, content, 15)


@test(*[(command, each) for command in ("connector", "receive") for each in ("nothing", "a byte each second")], waits=True)
def a_slow_request_is_cut_off_by(play, command, each):
    receiver = play.receive()
    port = play.before(receiver).port if command == "connector" else receiver.port
    stream, begun = play.connect(port), time.monotonic()
    if each == "a byte each second":
        threading.Thread(target=drip, args=(stream,), daemon=True).start()
    stream.settimeout(45)
    try:
        while stream.recv(4_096):
            pass
    except socket.timeout:
        raise Wrong("not in 45 seconds") from None
    except OSError:
        pass
    taken = time.monotonic() - begun
    want(taken > 25, f"after {taken:.1f} of 30 seconds")
    return f"{taken:.1f} s"


@test(waits=True)
def a_patience_that_begins_again_with_each_request(play):
    # (longer than a machine with other work takes to begin a sender)
    content = some_bytes(50_000)
    receiver = play.receive("--patience=5")
    given, writer = play.pipe()
    sender = play.send(receiver.port, given)
    threading.Thread(target=feed, args=(writer, content, 12), daemon=True).start()
    return arrives(sender, receiver, content, 40)


# A connector that goes away.


def feed(writer, content, seconds):
    """Writes an input to a pipe over some seconds, and closes it."""
    step = len(content) // 50 + 1
    try:
        for at in range(0, len(content), step):
            writer.write(content[at : at + step])
            time.sleep(seconds / 50)
        writer.close()
    except (OSError, ValueError):  # the sender, or the test, has ended
        pass


def cut_off(play, content, *words):
    """A transfer in whose middle the connector is stopped: the sender, the receiver, and the connector's port."""
    receiver = play.receive()
    hub = play.before(receiver)
    given, writer = play.pipe()
    sender = play.send(hub.port, given, "--money=500", *words)
    threading.Thread(target=feed, args=(writer, content, 2), daemon=True).start()
    comes(lambda: os.path.getsize(receiver.path) >= len(content) // 4, 30)
    hub.kill()
    hub.wait()
    want(sender.poll() is None, "the transfer ended before its middle")
    return sender, receiver, hub.port


@test((0.2,), (1,), (5,), waits=True)
def a_connector_gone_for_seconds(play, seconds):
    content = some_bytes(4_000_000)
    sender, receiver, port = cut_off(play, content)
    time.sleep(seconds)
    play.connector(table_to(receiver.port), port=port)
    told = arrives(sender, receiver, content, 30)
    paid, credited = totals(sender.totals).get("paid"), totals(receiver.totals).get("credited", 0)
    want(paid == 500 <= credited, f"{paid} paid and {credited} credited of 500")
    return f"{told} from when it was back"


@test(waits=True)
def a_connector_gone_for_good(play):
    sender, _, _ = cut_off(play, some_bytes(4_000_000))
    begun = time.monotonic()
    told = ended(sender, 60)
    taken = time.monotonic() - begun
    want(told == "58" and 5 < taken < 40, f"send {told} after {taken:.2f} s")
    return f"58 after {taken:.1f} s"


# A sender that tries on for longer, or waits for the next try.


@test(("--patience=60", "0"), ("--patience=10", "58"), ("--workers=4", "58"), waits=True)
def a_connector_gone_for_20_seconds_beside_a_sender_with(play, word, wanted):
    content = some_bytes(4_000_000)
    sender, receiver, port = cut_off(play, content, word)
    time.sleep(20)
    play.connector(table_to(receiver.port), port=port)
    if wanted == "0":
        return f"{arrives(sender, receiver, content, 30)} from when it was back"
    told = ended(sender, 1)
    want(told == wanted, f"send {told}")
    return wanted


@test((None, 1, 10), (10, 16, 10), (20, 1, 20), (25, 16, 25), waits=True)
def how_long_a_sender_reaches_nobody(play, patience, workers, seconds):
    words = [] if patience is None else [f"--patience={patience}"]
    begun = time.monotonic()
    told = ended(play.send(free_port(), b"some bytes", f"--workers={workers}", *words), seconds + 10)
    taken = time.monotonic() - begun
    # (the tries of all workers together are apart, but for the first, that are under way at once)
    least = seconds * (200 - workers) / 200 - 0.1
    want(told == "58" and least < taken < seconds + 3, f"send {told} after {taken:.2f} s, where {least:.2f} is the least")
    return f"58 after {taken:.2f} s"


@test((100, 0.5), (400, 2), waits=True)
def tries_are_apart_by_their_share_of(play, patience, share):
    begun = []

    def handle(_, stream):
        begun.append(time.monotonic())
        message(stream)

    sender = play.send(play.peer(handle).port, some_bytes(200_000), f"--patience={patience}", "--workers=4")
    time.sleep(5 * share + 0.5)
    stands(sender, "send")
    sender.kill()
    # (some are under way when the first fails)
    tries = begun[:1] + [it for it in begun if it > begun[0] + 0.2]
    # None is early, though one may be noted late.
    apart, since = [later - earlier for earlier, later in zip(tries, tries[1:])], [it - tries[0] for it in tries[1:]]
    is_spaced = all(it > at * share - 0.3 for at, it in enumerate(since, 1)) and since[-1:] < [len(since) * (share + 0.4)]
    want(4 <= len(since) <= 6 and is_spaced, f"apart by {apart}")
    return f"{min(apart):.3f} to {max(apart):.3f} s"


@test(waits=True)
def a_long_pause_ends_with_its_sender(play):
    # The input breaks off while all workers wait for the next try, which is in seven minutes: a terminal goes away.
    above, below = play.terminal()
    sender = play.send(free_port(), above, "--patience=86400", "--money=5")
    above.close()
    time.sleep(2)
    stands(sender, "send")
    below.close()
    begun = time.monotonic()
    told = ended(sender, 20)
    want(told == "90", f"send {told} after {time.monotonic() - begun:.1f} s")
    return f"90 after {time.monotonic() - begun:.2f} s"


# Limits that nothing raises any more.


def with_one_answer_lost(play, port):
    """A peer that loses the first answer, the one to the money."""

    def handle(number, stream):
        if number == 1:
            head, body = message(stream)
            asked((HOST, port), head + body)
        else:
            pass_on(port, stream)

    return play.peer(handle)


@test(waits=True)
def a_sender_that_no_limit_lets_go_on(play):
    receiver = play.receive(most=500)
    sender = play.send(with_one_answer_lost(play, receiver.port).port, some_bytes(10_000), "--money=500")
    begun = time.monotonic()
    told = ended(sender, 20)
    want(told == "59", f"send {told} after {time.monotonic() - begun:.1f} s")
    return f"59 after {time.monotonic() - begun:.1f} s"


@test(waits=True)
def a_receiver_that_nothing_comes_to(play):
    content = some_bytes(10_000)
    receiver = play.receive("--patience=3", most=500)
    sender = play.send(with_one_answer_lost(play, receiver.port).port, content, "--money=500")
    sent, begun = ended(sender, 20), time.monotonic()
    received = ended(receiver, 20)
    came = read_bytes(receiver.path)
    want((sent, received, came) == ("59", "88", content), f"send {sent}, receive {received}, {len(came)} bytes")
    return f"88 after {time.monotonic() - begun:.1f} s"


# Neighbours that do not accept a connection, or stop in the middle of an answer.


@test(waits=True)
def a_sender_before_a_neighbour_that_takes_no_connection(play):
    content = some_bytes(50_000)
    receiver = play.receive()
    full = Full(lambda _, stream: pass_on(receiver.port, stream))
    play.peers.append(full)
    sender = play.send(full.port, content, "--workers=1")
    # The kernel repeats an attempt to connect, but not between 36 and 60 seconds after its first. A second attempt is needed.
    time.sleep(36.5)
    full.begin()
    return f"{arrives(sender, receiver, content, 20)} from when it took them"


def rejected(play, peer, seconds):
    """How long a connector takes to answer a Prepare that expires after the given seconds, of which this peer is the way on; and its answer."""
    hub = play.before(peer)
    begun = time.monotonic()
    _, body = asked((HOST, hub.port), request("t", prepare(0, seconds, "test.b")), 20)
    return time.monotonic() - begun, body


SECOND = "127.0.0.2"


def with_hosts(play, *hosts):
    """A program that is the tested one if the name twice.test has these addresses, by its own /etc/hosts in a mount namespace."""
    table, path = f"{play.room}/hosts", f"{play.room}/with-hosts"
    with open(table, "w", encoding="ascii") as file:
        file.writelines(f"{host} twice.test\n" for host in hosts)
    own = [] if os.getuid() == 0 else ["--user", "--map-root-user"]
    ways = ["unshare", "--mount", *own, "sh", "-c", f'mount --bind {shlex.quote(table)} /etc/hosts && exec "$@"', "sh"]
    try:
        subprocess.run([*ways, "true"], check=True, capture_output=True, timeout=20)
    except (OSError, subprocess.SubprocessError) as error:
        raise Skipped(f"no /etc/hosts of its own: {error}") from None
    return executable(path, f'#!/bin/sh\nexec {shlex.join([*ways, PROGRAM])} "$@"\n')


def two_addresses(play, handle):
    """A host of two addresses: a peer at the first that accepts no connection until it begins, and one at the second, at one port."""
    first = Full(handle)
    play.peers.append(first)
    second = Peer(handle, first.port, SECOND)
    play.peers.append(second)
    return first, second


@test(waits=True)
def a_sender_before_a_host_whose_first_address_takes_no_connection(play):
    content = some_bytes(50_000)
    receiver = play.receive()
    first, _ = two_addresses(play, lambda _, stream: pass_on(receiver.port, stream))
    program = with_hosts(play, HOST, SECOND)
    sender = play.send(first.port, content, "--workers=1", host="twice.test", program=program)
    # (three seconds for the first address, once: the second is kept)
    return arrives(sender, receiver, content, 8)


@test(waits=True)
def a_connector_before_a_host_whose_first_address_takes_no_connection(play):
    def handle(_, stream):
        message(stream)
        stream.sendall(answer(fulfill()))

    first, second = two_addresses(play, handle)
    table = table_to(first.port).replace(HOST, "twice.test")
    hub, taken = play.connector(table, "--workers=1", program=with_hosts(play, HOST, SECOND)), []

    def fulfilled(seconds):
        begun = time.monotonic()
        _, body = asked((HOST, hub.port), request("t", prepare(0, seconds, "test.b")), 20)
        taken.append(time.monotonic() - begun)
        want(body == fulfill(), f"answer {body[:20]!r} after {taken[-1]:.1f} s")

    # (of five seconds the connector keeps one, and the first address has half of the others)
    fulfilled(5)
    fulfilled(5)
    # (the address that was kept is gone, so that the name is resolved in the same exchange)
    first.begin()
    time.sleep(0.5)
    second.close()
    fulfilled(5)
    want(1 < taken[0] < 3.5 and taken[1] < 1 and taken[2] < 3, f"answers after {taken} s")
    return ", ".join(f"{it:.2f} s" for it in taken)


@test(waits=True)
def a_connector_before_a_neighbour_that_takes_no_connection(play):
    full = Full(lambda _, stream: hold(stream))
    play.peers.append(full)
    taken, body = rejected(play, full, 5)
    want(body[:1] == b"\x0e" and 3 < taken < 7, f"answer {body[:20]!r} after {taken:.1f} s")
    return f"{body[2:5].decode()} after {taken:.1f} s of a Prepare of 5 s"


def cut_answer(stream, part, head, body):
    """Sends an answer up to a part of it, and waits for the other side to close; or all of it, a byte each second."""
    if part == "a byte each second":
        drip(stream, head + body)
        return
    ends = {"before it": 0, "in the head": 20, "behind the head": len(head), "in the body": len(head) + len(body) // 2}
    stream.sendall((head + body)[: ends[part]])
    hold(stream)


PARTS = [("before it",), ("in the head",), ("behind the head",), ("in the body",), ("a byte each second",)]


@test(*PARTS, waits=True)
def a_sender_whose_neighbour_stops_an_answer(play, part):
    content = some_bytes(50_000)
    receiver = play.receive()

    def handle(number, stream):
        if number > 1:
            pass_on(receiver.port, stream)
        else:
            head, body = message(stream)
            cut_answer(stream, part, *asked((HOST, receiver.port), head + body))

    sender = play.send(play.peer(handle).port, content, "--workers=1")
    return arrives(sender, receiver, content, 45)


@test(*PARTS, waits=True)
def a_connector_whose_neighbour_stops_an_answer(play, part):
    def handle(_, stream):
        message(stream)
        head, end, body = answer(fulfill()).partition(b"\r\n\r\n")
        cut_answer(stream, part, head + end, body)

    taken, body = rejected(play, play.peer(handle), 5)
    want(body[:1] == b"\x0e" and 3 < taken < 7, f"answer {body[:20]!r} after {taken:.1f} s")
    return f"{body[2:5].decode()} after {taken:.1f} s of a Prepare of 5 s"


def cut_request(part):
    whole = request("t", prepare(0, 30, "test.b"))
    head = whole.index(b"\r\n\r\n") + 4
    return whole[: {"in the head": 20, "behind the head": head, "in the body": head + 40}[part]]


@test(("connector",), ("receive in the head",), ("receive behind the head",), ("receive in the body",), waits=True)
def a_request_stops_at(play, command):
    content = some_bytes(50_000)
    receiver = play.receive()
    command, _, part = command.partition(" ")
    port = play.before(receiver).port if command == "connector" else receiver.port
    for part in [part] if part else ["in the head", "behind the head", "in the body"] * 2:
        play.connect(port, cut_request(part))
    return arrives(play.send(port, content), receiver, content, 15)


# Too few threads.


def with_threads(count):
    """A user of its own who may have that many threads in all. (The limit does not bind root.)"""

    def limited():
        resource.setrlimit(resource.RLIMIT_NPROC, (count, count))
        if os.getuid() == 0:
            user = 1_000_000 + os.getpid()
            os.setgroups([])
            os.setgid(user)
            os.setuid(user)

    return limited


def for_all(play):
    """A copy of the program that each user can run, in a folder in which each can make files."""
    os.chmod(play.room, 0o777)
    path = f"{play.room}/ilpstream"
    # (another process writes it, as `executable` has it)
    subprocess.run(["install", "-m", "755", PROGRAM, path], check=True)
    return path


@test((1,), (3,), waits=True)
def a_sender_whose_threads_are_at_most(play, count):
    content = some_bytes(1_000_000)
    receiver = play.receive()
    sender = play.send(receiver.port, content, "--workers=16", preexec_fn=with_threads(count), program=for_all(play))
    told = ended(sender, 30)
    # (if the user is not one of its own, threads of other processes count too)
    wanted = ("0", "99") if os.getuid() else ("99",) if count == 1 else ("0",)
    want(told in wanted, f"send {told} in 30 s")
    if told == "0":
        whole(receiver, content, 10)
    return f"ends with {told}"


@test((1,), (3,), waits=True)
def a_receiver_whose_threads_are_at_most(play, count):
    content = some_bytes(50_000)
    receiver = play.receive("--workers=16", preexec_fn=with_threads(count), program=for_all(play))
    sender = play.send(receiver.port, content)
    told = ended(receiver, 30)
    # (as above)
    wanted = ("0", "80") if os.getuid() else ("80",) if count == 1 else ("0",)
    want(told in wanted, f"receive {told} in 30 s")
    if told == "0":
        ends_well(sender, 10)
        want(read_bytes(receiver.path) == content, "not all bytes arrived")
    return f"ends with {told}"


@test((1,), (3,), waits=True)
def a_connector_whose_threads_are_at_most(play, count):
    content = some_bytes(50_000)
    receiver = play.receive()
    try:
        hub = play.before(receiver, preexec_fn=with_threads(count), program=for_all(play))
    except Wrong:
        hub = play.started[-1]
    if hub.poll() is None:
        sender = play.send(hub.port, content)
        comes(lambda: hub.poll() is not None or sender.poll() is not None, 30)
    if hub.poll() is not None:
        told = ended(hub, 1)
        want(told == "99" and (count == 1 or os.getuid()), f"connector {told}")
        return "ends with 99"
    told = ended(sender, 1)
    want(told == "0" and (count > 1 or os.getuid()), f"send {told} in 30 s")
    whole(receiver, content, 10)
    return "the transfer went through it"


@test(waits=True)
def a_connector_counts_its_answers_with_t00(play):
    def handle(_, stream):
        message(stream)
        stream.sendall(answer(fulfill()))

    ways = {"requests": 5, "preexec_fn": with_threads(2), "program": for_all(play)}
    try:
        hub = play.before(play.peer(handle), "--workers=1", **ways)
    except Wrong:
        told = ended(play.started[-1], 1)
        want(os.getuid() != 0 and told == "99", f"connector {told}")
        return "ends with 99"
    # No thread can be made in addition to the one that serves, so that only the last request is forwarded.
    answers = [asked((HOST, hub.port), request("t", prepare(10, 30, "test.b")), 20)[1] for _ in range(5)]
    want(ended(hub, 10) == "0", "the connector does not end")
    refused = [it[2:5] for it in answers if it[:1] == b"\x0e"]
    found = totals(hub.totals)
    want(refused == [b"T00"] * 4 and answers[4] == fulfill(), f"answers {answers}")
    want(found["overloaded"] == 4 and found["account 0 claims"] == 10, f"totals {found}")
    counts = "count 0 fulfilled 1 rejected 0 lost 0 refused 4\ncount 1 fulfilled 0 rejected 0 lost 0 refused 0\ncode 0 T00 4\n"
    told = read(hub.totals, "ascii")
    want(told.endswith(f"held 0\noverloaded 4\n{counts}"), f"it says {told!r}")
    return "4 of 5"


# An input that gives nothing.


def silent(play, kind):
    """An open input that gave some bytes and gives nothing more."""
    if kind == "pipe":
        given, writer = play.pipe()
    elif kind == "socket":
        given, writer = (it.makefile("rwb", buffering=0) for it in socket.socketpair())
        play.open += [given, writer]
    else:
        above, below = pty.openpty()
        writer, given = os.fdopen(above, "r+b", buffering=0), os.fdopen(below, "r+b", buffering=0)
        play.open += [writer, given]
    writer.write(b"some bytes\n")
    return given


@test(("pipe",), ("socket",), ("terminal",), waits=True)
def a_failed_connection_beside_a_silent(play, kind):
    receiver = play.receive(address="test.other")
    begun = time.monotonic()
    told = ended(play.send(receiver.port, silent(play, kind)), 10)
    taken = time.monotonic() - begun
    want(told == "58" and taken < 3, f"send {told} after {taken:.1f} s")
    return f"58 after {taken:.2f} s"


@test(waits=True)
def nobody_listens_beside_a_silent_pipe(play):
    begun = time.monotonic()
    told = ended(play.send(free_port(), silent(play, "pipe")), 40)
    want(told == "58", f"send {told} in 40 s")
    return f"58 after {time.monotonic() - begun:.1f} s"


# Accepts that fail, and connections that send nothing.


@test(("connector",), ("receive",))
def an_accept_that_fails_at(play, command):
    content = some_bytes(50_000)
    receiver = play.receive()
    it = play.before(receiver) if command == "connector" else receiver
    low, high = resource.prlimit(it.pid, resource.RLIMIT_NOFILE)
    # No file can be opened any more. A blocked accept has its number already, so that the first connections are still taken.
    resource.prlimit(it.pid, resource.RLIMIT_NOFILE, (3, high))
    for _ in range(20):
        if it.poll() is None:
            play.knock(it.port)
        time.sleep(0.02)
    stands(it, command)
    resource.prlimit(it.pid, resource.RLIMIT_NOFILE, (low, high))
    return arrives(play.send(it.port, content), receiver, content, 20)


@test(("connector",), ("receive",), waits=True)
def accepts_that_fail_for_good_at(play, command):
    receiver = play.receive()
    it = play.before(receiver) if command == "connector" else receiver
    resource.prlimit(it.pid, resource.RLIMIT_NOFILE, (3, resource.prlimit(it.pid, resource.RLIMIT_NOFILE)[1]))
    begun = time.monotonic()
    while it.poll() is None and time.monotonic() < begun + 20:
        play.knock(it.port)
        time.sleep(0.02)
    told, taken = ended(it, 1), time.monotonic() - begun
    # (100 failures, of which each is followed by ten milliseconds)
    want(told == "80" and taken > 0.9, f"{command} {told} after {taken:.1f} s")
    # (a connector opens the file that replaces its totals at its end, for which there is no number here)
    want(command == "connector" or totals(it.totals), "it reports no totals")
    return f"80 after {taken:.1f} s"


@test(waits=True)
def a_connector_with_more_connections_than_files(play):
    content = some_bytes(50_000)
    receiver = play.receive()
    # (four workers and 16 threads more that accept would take a number each: those that get none end)
    hub = play.before(receiver, preexec_fn=lambda: resource.setrlimit(resource.RLIMIT_NOFILE, (24, 24)))
    streams = [play.connect(hub.port) for _ in range(100)]
    time.sleep(0.5)
    for stream in streams:
        stream.close()
    stands(hub, "connector")
    return arrives(play.send(hub.port, content), receiver, content, 20)


@test(waits=True)
def a_receiver_with_more_connections_than_files(play):
    content = some_bytes(50_000)
    receiver = play.receive(preexec_fn=lambda: resource.setrlimit(resource.RLIMIT_NOFILE, (24, 24)))
    for _ in range(40):
        play.connect(receiver.port)
    time.sleep(0.5)
    stands(receiver, "receive")
    return arrives(play.send(receiver.port, content), receiver, content, 20)


def is_taken(port):
    """Whether a connection is accepted. It is closed at once."""
    try:
        socket.create_connection((HOST, port), timeout=10).close()
        return True
    except OSError:
        return False


@test((1,), (4,))
def connections_that_send_nothing_use_up_requests_with_workers(play, workers):
    hub = play.connector(table_to(1), f"--workers={workers}", requests=20)
    until = time.monotonic() + 10
    for _ in range(19):
        want(is_taken(hub.port), "a connection was refused before the last")
    time.sleep(0.5)
    stands(hub, "connector")
    while time.monotonic() < until and is_taken(hub.port):
        time.sleep(0.01)
    told = ended(hub, 5)
    want(told == "0", f"connector {told} behind its requests")
    return "20"


def reset(stream):
    """Cuts a connection off, so that the other side's next call of it fails."""
    stream.setsockopt(socket.SOL_SOCKET, socket.SO_LINGER, struct.pack("ii", 1, 0))
    stream.close()


def cut_again(port, how, is_over):
    """Opens a connection and cuts it off, again and again without a pause."""
    while not is_over.is_set():
        try:
            stream = socket.create_connection((HOST, port), timeout=10)
            stream.sendall(b"POST /ilp HTTP/1.1\r\n" if how == "in a request" else b"")
            reset(stream) if how == "reset" else stream.close()
        except OSError:
            pass


@test(("closed",), ("reset",), ("in a request",))
def a_receiver_whose_connections_are_cut_without_a_pause(play, how):
    content, is_over = some_bytes(200_000), threading.Event()
    receiver = play.receive()
    cutting = [threading.Thread(target=cut_again, args=(receiver.port, how, is_over), daemon=True) for _ in range(8)]
    for it in cutting:
        it.start()
    try:
        return arrives(play.send(receiver.port, content), receiver, content, 20)
    finally:
        is_over.set()
        for it in cutting:
            it.join()


@test((1, "closed"), (20, "reset"), (-40, "closed"), (-1, "reset"), (0, "reset"))
def a_connection_to_a_connector_is_cut_behind_bytes(play, count, how):
    sent, cut = threading.Event(), threading.Event()

    def handle(number, stream):
        message(stream)
        if number == 1 and count == 0:
            # (its answer is written to a connection that is no more)
            sent.set()
            cut.wait(10)
            time.sleep(0.2)
        stream.sendall(answer(fulfill()))

    # (the connection that is cut counts, so that one more is accepted)
    hub = play.before(play.peer(handle), requests=2)
    whole = request("t", prepare(10, 30, "test.b"))
    stream = play.connect(hub.port, whole[: count or None])
    if count == 0:
        want(sent.wait(10), "it is not sent on")
    else:
        time.sleep(0.2)
    stream.close() if how == "closed" else reset(stream)
    cut.set()
    _, body = asked((HOST, hub.port), request("t", prepare(10, 30, "test.b")), 20)
    want(body[:1] == b"\x0d", f"answer {body[:20]!r}")
    want(ended(hub, 10) == "0", "the connector does not end")
    found, sum_of = totals(hub.totals), 20 if count == 0 else 10
    booked = [found.get("account 0 claims"), found.get("account 1 dues"), found.get("account 0 held")]
    want(booked == [sum_of, sum_of, 0], f"totals {found}")
    return f"{sum_of} units booked"


# Clocks that advance.


def codes(port, count, seconds):
    """How the given number of Prepares, which expire after the given seconds, are answered: the codes of Rejects, and an empty one for a Fulfill."""
    bodies = [asked((HOST, port), request("t", prepare(0, seconds, "test.b")), 20)[1] for _ in range(count)]
    return [body[2:5] if body[:1] == b"\x0e" else b"" for body in bodies]


@test(waits=True)
def a_receiver_whose_clock_advances(play):
    receiver = play.receive()
    # The Prepares have no payload that can be opened (F06). Three seconds later one has expired that had not before.
    found = codes(receiver.port, 2, 30)
    time.sleep(3)
    found += codes(receiver.port, 2, -1)
    want(found == [b"F06"] * 2 + [b"R00"] * 2, f"answers {found}")
    return "R00"


@test(waits=True)
def a_connector_whose_clock_advances(play):
    def handle(_, stream):
        message(stream)
        stream.sendall(answer(fulfill()))

    hub = play.before(play.peer(handle), "--workers=1")
    found = codes(hub.port, 8, 30)
    time.sleep(3)
    late = codes(hub.port, 8, -1)
    want(found == [b""] * 8 and all(code[:1] == b"R" for code in late), f"answers {found}, and later {late}")
    return late[0].decode()


# Clocks that are set back.

HOUR = 3_600_000  # milliseconds


def set_clock(play, lead):
    """Sets the clock of the programs that were started with `ahead`: by the given milliseconds it is ahead."""
    write(f"{play.room}/lead.new", str(lead))
    os.replace(f"{play.room}/lead.new", f"{play.room}/lead")


def ahead(play, lead):
    """The environment of a program whose clock is ahead by the given milliseconds, until it is set."""
    set_clock(play, lead)
    return {**os.environ, "LD_PRELOAD": shared_object(play, "clock"), "CLOCK_FILE": f"{play.room}/lead"}


def steps_back(path):
    """The milliseconds by which the clock was set back, by a log."""
    with open(path, encoding="ascii") as file:
        return [int(it) for it in re.findall(r"(?m)^\S+ clock set_back_ms=(\d+)$", file.read())]


@test(("connector",), ("receive",))
def a_clock_that_is_set_back_is_followed_by(play, command):
    def handle(_, stream):
        message(stream)
        stream.sendall(answer(fulfill()))

    env = ahead(play, HOUR)
    # (a receiver cannot open the Prepares)
    late, timely = (b"R02", b"") if command == "connector" else (b"R00", b"F06")
    it = play.before(play.peer(handle), "--workers=1", env=env) if command == "connector" else play.receive(env=env)
    found = [codes(it.port, 8, 20)]
    for lead in (0, -4_000):
        set_clock(play, lead)
        found.append(codes(it.port, 8, 20))
    want(found == [[late] * 8, [timely] * 8, [timely] * 8], f"answers {found}")
    # (a step of four seconds does not count)
    steps = steps_back(it.log)
    want(len(steps) == 1 and HOUR - 30_000 < steps[0] <= HOUR, f"steps {steps} in the log")
    return f"one step of {steps[0]} ms"


@test()
def a_sender_whose_clock_is_set_back(play):
    content = some_bytes(400_000)
    receiver = play.receive()
    given, writer = play.pipe()
    sender = play.send(receiver.port, given, env=ahead(play, HOUR))
    threading.Thread(target=feed, args=(writer, content, 2), daemon=True).start()
    time.sleep(1)
    set_clock(play, 0)
    told = arrives(sender, receiver, content, 20)
    steps = steps_back(sender.log)
    want(len(steps) == 1 and HOUR - 30_000 < steps[0] <= HOUR, f"steps {steps} in the log")
    return told


def expiring(packet, text):
    """The same Prepare with this expiry."""
    at = fields_at(packet) + 8
    return packet[:at] + text + packet[at + 17 :]


# "Never" to many, and a millisecond past the last moment that the program has, one second after what is sent on.
@test(("99991231235959999", "99991231235958999"), ("99991231234641001", "99991231234640001"))
def a_prepare_that_never_expires(play, expiry, onward):
    came = []

    def handle(_, stream):
        came.append(message(stream)[1])
        stream.sendall(answer(fulfill()))

    hub = play.before(play.peer(handle))
    packet = expiring(prepare(10, 30, "test.b"), expiry.encode())
    _, body = asked((HOST, hub.port), request("t", packet), 20)
    want(body == fulfill(), f"answer {body[:20]!r}, {len(came)} sent on")
    want(came == [expiring(packet, onward.encode())], f"sent on {came}")
    return "fulfilled"


# What an idle sender takes, and the workers that there are.


def processor_time(pid):
    """The seconds that all threads of a process ran."""
    taken = 0
    for thread in os.listdir(f"/proc/{pid}/task"):
        with open(f"/proc/{pid}/task/{thread}/schedstat", encoding="ascii") as file:
            taken += int(file.read().split()[0])
    return taken / 1e9


@test((1,), (4,), (16,), waits=True)
def an_idle_sender_by_workers(play, workers):
    receiver = play.receive()
    given, writer = play.pipe()
    sender = play.send(receiver.port, given, f"--workers={workers}")
    writer.write(b"first ")
    comes(lambda: os.path.getsize(receiver.path) >= 6, 20)
    time.sleep(0.5)
    before, begun = processor_time(sender.pid), time.monotonic()
    time.sleep(3)
    share = 100 * (processor_time(sender.pid) - before) / (time.monotonic() - begun)
    writer.write(b"and last")
    writer.close()
    ends_well(sender, 10)
    whole(receiver, b"first and last", 10)
    want(share < 1, f"{share:.2f} % of a processor")
    return f"{share:.2f} % of a processor"


@test((1,), (4,), waits=True)
def an_idle_sender_is_woken_by_its_input_with_workers(play, workers):
    receiver = play.receive()
    given, writer = play.pipe()
    sender, taken = play.send(receiver.port, given, f"--workers={workers}"), []
    for count in range(1, 10):
        # (a worker that nobody wakes sleeps for a second)
        time.sleep(0.3)
        writer.write(b"line\n")
        begun = time.monotonic()
        while os.path.getsize(receiver.path) < 5 * count and time.monotonic() < begun + 5:
            time.sleep(0.005)
        taken.append(time.monotonic() - begun)
    writer.close()
    ends_well(sender, 10)
    whole(receiver, b"line\n" * 9, 10)
    middle = sorted(taken)[4]
    want(middle < 0.4, f"after {middle:.2f} s")
    return f"after {middle:.3f} s"


@test(waits=True)
def a_sender_whose_ring_is_full_is_woken(play):
    content = some_bytes(4_000_000)
    receiver = play.receive()
    # (one that nobody wakes if there is room would wait a second for each of some thirty windows)
    return arrives(play.send(receiver.port, content), receiver, content, 10)


def threads(process):
    with open(f"/proc/{process.pid}/status", encoding="ascii") as file:
        return int(re.search(r"(?m)^Threads:\s*(\d+)$", file.read())[1])


@test(("send",), ("receive",), ("connector",))
def workers_are_threads_of(play, command):
    found, receiver = {}, play.receive()
    for workers in (1, 4, 16):
        if command == "send":
            it = play.send(receiver.port, play.pipe()[0], f"--workers={workers}")
        elif command == "receive":
            it = play.receive(f"--workers={workers}")
        else:
            it = play.before(receiver, f"--workers={workers}")
        time.sleep(0.7)
        found[workers] = threads(it)
    want(found[4] - found[1] == 3 and found[16] - found[1] == 15, f"threads by workers: {found}")
    return f"threads by workers: {found}"


@test((1,), (2,), (16,))
def a_receiver_by_workers(play, workers):
    content = some_bytes(2_000_000)
    receiver = play.receive(f"--workers={workers}")
    return arrives(play.send(receiver.port, content, "--workers=16"), receiver, content, 40)


@test((1,), (2,), (4,), waits=True)
def exchanges_at_once_by_workers(play, workers):
    content = some_bytes(400_000)
    receiver = play.receive()
    lock, open_now, most = threading.Lock(), [0], [0]

    def handle(_, stream):
        with lock:
            open_now[0] += 1
            most[0] = max(most[0], open_now[0])
        time.sleep(0.1)
        head, body = message(stream)
        came = b"".join(asked((HOST, receiver.port), head + body))
        with lock:
            open_now[0] -= 1
        stream.sendall(came)

    told = arrives(play.send(play.peer(handle).port, content, f"--workers={workers}"), receiver, content, 40)
    want(most[0] == workers, f"{most[0]} exchanges at once")
    return told


# Many transfers, and money.


@test()
def transfers_at_once(play):
    ports, table = free_ports(MANY), ""
    for n in range(MANY):
        table += f"account 100000 1000 s{n} - -\naccount 0 0 none{n} {HOST}:{ports[n]} r{n}\nroute test.b.n{n} {2 * n + 1}\n"
    contents = [some_bytes(20_000 + n) for n in range(MANY)]
    ways = [{"address": f"test.a.n{n}", "peer": f"test.b.n{n}"} for n in range(MANY)]
    ends = []
    for n in range(MANY):
        ends.append(play.receive(token=f"r{n}", address=f"test.b.n{n}", peer=f"test.a.n{n}", port=ports[n]))
    hub = play.connector(table)
    begun = time.monotonic()
    sends = [play.send(hub.port, contents[n], "--money=10", "--workers=1", token=f"s{n}", **ways[n]) for n in range(MANY)]
    for sender in sends:
        ends_well(sender, max(1, 60 - (time.monotonic() - begun)))
    taken = time.monotonic() - begun
    for sender, receiver, content in zip(sends, ends, contents):
        whole(receiver, content, 10)
        money = totals(sender.totals).get("paid"), totals(receiver.totals).get("credited")
        want(money == (10, 10), f"paid and credited {money} of 10")
    return f"{MANY} in {taken:.1f} s"


HOGS = [1_300, 600, 300]  # the packets that accounts send at once which take all the places that they can
FILES = 4_000  # that a connector and this script need


def hog(port, token, count):
    """Sends packets at once whose way on is silent: the connections of those that are not answered while others are."""
    waiting = []
    for _ in range(count):
        stream = socket.create_connection((HOST, port), timeout=60)
        stream.sendall(request(token, prepare(0, 28, "test.silent")))
        waiting.append(stream)
    answered, until = True, time.monotonic() + 5
    while answered and time.monotonic() < until:
        look = select.poll()
        for stream in waiting:
            look.register(stream, select.POLLIN)
        answered = {at for at, _ in look.poll(700)}
        for stream in waiting:
            if stream.fileno() in answered:
                stream.close()
        waiting = [it for it in waiting if it.fileno() >= 0]
    return waiting


@test()
def an_account_beside_others_that_take_all_that_they_can(play):
    low, high = resource.getrlimit(resource.RLIMIT_NOFILE)
    if high != resource.RLIM_INFINITY and high < FILES:
        raise Skipped(f"{high} files")
    content = some_bytes(50_000)
    receiver = play.receive()
    silent = socket.create_server((HOST, 0), backlog=4_096)
    play.open.append(silent)
    table = table_to(receiver.port) + f"account 0 0 none {HOST}:{silent.getsockname()[1]} t\nroute test.silent 2\n"
    table += "".join(f"account 0 0 hog{n} - -\n" for n in range(len(HOGS)))
    resource.setrlimit(resource.RLIMIT_NOFILE, (max(low, FILES), high))
    begun = time.monotonic()
    try:
        hub = play.connector(table)
        held = []
        for n, count in enumerate(HOGS):
            held.append(hog(hub.port, f"hog{n}", count))
            play.open += held[-1]
        told = arrives(play.send(hub.port, content, "--money=500"), receiver, content, 15)
    finally:
        resource.setrlimit(resource.RLIMIT_NOFILE, (low, high))
    # (no exchange has ended)
    want(time.monotonic() - begun < 27, "it took too long")
    # Each takes at most half of the places, of 1,024, that it finds, and the first one nearly that.
    counts = [len(it) for it in held]
    found = [1_024 - sum(counts[:n]) for n in range(len(HOGS))]
    want(all(2 * count <= places for count, places in zip(counts, found)) and counts[0] > 256, f"held {counts}")
    return f"{told} beside {counts}"


@test()
def an_account_is_billed_what_its_token_sent(play):
    content = some_bytes(50_000)
    receiver = play.receive()
    table = f"account 1000000 1000 x - -\naccount 1000000 1000 t - -\naccount 0 0 u {HOST}:{receiver.port} t\nroute test.b 2\n"
    hub = play.connector(table, requests=200)
    told = arrives(play.send(hub.port, content, "--money=500"), receiver, content, 20)
    use_up(hub, hub.port, "x")
    want(ended(hub, 10) == "0", "the connector does not end")
    claims = {name: number for name, number in totals(hub.totals).items() if number and name.startswith("account")}
    want(claims == {"account 1 claims": 500, "account 2 dues": 500}, f"totals {claims}")
    return told


@test(("1:2", "0"), ("1:1", "58"))
def least_with_a_rate_of_one_for_two(play, least, wanted):
    content = some_bytes(1_000)
    receiver = play.receive()
    hub = play.connector(table_to(receiver.port).replace("route test.b 1", "route test.b 1 1 2"))
    sender = play.send(hub.port, content, "--money=500", f"--least={least}")
    told = ended(sender, 40)
    want(told == wanted, f"send {told}")
    if told == "0":
        whole(receiver, content, 10)
        want(totals(receiver.totals).get("credited") == 250, f"totals {totals(receiver.totals)}")
    return f"send {told}"


@test((0, 0, 0), (5, 5_999, 5), waits=True)
def a_receive_max_stops_money_of_which_one_unit_arrives_for_a_thousand(play, most, paid, credited):
    """With a receive max of 5, 5,999 units are sent, which count for 5. Then 999 units would count for nothing, again and again."""
    content = some_bytes(10_000)
    receiver = play.receive("--patience=5", most=most)
    hub = play.connector(table_to(receiver.port).replace("route test.b 1", "route test.b 1 1 1000"))
    sender = play.send(hub.port, content, "--money=1000000", "--least=1:1000")
    sent, received = ended(sender, 60), ended(receiver, 20)
    money = totals(sender.totals).get("paid"), totals(receiver.totals).get("credited")
    came = read_bytes(receiver.path)
    want((sent, received) == ("59", "88") and money == (paid, credited), f"send {sent}, receive {received}, paid and credited {money}")
    want(came == content, f"{len(came)} bytes came")
    with open(sender.log, encoding="ascii") as file:
        waits = [line for line in file if " waits " in line]
    want(len(waits) == 1 and waits[0].endswith(f" waits at=stream-money stream=1 receive_max={most} total={paid}\n"), f"log {waits}")
    return f"{paid} paid, {credited} credited, 59 and 88"


@test((0, 10), (3, 0), waits=True)
def a_fulfill_after_seconds_of_two_is_booked_as(play, seconds, wanted):
    def handle(_, stream):
        message(stream)
        time.sleep(seconds)
        stream.sendall(answer(fulfill()))

    hub = play.before(play.peer(handle), requests=2)
    _, body = asked((HOST, hub.port), request("t", prepare(10, 2, "test.b")), 20)
    want(body[:1] == (b"\x0d" if wanted else b"\x0e"), f"answer {body[:20]!r}")
    # The late answer is there when the connector ends.
    time.sleep(seconds / 2)
    use_up(hub, hub.port, "t")
    want(ended(hub, 10) == "0", "the connector does not end")
    found = totals(hub.totals)
    booked = [found.get("account 0 claims"), found.get("account 1 dues"), found.get("account 0 held")]
    want(booked == [wanted, wanted, 0], f"totals {found}")
    return body[2:5].decode() if not wanted else "fulfilled"


# What a connector writes of its totals.


NOTHING = "account 0 claims 0 dues 0 held 0\naccount 1 claims 0 dues 0 held 0\n"


@test()
def a_file_of_totals_is_replaced_at_the_end(play):
    for number in range(1, 9):
        write(f"{play.room}/{number}.totals", "of an earlier run\n")
    hub = play.connector(table_to(1), requests=3)
    want(read(hub.totals, "ascii") == "of an earlier run\n", "it is not as it was")
    first = asked((HOST, hub.port), request("t", prepare(0, 5, "test.x")), 20)[1]
    second = asked((HOST, hub.port), request("t", prepare(0, 5, "test.b")), 20)[1]
    use_up(hub, hub.port, "none")
    want(ended(hub, 10) == "0", "the connector does not end")
    found = [first[2:5], second[2:5]]
    want(found == [b"F02", b"T01"], f"answers {found}")
    # (nobody listens at the second account's place)
    counts = "count 0 fulfilled 0 rejected 0 lost 1 refused 1\ncount 1 fulfilled 0 rejected 0 lost 0 refused 0\n"
    told = read(hub.totals, "ascii")
    want(told == NOTHING + counts + "code 0 F02 1\ncode 0 T01 1\n", f"it says {told!r}")
    want(not glob.glob(hub.totals + ".new*"), "a file next to it is still there")
    return "F02 and T01"


@test(waits=True)
def a_file_of_totals_is_replaced_each_minute(play):
    for number in range(1, 9):
        write(f"{play.room}/{number}.totals", "of an earlier run\n")
    hub = play.connector(table_to(1))
    begun = time.monotonic()
    found = asked((HOST, hub.port), request("t", prepare(0, 5, "test.x")), 20)[1][2:5]
    want(found == b"F02" and read(hub.totals, "ascii") == "of an earlier run\n", f"answer {found}, totals {read(hub.totals, 'ascii')!r}")
    seen = set()
    while len(seen) < 2 and time.monotonic() < begun + 75:
        seen.add(read(hub.totals, "ascii"))
        time.sleep(0.005)
    counts = "count 0 fulfilled 0 rejected 0 lost 0 refused 1\ncount 1 fulfilled 0 rejected 0 lost 0 refused 0\ncode 0 F02 1\n"
    want(seen == {"of an earlier run\n", NOTHING + counts}, f"it said {seen}")
    stands(hub, "connector")
    return f"after {time.monotonic() - begun:.0f} s"


# Transfers of which none stops for a second.


@test((2,), (4,))
def transfers_that_stand_by_workers(play, workers):
    """A hundred transfers of 4 MiB. If the thread that reads the file sleeps while its ring is empty, it looks again after a second:
    of 100 transfers 3 or 4 stopped while a wake-up could be lost. One that is late may be the machine's fault."""
    content, taken = some_bytes(4 << 20), []
    given = play.file(content)
    for _ in range(100):
        receiver = play.receive()
        given.seek(0)
        begun = time.monotonic()
        ends_well(play.send(receiver.port, given, f"--workers={workers}"), 20)
        taken.append(time.monotonic() - begun)
        whole(receiver, content, 10)
        os.unlink(receiver.path)
    median = sorted(taken)[len(taken) // 2]
    late = sorted(it for it in taken if it > median + 0.9)
    want(len(late) < 2, f"median {median:.2f} s, and {', '.join(f'{it:.2f}' for it in late)} s")
    return f"median {median:.2f} s, longest {max(taken):.2f} s"


if __name__ == "__main__":
    sys.exit(main())
