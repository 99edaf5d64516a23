#!/usr/bin/env python3
"""Runs `send` and `receive` with money, and with a peer between them that lies: liar.py [PROGRAM [WORD]]. It lies at each third
exchange and at every one, and at each third next to a connector. Other runs have devices that fail. What arrives is a beginning of what
was sent, and what each side reports in the end fits. With a WORD, only the tests whose names have it. A line for each test says how
both ended and how much arrived; the last line counts them."""
import os
import socket
import threading

from peers import BOUND, HOST, asked, ended, fields_at, message, totals, use_up
from play import main, some_bytes, table_to, test, want

INPUT = some_bytes(70_000)
# What is offered; the most that is accepted, of which a Prepare whose answer is lost takes a part again; the most that a connector
# takes in one Prepare, and how many requests.
MONEY, MOST, PIECE, REQUESTS = 500, 1_000_000, 100, 600


def with_bit(body, place):
    """The same bytes, one bit of the one at a place turned."""
    place %= len(body)
    return body[:place] + bytes([body[place] ^ 1]) + body[place + 1 :]


def iv_of(prepare):
    """The IV of what a Prepare carries: the first 12 bytes of its data, after its address (both with a length in front)."""
    at = fields_at(prepare) + 8 + 17 + 32
    at += 1 + prepare[at]
    at += 1 if prepare[at] < 128 else 1 + prepare[at] - 128
    return prepare[at : at + 12]


class Liar:
    """Listens at a port of its own, and passes each request on to the receiver. It lies in this way at the first exchange, in which
    a sender offers its money, and at each `every`-th one after it."""

    def __init__(self, lie, every, port):
        self.lie, self.every, self.host = lie, every, (HOST, port)
        self.exchanges, self.kept, self.request, self.ivs = 0, b"", b"", []
        self.listener = socket.create_server((HOST, 0))
        self.port = self.listener.getsockname()[1]
        threading.Thread(target=self.serve, daemon=True).start()

    def serve(self):
        while True:
            try:
                stream, _ = self.listener.accept()
            except OSError:
                return
            try:
                with stream:
                    stream.settimeout(BOUND)
                    self.exchange(stream)
            except OSError:
                pass

    def close(self):
        self.listener.close()

    def exchange(self, stream):
        self.exchanges += 1
        lie = self.lie if self.exchanges % self.every == 1 % self.every else ""
        if lie == "drop at once":
            return
        if lie == "drop in the request":
            stream.recv(100)
            return
        head, body = message(stream)
        self.ivs.append(iv_of(body))
        if lie != "drop before the receiver":
            self.answer(stream, lie, *self.passed_on(lie, head, body))

    def passed_on(self, lie, head, body):
        """The answer of the receiver to a request, or to what the liar makes of it."""
        if lie == "wrong condition":  # after the amount, of 8 bytes, and the expiry, of 17
            body = with_bit(body, fields_at(body) + 25)
        if lie == "request with a turned bit":
            body = with_bit(body, -1)
        if lie == "another's request again" and self.request:
            asked(self.host, self.request)
        self.request = head + body
        return asked(self.host, head + body)

    def answer(self, stream, lie, head, body):
        """Sends an answer back, or what the liar makes of it."""
        if lie == "wrong fulfillment" and body[:1] == b"\x0d":
            body = with_bit(body, fields_at(body))
        if lie == "answer with a turned bit" and body[:1] == b"\x0d":
            body = with_bit(body, -1)
        if lie == "another's fulfillment" and self.kept:
            head, body = self.kept
        elif body[:1] == b"\x0d":
            self.kept = head, body
        if lie == "answer of 70,000 bytes":
            head, body = b"HTTP/1.1 200 OK\r\nContent-Length: 70000\r\n\r\n", bytes(70_000)
        if lie == "drop before the answer":
            return
        if lie == "drop in the head":
            stream.sendall(head[:20])
        elif lie == "drop in the answer":
            stream.sendall(head + body[: len(body) // 2])
        elif lie == "head byte by byte":
            for byte in head:
                stream.sendall(bytes([byte]))
            stream.sendall(body)
        else:
            stream.sendall(head + body)


class Transfer:
    """A receiver, a connector in front of it if one is wanted, and a liar: in front of the connector if the place is `before` it, and
    else of the receiver."""

    def __init__(self, play, lie, every, place="", path=None):
        self.play, self.hub = play, None
        self.receiver = play.receive(most=MOST, path=path)
        port = self.receiver.port if place == "before" else self.lies(lie, every, self.receiver.port)
        if place:
            self.hub = play.connector(table_to(port).replace("account 1000000000 1000000 ", f"account {MOST} {PIECE} "), requests=REQUESTS)
            port = self.hub.port
        self.place, self.port = place, self.lies(lie, every, port) if place == "before" else port

    def lies(self, lie, every, port):
        self.liar = Liar(lie, every, port)
        self.play.peers.append(self.liar)
        return self.liar.port

    def send(self, given):
        """How a sender ended, the receiver and the connector."""
        self.sender = self.play.send(self.port, given, "--workers=1", f"--money={MONEY}")
        sent = ended(self.sender, BOUND)
        received = ended(self.receiver, BOUND if sent == "0" else 1)
        if self.hub:
            use_up(self.hub, self.hub.port, "t")
        self.liar.close()
        return sent, received, ended(self.hub, BOUND) if self.hub else "0"

    def came(self):
        if not os.path.isfile(self.receiver.path):
            return b""
        with open(self.receiver.path, "rb") as file:
            return file.read()

    def sums(self):
        """What is wrong with what the commands reported in the end: nobody paid for what was not fulfilled, a connector owes what it
        is owed, and on a link without lies both sides report the same. Who was stopped reported nothing."""
        send, receive, hub = (totals(it.totals) if it else {} for it in (self.sender, self.receiver, self.hub))
        paid, credited = send.get("paid", 0), receive.get("credited")
        claims, dues = hub.get("account 0 claims", paid), hub.get("account 1 dues", paid)
        wrong = {
            "no totals": not send or (self.hub and not hub),
            "more paid than offered": paid > MONEY,
            "paid and not claimed": paid > claims or (self.place == "behind" and paid != claims),
            "claimed and not owed": claims != dues,
            "owed and not credited": credited is not None and (dues > credited or (self.place == "before" and dues != credited)),
            "something is reserved": any(number for name, number in hub.items() if name.endswith("held")),
        }
        return ", ".join(it for it, is_so in wrong.items() if is_so), paid


def ends(play, lie, every, place="", path=None, given=None):
    """How `send` and `receive` ended, and how much arrived in a file, or at another path, of all bytes, or of nothing from `given`."""
    # If no answer's payload opens the sender learns no higher limit, and waits for one after the first 16,384 bytes.
    whole = INPUT[:16_000] if (lie, every) == ("answer with a turned bit", 1) else INPUT
    it = Transfer(play, lie, every, place, path)
    sent, received, connected = it.send(given or whole)
    came, ivs = it.came(), it.liar.ivs
    wrong, paid = it.sums()
    want(len(set(ivs)) == len(ivs), f"of {len(ivs)} IVs {len(set(ivs))} are different")
    want(not wrong and connected == "0", f"connector {connected}, {wrong}")
    is_right = whole.startswith(came) and (received != "0" or came == whole) and (sent != "0" or paid == MONEY)
    want(is_right, f"send {sent}, receive {received}, {len(came)} bytes, {paid} units paid")
    # If the answer to the close is lost, the receiver is gone, and the sender knows no more than that.
    if received == "0" and (sent == "0" or (sent == "58" and lie in OF_ANSWERS)):
        return "whole"
    # If the third exchange fails the connection, it is chance whether the first bytes were among those before it.
    few = "at most a part" if place and sent == "58" else "a part" if came else "nothing"
    return f"send {sent}, receive {received}, {few}"


# A Fulfill acknowledges whatever its payload is; F06, the answer to a payload that does not open, fails the connection at once, and so
# do F05, a connector's answer to a Fulfill that does not fit, and 200 failures in a row.
WHOLE, PART, SOME = "whole", "send 58, receive waits, a part", "send 58, receive waits, at most a part"
NOTHING = "send 58, receive waits, nothing"
PLACES = {"each third": (3, ""), "every one": (1, ""), "each third, before a connector": (3, "before"), "each third, behind a connector": (3, "behind")}
# Of each lie how a transfer ends at each of the places.
OF_ANSWERS = {
    "wrong fulfillment": (WHOLE, PART, WHOLE, SOME),
    "another's fulfillment": (WHOLE, PART, WHOLE, SOME),
    "answer with a turned bit": (WHOLE, WHOLE, WHOLE, WHOLE),
    "answer of 70,000 bytes": (WHOLE, PART, WHOLE, WHOLE),
    "drop before the answer": (WHOLE, PART, WHOLE, WHOLE),
    "drop in the head": (WHOLE, PART, WHOLE, WHOLE),
    "drop in the answer": (WHOLE, PART, WHOLE, WHOLE),
}
LIES = {
    **OF_ANSWERS,
    "head byte by byte": (WHOLE, WHOLE, WHOLE, WHOLE),
    "drop at once": (WHOLE, NOTHING, WHOLE, WHOLE),
    "drop in the request": (WHOLE, NOTHING, WHOLE, WHOLE),
    "drop before the receiver": (WHOLE, NOTHING, WHOLE, WHOLE),
    "wrong condition": (WHOLE, NOTHING, WHOLE, WHOLE),
    "request with a turned bit": (NOTHING, NOTHING, SOME, SOME),
    "another's request again": (WHOLE, WHOLE, WHOLE, WHOLE),
}


@test(*[(lie, place) for lie in LIES for place in PLACES], waits=True, again=False)
def a_peer_lies_by(play, lie, place):
    told, wanted = ends(play, lie, *PLACES[place]), LIES[lie][list(PLACES).index(place)]
    want(told == wanted, f"{told}, and not {wanted}")
    return told


@test(waits=True, again=False)
def a_receiver_whose_output_is_a_full_disk(play):
    told = ends(play, "", 3, path="/dev/full")
    want(told == "send 58, receive 91, nothing", told)
    return told


@test(waits=True, again=False)
def a_sender_whose_input_fails(play):
    folder = os.open("/", os.O_RDONLY)
    try:
        told = ends(play, "", 3, given=folder)
    finally:
        os.close(folder)
    want(told == "send 90, receive waits, nothing", told)
    return told


if __name__ == "__main__":
    raise SystemExit(main())
