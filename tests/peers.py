"""What the tests of the real program share: messages of ILP over HTTP (RFC 0035) and packets of ILPv4 (RFC 0027), a peer that
handles each connection as a test says, free ports, and how a process ended."""
import datetime
import hashlib
import os
import re
import socket
import subprocess
import threading
import time

SECRET = "000102030405060708090a0b0c0d0e0f101112131415161718191a1b1c1d1e1f"
HOST = "127.0.0.1"
# More seconds than any run may take.
BOUND = 60
# Ports that are listened at by tests are below those that the system gives to outgoing connections.
FIRST_PORT = 20_000
GIVEN, GIVING = set(), threading.Lock()


def last_port():
    try:
        with open("/proc/sys/net/ipv4/ip_local_port_range", encoding="ascii") as file:
            return max(int(file.read().split()[0]), FIRST_PORT + 1_000)
    except OSError:
        return 32_768


def free_ports(count):
    """That many ports that nothing is bound to, and that were not given before in this run."""
    found = []
    with GIVING:
        while len(found) < count:
            port = FIRST_PORT + int.from_bytes(os.urandom(4), "big") % (last_port() - FIRST_PORT)
            if port in GIVEN:
                continue
            try:
                socket.create_server((HOST, port)).close()
            except OSError:
                continue
            GIVEN.add(port)
            found.append(port)
    return found


def free_port():
    return free_ports(1)[0]


def give_back(ports):
    """These ports may be given again: a run that lasts would else give all that there are."""
    with GIVING:
        GIVEN.difference_update(ports)


def listens(port):
    """Whether a process listens at a port, by the kernel's list, so that no connection is made to find out."""
    with open("/proc/net/tcp", encoding="ascii") as file:
        rows = [line.split() for line in file]
    return any(row[1].endswith(f":{port:04X}") and row[3] == "0A" for row in rows[1:])


def message(stream):
    """One message of HTTP: its head with the empty line, and its body. If the stream ends before, what it had. Nothing may
    follow the message."""
    with stream.makefile("rb") as file:
        head = b""
        while not head.endswith(b"\r\n\r\n"):
            line = file.readline()
            if not line:
                return head, b""
            head += line
        length = re.search(rb"(?i)content-length: *(\d+)", head)
        return head, file.read(int(length[1])) if length else b""


def is_whole(head, body):
    """Whether all of a message was there."""
    length = re.search(rb"(?i)content-length: *(\d+)", head)
    return head.endswith(b"\r\n\r\n") and bool(length) and len(body) == int(length[1])


def asked(host, request, bound=BOUND):
    """The answer to the bytes of a request, as its head and its body; two empty ones if there is none."""
    try:
        with socket.create_connection(host, timeout=bound) as stream:
            stream.sendall(request)
            return message(stream)
    except OSError:
        return b"", b""


def request(token, body):
    """A request of ILP over HTTP that shows a token."""
    head = f"POST /ilp HTTP/1.1\r\nHost: test\r\nAuthorization: Bearer {token}\r\nContent-Type: application/octet-stream\r\n"
    return head.encode() + f"Content-Length: {len(body)}\r\nConnection: close\r\n\r\n".encode() + body


def answer(body):
    """A response of ILP over HTTP."""
    return f"HTTP/1.1 200 OK\r\nContent-Type: application/octet-stream\r\nContent-Length: {len(body)}\r\n\r\n".encode() + body


def octets(content):
    """A variable-length octet string (RFC 0030)."""
    count = len(content)
    if count < 128:
        return bytes([count]) + content
    digits = count.to_bytes((count.bit_length() + 7) // 8, "big")
    return bytes([0x80 + len(digits)]) + digits + content


def prepare(amount, seconds, address, preimage=bytes(32)):
    """An ILP Prepare without data that expires after some seconds, and is fulfilled by a preimage of 32 bytes."""
    expiry = datetime.datetime.now(datetime.timezone.utc) + datetime.timedelta(seconds=seconds)
    text = expiry.strftime("%Y%m%d%H%M%S") + f"{expiry.microsecond // 1_000:03d}"
    condition = hashlib.sha256(preimage).digest()
    return b"\x0c" + octets(amount.to_bytes(8, "big") + text.encode() + condition + octets(address.encode()) + octets(b""))


def fields_at(packet):
    """The offset of an ILP packet's fields: after its type and its length (RFC 0027, RFC 0030)."""
    return 2 if packet[1] < 128 else 2 + packet[1] - 128


def fulfill(preimage=bytes(32)):
    """An ILP Fulfill without data."""
    return b"\x0d" + octets(preimage + octets(b""))


def reject(code, by, text=b""):
    """An ILP Reject without data."""
    return b"\x0e" + octets(code + octets(by) + octets(text) + octets(b""))


def use_up(process, port, token):
    """Sends requests that hold no packet until a connector took the number that it was asked for, or for a minute."""
    until = time.monotonic() + BOUND
    while process.poll() is None and time.monotonic() < until:
        asked((HOST, port), request(token, b"\0"), 1)


class Peer:
    """Listens at a port, of its own if none is given, and has `handle(number, stream)` handle each connection in a thread,
    numbered from 1."""

    def __init__(self, handle, port=0, host=HOST):
        self.handle, self.number, self.bound_to = handle, 0, host
        self.listen(port)

    def listen(self, port):
        self.listener = socket.create_server((self.bound_to, port), backlog=128)
        self.port = self.listener.getsockname()[1]
        threading.Thread(target=self.serve, daemon=True).start()

    def serve(self):
        listener = self.listener
        while True:
            try:
                stream, _ = listener.accept()
            except OSError:
                return
            self.number += 1
            threading.Thread(target=self.one, args=(self.number, stream), daemon=True).start()

    def one(self, number, stream):
        try:
            with stream:
                stream.settimeout(2 * BOUND)
                self.handle(number, stream)
        except OSError:
            pass

    def close(self):
        # A blocked accept keeps a listener open; a shutdown ends it.
        try:
            self.listener.shutdown(socket.SHUT_RDWR)
        except OSError:
            pass
        self.listener.close()


class Full(Peer):
    """A peer whose queue of connections is full, so that the kernel drops further ones, until it begins to accept."""

    def __init__(self, handle):
        self.accepts, self.queued = threading.Event(), []
        super().__init__(handle)
        self.listener.listen(0)
        while self.fills():
            pass

    def fills(self):
        """Whether one more connection was accepted."""
        stream = socket.socket()
        stream.settimeout(0.3)
        self.queued.append(stream)
        return stream.connect_ex((HOST, self.port)) == 0

    def serve(self):
        self.accepts.wait()
        super().serve()

    def begin(self):
        for stream in self.queued:
            stream.close()
        self.accepts.set()

    def close(self):
        self.begin()
        super().close()


def ended(process, bound):
    """How a process ended: 0, or the number of its fault; else what is wrong with it."""
    try:
        _, errors = process.communicate(timeout=bound)
    except subprocess.TimeoutExpired:
        process.kill()
        process.communicate()
        return "waits"
    errors = errors or b""  # (they may be a file)
    fault = re.fullmatch(rb"fault (\d+)\n", errors)
    if process.returncode == 1 and fault:
        return fault[1].decode()
    return "0" if process.returncode == 0 and not errors else f"WRONG {process.returncode} {errors!r}"


def totals(path):
    """What a command reported in its file of totals, by its lines: `paid 500`, or `account 0 claims 500 dues 0 held 0`."""
    try:
        with open(path, encoding="ascii") as file:
            lines = file.read().split("\n")[:-1]
    except OSError:
        return {}
    found = {}
    for words in map(str.split, lines):
        front, words = ("", words) if len(words) == 2 else (" ".join(words[:2]) + " ", words[2:])
        found.update({front + name: int(number) for name, number in zip(words[::2], words[1::2])})
    return found
