"""ILP over HTTP."""

from __future__ import annotations

from collections.abc import Sequence
from ctypes import byref, c_size_t
from dataclasses import dataclass

from . import _declared
from ._object import Buffer, Code, Object, alone, done, lib, number, taken, written


@dataclass(frozen=True)
class Wants:
    """A message is not whole yet: `length` is how many bytes to ask for next, and never more than it must still have."""

    length: int


@dataclass(frozen=True)
class Whole:
    """A message is whole: the account of a request, by the place of its token (0 for a response), the ILP packet, and how many of
    the bytes are the message."""

    account: int
    body: bytes
    taken: int


@dataclass(frozen=True)
class Status:
    """A request is refused, and answered with this status; or a response has this status, which is not 200."""

    status: int


class _Message(Object):
    @alone
    def feed(self, data: Buffer) -> Wants | Whole | Status:
        """Reads the next bytes. Some thousand at once cost less than single ones. If the message is refused, no byte was
        read."""
        data, reading = taken(data), _declared.Reading()
        answer = lib.ilp_message_feed(self._at(), data, len(data), byref(reading))
        if answer == Code.IDLE:
            return Wants(reading.wants)
        if answer == Code.STATUS:
            return Status(reading.status)
        done(answer)
        return Whole(reading.account, self._output(reading.body_len), reading.taken)


class Request(_Message):
    """A request of ILP over HTTP (RFC 0035), as it is read. Its head has at most 8,192 bytes and 64 fields, its body at most
    65,535 bytes.

    >>> text = request_text("bob.example", "alice-at-bob", b"a packet")
    >>> with Request(["alice-at-bob"]) as request:
    ...     request.feed(text[:9]), request.feed(text[9:]).body
    (Wants(length=1), b'a packet')
    """

    def __init__(self, tokens: Sequence[str]) -> None:
        """Begins to read a request to the account of one of these bearer tokens."""
        super().__init__()
        words = [token.encode() for token in tokens]
        text, lengths = b"".join(words), (c_size_t * len(words))(*map(len, words))
        done(lib.ilp_request_new(self._at(), text, len(text), lengths, len(words)))


class Response(_Message):
    """A response of ILP over HTTP, as it is read.

    >>> Response().feed(answer_text(b"a packet")).body
    b'a packet'
    >>> Response().feed(refusal_text(401))
    Status(status=401)
    """

    def __init__(self) -> None:
        """Begins to read a response."""
        super().__init__()
        done(lib.ilp_response_new(self._at()))


def request_text(host: str, token: str, body: Buffer) -> bytes:
    """A POST request with an ILP packet. The host and the token have 1 to 255 characters from ! to ~."""
    name, word, body = host.encode(), token.encode(), taken(body)
    return written(lib.ilp_request_text, name, len(name), word, len(word), body, len(body))


def answer_text(body: Buffer) -> bytes:
    """A response 200 with an ILP packet."""
    body = taken(body)
    return written(lib.ilp_answer_text, body, len(body))


def refusal_text(status: int) -> bytes:
    """A response of another status, 400 to 599."""
    return written(lib.ilp_refusal_text, number(status, 32, "the status"))
