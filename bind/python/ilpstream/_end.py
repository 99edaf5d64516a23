"""An end of a STREAM connection."""

from __future__ import annotations

import enum
from ctypes import byref, c_size_t, c_uint8, c_uint32, c_uint64, sizeof
from dataclasses import dataclass

from . import _declared
from ._object import Buffer, Code, IlpError, Object, alone, done, fixed, lib, moment, number, taken


class Role(enum.IntEnum):
    """Which side of a connection an end is: a client's streams are odd, a server's even."""

    CLIENT = 0
    SERVER = 1


class Aborted(ConnectionAbortedError):
    """The peer aborted the stream with a code of RFC 0029, section 5.4."""

    def __init__(self, code: int) -> None:
        super().__init__(f"the peer aborted the stream with the code {code}")
        self.code = code


@dataclass(frozen=True)
class Outgoing:
    """A Prepare that is to be sent to the peer. Its answer is reported once, by the number of the flight."""

    flight: int
    bytes: bytes


@dataclass(frozen=True)
class Received:
    """What an end did with a Prepare: the answer; why it is a Reject (0 for a Fulfill; docs/ERRORS.md, "Of an end"); the amount
    of the Prepare; and the number of its STREAM packet, if that could be read."""

    bytes: bytes
    reason: int
    amount: int
    sequence: int | None


class FailureKind(enum.IntEnum):
    """How a Prepare failed: no answer arrived; what arrived is neither a Fulfill nor a Reject; a Fulfill arrived that does not
    fit; a Reject arrived."""

    LOST = 1
    UNREADABLE = 2
    UNFIT = 3
    REJECTED = 4


@dataclass(frozen=True)
class Failure:
    """Why a Prepare failed. Of a Reject: its code, as T04; `by`, the ILP address of whoever refused, or nothing; and the first
    255 bytes of its message, which whoever refused chose, and whose last character may be cut. Otherwise these are empty."""

    kind: FailureKind
    code: str = ""
    by: str = ""
    message: bytes = b""


@dataclass(frozen=True)
class Totals:
    """What an end did so far: bytes that were written and that were read, units that it received and that it paid."""

    accepted: int
    delivered: int
    credited: int
    paid: int


class End(Object):
    """An end of a STREAM connection (RFC 0029): it makes the Prepares that carry its streams' bytes and money, and answers those
    of its peer. It does no I/O and knows no clock: times are milliseconds after 1970-01-01 00:00 UTC.

    >>> import os, time
    >>> now = int(time.time() * 1000)
    >>> secret = os.urandom(32)
    >>> alice, bob = "example.alice", "example.bob"
    >>> with End(Role.CLIENT, secret, alice, bob) as client, End(Role.SERVER, secret, bob, alice) as server:
    ...     stream = client.open_stream()
    ...     client.write(stream, b"hi")
    ...     client.offer(stream, 10)
    ...     client.close(stream)
    ...     server.set_receive_max(stream, 10)
    ...     before = server.read(stream)
    ...     while prepare := client.send(os.urandom(12), now):
    ...         answer = server.receive(prepare.bytes, now)
    ...         fits = client.answer(prepare.flight, answer.bytes)
    ...     before, server.ready(), server.read(stream), server.read(stream)
    ...     client.totals().paid, server.totals().credited
    (None, [1], b'hi', b'')
    (10, 10)
    """

    def __init__(
        self,
        role: Role,
        secret: Buffer,
        own: str,
        peer: str,
        *,
        in_flight: int = 16,
        packets: int = (1 << 31) - 1,
        packet_limit: int = (1 << 63) - 1,
        least: tuple[int, int] = (1, 1),
    ) -> None:
        """An end whose ILP address is `own` and whose peer's is `peer`. Both share the secret of 32 bytes. `in_flight` Prepares
        may wait for their answer at once, 1 to 64; `packets` are sent in all, 1 to 2^31 - 1, with at first at most
        `packet_limit` units each, 1 to 2^63 - 1. Of a packet at least its amount times `least`, as a numerator and a
        denominator, has to arrive."""
        super().__init__()
        self._role = role
        config = _declared.Config(
            sizeof(_declared.Config),
            number(in_flight, 64, "in_flight"),
            number(packets, 64, "packets"),
            number(packet_limit, 64, "packet_limit"),
            number(least[0], 32, "the numerator"),
            number(least[1], 32, "the denominator"),
        )
        names = [name.encode() for name in (own, peer)]
        done(
            lib.ilp_end_new(
                self._at(),
                role,
                fixed(secret, 32, "the secret"),
                names[0],
                len(names[0]),
                names[1],
                len(names[1]),
                byref(config),
            )
        )

    @alone
    def open_stream(self) -> int:
        """Opens the next of this end's own streams, of which there are 32, and gives its number."""
        stream = c_uint32()
        done(lib.ilp_end_open_stream(self._at(), byref(stream)))
        return stream.value

    @alone
    def write(self, stream: int, data: Buffer) -> None:
        """Accepts bytes that are to be sent: all, or none if it raises. `Code.FULL`: they are more than `room`."""
        data = taken(data)
        done(lib.ilp_end_write(self._at(), number(stream, 32, "the stream"), data, len(data)))

    @alone
    def room(self, stream: int) -> int:
        """How many bytes `write` takes at most, 0 to 262,144: that many of a stream may wait for an acknowledgement. To write a
        part of what there is, ask for the room first."""
        room = c_size_t()
        done(lib.ilp_end_room(self._at(), number(stream, 32, "the stream"), byref(room)))
        return room.value

    @alone
    def ready(self) -> list[int]:
        """Which streams can be read, rising: `read` gives something on each of them, or that it has ended."""
        return list(self._text("ilp_end_ready"))

    @alone
    def streams(self) -> list[int]:
        """Which streams are open, those of both ends, rising. One that the caller does not know yet was opened by the peer
        meanwhile."""
        return list(self._text("ilp_end_streams"))

    @alone
    def close(self, stream: int) -> None:
        """Closes a stream once all that was written and offered is delivered."""
        done(lib.ilp_end_close(self._at(), number(stream, 32, "the stream")))

    @alone
    def abort(self, stream: int, code: int) -> None:
        """Aborts a stream with a code of RFC 0029, section 5.4, other than 1."""
        done(lib.ilp_end_abort(self._at(), number(stream, 32, "the stream"), number(code, 32, "the code")))

    @alone
    def offer(self, stream: int, amount: int) -> None:
        """Offers units on a stream, in addition to what was offered before."""
        done(lib.ilp_end_offer(self._at(), number(stream, 32, "the stream"), number(amount, 64, "the amount")))

    @alone
    def set_receive_max(self, stream: int, amount: int) -> None:
        """Lets a stream receive up to an amount in all, which is 0 at the start and is never lowered."""
        stream, amount = number(stream, 32, "the stream"), number(amount, 64, "the amount")
        done(lib.ilp_end_set_receive_max(self._at(), stream, amount))

    def _may_come(self, stream: int) -> bool:
        """Whether the peer may open a stream of this number."""
        return 1 <= stream <= 64 and stream % 2 == (self._role == Role.SERVER)

    @alone
    def read(self, stream: int, size: int = -1) -> bytes | None:
        """The next bytes of a stream, as `io.RawIOBase.read` gives them: at most `size`, or all that are there, which are never
        more than 65,536; b"" if all were read, and the peer closed the stream; None if there are none yet, also before the
        peer opened the stream. Raises `Aborted` if the peer aborted it."""
        length, code, stream = c_size_t(), c_uint64(), number(stream, 32, "the stream")
        most = 65536 if size == -1 else number(size, 64, "the size")
        answer = lib.ilp_end_read(self._at(), stream, most, byref(length), byref(code))
        if answer == Code.DONE:
            return self._output(length.value)
        if answer == Code.IDLE or answer == Code.NO_STREAM and self._may_come(stream):
            return None
        if answer == Code.ENDED:
            return b""
        if answer == Code.ABORTED:
            raise Aborted(code.value)
        raise IlpError(answer)

    @alone
    def send(self, iv: Buffer, now: int) -> Outgoing | None:
        """The next Prepare, or None if nothing is to be sent now. No two packets of a connection, of either end, may have the
        same IV of 12 bytes: take each from `os.urandom(12)`."""
        flight, length = c_uint64(), c_size_t()
        iv = fixed(iv, 12, "the IV")
        answer = lib.ilp_end_send(self._at(), iv, moment(now), byref(flight), byref(length))
        if answer == Code.IDLE:
            return None
        done(answer)
        return Outgoing(flight.value, self._output(length.value))

    @alone
    def answer(self, flight: int, data: Buffer) -> bool:
        """Whether the bytes of the answer to a flight are a Fulfill that fits. Raises `Code.UNKNOWN` if it is not open."""
        fulfilled = c_uint32()
        data = taken(data)
        copy = (c_uint8 * len(data)).from_buffer_copy(data)
        flight = number(flight, 64, "the flight")
        done(lib.ilp_end_answer(self._at(), flight, copy, len(data), byref(fulfilled)))
        return fulfilled.value == 1

    @alone
    def fault(self, flight: int) -> None:
        """No answer arrived to a flight, and none is waited for: what it carries is sent again."""
        done(lib.ilp_end_fault(self._at(), number(flight, 64, "the flight")))

    @alone
    def receive(self, data: Buffer, now: int) -> Received:
        """What answers a Prepare of the peer. If it raises `Code.NO_MEMORY`, answer with `t00()`, and the peer sends again."""
        received = _declared.Received()
        data = taken(data)
        done(lib.ilp_end_receive(self._at(), data, len(data), moment(now), byref(received)))
        sequence = received.sequence if received.opened else None
        return Received(self._output(received.len), received.reason, received.amount, sequence)

    @alone
    def t00(self) -> bytes:
        """A Reject T00 that is kept ready, for use if memory is refused."""
        return self._text("ilp_end_t00")

    @alone
    def totals(self) -> Totals:
        """What this end did so far."""
        totals = _declared.Totals()
        done(lib.ilp_end_totals(self._at(), byref(totals)))
        return Totals(totals.accepted, totals.delivered, totals.credited, totals.paid)

    @alone
    def has_stream(self, stream: int) -> bool:
        """Whether a stream is open at this end."""
        return self._answered("ilp_end_has_stream", number(stream, 32, "the stream"))

    @alone
    def settled(self, stream: int) -> bool:
        """Whether this end's own close of a stream was fulfilled."""
        return self._answered("ilp_end_settled", number(stream, 32, "the stream"))

    @alone
    def is_failed(self) -> bool:
        """Whether the connection failed: 200 Prepares in a row without a Fulfill, or a final Reject code."""
        return self._answered("ilp_end_is_failed")

    @alone
    def last_failure(self) -> Failure | None:
        """Why the last Prepare of this end that failed did so; None before the first. A later Fulfill does not change it.

        >>> from ilpstream import Reject
        >>> client = End(Role.CLIENT, bytes(32), "example.alice", "example.bob")
        >>> client.write(client.open_stream(), b"hi")
        >>> client.last_failure()
        >>> client.fault(client.send(bytes(12), 0).flight)
        >>> client.last_failure().kind.name
        'LOST'
        >>> client.answer(client.send(bytes(12), 0).flight, Reject("T04", "example.hub", "no liquidity").write())
        False
        >>> failure = client.last_failure()
        >>> failure.kind.name, failure.code, failure.by, failure.message
        ('REJECTED', 'T04', 'example.hub', b'no liquidity')
        """
        told = _declared.Failure(sizeof(_declared.Failure))
        answer = lib.ilp_end_last_failure(self._at(), byref(told))
        if answer == Code.IDLE:
            return None
        done(answer)
        if told.kind != FailureKind.REJECTED:
            return Failure(FailureKind(told.kind))
        by, message = bytes(told.by[: told.by_len]), bytes(told.message[: told.message_len])
        return Failure(FailureKind.REJECTED, bytes(told.code).decode(), by.decode(), message)
