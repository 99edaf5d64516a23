"""Plain STREAM packets, frame by frame."""

from __future__ import annotations

import enum
from collections.abc import Iterator
from ctypes import byref, c_size_t, c_uint64
from dataclasses import dataclass, fields

from . import _declared
from ._object import Buffer, Object, alone, done, lib, number, taken


class PacketKind(enum.IntEnum):
    """The ILP packet that carries a STREAM packet."""

    PREPARE = 12
    FULFILL = 13
    REJECT = 14


@dataclass(frozen=True)
class ConnectionClose:
    """Type 01: the connection is closed, with an error code of 0 to 255, 1 for none, and a message for people."""

    code: int
    message: str = ""


@dataclass(frozen=True)
class ConnectionNewAddress:
    """Type 02: the sender of the frame has another ILP address from now on. An empty one changes nothing."""

    address: str


@dataclass(frozen=True)
class ConnectionMaxData:
    """Type 03: the most bytes that the sender of the frame accepts, as the greatest sum of the highest offsets of all streams."""

    max_offset: int


@dataclass(frozen=True)
class ConnectionDataBlocked:
    """Type 04: the sender of the frame wants to reach this sum of the highest offsets of all streams."""

    max_offset: int


@dataclass(frozen=True)
class StreamClose:
    """Type 10: a stream is closed, with an error code of 0 to 255, 1 for none, and a message for people."""

    stream: int
    code: int
    message: str = ""


@dataclass(frozen=True)
class StreamMoney:
    """Type 11: a stream gets the packet's amount times its shares, divided by the shares of all streams in the packet."""

    stream: int
    shares: int


@dataclass(frozen=True)
class StreamMaxMoney:
    """Type 12: the greatest total that the sender of the frame accepts on a stream, and what it has received so far."""

    stream: int
    receive_max: int
    total_received: int


@dataclass(frozen=True)
class StreamMoneyBlocked:
    """Type 13: the greatest total that the sender of the frame wants to send on a stream, and what it has sent so far."""

    stream: int
    send_max: int
    total_sent: int


@dataclass(frozen=True)
class StreamData:
    """Type 14: bytes of a stream, from an offset on."""

    stream: int
    offset: int
    data: bytes = b""


@dataclass(frozen=True)
class StreamMaxData:
    """Type 15: the offset below which the sender of the frame accepts bytes of a stream."""

    stream: int
    max_offset: int


@dataclass(frozen=True)
class StreamDataBlocked:
    """Type 16: the offset up to which the sender of the frame wants to send bytes of a stream."""

    stream: int
    max_offset: int


Frame = (
    ConnectionClose
    | ConnectionNewAddress
    | ConnectionMaxData
    | ConnectionDataBlocked
    | StreamClose
    | StreamMoney
    | StreamMaxMoney
    | StreamMoneyBlocked
    | StreamData
    | StreamMaxData
    | StreamDataBlocked
)

_TYPES: dict[int, type] = {
    0x01: ConnectionClose,
    0x02: ConnectionNewAddress,
    0x03: ConnectionMaxData,
    0x04: ConnectionDataBlocked,
    0x10: StreamClose,
    0x11: StreamMoney,
    0x12: StreamMaxMoney,
    0x13: StreamMoneyBlocked,
    0x14: StreamData,
    0x15: StreamMaxData,
    0x16: StreamDataBlocked,
}
_KINDS = {of: kind for kind, of in _TYPES.items()}


def _given(frame: Frame) -> tuple[_declared.Frame, bytes]:
    """A frame in the fields of the library, and its text or data."""
    kind = _KINDS.get(type(frame))
    if kind is None:
        raise TypeError(f"{frame!r} is no frame")
    given, data = _declared.Frame(kind=kind), b""
    places = iter(("first", "second"))
    for field in fields(frame):
        value = getattr(frame, field.name)
        if field.name in ("message", "address"):
            data = value.encode()
        elif field.name == "data":
            data = taken(value)
        elif field.name == "code":
            given.code = number(value, 32, "the code")
        else:
            place = "stream" if field.name == "stream" else next(places)
            setattr(given, place, number(value, 64, field.name))
    return given, data


def _frame(told: _declared.Frame, data: bytes) -> Frame:
    """The frame of the library's fields, and its text or data."""
    of = _TYPES[told.kind]
    places, values = iter((told.first, told.second)), []
    for field in fields(of):
        if field.name in ("message", "address"):
            values.append(data.decode())
        elif field.name == "data":
            values.append(data)
        elif field.name in ("stream", "code"):
            values.append(getattr(told, field.name))
        else:
            values.append(next(places))
    return of(*values)  # type: ignore[no-any-return]


@dataclass(frozen=True)
class Header:
    """The numbers of a packet: the kind of the ILP packet that carries it; its sequence, which a reply has of its request; in a
    Prepare the least amount that the receiver should accept, in a reply the amount that arrived; and how many frames of known
    types it has."""

    kind: PacketKind
    sequence: int
    amount: int
    frames: int


class Packet(Object):
    """A plain STREAM packet (RFC 0029, section 5.2): what `Keys.seal` encrypts and `Keys.open` decrypts.

    >>> packet = Packet(PacketKind.PREPARE, 1)
    >>> packet.push(StreamData(1, 0, b"hi"))
    >>> packet.write().hex()
    '010c010101000101140701010100026869'
    >>> Packet.read(PacketKind.PREPARE, packet.write()).header()
    Header(kind=<PacketKind.PREPARE: 12>, sequence=1, amount=0, frames=1)
    >>> for index, frame in packet.frames():
    ...     print(index, frame)
    0 StreamData(stream=1, offset=0, data=b'hi')
    """

    def __init__(self, kind: PacketKind, sequence: int, amount: int = 0) -> None:
        """A packet without frames."""
        super().__init__()
        numbers = number(sequence, 64, "the sequence"), number(amount, 64, "the amount")
        done(lib.ilp_packet_new(self._at(), number(kind, 32, "the kind"), *numbers))

    @staticmethod
    def read(kind: PacketKind, data: Buffer) -> Packet:
        """Reads all of the bytes as a packet that an ILP packet of this kind carried. Frames of unknown types, and bytes after
        the last frame, are skipped. Raises the first fault: `Code.STREAM_TOO_LONG`, `Code.STREAM_VERSION`, `Code.STREAM_KIND`,
        `Code.STREAM_OER`, `Code.FRAME`."""
        packet = Packet.__new__(Packet)
        Object.__init__(packet)
        data = taken(data)
        done(lib.ilp_packet_read(packet._at(), number(kind, 32, "the kind"), data, len(data)))
        return packet

    @alone
    def header(self) -> Header:
        """Its numbers."""
        header = _declared.Header()
        done(lib.ilp_packet_header(self._at(), byref(header)))
        return Header(PacketKind(header.kind), header.sequence, header.amount, header.frames)

    @alone
    def push(self, frame: Frame) -> None:
        """Adds a frame after the others. Raises `Code.FRAME` if its address is neither empty nor an ILP address, and
        `Code.ARGUMENT` if its code is above 255."""
        given, data = _given(frame)
        done(lib.ilp_packet_push(self._at(), byref(given), data, len(data)))

    @alone
    def frame(self, place: int) -> tuple[int, Frame]:
        """The known frame at a place, counted from 0, and its index over all frames, also those that were skipped, of the packet
        that was read; that of a frame that was added is how many known frames there were. Raises `Code.ARGUMENT` if
        there are fewer known frames."""
        told, index, length = _declared.Frame(), c_uint64(), c_size_t()
        place = number(place, 64, "the place")
        done(lib.ilp_packet_frame(self._at(), place, byref(told), byref(index), byref(length)))
        return index.value, _frame(told, self._output(length.value))

    def frames(self) -> Iterator[tuple[int, Frame]]:
        """Its known frames, each with its index."""
        for place in range(self.header().frames):
            yield self.frame(place)

    @alone
    def write(self) -> bytes:
        """Its bytes, in the shortest encoding. Raises `Code.STREAM_TOO_LONG` if they are more than 32,739."""
        length = c_size_t()
        done(lib.ilp_packet_write(self._at(), byref(length)))
        return self._output(length.value)
