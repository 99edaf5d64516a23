"""ILP packets."""

from __future__ import annotations

from ctypes import byref
from dataclasses import dataclass

from . import _declared
from ._object import Buffer, done, fixed, lib, moment, number, taken, written


@dataclass(frozen=True)
class Prepare:
    """An ILP Prepare (RFC 0027): its amount in units of the asset that the two neighbours share, when it expires, the SHA-256
    digest of its fulfillment, the ILP address of the receiver, and data for it, at most 32,767 bytes.

    >>> prepare = Prepare(5, 1_704_164_645_006, bytes(32), "example.bob", b"data")
    >>> Prepare.read(prepare.write()) == prepare
    True
    """

    amount: int
    expiry: int
    condition: bytes
    destination: str
    payload: bytes = b""

    @staticmethod
    def read(data: Buffer) -> Prepare:
        """Reads all of the bytes as a Prepare."""
        data, read = taken(data), _declared.Prepare()
        done(lib.ilp_prepare_read(data, len(data), byref(read)))
        destination = data[read.destination_at :][: read.destination_len].decode()
        payload = data[read.payload_at :][: read.payload_len]
        return Prepare(read.amount, read.expiry, bytes(read.condition), destination, payload)

    def write(self) -> bytes:
        """Its bytes."""
        amount, expiry = number(self.amount, 64, "the amount"), moment(self.expiry)
        condition, to = fixed(self.condition, 32, "the condition"), self.destination.encode()
        payload = taken(self.payload)
        parts = (to, len(to), payload, len(payload))
        return written(lib.ilp_prepare_write, amount, expiry, condition, *parts)


@dataclass(frozen=True)
class Fulfill:
    """A Prepare was accepted (RFC 0027): the bytes whose SHA-256 digest is its condition, and data for the sender.

    >>> answer = Fulfill(bytes(32), b"data")
    >>> read_answer(answer.write()) == answer
    True
    """

    fulfillment: bytes
    payload: bytes = b""

    def write(self) -> bytes:
        """Its bytes."""
        fulfillment = fixed(self.fulfillment, 32, "the fulfillment")
        payload = taken(self.payload)
        return written(lib.ilp_fulfill_write, fulfillment, payload, len(payload))


@dataclass(frozen=True)
class Reject:
    """A Prepare was refused (RFC 0027): a code such as F02, the address of the node that made the Reject, or nothing, a message
    for people, and data for the sender.

    >>> read_answer(Reject("F02", "example.hub", "no route").write())
    Reject(code='F02', by='example.hub', message='no route', payload=b'')
    """

    code: str
    by: str = ""
    message: str = ""
    payload: bytes = b""

    def write(self) -> bytes:
        """Its bytes."""
        code = fixed(self.code.encode(), 3, "the code")
        by, message, payload = self.by.encode(), self.message.encode(), taken(self.payload)
        parts = (by, len(by), message, len(message), payload, len(payload))
        return written(lib.ilp_reject_write, code, *parts)


def read_answer(data: Buffer) -> Fulfill | Reject:
    """Reads all of the bytes as a Fulfill or a Reject."""
    data, read = taken(data), _declared.Answer()
    done(lib.ilp_answer_read(data, len(data), byref(read)))
    payload = data[read.payload_at :][: read.payload_len]
    if read.kind == 13:
        return Fulfill(bytes(read.fulfillment), payload)
    by = data[read.by_at :][: read.by_len].decode()
    message = data[read.message_at :][: read.message_len].decode()
    return Reject(bytes(read.code).decode(), by, message, payload)
