"""Interledger STREAM (RFC 0029) and the connector between its ends (RFC 0027), proved in Rattle, by ctypes over
libilpstream.so.

There is no I/O here, no clock, no thread and no random number: bytes, times and IVs are arguments. A call that is refused
raises `IlpError`, whose `number` is that of docs/ERRORS.md, and changes nothing. An argument that no call could be given raises
`ValueError`, as a secret of 31 bytes, or `TypeError`, as a number in the place of bytes. Objects are context managers: `with
End(..) as end`. They cannot be copied or pickled."""

from ._end import Aborted, End, Failure, FailureKind, Outgoing, Received, Role, Totals
from ._hop import Account, Answer, Balances, Booking, Forward, Hop, Route
from ._http import Request, Response, Status, Wants, Whole, answer_text, refusal_text, request_text
from ._ilp import Fulfill, Prepare, Reject, read_answer
from ._keys import Keys, condition
from ._object import Code, IlpError
from ._packet import (
    ConnectionClose,
    ConnectionDataBlocked,
    ConnectionMaxData,
    ConnectionNewAddress,
    Frame,
    Header,
    Packet,
    PacketKind,
    StreamClose,
    StreamData,
    StreamDataBlocked,
    StreamMaxData,
    StreamMaxMoney,
    StreamMoney,
    StreamMoneyBlocked,
)

__version__ = "0.1.0"

__all__ = [
    "Aborted",
    "Account",
    "Answer",
    "Balances",
    "Booking",
    "Code",
    "ConnectionClose",
    "ConnectionDataBlocked",
    "ConnectionMaxData",
    "ConnectionNewAddress",
    "End",
    "Failure",
    "FailureKind",
    "Forward",
    "Frame",
    "Fulfill",
    "Header",
    "Hop",
    "IlpError",
    "Keys",
    "Outgoing",
    "Packet",
    "PacketKind",
    "Prepare",
    "Received",
    "Reject",
    "Request",
    "Response",
    "Role",
    "Route",
    "Status",
    "StreamClose",
    "StreamData",
    "StreamDataBlocked",
    "StreamMaxData",
    "StreamMaxMoney",
    "StreamMoney",
    "StreamMoneyBlocked",
    "Totals",
    "Wants",
    "Whole",
    "answer_text",
    "condition",
    "read_answer",
    "refusal_text",
    "request_text",
]
