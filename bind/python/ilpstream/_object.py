"""The shared object, and what every object of it has."""

from __future__ import annotations

import ctypes
import enum
import functools
import operator
import os
import threading
from collections.abc import Callable
from ctypes import byref, c_size_t, c_uint8, c_uint32
from types import TracebackType
from typing import NoReturn, ParamSpec, SupportsIndex, TypeVar

from . import _declared

Buffer = bytes | bytearray | memoryview


def _path() -> str:
    """The place of the shared object: next to this file, in bind/out of the repository, or in a folder of the system."""
    here = os.path.dirname(os.path.abspath(__file__))
    near = (os.path.join(here, it) for it in ("libilpstream.so", "../../out/libilpstream.so"))
    return next(filter(os.path.exists, near), "libilpstream.so.0")


lib = ctypes.CDLL(os.environ.get("ILPSTREAM_SO") or _path())
for _name, (_result, _parameters) in (_declared.CALLS | _declared.ABOUT).items():
    _call = getattr(lib, _name)
    _call.restype, _call.argtypes = _result, _parameters


class Code(enum.IntEnum):
    """What a call returns (docs/ERRORS.md)."""

    DONE = 0
    OER = 10
    KIND = 11
    EXPIRY = 12
    ADDRESS = 13
    DATA_TOO_LONG = 14
    NOT_UTF8 = 15
    CODE = 16
    TRAILING = 17
    PACKET_NO_MEMORY = 18
    STREAM_VERSION = 20
    STREAM_KIND = 21
    STREAM_OER = 22
    FRAME = 23
    STREAM_TOO_LONG = 24
    STREAM_NO_MEMORY = 25
    SHORT = 30
    TAG = 31
    KEYS_NO_MEMORY = 33
    BAD_TABLE = 34
    HOP_NO_MEMORY = 35
    NO_ACCOUNT = 36
    BAD_BOOKS = 37
    NO_STREAM = 50
    CLOSED = 51
    FULL = 52
    AMOUNT = 53
    NO_MEMORY = 54
    FAILED = 58
    BAD_HEAD = 82
    STATUS = 83
    TOO_LONG = 84
    HTTP_NO_MEMORY = 87
    IDLE = 100
    MISUSE = 101
    ARGUMENT = 102
    ROOM = 103
    UNKNOWN = 104
    ENDED = 105
    ABORTED = 106
    ONWARD = 107
    BUSY = 108
    NULL = 109


_TEXTS = {
    Code.OER: "a field of the ILP packet is malformed",
    Code.KIND: "the ILP packet is of another kind",
    Code.EXPIRY: "the expiry is no date and time",
    Code.ADDRESS: "an ILP address is malformed",
    Code.DATA_TOO_LONG: "the data or the message is too long",
    Code.NOT_UTF8: "the message is not UTF-8",
    Code.CODE: "the error code has another character",
    Code.TRAILING: "bytes follow the packet",
    Code.PACKET_NO_MEMORY: "out of memory for an ILP packet",
    Code.STREAM_VERSION: "the packet is of another version of STREAM",
    Code.STREAM_KIND: "the STREAM packet is of another kind",
    Code.STREAM_OER: "a number of the STREAM packet is malformed",
    Code.FRAME: "a frame is malformed",
    Code.STREAM_TOO_LONG: "the STREAM packet is too long",
    Code.STREAM_NO_MEMORY: "out of memory for a STREAM packet",
    Code.SHORT: "the payload is too short",
    Code.TAG: "the tag of the payload is wrong",
    Code.KEYS_NO_MEMORY: "out of memory for a payload",
    Code.BAD_HEAD: "the head of the response is malformed",
    Code.STATUS: "the message has another status than 200",
    Code.TOO_LONG: "the body of the response is too long",
    Code.HTTP_NO_MEMORY: "out of memory for a message",
    Code.BAD_TABLE: "the table of the hop is bad",
    Code.HOP_NO_MEMORY: "the hop is out of memory",
    Code.NO_ACCOUNT: "there is no such account",
    Code.BAD_BOOKS: "the books of the hop are bad",
    Code.NO_STREAM: "the stream is not open",
    Code.CLOSED: "the stream was closed",
    Code.FULL: "too many bytes are not acknowledged",
    Code.AMOUNT: "the offers are too large",
    Code.NO_MEMORY: "out of memory",
    Code.FAILED: "the connection failed",
    Code.MISUSE: "the object was freed",
    Code.ARGUMENT: "an argument is out of its range",
    Code.ROOM: "the buffer is too small",
    Code.UNKNOWN: "there is no such open flight or ticket",
    Code.BUSY: "another call has the object",
    Code.NULL: "a pointer is null",
}


class IlpError(Exception):
    """Why a call was refused. The object is then as before the call."""

    def __init__(self, number: int) -> None:
        super().__init__(_TEXTS.get(number, f"refused with the number {number}"))  # type: ignore[call-overload]
        self.number = number

    def __reduce__(self) -> tuple[type[IlpError], tuple[int]]:
        return type(self), (self.number,)

    @property
    def explanation(self) -> str:
        """What the number means, in a sentence or two of the library's documents."""
        return str(lib.ilp_error_text(self.number).decode())

    @property
    def is_out_of_memory(self) -> bool:
        """Whether memory was refused, in whichever part of the library: the call can be repeated once there is some."""
        return bool(lib.ilp_is_no_memory(self.number))


def done(number: int) -> None:
    """Raises what a call returned, if it was refused."""
    if number != Code.DONE:
        raise IlpError(number)


def taken(data: Buffer) -> bytes:
    """The bytes of a buffer. A TypeError if it is not a buffer: `bytes(5)` would be five zeros."""
    return data if type(data) is bytes else memoryview(data).tobytes()


def fixed(data: Buffer, length: int, name: str) -> bytes:
    """These bytes, which have to have this length."""
    data = taken(data)
    if len(data) != length:
        raise ValueError(f"{name} has {len(data)} bytes, and not {length}")
    return data


def number(value: int, bits: int, name: str) -> int:
    """This number, which has to fit in `bits` bits: ctypes would cut it off."""
    value = operator.index(value)
    if not 0 <= value < 1 << bits:
        raise ValueError(f"{name} is {value}, which is no number of {bits} bits")
    return value


def moment(now: int) -> int:
    """This time, which has to be a number of 64 bits."""
    now = operator.index(now)
    if not -(1 << 63) <= now < 1 << 63:
        raise ValueError(f"the time is {now}, which is no number of 64 bits")
    return now


def written(call: Callable[..., int], *arguments: object) -> bytes:
    """The bytes that a call writes into a buffer, which it says the length of, also if there is no room for them."""
    length = c_size_t()
    answer = call(*arguments, (c_uint8 * 0)(), 0, byref(length))
    if answer == Code.DONE:
        return b""
    if answer != Code.ROOM:
        raise IlpError(answer)
    out = (c_uint8 * length.value)()
    done(call(*arguments, out, length.value, byref(length)))
    return bytes(out)


Self = TypeVar("Self", bound="Object")
Parameters = ParamSpec("Parameters")
Result = TypeVar("Result")


def alone(method: Callable[Parameters, Result]) -> Callable[Parameters, Result]:
    """A method of an object that waits while another thread is in one of them."""

    @functools.wraps(method)
    def waits(*arguments: Parameters.args, **named: Parameters.kwargs) -> Result:
        with arguments[0]._lock:  # type: ignore[attr-defined]
            return method(*arguments, **named)

    return waits


class Object:
    """An object of the library. `free`, or the end of `with`, gives up its memory; each call after that raises `IlpError`. Several
    threads may use it: one call at a time is made."""

    def __init__(self) -> None:
        self._handle = _declared.Handle()
        self._lock = threading.RLock()

    @alone
    def free(self) -> None:
        """Gives up its memory. It may be called again."""
        done(lib.ilp_free(self._at()))

    def __reduce_ex__(self, protocol: SupportsIndex) -> NoReturn:
        """It is neither copied nor pickled: a copy would be of the same object, and a saved end would use IVs again."""
        raise TypeError(f"cannot copy or pickle '{type(self).__name__}' object")

    def __enter__(self: Self) -> Self:
        return self

    def __exit__(
        self, kind: type[BaseException] | None, error: BaseException | None, trace: TracebackType | None
    ) -> None:
        self.free()

    def __del__(self) -> None:
        if lib is not None and hasattr(self, "_handle"):
            lib.ilp_free(byref(self._handle))

    def _at(self) -> object:
        return byref(self._handle)

    def _output(self, length: int) -> bytes:
        """The bytes that the last call output, of which it said how many there are."""
        out = (c_uint8 * length)()
        copied = c_size_t()
        done(lib.ilp_output(self._at(), out, length, byref(copied)))
        return bytes(out)

    def _text(self, name: str) -> bytes:
        """The bytes that a call copies."""
        return written(getattr(lib, name), self._at())

    def _answered(self, name: str, *arguments: int) -> bool:
        answer = c_uint32()
        done(getattr(lib, name)(self._at(), *arguments, byref(answer)))
        return answer.value == 1
