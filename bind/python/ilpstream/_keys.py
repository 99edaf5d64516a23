"""The keys of a connection."""

from __future__ import annotations

from ctypes import byref, c_size_t, c_uint8

from ._object import Buffer, Object, alone, done, fixed, lib, taken


class Keys(Object):
    """The keys of a connection (RFC 0029, section 4): they seal and open the payloads of its packets, and make the fulfillments
    of its Prepares. When it is freed, their bytes are overwritten.

    >>> import os
    >>> with Keys(os.urandom(32)) as keys:
    ...     payload = keys.seal(os.urandom(12), b"any text")
    ...     keys.open(payload), len(condition(keys.fulfillment(payload)))
    (b'any text', 32)
    """

    def __init__(self, secret: Buffer) -> None:
        """The keys of a shared secret of 32 bytes."""
        super().__init__()
        done(lib.ilp_keys_new(self._at(), fixed(secret, 32, "the secret")))

    @alone
    def seal(self, iv: Buffer, text: Buffer) -> bytes:
        """The payload of a plain text: the IV, the tag of 16 bytes, and the ciphertext. No two payloads of a connection may have
        the same IV of 12 bytes: take each from `os.urandom(12)`."""
        length, text = c_size_t(), taken(text)
        done(lib.ilp_keys_seal(self._at(), fixed(iv, 12, "the IV"), text, len(text), byref(length)))
        return self._output(length.value)

    @alone
    def open(self, payload: Buffer) -> bytes:
        """The plain text of a payload. Raises `Code.SHORT` or `Code.TAG` if it is not a sealed one."""
        length, payload = c_size_t(), taken(payload)
        done(lib.ilp_keys_open(self._at(), payload, len(payload), byref(length)))
        return self._output(length.value)

    @alone
    def fulfillment(self, payload: Buffer) -> bytes:
        """The fulfillment of a Prepare whose data is this payload, as it is sent."""
        out, payload = (c_uint8 * 32)(), taken(payload)
        done(lib.ilp_keys_fulfillment(self._at(), payload, len(payload), out))
        return bytes(out)


def condition(fulfillment: Buffer) -> bytes:
    """The condition of a fulfillment: its SHA-256 digest."""
    out = (c_uint8 * 32)()
    done(lib.ilp_condition(fixed(fulfillment, 32, "the fulfillment"), out))
    return bytes(out)
