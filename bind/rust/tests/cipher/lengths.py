#!/usr/bin/env python3
"""Writes lengths.txt by Python's `cryptography`, which calls OpenSSL: of texts of these lengths, sealed by AES-256-GCM under the
key and the IV below, the tag and the last sixteen bytes of the ciphertext, fewer if it has fewer, `-` if it has none.

The key is that of a connection (RFC 0029, section 4): HMAC-SHA256 of the shared secret 00 01 .. 1f and the bytes
`ilp_stream_encryption`. The IV is a0 a1 .. ab. Byte i of each text is 7i + i / 256, modulo 256."""
import hashlib
import hmac
import os

from cryptography.hazmat.primitives.ciphers.aead import AESGCM

LENGTHS = [*range(301), 495, 496, 497, 767, 768, 769, 1023, 1024, 1025, 16384, 32767]

key = hmac.new(bytes(range(32)), b"ilp_stream_encryption", hashlib.sha256).digest()
iv = bytes(range(0xA0, 0xAC))
with open(os.path.join(os.path.dirname(os.path.abspath(__file__)), "lengths.txt"), "w", encoding="ascii") as out:
    for length in LENGTHS:
        sealed = AESGCM(key).encrypt(iv, bytes((7 * i + i // 256) % 256 for i in range(length)), None)
        text, tag = sealed[:-16], sealed[-16:]
        out.write(f"{length} {tag.hex()} {text[-16:].hex() or '-'}\n")
