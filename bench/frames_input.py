#!/usr/bin/env python3
"""Lines for `ilpstream frames`, 8.4 million bytes of them and more: each of the 64 streams gets its whole window of 65,536 bytes, in
StreamData frames of at most 16,000 bytes, one to a line: frames_input.py [ROUNDS [SIZE [SEED]]]. With ROUNDS, as many such inputs
one after the other: what follows the first brings bytes that are buffered already. With SIZE, frames of at most as many bytes.
With SEED, the lines in an order that is drawn by it."""

import random
import sys

STREAMS = 64
WINDOW = 65_536
MOST = 16_000


def number(value):
    """A variable-length unsigned integer (RFC 0030)."""
    digits = value.to_bytes(max(1, (value.bit_length() + 7) // 8), "big")
    return bytes([len(digits)]) + digits


def octets(content):
    """A variable-length octet string (RFC 0030)."""
    count = len(content)
    if count < 128:
        return bytes([count]) + content
    digits = count.to_bytes((count.bit_length() + 7) // 8, "big")
    return bytes([0x80 + len(digits)]) + digits + content


def line(sequence, stream, offset, data):
    """A plain STREAM packet of a Prepare with one StreamData frame (RFC 0029)."""
    frame = b"\x14" + octets(number(stream) + number(offset) + octets(data))
    return (b"\x01\x0c" + number(sequence) + number(0) + number(1) + frame).hex() + "\n"


def main():
    rounds, size, seed = [int(it) for it in sys.argv[1:]] + [1, MOST, 0][len(sys.argv) - 1 :]
    places = [(offset, stream) for offset in range(0, WINDOW, size) for stream in range(1, STREAMS + 1)]
    if seed:
        random.Random(seed).shuffle(places)
    for sequence, (offset, stream) in enumerate(places * rounds, 1):
        data = bytes((stream + offset + i) % 251 for i in range(min(size, WINDOW - offset)))
        sys.stdout.write(line(sequence, stream, offset, data))


main()
