#!/usr/bin/env python3
"""Readers of ILP packets (RFC 0027) and plain STREAM packets (RFC 0029) in plain Python, written from the formats alone, next to
those of the proved library: both get the same hostile bytes, and have to give the same fields, or the same number of a refusal.

tests/plain.py [COUNT [SEED]]   COUNT inputs of each kind, 20,000 if it is not given, by the seeds from SEED on

bind/python is checked, over the shared object that ILPSTREAM_SO names, or that bind/build made. The inputs are made as those of
bind/rust/tests/suite/hostile are: half of them lawful messages with changes, half random bytes after the front of one. The last
line counts the inputs; a difference is printed, and the status is 1."""
import datetime
import re
import sys

from repository import TOP

sys.path.insert(0, f"{TOP}/bind/python")
import ilpstream  # noqa: E402

# ---- the plain readers


class Refused(Exception):
    """By the number of the refusal."""


class Bytes:
    """Bytes of which fields are cut off at the front. A fault in a field is refused by one number, whatever it is."""

    def __init__(self, data, number):
        self.data, self.number = data, number

    def take(self, size):
        if len(self.data) < size:
            raise Refused(self.number)
        front, self.data = self.data[:size], self.data[size:]
        return front

    def byte(self):
        return self.take(1)[0]

    def length(self):
        """One byte below 128, or as few bytes as can be after 128 and their count, which is at most 8."""
        first = self.byte()
        if first < 128:
            return first
        if not 129 <= first <= 136:
            raise Refused(self.number)
        digits = self.take(first - 128)
        if digits[0] == 0 or (len(digits) == 1 and digits[0] < 128):
            raise Refused(self.number)
        return int.from_bytes(digits, "big")

    def octets(self):
        return self.take(self.length())

    def number_of(self, digits, most):
        if not digits or (len(digits) > 1 and digits[0] == 0) or len(digits) > most:
            raise Refused(self.number)
        return int.from_bytes(digits, "big")

    def var_uint(self):
        return self.number_of(self.octets(), 8)

    def limit(self):
        return min(self.number_of(self.octets(), 1 << 64), (1 << 64) - 1)


def is_address(text):
    return len(text) <= 1023 and re.fullmatch(rb"[a-zA-Z0-9_~-]+(\.[a-zA-Z0-9_~-]+)*", text) is not None


def as_text(data, number):
    try:
        return data.decode("utf-8", "strict")
    except UnicodeDecodeError:
        raise Refused(number) from None


def contents(data, kinds):
    """The kind of an ILP packet, and what is inside its octets."""
    data = Bytes(data, 10)
    kind = data.byte()
    if kind not in kinds:
        raise Refused(11)
    inside = Bytes(data.octets(), 10)
    if data.data:
        raise Refused(17)
    return kind, inside


def last(data):
    """The data at the end of a packet's contents."""
    payload = data.octets()
    if len(payload) > 32767:
        raise Refused(14)
    if data.data:
        raise Refused(17)
    return payload


def expiry(text):
    """Milliseconds after 1970 of YYYYMMDDHHMMSSfff. Python's years begin with 1, and 400 years have 146,097 days."""
    if re.fullmatch(rb"[0-9]{17}", text) is None:
        raise Refused(12)
    year, rest = int(text[:4]), [int(text[at : at + 2]) for at in (4, 6, 8, 10, 12)]
    try:
        moment = datetime.datetime(year + 400, *rest) if year < 9600 else datetime.datetime(year, *rest)
    except ValueError:
        raise Refused(12) from None
    since = moment - datetime.datetime(1970, 1, 1)
    days = since.days - (146097 if year < 9600 else 0)
    return (days * 86400 + since.seconds) * 1000 + int(text[14:])


def prepare(data):
    _, inside = contents(data, [12])
    amount = int.from_bytes(inside.take(8), "big")
    moment = expiry(inside.take(17))
    condition, to = inside.take(32), inside.octets()
    if not is_address(to):
        raise Refused(13)
    return amount, moment, condition, to.decode(), last(inside)


def answer(data):
    kind, inside = contents(data, [13, 14])
    if kind == 13:
        return kind, inside.take(32), last(inside)
    code = inside.take(3)
    if not all(0x21 <= it <= 0x7E for it in code):
        raise Refused(16)
    by = inside.octets()
    if by and not is_address(by):
        raise Refused(13)
    message = as_text(inside.octets(), 15)
    return kind, code.decode(), by.decode(), message, last(inside)


# The fields of the known frames (RFC 0029, section 5.3).
FRAMES = {
    0x01: ("ConnectionClose", "code message"),
    0x02: ("ConnectionNewAddress", "address"),
    0x03: ("ConnectionMaxData", "limit"),
    0x04: ("ConnectionDataBlocked", "limit"),
    0x10: ("StreamClose", "number code message"),
    0x11: ("StreamMoney", "number number"),
    0x12: ("StreamMaxMoney", "number limit limit"),
    0x13: ("StreamMoneyBlocked", "number limit limit"),
    0x14: ("StreamData", "number number data"),
    0x15: ("StreamMaxData", "number limit"),
    0x16: ("StreamDataBlocked", "number limit"),
}


def field(word, inside):
    if word == "code":
        return inside.byte()
    if word == "number":
        return inside.var_uint()
    if word == "limit":
        return inside.limit()
    text = inside.octets()
    if word == "data":
        return text
    if word == "address" and text and not is_address(text):
        raise Refused(23)
    return as_text(text, 23)


def stream(data, kind):
    if len(data) > 32739:
        raise Refused(24)
    data = Bytes(data, 22)
    if data.byte() != 1:
        raise Refused(20)
    if data.byte() != kind:
        raise Refused(21)
    sequence, amount, count = data.var_uint(), data.var_uint(), data.var_uint()
    raw = []
    for _ in range(count):
        raw.append((data.byte(), data.octets()))
    frames = []
    for index, (of, inside) in enumerate(raw):
        if of in FRAMES:
            name, words = FRAMES[of]
            inside = Bytes(inside, 23)
            frames.append((index, name, tuple(field(word, inside) for word in words.split())))
    return kind, sequence, amount, frames


# ---- the library's readers, in the same terms


def of_library(call):
    try:
        return call()
    except ilpstream.IlpError as error:
        raise Refused(error.number) from None


def library_prepare(data):
    it = of_library(lambda: ilpstream.Prepare.read(data))
    return it.amount, it.expiry, it.condition, it.destination, it.payload


def library_answer(data):
    it = of_library(lambda: ilpstream.read_answer(data))
    if isinstance(it, ilpstream.Fulfill):
        return 13, it.fulfillment, it.payload
    return 14, it.code, it.by, it.message, it.payload


def library_stream(data, kind):
    with of_library(lambda: ilpstream.Packet.read(kind, data)) as packet:
        header = packet.header()
        frames = [(index, type(it).__name__, tuple(vars(it).values())) for index, it in packet.frames()]
        # what is written reads the same, without the frames that were skipped
        again = stream(packet.write(), kind)
        if again[3] != [(place, *it[1:]) for place, it in enumerate(frames)]:
            raise AssertionError(f"{data.hex()} is written as {packet.write().hex()}")
        return int(header.kind), header.sequence, header.amount, frames


# ---- hostile bytes


class Numbers:
    """The numbers that a seed determines: SplitMix64."""

    def __init__(self, seed):
        self.state = seed

    def next(self):
        mask = (1 << 64) - 1
        self.state = (self.state + 0x9E3779B97F4A7C15) & mask
        it = ((self.state ^ (self.state >> 30)) * 0xBF58476D1CE4E5B9) & mask
        it = ((it ^ (it >> 27)) * 0x94D049BB133111EB) & mask
        return it ^ (it >> 31)

    def below(self, bound):
        number = self.next()
        return number % bound if bound else 0

    def pick(self, many):
        return many[self.below(len(many))]

    def byte(self, common):
        number = self.next()
        return number & 0xFF if number & 0x100 else common[self.below(len(common))]


class Samples:
    def __init__(self, lawful, fronts, common, behind):
        self.lawful, self.fronts, self.common, self.behind = lawful, fronts, common, behind

    def hostile(self, numbers):
        if numbers.below(2) == 0:
            front = numbers.pick(self.fronts)
            return front + self.random(numbers, numbers.below(self.behind))
        return self.changed(numbers, numbers.pick(self.lawful))

    def random(self, numbers, count):
        return bytes(numbers.byte(self.common) for _ in range(count))

    def changed(self, numbers, data):
        data = self.changed_once(numbers, data)
        for _ in range(numbers.below(3)):
            data = self.changed_once(numbers, data)
        return data

    def changed_once(self, numbers, data):
        at = numbers.below(len(data) + 1)
        front, rest = data[:at], data[at:]
        if numbers.below(2) == 0:
            return front + self.other_run(numbers, rest)
        return self.other_length(numbers, front, rest)

    def other_run(self, numbers, rest):
        size = numbers.below(8) + 1
        run, behind = rest[:size], rest[size:]
        choice = numbers.below(4)
        if choice == 0:
            return self.random(numbers, len(run)) + behind
        if choice == 1:
            return behind
        if choice == 2:
            return run + run + behind
        return numbers.pick([b"\0", b"\x7f", b"\x80", b"\xff"]) * len(run) + behind

    def other_length(self, numbers, front, rest):
        size, choice = numbers.below(8) + 1, numbers.below(5)
        if choice == 0:
            return front
        if choice == 1:
            other = numbers.pick(self.lawful)
            return front + other[numbers.below(len(other)) :]
        if choice == 2:
            if not rest:
                return front
            shift = 1 if numbers.below(2) == 0 else 255
            return front + bytes([(rest[0] + shift) & 0xFF]) + rest[1:]
        at = numbers.below(min(len(front), 8))
        if choice == 3 and front:
            front = front[:at] + bytes([(front[at] + size) & 0xFF]) + front[at + 1 :]
        return front + self.random(numbers, size) + rest


def ilp_samples():
    zeros, begun = bytes(32), b"\x0c\x44" + bytes(7) + b"\x05" + b"20240102030405006"
    full = b"\x0c\x4d" + b"\xff" * 8 + b"00000229235959999" + bytes(range(32)) + b"\x0ea.Z.0_~-.9.b.c\x04data"
    long = b"\x0c\x81\x84" + bytes(7) + b"\x05" + b"99991231235959999" + zeros + b"\x09example.b\x40" + b"." * 64
    return Samples(
        [
            begun + zeros + b"\x09example.b\0",
            full,
            long,
            b"\x0d\x21" + zeros + b"\0",
            b"\x0d\x240123456789abcdef0123456789abcdef\x03abc",
            b"\x0e\x0fT04\x09example.c\0\0",
            b"\x0e\x1fF08\x09example.c\0\x10" + bytes(7) + b"\x96" + bytes(7) + b"\x64",
            b"\x0e\x0aR00\0\x02\xc3\xa9\x02ab",
        ],
        [b"", b"\x0c", b"\x0c\x44", begun, b"\x0d", b"\x0d\x21", b"\x0d\x81", b"\x0e", b"\x0e\x0fT04", b"\x0e\x0aF99\0\x02"],
        b"\0\x01\x02\x09\x0c\x0d\x0e\x21\x44\x7f\x80\x81\x82\xff0129.ab",
        80,
    )


def stream_samples():
    head = b"\x01\x0c\x01\x01\x01\0\x01"
    return Samples(
        [
            head + b"\x01\x14\x07\x01\x01\x01\0\x02hi",
            head + b"\x02\x99\x01\0\x14\x07\x01\x03\x01\0\x02hi\xff\xff",
            head + b"\x02\x10\x05\x01\x03\x09\x01x\x11\x04\x01\x01\x01\x03",
            head + b"\x03\x12\x07\x01\x02\x02\xff\xff\x01\0\x16\x04\x01\x40\x01\0\x02\x01\0",
            head + b"\x03\x01\x04\x02\x02no\x02\x07\x06test.z\x03\x02\x01\x09",
            head + b"\x03\x04\x0a\x09\x01" + bytes(8) + b"\x13\x06\x01\x01\x01\x02\x01\x03\x15\x04\x01\x01\x01\x7f",
        ],
        [b"", b"\x01", head + b"\x01", head + b"\x01\x14\x07\x01\x01", head + b"\x02\x10\x04\x01", head + b"\x01\x02\x06test"],
        b"\0\x01\x02\x03\x04\x10\x11\x12\x13\x14\x15\x16\x7f\x80\xff.a",
        30,
    )


def said(call, *arguments):
    try:
        return call(*arguments)
    except Refused as refused:
        return f"refused {refused.args[0]}"


def main():
    count, seed = [int(it) for it in sys.argv[1:]] + [20_000, 1][len(sys.argv) - 1 :]
    ilp, packets = ilp_samples(), stream_samples()
    met, failed = set(), 0
    for it in range(seed, seed + count):
        data, packet = ilp.hostile(Numbers(it)), packets.hostile(Numbers(it))
        kind = 13 if it % 16 == 0 else 12
        for plain, library, arguments in (
            (prepare, library_prepare, (data,)),
            (answer, library_answer, (data,)),
            (stream, library_stream, (packet, kind)),
        ):
            one, other = said(plain, *arguments), said(library, *arguments)
            met.add(one if isinstance(one, str) else plain.__name__)
            if one != other:
                failed += 1
                print(f"seed {it}: {arguments[0].hex()}: {plain.__name__} is {one}, and the library says {other}")
    wanted = {"prepare", "answer", "stream"} | {f"refused {it}" for it in (10, 11, 12, 13, 15, 16, 17, 20, 21, 22, 23)}
    if count >= 20_000 and wanted - met:
        failed += 1
        print(f"never met: {sorted(wanted - met)}")
    print(f"{3 * count} inputs, {failed} differences")
    return 1 if failed else 0


if __name__ == "__main__":
    sys.exit(main())
