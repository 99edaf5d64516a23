#!/usr/bin/env python3
"""Makes each call of the library for C with each of its pointers null in turn, all others lawful: a null handle, an empty one and
one of a freed object have to be refused as 101 (ilp_free takes the first two), every other null pointer as 109; and bytes of which
there are none may be null. The declarations are those of bind/python, over the shared object that ILPSTREAM_SO names, or that
bind/build made. The last line counts the calls that were answered as they should be, and those that were not."""
import ctypes
import sys

from repository import TOP

sys.path.insert(0, f"{TOP}/bind/python")
import ilpstream  # noqa: E402
from ilpstream import _declared  # noqa: E402
from ilpstream._object import lib  # noqa: E402

MISUSE, NULL = int(ilpstream.Code.MISUSE), int(ilpstream.Code.NULL)
HANDLE = ctypes.POINTER(_declared.Handle)
# For what a call may write or read: more than any of them does.
ROOM = ctypes.create_string_buffer(1 << 17)


def is_pointer(kind):
    return kind is ctypes.c_char_p or hasattr(kind, "contents")


def lawful(kind):
    """A pointer to memory of this kind, or a number."""
    if kind is ctypes.c_char_p:
        return ROOM.raw
    for sized in (_declared.Config, _declared.Failure):
        if kind is ctypes.POINTER(sized):
            return ctypes.pointer(sized(ctypes.sizeof(sized)))
    return ctypes.cast(ROOM, kind) if is_pointer(kind) else 1


def is_maker(name):
    """Whether a call fills an empty handle."""
    return name.endswith("_new") or name in ("ilp_packet_read", "ilp_hop_restored")


def an_object(name):
    """An object of the kind that a call is for."""
    kind = name.split("_")[1]
    if kind == "hop":
        return ilpstream.Hop("test.hub", [ilpstream.Account(1, 1)], [])
    if kind == "end":
        return ilpstream.End(ilpstream.Role.CLIENT, bytes(32), "test.a", "test.b")
    if kind == "packet":
        return ilpstream.Packet(ilpstream.PacketKind.PREPARE, 1)
    return ilpstream.Response() if kind in ("message", "request", "response") else ilpstream.Keys(bytes(32))


class Look:
    def __init__(self):
        self.passed = self.failed = 0

    def is_code(self, name, arguments, wanted, what):
        code = getattr(lib, name)(*arguments)
        good = code in wanted
        self.passed += good
        self.failed += not good
        if not good:
            print(f"{name} with {what}: {code}, and not {wanted}")

    def handles(self, name, kinds):
        """A null handle, an empty one, and that of a freed object."""
        others = [lawful(it) for it in kinds[1:]]
        freed = an_object(name)
        copy = _declared.Handle(freed._handle.inner)
        freed.free()
        makes = is_maker(name)
        free = name == "ilp_free"
        self.is_code(name, [None, *others], [0 if free else MISUSE], "a null handle")
        if not makes:
            empty = _declared.Handle()
            self.is_code(name, [ctypes.byref(empty), *others], [0 if free else MISUSE], "an empty handle")
        self.is_code(name, [ctypes.byref(copy), *others], [MISUSE], "the handle of a freed object")

    def pointers(self, name, kinds):
        for place, kind in enumerate(kinds):
            if not is_pointer(kind) or kind is HANDLE:
                continue
            of, arguments = an_object(name), [lawful(it) for it in kinds]
            if kinds[0] is HANDLE:
                arguments[0] = ctypes.byref(_declared.Handle() if is_maker(name) else of._handle)
            arguments[place] = None
            self.is_code(name, arguments, [NULL], f"a null pointer as parameter {place}")
            is_slice = kinds[place + 1 : place + 2] == [ctypes.c_size_t]
            if is_slice:
                arguments[place + 1] = 0
                code = getattr(lib, name)(*arguments)
                good = code != NULL
                self.passed += good
                self.failed += not good
                if not good:
                    print(f"{name} with no bytes at a null pointer as parameter {place}: {code}")


def main():
    look = Look()
    for name, (_, kinds) in _declared.CALLS.items():
        kinds = list(kinds)
        if kinds[0] is HANDLE:
            look.handles(name, kinds)
        look.pointers(name, kinds)
    print(f"{look.passed} passed, {look.failed} failed")
    return 1 if look.failed or look.passed < 100 else 0


if __name__ == "__main__":
    sys.exit(main())
