"""Confines a process as systemd would by the settings of a unit: its system calls, address families, memory that is written and
run, capabilities, open files and umask. Folders, users and devices are left as they are."""
import ctypes
import os
import re
import resource
import struct

from installed import environment, installed, said
from play import Wrong

HEADER = "/usr/include/x86_64-linux-gnu/asm/unistd_64.h"
FAMILIES = {"AF_UNIX": 1, "AF_INET": 2, "AF_INET6": 10, "AF_NETLINK": 16}
# Of linux/seccomp.h, linux/filter.h, linux/audit.h and sys/prctl.h.
LOAD, EQUAL, ANY_BIT, RETURN = 0x20, 0x15, 0x45, 0x06
ALLOW, REFUSE, EPERM = 0x7FFF0000, 0x00050000, 1
X86_64, NUMBER, ARCH, FIRST_ARGUMENT, THIRD_ARGUMENT = 0xC000003E, 0, 4, 16, 32
NO_NEW_PRIVS, SECCOMP, FILTER, CAPBSET_DROP = 38, 22, 2, 24
WRITE, EXECUTE = 2, 4


def members(word, sets):
    """The system calls of a word of SystemCallFilter=: one, or those of a set, and of the sets in it."""
    if not word.startswith("@"):
        return {word}
    if word not in sets:
        status, told = said([installed("systemd-analyze", "systemd"), "syscall-filter", "--no-pager", word], env=environment())
        if status:
            raise Wrong(f"{word}: {told}")
        sets[word] = [line.strip() for line in told.splitlines()[1:] if line.strip() and not line.strip().startswith("#")]
    return set().union(*(members(it, sets) for it in sets[word]))


def allowed(settings):
    """The names of the system calls that a unit allows: those of its lists in their order, and @default, which systemd adds."""
    found, sets = set(members("@default", {})), {}
    for value in settings["SystemCallFilter"]:
        words = set().union(*(members(word, sets) for word in value.lstrip("~").split()))
        found = found - words if value.startswith("~") else found | words
    return found


def numbers():
    try:
        with open(HEADER, encoding="ascii") as file:
            return {name: int(number) for name, number in re.findall(r"#define __NR_(\w+) (\d+)", file.read())}
    except OSError as error:
        raise Wrong(f"the numbers of system calls are not known: {error}") from None


def program(settings):
    """The filter, as struct sock_filter: each instruction has a code, two jumps and a number."""
    known = numbers()
    refused = [(RETURN, 0, 0, REFUSE | EPERM)]
    lines = [(LOAD, 0, 0, ARCH), (EQUAL, 1, 0, X86_64), *refused, (LOAD, 0, 0, NUMBER)]
    if settings["MemoryDenyWriteExecute"] == ["yes"]:
        # Of mmap both bits together, of mprotect the latter.
        lines += [(EQUAL, 0, 4, known["mprotect"]), (LOAD, 0, 0, THIRD_ARGUMENT), (ANY_BIT, 0, 1, EXECUTE), *refused, (LOAD, 0, 0, NUMBER)]
        lines += [(EQUAL, 0, 5, known["mmap"]), (LOAD, 0, 0, THIRD_ARGUMENT), (ANY_BIT, 0, 2, WRITE), (ANY_BIT, 0, 1, EXECUTE), *refused]
        lines += [(LOAD, 0, 0, NUMBER)]
    families = [FAMILIES[it] for it in settings["RestrictAddressFamilies"][0].split()]
    lines += [(EQUAL, 0, len(families) + 3, known["socket"]), (LOAD, 0, 0, FIRST_ARGUMENT)]
    lines += [(EQUAL, len(families) - at, 0, family) for at, family in enumerate(families)]
    lines += [*refused, (LOAD, 0, 0, NUMBER)]
    for name in sorted(allowed(settings) & set(known)):
        lines += [(EQUAL, 0, 1, known[name]), (RETURN, 0, 0, ALLOW)]
    return b"".join(struct.pack("HBBI", *line) for line in [*lines, *refused])


def confined(settings):
    """What a child has to call before it runs its program."""
    libc, code = ctypes.CDLL(None, use_errno=True), program(settings)
    buffer = ctypes.create_string_buffer(code, len(code))
    filters = ctypes.create_string_buffer(struct.pack("HxxxxxxQ", len(code) // 8, ctypes.addressof(buffer)), 16)
    files, mask = int(settings["LimitNOFILE"][0]), int(settings["UMask"][0], 8)

    def call():
        resource.setrlimit(resource.RLIMIT_NOFILE, (files, files))
        os.umask(mask)
        if os.getuid() == 0 and settings["CapabilityBoundingSet"] == [""]:
            for capability in range(64):
                libc.prctl(CAPBSET_DROP, capability, 0, 0, 0)
        if libc.prctl(NO_NEW_PRIVS, 1, 0, 0, 0) or libc.prctl(SECCOMP, FILTER, filters, 0, 0):
            os._exit(99)

    call.kept = buffer
    return call
