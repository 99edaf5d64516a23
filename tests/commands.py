"""What the tests of the commands share: a command runs until it ends, and the whole of what it printed, its status and what it
left of its input are compared with what they should be. The arguments that a command needs, and others in their place."""
import contextlib
import fcntl
import glob
import os
import subprocess
from typing import NamedTuple

import play as tests
from peers import BOUND, GIVING, HOST, SECRET
from play import PROGRAM, WORDS, executable, want
from repository import TOP

# What a user runs, which builds the program if it has to; or the program that is named.
ILPSTREAM = PROGRAM if WORDS else f"{TOP}/ilpstream"
EXAMPLE = f"{TOP}/examples/frames.txt"
TABLE = "account 100 10 alice - -\naccount 100 10 bob 127.0.0.1:1 t\n\nroute test.b 1\n"
# Commands that end before a packet is sent: there is no file of random bytes, and this machine has no such address (RFC 5737).
SEND = ["send", f"--to={HOST}:1", "--token=t", f"--secret={SECRET}", "--address=test.a", "--peer=test.b", "--random=/nowhere/random"]
RECEIVE = ["receive", "--listen=192.0.2.1:7771", "--token=t", f"--secret={SECRET}", "--address=test.b", "--peer=test.a"]
CONNECTOR = ["connector", "--listen=192.0.2.1:7770", "--own=test.hub", "--requests=10"]


class Ran(NamedTuple):
    """What a command printed, its status, and what it left of its input."""

    out: str = ""
    errors: str = ""
    status: int = 0
    left: str = ""


def fault(number, out="", left=""):
    """How a command ends with a fault."""
    return Ran(out, f"fault {number}\n", 1, left)


def short(value):
    said = repr(value)
    return said if len(said) < 2_000 else f"{said[:1_000]} .. {said[-1_000:]}"


def same(came, wanted, what="it"):
    want(came == wanted, f"{what} is {short(came)}, and has to be {short(wanted)}")


def has(came, *parts):
    """A text has each of these parts."""
    for part in parts:
        want(part in came, f"there is no {part!r} in {short(came)}")


def refuses(ran, left=""):
    """A command refused its arguments, and read nothing."""
    has(ran.errors, "error: ")
    same(ran._replace(errors=""), Ran(status=2, left=left))


def option_of(word):
    return word.partition("=")[0]


def instead(words, option, word):
    """These arguments with another one in the place of an option."""
    want(option in map(option_of, words), f"there is no {option}")
    return [word if option_of(it) == option else it for it in words]


# How a command runs.


@contextlib.contextmanager
def source(given):
    """An input with these bytes, all of which are there at once, and its end; or the file at a path, or an open one."""
    if isinstance(given, str):
        with open(given, "rb", buffering=0) as file:
            yield file
    elif isinstance(given, bytes):
        reader, writer = os.pipe()
        with os.fdopen(reader, "rb", buffering=0) as file, os.fdopen(writer, "wb", buffering=0) as pipe:
            fcntl.fcntl(pipe, fcntl.F_SETPIPE_SZ, max(len(given), 4_096))
            want(pipe.write(given) == len(given), "a pipe has too little room")
            pipe.close()
            yield file
    else:
        yield given


def printed(play):
    """A file for what a command prints."""
    play.count += 1
    return open(f"{play.room}/{play.count}.printed", "w+b")


def text(content):
    return content.decode(errors="backslashreplace")


class Begun:
    """A command that runs. Its output and its errors are files, or the devices that are given."""

    def __init__(self, play, words, given, out=None, errors=None, program=ILPSTREAM, **how):
        self.files = [open(it, "wb") if it else printed(play) for it in (out, errors)]
        # (while a port is tried, no process begins: it would have that socket until it runs its program)
        with GIVING:
            self.process = subprocess.Popen([program, *words], stdin=given, stdout=self.files[0], stderr=self.files[1], **how)
        play.started.append(self.process)

    def end(self, bound=BOUND):
        """Waits until the command has ended."""
        try:
            self.process.wait(bound)
        except subprocess.TimeoutExpired:
            self.process.kill()
            self.process.wait()
        return Ran(*map(self.content, self.files), self.process.returncode)

    def content(self, file):
        with file:
            if not file.readable():
                return ""
            file.seek(0)
            return text(file.read())


def run(play, *words, given=b"", bound=BOUND, **how):
    """How a command ended, whose input is these bytes, the file at a path, or an open one."""
    with source(given) as file:
        ran = Begun(play, words, file, **how).end(bound)
        return ran if file is given else ran._replace(left=text(file.read()))


# What the commands that use the network have in common.

# Options for files that cannot be opened, which is found before the file of random bytes, the listener or the table is read. In the
# place of {} is a folder.
NO_FILES = ("--totals=/nowhere/totals", "--totals=", "--log=/nowhere/log", "--log=", "--log={}")
OPTIONS = {"token": "--token <TOKEN>", "secret": "--secret <HEX>"}


def bad_option(play, *words):
    """An argument is bad in another way than that of a wrong count: nothing is read."""
    same(run(play, *words, given=TABLE.encode()), fault(98, left=TABLE))


def both(play, words, key):
    """A command is given a token or a secret, and the file of one too."""
    ran = run(play, *words, f"--{key}-file={play.room}/{key}", given=TABLE.encode())
    refuses(ran, TABLE)
    has(ran.errors, f"error: the argument '{OPTIONS[key]}' cannot be used with '--{key}-file <FILE>'")


def lacks(play, words, key):
    """A command is given no token, or no secret."""
    ran = run(play, *instead(words, f"--{key}", "--totals=/nowhere/totals"), given=TABLE.encode())
    refuses(ran, TABLE)
    has(ran.errors, f"error: the following required arguments were not provided:\n  <{OPTIONS[key]}|--{key}-file <FILE>>")
    has(ran.errors, f"Usage: ilpstream {words[0]} [OPTIONS] ")


def totals_after(play, *words, given):
    """How a command ended, and its file of totals, which had something in it. No file next to it is left."""
    path = f"{play.room}/totals"
    with open(path, "w", encoding="ascii") as file:
        file.writelines(f"{it}\n" for it in range(1, 101))
    ran = run(play, *words, f"--totals={path}", given=given)
    want(not glob.glob(f"{play.room}/*.new*"), f"{glob.glob(f'{play.room}/*.new*')} are left")
    with open(path, encoding="ascii") as file:
        return ran, file.read()


def keeps_events(play, words):
    """A file for events is made, and never emptied. The command ends with status 1."""
    path = f"{play.room}/events"
    same(run(play, *words, f"--log={path}", given=TABLE.encode()).status, 1, "the status")
    want(os.path.isfile(path), "no file is made")
    with open(path, "w", encoding="ascii") as file:
        file.write("kept\n")
    same(run(play, *words, f"--log={path}", given=TABLE.encode()).status, 1, "the status of the second run")
    with open(path, encoding="ascii") as file:
        same(file.readline(), "kept\n", "the first line")
    return "kept"


# A program in the place of another one.


def script(play, *lines):
    """A program that does what these lines say."""
    return executable(f"{play.room}/script{len(os.listdir(play.room))}", "\n".join(["#!/bin/bash", *lines]) + "\n")


CLOSING = {"0": "<&-", "1": ">&-", "2": "2>&-"}


def without(play, closed, program=PROGRAM):
    """The program, started without these standard streams."""
    return script(play, f'exec {program} "$@" {" ".join(CLOSING[it] for it in closed)}')


def main():
    """Runs the tests. The first run of the program may have to build it, and says so."""
    if subprocess.run([ILPSTREAM, "--version"], stdout=subprocess.DEVNULL, check=False).returncode:
        print("0 passed, 1 failed")
        return 1
    return tests.main()
