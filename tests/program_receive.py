#!/usr/bin/env python3
"""Runs `receive` as its users do, without a sender: program_receive.py [PROGRAM [WORD]]. Bad options, tokens and secrets in files, and
a patience in which no valid request arrives. With a WORD, only the tests whose names have it. A line for each test; the last line
counts them."""
import subprocess
import time

from commands import (
    NO_FILES,
    RECEIVE,
    TABLE,
    Begun,
    bad_option,
    both,
    fault,
    instead,
    keeps_events,
    lacks,
    main,
    option_of,
    refuses,
    run,
    same,
    totals_after,
)
from peers import HOST, SECRET, free_port
from play import has_to_listen, test, want
from repository import write


@test(("--listen=:7771",), ("--token=a b",), ("--secret=g",), ("--address=",), ("--peer=.b",))
def a_receiver_has_the_bad_option(play, word):
    bad_option(play, *instead(RECEIVE, option_of(word), word))
    return "98"


@test()
def a_patience_with_a_sign(play):
    bad_option(play, *RECEIVE, "--patience=+5")
    return "98"


@test(*[(it,) for it in NO_FILES])
def a_receiver_cannot_open(play, word):
    bad_option(play, *RECEIVE, word.format(play.room))
    return "98"


@test()
def a_receiver_without_a_place_is_refused(play):
    refuses(run(play, *instead(RECEIVE, "--listen", "--receive-max=1"), given=TABLE.encode()), TABLE)
    return "2"


@test(*[(f"--{it}",) for it in ("patience=0", "patience=86401", "patience=", "workers=0", "workers=17", "workers=")])
def a_receiver_is_refused_with(play, word):
    refuses(run(play, *RECEIVE, word, given=TABLE.encode()), TABLE)
    return "2"


@test(("token",), ("secret",))
def a_receiver_is_refused_with_both(play, key):
    both(play, RECEIVE, key)
    return "2"


@test(("token",), ("secret",))
def a_receiver_is_refused_without_its(play, key):
    lacks(play, RECEIVE, key)
    return "2"


# Tokens and secrets in files. A receiver whose token and secret are good cannot listen.


KEYS = {"token": "t\n", "secret": f"{SECRET}\n"}


@test(*[(key, what) for key in KEYS for what in ("a good line", "no byte")])
def a_receiver_with_a_file_for_its(play, key, what):
    path, number = f"{play.room}/{key}", 80 if what == "a good line" else 98
    write(path, KEYS[key] if what == "a good line" else "")
    same(run(play, *instead(RECEIVE, f"--{key}", f"--{key}-file={path}"), given=b"abc\n"), fault(number, left="abc\n"))
    return number


# What a receiver leaves that cannot listen.


@test()
def a_receiver_that_cannot_listen_reads_nothing(play):
    same(run(play, *RECEIVE, given=b"abc\n"), fault(80, left="abc\n"))
    return "80"


@test()
def totals_of_a_receiver_that_cannot_listen(play):
    ran, totals = totals_after(play, *RECEIVE, given=TABLE.encode())
    same((ran.errors, totals), ("fault 80\n", "accepted 0\ndelivered 0\ncredited 0\npaid 0\n"))
    return "0"


@test()
def events_of_a_receiver_are_appended(play):
    return keeps_events(play, RECEIVE)


# A receiver that waits two seconds for a valid request ends after two seconds and before five.

REQUEST = b"POST /ilp HTTP/1.1\r\nHost: h\r\nAuthorization: Bearer u\r\nContent-Length: 0\r\n\r\n"
SILENT = {"nothing": None, "a silent connection": b"", "half a request": REQUEST[:24], "a token that is not its own": REQUEST}


@test(*[(it,) for it in SILENT], waits=True)
def a_receiver_with_patience_gets(play, what):
    begun = time.monotonic()
    words = [f"--listen={HOST}:{free_port()}", "--token=t", f"--secret={SECRET}", "--address=test.b", "--peer=test.a", "--patience=2"]
    it = Begun(play, ["receive", *words], subprocess.DEVNULL)
    if SILENT[what] is not None:
        it.process.port = int(words[0].rpartition(":")[2])
        has_to_listen(it.process, "it")
        play.knock(it.process.port)
        play.connect(it.process.port, SILENT[what])
    same(it.end(20), fault(88))
    taken = time.monotonic() - begun
    want(2 <= taken < 5, f"after {taken:.1f} s")
    return f"88 after {taken:.1f} s"


if __name__ == "__main__":
    raise SystemExit(main())
