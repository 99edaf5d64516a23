#!/usr/bin/env python3
"""Runs `send` as its users do, without a receiver: program_send.py [PROGRAM [WORD]]. Bad options, tokens and secrets in files, files
that cannot be opened, and totals and events of runs that end with a fault. With a WORD, only the tests whose names have it. A line
for each test; the last line counts them."""
import glob
import os

from commands import (
    NO_FILES,
    SEND,
    TABLE,
    bad_option,
    both,
    fault,
    instead,
    keeps_events,
    lacks,
    main,
    option_of,
    refuses,
    run,
    same,
    totals_after,
)
from peers import HOST, SECRET
from play import test
from repository import write_bytes

REACHING = ["send", f"--to={HOST}:1", "--token=t", f"--secret={SECRET}", "--address=test.a", "--peer=test.b"]

# Options.

BAD = (
    *("--to=127.0.0.1", "--to=127.0.0.1:65536", "--to=:7770", "--to=127.0.0.1:", "--to=a b:1", "--to=h:+1", "--to=h:-1", "--to=h:1:x"),
    *("--token=", "--token=a b", "--token=é"),
    *("--secret=", "--secret=00", f"--secret={SECRET[:-1]}", f"--secret=0x{SECRET[2:]}"),
    *("--address=", "--address=test.", "--address=.a", "--address=a/b", "--peer=test..b", "--peer=a b"),
    *("--least=3", "--least=3:0", "--least=0:1", "--least=1:4294967296", "--least=+1:1", "--least=1:1:1", "--least="),
    *("--money=+5", "--patience=+20"),
)


def with_option(word):
    """The arguments of a sender with this one, which is in the place of the file of random bytes if it is one more."""
    option = option_of(word)
    return instead(SEND, option if option in map(option_of, SEND) else "--random", word)


@test(*[(it,) for it in BAD])
def a_sender_has_the_bad_option(play, word):
    bad_option(play, *with_option(word))
    return "98"


@test(*[(it,) for it in NO_FILES])
def a_sender_cannot_open(play, word):
    bad_option(play, *SEND, word.format(play.room))
    return "98"


REFUSED = (
    *("--money=9223372036854775808", "--money=-1", "--money=1.5", "--money=", "--money=five", "--workers=0", "--workers=17"),
    *("--patience=9", "--patience=86401", "--to=h:1", "--tokens=t"),
)


@test(*[(it,) for it in REFUSED])
def a_sender_is_refused_with(play, word):
    refuses(run(play, *instead(SEND, "--random", word), given=TABLE.encode()), TABLE)
    return "2"


@test()
def a_sender_without_a_place_is_refused(play):
    refuses(run(play, *instead(SEND, "--to", "--money=1"), given=TABLE.encode()), TABLE)
    return "2"


@test(("token",), ("secret",))
def a_sender_is_refused_with_both(play, key):
    both(play, SEND, key)
    return "2"


@test(("token",), ("secret",))
def a_sender_is_refused_without_its(play, key):
    lacks(play, SEND, key)
    return "2"


# Tokens and secrets in files: the first line counts, without its LF or CR LF. A bad line, or a file that cannot be read, is fault 98
# before the files for events and for totals are made. With good ones the sender ends with 90, since it has no random bytes.

DIGITS = SECRET.encode()
LONGEST = b"t" * 255
GOOD_TOKENS = {
    "alone": b"t",
    "before LF": b"t\n",
    "before CR LF": b"t\r\n",
    "before an empty line": b"t\n\n",
    "before a line with a space": b"t\na b",
    "before a byte that is no text": b"t\r\n\xff",
    "of the greatest length": LONGEST,
    "of the greatest length before CR LF": LONGEST + b"\r\n",
    "before 10,000 bytes": b"t\n" + b"y\n" * 5_000,
}
GOOD_SECRETS = {
    "alone": DIGITS,
    "before LF": DIGITS + b"\n",
    "before CR LF": DIGITS + b"\r\n",
    "before another line": DIGITS + b"\nno secret\n",
    "before a byte that is no text": DIGITS + b"\r\n\xff",
}
BAD_TOKENS = {
    "no byte": b"",
    "an empty line": b"\n",
    "an empty line before a token": b"\nt\n",
    "CR LF alone": b"\r\n",
    "a space within": b"a b\n",
    "a space before it": b" t\n",
    "a space after it": b"t \n",
    "CR at the end of the file": b"t\r",
    "two CR before its LF": b"t\r\r\n",
    "a zero": b"t\0\n",
    "a byte that is no text": b"\xff\n",
    "a letter that is not ASCII": "é\n".encode(),
    "a byte too many": LONGEST + b"t\n",
    "4,096 bytes": b"t" * 4_096 + b"\n",
}
BAD_SECRETS = {
    "no byte": b"",
    "an empty line": b"\n",
    "an empty line before it": b"\n" + DIGITS + b"\n",
    "a digit too few": DIGITS[:-1] + b"\n",
    "a digit too many": DIGITS + b"0\n",
    "a space after it": DIGITS + b" \n",
    "0x before it": b"0x" + DIGITS[2:] + b"\n",
    "CR at the end of the file": DIGITS + b"\r",
    "two CR before its LF": DIGITS + b"\r\r\n",
    "a letter that is not a digit": DIGITS[:-1] + b"g\n",
    "a zero after it": DIGITS + b"\0\n",
    "a letter that is not ASCII": DIGITS[:-2] + "é\n".encode(),
}
FILES = ["filed.log", "filed.totals"]


def filed(play, number, *changes, token=b"t\n", secret=DIGITS + b"\n"):
    """How a sender ends whose token and secret are in files with these bytes, or that has other options, and which files it made."""
    for name, content in (("token", token), ("secret", secret)):
        write_bytes(f"{play.room}/{name}", content)
    words = instead(instead(SEND, "--token", f"--token-file={play.room}/token"), "--secret", f"--secret-file={play.room}/secret")
    for word in changes:
        words = instead(words, option_of(word), word)
    ran = run(play, *words, f"--log={play.room}/filed.log", f"--totals={play.room}/filed.totals", given=b"abc\n")
    same(ran, fault(number, left="abc\n"))
    same(sorted(map(os.path.basename, glob.glob(f"{play.room}/filed.*"))), FILES if number == 90 else [], "what was made")
    return number


@test(*[(it,) for it in GOOD_TOKENS])
def a_token_in_a_file(play, how):
    return filed(play, 90, token=GOOD_TOKENS[how])


@test(*[(it,) for it in GOOD_SECRETS])
def a_secret_in_a_file(play, how):
    return filed(play, 90, secret=GOOD_SECRETS[how])


@test(*[(it,) for it in BAD_TOKENS])
def the_file_of_a_token_has(play, what):
    return filed(play, 98, token=BAD_TOKENS[what])


@test(*[(it,) for it in BAD_SECRETS])
def the_file_of_a_secret_has(play, what):
    return filed(play, 98, secret=BAD_SECRETS[what])


@test(*[(key, place) for key in ("token", "secret") for place in ("{}", "/nowhere/file", "/dev/zero", "")])
def no_line_can_be_read_of_a_file_for(play, key, place):
    return filed(play, 98, f"--{key}-file={place.format(play.room)}")


# What a sender leaves that ends with a fault.


@test()
def a_sender_without_random_bytes_reads_nothing(play):
    same(run(play, *SEND, given=b"abc\n"), fault(90, left="abc\n"))
    return "90"


@test()
def totals_of_a_sender_without_random_bytes(play):
    ran, totals = totals_after(play, *SEND, given=TABLE.encode())
    same((ran.errors, totals), ("fault 90\n", "accepted 0\ndelivered 0\ncredited 0\npaid 0\n"))
    return "0"


@test()
def totals_of_a_sender_at_a_full_device(play):
    same(run(play, *SEND, "--totals=/dev/full", given=b"abc\n"), fault(90, left="abc\n"))
    return "90"


@test()
def events_of_a_sender_are_appended(play):
    return keeps_events(play, SEND)


# A sender that reaches nobody reads its input and pays nothing.


@test(waits=True, again=False)
def totals_of_a_sender_that_reaches_nobody(play):
    ran, totals = totals_after(play, *REACHING, "--money=500", given=b"ab\n")
    same((ran.errors, totals), ("fault 58\n", "accepted 3\ndelivered 0\ncredited 0\npaid 0\n"))
    return "58"


@test()
def a_sender_whose_random_bytes_are_one_iv(play):
    path = f"{play.room}/iv"
    write_bytes(path, b"twelve bytes")
    ran = run(play, *REACHING, "--money=500", f"--random={path}", given=b"abc")
    same(ran._replace(left=""), fault(90))
    return "90"


@test(waits=True, again=False)
def a_sender_that_reaches_nobody_beside_a_silent_input(play):
    given, writer = play.pipe()
    writer.write(b"abc")
    same(run(play, *REACHING, given=given), fault(58))
    return "58"


if __name__ == "__main__":
    raise SystemExit(main())
