#!/usr/bin/env python3
"""Runs `local` as its users do: program_local.py [PROGRAM [WORD]]. Bytes over a chain of connectors in memory, with each number of
them, with fewer bytes than streams, and with Prepares that are lost. With a WORD, only the tests whose names have it. A line for
each test; the last line counts them."""
import os

from commands import Ran, fault, main, refuses, run, same
from play import test, want
from repository import read, read_bytes, write, write_bytes

NUMBERS = "".join(f"{it}\n" for it in range(1, 101))
MOST = 1_048_576  # bytes of an input


def sent(play, size):
    """A file of that size with random bytes, and its path."""
    path = f"{play.room}/sent"
    write_bytes(path, os.urandom(size))
    return path


def arrive(play, size, *words):
    """Random bytes are sent, and the same are printed."""
    path, came = sent(play, size), f"{play.room}/came"
    same(run(play, "local", *words, given=path, out=came, bound=600), Ran())
    want(read_bytes(came) == read_bytes(path), f"{os.path.getsize(came)} bytes were printed, which are not the {size} that were sent")


@test()
def no_byte_over_two_connectors_that_lose_each_third_prepare(play):
    same(run(play, "local", "--hops", "2", "--lose", "3", given="/dev/null"), Ran())
    return "nothing"


@test()
def bytes_over_two_connectors_that_lose_each_third_prepare(play):
    arrive(play, 70_000, "--hops", "2", "--lose", "3")
    return "70,000 bytes"


@test()
def four_bytes_on_three_streams(play):
    same(run(play, "local", "--streams", "3", given=b"abcd"), Ran("abcd"))
    return "4 bytes"


@test((b"a",), (b"",))
def each_prepare_is_lost_of(play, given):
    same(run(play, "local", "--lose", "1", given=given), fault(58))
    return "58"


@test(*[(it,) for it in range(9)])
def three_streams_that_lose_each_second_prepare_over_connectors(play, hops):
    same(run(play, "local", "--hops", str(hops), "--lose", "2", "--streams", "3", given=NUMBERS.encode()), Ran(NUMBERS))
    return f"{len(NUMBERS)} bytes"


@test(*[(it,) for it in range(10)])
def bytes_on_seven_streams(play, count):
    given = "abcdefghi"[:count]
    same(run(play, "local", "--lose", "3", "--streams", "7", given=given.encode()), Ran(given))
    return f"{count} bytes"


@test()
def bytes_on_32_streams(play):
    given = "".join(f"{it}\n" for it in range(1, 301))
    same(run(play, "local", "--streams", "32", given=given.encode()), Ran(given))
    return f"{len(given)} bytes"


# How many Prepares there are: one for each 16,000 bytes, one for the close, and one more for each that is lost.

NUMBERS_OF_70_000 = "sends 8\nlost 2\nbound 8\n"


@test()
def the_numbers_of_prepares_are_those_of_the_bytes(play):
    path = f"{play.room}/sends"
    arrive(play, 70_000, "--hops", "2", "--lose", "3", "--totals", path)
    same(read(path), NUMBERS_OF_70_000)
    return "8, of which 2 are lost"


@test()
def a_fault_leaves_the_numbers_of_an_earlier_run(play):
    path = f"{play.room}/sends"
    write(path, NUMBERS_OF_70_000)
    same(run(play, "local", "--lose", "1", "--totals", path, given=b"a"), fault(58))
    same(read(path), NUMBERS_OF_70_000)
    return "58"


@test()
def the_numbers_of_prepares_have_no_file(play):
    ran = run(play, "local", "--totals", f"{play.room}/none/sends", given=b"a")
    same(ran._replace(left=""), fault(98))
    return "98"


# The greatest input.


@test()
def a_byte_more_than_the_greatest_input(play):
    same(run(play, "local", given=sent(play, MOST + 1)), fault(84))
    return "84"


@test()
def the_greatest_input(play):
    arrive(play, MOST, "--streams", "2")
    return f"{MOST:,} bytes"


@test(("--hops", "9"), ("--streams", "0"), ("--lose", "x"))
def local_refuses_the_arguments(play, *words):
    refuses(run(play, "local", *words))
    return "2"


if __name__ == "__main__":
    raise SystemExit(main())
