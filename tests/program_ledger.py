#!/usr/bin/env python3
"""Gives `ledger` arguments that it refuses: program_ledger.py [PROGRAM [WORD]]. No books are made for them. What it does with good
ones is tried by tests/ledger.py and tests/payments.py. With a WORD, only the tests whose names have it. A line for each test; the
last line counts them."""
import glob

from commands import TABLE, bad_option, main, refuses, run
from play import test, want

BAD = """\
pay alice 5
settle é 5
settle alice 0
settle alice -0
settle alice +5
settle alice --5
settle alice -
settle alice 5.0
settle alice 9223372036854775808
settle alice -9223372036854775808
settle alice --help
settle alice 5 6 7
settle alice 5 --referenc x
settle alice 5 --reference é
adjust alice claims
adjust alice claims 5 --reference
adjust alice claims 0 --reference x
adjust alice claims -5 --reference x
adjust alice claims 9223372036854775808 --reference x
adjust alice both 5 --reference x
adjust é claims 5 --reference x
""".splitlines()
REFUSED = """\
-books
--file=books
books settle
books settle alice
books settle alice 5 6
books settle alice 5 --reference
books settle alice 5 --reference=x
books adjust alice claims 5
books adjust alice claims 5 --reference x y
books -5
""".splitlines()


@test(*[tuple(it.split()) for it in BAD], ("settle", "", "5"), ("settle", "alice", ""))
def an_entry_is_bad(play, *words):
    bad_option(play, "ledger", f"{play.room}/books", *words)
    want(not glob.glob(f"{play.room}/books*"), "books were made")
    return "98"


@test((), *[tuple(it.split()) for it in REFUSED])
def ledger_refuses_the_arguments(play, *words):
    refuses(run(play, "ledger", *words, given=TABLE.encode(), cwd=play.room), TABLE)
    want(not glob.glob(f"{play.room}/*books*"), "books were made")
    return "2"


if __name__ == "__main__":
    raise SystemExit(main())
