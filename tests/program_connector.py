#!/usr/bin/env python3
"""Runs `connector` as its users do, without neighbours: program_connector.py [PROGRAM [WORD]]. Bad options and tables, and the totals
of runs that end with a fault. With a WORD, only the tests whose names have it. A line for each test; the last line counts them."""
import os
import tty

from commands import (
    CONNECTOR,
    ILPSTREAM,
    NO_FILES,
    TABLE,
    Begun,
    Ran,
    bad_option,
    fault,
    instead,
    keeps_events,
    main,
    option_of,
    refuses,
    run,
    same,
    source,
    totals_after,
    without,
)
from peers import HOST, free_port
from play import has_to_listen, test
from repository import read

ZEROS = """\
account 0 claims 0 dues 0 held 0
account 1 claims 0 dues 0 held 0
count 0 fulfilled 0 rejected 0 lost 0 refused 0
count 1 fulfilled 0 rejected 0 lost 0 refused 0
"""


@test(("--listen=here",), ("--own=test hub",))
def a_connector_has_the_bad_option(play, word):
    bad_option(play, *instead(CONNECTOR, option_of(word), word))
    return "98"


@test(*[(it,) for it in NO_FILES])
def a_connector_cannot_open(play, word):
    bad_option(play, *CONNECTOR, word.format(play.room))
    return "98"


@test(("--requests=0",), ("--workers=4",))
def a_connector_is_refused_with_its_requests_as(play, word):
    refuses(run(play, *instead(CONNECTOR, "--requests", word), given=TABLE.encode()), TABLE)
    return "2"


# A table is read before anything is listened to: the fault 96 reports a bad one, and 80 that a good one has no listener.

ALICE = "account 100 10 alice - -\n"
BAD = {
    "an unknown word": "acount 100 10 alice - -",
    "an account without its last word": "account 100 10 alice -",
    "a space in place of an account's last word": "account 100 10 alice - ",
    "a word too many for an account": "account 100 10 alice - - -",
    "a token for no neighbour": "account 100 10 alice - t",
    "a neighbour without a port": "account 100 10 alice h t",
    "a neighbour with a bad port": "account 100 10 alice h:65536 t",
    "a token that is not ASCII": "account 100 10 é - -",
    "a limit with a sign": "account +1 10 alice - -",
    "a limit below 0": "account -1 10 alice - -",
    "a limit of 2^63": "account 9223372036854775808 10 alice - -",
    "a greatest packet of 2^63": "account 10 9223372036854775808 alice - -",
    "a route to an account that is not there": f"{ALICE}route test.b 1",
    "a route to an account below 0": f"{ALICE}route test.b -1",
    "a route without an account": f"{ALICE}route test.b",
    "a rate without its second number": f"{ALICE}route test.b 0 1",
    "a rate of 0": f"{ALICE}route test.b 0 0 1",
    "a rate for 0": f"{ALICE}route test.b 0 1 0",
    "a rate for 2^32": f"{ALICE}route test.b 0 1 4294967296",
    "a word too many for a route": f"{ALICE}route test.b 0 1 1 1",
    "a route twice": f"{ALICE}route test.b 0\nroute test.b 0 1 1",
    "a word with a capital letter": f"{ALICE}Route test.b 0",
    "a tab": f"{ALICE}\troute test.b 0",
    "a byte that is no text": f"{ALICE}\udcff",
    "an empty name": "account NAME= 100 10 alice - -",
    "a name that is not ASCII": "account NAME=é 100 10 alice - -",
    "a name with another key": "account name=alice 100 10 alice - -",
    "a name without its key": "account alice 100 10 alice - -",
    "a name in another place": "account 100 NAME=alice 10 alice - -",
    "two names of an account": "account NAME=alice NAME=alice 100 10 alice - -",
    "two accounts of a name": "account NAME=alice 100 10 alice - -\naccount NAME=alice 100 10 bob - -",
    "a name that is the number of a later account": "account NAME=1 100 10 alice - -\naccount 100 10 bob - -",
    "a name that is the number of an earlier account": f"{ALICE}account NAME=0 100 10 bob - -",
}
GOOD = {
    "two accounts and a route": TABLE,
    "empty lines, spaces, CR LF and rates": (
        "account 1000 100 alice 127.0.0.1:7771 hub\n\naccount  9223372036854775807 0 bob - -\r\nroute example 0\n \nroute example.bob 1 3 2\n"
        "account 5 5 carol [::1]:1 x\nroute example.carol 2 1 1\n"
    ),
    "names": (
        "account NAME=alice 100 10 a - -\naccount NAME=Alice 100 10 b - -\naccount 100 10 c - -\naccount NAME=1 100 10 d - -\n"
        "account NAME=NAME=alice 100 10 e - -\nroute test.b 0\n"
    ),
    "no account": "\n",
    "one account between spaces": " account  1 2 t - - \r\n",
}


@test(*[(it,) for it in BAD])
def a_table_is_bad_with(play, what):
    same(run(play, *CONNECTOR, given=f"{BAD[what]}\n".encode(errors="surrogateescape")), fault(96))
    return "96"


@test(*[(it,) for it in GOOD])
def a_table_is_good_with(play, what):
    same(run(play, *CONNECTOR, given=GOOD[what].encode()), fault(80))
    return "80"


@test()
def a_connector_whose_input_is_closed(play):
    same(run(play, *CONNECTOR, program=without(play, "0", ILPSTREAM)), fault(90))
    return "90"


@test()
def a_table_from_a_terminal_that_is_gone(play):
    """The read after the table's last line fails."""
    above, below = play.terminal()
    tty.setraw(below)
    below.write(TABLE.encode())
    below.close()
    same(run(play, *CONNECTOR, given=above), fault(90))
    return "90"


@test()
def a_connector_with_full_errors(play):
    same(run(play, *CONNECTOR, given=TABLE.encode(), errors="/dev/full"), Ran(status=1))
    return "1"


# Totals of a connector that ends with a fault.


@test()
def totals_of_a_connector_that_cannot_listen(play):
    ran, totals = totals_after(play, *CONNECTOR, given=TABLE.encode())
    same((ran.errors, totals), ("fault 80\n", ZEROS))
    return "0"


@test()
def totals_of_a_connector_at_its_output(play):
    """What is not a regular file is written as it is, and nothing takes its place."""
    same(run(play, *CONNECTOR, "--totals=/dev/stdout", given=TABLE.encode()), fault(80, out=ZEROS))
    return "0"


@test()
def totals_of_a_connector_at_the_end_of_a_link(play):
    os.symlink(f"{play.room}/far", f"{play.room}/link")
    run(play, *CONNECTOR, f"--totals={play.room}/link", given=TABLE.encode())
    same((read(f"{play.room}/far"), os.readlink(f"{play.room}/link")), (ZEROS, f"{play.room}/far"))
    return "0"


@test()
def totals_of_a_connector_without_a_table(play):
    ran, totals = totals_after(play, *CONNECTOR, given=b"account\n")
    same((ran.errors, totals), ("fault 96\n", ""))
    return "96"


@test()
def totals_of_a_connector_at_a_full_device(play):
    """It accepts one request, and gets a connection without one."""
    port = free_port()
    with source(TABLE.encode()) as given:
        it = Begun(play, ["connector", f"--listen={HOST}:{port}", "--own=test.hub", "--requests=1", "--totals=/dev/full"], given)
    it.process.port = port
    has_to_listen(it.process, "it")
    play.knock(port)
    same(it.end(), fault(91))
    return "91"


@test()
def events_of_a_connector_are_appended(play):
    return keeps_events(play, CONNECTOR)


if __name__ == "__main__":
    raise SystemExit(main())
