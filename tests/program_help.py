#!/usr/bin/env python3
"""Asks the program for its version, its help, and what numbers mean: program_help.py [PROGRAM [WORD]]. The texts of errors are
those of docs/errors.toml; tests/documents.py compares all faults of a help with docs/ERRORS.md. With a WORD, only the tests whose
names have it. A line for each test; the last line counts them."""
import re

from commands import TABLE, Ran, fault, has, main, refuses, run, same
from play import test

COMMANDS = ("frames", "local", "send", "receive", "connector", "ledger", "explain")


@test(("--version",), ("-V",))
def the_version_is_printed_by(play, word):
    same(run(play, word), Ran("ilpstream 0.1.0\n"))
    return "0.1.0"


@test()
def a_version_at_a_full_output(play):
    same(run(play, "-V", out="/dev/full"), fault(91))
    return "91"


def printed(play, *words):
    """The help that these arguments print, which is all that they do."""
    ran = run(play, *words)
    same(ran._replace(out=""), Ran())
    return ran.out


@test(("--help",), ("-h",), ("help",), ("frames", "--help"), ("frames", "-h"), ("help", "frames"))
def a_help_of_the_program_or_of_frames_is_printed_by(play, *words):
    has(printed(play, *words), "Usage: ilpstream ", "standard input until its end", "ilpstream explain ", "./ilpstream frames < examples/frames.txt")
    return "printed"


@test()
def the_help_of_the_program_has_its_commands_and_statuses(play):
    ran = run(play, "--help")
    has(ran.out, "Usage: ilpstream [COMMAND]", "Without a command it runs `frames`")
    has(ran.out, "  0  the command did its work", "  1  a line was refused", "  2  the arguments ask for no command", *COMMANDS)
    return f"{len(COMMANDS)} commands"


KEYS = ["--token <TOKEN>", "--secret <HEX>", " --token-file <FILE> ", " --secret-file <FILE> "]
ENDS = [*KEYS, "--address <ADDRESS>", "--peer <ADDRESS>", "--patience <SECONDS>", "--totals <FILE>", "--log <FILE>"]
TO = "Usage: ilpstream send [OPTIONS] --to <HOST:PORT> <--token <TOKEN>|--token-file <FILE>>"
AT = "Usage: ilpstream receive [OPTIONS] --listen <HOST:PORT> <--token <TOKEN>|--token-file <FILE>>"
OWN = "Usage: ilpstream connector [OPTIONS] --listen <HOST:PORT> --own <ADDRESS> <--requests <N>|--endless>"
OPTIONS = {
    "local": ["--hops <N>", "--streams <N>", "--lose <N>", "--totals <FILE>"],
    "send": [*ENDS, "--to <HOST:PORT>", "--money <N>", "--workers <N>", "--random <FILE>", "--least <NUM:DEN>", TO],
    "receive": [*ENDS, "--listen <HOST:PORT>", "--receive-max <N>", "--workers <N>", "--verbose", "--control <FIFO>", AT],
    "connector": [
        *("--listen <HOST:PORT>", "--own <ADDRESS>", "--requests <N>", "--endless", "--workers <N>", "--totals <FILE>", "--log <FILE>"),
        *("--ledger <FILE>", "--verbose", "--control <FIFO>", "--table <FILE>", OWN, "[NAME=TEXT]"),
    ],
    "ledger": [
        *("Usage: ilpstream ledger <FILE> [settle <NAME> <AMOUNT> [--reference <TEXT>]]", "<FILE>", "AMOUNT"),
        *("ilpstream ledger <FILE> adjust <NAME> <claims|dues> <N> --reference <TEXT>", "adjust NAME claims|dues N --reference TEXT"),
    ],
    "explain": ["Usage: ilpstream explain <N>", "Number of a fault or a refusal, 0 to 255"],
}


@test(*[(it,) for it in OPTIONS])
def the_help_names_the_options_of(play, command):
    has(printed(play, command, "--help"), *OPTIONS[command])
    return f"{len(OPTIONS[command])} parts"


FAULTS = {
    "frames": "Faults: 90, 91, 93, 99.\nLines are refused with 20, 21, 22, 23, 24, 40, 41, 42, 63, 95.",
    "local": "Faults: 58, 84, 90, 91, 93, 97, 98, 99, 126.",
    "send": "Faults: 54, 58, 59, 69, 86, 89, 90, 91, 93, 94, 98, 99.",
    "receive": "Faults: 54, 80, 86, 88, 91, 92, 93, 98, 99.",
    "connector": "Faults: 35, 80, 90, 91, 93, 96, 98, 99, 110, 111, 112, 113, 114, 115, 117, 119, 120, 122, 123.",
    "ledger": "Faults: 91, 93, 98, 99, 110, 111, 112, 113, 114, 115, 116, 117, 119, 120, 121, 125.",
    "explain": "Faults: 91, 93, 98, 99.",
}


@test(*[(it,) for it in FAULTS])
def the_help_ends_with_the_faults_of(play, command):
    wanted = f"{FAULTS[command]}\n`ilpstream explain N` says what each number means.\n"
    lines = run(play, command, "--help").out.splitlines(keepends=True)
    same("".join(lines[-wanted.count("\n") :]), wanted)
    return f"{len(re.findall('[0-9]+', FAULTS[command]))} numbers"


# What a number means.

EXPLAINED = {
    "97": """\
97  ilpstream_local LocalFault::Events, in local
    In `local`: 1,000,000 events were not enough.
    What to do: Use fewer hops, or lose fewer Prepares.
""",
    # (two errors)
    "084": """\
84  ilpstream_local LocalFault::TooLong, in local
    In `local`: the input has more than 1,048,576 bytes.
    What to do: Give it less.
Numbers of the library:
84  st_http HttpError::TooLong
    The body of a response has more than 65,535 bytes.
    What to do: The neighbour sends more than an ILP packet.
""",
    # (of the library alone)
    "60": """\
Numbers of the library:
60  st_receiver Reason::Repeated
    A Prepare with this sequence was fulfilled before.
    What to do: Nothing: the sender sends its contents again under another sequence if it needs to.
""",
    # (of a line)
    "95": """\
95  ilpstream_frames LineError::NotHex, in a line of frames
    In `frames`: a character is not a hexadecimal digit, or the number of digits is odd.
    What to do: Remove byte order marks, `0x`, spaces and tabs.
""",
}


@test(*[(it,) for it in EXPLAINED])
def all_is_printed_that_explains(play, number):
    same(run(play, "explain", number), Ran(EXPLAINED[number]))
    return f"{len(EXPLAINED[number].splitlines())} lines"


# Faults of each command, by their first lines.
FIRST_LINES = [
    ("90", "ilpstream_output Fault::Input, in frames, local, send, connector"),
    ("58", "ilpstream_local LocalFault::Failed, in local"),
    ("58", "ilpstream_serving TransferError::Failed, in send"),
    ("88", "ilpstream_serving TransferError::Silent, in receive"),
    ("96", "ilpstream_net RunError::BadTable, in connector"),
    ("116", "st_hop_books BooksError::NoAccount, in ledger"),
    ("91", "ilpstream_output Fault::Output, in frames, local, send, receive, connector, ledger, explain"),
]


@test(*FIRST_LINES)
def explain_names_the_commands_of(play, number, line):
    out = printed(play, "explain", number)
    has(f"\n{out}", f"\n{number}  {line}\n")
    has(out, "What to do: ")
    return "named"


@test(("0",), ("6",), ("100",), ("255",))
def no_error_has_the_number(play, number):
    same(run(play, "explain", number), Ran("", "error: no fault and no refusal has this number\n", 2))
    return "2"


@test()
def a_number_that_is_explained_at_a_full_output(play):
    same(run(play, "explain", "58", out="/dev/full"), fault(91))
    return "91"


@test()
def a_number_of_no_error_with_full_errors(play):
    same(run(play, "explain", "100", errors="/dev/full"), Ran(status=2))
    return "2"


@test()
def a_number_with_a_sign(play):
    same(run(play, "explain", "+58", given=TABLE.encode()), fault(98, left=TABLE))
    return "98"


@test((), ("256",), ("-1",), ("5.8",), ("fault",), ("58", "59"))
def explain_refuses_the_arguments(play, *words):
    refuses(run(play, "explain", *words, given=TABLE.encode()), TABLE)
    return "2"


if __name__ == "__main__":
    raise SystemExit(main())
