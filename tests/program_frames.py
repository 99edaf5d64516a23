#!/usr/bin/env python3
"""Runs `frames` as its users do: program_frames.py [PROGRAM [WORD]]. Lines of packets and the whole of what is printed for them,
streams that are closed, full or a terminal, a link to the program, and ./try. What is printed follows from the tables of
docs/ERRORS.md. With a WORD, only the tests whose names have it. A line for each test; the last line counts them."""
import os

from commands import EXAMPLE, ILPSTREAM, Ran, fault, has, main, refuses, run, same, without
from play import PROGRAM, test
from repository import TOP

STREAMS = "stream 1 4 61626364\nstream 3 3 686f6b\n"  # of the example
PACKET = "010c010201000101140701010100026162"
FRONT = "010c010101000101"  # of a packet with one frame


@test((), ("frames",), ("--",), ("frames", "--"))
def frames_reads_the_example_with_the_arguments(play, *words):
    same(run(play, *words, given=EXAMPLE), Ran(STREAMS))
    return "2 streams"


# The same without a proof, by another script.


@test(waits=True, again=False)
def try_prints_what_the_program_prints(play):
    ran = run(play, "frames", given=EXAMPLE, program=f"{TOP}/try", bound=1_500)
    same((ran.out, ran.status), (STREAMS, 0))
    has(ran.errors, "Nothing is proved: ./ilpstream proves it.")
    return "2 streams"


@test()
def try_refuses_what_needs_files(play):
    words = "try: no files, sockets or threads here, so only frames and local: ./ilpstream runs all commands, proved\n"
    same(run(play, "send", program=f"{TOP}/try"), Ran("", words, 2))
    return "2"


# Packets.


@test()
def a_packet_with_every_frame(play):
    same(run(play, "frames", given=f"{TOP}/examples/every_frame.txt"), Ran("line 3 refused 23(0)\nstream 1 5 6869212121\n", "", 1))
    return "line 3 is refused"


@test()
def each_bad_line_is_refused_and_the_others_are_read(play):
    refused = ["1 refused 95", "3 refused 20", "4 refused 21", "5 refused 22(1)", "6 refused 23(0)", "7 refused 63", "8 refused 40", "9 refused 41"]
    lines = "".join(f"line {it}\n" for it in refused)
    same(run(play, "frames", given=f"{TOP}/examples/refused.txt"), Ran(f"{lines}stream 1 2 6162\n", "", 1))
    return f"{len(refused)} lines"


@test()
def lines_end_with_lf_or_cr_lf(play):
    same(run(play, given=f"{PACKET}\r\n\r\n".encode()), Ran("stream 1 2 6162\n"))
    return "1 stream"


@test()
def an_input_without_a_line(play):
    same(run(play, given="/dev/null"), Ran())
    return "nothing"


# Lines that are refused, in the order in which a line is checked: its digits, its length, then version, kind, numbers and frames. Each
# with the number that it is refused by.
NO_DIGITS = {
    "a byte order mark": f"\ufeff{PACKET}\n",
    "0x before its digits": f"0x{PACKET}\n",
    "a space before its digits": f" {PACKET}\n",
    "a space after its digits": f"{PACKET} \n",
    "a space within": f"{PACKET[:4]} {PACKET[4:]}\n",
    "a tab alone": "\t\n",
    "letters that are not digits": "zz\n",
    "one digit without LF": "0",
    "a CR within": "01\r0c\n",
    "two CR before its LF": "010c\r\r\n",
    "a CR before the end of the input": "010c\r",
    "the odd digit after the longest line": "0" * 65_481 + "\n",
}
MALFORMED = {
    "another version": ("20", "020d\n"),
    "the greatest length and another version": ("20", "0" * 65_478 + "\r\n"),
    "another kind": ("21", "010d\n"),
    "its version alone": ("22(1)", "01\n"),
    "a sequence that is cut": ("22(1)", "010c0201\n"),
    "a length of one byte in two": ("22(2)", "010c8101\n"),
    "a length of one byte in two, and too few bytes": ("22(2)", "010c8105\n"),
    "a sequence of no byte": ("22(3)", "010c00\n"),
    "a sequence with a leading zero": ("22(3)", "010c020001\n"),
    "a sequence of nine bytes": ("22(4)", "010c09010000000000000000\n"),
    "a frame that is cut": ("22(1)", "010c01010100010114070101\n"),
    "the greatest number of frames, of which none follows": ("22(1)", "010c0101010008ffffffffffffffff\n"),
    "a bad length of its second frame after a bad first frame": ("22(2)", "010c0101010001020301019980\n"),
    "a frame whose length has no byte": ("22(2)", f"{FRONT}1480\n"),
    "a frame of the greatest length": ("22(1)", f"{FRONT}1488ffffffffffffffff\n"),
    "a frame whose length has nine bytes": ("22(4)", f"{FRONT}1489010000000000000000\n"),
    "a limit that is cut": ("23(0)", f"{FRONT}030101\n"),
    "a stream's number that is cut": ("23(0)", f"{FRONT}140102\n"),
    "a close whose message is not UTF-8": ("23(0)", f"{FRONT}01030101ff\n"),
    "a bad frame after one of another type": ("23(1)", "010c010101000102990161030101\n"),
    "a bad address in its second frame": ("23(1)", "010c0101010001029900020302672e\n"),
    "bytes of stream 0": ("63", f"{FRONT}140701000100026162\n"),
    "bytes of stream 65": ("63", f"{FRONT}140701410100026162\n"),
    "one byte of stream 65": ("63", f"{FRONT}1406014101000161\n"),
    "bytes of stream 256": ("63", f"{FRONT}14080201000100026162\n"),
    "bytes of stream 0 past the greatest offset": ("63", f"{FRONT}140d010008ffffffffffffffff0161\n"),
    "a byte past the window": ("40", f"{FRONT}14080101030100000161\n"),
    "a byte that ends at the greatest offset": ("40", f"{FRONT}140d010108fffffffffffffffe0161\n"),
    "a byte past the greatest offset": ("41", f"{FRONT}140d010108ffffffffffffffff0161\n"),
    "a byte more than the greatest length": ("24", "0" * 65_480 + "\n"),
}


def answers(play, content, wanted):
    """An input of `frames`, and all that is printed: the status is 1 if a line is refused."""
    same(run(play, given=content.encode()), Ran(wanted, "", 1 if "refused" in wanted else 0))


@test(*[(it,) for it in NO_DIGITS])
def a_line_is_refused_that_has(play, what):
    answers(play, NO_DIGITS[what], "line 1 refused 95\n")
    return "95"


@test(*[(it,) for it in MALFORMED])
def a_packet_is_refused_that_has(play, what):
    number, line = MALFORMED[what]
    answers(play, line, f"line 1 refused {number}\n")
    return number


# Frames of each type but that of a stream's bytes, of a type that is not known, and an empty one: nothing is printed for them.
OTHERS = (
    "010401026e6f 0208076578616d706c65 03020105 030a09010000000000000000 04020105 1006010101026e6f 110401010105"
    " 1206010101050100 1306010101050100 150401010105 160401010105 990161"
).split()


@test(*[(it,) for it in OTHERS])
def nothing_is_printed_for_the_frame(play, frame):
    answers(play, f"{FRONT}{frame}\n", "")
    return "nothing"


LONG = "61" * 32_720
ANSWERED = {
    "all frames before a stream's bytes": (f"010c01010100010d{''.join(OTHERS)}14070103010002686f\n", "stream 3 2 686f\n"),
    "bytes after the last frame": (f"{FRONT}140701010100026869ffff\n", "stream 1 2 6869\n"),
    "an empty frame of another type": ("010c010101000102990100140701010100026869\n", "stream 1 2 6869\n"),
    "stream 2 in a line without LF": (f"{FRONT}140701020100026162", "stream 2 2 6162\n"),
    "a stream of no byte": (f"{FRONT}14050102010000", "stream 2 0 -\n"),
    "a byte after a gap": (f"{FRONT}1407010102ffff0161", "stream 1 0 -\n"),
    "bytes that overlap": (f"{FRONT}1409010101000461626364\n{FRONT}1408010101020358595a\n", "stream 1 5 616263645a\n"),
    "bytes that come twice": (
        f"{FRONT}140701010101026364\n{FRONT}140701010100026162\n{FRONT}140701010100026162\n",
        "stream 1 3 616364\n",
    ),
    "empty lines and capital digits": (f"\r\n010C010101000101140701010102026364\r\n\n{FRONT}140701010100026A6b", "stream 1 4 6a6b6364\n"),
    "a packet of which one stream is refused": (
        f"{FRONT}140701010100026162\n010c010101000102140701010102026364140701410100026364\n",
        "line 2 refused 63\nstream 1 2 6162\n",
    ),
    "all 64 streams": (
        "\n".join(f"{FRONT}140601{stream:02x}01000161" for stream in range(64, 0, -1)),
        "".join(f"stream {stream} 1 61\n" for stream in range(1, 65)),
    ),
    "the longest packet": (f"{FRONT}14827fd701010100827fd0{LONG}\n", f"stream 1 32720 {LONG}\n"),
}


@test(*[(it,) for it in ANSWERED])
def frames_prints_the_streams_of(play, what):
    answers(play, *ANSWERED[what])
    return f"{ANSWERED[what][1].count('stream')} lines"


# Arguments.


@test(("fames",), ("frames", "frames"), ("--frames",), ("send",))
def there_is_no_command_of_the_arguments(play, *words):
    ran = run(play, *words, given=EXAMPLE)
    refuses(ran, ran.left)
    return "2"


NO_TEXT = Ran("", "error: invalid UTF-8 was detected in one or more arguments\n", 2)


@test()
def a_name_of_the_program_that_is_no_text(play):
    ran = run(play, "frames", given=EXAMPLE, program=b"\xff", executable=PROGRAM)
    same(ran._replace(left=""), NO_TEXT)
    return "2"


@test()
def an_argument_that_is_no_text(play):
    ran = run(play, b"\xff", given=EXAMPLE)
    same(ran._replace(left=""), NO_TEXT)
    return "2"


# Standard streams that are closed, full, or a terminal.


@test()
def an_input_that_is_closed(play):
    same(run(play, program=without(play, "0", ILPSTREAM)), fault(90))
    return "90"


@test()
def an_output_that_is_closed(play):
    same(run(play, given=EXAMPLE, program=without(play, "1", ILPSTREAM))._replace(left=""), fault(91))
    return "91"


@test()
def a_full_output(play):
    same(run(play, given=EXAMPLE, out="/dev/full")._replace(left=""), fault(91))
    return "91"


@test()
def errors_that_are_closed(play):
    same(run(play, "fames", program=without(play, "2", ILPSTREAM)), Ran(status=2))
    return "2"


@test()
def refused_arguments_with_full_errors(play):
    same(run(play, "send", errors="/dev/full"), Ran(status=2))
    return "2"


@test()
def a_terminal_as_the_input(play):
    above, below = play.terminal()
    above.write(b"\x04")
    words = "ilpstream: reads packets from the terminal, one a line in hexadecimal; Ctrl-D on a new line ends them\n"
    same(run(play, given=below), Ran(errors=words))
    return "one line"


@test()
def a_terminal_that_nothing_is_read_from(play):
    _, below = play.terminal()
    same(run(play, "-V", given=below), Ran("ilpstream 0.1.0\n"))
    return "no line"


# A link to a link, from another folder.


@test()
def a_link_to_the_program(play):
    os.symlink(ILPSTREAM, f"{play.room}/once")
    os.symlink("once", f"{play.room}/twice")
    same(run(play, given=EXAMPLE, program=f"{play.room}/twice", cwd="/"), Ran(STREAMS))
    return "2 streams"


if __name__ == "__main__":
    raise SystemExit(main())
