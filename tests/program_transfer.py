#!/usr/bin/env python3
"""Sends files and money as a user does: program_transfer.py [PROGRAM [WORD]]. The example with a connector, and a token and a secret
that are in files at one end. With a WORD, only the tests whose names have it. A line for each test; the last line counts them."""
import os
import re
import subprocess

from commands import Begun, Ran, main, run, same
from peers import HOST, SECRET, free_port, free_ports
from play import has_to_listen, test
from repository import TOP, read, write

# What the sender paid the connector claims from its account, and what it owes the receiver's is the receiver's credit.
TRANSFERRED = """\
sender: accepted 70000
sender: delivered 0
sender: credited 0
sender: paid 500
connector: account 0 claims 500 dues 0 held 0
connector: account 1 claims 0 dues 500 held 0
receiver: accepted 0
receiver: delivered 70000
receiver: credited 500
receiver: paid 0
70000 bytes and 500 units arrived intact"""


@test(waits=True, again=False)
def the_example_of_a_transfer(play):
    end, hub = free_ports(2)
    places = {"BYTES": "70000", "MONEY": "500", "END": str(end), "HUB": str(hub)}
    ran = run(play, program=f"{TOP}/examples/transfer/run", env={**os.environ, **places}, given="/dev/null")
    # (the number of packets is not the same in each run, nor is the time)
    out = re.sub(r"(?m)^connector: co.*\n", "", ran.out).rpartition(" in ")[0]
    same(ran._replace(out=out), Ran(TRANSFERRED))
    return "70,000 bytes and 500 units"


@test(("receive",), ("send",), waits=True, again=False)
def a_token_and_a_secret_in_files_at(play, command):
    """At the other end they are given."""
    path, port = f"{TOP}/README.md", free_port()
    for name, line in (("token", "t"), ("secret", SECRET)):
        write(f"{play.room}/{name}", f"{line}\r\n")
    keys = {"given": ["--token=t", f"--secret={SECRET}"], "filed": [f"--token-file={play.room}/token", f"--secret-file={play.room}/secret"]}
    way = {"receive": keys["filed" if command == "receive" else "given"], "send": keys["filed" if command == "send" else "given"]}
    words = [f"--listen={HOST}:{port}", *way["receive"], "--address=test.b", "--peer=test.a", "--patience=20"]
    receiver = Begun(play, ["receive", *words], subprocess.DEVNULL)
    receiver.process.port = port
    has_to_listen(receiver.process, "the receiver")
    ran = run(play, "send", f"--to={HOST}:{port}", *way["send"], "--address=test.a", "--peer=test.b", given=path)
    same(ran, Ran())
    same(receiver.end(), Ran(read(path)))
    return f"{os.path.getsize(path)} bytes"


if __name__ == "__main__":
    raise SystemExit(main())
