#!/usr/bin/env python3
"""Runs ./ilpstream as whoever uses it does, and compares its output, its errors and its status: program.py [PROGRAM [WORD]]. What it
writes to standard error, and what it does if a stream is closed or a terminal, `rt ci` does not see. These are the tests of
program_*.py, in files by command, of liar.py and of tight.py, each of which can be run alone. With a WORD, only the tests whose names
have it. A line for each test; the last line counts them."""
import importlib

from commands import main

COMMANDS = ("frames", "help", "local", "send", "receive", "connector", "ledger", "transfer")

for name in (*(f"program_{it}" for it in COMMANDS), "liar", "tight"):
    importlib.import_module(name)

if __name__ == "__main__":
    raise SystemExit(main())
