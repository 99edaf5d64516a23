#!/usr/bin/env python3
"""Tries the wrong bodies of tests/seen-by-tests, which no contract refuses, on a copy of the crates. Each has to fail a test of the
crate that its first line names, or, if that line is `tests: local`, a run of the program: bytes over a chain in memory. If it is
`tests: memory`, the table of requests for memory that tests/memory.py compares has to be another one.
`seen_by_tests.py [WORD]` tries those whose name has WORD in it. Nothing is proved: `rt try` runs the tests, or the program, as they
are. It is run manually; the gate calls `seen_by_tests.py --look`, which says whether each can be made."""
import os
import re
import subprocess
import sys
import tempfile

import memory
from repository import TOP, read, write

EDITS = os.path.join(TOP, "tests", "seen-by-tests")
# More seconds than the tests of a crate, or a run of the program, may take.
BOUND = 900
# The run of the program that a wrong body has to fail: more Prepares than 50, and on each of three streams more bytes than a sender
# keeps at once. It reads the digits of the numbers from 0 on.
LOCAL, RUN = "local", ["local", "--hops", "8", "--streams", "3"]
INPUT = "".join(str(number) for number in range(172_000))[:900_000]
# The edits that the table of requests for memory shows.
MEMORY = "memory"


def read_edit(name):
    """The crate of the tests, the file, and its lines before and after."""
    return [line.split(": ", 1)[1] for line in read(f"{EDITS}/{name}").rstrip("\n").split("\n")]


def run_local(room):
    """What a run of the program said: how it ended, or that it wrote what it read."""
    words = ["rt", "try", "--seconds", str(BOUND), "--", *RUN]
    try:
        ran = subprocess.run(words, cwd=f"{room}/crates/ilpstream", input=INPUT, capture_output=True, text=True, timeout=2 * BOUND)
    except subprocess.TimeoutExpired:
        return f"seen: {' '.join(RUN)} did not end"
    if not re.search(r"^run=", ran.stderr + ran.stdout, re.M):
        return f"BAD EDIT: {(ran.stdout[-200:] + ran.stderr).strip()[-300:]}"
    if ran.stdout.startswith(INPUT):
        return "NOT SEEN"
    return f"seen by {' '.join(RUN)}"


def run_memory(room):
    """The calls that ask for other memory than the table says."""
    try:
        rows, why = memory.printed(room)
    except subprocess.TimeoutExpired:
        return "seen: the table was not printed in time"
    if not rows:
        return f"BAD EDIT: {why[-300:]}"
    other = dict.fromkeys(it[2:42].strip() for it in memory.differences(rows))
    return f"seen at {', '.join(other)}" if other else "NOT SEEN"


def tried(trials, room):
    """What the tests of a crate said: the names of those that failed, or why none ran."""
    if trials == LOCAL:
        return run_local(room)
    if trials == MEMORY:
        return run_memory(room)
    try:
        ran = subprocess.run(["rt", "try", "--test"], cwd=f"{room}/crates/{trials}", capture_output=True, text=True, timeout=BOUND)
    except subprocess.TimeoutExpired:
        return "seen: a test did not end"
    said = ran.stdout + ran.stderr
    failed = sorted(set(re.findall(r"^test (\S+) \.\.\. FAILED", said, re.M)))
    if failed:
        return f"seen by {', '.join(failed)}"
    if re.search(r"^test result: ok\.", said, re.M):
        return "NOT SEEN"
    return f"BAD EDIT: {said.strip()[-300:]}"


def made(name, room):
    """The file that an edit changes, what it holds, and what it would; nothing if the old line is not there once."""
    _, file, old, new = read_edit(name)
    text = read(f"{room}/{file}")
    return (f"{room}/{file}", text, text.replace(old, new)) if text.count(old) == 1 else None


def look(names):
    lost = [it for it in names if not made(it, TOP)]
    for it in lost:
        print(f"tests/seen-by-tests/{it}: its old line is not in its file just once")
    for it in names:
        trials = read_edit(it)[0]
        if trials not in (LOCAL, MEMORY) and not os.path.isdir(f"{TOP}/crates/{trials}/src"):
            print(f"tests/seen-by-tests/{it}: there is no crate {trials}")
            lost.append(it)
    print(f"{len(names) - len(lost)} passed, {len(lost)} failed")
    return 1 if lost or not names else 0


def main(words):
    names = sorted(it for it in os.listdir(EDITS) if it.endswith(".edit"))
    if words == ["--look"]:
        return look(names)
    names = [it for it in names if all(word in it for word in words)]
    missed = 0
    with tempfile.TemporaryDirectory() as room:
        memory.copy_to(room)
        for name in names:
            trials, *_ = read_edit(name)
            change = made(name, room)
            told = "BAD EDIT: its old line is not in its file just once"
            if change:
                path, text, changed = change
                write(path, changed)
                told = tried(trials, room)
                write(path, text)
            missed += not told.startswith("seen")
            print(f"{name.removesuffix('.edit')} ({trials}): {told}", flush=True)
    print(f"{len(names) - missed} passed, {missed} failed")
    return 1 if missed else 0


if __name__ == "__main__":
    sys.exit(main(sys.argv[1:]))
