#!/usr/bin/env python3
"""Compares what calls inside the crates ask of memory with tests/memory/table.txt: how many requests, and the sum of their bytes,
each at three sizes. The program in tests/memory prints it. Its sources end in .rattle, since `rt ci` checks each .rt as part of a
crate. It is run by `rt try`, on a copy of the crates, and is not proved: that would take eight minutes of the processor, and no
function of it is part of anything else.

tests/memory.py           compares; each row that differs is a line, and the last line counts
tests/memory.py --print   prints the table, for tests/memory/table.txt after a change that is meant"""
import glob
import os
import re
import shutil
import subprocess
import sys
import tempfile

from repository import TOP, read

PROGRAM, TABLE = f"{TOP}/tests/memory", f"{TOP}/tests/memory/table.txt"
NAME = "memory"
BELOW = "test_refusing st_oer st_ilp st_frames st_reassembly st_unacked st_queues st_keys st_hop st_hop_desk st_receiver st_sender st_end st_http"
# More seconds than the program may take once it runs, and than all may take.
RUN, BOUND = 300, 1_200


def copy_to(room):
    """Copies the crates."""
    shutil.copytree(f"{TOP}/crates", f"{room}/crates", ignore=shutil.ignore_patterns("out"))
    for file in ("crates.txt", "HANDLES"):
        shutil.copy(f"{TOP}/{file}", room)


def printed(room):
    """The rows that the program prints over a copy of the crates; or none, and why."""
    folder = f"{room}/crates/{NAME}"
    if not os.path.isdir(folder):
        os.makedirs(f"{folder}/src")
        for file in glob.glob(f"{PROGRAM}/*.rattle"):
            shutil.copy(file, f"{folder}/src/{os.path.basename(file).removesuffix('.rattle')}.rt")
        with open(f"{room}/crates.txt", "a", encoding="utf-8") as lines:
            lines.write(f"{NAME}: {BELOW}\n")
    words = ["rt", "try", "--steps", "1", "--seconds", str(RUN)]
    ran = subprocess.run(words, cwd=folder, capture_output=True, text=True, timeout=BOUND)
    rows = ran.stdout.splitlines()
    if not rows or not rows[0].startswith("call "):
        return [], (ran.stdout + ran.stderr).strip()[-1000:]
    return [it for it in rows if re.search(r" (requests +bytes|refused|\d+ +\d+)$", it)], ""


def wanted():
    return read(TABLE).splitlines()


def differences(rows):
    """Each row that is in one table alone."""
    known = wanted()
    return [f"- {it}" for it in known if it not in rows] + [f"+ {it}" for it in rows if it not in known]


def main(arguments):
    with tempfile.TemporaryDirectory() as room:
        copy_to(room)
        rows, why = printed(room)
    if arguments == ["--print"]:
        print(*rows, sep="\n")
        return 0 if rows else 1
    other = differences(rows) if rows else [why]
    print(*other, sep="\n", end="\n" * bool(other))
    print(f"{0 if other else len(rows)} passed, {len(other)} failed")
    return 1 if other else 0


if __name__ == "__main__":
    sys.exit(main(sys.argv[1:]))
