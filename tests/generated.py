#!/usr/bin/env python3
"""Runs the scripts of crates/*/gen, which write long code and proofs, tools/errors.py, which writes the tables of errors, and
tools/manual.py, which writes the man page and completions, and compares with what is there. Each finding is a line; the last line counts the files that are as their script writes them, and those
that are not."""
import os
import re
import subprocess
import sys

from repository import TOP, files

SCRIPTS = ["crates/st_aes/gen/planes.py", "tools/errors.py", "tools/manual.py"]
COUNT = re.compile(r"^([0-9]+) files as written, ([0-9]+) not$")


def main():
    passed = failed = 0
    for script in SCRIPTS:
        run = subprocess.run(
            [sys.executable, "-B", f"{TOP}/{script}", "--look"], stdin=subprocess.DEVNULL, stdout=subprocess.PIPE, text=True
        )
        *findings, last = run.stdout.splitlines() or [""]
        counted = COUNT.match(last)
        for line in findings:
            print(f"{script}: {line}")
        if counted is None:
            print(f"{script}: status {run.returncode}, and no count")
            failed += 1
        else:
            passed += int(counted[1])
            failed += int(counted[2])
    # A file that says that a script wrote it is one that the script writes.
    known = {os.path.dirname(os.path.dirname(script)) for script in SCRIPTS}
    for folder in files("crates/*/gen"):
        crate = os.path.dirname(folder)
        if crate not in known:
            print(f"{crate}/gen: no script of it is run here")
            failed += 1
    print(f"{passed} passed, {failed} failed")
    sys.exit(1 if failed else 0)


if __name__ == "__main__":
    main()
