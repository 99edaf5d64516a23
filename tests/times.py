#!/usr/bin/env python3
"""How much of the processor a gate takes: times.py PROCESS. It checks the processes below this one once a second until that
ends or this gets SIGTERM, and then prints, for each crate, the processor's seconds of its proof, of its tests, which are proved
too, and of its wrong bodies; then those of compilers and of what they built; and the sums. What a process takes in its last
second is missed. `times.py --table LOG` prints these lines of a gate's output as the table of docs/GATE.md."""
import os
import re
import signal
import sys
import time
from collections import defaultdict

TICK = os.sysconf("SC_CLK_TCK")
KINDS = ("proof", "tests", "edits", "other")


def read(process, name):
    with open(f"/proc/{process}/{name}", "rb") as file:
        return file.read()


def stat(process):
    """A process's parent, its seconds of the processor, and the moment at which it began."""
    fields = read(process, "stat").rsplit(b")", 1)[1].split()
    return int(fields[1]), (int(fields[11]) + int(fields[12])) / TICK, int(fields[19])


def below(top):
    """The processes below one, each with its seconds of the processor and the moment at which it began."""
    found = {}
    for name in filter(str.isdigit, os.listdir("/proc")):
        try:
            found[int(name)] = stat(name)
        except OSError:
            pass
    for process, (parent, seconds, began) in found.items():
        while parent in found and parent != top:
            parent = found[parent][0]
        if parent == top:
            yield process, seconds, began


def subject(process):
    """The crate that a process of the prover works on, and what for; the name of another program."""
    words = read(process, "cmdline").split(b"\0")
    if b"--crate-name" not in words or os.path.basename(words[0]) != b"rattle":
        return "", "other"
    crate = words[words.index(b"--crate-name") + 1].decode()
    if "rt-edit" in os.readlink(f"/proc/{process}/cwd"):
        return crate, "edits"
    return crate, "tests" if b"--test" in words else "proof"


def look(top, subjects, seconds):
    for process, spent, began in below(top):
        key = process, began
        try:
            if key not in subjects or subjects[key][1] == "other":
                subjects[key] = subject(process)
            seconds[key] = spent
        except OSError:
            pass


def table(subjects, seconds):
    sums = defaultdict(lambda: dict.fromkeys(KINDS, 0.0))
    for key, spent in seconds.items():
        crate, kind = subjects[key]
        sums[crate][kind] += spent
    for crate, spent in sorted(sums.items(), key=lambda it: -sum(it[1].values())):
        if crate:
            print(f"{crate}: " + ", ".join(f"{kind} {spent[kind]:.0f}" for kind in KINDS[:3]))
    whole = {kind: sum(it[kind] for it in sums.values()) / 60 for kind in KINDS}
    print("minutes of the processor: " + ", ".join(f"{kind} {whole[kind]:.0f}" for kind in KINDS) + f"; {sum(whole.values()):.0f} in all")


def tell_log(path):
    """The lines of a gate's output on crates, as a table in Markdown."""
    found = []
    with open(path, encoding="utf-8", errors="replace") as log:
        for line in log:
            row = re.fullmatch(r"(\w+): proof (\d+), tests (\d+), edits (\d+)\n", line)
            found += [(row[1], *map(int, row.groups()[1:]))] if row else []
    print("| Crate | Proof | Tests | Wrong bodies |", "|---|---|---|---|", sep="\n")
    for crate, *seconds in found:
        print(f"| {crate} | " + " | ".join(str(it or "") for it in seconds) + " |")
    sums = [sum(it[at] for it in found) for at in (1, 2, 3)]
    print("| all, in minutes | " + " | ".join(f"{it / 60:.0f}" for it in sums) + " |")


def main():
    if sys.argv[1] == "--table":
        return tell_log(sys.argv[2])
    top, subjects, seconds = int(sys.argv[1]), {}, {}
    signal.signal(signal.SIGTERM, lambda *_: sys.exit())
    try:
        while os.path.exists(f"/proc/{top}"):
            look(top, subjects, seconds)
            time.sleep(1)
    finally:
        table(subjects, seconds)


if __name__ == "__main__":
    main()
