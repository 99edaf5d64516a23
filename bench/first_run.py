#!/usr/bin/env python3
"""Measures the first run of the program: its crates are proved and built from nothing.

    bench/first_run.py COMMIT ..             one after the other, each on all processors
    bench/first_run.py --at-once COMMIT ..   at the same time, each on an equal part of the processors

Clones each commit into a folder of its own and runs `./ilpstream frames < examples/frames.txt` there. For each it prints the time by
the clock and of the processor, what of all processors the host took away meanwhile, and how many functions the crates below the
program have. Let nothing else run. On four processors each commit takes some 25 minutes, and two at once some 50. Two that run at once
have the same host, but half of its processors. Of runs one after the other, the host's speed is measured before and after each: by the
time in which each processor proves st_devices of this clone from nothing."""
import glob
import os
import re
import shutil
import subprocess
import sys
import tempfile
import time

sys.path.insert(0, os.path.join(os.path.dirname(os.path.realpath(__file__)), "..", "tools"))
from crates import TOP, kit, read_crates, words  # noqa: E402

# The crate whose proof shows how fast the host is: it has no other below it.
SAMPLE = "st_devices"


def stolen():
    """What the host took away since the machine began, and all time of its processors, in ticks."""
    with open("/proc/stat", encoding="ascii") as lines:
        ticks = [int(it) for it in next(lines).split()[1:9]]
    return ticks[7], sum(ticks)


def host_speed(folder, processors):
    """Prints the seconds by the clock in which each processor proves the sample from nothing, all at the same time."""
    at, processes, began = kit(), [], time.monotonic()
    for one in processors:
        command = [f"{at}/bin/rattle", "build", *words(SAMPLE, read_crates(), at), "--statements", "-o", f"{folder}/sample-{one}.rlib"]
        how = {"cwd": f"{TOP}/crates/{SAMPLE}", "stdin": subprocess.DEVNULL, "stdout": subprocess.DEVNULL, "stderr": subprocess.DEVNULL}
        processes.append(subprocess.Popen(command, preexec_fn=lambda one=one: os.sched_setaffinity(0, {one}), **how))
    took = []
    while processes:
        for it in [it for it in processes if it.poll() is not None]:
            if it.returncode:
                sys.exit(f"{SAMPLE} is not proved")
            processes.remove(it)
            took.append(time.monotonic() - began)
        time.sleep(0.02)
    for one in processors:
        shutil.rmtree(f"{folder}/sample-{one}.rlib")
    print(f"the host: {SAMPLE} proved on each processor in {' '.join(f'{it:.1f}' for it in took)} seconds", flush=True)


def functions(top):
    """The functions of the crates that the program of a clone was built on, and their number."""
    crates = [os.path.dirname(os.path.dirname(it)) for it in glob.glob(f"{top}/crates/*/out/built")] + [f"{top}/crates/ilpstream"]
    texts = [open(it, encoding="utf-8").read() for crate in crates for it in glob.glob(f"{crate}/src/**/*.rt", recursive=True)]
    return len(crates), sum(len(re.findall(r"\bfn \w+", text)) for text in texts)


class Run:
    """The first run of a commit, on these processors."""

    def __init__(self, commit, folder, processors):
        self.commit, self.top = commit, f"{folder}/{commit}"
        subprocess.run(["git", "clone", "-q", TOP, self.top], check=True)
        subprocess.run(["git", "-C", self.top, "checkout", "-q", commit], check=True)
        self.began, self.before = time.monotonic(), stolen()
        with open(f"{self.top}/examples/frames.txt", "rb") as packets, open(f"{self.top}.log", "wb") as log:
            how = {"stdin": packets, "stdout": log, "stderr": subprocess.STDOUT, "cwd": self.top}
            self.process = subprocess.Popen(["./ilpstream", "frames"], preexec_fn=lambda: os.sched_setaffinity(0, processors), **how)

    def ended(self, status, used):
        """Prints what it took."""
        self.process.returncode = os.waitstatus_to_exitcode(status)
        clock, processor = (time.monotonic() - self.began) / 60, (used.ru_utime + used.ru_stime) / 60
        taken, ticks = (now - then for now, then in zip(stolen(), self.before))
        crates, number = functions(self.top)
        print(f"{self.commit}: {crates} crates, {number} functions, status {self.process.returncode}: {clock:.1f} minutes by the clock,", end=" ")
        print(f"{processor:.1f} of the processor, {used.ru_stime / 60:.1f} of it the system's; the host took {100 * taken / ticks:.1f} % away", flush=True)


def wait_for(runs):
    """Waits until all of these runs have ended."""
    left = {it.process.pid: it for it in runs}
    while left:
        pid, status, used = os.wait4(-1, 0)
        if pid in left:
            left.pop(pid).ended(status, used)


def main(arguments):
    at_once = arguments[:1] == ["--at-once"]
    commits = arguments[at_once:]
    if not commits or len(commits) != len({*commits}) or commits[0].startswith("-"):
        sys.exit(__doc__)
    processors = sorted(os.sched_getaffinity(0))
    folder, part = tempfile.mkdtemp(), len(processors) // len(commits)
    print(f"clones and logs in {folder}", flush=True)
    if at_once:
        wait_for([Run(it, folder, {*processors[place * part:(place + 1) * part]}) for place, it in enumerate(commits)])
    for it in [] if at_once else commits:
        host_speed(folder, processors)
        wait_for([Run(it, folder, {*processors})])
    if not at_once:
        host_speed(folder, processors)


if __name__ == "__main__":
    main(sys.argv[1:])
