#!/usr/bin/env python3
"""Proves and builds the program if it is missing, or older than the files of the crates that it is built on.

The prover is called by itself, since `rt` works on one crate at a time if two have a crate below them in common. It writes
a library, into crates/NAME/out/built, and the program of crates that are proved alone. Each crate is proved once those below it
are. Of those that can begin, the one with the longest chain of crates above it begins first. With up to four processors a crate has
one job, and up to four if it runs alone. With more it gets further jobs while processors are idle, up to three, and a crate on the
longest chain of all always has two. The program, which has few functions, has one. JOBS=N uses N processors. A crate that is not
proved ends the build with its log. The program is for processors of this one's level; LEVEL=v2 and LEVEL=v3 ask for x86-64-v2 and
x86-64-v3. `tools/build.py --plan N` prints what the weights below give for N processors."""
import os
import shutil
import signal
import subprocess
import sys
import tempfile
import time

from crates import BUILT, TOP, kit, read_crates, with_below, words

PROGRAM = "ilpstream"
# The processor's seconds that each crate took from nothing with one job, in a first run of a39b886e on 2026-12-01. Those of ilpstream_main,
# which was two crates, and of ilpstream are changed by what docs/GATE.md says of the type of the books, and those of ilpstream_main and
# ilpstream_net by 41 functions that moved from the first to the second. Crates that are not here take OTHER.
WEIGHTS = {
    "st_hop_books": 476, "ilpstream_net": 410, "ilpstream_ends": 356, "st_sender": 308, "st_hub": 273, "st_world": 260,
    "ilpstream_words": 250, "st_end": 229, "ilpstream_settings": 200, "ilpstream_connector": 200, "st_world_parts": 189,
    "st_receiver": 183, "ilpstream_frames": 164, "st_hop": 159, "ilpstream": 156, "ilpstream_log": 154, "ilpstream_main": 143,
    "ilpstream_serving": 142, "st_http": 141, "ilpstream_local": 140, "st_hop_desk": 133, "st_aes": 126, "ilpstream_ledger": 126,
    "st_ilp": 98, "st_frames": 96, "st_unacked": 88, "st_queues": 78, "st_reassembly": 66, "st_oer": 52, "st_file": 52, "st_lanes": 40,
    "ilpstream_output": 35, "st_devices": 34, "st_keys": 29, "st_links": 28, "st_streams": 15,
}
OTHER = 80
# Memory in bytes: what a check takes at most, and what each further job of it takes.
CHECK, JOB = 3_500_000_000, 1_000_000_000
# A folder whose files are in memory, and the free bytes that it has to have for each processor. The prover writes 1,500 short files there
# for a small crate.
IN_MEMORY, SCRATCH = "/dev/shm", 500_000_000
# A further job does a third as much as the first: with two a crate takes half as much of the processor again. So crates side by side
# make better use of the processors, up to this number of them.
FEW, FURTHER = 4, 0.33
# The most jobs of a crate, with so few processors and with more.
MOST_OF_FEW, MOST_JOBS = 4, 3
# A crate is urgent if the longest chain through it is this part of the longest of all.
URGENT = 0.93
# What a processor of level x86-64-v3 has in addition to those of level 2: with vectors of 32 bytes the cipher is twice as fast.
LEVEL_3 = {"avx", "avx2", "bmi1", "bmi2", "f16c", "fma", "abm", "movbe"}


def weight(crate):
    return WEIGHTS.get(crate, OTHER)


def chains(crates):
    """For each crate the weight of the longest chain that begins with it and ends at the top."""
    longest = {}
    for name in reversed(list(crates)):
        above = [longest[it] for it in crates if name in crates[it]]
        longest[name] = weight(name) + max(above, default=0)
    return longest


def chain_parts(crates):
    """For each crate the longest chain through it, as a part of the longest of all."""
    above, before = chains(crates), {}
    for name, below in crates.items():
        before[name] = max((before[it] + weight(it) for it in below), default=0)
    return {it: (before[it] + above[it]) / max(above.values()) for it in crates}


def library(name):
    return f"{TOP}/crates/{name}/out/built/{name}.rlib"


def made(name):
    """When a library was built, or 0."""
    try:
        return os.stat(f"{library(name)}/format").st_mtime
    except OSError:
        return 0


def changed(name):
    """When a file of a crate was changed last."""
    paths = [path for part in ("src", "specs", "proofs") for path in paths_below(f"{TOP}/crates/{name}/{part}")]
    return max((os.stat(it).st_mtime for it in paths), default=0)


def paths_below(folder):
    return [path for at, _, files in os.walk(folder) for path in [at, *[f"{at}/{it}" for it in files]]]


def built_level():
    """The level for which the program was built."""
    try:
        with open(f"{BUILT}.level", encoding="ascii") as file:
            return file.read().strip()
    except OSError:
        return ""


def is_fresh(crates):
    """Whether no file of these crates is newer than the program, and it is for the level that was asked for."""
    is_new = os.access(BUILT, os.X_OK) and os.stat(BUILT).st_mtime >= max(map(changed, crates))
    return is_new and asked_level() in ("", built_level())


def fresh_libraries(crates):
    """The libraries that were built of what is there, over libraries that were."""
    found = set()
    for name, below in crates.items():
        if name != PROGRAM and found.issuperset(below) and made(name) > max([changed(name), *map(made, below)]):
            found.add(name)
    return found


def memory():
    """The free memory in bytes."""
    with open("/proc/meminfo", encoding="ascii") as lines:
        return next(1024 * int(line.split()[1]) for line in lines if line.startswith("MemAvailable:"))


def scratch_folder(number):
    """The folder for temporary files: one in memory if it has room for this number of processors, and otherwise the usual one. TMPDIR says
    another one."""
    if "TMPDIR" in os.environ:
        return None
    try:
        has_room = os.access(IN_MEMORY, os.W_OK) and shutil.disk_usage(IN_MEMORY).free >= number * SCRATCH
    except OSError:
        has_room = False
    return IN_MEMORY if has_room else None


def processors():
    asked = os.environ.get("JOBS", "")
    if asked and not (asked.isdigit() and int(asked)):
        sys.exit("ilpstream: JOBS is a number of processors from 1 on")
    return int(asked or len(os.sched_getaffinity(0)))


class Schedule:
    """Which crate begins next and with how many jobs."""

    def __init__(self, crates, processors, memory):
        self.crates, self.processors, self.memory = crates, processors, memory
        self.longest, self.parts = chains(crates), chain_parts(crates)
        self.proved, self.running = set(), {}

    def is_urgent(self, crate):
        return self.parts[crate] >= URGENT

    def ready(self):
        begun = self.proved | self.running.keys()
        found = [it for it, below in self.crates.items() if it not in begun and self.proved.issuperset(below)]
        return sorted(found, key=lambda it: -self.longest[it])

    def most_jobs(self, crate):
        """How many jobs a crate can have. With few processors it has one while others run: with more it would take more of the
        processor, and the crates above it would wait for the others all the same."""
        is_few = self.processors <= FEW
        if crate == PROGRAM or is_few and self.running:
            return 1
        return MOST_OF_FEW if is_few else MOST_JOBS

    def next(self):
        """The next crate that can begin, with its jobs, or None. One crate can always run."""
        ready = self.ready()
        left = self.memory - sum(CHECK + (jobs - 1) * JOB for jobs in self.running.values())
        if not ready or self.running and (left < CHECK or len(self.running) == self.processors):
            return None
        idle = self.processors - sum(self.running.values())
        is_few = self.processors <= FEW
        least = 2 if self.is_urgent(ready[0]) and not is_few else 1
        most = self.most_jobs(ready[0])
        jobs = max(idle // len(ready), least)
        self.running[ready[0]] = max(min(jobs, most, 1 + max(left - CHECK, 0) // JOB), 1)
        return ready[0], self.running[ready[0]]

    def ended(self, crate):
        del self.running[crate]
        self.proved.add(crate)

    def done(self):
        """The part of the whole weight that is proved."""
        return sum(map(weight, self.proved)) / sum(map(weight, self.crates))


def plan(crates, processors):
    """The minutes by the clock and of the processor that the weights give."""
    schedule, now, used, left = Schedule(crates, processors, processors * (CHECK + JOB)), 0.0, 0.0, {}
    while len(schedule.proved) < len(crates):
        while begun := schedule.next():
            left[begun[0]] = weight(begun[0])
        share = min(1, processors / sum(schedule.running.values()))
        speeds = {it: share * (1 + FURTHER * (jobs - 1)) for it, jobs in schedule.running.items()}
        crate = min(left, key=lambda it: left[it] / speeds[it])
        took = left[crate] / speeds[crate]
        left = {it: seconds - took * speeds[it] for it, seconds in left.items() if it != crate}
        used += took * min(processors, sum(schedule.running.values()))
        schedule.ended(crate)
        now += took
    return now / 60, used / 60


class Progress:
    """One line on standard error, rewritten on a terminal; elsewhere a line for each crate."""

    def __init__(self, schedule):
        self.schedule, self.begun, self.is_terminal = schedule, time.monotonic(), sys.stderr.isatty()
        self.before = schedule.done()

    def line(self):
        schedule, minutes = self.schedule, (time.monotonic() - self.begun) / 60
        done, here = schedule.done(), schedule.done() - self.before
        left = f", about {minutes / here * (1 - done):.0f} min left" if here > 0.05 and minutes > 1 else ""
        count = f"{len(schedule.proved)} of {len(schedule.crates)} crates proved"
        return f"ilpstream: {count}, {100 * done:.0f} %, {minutes:.0f} min{left}"

    def tell(self, crate=""):
        if self.is_terminal:
            print(f"\r{self.line()}: {' '.join(self.schedule.running)}"[:79], end="\x1b[K", file=sys.stderr, flush=True)
        elif crate:
            print(f"{self.line()}: {crate}", file=sys.stderr, flush=True)

    def end(self):
        if self.is_terminal:
            print("\r", end="\x1b[K", file=sys.stderr, flush=True)


def asked_level():
    """The level that LEVEL asks for: v2, v3, or none."""
    asked = os.environ.get("LEVEL", "")
    if asked not in ("", "v2", "v3"):
        sys.exit("ilpstream: LEVEL is v2 or v3")
    return asked


def level():
    """The flag for the level of processors for which the program is built, if it is above that for which the kit builds."""
    if asked_level() == "v2":
        return []
    with open("/proc/cpuinfo", encoding="ascii", errors="replace") as lines:
        flags = next((line.split(":")[1].split() for line in lines if line.startswith("flags")), [])
    return ["--cpu=x86-64-v3"] if asked_level() == "v3" or LEVEL_3.issubset(flags) else []


def begin(crate, jobs, logs, every, at):
    """Begins the proof of a crate, which builds its library too. (Its text has the layout of `rt fmt` in the gate alone.)"""
    folder = f"{TOP}/crates/{crate}"
    os.makedirs(f"{folder}/out", exist_ok=True)
    command = [f"{at}/bin/rattle", "build", *words(crate, every, at, library), "--jobs", str(jobs)]
    if crate == PROGRAM:
        command += [*level(), "--toolchain", f"{at}/toolchain", "--backend", "llvm", "-o", f"out/{PROGRAM}.o"]
    else:
        shutil.rmtree(f"{folder}/out/built", ignore_errors=True)
        os.mkdir(f"{folder}/out/built")
        command += ["--statements", "-o", library(crate)]
    how = {"cwd": folder, "stdin": subprocess.DEVNULL, "stderr": subprocess.STDOUT, "env": {**os.environ, "TMPDIR": logs}}
    with open(f"{logs}/{crate}", "wb") as log:
        return subprocess.Popen(command, stdout=log, **how)


def link(logs, at):
    """Links the program, and returns its status."""
    command = [f"{at}/bin/rattle-link", "--target", "x86_64-unknown-linux-gnu", "--toolchain", f"{at}/toolchain"]
    command += ["-o", BUILT, f"{BUILT}.o", f"{at}/c/libos_c.a", f"{at}/c/liblibc_c.a"]
    with open(f"{logs}/{PROGRAM}", "ab") as log:
        return subprocess.run(command, stdin=subprocess.DEVNULL, stdout=log, stderr=subprocess.STDOUT).returncode


def stop(processes):
    for it in processes.values():
        it.terminate()
    for it in processes.values():
        it.wait()


def fail(crate, logs):
    with open(f"{logs}/{crate}", encoding="utf-8", errors="replace") as log:
        sys.stderr.write(log.read())
    print(f"ilpstream: {crate} is not proved, so the program could not be built", file=sys.stderr)
    return 1


def build(crates, logs):
    schedule, processes = Schedule(crates, processors(), memory()), {}
    schedule.proved |= fresh_libraries(crates)
    progress, every, at = Progress(schedule), read_crates(), kit()
    try:
        while len(schedule.proved) < len(crates):
            # (more if another program ended meanwhile)
            schedule.memory = max(schedule.memory, memory())
            while begun := schedule.next():
                processes[begun[0]] = begin(*begun, logs, every, at)
            progress.tell()
            time.sleep(0.5)
            for crate in [it for it, process in processes.items() if process.poll() is not None]:
                if processes.pop(crate).returncode or crate == PROGRAM and link(logs, at):
                    progress.end()
                    return fail(crate, logs)
                schedule.ended(crate)
                progress.tell(crate)
    finally:
        stop(processes)
    progress.end()
    return 0


def main(arguments):
    asked_level()  # (a wrong one ends it here)
    crates = with_below(PROGRAM, read_crates())
    if arguments[:1] == ["--plan"]:
        print("{:.0f} minutes, {:.0f} of the processor".format(*plan(crates, int(arguments[1]))))
        return 0
    if is_fresh(crates):
        return 0
    print("ilpstream: proving and building the program first; ./try frames shows it at once, unproved", file=sys.stderr)
    # (what changes from here on is newer than the program)
    begun = time.time()
    with tempfile.TemporaryDirectory(dir=scratch_folder(processors())) as logs:
        status = build(crates, logs)
    if not status:
        os.utime(BUILT, (begun, begun))
        with open(f"{BUILT}.level", "w", encoding="ascii") as file:
            print("v3" if level() else "v2", file=file)
    return status


if __name__ == "__main__":
    signal.signal(signal.SIGTERM, lambda *_: sys.exit(143))
    try:
        sys.exit(main(sys.argv[1:]))
    except KeyboardInterrupt:
        sys.exit(130)
