#!/usr/bin/env python3
"""Proves crates of this clone over the libraries that `rt ci` left in another one, for whoever works on several crates at once.

    BASE=CLONE tools/prove.py [--only FN].. [--start FN].. [--jobs N] [--test] [--holes] [--short] [--fresh] CRATE ..

If the files of a crate below CRATE, and of all below it, equal those of the base, its library is the base's crates/X/out/rlib. The
others are proved and built first, into crates/X/out/built. What was checked is kept in crates/X/out/kept, but for --fresh. --only and
--start are those of `rattle check`, --holes is --allow-holes, --short is --short-goals. --test proves the tests and builds their program."""
import argparse
import os
import resource
import subprocess
import sys
import time

import crates as repository

TOP, BASE = repository.TOP, os.environ["BASE"]
EVERY, AT = repository.read_crates(), repository.kit()


def files(top, crate):
    found = {}
    for part in ("src", "specs", "proofs"):
        for folder, _, names in os.walk(f"{top}/crates/{crate}/{part}"):
            for path in (f"{folder}/{it}" for it in names):
                with open(path, "rb") as file:
                    found[os.path.relpath(path, f"{top}/crates/{crate}")] = file.read()
    return found


def below(crate):
    return [it for it in EVERY[crate] if it in EVERY]


def is_same(crate, known={}):
    if crate not in known:
        known[crate] = files(TOP, crate) == files(BASE, crate) and all(map(is_same, below(crate)))
    return known[crate]


def place(crate):
    folder = f"{BASE}/crates/{crate}/out/rlib" if is_same(crate) else f"{TOP}/crates/{crate}/out/built"
    return f"{folder}/{crate}.rlib"


def made(path):
    return os.stat(f"{path}/format").st_mtime if os.path.isfile(f"{path}/format") else 0


def newest(crate):
    tops = [f"{TOP}/crates/{crate}/{it}" for it in ("src", "specs", "proofs")]
    return max(os.stat(f"{at}/{it}").st_mtime for top in tops for at, _, names in os.walk(top) for it in [*names, "."])


def is_made(crate):
    return made(place(crate)) > (0 if is_same(crate) else max([newest(crate), *[made(place(it)) for it in below(crate)]]))


def prove(crate, asked, whole):
    """Proves a crate, and builds it; or checks what was asked for."""
    folder = f"{TOP}/crates/{crate}"
    is_check = whole and bool(asked.only or asked.start) or crate == "ilpstream_c"
    is_test = whole and asked.test
    kept = f"{folder}/out/kept{'-test' if is_test else ''}"
    for it in (f"{folder}/out/built", kept):
        os.makedirs(it, exist_ok=True)
    words = [f"{AT}/bin/rattle", "check" if is_check else "build", *repository.words(crate, EVERY, AT, place), "--jobs", asked.jobs]
    words += ["--statements"] * (asked.fresh and not (is_check or is_test)) + ["--incremental", kept] * (not asked.fresh) + ["--test"] * is_test
    if whole:
        words += [it for name in asked.only for it in ("--only", name)] + [it for name in asked.start for it in ("--start", name)]
        words += ["--allow-holes"] * asked.holes + ["--short-goals"] * asked.short
    if not is_check:
        is_program = is_test or os.path.isfile(f"{folder}/src/main.rt")
        built = f"out/{crate}{'-test' if is_test else ''}"
        words += ["--toolchain", f"{AT}/toolchain", "--backend", "llvm", "-o", f"{built}.o"] if is_program else ["-o", f"out/built/{crate}.rlib"]
    began, before = time.monotonic(), resource.getrusage(resource.RUSAGE_CHILDREN)
    status = subprocess.run(words, cwd=folder, stdin=subprocess.DEVNULL, check=False).returncode
    after = resource.getrusage(resource.RUSAGE_CHILDREN)
    spent = after.ru_utime + after.ru_stime - before.ru_utime - before.ru_stime
    print(f"{crate}: status {status}, {spent:.0f} seconds of the processor, {time.monotonic() - began:.0f} by the clock", flush=True)
    if not status and not is_check and is_program:
        link = [f"{AT}/bin/rattle-link", "--target", "x86_64-unknown-linux-gnu", "--toolchain", f"{AT}/toolchain", "-o", built]
        subprocess.run([*link, f"{built}.o", f"{AT}/c/libos_c.a", f"{AT}/c/liblibc_c.a"], cwd=folder, check=False)
    return status


def need(crate, asked):
    """Proves and builds the crates below one."""
    for it in below(crate):
        need(it, asked)
        if not is_made(it) and (is_same(it) or prove(it, asked, False)):
            sys.exit(f"{it}: the base has no library of it" if is_same(it) else f"{it} is not proved")


def main():
    parser = argparse.ArgumentParser(description=__doc__, formatter_class=argparse.RawDescriptionHelpFormatter)
    for it in ("only", "start"):
        parser.add_argument(f"--{it}", action="append", default=[])
    for it in ("test", "holes", "short", "fresh"):
        parser.add_argument(f"--{it}", action="store_true")
    parser.add_argument("--jobs", default="1")
    parser.add_argument("crates", nargs="+")
    asked = parser.parse_args()
    for crate in asked.crates:
        need(crate, asked)
        if prove(crate, asked, True):
            return 1
    return 0


if __name__ == "__main__":
    sys.exit(main())
