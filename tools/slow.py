#!/usr/bin/env python3
"""Prints what took longest in the last check of a crate with `--incremental`, as tools/prove.py makes it.

tools/slow.py CRATE [N]     the N longest gaps, 15 if it is not given, between two files that the check wrote

A check writes a file for each module once it has it, so a gap is the time of the file after it. With several jobs others worked at
the same time, and the time of a function's search is the gap before its `Key`. A module `F.Lts` has what is alive at each way out of F."""
import os
import sys

from crates import TOP


def written(folder):
    """The files below a folder with the times at which they were written, in their order."""
    paths = [f"{at}/{it}" for at, _, names in os.walk(folder) for it in names]
    return sorted((os.stat(it).st_mtime, os.path.basename(it)) for it in paths)


def main(arguments):
    if not arguments:
        sys.exit(__doc__)
    crate, most = arguments[0], int(arguments[1]) if arguments[1:] else 15
    kept = [it for it in (f"{TOP}/crates/{crate}/out/kept", f"{TOP}/crates/{crate}/out/kept-test") if os.path.isdir(it)]
    for folder in kept:
        files = written(folder)
        gaps = sorted(((then - now, name) for (now, _), (then, name) in zip(files, files[1:])), reverse=True)
        for seconds, name in gaps[:most]:
            print(f"{seconds:6.1f} {name.removeprefix(f'Rattle-{crate}-').removesuffix('.oantt')}")
    return 0 if kept else 1


if __name__ == "__main__":
    sys.exit(main(sys.argv[1:]))
