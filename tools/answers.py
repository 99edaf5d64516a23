#!/usr/bin/env python3
"""Answers the goals of functions by `grind`, if the prover's own search takes long.

    BASE=CLONE tools/answers.py CRATE MODULE::FN ..

Under `#![tactic(auto)]` the prover tries `search rules` on a goal, and `grind` if that fails. A search that fails can take seconds.
This script works on a copy of the crate in CRATES/CRATE of a folder of its own, which it names, over the libraries in the clone BASE
(`crates/X/out/rlib`). It lists the goals of each function that have no answer, answers each by `grind (arith, common_steps)`, takes away
the answers that do not hold, and prints how long each module took. What pays is copied manually, once a check from nothing shows it:
the first check with the answers is over kept proofs. HOW=TERM is another answer, ONLY=PATTERN takes goals of these names alone."""
import collections
import os
import re
import shutil
import subprocess
import sys
import tempfile
import time

import crates as repository

BASE, HOW, ONLY = os.environ.get("BASE", ""), os.environ.get("HOW", "grind (arith, common_steps)"), os.environ.get("ONLY", "")
EVERY, AT = repository.read_crates(), repository.kit()
STEPS = "use Rattle.std.proofs.lemmas.Grind.{common_steps}\n"
ARITH = "use Rattle.std.proofs.Common.{arith}\n"


def place(crate):
    return f"{BASE}/crates/{crate}/out/rlib/{crate}.rlib"


def check(crate, folder, kept, *arguments):
    """What a check of a crate's folder prints, and how long it took."""
    words = [f"{AT}/bin/rattle", "check", *repository.words(crate, EVERY, AT, place), "--jobs", "1", "--incremental", kept, *arguments]
    began = time.monotonic()
    done = subprocess.run(words, cwd=folder, stdin=subprocess.DEVNULL, capture_output=True, text=True, check=False)
    return done.stdout + done.stderr, time.monotonic() - began


def path_of(function):
    return f"proofs/{function.replace('::', '/')}/Answers.antt"


def read(path):
    if not os.path.exists(path):
        return ""
    with open(path, encoding="utf-8") as file:
        return file.read()


def write(path, text):
    os.makedirs(os.path.dirname(path), exist_ok=True)
    with open(path, "w", encoding="utf-8") as file:
        file.write(text)


def list_goals(crate, folder, kept, functions):
    """A text for each function that has each of its goals, with a hole for its answer."""
    for function in functions:
        module, name = function.split("::")[0], function.split("::")[-1]
        source = f"{folder}/src/{module}.rt"
        head = rf"^( *)(?:#\[tactic\(auto[^\n]*\)\]\n)?((?: *///[^\n]*\n)* *(?:pub(?:\([^)]*\))? )?fn {name}\b)"
        write(source, re.sub(head, r"\1#[tactic(none)]\n\2", read(source), flags=re.MULTILINE))
        if os.path.exists(f"{folder}/{path_of(function)}"):
            os.remove(f"{folder}/{path_of(function)}")
    _, seconds = check(crate, folder, kept, *[it for one in functions for it in ("--start", one)])
    print(f"goals: {seconds:.0f} seconds")
    return {it: read(f"{folder}/{path_of(it)}") for it in functions}


def answers_of(goals, old):
    """An answer for each goal that has none, by its name."""
    have = set(re.findall(r"^pub (\S+) :", old, re.MULTILINE))
    found = {}
    for name, of, head in re.findall(r"^pub (\S+) : (goal\.\S+)\n(\S+(?: \S+)*?) = \?$", goals, re.MULTILINE):
        if name not in have and re.search(ONLY, name):
            found[name] = f"pub {name} : {of}\n{head} = {HOW}\n"
    return found


def text_with(old, crate, function, answers):
    text = old or f"use Rattle.{crate}.proofs.{function.replace('::', '.')}.Goals as goal\n"
    if "common_steps" not in text:
        text = STEPS + text
    common = re.search(r"^use Rattle\.std\.proofs\.Common\.\{(.*)\}$", text, re.MULTILINE)
    if not common:
        text = ARITH + text
    elif "arith" not in common[1].split(", "):
        text = text[:common.end(1)] + ", arith" + text[common.end(1):]
    return text.rstrip("\n") + "\n\n" + "\n".join(answers.values())


def refused(said, folder, function):
    """The names of the answers of a function in which the check found an error."""
    lines, found = read(f"{folder}/{path_of(function)}").splitlines(), set()
    for number in re.findall(re.escape(path_of(function)) + r":(\d+):\d+: error", said):
        before = [it for it in lines[:int(number)] if it.startswith("pub ")]
        found |= {before[-1].split()[1]} if before else set()
    return found


def times(kept, since, functions):
    """The seconds of each module of these functions that was written since a time."""
    files = sorted((os.stat(f"{at}/{it}").st_mtime, it) for at, _, names in os.walk(kept) for it in names)
    found = {it: collections.Counter() for it in functions}
    for (before, _), (then, name) in zip(files, files[1:]):
        for function in functions:
            part = f"proofs.{function.replace('::', '.')}."
            if then > since and part in name:
                found[function][name.split(part)[1].split(".")[0]] += then - max(before, since)
    return found


def main(arguments):
    if len(arguments) < 2 or not BASE:
        sys.exit(__doc__)
    crate, functions = arguments[0], arguments[1:]
    top = tempfile.mkdtemp()
    folder, holes, kept = f"{top}/{crate}", f"{top}/holes", f"{top}/kept"
    for it in (folder, holes):
        shutil.copytree(f"{repository.TOP}/crates/{crate}", it, ignore=shutil.ignore_patterns("out"))
    if os.path.isdir(f"{BASE}/crates/{crate}/out/kept"):
        shutil.copytree(f"{BASE}/crates/{crate}/out/kept", kept)
    goals = list_goals(crate, holes, kept, functions)
    old = {it: read(f"{folder}/{path_of(it)}") for it in functions}
    answers = {it: answers_of(goals[it], old[it]) for it in functions}
    while any(answers.values()):
        for function, its in answers.items():
            write(f"{folder}/{path_of(function)}", text_with(old[function], crate, function, its) if its else old[function])
        since = time.time()
        said, seconds = check(crate, folder, kept, *[it for one in functions for it in ("--only", one)])
        print(f"{seconds:.0f} seconds:", said.strip().splitlines()[-1])
        for function, spent in times(kept, since, functions).items():
            print(f"    {function}", {part: round(it, 1) for part, it in spent.most_common(4)})
        bad = {it: refused(said, folder, it) & answers[it].keys() for it in functions}
        if not any(bad.values()):
            break
        answers = {it: {name: text for name, text in answers[it].items() if name not in bad[it]} for it in functions}
    print(folder)
    return 0


if __name__ == "__main__":
    sys.exit(main(sys.argv[1:]))
