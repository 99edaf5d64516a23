#!/usr/bin/env python3
"""Tries the wrong bodies of tests/refused/CRATE on copies of the crates: the prover has to refuse each.

`refused.py CRATE ..` tries those of these crates, `refused.py --all` all. The gate calls `refused.py --gate`: it tries those that
break a promise (a line `promise:` says which), and then, for ten minutes of the processor, those of one crate, which follows from
the number of the commit. `refused.py --look` says whether each can be made, and `refused.py --compile [CRATE ..]` whether each
compiles, and proves nothing. It uses the libraries in crates/*/out/rlib that `rt ci` left there.

Edits of different functions are made in one copy, since each function is proved by itself, and these functions alone are proved.
An edit is refused if the prover reports, in the function that it changes, what is not proved. If it reports nothing there,
the edit is tried alone with the whole crate, and is refused if that is not proved, for a cause other than a name that the edit
took away. One that does not compile counts as not refused."""
import concurrent.futures
import os
import re
import shutil
import subprocess
import sys
import tempfile
from dataclasses import dataclass, field

import repository
from repository import TOP, read, write

EDITS = f"{TOP}/tests/refused"
# What the edits of one crate in rotation may take, in seconds of the processor. It is checked between groups of this number of edits.
ROTATION = 600
AT_ONCE = 12
# And the number of those that are compiled at once.
COMPILED_AT_ONCE = 60
REFUSED = "refused"
FUNCTION = re.compile(r"( *)(?:pub(?:\([a-z]+\))? )?(?:const )?(?:unsafe )?(?:extern \"C\" )?fn (\w+)")
IMPL = re.compile(r"( *)(?:unsafe )?impl\b(.*)")
# A proof file names what the edit took away: that says little of the contract.
NAMES = re.compile(r"has no field|is not in scope|has no `|was not admitted")
# A function that no crate has: a check of it alone ends once the crate is compiled.
NONE, HAS_NONE = "no_function_of_this_name", "has no function"
# A limit of the prover, which it meets wherever it checks the same.
LIMITS = re.compile(r"antt ran out of (stack|the (steps|memory) that)|(outgrew the memory limit|stopped at the step limit) \(")


@dataclass
class Edit:
    """A wrong body: the changes of a crate's files, each a text that is there once and the one that is to be there."""

    crate: str
    name: str
    promise: str = ""
    changes: list = field(default_factory=list)
    # of each change, the line of its file at which the text begins
    lines: list = field(default_factory=list)
    # of each change, its file and the first and last line of the function around it
    spans: list = field(default_factory=list)
    # the functions, a method by its type and its name, another by its path below the crate; none if a change is in no function
    functions: list = field(default_factory=list)

    def __str__(self):
        return f"{self.crate}/{self.name}"


def read_edit(crate, name):
    """An edit by its file, or why it cannot be made."""
    found, file, old = Edit(crate, name), "", ""
    for line in read(f"{EDITS}/{crate}/{name}.edit").split("\n"):
        word, _, text = line.partition(":")
        if word == "file":
            file = text.strip()
        elif word == "old":
            old = text.removeprefix(" ")
        elif word == "new":
            found.changes.append((file, old, text.removeprefix(" ")))
        elif word == "promise":
            found.promise = text.strip()
    try:
        texts = {}
        for file, old, new in found.changes:
            was = texts.get(file) or read(f"{TOP}/crates/{crate}/{file}")
            if not old or was.count(old) != 1:
                return None
            found.lines.append(was[: was.index(old)].count("\n"))
            look_around(found, file, was, found.lines[-1])
            texts[file] = was.replace(old, new)
    except OSError:
        return None
    return found if found.changes else None


def look_around(edit, file, text, at):
    """Notes the function around a line of a file, which is in the layout of `rt fmt`."""
    lines = text.split("\n")
    first = next((it for it in range(at, -1, -1) if FUNCTION.match(lines[it])), None)
    if first is None:
        return
    indent, name = FUNCTION.match(lines[first]).groups()
    past = (it for it in range(first, len(lines)) if lines[it] == indent + "}" or it == first and lines[it].endswith("}"))
    last = next(past, first)
    if last < at:
        return
    begin = next(it for it in range(first, -1, -1) if not lines[it - 1].strip().startswith("#["))  # (its attributes)
    edit.spans.append((file, begin + 1, last + 1))
    path = [it for it in file.removeprefix("src/").removesuffix(".rt").split("/") if it not in ("lib", "mod")]
    above = next((it for it in range(first, -1, -1) if IMPL.match(lines[it])), None) if indent else None
    edit.functions.append("::".join([*path, name] if above is None else [type_of(lines[above]), name]))


def type_of(line):
    """How a check names the type of an `impl`, and after it the trait with those of its arguments that are not parameters."""
    text = IMPL.match(line).group(2).replace("->", "").split(" where ")[0].rstrip(" {")
    depth = 0
    for end, character in enumerate(text if text.startswith("<") else ""):
        depth += (character == "<") - (character == ">")
        if depth == 0:
            break
    given, text = (text[1:end], text[end + 1 :]) if text.startswith("<") else ("", text)
    free = {*re.findall(r"(?:^|, )(?:const )?(\w+)", given)}
    trait, is_of, name = text.strip().partition(" for ")
    if not is_of:
        return words_of(trait)[0]
    first, *others = words_of(trait)
    return "".join([words_of(name)[0], first, *[it[0].upper() + it[1:] for it in others if it not in free]])


def words_of(text):
    """The names in a type, each without its path."""
    return re.findall(r"\b\w+\b(?!::)", re.sub(r"'\w+", "", text))


def names_of(crate):
    return sorted(it.removesuffix(".edit") for it in os.listdir(f"{EDITS}/{crate}") if it.endswith(".edit"))


def read_edits(crates):
    """The edits of these crates, and the names of those that cannot be made."""
    found = {f"{crate}/{name}": read_edit(crate, name) for crate in crates for name in names_of(crate)}
    return [it for it in found.values() if it], [name for name, it in found.items() if not it]


def batches(edits, most=AT_ONCE):
    """The edits in groups of at most this number, none of which changes a function twice. One in no function is tried alone."""
    groups = []
    for edit in edits:
        group = next((it for it in groups if len(it) < most and fits(edit, it)), None)
        if group is None:
            groups.append([edit])
        else:
            group.append(edit)
    return groups


def fits(edit, group):
    whole = [it for it in [edit, *group] if not it.functions]
    return not whole and not {*edit.spans} & {span for it in group for span in it.spans}


def write_change(room, file, old, new, line):
    """Makes a change in a copy of a crate, at its line: another edit may have brought the same text elsewhere."""
    lines = read(f"{room}/{file}").split("\n")
    lines[line] = lines[line].replace(old, new, 1)
    write(f"{room}/{file}", "\n".join(lines))


class Prover:
    """Checks copies of one crate, in a folder of its own that keeps what was proved for the next check."""

    def __init__(self, crate):
        self.crate = crate
        every, at = repository.read_crates(), repository.kit()
        self.lacking = repository.lacking(crate, every)
        self.words = [f"{at}/bin/rattle", "check", *repository.words(crate, every, at), "--jobs", "1"]
        # the processor's seconds of all checks
        self.spent = 0.0

    def check(self, edits, kept, only=()):
        """What the prover says of the crate with these edits, and its status."""
        with tempfile.TemporaryDirectory(prefix="rt-edit-") as room:
            for part in ("src", "specs", "proofs"):
                if os.path.isdir(f"{TOP}/crates/{self.crate}/{part}"):
                    shutil.copytree(f"{TOP}/crates/{self.crate}/{part}", f"{room}/{part}")
            for change, line in [it for edit in edits for it in zip(edit.changes, edit.lines)]:
                write_change(room, *change, line)
            words = [*self.words, "--incremental", kept, *[word for name in only for word in ("--only", name)]]
            return self.run(words, room)

    def run(self, words, room):
        with tempfile.TemporaryFile("w+", errors="replace") as output:
            ran = subprocess.Popen(words, cwd=room, stdin=subprocess.DEVNULL, stdout=output, stderr=subprocess.STDOUT)
            _, status, used = os.wait4(ran.pid, 0)
            ran.returncode = os.waitstatus_to_exitcode(status)
            self.spent += used.ru_utime + used.ru_stime
            output.seek(0)
            return output.read().split("\n"), ran.returncode

    def unread(self, group, kept):
        """Those of a group that do not compile."""
        said, _ = self.check(group, kept, [NONE])
        if any(HAS_NONE in it for it in said):
            return []
        found = [it for it in group if is_unread(it, said)] or (group if len(group) == 1 else [])
        rest = [it for it in group if it not in found]
        again = [rest] if found else [[it] for it in rest]
        return found + [bad for it in again if it for bad in self.unread(it, kept)]

    def attempt(self, group, kept, budget=None):
        """The outcome of each edit of a group, by its name. A budget, in seconds of the processor, leaves out some of those that have
        to be tried alone."""
        only = [name for it in group for name in it.functions] if all(it.functions for it in group) else []
        said, status = self.check(group, kept, only)
        if status == 2 and only:
            said, status = self.check(group, kept)
        unread = [it for it in group if is_unread(it, said)]
        if unread:
            rest = [it for it in group if it not in unread]
            return {it.name: "NOT COMPILED" for it in unread} | (self.attempt(rest, kept, budget) if rest else {})
        found = {it.name: REFUSED for it in group if status == 1 and is_reported(it, said)}
        for edit in [it for it in group if it.name not in found]:
            if not budget or self.spent < budget:
                found[edit.name] = REFUSED if is_refused_alone(*self.check([edit], kept)) else "NOT REFUSED"
        return found


def is_unread(edit, said):
    """Whether the compiler refuses what the edit made of a function, before anything is proved."""
    found = [re.match(r"(?:note: )?(?:\./)?(src/\S+?):(\d+):\d+: error\[", it) for it in said]
    return any(it[1] == file and first <= int(it[2]) <= last for it in found if it for file, first, last in edit.spans)


def is_reported(edit, said):
    """Whether the prover reports, in a function that the edit changes, something that it could not prove."""
    for line in said:
        at = re.match(r"(?:note: )?(?:\./)?(src/\S+?):(\d+):\d+: (?:error: )?(?:it is not proved|`search` found no proof)", line)
        if at and any(at[1] == file and first <= int(at[2]) <= last for file, first, last in edit.spans):
            return True
        proof = re.match(r"(?:note: )?(?:\./)?proofs/(\S+)/\w+\.antt:\d+:\d+: error", line)
        if proof and not NAMES.search(line) and any(f"/{proof[1]}".endswith("/" + it.replace("::", "/")) for it in edit.functions):
            return True
    return False


def is_refused_alone(said, status):
    if status == 3:
        return any(LIMITS.search(it) for it in said)
    told = [it for it in said if re.match(r"(note: )?\S+:\d+:\d+:", it)]
    is_judged = status == 1 and any(it.startswith("logic=not-proved") for it in said)
    is_read = not any(re.search(r"\berror\[[\w-]+\]", it) for it in said)
    return is_judged and is_read and any(not NAMES.search(it) for it in told)


@dataclass
class Tried:
    """The outcome of edits."""

    crate: str
    lines: list = field(default_factory=list)
    refused: int = 0
    tried: int = 0
    seconds: float = 0.0


def try_crate(crate, edits, budget=None):
    """Tries edits of one crate. A budget, in seconds of the processor, ends it before the next group."""
    prover, found = Prover(crate), Tried(crate)
    if prover.lacking:
        return Tried(crate, [f"{crate}: {prover.lacking[0]} was not built here: run rt ci"], 0, len(edits))
    with tempfile.TemporaryDirectory(prefix="rt-edit-") as kept:
        for group in batches(edits):
            if budget and prover.spent > budget:
                break
            tried = prover.attempt(group, kept, budget)
            # (at once, so that a run which is stopped has shown what it tried)
            say([f"{crate}/{name}: {what}" for name, what in tried.items()])
            found.refused += [*tried.values()].count(REFUSED)
            found.tried, found.seconds = found.tried + len(tried), prover.spent
    return found


def say(lines):
    """Prints lines together, while other threads print theirs."""
    print("".join(f"{it}\n" for it in lines), end="", flush=True)


def compile_crate(crate, edits):
    """Whether each of some edits of one crate compiles. Nothing is proved."""
    prover, found = Prover(crate), Tried(crate, tried=len(edits))
    if prover.lacking:
        return Tried(crate, [f"{crate}: {prover.lacking[0]} was not built here: run rt ci"], 0, len(edits))
    with tempfile.TemporaryDirectory(prefix="rt-edit-") as kept:
        bad = [it for group in batches(edits, COMPILED_AT_ONCE) for it in prover.unread(group, kept)]
    found.lines = [f"{it}: NOT COMPILED" for it in bad]
    found.refused, found.seconds = len(edits) - len(bad), prover.spent
    return found


def lanes():
    with open("/proc/meminfo", encoding="ascii") as lines:
        free = next(1024 * int(line.split()[1]) for line in lines if line.startswith("MemAvailable:"))
    return max(min(len(os.sched_getaffinity(0)), free // 4_500_000_000), 1)


def try_all(edits, others=(), how=try_crate):
    """Tries edits, crates side by side, those of the highest first, and prints the outcome of each group once it is tried. Before them
    it begins with others, a crate and its edits, for the time of a rotation."""
    order = repository.read_crates()
    by_crate = {crate: [it for it in edits if it.crate == crate] for crate in reversed(order)}
    with concurrent.futures.ThreadPoolExecutor(lanes()) as pool:
        works = [pool.submit(try_crate, *others, budget=ROTATION)] if others else []
        works += [pool.submit(how, crate, found) for crate, found in by_crate.items() if found]
        for work in concurrent.futures.as_completed(works):
            found = work.result()
            say([*found.lines, f"{found.crate}: {found.seconds:.0f} seconds of the processor"])
        tried = [it.result() for it in works]
    return sum(it.refused for it in tried), sum(it.tried for it in tried)


def by_rotation():
    """The crate that the number of the commit gives, and its edits, begun at another one each time that it comes up."""
    ran = subprocess.run(["git", "rev-list", "--count", "HEAD"], cwd=TOP, capture_output=True, text=True)
    number, crates = int(ran.stdout.strip() or 0), sorted(os.listdir(EDITS))
    crate, rounds = crates[number % len(crates)], number // len(crates)
    edits = [it for it in read_edits([crate])[0] if not it.promise]
    begin = rounds * 5 % max(len(edits), 1)
    return crate, edits[begin:] + edits[:begin]


def gate():
    promises = [it for it in read_edits(sorted(os.listdir(EDITS)))[0] if it.promise]
    crate, edits = by_rotation()
    print(f"those that break a promise, and for {ROTATION} seconds those of {crate}, by rotation")
    return try_all(promises, (crate, edits))


def main(arguments):
    every = sorted(os.listdir(EDITS))
    mode = arguments[0] if arguments and arguments[0].startswith("--") else ""
    crates = arguments[1:] if mode else arguments
    if arguments == ["--gate"]:
        passed, tried = gate()
    elif {*crates} <= {*every} and (mode in ("--look", "--compile", "--all") or crates and not mode):
        edits, lost = read_edits(crates or every)
        print(*[f"tests/refused/{it}.edit: one of its old texts is not in its file just once" for it in lost], sep="\n", end="\n" * bool(lost))
        how = compile_crate if mode == "--compile" else try_crate
        passed, tried = (len(edits), len(edits)) if mode == "--look" else try_all(edits, how=how)
        tried += len(lost)
    else:
        print(__doc__, f"Crates: {' '.join(every)}", sep="\n\n", file=sys.stderr)
        return 2
    print(f"{passed} passed, {tried - passed} failed")
    return 0 if tried and passed == tried else 1


if __name__ == "__main__":
    sys.exit(main(sys.argv[1:]))
