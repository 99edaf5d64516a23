#!/usr/bin/env python3
"""Compares docs/ERRORS.md, docs/LIMITS.md, docs/CONFORMANCE.md and a table of docs/ARCHITECTURE.md with the sources.

ERRORS: the help of each command ends with the faults that the document has for it. The numbers and the variants of its tables are those of each `number` and `fault_number` in crates/*/specs, the
numbers in brackets those of each `inner`; the reasons of an end, the codes of a hop's Rejects, the statuses of HTTP and the
numbers that calls of the library for C return are those of their definitions. What is in one and not in the other is a
finding.
ARCHITECTURE: the table of lemmas names each crate whose proofs cite another crate's lemmas, with that other crate, and the crates
of the program are those of crates.txt.
LIMITS: the value of each row is that of the constant, or is in the definition, that the row names; and each constant of
the crates below that is a whole number is in a row, or in OTHERS with the reason why it is not a limit.
CONFORMANCE: each name in the last column of a row exists: a definition, a clause, a function with a contract, or a test. A row
that is met, or met otherwise, has a name, and each other row a reason.
README, OPERATING, SECURITY, EMBEDDING: the levels of processors that they name are those for which the scripts build; the version
of GLIBC that they name is the one that the built library, or program, asks for. If neither is built, that is skipped, and a line
says so.
PROOFS: the crates that are trusted are those of the kit that crates.txt names.
LIBRARY: each crate exports what its row has, with the methods, fields and variants, and each of EXPORTING has a row. One of the
crates of each row of the first table exports the names of that row.
All documents but CHANGELOG and COMPARED: a name in code that has `_` or a capital within is in some source, a path in code
leads to a file, and the number of a fault is that of docs/errors.toml.
Each finding is a line; the last line counts what was compared without a finding (tables for the most part), and findings."""
import glob
import os
import re
import shutil
import subprocess
import sys
import tomllib

import repository
import surface
from repository import TOP, files, read

# The name of a crate, by its family.
CRATE = r"\b(?:st|ilpstream|host)_\w+"
CODE = re.compile(r"`([^`]+)`")

# The crates of the tests and of the measurements: what they count is not a limit of the program.
TESTS = re.compile(r"^(bench|bench_aes|test_\w+)$")

# Constants that are not limits, by crate and name.
OTHERS = {
    "numbers of a format": {
        "st_frames": "CONNECTION_CLOSE CONNECTION_NEW_ADDRESS CONNECTION_MAX_DATA CONNECTION_DATA_BLOCKED STREAM_CLOSE "
        "STREAM_MONEY STREAM_MAX_MONEY STREAM_MONEY_BLOCKED STREAM_DATA STREAM_MAX_DATA STREAM_DATA_BLOCKED VERSION",
        "st_hop_books": "HEADER_LEN FRAME_HEADER_LEN VERSION BEGUN LEAST_LEN EMPTY_LEN USED COMMITS LIST "
        "IDENTITY_LEN BEFORE_IDENTITY BEFORE_ADDRESS AFTER_ADDRESS",
        "st_end": "CONDITION",
        "st_ilp": "PREPARE FULFILL REJECT",
        "ilpstream_c": "FULFILL REJECT",
    },
    "places of an array, one more than the streams, or one for each number of a byte": {
        "st_receiver": "PLACES",
        "st_reassembly": "PLACES WORDS",
        "st_world_quiet": "NUMBERS",
        "st_world_parts": "NUMBERS",
        "st_queues": "WRITE_RINGS",
    },
    "numbers of errors of Linux": {"ilpstream_serving": "EMFILE ENFILE"},
    "numbers that calls return": {"host_objects": "DONE IDLE MISUSE ARGUMENT ROOM UNKNOWN ENDED ABORTED ONWARD"},
}


class Count:
    """Counts what was compared without a finding, and the findings, which it prints."""

    def __init__(self):
        self.passed = self.failed = self.before = 0

    def check(self, good, finding):
        if not good:
            self.failed += 1
            print(finding)

    def compared(self):
        """What was checked since the last call was one thing to compare."""
        self.passed += self.failed == self.before
        self.before = self.failed

    def same(self, where, documented, defined, sources):
        """Two mappings or sets that have to be equal, entry by entry."""
        for key in sorted(set(documented) | set(defined), key=str):
            name = " ".join(str(part) for part in key) if isinstance(key, tuple) else str(key)
            if key not in defined:
                self.check(False, f"{where}: {name} is not in {sources}")
            elif key not in documented:
                self.check(False, f"{where}: {name} of {sources} is missing")
            elif isinstance(defined, dict) and documented[key] != defined[key]:
                self.check(False, f"{where}: {name} has {documented[key]}, and {sources} has {defined[key]}")
        self.compared()


# ---- the tables of a document


def tables(path):
    """Each table as its header and its rows, each a list of cells, with the number of its line."""
    found, header = [], None
    for number, line in enumerate(read(path).splitlines(), 1):
        if not line.startswith("|"):
            header = None
            continue
        cells = [cell.strip() for cell in re.split(r"(?<!\\)\|", line.strip().strip("|"))]
        if header is None:
            header = cells
            found.append((header, []))
        elif not all(re.fullmatch(r":?-+:?", cell) for cell in cells):
            found[-1][1].append((number, cells))
    return found


def rows_of(path, first, count):
    """The rows of all tables whose first heading is this one."""
    rows = [row for header, rows in tables(path) if header[0] == first for row in rows]
    count.check(bool(rows), f"{path}: no table begins with '{first}'")
    return rows


def named(cell):
    """The crate and the variant in a cell: `st_oer` `OerError::Short`."""
    words = CODE.findall(cell)
    return (words[0], words[1]) if len(words) > 1 else (cell, "?")


# ---- the definitions of the refusals

DEFINED = re.compile(r"^abbrev pub (number|fault_number|inner) : (?:\{[^}]*\} → )?(\w+)(?: \w+)? → (ℕ|Option ℕ)$", re.M)


def refusals():
    """Of each variant with a number: its number, or whose number it keeps; and whether it carries a number in brackets."""
    numbers, kept, inner = set(), set(), set()
    for path in files("crates/*/specs/*.antt"):
        text = read(path)
        crate = path.split("/")[1]
        types = set(re.findall(rf"^use Rattle\.{crate}\.specs\.declared\.[\w.]*\.\{{(\w+)\}}$", text, re.M))
        for function, kind, _ in DEFINED.findall(text):
            if kind not in types:
                continue
            for pattern, value in re.findall(rf"^{function} (.*?) = (.*)$", text, re.M):
                variant = f"{kind}::{pattern.strip('()').split()[0].split('.')[-1]}"
                if re.fullmatch(r"\d+", value):
                    numbers.add((int(value), crate, variant))
                elif function == "inner" and value.startswith("Some"):
                    inner.add((crate, variant))
                elif function != "inner":
                    kept.add((crate, variant))
    return numbers, kept, inner


def check_numbers(count):
    where, sources = "docs/ERRORS.md", "crates/*/specs"
    numbers, kept, inner = refusals()
    count.check(len(numbers) > 90, f"{sources}: only {len(numbers)} numbers were read")
    rows = rows_of(where, "Number", count)
    documented = [(int(cells[0]), *named(cells[1])) for _, cells in rows]
    count.same(where, set(documented), numbers, sources)
    count.check(documented == sorted(documented), f"{where}: the numbers do not rise")
    count.check(len(documented) == len(set(documented)), f"{where}: a row is there twice")
    for line, cells in rows:
        count.check(len(cells) == 4 and all(cells), f"{where}:{line}: a row without a cause, or without what to do")
    count.compared()
    rows = rows_of(where, "Variant", count)
    count.same(where, {named(cells[0]) for _, cells in rows}, kept, f"{sources} (numbers that are kept)")
    rows = rows_of(where, "Number with brackets", count)
    count.same(where, {named(cells[1]) for _, cells in rows}, inner, f"{sources} (`inner`)")
    own = {(crate, variant): number for number, crate, variant in numbers}
    for line, cells in rows:
        number = own.get(named(cells[1]))
        count.check(cells[0].split("(")[0] == str(number), f"{where}:{line}: {cells[0]}, and the number is {number}")
    count.compared()


def check_names(count):
    """The variants that other tables name with a number: they have that number, or keep it of another."""
    where = "docs/ERRORS.md"
    numbers, kept, _ = refusals()
    for first in ("Fault", "N"):
        for line, cells in rows_of(where, first, count):
            for name in CODE.findall(" ".join(cells[1:])):
                known = {number for number, _, variant in numbers if variant == name}
                number = int(cells[0].split("(")[0])
                count.check(number in known, f"{where}:{line}: {name} has not the number {number}")
        count.compared()


def check_help(count):
    """The end of each command's help: the faults that the document has for it, and the refusals of a line of `frames`."""
    where, path = "docs/ERRORS.md", "crates/ilpstream_words/src/texts.rt"
    text, rows = read(path), rows_of(where, "Fault", count)
    header = next(header for header, _ in tables(where) if header[0] == "Fault")
    documented = {name.strip("`"): [cells[0] for _, cells in rows if cells[place]] for place, name in enumerate(header) if place}
    refused = {cells[0].split("(")[0] for _, cells in rows_of(where, "N", count)}
    last = r"`ilpstream explain N` says what each number means\.\Z"
    helps = dict(re.findall(r'^pub const AFTER_(\w+)_HELP: &str =\s*"((?:[^"\\]|\\.)*)";', text, re.M))
    for command, numbers in documented.items():
        said = re.search(rf"^Faults: ([\d, ]+)\.\n(?:Lines are refused with ([\d, ]+)\.\n)?{last}", helps.get(command.upper(), ""), re.M)
        count.check(said is not None, f"{path}: the help of {command} does not end with its faults")
        if said:
            lines = sorted(refused, key=int) if command == "frames" else []
            count.check(said.group(1).split(", ") == numbers, f"{path}: {command} has the faults {said.group(1)}, and {where} has {numbers}")
            count.check((said.group(2) or "").split(", ") == (lines or [""]), f"{path}: {command} has the refusals {said.group(2)}, and {where} has {lines}")
    count.check(set(helps) == {name.upper() for name in documented}, f"{path}: the commands of {where} are others")
    count.compared()
    rows = tomllib.loads(read("docs/errors.toml"))["row"]
    marked = {row["variant"] for row in rows if row.get("line")}
    named = {CODE.findall(cells[1])[0] for _, cells in rows_of(where, "N", count)}
    count.same(where, named, marked, "docs/errors.toml (`line`)")


def code(text):
    """The three characters of a code that is spelled by their numbers."""
    return "".join(chr(int(number)) for number in re.findall(r"\d+", text))


def check_codes(count):
    where = "docs/ERRORS.md"
    # a hop's own Rejects
    path = "crates/st_hop/specs/Refusals.antt"
    defined = {
        f"Refusal::{pattern.strip('()').split()[0]}": code(text)
        for pattern, text in re.findall(r"^code_of (.*?) = ([\d∷ ]+\[\])", read(path), re.M)
    }
    rows = rows_of(where, "Code of a hop", count)
    count.same(where, {named(cells[1])[1]: cells[0] for _, cells in rows}, defined, path)
    # an end's reasons: those of st_ilp, st_keys and st_receiver but out of memory, and three of its own. A Prepare has neither
    # a message nor a code
    path = "crates/st_end/specs/Receiving.antt"
    text = read(path)
    codes = {name: code(value) for name, value in re.findall(r"^(\w+) = ([\d∷ ]+\[\])$", text, re.M)}
    reasons = read("crates/st_receiver/specs/Reasons.antt")
    codes.update({name: code(value) for name, value in re.findall(r"^(\w+) = ([\d∷ ]+\[\])$", reasons, re.M)})
    defined = {int(reason): codes[name] for name, reason in re.findall(r"\bUnread (\w+) (\d+)", text)}
    defined.update({int(reason): codes["f99"] for reason in re.findall(r"\bRejects p (\d+)", text)})
    numbers = {(crate, variant): number for number, crate, variant in refusals()[0]}
    unread = re.search(r"Unread (\w+) \(ilp\.number fault\)", text)
    for (crate, variant), number in numbers.items():
        if crate == "st_ilp" and variant.split("::")[1] not in ("NotUtf8", "Code", "NoMemory") and unread:
            defined[number] = codes[unread.group(1)]
    for pattern, name in re.findall(r"^code_unopened (.*?) = (?:reasons\.)?(\w+)$", text, re.M):
        variant = pattern.strip("()").split()[0].split(".")[-1]
        if variant != "NoMemory":
            defined[numbers[("st_keys", f"KeyError::{variant}")]] = codes[name]
    for variant, name in re.findall(r"^code_of (\w+) = (\w+)$", reasons, re.M):
        if variant != "NoMemory":
            defined[numbers[("st_receiver", f"Reason::{variant}")]] = codes[name]
    rows = rows_of(where, "Reason", count)
    count.same(where, {int(cells[0]): cells[1] for _, cells in rows}, defined, path)
    # the statuses of HTTP
    path = "crates/st_http/specs/Texts.antt"
    defined = {"200"} | set(re.findall(r"status == (\d{3}) then codes", read(path)))
    defined |= set(re.findall(r"refusal_text (\d{3})", read("crates/st_http/specs/Serves.antt")))
    rows = rows_of(where, "HTTP status", count)
    count.same(where, {cells[0] for _, cells in rows}, defined, path)


def check_calls(count):
    """The numbers that calls of the library for C return, and their names."""
    where, path = "docs/ERRORS.md", "crates/host_objects/specs/Codes.antt"
    defined = {int(number): name.upper() for name, number in re.findall(r"^(\w+) = (\d+)$", read(path), re.M)}
    count.check(len(defined) > 8, f"{path}: only {len(defined)} numbers were read")
    # (those of handles and null pointers, which bind/c/calls.c returns in front of the proved calls)
    header = re.findall(r"^ *ILP_(BUSY|NULL) = (\d+)", read("bind/c/ilpstream.h"), re.M)
    count.check(len(header) == 2, "bind/c/ilpstream.h: the numbers of calls.c were not read")
    defined.update({int(number): name for name, number in header})
    rows = rows_of(where, "Number of a call", count)
    count.same(where, {int(cells[0]): cells[1].strip("`") for _, cells in rows}, defined, path)
    others = {number for number, _, _ in refusals()[0]}
    count.check(not others & set(defined), f"{path}: {sorted(others & set(defined))} are numbers of other refusals")
    for line, cells in rows:
        count.check(len(cells) == 4 and all(cells), f"{where}:{line}: a row without when it comes, or without what to do")
    count.compared()


# ---- lemmas of other crates


def check_lemmas(count):
    """The crates of the repository that cite lemmas of another one: each pair, and how many crates cite any."""
    where, known = "docs/ARCHITECTURE.md", {path.split("/")[1] for path in files("crates/*/src/lib.rt")}
    cited = set()
    for path in files("crates/*/src/**/*.rt") + files("crates/*/specs/**/*.antt") + files("crates/*/proofs/**/*.antt"):
        crate, text = path.split("/")[1], read(path)
        for other in re.findall(r"\bRattle\.(\w+)\.proofs\b", text) + re.findall(r"\b(\w+)::proofs::", text):
            if other in known and other != crate:
                cited.add((other, crate))
    documented = set()
    for line, (below, _, above) in rows_of(where, "Lemmas of", count):
        below, above = re.findall(CRATE, below), re.findall(CRATE, above)
        in_order = "in this order" in read(where).splitlines()[line - 1]
        documented |= set(zip(below, above)) if in_order else {(one, other) for one in below for other in above}
    count.same(where, documented, cited, "crates/*/proofs")
    crates, text = {above for _, above in cited}, " ".join(read(where).split())
    count.check(f"the proofs of {len(crates)} crates cite lemmas" in text, f"{where}: {len(crates)} crates cite lemmas")
    program = repository.with_below("ilpstream", repository.read_crates())
    count.check(f"**The {len(program)} crates of the program**" in text, f"{where}: the program has {len(program)} crates")
    found = re.search(r"\*\*The \d+ crates of the program\*\*.*?(?=\*\*Types and laws)", text)
    count.same(where, set(re.findall(rf"{CRATE}|\bilpstream\b", found.group(0) if found else "")), set(program), "crates.txt (crates of the program)")


# ---- the limits

CONST = re.compile(r"^\s*(?:pub(?:\(\w+\))? )?const (\w+): ([iu](?:8|16|32|64|128|size)) = ([^;]+);", re.M)


def constants():
    """The text of each whole constant, by the path of its source and its name."""
    found = {}
    for path in files("crates/*/src/**/*.rt"):
        if not TESTS.match(path.split("/")[1]):
            for name, _, text in CONST.findall(read(path)):
                found[path, name] = text
    return found


def value_of(text, path, known):
    """The value of an expression of a source, or of a document: digits, + - * <<, powers, and constants."""
    text = re.sub(r"\bas \w+", "", text)
    text = re.sub(r"(?<=\d)[_,](?=\d{3})", "", text).replace("^", "**")
    for name in re.findall(r"[A-Za-z]\w*", text):
        near = [other for other in known if other[1] == name and other[0] == path]
        near = near or [other for other in known if other[1] == name]
        if len(near) != 1:
            return None
        text = re.sub(rf"\b{name}\b", str(value_of(known[near[0]], near[0][0], known)), text)
    if not re.fullmatch(r"[\d\s+\-*()<]+", text):
        return None
    return eval(text, {"__builtins__": {}})  # digits and operators alone


def definition(path, name):
    """The text of a definition: from the line that names it to the next empty one."""
    found = re.search(rf"^(?:\w+ )*(?:abbrev|unfoldable|record|data)? ?(?:pub )?(?:record )?{name}\b.*?(?=^\s*$|\Z)", read(path), re.M | re.S)
    return found.group(0) if found else ""


def stands_in(value, text):
    """Whether a definition has this number, as it is, as a power of two less one, or as the bound below which it stays."""
    numbers = {int(number.replace("_", "")) for number in re.findall(r"(?<![\w^])\d[\d_]*", text)}
    powers = {2 ** int(power) for power in re.findall(r"2 \^ (\d+)", text)}
    return value in numbers or value in powers or value + 1 in powers


def check_limits(count):
    where, known = "docs/LIMITS.md", constants()
    count.check(len(known) > 60, f"crates: only {len(known)} constants were read")
    told = set()
    for header, rows in tables(where):
        if header[0] != "Limit":
            continue
        for line, cells in rows:
            name = CODE.search(cells[3])
            link = re.search(r"\]\(\.\./([^)#]+)\)", cells[3])
            if len(cells) != 5 or not all(cells) or not name or not link:
                count.check(False, f"{where}:{line}: a row without value, unit, constant or source")
                continue
            name, path = name.group(1), link.group(1)
            value = value_of(cells[1], path, known)
            if (path, name) in known:
                told.add((path, name))
                real = value_of(known[path, name], path, known)
                count.check(value == real and value is not None, f"{where}:{line}: {name} is {real}, and the row has {cells[1]}")
            elif os.path.exists(f"{TOP}/{path}"):
                text = definition(path, name)
                count.check(bool(text) and value is not None and stands_in(value, text), f"{where}:{line}: {cells[1]} is not in {name} of {path}")
            else:
                count.check(False, f"{where}:{line}: there is no {path}")
        count.compared()
    others = {(crate, name) for group in OTHERS.values() for crate, names in group.items() for name in names.split()}
    for path, name in known:
        crate = path.split("/")[1]
        count.check((path, name) in told or (crate, name) in others, f"{where}: {name} of {path} is missing")
    for crate, name in others:
        count.check(any(path.split("/")[1] == crate and name == other for path, other in known), f"OTHERS: there is no {name} in {crate}")
    count.compared()


# ---- what the crates export

# The crates that have a row in docs/LIBRARY.md, in its order.
EXPORTING = (
    "st_oer st_ilp st_frames st_aes st_keys st_hop st_reassembly st_sender st_receiver st_end st_world st_queues st_hub st_http st_file "
    "ilpstream"
).split()


def check_exports(count):
    where = "docs/LIBRARY.md"
    rows = rows_of(where, "Crate", count)
    count.same(where, {crate for _, (crate, _) in rows}, set(EXPORTING), "EXPORTING")
    count.check([crate for _, (crate, _) in rows] == EXPORTING, f"{where}: the rows are not in the order of EXPORTING, each once")
    known = 0
    for line, (crate, names) in rows:
        for path in [path for code in CODE.findall(names) for path in surface.paths(code)]:
            known += 1
            count.check(surface.offers(crate, path), f"{where}:{line}: {crate} does not export {path}")
            count.check(not surface.offers(crate, f"{path}_x"), f"{where}:{line}: {path}_x was found in {crate}, and there is none")
        count.compared()
    count.check(known > 420, f"{where}: only {known} names were read")
    for line, cells in rows_of(where, "I want to", count):
        for name in CODE.findall(cells[2]):
            found = any(surface.has(crate, name) for crate in re.findall(r"\w+", cells[1]))
            count.check(found, f"{where}:{line}: {cells[1]} does not export {name}")
        count.compared()


# ---- conformance

STATUSES = {"yes", "otherwise", "no", "host"}
# What the last column has in code besides names.
NO_NAMES = {"send", "receive", "ilpstream", "ilpstream ledger", "/dev/urandom", "/ilp", "Connection: close", "peer."}
DEFINITION = re.compile(rf"({CRATE}): ([A-Z]\w*)\.(\w+)")
FUNCTION = re.compile(rf"({CRATE}): (?:([A-Z]\w*)::)?([a-z]\w*)(?:\.([a-z]\w*))?")
PLACE = re.compile(r"((?:tests|bind|crates|examples)/[\w./-]+)(?:: ([a-z]\w*))?")


def has_definition(crate, file, name):
    path = f"crates/{crate}/specs/{file}.antt"
    words = "(?:(?:abbrev|unfoldable|data|record|pub) )+"
    return os.path.exists(f"{TOP}/{path}") and re.search(rf"^{words}{name}(?!\w)", read(path), re.M) is not None


def has_clause(crate, owner, name, clause):
    """Whether a function has this clause, or any if none is named."""
    for path in files(f"crates/{crate}/src/**/*.rt"):
        text = read(path)
        if owner and not re.search(rf"^impl\b.*\b{owner}\b", text, re.M):
            continue
        for contract in re.findall(rf"\bfn {name}\b(.*?)^ *\{{", text, re.M | re.S):
            if re.search(rf"^ *ensures {clause} \{{" if clause else r"^ *ensures\b", contract, re.M):
                return True
    return False


def has_test(path, name):
    return os.path.isfile(f"{TOP}/{path}") and (not name or re.search(rf"^ *(?:pub )?(?:fn|def) {name}\b", read(path), re.M) is not None)


def exists(name):
    """Whether what a row names is in the repository."""
    for form, has in ((DEFINITION, has_definition), (FUNCTION, has_clause), (PLACE, has_test)):
        found = form.fullmatch(name)
        if found:
            return has(*found.groups())
    return False


def check_conformance(count):
    where = "docs/CONFORMANCE.md"
    for name in ("st_oer: Spelling.octets", "st_hop: settle.settled", "st_end: EndState::new", "tests/edges.py: whole"):
        count.check(exists(name), f"{where}: {name} was not found")
        count.check(not exists(f"{name}_x"), f"{where}: {name}_x was found, and there is none")
    rows, sections = rows_of(where, "Requirement", count), [header for header, _ in tables(where) if header[0] == "Requirement"]
    count.check(len(rows) > 90 and len(sections) == 10, f"{where}: {len(rows)} rows in {len(sections)} tables were read")
    count.compared()
    for line, cells in rows:
        if len(cells) != 4 or not all(cells) or cells[2] not in STATUSES:
            count.check(False, f"{where}:{line}: a row without a requirement, a section, a status or a reason")
            continue
        names = [name for name in CODE.findall(cells[3]) if name not in NO_NAMES]
        for name in names:
            count.check(exists(name), f"{where}:{line}: there is no {name}")
        said = re.sub(r"[\W_]+", "", CODE.sub("", cells[3]))
        count.check(bool(names) if cells[2] in ("yes", "otherwise") else len(said) > 10, f"{where}:{line}: nothing says so")
    count.compared()


# ---- names in code

# The names of std, of the system and of examples.
OF_OTHERS = {"follows_so", "fill_buf", "O_EXCL", "my_program", "delay_exit"}
# Documents about what is gone, and about libraries of others.
ABOUT_OTHERS = {"CHANGELOG.md", "docs/COMPARED.md"}
BUILT = {"out", "built", "target", ".git", "__pycache__"}
NAMED_PATH = re.compile(r"(?<![\w./*$-])(?:tests|docs|crates|bind|tools|examples|bench|share)/[\w.*/-]*[\w*]")


def words_of_sources():
    """Each word of a source, and of the path of a file."""
    found = set()
    for at, folders, names in os.walk(TOP):
        folders[:] = [it for it in folders if it not in BUILT]
        for name in names:
            path = os.path.relpath(f"{at}/{name}", TOP)
            found.update(re.findall(r"\w+", path))
            if not name.endswith((".md", ".pyc")):
                found.update(re.findall(r"\w+", read(path, errors="replace")))
    return found


def lines_of_prose(path):
    """The lines of a document outside of blocks of code, with their numbers."""
    inside = False
    for number, line in enumerate(read(path).splitlines(), 1):
        is_fence = line.lstrip().startswith("```")
        inside = inside != is_fence
        if not inside and not is_fence:
            yield number, line


def check_names_in_code(count):
    known = words_of_sources() | OF_OTHERS
    faults = {row["number"] for row in tomllib.loads(read("docs/errors.toml"))["row"]}
    for where in files("*.md") + files("docs/*.md"):
        if where in ABOUT_OTHERS:
            continue
        for line, text in lines_of_prose(where):
            for code in CODE.findall(text):
                names = {word for word in re.findall(r"\w+", code) if "_" in word.strip("_") or re.search("[a-z][A-Z]", word)}
                for name in sorted(names - known):
                    count.check(False, f"{where}:{line}: {name} is in no source")
                for path in NAMED_PATH.findall(code):
                    is_there = not BUILT.isdisjoint(path.split("/")) or re.search(r"(?:^|/)[A-Z]+(?:/|$|\.edit)", path) or glob.glob(f"{TOP}/{path}")
                    count.check(is_there, f"{where}:{line}: there is no {path}")
            for number in re.findall(r"\bfaults? (\d+)\b", text):
                count.check(int(number) in faults, f"{where}:{line}: no fault has the number {number}")
        count.compared()


# ---- levels of processors, and the C library

PROGRAM, LIBRARY = os.path.relpath(repository.BUILT, TOP), "bind/out/libilpstream.so.0"
LEVEL = r"x86-64-v(\d)"
# What a page says of levels: the sentence about them, and whose levels it names, in their order.
SAID = {
    "README.md": [
        (rf"`\./ilpstream` builds for the processor that it runs on: {LEVEL} \(AVX2[^)]*\), or else {LEVEL}", "program"),
        (rf"The library is built for {LEVEL}", "library"),
    ],
    "docs/OPERATING.md": [(rf"If that host has AVX2, it is built for level {LEVEL} and needs a processor with it; else {LEVEL} is enough", "program")],
    "SECURITY.md": [
        (rf"The tests check the program itself as they build it, for {LEVEL}", "kit"),
        (rf"`\./ilpstream` builds for {LEVEL} if the processor has it", "above"),
    ],
    "docs/EMBEDDING.md": [
        (r"\(version (\d) of the instruction set", "library"),
        (rf"`LEVEL=v3 bind/build` builds for {LEVEL}", "asked"),
    ],
}
GLIBC = re.compile(r"(?:GLIBC|glibc)[ _](\d+\.\d+)|manylinux_(\d+_\d+)")


def flags_of(path):
    """The levels that a script passes on to a compiler, outside of its comments and its texts about itself."""
    text = re.sub(r'""".*?"""|^\s*#.*?$', "", read(path), flags=re.S | re.M)
    return re.findall(rf"(?:--cpu=|-march=){LEVEL}", text)


def levels():
    """The levels for which the kit, the program and the library are built, each list from the highest to the lowest, and those for which
    the library is built if that is asked for."""
    kit = re.findall(rf"asked or '{LEVEL}'", read("tests/timing.py"))
    above = flags_of("tools/build.py")
    library = [*flags_of("bind/archive"), *flags_of("ilpstream"), *flags_of("bind/python/backend.py")]
    return {"kit": kit, "above": above, "program": [*above, *kit], "library": library or kit, "asked": flags_of("bind/build")}


def dump(path, *words):
    """What objdump says of a file; nothing if there is no such file yet, or no objdump."""
    command = ["objdump", *words, f"{TOP}/{path}"]
    return subprocess.run(command, capture_output=True, text=True, check=False, errors="replace").stdout if shutil.which(command[0]) else ""


def check_levels(count):
    known = levels()
    count.check(len(known["kit"]) == len(known["above"]) == 1, f"tools/build.py, tests/timing.py: the levels {known} were read")
    count.check("avx2" in re.findall(r'"(\w+)"', read("tools/build.py").partition("LEVEL_3 = ")[2].partition("}")[0]), "tools/build.py: AVX2 decides no level")
    for where, sentences in SAID.items():
        text = " ".join(read(where).split())
        for words, whose in sentences:
            found = re.findall(words.replace(" ", r"\s"), text)
            count.check(len(found) == 1, f"{where}: {len(found)} sentences are as '{words}'")
            said = [list(it) if isinstance(it, tuple) else [it] for it in found]
            count.check(all(it == known[whose] for it in said), f"{where}: it has the level {said}, and the {whose} is built for {known[whose]}")
        others = set(re.findall(LEVEL, text)) - set(known["program"])
        count.check(not others, f"{where}: nothing is built for the level {sorted(others)}")
        count.compared()


def check_built(count):
    """What the library and the program ask for, if they are built: the C library, and vectors of 32 bytes."""
    for path, pages in ((LIBRARY, ("docs/EMBEDDING.md",)), (PROGRAM, ("README.md", "docs/OPERATING.md", "SECURITY.md"))):
        versions = re.findall(r"\bGLIBC_(\d+)\.(\d+)", dump(path, "-T"))
        if not versions:
            print(f"skipped: without {path}, or objdump, the version of GLIBC in {', '.join(pages)} is not compared")
            continue
        least = ".".join(max(versions, key=lambda it: (int(it[0]), int(it[1]))))
        for where in pages:
            for line, text in lines_of_prose(where):
                for said in ("".join(it).replace("_", ".") for it in GLIBC.findall(text)):
                    count.check(said == least, f"{where}:{line}: GLIBC {said}, and {path} asks for {least}")
        if path == LIBRARY:
            is_wide = "%ymm" in dump(path, "-d", "--no-show-raw-insn")
            count.check(not is_wide or "3" in levels()["library"], f"{pages[0]}: {path} has vectors of 32 bytes, which only x86-64-v3 has")
        count.compared()


# ---- the crates of the kit


def check_trusted(count):
    """The crates of the kit that crates.txt names are those that PROOFS says to be trusted."""
    where, used = "docs/PROOFS.md", set()
    rows = [line.partition("#")[0].partition(":") for line in read("crates.txt").splitlines()]
    ours = {name.split()[0] for name, colon, _ in rows if colon}
    for name, colon, below in rows:
        if colon:
            used.update(set(below.split()) - ours)
    said = set(CODE.findall(read(where).partition("**Trusted.**")[2].partition("The C library")[0])) - {"crates.txt", "sqlite_*"}
    # (`os` is part of the standard library, which no line names; what the kit's crates are built on is in the kit)
    many = {name for name in used if name.startswith("sqlite_")}
    count.check(used - many <= said, f"{where}: {sorted(used - many - said)} of crates.txt are missing among what is trusted")
    numbers = "zero one two three four five six seven eight nine ten eleven twelve thirteen fourteen fifteen".split()
    count.check(f"{numbers[len(many)]} `sqlite_*`" in " ".join(read(where).split()), f"{where}: crates.txt names {len(many)} crates sqlite_*")
    count.compared()


def main():
    count = Count()
    check_numbers(count)
    check_names(count)
    check_help(count)
    check_codes(count)
    check_calls(count)
    check_lemmas(count)
    check_limits(count)
    check_exports(count)
    check_conformance(count)
    check_names_in_code(count)
    check_levels(count)
    check_trusted(count)
    check_built(count)
    print(f"{count.passed} passed, {count.failed} failed")
    return 1 if count.failed else 0


if __name__ == "__main__":
    sys.exit(main())
