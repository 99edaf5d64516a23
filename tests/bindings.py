#!/usr/bin/env python3
"""Checks the bindings for C, Rust and Python: bind/.

The exports of crates/ilpstream_c/src are compared, type by type and field by field, with bind/c/ilpstream.h, with the declarations of
bind/rust and with those of bind/python; the numbers of the header with crates/host_objects, docs/ERRORS.md, bind/rust and
bind/python; bind/c/calls.c with what bind/calls writes for the header. Then one difference is planted in each of them, which the
comparison has to find.

Then bind/archive builds the archive, over what `rt ci` left, or uses the one that is named. What bind/build builds of it is
run: the commands of docs/EMBEDDING.md; the programs in C under valgrind and with sanitizers, one with an allocator that checks, and
one that looks for keys in memory that was given back; what bind/install installs; the tests of bind/rust, also with
AddressSanitizer if the compiler has it, the examples of its documentation and its programs; the examples in the documentation
of bind/python, its wheel, tests/nulls.py and tests/plain.py over it.

tests/bindings.py                builds the archive by bind/archive
tests/bindings.py --look         compares alone, and runs nothing
tests/bindings.py ARCHIVE        takes this archive

ILPSTREAM_HOSTILE says how many hostile inputs each reader is given. Each finding is a line; the last line counts what was good,
and what was not."""
import ctypes
import glob
import hmac
import importlib.machinery
import importlib.util
import os
import re
import shutil
import subprocess
import sys
import tempfile

import readme
from peers import HOST, free_ports
from repository import BUILT, TOP, files, kit, read, read_bytes, write, write_bytes

HEADER, GUARDED, MEMORY = "bind/c/ilpstream.h", "bind/c/calls.c", "bind/c/ilpstream_memory.h"
ERRORS, CODES = "docs/ERRORS.md", "crates/host_objects/src/code.rt"
RUST, PYTHON = "bind/rust/src", "bind/python/ilpstream/_declared.py"
# The numbers that only bind/c/calls.c returns, in front of the proved calls: those of handles and of null pointers.
GUARDS = {"BUSY": 108, "NULL": 109}
# The structs that begin with their size in front of the proved calls, each by its first field there.
SIZED = ("{in_flight: ", "{kind: u32, code: ")
# The places of the version.
VERSIONS = {
    HEADER: r'#define ILP_VERSION "(.*)"',
    "bind/rust/Cargo.toml": r'(?m)^version = "(.*)"',
    "bind/python/pyproject.toml": r'(?m)^version = "(.*)"',
    "bind/python/ilpstream/__init__.py": r'__version__ = "(.*)"',
    "crates/ilpstream_words/src/program.rt": r'VERSION: &str = "(.*)"',
}
SECONDS = 600
# How long the archive may take, of which one crate is proved.
BUILD_SECONDS = 1_500


def sources(pattern):
    return "\n".join(map(read, files(pattern)))


# ---- declarations: of each call, its parameters and what it returns, as texts such as 'u32', '*u8', 'const *u8', 'const u8[32]',
# 'handle' and '*{len: usize, ..}'


def split(text):
    """The parts between commas that are outside brackets."""
    parts, depth, part = [], 0, ""
    for char in text:
        depth += (char in "([{<") - (char in ")]}>")
        if char == "," and depth == 0:
            parts.append(part.strip())
            part = ""
        else:
            part += char
    return [it for it in [*parts, part.strip()] if it]


def rust_structs(text):
    """The structs that cross, each as its fields."""
    pattern = r"#\[repr\(C\)\]\s*(?:#\[.*?\]\s*)*pub(?:\(\w+\))? struct (\w+) \{(.*?)\n\}"
    return {
        name: {
            field: kind
            for field, kind in re.findall(r"^ +(?:pub )?(?:r#)?(\w+): ([^,]+),$", re.sub(r"//.*", "", body), re.M)
        }
        for name, body in re.findall(pattern, text, re.S)
    }


def rust_type(kind, structs):
    """What a type of Rattle or Rust is to C: one parameter, or two if it is a slice. A `Global` has no bytes."""
    def inner(it):
        if it == "Handle":
            return "handle"
        if it in structs:
            fields = (f"{name}: {rust_type(of, structs)[0]}" for name, of in structs[it].items())
            return "{" + ", ".join(fields) + "}"
        array = re.fullmatch(r"\[(\w+); (\d+)\]", it)
        return f"{array[1]}[{array[2]}]" if array else it

    if kind == "Global":
        return []
    slice = re.fullmatch(r"&(mut )?\[(\w+)\]", kind)
    if slice:
        return [("" if slice[1] else "const ") + f"*{inner(slice[2])}", "usize"]
    pointer = re.fullmatch(r"(?:&|\*const |\*)(mut )?(.+)", kind)
    if pointer is None:
        return [inner(kind)]
    of = inner(pointer[2])
    if of == "handle":
        return [of]
    of = of if of.endswith("]") else f"*{of}"
    return [of if pointer[1] else f"const {of}"]


def rust_calls(text, pattern):
    structs = rust_structs(text)
    calls = {}
    for name, parameters, result in re.findall(pattern, text, re.S):
        kinds = [it.split(":", 1)[1].strip() for it in split(parameters)]
        calls[name] = [it for kind in kinds for it in rust_type(kind, structs)] + [result or "void"]
    return calls


def exports(text):
    """The calls that crates/ilpstream_c exports."""
    return rust_calls(text, r'#\[unsafe\(no_mangle\)\]\s*pub extern "C" fn (\w+)\((.*?)\)(?: -> (\w+))?\s*(?=ensures|\{|\n)')


def declared_rust(text):
    blocks = "\n".join(re.findall(r'^unsafe extern "C" \{\n(.*?)^\}', text, re.S | re.M))
    structs = "\n".join(re.findall(r"#\[repr\(C\)\].*?\n\}", text, re.S))
    # (texts are not calls of the archive)
    blocks = re.sub(r"(?m)^.*-> \*const c_char;$", "", blocks)
    return rust_calls(structs + blocks, r"\bfn (ilp_\w+)\((.*?)\)(?:\s+-> (\w+))?;")


C_TYPES = {"uint8_t": "u8", "uint32_t": "u32", "uint64_t": "u64", "int64_t": "i64", "size_t": "usize", "void": "void"}
C_TYPES["ilp_code"] = "u32"


def declared_c(text):
    text = re.sub(r"/\*.*?\*/", "", text, flags=re.S)
    structs = {}

    def of(kind, name):
        """The type of a parameter or field, whose name may have brackets."""
        constant = "const " if "const " in kind else ""
        stars = kind.count("*")
        base = kind.replace("const ", "").replace("*", "").strip()
        array = re.search(r"\[(\d+)\]", name)
        base = C_TYPES.get(base) or structs.get(base) or base
        if base == "handle" or (base == "void" and stars):
            return "handle"
        return f"{constant}{'*' * stars}{base}" + (f"[{array[1]}]" if array else "")

    for body, name in re.findall(r"typedef struct \w+ \{(.*?)\} (\w+);", text, re.S):
        fields = []
        for kind, names in re.findall(r"([\w ]+?[ *]+)((?:\w+(?:\[\d+\])?(?:, )?)+);", body):
            fields += [f"{re.sub(r'.[0-9]+.$', '', it)}: {of(kind, it)}" for it in names.split(", ")]
        structs[name] = "handle" if fields == ["inner: u64"] else "{" + ", ".join(fields) + "}"
    calls = {}
    for result, name, parameters in re.findall(r"^(ilp_code) (ilp_\w+)\((.*?)\);", text, re.S | re.M):
        kinds = (re.fullmatch(r"(.*?[ *]+)(\w+(?:\[\d+\])?)", it, re.S) for it in split(parameters))
        calls[name] = [of(re.sub(r"\s+", " ", it[1]), it[2]) for it in kinds] + [C_TYPES[result]]
    return calls


def declared_python(text):
    """The declarations of ctypes, which say of an array of bytes only that it is read."""
    module = {}
    exec(compile(text, PYTHON, "exec"), module)
    names = {
        ctypes.c_uint8: "u8",
        ctypes.c_uint32: "u32",
        ctypes.c_uint64: "u64",
        ctypes.c_size_t: "u64",
        ctypes.c_int64: "i64",
        ctypes.c_char_p: "const *u8",
        None: "void",
    }

    def of(kind):
        if kind in names:
            return names[kind]
        if kind is module["Handle"]:
            return "handle"
        if issubclass(kind, ctypes.Structure):
            return "{" + ", ".join(f"{name}: {of(field)}" for name, field in kind._fields_) + "}"
        if issubclass(kind, ctypes.Array):
            return f"{of(kind._type_)}[{kind._length_}]"
        to = of(kind._type_)
        return to if to == "handle" else f"*{to}"

    return {name: [of(it) for it in (*parameters, result)] for name, (result, parameters) in module["CALLS"].items()}


def as_python(call):
    """A call as ctypes declares it: arrays as pointers, sizes as numbers of 64 bits, and pointers to structs that are read
    without `const`."""
    kinds = [it.replace("usize", "u64") for it in call]
    kinds = [re.sub(r"^(const )?u8\[\d+\]$", r"\1*u8", it) for it in kinds]
    return [it if it == "const *u8" else it.removeprefix("const ") for it in kinds]


def guarded(call):
    """A call as bind/c/calls.c has it: it always returns a code, and structs that may grow begin with their size."""
    for first in SIZED:
        call = [it.replace(first, "{size: usize, " + first[1:]) for it in call]
    return [*call[:-1], "u32" if call[-1] == "void" else call[-1]]


def allocator(texts):
    """Findings about the functions by which the archive allocates: the kit's crate libc declares them."""
    heap = read(f"{kit()}/rattle/libc/src/heap.rt")
    declared = dict(re.findall(r"fn (rattle_\w+)\((.*?)\)", re.sub(r"//.*", "", heap), re.S))
    # (a Memory has no bytes: nothing is passed for it)
    real = {name: [it.split(":")[1].strip() for it in split(of) if "Memory" not in it] for name, of in declared.items()}
    in_c = {"void *": "*mut u8", "size_t ": "usize"}
    c = dict(re.findall(r"^(?:rattle_tried|void) (rattle_\w+)\((.*?)\);", texts[MEMORY], re.M))
    rust = dict(re.findall(r'extern "C" fn (rattle_\w+)\((.*?)\)', texts["bind/rust"], re.S))
    for name, kinds in real.items():
        given = [in_c.get(re.sub(r"\w+$", "", it)) for it in split(c.get(name, ""))]
        if given != kinds:
            yield f"{MEMORY}: {name} has {given}, and the kit passes {kinds}"
        given = [it.split(":")[1].strip().replace("c_void", "u8") for it in split(rust.get(name, ""))]
        if given != kinds:
            yield f"{RUST}: {name} has {given}, and the kit passes {kinds}"


def versions(texts):
    found = {where: re.search(pattern, texts[where])[1] for where, pattern in VERSIONS.items()}
    if len(set(found.values())) > 1:
        yield f"the version is not one: {found}"


def numbers(texts):
    """Findings about the numbers of the header."""
    header = re.sub(r"/\*.*?\*/", "", texts[HEADER], flags=re.S)
    # (the first enum has the numbers of calls, the others those of roles and of frame types)
    codes = {name: int(it) for name, it in re.findall(r"\bILP_(\w+) = (\d+)", re.search(r"enum \{.*?\};", header, re.S)[0])}
    boundary = {name: int(it) for name, it in re.findall(r"pub const (\w+): u32 = (\d+);", texts[CODES])} | GUARDS
    documented = {int(it) for it in re.findall(r"^\| (\d+) \|", texts[ERRORS], re.M)}
    for name, number in codes.items():
        if number and number not in documented:
            yield f"{ERRORS}: {number}, ILP_{name}, is missing"
        if (number == 0 or number >= 100) and boundary.get(name) != number:
            yield f"{CODES}: {name} is {boundary.get(name)}, and the header has {number}"
    for name in set(boundary) - set(codes):
        yield f"{HEADER}: ILP_{name} is missing"
    enum = re.search(r"class Code\(enum.IntEnum\):.*?\n\n\n", texts["bind/python"], re.S)
    python = {name: int(it) for name, it in re.findall(r"^ +(\w+) = (\d+)$", enum[0] if enum else "", re.M)}
    for name in sorted(set(codes) | set(python)):
        if codes.get(name) != python.get(name):
            yield f"bind/python: Code.{name} is {python.get(name)}, and the header has {codes.get(name)}"
    rust = {int(it) for it in re.findall(r"^ +\w+ = (\d+), \"", texts["bind/rust"], re.M)}
    rust |= {int(it) for it in re.findall(r"const \w+: u32 = (\d+);", texts["bind/rust"])}
    for number in set(codes.values()) - set(GUARDS.values()) ^ rust:
        yield f"bind/rust: the number {number} is in one of the crate and the header alone"


def differences(texts):
    """What is not the same in the declarations, as lines."""
    real = exports(texts["crates/ilpstream_c"])
    if len(real) < 26:
        yield f"crates/ilpstream_c: only {len(real)} exports were read"
    for where, declared, seen in (
        (HEADER, declared_c(texts[HEADER]), guarded),
        (RUST, declared_rust(texts["bind/rust"]), guarded),
        (PYTHON, declared_python(texts[PYTHON]), lambda call: as_python(guarded(call))),
    ):
        for name in sorted(set(real) | set(declared)):
            if name not in declared:
                yield f"{where}: {name} is missing"
            elif name not in real:
                yield f"{where}: {name} is no export"
            elif declared[name] != seen(real[name]):
                yield f"{where}: {name} has {declared[name]}, and the export {seen(real[name])}"
    yield from numbers(texts)
    yield from allocator(texts)
    yield from versions(texts)
    wanted = written_calls(texts[HEADER])
    if texts[GUARDED] != wanted:
        yield f"{GUARDED}: it is not what bind/calls writes for {HEADER}"


def written_calls(header):
    """What bind/calls writes for a header."""
    loader = importlib.machinery.SourceFileLoader("calls", f"{TOP}/bind/calls")
    module = importlib.util.module_from_spec(importlib.util.spec_from_loader("calls", loader))
    loader.exec_module(module)
    return module.written(header)


def all_texts():
    return {
        "crates/ilpstream_c": sources("crates/ilpstream_c/src/**/*.rt"),
        "bind/rust": sources("bind/rust/src/**/*.rs"),
        "bind/python": sources("bind/python/ilpstream/*.py"),
        **{path: read(path) for path in (HEADER, GUARDED, MEMORY, PYTHON, CODES, ERRORS, *VERSIONS)},
    }


# One difference in each, as a text that is there and what replaces it.
PLANTED = [
    (HEADER, "ilp_end_write(ilp_end *end, uint32_t stream", "ilp_end_write(ilp_end *end, uint64_t stream"),
    (HEADER, "    uint32_t reason;\n    uint32_t opened;", "    uint32_t opened;\n    uint32_t reason;"),
    (HEADER, "ILP_ROOM = 103", "ILP_ROOM = 104"),
    ("bind/rust", "fn ilp_end_fault(end: &mut Handle, flight: u64)", "fn ilp_end_fault(end: &mut Handle, flight: u32)"),
    ("bind/rust", "pub claims: u64,", "pub claims: u32,"),
    ("bind/rust", 'Unknown = 104, "', 'Unknown = 105, "'),
    (PYTHON, '"ilp_end_close": (c_uint32, (_handle, c_uint32))', '"ilp_end_close": (c_uint32, (_handle, c_uint64))'),
    (PYTHON, '("limit", c_uint64), ("max_packet", c_uint64)', '("max_packet", c_uint64), ("limit", c_uint64)'),
    ("bind/python", "    IDLE = 100\n", "    IDLE = 99\n"),
    ("crates/ilpstream_c", "fn ilp_hop_abandon(", "fn ilp_hop_give_up("),
    (CODES, "UNKNOWN: u32 = 104", "UNKNOWN: u32 = 110"),
    (GUARDED, "    if (is_missing(bytes, len, sizeof *bytes)) return ILP_NULL;\n", ""),
    (GUARDED, "    wipe_making();\n", ""),
    (HEADER, "    size_t size;\n    size_t in_flight;", "    size_t in_flight;"),
    (MEMORY, "void rattle_dealloc(void *at)", "void rattle_dealloc(void *at, size_t size, size_t align)"),
    ("bind/rust", "fn rattle_dealloc(at: *mut c_void)", "fn rattle_dealloc(at: *mut c_void, _size: usize)"),
    (HEADER, '#define ILP_VERSION "0.1.0"', '#define ILP_VERSION "0.1.1"'),
]


def compare(count):
    texts = all_texts()
    found = list(differences(texts))
    count.add(not found, "\n".join(found))
    for where, old, new in PLANTED:
        if old not in texts[where]:
            count.add(False, f"tests/bindings.py: there is no '{old}' in {where} to plant a difference in")
            continue
        planted = {**texts, where: texts[where].replace(old, new, 1)}
        count.add(set(differences(planted)) - set(found), f"tests/bindings.py: a difference in {where} is not found: {new}")


# ---- runs


class Count:
    def __init__(self):
        self.passed = self.failed = 0

    def add(self, good, finding):
        self.passed += bool(good)
        self.failed += not good
        if not good:
            print(finding, flush=True)

    def run(self, name, words, wanted="", folder=TOP, seconds=SECONDS, **environment):
        """Runs a command, whose output has to have this text, and whose status 0."""
        try:
            ran = subprocess.run(
                words,
                cwd=folder,
                env={**os.environ, **environment},
                stdin=subprocess.DEVNULL,
                stdout=subprocess.PIPE,
                stderr=subprocess.STDOUT,
                text=True,
                errors="replace",
                timeout=seconds,
            )
            output, status = ran.stdout, ran.returncode
        except (OSError, subprocess.TimeoutExpired) as error:
            output, status = str(error), "none"
        good = status == 0 and wanted in output
        self.add(good, f"{name}: status {status}:\n{output[-4000:]}")
        return output if good else None


WHOLE = "1048576 bytes arrived intact; paid 500, credited 500"


ANSWERED = "calls were answered as they should be"


def run_c(count, out, room):
    """The programs of bind/c: as they are, under valgrind, and with the sanitizers that the compiler has."""
    with open(f"{room}/texts.h", "w", encoding="utf-8") as file:
        subprocess.run([f"{TOP}/bind/texts"], stdout=file, check=True)
    run_program(count, out, room, "two_ends", [], WHOLE, ["address,undefined"])
    run_program(count, out, room, "failures", [], "4 causes were reported", ["address,undefined"])
    run_program(count, out, room, "misuse", ["300"], ANSWERED, ["address,undefined", "thread"])
    # (the argument is how many bytes a direction has if valgrind or a sanitizer looks)
    run_program(count, out, room, "lossy", ["9000"], "20 lossy connections delivered", ["address,undefined"])
    # (its own allocator is linked in the place of heap.c; valgrind checks how it is used)
    run_program(count, out, room, "memory", [], "each refused once", ["undefined"], guards=["calls", "about"])
    run_wiped(count, out, room)
    run_installed(count, out, room)


def compiler_words(out):
    flags = ["-std=c11", "-D_GNU_SOURCE", "-O2", "-g", "-Wall", "-Wextra", "-Werror"]
    return [os.environ.get("CC", "cc"), *flags, f"-I{out}", "-pthread"]


def expanded(key):
    """The 60 words of an AES key of 32 bytes (FIPS 197, section 5.2), computed with the field's logarithms."""
    powers = [1]
    for _ in range(254):
        powers.append(powers[-1] ^ (powers[-1] << 1) ^ (0x11B if powers[-1] & 128 else 0))

    def box(it):
        inverse = powers[-powers.index(it) % 255] if it else 0
        return inverse ^ 0x63 ^ sum_of_rotations(inverse)

    words = [key[at : at + 4] for at in range(0, 32, 4)]
    for at in range(8, 60):
        word = words[-1]
        if at % 8 == 0:
            word = bytes(map(box, word[1:] + word[:1]))
            word = bytes([word[0] ^ 1 << (at // 8 - 1), *word[1:]])
        elif at % 8 == 4:
            word = bytes(map(box, word))
        words.append(bytes(a ^ b for a, b in zip(words[-8], word)))
    return b"".join(words)


def sum_of_rotations(it):
    """The rotations of a byte by 1 to 4, added."""
    total = 0
    for by in range(1, 5):
        total ^= (it << by | it >> 8 - by) & 255
    return total


def secret_patterns():
    """A secret, the two keys that are derived of it (RFC 0029, section 4), and the words of the cipher's key in both orders."""
    secret = os.urandom(32)
    keys = [hmac.digest(secret, text, "sha256") for text in (b"ilp_stream_encryption", b"ilp_stream_fulfillment")]
    words = expanded(keys[0])
    turned = b"".join(words[at : at + 4][::-1] for at in range(0, len(words), 4))
    return [it.hex() for it in (secret, *keys, words[:240], turned[:240])]


def run_wiped(count, out, room):
    """What is left of keys in memory, in C; and that the look finds it if an allocator does not overwrite."""
    patterns = secret_patterns()
    source, archive = f"{TOP}/bind/c/wiped.c", f"{out}/libilpstream.a"
    # (once with the C around the archive by the widest instructions that this processor has)
    native = ["-O3", "-march=native", f"-I{room}", *(f"{TOP}/bind/c/{it}.c" for it in ("calls", "heap", "about"))]
    for name, more in (("wiped", []), ("wiped-native", native), ("wiped-plain", ["-DPLAIN"])):
        words = [*compiler_words(out), source, *more, archive, "-Wl,--wrap=free", "-o", f"{room}/{name}"]
        if count.run(f"the build of {name}", words) is None:
            return
    for name in ("wiped", "wiped-native"):
        count.run(name, [f"{room}/{name}", *patterns], "0 after, 0 after ends")
    ran = subprocess.run([f"{room}/wiped-plain", *patterns], capture_output=True, text=True, timeout=SECONDS)
    found = ran.returncode == 1 and "keys are left in memory" in ran.stderr
    count.add(found, f"wiped.c does not find keys in memory that is not overwritten: {ran.stdout}{ran.stderr}")


def run_installed(count, out, room):
    """What bind/install installs is found by pkg-config, linked and run, with the shared library and with the static one."""
    prefix = f"{room}/installed"
    if count.run("bind/install", [f"{TOP}/bind/install", prefix], OUT=out) is None:
        return
    places = {"PKG_CONFIG_PATH": f"{prefix}/lib/pkgconfig", "LD_LIBRARY_PATH": f"{prefix}/lib"}
    flags = [f"-I{prefix}/include", f"-L{prefix}/lib", "-lilpstream"]
    if shutil.which("pkg-config"):
        asked = count.run("pkg-config", ["pkg-config", "--cflags", "--libs", "ilpstream"], "-lilpstream", **places)
        flags = (asked or "").split()
    name = os.environ.get("CC", "cc")
    for kind, more in (("shared", []), ("static", ["-Wl,-Bstatic", "-lilpstream", "-Wl,-Bdynamic"])):
        program = f"{room}/two_ends-{kind}"
        words = [name, "-std=c11", "-D_GNU_SOURCE", "-O2", f"{TOP}/bind/c/two_ends.c", *more, *flags, "-o", program]
        if count.run(f"two_ends.c with the {kind} library", words) is not None:
            count.run(f"two_ends.c with the {kind} library", [program], WHOLE, **places)
    if shutil.which("readelf"):
        count.run("readelf", ["readelf", "-d", f"{prefix}/lib/libilpstream.so"], "[libilpstream.so.0]")


def run_program(count, out, room, name, given, wanted, sanitizers, guards=("calls", "heap", "about")):
    program, words = f"{room}/{name}", compiler_words(out)
    source, archive = f"{TOP}/bind/c/{name}.c", f"{out}/libilpstream.a"
    if count.run(f"the build of {name}.c", [*words, source, archive, "-o", program]) is None:
        return
    count.run(f"{name}.c", [program], wanted)
    if shutil.which("valgrind"):
        # (unless it switches threads by time, valgrind may let one thread run for minutes; and misuse.c continues after a signal in the middle of
        # a read, for which all registers have to be right there)
        flags = ["--quiet", "--fair-sched=try", "--px-default=allregs-at-mem-access", "--error-exitcode=9"]
        flags += ["--leak-check=full", "--errors-for-leak-kinds=definite,possible"]
        count.run(f"{name}.c under valgrind", ["valgrind", *flags, program, *given], wanted)
    for sanitizer in sanitizers:
        sanitized = f"{room}/{name}-{sanitizer}"
        front = [f"{TOP}/bind/c/{it}.c" for it in guards]
        link = [*words, f"-fsanitize={sanitizer}", f"-I{room}", source, *front, archive, "-o", sanitized]
        # (a compiler may not have it)
        if subprocess.run(link, stderr=subprocess.DEVNULL).returncode == 0:
            count.run(f"{name}.c with -fsanitize={sanitizer}", [sanitized, *given], wanted)


class Listening:
    """A program that listens, and says where on its first line of standard error."""

    def __init__(self, words, given=None, output=subprocess.DEVNULL):
        self.process = subprocess.Popen(
            words, stdin=subprocess.PIPE, stdout=output, stderr=subprocess.PIPE, text=True
        )
        if given:
            self.process.stdin.write(given)
        self.process.stdin.close()
        self.address = self.process.stderr.readline().removeprefix("listening on ").strip()

    def end(self, seconds=60):
        """What else it said on standard error."""
        try:
            self.process.wait(seconds)
        except subprocess.TimeoutExpired:
            pass
        self.process.kill()
        return self.process.stderr.read()

    def stop(self):
        self.process.terminate()
        self.process.wait()


def run_chain(count, room, sender):
    """A sender, which is given its arguments, and a connector and a receiver of bind/rust, on one machine."""
    examples, secret = f"{TOP}/bind/rust/target/release/examples", os.urandom(32).hex()
    sent = os.urandom(1 << 20)
    write_bytes(f"{room}/sent", sent)
    with open(f"{room}/got", "wb") as got:
        words = [f"{examples}/receiver", "127.0.0.1:0", "hub-at-bob", secret, "example.bob", "example.alice", "500"]
        receiver = Listening(words, output=got)
        table = f"account 1000 500 alice-at-hub\naccount 0 0 bob-at-hub {receiver.address} hub-at-bob\nroute example.bob 1\n"
        with open(f"{room}/balances", "w") as balances:
            connector = Listening([f"{examples}/connector", "127.0.0.1:0", "example.hub"], table, balances)
            with open(f"{room}/sent", "rb") as source:
                words = sender(connector.address, secret)
                ran = subprocess.run(words, stdin=source, stderr=subprocess.PIPE, text=True, timeout=SECONDS)
            credited = receiver.end()
            connector.stop()
    is_whole = read_bytes(f"{room}/got") == sent
    last = read(f"{room}/balances").splitlines()[-2:]
    wanted = ["account 0 claims 500 dues 0 held 0", "account 1 claims 0 dues 500 held 0"]
    good = is_whole and last == wanted and ran.returncode == 0 and credited.endswith("credited 500\n")
    count.add(good, f"{words[0]} over bind/rust: {ran.returncode}, whole {is_whole}, {last}, {ran.stderr!r}, {credited!r}")


def of_rust(address, secret):
    """The sender of bind/rust."""
    sender = f"{TOP}/bind/rust/target/release/examples/sender"
    return [sender, address, "alice-at-hub", secret, "example.alice", "example.bob", "500"]


def of_program(address, secret):
    """The command `send`."""
    words = f"send --to {address} --token alice-at-hub --secret {secret} --address example.alice --peer example.bob --money 500"
    return [BUILT, *words.split()]


# The tests that valgrind sees: those of refused memory.
VALGRIND = ["memory", "both_ways", "between_ends", "or_not"]
# How many hostile inputs each reader is given under AddressSanitizer, which sees each of them through the same code.
SANITIZED_INPUTS = "20000"
# Two faults that AddressSanitizer has to find: memory that is read after it was freed, and memory that nobody has any more.
FREED = "fn main() { let at = Box::into_raw(Box::new(7)); drop(unsafe { Box::from_raw(at) }); assert_eq!(unsafe { *at }, 7) }"
LOST = "fn main() { for it in 0..100_u64 { std::mem::forget(std::hint::black_box(Box::new([it; 9]))) } }"
FAULTS = ((FREED, "heap-use-after-free"), (LOST, "detected memory leaks"))


def sanitized_target():
    """The target for which the compiler of Rust has the runtime of AddressSanitizer, if it has."""
    asked = (["rustc", "--print", "sysroot"], ["rustc", "-vV"])
    try:
        root, version = (subprocess.run(it, check=True, capture_output=True, text=True).stdout for it in asked)
    except (OSError, subprocess.CalledProcessError):
        return None
    target = re.search(r"(?m)^host: (.+)$", version)[1]
    return target if glob.glob(f"{root.strip()}/lib/rustlib/{target}/lib/librustc*_rt.asan.a") else None


def run_sanitized(count, folder, room, places):
    """All tests in Rust under AddressSanitizer, which also looks for memory that is lost; and that it finds what it is for."""
    target = sanitized_target()
    if target is None:
        return
    # (the flag is one of the nightly compiler, and this variable allows it to every other)
    places = {**places, "RUSTC_BOOTSTRAP": "1"}
    for source, wanted in FAULTS:
        write(f"{room}/planted.rs", source)
        words = ["rustc", "-Zsanitizer=address", "--target", target, f"{room}/planted.rs", "-o", f"{room}/planted"]
        if count.run("a build with AddressSanitizer", words, folder=room, **places) is not None:
            ran = subprocess.run([f"{room}/planted"], capture_output=True, text=True, errors="replace", timeout=SECONDS)
            found = ran.returncode != 0 and wanted in ran.stderr
            count.add(found, f"AddressSanitizer does not find this: {source}\n{ran.stderr[-2000:]}")
    places |= {"RUSTFLAGS": "-Zsanitizer=address", "ILPSTREAM_HOSTILE": SANITIZED_INPUTS}
    words = ["cargo", "test", "--offline", "--release", "--quiet", "--target", target, "--tests"]
    count.run("the tests in Rust with AddressSanitizer", words, "passed", folder, **places)


def run_rust(count, out, room):
    folder, places = f"{TOP}/bind/rust", {"ILPSTREAM_OUT": out}
    tests = count.run("the tests in Rust", ["cargo", "test", "--offline", "--release", "--quiet"], "passed", folder, **places)
    if tests is None:
        return
    for passed in re.findall(r"^test result: ok\. (\d+) passed", tests, re.M):
        count.passed += int(passed)
    words = ["cargo", "build", "--offline", "--release", "--examples"]
    if count.run("the examples in Rust", words, "Finished", folder, **places) is not None:
        run_chain(count, room, of_rust)
        if os.access(BUILT, os.X_OK):
            run_chain(count, room, of_program)
    words = ["cargo", "test", "--offline", "--release", "--no-run", "--test", "suite"]
    built = count.run("the tests in Rust", words, "Executable", folder, **places)
    binary = re.search(r"Executable .*\((.*?)\)", built or "")
    if binary and shutil.which("valgrind"):
        flags = ["--quiet", "--error-exitcode=9", "--leak-check=full", "--errors-for-leak-kinds=definite"]
        words = ["valgrind", *flags, f"{folder}/{binary[1]}", "--test-threads=1", *VALGRIND]
        count.run("tests in Rust under valgrind", words, "passed", folder)
    run_sanitized(count, folder, room, places)
    words = ["cargo", "run", "--offline", "--release", "--quiet", "--", *secret_patterns()]
    count.run("wiped in Rust", words, "0 after, 0 after ends", f"{folder}/wiped", **places, CARGO_TARGET_DIR=f"{room}/wiped-target")
    words = ["cargo", "doc", "--offline", "--no-deps", "--all-features"]
    count.run("the documentation in Rust", words, "Finished", folder, **places, RUSTDOCFLAGS="-D warnings")
    words = ["cargo", "package", "--offline", "--allow-dirty", "--no-verify", "--list"]
    count.run("what a package of the crate has", words, "README.md", folder, **places)


def run_python(count, out):
    folder, places = f"{TOP}/bind/python", {"ILPSTREAM_SO": f"{out}/libilpstream.so", "PYTHONDONTWRITEBYTECODE": "1"}
    look = (
        "import doctest, importlib, pkgutil, sys, ilpstream\n"
        "names = [it.name for it in pkgutil.iter_modules(ilpstream.__path__)]\n"
        "results = [doctest.testmod(importlib.import_module(f'ilpstream.{it}')) for it in names]\n"
        "print(sum(it.attempted for it in results), 'examples')\n"
        "sys.exit(any(it.failed for it in results) or not any(it.attempted for it in results))\n"
    )
    count.run("the examples of the Python module", [sys.executable, "-c", look], "examples", folder, **places)
    count.run("bind/python/tests.py", [sys.executable, f"{folder}/tests.py", out], "OK", folder, **places)
    count.run("tests/nulls.py", [sys.executable, f"{TOP}/tests/nulls.py"], " 0 failed", folder, **places)
    count.run("tests/plain.py", [sys.executable, f"{TOP}/tests/plain.py"], " 0 differences", folder, **places)


def run_wallets(count, out, room):
    """Two wallets of bind/python by asyncio, each of which sends bytes and units to the other over the connector of bind/rust."""
    connector_program = f"{TOP}/bind/rust/target/release/examples/connector"
    if not os.access(connector_program, os.X_OK):
        count.add(False, f"there is no {connector_program} for the wallets")
        return
    alice, bob = (f"{HOST}:{port}" for port in free_ports(2))
    table = (
        f"account 10000 500 alice-at-hub {alice} hub-at-alice\naccount 10000 500 bob-at-hub {bob} hub-at-bob\n"
        "route example.alice 0\nroute example.bob 1\n"
    )
    secret, sent = os.urandom(32).hex(), [os.urandom(300_000), os.urandom(200_000)]
    connector = Listening([connector_program, "127.0.0.1:0", "example.hub"], table)
    places = {**os.environ, "ILPSTREAM_SO": f"{out}/libilpstream.so", "PYTHONPATH": f"{TOP}/bind/python"}
    sides = [
        ["client", alice, "hub-at-alice", connector.address, "alice-at-hub", secret, "example.alice", "example.bob", "70"],
        ["server", bob, "hub-at-bob", connector.address, "bob-at-hub", secret, "example.bob", "example.alice", "30"],
    ]
    processes = []
    for place, words in enumerate(sides):
        write_bytes(f"{room}/wallet-{place}", sent[place])
        with open(f"{room}/wallet-{place}", "rb") as source, open(f"{room}/received-{place}", "wb") as output:
            words = [sys.executable, f"{TOP}/bind/python/examples/wallet.py", *words]
            processes.append(subprocess.Popen(words, stdin=source, stdout=output, stderr=subprocess.PIPE, text=True, env=places))
    ends = []
    for process in processes:
        try:
            ends.append((process.communicate(timeout=120)[1], process.returncode))
        except subprocess.TimeoutExpired:
            process.kill()
            ends.append((process.communicate()[1], "time"))
    connector.stop()
    received = [read_bytes(f"{room}/received-{place}") for place in range(2)]
    good = received == sent[::-1] and ends == [("paid 70, credited 30\n", 0), ("paid 30, credited 70\n", 0)]
    count.add(good, f"the wallets: {[len(it) for it in received]} bytes arrived, {ends}")


def run_level(count, archive, room):
    """LEVEL=v3 marks the shared object, so that the loader refuses it on a processor without that level."""
    words = [f"{TOP}/bind/build", "--archive", archive]
    built = count.run("bind/build for x86-64-v3", words, "libilpstream.so", LEVEL="v3", OUT=f"{room}/v3")
    if built and shutil.which("readelf"):
        count.run("the level of the shared object", ["readelf", "-n", f"{room}/v3/libilpstream.so"], "x86 ISA needed: x86-64-v3")
    refused = subprocess.run(words, env={**os.environ, "LEVEL": "v4"}, capture_output=True, check=False)
    count.add(refused.returncode == 1, "bind/build accepts LEVEL=v4")


def run_document(count):
    """The commands of docs/EMBEDDING.md."""
    for good, finding in readme.look_at_commands([readme.EMBEDDING], SECONDS):
        count.add(good, finding)


def main():
    count = Count()
    compare(count)
    if "--look" not in sys.argv[1:]:
        archive = os.path.realpath(sys.argv[1]) if sys.argv[1:] else f"{TOP}/crates/ilpstream_c/out/libilpstream_c.a"
        room = tempfile.mkdtemp()
        try:
            out = f"{TOP}/bind/out"
            built = sys.argv[1:] or count.run("bind/archive", [f"{TOP}/bind/archive"], "proved", seconds=BUILD_SECONDS)
            if built and count.run("bind/build", [f"{TOP}/bind/build", "--archive", archive], "libilpstream.so"):
                run_c(count, out, room)
                run_rust(count, out, room)
                run_python(count, out)
                run_wallets(count, out, room)
                run_level(count, archive, room)
                run_document(count)
        finally:
            shutil.rmtree(room, ignore_errors=True)
    print(f"{count.passed} passed, {count.failed} failed")
    return 1 if count.failed else 0


if __name__ == "__main__":
    sys.exit(main())
