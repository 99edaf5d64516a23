#!/usr/bin/env python3
"""Checks the machine code of the cipher, the keys and the hash for what could make its time depend on a secret.

tests/timing.py [PROGRAM] [--cpu=LEVEL]     PROGRAM, compared with tests/timing/NAME.LEVEL.txt; NAME is the program's, LEVEL x86-64-v2
                                            unless it is given. Without PROGRAM: crates/ilpstream/out/ilpstream, as `rt ci` builds
                                            it, and with --cpu= tests/timing/keys.rattle, a program of st_keys alone, which is built
                                            for that level over the libraries that `rt ci` left
tests/timing.py [PROGRAM] [--cpu=LEVEL] --print   prints what there is in the form of the list, with the reasons that it or another has
tests/timing.py --fixtures                  the functions of tests/timing/planted.s: each has to be named for what it has

Secret are the shared secret, the keys, all that is computed of them, the tag that is expected, and the text in the cipher. Not secret
are how long a text is, the payload as sent, whether a tag is right, and what a packet says once its tag was right: its sequence, its
amount, and the kinds, lengths and numbers of its frames.

It checks the functions of st_aes, st_keys and the kit's sha2, and each function that the list names: they hold what the compiler moved
into them. A function that one of them calls is checked too, unless the list explains the call. The check ends at st_frames and st_oer,
which write a packet before it is encrypted and read it once its tag was right, and at std_alloc, which gives memory: each call of one
is in the list, with its reason. A function that calls one of st_aes, st_keys or sha2 has to be in the list, as checked or as
`outside`, with what it calls there and the reason.

Named are each conditional jump, each read or write of memory at a computed place, each division, each repeated instruction that
compares, and each call of what is not a function of the program's own, as `bcmp`, or of a computed place.

A line of the list is a function, an instruction with its registers as r and places in the frame and the program left out, how often
it is there, and why it depends on no secret. A place is computed if it has an index, or if its base comes of arithmetic on
registers, of a read or of a call, on any way to it, also if it was copied or lay in the frame meanwhile.

Into each function that is checked a branch, a read at a place that lay in the frame, a call of `bcmp` and a division are planted,
in what objdump printed: each has to be named. Needs objdump, and for the fixtures cc. Each finding is a line; the last line counts
the lines of the list that are true and what was planted and named, and then the findings."""
import collections
import functools
import os
import re
import shutil
import subprocess
import sys
import tempfile
from dataclasses import dataclass, field

from repository import TOP, kit, read, read_crates, words as words_of

LISTS = f"{TOP}/tests/timing"
PROGRAM = f"{TOP}/crates/ilpstream/out/ilpstream"
# The program of st_keys alone, and the crates that it names.
KEYS, BELOW = "keys", ["st_frames", "st_keys"]
LOOKED_AT = re.compile(r"^(st_aes|st_keys|sha2)::")
CALLS_CHECKED = re.compile(r"^(?:call|jmp) +[0-9a-f]+ <((?:st_aes|st_keys|sha2)::[^>]*)>")
# The crates at which the check ends.
BORDER = re.compile(r"^(st_frames|st_oer|std_alloc)::")
# What has to be there, so that nothing passes unseen because its name changed: one function at least of each crate.
WANTED = ["st_aes::", "st_keys::", "sha2::"]
REGISTER = re.compile(r"%[a-z]+[0-9]*[a-z]*")
WIDE = re.compile(r"%[xyz]mm[0-9]+")
PLACE = re.compile(r"(-?0x[0-9a-f]+)?\(([^)]*)\)")
HEAD = re.compile(r"^([0-9a-f]+) <(.*)>:$")
# What a name says of the types that a function is made for, by a checksum.
TYPES = re.compile(r"::<#[0-9a-f]+>")
CODE = re.compile(r"^ +([0-9a-f]+):\s+(\S.*)$")
# Instructions that set the flags which a jump reads.
FLAGS = re.compile(r"^(cmp|test|add|sub|inc|dec|neg|and|or|xor|sh[lr]|sar|bt|bsf|bsr|[lt]zcnt|popcnt|ptest|vptest|u?comis|vu?comis|adc|sbb|imul|mul)")
ALL = {"al": "rax", "bl": "rbx", "cl": "rcx", "dl": "rdx", "sil": "rsi", "dil": "rdi", "bpl": "rbp", "spl": "rsp"}
ALL |= {"ah": "rax", "bh": "rbx", "ch": "rcx", "dh": "rdx"}
REGISTERS = frozenset({"rax", "rbx", "rcx", "rdx", "rsi", "rdi", "rbp", *(f"r{n}" for n in range(8, 16))})
# What a called function may leave in the registers.
LOST = frozenset({"rax", "rcx", "rdx", "rsi", "rdi", "r8", "r9", "r10", "r11"})
DIVISION = re.compile(r"^(i?div|v?div[ps][sd])")
PREFIXES = re.compile(r"^((?:repn?[ze]?|lock|notrack|bnd|data16|[c-g]s)\s+)+")
# Moves that leave what they move as it was.
COPY = re.compile(r"^(mov|movabs|movz|movs)(b|w|l|q|bl|bw|bq|wl|wq|lq|abs|zbl|sbl)*$")
# One operand, or a fixed one: what a register has stays a place if it was one.
STEP = re.compile(r"^(add|sub|inc|dec|neg|not|and|or|xor|sh[lr]|sar|ro[lr]|bswap|adc|sbb)[bwlq]?$")


@dataclass
class Instruction:
    """An instruction: its address, and the name and the place of what it jumps to or calls."""

    at: int
    mnemonic: str
    operands: str
    goes: int = None
    named: str = ""
    prefix: str = ""


@dataclass
class Function:
    """A function: its name, its address, and its lines as objdump prints them, each an address and a text."""

    name: str
    at: int
    lines: list = field(default_factory=list)

    @functools.cached_property
    def code(self):
        return [read_instruction(int(at, 16), text) for at, text in self.lines]

    def checked_calls(self):
        """The functions of the crates that are checked which it calls, or ends by."""
        return {it[1] for it in (CALLS_CHECKED.search(TYPES.sub("", text)) for _, text in self.lines) if it}


def whole(register):
    """The register of 64 bits that this one is a part of."""
    name = register.lstrip("%")
    if name in ALL:
        return ALL[name]
    if re.fullmatch(r"r[0-9]+[bwd]?", name):
        return name.rstrip("bwd")
    if re.fullmatch(r"e[a-z]{2}", name):
        return "r" + name[1:]
    return name if len(name) > 2 else "r" + name


def read_instruction(at, text):
    """An instruction as objdump prints it."""
    text, _, comment = TYPES.sub("", text).partition("#")
    prefix = PREFIXES.match(text)
    rest = text[prefix.end():] if prefix else text
    mnemonic, _, operands = rest.strip().partition(" ")
    found = Instruction(at, mnemonic, operands.strip(), prefix=prefix[0].strip() if prefix else "")
    target = re.match(r"^([0-9a-f]+) <(.*)>$", found.operands)
    indirect = re.match(r"^ *[0-9a-f]+ <(.*)>$", comment.rstrip())
    if target:
        found.goes, found.named, found.operands = int(target[1], 16), re.sub(r"\+0x[0-9a-f]+$", "", target[2]), ""
    elif found.operands.startswith("*") and indirect:
        found.named = re.sub(r"@.*$", "", indirect[1])
    found.operands = re.sub(r"\s+<.*", "", found.operands)
    return found


def functions(program):
    """The functions of a program, by the place at which each begins."""
    said = subprocess.run(["objdump", "-d", "--no-show-raw-insn", "-C", program], stdout=subprocess.PIPE, text=True, check=True)
    found, last = collections.OrderedDict(), None
    for line in said.stdout.splitlines():
        head, code = HEAD.match(line), CODE.match(line)
        if head:
            last = found[int(head[1], 16)] = Function(TYPES.sub("", head[2]), int(head[1], 16))
        elif code and last:
            last.lines.append((code[1], code[2]))
    return found


def plain(operands, frame):
    """Operands with registers as r and vector registers as v, and places without what depends on the frame."""
    def place(match):
        parts = match[2].split(",")
        base = parts[0].strip()
        kept = "frame" if base in frame else "program" if base == "%rip" else "r" if base else ""
        return "(" + ",".join([kept, *(REGISTER.sub("r", part) for part in parts[1:])]) + ")"

    return REGISTER.sub("r", WIDE.sub("v", PLACE.sub(place, operands)))


def operands_of(text):
    """The operands, the last of which is written."""
    parts, depth, part = [], 0, ""
    for char in text:
        depth += (char == "(") - (char == ")")
        if char == "," and depth == 0:
            parts.append(part)
            part = ""
        else:
            part += char
    return [*parts, part] if part else parts


def is_store(mnemonic, parts, n):
    return n == len(parts) - 1 and len(parts) > 1 and re.match(r"^(v?mov|set|push|pop|v?p?extr)", mnemonic)


def places(it):
    """Its operands in memory, each with `read` or `write`, its base, and whether it has an index. What is read and written counts as
    read."""
    if re.match(r"^(lea|nop|prefetch)", it.mnemonic):
        return []
    parts, found = operands_of(it.operands), []
    for n, part in enumerate(parts):
        place = PLACE.search(part)
        if place:
            inner = [word.strip() for word in place[2].split(",")]
            found.append(("write" if is_store(it.mnemonic, parts, n) else "read", inner[0], len(inner) > 1 and inner[1] != ""))
    return found


def frame_of(code):
    """The registers through which a function reaches its frame: %rbp only if it is set to %rsp."""
    is_base = any(it.mnemonic.startswith("mov") and it.operands.replace(" ", "") == "%rsp,%rbp" for it in code)
    return ("%rsp", "%rbp") if is_base else ("%rsp",)


class Clean:
    """The registers and the places of the frame that hold no computed place, on any way to an instruction."""

    def __init__(self, frame, known=REGISTERS):
        self.frame, self.known = frame, set(known)

    def slot(self, part):
        """The place in the frame that an operand is, without an index."""
        place = PLACE.fullmatch(part)
        return (int(place[1] or "0", 16), place[2]) if place and place[2] in self.frame else None

    def has(self, part):
        """Whether what an operand holds is not a computed place."""
        if part.startswith("$"):
            return True
        if part.startswith("%"):
            return not WIDE.match(part) and (whole(part) == "rsp" or whole(part) in self.known)
        return self.slot(part) in self.known if self.slot(part) else False

    def put(self, name, is_clean):
        (self.known.add if is_clean else self.known.discard)(name)

    def overwrite(self, slot, width, is_clean):
        """`width` bytes of the frame are written."""
        for other in [it for it in self.known if isinstance(it, tuple) and it[1] == slot[1]]:
            if slot[0] - 8 < other[0] < slot[0] + width:
                self.known.discard(other)
        self.put(slot, is_clean)

    def forget(self, base):
        self.known -= {it for it in self.known if isinstance(it, tuple) and it[1] == base}

    def address(self, part):
        """Whether the place that a `lea` gives is fixed relative to one that is clean."""
        place = PLACE.search(part)
        if place is None or "," in place[2]:
            return False
        return place[2] in ("%rip", *self.frame) or self.has(place[2])

    def after(self, it):
        """What holds once this instruction ran."""
        parts = operands_of(it.operands)
        if it.mnemonic.startswith("call"):
            self.known -= LOST
        elif it.mnemonic.startswith(("push", "pop")):
            self.forget("%rsp")
            if it.mnemonic.startswith("pop") and parts:
                self.put(whole(parts[0]), False)
        elif re.match(r"^(i?div|mul|imul|mulx|cpuid|rdtsc)", it.mnemonic) and len(parts) <= 1:
            self.known -= {"rax", "rdx"}
        elif it.mnemonic.startswith(("xchg", "cmpxchg", "xadd")):
            for part in parts if len(set(parts)) > 1 else []:
                if part.startswith("%"):
                    self.put(whole(part), False)
        elif parts and not re.match(r"^(cmp|test|bt[bwlq]?$|j|ret|nop|ptest|vptest|u?comis|vu?comis)", it.mnemonic):
            self.write(it.mnemonic, parts)

    def write(self, mnemonic, parts):
        last = parts[-1]
        if self.slot(last):
            width = {"x": 16, "y": 32, "z": 64}.get(parts[0][1:2], 8) if WIDE.match(parts[0]) else 8
            copies = len(parts) == 2 and COPY.match(mnemonic) and self.has(parts[0])
            steps = STEP.match(mnemonic) and (len(parts) == 1 or parts[0].startswith("$")) and self.has(last)
            self.overwrite(self.slot(last), width, bool(copies or steps))
        elif last.startswith("%") and not WIDE.match(last):
            # (a write of a part leaves the rest)
            is_part = re.fullmatch(r"%([a-d][lh]|[sd]il|[sb]pl|[a-d]x|[sd]i|[sb]p|r[0-9]+[bw])", last)
            self.put(whole(last), self.gives(mnemonic, parts) and (not is_part or whole(last) in self.known))
            if whole(last) == "rsp":
                self.forget("%rsp")

    def gives(self, mnemonic, parts):
        """Whether a register holds no computed place once it is written so."""
        if mnemonic.startswith("lea"):
            return self.address(parts[0])
        if mnemonic.startswith("xor") and len(parts) == 2 and parts[0] == parts[1]:
            return True
        if len(parts) == 2 and COPY.match(mnemonic):
            return self.has(parts[0])
        if mnemonic.startswith("cmov"):
            return self.has(parts[0]) and self.has(parts[-1])
        fixed = len(parts) == 1 or parts[0].startswith("$")
        return bool(STEP.match(mnemonic)) and fixed and self.has(parts[-1])


def next_of(code):
    """For each instruction, the numbers of those that may run next."""
    places = {it.at: n for n, it in enumerate(code)}
    found = []
    for n, it in enumerate(code):
        after = [] if re.match(r"^(jmp|ret|ud2|hlt)", it.mnemonic) else [n + 1]
        if it.mnemonic.startswith(("j", "loop")) and it.goes in places:
            after.append(places[it.goes])
        found.append([it for it in after if it < len(code)])
    return found


def clean_at(code, frame):
    """What holds no computed place before each instruction, on any way to it. Nothing is known if no way is seen."""
    before, following, left = [None] * len(code), next_of(code), []
    if code:
        before[0], left = frozenset(REGISTERS), [0]
    while left:
        n = left.pop()
        state = Clean(frame, before[n])
        state.after(code[n])
        for other in following[n]:
            joined = frozenset(state.known) if before[other] is None else before[other] & state.known
            if joined != before[other]:
                before[other] = joined
                left.append(other)
    return [it or frozenset() for it in before]


def findings(code, own=lambda it: False):
    """What a function has, each with how often. `own` says whether a call is of a function that is checked too."""
    seen, flags, frame = collections.Counter(), "none", frame_of(code)
    for it, known in zip(code, clean_at(code, frame)):
        text = plain(it.operands, frame)
        for how, base, indexed in places(it):
            if indexed or base.startswith("%") and base not in (*frame, "%rip") and whole(base) not in known:
                seen[f"{how} {it.mnemonic} {text}"] += 1
        if it.mnemonic.startswith(("j", "loop")) and not it.mnemonic.startswith("jmp"):
            seen[f"jump {flags}, {it.mnemonic}"] += 1
        elif it.mnemonic.startswith("jmp") and it.operands.startswith("*") and not it.named:
            seen[f"jump to a computed place {text}"] += 1
        if is_call(it, code):
            if not it.named:
                seen[f"call of a computed place {text}"] += 1
            elif not own(it):
                seen[f"call {it.named}"] += 1
        if DIVISION.match(it.mnemonic):
            seen[f"division {it.mnemonic} {text}"] += 1
        if it.prefix.startswith("rep") and it.mnemonic.startswith(("cmps", "scas")):
            seen[f"repeated {it.mnemonic}"] += 1
        if FLAGS.match(it.mnemonic):
            flags = f"{it.mnemonic} {text}"
    return seen


def is_leaving(it, code):
    """Whether a jump ends the function by another one."""
    if not it.mnemonic.startswith("jmp"):
        return False
    return bool(it.named) and not (it.goes is not None and code[0].at <= it.goes <= code[-1].at)


def is_call(it, code):
    return it.mnemonic.startswith("call") or is_leaving(it, code)


def followed(all_functions, lines):
    """The functions that are checked, by name: those by their names, those that the list names, and those that they call."""
    named = {function for function, what in lines if not what.startswith(OUTSIDE)}
    left = [it for it in all_functions.values() if LOOKED_AT.match(it.name) or it.name in named]
    found = collections.OrderedDict()
    while left:
        it = left.pop(0)
        if it.at in found:
            continue
        found[it.at] = it
        for called in it.code:
            if is_call(called, it.code) and (it.name, f"call {called.named}") not in lines:
                if called.goes in all_functions and "::" in called.named and not BORDER.match(called.named):
                    left.append(all_functions[called.goes])
    return found


def callers(all_functions, found):
    """The functions that call one of the crates that are checked, and are not checked themselves, with what they call."""
    around = collections.defaultdict(set)
    for it in all_functions.values():
        if it.at not in found and it.checked_calls():
            around[it.name] |= it.checked_calls()
    return {name: f"{OUTSIDE}: {' '.join(sorted(called))}" for name, called in sorted(around.items())}


def seen_in(found, lines):
    """What the functions that are checked have, by function and instruction."""
    seen = collections.OrderedDict()
    for function in found.values():
        def own(it):
            return it.goes in found and (function.name, f"call {it.named}") not in lines

        seen.setdefault(function.name, collections.Counter()).update(findings(function.code, own))
    return seen


def listed(path):
    """The list's lines, by function and instruction: how often, and why. A line of no instruction means the function itself, and
    `outside` one that is not checked, with those that it calls."""
    lines, function = collections.OrderedDict(), None
    if not os.path.exists(path):
        return lines
    for line in read(path).splitlines():
        if not line.strip() or line.startswith("#"):
            continue
        if not line.startswith(" "):
            function, _, reason = line.strip().partition("  -- ")
            around = re.fullmatch(rf"{OUTSIDE} (.*): (.*)", function)
            lines[(around[1], f"{OUTSIDE}: {around[2]}") if around else (function, "")] = (0, reason.strip())
            continue
        what, _, reason = line.strip().partition("  -- ")
        count, _, what = what.partition(" ")
        lines[(function, what)] = (int(count), reason.strip())
    return lines


# What a line of the list begins with that is on a caller.
OUTSIDE = "outside"
# What is planted, and how it has to be named: a branch, a read at a place that was computed, copied and kept in the frame, a call,
# and a division. (The registers are those that any function may use.)
PLANTED = [
    (["test $0x1,%r11b", "je {next} <it+0x1>"], "jump test $0x1,r, je"),
    (["add %r10,%r11", "mov %r11,%r10", "mov %r10,0x7ff8(%rsp)", "mov 0x7ff8(%rsp),%r10", "movzbl (%r10),%r11d"], "read movzbl (r),r"),
    (["call 0 <bcmp@plt>"], "call bcmp@plt"),
    (["div %r11"], "division div r"),
]


def unseen(function):
    """What is planted in front of a function and not named."""
    lost = []
    for texts, wanted in PLANTED:
        last = function.code[-1]
        code = [*[read_instruction(-1 - n, it.format(next=f"{last.at:x}")) for n, it in enumerate(texts)], *function.code]
        if findings(code)[wanted] <= findings(function.code)[wanted]:
            lost.append(wanted)
    return lost


def built(level, room):
    """The program of st_keys alone, built for this level in a folder over the libraries that `rt ci` left."""
    at, every = kit(), read_crates() | {KEYS: BELOW}
    os.mkdir(f"{room}/src")
    shutil.copy(f"{LISTS}/{KEYS}.rattle", f"{room}/src/main.rt")
    words = [it.replace("src/lib.rt", "src/main.rt") for it in words_of(KEYS, every, at)]
    tools = ["--toolchain", f"{at}/toolchain"]
    for command in (
        [f"{at}/bin/rattle", "build", *words, f"--cpu={level}", *tools, "-o", f"{room}/{KEYS}.o"],
        [f"{at}/bin/rattle-link", "--target", "x86_64-unknown-linux-gnu", *tools, "-o", f"{room}/{KEYS}", f"{room}/{KEYS}.o",
         f"{at}/c/libos_c.a", f"{at}/c/liblibc_c.a"],
    ):
        ran = subprocess.run(command, cwd=room, stdin=subprocess.DEVNULL, stdout=subprocess.PIPE, stderr=subprocess.STDOUT, text=True, check=False)
        if ran.returncode:
            sys.exit(f"{ran.stdout[-2000:]}\ntests/timing/{KEYS}.rattle was not built\n0 passed, 1 failed")
    return f"{room}/{KEYS}"


def print_list(seen, around, lines):
    """Each finding, with the reason that the list has, or another one."""
    others = {it: reason for name in sorted(os.listdir(LISTS)) if name.endswith(".txt") for it, (_, reason) in listed(f"{LISTS}/{name}").items()}

    def reason(*what):
        return lines.get(what, (0, ""))[1] or others.get(what, "")

    for function, what in around.items():
        print(what.replace(OUTSIDE, f"{OUTSIDE} {function}", 1) + f"  -- {reason(function, what)}")
    for function, code in seen.items():
        print(function)
        for what, count in sorted(code.items()):
            print(f"    {count} {what}  -- {reason(function, what)}")


def compare(seen, around, lines):
    """How many lines of the list are true, and what is not."""
    passed, failed = 0, [f"no function of {it} is in the program" for it in WANTED if not any(name.startswith(it) for name in seen)]
    for function, code in seen.items():
        for what, count in code.items():
            times, reason = lines.get((function, what), (0, ""))
            if times == count and reason:
                passed += 1
            else:
                failed.append(f"{function}: {count} times, of which the list explains {times if reason else 0}: {what}")
    for function, what in around.items():
        if lines.get((function, what), (0, ""))[1]:
            passed += 1
        else:
            failed.append(f"{function}: not checked, and not explained by the list: {what}")
    for function, what in lines:
        is_there = around.get(function) == what or (function in seen if what == "" else seen.get(function, {}).get(what))
        if not is_there:
            failed.append(f"{function}: in the list alone: {what}")
    return passed, failed


def fixtures():
    """Whether each function of tests/timing/planted.s is named for what the comment before it says, and for nothing else."""
    with open(f"{LISTS}/planted.s", encoding="utf-8") as source:
        wanted = {name: what for what, name in re.findall(r'^# (.*)\n"([^"]+)":', source.read(), re.M)}
    with tempfile.TemporaryDirectory() as room:
        subprocess.run(["cc", "-nostdlib", "-shared", "-o", f"{room}/planted", f"{LISTS}/planted.s"], check=True)
        seen = seen_in(followed(functions(f"{room}/planted"), {}), {})
    passed = 0
    for name, what in wanted.items():
        found = sorted(seen.get(name, ["not checked"]))
        if "; ".join(found) == what.replace("nothing", ""):
            passed += 1
        else:
            print(f"planted.s: {name} is named for {found}, and has {what}")
    print(f"{passed} passed, {len(wanted) - passed} failed")
    return 1 if passed < len(wanted) or not wanted else 0


def check(program, path, is_printed):
    """Compares a program with its list, or prints what there is."""
    lines, every = listed(path), functions(program)
    found = followed(every, lines)
    seen, around = seen_in(found, lines), callers(every, found)
    if is_printed:
        print_list(seen, around, lines)
        return 0
    passed, failed = compare(seen, around, lines)
    lost = {it.name: unseen(it) for it in found.values() if it.code}
    failed += [f"{name}: planted and not named: {what}" for name, missed in lost.items() for what in missed]
    for line in failed:
        print(line)
    passed += sum(len(PLANTED) - len(missed) for missed in lost.values())
    print(f"{passed} passed, {len(failed)} failed")
    return 1 if failed else 0


def main():
    words = sys.argv[1:]
    if "--fixtures" in words:
        sys.exit(fixtures())
    asked = next((word.partition("=")[2] for word in words if word.startswith("--cpu=")), None)
    level = asked or 'x86-64-v2'
    program = next((word for word in words if not word.startswith("--")), None)
    if program is None and asked:
        with tempfile.TemporaryDirectory(prefix="timing.") as room:
            sys.exit(check(built(level, room), f"{LISTS}/{KEYS}.{level}.txt", "--print" in words))
    program = program or PROGRAM
    if not os.path.exists(program):
        print(f"{os.path.relpath(program, TOP)} is missing: rt ci builds it")
        print("0 passed, 1 failed")
        sys.exit(1)
    sys.exit(check(program, f"{LISTS}/{os.path.basename(program)}.{level}.txt", "--print" in words))


if __name__ == "__main__":
    main()
