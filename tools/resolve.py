#!/usr/bin/env python3
"""resolve.py [TOP]: whether all names lead somewhere, without the prover: in a second, over all crates.

- Each `Rattle.CRATE.specs.FILE.{names}` and `.proofs.` leads to a file of a crate that is on the line of crates.txt, or of the crate
  itself, and that file has each name. `declared.MODULE.TYPE` leads to a module of src/ that defines the type.
- Each `use CRATE::{names}` names what that crate's lib.rt passes on, and `crate::module::Name` a module that has the name.
- The lists of lib.rt and Lib.antt have all files and no others; the lines of crates.txt are in their order, each crate once.
Each finding is a line. It reads no types and proves nothing: the front end and the prover come after it."""
import glob
import os
import re
import sys

USE = re.compile(r"\bRattle\.(\w+)\.(specs|proofs)\.([^\s;{}()\[\],]*?)(?:\.\{([^}]*)\}|(?=[\s;)\],}]|$))")
WORD = r"(?<![\w'◌]){}(?![\w'◌])"


def main():
    top = os.path.realpath(sys.argv[1] if len(sys.argv) > 1 else ".")
    os.chdir(top)
    findings = Resolver().run()
    print(*findings, sep="\n", end="\n" * bool(findings))
    print(f"{len(findings)} findings")
    return bool(findings)


def read(path):
    with open(path, encoding="utf-8") as file:
        return file.read()


def names_in(text):
    return [it.strip() for it in text.replace("\n", " ").split(",") if it.strip()]


class Resolver:
    def __init__(self):
        self.findings, self.texts = [], {}
        self.lines = {}
        for line in read("crates.txt").split("\n"):
            head, colon, names = line.partition("#")[0].partition(":")
            if colon:
                self.lines[head.split()[0]] = names.split()
        self.exports = {it: self.exports_of(it) for it in self.lines}

    def text(self, path):
        if path not in self.texts:
            self.texts[path] = read(path) if os.path.isfile(path) else None
        return self.texts[path]

    def say(self, path, what):
        self.findings.append(f"{path}: {what}")

    def exports_of(self, crate):
        path = f"crates/{crate}/src/lib.rt"
        if not os.path.isfile(path):
            return set()
        found = set()
        text = re.sub(r"//[^\n]*", "", read(path))
        for many, one in re.findall(r"pub use [\w:]+?::(?:\{([^}]*)\}|(\w+(?: as \w+)?));", text):
            found |= {it.split(" as ")[-1].split("::")[-1] for it in names_in(many or one)}
        return found | set(re.findall(r"pub (?:fn|struct|enum|trait|const|mod|type) (\w+)", text)) | set(re.findall(r'pub extern "C" fn (\w+)', text))

    def run(self):
        self.order()
        for crate in self.lines:
            self.lists(crate)
            for path in sorted(it for part in ("src", "specs", "proofs") for it in glob.glob(f"crates/{crate}/{part}/**/*", recursive=True)):
                if path.endswith((".rt", ".antt")):
                    self.antt(crate, path)
                if path.endswith(".rt"):
                    self.rust(crate, path)
        return self.findings

    def order(self):
        seen = set()
        for crate, names in self.lines.items():
            if not os.path.isdir(f"crates/{crate}/src"):
                self.say("crates.txt", f"{crate} has no folder")
            for it in names:
                if it in self.lines and it not in seen:
                    self.say("crates.txt", f"{crate} stands above {it}, which comes later")
                if re.match(r"(st|ilpstream|host|test)_", it) and it not in self.lines:
                    self.say("crates.txt", f"{crate} names {it}, which is none")
            if len(names) != len(set(names)):
                self.say("crates.txt", f"{crate} names a crate twice")
            seen.add(crate)
        for path in glob.glob("crates/*/"):
            if path.split("/")[1] not in self.lines:
                self.say("crates.txt", f"{path} has no line")

    def lists(self, crate):
        for part in ("specs", "proofs"):
            listed = set(re.findall(r"(?m)^(?:pub )?mod (\w+)", self.text(f"crates/{crate}/{part}/Lib.antt") or ""))
            there = {os.path.basename(it)[:-5] for it in glob.glob(f"crates/{crate}/{part}/*.antt")} - {"Lib"}
            modules = {os.path.basename(it)[:-3] for it in glob.glob(f"crates/{crate}/src/*.rt")}
            for it in sorted(listed ^ there):
                if it not in modules:
                    self.say(f"crates/{crate}/{part}/Lib.antt", f"{it} is {'not there' if it in listed else 'not listed'}")
        root = next(it for it in (f"crates/{crate}/src/main.rt", f"crates/{crate}/src/lib.rt") if os.path.isfile(it))
        listed = set(re.findall(r"(?m)^(?:pub )?mod (\w+);", self.text(root)))
        there = {os.path.basename(it)[:-3] for it in glob.glob(f"crates/{crate}/src/*.rt")} - {"lib", "main"}
        for it in sorted(listed ^ there):
            self.say(root, f"module {it} is {'not there' if it in listed else 'not listed'}")
        names = re.findall(r"(?m)^pub use (\w+)::(?:\{([^}]*)\}|(\w+));", self.text(root))
        passed = [it.split(" as ")[-1] for _, many, one in names for it in names_in(many or one)]
        for it in sorted({it for it in passed if passed.count(it) > 1}):
            self.say(root, f"{it} is passed on twice")

    def may_name(self, crate, path, other):
        if other != crate and other in self.lines and other not in self.lines[crate]:
            self.say(path, f"names {other}, which is not on the line of {crate}")
            return False
        return other in self.lines

    def antt(self, crate, path):
        text = re.sub(r"(?m)^\s*(?://|--)[^\n]*", "", self.text(path))
        for other, part, rest, names in USE.findall(text):
            if other not in self.lines:
                if re.match(r"(st|ilpstream|host|test)_|refusing|bench", other):
                    self.say(path, f"names {other}, which is none")
                continue
            if self.may_name(crate, path, other):
                self.lead(path, other, part, rest.split("."), names_in(names))

    def lead(self, path, other, part, rest, names):
        whole = f"Rattle.{other}.{part}.{'.'.join(rest)}"
        first = rest[0]
        if os.path.isdir(f"crates/{other}/proofs/{rest[min(1, len(rest) - 1)]}") and first in ("contracts", "RefusingAllocator"):
            return  # (of an impl in the crate's root)
        if part == "specs" and first in ("declared", "contracts"):
            self.module(path, other, rest[1:], whole, first)
            return
        file = self.text(f"crates/{other}/{part}/{first}.antt")
        if file is None:
            if part == "proofs" and (os.path.isdir(f"crates/{other}/proofs/{first}") or os.path.isfile(f"crates/{other}/src/{first}.rt") or re.search(rf"\b{first}\b", self.text(f"crates/{other}/src/lib.rt") or "") or first.startswith(("+", "«", "Types")) or first in self.exports[other]):
                return
            self.say(path, f"{whole} leads to no file")
        elif len(rest) == 1:
            for it in names:
                it = it.split(" as ")[0].strip().removeprefix("type ").strip()
                if not re.search(WORD.format(re.escape(it)), file):
                    self.say(path, f"{whole} has no {it}")

    def module(self, path, other, rest, whole, kind):
        file = self.text(f"crates/{other}/src/{rest[0]}.rt") if rest else None
        if file is None:
            if os.path.isfile(f"crates/{other}/src/lib.rt") and re.search(rf"\b{rest[0] if rest else ''}\b", re.sub(r"//[^\n]*", "", self.text(f"crates/{other}/src/lib.rt"))) and (kind == "contracts" or len(rest) < 2):
                return
            self.say(path, f"{whole} leads to no module")
        elif len(rest) > 1 and rest[1] and rest[1][0].isupper() and not re.search(rf"\b(struct|enum|trait|type) {rest[1]}\b", file) and rest[1] not in ("TheConstants",):
            self.say(path, f"{whole}: the module defines no {rest[1]}")

    def rust(self, crate, path):
        text = re.sub(r"//[^\n]*", "", self.text(path))
        text = re.sub(r"ghost use [^;]*;", "", text)
        text = re.sub(r'"(?:[^"\\]|\\.)*"', '""', text)
        for other, many, one in re.findall(r"(?<![\w:.])([a-z]\w*)::(?:\{([^}]*)\}|(\w+))", text):
            is_module = re.search(rf"\bmod {other};", self.text(f"crates/{crate}/src/lib.rt") or "")
            if other in self.lines and other != crate and not is_module and self.may_name(crate, path, other):
                for it in names_in(many or one):
                    it = it.split(" as ")[0].split("::")[0]
                    if it not in self.exports[other] and it not in ("specs", "proofs"):
                        self.say(path, f"{other} passes on no {it}")
            elif re.match(r"(st|ilpstream|host|test)_", other) and other not in self.lines and not os.path.isfile(f"crates/{crate}/src/{other}.rt"):
                self.say(path, f"names {other}, which is none")
        for module, many, one in re.findall(r"(?<![\w:])crate::(\w+)::(?:\{([^}]*)\}|(\w+))", text):
            if module in ("specs", "proofs"):
                if one and not os.path.isfile(f"crates/{crate}/{module}/{one}.antt") and not os.path.isfile(f"crates/{crate}/src/{one}.rt"):
                    self.say(path, f"crate::{module}::{one} leads to no file")
                continue
            file = next((self.text(it) for it in (f"crates/{crate}/src/{module}.rt",) if os.path.isfile(it)), None)
            if file is None:
                if not re.search(rf"\b(mod|enum|struct|trait) {module}\b", self.text(f"crates/{crate}/src/lib.rt") or "") and module not in self.exports[crate]:
                    self.say(path, f"crate::{module} is no module")
                continue
            for it in names_in(many or one):
                it = it.split(" as ")[0].split("::")[0]
                if it != "self" and not re.search(rf"\b{it}\b", file):
                    self.say(path, f"crate::{module} has no {it}")


if __name__ == "__main__":
    sys.exit(main())
