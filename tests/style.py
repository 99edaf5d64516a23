#!/usr/bin/env python3
"""Checks how the scripts in Python of tests and tools are written. Each file begins with a docstring, and a function has at most
40 lines. Imports are at the top, one module a line, and each name that is imported is used. `ruff check` finds more, by ruff.toml: if
ruff is not installed, that is skipped, and a line says so. The files of the crates have the layout that `rattle fmt` writes: `rt ci`
asks for it crate by crate, and this test for all in some seconds. A file of src/ that no script wrote has at most 450 lines, and a
clause at most 240 columns. Each finding is a line; the last line counts the files without and with a finding."""
import ast
import re
import shutil
import subprocess

from repository import TOP, files, kit, read, read_crates

LINES = 40  # of a function
FILE_LINES, COLUMNS = 450, 240  # of a file of src/
GENERATED = {"crates/st_aes/src/planes.rt", "crates/st_aes/src/wide_planes.rt", "crates/ilpstream_output/src/explanations.rt"}
FUNCTIONS = (ast.FunctionDef, ast.AsyncFunctionDef)


def imported(tree):
    """The names that a file imports, each with its line."""
    for node in ast.walk(tree):
        if isinstance(node, (ast.Import, ast.ImportFrom)):
            for it in node.names:
                yield (it.asname or it.name).partition(".")[0], node.lineno


def used(tree):
    """The names that a file uses, and those that it offers to others."""
    found = {node.id for node in ast.walk(tree) if isinstance(node, ast.Name)}
    for node in tree.body:
        if isinstance(node, ast.Assign) and ast.unparse(node.targets[0]) == "__all__":
            found.update(ast.literal_eval(node.value))
    return found


def findings(text):
    """What is to be changed in a file, each with its line."""
    try:
        tree = ast.parse(text)
    except SyntaxError as error:
        yield error.lineno, f"it is not Python: {error.msg}"
        return
    if not ast.get_docstring(tree):
        yield 1, "it has no docstring"
    names = used(tree)
    for name, line in imported(tree):
        if name not in names:
            yield line, f"{name} is imported, and not used"
    for node in ast.walk(tree):
        if isinstance(node, FUNCTIONS) and node.end_lineno - node.lineno >= LINES:
            yield node.lineno, f"{node.name} has {node.end_lineno - node.lineno + 1} lines; at most {LINES}"
        if isinstance(node, ast.Import) and len(node.names) > 1:
            yield node.lineno, "more than one module in a line"
        if isinstance(node, (ast.Import, ast.ImportFrom)) and node.col_offset:
            yield node.lineno, "an import within a block"


PLANTED = {
    "import os, sys\n": ["it has no docstring", "more than one module in a line", "os is imported, and not used", "sys is imported, and not used"],
    '"""A."""\ndef long():\n' + "    pass\n" * LINES: [f"long has {LINES + 1} lines; at most {LINES}"],
    '"""A."""\nif 1:\n    import os\n    os.getpid()\n': ["an import within a block"],
    '"""A."""\nimport os\nprint(os)\n': [],
    "if:\n": ["it is not Python: invalid syntax"],
}


def by_ruff():
    """The findings of ruff, by file; none if it is not installed."""
    if not shutil.which("ruff"):
        print("skipped: ruff is not installed")
        return {}
    ran = subprocess.run(["ruff", "check", "--output-format=concise", "."], cwd=TOP, capture_output=True, text=True, timeout=120, check=False)
    found = {}
    for path, rest in re.findall(r"(?m)^(?:\./)?([\w./-]+\.py)(:\d+:\d+: .*)$", ran.stdout):
        found.setdefault(path, []).append(rest)
    return found or ({"ruff.toml": [f": ruff: {ran.stdout}{ran.stderr}"]} if ran.returncode else {})


def out_of_layout():
    """How many files the crates have, and what is said of those that `rattle fmt` would change."""
    paths = [path for crate in read_crates() for part in ("src", "specs", "proofs") for end in ("rt", "antt") for path in files(f"crates/{crate}/{part}/**/*.{end}")]
    ran = subprocess.run([f"{kit()}/bin/rattle", "fmt", "--check", *paths], cwd=TOP, capture_output=True, text=True, timeout=120, check=False)
    found = [it for it in (ran.stdout + ran.stderr).splitlines() if it]
    return len(paths), found if ran.returncode else []


def too_large(path, text):
    """What is too long in a file of src/."""
    lines = text.splitlines()
    if len(lines) > FILE_LINES and path not in GENERATED:
        yield f"{path}: {len(lines)} lines; at most {FILE_LINES}"
    for number, line in enumerate(lines, 1):
        if len(line) > COLUMNS and not line.lstrip().startswith(("ghost use ", "#[tactic(")):
            yield f"{path}:{number}: {len(line)} columns; at most {COLUMNS}"


def sources():
    """How many files of src/ there are, and what is too long in them."""
    paths = files("crates/*/src/**/*.rt")
    return len(paths), [said for path in paths for said in too_large(path, read(path))]


def main():
    for text, wanted in PLANTED.items():
        found = sorted(told for _, told in findings(text))
        if found != wanted:
            print(f"{text!r}: {found} was found, and not {wanted}\n0 passed, 1 failed")
            return 1
    passed = failed = 0
    others = by_ruff()
    for path in files("tests/*.py") + files("tools/*.py"):
        found = [f":{line}: {told}" for line, told in findings(read(path))] + others.pop(path, [])
        print("".join(f"{path}{it}\n" for it in found), end="")
        passed, failed = passed + (not found), failed + bool(found)
    for path, found in others.items():
        print("".join(f"{path}{it}\n" for it in found), end="")
    failed += len(others)
    for number, found in (out_of_layout(), sources()):
        print("".join(f"{it}\n" for it in found), end="")
        passed, failed = passed + number - len(found), failed + len(found)
    print(f"{passed} passed, {failed} failed")
    return 1 if failed else 0


if __name__ == "__main__":
    raise SystemExit(main())
