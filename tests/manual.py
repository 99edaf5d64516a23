#!/usr/bin/env python3
"""Checks the man page and the completions of share/, and what ./ilpstream --install puts below a prefix. It needs no built
program: the options of each command are read from crates/ilpstream_words, and a script is installed in the program's place.

Each option of a command's help is in its section of the page and in its completions, and there are no others. The shells read
their files: bash here, zsh and fish if they are installed; bash completes some lines. groff or mandoc reads the page without a
warning, if one is installed. Each finding is a line; the last line counts what was checked without one, and findings.

What tools/manual.py writes is compared with the files by tests/generated.py."""
import os
import re
import shutil
import subprocess
import sys
import tempfile

from repository import BUILT, TOP, read, write

PROGRAM = "crates/ilpstream_words/src/program.rt"
PAGE = "share/man/man1/ilpstream.1"
BASH = "share/bash-completion/completions/ilpstream"
ZSH = "share/zsh/site-functions/_ilpstream"
FISH = "share/fish/vendor_completions.d/ilpstream.fish"
RESULTS = []


def check(good, finding):
    RESULTS.append(bool(good))
    if not good:
        print(finding)


def said(words, **how):
    ran = subprocess.run(words, stdin=subprocess.DEVNULL, stdout=subprocess.PIPE, stderr=subprocess.STDOUT, text=True, timeout=60, **how)
    return ran.returncode, ran.stdout


# ---- the options of the help

FUNCTION = re.compile(r"^(?:pub\(crate\) )?fn (\w+)\b.*?^\{\n(.*?)^\}", re.M | re.S)
TEXTS = "crates/ilpstream_words/src/texts.rt"
# An option is made with its name: number(alloc, "hops", ..), with_required(alloc, command, "to", ..).
MADE = re.compile(r'\b(?:number|ranged|option|flag|with_required|with_optional|with_money)\(\s*alloc,\s*(?:command,\s*)?"([\w-]+)"')


def options():
    """The options of each command, by the functions of the source that make it."""
    bodies = dict(FUNCTION.findall(read(PROGRAM)))

    def of(name):
        called = [it for it in re.findall(r"\b(\w+)\(", bodies[name]) if it in bodies and it != name]
        return set(MADE.findall(bodies[name])).union(*(of(it) for it in called))

    def words(name):
        """Those that the end of its help has on a line that begins with a word, as `settle NAME AMOUNT`."""
        after = re.search(rf'^pub const AFTER_{name.upper()}_HELP: &str =\s*"((?:[^"\\]|\\.)*)";', read(TEXTS), re.M)
        return {it for line in re.findall(r"^  [a-z].*$", after.group(1), re.M) for it in re.findall(r"--([a-z][\w-]*)", line)}

    names = re.findall(r"\.with_command\((\w+)\(alloc\)", read(PROGRAM))
    return {name: of(name) | words(name) for name in names}


def documented(name):
    """The options of a command on the page, and in the completions of each shell."""
    page = re.search(rf'^\.SH "{name.upper()}"\n(.*?)(?=^\.SH |\Z)', read(PAGE), re.M | re.S)
    tags = re.findall(r"^\.TP\n\\fB\\-\\-((?:\w|\\-)+)\\fR", page.group(1) if page else "", re.M)
    bash = re.search(rf"^ *{name}\) words='(.*)' ;;$", read(BASH), re.M)
    zsh = re.search(rf"^ *{name}\)\n +_arguments \\\n(.*?)^ *;;$", read(ZSH), re.M | re.S)
    fish = re.findall(rf"'__fish_seen_subcommand_from {name}' .*?-l ([\w-]+)", read(FISH))
    return {
        PAGE: {it.replace("\\", "") for it in tags},
        BASH: {it[2:] for it in (bash.group(1).split() if bash else []) if it.startswith("--")} - {"help"},
        ZSH: set(re.findall(r"'--([\w-]+)", zsh.group(1) if zsh else "")) - {"help"},
        FISH: set(fish) - {"help"},
    }


def look_at_options():
    known = options()
    check(len(known) == 7 and sum(map(len, known.values())) > 35, f"{PROGRAM}: {len(known)} commands with {sum(map(len, known.values()))} options were read")
    for name, wanted in known.items():
        for path, found in documented(name).items():
            lacks, more = sorted(wanted - found), sorted(found - wanted)
            check(not lacks and not more, f"{path}: {name} lacks {lacks}, and has {more} in addition: run tools/manual.py, once docs/COMMANDS.md has them")


# ---- the shells


def look_at_shells():
    for shell, path in (("bash", BASH), ("zsh", ZSH), ("fish", FISH)):
        if shutil.which(shell):
            check(said([shell, "-n", f"{TOP}/{path}"]) == (0, ""), f"{path}: {shell} cannot read it: {said([shell, '-n', f'{TOP}/{path}'])}")


COMPLETE = r"""
source "$1"
COMP_WORDS=("${@:2}")
COMP_CWORD=$((${#COMP_WORDS[@]} - 1))
_ilpstream ilpstream "${COMP_WORDS[COMP_CWORD]}" "${COMP_WORDS[COMP_CWORD - 1]}"
printf '%s\n' "${COMPREPLY[@]}"
"""


def look_at_completions(room):
    for name in ("log one", "log two", "books"):
        write(f"{room}/{name}", "")
    rows = [
        (["s"], ["send"]),
        (["re"], ["receive"]),
        (["send", "--to"], ["--to", "--token", "--token-file", "--totals"]),
        (["connector", "--end"], ["--endless"]),
        (["send", "--log", "log"], ["log one", "log two"]),
        (["send", "--log", "="], ["books", "log one", "log two"]),
        (["send", "--log", "=", "bo"], ["books"]),
        (["send", "--to", ""], []),
        (["ledger", "boo"], ["books"]),
        (["ledger", "books", "se"], ["settle"]),
        (["explain", "--"], ["--help"]),
    ]
    for words, wanted in rows:
        status, came = said(["bash", "-c", COMPLETE, "bash", f"{TOP}/{BASH}", "ilpstream", *words], cwd=room)
        found = sorted(line for line in came.splitlines() if line)
        check(status == 0 and set(wanted) <= set(found) and (len(wanted) > 2 or wanted == found), f"{BASH}: {words} gives {found}, and not {wanted}")


def look_at_page():
    for reader in (["groff", "-ww", "-man", "-Tutf8", "-z"], ["mandoc", "-Tlint", "-Wwarning"]):
        if shutil.which(reader[0]):
            status, came = said([*reader, f"{TOP}/{PAGE}"])
            check(status == 0 and not came, f"{PAGE}: {reader[0]} says {came[:300]}")


# ---- what is installed


def look_at_install(room):
    """A copy of the scripts and texts, with a script as the program that was built."""
    for folder in ("share", "examples", "docs", "tools"):
        shutil.copytree(f"{TOP}/{folder}", f"{room}/top/{folder}")
    for name in ("ilpstream", "README.md", "SECURITY.md", "CHANGELOG.md"):
        shutil.copy(f"{TOP}/{name}", f"{room}/top/{name}")
    os.makedirs(f"{room}/top/{os.path.relpath(os.path.dirname(BUILT), TOP)}")
    script = f"{room}/top/{os.path.relpath(BUILT, TOP)}"
    write(script, "#!/bin/sh\necho it runs: $1\n")
    os.chmod(script, 0o755)
    prefix, staged = "/opt/a & b", f"{room}/staged"
    status, came = said([f"{room}/top/ilpstream", "--install", prefix], env={**os.environ, "DESTDIR": staged})
    check(status == 0, f"--install: status {status}: {came}")
    into = staged + prefix
    there = sorted(f"{prefix}/{os.path.relpath(os.path.join(at, it), into)}" for at, _, names in os.walk(into) for it in names)
    check(there == sorted(came.splitlines()), f"--install says {came}, and wrote {there}")
    for path in (PAGE, BASH, ZSH, FISH, "bin/ilpstream", "share/doc/ilpstream/README.md", "share/doc/ilpstream/docs/COMMANDS.md"):
        check(f"{prefix}/{path}" in there, f"--install: there is no {path}")
    check(said([f"{into}/bin/ilpstream", "--version"]) == (0, "it runs: --version\n"), "the installed program does not run")
    for name in ("connector", "receive"):
        text = read(f"{into}/lib/systemd/system/ilpstream-{name}.service")
        check(f"{prefix}/bin/ilpstream {name}" in text and "/usr/local" not in text, f"the unit of {name} has another program")
    modes = {oct(os.stat(f"{into}/{it}").st_mode & 0o777) for it in ("bin/ilpstream", "share/doc/ilpstream/examples/books/copy")}
    check(modes == {"0o755"}, f"the modes are {modes}")
    for words in ([], ["one", "two"]):
        check(said([f"{room}/top/ilpstream", "--install", *words])[0] == 1, f"--install {words} is not refused")


def main():
    look_at_options()
    look_at_shells()
    look_at_page()
    with tempfile.TemporaryDirectory() as room:
        look_at_completions(room)
    with tempfile.TemporaryDirectory() as room:
        look_at_install(room)
    print(f"{RESULTS.count(True)} passed, {RESULTS.count(False)} failed")
    return 0 if RESULTS and all(RESULTS) else 1


if __name__ == "__main__":
    sys.exit(main())
