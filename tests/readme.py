#!/usr/bin/env python3
"""Looks whether what the documents show is so.

Each block ```rust of README, COMMANDS, OPERATING and LIBRARY is, line for line, in a source of the crates, so that what a
reader pastes is what the gate proved and ran. Each block ```c, ```rust and ```python of EMBEDDING, and each block ```c and
```python of README, is in a source of bind/; the commands of EMBEDDING are run by tests/bindings.py.

Each block ```console of them is run. Those of a document are run one after another by one bash, as by a reader who pastes them
in order, in a directory that at first has nothing but `ilpstream` and `try`, the built program (which is on the PATH too), and
the repository's `examples`, `bind` and `README.md`. A line that begins with `$ ` is a command; if it ends with a backslash the next
line goes on with it. All other lines are the output, standard output and standard error together, which is compared with that of
the whole block. A line `...` matches any lines, and a word `...` in a line for any text. A block has to end what it began: no
process may run in the background after it. A document has 120 seconds. Blocks ```sh and ```text are not run.

Each link from a document of the repository to another leads to a file, and to a heading of it if it names one.

`tests/readme.py FILE ..` checks these documents alone. The last line counts the blocks and the documents with good links,
and what is not so."""
import os
import re
import secrets
import shutil
import signal
import subprocess
import sys
import tempfile

from repository import BUILT, TOP, files, read

SHOWING = ["README.md", "docs/COMMANDS.md", "docs/OPERATING.md", "docs/LIBRARY.md"]
EMBEDDING = "docs/EMBEDDING.md"
SECONDS = 120
FENCE = re.compile(r"^(\s*)```(\w*)\s*$")


def blocks(path, language):
    """The blocks of a language in a document, each with the number of its first line."""
    found, begun = [], None
    for number, line in enumerate(read(path).splitlines(), 1):
        fence = FENCE.match(line)
        if fence and begun is None:
            begun = (fence.group(2), number + 1, len(fence.group(1)), [])
        elif fence:
            if begun[0] == language:
                found.append((begun[1], begun[3]))
            begun = None
        elif begun:
            begun[3].append(line[begun[2]:] if line[:begun[2]].isspace() else line)
    return found


# ---- Rattle


def plain(lines):
    """The lines without their indentation and the empty ones, between two line ends."""
    return "\n".join(["", *(line.strip() for line in lines if line.strip()), ""])


def sources(*patterns):
    """The texts of the sources that these patterns name."""
    return [plain(read(path).splitlines()) for pattern in patterns for path in files(pattern)]


def look_at_examples(paths):
    """Whether each block of a language is in a source of it."""
    rattle = sources("crates/*/src/**/*.rt")
    hosts = {
        "c": sources("bind/c/*.c"),
        "rust": sources("bind/rust/examples/*.rs"),
        "python": sources("bind/python/examples/*.py"),
    }
    for path in paths:
        for language, found in (hosts if path == EMBEDDING else {**hosts, "rust": rattle}).items():
            for number, lines in blocks(path, language):
                text = plain(lines)
                good = any(text in source for source in found)
                yield good, f"{path}:{number}: this block is in no source:\n" + "\n".join(lines)


# ---- the shell


def commands_and_output(lines):
    """The commands of a block as a script, and the lines that it has to print."""
    script, wanted, goes_on = [], [], False
    for line in lines:
        if goes_on or line.startswith("$ "):
            script.append(line if goes_on else line[2:])
            goes_on = line.endswith("\\")
        else:
            wanted.append(line)
    return "\n".join(script) + "\n", wanted


def is_line(wanted, came):
    """Whether a line is as wanted, if a word `...` matches any text."""
    pattern = r"(?:(?<=\s)|^)\.\.\.(?=\s|$)"
    return re.fullmatch(".*".join(re.escape(part) for part in re.split(pattern, wanted)), came) is not None


def is_output(wanted, came):
    """Whether lines are as wanted, where a line `...` matches any lines, or none."""
    if not wanted:
        return not came
    if wanted[0].strip() == "...":
        return any(is_output(wanted[1:], came[skipped:]) for skipped in range(len(came) + 1))
    return bool(came) and is_line(wanted[0], came[0]) and is_output(wanted[1:], came[1:])


def run(script, seconds=SECONDS):
    """What a script prints in a directory of its own, and why it was stopped, if it was."""
    room = tempfile.mkdtemp()
    try:
        os.symlink(BUILT, f"{room}/ilpstream")
        os.symlink(BUILT, f"{room}/try")
        os.symlink(f"{TOP}/examples", f"{room}/examples")
        os.symlink(f"{TOP}/README.md", f"{room}/README.md")
        os.symlink(f"{TOP}/bind", f"{room}/bind")
        environment = {**os.environ, "PATH": f"{room}:{os.environ['PATH']}", "LC_ALL": "C.UTF-8"}
        with tempfile.TemporaryFile() as output:
            # (a session of its own: what it starts is in its group, and in no other)
            ran = subprocess.Popen(
                ["bash", "-c", script],
                cwd=room,
                env=environment,
                stdin=subprocess.DEVNULL,
                stdout=output,
                stderr=subprocess.STDOUT,
                start_new_session=True,
            )
            why = ""
            try:
                ran.wait(seconds)
            except subprocess.TimeoutExpired:
                why = f"it did not end within {seconds} seconds"
            try:
                os.killpg(ran.pid, signal.SIGKILL)
            except ProcessLookupError:
                pass
            ran.wait()
            output.seek(0)
            return output.read().decode("utf-8", "replace").splitlines(), why
    finally:
        shutil.rmtree(room, ignore_errors=True)


def run_in_order(scripts, seconds):
    """What each of some scripts prints that one shell runs, and which processes it leaves running: None of those that had not ended
    after the given seconds, and of those after them."""
    mark = secrets.token_hex(16)
    shows = f"printf '\\n%s\\n' {mark}"
    came, _ = run("".join(f"{script}{shows}; jobs -pr; {shows}\n" for script in scripts), seconds)
    parts = [part.splitlines() for part in ("\n".join(came) + "\n").split(f"\n{mark}\n")]
    # (a part that no mark ends is that of a script that has not ended)
    found = [(parts[at], parts[at + 1]) for at in range(0, len(parts) - 2, 2)]
    return found + [None] * (len(scripts) - len(found))


def look_at_commands(paths, seconds=SECONDS):
    """Whether each block of commands prints what is below them, if the blocks of a document are run in order, and leaves
    nothing running."""
    for path in paths:
        found = blocks(path, "console")
        if found and path != EMBEDDING and not os.access(BUILT, os.X_OK):
            yield False, f"{path}: the program was not built, so its blocks were not run"
            continue
        said = [commands_and_output(lines) for _, lines in found]
        ended = run_in_order([script for script, _ in said], seconds)
        for (number, lines), (script, wanted), result in zip(found, said, ended):
            if result is None:
                yield False, f"{path}:{number}: this block, or one before it, did not end: the page has {seconds} seconds"
                continue
            came, left = result
            good = bool(script.strip()) and not left and is_output(wanted, came)
            wrong = f"leaves {len(left)} processes in the background" if left else "has another output"
            yield good, f"{path}:{number}: this block {wrong}:\n" + "\n".join([*lines, "-- it printed:", *came])


# ---- links


def without_code(text):
    """The lines of a document, of which those in blocks of code are empty."""
    inside, lines = False, []
    for line in text.splitlines():
        fence = FENCE.match(line)
        lines.append("" if inside or fence else line)
        inside = inside != bool(fence)
    return lines


def anchors(path):
    """The anchors of a document's headings, as they are made when the document is shown."""
    found = {}
    for line in without_code(read(path)):
        heading = re.match(r"#+ +(.*?)(?: +#+)?$", line)
        if heading:
            text = re.sub(r"!?\[([^\]]*)\]\([^)]*\)", r"\1", heading.group(1)).replace("`", "").lower()
            anchor = re.sub(r"[^\w\- ]", "", text).replace(" ", "-")
            count = found.get(anchor, 0)
            found[anchor] = count + 1
            if count:
                found[f"{anchor}-{count}"] = 1
    return found


def look_at_links(paths):
    """Whether each link of a document leads to a file of the repository, and to a heading there."""
    for path in paths:
        good = True
        for number, line in enumerate(without_code(read(path)), 1):
            for target in re.findall(r"\]\(([^)\s]+)\)", re.sub(r"`[^`]*`", "", line)):
                if re.match(r"[a-z]+:", target):
                    continue
                file, _, anchor = target.partition("#")
                aim = os.path.normpath(os.path.join(os.path.dirname(path), file)) if file else path
                if not os.path.exists(f"{TOP}/{aim}"):
                    good = False
                    yield good, f"{path}:{number}: there is no {aim}"
                elif anchor and aim.endswith(".md") and anchor not in anchors(aim):
                    good = False
                    yield good, f"{path}:{number}: {aim} has no heading #{anchor}"
        if good:
            yield good, ""


def main():
    chosen = [os.path.relpath(os.path.realpath(path), TOP) for path in sys.argv[1:]]
    showing = chosen or [path for path in SHOWING if os.path.exists(f"{TOP}/{path}")]
    linking = chosen or sorted(files("*.md") + files("docs/*.md"))
    passed = failed = 0
    examples = chosen or [*showing, EMBEDDING]
    commands = [path for path in showing if path != EMBEDDING]
    for look in (look_at_examples(examples), look_at_commands(commands), look_at_links(linking)):
        for good, finding in look:
            passed, failed = passed + good, failed + (not good)
            if not good:
                print(finding)
    print(f"{passed} passed, {failed} failed")
    return 1 if failed or not passed else 0


if __name__ == "__main__":
    sys.exit(main())
