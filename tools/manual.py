#!/usr/bin/env python3
"""Writes what docs/COMMANDS.md says of the commands and their options: the man page share/man/man1/ilpstream.1, and completions
for bash, zsh and fish below share/. Run it after a change of docs/COMMANDS.md.

A command is a row of the document's first table, with the section of its name. An option is a row of a table there that begins
with `Option` or `Argument`: `--name`, or `--name VALUE`. A row of a word, as `settle`, is a word that may follow; FILE and FIFO
are files. The page is the whole document, without its links.

With --look it writes nothing and compares with what is there. Each finding is a line; the last line counts the files that are as
it writes them, and those that are not."""
import os
import re
import sys
import textwrap

from crates import TOP, read, write

DOCUMENT = "docs/COMMANDS.md"
SOURCE = "crates/ilpstream_words/src/program.rt"
PAGE = "share/man/man1/ilpstream.1"
BASH = "share/bash-completion/completions/ilpstream"
ZSH = "share/zsh/site-functions/_ilpstream"
FISH = "share/fish/vendor_completions.d/ilpstream.fish"

# Values that are names of files.
FILES = {"FILE", "FIFO"}
# What each command and the program itself know besides: options with their one letter, and the command `help`.
COMMON = [("--help", "-h", "print help")]
OF_PROGRAM = [*COMMON, ("--version", "-V", "print the version")]
HELP = ("help", "printing the help of a command")
# What `tools/install` puts below its PREFIX besides the program.
INSTALLED = [
    ("PREFIX/share/doc/ilpstream", "the documents that this page names, and examples for nginx and logrotate"),
    ("PREFIX/lib/systemd/system", "units for a connector and a receiver: set the addresses in them before they are started"),
]
COLUMNS = 100
CODE = re.compile(r"`([^`]+)`")
LINK = re.compile(r"\[([^\]]*)\]\([^)]*\)")
BY = f"Written by tools/manual.py from {DOCUMENT}."


# ---- the document


def cells(line):
    return [cell.strip() for cell in re.split(r"(?<!\\)\|", line.strip().strip("|"))]


def blocks(lines):
    """The parts of a document: (kind, content). A heading has its level and text, a table its rows of cells, the header first, and
    a paragraph, an item of a list and code their lines."""
    kind, kept, fenced = "", [], False
    for line in [*lines, ""]:
        if fenced or line.lstrip().startswith("```"):
            fence = line.lstrip().startswith("```")
            if not fence:
                kept.append(line)
                continue
            if kept:
                yield kind, kept
            kind, kept, fenced = ("code", [], True) if not fenced else ("", [], False)
            continue
        new = kind_of(line, kind)
        if kept and (new != kind or new == "item" and line.startswith("- ")):
            yield kind, kept
            kept = []
        kind = new
        if new == "heading":
            yield "heading", [len(line) - len(line.lstrip("#")), line.lstrip("# ")]
            kind = ""
        elif new:
            kept.append(line)


def kind_of(line, before):
    """What a line is a part of, after a line of another kind."""
    if not line.strip():
        return ""
    if line.startswith("#"):
        return "heading"
    if line.startswith("|"):
        return "table"
    if line.startswith("- "):
        return "item"
    if before in ("text", "item"):
        return before
    return "code" if line.startswith("    ") else "text"


def rows(lines):
    """The rows of a table, the header first."""
    found = [cells(line) for line in lines]
    return [found[0], *(row for row in found[1:] if not all(re.fullmatch(r":?-+:?", cell) for cell in row))]


def section(name):
    """The parts of the section of a command."""
    found = re.search(rf"^## {name}\n(.*?)(?=^## |\Z)", read(DOCUMENT), re.M | re.S)
    if found is None:
        sys.exit(f"{DOCUMENT}: there is no section {name}")
    return list(blocks(found.group(1).splitlines()))


def plain(text):
    """A text without marks and links."""
    return LINK.sub(r"\1", text).replace("`", "").replace("**", "")


class Command:
    """A command: what it is for, how it is called, and what may follow it."""

    def __init__(self, name, purpose):
        self.name, self.purpose, self.options, self.words, self.has_file = name, purpose, [], [], False
        parts = section(name)
        self.usage = next((lines for kind, lines in parts if kind == "code"), [])
        for kind, lines in parts:
            table = rows(lines) if kind == "table" else [[""]]
            if table[0][0] in ("Option", "Argument"):
                for row in table[1:]:
                    self.argument(row[0], plain(row[1]))

    def argument(self, cell, meaning):
        for name, _, value in (code.partition(" ") for code in CODE.findall(cell)):
            if name.startswith("--"):
                self.options.append((name, value, meaning))
            elif name.islower():
                self.words.append(name)
        self.has_file = self.has_file or cell in FILES


def commands():
    table = next(rows(lines) for kind, lines in blocks(read(DOCUMENT).splitlines()) if kind == "table")
    return [Command(CODE.search(row[0]).group(1), plain(row[-1])) for row in table[1:]]


# ---- the man page


def roff(text, code=False):
    """A text as the page has it."""
    text = text.replace("\\", "\\e").replace("~", "\\(ti").replace("^", "\\(ha").replace("`", "\\(ga").replace("…", "...")
    return text.replace("-", "\\-").replace("'", "\\(aq") if code else text


def inline(text):
    """A text with its code and what is marked in bold."""
    parts = CODE.split(LINK.sub(r"\1", text))
    said = [f"\\fB{roff(part, True)}\\fR" if at % 2 else re.sub(r"\*\*(.+?)\*\*", r"\\fB\1\\fR", roff(part)) for at, part in enumerate(parts)]
    return "".join(said)


def filled(text):
    """Lines of a text, none of which begins as a request does."""
    lines = textwrap.wrap(text, COLUMNS, break_long_words=False, break_on_hyphens=False)
    return [f"\\&{line}" if line[0] in ".'" else line for line in lines]


def joined(lines):
    return " ".join(line.strip() for line in lines)


def verbatim(lines):
    margin = min(len(line) - len(line.lstrip()) for line in lines if line.strip())
    shown = [roff(line[margin:], True) for line in lines]
    return [".PP", ".RS 4", ".nf", *(f"\\&{line}" if line[:1] in (".", "\\") else line for line in shown), ".fi", ".RE"]


def sentence(text):
    """A cell as a sentence."""
    text = text[:1].upper() + text[1:]
    return text if text.endswith((".", "?")) else f"{text}."


def told(header, row):
    """What a row says after its first cell."""
    row = [LINK.sub(r"\1", cell) for cell in row]
    if len(row) == 2:
        return inline(sentence(row[1]))
    if header[0] == "Option":
        default = row[3] if row[3] in ("required", "one of both") else f"default: {row[3]}"
        values = f"values: {row[2]}"
        return inline(" ".join(sentence(cell) for cell in (row[1], values, default) if not cell.startswith("values: no value") and cell != "default: off"))
    first = 2 if header[1] == "Meaning" else 1
    return inline(" ".join([*map(sentence, row[1:first]), *(f"{title}: {sentence(cell)}" for title, cell in zip(header[first:], row[first:]))]))


def tag(cell):
    """The first cell of a row: an option in bold, and its value in italics."""
    found = re.fullmatch(r"`(--[\w-]+)(?: (.*))?`", cell)
    if found:
        return f"\\fB{roff(found[1], True)}\\fR" + (f" \\fI{roff(found[2], True)}\\fR" if found[2] else "")
    return inline(cell) or "\\&"


def table_lines(table):
    return [line for row in table[1:] for line in (".TP", tag(row[0]), *filled(told(table[0], row)))]


def body(parts):
    """The lines of the page for the parts of the document after its title."""
    for kind, content in parts:
        if kind == "heading":
            level, text = content
            yield f'.SH "{roff(plain(text)).upper()}"' if level == 2 else f'.SS "{roff(plain(text))}"'
        elif kind == "text":
            yield from [".PP", *filled(inline(joined(content)))]
        elif kind == "item":
            yield from [".IP \\(bu 2", *filled(inline(joined([content[0][2:], *content[1:]])))]
        elif kind == "code":
            yield from verbatim(content)
        elif kind == "table":
            yield from table_lines(rows(content))


def page(known):
    version = re.search(r'^const VERSION: &str = "(.*)";$', read(SOURCE), re.M).group(1)
    parts = [part for part in blocks(read(DOCUMENT).splitlines()) if part != ("heading", [1, "Commands"])]
    lines = [f'.\\" {BY}', f'.TH ILPSTREAM 1 "" "ilpstream {version}" "User Commands"', ".nh", ".ad l", ".SH NAME"]
    lines += ["ilpstream \\- send files and money over Interledger, receive them, or forward packets", ".SH SYNOPSIS"]
    for it in known:
        lines += verbatim(it.usage)
    lines += [".SH DESCRIPTION", *filled("The program speaks STREAM (RFC 0029) over ILPv4 (RFC 0027), with ILP over HTTP (RFC 0035).")]
    lines += [*body(parts), ".SH FILES", *table_lines([["File", "What"], *([f"`{path}`", text] for path, text in INSTALLED)])]
    return "\n".join(lines) + "\n"


# ---- completions


def bash(known):
    """A function that looks for the command among the words, and then at the word before."""
    values = sorted({name for it in known for name, value, _ in it.options if value and value not in FILES})
    paths = sorted({name for it in known for name, value, _ in it.options if value in FILES})
    names = [it.name for it in known]
    lines = [f"# Completions of ilpstream for bash. {BY}", "", "_ilpstream() {"]
    lines += ["    local word=$2 before=$3 command= words= at", "    COMPREPLY=()"]
    lines += ["    # (a word --name=VALUE comes in three parts)"]
    lines += ['    [ "$word" != = ] || word=', '    [ "$3" != = ] || before=${COMP_WORDS[COMP_CWORD - 2]}', '    [ "$2" != = ] || before=$3']
    lines += ["    for ((at = 1; at < COMP_CWORD; at++)); do", "        case ${COMP_WORDS[at]} in"]
    lines += [f"            {' | '.join(names)})", "                command=${COMP_WORDS[at]}", "                break", "                ;;", "        esac", "    done"]
    lines += ["    case $before in", f"        {' | '.join(paths)})", "            compopt -o filenames 2>/dev/null"]
    lines += ['            mapfile -t COMPREPLY < <(compgen -f -- "$word")', "            return", "            ;;"]
    lines += [f"        {' | '.join(values)}) return ;;", "    esac", "    case $command in"]
    for it in known:
        options = " ".join([*it.words, *(name for name, _, _ in it.options), *(name for name, _, _ in COMMON)])
        lines.append(f"        {it.name}) words='{options}' ;;")
    top = " ".join([*names, HELP[0], *(name for name, _, _ in OF_PROGRAM)])
    lines += [f"        *) words='{top}' ;;", "    esac", '    mapfile -t COMPREPLY < <(compgen -W "$words" -- "$word")']
    with_files = " | ".join(it.name for it in known if it.has_file and it.words)
    lines += ["    case $command in", f"        {with_files})", "            compopt -o filenames 2>/dev/null"]
    lines += ['            mapfile -t -O "${#COMPREPLY[@]}" COMPREPLY < <(compgen -f -- "$word")', "            ;;", "    esac", "}", "complete -F _ilpstream ilpstream"]
    return "\n".join(lines) + "\n"


def quoted(text):
    return "'" + text.replace("'", "'\\''") + "'"


def zsh_spec(name, value, meaning):
    """What _arguments is given for an option."""
    meaning = re.sub(r"([\[\]:])", r"\\\1", meaning)
    kind = "_files" if value in FILES else " "
    return quoted(f"{name}{'=' if value else ''}[{meaning}]" + (":" + value.replace(":", "\\:") + f":{kind}" if value else ""))


def zsh(known):
    described = [(it.name, it.purpose) for it in known] + [HELP]
    lines = ["#compdef ilpstream", f"# Completions of ilpstream for zsh. {BY}", "", "_ilpstream() {", "    local curcontext=$curcontext state line", "    local -a commands"]
    lines += ["    commands=(", *(f"        {quoted(name + ':' + text)}" for name, text in described), "    )", "    _arguments -C \\"]
    lines += [f"        '({short} {name})'{{{short},{name}}}'[{meaning}]' \\" for name, short, meaning in OF_PROGRAM]
    lines += ["        '1: :->command' '*:: :->rest'", "    case $state in", "        command) _describe command commands ;;", "        rest)", "            case $words[1] in"]
    for it in known:
        specs = [zsh_spec(*option) for option in it.options] + [zsh_spec(name, "", meaning) for name, _, meaning in COMMON]
        specs += ["'1:FILE:_files'"] * (it.has_file and bool(it.words)) + [f"'2: :({' '.join(it.words)})'"] * bool(it.words)
        lines += [f"                {it.name})", "                    _arguments \\", *(f"                        {spec} \\" for spec in specs[:-1]), f"                        {specs[-1]}", "                    ;;"]
    lines += ["                help) _describe command commands ;;", "            esac", "            ;;", "    esac", "}", "", '_ilpstream "$@"']
    return "\n".join(lines) + "\n"


def fish(known):
    def line(seen, rest, meaning):
        return f"complete -c ilpstream -n {quoted(seen)} {rest} -d {quoted(meaning)}"

    lines = [f"# Completions of ilpstream for fish. {BY}", "", "complete -c ilpstream -f"]
    lines += [line("__fish_use_subcommand", f"-s {short[1:]} -l {name[2:]}", meaning) for name, short, meaning in OF_PROGRAM]
    lines += [line("__fish_use_subcommand", f"-a {name}", text) for name, text in [*((it.name, it.purpose) for it in known), HELP]]
    for it in known:
        seen = f"__fish_seen_subcommand_from {it.name}"
        for name, value, meaning in it.options:
            lines.append(line(seen, f"-l {name[2:]}" + (" -r -F" if value in FILES else " -x" if value else ""), meaning))
        lines += [line(seen, f"-s {short[1:]} -l {name[2:]}", meaning) for name, short, meaning in COMMON]
        lines += [f"complete -c ilpstream -n {quoted(seen)} -a {quoted(' '.join(it.words))}"] * bool(it.words)
        lines += [f"complete -c ilpstream -n {quoted(seen)} -F"] * (it.has_file and bool(it.words))
    return "\n".join(lines) + "\n"


def main():
    known = commands()
    texts = {PAGE: page(known), BASH: bash(known), ZSH: zsh(known), FISH: fish(known)}
    if sys.argv[1:] != ["--look"]:
        for path, text in texts.items():
            os.makedirs(os.path.dirname(f"{TOP}/{path}"), exist_ok=True)
            write(path, text)
        return 0
    stands = {path: os.path.exists(f"{TOP}/{path}") and read(path) == text for path, text in texts.items()}
    for path, good in stands.items():
        if not good:
            print(f"{path}: not as written from {DOCUMENT}: run tools/manual.py")
    print(f"{sum(stands.values())} files as written, {len(stands) - sum(stands.values())} not")
    return 0


if __name__ == "__main__":
    sys.exit(main())
