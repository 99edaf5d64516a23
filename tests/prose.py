#!/usr/bin/env python3
"""Checks how the documents are written: README.md, the other *.md of the root, docs/*.md and bind/*/README.md.

- README.md has at most 200 lines, each of at most 100 columns.
- A line of another document has at most 100 columns. Exempt are rows of tables, which cannot be broken, and blocks of code,
  which show what a program prints or what is pasted.
- A sentence has at most 40 words. A code span is one word; a cell of a table and an item of a list are texts of their own.
- No private idiom: IDIOMS and PLAIN have them, with the field's words. Code spans, blocks of code and links' targets are not checked,
  so that printed formats and names of the code stay. Pages for users have no names of the code in their sentences (OF_CODE).

The comments and docstrings of the scripts and sources in tests, tools, bench, bind, examples and crates have none of IDIOMS and
PLAIN either.

`tests/prose.py FILE ..` checks these documents alone, and `tests/prose.py --comments` the comments alone. Each finding is a line; the
last one counts the files without and with a finding."""
import ast
import io
import os
import re
import sys
import tokenize

from repository import TOP, files, read

LINES = 200  # of README.md
COLUMNS = 100
WORDS = 40  # of a sentence

# Idioms and the field's words. Words of several senses are matched with what stands beside them.
IDIOMS = [
    (r"told(?! apart)|tells?(?! apart)|telling", "reports, advertised, says"),
    (r"wants? of memory|wants? (no )?memory|wanting memory", "out of memory"),
    (r"so many", "N, a given number of"),
    (r"as many (as|again)", "the number that, N"),
    (r"(go|goes|going|went|gone) (on|over|again|back|out|along|next|nowhere)", "is sent, is forwarded, continues"),
    (r"(come|comes|coming|came) (on|over|again|back|whole|out|along|next|in order|late|too late)", "arrives"),
    (r"what (came|comes|goes|went)", "what arrived, what is sent"),
    (r"(packet|prepare|fulfill|reject|answer|request|byte|money|amount|unit)s? (goes|go|went|comes|come|came)", "is sent, arrives"),
    (r"due (bytes?|data|things?)", "queued"),
    (r"held", "reserved (money), buffered (bytes)"),
    (r"(?<!in )turns?(?! out)", "I/O call"),
    (r"(a|the|each|every|one|its|this|that|such a|next|no) load(?! of \d)|loads", "outgoing packet"),
    (r"pieces?", "chunk, part"),
    (r"quiet runs?", "lossless run"),
    (r"(refused|bad|its|these|those|no) words|words (behind|of the command|ask|say|are|were|given)", "arguments"),
    (r"No memory\.", "Does not allocate."),
]
# What follows 'where' if it is a place.
PLACES = (
    "books may be made|code is reached|compilers find|each of its texts|each rule|he |hops are between|in the window|it comes|it waits|it is(?: (?:defined|cut|met|reached|tried)|[.,;]|$)|it lies|"
    "it listens|it stays|IVs come|packets to the account|requests are accepted|some Sends|that (?:secret|token) is|"
    "the (?:IV|books|connector may|numbers|table|totals)|they lie|they listen|they were|to look|tokens and secrets|P is|a (?:head|line|receive max)|"
    "totals|their first|code"
)
# What 'takes' has after it if it means that something is accepted, read, needed or removed.
TAKEN = (
    "(?:no|one|all|any|every|each|the|its|these|those|at most|up to|a|an)? ?(?:further |more |fitting |first |next |given )?"
    "(?:answers?|arguments?|bytes|chunks?|connections?|events?|frames?|Fulfills?|input|lines?|memory|money|packets?|Prepares?|Rejects?|requests?|"
    "tokens?|units)|nothing|none of"
)
# Words that are plain, and not what the field says. Rows of ERRORS have those of docs/errors.toml, which the program prints too.
PLAIN = [
    (r"got(?! /)", "received"),
    (r"came whole", "arrived intact"),
    (rf"(?<!says )(?<!say )(?<!reached from )(?<!to start )(?<!lies )where(?!$| (?:{PLACES}))", "if, when (where is for places)"),
    (r"(?<!there )(?<!for which )(is|are|was|were) none(?! left| here| in this| of them)", "is not a valid .."),
    (r"(?<!there )(?:is|are|was|were) no (?!more|longer|other|fewer|greater|later|less|\w+er than)\w+", "is not a .."),
    (r"stands?|stood|standing", "is, is written, follows"),
    (r"(?<!leaves the new file )behind(?! (an? )?(nginx|one name|handles|lock|reference|code as)|, which may| it, requests)", "after"),
    (r"beside", "with, next to, in addition to"),
    (r"looks at|looked at|looking at", "checks, inspects, reads"),
    (r"(puts?|putting) out", "returns"),
    (r"handle is of", "the handle's object"),
    (r"by hand", "manually"),
    (r"its like|the like", "similar"),
    (r"reckon(s|ed|ing)?", "computes"),
    (r"(?-i:Else|So (?:is|are|does|do)(?! it\b| they\b)|Not where|Of wh(?:ich|om))", "a sentence of its own: otherwise, the same holds of"),
    (r"in a minute|calls get on|cut off:", "who it is for, make progress, interrupted"),
    (r"those used below", "an argument by name"),
    (r"(is|are|was|were|be|been|being|not) taken(?! (?:apart|are taken back|away|back|effect|off|over|place|together|up))", "is accepted, is read, is removed"),
    (rf"(take|takes|took) (?:{TAKEN})", "accepts, reads, needs, removes"),
]
# Names of the code, which its own pages use (GLOSSARY has them), and pages for users of the program and of the library do not.
OF_CODE = [
    (r"hops?(?! is a connector)", "connector"),
    (r"gates?", "the tests"),
    (r"wrong bod(?:y|ies)|edits?|planted", "mutant"),
    (r"desks?|tills?|crews?|rosters?|lobb(?:y|ies)|guests?|seats?|in hand|at hand", "what it is for, as balances, queue, threads"),
    (r"moments?", "time"),
]
FOR_USERS = {"SECURITY.md", *(f"docs/{it}.md" for it in ("COMMANDS", "LIMITS", "LOG", "OPERATING", "SCALING"))}
# A sentence with each word that has to be found, and one with the same word in a sense that may stay.
FOUND = [
    "Bob got the bytes.", "The bytes came whole.", "The peer told a limit.", "A packet is refused only where memory ran out.",
    "A prefix that is none is refused.", "Of which none is kept.", "The limit stands in a table.", "A byte behind the last is ignored.",
    "The page beside it is older.", "The timing is looked at.", "There is want of memory.", "It hashes so many bytes.", "The call puts out bytes.",
    "The kind of what a handle is of.", "An edit is refused.", "The gate runs it.", "A hop forwards it.", "The desk has shares.",
    "Each moment is later.", "A worker ends its turn.", "The packet goes on to bob.", "It is measured by hand.", "The tests and the like.",
    "It is reckoned first.", "These are those used below.", "In a minute.", "Calls get on.", "Cut off: start anew.", "Else it is refused.",
    "The request is taken.", "It takes requests.",
]  # fmt: skip
LEFT = [
    "It says where it listens.", "If there is none, nothing is sent.", "It runs behind nginx.", "Look at the table.", "It takes three seconds.",
    "The call takes effect.", "The file takes the place of another.", "A hop is a connector as a part of the code.", "It turns out well.",
]  # fmt: skip


def compiled(pairs):
    return [(re.compile(rf"(?<![\w-])(?:{pattern})(?![\w-])" if not pattern.endswith(".") else pattern, re.I), better) for pattern, better in pairs]


IDIOM, WORD, NAME = compiled(IDIOMS), compiled(PLAIN), compiled(OF_CODE)
FENCE = re.compile(r"^\s*```")
# Two dots for arguments that are left out, in code.
OMITTED = re.compile(r"`(?:[^`]* \.\.|\.\. [^`]*| [^`]* \.\. [^`]*)`")
ITEM = re.compile(r"^\s*(?:[-*]|\d+\.) +")
CODE = re.compile(r"(`+)(?!`).*?(?<!`)\1(?!`)")


def prose(line):
    """A line without code spans and links' targets: each code span is one word."""
    line = CODE.sub("code", line)
    return re.sub(r"!?\[([^\]]*)\]\([^)]*\)", r"\1", line)


def whole(lines):
    """The lines of a text as one, with code spans and links that go over a line's end."""
    return prose(" ".join(line.strip() for line in lines))


def parts(lines):
    """What a document is made of: ('code' | 'row' | 'text', number of the first line, lines)."""
    inside, kept, first = False, [], 0
    for number, line in enumerate([*lines, ""], 1):
        is_row = not inside and line.startswith("|")
        is_fence = bool(FENCE.match(line))
        is_indented = not inside and not kept and line.startswith("    ")
        ends = inside or is_fence or is_row or is_indented or not line.strip() or line.startswith("#") or ITEM.match(line)
        if ends and kept:
            yield "text", first, kept
            kept = []
        if inside or is_fence or is_indented:
            yield "code", number, [line]
            inside = inside != is_fence
        elif is_row:
            yield "row", number, [line]
        elif line.startswith("#"):
            yield "text", number, [line.lstrip("# ")]
        elif line.strip():
            if not kept:
                first = number
            kept.append(line)


def sentences(text):
    """The sentences of a text."""
    return re.split(r"(?<=[.!?])[\"')]*\s+(?=[\"'(*]*[A-Z0-9`])", text)


def cells(line):
    return [cell.strip() for cell in re.split(r"(?<!\\)\|", line.strip().strip("|"))]


def look(path):
    """What is to be changed in a document, each with its line."""
    lines = read(path).splitlines()
    is_readme = path == "README.md"
    if is_readme and len(lines) > LINES:
        yield LINES + 1, f"{len(lines)} lines; at most {LINES}"
    for kind, number, those in parts(lines):
        if kind == "text" or is_readme:
            for offset, line in enumerate(those):
                if len(lines[number + offset - 1]) > COLUMNS:
                    yield number + offset, f"{len(lines[number + offset - 1])} columns; at most {COLUMNS}"
        if kind == "code":
            continue
        for offset, line in enumerate(those):
            for hit in OMITTED.finditer(line):
                yield number + offset, f"{hit.group(0)}: …, or the argument itself"
        texts = [whole([ITEM.sub("", those[0]), *those[1:]])] if kind == "text" else [prose(cell) for cell in cells(those[0])]
        for text in texts:
            for sentence in sentences(text):
                count = len(re.findall(r"[^\W_][\w'.,^/-]*", sentence))
                if count > WORDS:
                    yield number, f"a sentence of {count} words; at most {WORDS}: {sentence[:60]} .."
            words = [*IDIOM, *([] if kind == "row" and path == "docs/ERRORS.md" else WORD), *(NAME if path in FOR_USERS else [])]
            for idiom, better in words:
                for hit in idiom.finditer(re.sub(r"\b[A-Z]{4,}\b", "", text) if (idiom, better) in NAME else text):
                    yield number, f"'{hit.group(0)}': {better}"


# ---- comments of scripts


def comments_of_c(text):
    """The comments of a source in C or Rust, each with its line. Lines of `//` that follow each other are one comment."""
    for found in re.finditer(r'"(?:[^"\\\n]|\\.)*"|/\*(.*?)\*/|((?:^[ \t]*//[^\n]*\n)+)|//([^\n]*)', text, re.S | re.M):
        block, lines, rest = found.groups()
        if block is not None or lines or rest:
            said = re.sub(r"^[ \t]*(?://[/!]?|\*)", "", block or lines or rest, flags=re.M)
            yield text.count("\n", 0, found.start()) + 1, re.sub(r"```.*?```", "", said, flags=re.S)


def comments_of_logic(text):
    """The comments of definitions and proofs, each with its line. Lines of `--` alone that follow each other are one comment."""
    for found in re.finditer(r"((?:^[ \t]*--[^\n]*(?:\n|\Z))+)|(?<=[ \t])--[ -]([^\n]*)", text, re.M):
        lines, rest = found.groups()
        yield text.count("\n", 0, found.start()) + 1, re.sub(r"^[ \t]*--+", "", lines or rest, flags=re.M)


def comments(path, text):
    """The comments of a script in Python or bash, and the docstrings, each with its line."""
    if path.endswith((".c", ".h", ".rs", ".rt")):
        yield from comments_of_c(text)
        return
    if path.endswith(".antt"):
        yield from comments_of_logic(text)
        return
    if not re.match("#!/usr/bin/env python3|\"\"\"|import|from", text):
        for number, line in enumerate(text.splitlines(), 1):
            comment = re.match(r"\s*#(?!!)(.*)", line) or re.search(r"\s# (.*)", line)
            if comment:
                yield number, comment.group(1)
        return
    for token in tokenize.generate_tokens(io.StringIO(text).readline):
        if token.type == tokenize.COMMENT:
            yield token.start[0], token.string.lstrip("#! ")
    for node in ast.walk(ast.parse(text)):
        if isinstance(node, (ast.Module, ast.FunctionDef, ast.ClassDef)) and ast.get_docstring(node):
            yield node.body[0].lineno, re.sub(r"^ *>>>.*?(?=\n\n|\Z)", "", ast.get_docstring(node), flags=re.S | re.M)


ENDINGS = ("", ".py", ".sh", ".conf", ".service", ".c", ".h", ".rs", ".rt", ".antt")


def scripts():
    """The scripts and sources of the repository in Python, bash, C and Rust, and files with comments like theirs."""
    paths = ["ilpstream", "try"]
    for folder in ("tests", "tools", "bench", "bind", "examples", "crates"):
        paths += files(f"{folder}/**")
    for path in sorted(paths):
        if os.path.isfile(f"{TOP}/{path}") and os.path.splitext(path)[1] in ENDINGS and "/out/" not in path and "/target/" not in path:
            text = read(path, errors="replace")
            if text.startswith("#") or path.endswith((".py", ".c", ".h", ".rs", ".rt", ".antt", ".service")):
                yield path, text


def idioms_of_comments(path, text):
    """The idioms of a script's comments. (This script names them all.)"""
    for number, comment in comments(path, text) if path != "tests/prose.py" else ():
        said = prose(" ".join(comment.split()))
        for idiom, better in [*IDIOM, *WORD]:
            for hit in idiom.finditer(said):
                yield number, f"'{hit.group(0)}': {better}"


def main():
    for sentence, is_found in [*((it, True) for it in FOUND), *((it, False) for it in LEFT)]:
        if is_found != any(it.search(sentence) for it, _ in (*IDIOM, *WORD, *NAME)):
            print(f"'{sentence}' is {'not ' * is_found}found\n0 passed, 1 failed")
            return 1
    of_comments = ((path, list(idioms_of_comments(path, text))) for path, text in scripts())
    if sys.argv[1:] == ["--comments"]:
        return report(of_comments)
    chosen = [os.path.relpath(os.path.realpath(path), TOP) for path in sys.argv[1:]]
    pages = sorted([*files("*.md"), *files("docs/*.md"), *files("bind/*/README.md")])
    of_pages = ((path, list(look(path))) for path in chosen or pages)
    return report(of_pages if chosen else [*of_pages, *of_comments])


def report(looked):
    """Prints the findings of each file, and the count."""
    passed = failed = 0
    for path, findings in looked:
        for number, finding in findings:
            print(f"{path}:{number}: {finding}")
        passed, failed = passed + (not findings), failed + bool(findings)
    print(f"{passed} passed, {failed} failed")
    return 1 if failed or not passed else 0


if __name__ == "__main__":
    sys.exit(main())
