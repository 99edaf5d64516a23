#!/usr/bin/env python3
"""Writes what docs/errors.toml says of each number of a fault or a refusal: the tables `Faults of the program` and `All numbers`
of docs/ERRORS.md, and the table of ilpstream_output, from which `ilpstream explain N` prints. Run it after a change of docs/errors.toml.

A row has the number, the crate and the variant that give it, its cause, and what to do (`advice`), as Markdown. `faults` names
the commands that print `fault N` by this row, and `line` says that `frames` refuses a line with this number.

With --look it writes nothing and compares with what is there. Each finding is a line; the last line counts the files that are as
it writes them, and those that are not."""
import os
import re
import sys
import textwrap
import tomllib

from crates import TOP, read, write

TABLE = "docs/errors.toml"
DOCUMENT = "docs/ERRORS.md"
ROWS = "crates/ilpstream_output/specs/Rows.antt"
TEXTS = "crates/ilpstream_output/src/explanations.rt"
ANSWERS = "crates/ilpstream_output/proofs/explanations/tens_{}/Answers.antt"

# The commands, in the order of the document's columns.
COMMANDS = ["frames", "local", "send", "receive", "connector", "ledger", "explain"]
# The columns of a line of text that `explain` prints, and of what is indented in it.
COLUMNS = 100
INDENT = 4
# The numbers whose texts are in one array.
TEN = 10


class Row:
    """A row of the table."""

    def __init__(self, said):
        self.number, self.crate, self.variant = said["number"], said["crate"], said["variant"]
        self.cause, self.advice = said["cause"], said["advice"]
        self.faults, self.line = said.get("faults", []), said.get("line", False)
        known = {"number", "crate", "variant", "cause", "advice", "faults", "line"}
        whole = self.cause + self.advice
        if set(said) - known or set(self.faults) - set(COMMANDS) or not 1 <= self.number <= 255:
            sys.exit(f"{TABLE}: {self.number} {self.variant} has a key, a command or a number that there is not")
        if not whole.isascii() or re.search(r'["\\|\n]', whole):
            sys.exit(f"{TABLE}: {self.number} {self.variant} has a character that a table or a text may not have")
        self.faults = [command for command in COMMANDS if command in self.faults]

    def key(self):
        return self.number, self.crate, self.variant

    def places(self):
        """The commands in which a user meets the number."""
        return self.faults + ["a line of frames"] * self.line


def table():
    rows = [Row(said) for said in tomllib.loads(read(TABLE))["row"]]
    if [row.key() for row in rows] != sorted({row.key() for row in rows}):
        sys.exit(f"{TABLE}: the rows do not rise by number, crate and variant")
    return rows


# ---- the document


def faults(rows):
    """The table of faults by command."""
    lines = ["| Fault | " + " | ".join(f"`{command}`" for command in COMMANDS) + " |", "|---" * (len(COMMANDS) + 1) + "|"]
    for number in sorted({row.number for row in rows if row.faults}):
        cells = [
            ", ".join(f"`{row.variant}`" for row in rows if row.number == number and command in row.faults)
            for command in COMMANDS
        ]
        lines.append(f"| {number} " + "".join(f"| {cell} " if cell else "| " for cell in cells) + "|")
    return lines


def numbers(rows):
    """The table of all numbers."""
    return ["| Number | Crate and variant | Cause | What to do |", "|---|---|---|---|"] + [
        f"| {row.number} | `{row.crate}` `{row.variant}` | {row.cause} | {row.advice} |" for row in rows
    ]


def document(rows):
    """The document with both tables in their places: each is found by its first cell."""
    lines, out, skipped = read(DOCUMENT).splitlines(), [], False
    made = {"| Fault |": faults(rows), "| Number |": numbers(rows)}
    for line in lines:
        first = next((first for first in made if line.startswith(first)), None)
        if first is not None:
            out += made.pop(first)
            skipped = True
        elif not line.startswith("|"):
            skipped = False
        if not skipped:
            out.append(line)
    if made:
        sys.exit(f"{DOCUMENT}: no table begins with '{next(iter(made))}'")
    return "\n".join(out) + "\n"


# ---- the crate


def plain(text):
    """Markdown as plain text. A link within the document names it."""
    return re.sub(r"\[([^\]]*)\]\(#[^)]*\)", rf"\1 in {DOCUMENT}", text)


def wrapped(text, first=""):
    width = COLUMNS - INDENT
    return textwrap.wrap(first + plain(text), width, break_long_words=False, break_on_hyphens=False)


def row_text(row):
    """As row_text of specs/Explaining.antt."""
    places = ", in " + ", ".join(row.places()) if row.places() else ""
    head = f"{row.number}  {row.crate} {row.variant}{places}"
    lines = wrapped(row.cause) + wrapped(row.advice, "What to do: ")
    return "\n".join([head] + [" " * INDENT + line for line in lines]) + "\n"


def explanation(rows, number):
    """As explanation of specs/Explaining.antt."""
    met = [row for row in rows if row.number == number and row.places()]
    others = [row for row in rows if row.number == number and not row.places()]
    heading = "Numbers of the library:\n" if others else ""
    return "".join(map(row_text, met)) + heading + "".join(map(row_text, others))


def texts_of(texts):
    """A list of texts in a definition: one to a line if there are several."""
    between = " ∷ " if len(texts) < 2 else " ∷\n" + " " * 10
    return between.join([f'codes "{text}"' for text in texts] + ["[]"])


def specs(rows):
    head = [
        "-- The table of faults and refusals: docs/errors.toml, as tools/errors.py writes it.",
        "use Rattle.std.specs.Prelude.{ℕ, List, [], ◌∷◌, codes}",
        "use Rattle.ilpstream_output.specs.Row.{Row}",
        "",
        "-- the tens of the greatest number",
        "abbrev pub last_ten : ℕ",
        f"last_ten = {rows[-1].number // TEN}",
        "",
        "unfoldable pub rows : List Row",
        "rows =",
    ]
    out = []
    for row in rows:
        out += [
            "    record {",
            f"      number = {row.number};",
            f'      home = codes "{row.crate}";',
            f'      variant = codes "{row.variant}";',
            f"      places = {texts_of(row.places())};",
            f"      cause = {texts_of(wrapped(row.cause))};",
            f"      advice = {texts_of(wrapped(row.advice, 'What to do: '))};",
            "    } ∷",
        ]
    return "\n".join(head + out + ["    []"]) + "\n"


def of_ten(tens, used):
    """The lines of the array of ten numbers, of those that have a text, and of the function that gives it."""
    cells = [f"    Some(FAULT_{n})," if n in used else "    None," for n in range(TEN * tens, TEN * (tens + 1))]
    start = f"static TENS_{tens}: [Option<&str>; {TEN}] ="
    return [
        *([f"{start} [", *cells, "];"] if any("FAULT" in cell for cell in cells) else [f"{start} [None; {TEN}];"]),
        "",
        f"/// What `explain` prints for {TEN * tens} to {TEN * tens + TEN - 1}.",
        f"fn tens_{tens}() -> &'static [Option<&'static str>; {TEN}]",
        f"    ensures {{ map (option_map (λ t. t.now)) result.now ≡ map explanation (range_with_len {TEN * tens} {TEN}) }}",
        "{",
        f"    &TENS_{tens}",
        "}",
        "",
    ]


def source(rows):
    used = sorted({row.number for row in rows})
    head = [
        "//! What `explain` prints: docs/errors.toml, as tools/errors.py writes it.",
        "",
        "ghost use Rattle.std.specs.Prelude.{◌≡◌, ◌<◌, ◌*◌, map, option_map, MatchOption};",
        "ghost use Rattle.std.specs.List.{range_with_len};",
        "ghost use Rattle.ilpstream_output.specs.Explaining.{explanation};",
        "ghost use Rattle.ilpstream_output.specs.Rows.{last_ten};",
        "",
    ]
    out = []
    for number in used:
        name, text = f"const FAULT_{number}: &str =", explanation(rows, number)
        fits = len(f'{name} "{text.splitlines()[0]}') <= COLUMNS
        out += [f'{name} "{text}";', ""] if fits else [name, f'    "{text}";', ""]
    most = used[-1] // TEN
    for tens in range(most + 1):
        out += of_ten(tens, used)
    out += [
        f"/// What `explain` prints for the {TEN} numbers from `{TEN} * tens` on. `None` if no number there has a text.",
        f"pub(crate) fn texts(tens: u8) -> Option<&'static [Option<&'static str>; {TEN}]>",
        f"    ensures {{ MatchOption result (last_ten < tens) (λ r. map (option_map (λ t. t.now)) r.now ≡ map explanation (range_with_len ({TEN} * tens) {TEN})) }}",
        "{",
        "    match tens {",
        *[f"        {tens} => Some(tens_{tens}())," for tens in range(most + 1)],
        "        _ => None,",
        "    }",
        "}",
    ]
    return "\n".join(head + out) + "\n"


def answers(tens):
    """The proof of the texts of ten numbers: they compute."""
    return f"""use Rattle.std.proofs.Common.{{refl}}
use Rattle.std.specs.Fmt.{{digits}}
use Rattle.ilpstream_output.specs.Rows.{{rows}}
use Rattle.ilpstream_output.specs.Explaining.{{explanation}}
use Rattle.ilpstream_output.proofs.explanations.tens_{tens}.Goals as goal

pub returns : goal.returns
unfolding digits rows explanation
returns c = refl
"""


def main():
    rows = table()
    made = {ROWS: specs(rows), TEXTS: source(rows)}
    made |= {ANSWERS.format(tens): answers(tens) for tens in range(rows[-1].number // TEN + 1)}
    made[DOCUMENT] = document(rows)
    apart = 0
    for path, text in made.items():
        if sys.argv[1:] == ["--look"]:
            if not os.path.exists(f"{TOP}/{path}") or read(path) != text:
                print(f"{path} is not what {TABLE} says: run tools/errors.py")
                apart += 1
        else:
            os.makedirs(os.path.dirname(f"{TOP}/{path}"), exist_ok=True)
            write(path, text)
    print(f"{len(made) - apart} files as written, {apart} not")
    sys.exit(1 if apart else 0)


if __name__ == "__main__":
    main()
