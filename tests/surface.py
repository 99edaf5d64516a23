"""What the crates export, as their sources have it, for tests/documents.py.

A crate exports the items of its lib.rt, and what this has by `pub use` of its own modules and of crates below. Of a type its public
fields are known, its variants with their fields, and its methods, also those of traits; of a trait its methods."""
import functools
import os
import re

from repository import TOP, files, read, read_crates

CRATES = read_crates()
ITEM = re.compile(r"^pub (?:const |unsafe )?(?:fn|struct|enum|trait|const|type) (\w+)", re.M)
PASSED_ON = re.compile(r"^pub use (\w+)[\w:]*::(\{[^}]*\}|\w+(?: as \w+)?);", re.M)
BLOCK = re.compile(r"^(pub struct|pub enum|pub trait|impl)\b([^{;]*)(\{\}|\{.*?^\}|;)", re.M | re.S)
VARIANT = re.compile(r"^    ([A-Z]\w*)(?:\([^)]*\)| \{(.*?)\})?,$", re.M | re.S)
# What the other kinds of blocks have.
WORDS = {
    "pub struct": re.compile(r"^    pub (\w+):", re.M),
    "pub trait": re.compile(r"^    fn (\w+)", re.M),
    "impl": re.compile(r"^    pub (?:const )?fn (\w+)", re.M),
    "impl for": re.compile(r"^    fn (\w+)", re.M),
}


def source(path):
    """A source without its comments and attributes."""
    return re.sub(r"//[^\n]*|^ *#\[[^\n]*\]$", "", read(path), flags=re.M)


@functools.cache
def exports(crate):
    """The names that a crate exports, each with the crate that has it, or passes it on, and its name there."""
    path = f"crates/{crate}/src/lib.rt"
    text = source(path) if os.path.exists(f"{TOP}/{path}") else ""
    found = {name: (crate, name) for name in ITEM.findall(text)}
    for home, names in PASSED_ON.findall(text):
        is_below = home in CRATES and not re.search(rf"^mod {home};", text, re.M)
        for name in re.findall(r"\w+(?: as \w+)?", names):
            there, _, here = name.partition(" as ")
            found[here or there] = (home if is_below else crate, there)
    return found


def type_of(head):
    """The type of an `impl`, and whether it is one of a trait."""
    head, before = head.replace("->", ""), None
    while head != before:
        head, before = re.sub(r"<[^<>]*>", "", head), head
    trait, _, kind = head.rpartition(" for ")
    return re.search(r"\w+", kind).group(0), bool(trait)


@functools.cache
def parts(crate):
    """What each type and each trait of a crate has; a field of a variant is VARIANT::FIELD."""
    found = {}
    for path in files(f"crates/{crate}/src/**/*.rt"):
        for kind, head, body in BLOCK.findall(source(path)):
            name, is_of_trait = type_of(head)
            its = found.setdefault(name, set())
            if kind != "pub enum":
                its.update(WORDS["impl for" if kind == "impl" and is_of_trait else kind].findall(body))
                continue
            for variant, fields in VARIANT.findall(body):
                its.update([variant, *(f"{variant}::{field}" for field in re.findall(r"(\w+): ", fields))])
    return found


def has(crate, name, *words):
    """Whether a crate exports a name, and this has a method, a field, a variant, or a variant with a field."""
    home, there = exports(crate).get(name, (None, name))
    if home not in (None, crate):
        return has(home, there, *words)
    return bool(home) and (not words or "::".join(words) in parts(crate).get(there, ()))


def paths(code):
    """The paths in a code: `Cut::{new, rest}` has Cut::new and Cut::rest."""
    head, braces, words = code.partition("::{")
    return [f"{head}::{word}" for word in re.findall(r"\w+", words)] if braces else [code]


def offers(crate, path):
    """Whether a crate exports a path, or another crate that it names: Cut::new, other::run, <Type as other::Trait>::method."""
    by_trait = re.fullmatch(r"<(\w+) as (\w+)::(\w+)>::(\w+)", path)
    if by_trait:
        kind, home, trait, method = by_trait.groups()
        return has(crate, kind) and has(home, trait, method) and method in parts(home).get(kind, ())
    words = path.split("::")
    return has(*words) if len(words) > 1 and words[0] in CRATES else has(crate, *words)
