"""What the scripts of this repository have in common: its files, the crates of crates.txt, and how the kit's prover is called for one."""
import glob
import os
import subprocess

TOP = os.path.realpath(os.path.join(os.path.dirname(os.path.realpath(__file__)), ".."))
# The program that `rt ci` or tools/build.py built.
BUILT = f"{TOP}/crates/ilpstream/out/ilpstream"


def read(path, encoding="utf-8", errors=None):
    """The text of a file of the repository, or of one by its whole path."""
    with open(os.path.join(TOP, path), encoding=encoding, errors=errors) as file:
        return file.read()


def read_bytes(path):
    with open(os.path.join(TOP, path), "rb") as file:
        return file.read()


def write(path, text, encoding="utf-8"):
    with open(os.path.join(TOP, path), "w", encoding=encoding) as file:
        file.write(text)


def write_bytes(path, content):
    with open(os.path.join(TOP, path), "wb") as file:
        file.write(content)


def files(pattern):
    """The paths of the repository's files that a pattern names."""
    return sorted(os.path.relpath(path, TOP) for path in glob.glob(f"{TOP}/{pattern}", recursive=True))


def read_crates():
    """Each crate of crates.txt with the names after its colon, in their order there."""
    found = {}
    for line in read("crates.txt").splitlines():
        head, colon, names = line.partition("#")[0].partition(":")
        if colon:
            found[head.split()[0]] = names.split()
    return found


def with_below(name, crates):
    """The crates of the repository that this one is built on, and itself, each with those right below it, lowest first."""
    found = {}

    def add(crate):
        if crate not in found and crate in crates:
            below = [it for it in crates[crate] if it in crates]
            for it in below:
                add(it)
            found[crate] = below

    add(name)
    return found


def kit():
    """The folder of the toolchain: `rt doc` prints the path of its first page."""
    page = subprocess.run(["rt", "doc"], check=True, capture_output=True, text=True).stdout.split()[0]
    return os.path.dirname(os.path.realpath(page))


def rlib(name):
    """The library of a crate as it was last built here, by `rt ci` say."""
    return f"{TOP}/crates/{name}/out/rlib/{name}.rlib"


def lacking(name, crates):
    """The crates below this one whose library was not built here."""
    return [it for it in with_below(name, crates) if it != name and not os.path.isfile(f"{rlib(it)}/format")]


def words(name, crates, at, rlib=rlib):
    """The arguments of the prover for a crate, in its folder, over the libraries that were built here: `rlib` gives their places."""
    static = f"{name} staticlib:" in read("crates.txt")
    root = "src/main.rt" if os.path.isfile(f"{TOP}/crates/{name}/src/main.rt") else "src/lib.rt"
    found = ["--crate-name", name, root, *["--crate-type", "staticlib"] * static]
    for it in ["std", *crates[name]]:
        found += ["--extern", f"{it}={rlib(it) if it in crates else f'{at}/rlibs/{it}.rlib'}"]
    for it in [f"{at}/rlibs", *[os.path.dirname(rlib(it)) for it in with_below(name, crates) if it != name]]:
        found += ["-L", f"dependency={it}"]
    return [*found, "--antt-project", f"{at}/rattle/logic/antt-project.json", "--logic-built", f"{at}/logic_built", "--links", f"{name}="]
