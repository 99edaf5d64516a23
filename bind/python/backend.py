"""Builds the wheel and the source distribution of `ilpstream`, by the hooks of PEP 517 and with the standard library alone.

The wheel has the modules, and the shared object that bind/build made: from bind/out, or from ILPSTREAM_OUT. Its tag is that of
the oldest C library which has what the shared object needs. With ILPSTREAM_SYSTEM=1 it has no shared object, and the modules load
the installed libilpstream.so.0."""

import base64
import hashlib
import io
import os
import re
import tarfile
import tomllib
import zipfile

TOP = os.path.dirname(os.path.abspath(__file__))
# What the source distribution has, in addition to the modules.
SOURCES = ("pyproject.toml", "README.md", "backend.py", "tests.py", "examples/two_ends.py", "examples/wallet.py")


def _project():
    with open(f"{TOP}/pyproject.toml", "rb") as file:
        return tomllib.load(file)["project"]


def _read(path):
    with open(path, "rb") as file:
        return file.read()


def _modules():
    names = sorted(it for it in os.listdir(f"{TOP}/ilpstream") if it.endswith((".py", ".typed")))
    return {f"ilpstream/{name}": _read(f"{TOP}/ilpstream/{name}") for name in names}


def _shared():
    """The shared object, or nothing if the system's is used."""
    if os.environ.get("ILPSTREAM_SYSTEM"):
        return None
    path = os.path.join(os.environ.get("ILPSTREAM_OUT", f"{TOP}/../out"), "libilpstream.so")
    if not os.path.exists(path):
        raise SystemExit(f"there is no {path}: run bind/build first, or set ILPSTREAM_OUT or ILPSTREAM_SYSTEM=1")
    return _read(path)


def _tag(shared):
    """The tag of a wheel with this shared object (PEP 600): the versions of the C library are in it as GLIBC_2.14."""
    if shared is None:
        return "py3-none-any"
    minors = [int(it) for it in re.findall(rb"\bGLIBC_2\.(\d+)", shared)]
    return f"py3-none-manylinux_2_{max([5, *minors])}_x86_64"


def _metadata():
    project = _project()
    lines = [
        "Metadata-Version: 2.1",
        f"Name: {project['name']}",
        f"Version: {project['version']}",
        f"Summary: {project['description']}",
        f"Keywords: {','.join(project['keywords'])}",
        f"Requires-Python: {project['requires-python']}",
        *(f"Classifier: {it}" for it in project["classifiers"]),
        "Description-Content-Type: text/markdown",
        "",
    ]
    return "\n".join(lines).encode() + b"\n" + _read(f"{TOP}/{project['readme']}")


def _files(shared, tag):
    """The name of each file in the wheel, and its bytes."""
    yield from _modules().items()
    if shared is not None:
        yield "ilpstream/libilpstream.so", shared
    info = f"ilpstream-{_project()['version']}.dist-info"
    pure = str(shared is None).lower()
    wheel = ["Wheel-Version: 1.0", "Generator: ilpstream", f"Root-Is-Purelib: {pure}", f"Tag: {tag}"]
    yield f"{info}/METADATA", _metadata()
    yield f"{info}/WHEEL", ("\n".join(wheel) + "\n").encode()


def build_wheel(wheel_directory, config_settings=None, metadata_directory=None):
    version, shared = _project()["version"], _shared()
    tag = _tag(shared)
    name = f"ilpstream-{version}-{tag}.whl"
    record = []
    with zipfile.ZipFile(f"{wheel_directory}/{name}", "w", zipfile.ZIP_DEFLATED) as wheel:
        for path, content in _files(shared, tag):
            wheel.writestr(path, content)
            digest = base64.urlsafe_b64encode(hashlib.sha256(content).digest()).rstrip(b"=").decode()
            record.append(f"{path},sha256={digest},{len(content)}\n")
        path = f"ilpstream-{version}.dist-info/RECORD"
        wheel.writestr(path, "".join([*record, f"{path},,\n"]))
    return name


def build_sdist(sdist_directory, config_settings=None):
    """The modules, their tests and examples, and this file. A wheel of it needs the shared object, as `_shared` says."""
    front = f"ilpstream-{_project()['version']}"
    files = {path: _read(f"{TOP}/{path}") for path in SOURCES} | _modules() | {"PKG-INFO": _metadata()}
    with tarfile.open(f"{sdist_directory}/{front}.tar.gz", "w:gz") as archive:
        for path, content in sorted(files.items()):
            entry = tarfile.TarInfo(f"{front}/{path}")
            entry.size, entry.mode = len(content), 0o644
            archive.addfile(entry, io.BytesIO(content))
    return f"{front}.tar.gz"
