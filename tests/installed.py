"""What the tests of the examples share: files and commands, an nginx with files of examples/nginx, and the places of programs of others
that a test needs: on this machine, or else out of Debian's packages, which are unpacked into a folder of the test's own and
not installed. One that cannot be had is reported. If the environment has `CI`, as .ci/run sets it, its test failed; elsewhere it
was skipped, and the script may still end with 0."""
import getpass
import glob
import grp
import os
import shutil
import subprocess
import sys
import tempfile
import time

from play import RESULTS, Skipped, Wrong, has_to_listen, want
from repository import TOP, read, write

EXAMPLES = os.path.realpath(f"{TOP}/examples")
FOLDER = tempfile.TemporaryDirectory(prefix="installed-")
FOUND, WITHOUT = {}, []


def run(words, seconds=120, **how):
    """Whether a command ended well."""
    try:
        return subprocess.run(words, timeout=seconds, stdout=subprocess.DEVNULL, stderr=subprocess.DEVNULL, **how).returncode == 0
    except (OSError, subprocess.TimeoutExpired):
        return False


def unpacked(packages):
    """Whether these packages are in the folder. What fails is tried again: another test may have apt's lock."""
    words = ["apt-get", "download", *packages]
    for pause in (0, 5, 20):
        time.sleep(pause)
        if run(words, cwd=FOLDER.name) or (os.getuid() == 0 and run(["apt-get", "update"]) and run(words, cwd=FOLDER.name)):
            return all(run(["dpkg", "-x", it, FOLDER.name]) for it in glob.glob(f"{FOLDER.name}/*.deb"))
    return False


def looked_for(name):
    folders = ["/usr/local/sbin", "/usr/sbin", "/sbin", *(f"{FOLDER.name}/{it}" for it in ("usr/sbin", "usr/bin", "sbin", "bin"))]
    return shutil.which(name) or shutil.which(name, path=":".join(folders))


def installed(name, *packages):
    """The path of a program, which these packages have."""
    if name not in FOUND:
        FOUND[name] = looked_for(name) or (looked_for(name) if unpacked(packages) else None)
    if FOUND[name]:
        return FOUND[name]
    why = f"{name} is not installed (apt-get install {packages[0]})"
    if "CI" in os.environ:
        raise Wrong(why)
    WITHOUT.append(why)
    raise Skipped(why)


def environment():
    """The environment in which a program of the folder finds its libraries."""
    libraries = [f"{FOLDER.name}/{it}" for it in ("usr/lib/x86_64-linux-gnu", "lib/x86_64-linux-gnu", "lib/x86_64-linux-gnu/systemd")]
    return {**os.environ, "LD_LIBRARY_PATH": ":".join(libraries)} if os.listdir(FOLDER.name) else dict(os.environ)


def end(status):
    """Ends a script, with 0 if nothing else is wrong than that tests were skipped that need a program of others."""
    is_well = False not in RESULTS and RESULTS.count(None) == len(WITHOUT)
    sys.exit(0 if RESULTS and is_well else status)


def said(words, seconds=60, **how):
    """The status of a command, and what it printed."""
    ran = subprocess.run(words, timeout=seconds, stdout=subprocess.PIPE, stderr=subprocess.STDOUT, text=True, **how)
    return ran.returncode, ran.stdout.strip()


def written(play, name, text):
    path = f"{play.room}/{name}"
    write(path, text)
    return path


# An nginx of its own.


def certificate(play, name="hub.example"):
    """A certificate of a host, that of the examples, and its key, if the changed files have them."""
    words = [installed("openssl", "openssl"), "req", "-x509", "-newkey", "rsa:2048", "-nodes", "-keyout", f"{play.room}/hub.key", "-out", f"{play.room}/hub.crt"]
    words += ["-days", "2", "-subj", f"/CN={name}", "-addext", f"subjectAltName=DNS:{name}"]
    status, told = said(words)
    want(status == 0, f"no certificate: {told}")


def with_nginx(play, *names, changes=()):
    """The configuration of an nginx that has these files of the examples and some texts in place of others."""
    own = [("/etc/ilpstream/", f"{play.room}/"), ("/etc/ssl/certs/ca-certificates.crt", f"{play.room}/hub.crt")]
    texts = [read(f"{EXAMPLES}/nginx/{name}.conf") for name in names]
    for old, new in [*own, *changes]:
        want(any(old in text for text in texts) or (old, new) in own, f"no {old} in {names}")
        texts = [text.replace(old, new) for text in texts]
    kinds = ("client_body", "proxy", "fastcgi", "uwsgi", "scgi")
    front = [f"pid {play.room}/nginx.pid;", f"error_log {play.room}/nginx.errors;", "daemon off;", "events {}", "http {", "access_log off;"]
    front += [f"{kind}_temp_path {play.room}/{kind};" for kind in kinds]
    if os.getuid() == 0:
        front.insert(0, f"user {getpass.getuser()} {grp.getgrgid(os.getgid()).gr_name};")
    return written(play, "nginx.conf", "\n".join([*front, *texts, "}\n"]))


def served(play, port, *names, changes=()):
    """An nginx that listens at a port, with these files of the examples."""
    path = with_nginx(play, *names, changes=changes)
    words = [installed("nginx", "nginx"), "-e", "stderr", "-c", path]
    it = subprocess.Popen(words, stdin=subprocess.DEVNULL, stdout=subprocess.DEVNULL, stderr=subprocess.PIPE, env=environment())
    play.started.append(it)
    it.port = port
    has_to_listen(it, "nginx")
    return it
