#!/usr/bin/env python3
"""Runs what examples/systemd, examples/logrotate and examples/nginx have: examples.py [PROGRAM [WORD]]. Each file is read by the
program that it is for; and the commands of the units are run as systemd would, with other folders, hosts and ports, and with the
units' limits and system calls (tests/confined.py): they begin a connector and a receiver, read the table again, open the log anew,
and end them well. A line for each test; the last one counts them. Needs systemd-analyze, logrotate and nginx (tests/installed.py)."""
import getpass
import glob
import grp
import os
import re
import shlex
import socket
import subprocess
import time

from confined import confined
from installed import EXAMPLES, certificate, end, environment, installed, said, served, with_nginx, written
from peers import HOST, answer, asked, ended, free_port, free_ports, fulfill, prepare, request, totals
from play import PROGRAM, arrives, comes, has_to_listen, main, some_bytes, test, want
from repository import read, read_bytes

UNITS = ("connector", "receive")
EXPOSURE = 3  # of 10, by `systemd-analyze security`: a unit is below it
ROOTS = {"%t": "run", "%S": "lib", "%L": "log", "%d": "etc"}  # the folders of systemd's specifiers, in a test's own


# What reads them.


def unit(play, name):
    """A copy of a unit that names the tested program."""
    text = read(f"{EXAMPLES}/systemd/ilpstream-{name}.service")
    want("/usr/local/bin/ilpstream " in text, "the unit names no program")
    return written(play, f"ilpstream-{name}.service", text.replace("/usr/local/bin/ilpstream ", f"{PROGRAM} "))


@test(*[(name,) for name in UNITS])
def a_unit_is_verified(play, name):
    systemd = installed("systemd-analyze", "systemd")
    status, told = said([systemd, "verify", "--man=no", unit(play, name)])
    # (of other units of this machine it may say more)
    wrong = [line for line in told.splitlines() if "ilpstream" in line]
    want(not wrong and status == 0, f"status {status}: {told}")
    return "verified"


@test(*[(name,) for name in UNITS])
def a_unit_is_hardened(play, name):
    systemd = installed("systemd-analyze", "systemd")
    status, told = said([systemd, "security", "--offline=yes", "--no-pager", unit(play, name)])
    found = re.search(r"Overall exposure level for \S+: ([\d.]+)", told)
    want(status == 0 and found, f"status {status}: {told}")
    want(float(found[1]) < EXPOSURE, f"exposure {found[1]}, and not below {EXPOSURE}")
    return f"exposure {found[1]}"


def rotation(play, log="", pipe=""):
    """A copy of the file for logrotate, for the present user, and if they are given with another log and another pipe."""
    text = read(f"{EXAMPLES}/logrotate/ilpstream")
    user, group = getpass.getuser(), grp.getgrgid(os.getgid()).gr_name
    text = re.sub(r"(?m)^ *su ilpstream ilpstream\n", f"    su {user} {group}\n" if os.getuid() == 0 else "", text)
    text = text.replace("/var/log/ilpstream-connector/log", log or "/var/log/ilpstream-connector/log")
    return written(play, "rotation", text.replace("/run/ilpstream-connector/control", pipe or "/run/ilpstream-connector/control"))


@test()
def logrotate_reads_its_file(play):
    rotate = installed("logrotate", "logrotate", "libpopt0")
    status, told = said([rotate, "-d", f"--state={play.room}/state", rotation(play)], env=environment())
    want(status == 0 and "error" not in told and "rotating pattern: /var/log/ilpstream-connector/log" in told, f"status {status}: {told}")
    return "read"


@test(*[(name,) for name in ("tls", "onward", "spread")])
def nginx_reads(play, name):
    nginx = installed("nginx", "nginx")
    certificate(play)
    # (a name that does not resolve is refused)
    changes = [("https://hub.example", f"https://{HOST}:9")] if name == "onward" else []
    path = with_nginx(play, name, changes=changes)
    status, told = said([nginx, "-t", "-e", "stderr", "-c", path], env=environment())
    want(status == 0 and "warn" not in told, f"status {status}: {told}")
    return "read"


@test(("hub.example", "0"), ("other.example", "58"), waits=True)
def a_transfer_over_tls_to(play, name, wanted):
    """From a sender over onward.conf and tls.conf to a receiver; if the certificate is another host's, none."""
    certificate(play, name)
    way, front = free_ports(2)
    receiver, content = play.receive(), some_bytes(300_000)
    changes = [("listen 443 ssl", f"listen {HOST}:{front} ssl"), ("listen 127.0.0.1:7780", f"listen {HOST}:{way}")]
    changes += [("proxy_pass http://127.0.0.1:7770;", f"proxy_pass http://{HOST}:{receiver.port};")]
    changes += [("proxy_pass https://hub.example;", f"proxy_pass https://{HOST}:{front};\nproxy_ssl_name hub.example;")]
    served(play, way, "tls", "onward", changes=changes)
    sender = play.send(way, content, "--money=500")
    if wanted == "0":
        return arrives(sender, receiver, content)
    told = ended(sender, 60)
    want(told == wanted and os.path.getsize(receiver.path) == 0, f"send {told}, {os.path.getsize(receiver.path)} bytes arrived")
    return f"send {told}"


# The commands of the units.


def settings(name):
    """The settings of a unit: of each its values, in order."""
    found = {}
    text = re.sub(r"(?m)^#.*\n", "", read(f"{EXAMPLES}/systemd/ilpstream-{name}.service"))
    for line in re.sub(r"\\\n", " ", text).splitlines():
        key, has_value, value = line.partition("=")
        if has_value:
            found.setdefault(key, []).append(value)
    return found


class Service:
    """A service as systemd would begin and end it, in a test's own folder."""

    def __init__(self, play, name, changes=()):
        self.play, self.name, self.settings = play, name, settings(name)
        self.changes = [("/usr/local/bin/ilpstream", PROGRAM), ("/etc/ilpstream", f"{play.room}/etc"), *changes]
        self.folder = {key: f"{play.room}/{folder}/ilpstream-{name}" for key, folder in ROOTS.items()}
        os.makedirs(f"{play.room}/etc", exist_ok=True)
        for key, it in (("%S", "StateDirectory"), ("%L", "LogsDirectory"), ("%t", "RuntimeDirectory")):
            want(self.settings[it] == [f"ilpstream-{name}"], f"{it}={self.settings[it]}")
            os.makedirs(self.folder[key])

    def words(self, key):
        """The words of the one command of a setting."""
        text = self.settings[key][0]
        for old, new in [*self.changes, *((it, f"{self.play.room}/{folder}") for it, folder in ROOTS.items())]:
            text = text.replace(old, new)
        want("%" not in text and len(self.settings[key]) == 1, f"{key}={text}")
        return [word.replace("$$", "$") for word in shlex.split(text)]

    def run(self, key, seconds=45, process=True):
        """The status of a command that the unit has in addition to the process itself, and what it printed. As systemd does, it waits for
        the process meanwhile, so that this is gone once it has ended."""
        number = {"MAINPID": str(self.process.pid)} if process else {}
        it = subprocess.Popen(self.words(key), stdin=subprocess.DEVNULL, stdout=subprocess.PIPE, stderr=subprocess.STDOUT, env={**os.environ, **number})
        self.play.started.append(it)
        want(comes(lambda: [self.process.poll(), it.poll()][1] is not None, seconds), f"{key} does not end in {seconds} seconds")
        with it.stdout as told:
            return it.returncode, told.read().decode().strip()

    def begin(self, port):
        status, told = said(self.words("ExecStartPre"))
        want(status == 0, f"ExecStartPre: {status}, {told}")
        how = {"stdin": subprocess.DEVNULL, "stdout": subprocess.DEVNULL, "stderr": subprocess.PIPE}
        self.process = subprocess.Popen(self.words("ExecStart"), preexec_fn=confined(self.settings), **how)
        self.play.started.append(self.process)
        self.process.port = port
        has_to_listen(self.process, "it")

    def stop(self):
        """Ends it by ExecStop, which waits for its end."""
        status, told = self.run("ExecStop")
        is_over = self.process.poll() is not None
        want((status, told) == (0, "") and is_over, f"ExecStop: status {status}, {told!r}, and the process is {'over' if is_over else 'there'}")
        how = ended(self.process, 1)
        want(how == "0", f"it ends with {how}")
        begun = time.monotonic()
        status, told = self.run("ExecStop", process=False)
        want((status, told) == (0, "") and time.monotonic() - begun < 5, f"ExecStop once more: {status}, {told!r}")


def table(port, *more):
    rows = ["account NAME=alice 1000000 1000000 alice - -", f"account NAME=bob 0 0 none {HOST}:{port} t", *more, "route test.b 1"]
    return "".join(f"{row}\n" for row in rows)


def connector(play, port):
    """The connector of the unit, whose account bob is reached at a port."""
    own = free_port()
    service = Service(play, "connector", [("10.0.0.2:7770", f"{HOST}:{own}"), ("example.hub", "test.hub")])
    written(play, "etc/table", table(port))
    service.begin(own)
    return service


@test()
def the_connector_of_the_unit_stops_with_its_books(play):
    receiver, content = play.receive(), some_bytes(50_000)
    service = connector(play, receiver.port)
    told = arrives(play.send(service.process.port, content, "--money=500", token="alice"), receiver, content)
    service.stop()
    state = service.folder["%S"]
    found = totals(f"{state}/totals")
    money = {name: number for name, number in found.items() if number and name.split()[0] == "account"}
    want(money == {"account 0 claims": 500, "account 1 dues": 500}, f"totals {found}")
    _, books = said([PROGRAM, "ledger", f"{state}/books"])
    want(books == "account alice claims 500 dues 0\naccount bob claims 0 dues 500\nstarts 1", f"books {books!r}")
    log = read(f"{service.folder['%L']}/log")
    want(log.endswith(" end ok\n") and " listening " in log, f"log {log[-300:]!r}")
    return told


@test()
def a_connector_of_the_unit_finishes_what_is_open(play):
    def slow(_, stream):
        time.sleep(3)
        stream.sendall(answer(fulfill()))

    service = connector(play, play.peer(slow).port)
    with socket.create_connection((HOST, service.process.port), timeout=20) as stream:
        stream.sendall(request("alice", prepare(7, 20, "test.b")))
        time.sleep(0.5)
        service.stop()
        came = stream.makefile("rb").read()
    want(came.endswith(fulfill()), f"the answer is {came[-60:]!r}")
    _, books = said([PROGRAM, "ledger", f"{service.folder['%S']}/books"])
    want(books.startswith("account alice claims 7 dues 0\n"), f"books {books!r}")
    return "fulfilled"


@test()
def a_reload_of_the_unit_reads_the_table_again(play):
    port = free_port()
    service = connector(play, port)
    ask = request("carol", prepare(0, 20, "test.none"))
    before = asked((HOST, service.process.port), ask)[0][9:12]
    written(play, "etc/table", table(port, "account NAME=carol 1000 1000 carol - -"))
    status, told = service.run("ExecReload")
    want((status, told) == (0, ""), f"ExecReload: {status}, {told!r}")
    want(before == b"401" and comes(lambda: asked((HOST, service.process.port), ask)[0][9:12] == b"200"), f"before the reload {before}, and no 200 after it")
    # (a bad table changes nothing)
    written(play, "etc/table", "account\n")
    service.run("ExecReload")
    time.sleep(0.5)
    again = asked((HOST, service.process.port), ask)[0][9:12]
    want(again == b"200", f"behind a bad table {again}")
    service.stop()
    return "401, then 200"


@test()
def logrotate_rotates_the_log_of_the_unit(play):
    rotate = installed("logrotate", "logrotate", "libpopt0")
    service = connector(play, free_port())
    path, lines = f"{service.folder['%L']}/log", 0
    for number in range(1, 4):
        words = [rotate, "--force", f"--state={play.room}/state", rotation(play, path, f"{service.folder['%t']}/control")]
        status, told = said(words, env=environment())
        want(status == 0 and not told, f"logrotate: {status}, {told}")
        want(comes(lambda: os.path.exists(path)), "the path is not opened anew")
        was = len(read(f"{path}.1"))
        asked((HOST, service.process.port), request("unknown", prepare(0, 20, "test.b")))
        want(comes(lambda: " connection status=401 " in read(path)), f"the new log has {read(path)!r}")
        want(len(read(f"{path}.1")) == was, "the old log still grows")
    service.stop()
    for it in glob.glob(f"{path}*"):
        text = subprocess.run(["zcat", "-f", it], check=True, stdout=subprocess.PIPE, text=True).stdout
        want(not text or text.endswith("\n"), f"{it} ends in a part of a line")
        lines += text.count(" status=401 ")
    want(lines == 3 and read(path).endswith(" end ok\n"), f"{lines} of 3 lines")
    # (a pipe that nobody reads keeps logrotate for five seconds)
    begun = time.monotonic()
    said([rotate, "--force", f"--state={play.room}/state", f"{play.room}/rotation"], env=environment())
    want(time.monotonic() - begun < 20, "logrotate waits for a connector that is over")
    return "3 times"


@test()
def the_receiver_of_the_unit(play):
    port, content = free_port(), some_bytes(50_000)
    changes = [("10.0.0.3:7771", f"{HOST}:{port}"), ("example.bob", "test.b"), ("example.alice", "test.a")]
    service = Service(play, "receive", changes)
    written(play, "etc/token", "t\n")
    written(play, "etc/secret", f"{play.secret}\n")
    service.begin(port)
    # A sender that does not end, since its input does not.
    given, writer = play.pipe()
    sender = play.send(port, given, "--money=500")
    writer.write(content)
    state = service.folder["%S"]
    want(comes(lambda: read_bytes(f"{state}/received") == content), "not all is written")
    # (the money may still be on its way)
    want(comes(lambda: service.run("ExecReload")[0] == 0 and comes(lambda: totals(f"{state}/totals"), 1).get("credited") == 500), "no totals, or not all of the money")
    service.stop()
    found = totals(f"{state}/totals")
    want((found.get("delivered"), found.get("credited")) == (50_000, 500), f"totals {found}")
    want(read(f"{service.folder['%L']}/log").endswith(" end ok\n"), "the log has no end")
    sender.kill()
    return "50,000 bytes and 500 units"


if __name__ == "__main__":
    end(main())
