#!/usr/bin/env python3
"""`send` to `receive` over loopback, manually, on a quiet machine:

    bench/transfer.py [PROGRAM] [--runs=N] [--level=v2|v3] [--bench=PROGRAM] [--many=N]

16 MiB by 1, 4 and 16 workers, in bytes and exchanges a second by the clock, and in turns with these runs:

- *limit*: the cipher and the hash alone, as both ends need them for as many bytes, on all processors at once (crates/bench, built for
  the given level; without one, for that for which ./ilpstream is built here). It needs no other program. --bench names one that is
  built already, which is not built again.
- *TLS*: nginx and wrk over TLS 1.3 with AES-256-GCM, without the processor's AES instructions, over connections that stay open.
- *plain*: nginx and wrk with a connection for each message, as ours: the price of HTTP.

nginx and wrk exchange messages of the same sizes, over as many connections as there are workers: a request of 16,200 bytes, and a
static answer of the size of a Fulfill. nginx has as many workers as there are processors. The medians of the runs of each, and the
ratios of ours to them. It runs in a network of its own, in which the kernel's count of accepted connections is that of exchanges.

With --many=N, N transfers of 4 MiB by 1, 2, 4, 8 and 16 workers each, in turns, in place of all that: the median, and the longest.

Needs `unshare` and `ip`; says so if nginx, wrk or openssl is not installed."""
import os, secrets, shutil, socket, statistics, subprocess, sys, tempfile, time

TOP = os.path.join(os.path.dirname(os.path.realpath(__file__)), "..")
sys.path.insert(0, f"{TOP}/tools")
os.environ["PATH"] += ":/usr/sbin:/sbin"
PIECE, REQUEST, FULFILL = 16_000, 16_200, 95  # bytes of the file in a Prepare, of the Prepare and some more, and of its Fulfill
SIZE, SMALL = 16 << 20, 4 << 20
PROCESSORS = len(os.sched_getaffinity(0))
# The processor's AES and carry-less multiplication instructions, and those that came after them, are not to be used.
NO_AES = {**os.environ, "OPENSSL_ia32cap": "~0x200000200000000:~0"}
ENDS = "--address=example.alice", "--peer=example.bob", "--address=example.bob", "--peer=example.alice"


def option(name, without):
    return next((it.partition("=")[2] for it in sys.argv[1:] if it.startswith(f"--{name}=")), without)


def in_own_network():
    """Runs this script again in a network of its own. nginx, begun by user 0, would change to a user that is not there."""
    if "TRANSFER_INSIDE" not in os.environ:
        words = ["unshare", "--user", "--map-user=1000", "--map-group=1000", "--keep-caps", "--net", sys.executable, *sys.argv]
        os.execvpe(words[0], words, {**os.environ, "TRANSFER_INSIDE": "1"})
    subprocess.run(["ip", "link", "set", "lo", "up"], check=True)


def accepted():
    """The connections that were accepted in this network."""
    with open("/proc/net/snmp", encoding="ascii") as lines:
        names, values = [line.split() for line in lines if line.startswith("Tcp:")]
    return int(values[names.index("PassiveOpens")])


def until_it_listens(port):
    while True:
        with socket.socket() as it:
            if it.connect_ex(("127.0.0.1", port)) == 0:
                return
        time.sleep(0.01)


class Transfers:
    """Transfers of a file by the program."""

    def __init__(self, program, room):
        self.program, self.room, self.port = program, room, 7771
        self.common = ["--token=bob", f"--secret={secrets.token_hex(32)}"]
        for name, size in (("large", SIZE), ("small", SMALL)):
            with open(f"{room}/{name}", "wb") as file:
                file.write(os.urandom(size))

    def one(self, name, workers):
        """A transfer: the seconds that it took, and its exchanges."""
        self.port += 1
        with open(f"{self.room}/got", "wb") as got:
            words = [self.program, "receive", f"--listen=127.0.0.1:{self.port}", *self.common, *ENDS[2:]]
            receiver = subprocess.Popen(words, stdout=got)
        until_it_listens(self.port)
        before, begun = accepted(), time.monotonic()
        with open(f"{self.room}/{name}", "rb") as file:
            words = [self.program, "send", f"--to=127.0.0.1:{self.port}", *self.common, *ENDS[:2], f"--workers={workers}"]
            subprocess.run(words, stdin=file, check=True)
        status = receiver.wait()
        taken, exchanges = time.monotonic() - begun, accepted() - before
        same = subprocess.run(["cmp", f"{self.room}/{name}", f"{self.room}/got"], check=False).returncode == 0
        if status or not same:
            sys.exit(f"receive ended with {status}; the file is the same: {same}")
        return taken, exchanges


class Alone:
    """The cipher and the hash alone, on all processors at once."""

    def __init__(self, program):
        self.program = program

    def rate(self):
        """Bytes a second that are sealed, opened, and hashed at both ends."""
        packets, begun = 2_000, time.monotonic()
        words = [self.program, "end", "0", "1", str(packets), str(packets)]
        for it in [subprocess.Popen(words, stdout=subprocess.DEVNULL) for _ in range(PROCESSORS)]:
            it.wait()
        return PROCESSORS * packets * PIECE / (time.monotonic() - begun)


def built_bench(level):
    """The program of crates/bench, proved and built for this level if it is older than its sources."""
    folder = f"{TOP}/crates/bench"
    print("proving and building bench, if it is older than its sources", file=sys.stderr)
    subprocess.run(["rt", "run", *level, "--", "end", "0", "1", "0", "0"], cwd=folder, check=True, stdout=sys.stderr)
    return f"{folder}/out/bench"


class Others:
    """nginx, and wrk as its client."""

    def __init__(self, room, tls):
        self.room, self.scheme, self.port = f"{room}/{'tls' if tls else 'plain'}", "https" if tls else "http", 7770 - tls
        os.mkdir(self.room)
        self.environment = NO_AES if tls else os.environ
        self.write("nginx.conf", self.settings(tls))
        close = "" if tls else 'wrk.headers["Connection"] = "close"\n'
        body = f'wrk.method = "POST"\nwrk.body = string.rep("x", {REQUEST})\n'
        self.write("post.lua", f'{body}{close}wrk.headers["Content-Type"] = "application/octet-stream"\nwrk.headers["Authorization"] = "Bearer bob"\n')
        if tls:
            words = "req -x509 -newkey ec -pkeyopt ec_paramgen_curve:P-256 -nodes -keyout key.pem -out cert.pem -subj /CN=localhost"
            subprocess.run(["openssl", *words.split()], cwd=self.room, check=True, capture_output=True)
        self.nginx = subprocess.Popen(["nginx", "-e", f"{self.room}/errors", "-c", f"{self.room}/nginx.conf"], env=self.environment, stderr=subprocess.DEVNULL)
        until_it_listens(self.port)

    def write(self, name, text):
        with open(f"{self.room}/{name}", "w", encoding="ascii") as file:
            file.write(text)

    def settings(self, tls):
        kinds = ("client_body", "proxy", "fastcgi", "uwsgi", "scgi")
        folders = "\n".join(f"{it}_temp_path {self.room}/{it};" for it in kinds)
        stays = "keepalive_timeout 60; keepalive_requests 100000000;" if tls else "keepalive_timeout 0;"
        keys = f"ssl_certificate {self.room}/cert.pem; ssl_certificate_key {self.room}/key.pem; ssl_protocols TLSv1.3;"
        ssl = f"{keys} ssl_conf_command Ciphersuites TLS_AES_256_GCM_SHA384;" if tls else ""
        answer = f'location = /ilp {{ default_type application/octet-stream; return 200 "{"x" * FULFILL}"; }}'
        return f"""daemon off; worker_processes {PROCESSORS}; pid {self.room}/pid; error_log {self.room}/errors;
events {{ worker_connections 1024; }}
http {{ access_log off; client_body_buffer_size 64k; {stays} {ssl}
{folders}
server {{ listen 127.0.0.1:{self.port}{" ssl" if tls else ""}; {answer} }} }}
"""

    def rate(self, connections):
        """Exchanges a second over this number of connections."""
        words = ["wrk", f"-t{min(connections, PROCESSORS)}", f"-c{connections}", "-d2s", "-s", f"{self.room}/post.lua"]
        told = subprocess.run([*words, f"{self.scheme}://127.0.0.1:{self.port}/ilp"], env=self.environment, check=True, capture_output=True, text=True).stdout
        lines = told.split("\n")
        if any("Non-2xx" in it or "Socket errors" in it for it in lines):
            sys.exit(told)
        return next(float(it.split()[1]) for it in lines if it.startswith("Requests/sec"))

    def end(self):
        self.nginx.terminate()
        self.nginx.wait()


def medians(rows):
    return [statistics.median(it) for it in zip(*rows)]


def compare(transfers, runs, alone, others):
    """Prints a line for each number of workers."""
    heads = ["workers", "MB a second", "exchanges/s", "exchanges", "MB/s, limit", "ratio", *[it for name in others for it in (f"{name}/s", "ratio")]]
    print(("{:>13}" * len(heads)).format(*heads))
    for workers in 1, 4, 16:
        rows = []
        for _ in range(runs):
            taken, exchanges = transfers.one("large", workers)
            rows.append([SIZE / taken, exchanges / taken, exchanges, alone.rate(), *[it.rate(workers) for it in others.values()]])
        rate, each, exchanges, limit, *theirs = medians(rows)
        cells = [f"{rate / 1e6:.1f}", f"{each:.0f}", f"{exchanges:.0f}", f"{limit / 1e6:.0f}", f"{rate / limit:.2f}"]
        cells += [cell for it in theirs for cell in (f"{it:.0f}", f"{each / it:.2f}")]
        print(("{:>13}" * len(heads)).format(workers, *cells), flush=True)


def time_many(transfers, count):
    """Prints the median and the longest of many small transfers by each number of workers."""
    taken = {workers: [] for workers in (1, 2, 4, 8, 16)}
    for _ in range(count):
        for workers, found in taken.items():
            found.append(transfers.one("small", workers)[0])
    print(("{:>13}" * 4).format("workers", "median, s", "longest, s", "ratio"))
    for workers, found in taken.items():
        median = statistics.median(found)
        print(("{:>13}" * 4).format(workers, f"{median:.3f}", f"{max(found):.3f}", f"{max(found) / median:.1f}"))


def main():
    in_own_network()
    program = next((it for it in sys.argv[1:] if not it.startswith("--")), f"{TOP}/crates/ilpstream/out/ilpstream")
    with tempfile.TemporaryDirectory(prefix="transfer-") as room:
        transfers = Transfers(os.path.realpath(program), room)
        if option("many", ""):
            time_many(transfers, int(option("many", "")))
        else:
            os.environ["LEVEL"] = option("level", os.environ.get("LEVEL", ""))
            import build

            lacking = [it for it in ("nginx", "wrk", "openssl") if not shutil.which(it)]
            if lacking:
                print(f"{' and '.join(lacking)} not installed, so nginx and wrk are not measured", file=sys.stderr)
            others = {} if lacking else {"TLS": Others(room, True), "plain": Others(room, False)}
            alone = Alone(option("bench", "") or built_bench(build.level()))
            compare(transfers, int(option("runs", "3")), alone, others)
            for it in others.values():
                it.end()
        with open("/proc/loadavg", encoding="ascii") as file:
            print(f"load average: {' '.join(file.read().split()[:3])}, {PROCESSORS} processors")


if __name__ == "__main__":
    main()
