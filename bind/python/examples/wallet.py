"""A wallet over a connector, by asyncio: it sends its standard input and units to a peer, and what the peer sends is written to
standard output. Both directions go at once, by ILP over HTTP (RFC 0035).

    wallet.py client|server LISTEN TOKEN CONNECTOR TOKEN SECRET OWN PEER UNITS

LISTEN and CONNECTOR are HOST:PORT; the first TOKEN is the one that the connector shows here, the second the one to show there. SECRET is
64 hexadecimal digits, which both wallets share; OWN and PEER are ILP addresses; and UNITS are offered to the peer, of which up to
1,000,000 are accepted. It ends once both directions are closed, and writes on standard error what was paid and credited."""

import asyncio
import os
import sys
import time

from ilpstream import End, Request, Response, Role, Status, Whole, answer_text, refusal_text, request_text

SECONDS = 10
MOST = 1_000_000
FULFILL = b"\x0d"  # the first octet of a Fulfill (RFC 0027)


def now():
    return time.time_ns() // 1_000_000


async def message(reader, reading):
    """A message that is read to its end."""
    while data := await reader.read(65536):
        progress = reading.feed(data)
        if isinstance(progress, (Whole, Status)):
            return progress
    return None


class Wallet:
    def __init__(self, role, connector, token, secret, own, peer, units):
        self.end = End(role, secret, own, peer, in_flight=8)
        self.connector, self.token = connector, token
        # Set if the end may have something to send, or to be read.
        self.woken = asyncio.Event()
        self.stream = self.end.open_stream()
        self.theirs = 2 if role is Role.CLIENT else 1
        self.end.set_receive_max(self.theirs, MOST)
        self.end.offer(self.stream, units)
        self.has_ended = False
        # Whether the last exchange had no Fulfill.
        self.is_failing = False

    # ---- what arrives

    async def serve(self, reader, writer, token):
        """Answers a request of the connector."""
        try:
            with Request([token]) as reading:
                asked = await asyncio.wait_for(message(reader, reading), SECONDS)
            if isinstance(asked, Whole):
                writer.write(answer_text(self.end.receive(asked.body, now()).bytes))
                self.read()
            elif asked is not None:
                writer.write(refusal_text(asked.status))
            await writer.drain()
        except (OSError, TimeoutError):
            pass
        finally:
            writer.close()
            self.woken.set()

    def read(self):
        """Writes what can be read to standard output."""
        for stream in self.end.ready():
            while data := self.end.read(stream):
                sys.stdout.buffer.write(data)
            self.has_ended |= data == b""
        sys.stdout.buffer.flush()

    # ---- what is sent

    async def exchange(self, prepare):
        """Sends a Prepare to the connector, and reports its answer."""
        host, port = self.connector.rsplit(":", 1)
        writer = None
        try:
            async with asyncio.timeout(SECONDS):
                reader, writer = await asyncio.open_connection(host, int(port))
                writer.write(request_text(host, self.token, prepare.bytes))
                with Response() as reading:
                    answer = await message(reader, reading)
        except (OSError, TimeoutError):
            answer = None
        finally:
            if writer:
                writer.close()
        if isinstance(answer, Whole):
            self.end.answer(prepare.flight, answer.body)
        else:
            self.end.fault(prepare.flight)
        self.is_failing = not isinstance(answer, Whole) or answer.body[:1] != FULFILL
        if self.is_failing:
            await asyncio.sleep(0.1)
        self.read()
        self.woken.set()

    async def send_all(self):
        """Sends what there is, until both directions are closed."""
        async with asyncio.TaskGroup() as group:
            while not (self.end.settled(self.stream) and self.has_ended):
                if self.end.is_failed():
                    raise SystemExit(f"the connection failed: {self.end.last_failure()}")
                self.woken.clear()
                while prepare := self.end.send(os.urandom(12), now()):  # never an IV twice
                    group.create_task(self.exchange(prepare))
                    if self.is_failing:  # the peer may not listen yet: one by one until it does
                        break
                try:
                    await asyncio.wait_for(self.woken.wait(), 0.2)
                except TimeoutError:
                    pass  # a Prepare that waited may be due

    async def feed(self):
        """Writes standard input to the stream, as far as it takes it, and closes it."""
        while data := await asyncio.to_thread(sys.stdin.buffer.read1, 65536):
            while data:
                taken = data[: self.end.room(self.stream)]
                if not taken:  # too many bytes wait for an acknowledgement
                    await asyncio.sleep(0.01)
                    continue
                self.end.write(self.stream, taken)
                data = data[len(taken) :]
                self.woken.set()
        self.end.close(self.stream)
        self.woken.set()


async def main(role, listen, token_here, connector, token_there, secret, own, peer, units):
    role = Role.CLIENT if role == "client" else Role.SERVER
    wallet = Wallet(role, connector, token_there, bytes.fromhex(secret), own, peer, int(units))
    host, port = listen.rsplit(":", 1)
    server = await asyncio.start_server(lambda *of: wallet.serve(*of, token_here), host, int(port))
    async with server:
        await asyncio.gather(wallet.feed(), wallet.send_all())
        await asyncio.sleep(1)  # the peer may repeat a Prepare whose answer was lost
    totals = wallet.end.totals()
    wallet.end.free()
    print(f"paid {totals.paid}, credited {totals.credited}", file=sys.stderr)


asyncio.run(main(*sys.argv[1:]))
