"""Two ends in memory: 1 MiB and 500 units are sent from a client to a server."""

import os
import time

from ilpstream import End, Role

SIZE, UNITS = 1 << 20, 500


def now():
    return time.time_ns() // 1_000_000


def passed(client, server):
    """The client's next Prepare is given to the server, and the answer to the client. False if nothing is to be sent."""
    prepare = client.send(os.urandom(12), now())  # never an IV twice
    if prepare is None:
        return False
    client.answer(prepare.flight, server.receive(prepare.bytes, now()).bytes)
    return True


def main():
    secret = os.urandom(32)
    sent, received, written = bytes(i * 7 & 255 for i in range(SIZE)), b"", 0
    with (
        End(Role.CLIENT, secret, "example.alice", "example.bob") as client,
        End(Role.SERVER, secret, "example.bob", "example.alice") as server,
    ):
        stream = client.open_stream()
        server.set_receive_max(stream, UNITS)
        client.offer(stream, UNITS)
        while written < SIZE or passed(client, server):
            part = sent[written:][: client.room(stream)]  # what does not wait for an acknowledgement
            client.write(stream, part)
            written += len(part)
            passed(client, server)
            while part := server.read(stream):
                received += part
        paid, credited = client.totals().paid, server.totals().credited
    assert received == sent and paid == credited == UNITS
    print(f"{len(received)} bytes arrived intact; paid {paid}, credited {credited}")


main()
