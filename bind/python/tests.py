#!/usr/bin/env python3
"""Tests of the Python module: wrong arguments, reads as io.RawIOBase has them, copies, threads, the wheel and the source
distribution, and the example wallet over a connector. tests/bindings.py runs it, with the folder of the shared object."""

import copy
import io
import os
import pickle
import subprocess
import sys
import tarfile
import tempfile
import threading
import tomllib
import unittest
import zipfile

HERE = os.path.dirname(os.path.abspath(__file__))
sys.path.insert(0, HERE)

import backend  # noqa: E402
import ilpstream  # noqa: E402
from ilpstream import (  # noqa: E402
    Account,
    Code,
    End,
    Fulfill,
    Hop,
    IlpError,
    Keys,
    Packet,
    PacketKind,
    Prepare,
    Request,
    Response,
    Role,
    StreamData,
    answer_text,
    condition,
    read_answer,
    request_text,
)

ALICE, BOB, IV = "example.alice", "example.bob", bytes(12)


def ends():
    return End(Role.CLIENT, bytes(32), ALICE, BOB), End(Role.SERVER, bytes(32), BOB, ALICE)


def passed(client, server, number=[0]):
    """All that a client has to send, with its answers."""
    number[0] += 1
    while prepare := client.send(number[0].to_bytes(12), 0):
        number[0] += 1
        client.answer(prepare.flight, server.receive(prepare.bytes, 0).bytes)


class Arguments(unittest.TestCase):
    def test_a_number_or_a_text_is_no_buffer(self):
        with ends()[0] as end, Hop("test.hub", [Account(1, 1)], []) as hop, Keys(bytes(32)) as keys:
            stream = end.open_stream()
            with Packet(PacketKind.PREPARE, 1) as packet, Response() as response:
                calls = [
                    lambda it: end.write(stream, it),
                    lambda it: end.receive(it, 0),
                    lambda it: end.answer(1, it),
                    lambda it: end.send(it, 0),
                    lambda it: End(Role.CLIENT, it, ALICE, BOB),
                    lambda it: hop.arrive(0, it, 0),
                    lambda it: hop.books(0, it, 0),
                    lambda it: hop.settle(0, it, 0),
                    lambda it: Keys(it),
                    lambda it: keys.seal(IV, it),
                    lambda it: keys.seal(it, b""),
                    lambda it: keys.open(it),
                    lambda it: keys.fulfillment(it),
                    lambda it: condition(it),
                    lambda it: Packet.read(PacketKind.PREPARE, it),
                    lambda it: packet.push(StreamData(1, 0, it)),
                    lambda it: response.feed(it),
                    lambda it: answer_text(it),
                    lambda it: request_text("host", "token", it),
                    lambda it: Prepare.read(it),
                    lambda it: read_answer(it),
                    lambda it: Fulfill(it).write(),
                    lambda it: Fulfill(bytes(32), it).write(),
                    lambda it: Prepare(1, 0, bytes(32), BOB, it).write(),
                ]
                for call in calls:
                    for it in (5, 32, 12, "text", None, 1.5, [1, 2]):
                        with self.assertRaises(TypeError):
                            call(it)
            self.assertEqual(end.totals().accepted, 0)

    def test_each_buffer_is_one(self):
        client, server = ends()
        with client, server:
            stream = client.open_stream()
            for it in (b"ab", bytearray(b"cd"), memoryview(b"efgh")[::2], memoryview(b"ijkl").cast("H")):
                client.write(stream, it)
            passed(client, server)
            self.assertEqual(server.read(stream), b"abcdegijkl")

    def test_numbers_are_whole(self):
        with ends()[0] as end:
            for it in (1.0, "1", None):
                with self.assertRaises(TypeError):
                    end.offer(it, 1)
            with self.assertRaises(ValueError):
                end.offer(1, 1 << 64)
            with self.assertRaises(ValueError):
                end.offer(-1, 1)


class Reads(unittest.TestCase):
    def test_a_read_is_that_of_a_raw_stream(self):
        client, server = ends()
        with client, server:
            self.assertIsNone(server.read(1))  # before the peer opened it
            with self.assertRaises(IlpError):
                server.read(2)  # its own, which it did not open
            with self.assertRaises(IlpError):
                server.read(65)
            stream = client.open_stream()
            client.write(stream, b"hello")
            passed(client, server)
            self.assertEqual(server.read(stream, 2), b"he")
            self.assertEqual(server.read(stream), b"llo")
            self.assertIsNone(server.read(stream))
            client.close(stream)
            passed(client, server)
            self.assertEqual(server.read(stream), b"")
            self.assertEqual(server.read(stream), b"")

    def test_a_raw_stream_over_it(self):
        class Raw(io.RawIOBase):
            def readable(self):
                return True

            def readinto(self, into):
                data = server.read(1, len(into))
                if data is not None:
                    into[: len(data)] = data
                return None if data is None else len(data)

        client, server = ends()
        with client, server:
            client.write(client.open_stream(), bytes(100_000))
            client.close(1)
            total, raw = b"", Raw()
            self.assertIsNone(raw.read(10))
            while (data := raw.read(7_000)) != b"":
                total += data or b""
                passed(client, server)
                passed(server, client)  # how much may follow
            self.assertEqual(total, bytes(100_000))

    def test_an_abort(self):
        client, server = ends()
        with client, server:
            stream = client.open_stream()
            client.write(stream, b"hi")
            client.abort(stream, 9)
            passed(client, server)
            with self.assertRaises(ilpstream.Aborted) as aborted:
                server.read(stream)
            self.assertEqual(aborted.exception.code, 9)

    def test_streams_that_are_open_and_ready(self):
        client, server = ends()
        with client, server:
            self.assertEqual((client.streams(), server.streams(), server.ready()), ([], [], []))
            first, second, own = client.open_stream(), client.open_stream(), server.open_stream()
            client.write(second, b"hi")
            client.offer(first, 5)
            server.set_receive_max(first, 5)
            passed(client, server)
            self.assertEqual((client.streams(), server.streams()), ([1, 3], [1, 2, 3]))
            self.assertEqual((server.ready(), client.ready(), own), ([second], [], 2))
            self.assertEqual(server.read(second), b"hi")
            self.assertEqual(server.ready(), [])
            client.abort(second, 9)
            passed(client, server)
            self.assertEqual(server.ready(), [second])
            with self.assertRaises(ilpstream.Aborted):
                server.read(second)

    def test_room(self):
        client, server = ends()
        with client, server:
            stream = client.open_stream()
            self.assertEqual(client.room(stream), 262_144)
            client.write(stream, bytes(262_100))
            self.assertEqual(client.room(stream), 44)
            with self.assertRaises(IlpError):
                client.write(stream, bytes(45))
            client.write(stream, bytes(44))
            self.assertEqual(client.room(stream), 0)
            with self.assertRaises(IlpError) as refused:
                client.room(3)
            self.assertEqual(refused.exception.number, Code.NO_STREAM)


class Objects(unittest.TestCase):
    def test_an_object_is_not_copied(self):
        objects = [*ends(), Hop("test.hub", [], []), Keys(bytes(32)), Packet(PacketKind.PREPARE, 1), Request(["a"]), Response()]
        for it in objects:
            for call in (copy.copy, copy.deepcopy, pickle.dumps):
                with it, self.assertRaises(TypeError):
                    call(it)

    def test_a_refusal(self):
        with self.assertRaises(IlpError) as refused:
            Keys(bytes(32)).open(bytes(30))
        error = pickle.loads(pickle.dumps(refused.exception))
        self.assertEqual((error.number, error.is_out_of_memory), (Code.TAG, False))
        self.assertTrue(IlpError(Code.HOP_NO_MEMORY).is_out_of_memory)
        self.assertIn("tag", error.explanation)

    def test_after_free(self):
        end = ends()[0]
        end.free()
        end.free()
        with self.assertRaises(IlpError) as refused:
            end.totals()
        self.assertEqual(refused.exception.number, Code.MISUSE)


class Threads(unittest.TestCase):
    def together(self, works):
        """Calls each function in a thread of its own, all at once, and returns what they raised."""
        raised, begin = [], threading.Barrier(len(works))

        def run(work):
            begin.wait()
            try:
                work()
            except Exception as error:
                raised.append(error)

        threads = [threading.Thread(target=run, args=(it,)) for it in works]
        for it in threads:
            it.start()
        for it in threads:
            it.join()
        return raised

    def test_threads_share_an_object(self):
        opened = [[] for _ in range(8)]
        with Keys(bytes(32)) as keys:

            def works(place):
                for number in range(300):
                    text = place.to_bytes(4) + number.to_bytes(4) * (number % 90)
                    payload = keys.seal(text[:4] + number.to_bytes(8), text)
                    opened[place].append(keys.open(payload) == text)

            self.assertEqual(self.together([lambda it=it: works(it) for it in range(8)]), [])
        self.assertEqual(opened, [[True] * 300] * 8)

    def test_a_connection_of_several_threads(self):
        client, server = ends()
        lock, number = threading.Lock(), [0]
        with client, server:
            streams = [client.open_stream() for _ in range(8)]
            texts = {it: bytes([it]) * 20_000 for it in streams}

            def writes(stream):
                for at in range(0, 20_000, 2_500):
                    client.write(stream, texts[stream][at : at + 2_500])
                client.close(stream)
                with lock:
                    number[0] += 1_000
                    passed(client, server, number)

            self.assertEqual(self.together([lambda it=it: writes(it) for it in streams]), [])
            received = {it: b"" for it in streams}
            for _ in range(400):
                passed(client, server, number)
                for it in streams:
                    received[it] += server.read(it) or b""
            self.assertEqual(received, texts)

    def test_a_free_meanwhile(self):
        for _ in range(50):
            keys = Keys(bytes(32))

            def works():
                for number in range(50):
                    keys.seal(number.to_bytes(12), b"text")

            raised = self.together([works, works, keys.free])
            self.assertLessEqual({it.number for it in raised}, {Code.MISUSE})
            with self.assertRaises(IlpError):
                keys.seal(IV, b"text")


class Packages(unittest.TestCase):
    def test_the_version(self):
        with open(f"{HERE}/pyproject.toml", "rb") as file:
            version = tomllib.load(file)["project"]["version"]
        from ilpstream._object import lib

        self.assertEqual({version}, {ilpstream.__version__, lib.ilp_version().decode()})

    def test_a_wheel(self):
        with tempfile.TemporaryDirectory() as room:
            name = backend.build_wheel(room)
            self.assertRegex(name, r"^ilpstream-0\.1\.0-py3-none-manylinux_2_\d+_x86_64\.whl$")
            self.assertLessEqual(int(name.split("_2_")[1].split("_")[0]), 17)
            with zipfile.ZipFile(f"{room}/{name}") as wheel:
                names = wheel.namelist()
                self.assertIn("Description-Content-Type", wheel.read("ilpstream-0.1.0.dist-info/METADATA").decode())
            self.assertTrue({"ilpstream/py.typed", "ilpstream/libilpstream.so"}.issubset(names))

    def test_a_source_distribution(self):
        with tempfile.TemporaryDirectory() as room:
            name = backend.build_sdist(room)
            with tarfile.open(f"{room}/{name}") as archive:
                archive.extractall(room, filter="data")
            words = ["import backend, os; print(backend.build_wheel('.'))"]
            places = {**os.environ, "ILPSTREAM_SYSTEM": "1"}
            ran = subprocess.run([sys.executable, "-c", *words], cwd=f"{room}/ilpstream-0.1.0", env=places, capture_output=True, text=True)
            self.assertEqual(ran.stdout, "ilpstream-0.1.0-py3-none-any.whl\n", ran.stderr)


if __name__ == "__main__":
    if sys.argv[1:]:
        os.environ["ILPSTREAM_OUT"] = sys.argv.pop(1)
    unittest.main()
