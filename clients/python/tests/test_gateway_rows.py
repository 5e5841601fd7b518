"""A gateway of a program that asks a bridge for its rows, and several of them at one socket, without rows: the program
is a stand-in that opens no pipes."""

from __future__ import annotations

import os
import socket
import unittest
from pathlib import Path

from duqishom.workers import memory_bridge
from tests.gateways import BEGIN, Gateway, Wire, commit, folder_of, frame, listens, of_tablet, raw, read, stand_in, until
from tests.served import Served, is_running, kill

MEMORY = ["--memory-bridge"]
BAD_REQUEST = b"\xff\x16"

# The requests that servers over shared rows don't offer, and one that they do.
REFUSED = (
    *(of_tablet(code, 1) for code in range(0x0A, 0x11)),
    raw(b"row", 2),
    frame(b"\x12"),
    commit(bytes(8), (b"row", b"value")),
    read(bytes(8), b"row"),
    of_tablet(0x34, 0),
    frame(b"\x74" + bytes(5)),
)


class RowsTest(unittest.TestCase):
    def test_what_is_refused(self) -> None:
        # A Begin is answered how often it was asked for more than what a gateway asks for by itself
        count = "len([code for code in asked if code not in (0, 1, 5)])"
        program = stand_in(self, f"return bytes((0x81,)) + {count}.to_bytes(8, 'big') if body[0] == 1 else bytes((255, 22))")
        wire = Gateway(self, ["--program", program, "--rows", "/nowhere"]).wire()
        wire.send(b"".join(REFUSED) + BEGIN)
        self.assertEqual([wire.reply() for _ in REFUSED], [BAD_REQUEST] * len(REFUSED))
        self.assertEqual(wire.reply(), b"\x81" + bytes(8))

    def test_words(self) -> None:
        for words in (["--dir", "."], ["--admin", "/nowhere/admin"], ["--log"]):
            gateway = Gateway(self, ["--program", "/bin/false", "--rows", "/nowhere", *words])
            self.assertEqual(gateway.process.wait(60), 2, words)
        shown = stand_in(self, "return bytes((0xF0,)) + repr(sys.argv[1:]).encode()")
        wire = Gateway(self, ["--program", shown, "--rows", "/some where"]).wire()
        told = wire.ask(frame(b"\1"))[1:]
        self.assertTrue(told.startswith(b"['--rows', '/some where', "), told)


class ServedTest(unittest.TestCase):
    def setUp(self) -> None:
        self.program = stand_in(self, "return plain(body)")

    def served(self, count: int = 3) -> Served:
        served = Served(self, MEMORY, count, self.program)
        self.assertTrue(served.is_ready(), served.said())
        return served

    def test_clients_are_spread(self) -> None:
        served = self.served(4)
        wires = [Wire(served.path) for _ in range(16)]
        gateways = served.processes("duqishom-gateway")
        self.assertEqual(len(gateways), 4)
        for wire in wires:
            self.addCleanup(wire.close)
            wire.begin()
        # No one has them all: on a quiet machine each has four of them
        counts = [len(list(Path(f"/proc/{gateway}/fd").iterdir())) for gateway in gateways]
        self.assertLess(max(counts) - min(counts), len(wires), counts)
        self.assertEqual(served.end(), 0)
        self.assertFalse(os.path.exists(served.path))

    def test_a_dead_server_is_begun_again(self) -> None:
        served = self.served()
        for name in ("duqishom-gateway", "stand_in"):
            before = served.processes(name)
            self.assertEqual(len(before), 3)
            kill(before[1])
            self.assertTrue(until(lambda: not is_running(before[1])))
            wire = Wire(served.path)
            self.addCleanup(wire.close)
            self.assertEqual(wire.begin()[:1], b"\0")
            self.assertTrue(until(lambda: len(served.processes(name)) == 3 and before[1] not in served.processes(name)))
        self.assertTrue(any("has ended with status" in line for line in served.said()))
        self.assertEqual(served.end(), 0)

    def test_all_end_with_the_bridge(self) -> None:
        served = self.served()
        others = served.processes("duqishom-gateway") + served.processes("stand_in")
        kill(served.processes("memory_bridge.py")[0])
        self.assertEqual(served.process.wait(60), 70)
        self.assertFalse(os.path.exists(served.path))
        self.assertTrue(until(lambda: not any(map(is_running, others))))
        self.assertIn("the bridge has ended", " ".join(served.said()))

    def test_all_end_with_the_parent(self) -> None:
        served = self.served()
        others = [process for name in ("duqishom-gateway", "stand_in", "memory_bridge.py") for process in served.processes(name)]
        self.assertEqual(len(others), 7)
        served.kill()
        self.assertTrue(until(lambda: not any(map(is_running, others))))
        # Its socket is left behind, and replaced
        served.start()
        self.assertTrue(until(lambda: listens(served.path)))
        self.assertEqual(served.end(), 0)

    def test_what_is_not_served(self) -> None:
        served = self.served(1)
        folder = folder_of(self)
        Path(folder, "file").touch()
        for words, count, program in (
            ([*MEMORY, "--socket", served.path], 1, self.program),
            ([*MEMORY, "--tcp", "4321"], 1, self.program),
            ([*MEMORY, "--dir", folder], 1, self.program),
            ([*MEMORY, "--no-such-word"], 1, self.program),
            (MEMORY, 0, self.program),
            (MEMORY, 2, "/bin/false"),
            (["--memory-bridge=--no-such-word"], 1, self.program),
            (["--rados", "/nowhere"], 1, self.program),
        ):
            other = Served(self, words, count, program)
            if "--socket" in words:
                other.end()
                other._command = [word for word in other._command if word != other.path]
                other._command.remove("--socket")
                other.start()
            self.assertNotEqual(other.process.wait(60), 0, words)
            self.assertFalse(listens(other.path))
        with socket.socket(socket.AF_UNIX) as asks:
            asks.connect(served.path)

    def test_bridge_of_tests(self) -> None:
        self.assertTrue(Path(memory_bridge("")[1]).exists())


if __name__ == "__main__":
    unittest.main()
