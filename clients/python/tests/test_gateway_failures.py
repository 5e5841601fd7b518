"""A gateway that fails: it ends with a status and a line of its own, and no client gets another's reply."""

from __future__ import annotations

import os
import resource
import socket
import unittest
from contextlib import suppress

from tests.gateways import BEGIN, COLLECT_BEGIN, Gateway, Wire, folder_of, frame, raw, stand_in

FAILED = 70
ENDED = (EOFError, ConnectionError)


class Failures(unittest.TestCase):
    def assert_failed(self, gateway: Gateway, why: str) -> None:
        """It has ended with its status and with one line, and its socket is gone."""
        self.assertEqual(gateway.process.wait(60), FAILED)
        assert gateway.process.stderr is not None
        line = rf"\Aduqishom: the gateway has failed: {why}\n\Z"
        self.assertRegex(gateway.process.stderr.read(), line)
        self.assertFalse(os.path.exists(gateway.path))

    def limit(self, gateway: Gateway, size: int) -> None:
        """Limits the size of the gateway's files to this many bytes."""
        resource.prlimit(gateway.process.pid, resource.RLIMIT_FSIZE, (size, size))

    def goes_on(self, wire: Wire, reply: bytes) -> bool:
        """Whether the next reply comes, which must be this one, and not the end of the connection."""
        try:
            self.assertEqual(wire.reply(), reply)
        except ENDED:
            return False
        return True

    def test_a_recording_that_can_not_grow(self) -> None:
        for full, row, value in (("requests", b"r" * 3000, b"v"), ("replies", b"r", b"v" * 3000)):
            place = folder_of(self)
            gateway = Gateway(self, ["--record", place])
            asking = []
            for cell, has in ((row, value), (b"1", b"one"), (b"2", b"two"), (b"3", b"three")):
                wire, request = gateway.wire(), raw(cell, 1)
                wire.commit(cell, has)
                asking.append((wire, request, wire.ask(request)))
            idle = gateway.wire()
            self.limit(gateway, 40_000)
            while asking:
                for wire, request, _ in asking:
                    with suppress(ConnectionError):
                        wire.send(request)
                asking = [(wire, request, reply) for wire, request, reply in asking if self.goes_on(wire, reply)]
            self.assertRaises(ENDED, idle.reply)
            self.assert_failed(gateway, rf"{place}/{full}: File too large \(os error 27\)")
            self.assertEqual(os.path.getsize(f"{place}/{full}"), 40_000)

    def test_nothing_is_done_without_its_record(self) -> None:
        place = folder_of(self)
        gateway = Gateway(self, ["--record", place])
        wire = gateway.wire()
        before = os.path.getsize(f"{place}/requests")
        self.limit(gateway, before + 3)
        self.assertRaises(ENDED, wire.begin)
        self.assert_failed(gateway, rf"{place}/requests: File too large \(os error 27\)")
        self.assertEqual(os.path.getsize(f"{place}/requests"), before + 3)

    def test_what_nothing_expects(self) -> None:
        twice = "sys.stdout.buffer.write(b'\\0\\0\\0\\5\\0\\0\\0\\2\\x90') and plain(body)"
        place = r".* \(\w+\.rs, line \d+\)"
        # A reply too many, another client's, one that is cut, and cut replies to the gateway's own requests: periodic
        # ones, and those for dead clients
        for answer, words, request, why in (
            (f"{twice} if body[0] == 16", "", frame(b"\x10"), "the reply to a request of client 4294967295 isn't its own"),
            (f"{twice} if body[0] == 1", "", 2 * BEGIN, "the reply to a request of client 1 isn't its own"),
            ("b'' if body[0] == 1", "", BEGIN, "the reply to a request of client 1 isn't its own"),
            ("b'\\xff' if body[0] == 18", f"--dir {folder_of(self)} --checkpoint 1", b"", place),
            ("b'\\x89\\x02' if body[0] == 9", "", COLLECT_BEGIN, f"the cell at which a collector is blocked{place}"),
        ):
            with self.subTest(answer):
                program = stand_in(self, f"return {answer} else plain(body)")
                gateway = Gateway(self, ["--program", program, *words.split()])
                wire, other = gateway.wire(), gateway.wire()
                wire.send(request)
                wire.socket.shutdown(socket.SHUT_WR)
                self.assertRaises(ENDED, other.reply)
                self.assert_failed(gateway, why)


if __name__ == "__main__":
    unittest.main()
