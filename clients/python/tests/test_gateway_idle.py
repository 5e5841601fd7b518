"""Idle sessions of a gateway are stopped, and idle clients are closed."""

from __future__ import annotations

import unittest
from pathlib import Path

from duqishom import Store
from tests.gateways import COLLECT_BEGIN, Gateway, folder_of, frame, get, set_, stand_in, step, stop, until

UNKNOWN_SESSION, VALUE = b"\xff\x01", b"\x82\x01\0\0\0\x01v"
ENDED = (EOFError, ConnectionError)
HEAVY = frame(b"\x10")

# A program that answers a Step or a heavy request only if a file is there, and a Get with 65,536 bytes.
HOLDS = """while body[0] in (4, 16) and not __import__("os").path.exists({file!r}): time.sleep(0.01)
    return bytes((0x82, 1, 0, 1, 0, 0)) + bytes(65536) if body[0] == 2 else plain(body)"""


class Stops(unittest.TestCase):
    """A gateway that looks itself."""

    def test_sessions(self) -> None:
        gateway = Gateway(self, ["--idle-session", "0.2"])
        held, committed, other = gateway.wire(), gateway.wire(), gateway.wire()
        first, second = held.begin(), committed.begin()
        for wire, start, rows, steps in ((held, first, b"ab", 1), (committed, second, b"cd", 4)):
            wire.send(b"".join(set_(start, bytes((row,)), b"v") for row in rows) + steps * step(start))
            replies = [wire.reply() for _ in range(2 + steps)]
        self.assertEqual(replies[-1][:2], b"\x84\x04")
        self.assertTrue(until(lambda: gateway.statistics()["open"]["sessions"] == 0))
        self.assertEqual(gateway.statistics()["ended"]["idle_sessions"], 2)
        for request in (get(first, b"a"), step(first), stop(first)):
            self.assertEqual(held.ask(request), UNKNOWN_SESSION)
        # The other one had committed
        self.assertEqual(other.read_cleaned(b"d"), VALUE)
        # No session holds the floor of collectors any more
        self.assertGreater(other.ask(COLLECT_BEGIN)[9:], second)

    def test_what_the_gateway_owes(self) -> None:
        """A session whose request is unanswered isn't idle, nor is one whose request waits, or a client that waits."""
        file = Path(folder_of(self), "file")
        program = stand_in(self, HOLDS.format(file=str(file)))
        gateway = Gateway(self, ["--program", program, "--idle-session", "0.1", "--idle-client", "0.1"])
        steps, heavy, waits, idle = (gateway.wire() for _ in range(4))
        starts = [wire.begin() for wire in (steps, waits, idle)]
        steps.send(step(starts[0]))
        self.assertTrue(until(lambda: gateway.statistics()["held"]["asked"] > 0))
        heavy.send(HEAVY)
        waits.send(HEAVY + get(starts[1], b"r"))
        # It is stopped, and then its client is closed
        self.assertRaises(ENDED, idle.reply)
        self.assertEqual(gateway.statistics()["ended"]["idle_sessions"], 1)
        file.touch()
        self.assertEqual([wire.reply()[0] for wire in (steps, heavy, waits, waits)], [0x84, 0x90, 0x90, 0x82])

    def test_clients(self) -> None:
        gateway = Gateway(self, ["--idle-client", "0.2"])
        silent, has = gateway.wire(), gateway.wire()
        start = has.begin()
        with Store(socket=gateway.path) as store:
            store.put(b"r", b"c", b"v")
            self.assertRaises(ENDED, silent.reply)
            self.assertTrue(until(lambda: gateway.statistics()["ended"]["idle_clients"] == 2))
            self.assertEqual(store.get(b"r", b"c"), b"v")
        self.assertEqual(has.ask(stop(start)), b"\x85")
        self.assertRaises(ENDED, has.reply)


if __name__ == "__main__":
    unittest.main()
