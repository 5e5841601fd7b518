"""Clients that die: their sessions, cleaners and collectors are ended, and no other client is harmed."""

from __future__ import annotations

import unittest

from tests.gateways import (
    BEGIN,
    COLLECT_BEGIN,
    Gateway,
    Wire,
    clean_begin,
    collect_step,
    get,
    raw,
    set_,
    step,
    stop,
    until,
)

TOO_MANY_SESSIONS = b"\xff\x07"
NO_LOCK = b"\x86\x00"


class Deaths(unittest.TestCase):
    """The fate of the things that a dead client had open."""

    def open_are(self, gateway: Gateway, sessions: int, cleaners: int = 0, collectors: int = 0) -> None:
        """Waits until exactly these numbers of things are open."""
        wanted = {"sessions": sessions, "cleaners": cleaners, "collectors": collectors}
        self.assertTrue(until(lambda: gateway.statistics()["open"] == wanted), gateway.statistics()["open"])

    def test_at_any_byte_of_a_commit(self) -> None:
        gateway = Gateway(self)
        reader = gateway.wire()
        whole = len(set_(bytes(8), b"x", b"1")) * 2 + 5 * len(step(bytes(8)))
        for cut in range(0, whole + 1, 7):
            wire = gateway.wire()
            start = wire.begin()
            requests = set_(start, b"x", b"%d" % cut) + set_(start, b"y", b"%d" % cut) + 5 * step(start)
            wire.send(requests[:cut])
            wire.close()
            self.open_are(gateway, 0)
            values = [reader.read_cleaned(row) for row in (b"x", b"y")]
            self.assertEqual(values[0], values[1])

    def test_a_committed_one_is_there(self) -> None:
        """Though its session was stopped before it had finished the cells."""
        gateway = Gateway(self)
        wire, reader = gateway.wire(), gateway.wire()
        start = wire.begin()
        wire.send(b"".join(set_(start, row, b"v") for row in (b"x", b"y", b"z")) + 5 * step(start))
        self.assertEqual([wire.reply() for _ in range(8)][-1][:2], b"\x84\x04")
        wire.close()
        self.open_are(gateway, 0)
        for row in (b"x", b"y", b"z"):
            self.assertEqual(reader.read_cleaned(row)[-1:], b"v")

    def test_cleaners_and_collectors_come_to_their_ends(self) -> None:
        gateway = Gateway(self)
        wire, other = gateway.wire(), gateway.wire()
        for number in range(40):
            other.commit(b"%d" % number, b"1")
            other.commit(b"%d" % number, b"2")
        start = other.begin()
        other.send(set_(start, b"x", b"v") + step(start) + stop(start))
        for _ in range(3):
            other.reply()
        self.assertEqual(wire.ask(clean_begin(b"x"))[:2], b"\x86\x01")
        for _ in range(4):
            self.assertEqual(wire.ask(COLLECT_BEGIN)[0], 0x88)
        wire.close()
        self.open_are(gateway, 0)
        self.assertEqual(other.ask(clean_begin(b"x")), NO_LOCK)
        self.assertEqual(other.ask(raw(b"7", 3))[:2], b"\x91\x01")

    def test_a_collector_that_is_blocked(self) -> None:
        gateway = Gateway(self)
        wire, other = gateway.wire(), gateway.wire()
        start = other.begin()
        other.send(set_(start, b"x", b"v") + step(start) + stop(start))
        for _ in range(3):
            other.reply()
        collector = wire.ask(COLLECT_BEGIN)[1:9]
        self.assertEqual(wire.ask(collect_step(collector, 1))[:2], b"\x89\x02")
        wire.close()
        self.open_are(gateway, 0)
        self.assertEqual(other.ask(clean_begin(b"x")), NO_LOCK)

    def test_a_thousand_leave_no_session(self) -> None:
        gateway = Gateway(self)
        for _ in range(1200):
            wire = Wire(gateway.path)
            self.assertEqual(wire.ask(BEGIN)[0], 0x81)
            wire.close()
        self.open_are(gateway, 0)

    def test_left_sessions_fill_the_store(self) -> None:
        """They stay as long as no other client of the user needs one."""
        gateway = Gateway(self, ["--leave"])
        for _ in range(16):
            wire = Wire(gateway.path)
            wire.send(64 * BEGIN)
            self.assertEqual({wire.reply()[0] for _ in range(64)}, {0x81})
            wire.close()
        self.open_are(gateway, 1024)
        wire = gateway.wire()
        replies = [wire.ask(BEGIN) for _ in range(62)]
        self.assertEqual(([reply[0] for reply in replies[:60]], replies[60:]), (60 * [0x81], 2 * [TOO_MANY_SESSIONS]))
        self.open_are(gateway, 1024)

    def test_a_session_that_was_begun_for_a_dead_client(self) -> None:
        gateway = Gateway(self)
        for _ in range(50):
            wire = Wire(gateway.path)
            wire.send(BEGIN)
            wire.close()
        self.open_are(gateway, 0)
        self.assertEqual(gateway.wire().ask(get(bytes(8), b"r")), b"\xff\x01")


if __name__ == "__main__":
    unittest.main()
