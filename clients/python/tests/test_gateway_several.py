"""Commits and Reads at a gateway: whose sessions they may name, what they cost, and what watches tell of them."""

from __future__ import annotations

import os
import unittest
from pathlib import Path

from duqishom import Store
from duqishom.fields import counted, number
from duqishom.frames import whole_frames
from tests.gateways import (
    BEGIN,
    COLUMN,
    NEW,
    STATISTICS,
    Gateway,
    Wire,
    commit,
    folder_of,
    frame,
    get,
    read,
    set_,
    step,
    stop,
    until,
)

ONE = (b"r", b"v")
UNKNOWN_SESSION, WRONG_PHASE, TOO_MANY, EMPTY = b"\xff\x01", b"\xff\x02", b"\xff\x07", b"\xff\x08"
BAD_COUNT, BAD_REQUEST = b"\xff\x0e", b"\xff\x16"
DONE, CONFLICT, NOTHING = b"\xb2\x01", b"\xb2\x02", b"\x82\x00"

# Bodies of Commits and Reads behind their start: of these the program is asked, whoever owns the session.
NO_COMMITS = (
    b"",
    b"\0\0\0",
    b"\0\0\0\1",
    b"\0\0\0\0\0",
    b"\0\0\0\1\0\0\0\1r\0\0\0\1c",
    b"\0\0\0\1\0\0\0\1r\0\0\0\1c\2",
    b"\0\0\0\1\0\0\0\1r\0\0\0\1c\1\0\0\0\2v",
    b"\0\0\0\1\0\0\0\1r\0\0\0\1c\0\0",
    b"\0\0\0\2\0\0\0\1r\0\0\0\1c\0",
    b"\xff\xff\xff\xff\0\0\0\1r\0\0\0\1c\0",
)
NO_READS = (
    b"",
    b"\0",
    b"\0\0\0\0",
    b"\2\0\0\0\1\0\0\0\1r\0\0\0\1c",
    b"\0\0\0\0\1\0\0\0\1r\0\0\0\1",
    b"\0\0\0\0\1\0\0\0\1r\0\0\0\1c\0",
    b"\0\0\0\0\2\0\0\0\1r\0\0\0\1c",
)


class Belongings(unittest.TestCase):
    """Owners of the sessions that Commits and Reads name, begin and end."""

    def test_another_s_are_unknown(self) -> None:
        gateway = Gateway(self)
        wire, other = gateway.wire(), gateway.wire()
        start = wire.begin()
        for request in (commit(start, ONE), commit(start), read(start, b"r"), read(start, b"r", stays=b"\1")):
            self.assertEqual(other.ask(request), UNKNOWN_SESSION)
        for code, bodies in ((b"\x32", NO_COMMITS), (b"\x33", NO_READS)):
            for body in bodies:
                self.assertEqual(other.ask(frame(code + start + body)), BAD_REQUEST)
                self.assertEqual(wire.ask(frame(code + start + body)), BAD_REQUEST)
                self.assertEqual(wire.ask(frame(code + NEW + body)), BAD_REQUEST)
        for rows in (list[bytes](), [b"r"] * 257):
            self.assertEqual([each.ask(read(start, *rows)) for each in (wire, other)], [BAD_COUNT, UNKNOWN_SESSION])
        self.assertEqual(wire.ask(commit(start, ONE)), DONE + start + number(8, 2))
        self.assertEqual(gateway.statistics()["open"]["sessions"], 0)

    def test_a_read_s_own(self) -> None:
        """A session that a Read begins and leaves open is its client's, until another Read, a Commit or a Stop ends it."""
        gateway = Gateway(self)
        wire, other = gateway.wire(), gateway.wire()
        starts = [wire.ask(read(NEW, b"r", stays=b"\1"))[1:9] for _ in range(4)]
        self.assertEqual(gateway.statistics()["open"]["sessions"], 4)
        for request in (get(starts[0], b"r"), commit(starts[0], ONE), read(starts[0], b"r"), stop(starts[0])):
            self.assertEqual(other.ask(request), UNKNOWN_SESSION)
        self.assertEqual(wire.ask(get(starts[0], b"r")), NOTHING)
        self.assertEqual(wire.ask(read(starts[0], b"r", stays=b"\1"))[:9], b"\xb3" + starts[0])
        for open_still, request in ((3, read(starts[0], b"r")), (2, commit(starts[1], ONE)), (1, stop(starts[2]))):
            self.assertNotEqual(wire.ask(request)[:1], b"\xff")
            self.assertEqual(gateway.statistics()["open"]["sessions"], open_still)
            self.assertEqual(wire.ask(request)[:1], b"\xff")
        self.assertEqual(wire.ask(commit(starts[3], ONE)), CONFLICT + starts[3] + b"\0\1")
        self.assertEqual(gateway.statistics()["open"]["sessions"], 0)

    def test_what_ends_belongs_to_nobody(self) -> None:
        gateway = Gateway(self, ["--sessions", "1"])
        wire = gateway.wire()
        wire.send(200 * (commit(NEW, ONE) + read(NEW, b"r")) + BEGIN)
        self.assertEqual({wire.reply()[:1] for _ in range(400)}, {b"\xb2", b"\xb3"})
        start = wire.reply()[1:]
        for request in (commit(NEW, ONE), read(NEW, b"r"), read(NEW, b"r", stays=b"\1"), BEGIN):
            self.assertEqual(wire.ask(request), TOO_MANY)
        self.assertEqual([wire.ask(read(NEW)), wire.ask(frame(b"\x32" + NEW))], [BAD_COUNT, BAD_REQUEST])
        self.assertEqual(wire.ask(commit(start, ONE))[:2], CONFLICT if start < number(8, 400) else DONE)

    def test_heavy_ones_that_wait(self) -> None:
        """Two clients with one session each send Commits and Reads that each wait until the program is idle."""
        gateway = Gateway(self, ["--sessions", "1"])
        wires = [gateway.wire() for _ in range(2)]
        rows = [b"%02d" % place for place in range(70)]
        for wire in wires:
            wire.send(10 * (commit(NEW, *((row, b"v") for row in rows)) + read(NEW, *rows)) + BEGIN)
        for wire in wires:
            replies = [wire.reply() for _ in range(21)]
            self.assertEqual([reply[:1] for reply in replies], 10 * [b"\xb2", b"\xb3"] + [b"\x81"])
        self.assertEqual(gateway.statistics()["user_sessions"], {str(os.getuid()): 2})

    def test_a_refusal_ends_nothing(self) -> None:
        gateway = Gateway(self)
        wire = gateway.wire()
        start, late = wire.begin(), wire.begin()
        wire.send(set_(late, b"l", b"v") + step(late))
        self.assertEqual([wire.reply()[0] for _ in range(2)], [0x83, 0x84])
        for request, refusal in (
            (commit(start), EMPTY),
            (commit(start, (b"", b"v")), b"\xff\x03"),
            (read(start, b""), b"\xff\x03"),
            (read(start), BAD_COUNT),
            (commit(late, ONE), WRONG_PHASE),
            (read(late, b"r"), WRONG_PHASE),
            (commit(NEW), EMPTY),
            (read(NEW, b"", stays=b"\1"), b"\xff\x03"),
        ):
            self.assertEqual(wire.ask(request), refusal)
            self.assertEqual(gateway.statistics()["open"]["sessions"], 2)
        self.assertEqual(wire.ask(commit(start, ONE))[:2], DONE)

    def test_shared_ones_are_everybody_s(self) -> None:
        gateway = Gateway(self, ["--shared"])
        wire, other = gateway.wire(), gateway.wire()
        start = wire.ask(read(NEW, b"r", stays=b"\1"))[1:9]
        self.assertEqual(other.ask(commit(start, ONE))[:2], DONE)
        self.assertEqual(gateway.statistics()["open"]["sessions"], 0)

    def test_a_client_that_is_gone(self) -> None:
        gateway = Gateway(self)
        wire = gateway.wire()
        for _ in range(5):
            wire.ask(read(NEW, b"r", stays=b"\1"))
        wire.send(20 * read(NEW, b"r", stays=b"\1") + commit(NEW, ONE)[:-1])
        wire.close()
        self.assertTrue(until(lambda: gateway.statistics()["open"]["sessions"] == 0))
        self.assertEqual(gateway.wire().read(b"r"), NOTHING)

    def test_requests_in_one_piece(self) -> None:
        wire = Gateway(self).wire()
        one, two = number(8, 1), number(8, 2)
        wire.send(read(NEW, b"r", stays=b"\1") + set_(one, b"s", b"v") + commit(one, ONE) + commit(one, ONE) + read(one, b"r"))
        found = b"\xb3" + one + b"\0\0\0\1\0"
        self.assertEqual([wire.reply() for _ in range(5)], [found, b"\x83", DONE + one + two, UNKNOWN_SESSION, UNKNOWN_SESSION])

    def test_a_recording_has_them(self) -> None:
        place = folder_of(self)
        gateway = Gateway(self, ["--record", place])
        with Store(socket=gateway.path) as store:
            store.put(b"r", COLUMN, b"v")
            self.assertEqual(store.get(b"r", COLUMN), b"v")
        self.assertEqual(gateway.stop(), 0)
        bodies: list[bytes] = []
        whole_frames((Path(place) / "requests").read_bytes(), bodies)
        self.assertLessEqual({0x32, 0x33}, {body[4] for body in bodies if body[4:]})


class Costs(unittest.TestCase):
    """Long replies, and counts."""

    def test_long_replies(self) -> None:
        """Many that are asked for together come in order."""
        wire = Gateway(self).wire()
        rows = [b"%02d" % place for place in range(15)]
        self.assertEqual(wire.ask(commit(NEW, *((row, b"v") for row in rows)))[:2], DONE)
        wire.send(20 * read(NEW, *rows) + get(NEW, b"r"))
        for place in range(20):
            self.assertEqual(wire.reply(), b"\xb3" + number(8, 3 + place) + number(4, 15) + 15 * b"\1\0\0\0\1v")
        self.assertEqual(wire.reply(), UNKNOWN_SESSION)

    def test_counts(self) -> None:
        gateway = Gateway(self)
        wire = gateway.wire()
        start = wire.begin()
        for request in (commit(NEW, ONE), commit(start, ONE), read(NEW, b"r"), read(NEW)):
            wire.ask(request)
        told = gateway.statistics()
        self.assertEqual([told["requests"][name] for name in ("Begin", "Commit", "Read")], [1, 2, 2])
        self.assertEqual((told["conflicts"], told["refusals"]["BadCount"]), ({"Conflict": 1, "Lost": 0}, 1))
        self.assertEqual([told["latency_seconds"][name]["count"] for name in ("Commit", "Read")], [2, 2])


def watch(prefix: bytes) -> bytes:
    return frame(b"\x74" + counted(prefix) + b"\0")


def changed(watch: int, stamp: int, *rows: bytes) -> bytes:
    """The message on a commit, by its stamp."""
    cells = b"".join(counted(row) + counted(COLUMN) for row in rows)
    return b"\xf4\1" + number(8, watch) + number(8, stamp) + number(4, len(rows)) + cells


class Watches(unittest.TestCase):
    """A Commit that is answered Done is told with its cells."""

    def test_cells(self) -> None:
        gateway = Gateway(self)
        watcher, wire = gateway.wire(), gateway.wire()
        watcher.ask(watch(b"a"))
        blind = commit(NEW, (b"ab", b"v"), (b"b", b"v"), (b"a", None), (b"ab", b"w"))
        self.assertEqual(wire.ask(blind), DONE + number(8, 1) + number(8, 2))
        self.assertEqual(watcher.told(), [changed(1, 2, b"ab", b"a")])
        start = wire.begin()
        self.assertEqual(wire.ask(set_(start, b"ac", b"v")), b"\x83")
        self.assertEqual(wire.ask(commit(start, (b"ad", b"v"), (b"ac", b"w")))[:2], DONE)
        self.assertEqual(watcher.told(), [changed(1, 4, b"ac", b"ad")])
        wire.send(commit(NEW, (b"b", b"v")) + commit(NEW, (b"ae", b"v")))
        self.assertEqual([wire.reply()[:2] for _ in range(2)], 2 * [DONE])
        self.assertEqual(watcher.told(), [changed(1, 8, b"ae")])
        self.assertEqual(gateway.statistics()["watches"], {"open": 1, "changes": 3, "unnamed": 0})

    def test_what_is_not_committed(self) -> None:
        gateway = Gateway(self)
        watcher, wire = gateway.wire(), gateway.wire()
        watcher.ask(watch(b""))
        start, late = wire.begin(), wire.begin()
        wire.send(set_(late, b"l", b"v") + step(late))
        self.assertEqual([wire.reply()[0] for _ in range(2)], [0x83, 0x84])
        self.assertEqual(wire.ask(commit(NEW, (b"l", b"v")))[:2], CONFLICT)
        self.assertEqual(wire.ask(commit(start, (b"a", b"v"), (b"", b"v"))), b"\xff\x03")
        self.assertEqual(wire.ask(read(start, b"a", stays=b"\1"))[:1], b"\xb3")
        self.assertEqual(watcher.told(), [])
        self.assertEqual(wire.ask(commit(start, (b"c", b"v"))), DONE + start + number(8, 4))
        self.assertEqual(watcher.told(), [changed(1, 4, b"c")])

    def test_a_session_that_began_before(self) -> None:
        """It may have written other cells of the watch. A Commit that begins its session has all of its cells with it."""
        gateway = Gateway(self)
        watcher, wire = gateway.wire(), gateway.wire()
        start = wire.begin()
        wire.ask(set_(start, b"ab", b"v"))
        watcher.ask(watch(b"a"))
        self.assertEqual(wire.ask(commit(start, (b"ac", b"v")))[:2], DONE)
        self.assertEqual(watcher.told(), [b"\xf4\2" + number(8, 1)])

    def test_a_watch_that_begins_meanwhile(self) -> None:
        """While the program commits: it is told, and with the cells."""
        gateway = Gateway(self)
        watcher, wire = gateway.wire(), gateway.wire()
        rows = [b"%03d" % place for place in range(256)]
        wire.send(commit(NEW, *((row, b"v") for row in rows)))
        self.assertEqual(watcher.ask(watch(b"255"))[:2], b"\xf4\0")
        done = wire.reply()
        self.assertEqual(done[:2], DONE)
        watcher.send(STATISTICS)
        message = watcher.reply()
        self.assertIn(message[:2], (b"\xf4\1", b"\xf0{"))
        if message[0] == 0xF4:
            self.assertEqual(message, changed(1, 2, b"255"))

    def test_a_store_s_own(self) -> None:
        gateway = Gateway(self)
        with Store(socket=gateway.path) as store, store.watch(b"a") as changes:
            first = changes.wait(10)
            assert first is not None
            self.assertIsNone(first.cells)
            store.put(b"ab", COLUMN, b"v")
            change = changes.wait(10)
            assert change is not None and change.cells is not None
            self.assertEqual([tuple(cell) for cell in change.cells], [(b"ab", COLUMN)])
            self.assertEqual(store._support.is_there, True)


if __name__ == "__main__":
    unittest.main()
