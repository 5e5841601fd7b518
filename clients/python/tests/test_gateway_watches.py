"""Watches of a gateway: which commits a client is told of, when, and with which cells."""

from __future__ import annotations

import socket
import unittest

from duqishom import Store
from duqishom.fields import counted, number
from tests.gateways import (
    COLUMN,
    Gateway,
    Wire,
    frame,
    set_,
    step,
    stop,
    until,
)

BAD_ROW, BAD_COLUMN, TOO_MANY, BAD_REQUEST = b"\xff\x03", b"\xff\x04", b"\xff\x07", b"\xff\x16"
COMMITTED = b"\x84\x04"
ROW = b"a" * 4000

# The most watches of a client, the untaken bytes beyond which it isn't told of cells, and the most bytes of a message's.
WATCHES_OF_CLIENT, CHANGES_OF_CLIENT, CHANGE_SIZE = 16, 32_768, 32_768


def watch(prefix: bytes, family: bytes | None = None) -> bytes:
    return frame(b"\x74" + counted(prefix) + (b"\0" if family is None else b"\1" + counted(family)))


def set_in(start: bytes, row: bytes, family: bytes) -> bytes:
    return frame(b"\x03" + start + counted(row) + counted(family) + counted(b"v"))


def delete(start: bytes, row: bytes) -> bytes:
    return frame(b"\x13" + start + counted(row) + counted(COLUMN))


def begun(watch: int) -> bytes:
    return b"\xf4\0" + number(8, watch)


def changed(watch: int, committed: bytes, *cells: tuple[bytes, bytes]) -> bytes:
    """The message on a commit, by the answer to its Step."""
    parts = [counted(part) for cell in cells for part in cell]
    return b"".join([b"\xf4\1", number(8, watch), committed[2:], number(4, len(cells)), *parts])


def unnamed(watch: int) -> bytes:
    return b"\xf4\2" + number(8, watch)


class Watches(unittest.TestCase):
    """What is told."""

    def watching(self, gateway: Gateway, *watches: bytes) -> Wire:
        """A client with these watches."""
        wire = gateway.wire()
        for request in watches:
            self.assertEqual(wire.ask(request)[:2], b"\xf4\0")
        return wire

    def answers(self, wire: Wire, frames: bytes, count: int) -> list[bytes]:
        wire.send(frames)
        return [wire.reply() for _ in range(count)]

    def test_when(self) -> None:
        """Once it is committed, and so that a session that begins later shows it."""
        gateway = Gateway(self)
        watcher, wire = self.watching(gateway, watch(b"a")), gateway.wire()
        start = wire.begin()
        self.answers(wire, set_(start, b"ab", b"v") + set_(start, b"b", b"v") + 3 * step(start), 5)
        self.assertEqual(watcher.told(), [])
        committed = wire.ask(step(start))
        self.assertEqual(watcher.reply(), changed(1, committed, (b"ab", COLUMN)))
        self.assertEqual(watcher.read(b"ab"), b"\x82\1\0\0\0\1v")
        self.assertEqual(wire.ask(step(start))[:2], b"\x84\6")
        self.assertEqual(watcher.told(), [])

    def test_which_cells(self) -> None:
        gateway = Gateway(self)
        prefixes = ((b"", None), (b"a", None), (b"ab", None), (b"ab", b"d"), (b"abcd", None), (b"b", b"c"))
        watcher = self.watching(gateway, *(watch(*each) for each in prefixes))
        wire = gateway.wire()
        start = wire.begin()
        writes = set_(start, b"ab", b"v") + set_in(start, b"ab", b"d") + delete(start, b"b") + set_(start, b"ab", b"w")
        committed = self.answers(wire, writes + 5 * step(start), 9)[-1]
        ab, abd, b = (b"ab", COLUMN), (b"ab", b"d"), (b"b", COLUMN)
        told = [changed(1, committed, ab, abd, b), changed(6, committed, b)]
        told += [changed(2, committed, ab, abd), changed(3, committed, ab, abd), changed(4, committed, abd)]
        self.assertEqual(sorted(watcher.told()), sorted(told))
        self.assertEqual(wire.commit(b"c", b"v")[:2], COMMITTED)
        self.assertEqual(watcher.reply()[:10], changed(1, committed)[:10])
        self.assertEqual(gateway.statistics()["watches"], {"open": 6, "changes": 6, "unnamed": 0})

    def test_what_is_not_committed(self) -> None:
        gateway = Gateway(self)
        watcher, wire, other = self.watching(gateway, watch(b"")), gateway.wire(), gateway.wire()
        first, second, third = wire.begin(), wire.begin(), wire.begin()
        self.answers(wire, set_(first, b"a", b"v") + 2 * step(first) + stop(first), 4)
        self.answers(wire, set_(second, b"a", b"v") + step(second), 2)
        self.assertEqual(self.answers(wire, set_(third, b"", b"v") + set_(third, b"b", b"v" * 70_000) + stop(third), 3)[0], BAD_ROW)
        self.assertEqual(watcher.told(), [])
        committed = other.commit(b"b", b"v")
        self.assertEqual(watcher.told(), [changed(1, committed, (b"b", COLUMN))])

    def test_a_session_that_began_before(self) -> None:
        """It may have written cells of the watch, and it is told without them: whether it has or not."""
        gateway = Gateway(self)
        wire, other = gateway.wire(), gateway.wire()
        start, early = wire.begin(), other.begin()
        self.answers(wire, set_(start, b"ab", b"v") + step(start), 2)
        self.answers(other, set_(early, b"x", b"v"), 1)
        watcher = self.watching(gateway, watch(b"a"))
        self.answers(wire, 2 * step(start), 2)
        self.answers(other, 3 * step(early), 3)
        self.assertEqual(watcher.told(), [unnamed(1), unnamed(1)])
        self.answers(other, 3 * step(early), 3)
        late = self.watching(gateway, watch(b"a"))
        committed = wire.commit(b"ab", b"v")
        for each, name in ((watcher, 1), (late, 2)):
            self.assertEqual(each.told(), [changed(name, committed, (b"ab", COLUMN))])

    def test_the_session_of_another_client(self) -> None:
        gateway = Gateway(self, ["--shared"])
        watcher, wire, other = self.watching(gateway, watch(b"a")), gateway.wire(), gateway.wire()
        start = wire.begin()
        self.answers(other, set_(start, b"a", b"v"), 1)
        committed = self.answers(wire, 3 * step(start), 3)[-1]
        self.assertEqual(watcher.told(), [changed(1, committed, (b"a", COLUMN))])
        self.assertEqual(other.ask(set_(number(8, 77), b"a", b"v")), b"\xff\1")

    def test_clients_that_are_gone(self) -> None:
        """Whatever they had sent: it is told if it is committed, and not else."""
        gateway = Gateway(self)
        watcher, reader, found = self.watching(gateway, watch(b"")), gateway.wire(), list[bool]()
        whole = len(set_(bytes(8), b"00", b"v")) + 3 * len(step(bytes(8)))
        for cut in range(whole, 0, -9):
            wire, row = gateway.wire(), b"%02d" % cut
            start = wire.begin()
            wire.send((set_(start, row, b"v") + 3 * step(start))[:cut])
            if cut == whole:
                wire.socket.shutdown(socket.SHUT_WR)
            else:
                wire.close()
            self.assertTrue(until(lambda: gateway.statistics()["open"]["sessions"] == 0))
            found.append(reader.read(row)[:2] == b"\x82\1")
            if found[-1]:
                self.assertIn(counted(row), watcher.reply())
            self.assertEqual(watcher.told(), [])
        self.assertEqual((found[0], found[-1]), (True, False))

    def test_idle_clients(self) -> None:
        """One with a watch isn't idle."""
        gateway = Gateway(self, ["--idle-client", "0.1"])
        watcher, silent = self.watching(gateway, watch(b"")), gateway.wire()
        self.assertRaises((EOFError, ConnectionError), silent.reply)
        with Store(socket=gateway.path) as store:
            store.put(b"r", COLUMN, b"v")
        self.assertEqual(watcher.reply()[:10], b"\xf4\1" + number(8, 1))


class Bounds(unittest.TestCase):
    """Limits, and clients that are slow."""

    def test_of_a_client(self) -> None:
        wire = Gateway(self).wire()
        for name in range(1, WATCHES_OF_CLIENT + 1):
            self.assertEqual(wire.ask(watch(ROW, b"c" * 64)), begun(name))
        self.assertEqual(wire.ask(watch(b"")), TOO_MANY)

    def test_what_is_no_watch(self) -> None:
        gateway = Gateway(self)
        wire = gateway.wire()
        for prefix, family, refusal in ((b"a" * 4001, None, BAD_ROW), (b"", b"a:b", BAD_COLUMN), (b"", b"", BAD_COLUMN)):
            self.assertEqual(wire.ask(watch(prefix, family)), refusal)
        for body in (b"\x74", b"\x74\0\0\0\2a\0", b"\x74\0\0\0\0", b"\x74\0\0\0\0\2", b"\x74\0\0\0\0\0\0", b"\x74\0\0\0\0\1\0\0"):
            self.assertEqual(wire.ask(frame(body)), BAD_REQUEST)
        self.assertEqual(gateway.statistics()["watches"]["open"], 0)

    def test_ends(self) -> None:
        """With the connection, and with the client's requests."""
        gateway = Gateway(self, ["--admin", "ADMIN"])
        wires = [gateway.wire() for _ in range(3)]
        for wire in wires:
            wire.ask(watch(b"a")), wire.ask(watch(b"ab"))
        self.assertEqual(gateway.statistics()["watches"]["open"], 6)
        wires[0].close()
        wires[1].socket.shutdown(socket.SHUT_WR)
        self.assertRaises(EOFError, wires[1].reply)
        self.assertTrue(until(lambda: gateway.statistics()["watches"]["open"] == 2))
        gateway.wire().commit(b"abc", b"v")
        self.assertEqual({wires[2].reply()[:10] for _ in range(2)}, {b"\xf4\1" + number(8, each) for each in (5, 6)})
        admin = gateway.wire(gateway.admin)
        self.assertEqual(admin.ask(frame(b"\x73" + number(8, 3))), b"\xf3\1")
        self.assertTrue(until(lambda: gateway.statistics()["watches"]["open"] == 0))

    def test_too_many_cells_for_one_message(self) -> None:
        gateway = Gateway(self)
        watcher, wire = gateway.wire(), gateway.wire()
        watcher.ask(watch(b"a")), watcher.ask(watch(ROW))
        count = CHANGE_SIZE // len(ROW) + 1
        rows = [ROW[:-1] + b"%x" % place for place in range(count - 1)] + [ROW]
        start = wire.begin()
        wire.send(b"".join(set_(start, row, b"v") for row in rows) + (count + 2) * step(start))
        committed = [wire.reply() for _ in range(2 * count + 2)][-1]
        self.assertEqual(committed[:2], COMMITTED)
        self.assertEqual({watcher.reply(), watcher.reply()}, {unnamed(1), changed(2, committed, (ROW, COLUMN))})

    def test_a_client_that_takes_nothing(self) -> None:
        """It gets what was sent, then one message for all that wasn't, and then goes on."""
        gateway = Gateway(self)
        watcher, wire = gateway.wire(), gateway.wire()
        watcher.ask(watch(b"a"))
        commits = 0
        while gateway.statistics()["held"]["replies"] < CHANGES_OF_CLIENT or commits < 20:
            wire.commit(ROW, b"v")
            commits += 1
        most = gateway.statistics()["held"]["replies"]
        for _ in range(20):
            wire.commit(ROW, b"v")
        self.assertLess(most, CHANGES_OF_CLIENT + len(ROW) + 100)
        self.assertEqual(gateway.statistics()["held"]["replies"], most)
        told = gateway.statistics()["watches"]["changes"]
        self.assertLessEqual(told, commits)
        self.assertEqual({watcher.reply()[:2] for _ in range(told)}, {b"\xf4\1"})
        self.assertEqual(watcher.reply(), unnamed(1))
        committed = wire.commit(b"ab", b"v")
        self.assertEqual(watcher.reply(), changed(1, committed, (b"ab", COLUMN)))
        self.assertEqual(gateway.statistics()["watches"], {"open": 1, "changes": told + 1, "unnamed": 1})

if __name__ == "__main__":
    unittest.main()
