"""A store over a gateway's socket: several clients, processes and threads, and the fates of commits whose answers were
lost."""

from __future__ import annotations

import subprocess
import sys
import threading
import unittest
from pathlib import Path

from duqishom import (
    Committed,
    ConnectionLost,
    Lost,
    NoMemory,
    Nothing,
    Patience,
    Pending,
    Qualifier,
    Store,
    Tablet,
    TransactionConflict,
    UnknownSession,
    Value,
)
from duqishom.frames import whole_frames
from duqishom.protocol import Reported, Status
from tests.gateways import PACKAGE, Gateway, folder_of, stand_in, until

ROW, OTHER, FAMILY = b"r", b"s", b"c"


def number_of(value: bytes | None) -> int:
    return int(value or b"0")


class Stores(unittest.TestCase):
    """Stores that share a gateway."""

    def store(self, gateway: Gateway, patience: Patience = Patience()) -> Store:
        store = Store(socket=gateway.path, patience=patience)
        self.addCleanup(store.close)
        return store

    def test_two_see_one_store(self) -> None:
        gateway = Gateway(self)
        one, two = self.store(gateway), self.store(gateway)
        one.run(lambda t: t.set(ROW, FAMILY, b"1"))
        self.assertEqual(two.run(lambda t: t.get(ROW, FAMILY)), b"1")
        two.run(lambda t: t.set(ROW, FAMILY, b"2"))
        with self.assertRaises(TransactionConflict), one.transaction() as late:
            two.run(lambda t: t.set(ROW, FAMILY, b"3"))
            late.set(ROW, FAMILY, b"4")
        self.assertRaises(UnknownSession, two.step, one.begin())
        self.assertEqual(one.collect(), one.begin() - 1)
        self.assertEqual(one.split(b"m"), 2)
        two.make_room(ROW)
        self.assertEqual(two.tablets(), (Tablet(2, b"m"), Tablet(1, None)))
        self.assertEqual(two.status().server.tablets, 2)

    def test_more_reports_than_have_room(self) -> None:
        """All are asked for in one trip, and have more than the 4 MiB of replies that a client may have to come."""
        store = self.store(Gateway(self))
        store.split(b"r" * 4000)
        reports = store.ask_each([Status(1 + number % 2) for number in range(1200)])
        ends = [report.tablet and report.tablet.end for report in reports if isinstance(report, Reported)]
        self.assertEqual(ends, 600 * [None, b"r" * 4000])

    def test_old_versions_go_by_themselves(self) -> None:
        """After so many commits, and again after as many more: all but those that a session may read."""
        place = folder_of(self)
        gateway = Gateway(self, ["--collect", "20", "--record", place])
        store = self.store(gateway)

        def put(count: int) -> list[int]:
            """Commits so many values, and returns their stamps."""
            stamps = []
            for _ in range(count):
                store.run(lambda t: t.set(ROW, FAMILY, b"x"))
                newest = store.raw(ROW, FAMILY, Qualifier.WRITE)
                stamps.append(newest.stamp if newest else 0)
            return stamps

        def is_there(stamp: int) -> bool:
            return store.raw(ROW, FAMILY, Qualifier.WRITE, stamp, stamp) is not None

        first = put(19)
        self.assertTrue(all(is_there(stamp) for stamp in first))
        read = store.begin()
        later = put(1)
        self.assertTrue(until(lambda: not any(is_there(stamp) for stamp in first[:-1])))
        self.assertTrue(is_there(first[-1]) and is_there(later[0]))
        self.assertEqual(store.get(read, ROW, FAMILY), Value(b"x"))
        store.stop(read)
        newest = put(20)[-1]
        self.assertTrue(until(lambda: not is_there(later[0])))
        self.assertTrue(is_there(newest))
        store.close()
        self.assertEqual(gateway.stop(), 0)
        # Others wait for four visits at most
        bodies: list[bytes] = []
        whole_frames((Path(place) / "requests").read_bytes(), bodies)
        self.assertEqual({body[13:] for body in bodies if body[4:5] == b"\x09"}, {b"\0\0\0\4"})

    def test_old_versions_stay(self) -> None:
        """With 0."""
        store = self.store(Gateway(self, ["--collect", "0"]))
        for _ in range(50):
            store.run(lambda t: t.set(ROW, FAMILY, b"x"))
        self.assertIsNotNone(store.raw(ROW, FAMILY, Qualifier.WRITE, 0, 4))

    def test_the_bytes_of_all_sessions(self) -> None:
        """The program's limit is that of all clients together."""
        gateway = Gateway(self, ["--session-bytes", "1048576"])
        one, two = self.store(gateway), self.store(gateway)
        start, other = one.begin(), two.begin()
        for row in range(15):
            one.set(start, b"%d" % row, FAMILY, bytes(65_536))
        self.assertRaises(NoMemory, two.set, other, OTHER, FAMILY, bytes(65_536))
        one.stop(start)
        two.set(other, OTHER, FAMILY, bytes(65_536))

    def test_threads_and_processes_count(self) -> None:
        gateway, each = Gateway(self), 20
        shared = self.store(gateway)
        script = (
            "import sys; from duqishom import Store, Patience\n"
            "with Store(socket=sys.argv[1], patience=Patience(tries=10)) as store:\n"
            f"    for _ in range({each}):\n"
            "        store.run(lambda t: t.set(b'r', b'c', b'%d' % (int(t.get(b'r', b'c') or b'0') + 1)), attempts=1000)\n"
        )
        processes = [subprocess.Popen([sys.executable, "-c", script, gateway.path], cwd=PACKAGE) for _ in range(3)]

        def count(store: Store) -> None:
            for _ in range(each):
                store.run(lambda t: t.set(ROW, FAMILY, b"%d" % (number_of(t.get(ROW, FAMILY)) + 1)), attempts=1000)

        threads = [threading.Thread(target=count, args=(shared,)) for _ in range(2)]
        for thread in threads:
            thread.start()
        for thread in threads:
            thread.join()
        self.assertEqual([process.wait(60) for process in processes], [0, 0, 0])
        self.assertEqual(shared.run(lambda t: t.get(ROW, FAMILY)), b"%d" % (5 * each))

    def test_the_end_of_the_gateway(self) -> None:
        gateway = Gateway(self)
        store = self.store(gateway)
        start = store.begin()
        gateway.kill()
        self.assertRaises(ConnectionLost, store.get, start, ROW, FAMILY)
        self.assertRaises(OSError, Store, socket=gateway.path)

    def test_room_where_the_administrator_has_a_socket(self) -> None:
        program = stand_in(
            self,
            "return b'\\xff\\x0f' if body[0] == 7 and 10 not in asked else b'\\x87\\x03' if body[0] == 7"
            " else b'\\x86\\1' + bytes(16) if body[0] == 6 else b'\\xff\\x0b' if body[:1] == b'\\x0a' and body[4] > 2"
            " else b'\\x91\\0' if body[0] == 17 else plain(body)",
        )
        gateway = Gateway(self, ["--admin", "ADMIN", "--program", program])
        self.assertEqual(repr(self.store(gateway).clean(ROW, FAMILY)), "RolledBack()")


class Fates(unittest.TestCase):
    """The fate of a commit, asked for by another client than the one that made it."""

    def setUp(self) -> None:
        gateway = Gateway(self, ["--leave"])
        self.lost, self.asks = Store(socket=gateway.path), Store(socket=gateway.path, patience=Patience(tries=1))
        self.waits = Store(socket=gateway.path, patience=Patience(cleans=False))
        for store in (self.lost, self.asks, self.waits):
            self.addCleanup(store.close)

    def begun(self, steps: int) -> int:
        """A session over two cells whose client is lost after this many steps."""
        start = self.lost.begin()
        for row in (ROW, OTHER):
            self.lost.set(start, row, FAMILY, b"%d" % start)
        for _ in range(steps):
            self.lost.step(start)
        return start

    def test_by_how_far_it_came(self) -> None:
        for steps, committed in ((0, False), (1, False), (2, False), (3, False), (4, True), (5, True)):
            with self.subTest(steps=steps):
                start = self.begun(steps)
                if 0 < steps < 4:
                    self.assertEqual(self.waits.fate(start, ROW, FAMILY), Pending(start))
                self.asks.run(lambda t: t.get(b"something", FAMILY))
                fate = self.asks.fate(start, ROW, FAMILY)
                self.assertEqual(fate, Committed(start + 1) if committed else Lost())
                for row in (ROW, OTHER):
                    self.asks.clean(row, FAMILY)
                if committed:
                    self.asks.run(lambda t: t.set(ROW, FAMILY, b"later"))
                    self.assertEqual(self.asks.fate(start, ROW, FAMILY), fate)

    def test_of_nothing(self) -> None:
        self.assertEqual(self.asks.fate(self.lost.begin(), ROW, FAMILY), Lost())
        self.assertEqual(self.asks.get(self.asks.begin(), ROW, FAMILY), Nothing())


if __name__ == "__main__":
    unittest.main()
