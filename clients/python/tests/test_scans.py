"""Scans: their bodies, their use by transactions, and the program's answers."""

from __future__ import annotations

import unittest

from duqishom import (
    BadColumn,
    BadCount,
    BadRow,
    Cell,
    MalformedReply,
    Patience,
    Pending,
    ScanItem,
    Scanned,
    StillPending,
    Store,
    Unsent,
    UnknownSession,
    Value,
    WrongPhase,
)
from duqishom.cells import LAST_FAMILY, last_before, range_of
from duqishom.operations import Scan, answer_or_refusal, request_body
from tests.peer import peer
from tests.test_operations import StoreTest

BAL = b"bal"

# The eight bytes of session 3.
THREE = b"\0\0\0\0\0\0\0\x03"

# A scan of session 3 over all cells, up to its number of cells, which is 1,000.
ALL = b"\x31" + THREE + b"\0\0\0\0"
MOST = b"\0\0\x03\xe8"

GET_B = b"\x02" + THREE + b"\0\0\0\x01b\0\0\0\x03bal"
BEGIN = (b"\x01", b"\x81" + THREE)
STOP = (b"\x05" + THREE, b"\x85")


class Bodies(unittest.TestCase):
    """The bytes of requests and replies."""

    def test_requests(self) -> None:
        for scan, body in (
            (Scan(3), ALL + MOST),
            (Scan(3, keys_only=True, cells=2), b"\x31" + THREE + b"\1\0\0\0\0\0\0\2"),
            (Scan(3, after=(b"Bob", b"bal")), b"\x31" + THREE + b"\0\1\0\0\0\x03Bob\0\0\0\x03bal\0\0" + MOST),
            (Scan(3, end=b"Joe"), b"\x31" + THREE + b"\0\0\1\0\0\0\x03Joe\0" + MOST),
            (Scan(3, family=b"bal"), b"\x31" + THREE + b"\0\0\0\1\0\0\0\x03bal" + MOST),
            (
                Scan(3, Cell(b"a", b"c"), b"z", b"f", True, 1),
                b"\x31" + THREE + b"\1\1\0\0\0\1a\0\0\0\1c\1\0\0\0\1z\1\0\0\0\1f\0\0\0\1",
            ),
        ):
            self.assertEqual(request_body(scan), body)

    def test_replies(self) -> None:
        items = (
            ScanItem(b"Bob", BAL, Value(b"10")),
            ScanItem(b"Joe", BAL, Pending(2)),
            ScanItem(b"r", b"c", Unsent()),
        )
        written = (
            b"\0\0\0\x03"
            b"\0\0\0\x03Bob\0\0\0\x03bal\1\0\0\0\x0210"
            b"\0\0\0\x03Joe\0\0\0\x03bal\2\0\0\0\0\0\0\0\2"
            b"\0\0\0\1r\0\0\0\1c\3"
        )
        for body, answer in (
            (b"\xb1\1\0\0\0\0", Scanned((), None)),
            (b"\xb1\2\0\0\0\1r\0\0\0\1c\0\0\0\0", Scanned((), (b"r", b"c"))),
            (b"\xb1\1" + written, Scanned(items, None)),
            (b"\xb1\2\0\0\0\1s\0\0\0\1c" + written, Scanned(items, (b"s", b"c"))),
        ):
            self.assertEqual(answer_or_refusal(Scan(3), body), answer)
        for body in (
            b"\xb1",
            b"\xb1\0\0\0\0\0",
            b"\xb1\3\0\0\0\0",
            b"\xb1\1\0\0\0\0\0",
            b"\xb1\1\0\0\0\1",
            b"\xb1\1\0\0\0\1\0\0\0\1r\0\0\0\1c\0",
            b"\xb1\1\0\0\0\1\0\0\0\1r\0\0\0\1c\4",
            b"\xb1\2\0\0\0\1r\0\0\0\0",
        ):
            with self.assertRaises(MalformedReply):
                answer_or_refusal(Scan(3), body)


class Ranges(unittest.TestCase):
    """The bounds of ranges."""

    def test_last_before_a_row(self) -> None:
        for row, before in (
            (b"", None),
            (b"\0", None),
            (b"\0\0", b"\0"),
            (b"a\0", b"a"),
            (b"\1", b"\0" + b"\xff" * 3999),
            (b"b", b"a" + b"\xff" * 3999),
            (b"ab\x80", b"ab\x7f" + b"\xff" * 3997),
            (b"r" * 4000, b"r" * 3999 + b"q"),
            (b"r" * 3999 + b"\0", b"r" * 3999),
        ):
            self.assertEqual(last_before(row), None if before is None else Cell(before, b"~" * 64), row[:9])

    def test_prefixes(self) -> None:
        ends = b"user" + b"\xff" * 3996
        after = Cell(b"useq" + b"\xff" * 3996, LAST_FAMILY)
        for given, first, last in (
            (range_of(None, None, b"user", None), after, ends),
            (range_of(b"a", b"z", b"user", None), after, ends),
            (range_of(b"user\0", b"userb", b"user", None), Cell(b"user", LAST_FAMILY), b"userb"),
            (range_of(None, None, b"", None), None, b"\xff" * 4000),
            (range_of(b"", None, None, None), None, None),
        ):
            self.assertEqual((given.after, given.end), (first, last))

    def test_what_is_in_a_range(self) -> None:
        given = range_of(b"b", b"d", None, b"c")
        for row, family, is_in in (
            (b"a\xff", b"c", False),
            (b"b", b"c", True),
            (b"b", b"d", False),
            (b"d", b"c", True),
            (b"d\0", b"c", False),
        ):
            self.assertEqual(given.has(Cell(row, family)), is_in)

    def test_refused(self) -> None:
        long = b"r" * 4001
        for start, end, prefix in ((long, None, None), (None, long, None), (None, b"", None), (None, None, long)):
            with self.assertRaises(BadRow):
                range_of(start, end, prefix, None)
        for family in (b"", b"a:b", b"f" * 65):
            with self.assertRaises(BadColumn):
                range_of(None, None, None, family)


class Batches(unittest.TestCase):
    """The requests of a transaction, and its results from the answers. The program answers from a table."""

    def store(self, *exchanges: tuple[bytes, bytes], patience: Patience = Patience(tries=1)) -> Store:
        store = Store(peer(self, [BEGIN, *exchanges, STOP]), patience=patience)
        self.addCleanup(store.close)
        return store

    def test_asks_on(self) -> None:
        first = b"\xb1\2\0\0\0\1b\0\0\0\1c\0\0\0\1\0\0\0\1a\0\0\0\1c\1\0\0\0\1v"
        last = b"\xb1\1\0\0\0\1\0\0\0\1d\0\0\0\1c\1\0\0\0\0"
        store = self.store(
            (b"\x31" + THREE + b"\0\0\1\0\0\0\1z\1\0\0\0\1c" + MOST, first),
            (b"\x31" + THREE + b"\0\1\0\0\0\1b\0\0\0\1c\1\0\0\0\1z\1\0\0\0\1c" + MOST, last),
        )
        with store.transaction() as t:
            self.assertEqual(list(t.scan(end=b"z", family=b"c")), [(b"a", b"c", b"v"), (b"d", b"c", b"")])

    def test_locks_are_cleaned_together_and_read(self) -> None:
        locked = b"\xb1\1\0\0\0\2\0\0\0\1b\0\0\0\3bal\2\0\0\0\0\0\0\0\1\0\0\0\1d\0\0\0\3bal\2\0\0\0\0\0\0\0\2"
        read = b"\x33" + THREE + b"\1\0\0\0\2\0\0\0\1b\0\0\0\3bal\0\0\0\1d\0\0\0\3bal"
        store = self.store(
            (ALL + MOST, locked),
            (b"\x06\0\0\0\1b\0\0\0\3bal", b"\x86\0"),
            (b"\x06\0\0\0\1d\0\0\0\3bal", b"\x86\0"),
            (read, b"\xb3" + THREE + b"\0\0\0\2\1\0\0\0\1v\0"),
        )
        with store.transaction() as t:
            self.assertEqual(list(t.scan()), [(b"b", BAL, b"v")])

    def test_locks_that_stay(self) -> None:
        locked = b"\xb1\1\0\0\0\2\0\0\0\1a\0\0\0\1c\1\0\0\0\1v\0\0\0\1b\0\0\0\3bal\2\0\0\0\0\0\0\0\1"
        pending = (GET_B, b"\x82\2\0\0\0\0\0\0\0\1")
        store = self.store((ALL + MOST, locked), pending, pending, patience=Patience(tries=3, pause=0, cleans=False))
        with store.transaction() as t:
            with self.assertRaises(StillPending) as caught:
                list(t.scan())
        self.assertEqual((caught.exception.cell, caught.exception.start), (Cell(b"b", BAL), 1))

    def test_what_is_not_sent_is_read(self) -> None:
        named = b"\xb1\1\0\0\0\2\0\0\0\1a\0\0\0\1c\1\0\0\0\1v\0\0\0\1b\0\0\0\3bal\3"
        keys = b"\xb1\1\0\0\0\1\0\0\0\1b\0\0\0\3bal\3"
        store = self.store(
            (ALL + MOST, named),
            (GET_B, b"\x82\1\0\0\0\4long"),
            (b"\x31" + THREE + b"\1\0\0\0" + MOST, keys),
            (b"\x31" + THREE + b"\1\0\0\0" + MOST, keys),
        )
        with store.transaction() as t:
            self.assertEqual(list(t.scan()), [(b"a", b"c", b"v"), (b"b", BAL, b"long")])
            self.assertEqual(list(t.scan(keys=True)), [(b"b", BAL, None)])
            self.assertEqual(t.count(), 1)

    def test_own_writes(self) -> None:
        first = b"\xb1\2\0\0\0\1b\0\0\0\1c\0\0\0\2\0\0\0\1a\0\0\0\1c\1\0\0\0\1v\0\0\0\1b\0\0\0\1c\2\0\0\0\0\0\0\0\1"
        last = b"\xb1\1\0\0\0\1\0\0\0\1d\0\0\0\1c\1\0\0\0\1v"
        on = b"\x31" + THREE + b"\0\1\0\0\0\1b\0\0\0\1c\0\0" + MOST
        store = self.store((ALL + MOST, first), (on, last))
        t = store.transaction()
        for row in (b"b", b"aa", b"e"):
            t.set(row, b"c", b"mine")
        t.delete(b"d", b"c")
        t.delete(b"f", b"c")
        scan = t.scan()
        t.set(b"g", b"c", b"later")
        self.assertEqual(
            list(scan), [(b"a", b"c", b"v"), (b"aa", b"c", b"mine"), (b"b", b"c", b"mine"), (b"e", b"c", b"mine")]
        )
        t.stop()


class Scans(StoreTest):
    """The program's answers."""

    def test_one_start_for_all_batches(self) -> None:
        rows = [b"%02d" % number for number in range(10)]
        for row in rows:
            self.commit(row, row)
        start = self.store.begin()
        first = self.store.scan(start, cells=4)
        self.assertEqual(first.upto, (b"03", BAL))
        self.commit(b"05", b"later")
        self.commit(b"055", b"later")
        last = self.store.scan(start, first.upto)
        self.assertEqual(last.upto, None)
        found = [(item.row, item.found) for item in first.items + last.items]
        self.assertEqual(found, [(row, Value(row)) for row in rows])

    def test_a_lock_does_not_end_a_scan(self) -> None:
        for row in (b"a", b"b", b"c"):
            self.commit(row, row)
        holder = self.store.begin()
        self.store.set(holder, b"b", BAL, b"1")
        self.store.step(holder)
        found = self.store.scan(self.store.begin())
        self.assertEqual([item.found for item in found.items], [Value(b"a"), Pending(holder), Value(b"c")])
        with self.store.transaction() as t:
            self.assertEqual([value for _, _, value in t.scan()], [b"a", b"b", b"c"])

    def test_ranges_and_families(self) -> None:
        with self.store.transaction() as t:
            for row in (b"a", b"a\0", b"b", b"b\xff", b"c", b"d"):
                for family in (b"c", b"d"):
                    t.set(row, family, row)
            t.set(b"\xff" * 4000, b"~" * 64, b"last")
        with self.store.transaction() as t:
            for given, rows in (
                (t.scan(b"a\0", b"b", family=b"c"), [b"a\0", b"b"]),
                (t.scan(prefix=b"b", family=b"d"), [b"b", b"b\xff"]),
                (t.scan(b"c"), [b"c", b"c", b"d", b"d", b"\xff" * 4000]),
                (t.scan(prefix=b"\xff"), [b"\xff" * 4000]),
                (t.scan(b"e", b"f"), []),
                (t.scan(b"d", b"a"), []),
            ):
                self.assertEqual([row for row, _, _ in given], rows)
            self.assertEqual((t.count(), t.count(b"b", family=b"c")), (13, 4))

    def test_many_cells(self) -> None:
        rows = [b"%04d" % number for number in range(2001)]
        for place in range(0, len(rows), 256):
            with self.store.transaction() as t:
                for row in rows[place : place + 256]:
                    t.set(row, BAL, b"v")
        start = self.store.begin()
        self.assertEqual(self.store.scan(start).upto, (b"0999", BAL))
        self.assertEqual(self.store.scan(start, (b"1001", BAL)).upto, None)
        self.assertEqual(self.store.scan(start, (b"2000", BAL)), Scanned((), None))
        with self.store.transaction() as t:
            self.assertEqual([row for row, _, _ in t.scan()], rows)
            self.assertEqual(t.count(), 2001)

    def test_long_values(self) -> None:
        longest = 61_440 - (4 + 4) - (4 + 3) - 1 - 4
        for row, length in ((b"aaaa", longest + 1), (b"bbbb", 65_536), (b"cccc", 1)):
            self.commit(row, b"v" * length)
        found = self.store.scan(self.store.begin())
        self.assertEqual([item.found for item in found.items], [Unsent(), Unsent(), Value(b"v")])
        self.assertEqual(found.upto, None)
        self.commit(b"aaaa", b"v" * longest)
        with self.store.transaction() as t:
            first = self.store.scan(t.start)
            self.assertEqual((first.items, first.upto), ((ScanItem(b"aaaa", BAL, Value(b"v" * longest)),), (b"aaaa", BAL)))
            self.assertEqual([len(value) for _, _, value in t.scan()], [longest, 65_536, 1])

    def test_deleted_cells_are_not_named(self) -> None:
        for row in (b"a", b"b", b"c"):
            self.commit(row, row)
        old = self.store.begin()
        self.store.run(lambda t: t.delete(b"b", BAL))
        self.assertEqual([item.row for item in self.store.scan(old).items], [b"a", b"b", b"c"])
        self.store.stop(old)
        for _ in range(2):
            self.assertEqual([item.row for item in self.store.scan(self.store.begin()).items], [b"a", b"c"])
            self.store.collect()

    def test_refused(self) -> None:
        start = self.store.begin()
        long, bad = b"r" * 4001, b"a:b"
        for after, end, family, cells, refusal in (
            ((b"", bad), None, None, 0, BadRow),
            ((long, BAL), None, None, 1, BadRow),
            (None, b"", bad, 0, BadRow),
            (None, long, None, 1, BadRow),
            ((b"a", bad), None, None, 0, BadColumn),
            (None, None, b"", 0, BadColumn),
            (None, None, None, 0, BadCount),
            (None, None, None, 1001, BadCount),
        ):
            with self.assertRaises(refusal):
                self.store.scan(start, after, end, family, False, cells)
        with self.assertRaises(UnknownSession):
            self.store.scan(start + 1, (b"", bad))
        self.store.set(start, b"a", BAL, b"")
        self.store.step(start)
        with self.assertRaises(WrongPhase):
            self.store.scan(start, (b"", bad))
        with self.store.transaction() as t:
            scan = t.scan()
        with self.assertRaises(UnknownSession):
            next(scan)


if __name__ == "__main__":
    unittest.main()
