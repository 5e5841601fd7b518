"""Each operation once, each answer, and each refusal that a request can get."""

from __future__ import annotations

import tempfile
import unittest
from collections.abc import Callable
from functools import partial
from typing import Any

from duqishom import (
    BadColumn,
    BadCount,
    BadRequest,
    BadRow,
    BadSplit,
    BadValue,
    Blocked,
    Collected,
    Collector,
    Committed,
    Cleaner,
    Conflict,
    Decided,
    EmptyCommit,
    Finished,
    FrameTooLarge,
    Gone,
    Held,
    Kind,
    Lost,
    MemtableFull,
    More,
    NotOpened,
    Nothing,
    Pending,
    ProgramEnded,
    Qualifier,
    Record,
    Refused,
    RolledBack,
    RolledForward,
    Stamped,
    Store,
    Tablet,
    TooManyFiles,
    TooManySessions,
    TooManyWrites,
    UnknownCleaner,
    UnknownCollector,
    UnknownServer,
    UnknownSession,
    UnknownTablet,
    Value,
    Version,
    WrongPhase,
    connect,
    read_record,
)
from duqishom.fields import MalformedReply
from duqishom.folders import tuned
from duqishom.operations import CollectStep, answer_or_refusal, request_body
from duqishom.refusals import BY_NUMBER
from duqishom.reports import Reported, ServerReport, Status, TabletReport, whole_status
from tests.peer import peer
from tests.poor import Poor

BOB, JOE, BAL = b"Bob", b"Joe", b"bal"


class StoreTest(unittest.TestCase):
    """A test with a store of its own, which ends with status 0."""

    def setUp(self) -> None:
        self.store = Store()
        self.addCleanup(self.assert_ends)

    def assert_ends(self) -> None:
        self.assertEqual(self.store.close(), 0)

    def commit(self, row: bytes, value: bytes) -> int:
        """Commits a value in a transaction of one cell, by operations only. Returns its commit stamp."""
        start = self.store.begin()
        self.store.set(start, row, BAL, value)
        self.store.step(start)
        self.store.step(start)
        committed = self.store.step(start)
        assert isinstance(committed, Committed)
        return committed.commit


class Operations(StoreTest):
    """Each operation, and each of its answers."""

    def test_session(self) -> None:
        store = self.store
        self.assertEqual(store.begin(), 1)
        store.set(1, BOB, BAL, b"10")
        store.set(1, JOE, BAL, b"2")
        self.assertEqual(store.step(1), Held(1, 2))
        self.assertEqual(store.step(1), Held(2, 2))
        self.assertEqual(store.step(1), Stamped(2))
        self.assertEqual(store.step(1), Committed(2))
        self.assertEqual(store.begin(), 3)
        self.assertEqual(store.get(3, BOB, BAL), Value(b"10"))
        self.assertEqual(store.get(3, JOE, BAL), Pending(1))
        self.assertEqual(store.get(3, b"Ann", BAL), Nothing())
        self.assertEqual(store.step(1), Finished(2, 2))
        self.assertEqual(store.get(3, JOE, BAL), Value(b"2"))

    def test_conflict(self) -> None:
        first, second = self.store.begin(), self.store.begin()
        for start in (first, second):
            self.store.set(start, BOB, BAL, b"1")
        self.assertEqual(self.store.step(first), Held(1, 1))
        self.assertEqual(self.store.step(second), Conflict(1))
        with self.assertRaises(UnknownSession):
            self.store.step(second)

    def test_stop(self) -> None:
        start = self.store.begin()
        self.store.stop(start)
        with self.assertRaises(UnknownSession):
            self.store.stop(start)

    def hold(self, *rows: bytes) -> int:
        """The start of a new session that holds a cell in each of these rows."""
        start = self.store.begin()
        for row in rows:
            self.store.set(start, row, BAL, b"1")
        for _ in rows:
            self.store.step(start)
        return start

    def test_rolled_back(self) -> None:
        store = self.store
        start = self.hold(BOB, JOE)
        self.assertEqual(store.clean_begin(JOE, BAL), Cleaner(1, start))
        self.assertEqual(store.clean_step(1), Decided())
        self.assertEqual(store.clean_step(1), RolledBack())
        with self.assertRaises(UnknownCleaner):
            store.clean_step(1)
        self.assertIsNone(store.clean_begin(JOE, BAL))
        self.assertIsInstance(store.step(start), Stamped)
        self.assertEqual(store.step(start), Lost())
        self.assertEqual(store.get(store.begin(), BOB, BAL), Nothing())

    def test_rolled_forward(self) -> None:
        store = self.store
        start = self.hold(BOB, JOE)
        stamped, committed = store.step(start), store.step(start)
        assert isinstance(stamped, Stamped) and isinstance(committed, Committed)
        store.stop(start)
        self.assertEqual(store.clean_begin(JOE, BAL), Cleaner(1, start))
        self.assertEqual(store.clean_begin(JOE, BAL), Cleaner(2, start))
        self.assertEqual(store.clean_step(2), Decided())
        self.assertEqual(store.clean_step(1), Decided())
        self.assertEqual(store.clean_step(1), RolledForward(committed.commit))
        self.assertEqual(store.clean_step(2), Gone())
        self.assertEqual(store.get(store.begin(), JOE, BAL), Value(b"1"))

    def test_clean(self) -> None:
        self.assertIsNone(self.store.clean(BOB, BAL))
        self.hold(BOB, JOE)
        self.assertEqual(self.store.clean(JOE, BAL), RolledBack())
        self.assertIsNone(self.store.clean(BOB, BAL))

    def transfer(self) -> None:
        """Commits Bob and Joe, and then both again; the second transaction stops with Joe's cell locked."""
        for finishes, values in ((True, (b"10", b"2")), (False, (b"3", b"9"))):
            start = self.store.begin()
            for row, value in zip((BOB, JOE), values):
                self.store.set(start, row, BAL, value)
            for _ in range(5 if finishes else 4):
                self.store.step(start)
            if not finishes:
                self.store.stop(start)

    def test_collector(self) -> None:
        store = self.store
        self.transfer()
        self.assertEqual(store.collect_begin(), Collector(1, 5))
        self.assertEqual(store.collect_step(1, 10), Blocked(JOE, BAL, 3))
        self.assertEqual(store.collect_step(1), Blocked(JOE, BAL, 3))
        self.assertEqual(store.clean(JOE, BAL), RolledForward(4))
        self.assertEqual(store.collect_step(1, 6), More())
        self.assertEqual(store.collect_step(1, 1), Collected())
        with self.assertRaises(UnknownCollector):
            store.collect_step(1, 1)
        self.assert_record(JOE, 4, Record(3, Kind.SET))
        self.assertIsNone(store.raw(JOE, BAL, Qualifier.WRITE, 0, 3))
        self.assertIsNone(store.raw(JOE, BAL, Qualifier.DATA, 0, 2))
        self.assertEqual(store.get(store.begin(), JOE, BAL), Value(b"9"))

    def assert_record(self, row: bytes, stamp: int, record: Record) -> None:
        """The newest record of a row."""
        found = self.store.raw(row, BAL, Qualifier.WRITE)
        assert found is not None
        self.assertEqual((found.stamp, read_record(found.value)), (stamp, record))

    def test_collect(self) -> None:
        self.transfer()
        self.assertEqual(self.store.collect(visits=1), 5)
        self.assertIsNone(self.store.raw(JOE, BAL, Qualifier.LOCK))
        self.assertIsNone(self.store.raw(BOB, BAL, Qualifier.DATA, 0, 2))
        start = self.store.begin()
        self.assertEqual(self.store.get(start, BOB, BAL), Value(b"3"))
        self.assertEqual(self.store.get(start, JOE, BAL), Value(b"9"))
        self.assertEqual(self.store.collect(), 5)

    def test_many_versions(self) -> None:
        for n in range(200):
            last = self.commit(BOB, b"%d" % n)
            if n % 30 == 0:
                self.store.minor(1)
        self.assertEqual(self.store.collect(), last + 1)
        for qualifier in (Qualifier.WRITE, Qualifier.DATA):
            self.assertIsNone(self.store.raw(BOB, BAL, qualifier, 0, last - 2))
        self.assertEqual(self.store.get(self.store.begin(), BOB, BAL), Value(b"199"))

    def test_old_reader_keeps_versions(self) -> None:
        self.commit(BOB, b"1")
        reader = self.store.begin()
        last = self.commit(BOB, b"2")
        self.assertEqual(self.store.collect(), reader)
        self.assertEqual(self.store.get(reader, BOB, BAL), Value(b"1"))
        self.store.stop(reader)
        self.assertEqual(self.store.collect(), last + 1)
        self.assertIsNone(self.store.raw(BOB, BAL, Qualifier.WRITE, 0, last - 1))
        self.assertEqual(self.store.get(self.store.begin(), BOB, BAL), Value(b"2"))

    def test_data_that_was_rolled_back(self) -> None:
        start = self.hold(BOB, JOE)
        self.store.stop(start)
        self.store.collect()
        for row in (BOB, JOE):
            self.assertIsNone(self.store.raw(row, BAL, Qualifier.DATA))
            self.assertIsNone(self.store.raw(row, BAL, Qualifier.LOCK))

    def test_raw(self) -> None:
        commit = self.commit(BOB, b"10")
        start = commit - 1
        record = Version(commit, start.to_bytes(8, "big") + b"S")
        self.assertEqual(self.store.raw(BOB, BAL, Qualifier.DATA), Version(start, b"10"))
        self.assertEqual(self.store.raw(BOB, BAL, Qualifier.WRITE), record)
        self.assertEqual(self.store.raw(BOB, BAL, Qualifier.WRITE, commit, commit), record)
        self.assertIsNone(self.store.raw(BOB, BAL, Qualifier.WRITE, 0, start))
        self.assertIsNone(self.store.raw(BOB, BAL, Qualifier.LOCK))
        self.hold(BOB, JOE)
        for row in (BOB, JOE):
            self.assertEqual(self.store.raw(row, BAL, Qualifier.LOCK), Version(3, b"Bob\x00\x00bal\x00\x00S"))

    def test_compactions_and_sweep(self) -> None:
        for value in (b"1", b"2", b"3"):
            self.commit(BOB, value)
            self.store.minor(1)
        self.store.merge(1, 2)
        self.assertEqual(self.store.sweep(), 2)
        self.store.major(1)
        self.assertEqual(self.store.sweep(), 2)
        self.assertEqual(self.store.sweep(), 0)
        self.assertEqual(self.store.get(self.store.begin(), BOB, BAL), Value(b"3"))

    def test_split_and_move(self) -> None:
        self.commit(BOB, b"10")
        self.commit(JOE, b"2")
        self.assertEqual(self.store.split(b"Jim"), 2)
        self.assertEqual(self.store.split(b"Bob"), 3)
        self.store.move(2, 15)
        ends = [(tablet.number, tablet.end) for tablet in self.store.tablets()]
        self.assertEqual(ends, [(3, b"Bob"), (2, b"Jim"), (1, None)])
        start = self.store.begin()
        self.assertEqual(self.store.get(start, BOB, BAL), Value(b"10"))
        self.assertEqual(self.store.get(start, JOE, BAL), Value(b"2"))

    def test_restart_of_the_oracle(self) -> None:
        self.assertEqual(self.store.begin(), 1)
        self.store.restart_oracle()
        self.assertEqual(self.store.begin(), 1001)

    def test_checkpoint(self) -> None:
        self.commit(BOB, b"10")
        self.store.checkpoint()
        self.assertEqual(self.store.sweep(), 0)
        self.assertEqual(self.store.get(self.store.begin(), BOB, BAL), Value(b"10"))


class Reports(StoreTest):
    """The state of a store, as its program reports it."""

    def test_status(self) -> None:
        """Each count of the store, and each of a tablet; and the tablets in the order of their rows."""
        store = self.store
        new = ServerReport(0, 1, 0, 0, 0, 0, 0, 0, 1)
        self.assertEqual(store.ask(Status(1)), Reported(new, TabletReport(1, None, 0, 0, 0, 0, 0)))
        for number in (0, 2, 2**32 - 1):
            self.assertEqual(store.ask(Status(number)), Reported(new, None))
        self.commit(BOB, b"10")
        store.minor(1)
        reader = store.begin()
        store.set(reader, JOE, BAL, b"1234")
        self.commit(JOE, b"2")
        self.assertEqual(store.collect_begin(), Collector(1, reader))
        writer = store.begin()
        store.set(writer, BOB, BAL, b"1")
        store.step(writer)
        store.clean_begin(BOB, BAL)
        left = store.split(BOB)
        store.move(left, 3)
        status = store.status()
        self.assertEqual(status.server, ServerReport(writer, reader, reader, 2, 1, 1, 17, 0, 2))
        first, last = status.tablets
        self.assertEqual((first.number, first.end, first.server), (left, BOB, 3))
        self.assertEqual((last.number, last.end, last.server), (1, None, 0))
        self.assertEqual([(each.memtable_entries, each.files) for each in status.tablets], [(0, 2)] * 2)
        self.assertGreater(first.file_bytes, 0)
        self.assertEqual(status, store.status())
        store.stop(reader)
        self.assertEqual(store.status().server.floor, writer)
        self.assertEqual(store.status().server.buffered_bytes, 7)

    def test_entries(self) -> None:
        """A commit of a cell leaves three entries, of as many bytes as docs/PROTOCOL.md says. A Major drops the erasure."""
        self.commit(BOB, b"10")
        [tablet] = self.store.status().tablets
        key = len(BOB) + len(BAL) + 14
        sizes = (9 + 2 + key + len("data"), 5 + key + len("lock"), 9 + 9 + key + len("write"))
        self.assertEqual((tablet.memtable_entries, tablet.memtable_bytes, tablet.files), (3, sum(sizes), 0))
        self.store.minor(1)
        [tablet] = self.store.status().tablets
        self.assertEqual(tablet, TabletReport(1, None, 0, 0, 0, 1, sum(sizes)))
        self.store.major(1)
        [tablet] = self.store.status().tablets
        self.assertEqual(tablet, TabletReport(1, None, 0, 0, 0, 1, sizes[0] + sizes[2]))

    def test_many_tablets(self) -> None:
        """All 1,024, one with the longest end."""
        ends = [*(number.to_bytes(2, "big") for number in range(1, 1023)), b"z" * 4000]
        for end in ends:
            self.store.split(end)
        status = self.store.status()
        self.assertEqual([tablet.end for tablet in status.tablets], [*ends, None])
        self.assertEqual(sorted(tablet.number for tablet in status.tablets), list(range(1, 1025)))
        self.assertEqual(self.store.tablets(), tuple(Tablet(tablet.number, tablet.end) for tablet in status.tablets))
        self.assertEqual(status.counts()["tablets"], 1024)

    def test_tablets_that_are_split_meanwhile(self) -> None:
        """Between the trips another one splits: the new tablets are asked for too."""
        asks = whole_status()
        trip = next(asks)
        with self.assertRaises(StopIteration) as done:
            for row in (b"m", b"c", b"x"):
                self.store.split(row)
                trip = asks.send(self.store.ask_each(trip))
            asks.send(self.store.ask_each(trip))
        self.assertEqual([tablet.number for tablet in done.exception.value.tablets], [3, 2, 4, 1])

    def test_reports_of_a_log(self) -> None:
        with tempfile.TemporaryDirectory() as folder, Store(folder=folder) as store:
            before = store.status().server
            store.put(BOB, BAL, b"10")
            after = store.status().server
            self.assertGreater(after.journal_bytes, before.journal_bytes)
            store.checkpoint()
            self.assertLess(store.status().server.journal_bytes, after.journal_bytes)

    def test_bytes(self) -> None:
        """Reports of other lengths are malformed."""
        self.assertEqual(request_body(Status(258)), b"\x34\0\0\1\2")
        numbers = [number.to_bytes(8, "big") for number in range(14)]
        server, tablet = b"\xb4" + b"".join(numbers[:9]), b"".join(numbers[9:])
        told = ServerReport(*range(9))
        self.assertEqual(answer_or_refusal(Status(7), server), Reported(told, None))
        for end in (b"", b"r", b"\0" * 4000):
            wanted = TabletReport(7, end or None, *range(9, 14))
            self.assertEqual(answer_or_refusal(Status(7), server + tablet + end), Reported(told, wanted))
        for body in (server[:-1], server + b"\0", server + tablet[:-1], server + tablet + bytes(4001), b"\xb4"):
            with self.assertRaises(MalformedReply):
                answer_or_refusal(Status(7), body)

    def test_older_program(self) -> None:
        """It has no Status."""
        store = Store(peer(self, [(b"\x34\0\0\0\1", b"\xff\x16")]))
        self.addCleanup(store.close)
        self.assertRaises(BadRequest, store.status)


class Deletions(StoreTest):
    """Sessions that delete cells, and reads of these cells by others."""

    def delete(self, *rows: bytes) -> int:
        """The start of a new session that holds the deletion of a cell in each of these rows."""
        start = self.store.begin()
        for row in rows:
            self.store.delete(start, row, BAL)
        for place in range(len(rows)):
            self.assertEqual(self.store.step(start), Held(place + 1, len(rows)))
        return start

    def finish(self, start: int) -> int:
        """Commits a session of one cell. Returns its commit stamp."""
        self.store.step(start)
        committed = self.store.step(start)
        assert isinstance(committed, Committed)
        return committed.commit

    def test_readers_below_and_above(self) -> None:
        self.commit(BOB, b"10")
        below = self.store.begin()
        start = self.delete(BOB)
        self.assertEqual(self.store.raw(BOB, BAL, Qualifier.LOCK), Version(start, b"Bob\x00\x00bal\x00\x00D"))
        self.assertIsNone(self.store.raw(BOB, BAL, Qualifier.DATA, start, start))
        self.assertEqual(self.store.get(self.store.begin(), BOB, BAL), Pending(start))
        stamp = self.finish(start)
        record = Version(stamp, start.to_bytes(8, "big") + b"D")
        self.assertEqual(self.store.raw(BOB, BAL, Qualifier.WRITE), record)
        self.assertEqual(self.store.get(below, BOB, BAL), Value(b"10"))
        self.assertEqual(self.store.get(self.store.begin(), BOB, BAL), Nothing())
        self.commit(BOB, b"11")
        self.assertEqual(self.store.get(self.store.begin(), BOB, BAL), Value(b"11"))

    def test_replaces_and_is_replaced(self) -> None:
        start = self.store.begin()
        self.store.set(start, BOB, BAL, b"1")
        self.store.delete(start, JOE, BAL)
        self.store.delete(start, BOB, BAL)
        self.store.set(start, JOE, BAL, b"2")
        self.assertEqual(self.store.step(start), Held(1, 2))
        for _ in range(4):
            self.store.step(start)
        reader = self.store.begin()
        self.assertEqual(self.store.get(reader, BOB, BAL), Nothing())
        self.assertEqual(self.store.get(reader, JOE, BAL), Value(b"2"))

    def test_conflicts_like_a_write(self) -> None:
        late = self.store.begin()
        self.store.set(late, BOB, BAL, b"1")
        start = self.delete(BOB)
        other = self.store.begin()
        self.store.delete(other, BOB, BAL)
        self.assertEqual(self.store.step(other), Conflict(1))
        self.finish(start)
        self.assertEqual(self.store.step(late), Conflict(1))

    def test_cleaned(self) -> None:
        for steps, cleaned, left in ((2, RolledBack(), Value(b"1")), (4, RolledForward(0), Nothing())):
            for row in (BOB, JOE):
                self.commit(row, b"1")
            start = self.delete(BOB, JOE)
            for _ in range(steps - 2):
                self.store.step(start)
            self.store.stop(start)
            self.assertIsInstance(self.store.clean(JOE, BAL), type(cleaned))
            self.store.clean(BOB, BAL)
            reader = self.store.begin()
            for row in (BOB, JOE):
                self.assertEqual(self.store.get(reader, row, BAL), left)
            self.store.stop(reader)

    def test_lost(self) -> None:
        self.commit(BOB, b"1")
        start = self.delete(BOB)
        self.store.clean(BOB, BAL)
        self.assertIsInstance(self.store.step(start), Stamped)
        self.assertEqual(self.store.step(start), Lost())
        self.assertEqual(self.store.get(self.store.begin(), BOB, BAL), Value(b"1"))

    def test_collected(self) -> None:
        self.commit(BOB, b"1")
        reader = self.store.begin()
        self.finish(self.delete(BOB))
        self.finish(self.delete(JOE))
        self.store.collect()
        self.assertEqual(self.store.get(reader, BOB, BAL), Value(b"1"))
        self.store.stop(reader)
        self.store.collect()
        for row in (BOB, JOE):
            for column in Qualifier:
                self.assertIsNone(self.store.raw(row, BAL, column))
        self.assertEqual(self.store.get(self.store.begin(), BOB, BAL), Nothing())

    def test_256_deletions(self) -> None:
        rows = [b"%d" % number for number in range(256)]
        for place in (0, 128):
            with self.store.transaction() as transaction:
                for row in rows[place : place + 128]:
                    transaction.set(row, BAL, row)
        with self.store.transaction() as transaction:
            for row in rows:
                transaction.delete(row, BAL)
        reader = self.store.begin()
        self.assertEqual({self.store.get(reader, row, BAL) for row in rows}, {Nothing()})

    def test_refused(self) -> None:
        start = self.store.begin()
        for row, family, refusal in ((b"", BAL, BadRow), (b"r" * 4001, BAL, BadRow), (BOB, b"a:b", BadColumn)):
            with self.assertRaises(refusal):
                self.store.delete(start, row, family)
        with self.assertRaises(UnknownSession):
            self.store.delete(start + 1, b"", BAL)
        for number in range(256):
            self.store.delete(start, b"%d" % number, BAL)
        with self.assertRaises(TooManyWrites):
            self.store.delete(start, b"256", BAL)
        self.store.step(start)
        with self.assertRaises(WrongPhase):
            self.store.delete(start, BOB, BAL)


class Refusals(StoreTest):
    """The refusals that a client can cause, and their limits."""

    def test_names(self) -> None:
        self.assertEqual(list(BY_NUMBER), list(range(1, 24)))
        limit = "it ends its tablet already, or there are 1,024 tablets"
        self.assertEqual(str(BadSplit("row b'a'")), f"refused 12: BadSplit: row b'a': {limit}")
        self.assertEqual((BadSplit().number, BadSplit().name), (12, "BadSplit"))
        self.assertTrue(all(issubclass(refusal, Refused) for refusal in BY_NUMBER.values()))

    def test_phases(self) -> None:
        start = self.store.begin()
        with self.assertRaises(EmptyCommit):
            self.store.step(start)
        self.store.set(start, BOB, BAL, b"1")
        self.store.step(start)
        with self.assertRaises(WrongPhase):
            self.store.get(start, BOB, BAL)
        with self.assertRaises(WrongPhase):
            self.store.set(start, JOE, BAL, b"1")

    def test_names_of_cells(self) -> None:
        start = self.store.begin()
        self.store.set(start, b"\x00" * 4000, b"!" * 64, b"v" * 65_536)
        for row in (b"", b"r" * 4001):
            with self.assertRaises(BadRow):
                self.store.set(start, row, BAL, b"")
        for family in (b"", b"f" * 65, b"a:b", b"a b", b"\x7f"):
            with self.assertRaises(BadColumn):
                self.store.get(start, BOB, family)
        with self.assertRaises(BadValue):
            self.store.set(start, BOB, BAL, b"v" * 65_537)

    def test_texts(self) -> None:
        start = self.store.begin()
        long = "value b'vvvvvvvvvvvvvvvvvvvvvvvvvvvvvvvv'.. of 65,537 bytes"
        wrong: tuple[tuple[Callable[[], object], str], ...] = (
            (lambda: self.store.set(start, BOB, b"a:b", b""), "family b'a:b': 1 to 64 bytes of 21 to 7E without ':'"),
            (lambda: self.store.set(start, BOB, BAL, b"v" * 65_537), f"{long}: at most 65,536 bytes"),
            (lambda: self.store.stop(9), "session 9: it has ended, or never began"),
            (lambda: self.store.minor(7), "tablet 7: tablets have the numbers from 1 to as many as there are"),
        )
        for ask, text in wrong:
            with self.assertRaises(Refused) as caught:
                ask()
            self.assertEqual(str(caught.exception).partition(": ")[2].partition(": ")[2], text)

    def test_text_in_the_place_of_bytes(self) -> None:
        start = self.store.begin()
        text: Any = "text"
        sets: tuple[Callable[..., None], ...] = (partial(self.store.set, start), self.store.transaction().set)
        for arguments, name in (((text, BAL, b""), "row"), ((BOB, text, b""), "family"), ((BOB, BAL, text), "value")):
            for set_it in sets:
                with self.assertRaisesRegex(TypeError, f"{name} must be bytes, and not str: 'text'"):
                    set_it(*arguments)
        self.store.set(start, bytearray(BOB), memoryview(BAL), b"10")
        self.assertEqual(self.store.step(start), Held(1, 1))

    def test_256_writes(self) -> None:
        start = self.store.begin()
        for number in range(256):
            self.store.set(start, b"%d" % number, BAL, b"")
        with self.assertRaises(TooManyWrites):
            self.store.set(start, b"256", BAL, b"")
        self.store.set(start, b"0", BAL, b"again")

    def test_1024_sessions(self) -> None:
        for _ in range(1024):
            self.store.begin()
        with self.assertRaises(TooManySessions):
            self.store.begin()
        self.store.stop(1)
        self.store.begin()

    def test_1024_cleaners(self) -> None:
        start = self.store.begin()
        self.store.set(start, BOB, BAL, b"1")
        self.store.step(start)
        for number in range(1, 1025):
            self.assertEqual(self.store.clean_begin(BOB, BAL), Cleaner(number, start))
        with self.assertRaises(TooManySessions):
            self.store.clean_begin(BOB, BAL)
        self.assertIsNone(self.store.clean_begin(JOE, BAL))
        with self.assertRaises(UnknownCleaner):
            self.store.clean_step(1025)

    def test_64_collectors(self) -> None:
        for number in range(1, 65):
            self.assertEqual(self.store.collect_begin(), Collector(number, 1))
        with self.assertRaises(TooManySessions):
            self.store.collect_begin()
        with self.assertRaises(UnknownCollector):
            self.store.collect_step(65)
        self.assertEqual(self.store.collect_step(64, 1), More())
        self.assertEqual(self.store.collect_step(64, 1), Collected())
        self.assertEqual(self.store.collect_begin(), Collector(65, 1))

    def test_1000_visits(self) -> None:
        self.store.collect_begin()
        for visits in (0, 1001):
            with self.assertRaises(BadCount):
                self.store.collect_step(1, visits)
        with self.assertRaises(UnknownCollector):
            self.store.collect_step(2, 0)
        self.assertEqual(self.store.collect_step(1, 1000), Collected())

    def test_1024_tablets(self) -> None:
        for number in range(1, 1024):
            self.store.split(number.to_bytes(2, "big"))
        with self.assertRaises(BadSplit):
            self.store.split(b"z")
        self.assertEqual(self.store.tablets()[0].number, 2)
        self.store.major(1024)
        with self.assertRaises(UnknownTablet):
            self.store.major(1025)

    def test_tablets(self) -> None:
        self.store.split(b"m")
        with self.assertRaises(BadSplit):
            self.store.split(b"m")
        with self.assertRaises(UnknownTablet):
            self.store.minor(3)
        with self.assertRaises(UnknownServer):
            self.store.move(1, 16)
        with self.assertRaises(BadCount):
            self.store.merge(1, 2)

    def test_64_files(self) -> None:
        for number in range(64):
            self.commit(BOB, b"%d" % number)
            self.store.minor(1)
        self.store.minor(1)
        self.commit(BOB, b"64")
        with self.assertRaises(TooManyFiles):
            self.store.minor(1)
        self.store.make_room(BOB)
        self.assertEqual(self.store.sweep(), 64)

    def test_full_memtable(self) -> None:
        self.assert_ends()
        self.store = Store(words=("--flush-bytes", "67108864"))
        for number in range(1022):
            self.commit(b"%d" % number, b"v" * 65_536)
        start = self.store.begin()
        self.store.set(start, BOB, BAL, b"v" * 65_536)
        with self.assertRaises(MemtableFull):
            self.store.step(start)
        with self.store.transaction() as transaction:
            transaction.set(JOE, BAL, b"v" * 65_536)
        self.assertIsNotNone(transaction.commit_stamp)
        self.assertEqual(self.store.step(start), Held(1, 1))

    def test_full_memtable_of_a_collector(self) -> None:
        self.commit(BOB, b"1")
        self.store._connection = Poor(self.store._connection, CollectStep.code, 1, refusal=b"\xff\x0f")
        self.store.collect()
        self.commit(BOB, b"2")
        self.store.minor(1)
        self.store.merge(1, 2)

    def test_too_large_a_frame_is_not_sent(self) -> None:
        start = self.store.begin()
        with self.assertRaises(FrameTooLarge):
            self.store.set(start, BOB, BAL, b"v" * 1_048_576)
        self.store.set(start, BOB, BAL, b"v")

    def test_numbers_too_large_for_their_fields(self) -> None:
        with self.assertRaises(OverflowError):
            self.store.minor(2**32)


class Unasked(unittest.TestCase):
    """Compactions that the words of the command line ask for, and collections that the store makes by itself."""

    def test_old_versions(self) -> None:
        """Behind the fifth commit a collector is opened, and behind the next it makes its visits; so again and again."""
        left = {6: [10, 12], 10: [10, 12, 14, 16, 18, 20], 11: [20, 22], 14: [20, 22, 24, 26, 28]}
        with connect(collect=5) as store:
            for number in range(1, 15):
                store.run(lambda t: t.set(b"r", b"c", b"v"))
                if number in left:
                    stamps = range(2, 2 * number + 1, 2)
                    found = [stamp for stamp in stamps if store.raw(b"r", b"c", Qualifier.WRITE, stamp, stamp)]
                    self.assertEqual(found, left[number])

    def test_old_versions_stay(self) -> None:
        """If they aren't to be collected."""
        with Store(collect=0) as store:
            for _ in range(3):
                store.run(lambda t: t.set(b"r", b"c", b"v"))
            self.assertIsNotNone(store.raw(b"r", b"c", Qualifier.WRITE, 2, 2))

    def test_full_memtables(self) -> None:
        with Store(words=("--flush", "2")) as store:
            for value in (b"v", b"w"):
                with store.transaction() as transaction:
                    transaction.set(b"r", b"c", value)
            store.merge(1, 2)
            self.assertEqual(store.sweep(), 2)

    def test_memtables_full_of_bytes(self) -> None:
        with Store(words=("--flush-bytes", "1048576")) as store:
            for number in range(32):
                with store.transaction() as transaction:
                    transaction.set(b"r%d" % number, b"c", bytes(65536))
            store.merge(1, 2)
            self.assertEqual(store.sweep(), 2)

    def test_words_of_a_store(self) -> None:
        flush, sessions = ["--flush-bytes", "33554432"], ["--session-bytes", "1073741824"]
        table: list[tuple[list[str], bool, list[str]]] = [
            ([], False, [*flush, *sessions]),
            ([], True, [*flush, *sessions, "--cache", "256", "--upkeep"]),
            (["--merge", "8"], False, [*flush, *sessions, "--merge", "8"]),
            (["--flush-bytes=1048576"], True, [*sessions, "--cache", "256", "--upkeep", "--flush-bytes=1048576"]),
            (["--session-bytes", "1048576"], False, [*flush, "--session-bytes", "1048576"]),
            (["--cache", "8"], True, [*flush, *sessions, "--upkeep", "--cache", "8"]),
        ]
        for words, has_folder, tuned_words in table:
            self.assertEqual(tuned(words, has_folder), tuned_words)

    def test_many_files(self) -> None:
        with Store(words=("--flush", "2", "--merge", "3")) as store:
            for number in range(100):
                with store.transaction() as transaction:
                    transaction.set(b"r%d" % number, b"c", b"v")
            with self.assertRaises(BadCount):
                store.merge(1, 3)
            self.assertEqual(store.run(lambda transaction: transaction.get(b"r7", b"c")), b"v")


class Ends(unittest.TestCase):
    """The end of a store."""

    def test_after_close(self) -> None:
        with Store() as store:
            store.begin()
        self.assertEqual(store.close(), 0)
        with self.assertRaises(ProgramEnded) as caught:
            store.begin()
        self.assertEqual(caught.exception.status, 0)

    def test_program_that_ends_at_once(self) -> None:
        with self.assertRaises(NotOpened) as caught:
            Store("true")
        self.assertEqual(caught.exception.status, 0)
        with self.assertRaisesRegex(NotOpened, "the command line is refused"):
            Store(words=("--flush", "0"))

    def test_no_program(self) -> None:
        with self.assertRaises(OSError):
            Store("/nowhere/tabletd")


if __name__ == "__main__":
    unittest.main()
