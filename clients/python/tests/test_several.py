"""Commit and Read: their bytes, and the requests of transactions that use them."""

from __future__ import annotations

import asyncio
import unittest
from collections.abc import Callable
from pathlib import Path
from typing import Any
from unittest.mock import patch

from duqishom import (
    BadColumn,
    BadCount,
    BadRow,
    BadValue,
    Cell,
    ConnectionLost,
    EmptyCommit,
    MalformedReply,
    NoMemory,
    Nothing,
    Patience,
    Pending,
    Qualifier,
    Refused,
    StillPending,
    Store,
    TooManySessions,
    TooManyWrites,
    Transaction,
    TransactionConflict,
    UnknownSession,
    Unsent,
    Value,
    WrongPhase,
    aio,
)
from duqishom.connection import Connection
from duqishom.frames import LONGEST_BODY, whole_frames
from duqishom.operations import Begin, Get, Operation, Set, Step, Stop, answer_or_refusal, request_body
from duqishom.several import Commit, CommitConflict, CommitDone, Read, ReadDone, Support, too_many_for_one
from tests.gateways import Gateway, folder_of, until
from tests.poor import Poor

ANN, BOB, CID, BAL = b"Ann", b"Bob", b"Cid", b"bal"
LONG = b"v" * 65_536
BAD_REQUEST, MEMTABLE_FULL = b"\xff\x16", b"\xff\x0f"

REQUESTS: tuple[tuple[Operation[object], str], ...] = (
    (Commit(), "32 0000000000000000 00000000"),
    (
        Commit(7, ((BOB, BAL, b"10"), (ANN, BAL, None), (BOB, b"x", b""))),
        "32 0000000000000007 00000003"
        "00000003 426F62 00000003 62616C 01 00000002 3130"
        "00000003 416E6E 00000003 62616C 00"
        "00000003 426F62 00000001 78 01 00000000",
    ),
    (Read(0, True, ((BOB, BAL),)), "33 0000000000000000 01 00000001 00000003 426F62 00000003 62616C"),
    (
        Read(9, False, ((BOB, BAL), (ANN, b"x"))),
        "33 0000000000000009 00 00000002 00000003 426F62 00000003 62616C 00000003 416E6E 00000001 78",
    ),
)

FOUR = Read(3, True, ((b"a", BAL), (b"b", BAL), (b"c", BAL), (b"d", BAL)))
REPLIES: tuple[tuple[Operation[object], str, object], ...] = (
    (Commit(), "B2 01 0000000000000001 0000000000000002", CommitDone(1, 2)),
    (Commit(), "B2 02 0000000000000003 0100", CommitConflict(3, 256)),
    (
        FOUR,
        "B3 0000000000000003 00000004 00 01 00000002 3130 02 0000000000000001 03",
        ReadDone(3, (Nothing(), Value(b"10"), Pending(1), Unsent())),
    ),
)

MALFORMED: tuple[tuple[Operation[object], str], ...] = (
    (Commit(), "B2 03 0001"),
    (Commit(), "B2 01 0000000000000001"),
    (Commit(), "B2 02 0001"),
    (Commit(), "B2 02 0000000000000003 0001 00"),
    (Commit(), "84 02 0001"),
    (FOUR, "B3 0000000000000003 00000003 00 00 00"),
    (FOUR, "B3 0000000000000003 00000004 00 00 00 04"),
    (FOUR, "B3 0000000000000003 00000004 00 00 00"),
    (FOUR, "B3 0000000000000003 00000004 00 00 00 00 00"),
)


class Bodies(unittest.TestCase):
    """The bytes of requests and replies."""

    def test_requests(self) -> None:
        for operation, body in REQUESTS:
            with self.subTest(body):
                self.assertEqual(request_body(operation).hex(), bytes.fromhex(body).hex())

    def test_replies(self) -> None:
        for operation, body, answer in REPLIES:
            with self.subTest(body):
                self.assertEqual(answer_or_refusal(operation, bytes.fromhex(body)), answer)

    def test_malformed_replies(self) -> None:
        for operation, body in MALFORMED:
            with self.subTest(body), self.assertRaises(MalformedReply):
                answer_or_refusal(operation, bytes.fromhex(body))

    def test_what_is_too_long(self) -> None:
        """Of a Commit, its last writes stay as long as its body is no longer than it may be."""
        for size in (0, 100, 4000):
            writes = {Cell(b"%06d" % number, BAL): None if number % 3 == 0 else b"v" * size for number in range(256)}
            for longest in (13, 1000, 100_000, LONGEST_BODY):
                before = too_many_for_one(writes, longest)
                for left, fits in ((before, True), (before - 1, False)):
                    if 0 <= left:
                        rest = tuple([(*cell, value) for cell, value in list(writes.items())[left:]])
                        self.assertEqual(len(request_body(Commit(7, rest))) <= longest, fits)


class Operations(unittest.TestCase):
    """Each answer and each refusal of the program."""

    def setUp(self) -> None:
        self.store = Store()
        self.addCleanup(self.store.close)

    def answers(self, *asked: Operation[object]) -> list[object]:
        """The answers, and the types of the refusals."""
        return [type(each) if isinstance(each, Refused) else each for each in self.store.ask_each(asked)]

    def test_commits(self) -> None:
        asked = (
            Commit(0, ((ANN, BAL, b"1"), (BOB, BAL, b"2"))),
            Begin(),
            Set(3, ANN, BAL, b"3"),
            Commit(3, ((BOB, BAL, None), (ANN, b"x", b"4"))),
            Read(0, False, ((ANN, BAL), (BOB, BAL), (ANN, b"x"))),
            Stop(3),
        )
        found = ReadDone(5, (Value(b"3"), Nothing(), Value(b"4")))
        self.assertEqual(self.answers(*asked), [CommitDone(1, 2), 3, None, CommitDone(3, 4), found, UnknownSession])

    def test_a_later_write_replaces(self) -> None:
        writes = ((ANN, BAL, b"1"), (BOB, BAL, b"2"), (ANN, BAL, None), (BOB, BAL, b"3"))
        found = ReadDone(3, (Nothing(), Value(b"3")))
        self.assertEqual(self.answers(Commit(0, writes), Read(0, False, ((ANN, BAL), (BOB, BAL)))), [CommitDone(1, 2), found])

    def test_reads(self) -> None:
        cells = ((ANN, BAL), (BOB, BAL))
        commit, last = Commit(0, ((ANN, BAL, b"1"),)), Read(1, False, cells)
        asked = (Read(0, True, cells), commit, Read(1, True, cells), Get(1, ANN, BAL), last)
        nothing = ReadDone(1, (Nothing(), Nothing()))
        self.assertEqual(self.answers(*asked), [nothing, CommitDone(2, 3), nothing, Nothing(), nothing])
        found = ReadDone(4, (Value(b"1"), Nothing()))
        self.assertEqual(self.answers(Read(1, True, cells), Read(0, False, cells)), [UnknownSession, found])

    def test_conflicts(self) -> None:
        """With a later commit, and with a lock, which stays. Nothing else is locked, and the session has ended."""
        asked = (Begin(), Begin(), Set(2, CID, BAL, b"l"), Step(2), Set(1, ANN, BAL, b"1"), Commit(0, ((BOB, BAL, b"2"),)))
        self.answers(*asked)
        cells = tuple((row, BAL) for row in (ANN, BOB, CID))
        self.assertEqual(self.answers(Commit(1, ((BOB, BAL, b"1"),)), Stop(1)), [CommitConflict(1, 2), UnknownSession])
        self.assertEqual(self.answers(Commit(0, ((ANN, BAL, b"1"), (CID, BAL, b"1")))), [CommitConflict(5, 2)])
        self.assertEqual(self.answers(Read(0, False, cells)), [ReadDone(6, (Nothing(), Value(b"2"), Pending(2)))])
        self.assertEqual([self.store.clean_begin(*cell) is None for cell in cells], [True, True, False])

    def test_refusals(self) -> None:
        one = ((ANN, BAL, b"1"),)
        many = tuple((b"%d" % number, BAL, b"") for number in range(257))
        self.answers(Begin(), Set(1, CID, BAL, b"l"), Step(1), Begin(), Begin(), Set(3, ANN, BAL, b"3"))
        cases: tuple[tuple[Operation[object], type[Refused]], ...] = (
            (Commit(9, one), UnknownSession),
            (Commit(1, one), WrongPhase),
            (Commit(2, (*one, (b"", BAL, b""))), BadRow),
            (Commit(2, (*one, (ANN, b":", b""))), BadColumn),
            (Commit(2, (*one, (ANN, BAL, LONG + b"v"))), BadValue),
            (Commit(2, many), TooManyWrites),
            (Commit(0, many), TooManyWrites),
            (Commit(3, many[:256]), TooManyWrites),
            (Commit(2), EmptyCommit),
            (Commit(0), EmptyCommit),
            (Read(9), BadCount),
            (Read(9, True, tuple(write[:2] for write in many)), BadCount),
            (Read(9, True, ((ANN, BAL),)), UnknownSession),
            (Read(1, True, ((ANN, BAL),)), WrongPhase),
            (Read(2, False, ((ANN, BAL), (b"", BAL))), BadRow),
            (Read(2, False, ((ANN, BAL), (BOB, b""))), BadColumn),
        )
        for operation, refusal in cases:
            with self.subTest(operation.code, refusal=refusal.__name__):
                self.assertEqual(self.answers(operation), [refusal])
        self.assertEqual(self.answers(Commit(2, one), Commit(3)), [CommitDone(2, 4), CommitConflict(3, 1)])

    def test_texts_of_refusals(self) -> None:
        cases = (
            (Commit(9), "refused 1: UnknownSession: session 9: it has ended, or never began"),
            (Commit(), "refused 8: EmptyCommit: it has written nothing"),
        )
        for operation, text in cases:
            with self.assertRaises(Refused) as caught:
                self.store.ask(operation)
            self.assertEqual(str(caught.exception), text)
        with self.assertRaisesRegex(BadCount, "cells 0: .*a Read at 1 to 256"):
            self.store.ask(Read())

    def test_too_many_sessions(self) -> None:
        self.store.ask_each([Begin()] * 1024)
        both: tuple[Operation[Any], ...] = (Commit(0, ((ANN, BAL, b"1"),)), Read(0, False, ((ANN, BAL),)))
        for operation in both:
            with self.assertRaisesRegex(TooManySessions, "1,024 sessions are the most"):
                self.store.ask(operation)


class Heard:
    """A connection, and the operations of each trip to it."""

    def __init__(self, connection: Connection) -> None:
        self._connection = connection
        self.trips: list[list[int]] = []

    def ask(self, requests: bytes, count: int, timeout: float | None = None) -> bytes:
        bodies: list[bytes] = []
        whole_frames(requests, bodies)
        self.trips.append([body[0] for body in bodies])
        return self._connection.ask(requests, count, timeout)

    def tell(self, request: bytes, timeout: float | None = None) -> None:
        self.trips.append([-request[4]])
        self._connection.tell(request, timeout)

    def kill(self) -> None:
        self._connection.kill()

    def close(self) -> int:
        return self._connection.close()


def add_to(*rows: bytes) -> Callable[[Transaction], list[bytes]]:
    """A function of a transaction that counts one more in each of these rows."""

    def work(t: Transaction) -> list[bytes]:
        values = [b"%d" % (int(value or b"0") + 1) for value in t.get_many([(row, BAL) for row in rows])]
        for row, value in zip(rows, values):
            t.put(row, BAL, value)
        return values

    return work


class Trips(unittest.TestCase):
    """The requests of transactions, over the program."""

    def heard(self, patience: Patience | None = None, words: tuple[str, ...] = ()) -> tuple[Store, list[list[int]]]:
        store = Store(patience=patience, words=words)
        self.addCleanup(store.close)
        store._connection = heard = Heard(store._connection)
        return store, heard.trips

    def test_blind_writes(self) -> None:
        store, trips = self.heard()
        store.put(ANN, BAL, b"1")
        store.delete(BOB, BAL)
        self.assertEqual(trips, [[0x32], [0x32]])

        def work(t: Transaction) -> Transaction:
            for number in range(256):
                t.put(b"%d" % number, BAL, b"v")
            return t

        done = store.run(work)
        self.assertEqual((trips[2:], done.start, done.commit_stamp, done.is_active), ([[0x32]], 5, 6, False))
        self.assertEqual(store.count(), 257)

    def test_reads_and_writes(self) -> None:
        store, trips = self.heard()
        for rows in ((ANN,), (ANN, BOB, CID, b"Dan")):
            trips.clear()
            store.run(add_to(*rows))
            self.assertEqual(trips, [[0x33], [0x32]])
        trips.clear()
        self.assertEqual(store.get_many([(row, BAL) for row in (ANN, BOB, b"-", ANN)]), [b"2", b"1", None, b"2"])
        self.assertEqual(store.get(ANN, BAL), b"2")
        self.assertEqual(trips, [[0x33], [0x33]])

    def test_transactions_that_begin_at_once(self) -> None:
        store, trips = self.heard()
        with store.transaction() as t:
            self.assertEqual((t.get(ANN, BAL), t.get_many([(ANN, BAL), (BOB, BAL)])), (None, [None, None]))
            t.put(ANN, BAL, b"1")
        with store.snapshot() as snapshot:
            self.assertEqual(snapshot.get_many([(ANN, BAL), (BOB, BAL)]), [b"1", None])
        self.assertEqual(trips, [[1], [2], [0x33], [0x32], [1], [0x33], [-5]])

    def test_scans(self) -> None:
        """A scan of its own begins with its first batch, in one trip if nobody else draws stamps. If it is of few cells, it ends
        with it too."""
        store, trips = self.heard()
        store.put(ANN, BAL, b"1")
        store.put(BOB, BAL, b"2")
        goes_on, ends = [[1, 0x31], [-5]], [[1, 0x31, 5]]
        works: tuple[tuple[Callable[[], object], list[list[int]]], ...] = (
            (lambda: list(store.scan(limit=1)), ends),
            (lambda: next(store.scan()), goes_on),
            (lambda: store.row(ANN), ends),
            (lambda: list(store.rows(limit=2)), ends),
            (lambda: list(store.rows()), goes_on),
            (lambda: store.count(), goes_on),
        )
        for asked, wanted in works:
            trips.clear()
            self.assertTrue(asked())
            self.assertEqual(trips, wanted)
        self.assertEqual((list(store.scan(limit=0)), list(store.rows(limit=0))), ([], []))
        self.assertEqual(trips, goes_on)

    def test_scans_beside_others(self) -> None:
        gateway = Gateway(self)
        with Store(socket=gateway.path) as store, Store(socket=gateway.path) as other:
            store.put(ANN, BAL, b"1")
            other.put(BOB, BAL, b"2")
            store._connection = heard = Heard(store._connection)
            for _ in range(3):
                self.assertEqual(list(store.scan(limit=2)), [(ANN, BAL, b"1"), (BOB, BAL, b"2")])
            self.assertEqual(heard.trips, [[0x70], [1, 0x31, 5], [0x31, 5], [1], [0x31, 5], [1, 0x31, 5]])
        self.assertTrue(until(lambda: gateway.statistics()["open"]["sessions"] == 0))

    def test_a_start_that_is_asked_for(self) -> None:
        store, trips = self.heard()
        starts = store.run(lambda t: [t.start, t.start])
        self.assertEqual((starts, trips), ([1, 1], [[1], [-5]]))
        store.run(lambda t: t.is_active)
        self.assertEqual(len(trips), 2)

    def test_many_cells(self) -> None:
        store, trips = self.heard()
        cells = [(b"%d" % number, BAL) for number in range(600)]
        store.put(b"599", BAL, b"v")
        trips.clear()
        self.assertEqual(store.get_many(cells), [None] * 599 + [b"v"])
        self.assertEqual(trips, [[0x33], [0x33, 0x33], [-5]])

    def test_long_values(self) -> None:
        """A Commit that would be too long sends its first writes before it, and what a Read leaves out is read by Gets."""
        store, trips = self.heard()
        cells = [(b"%02d" % number, BAL) for number in range(20)]

        def work(t: Transaction) -> None:
            for cell in cells:
                t.put(*cell, LONG)

        store.run(work)
        self.assertEqual(trips, [[1], [3] * 5, [0x32]])
        trips.clear()
        self.assertEqual(store.run(lambda t: t.get_many(cells)), [LONG] * 20)
        self.assertEqual(trips, [[0x33], [2] * 5, [-5]])
        self.assertEqual(store.get_many(cells), [LONG] * 20)

    def test_conflicts(self) -> None:
        store, trips = self.heard()
        attempts: list[int] = []

        def work(t: Transaction) -> None:
            attempts.append(t.start)
            t.put(ANN, BAL, b"1")
            t.put(BOB, BAL, b"2")
            if len(attempts) < 3:
                store.put(BOB, BAL, b"3")

        store.run(work)
        self.assertEqual((len(attempts), store.get(BOB, BAL)), (3, b"2"))
        self.assertEqual(trips, 2 * [[1], [0x32], [0x32], [0x11]] + [[1], [0x32], [0x33]])
        attempts.clear()
        with self.assertRaises(TransactionConflict) as caught:
            store.run(work, attempts=2)
        self.assertEqual(caught.exception.cell, Cell(BOB, BAL))
        self.assertIsNone(store.clean_begin(ANN, BAL))

    def test_a_conflict_behind_writes_that_went_before(self) -> None:
        store, _ = self.heard()
        t = store.transaction()
        rows = [b"%02d" % number for number in range(20)]
        for row in rows:
            t.put(row, BAL, LONG)
        store.put(b"03", BAL, b"x")
        with self.assertRaises(TransactionConflict) as caught:
            t.commit()
        self.assertEqual(caught.exception.cell, Cell(b"03", BAL))
        self.assertRaises(UnknownSession, t.commit)
        self.assertRaises(UnknownSession, store.stop, t.start)

    def test_locks(self) -> None:
        """A lock that stays is waited for and cleaned, before a read and behind a conflict."""
        store, trips = self.heard(Patience(tries=2, pause=0))
        works: tuple[Callable[[Transaction], object], ...] = (add_to(ANN, BOB), lambda t: t.put(ANN, BAL, b"5"))
        for work in works:
            holder = store.begin()
            store.set(holder, ANN, BAL, b"1")
            store.step(holder)
            trips.clear()
            store.run(work)
            self.assertIn([0x06], trips)
        self.assertEqual(store.get(ANN, BAL), b"5")
        strict, _ = self.heard(Patience(tries=2, pause=0, cleans=False))
        holder = strict.begin()
        strict.set(holder, ANN, BAL, b"1")
        strict.step(holder)
        with self.assertRaises(StillPending) as caught:
            strict.run(add_to(ANN, BOB), attempts=1)
        self.assertEqual((caught.exception.cell, caught.exception.start), (Cell(ANN, BAL), holder))
        with self.assertRaises(TransactionConflict):
            strict.run(lambda t: t.put(ANN, BAL, b"2"), attempts=1)

    def test_refusals(self) -> None:
        """After a refusal the session is as before, and the commit may be tried again."""
        store, trips = self.heard()
        store._connection = Poor(store._connection, Commit.code, 1, 2)
        t = store.transaction()
        t.put(ANN, BAL, b"1")
        self.assertRaises(NoMemory, t.commit)
        t.put(ANN, BAL, b"2")
        t.put(BOB, BAL, b"3")
        self.assertRaises(NoMemory, t.commit)
        self.assertTrue(t.is_active)
        self.assertEqual((t.commit(), t.is_active), (2, False))
        self.assertEqual(store.get_many([(ANN, BAL), (BOB, BAL)]), [b"2", b"3"])
        store._connection = Poor(store._connection, Commit.code, 1)
        trips.clear()
        with self.assertRaises(NoMemory), store.transaction() as t:
            t.put(ANN, BAL, b"4")
        self.assertEqual(trips, [[1], [], [-5]])

    def test_a_refusal_behind_writes_that_went_before(self) -> None:
        store, trips = self.heard()
        store._connection = Poor(store._connection, Commit.code, 1)
        t = store.transaction()
        for number in range(20):
            t.put(b"%02d" % number, BAL, LONG)
        self.assertRaises(NoMemory, t.commit)
        t.put(b"00", BAL, b"again")
        t.delete(b"19", BAL)
        trips.clear()
        t.commit()
        self.assertEqual(trips, [[0x32]])
        self.assertEqual(store.get_many([(b"%02d" % number, BAL) for number in (0, 1, 19)]), [b"again", LONG, None])

    def test_room_is_made(self) -> None:
        store, trips = self.heard()
        store.split(BOB)
        store._connection = Poor(store._connection, Commit.code, 2, 1, MEMTABLE_FULL)
        store.put(ANN, BAL, b"0")
        trips.clear()
        store.run(add_to(ANN, CID))
        self.assertEqual(trips, [[0x33], [], [0x0A], [0x0A], [0x32]])
        self.assertEqual(store.get_many([(ANN, BAL), (CID, BAL)]), [b"1", b"1"])

    def test_a_read_without_memory(self) -> None:
        store, trips = self.heard()
        store.run(add_to(ANN, BOB))
        trips.clear()
        store._connection = Poor(store._connection, Read.code, 1, 2)
        self.assertEqual(store.get_many([(ANN, BAL), (BOB, BAL)]), [b"1", b"1"])
        self.assertEqual([trip for trip in trips if trip], [[1], [2, 2], [-5]])

    def test_without_the_operations(self) -> None:
        """A program that doesn't have them is asked once, and then in the long way."""
        store, trips = self.heard()
        store._connection = Poor(store._connection, Commit.code, 1, 99, BAD_REQUEST)
        store.put(ANN, BAL, b"1")
        store.run(add_to(ANN, BOB))
        self.assertEqual(store.get_many([(ANN, BAL), (BOB, BAL)]), [b"2", b"1"])
        self.assertEqual(trips, [[], [1], [3, 4, 4, 4], [1], [2, 2], [3, 3], [4] * 5, [1, 2, 2], [-5]])
        other, trips = self.heard()
        other._connection = Poor(other._connection, Read.code, 1, 99, BAD_REQUEST)
        other.run(add_to(ANN, BOB))
        self.assertEqual(other.get(ANN, BAL), b"1")
        self.assertEqual(trips, [[], [1], [2, 2], [3, 3], [4] * 5, [1, 2], [-5]])

    def test_a_recording_has_them(self) -> None:
        place = Path(folder_of(self))
        with Store(record=place) as store:
            store.run(add_to(ANN, BOB))
            self.assertEqual(store.get_many([(ANN, BAL), (BOB, BAL)]), [b"1", b"1"])
        bodies: list[bytes] = []
        whole_frames((place / "requests").read_bytes(), bodies)
        self.assertEqual({body[0] for body in bodies if body}, {Commit.code, Read.code})

    def test_a_folder_keeps_it(self) -> None:
        for log in (True, False):
            folder = folder_of(self)
            with Store(folder=folder, log=log) as store:
                store.put(ANN, BAL, b"1")
                store.run(add_to(ANN, BOB))
                if log:
                    store.kill()
            with Store(folder=folder) as store:
                self.assertEqual(store.get_many([(ANN, BAL), (BOB, BAL)]), [b"2", b"1"])


class Losing(Heard):
    """A connection that is lost in place of the answer to a Commit, before it does what it was asked or behind it."""

    is_done = is_lost = False

    def ask(self, requests: bytes, count: int, timeout: float | None = None) -> bytes:
        if requests[4] != Commit.code:
            return super().ask(requests, count, timeout)
        if self.is_done:
            super().ask(requests, count, timeout)
        self.is_lost = True
        self.close()
        raise ConnectionLost()


class Losses(unittest.TestCase):
    """Connections to a gateway that are lost."""

    def test_blind_writes(self) -> None:
        """A commit names its session, so that its fate is known. The same write of others isn't taken for it."""
        gateway = Gateway(self)
        for is_done in (True, False):
            with Store(socket=gateway.path) as store, Store(socket=gateway.path) as other:
                other.put(ANN, BAL, b"1")
                other.put(ANN, BAL, b"0")
                store._connection = losing = Losing(store._connection)
                losing.is_done = is_done

                def put(transaction: Transaction) -> Transaction:
                    transaction.put(ANN, BAL, b"1")
                    return transaction

                done = store.run(put, attempts=1 if is_done else 2)
                record = other.raw(ANN, BAL, Qualifier.WRITE)
                assert record is not None
                self.assertEqual((other.get(ANN, BAL), done.commit_stamp), (b"1", record.stamp))
                self.assertEqual(losing.trips[0], [1])

    def test_each_connection_finds_out(self) -> None:
        with Store(socket=Gateway(self).path) as store:
            store._support = Support(False)
            store._connection = losing = Losing(store._connection)
            losing.is_lost = True
            losing.close()
            store.put(ANN, BAL, b"1")
            self.assertTrue(store._support.is_there)


class Tasks(unittest.TestCase):
    """The same for asyncio, at a gateway."""

    def test_requests(self) -> None:
        gateway = Gateway(self)

        async def main() -> None:
            async with aio.connect(gateway.path) as store:
                await store.put(ANN, BAL, b"1")

                async def work(t: aio.Transaction) -> None:
                    with self.assertRaises(ValueError):
                        t.start
                    values = await t.get_many([(ANN, BAL), (BOB, BAL)])
                    t.put(BOB, BAL, values[0] or b"-")
                    self.assertGreater(t.start, 0)

                await store.run(work)
                self.assertEqual(await store.get_many([(ANN, BAL), (BOB, BAL)]), [b"1", b"1"])
                async with store.transaction() as t:
                    t.put(ANN, BAL, b"2")
                self.assertEqual(await store.get(ANN, BAL), b"2")

        asyncio.run(main())
        told = gateway.statistics()
        asked = {name: count for name, count in told["requests"].items() if count}
        self.assertEqual(asked, {"Begin": 2, "Commit": 3, "Read": 3, "Statistics": 1})
        self.assertEqual(told["open"]["sessions"], 0)

    def test_scans(self) -> None:
        gateway = Gateway(self)

        async def main() -> None:
            async with aio.connect(gateway.path) as store:
                await store.put(ANN, BAL, b"1")
                trips, ask = list[list[int]](), store._stream.ask

                async def heard(requests: bytes, count: int) -> bytes:
                    bodies: list[bytes] = []
                    whole_frames(requests, bodies)
                    trips.append([body[0] for body in bodies])
                    return await ask(requests, count)

                with patch.object(store._stream, "ask", heard):
                    self.assertEqual([entry async for entry in store.scan(limit=1)], [(ANN, BAL, b"1")])
                    self.assertEqual((await store.row(ANN), await store.count()), ({BAL: b"1"}, 1))
                self.assertEqual(trips, [[0x70], [1, 0x31, 5], [1, 0x31, 5], [1, 0x31]])

        asyncio.run(main())
        self.assertTrue(until(lambda: gateway.statistics()["open"]["sessions"] == 0))

    def test_a_cancelled_read_leaves_no_session(self) -> None:
        gateway = Gateway(self)

        async def main() -> None:
            async with aio.connect(gateway.path) as store:
                await store.put(ANN, BAL, b"1")
                for pause in (0, 0, 0.0001, 0.001):
                    tasks = [asyncio.create_task(store.run(lambda t: t.get_many([(ANN, BAL)]))) for _ in range(20)]
                    await asyncio.sleep(pause)
                    for task in tasks:
                        task.cancel()
                    await asyncio.gather(*tasks, return_exceptions=True)
                self.assertEqual(await store.get(ANN, BAL), b"1")
                self.assertTrue(until(lambda: gateway.statistics()["open"]["sessions"] == 0))

        asyncio.run(main())

    def test_tasks_wait_for_a_place(self) -> None:
        gateway = Gateway(self, ["--sessions", "2"])

        async def main() -> None:
            async with aio.connect(gateway.path) as store:
                await asyncio.gather(*(store.put(b"%d" % number, BAL, b"v") for number in range(50)))
                await asyncio.gather(*(store.run(lambda t: t.get_many([(ANN, BAL), (BOB, BAL)])) for _ in range(50)))
                self.assertEqual(await store.count(), 50)

        asyncio.run(main())

    def test_a_gateway_that_records(self) -> None:
        gateway = Gateway(self, ["--record", folder_of(self)])

        async def main() -> None:
            async with aio.connect(gateway.path, connections=2) as store:
                await asyncio.gather(*(store.put(b"%d" % number, BAL, b"v") for number in range(20)))
                self.assertEqual(await store.get_many([(b"0", BAL), (ANN, BAL)]), [b"v", None])

        asyncio.run(main())
        counts = gateway.statistics()["requests"]
        self.assertGreaterEqual((counts["Commit"], counts["Read"]), (20, 1))


if __name__ == "__main__":
    unittest.main()
