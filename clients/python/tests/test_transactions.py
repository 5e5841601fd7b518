"""Transactions: their ends, the state that they leave, and their retries."""

from __future__ import annotations

import os
import signal
import subprocess
import sys
import time
import unittest

from duqishom import (
    Cell,
    ForkedStore,
    Lost,
    NoMemory,
    Patience,
    RequestTimedOut,
    StillPending,
    Store,
    TooManyWrites,
    Transaction,
    TransactionConflict,
    TransactionLost,
    UnknownSession,
    Value,
    WrongPhase,
)
from duqishom.several import Support
from tests.folders import FolderTest
from tests.pages import TOP
from tests.poor import Poor

ANN, BOB, BAL = b"Ann", b"Bob", b"bal"
SET, STEP = 0x03, 0x04


def poor(code: int, first: int, count: int = 1) -> Store:
    """A store without Commit and Read that refuses some requests."""
    store = Store()
    store._connection, store._support = Poor(store._connection, code, first, count), Support(False)
    return store


def write(store: Store, row: bytes, value: bytes) -> None:
    """Commits a value."""
    with store.transaction() as transaction:
        transaction.set(row, BAL, value)


class Transactions(unittest.TestCase):
    def test_commits_and_reads(self) -> None:
        with Store() as store:
            with store.transaction() as transaction:
                transaction.set(ANN, BAL, b"1")
                transaction.set(BOB, BAL, b"2")
                transaction.set(ANN, BAL, b"3")
                self.assertEqual(transaction.get(ANN, BAL), b"3")
                self.assertIsNone(transaction.get(ANN, BAL, own=False))
            self.assertEqual(transaction.commit_stamp, 2)
            with store.transaction() as transaction:
                self.assertEqual(transaction.get(ANN, BAL), b"3")
                self.assertEqual(transaction.get(BOB, BAL), b"2")
            self.assertIsNone(transaction.commit_stamp)
            with self.assertRaises(UnknownSession):
                store.stop(transaction.start)
            with self.assertRaises(UnknownSession):
                transaction.commit()

    def test_an_exception_stops_it(self) -> None:
        with Store() as store:
            with self.assertRaises(ZeroDivisionError):
                with store.transaction() as transaction:
                    transaction.set(ANN, BAL, b"1")
                    raise ZeroDivisionError
            with self.assertRaises(UnknownSession):
                store.step(transaction.start)

    def test_a_conflict_leaves_nothing_locked(self) -> None:
        with Store() as store:
            transaction = store.transaction()
            transaction.set(ANN, BAL, b"1")
            transaction.set(BOB, BAL, b"2")
            write(store, BOB, b"3")
            with self.assertRaises(TransactionConflict) as caught:
                transaction.commit()
            self.assertEqual(caught.exception.cell, Cell(BOB, BAL))
            write(store, ANN, b"4")

    def test_deletes(self) -> None:
        with Store() as store:
            write(store, ANN, b"1")
            with store.transaction() as transaction:
                transaction.delete(ANN, BAL)
                self.assertIsNone(transaction.get(ANN, BAL))
                self.assertEqual(transaction.get(ANN, BAL, own=False), b"1")
                transaction.delete(BOB, BAL)
                transaction.set(BOB, BAL, b"2")
            with store.transaction() as transaction:
                self.assertEqual((transaction.get(ANN, BAL), transaction.get(BOB, BAL)), (None, b"2"))

    def test_writes_are_refused_at_once(self) -> None:
        with Store() as store:
            with store.transaction() as transaction:
                for number in range(256):
                    transaction.set(b"%d" % number, BAL, b"")
                with self.assertRaises(TooManyWrites):
                    transaction.set(ANN, BAL, b"")
                with self.assertRaises(TooManyWrites):
                    transaction.delete(ANN, BAL)
                transaction.set(b"0", BAL, b"again")
            with self.assertRaises(UnknownSession):
                transaction.set(ANN, BAL, b"")
            self.assertEqual(store.get(store.begin(), b"0", BAL), Value(b"again"))

    def test_a_conflict_behind_held_cells(self) -> None:
        with Store() as store:
            attempts = []

            def work(transaction: Transaction) -> None:
                attempts.append(transaction.start)
                transaction.set(ANN, BAL, b"1")
                transaction.set(BOB, BAL, b"2")
                write(store, BOB, b"3")

            with self.assertRaises(TransactionConflict) as caught:
                store.run(work, attempts=2)
            self.assertEqual(caught.exception.cell, Cell(BOB, BAL))
            self.assertEqual(len(attempts), 2)
            self.assertIsNone(store.clean_begin(ANN, BAL))

    def test_conflicts_are_tried_again(self) -> None:
        with Store() as store:
            attempts = []

            def work(transaction: Transaction) -> int:
                attempts.append(transaction.start)
                transaction.set(ANN, BAL, b"%d" % len(attempts))
                if len(attempts) < 3:
                    write(store, ANN, b"0")
                return len(attempts)

            self.assertEqual(store.run(work), 3)
            self.assertEqual(store.get(store.begin(), ANN, BAL), Value(b"3"))
            attempts.clear()
            with self.assertRaises(TransactionConflict):
                store.run(work, attempts=2)
            self.assertEqual(len(attempts), 2)

    def test_pending_reads_are_asked_again(self) -> None:
        with Store(patience=Patience(tries=5, pause=0, cleans=False)) as store:
            holder = store.begin()
            store.set(holder, ANN, BAL, b"1")
            store.step(holder)
            with store.transaction() as transaction:
                with self.assertRaises(StillPending) as caught:
                    transaction.get(ANN, BAL)
                self.assertEqual((caught.exception.cell, caught.exception.start), (Cell(ANN, BAL), holder))
                store.step(holder)
                store.step(holder)
                self.assertIsNone(transaction.get(ANN, BAL))

    def test_locks_of_stopped_sessions_are_cleaned(self) -> None:
        with Store(patience=Patience(tries=2, pause=0)) as store:
            for steps, left in ((2, None), (3, None), (4, b"4"), (5, b"5")):
                stopped = store.begin()
                store.set(stopped, ANN, BAL, b"%d" % steps)
                store.set(stopped, BOB, BAL, b"%d" % steps)
                for _ in range(steps):
                    store.step(stopped)
                with store.transaction() as transaction:
                    self.assertEqual((transaction.get(BOB, BAL), transaction.get(ANN, BAL)), (left, left))

    def test_a_lock_is_waited_for_and_then_cleaned(self) -> None:
        with Store(patience=Patience(tries=5, pause=0.02)) as store:
            slow = store.begin()
            store.set(slow, ANN, BAL, b"1")
            store.step(slow)
            began = time.monotonic()
            with self.assertRaises(TransactionConflict):
                write(store, ANN, b"2")
            self.assertGreater(time.monotonic() - began, 0.08)
            write(store, ANN, b"3")
            store.step(slow)
            self.assertEqual(store.step(slow), Lost())

    def test_a_lost_transaction_says_so(self) -> None:
        with poor(STEP, 3, count=3) as store:
            transaction = store.transaction()
            transaction.set(ANN, BAL, b"1")
            transaction.set(BOB, BAL, b"2")
            with self.assertRaises(NoMemory):
                transaction.commit()
            with self.assertRaises(WrongPhase):
                transaction.set(BOB, BAL, b"3")
            store.run(lambda other: other.set(ANN, BAL, b"3"))
            with self.assertRaises(TransactionLost):
                transaction.commit()
            self.assertIsNone(store.clean_begin(BOB, BAL))

    def test_lost_transactions_are_tried_again(self) -> None:
        with Store() as store:
            attempts = []

            def work(transaction: Transaction) -> None:
                attempts.append(transaction.start)
                transaction.set(ANN, BAL, b"1")
                if len(attempts) == 1:
                    raise TransactionLost("for a test")

            store.run(work)
            self.assertEqual(len(attempts), 2)

    def test_a_refused_step_is_taken_again(self) -> None:
        for count in (1, 3):
            with poor(STEP, 3, count) as store:
                transaction = store.transaction()
                transaction.set(ANN, BAL, b"1")
                transaction.set(BOB, BAL, b"2")
                if count > 1:
                    with self.assertRaises(NoMemory):
                        transaction.commit()
                    self.assertTrue(transaction.is_active)
                self.assertEqual(transaction.commit(), 2)
                self.assertFalse(transaction.is_active)
                self.assertEqual(store.get(store.begin(), BOB, BAL), Value(b"2"))

    def test_a_refused_write_commits_nothing(self) -> None:
        for rows in ([ANN], [ANN, BOB, b"Cid"]):
            for refused in range(1, len(rows) + 1):
                with self.subTest(rows=len(rows), refused=refused), poor(SET, refused) as store:
                    transaction = store.transaction()
                    for row in rows:
                        transaction.set(row, BAL, row)
                    with self.assertRaises(NoMemory):
                        transaction.commit()
                    reader = store.begin()
                    self.assertEqual([store.get(reader, row, BAL) for row in rows], [store.get(reader, b"-", BAL)] * len(rows))
                    transaction.commit()
                    reader = store.begin()
                    self.assertEqual([store.get(reader, row, BAL) for row in rows], [Value(row) for row in rows])

    def test_a_conflict_behind_a_refused_write(self) -> None:
        with poor(SET, 2) as store:
            transaction = store.transaction()
            for row in (ANN, BOB, b"Cid"):
                transaction.set(row, BAL, b"1")
            with self.assertRaises(NoMemory):
                transaction.commit()
            write(store, b"Cid", b"2")
            with self.assertRaises(TransactionConflict) as caught:
                transaction.commit()
            self.assertEqual(caught.exception.cell, Cell(b"Cid", BAL))
            self.assertIsNone(store.clean_begin(ANN, BAL))


SLOW = """#!/usr/bin/env python3
import sys, time
read, write = sys.stdin.buffer.read, sys.stdout.buffer
while head := read(4):
    body = read(int.from_bytes(head, "big"))
    if body[:1] == b"\\x01":
        time.sleep(0.5)
        write.write(bytes.fromhex("00000009 81 0000000000000007"))
    else:
        write.write(bytes.fromhex("00000002 FF16" if not body else "00000001 85"))
    write.flush()
"""

INTERRUPTED = """
import signal, sys
from duqishom import Store
signal.signal(signal.SIGINT, signal.default_int_handler)
with Store(folder=sys.argv[1], checkpoint_at_close=False) as store:
    done = 0
    try:
        while True:
            store.run(lambda t: t.set(b"n", b"c", b"%d" % (done + 1)))
            done += 1
            print(done, flush=True)
    except KeyboardInterrupt:
        store.checkpoint()
        print(store.run(lambda t: t.get(b"n", b"c")).decode(), flush=True)
"""


class Interruptions(FolderTest):
    """Interruptions of a client, and the state that they leave."""

    def test_timeouts(self) -> None:
        slow = self.path / "slow"
        slow.write_text(SLOW)
        slow.chmod(0o755)
        with Store(str(slow), timeout=0.1) as store:
            with self.assertRaises(RequestTimedOut):
                store.begin()
            time.sleep(0.6)
            store.stop(1)

    def test_ctrl_c_leaves_the_program(self) -> None:
        for wait in (1, 2, 3):
            with self.subTest(wait=wait):
                command = [sys.executable, "-c", INTERRUPTED, self.folder]
                client = subprocess.Popen(
                    command, stdout=subprocess.PIPE, cwd=TOP / "clients" / "python", text=True, start_new_session=True
                )
                assert client.stdout is not None
                for _ in range(wait):
                    client.stdout.readline()
                os.killpg(client.pid, signal.SIGINT)
                self.addCleanup(client.kill)
                told, _ = client.communicate(timeout=60)
                last = told.splitlines()[-1]
                self.assertEqual(client.returncode, 0)
                with Store(folder=self.folder) as store:
                    self.assertEqual(store.run(lambda transaction: transaction.get(b"n", b"c")), last.encode())

    def test_a_forked_process_has_no_store(self) -> None:
        with Store() as store:
            child = os.fork()
            if child == 0:
                try:
                    store.begin()
                except ForkedStore:
                    os._exit(7)
                os._exit(0)
            self.assertEqual(os.waitstatus_to_exitcode(os.waitpid(child, 0)[1]), 7)
            write(store, ANN, b"1")
            child = os.fork()
            if child == 0:
                time.sleep(30)
                os._exit(0)
            began = time.monotonic()
            self.assertEqual(store.close(), 0)
            self.assertLess(time.monotonic() - began, 100)
            os.kill(child, signal.SIGKILL)
            os.waitpid(child, 0)


if __name__ == "__main__":
    unittest.main()
