"""What a user meets first: opening a store, cells by themselves, functions of a transaction, and lost connections."""

from __future__ import annotations

import asyncio
import os
import socket
import subprocess
import sys
import time
import unittest
from collections.abc import Callable, Iterator
from contextlib import AsyncExitStack, contextmanager
from itertools import product
from pathlib import Path
from typing import Any
from unittest.mock import patch

import duqishom
from duqishom import (
    BadRow,
    Committed,
    ConnectionLost,
    NoMemory,
    NotOpened,
    Patience,
    ProgramEnded,
    Store,
    TooManySessions,
    Transaction,
    TransactionConflict,
    TransactionLost,
    UnknownSession,
    Value,
    aio,
    protocol,
)
from duqishom.connection import Connection
from duqishom.frames import whole_frames
from duqishom.operations import Step
from duqishom.plans import Reconnects
from duqishom.remote import address_of
from duqishom.several import Commit, Support
from tests.gateways import PATIENCE, Gateway, folder_of, free_port, until
from tests.peer import peer
from tests.poor import Poor

ANN, BOB, BAL = b"Ann", b"Bob", b"bal"
THREE = b"\0\0\0\0\0\0\0\x03"
BEGIN, STOP = (b"\x01", b"\x81" + THREE), (b"\x05" + THREE, b"\x85")


def command(words: list[str]) -> subprocess.CompletedProcess[str]:
    """The command, with an empty input, after its end."""
    whole = [sys.executable, "-W", "error", "-m", "duqishom", *words]
    return subprocess.run(whole, capture_output=True, text=True, input="", timeout=60)


class Addresses(unittest.TestCase):
    """What `connect` opens."""

    def test_texts(self) -> None:
        for text, address in (
            ("data", None),
            ("./data:1", None),
            ("/a/b:1", None),
            ("unix:data", "data"),
            ("unix:/run/s:1", "/run/s:1"),
            ("localhost:7000", ("localhost", 7000)),
            ("tcp:127.0.0.1:7000", ("127.0.0.1", 7000)),
            ("tcp://host:7000", ("host", 7000)),
            ("[::1]:7000", ("::1", 7000)),
            ("host:", None),
        ):
            self.assertEqual(address_of(text), address, text)

    def test_a_folder_is_made(self) -> None:
        folder = os.path.join(folder_of(self), "data")
        for value in (None, b"1"):
            with duqishom.connect(folder) as store:
                self.assertEqual(store.get(ANN, BAL), value)
                store.put(ANN, BAL, b"1")
                self.assertTrue(store.has_log)
        with duqishom.connect() as store:
            self.assertIsNone(store.get(ANN, BAL))

    def test_gateways(self) -> None:
        with socket.create_server(("127.0.0.1", 0)) as free:
            port = free.getsockname()[1]
        gateway = Gateway(self, ["--tcp", str(port)])
        addresses: list[str | Path] = [f"unix:{gateway.path}", gateway.path, Path(gateway.path), f"127.0.0.1:{port}"]
        for number, address in enumerate(addresses):
            with duqishom.connect(address) as store:
                store.put(ANN, BAL, b"%d" % number)

            async def read() -> bytes | None:
                async with aio.connect(address) as store:
                    return await store.get(ANN, BAL)

            self.assertEqual(asyncio.run(read()), b"%d" % number)

    def test_the_command_takes_a_host_and_a_port(self) -> None:
        gateway = Gateway(self, ["--tcp", str(port := free_port())])
        for place in f"127.0.0.1:{port}", f"unix:{gateway.path}", gateway.path:
            for words, text in (
                (["--socket", place, "set", "Ann", "bal", "1"], "committed at "),
                (["--socket", place, "status"], "requests Commit: "),
                (["stats", "--socket", place], "requests Commit: "),
                (["dump", "--socket", place], '{"row": "Ann", "family": "bal", "value": "1"}'),
                (["load", "--socket", place], "0 cells are set"),
                (["watch", "--socket", place, "--timeout", "0.1"], "any cell may have changed"),
            ):
                with self.subTest(words=words):
                    ran = command(words)
                    self.assertEqual((ran.returncode, ran.stderr), (0, ""))
                    self.assertIn(text, ran.stdout)
        nobody = f"127.0.0.1:{free_port()}"
        for words in ["--socket", nobody, "get", "Ann", "bal"], ["stats", "--socket", nobody]:
            ran = command(words)
            self.assertEqual((ran.returncode, ran.stdout), (2, ""))
            self.assertIn(nobody, ran.stderr)

    def test_errors_name_what_is_missing(self) -> None:
        path = os.path.join(folder_of(self), "no", "thing")

        async def opened() -> None:
            async with aio.connect(f"unix:{path}"):
                pass

        ways: list[Callable[[], object]] = [
            lambda: duqishom.connect(path),
            lambda: duqishom.connect(f"unix:{path}"),
            lambda: Store(socket=path),
            lambda: asyncio.run(opened()),
        ]
        for open_it in ways:
            with self.assertRaises(FileNotFoundError) as caught:
                open_it()
            self.assertEqual(caught.exception.filename, path)
        with self.assertRaisesRegex(NotOpened, path):
            Store(folder=path)
        with self.assertRaisesRegex(FileNotFoundError, f"as a program to start .* is opened by connect.*{path}"):
            Store(path)
        with socket.create_server(("127.0.0.1", 0)) as free:
            port = free.getsockname()[1]
        with self.assertRaisesRegex(ConnectionRefusedError, f"127.0.0.1:{port}"):
            duqishom.connect(f"127.0.0.1:{port}")

    def test_how_long_a_lock_is_waited_for(self) -> None:
        gateway = Gateway(self)
        for lock_wait, tries in ((None, 101), (0.05, 6), (0, 1)):
            with Store(socket=gateway.path, lock_wait=lock_wait) as store, self.subTest(lock_wait=lock_wait):
                self.assertEqual(store._patience, Patience(tries, 0.01, True))
                start = store.begin()
                store.set(start, ANN, BAL, b"1")
                store.step(start)
                began = time.monotonic()
                self.assertIsNone(store.get(ANN, BAL))
                self.assertGreaterEqual(time.monotonic() - began, 0.01 * (tries - 1))
        with Store() as store:
            self.assertEqual(store._patience, Patience(3, 0.01, True))
            for _ in range(1024):
                store.begin()
            with self.assertRaisesRegex(TooManySessions, "1,024 sessions are the most$"):
                store.begin()
        with self.assertRaises(ValueError):
            Store(patience=Patience(), lock_wait=1)


class Cells(unittest.TestCase):
    """Cells by themselves."""

    def setUp(self) -> None:
        self.store = duqishom.connect()
        self.addCleanup(self.store.close)
        with self.store.transaction() as t:
            for row in (b"a", b"b", b"b\0", b"c"):
                t.put(row, b"f", row)
            t.set(b"b", b"g", b"2")

    def test_reads_and_writes(self) -> None:
        store = self.store
        cells = [(b"b", b"g"), (b"a", b"g"), (b"b", b"g"), (b"c", b"f")]
        self.assertEqual(store.get_many(cells), [b"2", None, b"2", b"c"])
        self.assertEqual(store.get_many([]), [])
        self.assertEqual((store.row(b"b"), store.row(b"d")), ({b"f": b"b", b"g": b"2"}, {}))
        store.delete(b"b", b"f")
        store.set(b"a", b"f", b"")
        self.assertEqual((store.get(b"b", b"f"), store.get(b"a", b"f"), store.count()), (None, b"", 4))
        with store.transaction() as t:
            t.put(b"a", b"h", b"mine")
            self.assertEqual(t.get_many([(b"a", b"h"), (b"c", b"f")]), [b"mine", b"c"])
            self.assertEqual((t.row(b"a"), t.row(b"a", own=False)), ({b"f": b"", b"h": b"mine"}, {b"f": b""}))

    def test_ranges(self) -> None:
        for given, rows in (
            (self.store.scan(after=b"a", before=b"c", family=b"f"), [b"b", b"b\0"]),
            (self.store.scan(b"b", before=b"b\0"), [b"b", b"b"]),
            (self.store.scan(after=b"b", end=b"c"), [b"b\0", b"c"]),
            (self.store.scan(before=b"a"), []),
            (self.store.scan(before=b"\0"), []),
            (self.store.scan(after=b"c"), []),
            (self.store.scan(prefix=b"b", after=b"b"), [b"b\0"]),
            (self.store.scan(prefix=b"b", before=b"b\0", limit=1), [b"b"]),
            (self.store.scan(limit=3), [b"a", b"b", b"b"]),
            (self.store.scan(limit=0), []),
            (self.store.scan(keys=True, limit=9), [b"a", b"b", b"b", b"b\0", b"c"]),
        ):
            self.assertEqual([row for row, _, _ in given], rows)
        self.assertEqual(self.store.count(b"b", before=b"c"), 3)
        for bounds in ({"before": b""}, {"after": b""}, {"start": b"r" * 4001}):
            self.assertRaises(BadRow, self.store.scan, **bounds)
        with self.store.snapshot() as snapshot:
            self.assertRaises(ValueError, snapshot.scan, limit=-1)

    def test_a_scan_ends_its_session(self) -> None:
        for is_read in (True, False):
            scan = self.store.scan()
            self.assertEqual(len(list(scan)) if is_read else next(scan)[0], 5 if is_read else b"a")
            del scan
            floor, start = self.store.collect(), self.store.begin()
            self.assertEqual(floor, start)
            self.store.stop(start)

    def test_a_snapshot_stays(self) -> None:
        with self.store.snapshot() as snapshot:
            self.store.put(b"a", b"f", b"later")
            self.assertEqual((snapshot.get(b"a", b"f"), snapshot.row(b"a")), (b"a", {b"f": b"a"}))
            self.assertEqual(len(list(snapshot.scan(prefix=b"b"))), 3)
            self.assertFalse(hasattr(snapshot, "put"))
        self.assertRaises(UnknownSession, snapshot.get, b"a", b"f")

    def test_requests_of_the_protocol(self) -> None:
        start = self.store.ask(protocol.Begin())
        self.store.ask(protocol.Set(start, ANN, BAL, b"1"))
        self.store.set(start, BOB, BAL, b"1")
        self.store.delete(start, BOB, BAL)
        self.assertEqual(self.store.ask(protocol.Get(start, b"a", b"f")), Value(b"a"))
        self.assertEqual(self.store.get(start, b"a", b"f"), Value(b"a"))
        self.assertEqual(self.store.get(start=start, row=b"a", family=b"f"), Value(b"a"))
        self.assertEqual(len(self.store.scan(start, cells=2).items), 2)
        self.assertEqual(self.store.get(family=b"f", row=b"a"), b"a")
        store: Any = self.store
        for method, given in ((store.get, (b"a",)), (store.put, (b"a", b"f")), (store.delete, (b"a",))):
            self.assertRaisesRegex(TypeError, "missing 1 required positional argument", method, *given)


class Limits(unittest.TestCase):
    """What a scan with a limit asks."""

    def test_it_asks_for_few_cells(self) -> None:
        def asked(bounds: bytes, cells: int) -> bytes:
            return b"\x31" + THREE + b"\0" + bounds + cells.to_bytes(4, "big")

        def cell(row: bytes) -> bytes:
            return b"\0\0\0\1" + row + b"\0\0\0\1c"

        def found(upto: bytes | None, *rows: bytes) -> bytes:
            head = b"\xb1\1" if upto is None else b"\xb1\2" + cell(upto)
            return head + len(rows).to_bytes(4, "big") + b"".join(cell(row) + b"\1\0\0\0\1v" for row in rows)

        exchanges = [
            BEGIN,
            (asked(b"\0\0\0", 1), found(b"a")),
            (asked(b"\1" + cell(b"a") + b"\0\0", 4), found(b"c")),
            (asked(b"\1" + cell(b"c") + b"\0\0", 16), found(b"g", b"e", b"f", b"g")),
            STOP,
        ]
        with Store(peer(self, exchanges)) as store, store.snapshot() as snapshot:
            self.assertEqual(list(snapshot.scan(limit=1)), [(b"e", b"c", b"v")])
        exchanges[1:4] = [
            (asked(b"\0\0\0", 1), found(b"a")),
            STOP,
            BEGIN,
            (asked(b"\0\0\0", 4), found(b"g", b"e", b"f", b"g")),
        ]
        with Store(peer(self, exchanges)) as store:
            self.assertEqual(list(store.scan(limit=1)), [(b"e", b"c", b"v")])


class Trips(unittest.TestCase):
    """What is asked in one trip, and what isn't waited for."""

    def test_a_read_in_one_trip(self) -> None:
        """Of a program without Read, which is asked for one only once."""
        def begun(start: int) -> tuple[bytes, bytes]:
            return b"\x01", b"\x81" + start.to_bytes(8, "big")

        def read(start: int, reply: bytes) -> tuple[bytes, bytes]:
            return b"\x02" + start.to_bytes(8, "big") + b"\0\0\0\3Ann\0\0\0\3bal", reply

        def stopped(start: int) -> tuple[bytes, bytes]:
            return b"\x05" + start.to_bytes(8, "big"), b"\x85"

        unknown, pending = b"\xff\1", b"\x82\2" + (4).to_bytes(8, "big")
        exchanges = [
            (b"\x33" + bytes(9) + b"\0\0\0\1\0\0\0\3Ann\0\0\0\3bal", b"\xff\x16"),
            *(begun(1), read(1, b"\x82\1\0\0\0\1a"), stopped(1)),
            *(begun(2), read(2, b"\x82\1\0\0\0\1b"), stopped(2)),
            *(begun(9), read(3, unknown), read(9, b"\x82\0"), stopped(9)),
            *(begun(10), read(10, b"\x82\1\0\0\0\1c"), stopped(10)),
            *(begun(11), read(11, pending), stopped(11)),
            *(begun(12), read(12, b"\x82\1\0\0\0\1d"), stopped(12)),
        ]
        with Store(peer(self, exchanges)) as store:
            self.assertEqual([store.get(ANN, BAL) for _ in range(5)], [b"a", b"b", None, b"c", b"d"])

    def test_what_is_not_waited_for(self) -> None:
        folder = folder_of(self)
        with Store(record=folder) as store:
            for number in range(3):
                store.put(ANN, BAL, b"%d" % number)
                with store.snapshot() as s, store.snapshot() as t:
                    self.assertEqual((s.get(ANN, BAL), t.get(ANN, BAL)), (b"%d" % number,) * 2)
            with self.assertRaises(UnknownSession):
                store.stop(t.start)
        replies: list[bytes] = []
        whole_frames(Path(folder, "replies").read_bytes(), replies)
        self.assertEqual([reply[0] for reply in replies[-3:]], [0x85, 0x85, 0xFF])
        self.assertEqual(store.close(), 0)

    def test_the_program_has_ended(self) -> None:
        store = Store()
        snapshot = store.snapshot()
        store.kill()
        snapshot.stop()
        with self.assertRaises(ProgramEnded):
            store.begin()
        self.assertEqual(store.close(), -9)


@duqishom.transactional
def move(t: Transaction, giver: bytes, taker: bytes, amount: int) -> int:
    """Moves an amount: what is left."""
    has, got = t.get_many([(giver, BAL), (taker, BAL)])
    t.put(giver, BAL, b"%d" % (int(has or 0) - amount))
    t.put(taker, BAL, b"%d" % (int(got or 0) + amount))
    return int(has or 0) - amount


@aio.transactional
async def add_one(t: aio.Transaction, row: bytes) -> None:
    """Counts one more."""
    t.put(row, BAL, b"%d" % (int(await t.get(row, BAL) or b"0") + 1))


class Functions(unittest.TestCase):
    """Functions of a transaction."""

    def test_of_a_store_and_of_a_transaction(self) -> None:
        with duqishom.connect() as store:
            self.assertEqual(move(store, ANN, BOB, amount=1), -1)
            with self.assertRaises(ZeroDivisionError), store.transaction() as t:
                move(t, ANN, BOB, 5)
                raise ZeroDivisionError
            with store.transaction() as t:
                self.assertEqual((move(t, ANN, BOB, 2), move(t, ANN, BOB, 3)), (-3, -6))
            self.assertEqual((store.get(ANN, BAL), store.get(BOB, BAL)), (b"-6", b"6"))
            self.assertEqual((move.__name__, move.__doc__), ("move", "Moves an amount: what is left."))

    def test_conflicts_are_tried_again(self) -> None:
        rest = [b"2", b"1"]

        @duqishom.transactional
        def work(t: Transaction) -> int:
            t.get(ANN, BAL)
            t.put(ANN, BAL, b"0")
            if rest:
                store.put(ANN, BAL, rest.pop())
            return len(rest)

        with duqishom.connect() as store:
            self.assertEqual(work(store), 0)
            rest.append(b"1")
            with self.assertRaises(TransactionConflict), store.transaction() as t:
                work(t)


class Twin(unittest.TestCase):
    """The same for asyncio."""

    def test_cells(self) -> None:
        gateway = Gateway(self)

        async def main() -> None:
            async with aio.connect(f"unix:{gateway.path}") as store:
                await store.put(ANN, BAL, b"1")
                await store.set(BOB, BAL, b"2")
                await store.put(BOB, b"x", b"3")
                self.assertEqual(await store.get(ANN, BAL), b"1")
                self.assertEqual(await store.get_many([(BOB, BAL), (ANN, b"x")]), [b"2", None])
                self.assertEqual(await store.row(BOB), {BAL: b"2", b"x": b"3"})
                self.assertEqual([row async for row, _, _ in store.scan(after=ANN, limit=1)], [BOB])
                await store.delete(BOB, b"x")
                self.assertEqual(await store.count(before=b"C"), 2)
                async with store.snapshot() as snapshot:
                    await add_one(store, ANN)
                    self.assertEqual([await snapshot.get(ANN, BAL), await store.get(ANN, BAL)], [b"1", b"2"])
                async with store.transaction() as t:
                    await add_one(t, ANN)
                    await add_one(t, ANN)
                self.assertEqual(await store.get(ANN, BAL), b"4")

        asyncio.run(main())
        self.assertTrue(until(lambda: gateway.statistics()["open"]["sessions"] == 0))

    def test_tasks_wait_for_a_place(self) -> None:
        cases: list[tuple[list[str], int, int]] = [([], 64, 150), (["--sessions", "3"], 64, 20), ([], 1, 10)]
        for words, sessions, tasks in cases:
            gateway = Gateway(self, words)

            async def main() -> None:
                async with aio.Store(socket=gateway.path, sessions=sessions) as store:
                    await asyncio.gather(*(add_one(store, b"%d" % number) for number in range(tasks)))
                    self.assertEqual(await store.count(), tasks)
                    waits = [asyncio.create_task(store.get(ANN, BAL)) for _ in range(tasks)]
                    await asyncio.sleep(0.001)
                    for task in waits[::2]:
                        task.cancel()
                    await asyncio.gather(*waits, return_exceptions=True)
                    self.assertEqual(await store.get_many([(b"0", BAL)] * 3), [b"1"] * 3)

            asyncio.run(main())

    def test_a_pool(self) -> None:
        gateway = Gateway(self, ["--sessions", "2"])

        async def main() -> None:
            async with aio.connect(gateway.path, sessions=2, connections=3) as store:
                async with AsyncExitStack() as stack:
                    snapshots = [await stack.enter_async_context(store.snapshot()) for _ in range(6)]
                    self.assertEqual([await each.get(ANN, BAL) for each in snapshots], [None] * 6)
                    with self.assertRaises(TimeoutError):
                        async with asyncio.timeout(0.1):
                            await store.put(ANN, BAL, b"1")
                    self.assertEqual(gateway.statistics()["open"]["sessions"], 6)
                await asyncio.gather(*(add_one(store, b"%d" % number) for number in range(30)))
                self.assertEqual((await store.count(), await store.get(ANN, BAL)), (30, None))

        asyncio.run(main())
        self.assertRaises(ValueError, aio.connect, gateway.path, connections=0)

    def test_a_store_that_is_full(self) -> None:
        gateway = Gateway(self, ["--sessions", "1"])

        async def main() -> None:
            async with aio.connect(gateway.path) as store:
                await store.begin()
                with self.assertRaisesRegex(TooManySessions, "64 sessions .*--sessions.* 1,024"):
                    await store.get(ANN, BAL)

        asyncio.run(main())


def commits(requests: bytes) -> bool:
    """Whether the last of these requests is a Step or a Commit."""
    bodies: list[bytes] = []
    whole_frames(requests, bodies)
    return bodies[-1][0] in (Step.code, Commit.code)


class Losing:
    """A connection that is lost in place of a reply to a Step or a Commit, before it does what it was asked or behind it."""

    def __init__(self, connection: Connection, is_done: bool) -> None:
        self._connection = connection
        self._is_done = is_done
        self.is_lost = False

    def ask(self, requests: bytes, count: int, timeout: float | None = None) -> bytes:
        if not commits(requests):
            return self._connection.ask(requests, count, timeout)
        if self._is_done:
            self._connection.ask(requests, count, timeout)
        self.is_lost = True
        self.close()
        raise ConnectionLost()

    def tell(self, request: bytes, timeout: float | None = None) -> None:
        self._connection.tell(request, timeout)

    def kill(self) -> None:
        self._connection.kill()

    def close(self) -> int:
        return self._connection.close()


class Losses(unittest.TestCase):
    """Connections that are lost."""

    def test_pauses_that_grow(self) -> None:
        attempts = Reconnects(60)
        for most in (0.1, 0.2, 0.4, 0.8, 1.6, 2.0, 2.0):
            pause = attempts.pause()
            assert pause is not None
            self.assertTrue(most / 2 <= pause <= most, (pause, most))
        self.assertLessEqual(Reconnects(0.01).pause() or 1, 0.01)
        self.assertIsNone(Reconnects(0).pause())

    @contextmanager
    def three_attempts(self) -> Iterator[None]:
        """In the `with` a lost connection is tried to be made anew three times, and isn't."""
        with patch.object(Reconnects, "pause", side_effect=[0.0, 0.0, None]) as pause, self.assertRaises(ConnectionLost):
            yield
        self.assertEqual(pause.call_count, 3)

    def test_pauses_of_all(self) -> None:
        """A store and its watch pause so, and their twins for `asyncio`."""
        gateway = Gateway(self)

        async def main() -> None:
            async with aio.connect(gateway.path) as other:
                gateway.kill()
                with self.three_attempts():
                    await other.put(ANN, BAL, b"1")
                with self.three_attempts():
                    await other.watch().wait()

        with Store(socket=gateway.path) as store:
            asyncio.run(main())
            with self.three_attempts():
                store.put(ANN, BAL, b"1")
            with self.three_attempts():
                store.watch().wait()

    def test_a_deadline(self) -> None:
        """No attempt begins after it, and no connection is tried to be made for longer. A late commit is still found out."""
        gateway = Gateway(self)
        begun: list[float] = []

        def work(t: Transaction) -> None:
            begun.append(time.monotonic())
            t.put(ANN, BAL, t.get(ANN, BAL) or b"")
            store.put(ANN, BAL, b"other")

        with Store(socket=gateway.path, reconnect=PATIENCE) as store:
            for deadline in (0.0, 1.0):
                begun.clear()
                with self.assertRaises(TransactionConflict):
                    store.run(work, attempts=1000, deadline=deadline)
                self.assertLess(begun[-1] - begun[0], deadline + PATIENCE / 2)
                self.assertEqual(len(begun) == 1, deadline == 0)
            store._connection = Losing(store._connection, True)
            store.run(lambda t: t.put(BOB, BAL, b"1"), deadline=0)
            gateway.kill()
            end = time.monotonic() + PATIENCE / 2
            self.assertRaises(ConnectionLost, store.run, lambda t: t.put(ANN, BAL, b"2"), deadline=0.2)
            self.assertLess(time.monotonic(), end)

    def test_a_deadline_of_a_task(self) -> None:
        gateway = Gateway(self)

        async def main() -> None:
            begun: list[float] = []

            async def work(t: aio.Transaction) -> None:
                begun.append(time.monotonic())
                t.put(ANN, BAL, await t.get(ANN, BAL) or b"")
                await store.put(ANN, BAL, b"other")

            async with aio.connect(gateway.path, reconnect=PATIENCE) as store:
                for deadline in (0.0, 1.0):
                    begun.clear()
                    with self.assertRaises(TransactionConflict):
                        await store.run(work, attempts=1000, deadline=deadline)
                    self.assertLess(begun[-1] - begun[0], deadline + PATIENCE / 2)
                    self.assertEqual(len(begun) == 1, deadline == 0)
                gateway.kill()
                async with asyncio.timeout(PATIENCE / 2):
                    with self.assertRaises(ConnectionLost):
                        await store.run(work, deadline=0.2)

        asyncio.run(main())

    def test_another_gateway(self) -> None:
        folder = folder_of(self)
        gateway = Gateway(self, ["--dir", folder])
        store = Store(socket=gateway.path, reconnect=0.2)
        self.addCleanup(store.close)
        store.put(ANN, BAL, b"1")
        old = store.transaction()
        gateway.stop()
        for _ in range(3):
            self.assertRaises(ConnectionLost, store.begin)
        self.assertRaises(ConnectionLost, store.get, ANN, BAL)
        Gateway(self, ["--dir", folder], gateway.path)
        self.assertEqual(store.get(ANN, BAL), b"1")
        old.put(ANN, BAL, b"2")
        self.assertRaises(ConnectionLost, old.get, ANN, BAL, False)
        self.assertRaises(ConnectionLost, old.commit)

        async def main() -> None:
            async with aio.Store(socket=gateway.path) as other:
                other._stream.close()
                self.assertEqual(await other.get(ANN, BAL), b"1")

        asyncio.run(main())

    def test_in_a_commit(self) -> None:
        gateway = Gateway(self)
        for is_done, has_commit in product((True, False), (True, False)):
            with self.subTest(is_done=is_done, has_commit=has_commit), Store(socket=gateway.path) as store:
                store._connection, store._support = Losing(store._connection, is_done), Support(has_commit)
                worked: list[Transaction] = []

                def work(t: Transaction) -> int:
                    worked.append(t)
                    for row in (ANN, BOB):
                        t.put(row, BAL, b"%d" % (int(t.get(row, BAL) or b"0") + 1))
                    return len(worked)

                before = int(store.get(ANN, BAL) or b"0")
                self.assertEqual(store.run(work, attempts=1 if is_done else 2), 1 if is_done else 2)
                self.assertEqual(store.get_many([(ANN, BAL), (BOB, BAL)]), [b"%d" % (before + 1)] * 2)
                self.assertEqual(store.fate(worked[-1].start, ANN, BAL), Committed(worked[-1].commit_stamp or 0))

    def test_in_a_commit_of_a_task(self) -> None:
        gateway = Gateway(self)

        async def main(is_done: bool) -> None:
            async with aio.connect(gateway.path) as store:
                stream, ask = store._stream, store._stream.ask
                before = int(await store.get(ANN, BAL) or b"0")

                async def losing(requests: bytes, count: int) -> bytes:
                    if not commits(requests):
                        return await ask(requests, count)
                    if is_done:
                        await ask(requests, count)
                    stream.is_lost = True
                    stream.close()
                    raise ConnectionLost()

                with patch.object(stream, "ask", losing):
                    await add_one(store, ANN)
                self.assertEqual(await store.get(ANN, BAL), b"%d" % (before + 1))

        for is_done in (True, False):
            asyncio.run(main(is_done))

    def test_in_a_commit_of_the_work_itself(self) -> None:
        def work(t: Transaction) -> None:
            worked.append(t.start)
            t.put(ANN, BAL, b"1")
            t.commit()
            worked.append(0)

        worked: list[int] = []
        gateway = Gateway(self)
        with Store(socket=gateway.path) as store:
            store._connection = Losing(store._connection, True)
            self.assertRaises(ConnectionLost, store.run, work)
            self.assertEqual((len(worked), store.get(ANN, BAL)), (1, b"1"))

    def test_why_it_was_lost(self) -> None:
        with Store() as store:
            store._connection, store._support = Poor(store._connection, Step.code, 3, count=3), Support(False)
            transaction = store.transaction()
            for row in (ANN, BOB):
                transaction.put(row, BAL, b"1")
            self.assertRaises(NoMemory, transaction.commit)
            store.clean(ANN, BAL)
            with self.assertRaisesRegex(TransactionLost, "met the lock of Ann bal.* [0-9.]+ s before"):
                transaction.commit()


if __name__ == "__main__":
    unittest.main()
