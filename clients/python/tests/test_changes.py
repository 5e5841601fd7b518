"""Changes: what a store, and the command, tell of commits to the rows with a prefix."""

from __future__ import annotations

import asyncio
import json
import signal
import subprocess
import sys
import threading
import unittest
from collections.abc import Iterable

from duqishom import BadColumn, BadRow, Cell, Change, ConnectionLost, Store, TooManySessions, Transaction, aio
from duqishom.changes import Changes
from tests.folders import said
from tests.gateways import PACKAGE, PATIENCE, Gateway, folder_of, until

FAMILY = b"c"
LAST = b"last"
WRITERS, EACH = 4, 25


def put_all(t: Transaction, rows: Iterable[bytes], value: bytes) -> None:
    for row in rows:
        t.put(row, FAMILY, value)


class Told(unittest.TestCase):
    """The changes of a store."""

    def store(self, gateway: Gateway, reconnect: float = 60) -> Store:
        store = Store(socket=gateway.path, reconnect=reconnect)
        self.addCleanup(store.close)
        return store

    def test_first_and_later(self) -> None:
        store, told = self.store(Gateway(self)), list[Change]()
        for change in store.watch(b"todo/", timeout=PATIENCE):
            told.append(change)
            if len(told) == 3:
                break
            store.put(b"done", FAMILY, b"v")
            with store.transaction() as t:
                t.put(b"todo/1", FAMILY, b"v")
                t.delete(b"todo/2", FAMILY)
        stamps = [change.commit_stamp or 0 for change in told[1:]]
        self.assertEqual([change.cells for change in told[1:]], 2 * [(Cell(b"todo/1", FAMILY), Cell(b"todo/2", FAMILY))])
        self.assertEqual((told[0], stamps), (Change(), sorted(stamps)))
        self.assertEqual(t.commit_stamp, stamps[1])
        self.assertLessEqual(len(list(store.watch(b"todo/", timeout=0.05))), 1)

    def test_one_family_and_no_time(self) -> None:
        store = self.store(Gateway(self))
        with store.watch(b"r", b"d") as changes:
            self.assertEqual([changes.wait(PATIENCE), changes.wait(0)], [Change(), None])
            store.put(b"r", FAMILY, b"v")
            store.put(b"r", b"d", b"v")
            change = changes.wait(PATIENCE)
            assert change is not None
            self.assertEqual(change.cells, (Cell(b"r", b"d"),))
            # The iteration may begin anew: nothing is lost between
            store.put(b"r", b"d", b"v")
            self.assertEqual(next(iter(changes)).cells, (Cell(b"r", b"d"),))

    def test_what_can_not_be_watched(self) -> None:
        store = self.store(Gateway(self))
        self.assertRaises(BadRow, store.watch, b"r" * 4001)
        self.assertRaises(BadColumn, store.watch, b"r", b"a:b")
        self.assertRaises(TypeError, store.watch, "r")
        with Store() as alone:
            self.assertRaises(ValueError, alone.watch, b"r")

    def test_a_connection_that_is_lost(self) -> None:
        gateway = Gateway(self)
        store = self.store(gateway)
        with store.watch(b"r") as changes:
            self.assertEqual(changes.wait(PATIENCE), Change())
            gateway.kill()
            self.assertIsNone(changes.wait(0.05))
            again = Gateway(self, path=gateway.path)
            self.assertEqual(changes.wait(PATIENCE), Change())
            store.put(b"r", FAMILY, b"v")
            change = changes.wait(PATIENCE)
            assert change is not None
            self.assertEqual(change.cells, (Cell(b"r", FAMILY),))
            again.kill()
        with self.assertRaises(ConnectionLost), Changes(gateway.path, changes._heard.watch, None, reconnect=0.2) as late:
            late.wait()

    def test_no_place(self) -> None:
        gateway = Gateway(self, ["--clients", "1"])
        store = self.store(gateway)
        store.put(b"r", FAMILY, b"v")
        self.assertRaises(TooManySessions, store.watch(b"r").wait, PATIENCE)

    def test_its_end(self) -> None:
        """Closed by hand, and by nobody."""
        gateway = Gateway(self)
        store = self.store(gateway)
        for change in store.watch(b"r"):
            self.assertEqual(gateway.statistics()["watches"]["open"], 1)
            break
        self.assertTrue(until(lambda: gateway.statistics()["watches"]["open"] == 0))
        changes = store.watch(b"r")
        changes.wait(PATIENCE)
        changes.close()
        self.assertTrue(until(lambda: gateway.statistics()["watches"]["open"] == 0))

    def test_a_cache(self) -> None:
        """A copy that reads the cells that it is told of is the store at last."""
        gateway = Gateway(self)
        store, copy = self.store(gateway), dict[bytes, bytes]()

        def write(number: int) -> None:
            with Store(socket=gateway.path) as own:
                for count in range(EACH):
                    rows = {b"r%d" % (number * count % 7), b"r%d" % (count % 5)}
                    own.run(lambda t: put_all(t, rows, b"%d %d" % (number, count)), attempts=1000)

        def end() -> None:
            for writer in writers:
                writer.join()
            store.put(b"r", FAMILY, LAST)

        writers = [threading.Thread(target=write, args=(number,)) for number in range(WRITERS)]
        threads = [*writers, threading.Thread(target=end)]
        for thread in threads:
            thread.start()
        with store.watch(b"r") as changes:
            while copy.get(b"r") != LAST:
                change = changes.wait(PATIENCE)
                assert change is not None
                self.read_changed(store, change, copy)
        threads[-1].join()
        self.assertEqual(copy, {row: value for row, _, value in store.scan(prefix=b"r")})
        self.assertGreater(len(copy), 5)

    def read_changed(self, store: Store, change: Change, copy: dict[bytes, bytes]) -> None:
        """Reads what has changed into a copy."""
        with store.snapshot() as snapshot:
            if change.cells is None:
                copy.clear()
                copy.update((row, value) for row, _, value in snapshot.scan(prefix=b"r"))
            for row, family in change.cells or ():
                self.assertGreater(snapshot.start, change.commit_stamp or 0)
                copy[row] = snapshot.get(row, family) or b""


class Twin(unittest.TestCase):
    """The same for asyncio."""

    def test_changes(self) -> None:
        gateway = Gateway(self)

        async def main() -> None:
            async with aio.connect(gateway.path) as store:
                told = list[Change]()
                async for change in store.watch(b"todo/", timeout=PATIENCE):
                    told.append(change)
                    if len(told) == 3:
                        break
                    await store.put(b"done", FAMILY, b"v")
                    await store.put(b"todo/%d" % len(told), FAMILY, b"v")
                self.assertEqual(told[0], Change())
                self.assertEqual([change.cells for change in told[1:]], [(Cell(b"todo/%d" % each, FAMILY),) for each in (1, 2)])
                async with store.watch(b"r") as changes:
                    self.assertEqual([await changes.wait(PATIENCE), await changes.wait(0.01)], [Change(), None])
                    await store.put(b"r", FAMILY, b"v")
                    came = await changes.wait(PATIENCE)
                    assert came is not None
                    self.assertEqual(came.cells, (Cell(b"r", FAMILY),))
                    gateway.kill()
                    self.assertIsNone(await changes.wait(0.01))
                    Gateway(self, path=gateway.path)
                    self.assertEqual(await changes.wait(PATIENCE), Change())
                self.assertRaises(BadRow, store.watch, b"r" * 4001)

        asyncio.run(main())

    def test_a_gateway_that_is_gone(self) -> None:
        async def main() -> None:
            store = aio.Store(socket=folder_of(self) + "/socket", reconnect=0.2)
            with self.assertRaises(ConnectionLost):
                await store.watch(b"r").wait()

        asyncio.run(main())


def default_interrupt() -> None:
    """Has an interrupt end the process: what a shell runs in the background ignores it."""
    signal.signal(signal.SIGINT, signal.SIG_DFL)


class Command(unittest.TestCase):
    """`duqishom watch`."""

    def test_lines(self) -> None:
        gateway = Gateway(self)
        lines = ["any cell may have changed", "committed at 2: Bob c, B\\x20c c"]
        cells = [{"row": "Bob", "family": "c"}, {"row": "B c", "family": "c"}]
        data = [{"commit": None, "cells": None}, {"commit": 4, "cells": cells}]
        for form, told in (((), lines), (("--json",), [json.dumps(each) for each in data])):
            words = [sys.executable, "-m", "duqishom", "watch", "--socket", gateway.path, "--family", "c", *form, "B"]
            with subprocess.Popen(
                words, cwd=PACKAGE, stdout=subprocess.PIPE, text=True, preexec_fn=default_interrupt
            ) as watch:
                assert watch.stdout is not None
                self.assertEqual(watch.stdout.readline(), told[0] + "\n")
                with Store(socket=gateway.path) as store, store.transaction() as t:
                    for row, family in ((b"Bob", b"c"), (b"B c", b"c"), (b"Bob", b"d"), (b"Joe", b"c")):
                        t.put(row, family, b"v")
                self.assertEqual(watch.stdout.readline(), told[1] + "\n")
                watch.send_signal(signal.SIGINT)
                self.assertEqual(watch.wait(PATIENCE), 130)

    def test_no_gateway(self) -> None:
        path = folder_of(self) + "/socket"
        self.assertEqual(said("watch", "--socket", path), (2, f"watch: [Errno 2] No such file or directory: '{path}'\n"))

    def test_a_time(self) -> None:
        gateway = Gateway(self)
        status, text = said("watch", "--socket", gateway.path, "--timeout", "0.2")
        self.assertEqual((status, text.replace("any cell may have changed\n", "")), (0, ""))


if __name__ == "__main__":
    unittest.main()
