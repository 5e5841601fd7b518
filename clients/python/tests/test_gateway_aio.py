"""The client for asyncio, over a gateway's socket."""

from __future__ import annotations

import asyncio
import unittest
from collections.abc import Awaitable, Callable

from duqishom import Committed, ConnectionLost, Lost, Patience, Pending, StillPending, Tablet, TooManySessions, TransactionConflict
from duqishom import Store as PlainStore
from duqishom.aio import Store, Transaction
from tests.gateways import BEGIN, Gateway

ROW, OTHER, FAMILY = b"r", b"s", b"c"
TASKS, EACH = 10, 10


async def add_one(t: Transaction) -> None:
    """Adds one to the number in a cell."""
    t.set(ROW, FAMILY, b"%d" % (int(await t.get(ROW, FAMILY) or b"0") + 1))


async def read(t: Transaction) -> bytes | None:
    return await t.get(ROW, FAMILY)


class Aio(unittest.TestCase):
    """Many tasks over one connection."""

    def with_store(self, work: Callable[[Store], Awaitable[None]], patience: Patience = Patience()) -> Gateway:
        """Does work with the store of a new gateway."""
        gateway = Gateway(self)

        async def main() -> None:
            async with Store(socket=gateway.path, patience=patience) as store:
                await work(store)

        asyncio.run(main())
        return gateway

    def test_names_are_those_of_the_other_twin(self) -> None:
        ours, theirs = ({name for name in vars(store) if not name.startswith("_")} for store in (Store, PlainStore))
        self.assertLessEqual(theirs - {"alone", "has_log", "kill"}, ours)

    def test_status(self) -> None:
        async def work(store: Store) -> None:
            await store.split(b"m")
            await store.run(add_one)
            async with store.snapshot() as snapshot:
                status = await store.status()
                self.assertEqual((status.server.sessions, status.server.floor), (1, snapshot.start))
            self.assertEqual([(each.number, each.memtable_entries) for each in status.tablets], [(2, 0), (1, 2)])
            self.assertEqual(await store.tablets(), (Tablet(2, b"m"), Tablet(1, None)))

        self.with_store(work)

    def test_tasks_count(self) -> None:
        async def work(store: Store) -> None:
            async def count() -> None:
                for _ in range(EACH):
                    await store.run(add_one, attempts=1000)

            await asyncio.gather(*(count() for _ in range(TASKS)))
            self.assertEqual(await store.run(read), b"%d" % (TASKS * EACH))

        self.with_store(work)

    def test_many_cells_deletions_and_conflicts(self) -> None:
        async def work(store: Store) -> None:
            async with store.transaction() as t:
                for number in range(100):
                    t.set(b"%d" % number, FAMILY, b"v")
                t.delete(b"7", FAMILY)
                self.assertIsNone(await t.get(b"7", FAMILY))
            self.assertIsNotNone(t.commit_stamp)
            self.assertEqual(await store.collect(), await store.begin())
            with self.assertRaises(TransactionConflict):
                async with store.transaction() as late:
                    await store.run(add_one)
                    late.set(OTHER, FAMILY, b"1")
                    late.set(ROW, FAMILY, b"1")
            self.assertIsNone(await store.clean(OTHER, FAMILY))

        self.with_store(work)

    def test_scans(self) -> None:
        async def work(store: Store) -> None:
            async with store.transaction() as t:
                for number in range(1200):
                    if number % 256 == 255:
                        await t.commit()
                        await t.begin()
                    t.set(b"%04d" % number, FAMILY, b"%d" % number)
            holder = await store.begin()
            await store.set(holder, b"0001", FAMILY, b"1")
            await store.step(holder)
            async with store.transaction() as t:
                t.delete(b"0002", FAMILY)
                found = [(row, value) async for row, _, value in t.scan(b"0001", b"1100")]
                self.assertEqual(found[:2], [(b"0001", b"1"), (b"0003", b"3")])
                self.assertEqual((len(found), found[-1]), (1099, (b"1100", b"1100")))
                self.assertEqual(await t.count(own=False), 1200)
                keys = [entry async for entry in t.scan(prefix=b"000", family=FAMILY, keys=True)]
                self.assertEqual((len(keys), keys[0]), (9, (b"0000", FAMILY, None)))

        gateway = self.with_store(work)
        self.assertEqual(gateway.statistics()["requests"]["Scan"], 5)

    def test_locks_and_fates(self) -> None:
        async def work(store: Store) -> None:
            start = await store.begin()
            await store.set(start, ROW, FAMILY, b"1")
            await store.step(start)
            self.assertEqual(await store.fate(start, ROW, FAMILY), Pending(start))
            with self.assertRaises(StillPending):
                await store.run(read, attempts=1)
            await store.step(start)
            self.assertEqual(await store.step(start), Committed(start + 2))
            self.assertEqual(await store.fate(start, ROW, FAMILY), Committed(start + 2))
            self.assertEqual(await store.fate(start, OTHER, FAMILY), Lost())

        self.with_store(work, Patience(tries=2, cleans=False))

    def test_a_gateway_without_a_place(self) -> None:
        gateway = Gateway(self, ["--clients", "1"])
        self.assertEqual(gateway.wire().ask(BEGIN)[0], 0x81)

        async def main() -> None:
            async with Store(socket=gateway.path) as early, Store(socket=gateway.path) as late:
                with self.assertRaises(TooManySessions):
                    await early.begin()
                # It is told that there is no place before it sends a request, since others have connected after it
                others = [gateway.wire() for _ in range(40)]
                while late._stream.is_open:
                    await asyncio.sleep(0.01)
                with self.assertRaises(ConnectionLost):
                    await late.begin()
                self.assertEqual(others[0].reply(), b"\xff\x07")

        asyncio.run(main())

    def test_a_task_that_is_cancelled_and_the_end_of_the_gateway(self) -> None:
        gateway = Gateway(self)

        async def main() -> None:
            async with Store(socket=gateway.path) as store:
                asked = asyncio.create_task(store.begin())
                await asyncio.sleep(0)
                asked.cancel()
                self.assertIsNone(await store.run(read))
                gateway.kill()
                with self.assertRaises(ConnectionLost):
                    await store.begin()

        asyncio.run(main())


if __name__ == "__main__":
    unittest.main()
