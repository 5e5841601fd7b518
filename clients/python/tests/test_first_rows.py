"""The first cells and rows of a range: in few trips, with short bounds, and in a session that ends with them."""

from __future__ import annotations

import asyncio
import unittest
from typing import Any

import duqishom
from duqishom import BadRequest, Patience, Store, aio
from duqishom.batches import Begun
from duqishom.cells import range_of
from duqishom.counted import Statistics
from duqishom.operations import Begin, Stop
from duqishom.plans import StorePlans
from duqishom.several import Support
from duqishom.transactions import Transaction
from tests.gateways import Gateway, until
from tests.peer import peer

FAMILY = b"c"

# Rows around those that begin with b, among them some that the short bounds of a scan have too.
FILLED = b"a" + b"\xff" * 8
ROWS = [b"a", FILLED, FILLED + b"x", FILLED + b"\xff", b"b", b"b\0", b"b\xff", b"b" + b"\xff" * 3999, b"c", b"c\0", b"d"]


def put(store: Store, *rows: bytes, families: tuple[bytes, ...] = (FAMILY,)) -> None:
    """Writes cells whose values are their rows."""
    with store.transaction() as t:
        for row in rows:
            for family in families:
                t.put(row, family, row[:9])


def trips_of(store: Store) -> list[int]:
    """The numbers of requests of the trips of a store from now on."""
    counts: list[int] = []
    connection: Any = store._connection
    ask = connection.ask

    def counted(requests: bytes, count: int, timeout: float | None = None) -> Any:
        counts.append(count)
        return ask(requests, count, timeout)

    connection.ask = counted
    return counts


class OwnStore(unittest.TestCase):
    """A store of the client's own."""

    def setUp(self) -> None:
        self.store = duqishom.connect()
        self.addCleanup(self.store.close)

    def check_nothing_is_open(self) -> None:
        floor, start = self.store.collect(), self.store.begin()
        self.assertEqual(floor, start)
        self.store.stop(start)

    def test_one_trip(self) -> None:
        put(self.store, b"a", b"b1", b"b2", b"c", families=(b"c", b"d"))
        self.store.snapshot().stop()
        trips = trips_of(self.store)
        self.assertEqual(next(self.store.scan(prefix=b"b", limit=1)), (b"b1", b"c", b"b1"))
        self.assertEqual(next(self.store.scan(prefix=b"b", keys=True, limit=1)), (b"b1", b"c", None))
        self.assertEqual(list(self.store.scan(prefix=b"b", limit=9, family=b"d")), [(b"b1", b"d", b"b1"), (b"b2", b"d", b"b2")])
        self.assertEqual(list(self.store.rows(prefix=b"b", limit=1)), [(b"b1", {b"c": b"b1", b"d": b"b1"})])
        self.assertEqual(self.store.row(b"b2"), {b"c": b"b2", b"d": b"b2"})
        self.assertEqual((self.store.row(b"b3"), list(self.store.scan(prefix=b"e", limit=1))), ({}, []))
        self.assertEqual(trips, [3] * 7)
        self.check_nothing_is_open()

    def test_limits(self) -> None:
        put(self.store, *(b"%02d" % row for row in range(40)), families=(b"c", b"d", b"e"))
        for limit in (None, 0, 1, 2, 13, 39, 40, 41, 999, 1001):
            with self.subTest(limit):
                names = [b"%02d" % row for row in range(40)][:limit]
                self.assertEqual([row for row, _ in self.store.rows(limit=limit)], names)
                self.assertEqual([row for row, _, _ in self.store.scan(limit=limit, family=b"d")], names)
                with self.store.transaction() as t:
                    self.assertEqual(list(t.rows(limit=limit)), [(row, dict.fromkeys((b"c", b"d", b"e"), row)) for row in names])
        self.assertRaises(ValueError, self.store.rows, limit=-1)
        self.assertRaises(ValueError, lambda: self.store.scan(limit=-1))
        self.check_nothing_is_open()

    def test_rows_that_the_short_bounds_have_too(self) -> None:
        put(self.store, *ROWS)
        inside = [row for row in ROWS if row.startswith(b"b")]
        for limit in (None, 1, 2, 3, 4, 5, 100):
            with self.subTest(limit):
                self.assertEqual([row for row, _, _ in self.store.scan(prefix=b"b", limit=limit)], inside[:limit])
                self.assertEqual([row for row, _ in self.store.rows(prefix=b"b", limit=limit)], inside[:limit])
                with self.store.transaction() as t:
                    self.assertEqual([row for row, _, _ in t.scan(prefix=b"b", keys=True, limit=limit)], inside[:limit])
        for before, last in (b"b", 4), (b"c", 8), (b"c\0", 9), (b"d", 10):
            self.assertEqual([row for row, _, _ in self.store.scan(before=before)], ROWS[:last])
        for row in ROWS:
            self.assertEqual([each for each, _, _ in self.store.scan(row)], ROWS[ROWS.index(row) :])
            self.assertEqual([each for each, _, _ in self.store.scan(after=row)], ROWS[ROWS.index(row) + 1 :])
            self.assertEqual(self.store.row(row), {FAMILY: row[:9]})

    def test_own_writes_and_locks(self) -> None:
        put(self.store, *ROWS)
        holder = self.store.begin()
        for row in b"b\0", b"c":
            self.store.set(holder, row, FAMILY, b"held")
        self.store.step(holder)
        self.store.step(holder)
        with self.store.transaction() as t:
            t.put(b"b3", FAMILY, b"mine")
            t.put(b"b\xff", FAMILY, b"mine")
            t.put(b"c", FAMILY, b"mine")
            t.delete(b"b", FAMILY)
            found = [(b"b\0", FAMILY, b"b\0"), (b"b3", FAMILY, b"mine"), (b"b\xff", FAMILY, b"mine")]
            self.assertEqual(list(t.scan(prefix=b"b", limit=3)), found)
            # The lock behind the prefix still stands
            self.assertIsNotNone(self.store.raw(b"c", FAMILY, duqishom.Qualifier.LOCK))
            t.stop()
        self.assertEqual([row for row, _ in self.store.rows(prefix=b"b", limit=2)], [b"b", b"b\0"])

    def test_a_lock_and_a_long_value(self) -> None:
        put(self.store, b"a", b"b", b"d")
        self.store.put(b"c", FAMILY, b"v" * 60_000)
        holder = self.store.begin()
        self.store.set(holder, b"a", FAMILY, b"held")
        self.store.step(holder)
        self.assertEqual(next(self.store.scan(limit=1)), (b"a", FAMILY, b"a"))
        self.assertEqual([len(value) for _, _, value in self.store.scan(limit=4)], [1, 1, 60_000, 1])
        self.assertEqual(len(self.store.row(b"c")[FAMILY]), 60_000)
        self.store.stop(holder)
        self.check_nothing_is_open()

    def test_deleted_cells_take_few_trips(self) -> None:
        rows = [b"%04d" % row for row in range(300)]
        for at in range(0, 300, 100):
            put(self.store, *rows[at : at + 100])
        for at in range(0, 290, 100):
            with self.store.transaction() as t:
                for row in rows[at : min(at + 100, 290)]:
                    t.delete(row, FAMILY)
        trips = trips_of(self.store)
        self.assertEqual(next(self.store.scan(limit=1))[0], b"0290")
        self.assertLess(len(trips), 8)
        self.check_nothing_is_open()

    def test_bytes(self) -> None:
        """A prefix as it is asked for, and what follows in another session when a row before it is there."""
        begin, stop = (b"\x01", b"\x81" + bytes(7) + b"\3"), (b"\x05" + bytes(7) + b"\3", b"\x85")
        family = b"\0\0\0\x40" + b"~" * 64

        def asked(after: bytes, end: bytes, cells: int) -> bytes:
            bounds = b"\1" + len(after).to_bytes(4, "big") + after + family + b"\1" + len(end).to_bytes(4, "big") + end
            return b"\x31" + bytes(7) + b"\3\0" + bounds + b"\0" + cells.to_bytes(4, "big")

        def found(row: bytes) -> bytes:
            cell = len(row).to_bytes(4, "big") + row + b"\0\0\0\1c"
            return b"\xb1\2" + cell + b"\0\0\0\1" + cell + b"\1\0\0\0\1v"

        exchanges = [
            *(begin, (asked(FILLED, b"c", 1), found(b"b1")), stop),
            *(begin, (asked(FILLED, b"c", 1), found(FILLED + b"x")), stop),
            *(begin, (asked(FILLED, b"c", 4), found(FILLED + b"x"))),
            *((asked(b"a" + b"\xff" * 3999, b"b" + b"\xff" * 3999, 4), found(b"b2")), stop),
        ]
        with Store(peer(self, exchanges)) as store:
            for row in b"b1", b"b2":
                self.assertEqual(list(store.scan(prefix=b"b", limit=1)), [(row, b"c", b"v")])


class Shared(unittest.TestCase):
    """A store at a gateway, where others draw stamps too."""

    def stores(self, gateway: Gateway, place: str) -> tuple[Store, Store]:
        found = Store(socket=place), Store(socket=place)
        for store in found:
            self.addCleanup(store.close)
        return found

    def check_a_session_begun_between(self, one: Store, other: Store) -> None:
        """The other one has the session whose start the first one expects."""
        put(one, b"a")
        one.snapshot().stop()
        expected = one._plans.stamps.next()
        t: Transaction = other.transaction()
        self.assertEqual(t.start, expected)
        self.assertEqual([row for row, _ in one.rows(limit=1)], [b"a"])
        t.put(b"b", FAMILY, b"b")
        self.assertIsNotNone(t.commit())
        self.assertEqual([row for row, _, _ in one.scan(limit=3)], [b"a", b"b"])

    def test_another_client_s_session_stays(self) -> None:
        for words in ((), ("--shared",), ("--admin", "ADMIN")):
            with self.subTest(words):
                gateway = Gateway(self, words)
                place = gateway.admin if "--admin" in words else gateway.path
                one, other = self.stores(gateway, place)
                self.check_a_session_begun_between(one, other)
                self.assertIs(one._support.is_alone, not words)
                self.assertTrue(until(lambda: gateway.statistics()["open"]["sessions"] == 0))

    def test_a_gateway_that_tells_nothing(self) -> None:
        """Its sessions begin in a trip of their own."""
        for told in BadRequest(), {}, {"shared": 1}:
            plans, support = StorePlans(Patience(), None, lambda: False), Support()
            plans.stamps.note([Begin(), Begin()], [1, 2])
            plan: Any = plans.scan(range_of(None, None), True, 1, support)
            self.assertEqual(next(plan), [Statistics()])
            [whole] = plan.send([told])
            self.assertEqual((whole.frames(), whole.count, support.is_alone), (b"\0\0\0\1\1", 1, False))
            self.assertEqual(plan.send([Begun(3, None)])[1], Stop(3))

    def test_one_trip(self) -> None:
        one, _ = self.stores(gateway := Gateway(self), gateway.path)
        put(one, b"a", b"b1", b"b2")
        one.snapshot().stop()
        trips = trips_of(one)
        for _ in range(3):
            self.assertEqual(next(one.scan(prefix=b"b", limit=1)), (b"b1", FAMILY, b"b1"))
        # A gateway is asked once whether others have this client's sessions
        self.assertEqual(trips, [1, 3, 3, 3])

    def test_tasks(self) -> None:
        """Tasks that scan beside tasks with sessions of their own, on one connection and on several."""
        gateway = Gateway(self)

        async def main(connections: int) -> None:
            async with aio.connect(gateway.path, connections=connections) as store:
                await store.put(b"b", FAMILY, b"1")
                await store.put(b"c", FAMILY, b"1")

                async def first() -> None:
                    for _ in range(10):
                        self.assertEqual([row async for row, _, _ in store.scan(prefix=b"b", limit=1)], [b"b"])
                        self.assertEqual([row async for row, _ in store.rows(limit=1)], [b"b"])
                        self.assertEqual(await store.row(b"c"), {FAMILY: b"1"})

                async def write(number: int) -> None:
                    for _ in range(10):
                        async with store.transaction() as t:
                            await t.get(b"b", FAMILY)
                            t.put(b"d%d" % number, FAMILY, b"1")

                await asyncio.gather(*(first() for _ in range(10)), *(write(number) for number in range(10)))
                self.assertEqual([row async for row, _ in store.rows(after=b"c", limit=2)], [b"d0", b"d1"])
                self.assertEqual(len([row async for row, _ in store.rows()]), 12)
                self.assertEqual([row async for row, _ in store.rows(limit=0)], [])

        for connections in 1, 3:
            asyncio.run(main(connections))
        self.assertTrue(until(lambda: gateway.statistics()["open"]["sessions"] == 0))

    def test_a_task_that_is_alone(self) -> None:
        gateway = Gateway(self)

        async def main() -> None:
            async with aio.connect(gateway.path) as store:
                await store.put(b"b", FAMILY, b"1")
                async with store.snapshot():
                    pass
                asked = gateway.statistics()["requests"]["Begin"]
                for _ in range(5):
                    self.assertEqual([row async for row, _, _ in store.scan(limit=1)], [b"b"])
                counts = gateway.statistics()["requests"]
                self.assertEqual(counts["Begin"] - asked, 5)
                self.assertTrue(store._links[0].stream is not None and store._links[0].stream.support.is_alone)

        asyncio.run(main())


if __name__ == "__main__":
    unittest.main()
