"""What is built on cells: ordered tuples, an index, counters and large values."""

from __future__ import annotations

import asyncio
import random
import unittest
from itertools import cycle
from threading import Event, Thread
from typing import Any

import duqishom
from duqishom import TransactionConflict, aio
from duqishom.layers.counters import Counter
from duqishom.layers.index import Index
from duqishom.layers.large import MOST_BYTES, LargeValues
from duqishom.layers.tuples import Descending, pack, unpack
from tests.gateways import Gateway

# Elements, in their order.
ORDER: tuple[Any, ...] = (
    None,
    *(b"", b"\0", b"\0\0", b"\0\1", b"\1", b"a", b"a\0", b"a\0b", b"a\1", b"a\xff", b"b", b"\xff", b"\xff\0"),
    *("", "\0", "a", "a\0", "b", "\u00fc", "\u20ac", "\U0001f600"),
    *(-(1 << 2039), -65_536, -257, -256, -255, -2, -1, 0, 1, 255, 256, 257, 1 << 64, 1 << 2039),
    *(float("-inf"), -2.5, -1.0, -5e-324, 0.0, 5e-324, 1.0, 2.5, float("inf")),
    *(False, True),
    *((), (None,), (None, b"a"), (b"",), (b"a",), (b"a", -1), (b"a", 1), (b"b",), ((),), (((),),)),
)


class Tuples(unittest.TestCase):
    """Tuples as rows."""

    def test_bytes(self) -> None:
        cases: tuple[tuple[tuple[Any, ...], bytes], ...] = (
            ((), b""),
            ((None, False, True), b"\1\x08\x09"),
            ((b"a\0b",), b"\2a\0\xffb\0\1"),
            (("\u00fc", 0), b"\3\xc3\xbc\0\1\5"),
            ((1, 256, -1, -256), b"\6\1\1\6\2\1\0\4\xfe\xfe\4\xfd\xfe\xff"),
            ((1.0, -1.0), b"\7\xbf\xf0\0\0\0\0\0\0\7\x40\x0f\xff\xff\xff\xff\xff\xff"),
            (((b"a",), ()), b"\x0a\2a\0\1\0\x0a\0"),
            ((Descending(1), 0), b"\x0b\xf9\xfe\xfe\5"),
        )
        for elements, row in cases:
            self.assertEqual((pack(elements), unpack(row)), (row, elements))

    def test_order(self) -> None:
        for before, then in zip(ORDER, ORDER[1:]):
            with self.subTest(before=before, then=then):
                for behind in ((), (None,), (Descending(b""),)):
                    self.assertLess(pack((before, *behind)), pack((then,)))
                    self.assertLess(pack((before, True)), pack((then, *behind)))
                    self.assertLess(pack((Descending(then), *behind)), pack((Descending(before),)))
                    self.assertLess(pack(((before, *behind),)), pack(((then,), *behind)))
        for element in ORDER:
            for elements in ((element, element), (Descending(element), element), ((element, Descending((element,))),)):
                self.assertEqual(unpack(pack(elements)), elements)

    def test_refused(self) -> None:
        nan = float("nan")
        for element, refusal in (([1], TypeError), ({}, TypeError), (nan, ValueError), (1 << 2040, ValueError)):
            with self.assertRaises(refusal):
                pack((element,))
        for row in (b"\0", b"\x0c", b"\2a", b"\2a\0", b"\6", b"\6\2\1", b"\7\0", b"\x0a\1", b"\x0b", b"\xff"):
            with self.subTest(row=row), self.assertRaises(ValueError):
                unpack(row)


BY_CITY = Index("by city", b"city", b"age")


class Indexes(unittest.TestCase):
    """Rows by their values."""

    def test_it_follows_the_rows(self) -> None:
        with duqishom.connect() as store:

            def check(*rows: bytes) -> None:
                with store.snapshot() as s:
                    self.assertEqual(list(BY_CITY.rows(s, b"Bonn")), list(rows))
                    self.assertEqual(s.count(prefix=pack(("by city",))), len(list(BY_CITY.rows(s))))

            store.run(lambda t: BY_CITY.put(t, b"Bob", {b"city": b"Bonn", b"age": b"7", b"x": b"1"}))
            store.run(lambda t: BY_CITY.put(t, b"Ann", {b"city": b"Bonn", b"age": b"8"}))
            store.run(lambda t: BY_CITY.put(t, b"Cid", {b"city": b"Bonn"}))
            store.run(lambda t: BY_CITY.put(t, b"Dan", {b"city": b"Bo", b"age": b"8"}))
            check(b"Bob", b"Ann")
            with store.snapshot() as s:
                self.assertEqual(list(BY_CITY.rows(s, b"Bonn", b"8")), [b"Ann"])
                self.assertEqual(list(BY_CITY.rows(s, limit=2)), [b"Dan", b"Bob"])
            self.assertEqual(list(BY_CITY.rows(store, limit=2)), [b"Dan", b"Bob"])
            store.run(lambda t: BY_CITY.put(t, b"Bob", {b"age": b"9", b"x": None}))
            check(b"Ann", b"Bob")
            self.assertEqual(store.row(b"Bob"), {b"city": b"Bonn", b"age": b"9"})
            store.run(lambda t: BY_CITY.put(t, b"Ann", {b"city": None}))
            store.run(lambda t: BY_CITY.delete(t, b"Dan"))
            check(b"Bob")
            self.assertEqual(store.row(b"Dan"), {})

    def test_two_that_change_one_row_conflict(self) -> None:
        with duqishom.connect() as store:
            with self.assertRaises(TransactionConflict), store.transaction() as late:
                BY_CITY.put(late, b"Ann", {b"age": b"8"})
                store.run(lambda t: BY_CITY.put(t, b"Ann", {b"city": b"Bonn"}))
        self.assertRaises(ValueError, Index, "by nothing")

    def test_the_twin(self) -> None:
        gateway = Gateway(self)

        async def main() -> None:
            async with aio.connect(gateway.path) as store:
                await store.run(lambda t: BY_CITY.put_async(t, b"Bob", {b"city": b"Bonn", b"age": b"7"}))
                await store.run(lambda t: BY_CITY.put_async(t, b"Ann", {b"city": b"Bonn", b"age": b"7"}))
                await store.run(lambda t: BY_CITY.delete_async(t, b"Bob"))
                async with store.snapshot() as s:
                    self.assertEqual([row async for row in BY_CITY.rows_async(s, b"Bonn", limit=3)], [b"Ann"])
                self.assertEqual([row async for row in BY_CITY.rows_async(store, b"Bonn", limit=1)], [b"Ann"])

        asyncio.run(main())


VISITS = Counter("visits")


class Counters(unittest.TestCase):
    """Sums of several cells."""

    def test_many_add(self) -> None:
        gateway = Gateway(self)

        def add() -> None:
            with duqishom.connect(gateway.path) as store:
                for amount in range(1, 26):
                    store.run(lambda t: VISITS.add(t, amount - 10), attempts=100)

        threads = [Thread(target=add) for _ in range(4)]
        for thread in threads:
            thread.start()
        for thread in threads:
            thread.join()
        with duqishom.connect(gateway.path) as store:
            self.assertEqual(VISITS.total(store), 4 * (25 * 26 // 2 - 250))
            self.assertLess(1, store.count(prefix=pack(("visits",))))
            self.assertLessEqual(store.count(), 16)
            self.assertEqual(Counter("visits of others").total(store), 0)

    def test_a_transaction_has_its_own_additions(self) -> None:
        with duqishom.connect() as store:
            store.run(VISITS.add)
            with store.transaction() as t:
                for amount in -3, 5, 10**100:
                    VISITS.add(t, amount)
                self.assertEqual((VISITS.total(t), VISITS.total(store)), (10**100 + 3, 1))
            self.assertEqual(Counter("visits", 256).total(store), 10**100 + 3)
        for cells in 0, 257:
            self.assertRaises(ValueError, Counter, "visits", cells)

    def test_the_twin(self) -> None:
        gateway = Gateway(self)

        async def main() -> None:
            async with aio.connect(gateway.path) as store:
                await asyncio.gather(*(store.run(VISITS.add_async, attempts=100) for _ in range(20)))
                async with store.snapshot() as s:
                    self.assertEqual((await VISITS.total_async(store), await VISITS.total_async(s)), (20, 20))

        asyncio.run(main())


PAGES = LargeValues("page")


class Large(unittest.TestCase):
    """Values in pieces."""

    def test_each_length_follows_each_other(self) -> None:
        given = random.Random(7).randbytes(200_000)
        values = [given[:length] for length in (0, 1, 65_534, 65_535, 65_536, 131_070, 131_071, 200_000)] + [None]
        with duqishom.connect() as store:
            store.put(pack(("page", b"Ann\0", 0)), b"p", b"\0\1of another row")
            for before in values:
                for value in values:
                    for written in before, value:
                        store.run(lambda t: PAGES.delete(t, b"Ann") if written is None else PAGES.put(t, b"Ann", written))
                    with store.snapshot() as s:
                        self.assertEqual(PAGES.get(s, b"Ann"), value)
                        count = 0 if value is None else -(-(len(value) + 2) // 65_536)
                        self.assertEqual(s.count(prefix=pack(("page", b"Ann"))), count)
                        self.assertEqual(PAGES.get(s, b"Ann\0"), b"of another row")

    def test_the_largest(self) -> None:
        value = random.Random(8).randbytes(MOST_BYTES)
        with duqishom.connect() as store:
            store.run(lambda t: PAGES.put(t, b"Ann", value))
            with store.transaction() as t:
                self.assertTrue(PAGES.get(t, b"Ann") == value)
                self.assertRaises(ValueError, PAGES.put, t, b"Ann", bytes(MOST_BYTES + 1))
                PAGES.put(t, b"Ann", b"short")
                self.assertEqual(PAGES.get(t, b"Ann"), b"short")
            self.assertEqual(store.count(), 1)

    def test_readers_have_whole_values(self) -> None:
        gateway, is_over = Gateway(self), Event()
        values = [bytes([number]) * (number % 5 * 60_000) for number in range(1, 40)]

        def write() -> None:
            with duqishom.connect(gateway.path) as store:
                for value in cycle(values):
                    store.run(lambda t: PAGES.put(t, b"Ann", value))
                    if is_over.is_set():
                        return

        writer, seen = Thread(target=write), set[bytes | None]()
        writer.start()
        with duqishom.connect(gateway.path) as store:
            while len(seen) < 10 and writer.is_alive():
                seen.add(PAGES.get(store, b"Ann"))
        is_over.set()
        writer.join()
        self.assertLessEqual(10, len(seen))
        self.assertLessEqual(seen, {None, *values})

    def test_two_that_write_one_value_conflict(self) -> None:
        long, short = bytes(100_000), b"a"
        for one, other in (long, short), (short, long), (None, long), (None, None):
            with self.subTest(one=one), duqishom.connect() as store:
                with self.assertRaises(TransactionConflict), store.transaction() as late:
                    PAGES.delete(late, b"Ann") if one is None else PAGES.put(late, b"Ann", one)
                    store.run(lambda t: PAGES.delete(t, b"Ann") if other is None else PAGES.put(t, b"Ann", other))

    def test_the_twin(self) -> None:
        gateway = Gateway(self)

        async def main() -> None:
            async with aio.connect(gateway.path) as store:
                for value in bytes(2_000_000), b"short":
                    await store.run(lambda t: PAGES.put_async(t, b"Ann", value))
                    async with store.snapshot() as s:
                        self.assertEqual(await PAGES.get_async(s, b"Ann"), value)
                    self.assertEqual(await PAGES.get_async(store, b"Ann"), value)
                await store.run(lambda t: PAGES.delete_async(t, b"Ann"))
                self.assertIsNone(await PAGES.get_async(store, b"Ann"))

        asyncio.run(main())


if __name__ == "__main__":
    unittest.main()
