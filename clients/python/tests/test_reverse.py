"""Scans in descending order: the cells and rows of forward scans the other way round, in few requests."""

from __future__ import annotations

import asyncio
import random
import unittest
from collections.abc import Callable, Iterable, Sequence
from typing import Any
from unittest.mock import patch

import duqishom
from duqishom import BadColumn, BadRow, Cell, Patience, Store, aio
from duqishom.layers.index import Index
from duqishom.transactions import Transaction
from tests.gateways import Gateway
from tests.test_first_rows import trips_of

FAMILY = b"c"
FAMILIES = (b"b", b"c", b"d")

Rows = Callable[[random.Random], Iterable[bytes]]

# Rows of several kinds. Each row has one family, or two, or three.
KINDS: dict[str, Rows] = {
    "none": lambda _: (),
    "one": lambda _: [b"r"],
    "spread": lambda given: [given.randbytes(8) or b"r" for _ in range(1000)],
    "counters": lambda _: [b"n/%06d" % number for number in range(1000)],
    "numbers": lambda _: [b"%d" % number for number in range(1, 1000)],
    "bytes": lambda _: [number.to_bytes(8, "big") for number in range(1000)],
    "groups": lambda given: [b"u/%03d/m/%d" % (given.randrange(200) ** 2 % 333, given.randrange(99)) for _ in range(1000)],
    "prefixes": lambda given: [given.choice((b"a", b"b" * 900, b"b" * 2000)) + given.randbytes(2) for _ in range(500)],
    "depths": lambda _: [b"a" * length for length in range(1, 700)],
    "ends": lambda given: [bytes(given.choices((0, 0xFF, 0x61), k=given.randint(1, 9))) for _ in range(1000)],
    "lengths": lambda _: [row * length for row in (b"\0", b"\xff") for length in (1, 2, 255, 3999, 4000)],
}


def kept(store: Store, cells: Sequence[Cell]) -> None:
    """Writes cells whose values are of their names."""
    for at in range(0, len(cells), 256):
        with store.transaction() as t:
            for row, family in cells[at : at + 256]:
                t.put(row, family, family + row[-9:])


def cells_of_kind(rows: Rows, given: random.Random) -> list[Cell]:
    """Cells with the rows of a kind."""
    names = sorted(set(rows(given)))
    return [Cell(row, family) for row in names for family in FAMILIES[: given.choice((1, 1, 2, 3))]]


def ranges(cells: Sequence[Cell], given: random.Random, count: int) -> Iterable[dict[str, Any]]:
    """Arguments of scans, by the rows that are there."""
    yield {}
    for _ in range(count):
        row = given.choice(cells).row if cells and given.random() < 0.9 else b"m"
        words = {
            "start": row,
            "end": given.choice(cells).row if cells else b"z",
            "after": row,
            "before": given.choice(cells).row if cells else b"a",
            "prefix": row[: given.randint(0, len(row))],
            "family": given.choice((b"b", b"c", b"x")),
        }
        yield {name: words[name] for name in given.sample(sorted(words), given.choice((1, 1, 2)))}


def changed(t: Transaction | aio.Transaction, cells: Sequence[Cell], given: random.Random) -> None:
    """Writes and deletes some cells, of those that are there and of others."""
    for _ in range(60 if cells else 3):
        row, family = given.choice(cells) if cells else Cell(b"mine", FAMILY)
        row = row if given.random() < 0.5 else (row[:-1] + given.randbytes(2))[:4000]
        if given.random() < 0.5:
            t.put(row, family, b"mine")
        else:
            t.delete(row, family)


class Own(unittest.TestCase):
    """A store of the client's own."""

    def setUp(self) -> None:
        self.given = random.Random(7)
        self.store = duqishom.connect(patience=Patience(tries=1))
        self.addCleanup(self.store.close)

    def lock(self, cells: Sequence[Cell]) -> None:
        """Locks some cells in a session that takes no further step, and deletes others."""
        chosen = self.given.sample(cells, min(99, len(cells)))
        # Locks that stand from before are cleaned
        self.store.get_many(chosen)
        with self.store.transaction() as t:
            for cell in chosen[9:]:
                t.delete(*cell)
        holder = self.store.begin()
        for cell in chosen[:9]:
            self.store.set(holder, *cell, b"held")
        for _ in chosen[:9]:
            self.store.step(holder)

    def check(self, reads: Any, words: dict[str, Any]) -> None:
        """That each descending read gives what a forward one does, the other way round. The descending one meets the locks."""
        found = list(reads.scan(**words, reverse=True))
        self.assertEqual(found, list(reads.scan(**words))[::-1])
        limit = self.given.choice((0, 1, 2, 9, 70, 300, 2000))
        self.assertEqual(list(reads.scan(**words, reverse=True, limit=limit)), found[:limit])
        keys = [(row, family, None) for row, family, _ in found]
        self.assertEqual(list(reads.scan(**words, reverse=True, keys=True, limit=limit)), keys[:limit])
        if "family" not in words:
            rows = list(reads.rows(**words))[::-1]
            found_rows = list(reads.rows(**words, reverse=True, limit=limit))
            self.assertEqual(found_rows, rows[:limit])
            self.assertEqual([list(row) for _, row in found_rows], [list(row) for _, row in rows[:limit]])

    def check_kind(self, cells: Sequence[Cell], count: int) -> None:
        self.setUp()
        kept(self.store, cells)
        for words in ranges(cells, self.given, count):
            self.lock(cells[:: self.given.choice((1, 7))])
            with self.subTest(**words):
                self.check(self.store, words)
                t = self.store.transaction()
                changed(t, cells, self.given)
                self.check(t, words)
                found = list(t.scan(**words, reverse=True, own=False))
                self.assertEqual(found, list(t.scan(**words, own=False))[::-1])
                t.stop()

    def test_whatever_the_rows(self) -> None:
        for name, rows in KINDS.items():
            with self.subTest(name):
                self.check_kind(cells_of_kind(rows, self.given), 4)

    def test_small_parts(self) -> None:
        with patch.multiple("duqishom.reverse", MOST_OF_PART=12, FIRST_MOST=5):
            for name, rows in KINDS.items():
                with self.subTest(name):
                    self.check_kind(cells_of_kind(rows, self.given)[::11], 6)

    def test_a_row_of_many_families_and_long_values(self) -> None:
        kept(self.store, [Cell(b"m", b"%04d" % family) for family in range(3000)])
        kept(self.store, [Cell(row, b"0") for row in (b"a", b"l", b"m\0", b"n")])
        for family in b"1000", b"1001", b"2999":
            self.store.put(b"m", family, bytes(65_000))
        given: tuple[dict[str, Any], ...] = ({}, {"start": b"b", "end": b"m"}, {"family": b"1000"}, {"prefix": b"m"})
        for words in given:
            for _ in range(3):
                with self.subTest(**words), self.store.transaction() as t:
                    self.check(t, words)

    def test_one_moment(self) -> None:
        rows = [b"%04d" % row for row in range(1500)]
        kept(self.store, [Cell(row, FAMILY) for row in rows])
        scan = self.store.scan(reverse=True, keys=True)
        found = [next(scan)[0]]
        kept(self.store, [Cell(row + b"x", FAMILY) for row in rows])
        found += [row for row, _, _ in scan]
        self.assertEqual(found, rows[::-1])
        with self.store.transaction() as t:
            t.put(b"x", FAMILY, b"mine")
            own = t.scan(reverse=True)
            t.put(b"y", FAMILY, b"later")
            self.assertEqual(next(own), (b"x", FAMILY, b"mine"))
            t.stop()
        floor, start = self.store.collect(), self.store.begin()
        self.assertEqual(floor, start)

    def test_refused_at_once(self) -> None:
        with self.store.transaction() as t:
            both: tuple[Any, ...] = (self.store, t)
            for reads in both:
                self.assertRaises(BadRow, reads.scan, bytes(4001), reverse=True)
                self.assertRaises(BadColumn, reads.scan, family=b"a:b", reverse=True)
                self.assertRaises(BadRow, reads.rows, before=b"", reverse=True)
                self.assertRaises(ValueError, reads.rows, limit=-1, reverse=True)
                self.assertRaises(ValueError, lambda: list(reads.scan(limit=-1, reverse=True)))

    def test_an_index(self) -> None:
        index = Index("by", b"f")
        with self.store.transaction() as t:
            for row in b"Ann", b"Bob", b"Cid":
                index.put(t, row, {b"f": b"v"})
        self.assertEqual(list(index.rows(self.store, b"v", limit=2, reverse=True)), [b"Cid", b"Bob"])


class Requests(unittest.TestCase):
    """How many requests it takes to read 50,000 rows in descending order, and the last ones of them."""

    def test_requests(self) -> None:
        given = random.Random(7)
        for name, rows, last, whole in (
            ("counters", [b"user/%08d" % number for number in range(50_000)], 13, 100),
            ("spread", sorted({given.randbytes(8) for _ in range(50_000)}), 6, 80),
        ):
            with self.subTest(name), duqishom.connect() as store:
                kept(store, [Cell(row, FAMILY) for row in rows])
                trips = trips_of(store)
                for found, most in (
                    (store.scan(keys=True, limit=10, reverse=True), last),
                    (store.scan(limit=10, reverse=True), last),
                    (store.rows(limit=10, reverse=True), last),
                    (store.scan(reverse=True), whole),
                ):
                    trips.clear()
                    names = [each[0] for each in found]
                    self.assertEqual(names, rows[::-1][: len(names)])
                    self.assertLessEqual(sum(trips), most)
                self.assertEqual(len(names), len(rows))


class Tasks(unittest.TestCase):
    """The same with `aio`."""

    def test_whatever_the_rows(self) -> None:
        given = random.Random(7)
        gateway = Gateway(self)
        cells = [cell for kind in ("counters", "ends") for cell in cells_of_kind(KINDS[kind], given)]
        with Store(socket=gateway.path) as store:
            kept(store, cells)

        async def main() -> None:
            async with aio.connect(gateway.path) as store:
                for words in ranges(cells, given, 6):
                    limit = given.choice((None, 0, 1, 9, 300))
                    await self.check(store, words, limit)
                    async with store.transaction() as t:
                        changed(t, cells, given)
                        await self.check(t, words, limit)
                        await t.stop()

        asyncio.run(main())

    async def check(self, reads: Any, words: dict[str, Any], limit: int | None) -> None:
        for keys in False, True:
            found = [entry async for entry in reads.scan(**words, keys=keys, reverse=True, limit=limit)]
            self.assertEqual(found, [entry async for entry in reads.scan(**words, keys=keys)][::-1][:limit])
        words.pop("family", None)
        rows = [row async for row in reads.rows(**words, reverse=True, limit=limit)]
        self.assertEqual(rows, [row async for row in reads.rows(**words)][::-1][:limit])


if __name__ == "__main__":
    unittest.main()
