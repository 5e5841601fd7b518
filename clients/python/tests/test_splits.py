"""Tablets that hold too much, which a store of one's own in a folder splits by itself."""

from __future__ import annotations

import random
import unittest
from collections.abc import Callable

from duqishom import Store
from duqishom.files import FileRef, Root, RootTablet
from duqishom.operations import Split
from duqishom.reports import TabletReport
from duqishom.splits import MOST_BYTES, MOST_ROWS, Samples, middle_of, too_large
from tests.folders import FolderTest
from tests.loads import LIMIT, ROWS, VALUE, load, row_of, sum_of, transfer
from tests.poor import Poor


class Rows(unittest.TestCase):
    """Where a tablet is split."""

    def test_the_middle(self) -> None:
        def rows(numbers: list[int]) -> list[bytes]:
            return random.sample([row_of(number) for number in numbers], len(numbers))

        table: list[tuple[list[int], int | None]] = [
            ([*range(64)], 31),
            ([*range(65)], 32),
            ([*range(63)], None),
            ([], None),
            (100 * [5], None),
            ([0, *99 * [1]], 0),
            ([*99 * [0], 1], 0),
        ]
        for numbers, middle in table:
            self.assertEqual(middle_of(rows(numbers)), None if middle is None else row_of(middle))

    def test_samples(self) -> None:
        """Each tablet has its own, which a split shares out."""
        samples = Samples()
        for number in range(100):
            samples.add(row_of(number))
        self.assertEqual(samples.middle(None), row_of(49))
        samples.cut(row_of(49))
        samples.cut(row_of(49))
        self.assertEqual((samples.middle(row_of(49)), samples.middle(None)), (None, None))
        for number in range(20):
            samples.add(row_of(number))
        self.assertEqual((samples.middle(row_of(49)), samples.middle(None)), (row_of(17), None))

    def test_samples_are_bounded_and_even(self) -> None:
        samples = Samples()
        for number in range(50_000):
            samples.add(row_of(number))
        [sample] = samples._samples
        self.assertTrue(50 <= len(sample.rows) <= MOST_ROWS)
        self.assertTrue(row_of(12_500) < (samples.middle(None) or b"") < row_of(37_500))
        for number in range(64):
            samples.cut(row_of(number * 1000))
        for number in range(64_000):
            samples.add(row_of(number) + bytes(3990))
        self.assertLessEqual(sum(len(row) for each in samples._samples for row in each.rows), MOST_BYTES)


class Sizes(unittest.TestCase):
    """Which tablets are too large."""

    def test_what_they_share(self) -> None:
        def root(*tablets: tuple[bytes | None, list[int]]) -> Root:
            """A root of tablets with files of 100 bytes."""
            named = ((end, tuple(FileRef(file, 100) for file in files)) for end, files in tablets)
            return Root(2, 0, 0, 9, tuple(RootTablet(number, end, 0, files) for number, (end, files) in enumerate(named, 1)))

        def tablet(end: bytes | None, file_bytes: int) -> TabletReport:
            return TabletReport(1, end, 0, 1, 10, 1, file_bytes)

        new, cut = root((None, [])), root((b"m", [2, 1]), (None, [3, 1]))
        table: list[tuple[Root, list[TabletReport], list[bytes | None]]] = [
            (new, [tablet(None, 91)], [None]),
            (new, [tablet(None, 90)], []),
            (cut, [tablet(b"m", 140), tablet(None, 141)], [None]),
            (new, [tablet(b"m", 500), tablet(None, 500)], []),
            (cut, [tablet(b"a", 500), tablet(b"m", 500), tablet(None, 500)], [None]),
        ]
        for named, tablets, found in table:
            self.assertEqual([each.end for each in too_large(tablets, named, 100)], found)


class Stores(FolderTest):
    """A store of one's own."""

    def test_several_tablets(self) -> None:
        with Store(folder=self.folder, split_bytes=LIMIT) as store:
            load(store, range(ROWS))
            tablets = store.tablets()
            self.assertEqual([each.end for each in store.status().tablets], [each.end for each in tablets])
            self.assertEqual(sum_of(store), ROWS * VALUE)
        self.check(len(tablets))
        # What tablets share doesn't count for each of them, also after another opening
        with Store(folder=self.folder, split_bytes=LIMIT) as store:
            transfer(store, 25, 1)
            self.assertEqual(sum_of(store), ROWS * VALUE)
            self.check(len(store.tablets()))

    def check(self, count: int) -> None:
        """There are so many tablets that each has something between a part of the limit and some more."""
        self.assertTrue(3 <= count <= 16, count)

    def test_without_a_log(self) -> None:
        """A tablet is split at most once between two checkpoints."""
        counts = []
        with Store(folder=self.folder, log=False, split_bytes=LIMIT) as store:
            for part in range(3):
                load(store, range(200 * part, 200 * part + 200))
                counts.append(len(store.tablets()))
                store.checkpoint()
            self.assertEqual(sum_of(store), 600 * VALUE)
        self.assertEqual(counts[0], 2)
        self.assertTrue(2 < counts[2] <= 8, counts)

    def test_none(self) -> None:
        """With 0, and in memory."""
        stores: list[Callable[[], Store]] = [lambda: Store(folder=self.folder, split_bytes=0), lambda: Store(split_bytes=LIMIT)]
        for opened in stores:
            with opened() as store:
                load(store, range(200))
                self.assertEqual(len(store.tablets()), 1)

    def test_refusals(self) -> None:
        """They are no commit's, and the split comes with a later look."""
        with Store(folder=self.folder, split_bytes=LIMIT) as store:
            own = store._connection
            store._connection = poor = Poor(own, Split.code, 1, refusal=b"\xff\x0c")
            load(store, range(ROWS))
            self.assertGreater(poor._asked, 1)
            self.assertGreater(len(store.tablets()), 2)


if __name__ == "__main__":
    unittest.main()
