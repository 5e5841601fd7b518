"""Merges that come by themselves: what a folder shows between two answers."""

from __future__ import annotations

import unittest

from duqishom import Store
from duqishom.folders import read_root
from tests.folders import FolderTest

FAMILY = b"c"
SIZE = 10_000


class Merges(FolderTest):
    """A folder whose memtables have some 100 values each."""

    def opened(self, log: bool) -> Store:
        """The store of the folder, whose files are merged by levels. Its end makes no checkpoint."""
        return Store(folder=self.path, words=("--flush-bytes", "1048576"), checkpoint_at_close=False, log=log)

    def is_merging(self) -> bool:
        """Whether a file is being written while no request waits."""
        return any(file.name.endswith(".new") for file in self.path.iterdir())

    def put(self, store: Store, number: int) -> None:
        """Commits a row with a value of its own."""
        store.run(lambda t: t.set(b"%04d" % (number * 7919 % 10_000), FAMILY, b"%04d" % number * (SIZE // 4)))

    def are_there(self, store: Store, count: int) -> bool:
        """Whether the first rows have their values, and there are no others."""
        rows = store.run(lambda t: {row: value for row, _, value in t.scan()})
        return rows == {b"%04d" % (n * 7919 % 10_000): b"%04d" % n * (SIZE // 4) for n in range(count)}

    def test_requests_are_answered_between_the_steps_of_a_merge(self) -> None:
        """Of 600 commits some are answered while a merge is under way, and some while none is. The files stay few."""
        with self.opened(log=False) as store:
            merging = []
            for number in range(600):
                self.put(store, number)
                merging.append(self.is_merging())
            self.assertIn(sum(merging), range(10, 500))
            self.assertTrue(self.are_there(store, 600))
            store.checkpoint()
        self.assertLess(len(read_root(self.path).tablets[0].files), 6)

    def test_a_kill_within_a_merge_loses_nothing(self) -> None:
        """The file under way goes when the folder is opened again."""
        count = 0
        for least in (150, 340):
            with self.opened(log=True) as store:
                while count < least or (count < least + 300 and not self.is_merging()):
                    self.put(store, count)
                    count += 1
                self.assertTrue(self.is_merging())
                store.kill()
            with self.opened(log=True) as store:
                self.assertFalse(self.is_merging())
                self.assertTrue(self.are_there(store, count))
                store.kill()


if __name__ == "__main__":
    unittest.main()
