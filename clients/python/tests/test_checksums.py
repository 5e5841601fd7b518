"""Folders with --format 3, which new ones get: the files have checksums, older files are read beside them, and what changed
on the disk is never a value."""

from __future__ import annotations

import os
import random
import shutil
import unittest
from contextlib import suppress
from pathlib import Path

from duqishom import Device, NotOpened, Store, connect
from tests.folders import FolderTest, said
from tests.gateways import Gateway

FAMILY = b"c"
ROWS = 200

# The root and the tablet's files: before the option, and after it with a checkpoint.
BEFORE = {"t0000000000000000.tab", "t0000000000000001.tab"}
UPGRADED = {"t8000000000000000.tab", "t0000000000000001.tab", "t8000000000000002.tab"}

# Words for a new folder, and whether it has the format then.
WORDS: list[tuple[list[str], bool]] = [([], True), (["--format", "2"], False), (["--format", "3"], True)]


def value(number: int) -> bytes:
    return b"%0200d" % number


def row(number: int) -> bytes:
    return b"row%04d" % number


class ChecksumsTest(FolderTest):
    """A folder that gets the format, and one whose bytes change."""

    def files(self) -> set[str]:
        return {name for name in os.listdir(self.folder) if name.endswith(".tab")}

    def store(self, *words: str, checksums: bool | None = None) -> Store:
        return Store(folder=self.folder, words=words, log=True, checkpoint_at_close=False, checksums=checksums)

    def fill(self, store: Store) -> None:
        for number in range(ROWS):
            store.put(row(number), FAMILY, value(number))
        store.checkpoint()

    def are_there(self, store: Store) -> None:
        cells = {found: text for found, _, text in store.scan()}
        self.assertEqual(cells, {row(number): value(number) for number in range(ROWS)})

    def test_a_folder_gets_the_format(self) -> None:
        with self.store(checksums=False) as store:
            self.fill(store)
        self.assertEqual(self.files(), BEFORE)
        self.assertFalse((self.path / "format").exists())
        with self.store("--format", "3") as store:
            self.are_there(store)
            store.put(row(0), FAMILY, value(0))
            store.checkpoint()
        self.assertEqual((self.path / "format").read_bytes(), b"3\n")
        self.assertEqual(self.files(), UPGRADED)
        # From now on without the option too.
        with self.store() as store:
            self.are_there(store)
            store.major(1)
            store.checkpoint()
            store.sweep()
            store.put(row(1), FAMILY, value(1))
            store.kill()
        self.assertTrue(all(name.startswith("t8") for name in self.files()))
        with self.store() as store:
            self.are_there(store)

    def test_an_unknown_format(self) -> None:
        (self.path / "format").write_bytes(b"4\n")
        with self.assertRaises(NotOpened):
            self.store()

    def test_changed_bits(self) -> None:
        with self.store("--format", "3") as store:
            self.fill(store)
        whole = self.path
        chance = random.Random(7)
        for name in sorted(self.files()):
            for _ in range(20):
                with self.subTest(name=name):
                    self.changed(whole, name, chance)

    def changed(self, whole: Path, name: str, chance: random.Random) -> None:
        """Opens a copy of the folder in which one bit of a file is another."""
        copy = whole.parent / (whole.name + ".copy")
        shutil.copytree(whole, copy)
        self.addCleanup(shutil.rmtree, copy, ignore_errors=True)
        try:
            path = copy / name
            raw = bytearray(path.read_bytes())
            raw[chance.randrange(len(raw))] ^= 1 << chance.randrange(8)
            path.write_bytes(raw)
            with suppress(NotOpened, Device), Store(folder=str(copy), log=True, checkpoint_at_close=False) as store:
                self.are_there(store)
        finally:
            shutil.rmtree(copy)


class NewFoldersTest(FolderTest):
    """What format a folder has if it is new, and if it isn't."""

    def has_sums(self, folder: Path) -> bool:
        """Whether a folder has the format, which all its files then have."""
        files = [name for name in os.listdir(folder) if name.endswith(".tab")]
        has_sums = (folder / "format").exists()
        self.assertTrue(files and all(name.startswith("t8") == has_sums for name in files), files)
        return has_sums

    def opened(self, checksums: bool | None) -> bool:
        """Opens the store and changes it. Whether the folder has the format then."""
        with Store(folder=self.folder, checksums=checksums) as store:
            self.assertEqual(store.get(row(0), FAMILY), value(0))
            store.put(row(1), FAMILY, value(1))
            store.major(1)
            store.checkpoint()
            store.sweep()
        return self.has_sums(self.path)

    def test_a_new_folder_gets_it(self) -> None:
        for number, (checksums, log) in enumerate(((None, None), (None, False), (True, None))):
            folder = self.path / str(number)
            with connect(folder, checksums=checksums, log=log) as store:
                store.put(row(0), FAMILY, value(0))
            self.assertTrue(self.has_sums(folder))

    def test_a_folder_keeps_its_own(self) -> None:
        with Store(folder=self.folder, checksums=False) as store:
            store.put(row(0), FAMILY, value(0))
        self.assertFalse(self.has_sums(self.path))
        opened = [self.opened(checksums) for checksums in (None, False, True, None, False)]
        self.assertEqual(opened, [False, False, True, True, True])

    def test_a_store_without_a_checkpoint_keeps_its_own(self) -> None:
        with Store(folder=self.folder, checksums=False) as store:
            store.put(row(0), FAMILY, value(0))
            store.kill()
        self.assertFalse(self.opened(None))

    def test_a_store_in_memory(self) -> None:
        with self.assertRaises(ValueError):
            Store(checksums=True)
        with Store(checksums=False) as store:
            store.put(row(0), FAMILY, value(0))

    def test_the_command(self) -> None:
        for number, (words, has_sums) in enumerate(WORDS):
            folder = self.path / str(number)
            folder.mkdir()
            for given in (words, ["--format", "2"]):
                status, text = said("--dir", folder, *given, "set", "Bob", "bal", "1")
                self.assertEqual((status, self.has_sums(folder)), (0, has_sums), text)
        for refused in (["--format", "3"], ["--dir", self.folder, "--format", "4"]):
            with self.assertRaises(SystemExit):
                said(*refused, "status")

    def test_a_gateway(self) -> None:
        for number, (words, has_sums) in enumerate(WORDS):
            folder = self.path / str(number)
            folder.mkdir()
            for given in (words, ["--format", "2"]):
                gateway = Gateway(self, ["--dir", str(folder), *given])
                with Store(socket=gateway.path) as store:
                    store.put(row(0), FAMILY, value(0))
                gateway.end()
                self.assertEqual(self.has_sums(folder), has_sums)


if __name__ == "__main__":
    unittest.main()
