"""Who may read the files of a folder, and that what stands in the place of one and is no file isn't opened."""

from __future__ import annotations

import os
import shutil
import stat
import subprocess
import unittest
from collections.abc import Callable
from pathlib import Path

from duqishom import Store
from duqishom.copies import restore
from duqishom.program import default_program
from tests.folders import FolderTest

ROOT, FILES, MARK, LOCK = "t8000000000000000.tab", ("t8000000000000001.tab", "t8000000000000002.tab"), "oracle.mark", "lock"
NAMES = (ROOT, *FILES, MARK, "oracle.old", LOCK, "format")
LOG_NAMES = ("commit.log", "commit.id")
ROW, FAMILY = b"counter", b"c"

# What may stand in the place of a file and isn't one, and how it comes there.
OTHERS: tuple[Callable[[Path], None], ...] = (
    os.mkfifo,
    Path.mkdir,
    lambda path: path.symlink_to("missing"),
    lambda path: path.symlink_to(f"../kept/{path.name}"),
)

# How many seconds a program has that must end by itself.
PATIENCE = 60


def fill(store: Store) -> None:
    """Commits a cell twice, with a checkpoint between."""
    for value in (b"1", b"2"):
        store.put(ROW, FAMILY, value)
        store.checkpoint()


def mode_of(path: Path) -> int:
    """The mode of a file or a folder."""
    return stat.S_IMODE(path.stat().st_mode)


class Modes(FolderTest):
    """A folder of a program whose files are everybody's, where nothing else is asked for."""

    def setUp(self) -> None:
        super().setUp()
        self.addCleanup(os.umask, os.umask(0))
        self.place, self.kept = self.path / "store", self.path / "kept"

    def opened(self, log: bool) -> Store:
        """The store of the folder. Its end makes no checkpoint."""
        return Store(folder=self.place, words=["--merge", "64"], checkpoint_at_close=False, log=log)

    def make(self, log: bool) -> None:
        """Has the folder be that of a new store, with two checkpoints. There is a copy of it."""
        for place in (self.place, self.kept):
            shutil.rmtree(place, ignore_errors=True)
        self.place.mkdir()
        with self.opened(log) as store:
            fill(store)
        shutil.copytree(self.place, self.kept)

    def put_back(self) -> None:
        """Has the folder be as its copy."""
        shutil.rmtree(self.place)
        shutil.copytree(self.kept, self.place)

    def modes(self) -> dict[str, int]:
        """The modes of the folder's files."""
        return {path.name: mode_of(path) for path in self.place.iterdir()}

    def status(self) -> int:
        """The status of a program that opens the folder and is asked nothing."""
        command = [default_program(), "--dir", str(self.place)]
        return subprocess.run(command, stdin=subprocess.DEVNULL, capture_output=True, timeout=PATIENCE).returncode

    def test_the_owner_alone_may_read(self) -> None:
        for log in (False, True):
            self.make(log)
            self.assertEqual(self.modes(), dict.fromkeys((*NAMES, *(LOG_NAMES if log else ())), 0o600))
            for path in self.place.iterdir():
                path.chmod(0o644)
            with self.opened(log) as store:
                self.assertEqual(store.run(lambda t: t.get(ROW, FAMILY)), b"2")
                fill(store)
            modes = self.modes()
            self.assertEqual([modes[name] for name in (ROOT, MARK, LOCK)], [0o600, 0o600, 0o644])

    def test_copies_are_for_the_owner_alone(self) -> None:
        for log in (False, True):
            self.make(log)
            backup, restored = self.path / f"backup{log}", self.path / f"restored{log}"
            with self.opened(log) as store:
                store.backup(backup)
            restore(str(backup), str(restored))
            for copy in (backup, restored):
                self.assertEqual(mode_of(copy), 0o700)
                self.assertEqual({mode_of(path) for path in copy.iterdir()}, {0o600})

    def test_what_is_no_file_is_refused(self) -> None:
        for log in (False, True):
            self.make(log)
            for name in (ROOT, FILES[1], MARK, LOCK):
                for number, make in enumerate(OTHERS):
                    self.put_back()
                    (self.place / name).unlink()
                    make(self.place / name)
                    with self.subTest(log=log, name=name, number=number):
                        self.assertEqual(self.status(), 4)

    def test_what_stands_beside_a_place_is_not_written(self) -> None:
        for log in (False, True):
            self.make(log)
            was = (self.kept / ROOT).read_bytes()
            ways: tuple[Callable[[Path], None], ...] = (os.mkfifo, lambda path: path.symlink_to(self.kept / ROOT))
            for make in ways:
                self.put_back()
                with self.opened(log) as store:
                    for name in (MARK, ROOT):
                        make((self.place / name).with_suffix(".new"))
                    fill(store)
                self.assertEqual((self.kept / ROOT).read_bytes(), was)
                self.assertTrue(all(path.is_file() and not path.is_symlink() for path in self.place.iterdir()))
                with self.opened(log) as store:
                    self.assertEqual(store.run(lambda t: t.get(ROW, FAMILY)), b"2")


if __name__ == "__main__":
    unittest.main()
