"""The options of a folder's program: each does what it says, with a log and without one. And the system's resources
that a program holds."""

from __future__ import annotations

import os
import subprocess
import unittest
from pathlib import Path

from duqishom import NotOpened, Store
from duqishom.files import LOG_FILE, log_of
from duqishom.folders import read_root
from duqishom.program import Program, default_program
from tests.folders import FolderTest

FAMILY = b"c"


# Command lines without --dir that are accepted, and such that are refused.
ACCEPTED = (
    "",
    "--flush 1",
    "--flush 100000",
    "--flush=7",
    "--flush-bytes 1048576",
    "--flush-bytes 67108864",
    "--merge 2",
    "--merge 64",
    "--cache 8",
    "--cache 4096",
    "--session-bytes 1048576",
    "--session-bytes 4294967295",
    "--log-bytes 4096",
    "--log-bytes 33554432",
    "--clients",
    "--clients --admin 1",
    "--clients --admin 4294967295",
    "--help",
    "--version",
)
REFUSED = (
    "--flush",
    "--flush 0",
    "--flush 100001",
    "--flush x",
    "--flush-bytes 1048575",
    "--flush-bytes 67108865",
    "--merge 1",
    "--merge 65",
    "--cache 7",
    "--cache 4097",
    "--session-bytes 1048575",
    "--session-bytes 4294967296",
    "--log-bytes 4095",
    "--log-bytes 33554433",
    "--dir",
    "--log",
    "--format 3",
    "--upkeep",
    "--flush 2 --flush 2",
    "--admin 1",
    "--clients --admin 0",
    "--clients --admin 4294967296",
    "more",
)


def process_of(store: Store) -> Path:
    """The /proc folder of a store's program."""
    program = store._connection
    assert isinstance(program, Program)
    return Path(f"/proc/{program._child.pid}")


def bytes_read(store: Store) -> int:
    """The number of bytes that a store's program has read so far."""
    words = (process_of(store) / "io").read_text().split()
    return int(words[words.index("rchar:") + 1])


def handles(store: Store) -> list[str]:
    """The open files of a store's program."""
    return [os.readlink(handle) for handle in (process_of(store) / "fd").iterdir()]


class Options(FolderTest):
    """Folders whose programs are given options."""

    def setUp(self) -> None:
        super().setUp()
        self.top, self.count = self.path, 0

    def new_folder(self) -> None:
        """Continues in a new folder."""
        self.count += 1
        self.path = self.top / str(self.count)
        self.path.mkdir()

    def opened(self, *words: str, log: bool | None = None) -> Store:
        """The store of the folder. Its end makes no checkpoint."""
        return Store(folder=self.path, words=words, checkpoint_at_close=False, log=log)

    def put(self, store: Store, count: int, size: int = 1) -> None:
        """Commits this many rows, one after the other, with values of this size."""
        for number in range(count):
            store.run(lambda t: t.set(b"%02d" % number, FAMILY, b"v" * size))

    def status(self, *words: str) -> int:
        """The status of a program with these words and no input."""
        return subprocess.run([default_program(), *words], stdin=subprocess.DEVNULL, capture_output=True, timeout=60).returncode

    def test_command_lines(self) -> None:
        """A refused one ends with status 1, before a folder is opened."""
        for line in ACCEPTED:
            self.assertEqual(self.status(*line.split()), 0, line)
        for line in REFUSED:
            self.assertEqual(self.status(*line.split()), 1, line)
        for words in (["--log=yes"], ["--log", "--log"], ["--flush", "0"]):
            self.assertEqual(self.status("--dir", self.folder, *words), 1, words)
        self.assertEqual(self.files(), set())
        self.new_folder()
        self.assertEqual(self.status("--log", "--upkeep", "--dir", str(self.path)), 0)

    def test_a_log_is_read_with_its_word_and_without(self) -> None:
        for log in (True, False, None):
            with self.subTest(log=log):
                self.new_folder()
                with self.opened(log=True) as store:
                    self.put(store, 1, 1)
                    store.checkpoint()
                    self.put(store, 1, 2)
                    store.kill()
                for _ in range(2):
                    with self.opened(log=log) as store:
                        self.assertEqual(store.run(lambda t: t.get(b"00", FAMILY)), b"vv")
                        store.kill()

    def test_log_bytes(self) -> None:
        """An edit counts as at least 671 bytes: a log of 4,096 bytes is emptied at each seventh edit."""
        for words, least, most in (((), 1_500, 10_000), (("--log-bytes", "4096"), 8, 1_000)):
            with self.subTest(words=words):
                self.new_folder()
                with self.opened(*words, log=True) as store:
                    for _ in range(6):
                        self.put(store, 4)
                        size = log_of((self.path / LOG_FILE).read_bytes()).end
                        self.assertLess(size, most)
                    self.assertGreaterEqual(size, least)

    def test_flush_and_merge(self) -> None:
        # The words, the number of commits, the size of their values in bytes, and the number of files that the tablet
        # then has
        table: tuple[tuple[tuple[str, ...], int, int, range], ...] = (
            (("--flush-bytes", "1048576"), 18, 65_000, range(2, 3)),
            (("--flush", "100"), 10, 1, range(1, 2)),
            (("--flush", "2", "--merge", "64"), 10, 1, range(8, 64)),
            (("--flush", "2"), 10, 1, range(1, 6)),
            (("--flush", "2", "--merge", "3"), 10, 1, range(1, 4)),
        )
        for log in (False, True):
            for words, count, size, files in table:
                with self.subTest(log=log, words=words):
                    self.new_folder()
                    with self.opened(*words, log=log) as store:
                        self.put(store, count, size)
                        store.checkpoint()
                    self.assertIn(len(read_root(self.path).tablets[0].files), files)

    def test_cache(self) -> None:
        """Each of 16 values fills a block. A second read of all of them reads the file again if fewer blocks are
        cached."""
        for log in (False, True):
            for blocks, read in (("8", range(80_000, 120_000)), ("64", range(10_000))):
                with self.subTest(log=log, blocks=blocks):
                    self.new_folder()
                    with self.opened("--cache", blocks, log=log) as store:
                        self.put(store, 16, 5_000)
                        store.minor(1)
                        start = store.begin()
                        for _ in range(2):
                            before = bytes_read(store)
                            for number in range(16):
                                store.get(start, b"%02d" % number, FAMILY)
                        self.assertIn(bytes_read(store) - before, read)

    def test_a_second_program_does_nothing(self) -> None:
        """It is refused. A file that the first program is writing is kept."""
        for first in (False, True):
            self.new_folder()
            with self.opened(log=first) as store:
                (self.path / "t00000000000000ff.new").write_bytes(b"half")
                self.put(store, 1)
                files = self.files()
                for second in (False, True):
                    with self.subTest(first=first, second=second):
                        with self.assertRaisesRegex(NotOpened, "is in use by process [0-9]+ ") as caught:
                            self.opened(log=second)
                        self.assertEqual((caught.exception.status, self.files()), (4, files))
                self.put(store, 1)

    def files(self) -> set[str]:
        """The files of the folder."""
        return {file.name for file in self.path.iterdir()}

    def test_few_files_are_open(self) -> None:
        """At most 128 files are kept open, and no file that a sweep removes."""
        with self.opened("--flush", "1", log=False) as store:
            for row in (b"25", b"50"):
                store.split(row)
            few = len(handles(store))
            for _ in range(2):
                self.put(store, 75)
            self.assertGreater(len(self.files()), 140)
            for _ in range(2):
                self.assertEqual(len(store.run(lambda t: list(t.scan()))), 75)
                self.assertIn(len(handles(store)) - few, range(64, 129))
            for tablet in (1, 2, 3):
                store.major(tablet)
            store.checkpoint()
            store.sweep()
            self.assertLess(len(handles(store)) - few, 8)
            self.assertEqual([file for file in handles(store) if "deleted" in file], [])

    def test_compactions_and_checkpoints_leave_nothing_open(self) -> None:
        for log in (False, True):
            with self.subTest(log=log):
                self.new_folder()
                counts = []
                with self.opened("--flush", "3", "--merge", "64", log=log) as store:
                    for _ in range(3):
                        self.put(store, 4)
                        store.merge(1, 2)
                        store.major(1)
                        store.checkpoint()
                        store.sweep()
                        counts.append(len(handles(store)))
                self.assertEqual(counts, counts[:1] * 3)


if __name__ == "__main__":
    unittest.main()
