"""Checkpoints and openings of folders without a log, by the bytes of requests and replies."""

from __future__ import annotations

import shutil
import subprocess
import unittest
from collections.abc import Iterable
from pathlib import Path

from duqishom.program import default_program
from tests.folders import FolderTest

ROOT, FILE, NEXT_FILE, MARK = "t0000000000000000.tab", "t0000000000000001.tab", "t0000000000000002.tab", "oracle.mark"

# A request's body and its reply's.
Exchange = tuple[bytes, bytes]

# An unknown session is refused.
GONE = b"\xff\x01"

# Columns, and the answer without a value or a version.
DATA, WRITE = 1, 3
NOTHING = b"\x00"


def named(*names: bytes) -> bytes:
    """Fields with their lengths."""
    return b"".join(len(name).to_bytes(4, "big") + name for name in names)


def number(stamp: int) -> bytes:
    """A stamp, a cleaner or a collector."""
    return stamp.to_bytes(8, "big")


def begin(start: int) -> Exchange:
    """A session begins with this start."""
    return b"\x01", b"\x81" + number(start)


def get(start: int, row: bytes, found: bytes) -> Exchange:
    """A session reads a cell."""
    return b"\x02" + number(start) + named(row, b"bal"), b"\x82" + found


def value(text: bytes) -> bytes:
    """A Get's answer with this value."""
    return b"\x01" + named(text)


def set_to(start: int, row: bytes, text: bytes) -> Exchange:
    """A session sets a cell."""
    return b"\x03" + number(start) + named(row, b"bal", text), b"\x83"


def step(start: int, progress: bytes) -> Exchange:
    """A step of a session."""
    return b"\x04" + number(start), progress if progress == GONE else b"\x84" + progress


def held(cell: int, cells: int) -> bytes:
    """The step held this cell of so many."""
    return b"\x01" + cell.to_bytes(2, "big") + cells.to_bytes(2, "big")


def stamped(stamp: int) -> bytes:
    """The step drew this commit stamp."""
    return b"\x03" + number(stamp)


def committed(stamp: int) -> bytes:
    """The step committed at this stamp."""
    return b"\x04" + number(stamp)


# The step finished the second of two cells.
FINISHED = b"\x06\x00\x02\x00\x02"


def raw(row: bytes, column: int, high: int, found: bytes) -> Exchange:
    """A raw read of a column up to a stamp."""
    return b"\x11" + named(row, b"bal") + bytes([column]) + number(0) + number(high), b"\x91" + found


def version(stamp: int, text: bytes) -> bytes:
    """A raw read's answer with this version."""
    return b"\x01" + number(stamp) + named(text)


CHECKPOINT: Exchange = (b"\x12", b"\x92")


def two_cells(start: int, bob: bytes, joe: bytes) -> list[Exchange]:
    """A transaction sets both cells, up to the commit of its first one."""
    sets = [set_to(start, b"Bob", bob), set_to(start, b"Joe", joe)]
    told = (held(1, 2), held(2, 2), stamped(start + 1), committed(start + 1))
    return [*sets, *(step(start, progress) for progress in told)]


# A transfer up to the commit of its first cell, and to its end.
HALF = [
    begin(1),
    *two_cells(1, b"10", b"2"),
    step(1, FINISHED),
    begin(3),
    get(3, b"Bob", value(b"10")),
    get(3, b"Joe", value(b"2")),
    *two_cells(3, b"3", b"9"),
]
WHOLE = [*HALF, step(3, FINISHED), begin(5), get(5, b"Bob", value(b"3")), get(5, b"Joe", value(b"9")), step(3, GONE)]

# After the restart the session of such a half is gone, and its last lock is left: a cleaner rolls it forward.
STOPPED = [
    step(3, GONE),
    begin(1001),
    get(1001, b"Bob", value(b"3")),
    get(1001, b"Joe", b"\x02" + number(3)),
    (b"\x06" + named(b"Joe", b"bal"), b"\x86\x01" + number(1) + number(3)),
    (b"\x07" + number(1), b"\x87\x01"),
    (b"\x07" + number(1), b"\x87\x02" + number(4)),
    get(1001, b"Joe", value(b"9")),
]
WHOLE_READ = [begin(1001), get(1001, b"Bob", value(b"3")), get(1001, b"Joe", value(b"9")), step(5, GONE)]

# A major compaction, a checkpoint, and a sweep of the file that no root names any more.
MIGRATED: list[Exchange] = [(b"\x0c\0\0\0\x01", b"\x8c"), CHECKPOINT, (b"\x0f", b"\x8f" + number(1))]

# A new store's root, and that of the migrated store, with the length of its file.
ONE_TABLET = b"\0\0\0\x02\0\0\0\x01\0\0\0\x01\x01\0\0\0\0"
NEW_ROOT = b"TABROOT2" + number(0) * 2 + number(1) + ONE_TABLET + b"\0TABROOTZ"
MIGRATED_ROOT = b"TABROOT2" + number(1001) + number(0) + number(3) + ONE_TABLET + b"\x01" + number(2) + number(398) + b"TABROOTZ"

# A migrated store is read. Old commit records have no kind; the one that the cleaner put has one.
READ = [
    begin(2001),
    get(2001, b"Bob", value(b"3")),
    get(2001, b"Joe", value(b"9")),
    raw(b"Bob", WRITE, 9, version(4, number(3))),
    raw(b"Joe", WRITE, 9, version(4, number(3) + b"S")),
    raw(b"Joe", WRITE, 3, version(2, number(1))),
]

# The older records are collected, and the data that the newest ones name is kept. One of the cells is deleted.
COLLECTED: list[Exchange] = [
    (b"\x08", b"\x88" + number(1) + number(2001)),
    (b"\x09" + number(1) + b"\0\0\0d", b"\x89\x03"),
    raw(b"Bob", WRITE, 3, NOTHING),
    raw(b"Bob", DATA, 2, NOTHING),
    raw(b"Joe", DATA, 2, NOTHING),
    get(2001, b"Bob", value(b"3")),
    get(2001, b"Joe", value(b"9")),
    begin(2002),
    (b"\x13" + number(2002) + named(b"Bob", b"bal"), b"\x93"),
    step(2002, held(1, 1)),
    step(2002, stamped(2003)),
    step(2002, committed(2003)),
    begin(2004),
    get(2001, b"Bob", value(b"3")),
    get(2004, b"Bob", NOTHING),
]


class Openings(FolderTest):
    """A folder is opened by the program, which serves some requests and ends."""

    def serve(self, bodies: Iterable[bytes]) -> tuple[int, bytes]:
        """The status of a program that is asked these bodies, and the bytes that it writes."""
        command = [default_program(), "--dir", self.folder]
        ran = subprocess.run(command, input=named(*bodies), capture_output=True, timeout=60)
        return ran.returncode, ran.stdout

    def assert_met(self, exchanges: Iterable[Exchange]) -> None:
        """The program ends cleanly, and writes these replies and nothing else."""
        bodies, replies = zip(*exchanges)
        self.assertEqual(self.serve(bodies), (0, named(*replies)))

    def test_a_new_store(self) -> None:
        self.assert_met([CHECKPOINT])
        self.assertEqual((self.path / ROOT).read_bytes(), NEW_ROOT)
        self.assert_met([begin(1)])

    def test_a_stopped_transfer(self) -> None:
        """Partly written files that a killed program left do no harm, and are removed."""
        self.assert_met([*HALF, CHECKPOINT])
        left = [self.path / "t0000000000000000.new", self.path / "t0000000000000001.new"]
        for file in left:
            file.write_bytes(b"TAB")
        self.assert_met(STOPPED)
        self.assertEqual([file for file in left if file.exists()], [])

    def test_a_whole_transfer(self) -> None:
        self.assert_met([*WHOLE, CHECKPOINT])
        self.assert_met(WHOLE_READ)

    def test_files_that_are_there_and_unreadable(self) -> None:
        """A symbolic link to itself is a failure of the device, and no missing file."""
        self.assert_met([*HALF, CHECKPOINT])
        for name in (ROOT, FILE, MARK):
            file = self.path / name
            whole = file.read_bytes()
            file.unlink()
            file.symlink_to(file)
            self.assertEqual(self.serve([])[0], 4, name)
            file.unlink()
            file.write_bytes(whole)
        self.assertEqual(self.serve([])[0], 0)

    def test_a_folder_of_the_first_format(self) -> None:
        """It has the second format after a major compaction, a checkpoint and a sweep. A root with a wrong length of its
        file is damage."""
        shutil.copytree(Path(__file__).parent / "data" / "format1", self.folder, dirs_exist_ok=True)
        self.assert_met([*STOPPED, *MIGRATED])
        root, file = (self.path / ROOT).read_bytes(), (self.path / NEXT_FILE).read_bytes()
        self.assertEqual((root, len(file), file[:8]), (MIGRATED_ROOT, 398, b"TABLET02"))
        self.assertFalse((self.path / FILE).exists())
        self.assert_met([*READ, *COLLECTED])
        root = (self.path / ROOT).read_bytes()
        (self.path / ROOT).write_bytes(root[:-9] + bytes([root[-9] + 1]) + root[-8:])
        self.assertEqual(self.serve([])[0], 5)


if __name__ == "__main__":
    unittest.main()
