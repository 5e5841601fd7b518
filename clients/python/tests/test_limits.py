"""The program's limits, each met from both sides: of sessions, tablets, files, cleaners and collectors, of names and values, and of
scans."""

from __future__ import annotations

import subprocess
import tempfile
import unittest
from collections.abc import Iterable, Iterator
from typing import Any, Union

from duqishom import Qualifier, ScanItem, Scanned, Unsent, Value
from duqishom.operations import (
    Begin,
    CleanBegin,
    CleanStep,
    CollectBegin,
    CollectStep,
    Delete,
    Get,
    Major,
    Merge,
    Minor,
    Move,
    Operation,
    Raw,
    Scan,
    Set,
    Split,
    Step,
    Stop,
    Sweep,
    answer_or_refusal,
    request_body,
)
from duqishom.program import default_program

FAMILY = b"c"
LONGEST_VALUE, LONGEST_ROW, LONGEST_FAMILY = 65_536, bytes(4_000), b"~" * 64
MOST_STAMP = (1 << 64) - 1

# The wanted reply: the number of its refusal, or 0 if it isn't refused; its bytes; the stamp that a raw read finds, in a list, or
# 0 there if it finds none; or a scan's answer.
Wanted = Union[int, bytes, "list[int]", Scanned]
Asked = tuple[Operation[Any], Wanted]

NOT_FOUND = b"\x82\x00"


def set_to(row: bytes, value: bytes, start: int = 1) -> Set:
    """A write of a cell of the family."""
    return Set(start, row, FAMILY, value)


def all_done(operations: Iterable[Operation[Any]]) -> list[Asked]:
    """None of these operations is refused."""
    return [(operation, 0) for operation in operations]


def steps(start: int, count: int) -> list[Asked]:
    """So many steps of a session are taken."""
    return all_done([Step(start)] * count)


def frames(written: bytes) -> Iterator[bytes]:
    """The bodies of frames."""
    while written:
        length = int.from_bytes(written[:4], "big")
        yield written[4 : 4 + length]
        written = written[4 + length :]


def told(operation: Operation[Any], wanted: Wanted, reply: bytes) -> Wanted:
    """A reply in the form in which it is wanted."""
    if isinstance(wanted, bytes):
        return reply
    if isinstance(wanted, int):
        return reply[1] if reply[0] == 0xFF else 0
    answer: Any = answer_or_refusal(operation, reply)
    if isinstance(wanted, list):
        return [0 if answer is None else answer.stamp]
    assert isinstance(answer, Scanned)
    return answer


class Limits(unittest.TestCase):
    """A new program in memory is asked all at once."""

    def assert_met(self, asked: list[Asked], *words: str) -> None:
        """A program with these words ends cleanly, and its replies are those that are wanted."""
        bodies = [request_body(operation) for operation, _ in asked]
        stream = b"".join(len(body).to_bytes(4, "big") + body for body in bodies)
        ran = subprocess.run([default_program(), *words], input=stream, capture_output=True, timeout=60)
        replies = list(frames(ran.stdout))
        self.assertEqual((ran.returncode, len(replies)), (0, len(asked)))
        for place, ((operation, wanted), reply) in enumerate(zip(asked, replies)):
            self.assertEqual(told(operation, wanted, reply), wanted, f"{place}: {operation!r:.100}")


class Sessions(Limits):
    """Sessions, cleaners, collectors and tablets."""

    def test_writes_of_a_session(self) -> None:
        self.assert_met(
            [
                (Begin(), 0),
                (Step(1), 8),
                (set_to(b"\0", b"v" * LONGEST_VALUE), 0),
                (set_to(b"\0", b"v" * (LONGEST_VALUE + 1)), 5),
                *all_done(set_to(bytes([row]), b"v") for row in range(1, 256)),
                (set_to(b"another", b"v"), 6),
                (set_to(b"\0", b"w"), 0),
            ]
        )

    def test_bytes_of_all_sessions(self) -> None:
        """15 writes of 65,539 bytes leave room for 65,491. One in place of another counts for what it adds."""
        self.assert_met(
            [
                *all_done([Begin(), Begin()]),
                *all_done(set_to(b"r%x" % row, b"v" * LONGEST_VALUE, 1 + row % 2) for row in range(15)),
                (set_to(b"rf", b"v" * 65_489), 20),
                (set_to(b"rf", b"v" * 65_488), 0),
                (set_to(b"rf", b"v" * 65_489), 20),
                (Delete(2, b"s", FAMILY), 20),
                (Get(2, b"rf", FAMILY), NOT_FOUND),
                (set_to(b"rf", b"v" * 65_487), 0),
                (Delete(2, b"s", FAMILY), 20),
                (Delete(1, b"rf", FAMILY), 0),
                (Delete(2, b"s", FAMILY), 0),
                (set_to(b"rf", b"v" * LONGEST_VALUE), 20),
                (Stop(2), 0),
                (set_to(b"rf", b"v" * LONGEST_VALUE), 0),
            ],
            "--session-bytes",
            "1048576",
        )

    def test_bytes_of_all_sessions_in_a_folder(self) -> None:
        """The option reaches a store in a folder, and one with a log."""
        ways: list[list[str]] = [[], ["--log"]]
        for log in ways:
            with tempfile.TemporaryDirectory() as folder:
                self.assert_met(
                    [
                        (Begin(), 0),
                        *all_done(set_to(b"r%x" % row, b"v" * LONGEST_VALUE) for row in range(15)),
                        (set_to(b"rf", b"v" * LONGEST_VALUE), 20),
                    ],
                    *("--dir", folder, *log, "--session-bytes", "1048576"),
                )

    def test_bytes_of_a_session_that_is_committed(self) -> None:
        """They count until its last step."""
        full = [set_to(b"r%x" % row, b"v" * LONGEST_VALUE) for row in range(15)]
        another = set_to(b"s", b"v" * LONGEST_VALUE, 2)
        self.assert_met(
            [
                *all_done([Begin(), Begin(), *full]),
                (another, 20),
                *steps(1, 30),
                (another, 20),
                *steps(1, 1),
                (another, 0),
            ],
            "--session-bytes",
            "1048576",
        )

    def test_deletions_of_256_cells(self) -> None:
        """Each cell is visited once in the first pass. In the second pass its older record is erased, and then its
        deletion."""
        rows = [bytes([row]) for row in range(256)]
        self.assert_met(
            [
                (Begin(), 0),
                *all_done(set_to(row, b"v") for row in rows),
                *steps(1, 513),
                (Begin(), 0),
                *all_done(Delete(3, row, FAMILY) for row in rows),
                (Delete(3, b"another", b":"), 4),
                (Delete(3, b"another", FAMILY), 6),
                (Delete(3, b"\0", FAMILY), 0),
                *steps(3, 513),
                (Step(3), 1),
                (Begin(), 0),
                (CollectBegin(), 0),
                (CollectStep(1, 769), 0),
                (CollectStep(1, 1), 0),
                (CollectStep(1, 1), 10),
                *((Get(5, row, FAMILY), NOT_FOUND) for row in rows),
            ]
        )

    def test_1024_sessions_and_tablets(self) -> None:
        both: list[list[Operation[Any]]] = [[Begin(), Split(number.to_bytes(2, "big"))] for number in range(1, 1024)]
        self.assert_met(
            [
                *all_done(operation for pair in both for operation in pair),
                (Begin(), 0),
                (Begin(), 7),
                (Stop(1), 0),
                (Begin(), 0),
                (Split(b"m"), 12),
                (Split(b""), 3),
                (Major(1024), 0),
                (Major(1025), 11),
            ]
        )

    def test_1024_cleaners(self) -> None:
        self.assert_met(
            [
                (Begin(), 0),
                (set_to(b"r", b"v"), 0),
                (Step(1), 0),
                *all_done([CleanBegin(b"r", FAMILY)] * 1024),
                (CleanBegin(b"r", FAMILY), 7),
                (CleanBegin(b"s", FAMILY), 0),
                (CleanBegin(b"", FAMILY), 3),
                (CleanStep(1025), 9),
                (CleanStep(1024), 0),
                (CleanStep(1024), 0),
                (CleanStep(1024), 9),
                (CleanBegin(b"r", FAMILY), 0),
            ]
        )

    def test_64_collectors(self) -> None:
        self.assert_met(
            [
                *all_done([CollectBegin()] * 64),
                (CollectBegin(), 7),
                (CollectStep(65, 1), 10),
                (CollectStep(64, 2), 0),
                (CollectStep(64, 1), 10),
                (CollectBegin(), 0),
                (CollectBegin(), 7),
                (CollectStep(65, 2), 0),
            ]
        )

    def newest(self, stamps: tuple[int, int, int]) -> list[Asked]:
        """The newest stamps of a cell: of its records below 302, of all its records, and of its data."""
        bounds = ((Qualifier.WRITE, 301), (Qualifier.WRITE, MOST_STAMP), (Qualifier.DATA, MOST_STAMP))
        return [(Raw(b"r", FAMILY, column, 0, high), [stamp]) for (column, high), stamp in zip(bounds, stamps)]

    def visited(self, count: int, stamps: tuple[int, int, int]) -> list[Asked]:
        """So many visits of a collector leave these stamps."""
        return [(CollectStep(1, count), 0), *self.newest(stamps)]

    def test_many_versions_are_collected(self) -> None:
        """A cell has 150 versions, a deletion at 302, and data of 300 sessions that were rolled back."""
        commits: list[list[Operation[Any]]] = [
            [Begin(), set_to(b"r", b"v", start), *[Step(start)] * 3] for start in range(1, 301, 2)
        ]
        rolled_back: list[list[Operation[Any]]] = [
            [Begin(), set_to(b"r", b"v", start), Step(start), Stop(start), CleanBegin(b"r", FAMILY), *[CleanStep(cleaner)] * 2]
            for cleaner, start in enumerate(range(303, 603), start=1)
        ]
        visits = [
            # The first pass
            (2, (300, 302, 602)),
            # 128 records, and the other 22
            (1, (44, 302, 602)),
            (1, (0, 302, 602)),
            # 256 data that no record names, and the other 44
            (1, (0, 302, 346)),
            (1, (0, 302, 0)),
            # The deletion
            (1, (0, 0, 0)),
        ]
        self.assert_met(
            [
                *all_done(operation for commit in commits for operation in commit),
                (Begin(), 0),
                (Delete(301, b"r", FAMILY), 0),
                *steps(301, 3),
                *all_done(operation for session in rolled_back for operation in session),
                (CollectBegin(), 0),
                *(asked for count, left in visits for asked in self.visited(count, left)),
                (CollectStep(1, 1), 0),
                (CollectStep(1, 1), 10),
            ]
        )


class Names(Limits):
    """The files of a tablet, and the longest names and values."""

    def test_64_files(self) -> None:
        file: list[Operation[Any]] = [Step(1), Minor(1)]
        self.assert_met(
            [
                (Begin(), 0),
                *all_done(set_to(bytes([row]), b"v") for row in range(65)),
                *all_done(file * 64),
                (Step(1), 0),
                (Minor(1), 16),
                (Split(b"m"), 16),
                (Move(1, 3), 16),
                (Merge(1, 65), 14),
                (Merge(1, 64), 0),
                (Minor(1), 0),
                (Move(1, 3), 0),
                (Sweep(), b"\x8f" + (64).to_bytes(8, "big")),
            ]
        )

    def test_longest_value(self) -> None:
        read = Raw(b"r", FAMILY, Qualifier.DATA, 1, 1)
        value = b"v" * LONGEST_VALUE
        found = b"\x91\x01" + (1).to_bytes(8, "big") + LONGEST_VALUE.to_bytes(4, "big") + value
        held = b"\x84\x01\x00\x01\x00\x01"
        self.assert_met([(Begin(), 0), (set_to(b"r", value), b"\x83"), (Step(1), held), (read, found)])
        self.assert_met([(Begin(), 0), (set_to(b"r", value + b"v"), 5), (Step(1), 8), (read, b"\x91\x00")])

    def test_longest_names(self) -> None:
        """A cell is committed, flushed, split at, compacted, collected and read. Its row consists of zeros, so that the
        encoded keys are the longest too."""
        row, family = LONGEST_ROW, LONGEST_FAMILY
        self.assert_met(
            [
                (Begin(), 0),
                (Set(1, row, family, b"v"), 0),
                *steps(1, 3),
                (Minor(1), 0),
                (Split(row), 0),
                (Major(2), 0),
                (CleanBegin(row, family), 0),
                (CollectBegin(), 0),
                (CollectStep(1, 4), 0),
                (CollectStep(1, 1), 10),
                (Begin(), 0),
                (Get(3, row, family), b"\x82\x01\0\0\0\x01v"),
            ]
        )


    def test_memtables_that_are_full_of_bytes(self) -> None:
        """Sixteen values of 65,536 bytes have 1,048,576 bytes, so a tablet has two files after the 32nd."""
        table: list[tuple[list[str], int, int]] = [
            (["--flush-bytes", "1048576"], 31, 14),
            (["--flush-bytes", "1048576"], 32, 0),
            (["--flush-bytes", "2097152"], 32, 14),
            ([], 32, 14),
        ]
        for words, count, merged in table:
            sets = [set_to(bytes([row]), b"v" * LONGEST_VALUE) for row in range(count)]
            with self.subTest(words=words, count=count):
                self.assert_met([(Begin(), 0), *all_done(sets), *steps(1, count), (Merge(1, 2), merged)], *words)


def numbered(first: int, count: int) -> tuple[ScanItem, ...]:
    """Cells of consecutive rows of two bytes."""
    return tuple(ScanItem(row.to_bytes(2, "big"), FAMILY, Value(b"v")) for row in range(first, first + count))


def committed(start: int, first: int, last: int) -> list[Asked]:
    """A new session with this start commits a cell in each of these rows of two bytes."""
    rows = range(first, last + 1)
    sets = [set_to(row.to_bytes(2, "big"), b"v", start) for row in rows]
    return [(Begin(), 0), *all_done(sets), *steps(start, 2 * len(rows) + 1)]


class Scans(Limits):
    """The number of cells that a scan visits, and the length of its reply."""

    def test_1001_cells(self) -> None:
        """Four transactions commit them, one in each row."""

        def batch(after: int | None, cells: int, first: int, count: int, ends: bool) -> Asked:
            place = None if after is None else (after.to_bytes(2, "big"), FAMILY)
            upto = None if ends else ((first + count - 1).to_bytes(2, "big"), FAMILY)
            return Scan(9, after=place, cells=cells), Scanned(numbered(first, count), upto)

        self.assert_met(
            [
                *committed(1, 0, 249),
                *committed(3, 250, 499),
                *committed(5, 500, 749),
                *committed(7, 750, 1_000),
                (Begin(), 0),
                batch(None, 1_000, 0, 1_000, False),
                batch(999, 1_000, 1_000, 1, True),
                batch(None, 65, 0, 65, False),
                batch(63, 64, 64, 64, False),
                batch(998, 1_000, 999, 2, True),
            ]
        )

    def test_lengths(self) -> None:
        """An item of `a` or `b` takes 11 bytes, and with its value 4 more and the value's bytes. A scan names both cells,
        each with its value if it is sent, or ends before the second."""
        table = [
            # 61,440 bytes, and not one more
            (61_425, 0, False, "v"),
            (30_000, 31_410, False, "vv"),
            (30_000, 31_411, False, "v"),
            # A value that is too long by itself isn't sent, and the values after it are
            (61_426, 0, False, "uv"),
            (65_536, 61_414, False, "uv"),
            (61_425, 65_536, True, "uu"),
        ]
        for first, second, keys_only, said in table:
            values = b"v" * first, b"v" * second
            cells = zip((b"a", b"b"), values, said)
            items = tuple(ScanItem(row, FAMILY, Value(value) if letter == "v" else Unsent()) for row, value, letter in cells)
            upto = (b"a", FAMILY) if len(said) == 1 else None
            with self.subTest(first=first, second=second):
                self.assert_met(
                    [
                        (Begin(), 0),
                        (set_to(b"a", values[0]), 0),
                        (set_to(b"b", values[1]), 0),
                        *steps(1, 5),
                        (Begin(), 0),
                        (Scan(3, keys_only=keys_only), Scanned(items, upto)),
                    ]
                )

    def test_longest_names(self) -> None:
        """The reply has them twice: in its item, and as the cell that the scan reached. The item takes 4,077 bytes more
        than its value."""
        row, family = LONGEST_ROW, LONGEST_FAMILY
        for length, is_sent in ((57_363, True), (57_364, False)):
            value = b"v" * length
            item = ScanItem(row, family, Value(value) if is_sent else Unsent())
            with self.subTest(length=length):
                self.assert_met(
                    [
                        (Begin(), 0),
                        (Set(1, row, family, value), 0),
                        *steps(1, 3),
                        *committed(3, 1, 1),
                        (Begin(), 0),
                        (Scan(5, cells=1), Scanned((item,), (row, family))),
                        (Scan(5, after=(row, family), cells=2), Scanned(numbered(1, 1), None)),
                    ]
                )


if __name__ == "__main__":
    unittest.main()
