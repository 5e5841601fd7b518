"""Cells, the limits of their names, and ranges of cells."""

from __future__ import annotations

import re
from dataclasses import dataclass, replace
from typing import NamedTuple

from duqishom.fields import bytes_argument
from duqishom.operations import named
from duqishom.refusals import BadColumn, BadRow
from duqishom.texts import text_of

LONGEST_ROW = 4000
FAMILY = re.compile(rb"[!-9;-~]{1,64}")

# The greatest family: none sorts after it.
LAST_FAMILY = b"~" * 64


class Cell(NamedTuple):
    """A row and a family. Cells are ordered by row, and then by family."""

    row: bytes
    family: bytes

    def __str__(self) -> str:
        return f"{text_of(self.row)} {text_of(self.family)}"


@dataclass(frozen=True)
class CellRange:
    """The cells after a cell, up to and including a row, of one family or of all."""

    after: Cell | None
    end: bytes | None
    family: bytes | None

    def has(self, cell: Cell) -> bool:
        """Whether a cell is in the range."""
        is_before_end = self.end is None or cell.row <= self.end
        is_of_family = self.family is None or cell.family == self.family
        return is_before_end and is_of_family and (self.after is None or self.after < cell)

    def behind(self, cell: Cell) -> CellRange:
        """The rest of the range after a cell."""
        return replace(self, after=cell)

    def near(self) -> tuple[Cell | None, bytes | None]:
        """The cell and the row of a range with shorter bounds that has little more: rows that begin as the greatest one before a
        range that begins at a row, with some bytes FF, and the first row behind a prefix."""
        after, end = self.after, self.end
        if after is not None and (head := head_of_filled(after.row)) is not None:
            after = Cell(head + SOME_FILL, after.family)
        if end is not None and (head := head_of_filled(end)) is not None:
            end = head[:-1] + bytes([head[-1] + 1]) if head else None
        return after, end


# Few rows have so many bytes FF after a prefix.
SOME_FILL = b"\xff" * 8


def head_of_filled(row: bytes) -> bytes | None:
    """What a row of the greatest length begins with, if all behind it are bytes FF, of which there are some; None if it isn't
    such a row."""
    if len(row) < LONGEST_ROW or not row.endswith(SOME_FILL):
        return None
    head = row[: row.index(SOME_FILL)]
    return head if row == head.ljust(LONGEST_ROW, b"\xff") else None


# No cell comes behind this one.
LAST_CELL = Cell(b"\xff" * LONGEST_ROW, LAST_FAMILY)


def range_of(
    start: bytes | None,
    end: bytes | None,
    prefix: bytes | None = None,
    family: bytes | None = None,
    after: bytes | None = None,
    before: bytes | None = None,
) -> CellRange:
    """The range from a row up to another one, both included, between two others, neither included, of the rows that begin with a
    prefix, and of a family; what isn't given bounds nothing. A row `start` and a prefix may have no bytes.

    BadRow and BadColumn, as the store would refuse it.
    """
    start, end = row_argument("start", start, 0), row_argument("end", end, 1)
    prefix = row_argument("prefix", prefix, 0)
    after, before = row_argument("after", after, 1), row_argument("before", before, 1)
    if family is not None and not FAMILY.fullmatch(family := bytes_argument("family", family)):
        raise BadColumn(named("family", family))
    if prefix is not None:
        last = prefix.ljust(LONGEST_ROW, b"\xff")
        start = prefix if start is None else max(start, prefix)
        end = last if end is None else min(end, last)
    first = None if start is None else last_before(start)
    if after is not None:
        first = max(first or Cell(b"", b""), Cell(after, LAST_FAMILY))
    if before is not None and (end is None or before <= end):
        last_cell = last_before(before)
        return CellRange(LAST_CELL, None, family) if last_cell is None else CellRange(first, last_cell.row, family)
    return CellRange(first, end, family)


def row_argument(name: str, row: bytes | None, shortest: int) -> bytes | None:
    """A row given for this argument, if any. BadRow if it is shorter than `shortest`, or too long."""
    if row is None:
        return None
    if not shortest <= len(row := bytes_argument(name, row)) <= LONGEST_ROW:
        raise BadRow(named(name, row))
    return row


def last_before(row: bytes) -> Cell | None:
    """The greatest cell that sorts before the cells of a row, or None if there can't be any."""
    if row == b"" or row == b"\0":
        return None
    shorter, last = row[:-1], row[-1]
    return Cell(shorter if last == 0 else (shorter + bytes([last - 1])).ljust(LONGEST_ROW, b"\xff"), LAST_FAMILY)
