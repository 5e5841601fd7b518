"""Commit and Read: a whole transaction, or reads of several cells, in one request."""

from __future__ import annotations

from collections.abc import Iterable, Mapping
from dataclasses import dataclass
from typing import ClassVar

from duqishom.answers import Found, Nothing, Pending, Unsent, Value
from duqishom.cells import Cell
from duqishom.fields import FieldReader, MalformedReply, counted_argument, number

# The start that names no session: the request begins one.
NEW = 0

# The most cells of one Read.
MOST_READ = 256

# The bytes of a Commit's body before its writes, and of a write beside its row, its family and its value.
COMMIT_HEAD, WRITE_HEAD, VALUE_HEAD = 13, 9, 4


@dataclass(frozen=True)
class CommitDone:
    """The session began at `start`, and has committed at this stamp. It has ended."""

    start: int
    commit: int


@dataclass(frozen=True)
class CommitConflict:
    """The session began at `start`. The cell at this place of its writes, counted from 1, is locked, or was committed
    since. The session has ended and holds nothing."""

    start: int
    place: int


@dataclass(frozen=True)
class ReadDone:
    """The session's start, and what each cell holds as of it, in the order of the request. Where a value would make the
    reply too long, it is Unsent."""

    start: int
    found: tuple[Found | Unsent, ...]


@dataclass(frozen=True)
class Commit:
    """Puts writes behind those that a session has, and commits it at once. Each write is a row, a family, and a value,
    or None to delete the cell. The start 0 begins a session."""

    start: int = NEW
    writes: tuple[tuple[bytes, bytes, bytes | None], ...] = ()
    code: ClassVar[int] = 0x32

    def fields(self) -> bytes:
        return b"".join([number(8, self.start), number(4, len(self.writes)), *map(write_fields, self.writes)])

    def read(self, fields: FieldReader) -> CommitDone | CommitConflict:
        match fields.number(1):
            case 1:
                return CommitDone(fields.number(8), fields.number(8))
            case 2:
                return CommitConflict(fields.number(8), fields.number(2))
            case tag:
                raise MalformedReply(f"no answer to a Commit has the tag {tag}")


@dataclass(frozen=True)
class Read:
    """Reads cells, 1 to 256, as of a session's start. The session then stays open, or ends. The start 0 begins one."""

    start: int = NEW
    stays_open: bool = False
    cells: tuple[tuple[bytes, bytes], ...] = ()
    code: ClassVar[int] = 0x33

    def fields(self) -> bytes:
        cells = [counted_argument("row", row) + counted_argument("family", family) for row, family in self.cells]
        return b"".join([number(8, self.start), number(1, self.stays_open), number(4, len(cells)), *cells])

    def read(self, fields: FieldReader) -> ReadDone:
        start, count = fields.number(8), fields.number(4)
        if count != len(self.cells):
            raise MalformedReply(f"a Read of {len(self.cells)} cells has an answer for {count}")
        return ReadDone(start, tuple([read_cell(fields) for _ in range(count)]))


def write_fields(write: tuple[bytes, bytes, bytes | None]) -> bytes:
    """The fields of a write."""
    row, family, value = write
    change = b"\0" if value is None else b"\1" + counted_argument("value", value)
    return counted_argument("row", row) + counted_argument("family", family) + change


def read_cell(fields: FieldReader) -> Found | Unsent:
    """What a Read has found in a cell."""
    match fields.number(1):
        case 0:
            return Nothing()
        case 1:
            return Value(fields.counted())
        case 2:
            return Pending(fields.number(8))
        case 3:
            return Unsent()
        case tag:
            raise MalformedReply(f"no cell of a Read has the tag {tag}")


def too_many_for_one(writes: Mapping[Cell, bytes | None], longest: int) -> int:
    """How many of the first writes have to go before a Commit, so that its body is no longer than `longest` bytes."""
    left, room = len(writes), longest - COMMIT_HEAD
    for (row, family), value in reversed(writes.items()):
        room -= WRITE_HEAD + len(row) + len(family) + (0 if value is None else VALUE_HEAD + len(value))
        if room < 0:
            break
        left -= 1
    return left


class Support:
    """What is behind a connection: whether the program there has Commit and Read, which it is taken to, until it answers
    BadRequest; and whether no other connection has this one's sessions, which isn't known until a gateway was asked."""

    def __init__(self, is_there: bool = True, is_alone: bool | None = None) -> None:
        self.is_there = is_there
        self.is_alone = is_alone


def pieces_of(cells: Iterable[tuple[bytes, bytes]]) -> list[tuple[tuple[bytes, bytes], ...]]:
    """Cells in as few pieces as Reads can ask for."""
    every = tuple(cells)
    return [every[at : at + MOST_READ] for at in range(0, len(every), MOST_READ)]
