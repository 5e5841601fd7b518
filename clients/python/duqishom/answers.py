"""The store's answers to reads, steps, cleaners and collectors."""

from __future__ import annotations

from dataclasses import dataclass
from enum import IntEnum
from struct import Struct
from struct import error as StructError
from typing import NamedTuple

from duqishom.fields import FieldReader, MalformedReply

LENGTH = Struct(">I")

# A row, a family and a value, or None where it isn't sent.
Entry = tuple[bytes, bytes, bytes | None]


class Qualifier(IntEnum):
    """The three columns of a cell."""

    DATA = 1
    LOCK = 2
    WRITE = 3


@dataclass(frozen=True)
class Nothing:
    """Nothing was committed in the cell by the session's start, or the cell was deleted."""


@dataclass(frozen=True)
class Value:
    """The last value committed by the session's start."""

    value: bytes


@dataclass(frozen=True)
class Pending:
    """A lock at or below the session's start hides the value. `start` is the start of the lock's session."""

    start: int


Found = Nothing | Value | Pending


@dataclass(frozen=True)
class Unsent:
    """The cell has a value that isn't sent: only keys were asked for, or it is too long. A Get reads it."""


class ScanItem(NamedTuple):
    """A cell that a scan names, and what the scan found in it."""

    row: bytes
    family: bytes
    found: Value | Pending | Unsent


@dataclass(frozen=True)
class Scanned:
    """A scan's result: the cells that it names, in order, and the row and family of the last cell that it visited, or
    None if it reached the end of its range. A cell that it visited and doesn't name has no value."""

    items: tuple[ScanItem, ...]
    upto: tuple[bytes, bytes] | None


class Piece(NamedTuple):
    """A scan's result as it is sent: its cells in order, None where a value isn't sent or a lock hides it; the starts of the
    locks' sessions, by the places of their cells; and the last cell that it visited, as in `Scanned`."""

    entries: list[Entry]
    locks: dict[int, int]
    upto: tuple[bytes, bytes] | None


@dataclass(frozen=True)
class Held:
    """The session holds this cell, number `place` of `count`."""

    place: int
    count: int


@dataclass(frozen=True)
class Conflict:
    """This cell is locked, or was committed after the session's start. The session has ended, and the cells
    before this one stay locked."""

    place: int


@dataclass(frozen=True)
class Stamped:
    """All cells are held, and this is the stamp of the commit to come."""

    commit: int


@dataclass(frozen=True)
class Committed:
    """The session has committed at this stamp."""

    commit: int


@dataclass(frozen=True)
class Lost:
    """A cleaner has rolled the session back. Nothing was committed, and the session has ended."""


@dataclass(frozen=True)
class Finished:
    """This cell, number `place` of `count`, has its commit record, and its lock is gone. The session ends with the last
    cell."""

    place: int
    count: int


Progress = Held | Conflict | Stamped | Committed | Lost | Finished


@dataclass(frozen=True)
class Cleaner:
    """A cleaner: its number, and the start of the session whose lock it clears."""

    number: int
    start: int


@dataclass(frozen=True)
class Decided:
    """The fate of the lock's session is decided at its first cell."""


@dataclass(frozen=True)
class RolledForward:
    """The session has committed at this stamp: its commit record has replaced the lock."""

    commit: int


@dataclass(frozen=True)
class RolledBack:
    """The session hasn't committed, and never will: the lock is gone."""


@dataclass(frozen=True)
class Gone:
    """The lock was gone already."""


Cleaned = Decided | RolledForward | RolledBack | Gone


@dataclass(frozen=True)
class Collector:
    """A collector: its number, and its floor: the start of the oldest session that was active when it began, or, if
    none was, one more than the greatest stamp answered."""

    number: int
    floor: int


@dataclass(frozen=True)
class More:
    """All visits were made, and there is more to do."""


@dataclass(frozen=True)
class Blocked:
    """This cell has a lock below the floor, of the session with this start. Clean it, and continue."""

    row: bytes
    family: bytes
    start: int


@dataclass(frozen=True)
class Collected:
    """All versions that no session from the floor on can read are erased, and the collector is closed."""


Collection = More | Blocked | Collected


@dataclass(frozen=True)
class Version:
    """A version of a column: its stamp, and its value."""

    stamp: int
    value: bytes


def read_found(fields: FieldReader) -> Found:
    """The answer to a Get."""
    match fields.number(1):
        case 0:
            return Nothing()
        case 1:
            return Value(fields.counted())
        case 2:
            return Pending(fields.number(8))
        case tag:
            raise MalformedReply(f"no answer to a Get has the tag {tag}")


def read_scanned(fields: FieldReader) -> Scanned:
    """The answer to a Scan."""
    piece = read_piece(fields)
    items = [ScanItem(row, family, Unsent() if value is None else Value(value)) for row, family, value in piece.entries]
    for place, start in piece.locks.items():
        items[place] = items[place]._replace(found=Pending(start))
    return Scanned(tuple(items), piece.upto)


def read_piece(fields: FieldReader) -> Piece:
    """The answer to a Scan, as it is sent."""
    tag, upto = fields.number(1), None
    if tag not in (1, 2):
        raise MalformedReply(f"no answer to a Scan has the tag {tag}")
    body, at, length_at = fields.body, fields.at, LENGTH.unpack_from
    entries, locks = list[Entry](), dict[int, int]()
    try:
        if tag == 2:
            row, family, at = cell_at(body, at)
            upto = row, family
        [count] = length_at(body, at)
        at += 4
        for place in range(count):
            begin, at = at + 4, at + 4 + length_at(body, at)[0]
            row = body[begin:at]
            begin, at = at + 4, at + 4 + length_at(body, at)[0]
            family = body[begin:at]
            tag, at, value = body[at], at + 1, None
            if tag == 1:
                begin, at = at + 4, at + 4 + length_at(body, at)[0]
                value = body[begin:at]
            elif tag == 2:
                begin, at = at, at + 8
                locks[place] = int.from_bytes(body[begin:at], "big")
            elif tag != 3:
                raise MalformedReply(f"no cell of a scan has the tag {tag}")
            entries.append((row, family, value))
    except (IndexError, StructError):
        raise fields.cut() from None
    fields.skip_to(at)
    return Piece(entries, locks, upto)


def cell_at(body: bytes, at: int) -> tuple[bytes, bytes, int]:
    """The row and the family at a place, and the place behind them."""
    [row_size] = LENGTH.unpack_from(body, at)
    middle = at + 4 + row_size
    [family_size] = LENGTH.unpack_from(body, middle)
    end = middle + 4 + family_size
    return body[at + 4 : middle], body[middle + 4 : end], end


def read_progress(fields: FieldReader) -> Progress:
    """The answer to a Step."""
    match fields.number(1):
        case 1:
            return Held(fields.number(2), fields.number(2))
        case 2:
            return Conflict(fields.number(2))
        case 3:
            return Stamped(fields.number(8))
        case 4:
            return Committed(fields.number(8))
        case 5:
            return Lost()
        case 6:
            return Finished(fields.number(2), fields.number(2))
        case tag:
            raise MalformedReply(f"no answer to a Step has the tag {tag}")


def read_cleaner(fields: FieldReader) -> Cleaner | None:
    """The answer to a CleanBegin."""
    match fields.number(1):
        case 0:
            return None
        case 1:
            return Cleaner(fields.number(8), fields.number(8))
        case tag:
            raise MalformedReply(f"no answer to a CleanBegin has the tag {tag}")


def read_cleaned(fields: FieldReader) -> Cleaned:
    """The answer to a CleanStep."""
    match fields.number(1):
        case 1:
            return Decided()
        case 2:
            return RolledForward(fields.number(8))
        case 3:
            return RolledBack()
        case 4:
            return Gone()
        case tag:
            raise MalformedReply(f"no answer to a CleanStep has the tag {tag}")


def read_collection(fields: FieldReader) -> Collection:
    """The answer to a CollectStep."""
    match fields.number(1):
        case 1:
            return More()
        case 2:
            return Blocked(fields.counted(), fields.counted(), fields.number(8))
        case 3:
            return Collected()
        case tag:
            raise MalformedReply(f"no answer to a CollectStep has the tag {tag}")


def read_version(fields: FieldReader) -> Version | None:
    """The answer to a raw read."""
    match fields.number(1):
        case 0:
            return None
        case 1:
            return Version(fields.number(8), fields.counted())
        case tag:
            raise MalformedReply(f"no answer to a raw read has the tag {tag}")
