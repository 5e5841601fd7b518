"""What a server's messages to its bridge did and saw, as a recording has it: the file `messages` beside the server's
requests and replies. `docs/CLUSTER.md` has its frames."""

from __future__ import annotations

import mmap
import os
from collections.abc import Iterator
from dataclasses import dataclass, field
from enum import Enum
from pathlib import Path
from struct import Struct

MESSAGES = "messages"

# The frames, by their first byte.
FETCH, SWAP, PAGE, DRAW, PUBLISH, BEGIN, OTHER, TABLETS, SWAPPED, FAILED = 1, 2, 3, 4, 5, 6, 7, 8, 0x82, 0xFF

LENGTH, NUMBER = Struct(">I"), Struct(">Q")

# The objects of stamps and floors. Rows have others.
STAMPS, FLOORS = b"stamps", b"floors"

Bytes = bytes | mmap.mmap


class OutOfForm(Exception):
    """A recording has bytes that nobody writes."""


def mapped(path: Path) -> Bytes:
    """The bytes of a file, which stay where they are. OSError if it can't be read."""
    with path.open("rb") as file:
        if os.fstat(file.fileno()).st_size == 0:
            return b""
        return mmap.mmap(file.fileno(), 0, access=mmap.ACCESS_READ)


def frames_of(data: Bytes) -> Iterator[int]:
    """The places of the whole frames, in their order. A kill may leave half a frame behind them."""
    at, end = 0, len(data)
    while at + 4 <= end:
        behind = at + 4 + LENGTH.unpack_from(data, at)[0]
        if behind > end:
            return
        yield at
        at = behind


def body_at(data: Bytes, at: int) -> bytes:
    """The body of the frame at a place."""
    return data[at + 4 : at + 4 + LENGTH.unpack_from(data, at)[0]]


def tablets_in(data: Bytes) -> Iterator[bytes]:
    """The tablets of the cluster, as the bridge had them when it first used them and whenever they had changed."""
    for at in frames_of(data):
        if data[at + 4 : at + 5] == bytes((TABLETS,)):
            yield body_at(data, at)


class Fields:
    """The fields of a body, from the front. OutOfForm where it is too short."""

    def __init__(self, body: bytes, at: int = 1) -> None:
        self._body, self._at = body, at

    def number(self, width: int = 8) -> int:
        begin, self._at = self._at, self._at + width
        if self._at > len(self._body):
            raise OutOfForm("a frame is too short")
        return int.from_bytes(self._body[begin : self._at], "big")

    def field(self) -> bytes:
        length = self.number(4)
        begin, self._at = self._at, self._at + length
        if self._at > len(self._body):
            raise OutOfForm("a frame is too short")
        return self._body[begin : self._at]


class Kind(Enum):
    """What a server waited for: rows, a stamp, the least floor; or that another changed a row."""

    ROWS = "rows"
    STAMP = "a stamp"
    FLOOR = "floors"
    OTHER = "another's change"


@dataclass(slots=True)
class Seen:
    """What a server asked for at a time: the messages of one attempt at its rows, or a stamp, or floors.

    `at` is the place of the frame that decides where in the order it stands, `object` and `version` are that place: a
    change made this version of the object, a read saw it. `guard` is that of the row with the prefix, before a change.
    `written` is the version of the floors that a floor made, if it did.
    """

    kind: Kind
    at: int = -1
    object: bytes = b""
    version: int = 0
    prefix: bytes = b""
    guard: int = 0
    changes: bool = False
    has_edits: bool = False
    is_raced: bool = False
    has_failed: bool = False
    is_unknown: bool = False
    written: int = 0
    pages: list[int] = field(default_factory=list)


def page_from(data: Bytes, at: int) -> bytes:
    """The text from which a page began."""
    return Fields(body_at(data, at)).field()


def edits_at(data: Bytes, at: int) -> list[tuple[bool, bytes]]:
    """The edits of a Swap: whether each puts a value, and the text of its key."""
    fields = Fields(body_at(data, at))
    fields.field()
    fields.number()
    return [(fields.number(1) == 1, fields.field()) for _ in range(fields.number(4))]


def _take_rows(seen: Seen, data: Bytes, at: int, code: int, fields: Fields) -> None:
    """Adds a message to an attempt at rows."""
    if code == FETCH:
        seen.at, seen.prefix, seen.guard = at, fields.field(), fields.number()
        seen.object, seen.version = fields.field(), fields.number()
    elif code == SWAP:
        seen.at, seen.prefix, seen.guard, seen.is_unknown = at, fields.field(), fields.number(), True
        seen.has_edits = fields.number(4) > 0
    elif code == SWAPPED:
        seen.is_unknown, seen.is_raced = False, fields.number(1) == 1
        if not seen.is_raced:
            seen.changes, seen.object, seen.version = True, fields.field(), fields.number()
    else:
        begins = fields.field()
        if seen.pages and page_from(data, seen.pages[-1]) == begins:
            seen.pages.pop()
        seen.pages.append(at)
        seen.at, seen.prefix = at, b""


def seen_in(data: Bytes) -> Iterator[Seen]:
    """All that a server asked for, in its order. OutOfForm if the file isn't one of messages."""
    attempt: Seen | None = None
    for at in frames_of(data):
        body = body_at(data, at)
        if not body:
            raise OutOfForm("a frame is empty")
        code, fields = body[0], Fields(body)
        if code == TABLETS:
            continue
        failed = body[1] if code == FAILED and len(body) > 1 else None
        if code in (FETCH, SWAP, SWAPPED, PAGE):
            attempt = attempt or Seen(Kind.ROWS)
            _take_rows(attempt, data, at, code, fields)
            continue
        if failed in (FETCH, SWAP, PAGE):
            attempt = attempt or Seen(Kind.ROWS, at)
            attempt.has_failed, attempt.is_unknown = True, False
            continue
        if code != OTHER and attempt is not None:
            yield attempt
            attempt = None
        if code == DRAW:
            yield Seen(Kind.STAMP, at, STAMPS, fields.number(), changes=True)
        elif code == PUBLISH:
            fields.number()
            fields.number()
            written = fields.number()
            yield Seen(Kind.FLOOR, at, FLOORS, fields.number(), written=written)
        elif code == OTHER:
            prefix, guard = fields.field(), fields.number()
            yield Seen(Kind.OTHER, at, fields.field(), fields.number(), prefix, guard, changes=True)
        elif failed in (DRAW, PUBLISH):
            yield Seen(Kind.STAMP if failed == DRAW else Kind.FLOOR, at, has_failed=True)
        elif code != BEGIN:
            raise OutOfForm(f"a frame begins with {code:#x}")
    if attempt is not None:
        yield attempt


def objects_of_page(data: Bytes, at: int) -> list[tuple[bytes, int]]:
    """The objects that a page read, with their versions."""
    fields = Fields(body_at(data, at))
    fields.field()
    return [(fields.field(), fields.number()) for _ in range(fields.number(4))]
