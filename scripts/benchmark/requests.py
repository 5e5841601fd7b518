"""Requests of tabletd, each with the expected reply."""

from __future__ import annotations

import struct
from collections.abc import Iterator, Sequence

# A request and its reply, both without the lengths of their frames.
Exchange = tuple[bytes, bytes]

# A row and the value set in it.
Write = tuple[bytes, bytes]

# The maximum number of cells that a scan visits, and the maximum bytes of its items.
MOST_CELLS, MOST_BYTES = 1000, 61_440

MINOR: Exchange = b"\x0a\0\0\0\x01", b"\x8a"
MAJOR: Exchange = b"\x0c\0\0\0\x01", b"\x8c"
CHECKPOINT: Exchange = b"\x12", b"\x92"


def field(text: bytes) -> bytes:
    """A field of bytes, or a frame."""
    return struct.pack(">I", len(text)) + text


def stamp(number: int) -> bytes:
    """A stamp, or the number of a cleaner or a collector."""
    return struct.pack(">Q", number)


def cell(row: bytes) -> bytes:
    """A row, and the family of all cells here."""
    return field(row) + field(b"c")


def begin(start: int) -> Exchange:
    """Begins a session."""
    return b"\x01", b"\x81" + stamp(start)


def put(start: int, write: Write) -> Exchange:
    """Buffers a write of a session."""
    row, value = write
    return b"\x03" + stamp(start) + cell(row) + field(value), b"\x83"


def hold(start: int, place: int, count: int) -> Exchange:
    """A step that holds a cell."""
    return b"\x04" + stamp(start), b"\x84\x01" + struct.pack(">HH", place, count)


def draw(start: int, commit: int) -> Exchange:
    """A step that draws the stamp of the commit."""
    return b"\x04" + stamp(start), b"\x84\x03" + stamp(commit)


def commit_first(start: int, commit: int) -> Exchange:
    """A step that commits, at the first cell."""
    return b"\x04" + stamp(start), b"\x84\x04" + stamp(commit)


def finish(start: int, place: int, count: int) -> Exchange:
    """A step that finishes a further cell."""
    return b"\x04" + stamp(start), b"\x84\x06" + struct.pack(">HH", place, count)


def stop(start: int) -> Exchange:
    """Ends a session."""
    return b"\x05" + stamp(start), b"\x85"


def get(start: int, row: bytes, value: bytes | None) -> Exchange:
    """Reads a cell, which has this value or no value."""
    return b"\x02" + stamp(start) + cell(row), b"\x82\0" if value is None else b"\x82\x01" + field(value)


def commit(named: int, writes: Sequence[Write], start: int, stamped: int) -> Exchange:
    """Commits writes in the session that is named, or in a new one if that is 0."""
    written = b"".join(cell(row) + b"\x01" + field(value) for row, value in writes)
    request = b"\x32" + stamp(named) + struct.pack(">I", len(writes)) + written
    return request, b"\xb2\x01" + stamp(start) + stamp(stamped)


def read(start: int, found: Sequence[Write]) -> Exchange:
    """Reads cells in a new session, which stays open. They have these values."""
    request = b"\x33" + stamp(0) + b"\x01" + struct.pack(">I", len(found)) + b"".join(cell(row) for row, _ in found)
    told = b"".join(b"\x01" + field(value) for _, value in found)
    return request, b"\xb3" + stamp(start) + struct.pack(">I", len(found)) + told


def item(write: Write) -> bytes:
    """A scan's item of a cell with a value."""
    row, value = write
    return cell(row) + b"\x01" + field(value)


def scan(start: int, after: bytes | None, found: Sequence[Write], is_last: bool) -> Exchange:
    """Reads the cells after a row's cell, or from the first one on. It finds these cells, and reaches the end if
    `is_last`."""
    behind = b"\0" if after is None else b"\x01" + cell(after)
    reach = b"\x01" if is_last else b"\x02" + cell(found[-1][0])
    request = b"\x31" + stamp(start) + b"\0" + behind + b"\0\0" + struct.pack(">I", MOST_CELLS)
    return request, b"\xb1" + reach + struct.pack(">I", len(found)) + b"".join(map(item, found))


def scans(start: int, writes: Sequence[Write]) -> Iterator[Exchange]:
    """Reads all cells, which are these in order, with as few scans as possible."""
    at, after, is_last = 0, None, False
    while not is_last:
        found = batch(writes, at)
        at += len(found)
        is_last = at == len(writes) and len(found) < MOST_CELLS
        yield scan(start, after, found, is_last)
        after = found[-1][0] if found else after


def batch(writes: Sequence[Write], at: int) -> list[Write]:
    """The cells that one scan finds from a position on."""
    found: list[Write] = []
    size = 0
    for write in writes[at : at + MOST_CELLS]:
        size += len(item(write))
        if size > MOST_BYTES:
            break
        found.append(write)
    return found


def split(row: bytes, tablet: int) -> Exchange:
    """Splits the tablet that holds the row; the part that ends with the row gets this number."""
    return b"\x0d" + field(row), b"\x8d" + struct.pack(">I", tablet)


def begin_clean(cleaner: int, row: bytes, start: int) -> Exchange:
    """Opens a cleaner at a lock of the session with this start."""
    return b"\x06" + cell(row), b"\x86\x01" + stamp(cleaner) + stamp(start)


def decide(cleaner: int) -> Exchange:
    """A cleaner's first step."""
    return b"\x07" + stamp(cleaner), b"\x87\x01"


def roll_forward(cleaner: int, commit: int) -> Exchange:
    """A cleaner's second step, if the session has committed."""
    return b"\x07" + stamp(cleaner), b"\x87\x02" + stamp(commit)


def begin_collect(collector: int, floor: int) -> Exchange:
    """Opens a collector."""
    return b"\x08", b"\x88" + stamp(collector) + stamp(floor)


def visit(collector: int, is_last: bool) -> Exchange:
    """A collector's step of 1,000 visits, or of fewer if it is the last one."""
    return b"\x09" + stamp(collector) + struct.pack(">I", 1000), b"\x89\x03" if is_last else b"\x89\x01"


def stamps_of(number: int) -> tuple[int, int]:
    """The start and the commit of a transaction that begins when all before it have ended."""
    return 2 * number + 1, 2 * number + 2


def committed(number: int, writes: Sequence[Write]) -> Iterator[Exchange]:
    """Such a transaction, up to its commit."""
    start, commit = stamps_of(number)
    count = len(writes)
    yield begin(start)
    yield from (put(start, write) for write in writes)
    yield from (hold(start, place, count) for place in range(1, count + 1))
    yield draw(start, commit)
    yield commit_first(start, commit)


def transaction(number: int, writes: Sequence[Write]) -> Iterator[Exchange]:
    """Such a transaction, up to its end."""
    count = len(writes)
    yield from committed(number, writes)
    yield from (finish(stamps_of(number)[0], place, count) for place in range(2, count + 1))
