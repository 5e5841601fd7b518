"""The cells of a range, in as few batches as they need."""

from __future__ import annotations

from collections.abc import AsyncGenerator, AsyncIterator, Callable, Iterable, Iterator
from contextlib import aclosing
from itertools import groupby, islice
from operator import itemgetter
from typing import TYPE_CHECKING

from duqishom.answers import Entry, Piece
from duqishom.cells import Cell, CellRange
from duqishom.operations import MOST_CELLS, Pieces

if TYPE_CHECKING:
    from duqishom.plans import Plan
    from duqishom.sessions import Session

# So many values that a scan didn't send are read in one trip.
MOST_UNSENT = 15

# A batch that had too few cells is followed by one of so many times as many.
GROWTH = 4

# So many cells are read at once, in a session that ends with the trip. With Begin and Stop they are one turn at a gateway; a
# scan of more waits there until the program is idle.
FEW_CELLS = 60

# The first batch for some rows has so many cells for each, and one more, which shows that the last row has ended.
CELLS_OF_ROW = 8

# A row, and its values by their families.
Row = tuple[bytes, dict[bytes, bytes]]


class RangeScan:
    """The cells of a range that have a value, piece by piece."""

    def __init__(
        self,
        session: Session,
        asked: CellRange,
        keys: bool,
        writes: dict[Cell, bytes | None],
        limit: int | None,
        cells: int | None = None,
    ) -> None:
        """The writes, all in the range, are shown in place of what is there. With a limit, so many cells are given. The first
        batch has so many cells, or else as many as the limit."""
        limit = checked_limit(limit)
        self._session = session
        self._asked: CellRange | None = None if limit == 0 else asked
        self._keys = keys
        self._writes = writes
        self._limit = limit
        self._cells = min(MOST_CELLS, cells or limit or MOST_CELLS)
        self._found: list[Entry] = []
        self._is_near = True

    def piece(self) -> Plan[list[Entry]]:
        """The next cells: none at the end of the range."""
        while not self._found and self._asked is not None:
            yield from self._look_on(self._asked)
        if self._keys or not self._found or self._found[0][2] is not None:
            return self._take_sent()
        return (yield from self._take_unsent())

    @property
    def is_done(self) -> bool:
        """Whether all cells are given, as far as that is known."""
        return self._asked is None and not self._found

    def _look_on(self, asked: CellRange) -> Plan[None]:
        """Asks for the next batch. If it had too few cells, the next one is larger."""
        answer = yield from self._session.ask(request_of(asked, self._keys, self._cells, self._is_near))
        piece = piece_within(asked, answer)
        if piece is None:
            self._is_near = False
            return
        self._found = (yield from self._settled(piece)) if piece.locks or self._writes else piece.entries
        self._asked = None if piece.upto is None else asked.behind(Cell(*piece.upto))
        self._cells = min(MOST_CELLS, GROWTH * self._cells)
        if self._limit is not None:
            del self._found[self._limit :]
            self._limit -= len(self._found)
            self._asked = self._asked if self._limit else None

    def _settled(self, piece: Piece) -> Plan[list[Entry]]:
        """The cells of a batch as the transaction sees them, behind their locks, which are waited for together. The writes that
        the batch has passed are taken from those that are left."""
        cells = {Cell(row, family): value for row, family, value in piece.entries}
        passed = [cell for cell in self._writes if piece.upto is None or cell <= piece.upto]
        written = {cell: self._writes.pop(cell) for cell in passed}
        locks = {Cell(*piece.entries[place][:2]): start for place, start in piece.locks.items()}
        read = yield from self._session.read([], {cell: start for cell, start in locks.items() if cell not in written})
        for cell, value in (read | written).items():
            if value is None:
                cells.pop(cell, None)
            else:
                cells[cell] = None if self._keys else value
        return [(*cell, cells[cell]) for cell in (sorted(cells) if written else cells)]

    def _take_sent(self) -> list[Entry]:
        """The cells up to the first one whose value wasn't sent; all if keys alone are asked for."""
        found = self._found
        unsent = () if self._keys else (at for at, (_, _, value) in enumerate(found) if value is None)
        end = next(iter(unsent), len(found))
        self._found = found[end:]
        return found[:end]

    def _take_unsent(self) -> Plan[list[Entry]]:
        """The next cells whose values weren't sent, and are read now."""
        cells: list[Cell] = []
        for row, family, value in self._found[:MOST_UNSENT]:
            if value is not None:
                break
            cells.append(Cell(row, family))
        self._found = self._found[len(cells) :]
        values = yield from self._session.get_many(cells, own=False)
        return [(*cell, value) for cell, value in zip(cells, values)]


def request_of(asked: CellRange, keys: bool, cells: int, is_near: bool = True) -> Callable[[int], Pieces]:
    """The request for a batch of a range by the session's start, with shorter bounds near those of the range, or with these."""
    after, end = asked.near() if is_near else (asked.after, asked.end)
    return lambda start: Pieces(start, after, end, asked.family, keys, cells)


def piece_within(asked: CellRange, piece: Piece) -> Piece | None:
    """What a batch by bounds near those of a range has of it: None if it begins before it, so that it may have nothing of it."""
    entries, locks, upto = piece
    first = entries[0][:2] if entries else upto
    if asked.after is not None and first is not None and first <= asked.after:
        return None
    end = asked.end
    if end is None:
        return piece
    if entries and entries[-1][0] > end:
        entries = [entry for entry in entries if entry[0] <= end]
        locks = {place: start for place, start in locks.items() if place < len(entries)}
    return Piece(entries, locks, None if upto is None or upto[0] > end else upto)


def checked_limit(limit: int | None) -> int | None:
    """A limit. ValueError if it is less than 0."""
    if limit is not None and limit < 0:
        raise ValueError(f"limit must be 0 or more, and not {limit}")
    return limit


def cells_of(rows: int | None) -> int | None:
    """The cells of the first batch for so many rows: None for all."""
    return CELLS_OF_ROW * rows + 1 if rows else rows


def first_cells(limit: int, piece: Piece) -> list[Entry] | None:
    """The first so many cells, if a batch has them, or is the last one."""
    return piece.entries[:limit] if piece.upto is None or len(piece.entries) >= limit else None


def first_rows(limit: int, piece: Piece) -> list[Row] | None:
    """The first so many rows, if a batch has them to their ends, or is the last one."""
    rows = list(rows_of(piece.entries, limit + 1))
    return rows[:limit] if piece.upto is None or len(rows) > limit else None


def rows_of(entries: Iterable[Entry], limit: int | None, reverse: bool = False) -> Iterator[Row]:
    """The first so many rows in which these cells are, which may come in descending order."""
    for row, cells in islice(groupby(entries, itemgetter(0)), limit):
        yield row, values_of_row(cells, reverse)


async def cells_of_async(entries: AsyncGenerator[Entry, None], limit: int) -> AsyncIterator[Entry]:
    """The first so many of these cells."""
    async with aclosing(entries):
        for _ in range(limit):
            entry = await anext(entries, None)
            if entry is None:
                return
            yield entry


async def rows_of_async(
    entries: AsyncGenerator[Entry, None], limit: int | None, reverse: bool = False
) -> AsyncIterator[Row]:
    """The first so many rows in which these cells are, which may come in descending order."""
    cells: list[Entry] = []
    async with aclosing(entries):
        while limit != 0:
            entry = await anext(entries, None)
            if cells and (entry is None or entry[0] != cells[0][0]):
                yield cells[0][0], values_of_row(cells, reverse)
                cells, limit = [], None if limit is None else limit - 1
            if entry is None:
                return
            cells.append(entry)


def values_of_row(entries: Iterable[Entry], reverse: bool = False) -> dict[bytes, bytes]:
    """The values of a row's cells, by their families. The cells may come in descending order; the families don't."""
    values = {family: value for _, family, value in entries if value is not None}
    return dict(reversed(values.items())) if reverse else values
