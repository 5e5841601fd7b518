"""The cells of a range in descending order, by forward scans of its parts."""

from __future__ import annotations

from dataclasses import dataclass, replace
from typing import TYPE_CHECKING

from duqishom.answers import Entry
from duqishom.cells import Cell, CellRange
from duqishom.middles import Middles
from duqishom.operations import MOST_CELLS
from duqishom.scans import GROWTH, MOST_UNSENT, RangeScan, checked_limit

if TYPE_CHECKING:
    from duqishom.plans import Plan
    from duqishom.sessions import Session

# A part has at most so many cells, and in a scan of few cells first so many: one batch tells whether there are more.
FIRST_MOST = 100
MOST_OF_PART = MOST_CELLS - 1

# The items of a reply have so many bytes at most, and each has so many besides those of its row, its family and its value.
BYTES_OF_REPLY = 61_440
BYTES_OF_ITEM = 13


@dataclass(frozen=True)
class Part:
    """All cells of a range behind one up to the last of these, and whether their values were read, if they are to be."""

    after: Cell | None
    entries: list[Entry]
    is_read: bool


class ReverseScan:
    """The cells of a range that have a value, the last one first, piece by piece.

    The last cells that are left are asked for, from a guessed row on. If these are too many for one batch, those that came are kept
    until the scan comes to them, and the others are asked for from another row on. So whatever comes is given, however wrong the
    guesses are. While a row is searched for, names alone are sent. Their values are read by one more scan when they are given.
    """

    def __init__(
        self,
        session: Session,
        asked: CellRange,
        keys: bool,
        writes: dict[Cell, bytes | None],
        limit: int | None,
        cells: int | None = None,
    ) -> None:
        """The writes, all in the range, are shown in place of what is there. With a limit, so many cells are given. So many values
        are read first, or else as many as the limit."""
        self._limit = limit = checked_limit(limit)
        self._session = session
        self._asked = asked
        # The parts that are known and left, in order, and what is left behind the last one of them
        self._known: list[Part] = []
        self._unknown: CellRange | None = None if limit == 0 else asked
        self._keys = keys
        self._writes = writes
        few = cells or limit
        self._most = min(MOST_OF_PART, max(FIRST_MOST, 2 * few)) if few else MOST_OF_PART
        # So many values are read next, if so many fit into a reply
        self._values = few or GROWTH * FIRST_MOST
        self._fitting = MOST_CELLS
        self._middles = Middles()

    def piece(self) -> Plan[list[Entry]]:
        """The next cells: none at the end of the range."""
        while self._unknown is not None:
            yield from self._look_at(self._unknown)
        if not self._known:
            return []
        part = self._known[-1]
        asked, entries = self._take(part)
        if not part.is_read:
            entries = yield from self._values_of(asked, len(entries))
        return entries[::-1]

    def _look_at(self, unknown: CellRange) -> Plan[None]:
        """Asks for the last cells of what isn't known."""
        keys = self._keys or self._middles.is_searching
        most = self._most if keys else min(self._most, self._fitting)
        after = self._middles.guess(unknown.after, unknown.end, most * 3 // 4)
        asked = replace(unknown, after=after)
        scan = RangeScan(self._session, asked, keys, self._writes_in(asked), None, most + 1)
        entries = yield from scan.piece()
        rows = [row for row, _, _ in entries]
        if entries:
            self._known.append(Part(after, entries, self._keys or not keys))
        if entries and not keys:
            self._note_values(entries)
        if scan.is_done:
            self._middles.note_part(rows, most, after == unknown.after)
            self._unknown = None if entries else self._rest(after)
        else:
            self._middles.note_full(rows)
            self._unknown = asked.behind(cell_of(entries[-1]))
        self._most = min(MOST_OF_PART, GROWTH * self._most)

    def _rest(self, end: Cell | None) -> CellRange | None:
        """What is left behind the last known part, up to the end of this cell's row: None if nothing is."""
        after = cell_of(self._known[-1].entries[-1]) if self._known else self._asked.after
        return None if end is None or (after is not None and end <= after) else CellRange(after, end.row, self._asked.family)

    def _take(self, part: Part) -> tuple[CellRange, list[Entry]]:
        """Takes the last cells of the last known part, and gives a range that begins with them, too."""
        count = len(part.entries)
        if not part.is_read:
            count = min(count, self._values, self._fitting)
        if self._limit is not None:
            count = min(count, self._limit)
            self._limit -= count
        taken = part.entries[-count:]
        del part.entries[-count:]
        after = cell_of(part.entries[-1]) if part.entries else part.after
        if not part.entries:
            self._known.pop()
            self._unknown = self._rest(part.after)
        if self._limit == 0:
            self._known, self._unknown = [], None
        return CellRange(after, taken[-1][0], self._asked.family), taken

    def _values_of(self, asked: CellRange, count: int) -> Plan[list[Entry]]:
        """The first so many cells of a range, with their values."""
        scan = RangeScan(self._session, asked, False, self._writes_in(asked), count)
        entries: list[Entry] = []
        while piece := (yield from scan.piece()):
            entries += piece
        self._note_values(entries)
        self._values = min(MOST_CELLS, GROWTH * count)
        return entries

    def _note_values(self, entries: list[Entry]) -> None:
        """Notes how many cells like these fit into a reply."""
        size = sum(len(row) + len(family) + len(value or b"") + BYTES_OF_ITEM for row, family, value in entries)
        self._fitting = min(MOST_CELLS, max(MOST_UNSENT, BYTES_OF_REPLY * len(entries) // size))

    def _writes_in(self, asked: CellRange) -> dict[Cell, bytes | None]:
        """The writes in a range."""
        return {cell: value for cell, value in self._writes.items() if asked.has(cell)}


def cell_of(entry: Entry) -> Cell:
    """The cell of an entry."""
    return Cell(*entry[:2])
