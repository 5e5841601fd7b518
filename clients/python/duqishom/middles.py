"""Where the next part of a range begins that is read from its end: guesses from the rows that were seen."""

from __future__ import annotations

from bisect import bisect_right
from collections.abc import Sequence

from duqishom.cells import LAST_FAMILY, LONGEST_ROW, Cell

# So many bytes of a row behind a common prefix make its number.
DIGITS = 16

# A part is poor if it has less than one in so many of the cells that it might have. The next one is so many times as wide, and
# after so many poor ones in a row it is the whole rest.
POOR = 8
WIDENING = 4
MOST_POOR = 6

# So many cells tell how far apart rows are.
ENOUGH = 8


class Middles:
    """Guesses how far the next part goes down from the last row that is left. A wrong guess costs a request, and nothing else.

    If rows are evenly spread, it is as far as the rows that were seen last are apart. If a part had too many cells, there may be
    none for a long way before the last row that is left: then the last row that is there is searched for, first by how much of
    the first row's prefix it has, and at last by halves.
    """

    def __init__(self) -> None:
        # The row whose prefixes are tried, and the bytes that rows have behind their common prefixes
        self._first: bytes | None = None
        self._bytes: set[int] = set()
        # Two rows, and how many cells the second one is behind the first
        self._seen: tuple[bytes, bytes, int] | None = None
        # How many times as wide as these tell the next part is, and how many poor parts came one after the other
        self._widened = 1
        self._poor = 0
        # Whether the last row is searched for, and whether rows may still be evenly spread up to it
        self.is_searching = False
        self._is_spread = True
        self._was_by_distance = False

    def guess(self, bound: Cell | None, high: bytes | None, cells: int) -> Cell | None:
        """The cell behind which a part is to begin that ends with the row `high`, or with the last row of all, so that it has so
        many cells. The bound if there is no better guess: no part begins before it."""
        below = b"" if bound is None else bound.row
        self._was_by_distance = False
        if self._first is None or self._poor >= MOST_POOR:
            self._poor = 0
            return bound
        row = self._row(self._first, below, high, cells)
        return Cell(row, LAST_FAMILY) if row is not None and below < row and is_before(row, high) else bound

    def note_full(self, rows: Sequence[bytes]) -> None:
        """Notes the rows of the first cells of a part that had too many."""
        if self._first is None:
            self._first = rows[0]
        self._learn(rows)
        self.is_searching, self._poor, self._widened = True, 0, 1

    def note_part(self, rows: Sequence[bytes], most: int, is_rest: bool) -> None:
        """Notes the rows of all cells of a part, none or some, which might have had so many, and whether it began at the bound."""
        if self.is_searching and not rows:
            self._is_spread = self._is_spread and not self._was_by_distance
        else:
            self.is_searching, self._is_spread = False, True
        self._learn(rows)
        is_poor = len(rows) * POOR < most and not is_rest
        self._poor = self._poor + 1 if is_poor else 0
        self._widened = WIDENING * self._widened if is_poor and not self.is_searching else 1

    def _learn(self, rows: Sequence[bytes]) -> None:
        """Learns from the rows of cells which bytes rows have, and how far apart they are."""
        if len(rows) >= ENOUGH:
            self._seen = rows[0], rows[-1], len(rows) - 1
            at = len(common(rows[0], rows[-1]))
            self._bytes.update(b"".join([row[at : at + DIGITS] for row in rows]))

    def _row(self, first: bytes, below: bytes, high: bytes | None, cells: int) -> bytes | None:
        """The row behind which a part is to begin. None if there is no guess."""
        row = None
        if self.is_searching:
            row = end_of(common(first, below), high)
        if row is None and (self._is_spread or not self.is_searching):
            row = self._by_distance(high, cells)
            self._was_by_distance = row is not None
        if row is None:
            row = self._half_way(below, high)
        if row is None and self.is_searching and self._seen is not None:
            # The prefix of the first row ends before the rows that were seen last
            self._first = self._seen[0]
            row = end_of(common(self._first, below), high)
        return row

    def _by_distance(self, high: bytes | None, cells: int) -> bytes | None:
        """The row so many cells before `high`, if rows are as far apart as those seen last: b"" if it is before all rows. None if
        these tell no distance."""
        if self._seen is None:
            return None
        first, last, steps = self._seen
        prefix = b"" if high is None else common(first, last, high)
        for length in range(len(prefix), -1, -1):
            numbers = self._numbers(prefix[:length], first, last)
            distance = (numbers.of(last) - numbers.of(first)) * cells * self._widened // steps
            if distance == 0:
                return None
            if (number := numbers.of(high) - distance) > 0:
                return numbers.row(number)
        return b""

    def _half_way(self, below: bytes, high: bytes | None) -> bytes | None:
        """The row half way between two. None if their numbers have none between them."""
        numbers = self._numbers(b"" if high is None else common(below, high), below)
        low, end = numbers.of(below), numbers.of(high)
        return numbers.row((low + end) // 2) if end - low > 1 else None

    def _numbers(self, prefix: bytes, *rows: bytes) -> Numbers:
        """The numbers of rows with a prefix, which these have."""
        return Numbers(prefix, self._bytes.union(*[row[len(prefix) :][:DIGITS] for row in rows]))


class Numbers:
    """Rows with a prefix as numbers. Their digits are the bytes that rows have, so that decimal numbers are evenly spread, too."""

    def __init__(self, prefix: bytes, digits: set[int]) -> None:
        self._prefix = prefix
        self._digits = bytes(sorted(digits))
        self._base = len(digits) + 1

    def of(self, row: bytes | None) -> int:
        """The number of a row, and the greatest one for None. A byte that is no digit counts as the digit before it."""
        if row is None:
            return int(self._base**DIGITS) - 1
        number = 0
        for byte in row[len(self._prefix) :][:DIGITS]:
            number = number * self._base + bisect_right(self._digits, byte)
        return number * int(self._base ** max(0, DIGITS - (len(row) - len(self._prefix))))

    def row(self, number: int) -> bytes:
        """A row that has a number, but for what follows its first 0, which stands for the end of a row."""
        places: list[int] = []
        for _ in range(DIGITS):
            number, place = divmod(number, self._base)
            places = [place, *places] if place else []
        return (self._prefix + bytes([self._digits[place - 1] for place in places]))[:LONGEST_ROW]


def common(*rows: bytes) -> bytes:
    """The longest common prefix of rows."""
    least, greatest = min(rows), max(rows)
    return least[: next((at for at, pair in enumerate(zip(least, greatest)) if pair[0] != pair[1]), len(least))]


def end_of(prefix: bytes, high: bytes | None) -> bytes | None:
    """The last row that a prefix may have, if it has bytes and this is before `high`."""
    end = prefix.ljust(LONGEST_ROW, b"\xff")
    return end if prefix and is_before(end, high) else None


def is_before(row: bytes, high: bytes | None) -> bool:
    """Whether a row is before another one, or before the end of all."""
    return high is None or row < high
