"""Reads and writes in transactions of their own. With a session's start as first argument they are the protocol's
requests."""

from __future__ import annotations

from collections.abc import Callable, Iterable, Iterator, Mapping, Sequence
from functools import partial
from itertools import islice
from typing import Any, Literal, TypeVar, overload

from duqishom import answers
from duqishom.answers import Entry, Piece, Scanned
from duqishom.cells import CellRange, range_of
from duqishom.operations import MOST_CELLS, Delete, Get, Operation, Scan, Set
from duqishom.scans import FEW_CELLS, GROWTH, Row, cells_of, checked_limit, first_cells, first_rows, rows_of, values_of_row
from duqishom.transactions import Snapshot, Transaction

Answer = TypeVar("Answer")
Found = TypeVar("Found")
Result = TypeVar("Result")


def is_of_session(given: Sequence[object], named: Mapping[str, object]) -> bool:
    """Whether arguments begin with a session's start."""
    return "start" in named or isinstance(next(iter(given), None), int)


def cell_of(row: bytes, family: bytes) -> tuple[bytes, bytes]:
    """A cell, by arguments with these names."""
    return row, family


class AutoCommit:
    """What a store does by the cell, without a transaction of the caller's."""

    def ask(self, operation: Operation[Answer]) -> Answer:
        """Asks for an operation, and gives the answer."""
        raise NotImplementedError

    def _snapshot_later(self) -> Snapshot:
        """The store as of the first read."""
        raise NotImplementedError

    def _piece(self, asked: CellRange, keys: bool, cells: int) -> Piece | None:
        """The first batch of a range as of now, in a session that ends with it: None if it isn't to be had at once."""
        raise NotImplementedError

    def run(self, work: Callable[[Transaction], Result], attempts: int = 10, deadline: float | None = None) -> Result:
        """Does work in a transaction."""
        raise NotImplementedError

    @overload
    def get(self, row: bytes, family: bytes) -> bytes | None: ...

    @overload
    def get(self, start: int, row: bytes, family: bytes) -> answers.Found: ...

    def get(self, *given: Any, **named: Any) -> bytes | answers.Found | None:
        """The value of a cell, or None. With a session's start: reads the cell as of it."""
        if is_of_session(given, named):
            return self.ask(Get(*given, **named))
        [value] = self.get_many([cell_of(*given, **named)])
        return value

    def get_many(self, cells: Iterable[tuple[bytes, bytes]]) -> list[bytes | None]:
        """The values of cells, all as of one moment."""
        raise NotImplementedError

    def row(self, row: bytes) -> dict[bytes, bytes]:
        """The values of a row, by their families."""
        piece = self._piece(range_of(row, row), False, FEW_CELLS)
        if piece is None or piece.upto is not None:
            return self.run(lambda t: t.row(row))
        return values_of_row(piece.entries)

    def rows(
        self,
        start: bytes | None = None,
        end: bytes | None = None,
        *,
        prefix: bytes | None = None,
        after: bytes | None = None,
        before: bytes | None = None,
        limit: int | None = None,
        reverse: bool = False,
    ) -> Iterator[Row]:
        """The rows of a range, as a transaction's `rows` gives them, from one snapshot that ends with the iterator."""
        asked, limit = range_of(start, end, prefix, None, after, before), checked_limit(limit)
        cells = cells_of(limit)
        if reverse:
            return rows_of(self._all(asked, False, None, cells, True), limit, True)
        if limit is None or cells is None or cells > FEW_CELLS:
            return rows_of(self._all(asked, False, None), limit)
        return self._first(asked, False, cells, partial(first_rows, limit), lambda found: rows_of(found, limit))

    def put(self, row: bytes, family: bytes, value: bytes) -> None:
        """Writes a value to a cell."""
        self.run(lambda t: t.put(row, family, value))

    @overload
    def set(self, row: bytes, family: bytes, value: bytes) -> None: ...

    @overload
    def set(self, start: int, row: bytes, family: bytes, value: bytes) -> None: ...

    def set(self, *given: Any, **named: Any) -> None:
        """Another name of `put`. With a session's start: buffers a write in the session."""
        if is_of_session(given, named):
            self.ask(Set(*given, **named))
        else:
            self.put(*given, **named)

    @overload
    def delete(self, row: bytes, family: bytes) -> None: ...

    @overload
    def delete(self, start: int, row: bytes, family: bytes) -> None: ...

    def delete(self, *given: Any, **named: Any) -> None:
        """Deletes a cell. With a session's start: buffers the deletion in the session."""
        if is_of_session(given, named):
            self.ask(Delete(*given, **named))
        else:
            row, family = cell_of(*given, **named)
            self.run(lambda t: t.delete(row, family))

    @overload
    def scan(
        self,
        start: bytes | None = None,
        end: bytes | None = None,
        *,
        prefix: bytes | None = None,
        family: bytes | None = None,
        keys: Literal[False] = False,
        after: bytes | None = None,
        before: bytes | None = None,
        limit: int | None = None,
        reverse: bool = False,
    ) -> Iterator[tuple[bytes, bytes, bytes]]: ...

    @overload
    def scan(
        self,
        start: bytes | None = None,
        end: bytes | None = None,
        *,
        prefix: bytes | None = None,
        family: bytes | None = None,
        keys: Literal[True],
        after: bytes | None = None,
        before: bytes | None = None,
        limit: int | None = None,
        reverse: bool = False,
    ) -> Iterator[tuple[bytes, bytes, None]]: ...

    @overload
    def scan(
        self,
        start: int,
        after: tuple[bytes, bytes] | None = None,
        end: bytes | None = None,
        family: bytes | None = None,
        keys_only: bool = False,
        cells: int = MOST_CELLS,
    ) -> Scanned: ...

    def scan(self, start: bytes | int | None = None, *bounds: Any, **options: Any) -> Iterator[Entry] | Scanned:
        """The cells of a range, as a transaction's `scan` gives them, from one snapshot that ends with the iterator.

        With a session's start: reads the cells of a range as of it, those behind a cell (a row and a family), up to and
        with a row, of one family or of all. It looks at so many cells, 1 to 1,000, at most; where it ends before the
        range does, `upto` of the answer is the `after` of the next one."""
        if isinstance(start, int):
            return self.ask(Scan(start, *bounds, **options))
        return self._entries(start, *bounds, **options)

    def _entries(
        self,
        start: bytes | None = None,
        end: bytes | None = None,
        *,
        limit: int | None = None,
        keys: bool = False,
        reverse: bool = False,
        **bounds: Any,
    ) -> Iterator[Entry]:
        """The cells of a range. Its bounds are checked at once."""
        asked, limit = range_of(start, end, **bounds), checked_limit(limit)
        if limit is None or limit > FEW_CELLS or reverse:
            return self._all(asked, keys, limit, reverse=reverse)
        return self._first(asked, keys, limit, partial(first_cells, limit), lambda found: islice(found, limit))

    def _all(
        self, asked: CellRange, keys: bool, limit: int | None, cells: int | None = None, reverse: bool = False
    ) -> Iterator[Entry]:
        """The cells of a range, from a snapshot that is read as the iterator goes on. The first batch has so many."""
        with self._snapshot_later() as snapshot:
            yield from snapshot.entries(asked, keys, limit, True, cells, reverse)

    def _first(
        self,
        asked: CellRange,
        keys: bool,
        cells: int,
        taken: Callable[[Piece], Iterable[Found] | None],
        taken_in: Callable[[Iterator[Entry]], Iterable[Found]],
    ) -> Iterator[Found]:
        """What is taken from the first batch of a range, of so many cells, or, if it has too few, from larger ones."""
        piece = self._piece(asked, keys, cells) if cells else Piece([], {}, None)
        found = None if piece is None else taken(piece)
        if found is None:
            found = self.run(lambda t: list(taken_in(t.entries(asked, keys, None, cells=GROWTH * cells))))
        yield from found

    def count(
        self,
        start: bytes | None = None,
        end: bytes | None = None,
        *,
        prefix: bytes | None = None,
        family: bytes | None = None,
        after: bytes | None = None,
        before: bytes | None = None,
    ) -> int:
        """How many cells of a range have a value."""
        return self.run(lambda t: t.count(start, end, prefix=prefix, family=family, after=after, before=before))
