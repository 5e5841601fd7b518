"""Transactions over many cells, and snapshots that are only read."""

from __future__ import annotations

from collections.abc import Iterable, Iterator
from contextlib import suppress
from types import TracebackType
from typing import TYPE_CHECKING, Literal, TypeVar, overload

from duqishom.answers import Entry
from duqishom.cells import CellRange, range_of
from duqishom.connection import Connection, RequestTimedOut
from duqishom.plans import (
    MOST_STAMP,
    Patience,
    Plan,
    StillPending,
    TransactionConflict,
    TransactionFailed,
    TransactionLost,
)
from duqishom.program import ProgramEnded
from duqishom.refusals import UnknownSession
from duqishom.reverse import ReverseScan
from duqishom.scans import RangeScan, Row, cells_of, checked_limit, rows_of, values_of_row
from duqishom.sessions import MOST_WRITES, Session

if TYPE_CHECKING:
    from duqishom.store import Store

__all__ = [
    "MOST_STAMP",
    "MOST_WRITES",
    "Patience",
    "Snapshot",
    "StillPending",
    "Transaction",
    "TransactionConflict",
    "TransactionFailed",
    "TransactionLost",
]

Own = TypeVar("Own", bound="Snapshot")
Result = TypeVar("Result")


class Snapshot:
    """The store as of one moment, the start of a session. It ends with the `with`, or by `stop`."""

    def __init__(self, store: Store, session: Session, connection: Connection) -> None:
        self._store = store
        self._session = session
        self._connection = connection

    @property
    def start(self) -> int:
        """The session's start. A transaction of `Store.run` begins with its first request, or now."""
        return self._do(self._session.begin())

    @property
    def is_active(self) -> bool:
        """Whether the session hasn't ended."""
        return self._session.is_active

    def get(self, row: bytes, family: bytes, own: bool = True) -> bytes | None:
        """The transaction's own write to the cell, if any; otherwise the last value committed by the start. None if the
        cell is deleted, or nothing was committed.

        With `own=False` the transaction's own writes are ignored. A lock that is still there after some tries is
        cleaned, unless the patience says otherwise: then StillPending is raised.
        """
        [value] = self.get_many([(row, family)], own)
        return value

    def get_many(self, cells: Iterable[tuple[bytes, bytes]], own: bool = True) -> list[bytes | None]:
        """What each of these cells holds, as `get` gives it, in one trip."""
        return self._do(self._session.get_many(cells, own))

    def row(self, row: bytes, own: bool = True) -> dict[bytes, bytes]:
        """The values of a row, by their families."""
        return values_of_row(self.scan(row, row, own=own))

    def rows(
        self,
        start: bytes | None = None,
        end: bytes | None = None,
        *,
        prefix: bytes | None = None,
        after: bytes | None = None,
        before: bytes | None = None,
        own: bool = True,
        limit: int | None = None,
        reverse: bool = False,
    ) -> Iterator[Row]:
        """The rows of a range that have a value, in order, each with the dictionary that `row` gives. The range is that of `scan`.
        With a limit, the first so many rows are given. With `reverse=True` the order is descending: the last row is the first."""
        asked, limit = range_of(start, end, prefix, None, after, before), checked_limit(limit)
        return rows_of(self.entries(asked, False, None, own, cells_of(limit), reverse), limit, reverse)

    @overload
    def scan(
        self,
        start: bytes | None = None,
        end: bytes | None = None,
        *,
        prefix: bytes | None = None,
        family: bytes | None = None,
        keys: Literal[False] = False,
        own: bool = True,
        after: bytes | None = None,
        before: bytes | None = None,
        limit: int | None = None,
        reverse: bool = False,
    ) -> Iterator[tuple[bytes, bytes, bytes]]: ...

    @overload
    def scan(
        self,
        start: bytes | None = None,
        end: bytes | None = None,
        *,
        prefix: bytes | None = None,
        family: bytes | None = None,
        keys: Literal[True],
        own: bool = True,
        after: bytes | None = None,
        before: bytes | None = None,
        limit: int | None = None,
        reverse: bool = False,
    ) -> Iterator[tuple[bytes, bytes, None]]: ...

    def scan(
        self,
        start: bytes | None = None,
        end: bytes | None = None,
        *,
        prefix: bytes | None = None,
        family: bytes | None = None,
        keys: bool = False,
        own: bool = True,
        after: bytes | None = None,
        before: bytes | None = None,
        limit: int | None = None,
        reverse: bool = False,
    ) -> Iterator[Entry]:
        """The cells that have a value, in order, each as its row, its family and its value: what `get` gives for every cell of the
        range, without those that have nothing. With `keys=True` values aren't sent, and None stands in their places.

        The range goes from the row `start` up to the row `end`, both included, lies between the rows `after` and `before`, neither
        included, and has the rows that begin with a prefix, and one family, where these are given. With a limit, the first so many
        cells are given. With `reverse=True` the order is descending, by row and then by family, and so the last cell is the first.

        The range is read in batches as the iterator goes on; all show the transaction's start. What the transaction had written
        when `scan` was called is shown too, unless `own=False`. The locks of a batch are waited for together, and then cleaned, as
        `get` does.

        BadRow or BadColumn at once, as the store would refuse it.
        """
        return self.entries(range_of(start, end, prefix, family, after, before), keys, limit, own, reverse=reverse)

    def count(
        self,
        start: bytes | None = None,
        end: bytes | None = None,
        *,
        prefix: bytes | None = None,
        family: bytes | None = None,
        own: bool = True,
        after: bytes | None = None,
        before: bytes | None = None,
    ) -> int:
        """How many cells of a range have a value. Their values aren't sent. The range is that of `scan`."""
        asked = range_of(start, end, prefix, family, after, before)
        return sum(1 for _ in self.entries(asked, True, None, own))

    def entries(
        self,
        asked: CellRange,
        keys: bool,
        limit: int | None,
        own: bool = True,
        cells: int | None = None,
        reverse: bool = False,
    ) -> Iterator[Entry]:
        """The cells of a range, as `scan` gives them. The first batch has so many."""
        return self._pieces(self._session.scan(asked, keys, own, limit, cells, reverse))

    def _pieces(self, scan: RangeScan | ReverseScan) -> Iterator[Entry]:
        """The cells of a scan, piece by piece."""
        while piece := self._do(scan.piece()):
            yield from piece

    def stop(self) -> None:
        """Ends the session where it stands. Before its first step nothing of it stays."""
        self._do(self._session.stop())

    def _do(self, plan: Plan[Result]) -> Result:
        """Does a plan, at the connection that has the session."""
        return self._store.do(plan, self._connection)

    def __enter__(self: Own) -> Own:
        return self

    def __exit__(
        self, kind: type[BaseException] | None, error: BaseException | None, trace: TracebackType | None
    ) -> None:
        with suppress(UnknownSession, ProgramEnded, RequestTimedOut):
            self.stop()


class Transaction(Snapshot):
    """One session, from its begin to its end. Its writes are kept here, and sent when it commits: by one Commit, or by Sets
    and Steps to a program without it.

    In a `with` it commits at the end. Where an exception leaves, it stops, unless it has taken a step: then its cells are
    locked, and another `commit` or a cleaner frees them.
    """

    @property
    def commit_stamp(self) -> int | None:
        """The stamp at which it has committed, and None where it hasn't."""
        return self._session.commit_stamp

    def put(self, row: bytes, family: bytes, value: bytes) -> None:
        """Writes a value to a cell, when the transaction commits. The first cell that is written is the primary.

        UnknownSession, WrongPhase, BadRow, BadColumn, BadValue or TooManyWrites at once, as the store would refuse it.
        """
        self._session.write(row, family, value)

    set = put

    def delete(self, row: bytes, family: bytes) -> None:
        """Deletes a cell, when the transaction commits: a write like any other. Refused as `put` is."""
        self._session.write(row, family, None)

    def commit(self) -> int | None:
        """Commits all writes atomically, and returns the commit stamp, or None if nothing was written.

        TransactionConflict if a cell is locked or was written since, and TransactionLost if a cleaner was faster: the
        transaction's locks are released, and a lock of another session is waited for, and then cleaned. If the Commit or a
        step is refused, the session continues, and `commit` may be called again. If a request is interrupted or times out, it
        isn't known whether everything is committed or nothing.
        """
        self._do(self._session.commit())
        return self.commit_stamp

    def __exit__(
        self, kind: type[BaseException] | None, error: BaseException | None, trace: TracebackType | None
    ) -> None:
        try:
            if kind is None and self.is_active:
                self.commit()
        finally:
            if not self._session.has_stepped:
                super().__exit__(kind, error, trace)
