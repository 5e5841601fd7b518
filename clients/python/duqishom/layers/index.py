"""A secondary index: rows by the values of some of their families.

    by_city = Index("by_city", b"city")
    by_city.put(t, b"Bob", {b"city": b"Bonn", b"age": b"7"})
    list(by_city.rows(t, b"Bonn")) == [b"Bob"]

Each row that has a value in all these families has a cell in the index. It is right for as long as these families are
written by `put` alone, in the transaction that reads and writes whatever else.
"""

from __future__ import annotations

from collections.abc import AsyncIterator, Iterator, Mapping, Sequence
from typing import Protocol

from duqishom import aio
from duqishom.layers.tuples import pack, unpack
from duqishom.store import Store
from duqishom.transactions import Snapshot, Transaction

# The family of the index's own cells.
FAMILY = b"i"

Values = Mapping[bytes, bytes | None]


class Writer(Protocol):
    """A transaction of either twin."""

    def put(self, row: bytes, family: bytes, value: bytes) -> None: ...
    def delete(self, row: bytes, family: bytes) -> None: ...


class Index:
    """An index by one family or several."""

    def __init__(self, name: str, *families: bytes) -> None:
        """The rows of the index begin with its packed name."""
        if not families:
            raise ValueError("an index is by one family or more")
        self._name = name
        self._families = families

    def put(self, t: Transaction, row: bytes, values: Values) -> None:
        """Writes families of a row, and deletes those whose value is None, with what the index says of the row."""
        self._write(t, row, values, t.get_many(self._cells(row)))

    async def put_async(self, t: aio.Transaction, row: bytes, values: Values) -> None:
        """The same for `asyncio`."""
        self._write(t, row, values, await t.get_many(self._cells(row)))

    def delete(self, t: Transaction, row: bytes) -> None:
        """Deletes a row, with all its families."""
        self.put(t, row, dict.fromkeys(t.row(row)))

    async def delete_async(self, t: aio.Transaction, row: bytes) -> None:
        """The same for `asyncio`."""
        await self.put_async(t, row, dict.fromkeys(await t.row(row)))

    def rows(
        self, t: Snapshot | Store, *values: bytes, limit: int | None = None, reverse: bool = False
    ) -> Iterator[bytes]:
        """The rows that have these values in the first families, in the order of the values of the others, and then of
        rows, or the other way round: of a transaction, or of a store as of now."""
        for entry, _, _ in t.scan(prefix=pack((self._name, *values)), keys=True, limit=limit, reverse=reverse):
            yield unpack(entry)[-1]

    async def rows_async(
        self, t: aio.Snapshot | aio.Store, *values: bytes, limit: int | None = None, reverse: bool = False
    ) -> AsyncIterator[bytes]:
        """The same for `asyncio`."""
        async for entry, _, _ in t.scan(prefix=pack((self._name, *values)), keys=True, limit=limit, reverse=reverse):
            yield unpack(entry)[-1]

    def _cells(self, row: bytes) -> list[tuple[bytes, bytes]]:
        """The cells of a row by which the index is."""
        return [(row, family) for family in self._families]

    def _write(self, t: Writer, row: bytes, values: Values, held: Sequence[bytes | None]) -> None:
        """Writes the values, and the cells of the index, over those that are held in its families."""
        old = dict(zip(self._families, held))
        new = {**old, **{family: values[family] for family in self._families if family in values}}
        # Two who change different families of the index would both commit, so each writes the first one too
        changes = {**values, self._families[0]: new[self._families[0]]} if new != old else values
        for family, value in changes.items():
            change(t, row, family, value)
        before, after = self._entry(row, old), self._entry(row, new)
        if before is not None and before != after:
            t.delete(before, FAMILY)
        if after is not None and before != after:
            t.put(after, FAMILY, b"")

    def _entry(self, row: bytes, held: Values) -> bytes | None:
        """The index's row for a row: None if a family has no value."""
        values = [held[family] for family in self._families]
        return None if None in values else pack((self._name, *values, row))


def change(t: Writer, row: bytes, family: bytes, value: bytes | None) -> None:
    """Writes or deletes a cell."""
    if value is None:
        t.delete(row, family)
    else:
        t.put(row, family, value)
