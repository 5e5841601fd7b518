"""Values of up to 16,777,214 bytes, in pieces that have a cell each.

    pages = LargeValues("page")
    store.run(lambda t: pages.put(t, b"Bob", bytes(1_000_000)))
    pages.get(store, b"Bob") == bytes(1_000_000)
"""

from __future__ import annotations

from collections.abc import Sequence

from duqishom import aio
from duqishom.layers.index import Writer
from duqishom.layers.tuples import pack
from duqishom.sessions import LONGEST_VALUE, MOST_WRITES
from duqishom.store import Store
from duqishom.transactions import Snapshot, Transaction

# The family of the pieces.
FAMILY = b"p"

# The first piece begins with the number of pieces, in so many bytes. All are written in one transaction.
COUNT_BYTES = 2
MOST_BYTES = MOST_WRITES * LONGEST_VALUE - COUNT_BYTES


class LargeValues:
    """Large values by their rows. Each write of a value writes its first piece, so two at the same time conflict."""

    def __init__(self, name: str) -> None:
        """The rows of the pieces begin with this packed name and the value's row."""
        self._name = name

    def put(self, t: Transaction, row: bytes, value: bytes) -> None:
        """Writes a value: as many cells as it has pieces, or as the one before had."""
        pieces = pieces_of(value)
        self._write(t, row, pieces, t.get(*self._cell(row, 0)))

    async def put_async(self, t: aio.Transaction, row: bytes, value: bytes) -> None:
        """The same for `asyncio`."""
        pieces = pieces_of(value)
        self._write(t, row, pieces, await t.get(*self._cell(row, 0)))

    def delete(self, t: Transaction, row: bytes) -> None:
        """Deletes a value."""
        self._write(t, row, [], t.get(*self._cell(row, 0)))

    async def delete_async(self, t: aio.Transaction, row: bytes) -> None:
        """The same for `asyncio`."""
        self._write(t, row, [], await t.get(*self._cell(row, 0)))

    def get(self, t: Snapshot | Store, row: bytes) -> bytes | None:
        """The value, as of a transaction's start and with its own writes, or of a store as of now: None if there is none. The first
        piece is read, and then all others at once."""
        if isinstance(t, Store):
            return t.run(lambda one: self.get(one, row))
        first = t.get(*self._cell(row, 0))
        others = self._others(row, first)
        return joined(first, t.get_many(others) if others else [])

    async def get_async(self, t: aio.Snapshot | aio.Store, row: bytes) -> bytes | None:
        """The same for `asyncio`."""
        if isinstance(t, aio.Store):
            return await t.run(lambda one: self.get_async(one, row))
        first = await t.get(*self._cell(row, 0))
        others = self._others(row, first)
        return joined(first, await t.get_many(others) if others else [])

    def _cell(self, row: bytes, number: int) -> tuple[bytes, bytes]:
        """The cell of a piece."""
        return pack((self._name, row, number)), FAMILY

    def _others(self, row: bytes, first: bytes | None) -> list[tuple[bytes, bytes]]:
        """The cells of all pieces behind the first."""
        return [self._cell(row, number) for number in range(1, count_of(first))]

    def _write(self, t: Writer, row: bytes, pieces: Sequence[bytes], first: bytes | None) -> None:
        """Writes pieces over those of a value whose first piece is given, and always the cell of the first piece."""
        for number, piece in enumerate(pieces):
            t.put(*self._cell(row, number), piece)
        for number in range(len(pieces), max(count_of(first), 1)):
            t.delete(*self._cell(row, number))


def pieces_of(value: bytes) -> list[bytes]:
    """The pieces of a value."""
    if len(value) > MOST_BYTES:
        raise ValueError(f"a value of {len(value):,} bytes: at most {MOST_BYTES:,}")
    count = -(-(len(value) + COUNT_BYTES) // LONGEST_VALUE)
    whole = count.to_bytes(COUNT_BYTES, "big") + value
    return [whole[at : at + LONGEST_VALUE] for at in range(0, len(whole), LONGEST_VALUE)]


def count_of(first: bytes | None) -> int:
    """How many pieces a value has, by its first one."""
    return 0 if first is None else int.from_bytes(first[:COUNT_BYTES], "big")


def joined(first: bytes | None, others: Sequence[bytes | None]) -> bytes | None:
    """The value of these pieces."""
    return None if first is None else b"".join([first[COUNT_BYTES:], *(piece or b"" for piece in others)])
