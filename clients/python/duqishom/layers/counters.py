"""A counter to which many add at once: its total is the sum of several cells, of which each addition writes one.

    visits = Counter("visits")
    store.run(visits.add)
    visits.total(store) == 1
"""

from __future__ import annotations

import random
from collections.abc import Iterable

from duqishom import aio
from duqishom.layers.tuples import pack
from duqishom.several import MOST_READ
from duqishom.store import Store
from duqishom.transactions import Snapshot, Transaction

# The family of a counter's cells.
FAMILY = b"n"


class Counter:
    """A counter of whole numbers, which may be below 0."""

    def __init__(self, name: str, cells: int = 16) -> None:
        """Its rows begin with its packed name. Two additions at the same time conflict if they take the same cell. A counter may
        get more cells later, but never fewer."""
        if not 1 <= cells <= MOST_READ:
            raise ValueError(f"a counter has 1 to {MOST_READ} cells, and not {cells}")
        self._cells = [(pack((name, number)), FAMILY) for number in range(cells)]

    def add(self, t: Transaction, amount: int = 1) -> None:
        """Adds an amount, which may be below 0, to one of the cells."""
        row, family = random.choice(self._cells)
        t.put(row, family, b"%d" % (number_of(t.get(row, family)) + amount))

    async def add_async(self, t: aio.Transaction, amount: int = 1) -> None:
        """The same for `asyncio`."""
        row, family = random.choice(self._cells)
        t.put(row, family, b"%d" % (number_of(await t.get(row, family)) + amount))

    def total(self, t: Snapshot | Store) -> int:
        """All that was added: as of a transaction's start and with its own additions, or of a store as of now. In a transaction
        that writes by it, others may add at the same time."""
        return total_of(t.get_many(self._cells))

    async def total_async(self, t: aio.Snapshot | aio.Store) -> int:
        """The same for `asyncio`."""
        return total_of(await t.get_many(self._cells))


def number_of(value: bytes | None) -> int:
    """The number in a cell: 0 if nothing was added to it."""
    return int(value or 0)


def total_of(values: Iterable[bytes | None]) -> int:
    """The sum of the numbers in cells."""
    return sum(map(number_of, values))
