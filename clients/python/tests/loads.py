"""A load of a store whose tablets are to be split, and what it leaves the same."""

from __future__ import annotations

import random

from duqishom import Store, Transaction

FAMILY = b"c"
LIMIT = 65_536

# The rows of a load, of about 1,100 bytes each, and the value of each.
ROWS, VALUE = 300, 1000


def row_of(number: int) -> bytes:
    return b"%06d" % number


def value_of(number: int) -> bytes:
    return b"%01000d" % number


def load(store: Store, rows: range) -> None:
    """Sets rows, four in a transaction, in any order."""
    order = random.sample(rows, len(rows))
    for at in range(0, len(order), 4):
        with store.transaction() as transaction:
            for number in order[at : at + 4]:
                transaction.set(row_of(number), FAMILY, value_of(VALUE))


def sum_of(store: Store) -> int:
    """The sum of all values, as of one moment."""
    with store.snapshot() as snapshot:
        return sum(int(value) for _, _, value in snapshot.scan())


def transfer(store: Store, count: int, seed: int) -> None:
    """Moves something between two rows, so many times."""
    chance = random.Random(seed)
    for _ in range(count):
        one, other = (row_of(number) for number in chance.sample(range(ROWS), 2))

        def move(transaction: Transaction, one: bytes = one, other: bytes = other) -> None:
            held, got = transaction.get_many([(one, FAMILY), (other, FAMILY)])
            transaction.set(one, FAMILY, value_of(int(held or 0) - 1))
            transaction.set(other, FAMILY, value_of(int(got or 0) + 1))

        store.run(move, attempts=1000)
