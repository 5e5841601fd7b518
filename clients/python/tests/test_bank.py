"""A bank whose sum never changes, whichever clients pay or stop in between."""

from __future__ import annotations

import os
import random
import threading
import unittest
from collections import Counter
from collections.abc import Callable, Generator, Iterator

from duqishom import (
    BadCount,
    BadSplit,
    Committed,
    Decided,
    Held,
    Lost,
    Pending,
    Qualifier,
    Stamped,
    Store,
    Transaction,
    Value,
    read_lock,
    read_record,
)

# The number of transfers that commit, and the number that each of four threads makes. A tabletd that is built with
# checks is slow, and gets fewer.
TRANSACTIONS = int(os.environ.get("BANK_TRANSACTIONS", "10000"))
OF_A_THREAD = TRANSACTIONS // 40
BALANCE = b"balance"
FIRST = 100


def amount(value: bytes | None) -> int:
    """The amount in an account's value."""
    assert value is not None
    return int(value)


class Bank:
    """Accounts in a store, and the clients' knowledge of them."""

    def __init__(self, store: Store, seed: int, accounts: int, transactions: int, strandings: int) -> None:
        self.store = store
        self.random = random.Random(seed)
        self.accounts = [b"account %02d" % number for number in range(accounts)]
        self.ledger = dict.fromkeys(self.accounts, FIRST)
        self.counts: Counter[str] = Counter()
        self.wanted = transactions
        self.strandings = strandings

    def open(self) -> None:
        """Gives each account its first amount, in one transaction."""
        with self.store.transaction() as transaction:
            for account in self.accounts:
                transaction.set(account, BALANCE, b"%d" % FIRST)

    # The state of the store, whichever clients have stopped: raw reads only.

    def committed_start(self, account: bytes) -> int:
        """The start whose data is the account's committed value.

        If the cell is locked, the first cell of the lock's session tells whether it has committed: a record there names
        its start.
        """
        lock = self.store.raw(account, BALANCE, Qualifier.LOCK)
        if lock is not None:
            if self.has_record(read_lock(lock.value).row, lock.stamp):
                return lock.stamp
        record = self.store.raw(account, BALANCE, Qualifier.WRITE)
        assert record is not None
        return read_record(record.value).start

    def has_record(self, account: bytes, start: int) -> bool:
        """Whether a record of the account names this start. All records of it are above the start."""
        record = self.store.raw(account, BALANCE, Qualifier.WRITE, start)
        while record is not None:
            if read_record(record.value).start == start:
                return True
            record = self.store.raw(account, BALANCE, Qualifier.WRITE, start, record.stamp - 1)
        return False

    def balances(self) -> dict[bytes, int]:
        """The amount in each account."""
        found = {}
        for account in self.accounts:
            start = self.committed_start(account)
            data = self.store.raw(account, BALANCE, Qualifier.DATA, start, start)
            assert data is not None
            found[account] = amount(data.value)
        return found

    # A client. It lets the others have a turn at each `yield`.

    def client(self) -> Iterator[None]:
        """Transfers, one after the other, until enough have committed."""
        while self.counts["committed"] < self.wanted:
            giver, taker = self.random.sample(self.accounts, 2)
            start = self.store.begin()
            yield
            yield from self.transfer(start, giver, taker)

    def transfer(self, start: int, giver: bytes, taker: bytes) -> Iterator[None]:
        """One transfer, by a session that has begun."""
        before = []
        for account in (giver, taker):
            found = yield from self.read(start, account)
            if found is None:
                self.stop(start, "gave up waiting")
                return
            before.append(found)
        moved = self.random.randint(0, before[0])
        for account, left in ((giver, before[0] - moved), (taker, before[1] + moved)):
            self.store.set(start, account, BALANCE, b"%d" % left)
            yield
        if self.random.random() < 0.1:
            self.stop(start, "stopped before the first step")
            return
        if self.is_taken(start, giver) or self.is_taken(start, taker):
            self.stop(start, "met a conflict")
            if self.random.random() < 0.2:
                yield from self.clean(self.random.choice((giver, taker)))
            return
        assert self.store.step(start) == Held(1, 2)
        assert self.store.step(start) == Held(2, 2)
        yield
        if self.strands("held"):
            self.stop(start, "stopped when it held its cells")
            return
        assert isinstance(self.store.step(start), Stamped)
        yield
        if self.strands("stamped"):
            self.stop(start, "stopped when it was stamped")
            return
        committed = self.store.step(start)
        if committed == Lost():
            self.counts["lost"] += 1
            return
        assert isinstance(committed, Committed)
        self.ledger[giver] -= moved
        self.ledger[taker] += moved
        self.counts["committed"] += 1
        yield
        if self.strands("committed"):
            self.stop(start, "stopped when it had committed")
            return
        self.store.step(start)
        yield

    def read(self, start: int, account: bytes) -> Generator[None, None, int | None]:
        """The amount in the account as of the start, or None if it was locked for 20 turns: then the lock is
        cleaned."""
        for _ in range(20):
            found = self.store.get(start, account, BALANCE)
            yield
            match found:
                case Value(value):
                    return amount(value)
                case Pending():
                    self.counts["waited a turn"] += 1
        yield from self.clean(account)
        return None

    def clean(self, account: bytes) -> Iterator[None]:
        """Cleans the account's lock, a step a turn. One cleaner in five stops after its first."""
        cleaner = self.store.clean_begin(account, BALANCE)
        yield
        if cleaner is None:
            return
        assert self.store.clean_step(cleaner.number) == Decided()
        yield
        if self.random.random() < 0.2:
            self.counts["cleaners stopped"] += 1
            return
        self.counts[type(self.store.clean_step(cleaner.number)).__name__] += 1
        yield

    def is_taken(self, start: int, account: bytes) -> bool:
        """Whether a step would meet a conflict at the account. It comes right before the steps, with no turn between."""
        lock = self.store.raw(account, BALANCE, Qualifier.LOCK)
        record = self.store.raw(account, BALANCE, Qualifier.WRITE, start)
        return lock is not None or record is not None

    def stop(self, start: int, why: str) -> None:
        self.store.stop(start)
        self.counts[why] += 1

    def strands(self, phase: str) -> bool:
        """Whether a session stops here for good. Its cells stay locked until a client cleans them."""
        phases = ("held", "stamped", "committed")
        due = self.strandings * self.counts["committed"] // self.wanted
        if self.counts["strandings"] >= due or phase != phases[self.counts["strandings"] % 3]:
            return False
        self.counts["strandings"] += 1
        return True

    def keep_house(self) -> None:
        """One random request of upkeep."""
        tablet = self.random.choice(self.store.tablets()).number
        requests: tuple[Callable[[], object], ...] = (
            lambda: self.store.minor(tablet),
            lambda: self.store.merge(tablet, 2),
            lambda: self.store.major(tablet),
            lambda: self.store.split(self.random.choice(self.accounts)),
            lambda: self.store.move(tablet, self.random.randrange(16)),
            self.store.sweep,
            self.store.collect,
            self.store.restart_oracle,
        )
        try:
            self.random.choice(requests)()
        except (BadCount, BadSplit):
            self.counts["refused upkeep"] += 1


class Interleaved(unittest.TestCase):
    """Five clients on one stream, a request at a time."""

    def test_sum_never_changes(self) -> None:
        with Store() as store:
            bank = Bank(store, seed=20, accounts=20, transactions=TRANSACTIONS, strandings=30)
            bank.open()
            self.interleave(bank, [bank.client() for _ in range(5)])
            self.assertEqual(bank.counts["strandings"], 30)
            self.assertEqual(bank.balances(), bank.ledger)
            self.assert_rest_is_read(bank)

    def interleave(self, bank: Bank, clients: list[Iterator[None]]) -> None:
        """Gives the clients turns at random. Now and then the books are read, in whatever phase the sessions are."""
        turns = 0
        while clients:
            client = bank.random.choice(clients)
            try:
                next(client)
            except StopIteration:
                clients.remove(client)
            turns += 1
            if turns % 300 == 0:
                bank.keep_house()
            if turns % 1000 == 0:
                self.assertEqual(sum(bank.balances().values()), FIRST * len(bank.accounts))

    def assert_rest_is_read(self, bank: Bank) -> None:
        """After all locks are cleaned, a new session reads each account."""
        for account in bank.accounts:
            bank.store.clean(account, BALANCE)
        start = bank.store.begin()
        for account in bank.accounts:
            self.assertEqual(bank.store.get(start, account, BALANCE), Value(b"%d" % bank.ledger[account]))


class Threads(unittest.TestCase):
    """Four threads, each with transactions of its own over one store, which conflict and try again."""

    def test_sum_never_changes(self) -> None:
        with Store() as store:
            bank = Bank(store, seed=4, accounts=5, transactions=0, strandings=0)
            bank.open()
            done: list[int] = []
            threads = [threading.Thread(target=self.transfers, args=(bank, seed, done)) for seed in range(4)]
            for thread in threads:
                thread.start()
            for thread in threads:
                thread.join()
            self.assertEqual(Counter(done), dict.fromkeys(range(4), OF_A_THREAD))
            self.assertEqual(sum(bank.balances().values()), FIRST * 5)

    def transfers(self, bank: Bank, seed: int, done: list[int]) -> None:
        """Transfers of one thread. Each is done in the end."""
        chance = random.Random(seed)
        for _ in range(OF_A_THREAD):
            giver, taker = chance.sample(bank.accounts, 2)

            def work(transaction: Transaction) -> None:
                has = amount(transaction.get(giver, BALANCE))
                moved = chance.randint(0, has)
                transaction.set(giver, BALANCE, b"%d" % (has - moved))
                got = amount(transaction.get(taker, BALANCE)) + moved
                transaction.set(taker, BALANCE, b"%d" % got)

            bank.store.run(work, attempts=1000)
            done.append(seed)


if __name__ == "__main__":
    unittest.main()
