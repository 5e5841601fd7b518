"""A bank at the sockets of several servers: transfers between accounts, while clients, servers and bridges are killed."""

from __future__ import annotations

import json
import random
import signal
import subprocess
import sys
import time
import unittest
from collections import Counter
from collections.abc import Sequence
from contextlib import suppress
from dataclasses import dataclass

from duqishom import ConnectionLost, ProgramEnded, Refused, Store, Transaction, TransactionFailed, connect
from tests.gateways import PACKAGE, PATIENCE, until
from tests.served import Served, kill

# The accounts, whose rows begin with every letter, and what each has at first.
ACCOUNTS = [(b"%c%02d" % (97 + count % 26, count), b"balance") for count in range(52)]
FIRST = 100

# How many transfers are made for each sum of all accounts.
TRANSFERS = 20


def sum_of(store: Store) -> int:
    """The sum of all accounts as of one moment."""
    return sum(int(value or b"0") for value in store.get_many(ACCOUNTS))


def fill(store: Store) -> None:
    """Gives each account what it has at first."""

    def work(transaction: Transaction) -> None:
        for account in ACCOUNTS:
            transaction.set(*account, b"%d" % FIRST)

    store.run(work)


def transfer(store: Store, chance: random.Random) -> None:
    """Transfers something from one account to another."""
    giver, taker = chance.sample(ACCOUNTS, 2)
    amount = chance.randrange(10)

    def work(transaction: Transaction) -> None:
        has, gets = transaction.get_many([giver, taker])
        transaction.set(*giver, b"%d" % (int(has or b"0") - amount))
        transaction.set(*taker, b"%d" % (int(gets or b"0") + amount))

    store.run(work)


def be_client(path: str, seconds: float, seed: int) -> int:
    """Makes a sum, and then transfers and sums for so many seconds, and prints how many came to what. The status is 1 if a
    sum is wrong."""
    counts, chance, end = Counter[str](), random.Random(seed), time.monotonic() + seconds
    store: Store | None = None
    while time.monotonic() < end:
        try:
            if store is None:
                store = connect(f"unix:{path}", reconnect=1.0, lock_wait=0.2)
            if chance.randrange(TRANSFERS) == 0 or not counts["sums"]:
                counts["sums"] += 1
                if sum_of(store) != FIRST * len(ACCOUNTS):
                    print(f"a sum is {sum_of(store)}", file=sys.stderr)
                    return 1
            else:
                transfer(store, chance)
                counts["commits"] += 1
        except TransactionFailed:
            counts["failed"] += 1
        except Refused as refusal:
            counts[type(refusal).__name__] += 1
        except (ConnectionLost, OSError):
            counts["lost"] += 1
            time.sleep(0.05)
    if store is not None:
        store.close()
    print(json.dumps(counts))
    return 0


@dataclass
class Bank:
    """A bank under test: its servers, how many clients it has, and for how many seconds."""

    case: unittest.TestCase
    all_served: Sequence[Served]
    clients: int
    seconds: float
    seed: int = 1

    def run(self, kills: Sequence[str]) -> Counter[str]:
        """Has clients make transfers while others are killed, evenly over the time: `client`, or the end of a word of a
        process. Checks each sum, and returns how many requests came to what."""
        self._chance, self._begun = random.Random(self.seed), 0
        self._end = time.monotonic() + self.seconds
        self._processes = [self._client() for _ in range(self.clients)]
        ended: list[subprocess.Popen[str]] = []
        for name in kills:
            time.sleep(self.seconds / (len(kills) + 1))
            if name == "client":
                place = self._chance.randrange(self.clients)
                self._processes[place].kill()
                ended.append(self._processes[place])
                self._processes[place] = self._client()
            else:
                self._kill(self._chance.choice(self.all_served), name)
        counts = Counter[str]()
        for process in [*ended, *self._processes]:
            told, _ = process.communicate(timeout=self.seconds + PATIENCE)
            self.case.assertIn(process.returncode, (0, -signal.SIGKILL), told)
            counts.update(json.loads(told) if told else {})
        for served in self.all_served:
            self.case.assertTrue(until(served.is_ready), served.said())
            self._sum_at(served)
        return counts

    def _sum_at(self, served: Served) -> None:
        """Checks the sum, which is asked for until it is answered: a store that fails by chance still does."""
        sums = list[int]()

        def is_answered() -> bool:
            with suppress(Refused, ProgramEnded, TransactionFailed, OSError), connect(f"unix:{served.path}") as store:
                sums.append(sum_of(store))
            return bool(sums)

        self.case.assertTrue(until(is_answered))
        self.case.assertEqual(sums, [FIRST * len(ACCOUNTS)])

    def _client(self) -> subprocess.Popen[str]:
        self._begun += 1
        path = self.all_served[self._begun % len(self.all_served)].path
        words = [path, str(max(0.5, self._end - time.monotonic())), str(self.seed + self._begun)]
        command = [sys.executable, "-m", "tests.cluster_bank", *words]
        return subprocess.Popen(command, cwd=PACKAGE, stdout=subprocess.PIPE, text=True)

    def _kill(self, served: Served, name: str) -> None:
        """Kills a process of some servers, which are ready, and begins them again if that is the end of them."""
        self.case.assertTrue(served.is_ready(), served.said())
        found = served.processes(name)
        if found:
            kill(self._chance.choice(found))
        if name.endswith("bridge"):
            self.case.assertEqual(served.process.wait(PATIENCE), 70)
            served.start()


if __name__ == "__main__":
    sys.exit(be_client(sys.argv[1], float(sys.argv[2]), int(sys.argv[3])))
