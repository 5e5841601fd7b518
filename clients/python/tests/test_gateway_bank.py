"""A bank behind a gateway: its clients are processes that are killed at any moment and restarted, and so is the gateway.
The bank's sum never changes."""

from __future__ import annotations

import os
import random
import subprocess
import sys
import time
import unittest

from duqishom import Patience, Store
from tests.gateways import PACKAGE, Gateway, folder_of, until

# The seconds for which each bank is open, and the number of processes that are its clients.
SECONDS = float(os.environ.get("GATEWAY_SECONDS", "5"))
CLIENTS = 8
BALANCE, FIRST = b"balance", 100
PATIENCE = Patience(tries=5)

CLIENT = """
import random, sys
from duqishom import Patience, Store, TransactionFailed
dice = random.Random(int(sys.argv[2]))
def pay(t):
    giver, taker = (b"account %02d" % number for number in dice.sample(range(20), 2))
    amount = dice.randint(1, 9)
    t.set(giver, b"balance", b"%d" % (int(t.get(giver, b"balance")) - amount))
    t.set(taker, b"balance", b"%d" % (int(t.get(taker, b"balance")) + amount))
with Store(socket=sys.argv[1], patience=Patience(tries=5)) as store:
    while True:
        try:
            store.run(pay)
        except TransactionFailed:
            pass
        else:
            print("paid", flush=True)
"""

# The same, eight clients in one process, which go on with any gateway at their socket. Each counts its payments in a cell beside
# them, and ends the process if that isn't its own count: if a payment is gone, or was done twice.
EIGHT_CLIENTS = """
import os, random, sys, threading, time
from duqishom import ConnectionLost, Patience, Store
def opened():
    while True:
        try:
            return Store(socket=sys.argv[1], patience=Patience(tries=5), reconnect=60)
        except (ConnectionLost, OSError):
            time.sleep(0.1)
def client(name):
    dice, paid, store = random.Random(name), 0, opened()
    def pay(t):
        cells = [(b"account %02d" % number, b"balance") for number in dice.sample(range(100), 2)]
        giver, taker, count = t.get_many([*cells, (name, b"paid")])
        if int(count or b"0") != paid:
            print(name, "has paid", paid, "times, and not", count, file=sys.stderr)
            os._exit(1)
        amount = dice.randint(1, 9)
        t.set(*cells[0], b"%d" % (int(giver) - amount))
        t.set(*cells[1], b"%d" % (int(taker) + amount))
        t.set(name, b"paid", b"%d" % (paid + 1))
    while True:
        store.run(pay, attempts=1000)
        paid += 1
        time.sleep(dice.uniform(0, 0.2))
for number in range(8):
    threading.Thread(target=client, args=(b"client %s %d" % (sys.argv[2].encode(), number),)).start()
"""


class Bank(unittest.TestCase):
    """The bank."""

    def client(self, gateway: Gateway, seed: int, lines: str = CLIENT) -> subprocess.Popen[bytes]:
        """A client process, that pays until it is killed."""
        command = [sys.executable, "-c", lines, gateway.path, str(seed)]
        client = subprocess.Popen(command, cwd=PACKAGE, stdout=subprocess.PIPE)
        self.addCleanup(client.stdout.close if client.stdout else client.kill)
        self.addCleanup(client.wait)
        self.addCleanup(client.kill)
        return client

    def open(self, store: Store, accounts: int) -> None:
        self.accounts = [(b"account %02d" % number, BALANCE) for number in range(accounts)]
        with store.transaction() as opening:
            for account in self.accounts:
                opening.set(*account, b"%d" % FIRST)

    def look(self, store: Store) -> None:
        """Looks whether the sum is still the first one."""
        balances = store.run(lambda t: t.get_many(self.accounts), attempts=50)
        self.assertEqual(sum(int(balance or b"0") for balance in balances), FIRST * len(self.accounts))

    def test_eight_clients_that_are_killed(self) -> None:
        gateway, dice = Gateway(self), random.Random(7)
        with Store(socket=gateway.path, patience=PATIENCE) as store:
            self.open(store, 20)
            clients = [self.client(gateway, seed) for seed in range(CLIENTS)]
            ended, kills, sums = [], 0, 0
            end = time.monotonic() + SECONDS
            while time.monotonic() < end or sums < 6:
                time.sleep(dice.uniform(0, 0.4))
                place = dice.randrange(CLIENTS)
                clients[place].kill()
                ended.append(clients[place])
                kills += 1
                clients[place] = self.client(gateway, 100 + kills)
                self.look(store)
                sums += 1
            # The last ones pay once at least, however busy the machine is
            paid = sum(bool(client.stdout.readline()) for client in clients if client.stdout)
            for client in clients:
                client.kill()
            paid += sum(len(client.stdout.read().splitlines()) for client in ended + clients if client.stdout)
            self.look(store)
            self.assertGreater(min(paid, kills, sums), 5)
            self.assertGreater(store.collect(), 0)
            self.look(store)

    def test_sixty_four_clients_and_a_gateway_that_is_killed(self) -> None:
        """The next gateway has all that a client was told, and a client without an answer finds out what has become of
        its payment: each is done once."""
        words, dice, kills = ["--dir", folder_of(self), "--log", "--standby"], random.Random(8), [0, 0]
        gateway = Gateway(self, words)
        with Store(socket=gateway.path, patience=PATIENCE, reconnect=60) as store:
            self.open(store, 100)
            clients = {seed: self.client(gateway, seed, EIGHT_CLIENTS) for seed in range(CLIENTS)}
            end = time.monotonic() + SECONDS
            while time.monotonic() < end or min(kills) < 3:
                time.sleep(dice.uniform(0.1, 0.5))
                if kills[0] <= kills[1]:
                    gateway.kill()
                    gateway = Gateway(self, words, gateway.path)
                    kills[0] += 1
                else:
                    self.kill(clients.pop(dice.choice(list(clients))))
                    seed = CLIENTS + kills[1]
                    clients[seed] = self.client(gateway, seed, EIGHT_CLIENTS)
                    kills[1] += 1
                self.look(store)
            # The last ones pay once at least, however busy the machine is
            cells = [(b"client %d %d" % (seed, number), b"paid") for seed in clients for number in range(8)]
            self.assertTrue(until(lambda: None not in store.get_many(cells)))
            for client in clients.values():
                self.kill(client)
            self.look(store)

    def kill(self, client: subprocess.Popen[bytes]) -> None:
        """Kills a process of clients, which hasn't ended by itself."""
        self.assertIsNone(client.poll())
        client.kill()
        client.wait()


if __name__ == "__main__":
    unittest.main()
