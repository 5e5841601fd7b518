"""Several servers over the rows of one bridge, which is in memory: skipped if the program asks no bridge."""

from __future__ import annotations

import json
import unittest
from contextlib import suppress

from duqishom import BadRequest, ProgramEnded, Refused, Transaction, TransactionFailed, connect
from duqishom.fields import counted, number
from tests.cluster_bank import Bank, fill
from tests.gateways import BEGIN, COLLECT_BEGIN, COLUMN, STATISTICS, Wire, clean_begin, clean_step, get, scan, set_, step, stop, until
from tests.served import Served, has_rows

KILLS = ("client", "tabletd", "duqishom-gateway")


class RowsTest(unittest.TestCase):
    """A test with servers whose program asks a bridge."""

    @classmethod
    def setUpClass(cls) -> None:
        if not has_rows():
            raise unittest.SkipTest("the program has no --rows")

    def served(self, words: str = "", count: int = 2) -> Served:
        served = Served(self, [f"--memory-bridge={words}"], count)
        self.assertTrue(served.is_ready(), served.said())
        return served

    def wires(self, served: Served, count: int) -> list[Wire]:
        """Connections to different servers."""
        found: dict[int, Wire] = {}

        def is_full() -> bool:
            wire = Wire(served.path)
            self.addCleanup(wire.close)
            found.setdefault(int(json.loads(wire.ask(STATISTICS)[1:])["program"]["process"]), wire)
            return len(found) == count

        self.assertTrue(until(is_full))
        return list(found.values())

    def two_servers(self, served: Served) -> None:
        """What two servers make of each other's sessions."""
        one, two = self.wires(served, 2)
        bob, joe = b"Bob", b"zoe"
        first = one.begin()
        # A session is unknown to the other server
        self.assertEqual(two.ask(stop(first)), b"\xff\1")
        one.send(set_(first, bob, b"10") + set_(first, joe, b"2") + step(first))
        self.assertEqual([one.reply() for _ in range(3)], [b"\x83", b"\x83", b"\x84\1\0\1\0\2"])
        # Its lock hides the cell from a later session of the other, which conflicts with it
        second = two.begin()
        self.assertGreater(second, first)
        self.assertEqual(two.ask(get(second, bob)), b"\x82\2" + first)
        two.send(set_(second, bob, b"5") + step(second))
        self.assertEqual([two.reply(), two.reply()], [b"\x83", b"\x84\2\0\1"])
        one.send(4 * step(first))
        replies = [one.reply() for _ in range(4)]
        stamp = replies[1][2:]
        self.assertEqual(replies, [b"\x84\1\0\2\0\2", b"\x84\3" + stamp, b"\x84\4" + stamp, b"\x84\6\0\2\0\2"])
        third = two.begin()
        self.assertTrue(second < stamp < third)
        two.send(get(third, bob) + get(third, joe) + scan(third))
        self.assertEqual([two.reply(), two.reply()], [b"\x82\1\0\0\0\x0210", b"\x82\1\0\0\0\x012"])
        self.assertIn(counted(bob) + counted(COLUMN), two.reply())
        # A cleaner of one server rolls a session of the other back
        fourth = one.begin()
        one.send(set_(fourth, bob, b"7") + step(fourth))
        self.assertEqual([one.reply(), one.reply()], [b"\x83", b"\x84\1\0\1\0\1"])
        cleaner = two.ask(clean_begin(bob))
        self.assertEqual((cleaner[:2], cleaner[10:]), (b"\x86\1", fourth))
        two.send(2 * clean_step(cleaner[2:10]))
        self.assertEqual([two.reply(), two.reply()], [b"\x87\1", b"\x87\4"])
        one.send(2 * step(fourth))
        self.assertEqual([one.reply()[:2], one.reply()], [b"\x84\3", b"\x84\5"])
        fifth = one.begin()
        self.assertEqual(one.ask(get(fifth, bob)), b"\x82\1\0\0\0\x0210")

    def words_of_client(self, served: Served) -> None:
        """What the client does without Commit and Read."""
        with connect(f"unix:{served.path}") as store:
            store.put(b"Bob", b"bal", b"10")
            store.run(write_three)
            self.assertEqual(store.get_many([(b"Ann", b"bal"), (b"Bob", b"bal"), (b"xyz", b"bal")]), [b"1", None, b"2"])
            with store.snapshot() as snapshot:
                store.put(b"Ann", b"bal", b"3")
                self.assertEqual(snapshot.get(b"Ann", b"bal"), b"1")
                found = [(entry[0], entry[2]) for entry in snapshot.scan() if entry[1] == b"bal"]
                self.assertEqual(found, [(b"Ann", b"1"), (b"xyz", b"2")])
            with self.assertRaises(BadRequest):
                store.status()
            self.assertGreaterEqual(store.collect(), 0)
            self.assertEqual(store.get(b"Ann", b"bal"), b"3")


class MemoryClusterTest(RowsTest):
    def test_two_servers(self) -> None:
        served = self.served()
        self.words_of_client(served)
        self.two_servers(served)
        self.assertEqual(served.end(), 0)

    def test_floors(self) -> None:
        served = self.served()
        (wire,) = self.wires(served, 1)
        stamp = wire.commit(b"row", b"value")[2:]
        self.assertGreater(wire.begin(), stamp)

        def has_risen() -> bool:
            one = Wire(served.path)
            reply = one.ask(COLLECT_BEGIN)
            one.close()
            return reply[9:] > number(8, 1)

        # Servers without anything to do publish floors, too
        self.assertTrue(until(has_risen))

    def test_bank_with_kills(self) -> None:
        served = self.served("--race 0.02 --delay 0.001 --seed 3", 3)
        with connect(f"unix:{served.path}") as store:
            fill(store)
        counts = Bank(self, [served], 6, 15).run(4 * KILLS)
        self.assertGreater(counts["commits"], 5)
        self.assertGreater(counts["sums"], 0)

    def test_bank_with_failures(self) -> None:
        served = self.served("--race 0.1 --lose 0.01 --fail 0.003 --end 0.0005 --seed 4", 3)
        self.assertTrue(until(lambda: is_filled(served)))
        counts = Bank(self, [served], 6, 10).run([])
        self.assertGreater(counts["commits"], 5)

    def test_requests(self) -> None:
        served = self.served(count=1)
        (wire,) = self.wires(served, 1)
        self.assertEqual(wire.ask(BEGIN)[:1], b"\x81")
        self.assertEqual(wire.ask(b"\0\0\0\1\x32"), b"\xff\x16")


def write_three(transaction: Transaction) -> None:
    transaction.set(b"Ann", b"bal", b"1")
    transaction.delete(b"Bob", b"bal")
    transaction.set(b"xyz", b"bal", b"2")


def is_filled(served: Served) -> bool:
    """Fills a bank, unless that fails."""
    with suppress(Refused, ProgramEnded, TransactionFailed, OSError), connect(f"unix:{served.path}") as store:
        fill(store)
        return True
    return False


if __name__ == "__main__":
    unittest.main()
