"""Splits of tablets of a Ceph cluster, while bridges serve: skipped, unless DUQISHOM_CEPH names the file that tells of one
(`scripts/test_cluster`)."""

from __future__ import annotations

import os
import random
import signal
import subprocess
import threading
import unittest
from collections import Counter
from collections.abc import Sequence
from functools import partial
from unittest import mock

from duqishom import cluster, connect
from tests import test_ceph as ceph
from tests.bridges import Bridge, key_of, together
from tests.cluster_bank import Bank, fill
from tests.folders import said
from tests.gateways import until
from tests.pipes import Server, prefix_of
from tests.served import Served
from tests.test_cluster import RowsTest

# The status of a splitter that is killed, and of one that is refused.
KILLED, REFUSED = -signal.SIGKILL, 2

# Where a splitter stops, if it copies keys in two pieces, and guards in one: before each write, and before it reads places.
STOPS = range(1, 13)

# The keys of each row: five rows are copied in two pieces.
KEYS = 220
ROWS = [b"n%02d" % count for count in range(40)]


def splitter(row: bytes, stop: int) -> subprocess.Popen[bytes]:
    """A process that splits a tablet behind a row, when it has stopped itself before one of its writes, or has ended."""
    words = [cluster.found_bridge(), *ceph.PLACE, "--split", cluster.fence_of(row).hex()]
    environment = os.environ | {"DUQISHOM_SPLIT_STOP": str(stop)}
    process = subprocess.Popen(words, env=environment, stdout=subprocess.DEVNULL, stderr=subprocess.DEVNULL)
    os.waitid(os.P_PID, process.pid, os.WSTOPPED | os.WEXITED | os.WNOWAIT)
    return process


def split(row: bytes, kill: int = 0) -> int:
    """Splits a tablet behind a row, and gives the status. The splitter is killed before one of its writes, if that is said."""
    process = splitter(row, kill)
    if kill:
        process.kill()
    return process.wait()


def status() -> list[list[str]]:
    """The words of each line of the bridge's status."""
    return [line.split(" ") for line in cluster.asked([*ceph.PLACE, "--status"])[1].splitlines()]


def tablets() -> list[list[str]]:
    """The end of each tablet, its object, its epoch and the object's version."""
    return [words for kind, *words in status() if kind == "tablet"]


def is_whole() -> bool:
    """Whether no split is under way."""
    return all(kind != "split" for kind, *_ in status())


def entries_of(name: str) -> list[bytes]:
    """The keys of the entries of an object."""
    command = ["timeout", "120", "rados", "-c", ceph.CONF, "-p", ceph.POOL, "-N", "duqishom", "listomapkeys", name]
    return subprocess.run(command, check=True, capture_output=True).stdout.split(b"\n")[:-1]


def texts_of(row: bytes) -> dict[bytes, bytes | None]:
    return {key_of(row, b"data", stamp): b"%d" % stamp for stamp in range(1, KEYS + 1)}


class SplitsTest(unittest.TestCase):
    def setUp(self) -> None:
        ceph.make_store()

    def bridge(self, machine: str = "one") -> Bridge:
        return Bridge(self, [cluster.found_bridge(), *ceph.PLACE, "--machine", machine])

    def whole(self, rows: dict[bytes, int]) -> None:
        """Checks that no split is under way, and that each tablet's object has what it shall have: in all, each key of rows
        once, and their guards once."""
        self.assertTrue(is_whole())
        begin, keys, guards = b"", list[bytes](), list[bytes]()
        for digits, name, _, _ in tablets():
            end = b"\xff" if digits == "-" else bytes.fromhex(digits)
            found = entries_of(name)
            self.assertIn(b"e", found)
            self.assertTrue(all(begin <= key[1:] < end for key in found if key != b"e"), name)
            keys += [key[1:] for key in found if key[:1] == b"k"]
            guards += [key[1:] for key in found if key[:1] == b"g"]
            begin = end
        self.assertTrue(keys == sorted(text for row in rows for text in texts_of(row)), len(keys))
        self.assertEqual(guards, [prefix_of(row) for row in sorted(rows)])

    def shown(self, server: Server, rows: dict[bytes, int]) -> None:
        """Checks what a server sees of rows with their guards."""
        is_last, cells = server.page(b"", 1_000_000)
        self.assertEqual((is_last, len(cells)), (True, KEYS * len(rows)))
        for row, guard in rows.items():
            self.assertEqual(server.fetch(prefix_of(row))[0], guard)

    def change(self, server: Server, rows: dict[bytes, int], row: bytes) -> None:
        """Swaps with a guard that a row had, and then with the one that it has."""
        prefix = prefix_of(row)
        self.assertFalse(server.swap(prefix, rows[row] - 1, {}))
        self.assertTrue(server.swap(prefix, rows[row], {key_of(row, b"data", 1): b"1"}))
        rows[row] += 1
        guard, cells = server.fetch(prefix)
        self.assertEqual(guard, rows[row])
        self.assertTrue(cells == texts_of(row), len(cells))


def filled(server: Server, rows: list[bytes]) -> dict[bytes, int]:
    """Puts all keys of rows, and gives their guards."""
    for row in rows:
        assert server.swap(prefix_of(row), 0, texts_of(row))
        assert server.swap(prefix_of(row), 1, {})
    return dict.fromkeys(rows, 2)


@unittest.skipUnless(ceph.CONF, "DUQISHOM_CEPH names no cluster")
class CephSplitsTest(SplitsTest):
    def test_command(self) -> None:
        self.assertEqual(said("cluster", "split", "--largest", *ceph.PLACE)[0], REFUSED)
        server = self.bridge().server("w0")
        filled(server, ROWS[:4])
        told = r"^tablet\.3 is split behind n01: later rows are in tablet\.[0-9a-f]{16}\n$"
        done, line = said("cluster", "split", "--largest", *ceph.PLACE)
        self.assertRegex(line, told)
        self.assertEqual(done, 0)
        for row, expected in (("n01", REFUSED), ("b", REFUSED), ("", REFUSED), ("n02", 0), (r"\x00", 0)):
            self.assertEqual(said("cluster", "split", row, *ceph.PLACE)[0], expected, row)
        self.assertEqual(split(b"n00", 2), KILLED)
        shown = said("cluster", "status", *ceph.PLACE)[1]
        self.assertRegex(shown, r"\ntablet\.3 is being split behind n00 into tablet\.[0-9a-f]{16}: its keys are copied\n")
        self.assertEqual(said("cluster", "split", "n00", *ceph.PLACE)[0], 0)
        lines = [line.split(": ") for line in said("cluster", "status", *ceph.PLACE)[1].splitlines()]
        ends = [line[0].rpartition(" ")[2] for line in lines if line[0].startswith("tablet")]
        self.assertEqual(ends, [r"\x00", "b", "m", "n00", "n01", "n02", "t", "row"])
        self.whole(dict.fromkeys(ROWS[:4], 2))

    def test_largest_of_one_row(self) -> None:
        filled(self.bridge().server("w0"), ROWS[:1])
        self.assertEqual(said("cluster", "split", "--largest", *ceph.PLACE)[0], REFUSED)

    def test_stops(self) -> None:
        # Nobody else goes on with these splits
        bridge = self.bridge()
        rows = filled(bridge.server("w0"), ROWS[:20])
        bridge.end()
        self.assertEqual([split(ROWS[14], STOPS[-1]), split(ROWS[14]), split(ROWS[9], STOPS.stop)], [KILLED, 0, 0])
        self.whole(rows)

    def mended(self, stops: Sequence[int]) -> None:
        """Kills splitters at stops. A bridge goes on, which has the places as they were before."""
        server = self.bridge().server("w0")
        rows = filled(server, ROWS)
        for place, stop in enumerate(stops):
            first, last = ROWS[-5 * place - 6 : -5 * place - 4]
            # The bridge may have done all before, if the splitter was slow
            self.assertIn(split(first, stop), (0, KILLED))
            self.shown(server, rows)
            self.change(server, rows, last)
            self.change(server, rows, first)
            self.assertTrue(until(is_whole))
            self.shown(server, rows)
        self.whole(rows)

    def test_mended_before_the_switch(self) -> None:
        self.mended(STOPS[:6])

    def test_mended_after_the_switch(self) -> None:
        self.mended(STOPS[6:])

    def late(self, stops: Sequence[int]) -> None:
        """Has splitters go on from stops when others have done their split, and have split both parts again."""
        one, two = self.bridge().server("w0"), self.bridge("two").server("w0")
        rows = filled(one, ROWS)
        for place, stop in enumerate(stops):
            first, last = ROWS[-5 * place - 6 : -5 * place - 4]
            late = splitter(first, stop)
            # A bridge may have done it before
            self.assertIn(split(first), (0, REFUSED))
            self.assertEqual([split(ROWS[place]), split(last)], [0, 0])
            self.change(one, rows, first)
            self.change(two, rows, last)
            before = tablets()
            late.send_signal(signal.SIGCONT)
            self.assertEqual(late.wait(), REFUSED if stop == 1 else 0)
            self.assertEqual(tablets(), before)
            self.shown(one, rows)
        self.whole(rows)

    def test_late_before_the_switch(self) -> None:
        self.late(STOPS[:6])

    def test_late_after_the_switch(self) -> None:
        self.late(STOPS[6:])

    def test_mended_at_the_beginning(self) -> None:
        rows = filled(self.bridge().server("w0"), ROWS[:10])
        for row, kill, stop in ((ROWS[4], 2, 3), (ROWS[2], 9, 2)):
            self.assertEqual(split(row, kill), KILLED)
            with mock.patch.dict(os.environ, DUQISHOM_SPLIT_STOP=str(stop)):
                mender = self.bridge("two")
            os.waitid(os.P_PID, mender.process.pid, os.WSTOPPED | os.WEXITED | os.WNOWAIT)
            mender.kill()
            self.assertFalse(is_whole())
            self.bridge("two")
            self.assertTrue(until(is_whole))
        self.whole(rows)

    def test_old_places(self) -> None:
        # Of three bridges, each with the places as they were, one is asked for each kind of request
        swaps, fetches, pages = (self.bridge(machine).server("w0") for machine in ("one", "two", "three"))
        rows = filled(swaps, ROWS[:4])
        for server in (fetches, pages):
            self.shown(server, rows)
        self.assertEqual(split(ROWS[1]), 0)
        before = {name: version for _, name, _, version in tablets()}
        # The old object refuses a new row, as if it had no guard, and the new one takes it
        self.assertTrue(swaps.swap(prefix_of(ROWS[4]), 0, texts_of(ROWS[4])))
        after = {name: version for _, name, _, version in tablets()}
        self.assertEqual(before["tablet.3"], after["tablet.3"])
        self.assertEqual(sum(before[name] != after[name] for name in before), 1)
        self.assertEqual(fetches.fetch(prefix_of(ROWS[4]))[0], 1)
        self.assertEqual(len(pages.page(b"", 1_000_000)[1]), 5 * KEYS)
        self.whole(rows | {ROWS[4]: 1})

    def test_swap_while_frozen(self) -> None:
        server, row = self.bridge().server("w0"), ROWS[5]
        rows, late = filled(server, ROWS[:10]), splitter(ROWS[4], 3)
        # This row is copied already, and is changed when the bridge has gone on
        self.assertTrue(server.swap(prefix_of(row), 2, {key_of(row, b"data", 1): b"changed"}))
        late.send_signal(signal.SIGCONT)
        self.assertEqual(late.wait(), 0)
        self.assertEqual(server.fetch(prefix_of(row))[1][key_of(row, b"data", 1)], b"changed")
        self.whole(rows)

    def test_large_values(self) -> None:
        # More than a piece has, in fewer keys
        server, large = self.bridge().server("w0"), {row: dict.fromkeys(texts_of(row), bytes(60_000)) for row in ROWS[:3]}
        for row, texts in large.items():
            self.assertTrue(server.swap(prefix_of(row), 0, texts))
        self.assertEqual(split(ROWS[0]), 0)
        for row, texts in large.items():
            self.assertTrue(server.fetch(prefix_of(row)) == (1, texts), row)
        self.whole(dict.fromkeys(large, 1))

    def test_splitters_at_once(self) -> None:
        server = self.bridge().server("w0")
        rows = filled(server, ROWS)
        for place in range(0, 36, 9):
            told = list[tuple[bytes, int]]()

            def divide(end: bytes) -> None:
                told.append((end, split(end)))

            ends = [ROWS[place + 2], ROWS[place + 5], ROWS[place + 5], ROWS[place + 8]]
            together(*(partial(divide, end) for end in ends), partial(self.change, server, rows, ROWS[place + 5]))
            self.assertEqual({end for end, done in told if done == 0}, set(ends))
            self.assertEqual({done for _, done in told} - {0, REFUSED}, set())
            self.shown(server, rows)
        self.whole(rows)

    def test_readers_and_writers(self) -> None:
        # Two bridges, of which one reads while the other writes, and splitters that are killed
        one, two = self.bridge(), self.bridge("two")
        writers, readers = [one.server("w0"), one.server("w1")], [two.server("w0"), two.server("w1")]
        rows, is_over = filled(writers[0], ROWS[:30]), threading.Event()

        def write(server: Server, some: list[bytes]) -> None:
            while not is_over.is_set():
                self.change(server, rows, random.choice(some))

        def read_pages(server: Server) -> None:
            while not is_over.is_set():
                _, cells = server.page(b"", 1_000_000)
                self.assertEqual(len(cells), KEYS * len(rows))

        def read_guards(server: Server) -> None:
            seen = dict(rows)
            while not is_over.is_set():
                row = random.choice(ROWS[:30])
                guard, cells = server.fetch(prefix_of(row))
                self.assertEqual(len(cells), KEYS)
                self.assertGreaterEqual(guard, seen[row])
                seen[row] = guard

        def divide() -> None:
            try:
                for row in random.sample(ROWS[:29], 12):
                    self.assertIn(split(row, random.randrange(1, 14)), (0, KILLED))
            finally:
                is_over.set()

        works = [partial(write, writers[0], ROWS[:15]), partial(write, writers[1], ROWS[15:30])]
        together(*works, partial(read_pages, readers[0]), partial(read_guards, readers[1]), divide)
        # The last one may have been left, since nobody writes any more
        self.assertEqual(split(ROWS[29]), 0)
        self.shown(readers[0], rows)
        self.whole(rows)


@unittest.skipUnless(ceph.CONF, "DUQISHOM_CEPH names no cluster")
class CephSplitBankTest(RowsTest):
    def test_bank(self) -> None:
        ceph.make_store()
        all_served = [Served(self, [*ceph.PLACE, "--machine", machine], 3) for machine in ("one", "two")]
        for served in all_served:
            self.assertTrue(served.is_ready(), served.said())
        with connect(f"unix:{all_served[0].path}") as store:
            fill(store)
        ends, chance = [b"%c" % letter for letter in b"acdfghijklnopqrsuvwxy"], random.Random(5)
        is_over, told = threading.Event(), list[int]()

        def divide() -> None:
            for end in chance.sample(ends, len(ends)):
                if not is_over.wait(1):
                    told.append(split(end + b"00", chance.randrange(10)))

        workers = [threading.Thread(target=work) for work in (divide, ceph.lose_an_osd)]
        for worker in workers:
            worker.start()
        counts = Bank(self, all_served, 8, 30).run(["client", "tabletd", "duqishom-bridge", "client", "duqishom-bridge"])
        is_over.set()
        for worker in workers:
            worker.join()
        print(dict(counts), dict(Counter(told)))
        self.assertEqual(set(told) - {0, KILLED, REFUSED}, set())
        self.assertIn(KILLED, told)
        self.assertGreater(counts["commits"], 20)
        self.assertGreater(counts["sums"], 0)
        self.assertEqual(split(b"b50"), 0)
        self.assertTrue(is_whole())


if __name__ == "__main__":
    unittest.main()
