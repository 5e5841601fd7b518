"""Bridges and servers over a Ceph cluster: skipped, unless DUQISHOM_CEPH names the file that tells of one
(`scripts/test_cluster`)."""

from __future__ import annotations

import os
import subprocess
import threading
import time
import unittest
from contextlib import redirect_stdout
from io import StringIO
from pathlib import Path

from duqishom import cluster, connect
from tests.bridges import Bridge, BridgeCases, key_of
from tests.cluster_bank import Bank, fill
from tests.folders import said
from tests.gateways import folder_of
from tests.pipes import EngineFailed, prefix_of
from tests.served import Served, kill
from tests.test_cluster import RowsTest
from tests.test_cluster_audit import audited

# The cluster, and its folder if scripts/ceph_up has made it.
CONF, FOLDER = os.environ.get("DUQISHOM_CEPH", ""), os.environ.get("DUQISHOM_CEPH_FOLDER", "")
UP = Path(__file__).resolve().parents[3] / "scripts" / "ceph_up"
POOL = "duqishom_tests"
PLACE = ["--rados", CONF, "--pool", POOL]


def ceph(*words: str) -> str:
    return subprocess.run(["timeout", "120", "ceph", "-c", CONF, *words], check=True, capture_output=True, text=True).stdout


def rados(*words: str, given: bytes = b"") -> None:
    command = ["timeout", "120", "rados", "-c", CONF, "-p", POOL, "-N", "duqishom", *words]
    subprocess.run(command, input=given, check=True, capture_output=True)


def purge() -> None:
    """Removes all objects of the tests."""
    command = ["timeout", "120", "rados", "-c", CONF, "-p", POOL, "-N", "duqishom", "ls"]
    for name in subprocess.run(command, check=True, capture_output=True, text=True).stdout.split():
        rados("rm", name)


def make_store() -> None:
    """Makes a new store of four tablets in the pool."""
    if POOL not in ceph("osd", "pool", "ls").split():
        ceph("osd", "pool", "create", POOL, "32", "32")
    purge()
    ends = "\n".join(cluster.fence_of(row).hex() for row in (b"b", b"m", b"t"))
    status, told = cluster.asked([*PLACE, "--init"], ends)
    assert status == 0, told


def lose_an_osd() -> None:
    """Kills an OSD, and starts it again, if the cluster is that of the tests alone."""
    if FOLDER:
        time.sleep(8)
        kill(int(Path(FOLDER, "run", "osd.1.process").read_text()))
        time.sleep(10)
        subprocess.run([UP, FOLDER, "--again", "1"], check=True)


@unittest.skipUnless(CONF, "DUQISHOM_CEPH names no cluster")
class CephBridgeTest(BridgeCases, unittest.TestCase):
    @classmethod
    def setUpClass(cls) -> None:
        make_store()

    def setUp(self) -> None:
        # Floors of earlier tests
        for machine in ("one", "two"):
            cluster.asked([*PLACE, "--forget", machine])

    def bridge(self, machine: str = "one") -> Bridge:
        return Bridge(self, [cluster.found_bridge(), *PLACE, "--machine", machine])

    def test_stamps_of_two_machines(self) -> None:
        one, two = self.bridge(), self.bridge("two")
        self.stamps_of([bridge.server(f"w{place}") for place in range(4) for bridge in (one, two)])

    def test_writers_of_two_machines(self) -> None:
        row = self.row()
        one, two = self.bridge().server("w0"), self.bridge("two").server("w0")
        self.assertTrue(one.swap(prefix_of(row), 0, {key_of(row): b"1"}))
        self.assertFalse(two.swap(prefix_of(row), 0, {key_of(row): b"2"}))
        self.assertEqual(two.fetch(prefix_of(row)), (1, {key_of(row): b"1"}))
        self.assertEqual([one.publish(5), two.publish(3), one.publish(7)], [0, 3, 3])

    def test_killed(self) -> None:
        row, bridge = self.row(), self.bridge()
        server = bridge.server("w0")
        server.publish(4)
        self.assertTrue(server.swap(prefix_of(row), 0, {key_of(row): b"1"}))
        stamp = server.draw()
        bridge.kill()
        with self.assertRaises(EOFError):
            server.fetch(prefix_of(row))
        after = self.bridge().server("w0")
        self.assertEqual(after.fetch(prefix_of(row)), (1, {key_of(row): b"1"}))
        self.assertGreater(after.draw(), stamp)
        self.assertEqual([after.publish(2), after.publish(9)], [2, 9])

    def test_two_bridges_of_one_machine(self) -> None:
        row, first = self.row(), self.bridge()
        before = first.server("w0")
        before.draw()
        after = self.bridge().server("w0")
        after.draw()
        with self.assertRaises((EOFError, EngineFailed)):
            before.swap(prefix_of(row), 0, {})
        self.assertEqual((first.process.wait(60), after.fetch(prefix_of(row))), (70, (0, {})))

    def test_command(self) -> None:
        self.assertEqual(said("cluster", "init", *PLACE)[0], 2)
        bridge = self.bridge()
        bridge.server("w0").publish(123)
        status, told = said("cluster", "status", *PLACE)
        lines = told.splitlines()
        self.assertEqual((status, lines[0].split(":")[0], lines[3].split(":")[0]), (0, "tablet.1 up to b", "tablet.4 up to the last row"))
        self.assertIn("server one/w0: floor 123", lines)
        self.assertTrue(any(line.startswith("machine one: its bridge is at ") for line in lines))
        self.assertEqual(said("cluster", "forget", "one", *PLACE), (0, "one is shut out, and its 1 servers have no floors\n"))
        with redirect_stdout(StringIO()):
            self.assertEqual(cluster.main(["status", "--rados", CONF, "--pool", "no_such_pool"]), 2)

    def test_end_in_order(self) -> None:
        bridge = self.bridge()
        server = bridge.server("w0")
        server.publish(5)
        server.close()
        self.assertEqual(bridge.end(), 0)
        self.assertNotIn("one", said("cluster", "status", *PLACE)[1])

    def test_stamps_that_would_go_back(self) -> None:
        before = self.bridge().server("w0").draw()
        rados("setomapval", "stamps", "mghost", given=b"00000000ffffffff")
        bridge = self.bridge("two")
        self.assertEqual(bridge.process.wait(60), 2)
        rados("rmomapkey", "stamps", "mghost")
        self.assertGreater(self.bridge("two").server("w0").draw(), before)

    def test_another_epoch(self) -> None:
        # The last tablet gets another epoch, as if it had been elsewhere meanwhile
        row, server = b"z" + os.urandom(6), self.bridge().server("w0")
        text = key_of(row)
        self.assertTrue(server.swap(prefix_of(row), 0, {text: b"1"}))
        for object_, key, rest in (("tablet.4", "e", b""), ("places", "l", b"tablet.4")):
            rados("setomapval", object_, key, given=bytes(7) + b"\2" + rest)
        self.assertTrue(server.swap(prefix_of(row), 1, {text: b"2"}))
        self.assertFalse(server.swap(prefix_of(row), 1, {text: b"3"}))
        for object_, key, rest in (("tablet.4", "e", b""), ("places", "l", b"tablet.4")):
            rados("setomapval", object_, key, given=bytes(7) + b"\3" + rest)
        self.assertEqual(server.page(text, 1)[1], {text: b"2"})
        self.assertEqual(server.fetch(prefix_of(row)), (2, {text: b"2"}))

    def test_names_that_begin_alike(self) -> None:
        one, other = self.bridge("one"), self.bridge("one/w0")
        one.server("w0").publish(5)
        other.server("w1").publish(6)
        self.assertEqual(said("cluster", "forget", "one", *PLACE)[1], "one is shut out, and its 1 servers have no floors\n")
        self.assertIn("server one/w0/w1: floor 6\n", said("cluster", "status", *PLACE)[1])
        said("cluster", "forget", "one/w0", *PLACE)


@unittest.skipUnless(CONF, "DUQISHOM_CEPH names no cluster")
class CephClusterTest(RowsTest):
    """Servers of two machines, which are two bridges here."""

    def setUp(self) -> None:
        make_store()

    def over(self, machine: str, count: int, *words: str) -> Served:
        served = Served(self, [*PLACE, "--machine", machine, *words], count)
        self.assertTrue(served.is_ready(), served.said())
        return served

    def test_two_servers(self) -> None:
        served = self.over("one", 2)
        self.words_of_client(served)
        self.two_servers(served)
        self.assertEqual(served.end(), 0)
        self.assertNotIn("floor", said("cluster", "status", *PLACE)[1])

    def test_two_machines(self) -> None:
        one, two = self.over("one", 1), self.over("two", 1)
        with connect(f"unix:{one.path}") as here, connect(f"unix:{two.path}") as there:
            for count in range(10):
                here.put(b"Bob", b"bal", b"%d" % count)
                self.assertEqual(there.get(b"Bob", b"bal"), b"%d" % count)
                there.run(lambda t: t.set(b"Bob", b"bal", (t.get(b"Bob", b"bal") or b"") + b"!"))
                self.assertEqual(here.get(b"Bob", b"bal"), b"%d!" % count)

    def test_bank(self) -> None:
        place = Path(folder_of(self))
        all_served = [self.over(name, 3, "--record", str(place / name)) for name in ("one", "two")]
        with connect(f"unix:{all_served[0].path}") as store:
            fill(store)
        worker = threading.Thread(target=lose_an_osd)
        worker.start()
        counts = Bank(self, all_served, 8, 40).run(3 * ["client", "tabletd", "duqishom-gateway", "client", "duqishom-bridge"])
        worker.join()
        print(dict(counts))
        self.assertGreater(counts["commits"], 20)
        self.assertGreater(counts["sums"], 0)
        self.assertEqual([served.end() for served in all_served], [0, 0])
        status, told = audited([place / "one", place / "two"])
        print(told)
        self.assertEqual(status, 0, told)


if __name__ == "__main__":
    unittest.main()
