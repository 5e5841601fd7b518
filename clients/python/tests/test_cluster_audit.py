"""Recordings of several servers over one bridge, which is in memory, and what an audit of them says."""

from __future__ import annotations

import os
import resource
import unittest
from collections.abc import Sequence
from io import BytesIO
from pathlib import Path

from duqishom import connect
from duqishom.fields import counted, number
from duqishom.merging import merge
from duqishom.pairing import Wrong
from duqishom.workers import memory_bridge
from tests.bridges import Bridge, key_of
from tests.cluster_bank import Bank, fill
from tests.folders import said
from tests.gateways import COLLECT_BEGIN, Wire, clean_begin, clean_step, folder_of, frame, get, scan, set_, stand_in, step, stop
from tests.gateways import until
from tests.pipes import prefix_of
from tests.served import Served
from tests.test_cluster import KILLS, RowsTest, is_filled
from tests.test_recording import AUDIT, bodies

HAS_AUDIT = os.access(AUDIT, os.X_OK)


def audited(folders: Sequence[Path], *words: str) -> tuple[int, str]:
    """The status of an audit, and what it says. Without a tablet_audit it says whether there is a run."""
    if not HAS_AUDIT:
        try:
            merge(list(folders), BytesIO(), BytesIO())
        except Wrong as why:
            return 1, f"the run is wrong: {why}\n"
        return 0, "each allowed"
    os.environ["TABLET_AUDIT"] = AUDIT
    return said("cluster", "audit", *map(str, folders), *words)


class RecordedTest(RowsTest):
    """A test with servers that are recorded."""

    def setUp(self) -> None:
        self.place = Path(folder_of(self)) / "recorded"

    def recorded(self, words: str = "", count: int = 2) -> Served:
        served = Served(self, [f"--memory-bridge={words}", "--record", str(self.place)], count)
        self.assertTrue(served.is_ready(), served.said())
        return served

    def allowed(self, served: Served) -> None:
        """Ends servers, whose recordings are right."""
        self.assertEqual(served.end(), 0, served.said())
        status, told = audited([self.place])
        self.assertEqual(status, 0, told)
        self.assertIn("each allowed", told)


class RecordedClusterTest(RecordedTest):
    def test_two_servers(self) -> None:
        served = self.recorded()
        self.words_of_client(served)
        self.two_servers(served)
        self.allowed(served)
        self.assertEqual(sorted(place.name for place in self.place.iterdir()), ["w0.1", "w1.1"])
        modes = {file.stat().st_mode & 0o777 for file in self.place.glob("*/*")}
        self.assertEqual((len(list(self.place.glob("*/*"))), modes), (6, {0o600}))

    def test_bank_with_kills(self) -> None:
        served = self.recorded("--race 0.02 --delay 0.001 --seed 3", 3)
        with connect(f"unix:{served.path}") as store:
            fill(store)
        counts = Bank(self, [served], 4, 4).run(KILLS)
        self.assertGreater(counts["commits"], 5)
        self.allowed(served)
        # A server that was begun again has a new recording
        self.assertGreater(len(list(self.place.iterdir())), 3)

    def test_bank_with_failures(self) -> None:
        served = self.recorded("--race 0.1 --lose 0.01 --fail 0.003 --seed 4", 2)
        self.assertTrue(until(lambda: is_filled(served)))
        counts = Bank(self, [served], 3, 3).run(["tabletd"])
        self.assertGreater(counts["commits"], 0)
        self.allowed(served)

    def test_scans_of_many_pages(self) -> None:
        served = self.recorded()
        one, two = self.wires(served, 2)
        for count in range(2):
            writer, reader = (one, two) if count % 2 else (two, one)
            start = writer.begin()
            writer.send(b"".join(set_(start, b"row%02d" % row, b"%d" % count) for row in range(30)))
            self.assertEqual({writer.reply() for _ in range(30)}, {b"\x83"})
            # Scans come between the steps of another's commit
            writer.send(61 * step(start))
            for _ in range(5):
                session = reader.begin()
                reader.send(scan(session) + stop(session))
                self.assertEqual([reader.reply()[0], reader.reply()], [0xB1, b"\x85"])
            self.assertEqual([writer.reply() for _ in range(61)][-1], b"\x84\6\0\x1e\0\x1e")
        self.allowed(served)

    def test_limits_of_clients(self) -> None:
        served = self.recorded()
        one, two = self.wires(served, 2)
        start = one.begin()
        one.send(set_(start, b"row", b"1") + step(start))
        self.assertEqual([one.reply(), one.reply()], [b"\x83", b"\x84\1\0\1\0\1"])
        two.send(65 * clean_begin(b"row"))
        self.assertEqual([two.reply()[:2] for _ in range(65)], 64 * [b"\x86\1"] + [b"\xff\7"])
        two.send(b"".join(clean_step(number(8, name)) for name in range(1, 70)))
        told = [two.reply() for _ in range(69)]
        self.assertEqual((told[0], {*told[1:64]}, {*told[64:]}), (b"\x87\1", {b"\x87\1"}, {b"\xff\x09"}))
        two.send(5 * COLLECT_BEGIN)
        self.assertEqual([two.reply()[0] for _ in range(5)], 4 * [0x88] + [0xFF])
        two.send(frame(b"\x09" + number(8, 1) + number(4, 9)) + frame(b"\x7f"))
        self.assertEqual([two.reply(), two.reply()], [b"\x89\1", b"\xff\x16"])
        # What it had open is its gateway's, which ends it
        two.close()
        self.assertEqual(one.ask(stop(start)), b"\x85")
        self.allowed(served)


class LieTest(RecordedTest):
    """A bridge that does what none may do is found out."""

    def wrong(self, served: Served, words: str) -> None:
        served.end()
        status, told = audited([self.place])
        self.assertEqual(status, 1, told)
        self.assertIn(words, told)

    def test_stamps(self) -> None:
        served = self.recorded("--lie stamps")
        first, second = self.wires(served, 2)
        low, high = (first, second) if first.begin() < second.begin() else (second, first)
        start = high.begin()
        self.assertEqual(high.ask(get(start, b"row")), b"\x82\0")
        self.assertLess(low.commit(b"row", b"late")[2:], start)
        self.assertEqual(high.ask(get(start, b"row")), b"\x82\1" + counted(b"late"))
        self.wrong(served, "contradict each other")

    def test_floors(self) -> None:
        served = self.recorded("--lie floors")
        one, two = self.wires(served, 2)
        start = one.begin()
        two.commit(b"row", b"1")
        self.assertGreater(two.ask(COLLECT_BEGIN)[9:], start)
        # The session is still active then, as these stamps tell
        two.begin()
        one.begin()
        self.wrong(served, "collects up to")

    def test_guards(self) -> None:
        bridge, sessions = Bridge(self, memory_bridge("--lie guards")), [b"", b""]
        prefix, text = prefix_of(b"row"), key_of(b"row", b"lock")
        servers = []
        for place in range(2):
            folder = self.place / f"w{place}.1"
            folder.mkdir(parents=True)
            servers.append(bridge.server(f"w{place}", folder / "messages"))
            sessions[place] = number(8, servers[place].draw())
        for server in servers:
            server.begin()
            self.assertEqual(server.fetch(prefix), (0, {}))
        for server in servers:
            self.assertTrue(server.swap(prefix, 0, {text: b""}))
            server.close()
        for place, start in enumerate(sessions):
            cell = counted(b"row") + counted(b"c")
            asked = (b"\x01", b"\x13" + start + cell, b"\x04" + start)
            told = (b"\x81" + start, b"\x93", b"\x84\1\0\1\0\1")
            for name, frames in (("requests", asked), ("replies", told)):
                (self.place / f"w{place}.1" / name).write_bytes(b"".join(frame(number(4, 7) + body) for body in frames))
        status, told_of = audited([self.place])
        self.assertEqual((status, "has taken the row row for one with guard 0, and it was 1" in told_of), (1, True), told_of)

    @unittest.skipUnless(HAS_AUDIT, "tablet_audit isn't built")
    def test_another_value(self) -> None:
        served = self.recorded()
        (wire,) = self.wires(served, 1)
        wire.commit(b"row", b"right")
        self.assertEqual(wire.read(b"row"), b"\x82\1" + counted(b"right"))
        served.end()
        for file in self.place.glob("*/replies"):
            file.write_bytes(file.read_bytes().replace(b"right", b"wrong"))
        kept = self.place.parent / "kept"
        status, told = audited([self.place], "--merged", str(kept))
        self.assertEqual((status, "is not allowed" in told, "it is of recorded/w" in told), (1, True, True), told)
        self.assertEqual(len(bodies(Path(f"{kept}.requests"))), len(bodies(Path(f"{kept}.replies"))))


class EndsTest(unittest.TestCase):
    """Recordings that can't grow end all, and a new serve goes on with new files. The program opens no pipes."""

    def setUp(self) -> None:
        self.place = Path(folder_of(self)) / "recorded"
        self.program = stand_in(self, "return plain(body)")

    def served(self) -> Served:
        served = Served(self, ["--memory-bridge", "--record", str(self.place)], 2, self.program)
        self.assertTrue(served.is_ready(), served.said())
        return served

    def test_a_recording_that_cannot_grow(self) -> None:
        served = self.served()
        for gateway in served.processes("duqishom-gateway"):
            resource.prlimit(gateway, resource.RLIMIT_FSIZE, (1, resource.RLIM_INFINITY))
        wire = Wire(served.path)
        self.addCleanup(wire.close)
        with self.assertRaises((EOFError, OSError)):
            wire.begin()
        self.assertEqual(served.process.wait(60), 70)
        self.assertTrue(any("File too large" in line for line in served.said()), served.said())

    def test_numbers_go_on(self) -> None:
        for _ in range(2):
            self.assertEqual(self.served().end(), 0)
        names = ["w0.1", "w0.2", "w1.1", "w1.2"]
        self.assertEqual(sorted(place.name for place in self.place.iterdir()), names)

    def test_what_is_not_audited(self) -> None:
        told = "nobody can tell: there is no recording of a cluster\n"
        self.assertEqual(said("cluster", "audit", str(self.place.parent)), (2, told))
        status, told = said("cluster", "audit", "/nowhere")
        self.assertEqual((status, "/nowhere" in told), (4, True), told)


if __name__ == "__main__":
    unittest.main()
