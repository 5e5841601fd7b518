"""Tablets that hold too much, which a gateway splits by itself."""

from __future__ import annotations

import threading
import unittest
from pathlib import Path

from duqishom import Store
from duqishom.folders import read_root
from duqishom.statistics import all_counts, prometheus
from tests.folders import FolderTest
from tests.gateways import Gateway, set_, stand_in, until
from tests.loads import LIMIT, ROWS, VALUE, load, row_of, sum_of, transfer


class Splits(FolderTest):
    """The splits of a gateway."""

    def test_several_tablets(self) -> None:
        gateway = Gateway(self, ["--dir", self.folder, "--split-bytes", str(LIMIT)])
        with Store(socket=gateway.path) as store:
            load(store, range(ROWS))
            threads = [threading.Thread(target=transfer, args=(store, 10, seed)) for seed in range(2)]
            for thread in threads:
                thread.start()
            for thread in threads:
                thread.join()
            self.assertEqual(sum_of(store), ROWS * VALUE)
            with store.snapshot() as snapshot:
                self.assertEqual([row for row, _, _ in snapshot.scan()], [row_of(number) for number in range(ROWS)])
            count = len(store.tablets())
        self.assertTrue(3 <= count <= 16, count)
        told = all_counts(gateway.path)
        self.assertTrue(count - 1 <= int(str(told["splits"])))
        self.assertIn(f"duqishom_splits_total {told['splits']}", [*prometheus(told)])
        self.assertEqual(gateway.stop(), 0)
        self.assertTrue(count <= len(read_root(Path(self.folder)).tablets))

    def test_none(self) -> None:
        """With 0, and in memory."""
        for words in (["--dir", self.folder, "--split-bytes", "0"], ["--split-bytes", str(LIMIT)]):
            gateway = Gateway(self, words)
            with Store(socket=gateway.path) as store:
                load(store, range(200))
                self.assertEqual(len(store.tablets()), 1)
            self.assertEqual(gateway.statistics()["splits"], 0)
            gateway.stop()

    def test_refusals(self) -> None:
        """One line tells of several, and the split comes with a later look."""
        numbers = b"".join(number.to_bytes(8, "big") for number in [*8 * [0], 1, 0, 0, 0, 1, 1 << 20])
        program = stand_in(
            self,
            f"return {bytes([0xB4]) + numbers!r} if body[0] == 0x34 else plain(body) if body[0] != 0x0d"
            " else b'\\xff\\x0c' if asked.count(0x0d) < 3 else b'\\x8d\\0\\0\\0\\2'",
        )
        gateway = Gateway(self, ["--dir", self.folder, "--no-log", "--split-bytes", str(LIMIT), "--program", program])
        wire = gateway.wire()
        start = wire.begin()

        def is_split() -> bool:
            for number in range(100):
                wire.ask(set_(start, row_of(number), bytes(100)))
            return bool(gateway.statistics()["splits"])

        self.assertTrue(until(is_split))
        self.assertEqual(gateway.line(), "duqishom: a tablet that is too large isn't split: 12")
        gateway.stop()
        self.assertNotIn("isn't split", gateway.process.stderr.read() if gateway.process.stderr else "")


if __name__ == "__main__":
    unittest.main()
