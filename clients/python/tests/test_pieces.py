"""Files of format 3 as the client reads them: their bytes, and folders that are inspected, verified, copied and salvaged."""

from __future__ import annotations

import shutil
import unittest
from collections.abc import Iterator
from pathlib import Path

from duqishom import Store
from duqishom.columns import BadForm
from duqishom.folders import read_root
from duqishom.pieces import payload_of, place_in, spelled
from tests.folders import FolderTest, said

SEVEN = 2**63 + 7
FILE = Path("t8000000000000007.tab")

# Payloads, and the first bytes of their files.
FILES = (
    (b"", "0000E04B3C4F"),
    (b"abc", "0003CEAAC5D6616263"),
    (b"A" * 1024 + b"B", "040031977F584141"),
)


def changed(data: bytes) -> Iterator[tuple[bytes, int]]:
    """Bytes that aren't a file's any more, each with the offset of its first wrong piece."""
    for at in range(len(data)):
        yield data[:at] + bytes((data[at] ^ 1,)) + data[at + 1 :], at // 1030 * 1030
    for end in (*range(0, 1030, 103), 1030, 1031, 1036):
        if end < len(data):
            yield data[:end], len(data[:end]) if end % 1030 < 6 else end // 1030 * 1030
    yield data + b"\0", len(data) // 1030 * 1030


class PiecesTest(unittest.TestCase):
    def test_bytes(self) -> None:
        for payload, begin in FILES:
            data = spelled(SEVEN, payload)
            self.assertEqual(data[: len(begin) // 2].hex().upper(), begin)
            self.assertEqual(bytes(payload_of(FILE, data)), payload)
            self.assertEqual(bytes(payload_of(Path("t0000000000000007.tab"), data)), data)
        self.assertEqual(spelled(SEVEN, FILES[2][0])[1030:].hex().upper(), "00010DF48E2842")

    def test_changed_bytes(self) -> None:
        for payload, _ in FILES:
            for data, at in changed(spelled(SEVEN, payload)):
                with self.assertRaises(BadForm) as caught:
                    payload_of(FILE, data)
                self.assertEqual(caught.exception.at, at, data[:8].hex())

    def test_exchanged_pieces(self) -> None:
        data = spelled(SEVEN, b"A" * 1024 + b"B" * 1024)
        with self.assertRaises(BadForm):
            payload_of(FILE, data[1030:2060] + data[:1030] + data[2060:])
        with self.assertRaises(BadForm):
            payload_of(Path("t8000000000000008.tab"), data)


class FoldersOfPiecesTest(FolderTest):
    """A folder with files of both formats."""

    def setUp(self) -> None:
        super().setUp()
        for checksums, rows in ((False, range(100)), (True, range(100, 200))):
            with Store(folder=self.folder, log=True, checksums=checksums) as store:
                for row in rows:
                    store.put(b"row%03d" % row, b"c", b"value %d" % row)
        with Store(folder=self.folder) as store:
            store.put(b"row000", b"c", b"in the log")
            store.kill()

    def test_inspect(self) -> None:
        status, text = said("inspect", self.folder, "files")
        self.assertEqual((status, "t8000000000000" in text, "format 3  tablets 1" in text), (0, True, True), text)
        status, text = said("inspect", self.folder, "stats")
        self.assertIn("1 tablets, ", text)
        self.assertIn("200 cells, ", text)

    def test_copies(self) -> None:
        backup, restored = str(self.path) + ".backup", str(self.path) + ".restored"
        for each in (backup, restored):
            self.addCleanup(shutil.rmtree, each, ignore_errors=True)
        lines = (("--dir", self.folder, "backup", backup), ("verify", backup), ("restore", backup, restored), ("verify", restored))
        for words in lines:
            status, text = said(*words)
            self.assertEqual(status, 0, text)
        self.assertEqual(Path(restored, "format").read_bytes(), b"3\n")
        with Store(folder=restored) as store:
            self.assertEqual((store.get(b"row000", b"c"), len(list(store.scan()))), (b"in the log", 200))

    def test_a_changed_byte(self) -> None:
        place = place_in(self.path, read_root(self.path).tablets[0].files[0].name)
        data = bytearray(place.read_bytes())
        data[1100] ^= 1
        place.write_bytes(data)
        status, text = said("verify", self.folder)
        self.assertEqual(status, 1, text)
        self.assertIn(f"{place.name}: piece 1 isn't as it was written, at byte 1030", text)
        lines = str(self.path) + ".lines"
        self.addCleanup(Path(lines).unlink)
        status, text = said("dump", "--dir", self.folder, "--salvage", lines)
        self.assertIn("piece 1 isn't as it was written", text)
        self.assertIn("in the log", Path(lines).read_text())


if __name__ == "__main__":
    unittest.main()
