"""`verify` and `restore`, `dump` and `load`."""

from __future__ import annotations

import hashlib
import unittest
from collections.abc import Callable

from duqishom import Store
from duqishom.copies import copy_checkpoint, restore
from duqishom.dumps import cell_of, line_of
from duqishom.files import LOG_FILE, MARK_FILE, ROOT_FILE, SIGN_FILE, file_name
from duqishom.folders import FolderDamaged
from duqishom.progress import Reached
from duqishom.sums import SUMS_FILE
from tests.folders import FolderTest, said
from tests.gateways import Gateway

FAMILY = b"c"
FILE = file_name(1)

# A sorted file without an entry.
EMPTY = b"TABLET02" + (8).to_bytes(8, "big") + bytes(16) + (48).to_bytes(8, "big") + b"TABLETZZ"


class Copies(FolderTest):
    """The output of `verify` and `restore` for a store with a log of edits, and for one that has drawn no stamp."""

    def setUp(self) -> None:
        super().setUp()
        self.store = self.path / "store"
        self.store.mkdir()
        with Store(folder=self.store, checkpoint_at_close=False, checksums=False) as store:
            store.run(lambda t: t.set(b"a", FAMILY, b"1"))
            store.split(b"m")
            store.run(lambda t: t.set(b"z", FAMILY, b"2"))

    def test_whole_ones(self) -> None:
        status, told = said("restore", self.store, self.path / "restored")
        self.assertEqual(status, 0)
        self.assertIn("is whole: 2 cells, 2 tablets, 1 files", told)
        for again, why in ((self.path / "restored", "is not empty"), (self.store, "is not empty")):
            status, told = said("restore", self.store, again)
            self.assertEqual(status, 2)
            self.assertIn(why, told)
        with Store(folder=self.path / "restored") as store:
            self.assertEqual(store.run(lambda t: [t.get(row, FAMILY) for row in (b"a", b"z")]), [b"1", b"2"])
            self.assertEqual(said("restore", self.path / "restored", self.path / "more")[0], 2)
        self.assertFalse((self.path / "more").exists())

    def test_a_store_without_a_stamp(self) -> None:
        new, copy = self.path / "new", self.path / "copy"
        new.mkdir()
        with Store(folder=new) as store:
            store.backup(copy)
        self.assertEqual(said("restore", copy, self.path / "restored")[0], 0)
        self.assertEqual(Store(folder=self.path / "restored").close(), 0)

    def test_files_that_go_meanwhile(self) -> None:
        """While a copy is made, a later checkpoint and a sweep remove the files that its root names."""
        copy = self.path / "copy"
        totals: list[int | None] = []

        with Store(folder=self.store, words=["--merge", "64"]) as store:
            for value in (b"3", b"4"):
                store.put(b"b", FAMILY, value)
                store.checkpoint()

            def replace(reached: Reached) -> None:
                if not totals:
                    store.major(1)
                    store.checkpoint()
                    self.assertGreater(store.sweep(), 0)
                totals.append(reached.total)

            copy_checkpoint(str(self.store), str(copy), replace)
        self.assertEqual(said("verify", copy)[0], 0)
        self.assertNotEqual(totals[0], totals[-1])
        with Store(folder=copy) as store:
            self.assertEqual(store.run(lambda t: [t.get(row, FAMILY) for row in (b"a", b"b", b"z")]), [b"1", b"4", b"2"])

    def test_damages(self) -> None:
        for name, change, why in (
            (FILE, lambda data: data[:40] + b"\xff" + data[41:], f"{FILE}: .*, at byte [0-9]+"),
            (FILE, lambda data: data[:-1], f"{FILE}: the foot isn't TABLETZZ, at byte [0-9]+"),
            (FILE, lambda data: EMPTY, f"{FILE}: the root says [0-9]+ bytes, and it has 48"),
            (FILE, None, f"{FILE}: the root names this file, and it isn't there"),
            (ROOT_FILE, lambda data: data + b"1", f"{ROOT_FILE}: the root goes on behind its foot, at byte [0-9]+"),
            (ROOT_FILE, None, f"{ROOT_FILE}: there is no root"),
            (MARK_FILE, lambda data: bytes(8), f"{MARK_FILE}: the mark 0 is below"),
            (LOG_FILE, lambda data: b"X" + data[1:], f"{LOG_FILE}: the head is neither .*, at byte 0"),
            (LOG_FILE, None, f"{LOG_FILE}: {SIGN_FILE} says that the folder has a log"),
        ):
            with self.subTest(name=name, why=why):
                file = self.store / name
                data = file.read_bytes()
                file.unlink()
                if change is not None:
                    file.write_bytes(change(data))
                for words in (("verify", self.store), ("restore", self.store, self.path / "restored")):
                    status, told = said(*words)
                    self.assertEqual(status, 1)
                    self.assertRegex(told, why)
                self.assertFalse((self.path / "restored").exists())
                file.write_bytes(data)
        self.assertEqual(said("verify", self.path / "none")[0], 2)


class Sums(FolderTest):
    """The sums of a backup's files."""

    def setUp(self) -> None:
        super().setUp()
        self.copy = self.path / "copy"
        with Store(folder=self.folder, checksums=False) as store:
            store.put(b"a", FAMILY, b"value")
            store.backup(self.copy)

    def assert_refused(self, why: str) -> None:
        """Neither `verify` nor `restore` nor the copying alone takes the backup."""
        target = self.path / "restored"
        for words in (("verify", self.copy), ("restore", self.copy, target)):
            status, told = said(*words)
            self.assertEqual(status, 1)
            self.assertRegex(told, why)
            self.assertFalse(target.exists())

    def test_they_are_those_of_sha256sum(self) -> None:
        lines = (self.copy / SUMS_FILE).read_text().splitlines()
        names = sorted([ROOT_FILE, FILE, LOG_FILE, SIGN_FILE, MARK_FILE])
        sums = [hashlib.sha256((self.copy / name).read_bytes()).hexdigest() for name in names]
        self.assertEqual(lines, [f"{digest}  {name}" for name, digest in zip(names, sums)])
        told = f"mark [0-9]+, as in {SUMS_FILE}\n"
        self.assertRegex(said("verify", self.copy)[1], told)
        self.assertRegex(said("restore", self.copy, self.path / "restored")[1], told)
        self.assertFalse((self.path / "restored" / SUMS_FILE).exists())

    def test_those_of_files_with_checksums(self) -> None:
        new, copy, restored = (self.path / name for name in ("new", "another", "restored"))
        new.mkdir()
        with Store(folder=new) as store:
            store.put(b"a", FAMILY, b"value")
            store.backup(copy)
        names = [line.split()[1] for line in (copy / SUMS_FILE).read_text().splitlines()]
        self.assertEqual(names, [SIGN_FILE, LOG_FILE, "format", MARK_FILE, "t8000000000000000.tab", "t8000000000000001.tab"])
        self.assertIn(f", as in {SUMS_FILE}\n", said("restore", copy, restored)[1])
        with Store(folder=restored) as store:
            self.assertEqual(store.get(b"a", FAMILY), b"value")

    def test_one_byte(self) -> None:
        """A byte inside a value, which no form shows; and one of each other file."""
        data = (self.copy / FILE).read_bytes()
        at = data.index(b"value")
        for name, place, why in (
            (FILE, at, f"{FILE}: its SHA-256 sum isn't the one in {SUMS_FILE}"),
            (MARK_FILE, -1, f"{MARK_FILE}: its SHA-256 sum isn't the one in {SUMS_FILE}"),
            (ROOT_FILE, -1, ROOT_FILE),
            (LOG_FILE, 0, LOG_FILE),
            (SUMS_FILE, 64, f"{SUMS_FILE}: this is no line of a sum and a name, at byte 0"),
            (SUMS_FILE, 0, f": its SHA-256 sum isn't|{SUMS_FILE}: this is no line"),
        ):
            with self.subTest(name=name, place=place):
                file = self.copy / name
                data = file.read_bytes()
                changed = bytearray(data)
                changed[place] ^= 1
                file.write_bytes(changed)
                self.assert_refused(why)
                file.write_bytes(data)
        file = self.copy / FILE
        file.write_bytes(file.read_bytes().replace(b"value", b"valuf"))
        self.assertRaisesRegex(FolderDamaged, "its SHA-256 sum", restore, str(self.copy), str(self.path / "restored"))
        self.assertFalse((self.path / "restored" / ROOT_FILE).exists())

    def test_a_file_too_few_or_too_many(self) -> None:
        lines = (self.copy / SUMS_FILE).read_text().splitlines(True)
        (self.copy / SUMS_FILE).write_text("".join(lines[1:]))
        self.assert_refused(f"{lines[0].split()[1]}: {SUMS_FILE} doesn't name this file")
        (self.copy / SUMS_FILE).write_text("".join([*lines, lines[0].replace("commit", "other")]))
        self.assert_refused(f"{SUMS_FILE} names this file, and it isn't there")

    def test_without_them(self) -> None:
        """An earlier backup has none. Those of a folder that a program has opened since are of other files."""
        (self.copy / SUMS_FILE).rename(self.path / "sums")
        self.assertRegex(said("verify", self.copy)[1], "mark [0-9]+\n")
        self.assertEqual(said("restore", self.copy, self.path / "restored")[0], 0)
        (self.path / "sums").rename(self.copy / SUMS_FILE)
        with Store(folder=self.copy) as store:
            store.put(b"a", FAMILY, b"later")
        self.assertRegex(said("verify", self.copy)[1], "mark [0-9]+\n")
        self.assertEqual(said("restore", self.copy, self.path / "again")[0], 0)


class Dumps(FolderTest):
    """Cells as lines, and back."""

    def cells(self) -> list[tuple[bytes, bytes, bytes]]:
        """Cells with each byte, texts that look like escapes, and more of them than a transaction may write."""
        odd = [bytes(range(256)), b"\\", b"\\x41", "ü\u2028\U0001f600".encode(), b"\xed\xb3\xbf\xff", b'"\n', b" "]
        return [(row, FAMILY, value) for row, value in zip(sorted(odd), odd)] + [
            (b"\xff row %03d" % number, b"!~", bytes(number)) for number in range(300)
        ]

    def test_lines(self) -> None:
        for cell in self.cells():
            line = line_of(cell)
            self.assertEqual(line.count(b"\n"), 1)
            self.assertEqual(cell_of(line), cell)

    def test_there_and_back(self) -> None:
        folders = [self.path / name for name in ("one", "two")]
        for folder in folders:
            folder.mkdir()
        lines = self.path / "lines"
        lines.write_bytes(b"".join(map(line_of, self.cells())))
        self.assertEqual(said("load", "--dir", folders[0], lines), (0, "307 cells are set\n"))
        gateway = Gateway(self, ["--dir", str(folders[1])])
        self.assertEqual(said("load", "--socket", gateway.path, lines), (0, "307 cells are set\n"))
        with Store(socket=gateway.path) as store:
            start = store.begin()
            store.set(start, b"held", FAMILY, b"v")
            store.step(start)
            for number, place in enumerate((("--dir", folders[0]), ("--dir", folders[1]), ("--socket", gateway.path))):
                dumped = self.path / f"dump{number}"
                self.assertEqual(said("dump", *place, dumped)[0], 0)
                self.assertEqual(dumped.read_bytes(), lines.read_bytes())
                self.assertEqual(said("dump", *place, dumped)[0], 2)

    def test_lines_of_no_cell(self) -> None:
        good = line_of((b"r", FAMILY, b"v"))
        for lines, cells, why in (
            (b"{", 0, "line 1: this is no JSON"),
            (300 * good + b"[1]\n", 256, "line 301: a line is an object"),
            (good + good.replace(b"row", b"raw"), 0, "line 2: a line is an object"),
            (good.replace(b'"r"', b"7"), 0, "line 1: a line is an object"),
            (good.replace(b'"r"', b'"\\udcff"'), 0, "line 1: a byte that is no UTF-8"),
            (good.replace(b'"r"', b'""'), 0, "lines 1 to 1: refused 3: BadRow"),
        ):
            with self.subTest(why):
                file = self.path / "lines"
                file.write_bytes(lines)
                status, told = said("load", "--dir", self.folder, file)
                self.assertEqual(status, 1)
                self.assertIn(why, told)
                self.assertIn(f"\n{cells} cells are set\n", told)


class Salvage(FolderTest):
    """What `dump --salvage` writes of a folder with two files and a log: what stands before the first wrong byte of each."""

    def setUp(self) -> None:
        super().setUp()
        self.store, self.out = self.path / "store", self.path / "out"
        self.store.mkdir()
        with Store(folder=self.store, checkpoint_at_close=False, words=["--merge", "64"], checksums=False) as store:
            for cells in ("a1 b2 c3", "bx d4", "e5 f6"):
                store.checkpoint()
                for row, value in cells.encode().split():
                    store.put(bytes([row]), FAMILY, bytes([value]))

    def salvaged(self) -> tuple[int, str, str]:
        """The status, what is said, and the cells."""
        status, told = said("dump", "--salvage", "--dir", self.store, self.out)
        cells = " ".join((row + value).decode() for row, _, value in map(cell_of, self.out.read_bytes().splitlines()))
        self.out.unlink()
        return status, told, cells

    def assert_salvaged(self, name: str, change: Callable[[bytes], bytes | None], cells: str, why: str) -> None:
        """These cells are written, and this is said, if a file is changed so, or isn't there."""
        file = self.store / name
        data = file.read_bytes()
        changed = change(data)
        file.unlink()
        if changed is not None:
            file.write_bytes(changed)
        with self.subTest(name=name, why=why):
            status, told, found = self.salvaged()
            self.assertEqual((status, found), (1, cells))
            self.assertRegex(told, why)
        file.write_bytes(data)

    def test_a_whole_one(self) -> None:
        self.assertEqual(self.salvaged(), (0, "", "a1 bx c3 d4 e5 f6"))

    def test_damaged_files(self) -> None:
        older, newer, c = FILE, file_name(2), b"c\0\0c\0\0data\0\0"
        none = "the column is none .*, at byte [0-9]+; 4 entries can be read"
        for name, change, cells, why in (
            (older, lambda data: data.replace(c, b"c" + c[:-1]), "a1 bx d4 e5 f6", none),
            (older, lambda data: data[: data.index(c)], "a1 bx d4 e5 f6", "the foot isn't .*; 4 entries can be read"),
            (older, lambda data: data[:-1] + b"X", "a1 bx c3 d4 e5 f6", "the foot isn't .*; 6 entries can be read"),
            (older, lambda data: EMPTY, "bx d4 e5 f6", "the root says [0-9]+ bytes, and 48 can be read"),
            (older, lambda data: b"", "bx d4 e5 f6", "the head is neither .*, at byte 0; 0 entries"),
            (newer, lambda data: None, "a1 b2 c3 e5 f6", f"{newer}: No such file"),
        ):
            self.assert_salvaged(name, change, cells, why)

    def test_data_that_is_missing(self) -> None:
        """No earlier value stands for it."""

        def other_stamp(data: bytes) -> bytes:
            at = data.index(b"b\0\0c\0\0data\0\0") + 19
            return data[:at] + bytes([data[at] ^ 1]) + data[at + 1 :]

        why = "b c is left out: .* has a record of [0-9]+, and no data at that stamp"
        self.assert_salvaged(file_name(2), other_stamp, "a1 c3 d4 e5 f6", why)

    def test_damaged_logs_and_roots(self) -> None:
        for change, cells, why in (
            (lambda data: b"X" + data[1:], "a1 bx c3 d4", "the head is neither .*, at byte 0"),
            (lambda data: data.replace(b"\1e\1c", b"\1E\1c", 1), "a1 bx c3 d4", "the frame of byte [0-9]+ is broken"),
            (lambda data: None, "a1 bx c3 d4", "the folder has a log, and it isn't there"),
        ):
            self.assert_salvaged(LOG_FILE, change, cells, why)
        self.assert_salvaged(ROOT_FILE, lambda data: None, "", "there is no root, which would name the files")
        (self.store / ROOT_FILE).write_bytes((self.store / ROOT_FILE).read_bytes()[:-1])
        status, told = said("dump", "--salvage", "--dir", self.store, self.out)
        self.assertEqual((status, self.out.exists()), (1, False))
        self.assertIn(f"{ROOT_FILE}: the root", told)

    def test_of_a_gateway(self) -> None:
        with self.assertRaises(SystemExit):
            said("dump", "--salvage", "--socket", "socket")


if __name__ == "__main__":
    unittest.main()
