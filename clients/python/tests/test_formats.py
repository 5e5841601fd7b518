"""The file formats: the client reads each example of docs/FORMATS.md, and reports malformed files with the offset of
the wrong byte."""

from __future__ import annotations

import io
import random
import unittest
from collections.abc import Callable, Iterable
from contextlib import redirect_stderr, redirect_stdout

from duqishom import BadForm, Kind, Lock, Patience, Qualifier, Record, Store, read_lock, read_record
from duqishom.files import (
    MOST_STAMP,
    Entry,
    FileRef,
    Key,
    RecordKind,
    Root,
    RootTablet,
    SortedFile,
    edits_in,
    entries_in,
    frame_of,
    key_of,
    log_of,
    mark_of,
    root_of,
    root_sum,
    sign_of,
    spelled_mark,
    store_of,
)
from duqishom.inspection import main
from duqishom.texts import bytes_of
from tests.folders import FolderTest
from tests.pages import Fenced, fenced

PAGE = "docs/FORMATS.md"
COLUMNS = {"data": Qualifier.DATA, "lock": Qualifier.LOCK, "write": Qualifier.WRITE}
KINDS = {"set": Kind.SET, "delete": Kind.DELETE}
RECORDS = {"edits": RecordKind.EDITS, "entries": RecordKind.ENTRIES, "root": RecordKind.ROOT, "any": RecordKind.ANY_ROOT}


def bytes_in(block: Fenced) -> bytes:
    """The bytes of an example."""
    return b"".join(bytes.fromhex(line.partition("#")[0]) for line in block.lines())


def tablet_of(word: str, form: int) -> RootTablet:
    """A tablet of a root in a word: number, end, server, files."""
    number, end, server, named = word.split(":")
    files = [file.split("/") for file in named.split(",")] if named else []
    references = tuple(FileRef(int(name), int(length) if form == 2 else None) for name, length in files)
    return RootTablet(int(number), end.encode() or None, int(server), references)


class Examples(unittest.TestCase):
    """The examples of the page."""

    def test_examples(self) -> None:
        blocks = fenced(PAGE, "form")
        self.assertEqual(len(blocks), 18)
        for block in blocks:
            kind, *words = block.more.split()
            with self.subTest(block.more):
                getattr(self, f"is_{kind.replace('-', '_')}")(bytes_in(block), *words)

    def is_key(self, data: bytes, row: str, family: str, column: str, stamp: str) -> None:
        self.assertEqual(key_of(data), Key(bytes_of(row), family.encode(), COLUMNS[column], int(stamp)))

    def is_lock(self, data: bytes, row: str, family: str, kind: str) -> None:
        self.assertEqual(read_lock(data), Lock(row.encode(), family.encode(), KINDS[kind]))

    is_old_lock = is_lock

    def is_record(self, data: bytes, start: str, kind: str) -> None:
        self.assertEqual(read_record(data), Record(int(start), KINDS[kind]))

    is_old_record = is_record

    def is_file(self, data: bytes, form: str, *words: str) -> None:
        file = SortedFile(data)
        file.check()
        found = [(key_of(text), value) for text, value in file.entries()]
        row, family, column, stamp, value = words or ("",) * 5
        key = [(Key(row.encode(), family.encode(), COLUMNS[column], int(stamp)), value.encode())] if words else []
        self.assertEqual((file.format, found), (int(form), key))

    def is_root(self, data: bytes, form: str, top: str, floor: str, next_name: str, *tablets: str) -> None:
        wanted = tuple(tablet_of(word, int(form)) for word in tablets or ("1::0:",))
        self.assertEqual(root_of(data), Root(int(form), int(top), int(floor), int(next_name), wanted))

    def is_log(self, data: bytes, form: str, *words: str) -> None:
        """A log, however it is cut. In format 2 a record's word has its kind, its stamp, and its body, or the body's
        length for edits and entries."""
        store, first, *records = words if form == "2" else ("0", "0", *words)
        for cut in range(45 if form == "2" else 8, len(data) + 1):
            log = log_of(data[:cut])
            found = [record.body for record in log.records]
            if form == "2":
                kinds = [(record.kind, record.stamp) for record in log.records]
                split = [word.split(":") for word in records[: len(found)]]
                self.assertEqual(kinds, [(RECORDS[kind], int(stamp)) for kind, stamp, _ in split])
                self.assertEqual([body.hex() if len(body) <= 4 else str(len(body)) for body in found], [b.lower() for *_, b in split])
            else:
                self.assertEqual(found, [word.encode() for word in records[: len(found)]])
            self.assertEqual((log.format, log.store, log.first), (int(form), int(store, 16), int(first)))
        self.assertEqual((len(found), log.end), (len(records), len(data)))

    def is_sign(self, data: bytes, store: str) -> None:
        self.assertEqual((store_of(data), sign_of(int(store, 16))), (int(store, 16), data))

    def is_edits(self, data: bytes, *words: str) -> None:
        self.are_edits(edits_in(data), *words)

    def is_entries(self, data: bytes, *words: str) -> None:
        self.are_edits(entries_in(data), *words)

    def are_edits(self, read: Iterable[Entry], *words: str) -> None:
        found = [(key_of(text), value) for text, value in read]
        wanted = [words[at : at + 5] for at in range(0, len(words), 5)]
        keys = [Key(bytes_of(row), family.encode(), COLUMNS[column], int(stamp)) for row, family, column, stamp, _ in wanted]
        self.assertEqual(found, [(key, value.encode() if value != "-" else None) for key, (*_, value) in zip(keys, wanted)])

    def is_mark(self, data: bytes, mark: str) -> None:
        self.assertEqual(mark_of(data), int(mark))


class OutsideTheForm(unittest.TestCase):
    """Malformed bytes."""

    def test_cut_short_and_going_on(self) -> None:
        """Files and roots that are cut short or have extra bytes are malformed."""
        readers: dict[str, Callable[[bytes], object]] = {
            "file": lambda data: SortedFile(data).check(),
            "root": root_of,
            "lock": read_lock,
            "record": read_record,
        }
        for block in fenced(PAGE, "form"):
            read = readers.get(block.more.split()[0])
            if read is None:
                continue
            data = bytes_in(block)
            for cut in range(len(data)):
                with self.subTest(block.more, cut=cut):
                    if block.more.split()[0] in ("file", "root"):
                        self.assertRaises(BadForm, read, data[:cut])
            self.assertRaises(BadForm, read, data + b"\x00")

    def test_later_frames(self) -> None:
        """A log with a wrong byte before a whole frame is damaged, and one with a wrong byte in its last frame ends before it."""
        [data] = [bytes_in(block) for block in fenced(PAGE, "form") if block.more.startswith("log 2")]
        for at, end, later in ((50, 45, 102), (60, 45, 102), (101, 45, 102), (102, 102, 148), (148, 148, 173), (173, 173, None), (197, 173, None)):
            log = log_of(data[:at] + bytes([data[at] ^ 1]) + data[at + 1 :])
            self.assertEqual((log.end, log.later), (end, later), at)
        for head in (b"", b"TABLOG", b"TABLOG03", data[:8], data[:44], data[:20] + b"\0" + data[21:]):
            self.assertRaises(BadForm, log_of, head)

    def test_a_mark_past_the_greatest_stamp(self) -> None:
        """It is malformed in a record, too."""
        greatest, past = (frame_of(1, RecordKind.EDITS, stamp, b"") for stamp in (MOST_STAMP, MOST_STAMP + 1))
        self.assertEqual(log_of(b"TABLOG02" + bytes(8) + greatest).mark(), MOST_STAMP)
        with self.assertRaises(BadForm) as caught:
            log_of(b"TABLOG02" + bytes(8) + past)
        self.assertEqual(caught.exception.at, 33)
        self.assertEqual(mark_of(spelled_mark(MOST_STAMP)), MOST_STAMP)
        self.assertRaises(BadForm, mark_of, spelled_mark(MOST_STAMP + 1))

    def test_the_checksum_of_a_root(self) -> None:
        """A log names the root of the page: the lengths of the root's files don't matter."""
        data = {block.more.split()[0] + block.more.split()[1]: bytes_in(block) for block in fenced(PAGE, "form")}
        root, log = root_of(data["root2"]), log_of(data["log2"][:45])
        self.assertTrue(log.is_over(root))
        self.assertEqual(root_sum(root), root_sum(root_of(data["root2"].replace(b"\x7b", b"\x7c"))))
        self.assertFalse(log.is_over(root_of(data["root1"])))

    def test_first_wrong_byte(self) -> None:
        [_, one, _] = [bytes_in(block) for block in fenced(PAGE, "form") if block.more.startswith("file")]
        for at, wrong in ((0, 0), (11, 0), (14, 1), (15, 0x3A), (34, 2), (41, 1), (57, 1), (80, 1), (90, 1), (122, 0)):
            data = one[:at] + bytes([wrong]) + one[at + 1 :]
            with self.subTest(at=at), self.assertRaises(BadForm) as caught:
                SortedFile(data).check()
            self.assertLessEqual(abs(caught.exception.at - at), 8, caught.exception.what)


    def test_wrong_fields_of_an_edit(self) -> None:
        """The first byte has a column, and row, family and stamp are within their limits."""
        [edits] = [bytes_in(block) for block in fenced(PAGE, "form") if block.more.startswith("edits")]
        for at, wrong, told in ((0, 0x03, 0), (0, 0x20, 0), (2, 0, 1), (6, 0x3A, 5), (14, 0, 7), (7, 0x80, 7), (15, 1, 35)):
            data = edits[:at] + bytes([wrong]) + edits[at + 1 :]
            with self.subTest(at=at), self.assertRaises(BadForm) as caught:
                list(edits_in(data))
            self.assertEqual(caught.exception.at, told)


class Inspection(FolderTest):
    """The output of `inspect` for a folder agrees with the program's answers."""

    def inspected(self, *words: str) -> tuple[int, list[str], str]:
        """The status of the command, and its output on both streams."""
        written, told = io.StringIO(), io.StringIO()
        with redirect_stdout(written), redirect_stderr(told):
            status = main([self.folder, *words])
        return status, written.getvalue().splitlines(), told.getvalue()

    def test_agrees_with_the_program(self) -> None:
        chance = random.Random(46)
        rows = [bytes_of(f"r{number}\\x00") if number % 3 == 0 else b"r%d" % number for number in range(30)]
        kept: dict[bytes, bytes] = {}
        with Store(folder=self.folder, words=("--flush", "9", "--merge", "6"), patience=Patience(pause=0)) as store:
            for number in range(150):
                row = chance.choice(rows)
                with store.transaction() as transaction:
                    if chance.random() < 0.2:
                        transaction.delete(row, b"c")
                        kept.pop(row, None)
                    else:
                        transaction.set(row, b"c", b"%d" % number)
                        kept[row] = b"%d" % number
                if number in (50, 100):
                    store.split(rows[number // 10])
                if number == 120:
                    store.collect()
            left = store.begin()
            store.set(left, b"left", b"c", b"")
            store.step(left)
            store.checkpoint()
            status, lines, told = self.inspected("cells")
            self.assertIn("is in use by process", told)
            found = [line.split("\t") for line in lines]
            self.assertEqual([(bytes_of(row), bytes_of(value)) for row, _, value in found], sorted(kept.items()))
            store.sweep()
            store.checkpoint()
        self.assertEqual(self.inspected("locks"), (0, [f"left c: session {left} sets it; its first cell is left c"], ""))
        self.assertEqual(self.inspected("cells", "r1")[1], [line for line in lines if line.startswith("r1")])
        self.assertEqual([line.split()[0] for line in self.inspected("tablets")[1]], [str(t.number) for t in store.tablets()])
        # A name that is no file's of a store
        (self.path / f"t{'-' * 16}.tab").touch()
        for what in ("stats", "files"):
            self.assertEqual(self.inspected(what)[0], 0)
        self.assertIn("3 tablets", self.inspected("stats")[1][1])

    def test_damage_is_named(self) -> None:
        with Store(folder=self.folder, checksums=False) as store:
            store.run(lambda transaction: transaction.set(b"r", b"c", b"v"))
        file = self.path / "t0000000000000001.tab"
        whole = file.read_bytes()
        file.write_bytes(whole[:9] + b"\x01" + whole[10:])
        status, _, told = self.inspected()
        self.assertEqual((status, told), (1, f"inspect: {file}: a key is longer than the entries, at byte 8\n"))
        self.folder += "/none"
        self.assertEqual(self.inspected()[0], 2)


if __name__ == "__main__":
    unittest.main()
