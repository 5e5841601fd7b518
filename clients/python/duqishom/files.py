"""The forms of the files of a folder: sorted files, the root, the log and its sign, the mark. `docs/FORMATS.md` has them in words.

Each is read as the program reads it, and malformed files are reported with the offset of their first wrong byte.
"""

from __future__ import annotations

import re
import struct
from collections.abc import Iterable, Iterator
from contextlib import suppress
from dataclasses import dataclass
from enum import IntEnum
from mmap import mmap
from typing import NamedTuple
from zlib import crc32

from duqishom.answers import Qualifier
from duqishom.columns import BadForm

MOST_STAMP = 2**63 - 1
MOST_NAME = 2**63
MOST_TABLETS = 1024
MOST_FILES = 64
MOST_SERVER = 15
LONGEST_ROW = 4000
LONGEST_VALUE = 65_536
LONGEST_BLOCK = 4096
FILE_FOOT = b"TABLETZZ"
ROOT_FOOT = b"TABROOTZ"
MARK_FILE = "oracle.mark"
LOCK_FILE = "lock"
LOG_FILE = "commit.log"
SIGN_FILE = "commit.id"
LOG_HEADS = {b"TABLOG01": 1, b"TABLOG02": 2}
SIGN_HEAD = b"TABSTORE"
LONGEST_RECORD = 134_217_728
FIRST_RECORDS = 2**63
WINDOW = 131_072
FAMILY = re.compile(rb"[!-9;-~]{1,64}")
COLUMNS = {b"data": Qualifier.DATA, b"lock": Qualifier.LOCK, b"write": Qualifier.WRITE}
NAMES = {column: name for name, column in COLUMNS.items()}
# The column of an edit of a log, by the last digit of its first byte; with the bit of an erasure it is erased
EDITED = dict(enumerate(COLUMNS.values()))
ERASES = 0x10

Bytes = bytes | mmap


def file_name(name: int) -> str:
    """The file name for a number in its folder. Number 0 is the root."""
    return f"t{name:016x}.tab"


ROOT_FILE = file_name(0)


class Key(NamedTuple):
    """A version of a column of a cell."""

    row: bytes
    family: bytes
    column: Qualifier
    stamp: int


class Entry(NamedTuple):
    """An entry of a sorted file: a version with its value, or its erasure if the value is None."""

    text: bytes
    value: bytes | None


@dataclass(frozen=True)
class Form:
    """A format of sorted files: the numbers of its foot and of a row of its index."""

    foot: struct.Struct
    place: struct.Struct


FORMS = {
    b"TABLET01": Form(struct.Struct(">IIII"), struct.Struct(">III")),
    b"TABLET02": Form(struct.Struct(">QQQQ"), struct.Struct(">QQI")),
}
ROOT_HEADS = {b"TABROOT1": 1, b"TABROOT2": 2}
NUMBER = struct.Struct(">I")
LONG_NUMBER = struct.Struct(">Q")
FRAME = struct.Struct(">II")
LOG_RECORD = struct.Struct(">QBQ")


def first_difference(got: bytes, wanted: bytes) -> int:
    """The offset of the first byte in which two texts differ."""
    for at, (one, other) in enumerate(zip(got, wanted)):
        if one != other:
            return at
    return min(len(got), len(wanted))


def key_of(text: bytes) -> Key:
    """The key that a text encodes: row, family, column and stamp. BadForm if it is malformed."""
    zero, at = text.find(b"\x00"), 0
    while zero >= 0 and text[zero + 1 : zero + 2] == b"\xff":
        at = zero + 2
        zero = text.find(b"\x00", at)
    if zero < 0 or text[zero + 1 : zero + 2] != b"\x00":
        raise BadForm("the row has no end", len(text) if zero < 0 else zero + 1)
    row, at = text[:zero].replace(b"\x00\xff", b"\x00"), zero + 2
    if not 1 <= len(row) <= LONGEST_ROW:
        raise BadForm("a row has 1 to 4,000 bytes", 0)
    end = text.find(b"\x00\x00", at)
    family = text[at : max(end, at)]
    if end < 0 or not FAMILY.fullmatch(family):
        raise BadForm("this is no family with its end", at)
    at, end = end + 2, text.find(b"\x00\x00", end + 2)
    column = COLUMNS.get(text[at : max(end, at)])
    if column is None:
        raise BadForm("the column is none of data, lock and write", at)
    at = end + 2
    stamp = 2**64 - 1 - int.from_bytes(text[at:], "big")
    if len(text) != at + 8 or not 1 <= stamp <= MOST_STAMP:
        raise BadForm("this is no stamp of 8 bytes", at)
    return Key(row, family, column, stamp)


def key_text(key: Key) -> bytes:
    """The text of a key."""
    row = key.row.replace(b"\x00", b"\x00\xff")
    return b"\x00\x00".join((row, key.family, NAMES[key.column], LONG_NUMBER.pack(2**64 - 1 - key.stamp)))


class SortedFile:
    """The bytes of a sorted file: its header and footer are read at once, its entries on demand."""

    def __init__(self, data: Bytes) -> None:
        self._data = data
        head = bytes(data[:8])
        if head not in FORMS:
            raise BadForm("the head is neither TABLET01 nor TABLET02", first_difference(head, b"TABLET01"))
        self.form = FORMS[head]
        self.format = int(head[-1:])
        self.size = len(data)
        self._foot = len(data) - self.form.foot.size - len(FILE_FOOT)
        if self._foot < 8:
            raise BadForm("the file ends before its foot", len(data))
        foot = bytes(data[-len(FILE_FOOT) :])
        if foot != FILE_FOOT:
            raise BadForm("the foot isn't TABLETZZ", len(data) - 8 + first_difference(foot, FILE_FOOT))
        self.index, self.blocks, self.count, self.length = self.form.foot.unpack_from(data, self._foot)
        if not 8 <= self.index <= self._foot:
            raise BadForm("the index isn't where the foot says", self._foot)

    def entries(self) -> Iterator[Entry]:
        """The entries, in order. Only the end of each entry is checked."""
        data, at = self._data, 8
        while at < self.index:
            key, kind = self._counted(at, "a key")
            value, at = (self._counted(kind + 1, "a value")) if data[kind] == 1 else (None, kind + 1)
            yield Entry(key, value)

    def _counted(self, at: int, what: str) -> tuple[bytes, int]:
        """Bytes after their length, and the offset of their end."""
        data, text = self._data, at + 4
        if text > self.index:
            raise BadForm(f"the entries end inside {what}", at)
        end = text + NUMBER.unpack_from(data, at)[0]
        if end > self.index or (what == "a key" and end == self.index):
            raise BadForm(f"{what} is longer than the entries", at)
        return bytes(data[text:end]), end

    def check(self) -> None:
        """Reads the whole file. BadForm at the first wrong byte."""
        index, count = self._check_entries()
        found = bytes(self._data[self.index : self._foot])
        wanted = b"".join(self.form.place.pack(at, length, len(key)) + key for at, length, key in index)
        if found != wanted:
            raise BadForm("the index isn't that of the blocks", self.index + first_difference(found, wanted))
        numbers = self.form.foot.pack(self.index, len(index), count, len(self._data))
        said = bytes(self._data[self._foot : self._foot + len(numbers)])
        if said != numbers:
            raise BadForm("the foot's numbers aren't those of the file", self._foot + first_difference(said, numbers))

    def checked(self, entries: Iterable[Entry]) -> Iterator[Entry]:
        """These entries, each after all of it was checked. BadForm at the first wrong byte."""
        at, last = 8, b""
        for text, value in entries:
            try:
                key_of(text)
            except BadForm as bad:
                raise BadForm(bad.what, at + 4 + bad.at) from None
            if text <= last:
                raise BadForm("the keys don't rise", at + 4)
            if value is None and self._data[at + 4 + len(text)] != 0:
                raise BadForm("this is no kind of an entry", at + 4 + len(text))
            if value is not None and len(value) > LONGEST_VALUE:
                raise BadForm("a value has more than 65,536 bytes", at + 5 + len(text))
            yield Entry(text, value)
            at, last = at + length_of(text, value), text

    def _check_entries(self) -> tuple[list[tuple[int, int, bytes]], int]:
        """The blocks of the entries, each with its offset, its length and its first key, and the number of entries."""
        blocks: list[tuple[int, int, bytes]] = []
        at, count = 8, 0
        for text, value in self.checked(self.entries()):
            length = length_of(text, value)
            if blocks and blocks[-1][1] + length <= LONGEST_BLOCK:
                blocks[-1] = (blocks[-1][0], blocks[-1][1] + length, blocks[-1][2])
            else:
                blocks.append((at, length, text))
            at, count = at + length, count + 1
        return blocks, count


class BrokenFile(SortedFile):
    """A sorted file of which something is wrong. Its entries are those before the first wrong byte of them, wherever its foot
    says that they end."""

    def __init__(self, data: Bytes) -> None:
        self._data = data
        self.index = self.size = len(data)

    def entries(self) -> Iterator[Entry]:
        with suppress(BadForm):
            yield from self.checked(super().entries())


def length_of(text: bytes, value: bytes | None) -> int:
    """The bytes that an entry takes."""
    return 5 + len(text) + (0 if value is None else 4 + len(value))


class FileRef(NamedTuple):
    """A file that a root names: its length too, in a root of format 2."""

    name: int
    length: int | None


class RootTablet(NamedTuple):
    """A tablet of a root: the last has no end. Its newest file is first."""

    number: int
    end: bytes | None
    server: int
    files: tuple[FileRef, ...]


class Root(NamedTuple):
    """The contents of a root file, or those of a new store if there isn't one."""

    format: int
    top: int
    floor: int
    next_name: int
    tablets: tuple[RootTablet, ...]


NEW_ROOT = Root(0, 0, 0, 1, (RootTablet(1, None, 0, ()),))


class RootReader:
    """Reads the parts of a root from its front. BadForm at the byte where a part is wrong."""

    def __init__(self, data: bytes) -> None:
        self.data = data
        self.at = 0

    def take(self, count: int) -> bytes:
        """The next `count` bytes."""
        taken = self.data[self.at : self.at + count]
        if len(taken) < count:
            raise BadForm("the root ends inside a field", len(self.data))
        self.at += count
        return taken

    def number(self, width: int, least: int, most: int, what: str) -> int:
        """The next number, of `width` bytes and within these bounds."""
        at, found = self.at, int.from_bytes(self.take(width), "big")
        if not least <= found <= most:
            raise BadForm(f"{what} is {found}, and not {least} to {most}", at)
        return found

    def end(self, is_last: bool) -> bytes | None:
        """The end of a tablet."""
        at = self.at
        if self.number(1, 0, 1, "the kind of a tablet's end"):
            if not is_last:
                raise BadForm("a tablet without an end isn't the last", at)
            return None
        if is_last:
            raise BadForm("the last tablet has an end", at)
        return self.take(self.number(4, 1, LONGEST_ROW, "the length of a row"))


def root_of(data: bytes) -> Root:
    """The root that these bytes encode."""
    fields = RootReader(data)
    head = fields.take(8)
    if head not in ROOT_HEADS:
        raise BadForm("the head is neither TABROOT1 nor TABROOT2", first_difference(head, b"TABROOT1"))
    top = fields.number(8, 0, MOST_STAMP, "the greatest stamp")
    floor = fields.number(8, 0, MOST_STAMP + 1, "the floor")
    next_name = fields.number(8, 1, MOST_NAME, "the next file name")
    at = fields.at
    next_tablet = fields.number(4, 2, MOST_TABLETS + 1, "the next tablet number")
    count = fields.number(4, 1, MOST_TABLETS, "the tablet count")
    if next_tablet != count + 1:
        raise BadForm("the next tablet number isn't the count plus 1", at)
    tablets: list[RootTablet] = []
    for place in range(count):
        tablets.append(read_root_tablet(fields, ROOT_HEADS[head], next_name, count, tablets))
    at, foot = fields.at, fields.take(8)
    if foot != ROOT_FOOT:
        raise BadForm("the foot isn't TABROOTZ", at + first_difference(foot, ROOT_FOOT))
    if fields.at < len(data):
        raise BadForm("the root goes on behind its foot", fields.at)
    return Root(ROOT_HEADS[head], top, floor, next_name, tuple(tablets))


def read_root_tablet(
    fields: RootReader, form: int, next_name: int, count: int, before: list[RootTablet]
) -> RootTablet:
    """The next tablet of a root of `count` tablets, after the tablets before it."""
    at, number = fields.at, fields.number(4, 1, count, "the number of a tablet")
    if any(number == other.number for other in before):
        raise BadForm("two tablets have this number", at)
    at, end = fields.at, fields.end(len(before) + 1 == count)
    if end is not None and before and end <= (before[-1].end or b""):
        raise BadForm("the ends don't rise", at)
    server = fields.number(1, 0, MOST_SERVER, "a server")
    files: list[FileRef] = []
    for _ in range(fields.number(4, 0, MOST_FILES, "the count of a tablet's files")):
        at, name = fields.at, fields.number(8, 1, next_name - 1, "the name of a file")
        if any(name == other.name for other in files):
            raise BadForm("a tablet has this file twice", at)
        files.append(FileRef(name, fields.number(8, 0, 2**64 - 1, "a length") if form == 2 else None))
    return RootTablet(number, end, server, tuple(files))


def root_sum(root: Root) -> int:
    """The checksum by which a log names a root: of its bytes in format 2, with 0 as each file's length."""
    count = len(root.tablets)
    said = b"TABROOT2" + struct.pack(">QQQII", root.top, root.floor, root.next_name, count + 1, count)
    for tablet in root.tablets:
        end = b"\x01" if tablet.end is None else b"\x00" + NUMBER.pack(len(tablet.end)) + tablet.end
        said += NUMBER.pack(tablet.number) + end + struct.pack(">BI", tablet.server, len(tablet.files))
        said += b"".join(struct.pack(">QQ", file.name, 0) for file in tablet.files)
    return crc32(said + ROOT_FOOT)


class RecordKind(IntEnum):
    """The kind of a log record: edits, as entries if an earlier program wrote them, or the root that the log continues."""

    ENTRIES = 0
    ROOT = 1
    ANY_ROOT = 2
    EDITS = 3


class LogRecord(NamedTuple):
    """A record: its stamp, above which none was answered by then, 0 in a record of any root; and its body with the
    body's offset."""

    kind: RecordKind
    stamp: int
    at: int
    body: bytes


@dataclass(frozen=True)
class Log:
    """The records of the whole frames of a log, the offset of their end, the offset at which the room begins, which are
    the zeros at the end of the file, and the offset before it at which a later whole frame begins, if one does. In format 1
    there is no store and no first number, and all records are entries."""

    format: int
    store: int
    first: int
    records: tuple[LogRecord, ...]
    end: int
    room: int
    later: int | None = None

    def edits(self) -> Iterator[Entry]:
        """The edits, in order. BadForm at the byte where an edit is malformed."""
        for record in self.records:
            if record.kind is RecordKind.EDITS:
                yield from edits_in(record.body, record.at)
            elif record.kind is RecordKind.ENTRIES:
                yield from entries_in(record.body, record.at)

    def is_over_any(self) -> bool:
        """Whether it continues any root."""
        return self.format == 1 or any(record.kind is RecordKind.ANY_ROOT for record in self.records)

    def roots(self) -> list[tuple[int, int]]:
        """The roots that it names: the greatest stamp and the checksum of each."""
        named = [record for record in self.records if record.kind is RecordKind.ROOT]
        return [(record.stamp, int.from_bytes(record.body, "big")) for record in named]

    def is_over(self, root: Root) -> bool:
        """Whether it continues this root."""
        return self.is_over_any() or (root.top, root_sum(root)) in self.roots()

    def mark(self) -> int:
        """The greatest stamp of its records, or 0. The store's mark is at least this one."""
        return max((record.stamp for record in self.records), default=0)


def log_of(data: bytes) -> Log:
    """The contents of a log. BadForm if it is malformed; a frame that isn't whole and all bytes after it are left
    out."""
    form = LOG_HEADS.get(data[:8])
    if form is None:
        near = min(LOG_HEADS, key=lambda head: -first_difference(data[:8], head))
        raise BadForm("the head is neither TABLOG01 nor TABLOG02", first_difference(data[:8], near))
    if form == 1:
        frames = list(frames_of(data, len(SIGN_HEAD)))
        old = tuple(LogRecord(RecordKind.ENTRIES, 0, at, record) for at, record in frames)
        end = frames[-1][0] + len(frames[-1][1]) if frames else 8
        return Log(1, 0, 0, old, end, room_of(data, end))
    if len(data) < 16:
        raise BadForm("the log ends inside the number of its store", len(data))
    store, first = LONG_NUMBER.unpack_from(data, 8)[0], number_at(data, 16)
    if first is None or first >= FIRST_RECORDS:
        raise BadForm("no first record stands here", 16)
    records: list[LogRecord] = []
    end = 16
    for at, record in frames_of(data, end):
        if len(record) < LONG_NUMBER.size or LONG_NUMBER.unpack_from(record)[0] != first + len(records):
            break
        records.append(log_record(record, at))
        end = at + len(record)
    return Log(2, store, first, tuple(records), end, room_of(data, end), later_frame(data, end, first + len(records)))


def room_of(data: bytes, end: int) -> int:
    """The offset from which on a log whose records end at `end` has only zeros."""
    return max(end, len(data.rstrip(b"\0")))


def frame_at(data: bytes, at: int) -> bytes | None:
    """The record whose whole frame begins at an offset, if one does."""
    begin = at + FRAME.size
    if begin > len(data):
        return None
    length, check = FRAME.unpack_from(data, at)
    record = data[begin : begin + length] if length <= LONGEST_RECORD else b""
    return record if len(record) == length and crc32(NUMBER.pack(length) + record) == check else None


def frames_of(data: bytes, at: int) -> Iterator[tuple[int, bytes]]:
    """The records of the consecutive whole frames from an offset on, each with its offset."""
    while (record := frame_at(data, at)) is not None:
        yield at + FRAME.size, record
        at += FRAME.size + len(record)


def number_at(data: bytes, at: int) -> int | None:
    """The number of the record whose whole frame begins at an offset, if one does."""
    record = frame_at(data, at)
    return None if record is None or len(record) < LONG_NUMBER.size else LONG_NUMBER.unpack_from(record)[0]


def later_frame(data: bytes, at: int, number: int) -> int | None:
    """The offset, from `at` on, of the first whole frame whose number is this one or one of the next numbers."""
    # The first five bytes of these numbers are alike, or of two kinds
    starts = {LONG_NUMBER.pack(one)[:5] for one in (number, number + WINDOW - 1)}
    for found in re.finditer(b"(?=" + b"|".join(map(re.escape, starts)) + b")", data[at + FRAME.size :]):
        later = number_at(data, at + found.start())
        if later is not None and number <= later < number + WINDOW:
            return at + found.start()
    return None


def log_record(record: bytes, at: int) -> LogRecord:
    """The record at an offset, after its number."""
    if len(record) < LOG_RECORD.size:
        raise BadForm("the record ends before its body", at + len(record))
    _, kind, stamp = LOG_RECORD.unpack_from(record)
    body = record[LOG_RECORD.size :]
    lengths = {RecordKind.ROOT: 4, RecordKind.ANY_ROOT: 0}
    if kind not in list(RecordKind):
        raise BadForm("this is no kind of a record", at + LONG_NUMBER.size)
    if len(body) != lengths.get(RecordKind(kind), len(body)) or (kind == RecordKind.ANY_ROOT and stamp):
        raise BadForm("the record isn't that of its kind", at + LONG_NUMBER.size)
    if stamp > MOST_STAMP:
        raise BadForm("a record's stamp is no more than the greatest stamp", at + LONG_NUMBER.size + 1)
    return LogRecord(RecordKind(kind), stamp, at + LOG_RECORD.size, body)


def renewed_log(log: Log, root: Root) -> bytes:
    """The bytes of a log of the same store after a checkpoint: one record, which names this root, instead of all its
    records."""
    if log.format == 1:
        return b"TABLOG01"
    body = NUMBER.pack(root_sum(root))
    only = frame_of(log.first + len(log.records), RecordKind.ROOT, root.top, body)
    return b"TABLOG02" + LONG_NUMBER.pack(log.store) + only


def frame_of(number: int, kind: RecordKind, stamp: int, body: bytes) -> bytes:
    """The frame of a record of format 2."""
    record = LOG_RECORD.pack(number, kind, stamp) + body
    length = NUMBER.pack(len(record))
    return length + NUMBER.pack(crc32(length + record)) + record


def sign_of(store: int) -> bytes:
    """The sign that a folder has a log: the sign of the store with this number."""
    said = SIGN_HEAD + LONG_NUMBER.pack(store)
    return said + NUMBER.pack(crc32(said))


def store_of(data: bytes) -> int:
    """The store's number in a sign of these bytes."""
    store = int.from_bytes(data[8:16], "big")
    if data != sign_of(store):
        raise BadForm("this is no sign of a store", first_difference(data, sign_of(store)))
    return store


class EditReader:
    """Reads the fields of the edits in a record that begins at an offset of its log. BadForm at the byte where a field is
    wrong."""

    def __init__(self, record: bytes, begin: int) -> None:
        self._record, self._begin, self._at = record, begin, 0

    def is_done(self) -> bool:
        """Whether all edits were read."""
        return self._at == len(self._record)

    def edit(self) -> Entry:
        """The next edit."""
        at, kind = self._at, self._taken(1)[0]
        column = EDITED.get(kind & ~ERASES)
        if column is None:
            raise BadForm("this is no byte of an edit's column", self._begin + at)
        at, row = self._at, self._counted(2)
        if not 1 <= len(row) <= LONGEST_ROW:
            raise BadForm("a row has 1 to 4,000 bytes", self._begin + at)
        at, family = self._at, self._counted(1)
        if not FAMILY.fullmatch(family):
            raise BadForm("this is no family", self._begin + at)
        at, stamp = self._at, int.from_bytes(self._taken(8), "big")
        if not 1 <= stamp <= MOST_STAMP:
            raise BadForm("this is no stamp of 8 bytes", self._begin + at)
        at, value = self._at, None if kind & ERASES else self._counted(4)
        if value is not None and len(value) > LONGEST_VALUE:
            raise BadForm("a value has more than 65,536 bytes", self._begin + at)
        return Entry(key_text(Key(row, family, column, stamp)), value)

    def _taken(self, count: int) -> bytes:
        taken = self._record[self._at : self._at + count]
        if len(taken) < count:
            raise BadForm("the record ends inside an edit", self._begin + len(self._record))
        self._at += count
        return taken

    def _counted(self, width: int) -> bytes:
        """Bytes behind their length, a number of `width` bytes."""
        return self._taken(int.from_bytes(self._taken(width), "big"))


def edits_in(record: bytes, begin: int = 0) -> Iterator[Entry]:
    """The edits of a record that begins at an offset of its log."""
    reader = EditReader(record, begin)
    while not reader.is_done():
        yield reader.edit()


def entries_in(record: bytes, begin: int = 0) -> Iterator[Entry]:
    """The same of a record of entries, which earlier programs wrote."""
    at = 0
    while at < len(record):
        text, kind = counted_in(record, at, begin)
        if record[kind : kind + 1] not in (b"\x00", b"\x01"):
            raise BadForm("this is no kind of an edit", begin + kind)
        try:
            key_of(text)
        except BadForm as bad:
            raise BadForm(bad.what, begin + at + NUMBER.size + bad.at) from None
        value, at = counted_in(record, kind + 1, begin) if record[kind] else (None, kind + 1)
        if value is not None and len(value) > LONGEST_VALUE:
            raise BadForm("a value has more than 65,536 bytes", begin + kind + 1)
        yield Entry(text, value)


def counted_in(record: bytes, at: int, begin: int) -> tuple[bytes, int]:
    """Bytes of a record after their length, and the offset of their end. BadForm if the record ends before it."""
    text = at + NUMBER.size
    end = text + NUMBER.unpack_from(record, at)[0] if text <= len(record) else text
    if end > len(record):
        raise BadForm("the record ends inside an edit", begin + at)
    return record[text:end], end


def mark_of(data: bytes) -> int:
    """The mark that these bytes encode: the next stamps are above it."""
    if len(data) != 8:
        raise BadForm("a mark has 8 bytes", min(len(data), 8))
    mark = int.from_bytes(data, "big")
    if mark > MOST_STAMP:
        raise BadForm("a mark is no more than the greatest stamp", 0)
    return mark


def spelled_mark(mark: int) -> bytes:
    """The bytes that encode a mark."""
    return LONG_NUMBER.pack(mark)
