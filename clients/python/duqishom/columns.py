"""The contents of a lock and of a commit record: the values of the columns lock and write."""

from __future__ import annotations

from enum import IntEnum
from typing import NamedTuple

START_BYTES = 8


class BadForm(Exception):
    """Bytes are malformed. `at` is the offset of the first wrong byte, if there is one."""

    def __init__(self, what: str, at: int = 0) -> None:
        super().__init__(what)
        self.what = what
        self.at = at


class Kind(IntEnum):
    """The kind of a session's write to a cell."""

    SET = 0x53
    DELETE = 0x44


class Lock(NamedTuple):
    """A lock: the first cell of its session, which decides its fate, and the kind of the session's write to the locked
    cell."""

    row: bytes
    family: bytes
    kind: Kind


class Record(NamedTuple):
    """A commit record: the start of its session, and the kind of its write to the cell."""

    start: int
    kind: Kind


def read_place(place: bytes) -> tuple[bytes, bytes, int]:
    """The row and the family at the front of a text, and the number of bytes that they take. Each byte 00 of a row is
    followed by FF there, and 00 00 ends row and family."""
    at = 0
    while (zero := place.find(b"\x00", at)) >= 0 and place[zero + 1 : zero + 2] == b"\xff":
        at = zero + 2
    if zero < 0 or place[zero + 1 : zero + 2] != b"\x00":
        raise BadForm("a row has no end", len(place) if zero < 0 else zero + 1)
    row, family_end = place[:zero].replace(b"\x00\xff", b"\x00"), place.find(b"\x00\x00", zero + 2)
    if family_end < 0:
        raise BadForm("a family has no end", len(place))
    return row, place[zero + 2 : family_end], family_end + 2


def read_kind(value: bytes, at: int) -> Kind:
    """The kind at the end of a value: a set if the value ends before it, as older programs wrote it."""
    if len(value) == at:
        return Kind.SET
    if value[at] not in (Kind.SET, Kind.DELETE):
        raise BadForm("this is no kind", at)
    if len(value) > at + 1:
        raise BadForm("the value goes on behind its kind", at + 1)
    return Kind(value[at])


def read_lock(value: bytes) -> Lock:
    """The lock that a value of the column lock encodes. BadForm if it is malformed."""
    row, family, end = read_place(value)
    return Lock(row, family, read_kind(value, end))


def read_record(value: bytes) -> Record:
    """The commit record that a value of the column write encodes. BadForm if it is malformed."""
    if len(value) < START_BYTES:
        raise BadForm("a start has 8 bytes", len(value))
    return Record(int.from_bytes(value[:START_BYTES], "big"), read_kind(value, START_BYTES))
