"""The operations of one step but Status: the encoding of their requests and the decoding of their answers."""

from __future__ import annotations

from dataclasses import dataclass
from typing import ClassVar, Protocol, TypeVar

from duqishom.answers import (
    Cleaned,
    Cleaner,
    Collection,
    Collector,
    Found,
    Piece,
    Progress,
    Qualifier,
    Scanned,
    Version,
    read_cleaned,
    read_cleaner,
    read_collection,
    read_found,
    read_piece,
    read_progress,
    read_scanned,
    read_version,
)
from duqishom.fields import FieldReader, MalformedReply, counted_argument, number
from duqishom.refusals import BY_NUMBER, Refused, TooManySessions

REFUSED = 0xFF

# The maximum number of cells that a scan visits.
MOST_CELLS = 1000

Answer = TypeVar("Answer", covariant=True)


class Operation(Protocol[Answer]):
    """A request. Its reply has the same number with the highest bit set."""

    code: ClassVar[int]

    def fields(self) -> bytes:
        """The encoded fields, which follow the operation's number in the body."""

    def read(self, fields: FieldReader) -> Answer:
        """Decodes the answer from the fields of the reply."""


class WithoutAnswer:
    """An operation whose reply has no fields."""

    def read(self, fields: FieldReader) -> None:
        return None


@dataclass(frozen=True)
class Begin:
    """Begins a session. The answer is its start."""

    code: ClassVar[int] = 0x01

    def fields(self) -> bytes:
        return b""

    def read(self, fields: FieldReader) -> int:
        return fields.number(8)


@dataclass(frozen=True)
class Get:
    """Reads a cell as of the session's start."""

    start: int
    row: bytes
    family: bytes
    code: ClassVar[int] = 0x02

    def fields(self) -> bytes:
        return number(8, self.start) + counted_argument("row", self.row) + counted_argument("family", self.family)

    def read(self, fields: FieldReader) -> Found:
        return read_found(fields)


@dataclass(frozen=True)
class Set(WithoutAnswer):
    """Buffers a write in the session."""

    start: int
    row: bytes
    family: bytes
    value: bytes
    code: ClassVar[int] = 0x03

    def fields(self) -> bytes:
        cell = counted_argument("row", self.row) + counted_argument("family", self.family)
        return number(8, self.start) + cell + counted_argument("value", self.value)


@dataclass(frozen=True)
class Step:
    """Takes the session's next step towards its end."""

    start: int
    code: ClassVar[int] = 0x04

    def fields(self) -> bytes:
        return number(8, self.start)

    def read(self, fields: FieldReader) -> Progress:
        return read_progress(fields)


@dataclass(frozen=True)
class Stop(WithoutAnswer):
    """Ends the session in its current phase."""

    start: int
    code: ClassVar[int] = 0x05

    def fields(self) -> bytes:
        return number(8, self.start)


@dataclass(frozen=True)
class CleanBegin:
    """Opens a cleaner at the lock of a cell. The answer is the cleaner, or None if the cell isn't locked."""

    row: bytes
    family: bytes
    code: ClassVar[int] = 0x06

    def fields(self) -> bytes:
        return counted_argument("row", self.row) + counted_argument("family", self.family)

    def read(self, fields: FieldReader) -> Cleaner | None:
        return read_cleaner(fields)


@dataclass(frozen=True)
class CleanStep:
    """Takes the cleaner's next step."""

    cleaner: int
    code: ClassVar[int] = 0x07

    def fields(self) -> bytes:
        return number(8, self.cleaner)

    def read(self, fields: FieldReader) -> Cleaned:
        return read_cleaned(fields)


@dataclass(frozen=True)
class CollectBegin:
    """Opens a collector of old versions. The answer is the collector."""

    code: ClassVar[int] = 0x08

    def fields(self) -> bytes:
        return b""

    def read(self, fields: FieldReader) -> Collector:
        return Collector(fields.number(8), fields.number(8))


@dataclass(frozen=True)
class CollectStep:
    """Has a collector make this many visits."""

    collector: int
    visits: int
    code: ClassVar[int] = 0x09

    def fields(self) -> bytes:
        return number(8, self.collector) + number(4, self.visits)

    def read(self, fields: FieldReader) -> Collection:
        return read_collection(fields)


@dataclass(frozen=True)
class Minor(WithoutAnswer):
    """Writes the memtable of a tablet as a file."""

    tablet: int
    code: ClassVar[int] = 0x0A

    def fields(self) -> bytes:
        return number(4, self.tablet)


@dataclass(frozen=True)
class Merge(WithoutAnswer):
    """Merges this many of a tablet's newest files into one."""

    tablet: int
    count: int
    code: ClassVar[int] = 0x0B

    def fields(self) -> bytes:
        return number(4, self.tablet) + number(4, self.count)


@dataclass(frozen=True)
class Major(WithoutAnswer):
    """Merges the memtable and all files of a tablet into one file."""

    tablet: int
    code: ClassVar[int] = 0x0C

    def fields(self) -> bytes:
        return number(4, self.tablet)


@dataclass(frozen=True)
class Split:
    """Splits the tablet that holds a row behind that row. The answer is the number of the left part."""

    row: bytes
    code: ClassVar[int] = 0x0D

    def fields(self) -> bytes:
        return counted_argument("row", self.row)

    def read(self, fields: FieldReader) -> int:
        return fields.number(4)


@dataclass(frozen=True)
class Move(WithoutAnswer):
    """Puts a tablet on a server."""

    tablet: int
    server: int
    code: ClassVar[int] = 0x0E

    def fields(self) -> bytes:
        return number(4, self.tablet) + number(1, self.server)


@dataclass(frozen=True)
class Sweep:
    """Removes the files that no tablet names. The answer is their number."""

    code: ClassVar[int] = 0x0F

    def fields(self) -> bytes:
        return b""

    def read(self, fields: FieldReader) -> int:
        return fields.number(8)


@dataclass(frozen=True)
class OracleRestart(WithoutAnswer):
    """Restarts the oracle of stamps from its stored mark."""

    code: ClassVar[int] = 0x10

    def fields(self) -> bytes:
        return b""


@dataclass(frozen=True)
class Raw:
    """Reads the newest version of a cell's column in a range of stamps, both bounds included."""

    row: bytes
    family: bytes
    qualifier: Qualifier
    lo: int
    hi: int
    code: ClassVar[int] = 0x11

    def fields(self) -> bytes:
        bounds = number(8, self.lo) + number(8, self.hi)
        return counted_argument("row", self.row) + counted_argument("family", self.family) + number(1, self.qualifier) + bounds

    def read(self, fields: FieldReader) -> Version | None:
        return read_version(fields)


@dataclass(frozen=True)
class Checkpoint(WithoutAnswer):
    """Writes all memtables as files, and then the root file, which names the files from which the store is opened
    again."""

    code: ClassVar[int] = 0x12

    def fields(self) -> bytes:
        return b""


@dataclass(frozen=True)
class Delete(WithoutAnswer):
    """Buffers the deletion of a cell in the session."""

    start: int
    row: bytes
    family: bytes
    code: ClassVar[int] = 0x13

    def fields(self) -> bytes:
        return number(8, self.start) + counted_argument("row", self.row) + counted_argument("family", self.family)


@dataclass(frozen=True)
class OfRange:
    """A request for the cells of a range as of the session's start."""

    start: int
    after: tuple[bytes, bytes] | None = None
    end: bytes | None = None
    family: bytes | None = None
    keys_only: bool = False
    cells: int = MOST_CELLS
    code: ClassVar[int] = 0x31

    def fields(self) -> bytes:
        after = b"\0"
        if self.after is not None:
            row, family = self.after
            after = b"\1" + counted_argument("row", row) + counted_argument("family", family)
        bounds = after + optional_argument("end", self.end) + optional_argument("family", self.family)
        return number(8, self.start) + number(1, self.keys_only) + bounds + number(4, self.cells)


class Scan(OfRange):
    """Reads the cells of a range as of the session's start: those after a cell (a row and a family), up to and
    including a row, of one family or of all. It visits at most `cells` cells, 1 to 1,000."""

    def read(self, fields: FieldReader) -> Scanned:
        return read_scanned(fields)


class Pieces(OfRange):
    """The same request, whose answer is what is sent."""

    def read(self, fields: FieldReader) -> Piece:
        return read_piece(fields)


def optional_argument(name: str, given: bytes | None) -> bytes:
    """A byte 00 if nothing was given for this argument; otherwise a byte 01 and the value after its length."""
    return b"\0" if given is None else b"\1" + counted_argument(name, given)


def request_body(operation: Operation[Answer]) -> bytes:
    """The body of a request for an operation."""
    return number(1, operation.code) + operation.fields()


def answer_or_refusal(operation: Operation[Answer], body: bytes, is_remote: bool = False) -> Answer | Refused:
    """The answer in the reply to an operation, or the refusal, at a gateway or at a store of one's own. MalformedReply where it is
    none."""
    fields = FieldReader(body)
    code = fields.number(1)
    if code == REFUSED:
        refusal = BY_NUMBER.get(fields.number(1))
        fields.end()
        if refusal is None:
            raise MalformedReply(f"no refusal has this number: {body.hex(' ')}")
        refused = refusal(spoken_of(refusal, operation))
        if isinstance(refused, TooManySessions):
            refused.of_operation(operation.code, is_remote)
        return refused
    if code != operation.code | 0x80:
        raise MalformedReply(f"this is no reply to {operation}: {body.hex(' ')}")
    answer = operation.read(fields)
    fields.end()
    return answer


def spoken_of(refusal: type[Refused], operation: object) -> str:
    """The part of a request that its refusal is about, with its name, or an empty text if the request has no such
    part."""
    for field in refusal.speaks_of:
        given = getattr(operation, field, None)
        if isinstance(given, tuple):
            given = len(given)
        if given is not None and (field, given) != ("start", NEW):
            return named(SESSION if field == "start" else field, given)
    return ""


# The name of a start in a text, and the start of a request that begins a session.
SESSION, NEW = "session", 0

# The number of bytes of a row, a family or a value shown in a text.
SHOWN = 32


def named(name: str, given: object) -> str:
    """A given value, with its name. Of long bytes only the first are shown."""
    if isinstance(given, bytes) and len(given) > SHOWN:
        return f"{name} {given[:SHOWN]!r}.. of {len(given):,} bytes"
    return f"{name} {given!r}"
