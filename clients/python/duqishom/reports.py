"""The state of a store, as its program reports it: the operation Status, and how all tablets are asked for."""

from __future__ import annotations

from collections.abc import Callable, Generator
from dataclasses import asdict, dataclass
from struct import Struct
from typing import Any, ClassVar

from duqishom.cells import LONGEST_ROW
from duqishom.fields import FieldReader, MalformedReply, number
from duqishom.refusals import Refused

# The numbers of a store, and those of a tablet, behind which its last row stands.
SERVER, TABLET = Struct(">9Q"), Struct(">5Q")


@dataclass(frozen=True)
class ServerReport:
    """A store: the last stamp that was drawn; the floor of its sessions, which is the least start of an open one, or else
    one above the greatest stamp that was answered; the greatest floor with which a collector began; how many sessions,
    cleaners and collectors are open; the bytes of the writes that sessions buffer, and of the journal, 0 without a log;
    and how many tablets there are."""

    last_stamp: int
    floor: int
    collector_floor: int
    sessions: int
    cleaners: int
    collectors: int
    buffered_bytes: int
    journal_bytes: int
    tablets: int


@dataclass(frozen=True)
class TabletReport:
    """A tablet: its number, its last row, None for the last tablet, its server, the entries of its memtable and their
    bytes, its files, and the bytes of their entries. Since a split, two tablets may have the same files."""

    number: int
    end: bytes | None
    server: int
    memtable_entries: int
    memtable_bytes: int
    files: int
    file_bytes: int


@dataclass(frozen=True)
class Reported:
    """The answer to a Status: the store, and the tablet that was asked for, None if no tablet has this number."""

    server: ServerReport
    tablet: TabletReport | None


@dataclass(frozen=True)
class Status:
    """Asks for the state of the store, and of the tablet with a number. Nothing changes by it."""

    tablet: int
    code: ClassVar[int] = 0x34

    def fields(self) -> bytes:
        return number(4, self.tablet)

    def read(self, fields: FieldReader) -> Reported:
        report = fields.rest()
        row_at = SERVER.size + TABLET.size
        if len(report) != SERVER.size and not row_at <= len(report) <= row_at + LONGEST_ROW:
            raise MalformedReply(f"no report has {len(report):,} bytes")
        server = ServerReport(*SERVER.unpack_from(report))
        if len(report) == SERVER.size:
            return Reported(server, None)
        counts = TABLET.unpack_from(report, SERVER.size)
        return Reported(server, TabletReport(self.tablet, report[row_at:] or None, *counts))


@dataclass(frozen=True)
class ServerStatus:
    """A store, as of the last report on it, and its tablets in the order of their rows, each as of its own report."""

    server: ServerReport
    tablets: tuple[TabletReport, ...]

    def counts(self) -> dict[str, int]:
        """The counts of the store by their names, and those of its tablets: their sums, and the most files of a tablet."""
        return {
            **asdict(self.server),
            "memtable_entries": sum(each.memtable_entries for each in self.tablets),
            "memtable_bytes": sum(each.memtable_bytes for each in self.tablets),
            "files": sum(each.files for each in self.tablets),
            "most_files": max((each.files for each in self.tablets), default=0),
            "file_bytes": sum(each.file_bytes for each in self.tablets),
        }


def whole_status() -> Generator[list[Status], list[Any], ServerStatus]:
    """Asks for tablet 1, and then for all others in one trip. Tablets have the numbers from 1 to as many as there are, so if
    one is split meanwhile, there are more to ask for; all others keep their numbers and their ends. A refusal is raised."""
    server: ServerReport | None = None
    tablets: list[TabletReport] = []
    while server is None or len(tablets) < server.tablets:
        count = 1 if server is None else server.tablets
        for answer in (yield [Status(each) for each in range(len(tablets) + 1, count + 1)]):
            if isinstance(answer, Refused):
                raise answer
            if answer.tablet is None:
                raise MalformedReply(f"of {answer.server.tablets:,} tablets none has the number {len(tablets) + 1:,}")
            server = answer.server
            tablets.append(answer.tablet)
    return ServerStatus(server, tuple(sorted(tablets, key=lambda each: (each.end is None, each.end or b""))))


def status_by(ask: Callable[[list[Status]], list[Any]]) -> ServerStatus:
    """The state of a store, by a function that asks for what it is given in one trip."""
    asks = whole_status()
    try:
        trip = next(asks)
        while True:
            trip = asks.send(ask(trip))
    except StopIteration as done:
        status: ServerStatus = done.value
        return status
