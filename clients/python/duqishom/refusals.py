"""The refusals of the store: an exception for each, with its number and its name.

A refused request has changed nothing that a session can see. Refusals that no request gets today are included.
"""

from __future__ import annotations

from typing import ClassVar


class Refused(Exception):
    """The store refused a request, or the client did instead of the store. `what` is the value given, and `limit` the
    limit."""

    number: ClassVar[int] = 0
    limit: str = ""
    speaks_of: ClassVar[tuple[str, ...]] = ()

    def __init__(self, what: str = "") -> None:
        super().__init__(what)
        self.what = what

    def __str__(self) -> str:
        parts = (f"refused {self.number}: {self.name}", self.what, self.limit)
        return ": ".join(part for part in parts if part)

    @property
    def name(self) -> str:
        """The name of the refusal."""
        return type(self).__name__


class UnknownSession(Refused):
    """No session with this start is active: it has ended, or never began."""

    number = 1
    limit = "it has ended, or never began"
    speaks_of = ("start",)


class WrongPhase(Refused):
    """A Get, a Scan, a Set, a Delete, a Commit or a Read after the session's first Step."""

    number = 2
    limit = "nothing is read or written after the first Step"
    speaks_of = ("start",)


class BadRow(Refused):
    """A row has 1 to 4,000 bytes."""

    number = 3
    limit = "1 to 4,000 bytes"
    speaks_of = ("row",)


class BadColumn(Refused):
    """A family has 1 to 64 bytes, each 21 to 7E hexadecimal and not a colon."""

    number = 4
    limit = "1 to 64 bytes of 21 to 7E without ':'"
    speaks_of = ("family",)


class BadValue(Refused):
    """A value has at most 65,536 bytes."""

    number = 5
    limit = "at most 65,536 bytes"
    speaks_of = ("value",)


class TooManyWrites(Refused):
    """A session writes at most 256 cells."""

    number = 6
    limit = "a session writes at most 256 cells"
    speaks_of = ("row",)


class TooManySessions(Refused):
    """1,024 sessions are active; or, when a cleaner is opened, 1,024 cleaners are open; or, when a collector is opened,
    64 collectors are. A gateway has lower limits for each connection, and also refuses in this way a connection for
    which it has no place."""

    number = 7
    limit = "1,024 sessions, 1,024 cleaners and 64 collectors are the most; a gateway has limits of its own, of connections too"

    # By the operation that was refused: what there are too many of, the most of a store, and of a connection to a gateway.
    limits: ClassVar[dict[int, tuple[str, str, str]]] = {
        0x01: ("sessions", "1,024", "64"),
        0x32: ("sessions", "1,024", "64"),
        0x33: ("sessions", "1,024", "64"),
        0x06: ("cleaners", "1,024", "64"),
        0x08: ("collectors", "64", "4"),
    }

    def of_operation(self, code: int, is_remote: bool) -> None:
        """Takes the limits that are those of an operation, at a gateway or at a store of one's own."""
        if code in self.limits:
            what, most, each = self.limits[code]
            self.limit = (
                f"a connection to a gateway may have {each} {what} (serve --{what}), and all clients {most};"
                " or the gateway has no place for another connection (serve --clients)"
                if is_remote
                else f"{most} {what} are the most"
            )


class EmptyCommit(Refused):
    """A Step or a Commit of a session that has written nothing."""

    number = 8
    limit = "it has written nothing"
    speaks_of = ("start",)


class UnknownCleaner(Refused):
    """No cleaner with this number is open: it has done both its steps, or never opened."""

    number = 9
    limit = "it has done both its steps, or never opened"
    speaks_of = ("cleaner",)


class UnknownCollector(Refused):
    """No collector with this number is open: it has collected all, or never opened."""

    number = 10
    limit = "it has collected all, or never opened"
    speaks_of = ("collector",)


class UnknownTablet(Refused):
    """No tablet has this number."""

    number = 11
    limit = "tablets have the numbers from 1 to as many as there are"
    speaks_of = ("tablet",)


class BadSplit(Refused):
    """The row ends its tablet already, or there are 1,024 tablets."""

    number = 12
    limit = "it ends its tablet already, or there are 1,024 tablets"
    speaks_of = ("row",)


class UnknownServer(Refused):
    """Servers have the numbers 0 to 15."""

    number = 13
    limit = "0 to 15"
    speaks_of = ("server",)


class BadCount(Refused):
    """A Merge takes at least two files, and at most as many as the tablet has. A CollectStep makes 1 to 1,000 visits,
    a Scan visits 1 to 1,000 cells, and a Read reads 1 to 256."""

    number = 14
    limit = (
        "a Merge takes 2 files or more, and as many as the tablet has; a CollectStep makes 1 to 1,000 visits, a Scan looks at"
        " 1 to 1,000 cells, and a Read at 1 to 256"
    )
    speaks_of = ("count", "visits", "cells")


class MemtableFull(Refused):
    """The memtable of the row's tablet has no room for the edits of this step. A Minor of the tablet makes room.

    A collector's step and a Commit don't say which row: a Minor of each tablet makes room for it. If there is a log, the log may
    be full instead, and a Checkpoint makes room in both.
    """

    number = 15
    limit = "a Minor makes room"


class TooManyFiles(Refused):
    """The tablet has 64 files. A Merge or a Major of the tablet leaves fewer."""

    number = 16
    limit = "64 files are the most; a Merge or a Major leaves fewer"
    speaks_of = ("tablet",)


class FileTooLarge(Refused):
    """The file would have more than 68,719,476,736 bytes."""

    number = 17
    limit = "at most 68,719,476,736 bytes"
    speaks_of = ("tablet",)


class Exhausted(Refused):
    """No stamp is left, or no number for a cleaner or a collector, or no name of a file."""

    number = 18


class Device(Refused):
    """The disk failed in this request, or was full. This can't happen in a store in memory."""

    number = 19
    limit = "the disk failed, or is full"


class NoMemory(Refused):
    """An allocation failed."""

    number = 20


class Damaged(Refused):
    """Bytes that were read are malformed. This can't happen in a store in memory."""

    number = 21
    limit = "something else has changed the folder; `inspect` says which byte"


class BadRequest(Refused):
    """The body is no request."""

    number = 22


class FrameTooLarge(Refused):
    """A frame has a body of at most 1,048,572 bytes. The client sends none that is longer."""

    number = 23
    limit = "at most 1,048,572 bytes"


BY_NUMBER: dict[int, type[Refused]] = {refusal.number: refusal for refusal in Refused.__subclasses__()}
