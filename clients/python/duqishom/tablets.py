"""A map from rows to tablets. A client with a store of its own keeps it itself: the tablets in a folder's root file, changed
by the client's own splits."""

from __future__ import annotations

from bisect import bisect_left
from dataclasses import dataclass
from pathlib import Path

from duqishom.folders import FolderDamaged, read_root
from duqishom.reports import ServerStatus


@dataclass(frozen=True)
class Tablet:
    """A tablet: the rows after the end of the tablet before it, up to and including its own end. The last has no
    end."""

    number: int
    end: bytes | None


NEW_STORE = (Tablet(1, None),)


def tablets_of(folder: str) -> tuple[Tablet, ...]:
    """The tablets in the root file of a folder, or a new store's if there is no root file. If it is malformed, the
    program reports that."""
    try:
        return tuple(Tablet(tablet.number, tablet.end) for tablet in read_root(Path(folder)).tablets)
    except FolderDamaged:
        return NEW_STORE


def tablets_in(status: ServerStatus) -> tuple[Tablet, ...]:
    """The tablets of a store by its state, in the order of their rows."""
    return tuple(Tablet(tablet.number, tablet.end) for tablet in status.tablets)


class TabletMap:
    """The tablets of a store, in the order of their rows. A new store has tablet 1 with all rows."""

    def __init__(self, tablets: tuple[Tablet, ...] = NEW_STORE) -> None:
        self._tablets = list(tablets)

    def all(self) -> tuple[Tablet, ...]:
        """The tablets, in the order of their rows."""
        return tuple(self._tablets)

    def holder(self, row: bytes) -> Tablet:
        """The tablet that holds a row."""
        return self._tablets[self._place(row)]

    def split(self, row: bytes, left: int) -> None:
        """Splits the tablet that holds a row: the left part ends with the row, and has this number."""
        self._tablets.insert(self._place(row), Tablet(left, row))

    def _place(self, row: bytes) -> int:
        ends = [tablet.end for tablet in self._tablets if tablet.end is not None]
        return bisect_left(ends, row)
