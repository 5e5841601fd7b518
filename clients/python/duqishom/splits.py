"""The tablets of a folder of its own that hold too much: a store splits each in its middle, by samples of the rows that it
writes. `docs/GATEWAY.md`, "Large tablets", has the rule, which the gateway keeps too."""

from __future__ import annotations

import random
from bisect import bisect_left
from collections import Counter
from collections.abc import Callable, Iterator, Sequence
from dataclasses import dataclass, field
from pathlib import Path
from typing import Any

from duqishom.answers import Committed
from duqishom.batches import Writes
from duqishom.cells import LONGEST_ROW
from duqishom.connection import RequestTimedOut
from duqishom.files import Root
from duqishom.folders import FolderDamaged, read_root
from duqishom.operations import Delete, Set, Split
from duqishom.plans import LOG, MOST_TABLETS, Plan, Trip
from duqishom.program import ProgramEnded
from duqishom.refusals import Refused
from duqishom.reports import TabletReport, whole_status
from duqishom.several import Commit, CommitDone
from duqishom.tablets import TabletMap

# The bytes that a tablet may hold, unless others are given.
SPLIT_BYTES = 268_435_456

# So much is written between two looks, and between two rows that are taken for a sample, as parts of these bytes.
LOOKS, SAMPLED = 8, 1024

# The most rows that are taken of a trip.
MOST_AT_ONCE = 8

# The most rows of a tablet's sample, and the fewest by which it is split.
MOST_ROWS, FEWEST_ROWS = 256, 64

# The most bytes of all samples, and what a row takes beside its own.
MOST_BYTES, BESIDE = 8_388_608, 48

# The operations that write.
WRITING = {Set.code, Delete.code, Commit.code}


@dataclass
class Sample:
    """Of the rows that were written to a tablet since it was made, some by chance, each with the same: one of two to the
    power of `thinned`."""

    rows: list[bytes] = field(default_factory=list)
    thinned: int = 0

    def thin(self) -> int:
        """Leaves every second row, and returns the bytes of the others."""
        self.rows.sort()
        first = random.getrandbits(1)
        gone = self.rows[1 - first :: 2]
        self.rows = self.rows[first::2]
        self.thinned += 1
        return sum(len(row) + BESIDE for row in gone)


class Samples:
    """The samples of all tablets, in the order of their rows."""

    def __init__(self) -> None:
        self._ends: list[bytes] = []
        self._samples = [Sample()]
        self._bytes = 0

    def add(self, row: bytes) -> None:
        """Takes a row, unless chance is against it."""
        sample = self._samples[bisect_left(self._ends, row)]
        if random.getrandbits(sample.thinned):
            return
        sample.rows.append(row)
        self._bytes += len(row) + BESIDE
        if len(sample.rows) > MOST_ROWS:
            self._bytes -= sample.thin()
        while self._bytes > MOST_BYTES:
            self._bytes -= sum(each.thin() for each in self._samples)

    def cut(self, row: bytes) -> None:
        """The tablet that has a row was split behind it, or ends there."""
        place = bisect_left(self._ends, row)
        if self._ends[place : place + 1] == [row]:
            return
        right = self._samples[place]
        left = Sample([each for each in right.rows if each <= row], right.thinned)
        right.rows = [each for each in right.rows if each > row]
        self._samples.insert(place, left)
        self._ends.insert(place, row)

    def middle(self, end: bytes | None) -> bytes | None:
        """The row behind which the tablet with an end is to be split, if one is known."""
        return middle_of(self._samples[-1 if end is None else self._ends.index(end)].rows)


def middle_of(rows: Sequence[bytes]) -> bytes | None:
    """The row in the middle of some, or the one before it if no greater one is there. None if they are too few, or all the
    same."""
    if len(rows) < FEWEST_ROWS:
        return None
    ordered = sorted(rows)
    middle, last = ordered[(len(ordered) - 1) // 2], ordered[-1]
    return max((row for row in ordered if row <= middle and row < last), default=None)


def too_large(tablets: Sequence[TabletReport], root: Root, limit: int) -> Iterator[TabletReport]:
    """The tablets with more bytes of their own than a limit, by the reports of all in the order of their rows, and by the
    last root. What tablets share counts as if each had the same part of it. One that the root doesn't have in this range
    isn't known to have any."""
    sharers = Counter(file.name for tablet in root.tablets for file in tablet.files)
    known = {
        place: sum((file.length or 0) - (file.length or 0) // sharers[file.name] for file in tablet.files)
        for place, tablet in zip(ranges([tablet.end for tablet in root.tablets]), root.tablets)
    }
    for place, each in zip(ranges([tablet.end for tablet in tablets]), tablets):
        if place in known and each.memtable_bytes + each.file_bytes - known[place] > limit:
            yield each


def ranges(ends: Sequence[bytes | None]) -> Iterator[tuple[bytes | None, bytes | None]]:
    """The range of each tablet, by the ends of all: the end of the one before it, and its own."""
    return zip([None, *ends], ends)


def written(operations: Sequence[Any]) -> Iterator[tuple[bytes, int]]:
    """The row of each write in a trip, and about how many bytes it has."""
    for each in operations:
        if isinstance(each, Writes):
            yield from ((row, size_of(row, value)) for (row, _), value in each.writes.items())
        elif isinstance(each, Commit):
            yield from ((row, size_of(row, value)) for row, _, value in each.writes)
        elif isinstance(each, Set | Delete):
            yield each.row, size_of(each.row, each.value if isinstance(each, Set) else None)


def size_of(row: bytes, value: bytes | None) -> int:
    return len(row) + len(value or b"") + 1


class OwnSplits:
    """Once a part of the limit was written since the last look, a trip of the next one follows each commit until it has
    ended: it asks how large all tablets are, and splits those that are too large. A refusal is no commit's, and is logged:
    the next look is due after as many bytes."""

    def __init__(self, limit: int, folder: str | None, tablets: TabletMap) -> None:
        """With a limit of 0, and without a folder, there is none."""
        self._limit = 0 if folder is None else limit
        self._folder = Path(folder or "")
        self._tablets = tablets
        self._samples = Samples()
        self._written = 0
        self._left = 0
        self._plan: Plan[None] | None = None
        self._trip: Trip | None = None
        self._is_at_work = False

    def note(self, operations: Sequence[Any], size: int, answers: Sequence[Any]) -> bool:
        """Notes the writes in a trip of so many bytes, and tells whether a trip is to follow."""
        if self._limit == 0 or self._is_at_work:
            return False
        if any(each.code in WRITING for each in operations):
            self._note_writes(operations, size)
        is_due = self._plan is not None or self._written >= max(1, self._limit // LOOKS)
        return is_due and any(isinstance(answer, Committed | CommitDone) for answer in answers)

    def _note_writes(self, operations: Sequence[Any], size: int) -> None:
        """The more bytes a trip has, the more often a row of it is taken."""
        self._written += size
        self._left -= size
        if self._left < 0:
            distance = max(1, self._limit // SAMPLED)
            count = min(1 - self._left // distance, MOST_AT_ONCE)
            self._left = random.randrange(2 * distance)
            writes = [write for write in written(operations) if 0 < len(write[0]) <= LONGEST_ROW]
            if writes:
                for row, _ in random.choices(writes, [size for _, size in writes], k=count):
                    self._samples.add(bytes(row))

    def go_on(self, take: Callable[[Trip], list[Any]]) -> None:
        """Makes one trip."""
        self._is_at_work = True
        try:
            if self._plan is None or self._trip is None:
                self._written = 0
                self._plan = self._look()
                self._trip = next(self._plan)
            self._trip = self._plan.send(take(self._trip))
        except StopIteration:
            self._plan = None
        except (Refused, ProgramEnded, RequestTimedOut, FolderDamaged, OSError) as failure:
            LOG.info("it isn't known how large the tablets are: %s", failure)
            self._plan = None
        finally:
            self._is_at_work = False

    def _look(self) -> Plan[None]:
        """Splits the tablets that are too large, as far as a row is known for each. With the most tablets there are, none is."""
        status = yield from whole_status()
        if len(status.tablets) >= MOST_TABLETS:
            return
        for tablet in status.tablets:
            if tablet.end is not None:
                self._samples.cut(tablet.end)
        for tablet in list(too_large(status.tablets, read_root(self._folder), self._limit)):
            row = self._samples.middle(tablet.end)
            if row is None:
                continue
            [left] = yield [Split(row)]
            if isinstance(left, Refused):
                LOG.info("tablet %d is too large, and isn't split: %s", tablet.number, left)
            else:
                LOG.info("tablet %d is split: %d ends with %s", tablet.number, left, row)
                self._tablets.split(row, left)
                self._samples.cut(row)
