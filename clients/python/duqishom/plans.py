"""What a client does in several requests, without input or output, so that `Store` and its twin for `asyncio` share it.

A plan is a generator. It yields the requests of a trip and is sent their answers, or it yields a pause. Whoever drives
it sends, reads and waits.
"""

from __future__ import annotations

import logging
import math
import random
import time
from collections.abc import Callable, Generator, Iterable, Sequence
from contextlib import suppress
from dataclasses import dataclass
from typing import Any, TypeVar

from duqishom.answers import (
    Blocked,
    Cleaned,
    Collected,
    Collection,
    Committed,
    Decided,
    Lost,
    More,
    Pending,
    Piece,
    Qualifier,
    Stamped,
    Unsent,
    Value,
)
from duqishom.batches import Batch, Begun, Gets, Steps, Whole
from duqishom.cells import Cell, CellRange
from duqishom.columns import read_lock, read_record
from duqishom.counted import Statistics
from duqishom.operations import (
    Begin,
    Checkpoint,
    CleanBegin,
    CleanStep,
    CollectBegin,
    CollectStep,
    Major,
    Minor,
    Operation,
    Raw,
    Step,
    Stop,
    Sweep,
)
from duqishom.refusals import BadRequest, MemtableFull, NoMemory, Refused, TooManyFiles, UnknownTablet
from duqishom.reports import ServerStatus, whole_status
from duqishom.scans import piece_within, request_of
from duqishom.several import MOST_READ, NEW, CommitConflict, CommitDone, Read, ReadDone, Support
from duqishom.tablets import TabletMap

LOG = logging.getLogger("duqishom")
LOG.addHandler(logging.NullHandler())

MOST_STAMP = 9_223_372_036_854_775_807
MOST_TABLETS = 1024

# The visits of a collector in one request: few, so that others wait for some milliseconds. With a log the program makes no
# more.
FEW_VISITS = 4

# The longest pause between two attempts, in seconds.
LONGEST_PAUSE = 1.0

# The longest pauses behind the first attempt to connect anew and behind a late one, in seconds.
FIRST_RECONNECT_PAUSE, LAST_RECONNECT_PAUSE = 0.1, 2.0

# How long a lock is waited for at a gateway, in seconds: its session may be of a client that still runs.
GATEWAY_LOCK_WAIT = 1.0

Answer = TypeVar("Answer")
Result = TypeVar("Result")

# What became of a commit: it was made, it wasn't, or its session's lock still stands.
Fate = Committed | Lost | Pending


@dataclass(frozen=True)
class Pause:
    """So many seconds in which nothing is asked."""

    seconds: float


@dataclass(frozen=True)
class Unwaited:
    """A request whose reply isn't waited for, and says nothing that is needed."""

    operation: Operation[Any]


Requests = Sequence[Operation[Any] | Batch]
Trip = Requests | Pause | Unwaited
Plan = Generator[Trip, list[Any], Result]


def ask(operation: Operation[Answer]) -> Plan[Answer]:
    """Asks for one operation. Its refusal is raised."""
    [answer] = yield [operation]
    if isinstance(answer, Refused):
        raise answer
    result: Answer = answer
    return result


class TransactionFailed(Exception):
    """A transaction came to nothing: none of its writes is committed, and none will be."""


class StillPending(TransactionFailed):
    """A read met a lock each time that it was asked. The session of the lock began at `start`."""

    def __init__(self, cell: Cell, start: int) -> None:
        super().__init__(f"{cell} is locked by the session that began at {start}")
        self.cell = cell
        self.start = start


class TransactionConflict(TransactionFailed):
    """A cell that was to be written is locked, or was committed since the transaction began.

    What the transaction held is free again.
    """

    def __init__(self, cell: Cell) -> None:
        super().__init__(f"{cell} is locked, or was written since the transaction began")
        self.cell = cell


class TransactionLost(TransactionFailed):
    """A cleaner rolled the transaction back before it committed. What the transaction held is free again."""


@dataclass(frozen=True)
class Patience:
    """How often a cell is looked at while it is locked, the seconds between two of these, and whether the lock is then
    taken for one that was left behind, and cleaned."""

    tries: int = 3
    pause: float = 0.01
    cleans: bool = True

    @classmethod
    def waiting(cls, seconds: float) -> Patience:
        """The patience that waits so many seconds for a lock, and then cleans it."""
        return cls(tries=1 + round(seconds / cls.pause))

    def between(self, attempt: int) -> float:
        """How many seconds to wait behind so many attempts: by chance, up to a time that doubles, and is at most a
        second."""
        return random.uniform(0, min(LONGEST_PAUSE, self.pause * 2.0 ** min(attempt, 30)))


def patience_of(patience: Patience | None, lock_wait: float | None, is_remote: bool) -> Patience:
    """The patience that was given, or that of so many seconds. A client that is alone waits for no other one."""
    if patience is not None and lock_wait is not None:
        raise ValueError("a patience says already how long a lock is waited for")
    if lock_wait is not None:
        return Patience.waiting(lock_wait)
    return patience or (Patience.waiting(GATEWAY_LOCK_WAIT) if is_remote else Patience())


class Attempts:
    """The attempts to do work in a transaction: so many, of which none begins later than `deadline` seconds from now."""

    def __init__(self, patience: Patience, most: int, deadline: float | None = None) -> None:
        self._patience = patience
        self._most = most
        self._end = math.inf if deadline is None else time.monotonic() + deadline
        self._made = 0

    def left(self) -> float:
        """The seconds until the deadline, for ever if there is none."""
        return self._end - time.monotonic()

    def pause_after(self, failure: Exception) -> float:
        """How many seconds to wait behind an attempt that failed. After the last one the failure is raised."""
        self._made += 1
        pause = self._patience.between(self._made - 1)
        if self._made >= self._most or pause > self.left():
            raise failure
        LOG.info("attempt %d of %d failed: %s; the next one in %.3f s", self._made, self._most, failure, pause)
        return pause


class Reconnects:
    """The attempts to connect anew to a gateway, which are made for so many seconds."""

    def __init__(self, seconds: float) -> None:
        self._end = time.monotonic() + seconds
        self._longest = FIRST_RECONNECT_PAUSE

    def pause(self) -> float | None:
        """How many seconds to wait behind an attempt that failed: None if the time is over. It is by chance at least half of a
        time that doubles, so that the clients of a gateway don't all come back at once."""
        left = self._end - time.monotonic()
        if left <= 0:
            return None
        pause = random.uniform(self._longest / 2, self._longest)
        self._longest = min(LAST_RECONNECT_PAUSE, 2 * self._longest)
        return min(left, pause)


class Stamps:
    """The stamps that a client has seen. If nobody else draws any, the next session's start is one more than the last
    one."""

    def __init__(self) -> None:
        self._last = 0
        self._was_next = False
        # The trips whose answers aren't noted yet
        self.trips = 0

    def note(self, operations: Requests, answers: Sequence[object]) -> int:
        """Notes the stamps in the answers to a trip, and returns the number of commits in them."""
        commits = 0
        for operation, answer in zip(operations, answers):
            if isinstance(operation, Begin) and isinstance(answer, int):
                self._note_drawn(answer)
            elif isinstance(answer, Begun):
                self._note_drawn(answer.start)
            elif isinstance(answer, (CommitDone, CommitConflict, ReadDone)):
                # The session may have begun with an earlier request
                if answer.start > self._last:
                    self._note_drawn(answer.start)
                if isinstance(answer, CommitDone):
                    self._note_drawn(answer.commit)
                    commits += 1
            elif isinstance(operation, (Step, Steps)):
                for each in answer if isinstance(answer, tuple) else (answer,):
                    if isinstance(each, (Stamped, Committed)):
                        self._note_drawn(each.commit)
                        commits += isinstance(each, Committed)
        return commits

    def _note_drawn(self, stamp: int) -> None:
        """Notes a stamp that was drawn. A step may answer it once more, and another connection may have answered later ones."""
        if stamp != self._last:
            self._was_next = stamp == self._last + 1
            self._last = max(self._last, stamp)

    def next(self) -> int | None:
        """The start that the next session will have, if the last stamp was as expected."""
        return self._last + 1 if self._was_next else None

    def next_unused(self) -> int | None:
        """The same, if it can't be the start of a session that this client has: none is answered later, and of no other trip
        the answers are to come."""
        return self.next() if self.trips <= 1 else None


def no_start() -> None:
    """That no start can be expected."""


class StorePlans:
    """The plans of a store."""

    def __init__(self, patience: Patience, tablets: TabletMap | None, has_log: Callable[[], bool]) -> None:
        """Without tablets it is a gateway's store, which others may split."""
        self.patience = patience
        self.is_of_gateway = tablets is None
        self.stamps = Stamps()
        self._tablets = tablets
        self._has_log = has_log

    def read(self, cells: Sequence[Cell], support: Support) -> Plan[list[bytes | None] | None]:
        """What cells hold as of now: None if one of them is locked, or if they are too many for one request. It is a
        Read that leaves no session open, if the program has it."""
        if not cells:
            return []
        if support.is_there:
            found = yield from self._read_at_once(cells, support)
            if support.is_there:
                return found
        return (yield from self._read_one_by_one(cells))

    def _read_at_once(self, cells: Sequence[Cell], support: Support) -> Plan[list[bytes | None] | None]:
        """What cells hold as of now, by one Read."""
        if len(cells) > MOST_READ:
            return None
        [answer] = yield [Read(NEW, False, tuple(cells))]
        if isinstance(answer, ReadDone):
            return None if any(isinstance(each, (Pending, Unsent)) for each in answer.found) else values_of(answer)
        if isinstance(answer, BadRequest):
            support.is_there = False
        if isinstance(answer, (BadRequest, NoMemory)):
            return None
        raise answer

    def _read_one_by_one(self, cells: Sequence[Cell]) -> Plan[list[bytes | None] | None]:
        """What cells hold as of now, by Gets: in one trip if the start is as expected."""
        begun, found = yield from self.begin_with(lambda start: Gets(start, cells))
        try:
            if found is None:
                [found] = yield [Gets(begun, cells)]
        except GeneratorExit:
            raise
        except BaseException:
            yield Unwaited(Stop(begun))
            raise
        yield Unwaited(Stop(begun))
        for each in found:
            if isinstance(each, Refused):
                raise each
        return None if any(isinstance(each, Pending) for each in found) else found

    def begin_with(self, request: Callable[[int], Operation[Any] | Batch]) -> Plan[tuple[int, Any]]:
        """Begins a session, and asks for a request of it in the same trip, as far as its start can be expected. The start, and the
        answer or the refusal: None if the session has another start, so that the request is still to be asked."""
        expected = self.stamps.next()
        begun, *answers = yield [Begin()] if expected is None else [Begin(), request(expected)]
        if isinstance(begun, Refused):
            raise begun
        return begun, answers[0] if begun == expected else None

    def scan(self, asked: CellRange, keys: bool, cells: int, support: Support) -> Plan[Piece | None]:
        """The first batch of a range as of now: None if a lock hides a value, or one isn't sent. It is one trip, if the start is
        as expected."""
        request = request_of(asked, keys, cells)
        is_alone = yield from self._is_alone(support)
        [begun] = yield [Whole(self.stamps.next_unused if is_alone else no_start, request)]
        if isinstance(begun, Refused):
            raise begun
        answer = begun.answer
        if answer is None:
            answer, _ = yield [request(begun.start), Stop(begun.start)]
        if isinstance(answer, Refused):
            raise answer
        piece = piece_within(asked, answer)
        if piece is None or piece.locks or not (keys or all(value is not None for _, _, value in piece.entries)):
            return None
        return piece

    def _is_alone(self, support: Support) -> Plan[bool]:
        """Whether no other connection has this one's sessions, which a wrong Stop would end. A gateway is asked once, as soon as
        a start can be expected."""
        if support.is_alone is None and self.stamps.next() is not None:
            support.is_alone = False
            with suppress(Refused):
                told = yield from ask(Statistics())
                support.is_alone = told.get("shared") == 0
        return support.is_alone is True

    def make_room(self, row: bytes | None = None) -> Plan[None]:
        """Makes room in the memtable of the tablet that holds a row, or in all, and in the log if there is one. Where a
        tablet has too many files, all become one."""
        LOG.info("a memtable or the log is full: makes room")
        if self._tablets is None or row is None:
            yield from self.checkpoint() if self._has_log() else self._write_all()
        elif self._has_log():
            yield from self.checkpoint()
        else:
            yield from self._write(self._tablets.holder(row).number)

    def make_room_for(self, rows: Iterable[bytes]) -> Plan[None]:
        """Makes room for a commit in rows, of which it isn't known in which tablet there was none."""
        if self._tablets is None or self._has_log():
            yield from self.make_room()
            return
        LOG.info("a memtable is full: makes room")
        for number in dict.fromkeys([self._tablets.holder(row).number for row in rows]):
            yield from self._write(number)

    def checkpoint(self) -> Plan[None]:
        """Makes a checkpoint. Where a tablet has too many files, all of its files become one first."""
        try:
            yield from ask(Checkpoint())
        except TooManyFiles:
            yield from self._write_all()
            yield from ask(Checkpoint())

    def sweep_beside_log(self) -> Plan[int]:
        """Removes files from a folder with a log, or from that of a gateway, and returns their number. With a log the
        root's files stay, so a checkpoint is made before. If it is refused, as on a full disk, fewer files go."""
        with suppress(Refused):
            yield from self.checkpoint()
        count: int = yield from ask(Sweep())
        return count

    def sweep(self) -> Plan[int]:
        """Removes files from a folder without a log, and returns their number. Checkpoints are made before and after
        it. If the first one is refused, nothing is removed. The second one is sent at once, whatever comes between."""
        yield from self.checkpoint()
        answers = yield [Sweep(), Checkpoint()]
        for answer in answers:
            if isinstance(answer, Refused):
                raise answer
        count: int = answers[0]
        return count

    def _write_all(self) -> Plan[None]:
        """Writes the memtable of each tablet to a file. Of a gateway's store the tablets aren't known, and a checkpoint
        is made too, for the log may be what is full; a gateway that has a socket of the administrator refuses both, and
        has done it itself."""
        if self._tablets is not None:
            for each in self._tablets.all():
                yield from self._write(each.number)
            return
        with suppress(UnknownTablet, BadRequest):
            for tablet in range(1, MOST_TABLETS + 1):
                yield from self._write(tablet)
        with suppress(BadRequest):
            yield from ask(Checkpoint())

    def _write(self, tablet: int) -> Plan[None]:
        """Writes the memtable of a tablet to a file. Where the tablet has too many files, all become one."""
        try:
            yield from ask(Minor(tablet))
        except TooManyFiles:
            yield from ask(Major(tablet))

    def clean(self, row: bytes, family: bytes) -> Plan[Cleaned | None]:
        """Clears the lock of a cell: what became of it, and None where none stood."""
        cleaner = yield from ask(CleanBegin(row, family))
        if cleaner is None:
            return None
        cleaned: Cleaned = Decided()
        while cleaned == Decided():
            cleaned = yield from self._clean_step(cleaner.number, row, family)
        LOG.info("cleaned the lock that session %d had on %s: %s", cleaner.start, Cell(row, family), cleaned)
        return cleaned

    def _clean_step(self, cleaner: int, row: bytes, family: bytes) -> Plan[Cleaned]:
        """A cleaner's step. Full memtables of its cell and of the lock's first cell are written to files."""
        try:
            return (yield from ask(CleanStep(cleaner)))
        except MemtableFull:
            lock = yield from ask(Raw(row, family, Qualifier.LOCK, 0, MOST_STAMP))
            yield from self.make_room(row)
            if lock is not None:
                yield from self.make_room(read_lock(lock.value).row)
            return (yield from ask(CleanStep(cleaner)))

    def free(self, cell: Cell, patience: Patience) -> Plan[None]:
        """Waits for the lock of a cell to go, as long as the patience says, and then cleans it."""
        first = lock = yield from self._locked_by(cell)
        for _ in range(patience.tries):
            if lock is None or lock != first:
                return
            yield Pause(patience.pause)
            lock = yield from self._locked_by(cell)
        yield from self.clean(*cell)

    def _locked_by(self, cell: Cell) -> Plan[int | None]:
        """The start of the session whose lock stands on a cell, or None. Where raw reads are refused, a read as of now meets it."""
        try:
            lock = yield from ask(Raw(*cell, Qualifier.LOCK, 0, MOST_STAMP))
            return None if lock is None else lock.stamp
        except BadRequest:
            start = yield from ask(Begin())
        [[found], _] = yield [Gets(start, [cell]), Stop(start)]
        if isinstance(found, Refused):
            raise found
        return found.start if isinstance(found, Pending) else None

    def collect(self, visits: int) -> Plan[int]:
        """Erases old versions, by trips of so many visits: the floor up to which that was done."""
        collector = yield from ask(CollectBegin())
        steps = [CollectStep(collector.number, visits)]
        while (done := (yield from self._collect_steps(steps))) != Collected():
            if isinstance(done, Blocked):
                yield from self.clean(done.row, done.family)
            steps = [CollectStep(collector.number, min(visits, FEW_VISITS))] * -(-visits // FEW_VISITS)
        return collector.floor

    def _collect_steps(self, steps: list[CollectStep]) -> Plan[Collection]:
        """Steps of a collector in one trip: the first answer that isn't More, or else More. Where a memtable is full, all are
        written to files, for the refusal doesn't tell which it is; the visits that were made before it stay, so each try
        comes further."""
        while True:
            answers = yield list(steps)
            done = next((answer for answer in answers if answer != More()), More())
            if isinstance(done, MemtableFull):
                yield from self.make_room()
            elif isinstance(done, Refused):
                raise done
            else:
                result: Collection = done
                return result

    def status(self) -> Plan[ServerStatus]:
        """The state of the store and of all its tablets."""
        return (yield from whole_status())

    def fate(self, start: int, row: bytes, family: bytes, patience: Patience) -> Plan[Fate]:
        """What became of a session's commit, by its first cell. A record there that names the session says that it has
        committed. Its lock is waited for, and then cleaned, unless the patience says otherwise; where neither stands,
        nothing was committed. BadRequest where raw reads are refused, as of a cluster."""
        lock = yield from ask(Raw(row, family, Qualifier.LOCK, start, start))
        if lock is not None and patience.cleans:
            yield from self.free(Cell(row, family), patience)
        elif lock is not None:
            return Pending(start)
        above = MOST_STAMP
        while record := (yield from ask(Raw(row, family, Qualifier.WRITE, start, above))):
            if read_record(record.value).start == start:
                return Committed(record.stamp)
            above = record.stamp - 1
        return Lost()


def values_of(answer: ReadDone) -> list[bytes | None]:
    """The values that a Read has found, or None, in the order of its cells."""
    return [each.value if isinstance(each, Value) else None for each in answer.found]
