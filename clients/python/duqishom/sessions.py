"""A session as a transaction has it: what it has written, how far its commit is, and what it asks, as plans."""

from __future__ import annotations

import time
from collections.abc import Callable, Iterable, Mapping, Sequence
from itertools import repeat
from typing import Any

from duqishom.answers import (
    Committed,
    Conflict,
    Finished,
    Held,
    Lost,
    Pending,
    Progress,
    Stamped,
    Unsent,
    Value,
)
from duqishom.batches import Gets, Steps, Writes
from duqishom.cells import FAMILY, LONGEST_ROW, Cell, CellRange
from duqishom.fields import bytes_argument
from duqishom.frames import LONGEST_BODY
from duqishom.operations import Answer, Begin, Operation, Stop, named
from duqishom.plans import (
    LOG,
    Pause,
    Plan,
    StillPending,
    StorePlans,
    TransactionConflict,
    TransactionFailed,
    TransactionLost,
    Unwaited,
    ask,
)
from duqishom.refusals import (
    BadColumn,
    BadRequest,
    BadRow,
    BadValue,
    MemtableFull,
    NoMemory,
    Refused,
    TooManyWrites,
    UnknownSession,
    WrongPhase,
)
from duqishom.reverse import ReverseScan
from duqishom.scans import RangeScan
from duqishom.several import NEW, Commit, CommitDone, Read, Support, pieces_of, too_many_for_one

MOST_WRITES = 256
LONGEST_VALUE = 65_536


class Session:
    """One session, from its begin to its end. Its writes are kept here, and sent when it commits.

    It begins with its first request. If the program has Read and Commit, the session's reads and its commit are those.
    """

    def __init__(self, plans: StorePlans, support: Support) -> None:
        self._start: int | None = None
        self._support = support
        self.is_active = True
        self.has_stepped = False
        self.commit_stamp: int | None = None
        self._plans = plans
        self._writes: dict[Cell, bytes | None] = {}
        self._sent: dict[Cell, bytes | None] = {}
        self._steps = 0
        self._stepped_at = 0.0
        self._to_clean: list[Cell] = []

    @property
    def start(self) -> int:
        """The session's start. ValueError if it hasn't begun."""
        if self._start is None:
            raise ValueError("the transaction has no start before its first read or its commit")
        return self._start

    def begin(self) -> Plan[int]:
        """Begins the session, if it hasn't begun, and returns its start."""
        if self._start is None:
            self._check_active()
            self._start = yield from ask(Begin())
        return self._start

    def ask(self, request: Callable[[int], Operation[Answer]]) -> Plan[Answer]:
        """Asks for a request of the session, by its start. It begins with that, if it hasn't begun. A refusal is raised."""
        answer = None
        if self._start is None:
            self._check_active()
            self._start, answer = yield from self._plans.begin_with(request)
        if answer is None:
            [answer] = yield [request(self._start)]
        if isinstance(answer, Refused):
            raise answer
        result: Answer = answer
        return result

    def _check_active(self) -> None:
        """UnknownSession if the session has ended."""
        if not self.is_active:
            raise UnknownSession("" if self._start is None else named("session", self._start))

    @property
    def first(self) -> Cell | None:
        """The first cell that was written, which is the primary: None if none was."""
        return next(iter(self._writes), None)

    def get_many(self, cells: Iterable[tuple[bytes, bytes]], own: bool = True) -> Plan[list[bytes | None]]:
        """What cells hold, in one trip but for those that are locked."""
        wanted = [Cell(*cell) for cell in cells]
        values = {cell: self._writes[cell] for cell in wanted if own and cell in self._writes}
        asked = [cell for cell in dict.fromkeys(wanted) if cell not in values]
        values.update((yield from self.read(asked, {})))
        return [values[cell] for cell in wanted]

    def read(self, asked: list[Cell], locks: dict[Cell, int]) -> Plan[dict[Cell, bytes | None]]:
        """What cells hold, and others that are locked by sessions of these starts, once their locks are gone."""
        values: dict[Cell, bytes | None] = {}
        tries = 0
        while asked or locks:
            if locks:
                tries += 1
                yield from self._wait(locks, tries)
            asked, locks = [*asked, *locks], {}
            for cell, found in (yield from self._found(asked)).items():
                if isinstance(found, Refused):
                    raise found
                if isinstance(found, Pending):
                    locks[cell] = found.start
                else:
                    values[cell] = found
            asked = []
        return values

    def _found(self, cells: Sequence[Cell]) -> Plan[dict[Cell, bytes | None | Pending | Refused]]:
        """What cells hold, by Reads if the program has them. Gets read what these haven't sent, and a single cell of a
        session that has begun."""
        found: dict[Cell, bytes | None | Pending | Refused] = {}
        if self._start is None or len(cells) > 1:
            yield from self._read_together(cells, found)
        left = [cell for cell in cells if cell not in found]
        if left:
            start = yield from self.begin()
            [answers] = yield [Gets(start, left)]
            found.update(zip(left, answers))
        return found

    def _read_together(self, cells: Sequence[Cell], found: dict[Cell, bytes | None | Pending | Refused]) -> Plan[None]:
        """Notes what cells hold, as far as Reads send it, in one trip, or two if the session begins with the first."""
        pieces = pieces_of(cells)
        while pieces and self._support.is_there and not self.has_stepped:
            if self._start is None:
                self._check_active()
            count = 1 if self._start is None else len(pieces)
            answers = yield [Read(self._start or NEW, True, piece) for piece in pieces[:count]]
            for piece, answer in zip(pieces, answers):
                self._note_read(piece, answer, found)
            pieces = [] if self._start is None else pieces[count:]

    def _note_read(
        self, cells: tuple[tuple[bytes, bytes], ...], answer: Any, found: dict[Cell, bytes | None | Pending | Refused]
    ) -> None:
        """Notes the answer to a Read. A gateway refuses it NoMemory if it has no room for such a long reply."""
        if isinstance(answer, BadRequest):
            self._support.is_there = False
        elif isinstance(answer, Refused) and not isinstance(answer, NoMemory):
            raise answer
        elif not isinstance(answer, Refused):
            self._start = answer.start
            for cell, each in zip(cells, answer.found):
                if not isinstance(each, Unsent):
                    found[Cell(*cell)] = each if isinstance(each, Pending) else each.value if isinstance(each, Value) else None

    def _wait(self, locks: dict[Cell, int], tries: int) -> Plan[None]:
        """Waits for locks to go, and after so many tries cleans them, or gives up."""
        patience = self._plans.patience
        if tries < patience.tries:
            yield Pause(patience.pause)
        elif patience.cleans:
            for cell in locks:
                yield from self._plans.clean(*cell)
        else:
            raise StillPending(*next(iter(locks.items())))

    def scan(
        self,
        asked: CellRange,
        keys: bool,
        own: bool,
        limit: int | None,
        cells: int | None = None,
        reverse: bool = False,
    ) -> RangeScan | ReverseScan:
        """A scan of a range, which shows the writes that were made before it. Its first batch has so many cells."""
        writes = {cell: value for cell, value in self._writes.items() if asked.has(cell)} if own else {}
        if reverse:
            return ReverseScan(self, asked, keys, writes, limit, cells)
        return RangeScan(self, asked, keys, writes, limit, cells)

    def write(self, row: bytes, family: bytes, value: bytes | None) -> None:
        """Keeps a write, in the place of one of the same cell."""
        row, family = bytes_argument("row", row), bytes_argument("family", family)
        value = None if value is None else bytes_argument("value", value)
        self._check_active()
        if self.has_stepped:
            raise WrongPhase(named("session", self.start))
        if not 1 <= len(row) <= LONGEST_ROW:
            raise BadRow(named("row", row))
        if not FAMILY.fullmatch(family):
            raise BadColumn(named("family", family))
        if value is not None and len(value) > LONGEST_VALUE:
            raise BadValue(named("value", value))
        cell = Cell(row, family)
        if len(self._writes) == MOST_WRITES and cell not in self._writes:
            raise TooManyWrites(named("row", row))
        self._writes[cell] = value

    def stop(self) -> Plan[None]:
        """Ends the session where it stands. Before its first step nothing of it stays."""
        if self.is_active:
            self.is_active = False
            if self._start is not None:
                yield Unwaited(Stop(self._start))

    def commit(self) -> Plan[None]:
        """Commits all writes at once, or stops where nothing was written."""
        self._check_active()
        if not self._writes:
            yield from self.stop()
            return
        failure = None
        if self._support.is_there and not self.has_stepped:
            failure = yield from self._commit_at_once()
        if self.is_active and failure is None:
            failure = yield from self._commit()
        for cell in self._to_clean:
            yield from self._plans.clean(*cell)
        if failure is not None:
            if isinstance(failure, TransactionConflict) and self._plans.patience.cleans:
                yield from self._plans.free(failure.cell, self._plans.patience)
            raise failure

    def _commit_at_once(self) -> Plan[TransactionFailed | None]:
        """Commits by one request: why it came to nothing, if it did. If the program doesn't have this request, the
        session stays active. Writes that are too long for the request go before it. At a gateway it has begun before, since a
        connection may be lost there, and the fate of a commit can only be asked for by its session's start."""
        before = too_many_for_one(self._unsent(), LONGEST_BODY)
        if before or self._plans.is_of_gateway:
            yield from self.begin()
        if before:
            writes = Writes(self.start, dict(list(self._unsent().items())[:before]))
            [refusals] = yield [writes]
            self._note_sent(writes, refusals)
        answer = yield from self._ask_commit()
        if isinstance(answer, MemtableFull):
            yield from self._plans.make_room_for([cell.row for cell in self._writes])
            answer = yield from self._ask_commit()
        if isinstance(answer, BadRequest):
            self._support.is_there = False
            return None
        if isinstance(answer, Refused):
            raise answer
        self.is_active, self._start = False, answer.start
        if isinstance(answer, CommitDone):
            self.commit_stamp = answer.commit
            return None
        failure = TransactionConflict(list({**self._sent, **self._writes})[answer.place - 1])
        LOG.debug("a session came to nothing: %s", failure)
        return failure

    def _unsent(self) -> Mapping[Cell, bytes | None]:
        """The writes that the store's session doesn't have."""
        sent = self._sent
        if not sent:
            return self._writes
        return {cell: value for cell, value in self._writes.items() if cell not in sent or sent[cell] != value}

    def _ask_commit(self) -> Plan[Any]:
        """Asks for the commit. The answer, or the refusal, after which the session is as before."""
        writes = tuple([(*cell, value) for cell, value in self._unsent().items()])
        self.has_stepped = True
        try:
            [answer] = yield [Commit(self._start or NEW, writes)]
        except BaseException:
            self.is_active = False
            raise
        self.has_stepped = not isinstance(answer, Refused)
        return answer

    def _commit(self) -> Plan[TransactionFailed | None]:
        """Sends the writes and takes the steps: why it came to nothing, where it did."""
        yield from self.begin()
        batches: list[Writes | Steps] = [] if self._sent == self._writes else [Writes(self.start, self._writes)]
        if batches and len(self._writes) > 1:
            # Steps beside a refused write would commit the others, so they wait for the replies. A single write takes its steps
            # along, which are refused if it is
            yield from self._ask(batches)
            batches = []
        failure, rest = yield from self._ask([*batches, self._steps_left()])
        while self.is_active:
            before = self._steps
            if isinstance(rest, MemtableFull):
                yield from self._plans.make_room(list(self._sent)[self._place()].row)
            elif rest is not None:
                raise rest
            failure, rest = yield from self._ask([self._steps_left()])
            if rest is not None and self._steps == before:
                raise rest
        return failure

    def _steps_left(self) -> Steps:
        """The steps that are to be taken."""
        return Steps(self.start, len(self._writes), self._steps)

    def _place(self) -> int:
        """The place of the cell whose turn it is."""
        count = len(self._writes)
        return self._steps if self._steps < count else max(0, self._steps - count - 1)

    def _ask(self, batches: Sequence[Writes | Steps]) -> Plan[tuple[TransactionFailed | None, Refused | None]]:
        """Asks for writes and steps in one trip: why the transaction came to nothing, where it did, and the refusal of
        the last step, where it was refused. A write that is refused raises its refusal."""
        has_steps = isinstance(batches[-1], Steps)
        if has_steps and not self.has_stepped:
            self.has_stepped, self._stepped_at = True, time.monotonic()
        try:
            answers = yield batches
        except BaseException:
            self.is_active = not self.has_stepped
            raise
        if isinstance(batches[0], Writes):
            self._note_sent(batches[0], answers[0])
        return self._take_all(answers[-1]) if has_steps else (None, None)

    def _note_sent(self, writes: Writes, refusals: Sequence[Refused | None] | None) -> None:
        """Notes the cells whose writes were accepted, in the store's order. The first refusal is raised."""
        accepted = [write for write, refused in zip(writes.writes.items(), refusals or repeat(None)) if refused is None]
        self._sent.update(accepted)
        for refused in refusals or ():
            if refused is not None:
                self.has_stepped = self._steps > 0
                raise refused

    def _take_all(
        self, answers: Committed | Sequence[Progress | Refused]
    ) -> tuple[TransactionFailed | None, Refused | None]:
        """Notes what steps did. Behind the session's end the others are refused, which says nothing."""
        if isinstance(answers, Committed):
            self.commit_stamp, self.is_active = answers.commit, False
            return None, None
        rest: Refused | None = None
        for answer in answers:
            if isinstance(answer, Refused):
                rest = answer
                continue
            rest = None
            failure = self._take(answer)
            if failure is not None or not self.is_active:
                return failure, None
        return None, rest

    def _take(self, progress: Progress) -> TransactionFailed | None:
        """Notes what a step did: why the transaction came to nothing, where it did."""
        self._steps += 1
        match progress:
            case Held(_, _) | Stamped(_):
                return None
            case Committed(commit):
                self.commit_stamp = commit
                self.is_active = len(self._sent) > 1
            case Finished(place, count):
                self.is_active = place < count
            case Conflict(place):
                return self._given_up(place - 1, TransactionConflict(list(self._sent)[place - 1]))
            case Lost():
                return self._given_up(len(self._sent), TransactionLost(self._why_lost()))
        return None

    def _why_lost(self) -> str:
        """Why a cleaner may have rolled the transaction back."""
        seconds = time.monotonic() - self._stepped_at
        return (
            f"another client met the lock of {next(iter(self._sent))}, took its session for dead, and rolled it back; the commit"
            f" had begun {seconds:.2f} s before. The others' `lock_wait` says how long they wait"
        )

    def _given_up(self, count: int, failure: TransactionFailed) -> TransactionFailed:
        """Notes that the first so many cells, which the session held to its end, are to be cleaned."""
        self.is_active = False
        self._to_clean = list(self._sent)[:count]
        LOG.debug("session %d came to nothing: %s", self.start, failure)
        return failure
