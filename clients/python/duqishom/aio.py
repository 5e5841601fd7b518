"""The client over a gateway's socket for `asyncio`: the names of `Store` and `Transaction`, to be awaited.

    from duqishom import aio

    async with aio.connect("unix:PATH") as store:
        await store.put(b"Bob", b"bal", b"10")
        async with store.transaction() as t:
            t.put(b"Joe", b"bal", await t.get(b"Bob", b"bal"))

Many tasks share one store and its connection, each with transactions of its own.
"""

from __future__ import annotations

import asyncio
import logging
from collections.abc import AsyncGenerator, AsyncIterator, Awaitable, Callable, Coroutine, Iterable, Sequence
from contextlib import aclosing, suppress
from functools import partial
from os import PathLike, fspath
from types import TracebackType
from typing import Any, Concatenate, Literal, ParamSpec, TypeVar, overload

from duqishom.administration import LOOK_PAUSE, Backup, answer_in, check_copied, reached_in
from duqishom.answers import (
    Cleaned,
    Cleaner,
    Collection,
    Collector,
    Committed,
    Entry,
    Found,
    Pending,
    Piece,
    Progress,
    Qualifier,
    Scanned,
    Version,
)
from duqishom.autocommit import cell_of, is_of_session
from duqishom.batches import Batch, Whole, answers_of, request_frame, request_frames
from duqishom.cells import Cell, CellRange, range_of
from duqishom.changes import watch_of
from duqishom.counted import Statistics
from duqishom.fields import MalformedReply
from duqishom.operations import (
    MOST_CELLS,
    Begin,
    CleanBegin,
    CleanStep,
    CollectBegin,
    CollectStep,
    Delete,
    Get,
    Major,
    Merge,
    Minor,
    Move,
    Operation,
    OracleRestart,
    Raw,
    Scan,
    Set,
    Split,
    Step,
    Stop,
)
from duqishom.opening import either
from duqishom.places import Places
from duqishom.plans import (
    LOG,
    MOST_STAMP,
    Attempts,
    Patience,
    Pause,
    Plan,
    Reconnects,
    Requests,
    StillPending,
    StorePlans,
    TransactionConflict,
    TransactionLost,
    Trip,
    Unwaited,
    patience_of,
)
from duqishom.program import ProgramEnded
from duqishom.progress import Reached, Report, unreported
from duqishom.refusals import BadRequest, Refused, TooManySessions, UnknownSession
from duqishom.remote import Address, ConnectionLost, Fate, address_of
from duqishom.reports import ServerStatus
from duqishom.reverse import ReverseScan
from duqishom.scans import (
    FEW_CELLS,
    GROWTH,
    RangeScan,
    Row,
    cells_of,
    cells_of_async,
    checked_limit,
    first_cells,
    first_rows,
    rows_of_async,
    values_of_row,
)
from duqishom.sessions import Session
from duqishom.several import NEW, Commit, Read, ReadDone, Support
from duqishom.streams import FrameStream
from duqishom.tablets import Tablet, tablets_in
from duqishom.watching import Changes

MOST_VISITS = 1000

# So many sessions a gateway gives a connection, unless it is told otherwise.
MOST_SESSIONS = 64

Answer = TypeVar("Answer")
Item = TypeVar("Item")
Own = TypeVar("Own", bound="Snapshot")
Result = TypeVar("Result")


Given = ParamSpec("Given")


def connect(
    address: str | PathLike[str],
    *,
    patience: Patience | None = None,
    lock_wait: float | None = None,
    timeout: float | None = None,
    reconnect: float = 10.0,
    sessions: int = MOST_SESSIONS,
    connections: int = 1,
) -> Store:
    """The store of the gateway at `unix:PATH`, at the path of a socket, or at HOST:PORT, which `async with` connects. The options
    are those of `Store`."""
    path = fspath(address)
    return Store(address_of(path) or path, patience, timeout, lock_wait, reconnect, sessions, connections)


def transactional(
    work: Callable[Concatenate[Transaction, Given], Awaitable[Result]],
) -> Callable[Concatenate[Store | Transaction, Given], Awaitable[Result]]:
    """Makes of a coroutine function of a transaction one of a store, too, as `duqishom.transactional` does."""
    return either(work)


class Link:
    """A place of the pool for a connection, and how many sessions it has. It is connected when it is needed."""

    def __init__(self) -> None:
        self.stream: FrameStream | None = None
        self.sessions = 0
        self.connecting = asyncio.Lock()


class Store:
    """The store that a gateway serves at a socket. Each method that sends a request raises a `Refused` if the store
    refuses it, `ConnectionLost` if the gateway has closed the connection, and `TimeoutError` if a timeout was given and
    has passed."""

    def __init__(
        self,
        socket: str | PathLike[str] | tuple[str, int],
        patience: Patience | None = None,
        timeout: float | None = None,
        lock_wait: float | None = None,
        reconnect: float = 10.0,
        sessions: int = MOST_SESSIONS,
        connections: int = 1,
    ) -> None:
        """A store that isn't connected yet: `open` connects it, and so does `async with`.

        At most so many transactions and snapshots are open at once on each of so many connections; others wait for one to end. So
        a task must not begin one inside of another if all tasks do. The other options are those of the other twin.
        """
        self._address: Address = socket if isinstance(socket, tuple) else fspath(socket)
        self._patience = patience_of(patience, lock_wait, is_remote=True)
        self._timeout = timeout
        self._reconnect = reconnect
        self._plans = StorePlans(self._patience, None, lambda: False)
        if connections < 1:
            raise ValueError(f"there must be 1 connection or more, and not {connections}")
        self._places = Places(sessions * connections)
        self._links = [Link() for _ in range(connections)]
        self._is_closed = False
        self._ending: set[asyncio.Future[Any]] = set()

    async def open(self) -> None:
        """Connects. OSError where nobody serves there."""
        self._links[0].stream = await FrameStream.open(self._address)

    @property
    def _stream(self) -> FrameStream:
        """The first connection, which takes what is of no session."""
        stream = self._links[0].stream
        if stream is None:
            raise ValueError("the store isn't open: `async with`, or `open`, opens it")
        return stream

    async def ask(self, operation: Operation[Answer]) -> Answer:
        """Asks for an operation, and gives the answer."""
        [answer] = await self.ask_each([operation])
        if isinstance(answer, Refused):
            raise answer
        return answer

    async def ask_each(
        self, operations: Sequence[Operation[Answer] | Batch], stream: FrameStream | None = None
    ) -> list[Answer | Refused]:
        """Asks for several operations in one trip, and gives the answer to each, or its refusal. They go to the connection that is
        named, or to none."""
        stamps = self._plans.stamps
        stamps.trips += 1
        try:
            async with asyncio.timeout(self._timeout):
                connected = await self._connected(stream)
                await connected.room()
                requests, count = request_frames(operations)
                replies = await connected.ask(requests, count)
            answers = answers_of(operations, replies, is_remote=True)
            stamps.note(operations, answers)
            return answers
        finally:
            stamps.trips -= 1

    async def _connected(self, wanted: FrameStream | None, link: Link | None = None) -> FrameStream:
        """The connection of a link, the first one if none is named, made anew where the last one is known to be lost.
        ConnectionLost where another one is wanted, which had the session that is asked, and where nobody serves any more."""
        if wanted is not None:
            if self._is_lost(wanted):
                raise ConnectionLost("the session went with its connection to the gateway")
            return wanted
        link = link or self._links[0]
        async with link.connecting:
            before = link.stream or self._stream
            if link.stream is None or (before.is_lost and not self._is_closed):
                try:
                    link.stream = await FrameStream.open(self._address)
                except OSError as error:
                    raise ConnectionLost(f"there is no connection to the gateway, and none can be made: {error}") from None
                LOG.log(logging.WARNING if before.is_lost else logging.INFO, "connected to the gateway at %s", self._address)
            return link.stream

    def _is_lost(self, stream: FrameStream) -> bool:
        """Whether a connection is known to be lost, or there is another one in its place."""
        return stream.is_lost or all(link.stream is not stream for link in self._links)

    async def do(self, plan: Plan[Result], stream: FrameStream | None = None) -> Result:
        """Takes a plan to its end."""
        try:
            trip = next(plan)
            while True:
                try:
                    answers = await self._take(trip, stream)
                except BaseException as error:
                    trip = plan.throw(error)
                else:
                    trip = plan.send(answers)
        except StopIteration as done:
            result: Result = done.value
            return result

    async def _take(self, trip: Trip, stream: FrameStream | None) -> list[Any]:
        """Asks for what a plan asks, or waits."""
        if isinstance(trip, Pause):
            await asyncio.sleep(trip.seconds)
            return []
        if isinstance(trip, Unwaited):
            (await self._connected(stream)).tell(request_frame(trip.operation))
            return []
        if stream is not None and begins(trip[0]):
            return await self._ask_to_begin(trip, stream)
        return await self.ask_each(trip, stream)

    async def begin(self) -> int:
        """Begins a session, and returns its start."""
        return await self.ask(Begin())

    @overload
    async def get(self, row: bytes, family: bytes) -> bytes | None: ...

    @overload
    async def get(self, start: int, row: bytes, family: bytes) -> Found: ...

    async def get(self, *given: Any, **named: Any) -> bytes | Found | None:
        """The value of a cell, or None. With a session's start: reads the cell as of it."""
        if is_of_session(given, named):
            return await self.ask(Get(*given, **named))
        [value] = await self.get_many([cell_of(*given, **named)])
        return value

    async def get_many(self, cells: Iterable[tuple[bytes, bytes]]) -> list[bytes | None]:
        """The values of cells, all as of one moment, as `Store.get_many` of the other twin gives them."""
        wanted = [Cell(*cell) for cell in cells]
        values = await self._at_once(lambda support: self._plans.read(wanted, support))
        return await self.run(lambda t: t.get_many(wanted)) if values is None else values

    async def _piece(self, asked: CellRange, keys: bool, cells: int) -> Piece | None:
        """The first batch of a range as of now, in a session that ends with it: None if it isn't to be had at once."""
        return await self._at_once(lambda support: self._plans.scan(asked, keys, cells, support))

    async def _at_once(self, plan: Callable[[Support], Plan[Result | None]]) -> Result | None:
        """What is read in a session that ends at once: None if that doesn't do, the connection is lost, or there are too many
        sessions."""
        with suppress(ConnectionLost, TooManySessions):
            return await self._to_its_end(self._in_place(plan))
        return None

    async def _in_place(self, plan: Callable[[Support], Plan[Result]]) -> Result:
        """Does a plan that has a session meanwhile."""
        link = await self._link()
        try:
            stream = await self._connected(None, link)
            return await self.do(plan(stream.support), stream)
        finally:
            self.left(link)

    async def _to_its_end(self, work: Coroutine[Any, Any, Result]) -> Result:
        """Awaits what begins and stops a session. It goes on if the task is cancelled, for nobody else would stop the session."""
        task = asyncio.ensure_future(work)
        self._ending.add(task)
        task.add_done_callback(self._note_ended)
        return await asyncio.shield(task)

    def _note_ended(self, task: asyncio.Future[Any]) -> None:
        """Forgets a task that has ended. Nobody else may be there to hear why it failed."""
        self._ending.discard(task)
        if not task.cancelled():
            task.exception()

    async def row(self, row: bytes) -> dict[bytes, bytes]:
        """The values of a row, by their families."""
        piece = await self._piece(range_of(row, row), False, FEW_CELLS)
        if piece is None or piece.upto is not None:
            return await self.run(lambda t: t.row(row))
        return values_of_row(piece.entries)

    def rows(
        self,
        start: bytes | None = None,
        end: bytes | None = None,
        *,
        prefix: bytes | None = None,
        after: bytes | None = None,
        before: bytes | None = None,
        limit: int | None = None,
        reverse: bool = False,
    ) -> AsyncIterator[Row]:
        """The rows of a range, for `async for`, as `Store.rows` of the other twin gives them."""
        asked, limit = range_of(start, end, prefix, None, after, before), checked_limit(limit)
        cells = cells_of(limit)
        if reverse:
            return rows_of_async(self._all(asked, False, None, cells, True), limit, True)
        if limit is None or cells is None or cells > FEW_CELLS:
            return rows_of_async(self._all(asked, False, None), limit)
        return self._first(asked, False, cells, partial(first_rows, limit), lambda found: rows_of_async(found, limit))

    async def put(self, row: bytes, family: bytes, value: bytes) -> None:
        """Writes a value to a cell."""

        async def work(t: Transaction) -> None:
            t.put(row, family, value)

        await self.run(work)

    @overload
    async def set(self, row: bytes, family: bytes, value: bytes) -> None: ...

    @overload
    async def set(self, start: int, row: bytes, family: bytes, value: bytes) -> None: ...

    async def set(self, *given: Any, **named: Any) -> None:
        """Another name of `put`. With a session's start: buffers a write in the session."""
        await (self.ask(Set(*given, **named)) if is_of_session(given, named) else self.put(*given, **named))

    @overload
    async def delete(self, row: bytes, family: bytes) -> None: ...

    @overload
    async def delete(self, start: int, row: bytes, family: bytes) -> None: ...

    async def delete(self, *given: Any, **named: Any) -> None:
        """Deletes a cell. With a session's start: buffers the deletion in the session."""

        async def work(t: Transaction) -> None:
            t.delete(*given, **named)

        await (self.ask(Delete(*given, **named)) if is_of_session(given, named) else self.run(work))

    @overload
    def scan(
        self,
        start: bytes | None = None,
        end: bytes | None = None,
        *,
        prefix: bytes | None = None,
        family: bytes | None = None,
        keys: Literal[False] = False,
        after: bytes | None = None,
        before: bytes | None = None,
        limit: int | None = None,
        reverse: bool = False,
    ) -> AsyncIterator[tuple[bytes, bytes, bytes]]: ...

    @overload
    def scan(
        self,
        start: bytes | None = None,
        end: bytes | None = None,
        *,
        prefix: bytes | None = None,
        family: bytes | None = None,
        keys: Literal[True],
        after: bytes | None = None,
        before: bytes | None = None,
        limit: int | None = None,
        reverse: bool = False,
    ) -> AsyncIterator[tuple[bytes, bytes, None]]: ...

    @overload
    def scan(
        self,
        start: int,
        after: tuple[bytes, bytes] | None = None,
        end: bytes | None = None,
        family: bytes | None = None,
        keys_only: bool = False,
        cells: int = MOST_CELLS,
    ) -> Coroutine[Any, Any, Scanned]: ...

    def scan(
        self, start: bytes | int | None = None, *bounds: Any, **options: Any
    ) -> AsyncIterator[Entry] | Coroutine[Any, Any, Scanned]:
        """The cells of a range, for `async for`, from one snapshot that ends with the iterator. With a session's start: reads cells
        as of it, as `Store.scan` of the other twin does."""
        if isinstance(start, int):
            return self.ask(Scan(start, *bounds, **options))
        return self._entries(start, *bounds, **options)

    def _entries(
        self,
        start: bytes | None = None,
        end: bytes | None = None,
        *,
        limit: int | None = None,
        keys: bool = False,
        reverse: bool = False,
        **bounds: Any,
    ) -> AsyncIterator[Entry]:
        """The cells of a range. Its bounds are checked at once."""
        asked, limit = range_of(start, end, **bounds), checked_limit(limit)
        if limit is None or limit > FEW_CELLS or reverse:
            return self._all(asked, keys, limit, reverse=reverse)
        return self._first(asked, keys, limit, partial(first_cells, limit), partial(cells_of_async, limit=limit))

    async def _all(
        self, asked: CellRange, keys: bool, limit: int | None, cells: int | None = None, reverse: bool = False
    ) -> AsyncGenerator[Entry, None]:
        """The cells of a range, from a snapshot that is read as the iterator goes on. The first batch has so many."""
        async with Snapshot(self, begins_later=True) as snapshot:
            async for entry in snapshot.entries(asked, keys, limit, True, cells, reverse):
                yield entry

    async def _first(
        self,
        asked: CellRange,
        keys: bool,
        cells: int,
        taken: Callable[[Piece], list[Item] | None],
        taken_in: Callable[[AsyncGenerator[Entry, None]], AsyncIterator[Item]],
    ) -> AsyncIterator[Item]:
        """What is taken from the first batch of a range, of so many cells, or, if it has too few, from larger ones."""

        async def work(t: Transaction) -> list[Item]:
            return [each async for each in taken_in(t.entries(asked, keys, None, cells=GROWTH * cells))]

        piece = await self._piece(asked, keys, cells) if cells else Piece([], {}, None)
        found = None if piece is None else taken(piece)
        for each in await self.run(work) if found is None else found:
            yield each

    async def count(
        self,
        start: bytes | None = None,
        end: bytes | None = None,
        *,
        prefix: bytes | None = None,
        family: bytes | None = None,
        after: bytes | None = None,
        before: bytes | None = None,
    ) -> int:
        """How many cells of a range have a value."""
        return await self.run(lambda t: t.count(start, end, prefix=prefix, family=family, after=after, before=before))

    async def step(self, start: int) -> Progress:
        """Takes the session's next step towards its end."""
        return await self.ask(Step(start))

    async def stop(self, start: int) -> None:
        """Ends the session in its current phase. The cells that it holds stay locked until they are cleaned."""
        await self.ask(Stop(start))

    async def clean_begin(self, row: bytes, family: bytes) -> Cleaner | None:
        """Opens a cleaner at the lock of a cell. Returns None if the cell isn't locked."""
        return await self.ask(CleanBegin(row, family))

    async def clean_step(self, cleaner: int) -> Cleaned:
        """Takes the cleaner's next step: the first decides, the second clears the cell."""
        return await self.ask(CleanStep(cleaner))

    async def clean(self, row: bytes, family: bytes) -> Cleaned | None:
        """Clears the lock of a cell, whether its session runs or has stopped: what became of it, and None where none stood."""
        return await self.do(self._plans.clean(row, family))

    async def free(self, row: bytes, family: bytes, patience: Patience) -> None:
        """Waits for the lock of a cell to go, as long as the patience says, and then cleans it."""
        await self.do(self._plans.free(Cell(row, family), patience))

    async def collect_begin(self) -> Collector:
        """Opens a collector of old versions. Its floor is the least start of an active session."""
        return await self.ask(CollectBegin())

    async def collect_step(self, collector: int, visits: int = MOST_VISITS) -> Collection:
        """Has a collector make this many visits, 1 to 1,000."""
        return await self.ask(CollectStep(collector, visits))

    async def collect(self, visits: int = MOST_VISITS) -> int:
        """Erases the versions that no active session reads, and none that begins later: the floor up to which that was done."""
        return await self.do(self._plans.collect(visits))

    async def minor(self, tablet: int) -> None:
        """Writes the memtable of a tablet as a new file."""
        await self.ask(Minor(tablet))

    async def merge(self, tablet: int, count: int) -> None:
        """Merges this many of a tablet's newest files into one."""
        await self.ask(Merge(tablet, count))

    async def major(self, tablet: int) -> None:
        """Merges the memtable and all files of a tablet into one file."""
        await self.ask(Major(tablet))

    async def split(self, row: bytes) -> int:
        """Splits the tablet that holds a row behind that row. Returns the number of the left part."""
        return await self.ask(Split(row))

    async def move(self, tablet: int, server: int) -> None:
        """Puts a tablet on a server."""
        await self.ask(Move(tablet, server))

    async def sweep(self) -> int:
        """Removes the files that no tablet names, and returns their number. A checkpoint is made before it. In a folder
        without a log, the gateway makes checkpoints before and after it. If the first one is refused, its refusal is
        raised and nothing is removed."""
        return await self.do(self._plans.sweep_beside_log())

    async def checkpoint(self) -> None:
        """Writes all that the store keeps into its files. Where a tablet has too many files, all of its files become one first."""
        await self.do(self._plans.checkpoint())

    async def restart_oracle(self) -> None:
        """Restarts the oracle of stamps from its stored mark."""
        await self.ask(OracleRestart())

    async def raw(
        self, row: bytes, family: bytes, qualifier: Qualifier, lo: int = 0, hi: int = MOST_STAMP
    ) -> Version | None:
        """The newest version of a cell's column in a range of stamps, both bounds included, or None if there is no such
        version."""
        return await self.ask(Raw(row, family, qualifier, lo, hi))

    async def status(self) -> ServerStatus:
        """The state of the store, and of its tablets in the order of their rows, as `Store.status` of the other twin gives it."""
        return await self.do(self._plans.status())

    async def tablets(self) -> tuple[Tablet, ...]:
        """The tablets, in the order of their rows, as of now."""
        return tablets_in(await self.status())

    async def make_room(self) -> None:
        """Writes the memtable of each tablet to a file, and makes a checkpoint, for the log may be what is full. A gateway whose
        administrator has a socket refuses that, and has done it itself."""
        await self.do(self._plans.make_room())

    async def fate(self, start: int, row: bytes, family: bytes, patience: Patience | None = None) -> Fate:
        """What became of a commit whose answer was lost: of the session of this start, by its first cell."""
        return await self.do(self._plans.fate(start, row, family, patience or self._patience))

    def transaction(self) -> Transaction:
        """A transaction, that `async with` begins. It commits at the end, and stops where an exception leaves."""
        return Transaction(self)

    def snapshot(self) -> Snapshot:
        """A snapshot, that `async with` begins: the store as of then. While it is open, collectors keep what it shows."""
        return Snapshot(self)

    async def session(self, begins_later: bool) -> tuple[Session, FrameStream, Link]:
        """A new session of a snapshot or a transaction, the connection that has it, and its link. It waits for a place there first,
        which `left` gives back. It has begun, or begins with its first request."""
        link = await self._link()
        try:
            stream = await self._connected(None, link)
            session = Session(self._plans, stream.support)
            if not begins_later:
                await self.do(session.begin(), stream)
            return session, stream, link
        except BaseException:
            self.left(link)
            raise

    async def _link(self) -> Link:
        """The link with the fewest sessions, and a place for one there."""
        await self._places.take()
        link = min(self._links, key=lambda each: each.sessions)
        link.sessions += 1
        return link

    async def _ask_to_begin(self, trip: Requests, stream: FrameStream) -> list[Any]:
        """Asks for requests of which the first begins a session, or a session that ends at once. Where the gateway has no place for
        one, it waits for another session to end. If the task is cancelled meanwhile, the session is stopped when it is there, for
        nobody would."""
        while True:
            given = self._places.given
            beginning = asyncio.ensure_future(self.ask_each(trip, stream))
            try:
                answers = await asyncio.shield(beginning)
            except asyncio.CancelledError:
                stopping = asyncio.ensure_future(self._stop_begun(trip[0], beginning, stream))
                self._ending.add(stopping)
                stopping.add_done_callback(self._note_ended)
                raise
            if not isinstance(answers[0], TooManySessions):
                return answers
            if self._places.given == given and not await self._places.one_left():
                return answers

    async def _stop_begun(self, asked: object, beginning: asyncio.Future[list[Any]], stream: FrameStream) -> None:
        """Stops a session whose begin is on its way."""
        with suppress(ProgramEnded, TimeoutError):
            begun = (await beginning)[0]
            start = begun.start if isinstance(begun, ReadDone) and isinstance(asked, Read) and asked.stays_open else begun
            if isinstance(start, int):
                await self.ask_each([Stop(start)], stream)

    def left(self, link: Link) -> None:
        """Gives the place of a session back."""
        link.sessions -= 1
        self._places.give_back()

    async def run(
        self, work: Callable[[Transaction], Awaitable[Result]], attempts: int = 10, deadline: float | None = None
    ) -> Result:
        """Does work in a transaction, and once more in a new one where it conflicts, is lost or stays pending, as `Store.run`
        does. The transaction has no `start` before its first read or its commit."""
        tried = Attempts(self._patience, attempts, deadline)
        while True:
            transaction = Transaction(self, begins_later=True)
            results: list[Result] = []
            try:
                async with transaction:
                    results.append(await work(transaction))
                return results[0]
            except (TransactionConflict, TransactionLost, StillPending) as failure:
                pause = tried.pause_after(failure)
            except ConnectionLost as lost:
                if await self._is_done_nonetheless(lost, transaction, min(self._reconnect, tried.left())):
                    if results:
                        return results[0]
                    raise
                pause = tried.pause_after(lost)
            await asyncio.sleep(pause)

    async def _is_done_nonetheless(self, lost: ConnectionLost, transaction: Transaction, seconds: float) -> bool:
        """Whether a transaction was committed whose connection was lost. It connects anew first, for which there are so many
        seconds. The loss is raised where that comes to nothing, another store's connection was lost, or it can't be told."""
        if transaction.stream is not None and not self._is_lost(transaction.stream):
            raise lost
        reconnects = Reconnects(seconds)
        while True:
            try:
                await self._connected(None)
                return await self._is_committed(lost, transaction)
            except ConnectionLost:
                pause = None if self._is_closed else reconnects.pause()
                if pause is None:
                    raise
            await asyncio.sleep(pause)

    async def _is_committed(self, lost: ConnectionLost, transaction: Transaction) -> bool:
        """Whether a transaction was committed whose connection was lost. The loss is raised where a lock of it stands, and may not
        be cleaned."""
        if transaction.stream is None or not transaction.session.has_stepped or transaction.session.first is None:
            return False
        session = transaction.session
        try:
            fate = await self.fate(session.start, *transaction.session.first)
        except BadRequest:
            raise lost from None
        LOG.warning("the connection was lost while session %d committed: %s", session.start, fate)
        if isinstance(fate, Pending):
            raise lost
        session.commit_stamp = fate.commit if isinstance(fate, Committed) else None
        return isinstance(fate, Committed)

    def watch(self, prefix: bytes = b"", family: bytes | None = None, timeout: float | None = None) -> Changes:
        """Tells of the commits that write cells in rows with a prefix, in one family if it is given, for `async for`: as
        `Store.watch` of the other twin does."""
        return Changes(self._address, watch_of(prefix, family), timeout, self._reconnect)

    async def backup(self, path: str | PathLike[str], progress: Report = unreported) -> None:
        """Has the gateway make a copy of the store's folder at a path, as `Store.backup` of the other twin does. A task that is
        cancelled meanwhile stops the copy."""
        asked, stream = Backup(fspath(path)), await FrameStream.open(self._address)
        copying = asyncio.ensure_future(stream.ask(request_frame(asked), 1))
        try:
            if progress is not unreported:
                async with aclosing(looks(self._address, asked, copying)) as reports:
                    async for reached in reports:
                        progress(reached)
            reply = await copying
        finally:
            copying.cancel()
            stream.close()
        check_copied(asked, reply)

    async def close(self) -> int:
        """Leaves the gateway, which ends what is open."""
        self._is_closed = True
        for link in self._links:
            if link.stream is not None:
                link.stream.close()
        return 0

    async def __aenter__(self) -> Store:
        await self.open()
        return self

    async def __aexit__(
        self, kind: type[BaseException] | None, error: BaseException | None, trace: TracebackType | None
    ) -> None:
        await self.close()


async def looks(address: Address, asked: Backup, copying: asyncio.Future[bytes]) -> AsyncGenerator[Reached, None]:
    """How far a copy is, now and then until it is made. If the gateway doesn't tell it, this ends earlier."""
    with suppress(OSError, ConnectionLost, Refused, MalformedReply):
        stream = await FrameStream.open(address)
        try:
            while not (await asyncio.wait({copying}, timeout=LOOK_PAUSE))[0]:
                told = answer_in(Statistics(), await stream.ask(request_frame(Statistics()), 1))
                reached = reached_in(told, asked.place())
                if reached is not None:
                    yield reached
        finally:
            stream.close()


def begins(operation: object) -> bool:
    """Whether a request begins a session."""
    return isinstance(operation, (Begin, Whole)) or (isinstance(operation, (Commit, Read)) and operation.start == NEW)


class Snapshot:
    """The store as of one moment, the start of a session. It begins and ends with `async with`, or by `begin` and `stop`."""

    def __init__(self, asked: Store, begins_later: bool = False) -> None:
        """A snapshot of a store, whose session begins with `begin`, or with the first request after that."""
        self._store = asked
        self._begins_later = begins_later
        self._link: Link | None = None
        self.stream: FrameStream | None = None

    async def begin(self) -> None:
        """Begins the session."""
        self._leave()
        self.session, self.stream, self._link = await self._store.session(self._begins_later)

    @property
    def start(self) -> int:
        """The session's start. ValueError if it hasn't begun: a transaction of `run` begins with its first read or its commit."""
        return self.session.start

    @property
    def is_active(self) -> bool:
        """Whether the session hasn't ended."""
        return self.session.is_active

    async def get(self, row: bytes, family: bytes, own: bool = True) -> bytes | None:
        """What the transaction has written to the cell; otherwise the value that was committed last by the start."""
        [value] = await self.get_many([(row, family)], own)
        return value

    async def get_many(self, cells: Iterable[tuple[bytes, bytes]], own: bool = True) -> list[bytes | None]:
        """What each of these cells holds, as `get` gives it, in one trip."""
        return await self._do(self.session.get_many(cells, own))

    async def row(self, row: bytes, own: bool = True) -> dict[bytes, bytes]:
        """The values of a row, by their families."""
        return {family: value async for _, family, value in self.scan(row, row, own=own)}

    def rows(
        self,
        start: bytes | None = None,
        end: bytes | None = None,
        *,
        prefix: bytes | None = None,
        after: bytes | None = None,
        before: bytes | None = None,
        own: bool = True,
        limit: int | None = None,
        reverse: bool = False,
    ) -> AsyncIterator[Row]:
        """The rows of a range that have a value, in order, each with the dictionary that `row` gives, for `async for`: as `rows` of
        the other twin gives them."""
        asked, limit = range_of(start, end, prefix, None, after, before), checked_limit(limit)
        return rows_of_async(self.entries(asked, False, None, own, cells_of(limit), reverse), limit, reverse)

    @overload
    def scan(
        self,
        start: bytes | None = None,
        end: bytes | None = None,
        *,
        prefix: bytes | None = None,
        family: bytes | None = None,
        keys: Literal[False] = False,
        own: bool = True,
        after: bytes | None = None,
        before: bytes | None = None,
        limit: int | None = None,
        reverse: bool = False,
    ) -> AsyncIterator[tuple[bytes, bytes, bytes]]: ...

    @overload
    def scan(
        self,
        start: bytes | None = None,
        end: bytes | None = None,
        *,
        prefix: bytes | None = None,
        family: bytes | None = None,
        keys: Literal[True],
        own: bool = True,
        after: bytes | None = None,
        before: bytes | None = None,
        limit: int | None = None,
        reverse: bool = False,
    ) -> AsyncIterator[tuple[bytes, bytes, None]]: ...

    def scan(
        self,
        start: bytes | None = None,
        end: bytes | None = None,
        *,
        prefix: bytes | None = None,
        family: bytes | None = None,
        keys: bool = False,
        own: bool = True,
        after: bytes | None = None,
        before: bytes | None = None,
        limit: int | None = None,
        reverse: bool = False,
    ) -> AsyncIterator[Entry]:
        """The cells that have a value, in order, each as its row, its family and its value, for `async for`: as `scan` of the
        other twin gives them."""
        return self.entries(range_of(start, end, prefix, family, after, before), keys, limit, own, reverse=reverse)

    async def count(
        self,
        start: bytes | None = None,
        end: bytes | None = None,
        *,
        prefix: bytes | None = None,
        family: bytes | None = None,
        own: bool = True,
        after: bytes | None = None,
        before: bytes | None = None,
    ) -> int:
        """How many cells of a range have a value. Their values aren't sent. The range is that of `scan`."""
        count, scan = 0, self.session.scan(range_of(start, end, prefix, family, after, before), True, own, None)
        while piece := await self._do(scan.piece()):
            count += len(piece)
        return count

    def entries(
        self,
        asked: CellRange,
        keys: bool,
        limit: int | None,
        own: bool = True,
        cells: int | None = None,
        reverse: bool = False,
    ) -> AsyncGenerator[Entry, None]:
        """The cells of a range, as `scan` gives them. The first batch has so many."""
        return self._pieces(self.session.scan(asked, keys, own, limit, cells, reverse))

    async def _pieces(self, scan: RangeScan | ReverseScan) -> AsyncGenerator[Entry, None]:
        """The cells of a scan, piece by piece."""
        while piece := await self._do(scan.piece()):
            for entry in piece:
                yield entry

    async def stop(self) -> None:
        """Ends the session where it stands. Before its first step nothing of it stays."""
        try:
            await self._do(self.session.stop())
        finally:
            self._leave()

    async def _do(self, plan: Plan[Result]) -> Result:
        """Does a plan, at the connection that has the session."""
        return await self._store.do(plan, self.stream)

    def _leave(self) -> None:
        """Gives the place back."""
        link, self._link = self._link, None
        if link is not None:
            self._store.left(link)

    async def __aenter__(self: Own) -> Own:
        await self.begin()
        return self

    async def __aexit__(
        self, kind: type[BaseException] | None, error: BaseException | None, trace: TracebackType | None
    ) -> None:
        with suppress(UnknownSession, ProgramEnded, TimeoutError):
            await self.stop()


class Transaction(Snapshot):
    """One session, from its begin to its end. Its writes are kept here, and sent when it commits."""

    @property
    def commit_stamp(self) -> int | None:
        """The stamp at which it has committed, and None where it hasn't."""
        return self.session.commit_stamp

    def put(self, row: bytes, family: bytes, value: bytes) -> None:
        """Writes a value to a cell, when the transaction commits. The first cell that is written is the primary."""
        self.session.write(row, family, value)

    set = put

    def delete(self, row: bytes, family: bytes) -> None:
        """Deletes a cell, when the transaction commits."""
        self.session.write(row, family, None)

    async def commit(self) -> int | None:
        """Commits all writes at once, and gives the commit stamp: None where nothing was written. It raises what `commit` of
        the other twin does."""
        try:
            await self._do(self.session.commit())
        finally:
            if not self.is_active:
                self._leave()
        return self.commit_stamp

    async def __aexit__(
        self, kind: type[BaseException] | None, error: BaseException | None, trace: TracebackType | None
    ) -> None:
        try:
            if kind is None and self.is_active:
                await self.commit()
        finally:
            if not self.session.has_stepped:
                await super().__aexit__(kind, error, trace)
            self._leave()
