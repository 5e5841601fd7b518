"""A store: a private `tabletd`, with a method for each operation."""

from __future__ import annotations

import atexit
import os
import sys
import threading
import time
import warnings
import weakref
from collections.abc import Callable, Iterable, Sequence
from contextlib import AbstractContextManager, suppress
from os import PathLike, fspath
from types import TracebackType
from typing import Any, TypeVar

from duqishom.administration import back_up
from duqishom.answers import (
    Cleaned,
    Cleaner,
    Collection,
    Collector,
    Committed,
    Pending,
    Piece,
    Progress,
    Qualifier,
    Version,
)
from duqishom.autocommit import AutoCommit
from duqishom.batches import Batch, answers_of, request_frame, request_frames
from duqishom.cells import Cell, CellRange
from duqishom.changes import Changes, watch_of
from duqishom.collection import COMMITS, OwnCollection
from duqishom.connection import Connection
from duqishom.copies import NotCopied, copy_checkpoint
from duqishom.folders import Unsaved, has_log, started
from duqishom.operations import (
    Begin,
    CleanBegin,
    CleanStep,
    CollectBegin,
    CollectStep,
    Major,
    Merge,
    Minor,
    Move,
    Operation,
    OracleRestart,
    Raw,
    Split,
    Step,
    Stop,
    Sweep,
)
from duqishom.plans import (
    LOG,
    MOST_STAMP,
    Attempts,
    Patience,
    Pause,
    Plan,
    Reconnects,
    StillPending,
    StorePlans,
    TransactionConflict,
    TransactionLost,
    Trip,
    Unwaited,
    patience_of,
)
from duqishom.program import ProgramEnded
from duqishom.progress import Report, unreported
from duqishom.recording import Recording
from duqishom.refusals import BadRequest, Refused
from duqishom.remote import Address, ConnectionLost, Fate, Gateway
from duqishom.reports import ServerStatus
from duqishom.sessions import Session
from duqishom.several import Support
from duqishom.splits import SPLIT_BYTES, OwnSplits
from duqishom.tablets import NEW_STORE, Tablet, TabletMap, tablets_in, tablets_of
from duqishom.transactions import Snapshot, Transaction

MOST_VISITS = 1000

Answer = TypeVar("Answer")
Result = TypeVar("Result")


class ForkedStore(Exception):
    """The store was opened by a parent process. Each process opens one of its own."""


class Store(AutoCommit):
    """A store in a child process that ends with it: a new one in memory, which is lost then, or that of a folder, which lasts
    as of its last answer where the folder has a log. Where it has none, it lasts as its last checkpoint left it: `close` makes one.

    Several threads may use one store, each with transactions of its own; a process that is forked may not. Each method
    that sends a request raises a `Refused` if the store refuses it, `ProgramEnded` if the program has ended, and
    `RequestTimedOut` if a timeout was given and has passed.
    """

    def __init__(
        self,
        program: str | None = None,
        patience: Patience | None = None,
        words: Sequence[str] = (),
        folder: str | PathLike[str] | None = None,
        checkpoint_at_close: bool = True,
        timeout: float | None = None,
        socket: str | PathLike[str] | tuple[str, int] | None = None,
        record: str | PathLike[str] | None = None,
        log: bool | None = None,
        lock_wait: float | None = None,
        reconnect: float = 10.0,
        collect: int = COMMITS,
        new: bool = False,
        split_bytes: int = SPLIT_BYTES,
        checksums: bool | None = None,
    ) -> None:
        """Starts the program, from TABLETD, PATH or the repository if none is named, with these words on its command
        line.

        With a folder, which must exist, the store is opened from it, or is new if the folder is empty. Only one program
        can have a folder open at a time. At the end a checkpoint is made, unless `checkpoint_at_close` is false. With a
        timeout, no request is waited for longer than this many seconds. NotOpened, with the reason, if the store can't
        be opened.

        With a log, everything answered is durable, whatever ends the program. A new folder gets a log, unless `log` is
        false; a folder with a store gets one if `log` is true. A folder that has a log is always opened with it. With
        `log` false a folder without a root is opened only if nothing of a store is there, or `new` is true: a store
        that never made a checkpoint has lost nothing then.

        The files of a new folder have checksums, so that bytes that changed on the disk are found, unless `checksums` is false;
        those of a folder with a store get them from now on if `checksums` is true. A folder that has them keeps them.

        With a socket, no program is started: the store is the one that a gateway serves there, beside other clients. What of it
        is open when this client ends, the gateway ends. OSError where nobody serves there, and ConnectionLost where the gateway
        ends. The next request behind a ConnectionLost connects anew; `run` tries that for `reconnect` seconds. A socket is a path,
        or a host and a port.

        A lock is waited for `lock_wait` seconds, and then cleaned: 1 s at a gateway, and 0.03 s alone. A patience says more.

        Old versions are collected by itself after `collect` commits, and then again and again, some cells behind a commit; 0
        is never. At a socket the gateway does it.

        A tablet of a folder that holds more than `split_bytes` is split in its middle, some time behind a commit; 0 is never. At a
        socket the gateway does it.

        With `record`, a folder, all frames sent and received are recorded there for `tablet_audit`: see `Recording`.
        """
        self._owner = os.getpid()
        self._turn = threading.RLock()
        self._patience = patience_of(patience, lock_wait, socket is not None)
        self._reconnect = reconnect
        self._timeout = timeout
        self.folder = None if folder is None else fspath(folder)
        self._checkpoint_at_close = checkpoint_at_close and folder is not None
        self._is_closed = True
        self._socket: Address | None = socket if socket is None or isinstance(socket, tuple) else fspath(socket)
        self._is_remote = socket is not None
        if self._is_remote and (program is not None or words or folder is not None or record is not None):
            raise ValueError("a store at a socket has its program and folder already, and is recorded by its gateway")
        if log and folder is None:
            raise ValueError("a log is in a folder, and none is named")
        if checksums and folder is None:
            raise ValueError("files with checksums are in a folder, and none is named")
        self._connection: Connection = Gateway(self._socket) if self._socket is not None else started(
            program, self.folder, words, None if record is None else Recording(record, self.folder), log, new, checksums
        )
        self._is_closed = False
        self._support = Support(is_alone=None if self._is_remote else True)
        self._unsaved = Unsaved(self.folder is not None, self.has_log)
        self._tablets = TabletMap(NEW_STORE if self.folder is None else tablets_of(self.folder))
        self._plans = StorePlans(self._patience, None if self._is_remote else self._tablets, lambda: self.has_log)
        self._collection = OwnCollection(0 if self._is_remote else collect, self._plans)
        self._splits = OwnSplits(split_bytes, self.folder, self._tablets)
        OPEN.add(self)

    @property
    def has_log(self) -> bool:
        """Whether the store is in a folder that has a log. For a store at a socket this isn't known."""
        return self.folder is not None and has_log(self.folder)

    def ask(self, operation: Operation[Answer]) -> Answer:
        """Asks for an operation, and gives the answer."""
        [answer] = self.ask_each([operation])
        if isinstance(answer, Refused):
            raise answer
        return answer

    def ask_each(
        self, operations: Sequence[Operation[Answer] | Batch], connection: Connection | None = None
    ) -> list[Answer | Refused]:
        """Asks for several operations in one trip, and gives the answer to each, or its refusal. All are sent before a reply is
        looked at, so each is done whatever becomes of those before it. They go to the connection that is named, or to none."""
        with self.alone():
            requests, count = request_frames(operations)
            self._unsaved.note_asked(operations)
            try:
                replies = self._connected(connection).ask(requests, count, self._timeout)
            except ConnectionLost:
                raise
            except ProgramEnded as ended:
                lost = self._unsaved.lost()
                self._unsaved.forget()
                raise ProgramEnded(ended.status, lost) from None
            answers = answers_of(operations, replies, self._is_remote)
            self._unsaved.note_answered(operations, answers, self._plans.stamps.note(operations, answers))
            if self._collection.note(answers):
                self._collection.go_on(lambda trip: self._take(trip, None))
            if self._splits.note(operations, len(requests), answers):
                self._splits.go_on(lambda trip: self._take(trip, None))
            return answers

    def _connected(self, wanted: Connection | None) -> Connection:
        """The connection, made anew where the last one is known to be lost. ConnectionLost where another one is wanted, which had
        the session that is asked, and where nobody serves any more."""
        connection = self._connection
        if wanted is not None and (wanted is not connection or is_lost(wanted)):
            raise ConnectionLost("the session went with its connection to the gateway")
        if is_lost(connection) and self._socket is not None and not self._is_closed:
            try:
                self._connection = Gateway(self._socket)
                self._support = Support()
            except OSError as error:
                raise ConnectionLost(f"the connection to the gateway was lost, and can't be made anew: {error}") from None
            LOG.warning("connected anew to the gateway at %s", self._socket)
        return self._connection

    def do(self, plan: Plan[Result], connection: Connection | None = None) -> Result:
        """Takes a plan to its end."""
        try:
            trip = next(plan)
            while True:
                try:
                    answers = self._take(trip, connection)
                except BaseException as error:
                    trip = plan.throw(error)
                else:
                    trip = plan.send(answers)
        except StopIteration as done:
            result: Result = done.value
            return result

    def _take(self, trip: Trip, connection: Connection | None) -> list[Any]:
        """Asks for what a plan asks, or waits."""
        if isinstance(trip, Pause):
            time.sleep(trip.seconds)
            return []
        if isinstance(trip, Unwaited):
            with self.alone():
                self._connected(connection).tell(request_frame(trip.operation), self._timeout)
            return []
        return self.ask_each(trip, connection)

    def alone(self) -> AbstractContextManager[object]:
        """In a `with`, no other thread sends this store a request. ForkedStore in a process forked from the store's."""
        if self._owner != os.getpid():
            raise ForkedStore(f"process {self._owner} has opened this store, and not its child {os.getpid()}")
        return self._turn

    def begin(self) -> int:
        """Begins a session, and returns its start."""
        return self.ask(Begin())

    def step(self, start: int) -> Progress:
        """Takes the session's next step towards its end."""
        return self.ask(Step(start))

    def stop(self, start: int) -> None:
        """Ends the session in its current phase. The cells that it holds stay locked until they are cleaned."""
        self.ask(Stop(start))

    def clean_begin(self, row: bytes, family: bytes) -> Cleaner | None:
        """Opens a cleaner at the lock of a cell. Returns None if the cell isn't locked."""
        return self.ask(CleanBegin(row, family))

    def clean_step(self, cleaner: int) -> Cleaned:
        """Takes the cleaner's next step: the first decides, the second clears the cell."""
        return self.ask(CleanStep(cleaner))

    def clean(self, row: bytes, family: bytes) -> Cleaned | None:
        """Clears the lock of a cell, whether its session runs or has stopped. Returns the outcome, or None if the cell
        wasn't locked.

        This rolls back a session that hasn't committed: its next step that depends on the lock answers Conflict or
        Lost.
        """
        with self.alone():
            return self.do(self._plans.clean(row, family))

    def free(self, row: bytes, family: bytes, patience: Patience) -> None:
        """Waits for the lock of a cell to go, as long as the patience says, and then cleans it."""
        self.do(self._plans.free(Cell(row, family), patience))

    def collect_begin(self) -> Collector:
        """Opens a collector of old versions. Its floor is the least start of an active session."""
        return self.ask(CollectBegin())

    def collect_step(self, collector: int, visits: int = MOST_VISITS) -> Collection:
        """Has a collector make this many visits, 1 to 1,000. Each is of one cell: it looks for a lock, or erases old
        versions."""
        return self.ask(CollectStep(collector, visits))

    def collect(self, visits: int = MOST_VISITS) -> int:
        """Erases the versions that no active or later session can read. Returns the floor up to which it erased.

        The floor is the least start of an active session, so a session that is left open keeps versions: stop the
        sessions that have no more to do. A lock below the floor isn't an active session's, and is cleaned. Between two
        requests of `visits` visits other threads may use the store. If a refusal is raised, the collector stays open.
        """
        return self.do(self._plans.collect(visits))

    def minor(self, tablet: int) -> None:
        """Writes the memtable of a tablet as a new file."""
        self.ask(Minor(tablet))

    def merge(self, tablet: int, count: int) -> None:
        """Merges this many of a tablet's newest files into one."""
        self.ask(Merge(tablet, count))

    def major(self, tablet: int) -> None:
        """Merges the memtable and all files of a tablet into one file."""
        self.ask(Major(tablet))

    def split(self, row: bytes) -> int:
        """Splits the tablet that holds a row behind that row. Returns the number of the left part."""
        with self.alone():
            left = self.ask(Split(row))
            self._tablets.split(row, left)
            return left

    def move(self, tablet: int, server: int) -> None:
        """Puts a tablet on a server."""
        self.ask(Move(tablet, server))

    def sweep(self) -> int:
        """Removes the files that no tablet names, and returns their number.

        A checkpoint is made before it. With a log the files that the root names stay, so it needs none: if it is refused,
        fewer files are removed. Without a log a file goes that only the root file names. So if the checkpoint is
        refused, its refusal is raised and nothing is removed; and another one is made after it. If that one is refused,
        the folder is damaged unless a later one is made.
        """
        with self.alone():
            if self.folder is None and not self._is_remote:
                return self.ask(Sweep())
            if self._is_remote or self.has_log:
                return self.do(self._plans.sweep_beside_log())
            return self.do(self._plans.sweep())

    def checkpoint(self) -> None:
        """Writes the store's whole state to its files: all commits and all locks. A folder is opened as its last
        checkpoint left it, with no session. If a tablet has too many files, they are first merged into one."""
        with self.alone():
            self.do(self._plans.checkpoint())

    def restart_oracle(self) -> None:
        """Restarts the oracle of stamps from its stored mark."""
        self.ask(OracleRestart())

    def raw(
        self, row: bytes, family: bytes, qualifier: Qualifier, lo: int = 0, hi: int = MOST_STAMP
    ) -> Version | None:
        """The newest version of a cell's column in a range of stamps, both bounds included, or None if there is no such
        version."""
        return self.ask(Raw(row, family, qualifier, lo, hi))

    def status(self) -> ServerStatus:
        """The state of the store, and of its tablets in the order of their rows: what is open, how full memtables and files
        are, up to which stamp. It is asked for in two trips, and changes nothing. BadRequest if the program has no Status."""
        return self.do(self._plans.status())

    def tablets(self) -> tuple[Tablet, ...]:
        """The tablets, in the order of their rows. If a gateway serves the store, whose other clients may have split them, it is
        asked, as for `status`."""
        if self._is_remote:
            return tablets_in(self.status())
        with self.alone():
            return self._tablets.all()

    def make_room(self, row: bytes) -> None:
        """Makes room in the memtable of the tablet that holds a row, and in the log if there is one. If the tablet has
        too many files, they are merged into one."""
        with self.alone():
            self.do(self._plans.make_room(row))

    def fate(self, start: int, row: bytes, family: bytes, patience: Patience | None = None) -> Fate:
        """The fate of a commit whose answer was lost: of the session with this start, by its first cell. Committed with
        its stamp, or Lost.

        Ask this after the session has ended, as it has if its connection is lost, and before its versions are
        collected. A lock of it is waited for, and then cleaned; if the patience says otherwise, the answer is Pending.
        """
        with self.alone():
            return self.do(self._plans.fate(start, row, family, patience or self._patience))

    def transaction(self) -> Transaction:
        """Begins a transaction. In a `with` it commits at the end, and stops where an exception leaves."""
        return Transaction(self, *self._begun())

    def get_many(self, cells: Iterable[tuple[bytes, bytes]]) -> list[bytes | None]:
        """The values of cells, all as of one moment. They are one request if they fit into it and no lock is met; with a program
        without Read one trip, or two where others use the store."""
        wanted = [Cell(*cell) for cell in cells]
        values = self._at_once(lambda support: self._plans.read(wanted, support))
        return self.run(lambda t: t.get_many(wanted)) if values is None else values

    def _piece(self, asked: CellRange, keys: bool, cells: int) -> Piece | None:
        """The first batch of a range as of now, in a session that ends with it: None if it isn't to be had at once."""
        return self._at_once(lambda support: self._plans.scan(asked, keys, cells, support))

    def _at_once(self, plan: Callable[[Support], Plan[Result | None]]) -> Result | None:
        """What is read in a session that ends at once: None if that doesn't do, or the connection is lost."""
        with suppress(ConnectionLost):
            with self.alone():
                connection, support = self._connected(None), self._support
            return self.do(plan(support), connection)
        return None

    def snapshot(self) -> Snapshot:
        """The store as of now, to be read in a `with`. While it is open, collectors keep what it shows."""
        return Snapshot(self, *self._begun())

    def _snapshot_later(self) -> Snapshot:
        """The store as of the first read."""
        return Snapshot(self, *self._session())

    def _begun(self) -> tuple[Session, Connection]:
        """A session that has begun, and the connection that has it."""
        session, connection = self._session()
        self.do(session.begin(), connection)
        return session, connection

    def _session(self) -> tuple[Session, Connection]:
        """A session that hasn't begun, and the connection that is to have it."""
        with self.alone():
            connection = self._connected(None)
            return Session(self._plans, self._support), connection

    def run(self, work: Callable[[Transaction], Result], attempts: int = 10, deadline: float | None = None) -> Result:
        """Does work in a transaction, and retries in a new one after a conflict, a loss or a lock that stays.

        Behind each attempt there is a pause, by chance, up to a time that doubles: first the patience's pause, and at most a
        second. After the last attempt that failure is raised: there are so many attempts, and none begins after `deadline`
        seconds.

        The transaction begins with its first read, or else with its commit. With a program that has Read and Commit, its reads
        of cells in one call are one request, and so is its commit, before which a gateway is asked for a session.

        A connection to a gateway that is lost meanwhile is made anew. Where it was lost in the commit, `fate` tells whether there
        is something left to do.
        """
        tried = Attempts(self._patience, attempts, deadline)
        while True:
            transaction: Transaction | None = None
            results: list[Result] = []
            try:
                with Transaction(self, *self._session()) as transaction:
                    results.append(work(transaction))
                return results[0]
            except (TransactionConflict, TransactionLost, StillPending) as failure:
                pause = tried.pause_after(failure)
            except ConnectionLost as lost:
                if self._is_done_nonetheless(lost, transaction, min(self._reconnect, tried.left())):
                    if results:
                        return results[0]
                    raise
                pause = tried.pause_after(lost)
            time.sleep(pause)

    def _is_done_nonetheless(self, lost: ConnectionLost, transaction: Transaction | None, seconds: float) -> bool:
        """Whether a transaction was committed whose connection was lost. It connects anew first, for which there are so many
        seconds. The loss is raised where that comes to nothing, another store's connection was lost, or it can't be told."""
        connection = self._connection if transaction is None else transaction._connection
        if connection is self._connection and not is_lost(connection):
            raise lost
        reconnects = Reconnects(seconds)
        while True:
            try:
                with self.alone():
                    self._connected(None)
                return transaction is not None and self._is_committed(lost, transaction)
            except ConnectionLost:
                pause = None if self._is_closed else reconnects.pause()
                if pause is None:
                    raise
            time.sleep(pause)

    def _is_committed(self, lost: ConnectionLost, transaction: Transaction) -> bool:
        """Whether a transaction was committed whose connection was lost. The loss is raised where a lock of it stands, and may not
        be cleaned, or where it can't be told, as of a cluster."""
        session = transaction._session
        if not session.has_stepped or session.first is None:
            return False
        try:
            fate = self.fate(session.start, *session.first)
        except BadRequest:
            raise lost from None
        LOG.warning("the connection was lost while session %d committed: %s", session.start, fate)
        if isinstance(fate, Pending):
            raise lost
        session.commit_stamp = fate.commit if isinstance(fate, Committed) else None
        return isinstance(fate, Committed)

    def watch(self, prefix: bytes = b"", family: bytes | None = None, timeout: float | None = None) -> Changes:
        """Tells of the commits that write cells in rows with a prefix, in one family if it is given:

            for change in store.watch(b"todo/"):
                work(store)

        The first `Change` has no cells, and comes at once; each later commit is told. With a timeout the loop ends when
        none has come for so many seconds. ValueError if no gateway serves the store, for only a gateway tells of
        commits, and of those alone that it has passed on. BadRow or BadColumn as the store would refuse it.
        """
        if self._socket is None:
            raise ValueError("a gateway tells of commits, and none serves this store")
        return Changes(self._socket, watch_of(prefix, family), timeout, self._reconnect)

    def backup(self, path: str | PathLike[str], progress: Report = unreported) -> None:
        """Makes a copy of the store's folder at a path, which must be an empty folder or not exist: the state of a
        checkpoint made now. Other threads wait meanwhile. If a gateway serves the store, the gateway makes the copy,
        and only a Sweep waits for it. NotCopied if the store is in memory, the path has files, or the gateway can't
        copy; OSError if this process can't.

        `progress` is told now and then how many bytes are copied, and of how many: a `Reached` of `duqishom.progress`.
        What it raises ends the copy.
        """
        if self._socket is not None:
            back_up(self._socket, fspath(path), progress)
            return
        if self.folder is None:
            raise NotCopied("a store in memory has no folder to copy")
        with self.alone():
            self.checkpoint()
            copy_checkpoint(self.folder, fspath(path), progress)

    def kill(self) -> None:
        """Kills the program at once, whatever it is doing. A folder with a log then has everything that was answered,
        and a folder without one its last checkpoint."""
        self._connection.kill()
        self._unsaved.lost()
        self._unsaved.forget()

    def close(self, checkpoint: bool | None = None) -> int:
        """Ends the program, and gives its exit status. A store in a folder makes a checkpoint first if anything has
        changed since the last one, unless it was opened with `checkpoint_at_close` false; `checkpoint` overrides that
        for this call. With a log, the checkpoint only saves the next open from reading the log. It may be called again.

        A Refused if that checkpoint is refused: the store stays open. ProgramEnded if the program has ended before.
        Both texts say which changes aren't in the folder.
        """
        with self.alone():
            wanted = self._checkpoint_at_close if checkpoint is None else checkpoint
            if not self._is_closed and wanted and self._unsaved.is_changed:
                self._save()
            self._is_closed = True
            return self._connection.close()

    def _save(self) -> None:
        """Makes the checkpoint of `close`, however long it takes."""
        self._timeout = None
        try:
            self.checkpoint()
        except Refused as refusal:
            refusal.what = self._unsaved.unkept()
            raise
        except ProgramEnded:
            self._is_closed = True
            raise

    def __enter__(self) -> Store:
        return self

    def __exit__(
        self, kind: type[BaseException] | None, error: BaseException | None, trace: TracebackType | None
    ) -> None:
        self.close()

    def __del__(self) -> None:
        if not self.__dict__.get("_is_closed", True) and self._owner == os.getpid():
            warnings.warn(f"{self!r} wasn't closed", ResourceWarning, stacklevel=2)
            self.close()


def is_lost(connection: Connection) -> bool:
    """Whether a connection is one to a gateway, and is known to be lost."""
    return bool(getattr(connection, "is_lost", False))


OPEN: weakref.WeakSet[Store] = weakref.WeakSet()


@atexit.register
def close_all() -> None:
    """Closes the stores that are still open at exit, so that folders have their checkpoints."""
    for store in list(OPEN):
        if store._owner == os.getpid():
            try:
                store.close()
            except (ProgramEnded, Refused) as failure:
                print(f"duqishom: {failure}", file=sys.stderr)
