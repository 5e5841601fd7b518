"""The command shell: requests to a store in words, one a line."""

from __future__ import annotations

from collections.abc import Iterable, Iterator, Sequence

from duqishom import explained, states
from duqishom.administration import Clients, Kill
from duqishom.answers import Committed, Conflict, Entry, Qualifier
from duqishom.cells import Cell, range_of
from duqishom.columns import BadForm
from duqishom.fields import MalformedReply
from duqishom.inspection import drop_output
from duqishom.lines import HELP, Line, Misspelled, add_range, add_scan, completions, parsers_of, read_line, split_words
from duqishom.operations import Answer, Operation
from duqishom.progress import ProgressLine, add_progress
from duqishom.refusals import BadRequest, Refused
from duqishom.remote import Address, ConnectionLost
from duqishom.several import Commit, CommitDone
from duqishom.store import Store
from duqishom.tellings import (
    Form,
    Told,
    ToldLines,
    as_data,
    cell_data,
    failed,
    said,
    show,
    text_of_cleaned,
    text_of_found,
    text_of_progress,
    text_of_version,
)
from duqishom.terminal import is_long, show_pages
from duqishom.texts import text_of
from duqishom.transactions import Transaction, TransactionFailed


class Quit(Exception):
    """A line ends the command."""


class NotDone(Exception):
    """A line can't be done, and nothing was."""


def amount_in(transaction: Transaction, row: bytes, family: bytes) -> int:
    """The number in a cell, 0 if the cell has no value."""
    value = transaction.get(row, family)
    if value is None:
        return 0
    if not value.isdigit():
        raise NotDone(f"{text_of(row)} {text_of(family)} is no number: {text_of(value)}")
    return int(value)


def committed(transaction: Transaction) -> Told:
    """The answer to a line that wrote something."""
    return Told(f"committed at {transaction.commit_stamp}", {"commit": transaction.commit_stamp})


def told_cells(cells: Iterator[Entry]) -> Iterator[Told]:
    """The answer for each cell of a scan."""
    try:
        for row, family, value in cells:
            names = (row, family) if value is None else (row, family, value)
            data = dict(zip(("row", "family", "value"), map(as_data, names)))
            yield Told(" ".join(map(text_of, names)), data, b"\t".join(names))
    except ConnectionLost as lost:
        raise NotDone(str(lost)) from None


# What says that a line isn't done, or no further.
NOT_DONE = (Refused, TransactionFailed, OverflowError, Misspelled, NotDone, OSError, ValueError, BadForm, MalformedReply)


def told_why(why: Exception) -> Told:
    """Why a line isn't done."""
    match why:
        case Refused():
            return failed(str(why))
        case TransactionFailed():
            return failed(f"not committed: {why}")
        case OverflowError():
            return failed("not done: a number is too large")
        case _:
            return failed(f"not done: {why}")


class Words:
    """A store that takes requests in words. `socket` is its gateway's, if it has one."""

    def __init__(self, store: Store, socket: Address | None = None) -> None:
        self._store = store
        self._socket = socket

    def answer(self, text: str) -> tuple[bool, Told | ToldLines | None]:
        """Whether a line was done, and the answer to show: none for an empty line. Quotes make one word of several or of
        none. Quit if the line ends the command."""
        try:
            words = split_words(text)
        except ValueError as why:
            return False, failed(f"not done: {why}".lower())
        return self.answer_words(words) if words else (True, None)

    def answer_words(self, words: list[str]) -> tuple[bool, Told | ToldLines]:
        """Whether a line of these words was done, and the answer to show."""
        try:
            return True, self._do(words)
        except NOT_DONE as why:
            return False, told_why(why)

    def _do(self, words: list[str]) -> Told | ToldLines:
        told = help_of(words)
        if told is not None:
            return said(told)
        line, places, options = read_line(PARSERS, words)
        return line.do(self, *places, **options)

    def help(self) -> Told:
        """All lines of the command."""
        return said("\n".join(help_lines()))

    def quit(self) -> Told:
        """Ends the command."""
        raise Quit()

    def set(self, row: bytes, family: bytes, value: bytes) -> Told:
        """Sets a cell, in a transaction."""

        def work(transaction: Transaction) -> Transaction:
            transaction.set(row, family, value)
            return transaction

        return committed(self._store.run(work))

    def get(self, row: bytes, family: bytes) -> Told:
        """Reads a cell, in a transaction."""
        value = self._store.run(lambda transaction: transaction.get(row, family))
        data = cell_data(row, family) | {"value": None if value is None else as_data(value)}
        return Told("nothing" if value is None else text_of(value), data, value or b"")

    def delete(self, row: bytes, family: bytes) -> Told:
        """Deletes a cell, in a transaction."""

        def work(transaction: Transaction) -> Transaction:
            transaction.delete(row, family)
            return transaction

        return committed(self._store.run(work))

    def scan(
        self,
        start: bytes | None,
        end: bytes | None,
        prefix: bytes | None,
        family: bytes | None,
        keys: bool,
        limit: int | None,
        reverse: bool,
    ) -> ToldLines:
        """Reads the cells of a range, all as of one moment: a line for each."""
        if keys:
            found: Iterator[Entry] = self._store.scan(
                start, end, prefix=prefix, family=family, keys=True, limit=limit, reverse=reverse
            )
        else:
            found = self._store.scan(start, end, prefix=prefix, family=family, limit=limit, reverse=reverse)
        return ToldLines(told_cells(found))

    def count(self, start: bytes | None, end: bytes | None, prefix: bytes | None, family: bytes | None) -> Told:
        """The number of cells of a range that have a value."""
        count = self._store.run(lambda transaction: transaction.count(start, end, prefix=prefix, family=family))
        return Told(str(count), {"count": count})

    def transfer(self, giver: bytes, taker: bytes, family: bytes, amount: int) -> Told:
        """Moves an amount from one row to the other, in a transaction."""
        names = text_of(giver), text_of(taker)
        if giver == taker:
            raise NotDone("the two rows are one")

        def work(transaction: Transaction) -> tuple[Transaction, int, int]:
            left = amount_in(transaction, giver, family) - amount
            if left < 0:
                raise NotDone(f"{names[0]} has {left + amount}")
            got = amount_in(transaction, taker, family) + amount
            transaction.set(giver, family, b"%d" % left)
            transaction.set(taker, family, b"%d" % got)
            return transaction, left, got

        transaction, left, got = self._store.run(work)
        stamp = transaction.commit_stamp
        text = f"committed at {stamp}: {names[0]} has {left}, {names[1]} has {got}"
        return Told(text, {"commit": stamp, "left": left, "got": got})

    def begin(self) -> Told:
        """Begins a session."""
        start = self._store.begin()
        return Told(f"session {start}", {"session": start})

    def session_set(self, start: int, row: bytes, family: bytes, value: bytes) -> Told:
        """Buffers a write in a session."""
        self._store.set(start, row, family, value)
        return said("set")

    def session_delete(self, start: int, row: bytes, family: bytes) -> Told:
        """Buffers a deletion in a session."""
        self._store.delete(start, row, family)
        return said("set to be deleted")

    def session_get(self, start: int, row: bytes, family: bytes) -> Told:
        """Reads a cell as of a session's start."""
        return said(text_of_found(self._store.get(start, row, family)))

    def session_step(self, start: int) -> Told:
        """Takes a session's next step."""
        return said(text_of_progress(self._store.step(start)))

    def session_commit(self, start: int) -> Told:
        """Commits a session, which ends. Nothing is locked after a conflict."""
        answer = self._store.ask(Commit(start))
        return said(text_of_progress(Committed(answer.commit) if isinstance(answer, CommitDone) else Conflict(answer.place)))

    def session_stop(self, start: int) -> Told:
        """Ends a session in its current phase."""
        self._store.stop(start)
        return said("stopped")

    def explain(self, row: bytes, family: bytes) -> Told:
        """Shows all versions of a cell."""
        return explained.explain(self._store, Cell(row, family))

    def locks(self, start: bytes | None, end: bytes | None, prefix: bytes | None, family: bytes | None) -> Told:
        """Shows the locks of a range."""
        return explained.told_locks(explained.locks(self._store, range_of(start, end, prefix, family)))

    def status(self) -> Told:
        """Shows the state of the store."""
        return states.state(self._store, self._socket)

    def clients(self) -> Told:
        """Shows the clients of the gateway."""
        return states.clients(self._asked(Clients(), "only the administrator, root and the gateway's user are told"))

    def kill(self, client: int) -> Told:
        """Kills a client's connection to the gateway."""
        if not self._asked(Kill(client), "clients are killed only at the administrator's socket (serve --admin)"):
            raise NotDone(f"the gateway has no other client {client}")
        return said("killed")

    def _asked(self, operation: Operation[Answer], why: str) -> Answer:
        """The gateway's answer. NotDone if no gateway serves the store, and with this reason if the gateway refuses."""
        if self._socket is None:
            raise NotDone("no gateway serves this store")
        try:
            return self._store.ask(operation)
        except BadRequest:
            raise NotDone(why) from None

    def clean(self, row: bytes, family: bytes) -> Told:
        """Clears the lock of a cell."""
        cleaned = self._store.clean(row, family)
        return said("no lock" if cleaned is None else text_of_cleaned(cleaned))

    def collect(self) -> Told:
        """Erases the versions that no session reads."""
        floor = self._store.collect()
        return Told(f"collected up to {floor}", {"floor": floor})

    def raw(self, row: bytes, family: bytes, column: Qualifier, lo: int, hi: int) -> Told:
        """Reads the newest version of a column in a range of stamps."""
        version = self._store.raw(row, family, column, lo, hi)
        data = None if version is None else {"stamp": version.stamp, "value": as_data(version.value)}
        return Told(text_of_version(version, column), data, b"" if version is None else version.value)

    def tablets(self) -> Told:
        """The tablets, in the order of their rows, with their servers, and what their memtables and files have."""
        return states.tablets(self._store.status())

    def split(self, row: bytes) -> Told:
        """Splits the tablet that holds a row behind the row."""
        tablet = self._store.split(row)
        return Told(f"tablet {tablet} ends with {text_of(row)}", {"tablet": tablet})

    def move(self, tablet: int, server: int) -> Told:
        """Puts a tablet on a server."""
        self._store.move(tablet, server)
        return said("moved")

    def minor(self, tablet: int) -> Told:
        """Writes a tablet's memtable as a file."""
        self._store.minor(tablet)
        return said("compacted")

    def merge(self, tablet: int, count: int) -> Told:
        """Makes one file of so many newest ones."""
        self._store.merge(tablet, count)
        return said("compacted")

    def major(self, tablet: int) -> Told:
        """Makes one file of all that a tablet has."""
        self._store.major(tablet)
        return said("compacted")

    def sweep(self) -> Told:
        """Removes the files that no tablet names."""
        count = self._store.sweep()
        return Told(f"{count} files removed", {"files": count})

    def checkpoint(self) -> Told:
        """Writes all into files."""
        self._store.checkpoint()
        return said("written")

    def backup(self, path: str, progress: bool | None) -> Told:
        """Copies the folder."""
        with ProgressLine("backup", progress) as line:
            self._store.backup(path, line)
        return said(f"copied to {path}")

    def restart(self) -> Told:
        """Has the oracle go on from its mark."""
        self._store.restart_oracle()
        return said("restarted")


LINES = (
    Line("set ROW FAMILY VALUE", "sets a cell, in a transaction", Words.set),
    Line("get ROW FAMILY", "reads a cell, in a transaction", Words.get),
    Line("delete ROW FAMILY", "deletes a cell, in a transaction", Words.delete),
    Line("scan [START [END]] [OPTIONS]", "reads the cells from a row to a row, as of now", Words.scan, add_scan),
    Line("count [START [END]] [OPTIONS]", "how many cells such a range has", Words.count, add_range),
    Line("transfer ROW ROW FAMILY AMOUNT", "moves an amount from one row to the other", Words.transfer),
    Line("begin", "begins a session, and names its start", Words.begin),
    Line("in START set ROW FAMILY VALUE", "buffers a write in the session", Words.session_set),
    Line("in START delete ROW FAMILY", "buffers a deletion in the session", Words.session_delete),
    Line("in START get ROW FAMILY", "reads a cell as of the start", Words.session_get),
    Line("in START step", "takes the session's next step", Words.session_step),
    Line("in START commit", "commits the session's writes at once, and ends it", Words.session_commit),
    Line("in START stop", "ends the session in its current phase", Words.session_stop),
    Line("explain ROW FAMILY", "all that a cell has: its value, locks, records and data", Words.explain),
    Line("locks [START [END]] [OPTIONS]", "the locks of such a range, and their sessions' ends", Words.locks, add_range),
    Line("status", "the state of the store, of its folder, and as its gateway counts", Words.status),
    Line("clients", "the clients of the gateway, those with the oldest sessions first", Words.clients),
    Line("kill CLIENT", "ends the connection of the client with this number", Words.kill),
    Line("clean ROW FAMILY", "clears the lock of a cell", Words.clean),
    Line("collect", "erases the versions that no session reads", Words.collect),
    Line("raw ROW FAMILY COLUMN LO HI", "the newest version in data, lock or write; HI may be last", Words.raw),
    Line("tablets", "the tablets, in the order of their rows: servers, memtables, files", Words.tablets),
    Line("split ROW", "splits the tablet that holds the row behind the row", Words.split),
    Line("move TABLET SERVER", "puts a tablet on a server", Words.move),
    Line("compact TABLET minor", "writes the tablet's memtable as a file", Words.minor),
    Line("compact TABLET merge COUNT", "makes one file of so many newest ones", Words.merge),
    Line("compact TABLET major", "makes one file of all that the tablet has", Words.major),
    Line("sweep", "removes the files that no tablet names", Words.sweep),
    Line("checkpoint", "writes all into files, from which a folder is opened", Words.checkpoint),
    Line("backup PATH [OPTIONS]", "copies the folder, as of now, to an empty folder or a new one", Words.backup, add_progress),
    Line("restart", "has the oracle go on from its mark", Words.restart),
    Line("help", "these lines; LINE --help shows the options of one", Words.help),
    Line("quit", "ends the command; so does exit", Words.quit),
    Line("exit", "", Words.quit),
)
PARSERS = parsers_of(LINES)


def help_lines() -> Iterator[str]:
    """All lines that there are, and what each does."""
    return (f"{line.usage:31}{line.help}" for line in LINES if line.help)


def help_of(words: Sequence[str]) -> str | None:
    """The help of a line, if these words ask for it."""
    return PARSERS[words[0]].format_help().rstrip() if words[1:] in HELP and words[0] in PARSERS else None


def complete(text: str) -> Iterator[str]:
    """The words that may follow a text."""
    try:
        return completions(LINES, PARSERS, split_words(text))
    except ValueError:
        return iter(())


def shown(told: Told | ToldLines, form: Form, by_pages: bool = False) -> bool:
    """Shows an answer, as far as it comes and is read. Returns whether all of it came."""
    try:
        if by_pages and form is Form.TEXT:
            told = told.whole() if isinstance(told, ToldLines) else told
            if is_long(told.text):
                show_pages(told.text)
                return True
        show(told, form)
        return True
    except BrokenPipeError:
        drop_output()
        return True
    except NOT_DONE as why:
        show(told_why(why), form)
        return False


def answer_all(words: Words, texts: Iterable[str], form: Form = Form.TEXT, by_pages: bool = False) -> bool:
    """Shows the answer to each line, up to the one that ends the command. Returns whether all were done."""
    is_well = True
    for text in texts:
        try:
            is_done, told = words.answer(text)
        except Quit:
            break
        is_shown = told is None or shown(told, form, by_pages)
        is_well = is_well and is_done and is_shown
    return is_well
