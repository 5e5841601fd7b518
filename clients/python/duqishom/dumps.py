"""`python3 -m duqishom dump` and `load`: the cells of a store as lines of JSON, and back.

    {"row": "Bob", "family": "bal", "value": "10"}

Each text encodes bytes: it is UTF-8, in which `\\x0a` stands for the byte 0A. So no byte is lost, whatever reads the
lines.
"""

from __future__ import annotations

import argparse
import json
import os
import sys
from collections.abc import Callable, Iterable, Iterator, Sequence
from contextlib import ExitStack
from itertools import islice
from pathlib import Path
from typing import BinaryIO

from duqishom.fields import MalformedReply
from duqishom.inspection import Folder, committed, drop_output, note_state, status_of
from duqishom.program import ProgramEnded
from duqishom.progress import CELLS, ProgressLine, Report, Tally, add_progress, tallied, unreported
from duqishom.refusals import BadColumn, BadRow, BadValue, Refused
from duqishom.remote import socket_at
from duqishom.salvage import SalvagedFolder
from duqishom.store import Store
from duqishom.texts import bytes_of, text_of
from duqishom.transactions import MOST_WRITES, Patience, Transaction, TransactionFailed

Entry = tuple[bytes, bytes, bytes]
NAMES = ("row", "family", "value")

# A dump waits a second for each lock before it treats the lock as abandoned. A load merges files on the way.
DUMP_PATIENCE = Patience(tries=100)
LOAD_WORDS = ("--merge", "8")


class BadLine(Exception):
    """A line isn't a cell's."""


def line_of(cell: Entry) -> bytes:
    """The line of a cell."""
    texts = (text_of(part, "\\") for part in cell)
    return json.dumps(dict(zip(NAMES, texts)), ensure_ascii=False).encode() + b"\n"


def cell_of(line: bytes) -> Entry:
    """The cell of a line. BadLine if it is malformed."""
    try:
        told = json.loads(line)
    except (ValueError, RecursionError) as why:
        raise BadLine(f"this is no JSON: {why}") from None
    if not isinstance(told, dict) or sorted(told) != sorted(NAMES) or not all(isinstance(text, str) for text in told.values()):
        raise BadLine("a line is an object of the texts row, family and value")
    try:
        row, family, value = (bytes_of(told[name]) for name in NAMES)
    except UnicodeEncodeError:
        raise BadLine("a byte that is no UTF-8 is written as \\\\xff") from None
    return row, family, value


def dump(cells: Iterable[Entry], out: BinaryIO, progress: Report = unreported) -> None:
    """Writes cells as lines. `progress` is told how many are written."""
    out.writelines(map(line_of, tallied(cells, Tally(progress, None, CELLS))))
    out.flush()


def load(store: Store, lines: Iterable[bytes], progress: Report = unreported, total: int | None = None) -> None:
    """Sets the cells of lines, in transactions of as many cells as possible. `progress` is told how many are set, of so
    many in all. BadLine, with the line's number, at a malformed line."""
    numbered, loaded = enumerate(lines, start=1), Tally(progress, total, CELLS)
    while batch := list(islice(numbered, MOST_WRITES)):
        cells = list(cells_of(batch))

        def write(transaction: Transaction) -> None:
            for cell in cells:
                transaction.set(*cell)

        try:
            store.run(write)
        except (BadRow, BadColumn, BadValue) as refusal:
            raise BadLine(f"lines {batch[0][0]} to {batch[-1][0]}: {refusal}") from None
        loaded.add(len(cells))


def cells_of(batch: Iterable[tuple[int, bytes]]) -> Iterator[Entry]:
    """The cells of lines with their numbers."""
    for number, line in batch:
        try:
            yield cell_of(line)
        except BadLine as bad:
            raise BadLine(f"line {number}: {bad}") from None


def lines_in(path: str | None) -> int | None:
    """The number of lines of a file, or None if that can't be known before they are read."""
    if path is None or not os.path.isfile(path):
        return None
    with open(path, "rb") as file:
        return sum(1 for _ in file)


def parser_of(command: str, description: str, file: str) -> argparse.ArgumentParser:
    """The parser of a command that has a store and a file."""
    parser = argparse.ArgumentParser(prog=f"duqishom {command}", description=description)
    place = parser.add_mutually_exclusive_group(required=True)
    place.add_argument("--dir", metavar="FOLDER", help="the folder of the store")
    place.add_argument(
        "--socket", metavar="PATH", type=socket_at, help="the socket of the gateway that serves the store, or HOST:PORT"
    )
    parser.add_argument("file", metavar="FILE", nargs="?", help=file)
    add_progress(parser)
    return parser


def status(command: str, work: Callable[[], None]) -> int:
    """The status of work at a store: 0, 1 if a line or a transaction failed, 2 if the store or a file failed."""
    try:
        work()
    except BrokenPipeError:
        drop_output()
    except (BadLine, TransactionFailed) as why:
        print(f"{command}: {why}", file=sys.stderr)
        return 1
    except (OSError, ProgramEnded, Refused, MalformedReply) as failure:
        print(f"{command}: {failure}", file=sys.stderr)
        return 2
    return 0


def dump_options(words: Sequence[str]) -> argparse.Namespace:
    """The options of a dump."""
    parser = parser_of(
        "dump",
        "Writes the committed cells of one moment, each as a line of JSON. Of a folder it reads the files alone: the last"
        " checkpoint and the log.",
        "a new file: the standard output where none is named",
    )
    parser.add_argument(
        "--salvage",
        action="store_true",
        help="of a damaged folder, write what can be read of each file up to its first wrong byte, and say what is left out: a cell"
        " may then have an earlier value, or one that was deleted",
    )
    options = parser.parse_args(words)
    if options.salvage and options.dir is None:
        parser.error("--salvage needs --dir")
    return options


def dump_main(words: Sequence[str]) -> int:
    """Dumps a store. The status is 0, 1 if a folder isn't intact, and 2 if the store or the file failed."""
    options = dump_options(words)

    def write(cells: Iterable[Entry]) -> None:
        # At one terminal this line and those of the dump would mix
        is_shown = False if options.progress is None and options.file is None and sys.stdout.isatty() else options.progress
        with ExitStack() as stack:
            out = sys.stdout.buffer if options.file is None else stack.enter_context(open(options.file, "xb"))
            dump(cells, out, stack.enter_context(ProgressLine("dump", is_shown)))

    def read_folder() -> int:
        note_state("dump", options.dir)
        if options.salvage:
            salvaged = SalvagedFolder(Path(options.dir))
            write(salvaged.cells())
            return told_lost(salvaged.lost)
        folder = Folder(Path(options.dir))
        folder.check()
        write(committed(folder))
        return 0

    def read_store() -> None:
        with Store(socket=options.socket, patience=DUMP_PATIENCE) as store, store.transaction() as transaction:
            write(transaction.scan())

    return status("dump", read_store) if options.dir is None else status_of("dump", options.dir, read_folder)


def told_lost(lost: Sequence[str]) -> int:
    """The status of a dump of a damaged folder: 1 if something is lost, which the standard error says."""
    for what in lost:
        print(f"dump: {what}", file=sys.stderr)
    return 1 if lost else 0


def load_main(words: Sequence[str]) -> int:
    """Loads a dump. The status is 0, 1 if a line or a transaction failed, and 2 if the store or the file failed."""
    options = parser_of(
        "load",
        f"Sets the cells of a dump, {MOST_WRITES} in a transaction. Where it ends early, it says how many are set; it may be begun"
        " anew.",
        "the lines: the standard input where none is named",
    ).parse_args(words)
    line = ProgressLine("load", options.progress)

    def read() -> None:
        with ExitStack() as stack:
            lines = sys.stdin.buffer if options.file is None else stack.enter_context(open(options.file, "rb"))
            tuned = () if options.dir is None else LOAD_WORDS
            store = stack.enter_context(Store(folder=options.dir, socket=options.socket, words=tuned))
            load(store, lines, stack.enter_context(line), lines_in(options.file) if line.is_shown else None)

    try:
        return status("load", read)
    finally:
        print(f"{line.reached.done:,} cells are set")
