"""`python3 -m duqishom inspect FOLDER [stats | files | tablets | log | locks | cells [PREFIX]]`: the contents of a
folder, from its files only.

It is the store as of its last checkpoint with the edits of its log, also while a program has the folder open. Nothing
is written and nothing is locked.
"""

from __future__ import annotations

import argparse
import mmap
import os
import sys
from collections import Counter, defaultdict
from collections.abc import Callable, Iterable, Iterator, Mapping, Sequence
from contextlib import suppress
from heapq import merge
from itertools import chain, groupby
from pathlib import Path
from typing import NamedTuple, TypeVar

from duqishom.answers import Qualifier
from duqishom.cells import Cell
from duqishom.columns import BadForm, Kind, Record, read_lock, read_record
from duqishom.files import (
    LOG_FILE,
    MARK_FILE,
    Bytes,
    Key,
    Root,
    RootTablet,
    SortedFile,
    key_of,
)
from duqishom.folders import (
    FolderDamaged,
    check_mark,
    check_over,
    has_log,
    holder_of,
    last_edits,
    read_frames,
    read_log,
    read_mark,
    read_root,
)
from duqishom.pieces import SUMMED, SUMS_FORMAT, files_in, number_in, payload_of, place_in
from duqishom.texts import bytes_of, text_of

WORDS = ("stats", "files", "tablets", "log", "locks", "cells")

# How often a folder is read again if a program changes it meanwhile.
TRIES = 10


Read = TypeVar("Read")


class Found(NamedTuple):
    """A live version, with its value, and the tablet that it is in."""

    tablet: int
    key: Key
    value: bytes


class Folder:
    """The last checkpoint of a folder, its root and the files that the root names, all open; and the edits of its log,
    which are newer than the files. The log is read first: edits that a root has already change nothing. If it continues
    another root, or a file is gone, a program has put a root meanwhile, and everything is read again."""

    def __init__(self, path: Path) -> None:
        """Opens a folder. OSError or FolderDamaged if that fails."""
        self.path = path
        for left in reversed(range(TRIES)):
            self._logged, self.root = read_log(path), read_root(path)
            try:
                check_over(path, self._logged, self.root)
                self.files = {name: self._opened(name) for name in named_by(self.root)}
                break
            except FolderDamaged:
                if not left:
                    raise
        self.log = last_edits(path, self._logged)
        # Read after the root: a program that has the folder open stores the mark before it puts a root
        self.stored_mark = read_mark(path)
        self.mark = max(self.stored_mark, 0 if self._logged is None else self._logged.mark())

    def _opened(self, name: int) -> SortedFile:
        """A file, with its header and its footer."""
        place = place_in(self.path, name)
        try:
            with place.open("rb") as file:
                size = os.fstat(file.fileno()).st_size
                data: Bytes = mmap.mmap(file.fileno(), 0, access=mmap.ACCESS_READ) if size else b""
        except FileNotFoundError:
            raise FolderDamaged(place, "the root names this file, and it isn't there") from None
        return self._checked(name, lambda: SortedFile(payload_of(place, data)))

    def _checked(self, name: int, read: Callable[[], Read]) -> Read:
        """The result of a read of a file. FolderDamaged if the file is malformed."""
        try:
            return read()
        except BadForm as bad:
            raise FolderDamaged(place_in(self.path, name), bad.what, bad.at) from None

    def check(self) -> None:
        """Reads the whole folder, as a program does at an open. FolderDamaged at the first wrong byte."""
        check_mark(self.path, self.stored_mark, self.root)
        for tablet in self.root.tablets:
            for name, length in tablet.files:
                size = self.files[name].size
                if length is not None and length != size:
                    raise FolderDamaged(place_in(self.path, name), f"the root says {length} bytes, and it has {size}")
        for name, file in self.files.items():
            self._checked(name, file.check)

    def unnamed(self) -> list[int]:
        """The files that exist and that the root doesn't name."""
        names = {number_in(file.name) % SUMMED for file in files_in(self.path)}
        return sorted(names - set(self.files) - {0})

    def may_have_locks(self) -> bool:
        """Whether the log or a file has a lock, even if a newer file has its erasure."""
        texts = (text for file in self.files.values() for text, _ in file.entries())
        return any(text[-14:-8] == b"lock\x00\x00" for text in chain(self.log, texts))

    def versions(self) -> Iterator[Found]:
        """The live versions of all tablets, in the order of keys: for each key the log's last edit, or else the newest
        file's entry, unless it is an erasure."""
        low = b""
        for tablet in self.root.tablets:
            for key, value in self._live(tablet):
                if key.row > low and (tablet.end is None or key.row <= tablet.end):
                    yield Found(tablet.number, key, value)
            low = tablet.end or b""

    def _live(self, tablet: RootTablet) -> Iterator[tuple[Key, bytes]]:
        """The live entries of a tablet's files and of the log, whatever their rows."""
        logged = ((text, -1, value) for text, value in sorted(self.log.items(), key=lambda edit: edit[0]))
        aged = (self._aged(name, age) for age, (name, _) in enumerate(tablet.files))
        for text, same in groupby(merge(logged, *aged), key=lambda entry: entry[0]):
            _, _, value = next(same)
            if value is not None:
                yield key_of(text), value

    def _aged(self, name: int, age: int) -> Iterator[tuple[bytes, int, bytes | None]]:
        """The entries of a file, with the file's age among its tablet's files."""
        return ((text, age, value) for text, value in self.files[name].entries())


def named_by(root: Root) -> list[int]:
    """The names of the files that a root names."""
    return sorted({name for tablet in root.tablets for name, _ in tablet.files})


def end_of(tablet: RootTablet) -> str:
    """The end of a tablet, in words."""
    return "the last row" if tablet.end is None else text_of(tablet.end)


def stats(folder: Folder) -> Iterator[str]:
    """Counts of everything in the folder."""
    root, unnamed = folder.root, folder.unnamed()
    size = sum(file.size for file in folder.files.values())
    is_logged = has_log(str(folder.path))
    stored = f" ({folder.stored_mark} in {MARK_FILE})" if is_logged else ""
    numbers = f"greatest stamp {root.top}, floor {root.floor}, mark {folder.mark}{stored}, next file {root.next_name:x}"
    yield f"{numbers}, root of format {root.format}"
    sizes = f"{len(root.tablets)} tablets, {len(folder.files)} files, {size:,} bytes"
    logged = f", {len(folder.log):,} keys in the log" if is_logged else ""
    yield f"{sizes}{logged}; {len(unnamed)} more files that the root doesn't name"
    counts: defaultdict[int, Counter[str]] = defaultdict(Counter)
    for (tablet, (_, _, column, _), value), is_newest in with_newest(folder.versions()):
        count = counts[tablet]
        count[column.name] += 1
        if column is Qualifier.WRITE and is_newest:
            count["cells"] += read_record(value).kind is Kind.SET
    for place in root.tablets:
        count = counts[place.number]
        yield (
            f"tablet {place.number} up to {end_of(place)}: {count['cells']:,} cells, {count['WRITE']:,} records, "
            f"{count['DATA']:,} data, {count['LOCK']:,} locks"
        )


def with_newest(versions: Iterator[Found]) -> Iterator[tuple[Found, bool]]:
    """Versions, each with whether it is the newest of its column."""
    last: tuple[bytes, bytes, Qualifier] | None = None
    for found in versions:
        place = found.key[:3]
        yield found, place != last
        last = place


def files(folder: Folder) -> Iterator[str]:
    """The files, with their sizes and their tablets."""
    owners: defaultdict[int, list[str]] = defaultdict(list)
    for tablet in folder.root.tablets:
        for name, _ in tablet.files:
            owners[name].append(str(tablet.number))
    for name, file in folder.files.items():
        place = place_in(folder.path, name)
        form = SUMS_FORMAT if number_in(place.name) == name + SUMMED else file.format
        sizes = f"{file.size:>14,} bytes {file.count:>12,} entries {file.blocks:>9,} blocks"
        yield f"{place.name} {sizes}  format {form}  tablets {' '.join(owners[name])}"
    for name in folder.unnamed():
        with suppress(FileNotFoundError):
            place = place_in(folder.path, name)
            yield f"{place.name} {place.stat().st_size:>14,} bytes  not named by the root"


def tablets(folder: Folder) -> Iterator[str]:
    """The tablets, in the order of their rows."""
    for tablet in folder.root.tablets:
        size = sum(folder.files[name].size for name, _ in tablet.files)
        counts = f"server {tablet.server}, {len(tablet.files)} files, {size:,} bytes"
        yield f"{tablet.number} up to {end_of(tablet)}: {counts}"


def log_lines(path: Path) -> Iterator[str]:
    """The contents of the log, also if the folder can't be opened with it: a damaged log is shown as far as it can be
    read."""
    log = read_frames(path)
    if log is None:
        yield "no log"
        return
    if log.format == 1:
        yield f"format 1, {len(log.records):,} records"
    else:
        roots = [f"stamp {stamp} and checksum {check:08x}" for stamp, check in log.roots()]
        over = ["whichever root is there"] * log.is_over_any() + [f"the root of {root}" for root in roots]
        yield f"format 2, store {log.store:016x}, {len(log.records):,} records from number {log.first}, over {' and '.join(over)}"
    size = (path / LOG_FILE).stat().st_size
    yield f"{sum(1 for _ in log.edits()):,} edits, mark {log.mark()}"
    yield f"whole frames up to byte {log.end} of {log.room}, and {size - log.room:,} bytes of room"
    if log.later is not None:
        yield f"a broken frame at byte {log.end}, and behind it a whole one at byte {log.later}"


def locks(folder: Folder) -> Iterator[str]:
    """The locks, with the session and the first cell of each."""
    for _, key, value in folder.versions():
        if key.column is Qualifier.LOCK:
            lock = read_lock(value)
            does = "deletes" if lock.kind is Kind.DELETE else "sets"
            first = f"{text_of(lock.row)} {text_of(lock.family)}"
            yield f"{text_of(key.row)} {text_of(key.family)}: session {key.stamp} {does} it; its first cell is {first}"


def finished(folder: Folder) -> dict[Cell, Record]:
    """The cells locked by sessions that have committed, as their first cells show, with the commit records that
    cleaners put."""
    if not folder.may_have_locks():
        return {}
    standing = [(found.key, read_lock(found.value)) for found in folder.versions() if found.key.column is Qualifier.LOCK]
    first = {Cell(lock.row, lock.family) for _, lock in standing}
    records = {
        (Cell(*key[:2]), read_record(value).start)
        for _, key, value in folder.versions()
        if key.column is Qualifier.WRITE and key[:2] in first
    }
    return {
        Cell(*key[:2]): Record(key.stamp, lock.kind)
        for key, lock in standing
        if (Cell(lock.row, lock.family), key.stamp) in records
    }


def committed(folder: Folder, prefix: bytes = b"") -> Iterator[tuple[bytes, bytes, bytes]]:
    """The cells whose rows have this prefix, each as its row, its family and the last committed value."""
    locked = finished(folder)
    for (row, family), group in groupby(folder.versions(), key=lambda found: found.key[:2]):
        if row.startswith(prefix):
            value = value_of(folder, Cell(row, family), group, locked)
            if value is not None:
                yield row, family, value


def value_of(folder: Folder, cell: Cell, versions: Iterable[Found], locked: Mapping[Cell, Record]) -> bytes | None:
    """The last committed value of a cell with these versions, if it has one: that of the record of a cell that is locked by a
    session that has committed, or else of the newest record. FolderDamaged if it isn't there."""
    data: dict[int, bytes] = {}
    last = locked.get(cell)
    for _, (_, _, column, stamp), value in versions:
        if column is Qualifier.DATA:
            data[stamp] = value
        elif column is Qualifier.WRITE and last is None:
            last = read_record(value)
    if last is None or last.kind is not Kind.SET:
        return None
    if last.start not in data:
        raise FolderDamaged(folder.path, f"{cell} has a record of {last.start}, and no data at that stamp")
    return data[last.start]


def cells(folder: Folder, prefix: bytes = b"") -> Iterator[str]:
    """The same cells, with tabs between their parts."""
    return ("\t".join(map(text_of, cell)) for cell in committed(folder, prefix))


def lines_of(path: Path, what: str, prefix: str) -> Iterator[str]:
    """The lines for a word of the command. FolderDamaged, before the first line, if the folder is damaged."""
    if what == "log":
        return log_lines(path)
    folder = Folder(path)
    folder.check()
    match what:
        case "stats":
            return stats(folder)
        case "files":
            return files(folder)
        case "tablets":
            return tablets(folder)
        case "locks":
            return locks(folder)
        case _:
            return cells(folder, bytes_of(prefix))


def main(words: Sequence[str]) -> int:
    """Runs the command. The status is 0, 1 if something is malformed, and 2 if the folder can't be read."""
    parser = argparse.ArgumentParser(
        prog="duqishom inspect",
        description="Shows what the last checkpoint of a folder and its log have, from its files alone. It writes nothing. Each"
        " file that it reads is checked first; the first wrong byte is named.",
    )
    parser.add_argument("folder", metavar="FOLDER")
    parser.add_argument("what", choices=WORDS, nargs="?", default="stats", help="stats where none is named")
    parser.add_argument("prefix", metavar="PREFIX", nargs="?", default="", help="of cells, those whose rows begin so")
    options = parser.parse_args(words)
    if options.prefix and options.what != "cells":
        parser.error("only cells takes a prefix")
    path = Path(options.folder)

    def show() -> int:
        note_state("inspect", options.folder)
        for line in lines_of(path, options.what, options.prefix):
            print(line)
        if options.what == "log":
            read_log(path)
        return 0

    return status_of("inspect", options.folder, show)


def note_state(command: str, folder: str) -> None:
    """Says on the standard error if a folder has no checkpoint, and which process has it open, if any."""
    if not place_in(Path(folder), 0).exists():
        print(f"{command}: {folder} has no checkpoint", file=sys.stderr)
    holder = holder_of(folder)
    if holder is not None:
        kept = "last checkpoint with its log" if has_log(folder) else "last checkpoint"
        print(f"{command}: {folder} is in use by {holder}; this is its {kept}", file=sys.stderr)


def drop_output() -> None:
    """Discards all further standard output, since nobody reads it any more."""
    os.dup2(os.open(os.devnull, os.O_WRONLY), sys.stdout.fileno())


def status_of(command: str, folder: str, work: Callable[[], int]) -> int:
    """The status of a command that reads a folder: its work's, 1 if something is malformed, and 2 if there is no folder
    or something can't be read or written. The standard error says which."""
    try:
        if not os.path.isdir(folder):
            print(f"{command}: there is no folder {folder}", file=sys.stderr)
            return 2
        return work()
    except FolderDamaged as damage:
        print(f"{command}: {damage}", file=sys.stderr)
        return 1
    except BadForm as bad:
        print(f"{command}: a lock or a record is outside its form: {bad}", file=sys.stderr)
        return 1
    except BrokenPipeError:
        drop_output()
        return 0
    except OSError as failure:
        print(f"{command}: {failure}", file=sys.stderr)
        return 2
