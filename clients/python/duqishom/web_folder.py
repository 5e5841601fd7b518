"""A store's folder as the page shows it: read from its files every few seconds, and nothing is written."""

from __future__ import annotations

import os
import time
from collections.abc import Mapping
from dataclasses import dataclass, field, replace
from pathlib import Path

from duqishom.answers import Qualifier
from duqishom.columns import BadForm
from duqishom.files import LOG_FILE, MOST_FILES, Key, Root
from duqishom.folders import FolderDamaged, has_log, read_mark, read_root
from duqishom.inspection import Folder
from duqishom.pieces import place_in
from duqishom.states import folder_state, size_of
from duqishom.texts import text_of

# The seconds between two reads of a folder.
INTERVAL = 5.0

# The bytes of files beyond which locks aren't looked for, and the most locks that are told apart.
MOST_BYTES = 256 << 20
MOST_LOCKS = 10_000

# The pause after a search for locks: so many times its duration, and so many seconds at least.
REST = 20
LEAST_PAUSE = 10.0

# The bytes of a row that are shown.
MOST_SHOWN = 64

# The files of a tablet, of at most 64, that are many.
MANY_FILES = MOST_FILES * 3 // 4


@dataclass(frozen=True)
class TabletState:
    """A tablet, and the number and the bytes of its files."""

    number: int
    end: bytes | None
    files: int
    bytes: int


@dataclass(frozen=True)
class LockState:
    """A lock: its cell, the start of its session, and the seconds for which it has been there at least."""

    cell: str
    session: int
    seconds: float


@dataclass(frozen=True)
class FolderState:
    """A folder: the figures that the line `status` shows, its tablets, the mark in its file, whether it has a log, the
    bytes of that now and at the read before, the free part of the disk, and the reason why it can't be read, if there is
    one.
    Of the locks those that are there longest come first, with their number, and the reason why they weren't looked
    for."""

    figures: Mapping[str, object] = field(default_factory=dict)
    tablets: tuple[TabletState, ...] = ()
    mark: int = 0
    has_log: bool = False
    log: int = 0
    log_before: int = 0
    free: float = 1.0
    failure: str | None = None
    locks: tuple[LockState, ...] = ()
    lock_count: int = 0
    unsearched: str | None = "the first search isn't done"


class FolderReader:
    """Reads a folder again and again. `state` is its last state, which any thread may take, and `search_at` the moment of
    the monotonic clock from which on locks are looked for again."""

    def __init__(self, path: str) -> None:
        self.path = Path(path)
        self.state = FolderState()
        self.search_at = 0.0
        self._failure: str | None = None
        self._first: dict[Key, float] = {}

    def run(self) -> None:
        """Reads for ever."""
        while True:
            self.read()
            time.sleep(INTERVAL)

    def read(self) -> None:
        """Reads the folder once."""
        try:
            self.state = self._now()
        except Exception as error:  # Damaged bytes may fail in any way
            self.state = replace(self.state, failure=text_of_error(error))
            return
        if time.monotonic() >= self.search_at:
            self._search()

    def _now(self) -> FolderState:
        """The state, with the locks of the last search."""
        root, disk = read_root(self.path), os.statvfs(self.path)
        return replace(
            self.state,
            figures=dict(folder_state(self.path)),
            tablets=tablets_of(self.path, root),
            mark=read_mark(self.path),
            has_log=has_log(str(self.path)),
            log=size_of(self.path / LOG_FILE),
            log_before=self.state.log,
            free=disk.f_bavail / max(disk.f_blocks, 1),
            failure=self._failure,
        )

    def _search(self) -> None:
        """Looks for locks, if the files aren't too large, and decides when to do so again. A failure stays until then."""
        began, self._failure = time.monotonic(), None
        try:
            if sum(tablet.bytes for tablet in self.state.tablets) > MOST_BYTES:
                reason = f"the files have more than {MOST_BYTES:,} bytes"
                self.state = replace(self.state, locks=(), lock_count=0, unsearched=reason)
            else:
                self._note_locks(*locks_in(Folder(self.path)))
        except Exception as error:
            self._failure = text_of_error(error)
        ended = time.monotonic()
        self.search_at = ended + max(LEAST_PAUSE, REST * (ended - began))
        self.state = replace(self.state, failure=self._failure)

    def _note_locks(self, found: list[Key], count: int) -> None:
        """Records the locks that were found."""
        moment = self._moment()
        self._first = {key: self._first.get(key, moment) for key in found}
        locks = sorted((LockState(cell_of(key), key.stamp, moment - self._first[key]) for key in found), key=by_age)
        self.state = replace(self.state, locks=tuple(locks), lock_count=count, unsearched=None)

    def _moment(self) -> float:
        """The time as of which the folder has the locks: now with a log, and without one that of the last
        checkpoint."""
        return time.time() if self.state.has_log else time_of(place_in(self.path, 0))


def text_of_error(error: Exception) -> str:
    """The reason why a folder can't be read. An error that isn't foreseen is named."""
    return str(error) if isinstance(error, (OSError, FolderDamaged, BadForm)) else f"{type(error).__name__}: {error}"


def time_of(file: Path) -> float:
    """The time at which a file was written, 0 if there is none."""
    try:
        return file.stat().st_mtime
    except FileNotFoundError:
        return 0.0


def tablets_of(path: Path, root: Root) -> tuple[TabletState, ...]:
    """The tablets of a root."""
    said = {file for tablet in root.tablets for file in tablet.files}
    sizes = {file.name: size_of(place_in(path, file.name)) if file.length is None else file.length for file in said}
    return tuple(
        TabletState(tablet.number, tablet.end, len(tablet.files), sum(sizes[file.name] for file in tablet.files))
        for tablet in root.tablets
    )


def locks_in(folder: Folder) -> tuple[list[Key], int]:
    """The keys of the locks of a folder, up to the most that are told apart, and their number."""
    keys, count = list[Key](), 0
    if folder.may_have_locks():
        for found in folder.versions():
            if found.key.column is Qualifier.LOCK:
                count += 1
                if len(keys) < MOST_LOCKS:
                    keys.append(found.key)
    return keys, count


def cell_of(key: Key) -> str:
    """The cell of a key, in words."""
    return f"{row_of(key.row)} {text_of(key.family)}"


def row_of(row: bytes) -> str:
    """The front of a row, in words."""
    return text_of(row[:MOST_SHOWN]) + "…" * (len(row) > MOST_SHOWN)


def by_age(lock: LockState) -> tuple[float, str]:
    """The order of locks: those that are there longest come first."""
    return -lock.seconds, lock.cell
