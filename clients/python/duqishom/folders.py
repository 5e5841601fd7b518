"""Folders of stores: the client's own reads of them, and a record of changes that aren't durable yet."""

from __future__ import annotations

import os
import re
from collections.abc import Sequence
from contextlib import suppress
from datetime import datetime
from pathlib import Path

from duqishom.columns import BadForm
from duqishom.connection import Connection
from duqishom.files import (
    LOCK_FILE,
    LOG_FILE,
    MARK_FILE,
    NEW_ROOT,
    SIGN_FILE,
    Log,
    Root,
    SortedFile,
    key_of,
    log_of,
    mark_of,
    root_of,
    store_of,
)
from duqishom.frames import framed
from duqishom.operations import (
    Checkpoint,
    CleanStep,
    CollectStep,
    Major,
    Merge,
    Minor,
    Move,
    Split,
    Step,
    Sweep,
)
from duqishom.pieces import FORMAT_FILE, FORMAT_TEXT, SUMS_FORMAT, files_in, payload_of, place_in
from duqishom.program import ENDS, Program, ProgramEnded
from duqishom.recording import Recording
from duqishom.refusals import Refused
from duqishom.several import Commit

# The operations whose effects are missing from a folder without a log until the next checkpoint.
CHANGING = {
    Step.code,
    CleanStep.code,
    CollectStep.code,
    Minor.code,
    Merge.code,
    Major.code,
    Split.code,
    Move.code,
    Sweep.code,
    Commit.code,
}


class NotOpened(ProgramEnded):
    """The store can't be opened: the text says why."""

    def __init__(self, status: int, why: str) -> None:
        super().__init__(status)
        self.why = why

    def __str__(self) -> str:
        return f"the store isn't opened (status {self.status}): {self.why}"


class FolderDamaged(Exception):
    """A file of a folder is malformed: the text names it, and its first wrong byte."""

    def __init__(self, file: Path, what: str, at: int | None = None) -> None:
        super().__init__(f"{file}: {what}" + ("" if at is None else f", at byte {at}"))


class Unsaved:
    """The changes of a store since its last checkpoint."""

    def __init__(self, is_kept: bool, is_logged: bool) -> None:
        """For a store in a folder or in memory, and for a folder with a log or without one."""
        self._is_kept, self._is_logged = is_kept, is_logged
        self._lost: str | None = None
        self.forget()

    def forget(self) -> None:
        """Starts over: everything is durable, or nothing more can be."""
        self.is_changed = False
        self._commits = 0
        self._since = datetime.now()

    def note_asked(self, operations: Sequence[object]) -> None:
        """Records requests before they are sent."""
        if not self.is_changed:
            self.is_changed = any(getattr(operation, "code") in CHANGING for operation in operations)

    def note_answered(self, operations: Sequence[object], answers: Sequence[object], commits: int) -> None:
        """Records the answers to requests, with so many commits."""
        self._commits += commits
        if isinstance(operations[-1], Checkpoint) and not isinstance(answers[-1], Refused):
            self.forget()

    def lost(self) -> str:
        """The changes lost if the program has ended, as a text. It stays the same for all later requests."""
        if self._lost is None:
            self._lost = self.unkept() if self._is_kept else "what was in memory is lost"
        return self._lost

    def unkept(self) -> str:
        """The changes that aren't in the folder now, as a text."""
        if self._is_logged:
            return "the folder has all that was answered"
        if not self.is_changed:
            return "the folder has all that was committed"
        since = f"since {self._since:%Y-%m-%d %H:%M:%S}"
        return f"what was done {since}, {self._commits:,} commits, is not in the folder"


def tuned(words: Sequence[str], has_folder: bool) -> list[str]:
    """These words of a command line, after the client's defaults for options that they don't set: a memtable is also
    compacted at 32 MiB, so that large values don't fill it, and sessions buffer 1 GiB of writes at most. In a folder 256
    blocks of each file are cached, and files that nothing needs go by themselves."""
    in_folder: list[tuple[str, ...]] = [("--cache", "256"), ("--upkeep",)]
    wanted = [("--flush-bytes", "33554432"), ("--session-bytes", "1073741824"), *(in_folder if has_folder else [])]
    named = {word.partition("=")[0] for word in words}
    return [*(part for option in wanted if option[0] not in named for part in option), *words]


def has_log(folder: str) -> bool:
    """Whether a folder has a log, or the sign of one: it then has everything that was answered, and not only the last
    checkpoint."""
    return any(os.path.exists(os.path.join(folder, name)) for name in (LOG_FILE, SIGN_FILE))


def log_words(folder: str, log: bool | None, new: bool = False) -> list[str]:
    """The words that give a folder a log if it has none, or no words if that isn't asked for. If `log` is None, a
    folder without a root gets one, since its store is new. NotOpened where no log is wanted, and the folder has files
    or a mark of a store whose root is gone, unless it is said to be new: with a log the program looks by itself."""
    is_new = not place_in(Path(folder), 0).exists()
    if is_new and log is False and not new and (why := why_lost(folder)):
        raise NotOpened(5, why)
    return ["--log"] if log or (log is None and is_new) else []


def has_store(folder: str) -> bool:
    """Whether a folder has any file of a store."""
    place = Path(folder)
    names = (FORMAT_FILE, MARK_FILE, SIGN_FILE, LOG_FILE)
    return any((place / name).exists() for name in names) or bool(files_in(place))


def format_words(folder: str, checksums: bool | None) -> list[str]:
    """The words that have the files of a folder get checksums from now on, or no words if that isn't asked for. If `checksums`
    is None, a folder that has nothing of a store gets them."""
    return ["--format", str(SUMS_FORMAT)] if checksums or (checksums is None and not has_store(folder)) else []


def why_lost(folder: str) -> str:
    """What a folder without a root has of a store, or an empty text if it has nothing, or a program has it open."""
    if holder_of(folder) is not None:
        return ""
    place = Path(folder)
    with suppress(OSError):
        found = [file.name for file in files_in(place)]
        with suppress(FolderDamaged):
            found += [MARK_FILE] if read_mark(place) > 0 else []
        if found:
            root = place_in(place, 0).name
            return f"{folder} has {found[0]} of a store and no root, {root}: say that it is new if it never had one"
    return ""


def started(
    program: str | None,
    folder: str | None,
    words: Sequence[str],
    recording: Recording | None = None,
    log: bool | None = None,
    new: bool = False,
    checksums: bool | None = None,
) -> Connection:
    """A program that has opened its store, and whose frames are recorded. NotOpened if it can't."""
    if folder is not None and (why := why_no_folder(folder)):
        raise NotOpened(4, why)
    placed = [] if folder is None else ["--dir", folder, *log_words(folder, log, new)]
    if folder is not None and not any(word.startswith("--format") for word in words):
        placed += format_words(folder, checksums)
    running = Program(program, (*placed, *tuned(words, folder is not None)), recording)
    try:
        # An empty body is refused, and changes nothing
        running.ask(framed(b""), 1)
    except ProgramEnded as ended:
        why = ENDS.get(ended.status, "it has ended before its first reply")
        raise NotOpened(ended.status, why_not_opened(folder, ended.status) or why) from None
    except BaseException:
        running.kill()
        running.close()
        raise
    return running


def why_no_folder(folder: str) -> str:
    """The reason why a path isn't a folder, or an empty text if it is one."""
    if os.path.isdir(folder):
        return ""
    return f"{folder} is a file, and no folder" if os.path.exists(folder) else f"there is no folder {folder}"


def why_not_opened(folder: str | None, status: int) -> str:
    """The reason why a program ended with this status at a folder, as far as the folder shows it."""
    if folder is None or status not in (4, 5):
        return ""
    holder = holder_of(folder)
    if status == 4 and holder is not None:
        return f"{folder} is in use by {holder}"
    for name in (LOCK_FILE, FORMAT_FILE, MARK_FILE, SIGN_FILE, LOG_FILE, place_in(Path(folder), 0).name):
        file = Path(folder) / name
        try:
            data = file.read_bytes()
        except FileNotFoundError:
            continue
        except OSError as failure:
            return f"{file} can't be opened: {failure.strerror}"
        if name == MARK_FILE:
            with suppress(BadForm):
                mark_of(data)
                continue
            return f"{file} is no mark: it has {len(data)} bytes, {data[:8].hex(' ')}"
        if name == FORMAT_FILE and data != FORMAT_TEXT:
            return f"{file} names no format that this program has"
    if not os.access(folder, os.W_OK | os.X_OK):
        return f"{folder} can't be written to"
    try:
        check_folder(Path(folder))
    except (FolderDamaged, OSError) as failure:
        return str(failure)
    return ""


def holder_of(folder: str) -> str | None:
    """The process that has a folder open, in words, or None if there isn't one or the system doesn't tell. Locks
    nothing."""
    try:
        lock = os.stat(os.path.join(folder, LOCK_FILE))
        held = Path("/proc/locks").read_text()
    except OSError:
        return None
    wanted = f"{os.major(lock.st_dev):02x}:{os.minor(lock.st_dev):02x}:{lock.st_ino}"
    for found in re.finditer(r"^\d+: FLOCK +\S+ +\S+ (-?\d+) (\S+) ", held, re.MULTILINE):
        if found[2] == wanted:
            return process_named(int(found[1]))
    return None


def process_named(process: int) -> str:
    """A process in words: its number, its command line, and the number of its parent process."""
    text = f"process {process}"
    with suppress(OSError, IndexError):
        words = Path(f"/proc/{process}/cmdline").read_bytes().rstrip(b"\x00").split(b"\x00")
        parent = Path(f"/proc/{process}/stat").read_text().rpartition(")")[2].split()[1]
        command = " ".join(word.decode(errors="replace") for word in words)
        text += f" ({command}), which process {parent} has started"
    return text


def read_root(folder: Path) -> Root:
    """The root of a folder, or a new store's if there is no root file."""
    file = place_in(folder, 0)
    try:
        data = file.read_bytes()
    except FileNotFoundError:
        return NEW_ROOT
    return root_in(file, data)


def root_in(file: Path, data: bytes) -> Root:
    """The root in a file with these bytes."""
    try:
        return root_of(bytes(payload_of(file, data)))
    except BadForm as bad:
        raise FolderDamaged(file, bad.what, bad.at) from None


def read_mark(folder: Path) -> int:
    """The mark in a folder's file of it, 0 if there is none. A log may have a greater one."""
    file = folder / MARK_FILE
    try:
        return mark_of(file.read_bytes())
    except FileNotFoundError:
        return 0
    except BadForm as bad:
        raise FolderDamaged(file, bad.what, bad.at) from None


def read_log(folder: Path) -> Log | None:
    """The log of a folder, if it has one. FolderDamaged if it is malformed, a later frame follows one that isn't whole,
    or the folder's sign is another log's."""
    log = read_frames(folder)
    if log is None:
        return None
    if log.later is not None:
        why = f"a frame before the whole one of byte {log.later} is broken"
        raise FolderDamaged(folder / LOG_FILE, why, log.end)
    store = read_sign(folder)
    if store is not None and log.format == 1:
        raise FolderDamaged(folder / LOG_FILE, f"the log is of format 1, and {SIGN_FILE} is there")
    if store is not None and store != log.store:
        raise FolderDamaged(folder / LOG_FILE, f"the log is of the store {log.store:016x}, and {SIGN_FILE} of {store:016x}")
    return log


def read_frames(folder: Path) -> Log | None:
    """The contents of the whole frames of a folder's log, if it has one. FolderDamaged if there is only a sign."""
    file = folder / LOG_FILE
    try:
        return log_of(file.read_bytes())
    except FileNotFoundError:
        if (folder / SIGN_FILE).exists():
            raise FolderDamaged(file, f"{SIGN_FILE} says that the folder has a log, and it isn't there") from None
        return None
    except BadForm as bad:
        raise FolderDamaged(file, bad.what, bad.at) from None


def read_sign(folder: Path) -> int | None:
    """The number of the store in a folder's sign, if it has one."""
    file = folder / SIGN_FILE
    try:
        return store_of(file.read_bytes())
    except FileNotFoundError:
        return None
    except BadForm as bad:
        raise FolderDamaged(file, bad.what, bad.at) from None


def last_edits(folder: Path, log: Log | None) -> dict[bytes, bytes | None]:
    """The last edit of each key in a folder's log: the value, or None for an erasure."""
    try:
        return {} if log is None else dict(log.edits())
    except BadForm as bad:
        raise FolderDamaged(folder / LOG_FILE, bad.what, bad.at) from None


def check_over(folder: Path, log: Log | None, root: Root) -> None:
    """Checks that a folder's log continues its root. FolderDamaged if it doesn't."""
    if log is None or log.is_over(root) and root != NEW_ROOT:
        return
    place = place_in(folder, 0)
    if root != NEW_ROOT:
        raise FolderDamaged(place, "the log is over another root")
    if any(True for _ in log.edits()):
        raise FolderDamaged(place, "the log has edits, and there is no root")
    if not log.is_over_any():
        raise FolderDamaged(place, "the log names a root, and there is none")


def check_mark(folder: Path, mark: int, root: Root) -> None:
    """Checks that the mark in a folder's file of it isn't below the root's stamp. FolderDamaged if it is."""
    if mark < root.top:
        raise FolderDamaged(folder / MARK_FILE, f"the mark {mark} is below the root's greatest stamp {root.top}")


def check_marked(folder: Path, mark: int, log: Log | None) -> None:
    """Checks that no edit of a log of format 1 has a stamp above the mark in a folder's file of it, which its program
    stored before it answered a stamp. FolderDamaged if one has."""
    if log is None or log.format != 1:
        return
    top = max((key_of(text).stamp for text, _ in log.edits()), default=0)
    if mark < top:
        raise FolderDamaged(folder / MARK_FILE, f"the mark {mark} is below the stamp {top} of an edit in the log")


def check_folder(folder: Path) -> Root:
    """Reads everything that a program reads when it opens a folder, and returns the root. FolderDamaged if something is
    malformed."""
    root, mark, log = read_root(folder), read_mark(folder), read_log(folder)
    last_edits(folder, log)
    check_over(folder, log, root)
    check_mark(folder, mark, root)
    check_marked(folder, mark, log)
    for reference in sorted({reference for tablet in root.tablets for reference in tablet.files}):
        file = place_in(folder, reference.name)
        try:
            data = payload_of(file, file.read_bytes())
            if reference.length is not None and reference.length != len(data):
                raise FolderDamaged(file, f"the root says {reference.length} bytes, and it has {len(data)}")
            SortedFile(data).check()
        except FileNotFoundError:
            raise FolderDamaged(file, "the root names this file, and it isn't there") from None
        except BadForm as bad:
            raise FolderDamaged(file, bad.what, bad.at) from None
    return root
