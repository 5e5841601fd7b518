"""The health of a store in one word, with its reasons."""

from __future__ import annotations

from collections.abc import Iterator, Sequence
from contextlib import suppress
from dataclasses import dataclass
from pathlib import Path

from duqishom.figures import counted, duration, size
from duqishom.files import MOST_FILES
from duqishom.web_folder import MANY_FILES, FolderState
from duqishom.web_samples import SPAN, Sample, Samples, View, grown, measure, oldest_session

OK, WARNING, DOWN = "ok", "warning", "down"

# The seconds from which on an open session, or a lock, is one that is open for long.
LONG_SESSION = 300.0
LONG_LOCK = 60.0

# The most open sessions of a store, and the count from which on few are left.
MOST_SESSIONS = 1024
MANY_SESSIONS = MOST_SESSIONS * 3 // 4

# The refusals that an operator does something about.
MENDED = ("TooManyFiles", "FileTooLarge", "Exhausted", "Device", "NoMemory", "Damaged")

# The bytes at which a checkpoint empties a log if no option says so, and the bytes of a log that are near to its bound.
LOG_BYTES = 33_554_432
LONG_LOG = 50_331_648

# The part of a disk below which little of it is free.
LITTLE_FREE = 0.05


@dataclass(frozen=True)
class Health:
    """A word, and the reasons why it isn't `ok`."""

    word: str
    reasons: tuple[str, ...] = ()


def health(view: View, folder: FolderState | None) -> Health:
    """The health of a store. It is down if the gateway or the program doesn't answer."""
    last = view.last()
    if view.failure is not None or last is None:
        return Health(DOWN, (view.failure or "the gateway hasn't answered yet",))
    samples = view.samples
    found = (*of_clients(samples), *of_sessions(samples, last), *of_refusals(samples))
    reasons = (*found, *(of_folder(folder, last) if folder else ()))
    return Health(WARNING if reasons else OK, reasons)


def of_clients(samples: Samples) -> Iterator[str]:
    """The reasons that lie with clients: those to whom something happened while the samples were taken."""
    away = int(grown(samples, measure("clients", "turned_away")))
    if away:
        yield f"{counted(away, 'client')} turned away in the last {duration(SPAN)}, for there was no place"
    closed = int(grown(samples, measure("clients", "closed_for_memory")))
    if closed:
        yield f"{counted(closed, 'client')} closed for memory in the last {duration(SPAN)}"


def of_refusals(samples: Samples) -> Iterator[str]:
    """The reasons that lie with the program: requests that it refused for something that an operator mends."""
    for name in MENDED:
        count = int(grown(samples, measure("refusals", name)))
        if count:
            yield f"{counted(count, 'request')} refused {name} in the last {duration(SPAN)}"


def of_sessions(samples: Samples, last: Sample) -> Iterator[str]:
    """The reasons that lie with open sessions."""
    count = int(last.number("open", "sessions"))
    if count >= MANY_SESSIONS:
        yield f"{count:,} of {MOST_SESSIONS:,} sessions are open"
    oldest = oldest_session(samples)
    if oldest is not None and oldest[1] >= LONG_SESSION:
        yield f"{counted(oldest[0], 'session')} open for {duration(oldest[1])} or longer"


def of_folder(folder: FolderState, last: Sample) -> Iterator[str]:
    """The reasons that lie with the folder."""
    if folder.failure is not None:
        yield f"the folder can't be read: {folder.failure}"
    most = max(folder.tablets, key=lambda tablet: tablet.files, default=None)
    if most is not None and most.files >= MANY_FILES:
        yield f"tablet {most.number} has {most.files} files of at most {MOST_FILES}"
    limit = log_bytes(last)
    if folder.log >= LONG_LOG:
        yield f"the log is near its bound: {size(folder.log)} of {size(2 * LOG_BYTES)}"
    elif folder.log > limit and folder.log_before > limit:
        yield f"a checkpoint was refused: the log has {size(folder.log)}, and is to be emptied at {size(limit)}"
    if folder.free < LITTLE_FREE:
        yield f"{folder.free:.0%} of the disk is free"
    long = [lock for lock in folder.locks if lock.seconds >= LONG_LOCK]
    if long:
        yield f"{counted(len(long), 'lock')} held for {duration(LONG_LOCK)} or longer"


def log_bytes(last: Sample | None) -> int:
    """The bytes at which the program empties its log, by the words of its command line."""
    words: Sequence[bytes] = ()
    with suppress(OSError):
        words = Path(f"/proc/{last.number('program', 'process') if last else 0}/cmdline").read_bytes().split(b"\0")
    for word, value in zip(words, words[1:]):
        if word == b"--log-bytes" and value.isdigit():
            return int(value)
    return LOG_BYTES
