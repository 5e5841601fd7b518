"""A recording of a store: the frames sent and the frames received, in two files, which `tablet_audit` judges."""

from __future__ import annotations

import os
from io import BufferedWriter
from os import PathLike
from pathlib import Path

from duqishom.columns import BadForm
from duqishom.files import LOG_FILE, MARK_FILE, log_of, mark_of
from duqishom.frames import whole_frames


class Recording:
    """The files `requests` and `replies` of a folder. They begin with a new store.

    If the folder already has a recording, it is continued: the store was closed at its end and opened again. The file
    `reopened-at` has the numbers of the last replies before that, for the option of this name. If the store has a log,
    the file is `recovered-at`, and each number is followed by the oracle's mark. OSError, which names the file, if one
    can't be written.
    """

    def __init__(self, folder: str | PathLike[str], store: str | None = None) -> None:
        """Begins a recording, or continues one. The folder is created if it doesn't exist. The store, which isn't
        opened yet, is in its own folder, if one is named. OSError if the recording can't be written."""
        place = Path(folder)
        place.mkdir(mode=0o700, parents=True, exist_ok=True)
        self._requests = private(place / "requests")
        try:
            self._replies = private(place / "replies")
        except OSError:
            self._requests.close()
            raise
        if self._replies.tell() > 0:
            note_reopened(place, store)

    def note_requests(self, frames: bytes) -> None:
        """Adds frames that were sent."""
        write(self._requests, frames)

    def note_replies(self, frames: bytes) -> None:
        """Adds bytes of frames that were received."""
        write(self._replies, frames)

    def close(self) -> None:
        """Writes the remaining bytes to the files, and closes them. It may be called again."""
        try:
            close(self._requests)
        finally:
            close(self._replies)


def private(path: str | PathLike[str]) -> BufferedWriter:
    """A file opened to append to, created if it doesn't exist, which only its owner may read. OSError at a link or a
    pipe."""
    flags = os.O_NOFOLLOW | os.O_NONBLOCK
    return open(path, "ab", opener=lambda name, mode: os.open(name, mode | flags, 0o600))


def write(file: BufferedWriter, data: bytes) -> None:
    """Adds to a file."""
    try:
        file.write(data)
    except OSError as error:
        error.filename = file.name
        raise


def close(file: BufferedWriter) -> None:
    """Writes the remaining bytes to a file, and closes it."""
    try:
        file.close()
    except OSError as error:
        error.filename = file.name
        raise


def note_reopened(place: Path, store: str | None) -> None:
    """Records that the store is opened again after the last reply."""
    try:
        mark = logged_mark(store)
    except BadForm:
        # No program opens such a folder
        return
    replies: list[bytes] = []
    whole_frames((place / "replies").read_bytes(), replies)
    noted = place / ("reopened-at" if mark is None else "recovered-at")
    before = noted.read_text().strip() + "," if noted.exists() else ""
    with private(noted) as file:
        file.truncate(0)
        file.write(f"{before}{len(replies)}{'' if mark is None else f':{mark}'}\n".encode())


def logged_mark(store: str | None) -> int | None:
    """The oracle's mark of a store in a folder, if that has a log: the greatest of its file's and of the log's."""
    if store is None or not (Path(store) / LOG_FILE).exists():
        return None
    logged, file = log_of((Path(store) / LOG_FILE).read_bytes()).mark(), Path(store) / MARK_FILE
    return max(logged, mark_of(file.read_bytes())) if file.exists() else logged
