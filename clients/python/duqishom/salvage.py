"""What can still be read of a damaged folder: of each file what stands before its first wrong byte."""

from __future__ import annotations

import mmap
from collections.abc import Iterator
from contextlib import suppress
from itertools import groupby
from pathlib import Path

from duqishom.cells import Cell
from duqishom.columns import BadForm
from duqishom.files import LOG_FILE, NEW_ROOT, BrokenFile, Bytes, SortedFile
from duqishom.folders import FolderDamaged, check_over, read_frames, read_root
from duqishom.inspection import Folder, finished, value_of
from duqishom.pieces import files_in, payload_before, place_in

# The size of a piece that is read at once, in bytes: a disk's block that can't be read takes no more with it.
PIECE = 4096


class SalvagedFolder(Folder):
    """The root of a folder, and what can be read of its files and of its log. `lost` says what can't."""

    def __init__(self, path: Path) -> None:
        """FolderDamaged if the root can't be read, for it says which files there are, and which is newer."""
        self.path, self.root = path, read_root(path)
        self.lost: list[str] = []
        if self.root == NEW_ROOT and files_in(path):
            self.lost.append(f"{place_in(path, 0)}: there is no root, which would name the files")
        lengths = dict(reference for tablet in self.root.tablets for reference in tablet.files)
        self.files = {name: self._salvaged(place_in(path, name), lengths[name]) for name in sorted(lengths)}
        self.log = self._salvaged_log()

    def _salvaged(self, place: Path, length: int | None) -> SortedFile:
        """A file, whose length the root may say."""
        try:
            data, bad_piece = payload_before(place, readable(place))
        except OSError as failure:
            self.lost.append(f"{place}: {failure.strerror}")
            return BrokenFile(b"")
        try:
            if bad_piece is not None:
                raise bad_piece
            file = SortedFile(data)
            file.check()
            if length not in (None, len(data)):
                self.lost.append(f"{place}: the root says {length} bytes, and {len(data)} can be read")
            return file
        except BadForm as bad:
            broken = BrokenFile(data)
            count = sum(1 for _ in broken.entries())
            self.lost.append(f"{FolderDamaged(place, bad.what, bad.at)}; {count:,} entries can be read")
            return broken

    def _salvaged_log(self) -> dict[bytes, bytes | None]:
        """The last edit of each key in the log, up to the first frame that is broken: none if it isn't over the root."""
        edits: dict[bytes, bytes | None] = {}
        try:
            log = read_frames(self.path)
            check_over(self.path, log, self.root)
            if log is not None and log.later is not None:
                self.lost.append(f"{self.path / LOG_FILE}: the frame of byte {log.end} is broken, and what comes later left out")
            for text, value in () if log is None else log.edits():
                edits[text] = value
        except (FolderDamaged, OSError) as damage:
            self.lost.append(str(damage))
        except BadForm as bad:
            self.lost.append(str(FolderDamaged(self.path / LOG_FILE, bad.what, bad.at)))
        return edits

    def cells(self) -> Iterator[tuple[bytes, bytes, bytes]]:
        """The cells, each as its row, its family and the last committed value that can be read."""
        try:
            locked = finished(self)
        except BadForm as bad:
            self.lost.append(f"a lock or a record is outside its form, so all locks are left out: {bad}")
            locked = {}
        for names, group in groupby(self.versions(), key=lambda found: found.key[:2]):
            try:
                value = value_of(self, Cell(*names), group, locked)
            except (BadForm, FolderDamaged) as why:
                self.lost.append(f"{Cell(*names)} is left out: {why}")
            else:
                if value is not None:
                    yield *names, value


def readable(path: Path) -> Bytes:
    """The bytes of a file, up to the first that the disk doesn't give."""
    size = 0
    with path.open("rb", buffering=0) as file:
        with suppress(OSError):
            while piece := file.read(PIECE):
                size += len(piece)
        return mmap.mmap(file.fileno(), size, access=mmap.ACCESS_READ) if size else b""
