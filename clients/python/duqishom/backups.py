"""`python3 -m duqishom verify FOLDER`, which reads all of a folder or of a backup, and `restore BACKUP FOLDER`."""

from __future__ import annotations

import argparse
import sys
from collections.abc import Iterator, Sequence
from pathlib import Path

from duqishom.copies import NotCopied, restore
from duqishom.files import Entry, SortedFile, length_of
from duqishom.folders import FolderDamaged, has_log, holder_of
from duqishom.inspection import Folder, committed, note_state, status_of
from duqishom.pieces import place_in
from duqishom.progress import BYTES, CELLS, ProgressLine, Report, Tally, add_progress, tallied, unreported
from duqishom.sums import SUMS_FILE, check_sums

# The limits of the check of a folder.
NO_CHECKSUMS = f"Only a backup ({SUMS_FILE}) and files of format 3 have sums: elsewhere no changed byte of a value is noticed."


# The bytes of a file that are read between two reports.
REPORTED_BYTES = 1 << 18


class TalliedFile(SortedFile):
    """A sorted file whose bytes are done when its entries are read."""

    def __init__(self, file: SortedFile, read: Tally) -> None:
        super().__init__(file._data)
        self._read = read

    def entries(self) -> Iterator[Entry]:
        at = told = 0
        for entry in super().entries():
            at += length_of(*entry)
            if at - told >= REPORTED_BYTES:
                self._read.add(at - told)
                told = at
            yield entry
        self._read.add(self.size - told)


def check(folder: Folder, progress: Report) -> None:
    """Checks all files of a folder, and reports how many bytes of them are read. FolderDamaged if one isn't intact."""
    files = folder.files
    read = Tally(progress, sum(file.size for file in files.values()), BYTES)
    folder.files = {name: TalliedFile(file, read) for name, file in files.items()}
    folder.check()
    folder.files = files


def whole(path: Path, progress: Report = unreported) -> str:
    """A one-line summary of a folder, after all of it was read. `progress` is told how many bytes of the files are
    checked, how many are compared with a backup's sums, and then how many cells are found. FolderDamaged, or BadForm for a
    lock or a record, if it isn't intact."""
    if not place_in(path, 0).exists():
        raise FolderDamaged(place_in(path, 0), "there is no root")
    folder = Folder(path)
    check(folder, progress)
    summed = f", as in {SUMS_FILE}" if check_sums(path, folder.root, progress) else ""
    count = sum(1 for _ in tallied(committed(folder), Tally(progress, None, CELLS)))
    size = sum(file.size for file in folder.files.values())
    sizes = f"{count:,} cells, {len(folder.root.tablets)} tablets, {len(folder.files)} files, {size:,} bytes"
    logged = f", {len(folder.log):,} keys in the log" if has_log(str(path)) else ""
    return f"{path} is whole: {sizes}{logged}, mark {folder.mark}{summed}"


def verify_main(words: Sequence[str]) -> int:
    """Verifies a folder. The status is 0, 1 if something is wrong, and 2 if the folder can't be read."""
    parser = argparse.ArgumentParser(
        prog="duqishom verify",
        description="Reads all files of a folder or of a backup, and names the first one that is outside its form, and its first"
        f" wrong byte. It writes nothing. {NO_CHECKSUMS}",
    )
    parser.add_argument("folder", metavar="FOLDER")
    add_progress(parser)
    options = parser.parse_args(words)

    def verify() -> int:
        note_state("verify", options.folder)
        with ProgressLine("verify", options.progress) as line:
            told = whole(Path(options.folder), line)
        print(told)
        return 0

    return status_of("verify", options.folder, verify)


def restore_main(words: Sequence[str]) -> int:
    """Restores a backup. The status is 0, 1 if the backup isn't intact, and 2 if it can't be read or copied."""
    parser = argparse.ArgumentParser(
        prog="duqishom restore",
        description="Verifies a backup, and copies it into a folder that is empty or new: its store is then opened there. The root"
        " is copied last: what was cut short has none. The backup stays as it is.",
    )
    parser.add_argument("backup", metavar="BACKUP", help="a backup, or the folder of a store that no program has")
    parser.add_argument("folder", metavar="FOLDER", help="an empty folder, or one that is made")
    add_progress(parser)
    options = parser.parse_args(words)

    def copy() -> int:
        holder = holder_of(options.backup)
        if holder is not None:
            print(f"restore: {options.backup} is in use by {holder}", file=sys.stderr)
            return 2
        try:
            with ProgressLine("restore", options.progress) as line:
                told = whole(Path(options.backup), line)
            print(told)
            with ProgressLine("restore", options.progress) as line:
                restore(options.backup, options.folder, line)
        except NotCopied as why:
            print(f"restore: {why}", file=sys.stderr)
            return 2
        print(f"copied to {options.folder}")
        return 0

    return status_of("restore", options.backup, copy)
