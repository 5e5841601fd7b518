"""Copies of folders: of the last checkpoint of a store, also while its program runs, and back from such a copy."""

from __future__ import annotations

import hashlib
import os
from collections.abc import Mapping
from io import BytesIO
from pathlib import Path
from typing import BinaryIO

from duqishom.files import LOG_FILE, MARK_FILE, SIGN_FILE, renewed_log, sign_of, spelled_mark
from duqishom.folders import read_log, read_mark, root_in
from duqishom.pieces import FORMAT_FILE, FORMAT_TEXT, place_in
from duqishom.progress import BYTES, Report, Tally, unreported
from duqishom.sums import PIECE, SUMS_FILE, compare_sums, read_sums, spelled_sums


class NotCopied(ValueError):
    """A store wasn't copied: the text says why. A partial copy has no root, so it isn't a store."""


def copy_checkpoint(source: str, target: str, progress: Report = unreported) -> None:
    """Copies the last checkpoint of a folder into another one, which is empty or is created. If it has a log, the copy
    gets its sign, a log without edits over the root, and a mark that no stamp of the log is above. The program may put
    other roots meanwhile.

    A later checkpoint may be followed by a sweep of files that only the root which is copied names. Then the later root
    is copied, with the files that are missing.

    `progress` is told after each piece how many bytes are copied, and may raise an exception to end the copying.
    The copy also gets the sums of its files. NotCopied if the other folder has files.
    """
    place, copy, copied = Path(source), empty_folder(target), dict[str, str]()
    while True:
        file = place_in(place, 0)
        data = file.read_bytes()
        try:
            sums = copy_files(file, copy, data, beside_root(file, data), progress, copied)
            break
        except FileNotFoundError:
            if place_in(place, 0).read_bytes() == data:
                raise
    write_synced(copy / SUMS_FILE, BytesIO(spelled_sums(sums)))
    write_synced(copy / file.name, BytesIO(data))


def beside_root(file: Path, data: bytes) -> dict[str, bytes]:
    """The files of a copy beside a root, which is this file with these bytes: the mark, the note of the format, and for a
    folder with a log its sign and an empty log."""
    place = file.parent
    root, log = root_in(file, data), read_log(place)
    beside: dict[str, bytes] = {}
    if (place / FORMAT_FILE).exists():
        beside[FORMAT_FILE] = FORMAT_TEXT
    if log is not None:
        beside |= {SIGN_FILE: sign_of(log.store)} if log.format == 2 else {}
        beside[LOG_FILE] = renewed_log(log, root)
    # A store that has drawn no stamp yet has no mark
    mark = max(read_mark(place), 0 if log is None else log.mark())
    if mark > 0:
        beside[MARK_FILE] = spelled_mark(mark)
    return beside


def restore(backup: str, target: str, progress: Report = unreported) -> None:
    """Copies the store of a folder that no program has open, with its log and all edits, into a folder that is empty or
    is created. `progress` is told how many bytes are copied. NotCopied if the other folder has files, and FolderDamaged if
    the files of a backup don't have its sums."""
    place, copy = Path(backup), empty_folder(target)
    kept = (FORMAT_FILE, SIGN_FILE, LOG_FILE, MARK_FILE)
    beside = {name: (place / name).read_bytes() for name in kept if (place / name).exists()}
    file = place_in(place, 0)
    data, wanted = file.read_bytes(), read_sums(place)
    sums = copy_files(file, copy, data, beside, progress, {})
    if wanted is not None:
        compare_sums(place, wanted, sums)
    write_synced(copy / file.name, BytesIO(data))


def empty_folder(target: str) -> Path:
    """A folder without files. If it doesn't exist it is created, accessible to its owner only. NotCopied if it has
    files."""
    copy = Path(target)
    copy.mkdir(mode=0o700, exist_ok=True)
    if any(copy.iterdir()):
        raise NotCopied(f"{target} is not empty")
    sync_folder(copy.absolute().parent)
    return copy


def copy_files(
    file: Path, copy: Path, data: bytes, beside: Mapping[str, bytes], progress: Report, copied: dict[str, str]
) -> dict[str, str]:
    """Copies the files that a root names, which is this file with these bytes, and writes the files in `beside`: the sums of
    all these and of the root, by their names. The root is to be written last, so an incomplete copy has no root.

    The files in `copied` are there already, with these sums: no later file takes the name of one in a root. Files that are
    copied are added to them; one that this root doesn't name is removed."""
    place, root = file.parent, root_in(file, data)
    names = {place_in(place, reference.name).name for tablet in root.tablets for reference in tablet.files}
    size = sum((place / name).stat().st_size for name in names) + sum(map(len, (*beside.values(), data)))
    done = Tally(progress, size, BYTES)
    for name in sorted(names):
        if name in copied:
            done.add((copy / name).stat().st_size)
        else:
            with (place / name).open("rb") as source:
                copied[name] = write_synced(copy / name, source, done)
    for path in copy.iterdir():
        if path.name not in names:
            path.unlink()
    sums = {name: copied[name] for name in names}
    for name, said in beside.items():
        sums[name] = write_synced(copy / name, BytesIO(said), done)
    # Behind the root nothing may end the copying, so it is counted before it is written
    done.add(len(data))
    return sums | {file.name: hashlib.sha256(data).hexdigest()}


def write_synced(path: Path, source: BinaryIO, copied: Tally | None = None) -> str:
    """Writes a new file and counts its bytes, and syncs it and its name to disk. Returns its sum. OSError, which names the file,
    if that fails."""
    digest = hashlib.sha256()
    try:
        with open(path, "xb", opener=open_private) as file:
            while piece := source.read(PIECE):
                file.write(piece)
                digest.update(piece)
                if copied is not None:
                    copied.add(len(piece))
            file.flush()
            os.fsync(file.fileno())
        sync_folder(path.parent)
    except OSError as error:
        error.filename = error.filename or str(path)
        raise
    return digest.hexdigest()


def open_private(path: str, flags: int) -> int:
    """Opens a file which, where it is made, is for its owner alone."""
    return os.open(path, flags, 0o600)


def sync_folder(path: Path) -> None:
    """Syncs the names of a folder to disk."""
    descriptor = os.open(path, os.O_RDONLY)
    try:
        os.fsync(descriptor)
    finally:
        os.close(descriptor)
