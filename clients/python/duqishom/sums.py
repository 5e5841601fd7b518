"""The SHA-256 sums of a backup's files, which stand in a file beside them, in the form that `sha256sum` writes and
checks: changed bytes are noticed that no form shows."""

from __future__ import annotations

import hashlib
import re
from collections.abc import Mapping
from pathlib import Path

from duqishom.files import LOCK_FILE, LOG_FILE, MARK_FILE, SIGN_FILE, Root
from duqishom.folders import FolderDamaged
from duqishom.pieces import FORMAT_FILE, place_in
from duqishom.progress import BYTES, Report, Tally

SUMS_FILE = "backup.sums"
LINE = re.compile(r"([0-9a-f]{64})  ([!-.0-~]+)\n")

# The size of a piece that is read at once, in bytes.
PIECE = 1 << 20


def spelled_sums(sums: Mapping[str, str]) -> bytes:
    """The file of these sums of files, by their names."""
    return "".join(f"{digest}  {name}\n" for name, digest in sorted(sums.items())).encode()


def read_sums(place: Path) -> dict[str, str] | None:
    """The sums of a backup's files, by their names: None if it has none, or if a program has opened the folder, which then has
    other files. FolderDamaged if they are out of form."""
    if not (place / SUMS_FILE).exists() or (place / LOCK_FILE).exists():
        return None
    text = (place / SUMS_FILE).read_bytes().decode("latin-1")
    sums, at = dict[str, str](), 0
    while at < len(text):
        line = LINE.match(text, at)
        if line is None:
            raise FolderDamaged(place / SUMS_FILE, "this is no line of a sum and a name", at)
        sums[line[2]], at = line[1], line.end()
    return sums


def compare_sums(place: Path, wanted: Mapping[str, str], found: Mapping[str, str]) -> None:
    """FolderDamaged if the files that were found in a backup aren't those that have the wanted sums."""
    for name in sorted({*wanted, *found}):
        if name not in found:
            raise FolderDamaged(place / name, f"{SUMS_FILE} names this file, and it isn't there")
        if name not in wanted:
            raise FolderDamaged(place / name, f"{SUMS_FILE} doesn't name this file")
        if found[name] != wanted[name]:
            raise FolderDamaged(place / name, f"its SHA-256 sum isn't the one in {SUMS_FILE}")


def check_sums(place: Path, root: Root, progress: Report) -> bool:
    """Compares the files of a backup with its sums, and reports how many bytes of them are read. Returns whether it has sums.
    FolderDamaged if a file isn't as it was copied."""
    wanted = read_sums(place)
    if wanted is None:
        return False
    names = {place_in(place, number).name for number in {0, *(file.name for tablet in root.tablets for file in tablet.files)}}
    names.update(name for name in (FORMAT_FILE, LOG_FILE, SIGN_FILE, MARK_FILE) if (place / name).exists())
    read = Tally(progress, sum((place / name).stat().st_size for name in names), BYTES)
    compare_sums(place, wanted, {name: sum_of(place / name, read) for name in sorted(names)})
    return True


def sum_of(path: Path, read: Tally) -> str:
    """The sum of a file, whose bytes are counted."""
    digest = hashlib.sha256()
    with path.open("rb") as file:
        while piece := file.read(PIECE):
            digest.update(piece)
            read.add(len(piece))
    return digest.hexdigest()
