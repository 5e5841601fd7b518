"""Cells and locks in words: the versions of a cell, the locks of a range, and the fates of their sessions."""

from __future__ import annotations

from collections.abc import Iterator
from dataclasses import dataclass

from duqishom.answers import Committed, Pending, Qualifier, Version
from duqishom.cells import Cell, CellRange
from duqishom.columns import Kind, Lock, read_lock, read_record
from duqishom.remote import Fate
from duqishom.store import Store
from duqishom.tellings import Told, as_data, cell_data
from duqishom.texts import text_of
from duqishom.transactions import Patience

# It waits for no lock, and cleans none.
LOOKS = Patience(tries=0, pause=0, cleans=False)


@dataclass(frozen=True)
class Locked:
    """A lock of a cell, with the fate of its session."""

    cell: Cell
    start: int
    lock: Lock
    fate: Fate

    def text(self, value: bytes | None = None) -> str:
        """The lock in words, with the value that it would set."""
        to = "" if value is None else f" to {text_of(value)}"
        does = "deletes it" if self.lock.kind is Kind.DELETE else f"sets it{to}"
        first = Cell(self.lock.row, self.lock.family)
        return f"session {self.start} {does}; its first cell is {first}; {text_of_fate(self.fate)}"

    def data(self) -> dict[str, object]:
        """The lock as data for JSON."""
        commit = self.fate.commit if isinstance(self.fate, Committed) else None
        state = "committed" if commit else "uncommitted" if isinstance(self.fate, Pending) else "rolled back"
        first = cell_data(self.lock.row, self.lock.family)
        kind = self.lock.kind.name.lower()
        return {"session": self.start, "kind": kind, "first": first, "state": state, "commit": commit}


def text_of_fate(found: Fate) -> str:
    """The fate of a session, in words."""
    match found:
        case Committed(commit):
            return f"it has committed at {commit}"
        case Pending():
            return "it hasn't committed"
        case _:
            return "it was rolled back"


def versions(store: Store, cell: Cell, qualifier: Qualifier) -> Iterator[Version]:
    """The versions of a cell's column, the newest first."""
    found = store.raw(*cell, qualifier)
    while found is not None:
        yield found
        found = store.raw(*cell, qualifier, 0, found.stamp - 1) if found.stamp else None


def lock_of(store: Store, cell: Cell, version: Version) -> Locked:
    """The lock in a version of a cell."""
    lock = read_lock(version.value)
    return Locked(cell, version.stamp, lock, store.fate(version.stamp, lock.row, lock.family, LOOKS))


def locks(store: Store, asked: CellRange) -> Iterator[Locked]:
    """The locks of a range, each as of the moment at which it is read."""
    start, left = store.begin(), True
    try:
        while left:
            scanned = store.scan(start, asked.after, asked.end, asked.family, keys_only=True)
            for item in scanned.items:
                cell = Cell(item.row, item.family)
                version = store.raw(*cell, Qualifier.LOCK) if isinstance(item.found, Pending) else None
                if version is not None:
                    yield lock_of(store, cell, version)
            left = scanned.upto is not None
            asked = asked.behind(Cell(*scanned.upto)) if scanned.upto is not None else asked
    finally:
        store.stop(start)


def explain(store: Store, cell: Cell) -> Told:
    """All versions of a cell: its value, its locks, its records with their values, the newest first, and other values."""
    held = [lock_of(store, cell, version) for version in versions(store, cell, Qualifier.LOCK)]
    records = [(version.stamp, read_record(version.value)) for version in versions(store, cell, Qualifier.WRITE)]
    values = {version.stamp: version.value for version in versions(store, cell, Qualifier.DATA)}
    done = [(lock.fate.commit, lock.start, lock.lock.kind) for lock in held if isinstance(lock.fate, Committed)]
    done += [(commit, record.start, record.kind) for commit, record in records]
    _, newest, kind = max(done, default=(0, 0, Kind.DELETE))
    value = values.get(newest) if kind is Kind.SET else None
    lines = [f"{cell}: " + ("nothing" if value is None else text_of(value))]
    lines += [f"lock {lock.start}: {lock.text(values.get(lock.start))}" for lock in held]
    for commit, record in records:
        was = "deleted" if record.kind is Kind.DELETE else f"set to {text_of(values.get(record.start, b''))}"
        lines.append(f"record {commit}: {was} by session {record.start}")
    known = {lock.start for lock in held} | {record.start for _, record in records}
    rest = [start for start in values if start not in known]
    unknown = "which has no lock and no record here"
    lines += [f"data {start}: {text_of(values[start])}, of session {start}, {unknown}" for start in rest]
    data = cell_data(*cell) | {
        "value": None if value is None else as_data(value),
        "locks": [lock.data() for lock in held],
        "records": [{"commit": commit, "session": record.start, "kind": record.kind.name.lower()} for commit, record in records],
        "data": [{"session": start, "value": as_data(value)} for start, value in values.items()],
    }
    return Told("\n".join(lines), data)


def told_locks(found: Iterator[Locked]) -> Told:
    """Locks in words, a line for each."""
    all_locks = list(found)
    text = "\n".join(f"{lock.cell}: {lock.text()}" for lock in all_locks) or "no locks"
    return Told(text, [cell_data(*lock.cell) | lock.data() for lock in all_locks])
