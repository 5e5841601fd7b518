"""The answers of the command shell: each as a text, as data for JSON, and as the bytes of its values."""

from __future__ import annotations

import json
import sys
from collections.abc import Iterator
from contextlib import suppress
from dataclasses import dataclass
from enum import Enum

from duqishom.answers import (
    Cleaned,
    Committed,
    Conflict,
    Decided,
    Finished,
    Found,
    Gone,
    Held,
    Lost,
    Nothing,
    Pending,
    Progress,
    Qualifier,
    RolledBack,
    RolledForward,
    Stamped,
    Value,
    Version,
)
from duqishom.columns import BadForm, Kind, read_lock, read_record
from duqishom.texts import text_of


class Form(Enum):
    """How answers are shown."""

    TEXT = "text"
    JSON = "json"
    RAW = "raw"


@dataclass(frozen=True)
class Told:
    """An answer: its text, its data, and its bytes, which are shown for the text if values are asked for as bytes."""

    text: str
    data: object
    raw: bytes | None = None


@dataclass(frozen=True)
class ToldLines:
    """An answer of lines that may still have to come. Each is an answer, and has data and bytes of its own."""

    parts: Iterator[Told]

    def lines(self) -> Iterator[Told]:
        """The lines, or the one that says that there are none."""
        yield next(self.parts, Told("nothing", [], b""))
        yield from self.parts

    def whole(self) -> Told:
        """All lines as one answer, whose data is a list."""
        parts = list(self.parts)
        text = "\n".join(part.text for part in parts) or "nothing"
        return Told(text, [part.data for part in parts], b"\n".join(part.raw or b"" for part in parts))


def said(text: str) -> Told:
    """An answer that is only a text."""
    return Told(text, {"answer": text})


def failed(text: str) -> Told:
    """An answer that says why a line wasn't done."""
    return Told(text, {"error": text})


def as_data(given: bytes) -> str:
    """Bytes as a text of JSON, in the form of a dump."""
    return text_of(given, "\\")


def cell_data(row: bytes, family: bytes) -> dict[str, object]:
    """A cell as data for JSON."""
    return {"row": as_data(row), "family": as_data(family)}


def show(told: Told | ToldLines, form: Form) -> None:
    """Prints an answer and the end of a line. Lines are printed as they come, but in JSON they are one. For no bytes nothing is
    printed."""
    if isinstance(told, ToldLines):
        parts = iter([told.whole()]) if form is Form.JSON else told.lines()
    else:
        parts = iter([told])
    sys.stdout.flush()
    for part in parts:
        if form is Form.RAW and part.raw is not None:
            sys.stdout.buffer.write(part.raw + b"\n" if part.raw else b"")
        else:
            print(json.dumps(part.data, ensure_ascii=False) if form is Form.JSON else part.text)
    sys.stdout.flush()


def text_of_found(found: Found) -> str:
    """The result of a session's read, in words."""
    match found:
        case Nothing():
            return "nothing"
        case Value(value):
            return text_of(value)
        case Pending(start):
            return f"pending: locked by {start}"


def text_of_progress(progress: Progress) -> str:
    """The result of a step, in words."""
    match progress:
        case Held(place, count):
            return f"held {place} of {count}"
        case Conflict(place):
            return f"conflict at {place}"
        case Stamped(commit):
            return f"stamped {commit}"
        case Committed(commit):
            return f"committed at {commit}"
        case Lost():
            return "lost"
        case Finished(place, count):
            return f"finished {place} of {count}"


def text_of_cleaned(cleaned: Cleaned) -> str:
    """The result of a cleaner, in words."""
    match cleaned:
        case Decided():
            return "decided"
        case RolledForward(commit):
            return f"rolled forward, committed at {commit}"
        case RolledBack():
            return "rolled back"
        case Gone():
            return "gone"


def text_of_version(version: Version | None, qualifier: Qualifier) -> str:
    """The result of a raw read, in words: a record names a start, and a lock the first cell of its session."""
    if version is None:
        return "nothing"
    with suppress(BadForm):
        if qualifier is Qualifier.WRITE:
            record = read_record(version.value)
            return f"{version.stamp}: start {record.start}{text_of_kind(record.kind)}"
        if qualifier is Qualifier.LOCK:
            lock = read_lock(version.value)
            first = f"{text_of(lock.row)} {text_of(lock.family)}"
            return f"{version.stamp}: first cell {first}{text_of_kind(lock.kind)}"
    return f"{version.stamp}: {text_of(version.value)}"


def text_of_kind(kind: Kind) -> str:
    """The words added to a lock or a record of a deletion."""
    return ", a deletion" if kind is Kind.DELETE else ""
