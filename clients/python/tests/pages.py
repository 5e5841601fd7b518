"""Fenced examples of the documents."""

from __future__ import annotations

import re
from dataclasses import dataclass, field
from pathlib import Path

TOP = Path(__file__).resolve().parents[3]
FENCE = re.compile(r"^```(\S+)(?: ([^\n]*))?\n(.*?)^```$", re.MULTILINE | re.DOTALL)


@dataclass(frozen=True)
class Fenced:
    """A fenced block: the words after its fence, and its lines."""

    kind: str
    more: str
    text: str

    def lines(self) -> list[str]:
        """The lines, without those that are empty."""
        return [line for line in self.text.splitlines() if line.strip()]


@dataclass(frozen=True)
class Sent:
    """Bytes that a client sends."""

    frame: bytes


@dataclass(frozen=True)
class Got:
    """Bytes that the client gets."""

    frame: bytes


@dataclass(frozen=True)
class Ends:
    """The end of the input: the exit status, and the line on the standard error."""

    status: int
    line: str


@dataclass(frozen=True)
class Exchange:
    """A block of frames, on a new store of a program with these words, or on the store of the block before it."""

    is_new: bool
    words: list[str]
    lines: list[Sent | Got | Ends] = field(default_factory=list)


@dataclass(frozen=True)
class Command:
    """A command, and its output."""

    command: str
    output: str


def fenced(page: str, kind: str) -> list[Fenced]:
    """The fenced blocks of one kind of a page, in order."""
    text = (TOP / page).read_text(encoding="utf-8")
    found = [Fenced(block[1], block[2] or "", block[3]) for block in FENCE.finditer(text)]
    return [block for block in found if block.kind == kind]


def line_of_frames(line: str) -> Sent | Got | Ends:
    """The meaning of a line of a block of frames."""
    mark, _, rest = line.partition(" ")
    if mark == "ends":
        status, _, told = rest.partition(" ")
        return Ends(int(status), told)
    frame = bytes.fromhex(rest.partition("#")[0])
    return Sent(frame) if mark == ">" else Got(frame)


def exchanges(page: str) -> list[Exchange]:
    """The blocks of frames of a page, in order."""
    found = []
    for block in fenced(page, "frames"):
        first, *words = block.more.split() or [""]
        found.append(Exchange(first == "new", words, [line_of_frames(line) for line in block.lines()]))
    return found


def commands(page: str) -> list[Command]:
    """The commands of a page, in order."""
    found = []
    for block in fenced(page, "console"):
        for part in re.split(r"^\$ ", block.text, flags=re.MULTILINE)[1:]:
            command, _, output = part.partition("\n")
            found.append(Command(command, output))
    return found
