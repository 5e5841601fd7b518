"""Manual pages, made from the help texts of programs."""

from __future__ import annotations

import re
from collections.abc import Iterator
from typing import NamedTuple

HEADING = re.compile(r"[A-Za-z ]+:")
ENTRY = re.compile(r"  +(\S.*?)(?:  +(\S.*))?")

# The entry that each help has.
HELP_ENTRY = "-h, --help"


class Help(NamedTuple):
    """The parts of a help text: the usage, the description, and each option or argument with its meaning."""

    usage: str
    text: str
    entries: list[tuple[str, str]]


def read(said: str) -> Help:
    """The parts of a help text whose lines aren't wrapped."""
    usage, text, entries = "", list[str](), list[tuple[str, str]]()
    for block in re.split(r"\n\s*\n", said.strip("\n")):
        first, *rest = block.splitlines()
        if first.lower().startswith("usage:"):
            usage = " ".join([first[len("usage:"):], *rest]).strip()
        elif HEADING.fullmatch(first) and rest:
            entries += entries_of(rest)
        else:
            text.append(" ".join(block.split()))
    return Help(usage, "\n\n".join(text), entries)


def entries_of(lines: list[str]) -> Iterator[tuple[str, str]]:
    """The entries of these lines. A meaning may be on the line after its option."""
    word = ""
    for line in lines:
        found = ENTRY.fullmatch(line)
        assert found is not None, line
        if word:
            yield word, found[1]
            word = ""
        elif found[2] is None and line.startswith("  -") and not found[1].endswith("help"):
            word = found[1]
        else:
            yield found[1], found[2] or ""


def escaped(text: str) -> str:
    """A text with the escapes of troff."""
    return re.sub(r"^([.'])", r"\\&\1", text.replace("\\", "\\e").replace("-", "\\-"))


def lines_of(part: Help) -> Iterator[str]:
    """The lines of a page for a text and entries."""
    for paragraph in filter(None, part.text.split("\n\n")):
        yield ".PP"
        yield escaped(paragraph)
    for word, meaning in part.entries:
        if word != HELP_ENTRY:
            yield from (".TP", f".B {escaped(word)}", escaped(meaning) or "\\&")


def page(name: str, version: str, what: str, own: str, others: dict[str, str]) -> str:
    """The page of a program, from its summary, its own help text, and those of its commands by their names."""
    whole = read(own)
    lines = [f'.TH {name.upper()} 1 "" "{name} {version}"', ".SH NAME", f"{name} \\- {escaped(what)}"]
    lines += [".SH SYNOPSIS", f".B {escaped(whole.usage)}", ".SH DESCRIPTION", *lines_of(whole)]
    lines += [".SH COMMANDS"] if others else []
    for said in others.values():
        part = read(said)
        lines += [f'.SS "{escaped(part.usage)}"', *lines_of(part)]
    return "\n".join(lines) + "\n"
