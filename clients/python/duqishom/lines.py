"""The lines of the command shell: their forms, and the parsers of their words."""

from __future__ import annotations

import argparse
import re
import shlex
from collections.abc import Callable, Iterable, Iterator, Mapping, Sequence
from dataclasses import dataclass
from typing import Any, NoReturn

from duqishom.answers import Qualifier
from duqishom.tellings import Told, ToldLines
from duqishom.texts import bytes_of
from duqishom.transactions import MOST_STAMP

HELP = (["--help"], ["-h"])

# No word begins with this. So no word is taken for an option, also if it begins with a hyphen.
NO_OPTIONS = "\0"


class Misspelled(Exception):
    """A line isn't one of the command's."""


@dataclass(frozen=True)
class Line:
    """A line of the command: its words, of which those in capitals are arguments, its help text, its method, and the
    function that adds its options."""

    usage: str
    help: str
    do: Callable[..., Told | ToldLines]
    add_options: Callable[[argparse.ArgumentParser], None] | None = None

    def form(self) -> list[str]:
        """The words of the line, up to the first that may be left out."""
        return self.usage.partition("[")[0].split()


def number_of(word: str) -> int:
    """The number in a word."""
    if not (word.isascii() and word.isdigit()):
        raise Misspelled(f"{word} is no number")
    return int(word)


def stamp_of(word: str) -> int:
    """The stamp in a word, or the greatest one for `last`."""
    return MOST_STAMP if word == "last" else number_of(word)


def qualifier_of(word: str) -> Qualifier:
    """The column that a word names."""
    try:
        return Qualifier[word.upper()]
    except KeyError:
        raise Misspelled(f"{word} is none of data, lock and write") from None


# The readers of arguments, by their names.
READERS: dict[str, Callable[[str], object]] = {
    "ROW": bytes_of,
    "FAMILY": bytes_of,
    "VALUE": bytes_of,
    "AMOUNT": number_of,
    "START": number_of,
    "COLUMN": qualifier_of,
    "LO": number_of,
    "HI": stamp_of,
    "TABLET": number_of,
    "SERVER": number_of,
    "COUNT": number_of,
    "CLIENT": number_of,
    "PATH": str,
}


def add_range(parser: argparse.ArgumentParser) -> None:
    """Adds the arguments of a range of cells."""
    parser.add_argument("start", metavar="START", nargs="?", type=bytes_of, help="the first row")
    parser.add_argument("end", metavar="END", nargs="?", type=bytes_of, help="the last row")
    parser.add_argument("--prefix", metavar="ROW", type=bytes_of, help="only rows that begin so")
    parser.add_argument("--family", metavar="FAMILY", type=bytes_of, help="only cells of this family")


def add_scan(parser: argparse.ArgumentParser) -> None:
    """Adds the arguments of a range of cells, and those that say what is shown of it."""
    add_range(parser)
    parser.add_argument("--keys", action="store_true", help="rows and families without values")
    parser.add_argument("--limit", metavar="N", type=number_of, help="so many cells at most")
    parser.add_argument("--reverse", action="store_true", help="in descending order, the last cell first")


class LineParser(argparse.ArgumentParser):
    """The parser of the lines that begin with the same words. Misspelled if words fit none of them."""

    def __init__(self, line: Line, words: Sequence[str], prog: str = "") -> None:
        """The parser of a line, of which these words come after the ones it begins with."""
        hyphens = "-" if line.add_options else NO_OPTIONS
        does = None if any(word.islower() for word in words) else line.help
        super().__init__(prog=prog, description=does, prefix_chars=hyphens, add_help=False, allow_abbrev=False)
        self._below: dict[str, LineParser] = {}
        self._places = 0
        self._choice: Any = None

    def error(self, message: str) -> NoReturn:
        raise Misspelled(f"the line is {form_of(self)}")

    def add_line(self, line: Line, words: Sequence[str], place: int = 0) -> None:
        """Adds a line, of which these words are left. Arguments are named by their places."""
        if not words:
            if line.add_options is not None:
                line.add_options(self)
            self.set_defaults(line=line)
        elif words[0].isupper():
            if place >= self._places:
                self.add_argument(str(place), metavar=words[0], type=READERS[words[0]])
                self._places = place + 1
            self.add_line(line, words[1:], place + 1)
        else:
            if words[0] not in self._below:
                self._below[words[0]] = self._choices().add_parser(words[0], line=line, words=words[1:])
                self._below[words[0]]._places = place
            self._below[words[0]].add_line(line, words[1:], place)

    def _choices(self) -> Any:
        """The choice of the next word."""
        self._choice = self._choice or self.add_subparsers(required=True)
        return self._choice


def form_of(parser: argparse.ArgumentParser) -> str:
    """The form of a parser's line."""
    return " ".join(parser.format_usage().split()[1:])


def parsers_of(lines: Iterable[Line]) -> dict[str, LineParser]:
    """The parsers of lines, by their first words."""
    parsers: dict[str, LineParser] = {}
    for line in lines:
        first, *words = line.form()
        if first not in parsers:
            parsers[first] = LineParser(line, words, first)
        parsers[first].add_line(line, words)
    return parsers


def read_line(parsers: Mapping[str, LineParser], words: Sequence[str]) -> tuple[Line, list[object], dict[str, object]]:
    """The line that has these words, its arguments, and its options."""
    if words[0] not in parsers:
        raise Misspelled(f"no line begins with {words[0]}; help shows all")
    found = vars(parsers[words[0]].parse_args(words[1:]))
    line = found.pop("line")
    places = sorted((name for name in found if name.isdigit()), key=int)
    return line, [found.pop(name) for name in places], found


def split_words(text: str) -> list[str]:
    """The words of a line. Between quotes blanks belong to a word. A backslash has no special meaning here, since
    escapes begin with it."""
    parts = shlex.shlex(text, posix=True)
    parts.whitespace_split = True
    parts.commenters = ""
    parts.escape = ""
    return list(parts)


def completions(lines: Iterable[Line], parsers: Mapping[str, LineParser], before: Sequence[str]) -> Iterator[str]:
    """The words that may follow others: those of lines, and options."""
    at = len(before)
    for line in lines:
        form = line.form()
        if all(name.isupper() or name == word for name, word in zip(form, before)):
            if at < len(form) and form[at].islower():
                yield form[at]
            elif at >= len(form) and line.add_options:
                yield from re.findall(r"--[a-z]+", parsers[form[0]].format_usage())
