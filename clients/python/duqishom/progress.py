"""How far long work is: told to a function, and shown in a line on the standard error."""

from __future__ import annotations

import argparse
import sys
import time
from collections.abc import Callable, Iterable, Iterator
from contextlib import suppress
from itertools import islice
from types import TracebackType
from typing import NamedTuple, TypeVar

from duqishom.figures import size

CELLS, BYTES = "cells", "bytes"

# The seconds between two lines: at a terminal, where one takes the place of another, and elsewhere.
TERMINAL_PAUSE, PAUSE = 0.2, 10.0

# The number of items between two reports.
REPORTED = 1000

Item = TypeVar("Item")


class Reached(NamedTuple):
    """How far work is: how much is done, how much there is in all, if that is known, and the unit of both, `cells` or
    `bytes`."""

    done: int
    total: int | None
    unit: str


# A function that is told how far work is. What it raises ends the work.
Report = Callable[[Reached], None]


def unreported(reached: Reached) -> None:
    """Does nothing with a report."""


class Tally:
    """Counts how much is done of so much, and reports it, at first that nothing is."""

    def __init__(self, report: Report, total: int | None, unit: str) -> None:
        self._report, self._reached = report, Reached(0, total, unit)
        report(self._reached)

    def add(self, count: int) -> None:
        """Adds what is done."""
        self._reached = self._reached._replace(done=self._reached.done + count)
        self._report(self._reached)


def tallied(items: Iterable[Item], tally: Tally) -> Iterator[Item]:
    """The items, each of which is done when the next one is asked for."""
    left = iter(items)
    while batch := list(islice(left, REPORTED)):
        yield from batch
        tally.add(len(batch))


class ProgressLine:
    """Shows how far a command is, in a line on the standard error, in a `with` whose end shows it a last time. At a
    terminal the line is rewritten; elsewhere one follows the other."""

    def __init__(self, command: str, is_shown: bool | None = None) -> None:
        """Shows it if that is said, and if nothing is said at a terminal."""
        self._command, self._is_terminal = command, sys.stderr is not None and sys.stderr.isatty()
        self.is_shown = self._is_terminal if is_shown is None else is_shown
        self.reached = self._first = self._shown = Reached(0, None, "")
        self._began = self._due = 0.0
        self._width = 0

    def __call__(self, reached: Reached) -> None:
        """Takes a report."""
        now = time.monotonic()
        if reached.unit != self.reached.unit or reached.done < self.reached.done:
            self._show_last(now)
            self._first, self._began = reached, now
        self.reached = reached
        if now >= self._due:
            self._show(now)

    def _show_last(self, now: float) -> None:
        """Writes the line of what was reached last, if it hasn't been written."""
        if self.reached != self._shown:
            self._show(now)

    def _show(self, now: float) -> None:
        """Writes the line."""
        self._due = now + (TERMINAL_PAUSE if self._is_terminal else PAUSE)
        if self.is_shown:
            text = f"{self._command}: {self._text(now - self._began)}"
            write(f"\r{text:{self._width}}" if self._is_terminal else f"{text}\n")
            self._width, self._shown = len(text), self.reached

    def _text(self, seconds: float) -> str:
        """How far the work is, so many seconds after its first report."""
        done, total, unit = self.reached
        said = amount(done, unit) + ("" if total is None else f" of {amount(total, unit)}")
        rate = (done - self._first.done) / seconds if seconds >= TERMINAL_PAUSE else None
        return said + ("" if rate is None else f", {amount(rate, unit)} a second")

    def __enter__(self) -> ProgressLine:
        return self

    def __exit__(
        self, kind: type[BaseException] | None, error: BaseException | None, trace: TracebackType | None
    ) -> None:
        self._show_last(time.monotonic())
        if self.is_shown and self._is_terminal and self._width:
            write("\n")


def amount(count: float, unit: str) -> str:
    """So much of a unit, in words."""
    return size(count) if unit == BYTES else f"{count:,.0f} {unit}"


def write(text: str) -> None:
    """Writes to the standard error, if there is one. A failure of that is ignored."""
    if sys.stderr is not None:
        with suppress(OSError):
            print(text, end="", file=sys.stderr, flush=True)


def add_progress(parser: argparse.ArgumentParser) -> None:
    """Adds the options that say whether it is shown how far the work is."""
    said = parser.add_mutually_exclusive_group()
    wanted = "say how far it is, also where the standard error is no terminal"
    said.add_argument("--progress", action="store_true", default=None, help=wanted)
    said.add_argument("--quiet", dest="progress", action="store_false", default=None, help="never say how far it is")
