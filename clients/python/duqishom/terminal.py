"""The command shell at a terminal: lines with editing, completion and a lasting history, and long answers in pages."""

from __future__ import annotations

import os
import pydoc
import shutil
import sys
from collections.abc import Callable, Iterable, Iterator
from contextlib import contextmanager, suppress
from pathlib import Path

try:
    import readline
except ImportError:  # This Python is built without it, and lines aren't edited.
    readline = None  # type: ignore[assignment]

PROMPT = "> "
MOST_HISTORY = 1000

# A function from a text to the words that may follow it.
Complete = Callable[[str], Iterable[str]]


def lines(is_terminal: bool) -> Iterator[str]:
    """The lines of the input. At a terminal each has a prompt."""
    while True:
        try:
            yield input(PROMPT if is_terminal else "")
        except EOFError:
            if is_terminal:
                print()
            return
        except KeyboardInterrupt:
            if not is_terminal:
                raise
            print("^C (quit ends it)")


def history_file() -> Path:
    """The file of the history, which only its owner may read."""
    top = os.environ.get("XDG_STATE_HOME") or Path.home() / ".local" / "state"
    return Path(top) / "duqishom" / "history"


@contextmanager
def editing(complete: Complete) -> Iterator[None]:
    """Completes lines and keeps a history, if this Python can. Errors of the history's file are ignored."""
    if readline is None:
        yield
        return
    file = history_file()
    readline.set_completer(completer(complete))
    readline.set_completer_delims(" ")
    readline.parse_and_bind("tab: complete")
    readline.set_history_length(MOST_HISTORY)
    with suppress(OSError):
        readline.read_history_file(file)
    try:
        yield
    finally:
        with suppress(OSError):
            file.parent.mkdir(parents=True, exist_ok=True)
            os.close(os.open(file, os.O_WRONLY | os.O_CREAT, 0o600))
            readline.write_history_file(file)


def completer(complete: Complete) -> Callable[[str, int], str | None]:
    """The function that gives readline the completions of a word, one by one."""

    def completion(word: str, number: int) -> str | None:
        before = readline.get_line_buffer()[: readline.get_begidx()]
        found = sorted({each for each in complete(before) if each.startswith(word)})
        return f"{found[number]} " if number < len(found) else None

    return completion


def is_long(text: str) -> bool:
    """Whether a text has more lines than the terminal."""
    return text.count("\n") + 2 > shutil.get_terminal_size().lines


def show_pages(text: str) -> None:
    """Shows a long text in pages, with the program that PAGER names, or with less."""
    sys.stdout.flush()
    pydoc.pager(f"{text}\n")
