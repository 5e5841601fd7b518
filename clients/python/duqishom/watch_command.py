"""`duqishom watch`: a line for each commit that has written cells in rows with a prefix."""

from __future__ import annotations

import argparse
from collections.abc import Sequence

from duqishom.changes import Change
from duqishom.dumps import status
from duqishom.remote import socket_at
from duqishom.store import Store
from duqishom.tellings import Form, Told, cell_data, show
from duqishom.texts import bytes_of

# What is told of a change without cells.
ANY_CELL = "any cell may have changed"


def told_of(change: Change) -> Told:
    """A change as a text and as data for JSON."""
    if change.cells is None:
        return Told(ANY_CELL, {"commit": None, "cells": None})
    text = f"committed at {change.commit_stamp}: {', '.join(map(str, change.cells))}"
    return Told(text, {"commit": change.commit_stamp, "cells": [cell_data(*cell) for cell in change.cells]})


def main(words: Sequence[str]) -> int:
    """Shows changes until the time is over or a Ctrl-C. The status is 0, and 2 if no gateway answers."""
    what = "Shows the commits to the rows with a prefix, as they come."
    parser = argparse.ArgumentParser(prog="duqishom watch", description=what)
    parser.add_argument("--socket", metavar="PATH", type=socket_at, required=True, help="the gateway's socket, or HOST:PORT")
    parser.add_argument("--family", help="of this family alone")
    parser.add_argument("--timeout", metavar="SECONDS", type=float, help="end when none has come for so long")
    parser.add_argument("--json", action="store_true", help="as lines of JSON")
    parser.add_argument("prefix", metavar="PREFIX", nargs="?", default="", help="how the rows begin: all if none is named")
    options = parser.parse_args(words)
    family = None if options.family is None else bytes_of(options.family)

    def follow() -> None:
        with Store(socket=options.socket) as store, store.watch(bytes_of(options.prefix), family, options.timeout) as changes:
            for change in changes:
                show(told_of(change), Form.JSON if options.json else Form.TEXT)

    return status("watch", follow)
