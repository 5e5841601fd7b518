"""`python3 -m duqishom serve`: becomes the gateway, a program in Rust, with the same words behind the client's defaults.

What the client decides for a store of its own it decides for a gateway's too: the program, its tuning, and whether a
new folder gets a log and checksums. With `--rados` it doesn't become one gateway, but starts several (`workers`).
"""

from __future__ import annotations

import argparse
import os
import shlex
import shutil
import sys
from collections.abc import Sequence
from pathlib import Path

from duqishom import workers
from duqishom.folders import NotOpened, format_words, log_words, tuned
from duqishom.program import default_program

# The places of the gateway: in a package that was built with one, and in the repository that this package is in.
OWN = Path(__file__).resolve().parent / "duqishom-gateway"
BUILT = OWN.parent / "../../../gateway/target/release/duqishom-gateway"

NOT_BUILT = "there is no duqishom-gateway: scripts/build_gateway builds it, or DUQISHOM_GATEWAY names one"

# The status if the gateway can't be started.
REFUSED = 2


class Parser(argparse.ArgumentParser):
    """A parser that also takes the words of files, several in a line, with comments behind #."""

    def convert_arg_line_to_args(self, arg_line: str) -> list[str]:
        try:
            return shlex.split(arg_line, comments=True)
        except ValueError as why:
            self.error(f"{arg_line}: {why}")


def found_gateway() -> str | None:
    """The gateway that is started: the environment's DUQISHOM_GATEWAY, or else the one that was installed with this
    package, or else the one that was built in its repository, or else the one on PATH."""
    places = (str(OWN), str(BUILT), "duqishom-gateway")
    return os.environ.get("DUQISHOM_GATEWAY") or next(filter(None, map(shutil.which, places)), None)


def parser() -> Parser:
    """A parser of some of the gateway's options, to which others are left."""
    return Parser(prog="duqishom serve", add_help=False, allow_abbrev=False, fromfile_prefix_chars="@")


def is_over_bridge(words: Sequence[str]) -> bool:
    """Whether the words, and those of files among them, say that the rows are a bridge's."""
    parsing = parser()
    parsing.add_argument("--rados")
    parsing.add_argument("--memory-bridge", nargs="?", const="")
    given, _ = parsing.parse_known_args(words)
    return given.rados is not None or given.memory_bridge is not None


def command_of(words: Sequence[str]) -> list[str]:
    """The words of the gateway: the client's defaults, and these words with those of files in the place of @FILE."""
    parsing = parser()
    parsing.add_argument("--program")
    parsing.add_argument("--dir")
    parsing.add_argument("--log", action=argparse.BooleanOptionalAction)
    parsing.add_argument("--new", action="store_true")
    parsing.add_argument("--format")
    given, others = parsing.parse_known_args(words)
    has_folder = given.dir is not None
    own = ["--program", given.program or default_program(), *tuned([], has_folder)]
    logged = log_words(given.dir, given.log, given.new) if has_folder else ["--log"] if given.log else []
    placed = ["--dir", given.dir, *logged] if has_folder else logged
    formed = ["--format", given.format] if given.format else format_words(given.dir, None) if has_folder else []
    return [*own, *placed, *formed, *others]


def main(words: Sequence[str]) -> int:
    """Becomes the gateway, or the parent of several. The status is the gateway's, or 2 if it can't be started."""
    gateway = found_gateway()
    try:
        if gateway is None:
            raise FileNotFoundError(NOT_BUILT)
        os.environ["DUQISHOM_PYTHON"] = sys.executable
        if is_over_bridge(words):
            return workers.serve(parser(), words, gateway)
        os.execvp(gateway, ["duqishom-gateway", *command_of(words)])
    except (OSError, NotOpened) as failure:
        print(f"duqishom: {failure}", file=sys.stderr)
        return REFUSED
