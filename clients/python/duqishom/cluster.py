"""`python3 -m duqishom cluster`: makes a store in a pool of a Ceph cluster, shows it, splits its tablets, forgets a machine that
is gone, and audits recordings of all servers.

The bridge does all but the last: a program in C++, which `scripts/build_bridge` builds in a clone of the repository.
"""

from __future__ import annotations

import argparse
import os
import re
import shutil
import subprocess
import sys
import tempfile
from collections.abc import Iterable, Iterator, Sequence
from pathlib import Path

from duqishom.merging import merge
from duqishom.messages import OutOfForm
from duqishom.pairing import ADMINISTRATOR, Untold, Wrong
from duqishom.texts import bytes_of, text_of

# The places of the bridge: in a package that was built with one, and in the repository that this package is in.
OWN = Path(__file__).resolve().parent / "duqishom-bridge"
BUILT = OWN.parent / "../../../bridge/duqishom-bridge"

NOT_BUILT = "there is no duqishom-bridge: scripts/build_bridge builds it, or DUQISHOM_BRIDGE names one"

# What the text of a key of a row has behind the row, and what is above it: no family begins with the byte 00 or FF.
ROW_END, FENCE = b"\0\0", b"\0\0\xff"

# The place of the program that judges a run in the repository.
AUDIT = OWN.parent / "../../../crates/tablet_audit/out/tablet_audit"

NO_AUDIT = "there is no tablet_audit: scripts/prove builds it, or TABLET_AUDIT names one"

# The statuses of a bridge and of this command if they are refused.
REFUSED = 2

# The statuses of an audit: the run is wrong, nobody can tell, or a file can't be read or written.
WRONG, UNTOLD, UNREAD = 1, 2, 4

LONGEST_ROW = 4000

SPLITS = "Splits a tablet into two, while servers work. Splits that were begun and left are finished first."

# What is done at each stage of a split, as the bridge's status names it.
STAGES = {"copied": "its keys are copied", "switched": "the places are changed", "removed": "keys that have moved are removed"}

# The stamps of one version of the object of stamps.
OF_A_WRITE = 4096


def found_bridge() -> str:
    """The bridge that is started: the environment's DUQISHOM_BRIDGE, or else the one that was installed with this
    package, or else the one that was built in its repository, or else the one on PATH. FileNotFoundError if there is
    none."""
    places = (str(OWN), str(BUILT), "duqishom-bridge")
    found = os.environ.get("DUQISHOM_BRIDGE") or next(filter(None, map(shutil.which, places)), None)
    if found is None:
        raise FileNotFoundError(NOT_BUILT)
    return found


def fence_of(row: bytes) -> bytes:
    """A text above those of all keys of a row and of rows before it, and below those of later rows."""
    return row.replace(b"\0", b"\0\xff") + FENCE


def row_of(fence: bytes) -> bytes:
    """The row of a fence."""
    return fence.removesuffix(FENCE).replace(b"\0\xff", b"\0")


def checked(row: bytes) -> bytes:
    """The last row of a tablet. ValueError if it can't be one."""
    if not 1 <= len(row) <= LONGEST_ROW:
        raise ValueError(f"a row has 1 to {LONGEST_ROW:,} bytes")
    return row


def rows_of(lines: Iterable[str]) -> Iterator[bytes]:
    """The rows of lines, each the last one of a tablet. ValueError if one can't be, or they aren't in order."""
    before = b""
    for count, line in enumerate(lines, start=1):
        try:
            row = checked(bytes_of(line.rstrip("\n")))
        except ValueError as failure:
            raise ValueError(f"line {count}: {failure}") from None
        if row <= before:
            raise ValueError(f"line {count}: the last rows of tablets are in order, and different")
        yield row
        before = row


def place_words(options: argparse.Namespace) -> list[str]:
    """The words by which a bridge finds its pool."""
    return ["--rados", options.rados, "--pool", options.pool, "--user", options.user]


def add_place(parsing: argparse.ArgumentParser) -> None:
    """Adds the options by which a bridge finds its pool."""
    parsing.add_argument("--rados", metavar="CONF", required=True, help="the file that tells of the cluster: /etc/ceph/ceph.conf")
    parsing.add_argument("--pool", metavar="NAME", required=True, help="the pool of the store")
    parsing.add_argument("--user", default="admin", help="the user of the cluster: admin if none is named")


def add_split(parsing: argparse.ArgumentParser) -> None:
    """Adds what tells of a split."""
    which = parsing.add_mutually_exclusive_group(required=True)
    which.add_argument("row", metavar="ROW", nargs="?", help="the last row of the first part")
    which.add_argument("--largest", action="store_true", help="split the tablet with most keys, in its middle")
    add_place(parsing)


def parser() -> argparse.ArgumentParser:
    """The parser of the command line."""
    made = argparse.ArgumentParser(prog="duqishom cluster", description="Makes and shows a store in a pool of a Ceph cluster.")
    commands = made.add_subparsers(dest="command", required=True, metavar="COMMAND")
    init = commands.add_parser("init", help="make a store in a pool that has none", description="Makes a store in a pool.")
    add_place(init)
    init.add_argument("--ends", metavar="FILE", help="the last row of each tablet but the last one, a line each, in order; one tablet if none")
    status = commands.add_parser("status", help="show tablets, stamps, machines and floors", description="Shows a store.")
    add_place(status)
    add_split(commands.add_parser("split", help="split a tablet, while servers work", description=SPLITS))
    gone = commands.add_parser(
        "forget",
        help="shut a machine out that is gone, and take its floors away",
        description="Shuts the bridge of a machine out of the cluster, and takes the floors of its servers away, which keep old versions.",
    )
    gone.add_argument("machine", help="its name, as the status shows it")
    add_place(gone)
    audit = commands.add_parser(
        "audit",
        help="judge recordings of all servers as one run",
        description="Merges the recordings of all servers into one run, which tablet_audit judges.",
    )
    audit.add_argument("folder", metavar="FOLDER", nargs="+", type=Path, help="what --record names for a machine's servers")
    audit.add_argument("--merged", metavar="PREFIX", help="keep the run as PREFIX.requests and PREFIX.replies")
    return made


def shown_split(words: Sequence[str]) -> str:
    """A split that was done, or that is at a stage."""
    name, end, other, *stage = words
    row = text_of(row_of(bytes.fromhex(end)))
    if stage:
        return f"{name} is being split behind {row} into {other}: {STAGES[stage[0]]}"
    return f"{name} is split behind {row}: later rows are in {other}"


def shown(line: str) -> str:
    """A line of the bridge, as it is shown."""
    kind, rest = line.split(" ", 1)
    if kind in ("split", "done"):
        return shown_split(rest.split(" "))
    if kind == "tablet":
        end, name, epoch, version = rest.split(" ")
        last = "the last row" if end == "-" else text_of(row_of(bytes.fromhex(end)))
        return f"{name} up to {last}: epoch {epoch}, version {version}"
    if kind == "stamps":
        return f"stamps are below {(int(rest) + 1) * OF_A_WRITE}"
    name, value = rest.rsplit(" ", 1)
    return f"machine {name}: its bridge is at {value}" if kind == "bridge" else f"server {name}: floor {value}"


def asked(words: Sequence[str], given: str = "") -> tuple[int, str]:
    """The bridge's status and output, after it was given an input."""
    done = subprocess.run([found_bridge(), *words], input=given, stdout=subprocess.PIPE, text=True, check=False)
    return done.returncode, done.stdout


def found_audit() -> str:
    """The program that judges a run: the environment's TABLET_AUDIT, or else that on PATH, or else the proved one of the
    repository that this package is in. FileNotFoundError if there is none."""
    found = os.environ.get("TABLET_AUDIT") or next(filter(None, map(shutil.which, ("tablet_audit", str(AUDIT)))), None)
    if found is None:
        raise FileNotFoundError(NO_AUDIT)
    return found


def judged(folders: list[Path], prefix: str) -> int:
    """Merges recordings, prints what `tablet_audit` says of the run, and returns its status."""
    with open(f"{prefix}.requests", "wb") as requests, open(f"{prefix}.replies", "wb") as replies:
        told_of = merge(folders, requests, replies)
    admin = str(int.from_bytes(ADMINISTRATOR, "big"))
    command = [found_audit(), f"{prefix}.requests", f"{prefix}.replies", "--clients", "--admin", admin]
    done = subprocess.run(command, stdout=subprocess.PIPE, text=True, check=False)
    sys.stdout.write(done.stdout)
    if (reply := re.match(r"reply (\d+) is not allowed", done.stdout)) is not None:
        print(f"it is of {told_of(int(reply[1]))}")
    return done.returncode


def audit(folders: list[Path], prefix: str | None) -> int:
    """Judges recordings. The status is 0 if each reply is allowed, 1 if the run is wrong, 2 if nobody can tell, and 4 if
    a file can't be read or written."""
    try:
        if prefix is not None:
            return judged(folders, prefix)
        with tempfile.TemporaryDirectory() as place:
            return judged(folders, f"{place}/merged")
    except Wrong as why:
        print(f"the run is wrong: {why}")
        return WRONG
    except (Untold, OutOfForm) as why:
        print(f"nobody can tell: {why}")
        return UNTOLD
    except OSError as failure:
        print(f"duqishom: {failure}", file=sys.stderr)
        return UNREAD


def main(words: Sequence[str]) -> int:
    """Runs the command. The status is the bridge's: 0 if it was done, and 2 if it was refused; or that of an audit."""
    options = parser().parse_args(words)
    if options.command == "audit":
        return audit(options.folder, options.merged)
    try:
        if options.command == "init":
            lines = Path(options.ends).read_text(encoding="utf-8").splitlines() if options.ends else []
            fences = "".join(f"{fence_of(row).hex()}\n" for row in rows_of(lines))
            status, told = asked([*place_words(options), "--init"], fences)
        elif options.command == "status":
            status, told = asked([*place_words(options), "--status"])
            told = "".join(f"{shown(line)}\n" for line in told.splitlines())
        elif options.command == "split":
            end = "largest" if options.largest else fence_of(checked(bytes_of(options.row))).hex()
            status, told = asked([*place_words(options), "--split", end])
            told = "".join(f"{shown(line)}\n" for line in told.splitlines())
        else:
            status, told = asked([*place_words(options), "--forget", options.machine])
    except (OSError, ValueError) as failure:
        print(f"duqishom: {failure}", file=sys.stderr)
        return REFUSED
    sys.stdout.write(told)
    return status
