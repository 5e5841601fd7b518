"""How tabletd, LevelDB and RocksDB keep house: what overwrites, loads and compactions cost."""

from __future__ import annotations

import shutil
import subprocess
import sys
import tempfile
import time
from collections.abc import Callable, Mapping, Sequence
from pathlib import Path

from benchmark.logs import HEADER, compiled
from duqishom.folders import format_words, log_words, tuned

ROCKSDB_HEADER = Path("/usr/include/rocksdb/db.h")

# The figures that a program of C++ prints, in seconds and bytes, by their names.
Figures = Mapping[str, float]

# The command that overwrites, loads or compacts a store in a folder: the words for what, how many commits, and how many tablets.
Command = Callable[[str, int, int, Path], list[str]]

# A line of a table: its title, and a store's cell.
Line = tuple[str, Callable[[Figures], str]]


def words(folder: Path) -> list[str]:
    """The words that `duqishom serve` and the client's Store give the program for a folder unless others are given."""
    return ["--dir", str(folder), *log_words(str(folder), None), *format_words(str(folder), None), *tuned([], True)]


def of_tabletd(client: str, program: str) -> Command:
    """The command of tabletd, by the program that drives it."""
    return lambda what, count, tablets, folder: [client, what, str(count), str(tablets), str(folder), program, *words(folder)]


def of_peer(driver: str) -> Command:
    """The command of LevelDB or RocksDB, which have no tablets."""
    return lambda what, count, tablets, folder: [driver, what, str(count), str(folder)]


def stores(program: str, place: Path) -> dict[str, Command]:
    """The commands of the stores that are here, compiled at a place."""
    client = compiled("tabletd_upkeep", place)
    if client is None:
        sys.exit("bench_upkeep: there is no C++ compiler")
    found = {"tabletd": of_tabletd(client, program)}
    peers = [("LevelDB", HEADER, ["-lleveldb"]), ("RocksDB", ROCKSDB_HEADER, ["-DROCKSDB", "-lrocksdb"])]
    for name, header, flags in peers:
        if header.exists():
            (place / name).mkdir()
            driver = compiled("peer_upkeep", place / name, "-pthread", *flags)
            assert driver is not None
            found[name] = of_peer(driver)
    return found


def measured(told: str, command: Sequence[str]) -> Figures:
    """The figures of a command. The standard error is told before and after."""
    print(f"{told}: {' '.join(command)}", file=sys.stderr, flush=True)
    began = time.monotonic()
    ran = subprocess.run(command, stdout=subprocess.PIPE, text=True)
    if ran.returncode:
        sys.exit(f"{' '.join(command)}: status {ran.returncode}")
    print(f"{told}: {time.monotonic() - began:.1f} s", file=sys.stderr, flush=True)
    return {name: float(figure) for name, figure in map(str.split, ran.stdout.splitlines())}


def in_new_folder(place: Path, name: str, command: Command, count: int, tablets: int, whats: Sequence[str]) -> list[Figures]:
    """The figures of each of these measurements of a store, one after the other in one new folder."""
    folder = Path(tempfile.mkdtemp(dir=place))
    try:
        return [measured(f"{name}, {what}", command(what, count, tablets, folder)) for what in whats]
    finally:
        shutil.rmtree(folder)


def times(name: str, title: str) -> Line:
    """The line of waits of requests in milliseconds."""
    parts = [f"{name}_{part}" for part in ("p99", "p999", "longest")]

    def cell(figures: Figures) -> str:
        return " / ".join(f"{figures[part] * 1e3:,.1f}" for part in parts) if figures[f"{name}_count"] else "none"

    return title, cell


def number(title: str, name: str, scale: float = 1, places: int = 0) -> Line:
    """The line of a figure, multiplied."""
    return title, lambda figures: f"{figures[name] * scale:,.{places}f}" if name in figures else ""


def each(title: str, name: str, count: int) -> Line:
    """The line of a figure in seconds for each of so many, in microseconds."""
    return number(title, name, 1e6 / count, 1)


def rate(title: str, count: int) -> Line:
    """The line of so many a second."""
    return title, lambda figures: f"{count / figures['seconds']:,.0f}"


def print_table(title: str, lines: Sequence[Line], columns: Mapping[str, Figures]) -> None:
    """Prints a table with a column for each store."""
    print(f"\n| {title} | {' | '.join(columns)} |\n|---|{'---|' * len(columns)}")
    for name, cell in lines:
        print(f"| {name} | {' | '.join(map(cell, columns.values()))} |")
    sys.stdout.flush()
