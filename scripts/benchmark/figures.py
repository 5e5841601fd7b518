"""The figures of the plots: costs of requests compared with a map, and as a store grows; and the figures of logs and of
the gateway."""

from __future__ import annotations

import itertools
import json
import random
import subprocess
import sys
import tempfile
from collections.abc import Iterable, Iterator
from pathlib import Path
from typing import Any

from benchmark.requests import CHECKPOINT, Exchange, begin, get, stamps_of, transaction
from benchmark.runs import Figures, Meter, Runs, instructions, measured, seconds
from benchmark.shapes import SHAPES, middle_value, short_value

TOP = Path(__file__).resolve().parents[2]
MAP_SOURCE = Path(__file__).with_name("map.cc")

# The shapes compared with the map, each with its N and its name in a plot.
BESIDE_MAP = {
    "rows": (10_000, "commits of one cell"),
    "transfer": (5_000, "transfers: two Gets and two Sets"),
    "commit": (10_000, "commits of one cell, in one request"),
    "move": (5_000, "transfers, in two requests: a Read and a Commit"),
    "many": (5_000, "commits by 1,000 sessions at once"),
    "wide": (8, "commits of 256 cells of 1 KiB"),
    "long": (1_000, "commits on rows of 4,000 bytes"),
    "get48": (9_600, "Gets of rows in 48 files"),
    "cached": (9_600, "the same, with --cache 256"),
    "missing": (9_600, "Gets of rows that aren't there"),
}

# The sizes of the growing stores, in rows, and the options that such a store is started with.
SIZES = (1_000, 10_000, 100_000, 1_000_000)
GROWING = ("--merge", "8")

# The rows set in each commit.
BATCH = 100

# The number of requests to such a store: of Gets, of Gets of missing rows, and of commits of one cell.
GETS, MISSING, COMMITS = 2_000, 20_000, 2_000

# A program begins with a new range of this many stamps.
STAMPS = 1_000


def row(number: int) -> bytes:
    """A row of a store that grows."""
    return b"row%06d" % number


def loaded(size: int) -> Iterator[Exchange]:
    """Sets this many rows in a random order."""
    order = list(range(size))
    random.Random(1).shuffle(order)
    for number, first in enumerate(range(0, size, BATCH)):
        yield from transaction(number, [(row(each), middle_value(each)) for each in order[first : first + BATCH]])


def gets(size: int, stamps: int) -> Iterator[Exchange]:
    """Gets of existing rows."""
    draws = random.Random(2)
    yield begin(stamps + 1)
    for number in (draws.randrange(size) for _ in range(GETS)):
        yield get(stamps + 1, row(number), middle_value(number))


def missing(size: int, stamps: int) -> Iterator[Exchange]:
    """Gets of missing rows, between the existing ones."""
    draws = random.Random(3)
    yield begin(stamps + 1)
    yield from (get(stamps + 1, row(draws.randrange(size)) + b"x", None) for _ in range(MISSING))


def commits(size: int, stamps: int) -> Iterator[Exchange]:
    """Commits of one cell on existing rows."""
    draws = random.Random(4)
    for number in range(stamps // 2, stamps // 2 + COMMITS):
        yield from transaction(number, [(row(draws.randrange(size)), short_value(number))])


# The requests to such a store, in turn.
ASKED = {
    "a Get": gets,
    "a Get of a row that isn't there": missing,
    "a request of a commit of one cell": commits,
}


def run(runs: Runs, meter: Meter, exchanges: Iterable[Exchange], words: Iterable[str]) -> Figures:
    """The cost of a run, which must not take too long."""
    figures = runs.run(meter, exchanges, tuple(words))
    return figures or sys.exit("bench: a run takes too long")


def grown(program: str, meter: Meter, size: int) -> dict[str, float]:
    """The costs of requests to a folder of this many rows, each by request, and of opening it, by row."""
    with tempfile.TemporaryDirectory() as place:
        runs = Runs(program, Path(place))
        words = (*GROWING, "--dir", f"{place}/folder")
        Path(place, "folder").mkdir()
        run(runs, seconds, itertools.chain(loaded(size), [CHECKPOINT]), words)
        opening = run(runs, meter, (), words).cost
        found = {"opening the folder, a row": (opening - run(runs, meter, (), ()).cost) / size}
        _, last = stamps_of(size // BATCH - 1)
        stamps = -(-last // STAMPS) * STAMPS
        for turn, (name, asked) in enumerate(ASKED.items()):
            figures = run(runs, meter, asked(size, stamps + turn * STAMPS), words)
            found[name] = (figures.cost - opening) / figures.count
    return found


def compiled_map(place: Path) -> str:
    """The program that answers from a map."""
    program = str(place / "map")
    subprocess.run(["c++", "-O2", "-std=c++17", str(MAP_SOURCE), "-o", program], check=True)
    return program


def each(program: str, meter: Meter, name: str, words: tuple[str, ...]) -> float:
    """The cost of a request of a shape."""
    figures = measured(program, meter, SHAPES[name]._replace(words=words), BESIDE_MAP[name][0])
    return figures.cost / figures.count if figures else sys.exit("bench: a run takes too long")


def beside_map(tabletd: str, meter: Meter) -> Iterator[tuple[str, dict[str, float]]]:
    """The costs of requests with tabletd and with the map, by shape."""
    with tempfile.TemporaryDirectory() as place:
        other = compiled_map(Path(place))
        for name, (_, title) in BESIDE_MAP.items():
            yield title, {"tabletd": each(tabletd, meter, name, SHAPES[name].words), "the map": each(other, meter, name, ())}


def growing(tabletd: str, meter: Meter) -> Iterator[tuple[str, dict[str, float]]]:
    """The costs of requests as a store grows, by its size."""
    return ((str(size), grown(tabletd, meter, size)) for size in SIZES)


def table(title: str, lines: Iterable[tuple[str, dict[str, float]]], scale: float) -> dict[str, dict[str, float]]:
    """Prints a table, line by line, and returns it. Figures are multiplied by the scale."""
    found: dict[str, dict[str, float]] = {}
    for name, costs in lines:
        if not found:
            print(f"\n| {title} | {' | '.join(costs)} |\n|---|{'---|' * len(costs)}")
        found[name] = {what: cost * scale for what, cost in costs.items()}
        shown = (f"{cost:,.0f}" if scale == 1 else f"{cost:,.2f}" for cost in found[name].values())
        print(f"| {name} | {' | '.join(shown)} |", flush=True)
    return found


def of_script(name: str, tabletd: str) -> Any:
    """The figures of another script, which prints them."""
    with tempfile.NamedTemporaryFile("r") as file:
        print(f"\n{name}", flush=True)
        subprocess.run([TOP / "scripts" / name, "--json", file.name, tabletd], check=True)
        return json.load(file)


def plotted(tabletd: str, are_counted: bool) -> dict[str, Any]:
    """All figures of the plots: costs in instructions if they are counted, else in microseconds of processor time."""
    meter, scale = (instructions, 1.0) if are_counted else (seconds, 1e6)
    return {
        "unit": "instructions" if are_counted else "microseconds",
        "map": table("Requests", beside_map(tabletd, meter), scale),
        "growth": table("Rows", growing(tabletd, meter), scale),
        "log": of_script("bench_log", tabletd),
        "gateway": of_script("bench_gateway", tabletd),
    }
