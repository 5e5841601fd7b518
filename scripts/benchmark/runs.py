"""Runs of a program over streams of requests, and their costs."""

from __future__ import annotations

import itertools
import math
import re
import resource
import subprocess
import sys
import tempfile
from collections.abc import Callable, Iterable, Sequence
from pathlib import Path
from typing import IO, NamedTuple

from benchmark.requests import CHECKPOINT, Exchange, field
from benchmark.shapes import Shape

# The longest run under callgrind in seconds.
MOST_SECONDS = 600

# The least time that counts as measured: less is noise.
LEAST_SECONDS = 0.001

# The cost of a run of a command, with its standard input and output, or None if it takes too long.
Meter = Callable[[Sequence[str], IO[bytes], IO[bytes]], float | None]


class Figures(NamedTuple):
    """The total cost of requests, and their number."""

    cost: float
    count: int


class Growth(NamedTuple):
    """The exponent with which the time grows with the size, over all sizes and over the last two."""

    fitted: float
    last: float


def used_seconds() -> float:
    """The processor seconds of all programs that have ended."""
    used = resource.getrusage(resource.RUSAGE_CHILDREN)
    return used.ru_utime + used.ru_stime


def checked(status: int, command: Sequence[str]) -> None:
    """Ends the script if a program failed."""
    if status:
        sys.exit(f"{' '.join(command)}: status {status}")


def seconds(command: Sequence[str], asked: IO[bytes], written: IO[bytes]) -> float | None:
    """The processor seconds of a command."""
    before = used_seconds()
    checked(subprocess.run(command, stdin=asked, stdout=written).returncode, command)
    return used_seconds() - before


def instructions(command: Sequence[str], asked: IO[bytes], written: IO[bytes]) -> float | None:
    """The instructions of a command."""
    with tempfile.NamedTemporaryFile("r") as log:
        tool = ["valgrind", "--tool=callgrind", "--callgrind-out-file=/dev/null", f"--log-file={log.name}"]
        counting = [*tool, *command]
        try:
            checked(subprocess.run(counting, stdin=asked, stdout=written, timeout=MOST_SECONDS).returncode, counting)
        except subprocess.TimeoutExpired:
            return None
        found = re.search(r"Collected *: *(\d+)", log.read())
    if not found:
        sys.exit(f"{' '.join(counting)}: no count of instructions")
    return float(found[1])


def count_written(exchanges: Iterable[Exchange], asked: Path, wanted: Path) -> int:
    """Writes requests and replies to files, and returns their number."""
    count = 0
    with open(asked, "wb") as requests, open(wanted, "wb") as replies:
        for request, reply in exchanges:
            requests.write(field(request))
            replies.write(field(reply))
            count += 1
    return count


class Runs:
    """Runs of a program, with a folder of their own. A wrong reply ends the script."""

    def __init__(self, program: str, place: Path) -> None:
        self._program = program
        self._place = place

    def run(self, meter: Meter, exchanges: Iterable[Exchange], words: Sequence[str]) -> Figures | None:
        """The cost of a run over a stream, or None if it takes too long."""
        asked, wanted, written = (self._place / name for name in ("asked", "wanted", "written"))
        count = count_written(exchanges, asked, wanted)
        command = [self._program, *words]
        with open(asked, "rb") as requests, open(written, "wb") as replies:
            cost = meter(command, requests, replies)
        if cost is None:
            return None
        if written.read_bytes() != wanted.read_bytes():
            sys.exit(f"{' '.join(command)}: the replies aren't those that are wanted")
        return Figures(cost, count)

    def in_memory(self, meter: Meter, shape: Shape, size: int) -> tuple[Figures | None, Figures | None]:
        """The costs of runs of a shape in memory, without its requests and with them."""
        with_them = itertools.chain(shape.loaded(size), shape.asked(size))
        return self.run(meter, shape.loaded(size), shape.words), self.run(meter, with_them, shape.words)

    def in_folder(self, meter: Meter, shape: Shape, size: int) -> tuple[Figures | None, Figures | None]:
        """The costs of runs of a shape in a folder, after the folder was made: without its requests, and with them.

        If opening is measured, the first run is in memory.
        """
        folder = self._place / "folder"
        folder.mkdir()
        words = (*shape.words, "--dir", str(folder))
        self.run(seconds, itertools.chain(shape.loaded(size), [CHECKPOINT]), words)
        without = self.run(meter, (), shape.words if shape.is_opening else words)
        return without, self.run(meter, shape.asked(size), words)


def measured(program: str, meter: Meter, shape: Shape, size: int) -> Figures | None:
    """The cost of the requests of a shape, beyond a run without them, or None if that takes too long."""
    with tempfile.TemporaryDirectory() as place:
        runs = Runs(program, Path(place))
        two_runs = runs.in_folder if shape.is_folder else runs.in_memory
        without, whole = two_runs(meter, shape, size)
    if without is None or whole is None:
        return None
    return Figures(whole.cost - without.cost, size * shape.passes or whole.count - without.count)


def timed(program: str, shape: Shape, size: int) -> Figures:
    """The processor seconds of the requests of a shape, and their number."""
    figures = measured(program, seconds, shape, size)
    assert figures
    return figures._replace(cost=max(figures.cost, LEAST_SECONDS))


def exponent(points: Sequence[tuple[int, float]]) -> float:
    """The exponent with which the time grows with the size: the slope of the line through the logarithms."""
    sizes = [math.log(size) for size, _ in points]
    times = [math.log(time) for _, time in points]
    size, time = sum(sizes) / len(points), sum(times) / len(points)
    rise = sum((s - size) * (t - time) for s, t in zip(sizes, times, strict=True))
    return rise / sum((s - size) ** 2 for s in sizes)


def growth(program: str, shape: Shape, most: int, figures: Figures) -> Growth:
    """How the time grows from an eighth of the size to the whole size, whose figures are given."""
    points = [(size, timed(program, shape, size).cost) for size in (most // 8, most // 4, most // 2)]
    points.append((most, figures.cost))
    return Growth(exponent(points), exponent(points[2:]))
