"""The plots of figures: each is an SVG that is readable in black and white."""

from __future__ import annotations

from collections.abc import Callable
from pathlib import Path
from typing import Any

import matplotlib
from matplotlib.axes import Axes
from matplotlib.figure import Figure
from matplotlib.ticker import FuncFormatter, LogLocator

# Text isn't converted to paths, and the same figures give the same bytes.
matplotlib.rcParams.update({"svg.fonttype": "none", "svg.hashsalt": "bench", "font.family": "sans-serif", "font.size": 10})

UNITS = {"instructions": "instructions", "microseconds": "microseconds of the processor"}
STYLES = (("o", "-"), ("s", "--"), ("^", "-."), ("D", ":"), ("v", "-"), ("x", "--"))
GRAYS = ("0", "0.35", "0", "0.35", "0.5", "0.6")
PLAIN = FuncFormatter(lambda number, _: f"{number:,.10g}")

# The store that the plot of the log leaves out, since its writes aren't durable yet when they are answered.
NOT_ON_DISK = "tabletd without log"

# The names of the lines in the plot of the gateway, and the position of the pipe: left of one client.
WAYS = {
    "one at a time": "reads, one at a time",
    "64 ahead": "reads, 64 ahead",
    "five trips": "commits in five trips",
    "two trips": "commits in two trips",
    "one trip": "commits by a Commit",
}
PIPE = 0.3

# The lines of a plot by their names: each has positions from left to right, and figures.
Lines = dict[str, list[float]]


def draw_lines(axes: Axes, places: list[float], lines: Lines) -> None:
    """Draws lines, each with its own marker and dash, with positions on one logarithmic axis and figures on the
    other."""
    for (name, figures), (mark, dash), gray in zip(lines.items(), STYLES, GRAYS):
        axes.plot(places, figures, marker=mark, linestyle=dash, color=gray, label=name)
    axes.set_xscale("log")
    axes.set_yscale("log")
    axes.yaxis.set_major_locator(LogLocator(subs=(1, 2, 5)))
    axes.xaxis.set_major_formatter(PLAIN)
    axes.yaxis.set_major_formatter(PLAIN)
    axes.set_xticks(places)
    axes.minorticks_off()
    axes.grid(axis="y", color="0.85")
    axes.legend(loc="upper left", bbox_to_anchor=(1.02, 1), frameon=False)


def turned(figures: dict[str, dict[str, float]]) -> Lines:
    """Figures by position and line, as lines."""
    names = next(iter(figures.values()))
    return {name: [each[name] for each in figures.values()] for name in names}


def draw_map(axes: Axes, figures: dict[str, Any]) -> None:
    """The costs of requests with tabletd and with the map."""
    costs: dict[str, dict[str, float]] = figures["map"]
    tabletd, other = turned(costs).values()
    places = range(len(costs))
    axes.barh([place - 0.2 for place in places], tabletd, 0.38, color="0.35", edgecolor="0", label="tabletd")
    axes.barh([place + 0.2 for place in places], other, 0.38, color="1", edgecolor="0", hatch="///", label="the map")
    for place, mine, its in zip(places, tabletd, other):
        axes.text(mine, place - 0.2, f" {mine / its:.1f} times the map", va="center", size=9)
    axes.set_yticks(list(places), list(costs))
    axes.invert_yaxis()
    axes.set_xlim(0, max(1.3 * max(tabletd), 1.05 * max(other)))
    axes.xaxis.set_major_formatter(PLAIN)
    axes.set_xlabel(f"{UNITS[figures['unit']]} a request")
    axes.legend(loc="lower right", frameon=False)


def draw_growth(axes: Axes, figures: dict[str, Any]) -> None:
    """The costs of requests as a store grows."""
    draw_lines(axes, [float(size) for size in figures["growth"]], turned(figures["growth"]))
    axes.set_xlabel("rows of the folder, with --merge 8")
    axes.set_ylabel(UNITS[figures["unit"]])
    axes.set_ylim(bottom=min(min(line) for line in turned(figures["growth"]).values()) / 2)


def draw_log(axes: Axes, figures: dict[str, Any]) -> None:
    """Rows a second of stores that sync each write."""
    rates: dict[str, dict[str, float]] = figures["log"]["rates"]
    places = [float(count) for count in next(iter(rates.values()))]
    draw_lines(axes, places, {name: list(each.values()) for name, each in rates.items() if name != NOT_ON_DISK})
    axes.set_xlabel("rows that are written at once")
    axes.set_ylabel("rows a second")


def draw_gateway(axes: Axes, figures: dict[str, Any]) -> None:
    """Requests a second over the pipe and through a gateway."""
    rates: dict[str, dict[str, float]] = figures["gateway"]
    clients = [name for name in next(iter(rates.values())) if name != "pipe"]
    lines = {WAYS[name]: [each[count] for count in clients] for name, each in rates.items()}
    draw_lines(axes, [float(count) for count in clients], lines)
    for each, (mark, _), gray in zip(rates.values(), STYLES, GRAYS):
        axes.plot([PIPE], [each["pipe"]], marker=mark, color=gray)
    axes.set_xticks([PIPE, *map(float, clients)], ["the pipe\nalone", *clients])
    axes.set_xlabel("clients of the gateway")
    axes.set_ylabel("reads or commits a second")


# The plots: by the name of the file, the title, the size in inches, and the function that draws it.
PLOTS: dict[str, tuple[str, tuple[float, float], Callable[[Axes, dict[str, Any]], None]]] = {
    "map": ("What a request costs, beside one ordered map in memory", (8, 4.5), draw_map),
    "growth": ("What a request costs in a folder that grows to a million rows", (8, 4), draw_growth),
    "log": ("Rows a second, each on the disk before it is answered", (8, 4), draw_log),
    "gateway": ("Reads and commits a second through a gateway", (8, 4), draw_gateway),
}


def draw(figures: dict[str, Any], folder: Path) -> None:
    """Draws all plots into a folder."""
    folder.mkdir(parents=True, exist_ok=True)
    for name, (title, size, how) in PLOTS.items():
        figure = Figure(figsize=size, layout="constrained")
        axes = figure.subplots()
        axes.set_title(title)
        for side in ("top", "right"):
            axes.spines[side].set_visible(False)
        how(axes, figures)
        figure.savefig(folder / f"{name}.svg", metadata={"Date": None})
