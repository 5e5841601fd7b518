"""Charts of the page, in SVG: lines of rates, and the tablets as a bar of their ranges."""

from __future__ import annotations

from collections.abc import Iterator, Sequence
from itertools import groupby

from duqishom.figures import counted, size, speed
from duqishom.web_folder import MANY_FILES, TabletState, row_of
from duqishom.web_markup import Markup, tag

# The width of a letter, and the distance of a label's lines.
LETTER, LINE = 7, 17

# The width of the bar, the least width of a tablet in it, and the least width of one with a label.
BAR_WIDTH, LEAST_WIDTH, LABEL_WIDTH = 1200, 3.0, 130.0

# Places from 0 to 1 with their values, or None for a gap.
Points = Sequence[tuple[float, float] | None]


def svg(width: int, height: int, *parts: Markup, **attributes: object) -> Markup:
    """A drawing of this size."""
    return tag("svg", *parts, viewBox=f"0 0 {width} {height}", width=width, height=height, **attributes)


def greatest(points: Points) -> float:
    """The greatest value, 0 if there is none."""
    return max([point[1] for point in points if point is not None], default=0)


def paths(points: Points, width: int, height: int) -> Iterator[Markup]:
    """The lines through points, with a gap where one is None."""
    top = greatest(points) or 1
    for is_gap, run in groupby(points, key=lambda point: point is None):
        if not is_gap:
            pairs = [f"{width * point[0]:.1f},{height - 1 - (height - 2) * point[1] / top:.1f}" for point in run if point]
            yield tag("polyline", points=" ".join(pairs if len(pairs) > 1 else pairs * 2))


def small_line(points: Points) -> Markup:
    """A line without a scale."""
    return svg(100, 18, *paths(points, 100, 18), class_="line")


def large_line(points: Points, span: str) -> Markup:
    """A line with its greatest value and the time that it covers."""
    width, height = 560, 104
    scale = (
        tag("line", x1=0, y1=1, x2=width, y2=1, class_="scale"),
        tag("line", x1=0, y1=height - 1, x2=width, y2=height - 1, class_="scale"),
        tag("text", speed(greatest(points)), x=2, y=14),
        tag("text", f"{span} ago", x=2, y=height + 14),
        tag("text", "now", x=width, y=height + 14, class_="end"),
    )
    return svg(width, height + 18, *scale, *paths(points, width, height), class_="line")


def widths(tablets: Sequence[TabletState]) -> list[float]:
    """The widths of tablets in the bar: by their bytes, and for none below the least."""
    least = min(LEAST_WIDTH, BAR_WIDTH / len(tablets))
    total = sum(tablet.bytes for tablet in tablets)
    left = BAR_WIDTH - least * len(tablets)
    return [least + left * (tablet.bytes / total if total else 1 / len(tablets)) for tablet in tablets]


def are_labelled(tablets: Sequence[TabletState]) -> bool:
    """Whether the bar has a label for each tablet."""
    return min(widths(tablets)) >= LABEL_WIDTH


def range_of(tablet: TabletState) -> str:
    """The end of a tablet's rows, in words."""
    return "up to the last row" if tablet.end is None else f"up to {row_of(tablet.end)}"


def cut(text: str, letters: int) -> str:
    """A text of no more than so many letters."""
    return text if len(text) <= letters else f"{text[: max(letters - 1, 0)]}…"


def tablet_bar(tablets: Sequence[TabletState]) -> Markup:
    """The tablets in the order of their rows, each as wide as its share of the bytes."""
    height, at, parts = 62, 0.0, list[Markup]()
    for tablet, width in zip(tablets, widths(tablets)):
        files = f"{counted(tablet.files, 'file')}, {size(tablet.bytes)}"
        said = (f"tablet {tablet.number}", files, range_of(tablet))
        shade = "many" if tablet.files >= MANY_FILES else "tablet"
        box = tag("rect", tag("title", ", ".join(said)), x=f"{at:.1f}", y=0, width=f"{width:.1f}", height=height, class_=shade)
        parts.append(box)
        if width >= LABEL_WIDTH:
            letters = int((width - 12) / LETTER)
            labels = (tag("text", cut(text, letters), x=f"{at + 6:.1f}", y=LINE * line) for line, text in enumerate(said, start=1))
            parts.extend(labels)
        at += width
    return svg(BAR_WIDTH, height, *parts, class_="bar")
