"""Figures as they are read: times, bytes, rates and counts."""

from __future__ import annotations


def duration(seconds: float) -> str:
    """A time in its greatest unit and the next one."""
    units = (("d", 86_400), ("h", 3600), ("min", 60), ("s", 1))
    first = next((place for place, (_, length) in enumerate(units) if seconds >= length), len(units) - 1)
    left, parts = int(seconds), list[str]()
    for unit, length in units[first : first + 2]:
        count, left = divmod(left, length)
        if count or not parts:
            parts.append(f"{count} {unit}")
    return " ".join(parts)


def moment(seconds: float) -> str:
    """A short time in milliseconds, or in seconds from one on."""
    if seconds >= 1:
        return f"{seconds:,.1f} s"
    return f"{seconds * 1000:.{2 if seconds < 0.001 else 1 if seconds < 0.1 else 0}f} ms"


def size(count: float) -> str:
    """Bytes in the greatest unit of which there is one."""
    for unit in ("bytes", "KiB", "MiB", "GiB"):
        if abs(count) < 1024:
            return f"{count:,.0f} {unit}" if unit == "bytes" or count >= 100 else f"{count:,.1f} {unit}"
        count /= 1024
    return f"{count:,.1f} TiB"


def speed(a_second: float | None) -> str:
    """A rate, or a dash if it isn't known."""
    if a_second is None:
        return "–"
    return f"{a_second:,.0f}" if a_second >= 100 or a_second == 0 else f"{a_second:,.1f}"


def counted(count: int, what: str) -> str:
    """A number of things."""
    return f"{count:,} {what}{'' if count == 1 else 's'}"
