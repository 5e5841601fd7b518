"""HTML whose texts are escaped unless they are HTML already."""

from __future__ import annotations

from html import escape


class Markup(str):
    """A text that is HTML already."""


def markup(part: object) -> Markup:
    """A part of a page: HTML as it is, and any other value as its escaped text."""
    return part if isinstance(part, Markup) else Markup(escape(str(part)))


def tag(name: str, *parts: object, **attributes: object) -> Markup:
    """An element. In the names of attributes `_` stands for a hyphen, and one at the end for none."""
    named = ((key.rstrip("_").replace("_", "-"), value) for key, value in attributes.items())
    said = "".join(f' {key}="{escape(str(value))}"' for key, value in named)
    return Markup(f"<{name}{said}>{together(*parts)}</{name}>")


def together(*parts: object) -> Markup:
    """Parts of a page, one after the other."""
    return Markup("".join(map(markup, parts)))


def table(head: tuple[object, ...], rows: list[tuple[object, ...]], **attributes: object) -> Markup:
    """A table. Without a head it has none."""
    top = [tag("tr", *(tag("th", cell) for cell in head))] if head else []
    return tag("table", *top, *(tag("tr", *(tag("td", cell) for cell in row)) for row in rows), **attributes)
