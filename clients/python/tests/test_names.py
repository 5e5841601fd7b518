"""The names in the pages: names in backquotes, linked files and sections, and counts, all checked against the tree."""

from __future__ import annotations

import os
import re
import unittest
from collections import Counter
from collections.abc import Callable, Iterator
from functools import cache
from pathlib import Path, PurePosixPath

from duqishom import operations, reports
from tests.pages import TOP

# Folders that builds and runs leave, and git's own.
LEFT = {".git", "out", "target", "__pycache__", "build", ".mypy_cache", ".ruff_cache"}

PAGE = re.compile(r"(?:README|CONTRIBUTING|docs/[^/]+|crates/[^/]+/README)\.md")

# Names of other programs, and of things that a program makes as it runs, which the tree needn't have.
FOREIGN = {
    "doc": "a command of rt",
    "plant": "a command of rt",
    "--only": "an option of rt",
    "ssh": "a program",
    "journalctl": "a program",
    "asyncio.to_thread": "a function of Python",
    "PWD/clients/python": "PWD is the shell's",
    "/health": "a path of the web page",
    "/metrics": "a path of the web page",
    "run/recovered-at": "a file of a recording",
    "run/reopened-at": "a file of a recording",
}

# Bytes, and the toolchain's name of itself.
NO_NAMES = re.compile(r"[0-9A-F]{2}(?:\s[0-9A-F]{2})*|rattle-kit-\w+ logic [0-9a-f]+")

FENCE = re.compile(r"^```.*?^```$", re.MULTILINE | re.DOTALL)
SPAN = re.compile(r"(?<!`)(`+)(?!`)(.+?)(?<!`)\1(?!`)", re.DOTALL)
PIECE = re.compile(r"[\w./*:-]+")
NAME = re.compile(r"\b[A-Za-z_]\w*")

# The section of removed edits, and the first two columns of its table: the second has their names.
GONE = re.compile(r"^## [^\n]*no longer tries\n.*?(?=^## |\Z)", re.MULTILINE | re.DOTALL)
TWO_COLUMNS = re.compile(r"^(\|[^|\n]*\|)[^|\n]*", re.MULTILINE)

# A table of the number of edits by crate.
EDITS_TABLE = re.compile(r"^\| Crate \| Edits \|.*\n\|[-|]+\n((?:\|.*\n)*)", re.MULTILINE)
EDITS_ROW = re.compile(r"^\| `(\w+)` \| (\d+) \|", re.MULTILINE)

# A word in capitals is a placeholder, as in crates/NAME, unless it is the name of a page.
ANY = re.compile(r"\\\*|\b[A-Z_]{2,}(?=/|\\\.(?!md\b)|$)")

LINK = re.compile(r"\]\(([^)\s]+)\)|\b(?:href|src)=\"([^\"]+)\"|`([\w./-]+\.md#[\w-]+)`")
HEADING = re.compile(r"^#{1,6} +(.*?)[ #]*$", re.MULTILINE)

UNITS = "one two three four five six seven eight nine"
TEENS = "ten eleven twelve thirteen fourteen fifteen sixteen seventeen eighteen nineteen"
TENS = "twenty thirty forty fifty sixty seventy eighty ninety"
A_NUMBER = r"(\bsome )?([\d,]*\d|\b[a-z]+(?:-[a-z]+)?)"

# A smaller number isn't a count of everything.
LEAST_COUNT = 10


@cache
def paths() -> tuple[str, ...]:
    """The files of the tree, but for those that builds and runs leave."""
    found: list[str] = []
    for folder, folders, files in os.walk(TOP):
        folders[:] = sorted(name for name in folders if name not in LEFT)
        at = Path(folder).relative_to(TOP)
        found += [(at / name).as_posix() for name in sorted(files)]
    return tuple(found)


@cache
def pages() -> tuple[str, ...]:
    return tuple(path for path in paths() if PAGE.fullmatch(path))


@cache
def sources() -> dict[str, str]:
    """The texts of all files besides the pages and this test, each with its path."""
    own = Path(__file__).name
    others = (path for path in paths() if not PAGE.fullmatch(path) and not path.endswith(own))
    return {path: f"{path}\n{(TOP / path).read_text(encoding='utf-8', errors='replace')}" for path in others}


@cache
def names() -> tuple[set[str], ...]:
    """The names of each of these files."""
    return tuple(set(NAME.findall(text)) for text in sources().values())


@cache
def all_names() -> set[str]:
    return set().union(*names())


@cache
def has_option(option: str) -> bool:
    wanted = re.compile(rf"(?<![\w-]){option}(?![\w-])")
    return any(option in text and wanted.search(text) for text in sources().values())


@cache
def endings() -> set[str]:
    """The endings of files' names, with their dots."""
    return {PurePosixPath(path).suffix for path in paths()} - {""}


@cache
def path_lines() -> str:
    return "".join(f"/{path}\n" for path in paths())


def prose(page: str) -> str:
    """A page without its fenced blocks, whose lines are empty."""
    return FENCE.sub(lambda block: "\n" * block[0].count("\n"), (TOP / page).read_text(encoding="utf-8"))


def has_path(piece: str) -> bool:
    """Whether a file or a folder has this path from some folder on. The ending may be left out."""
    wanted = ANY.sub("[^/\n]*", re.escape(piece.removeprefix("./").rstrip("/")))
    return re.search(rf"/{wanted}(?:/|\.\w+$|$)", path_lines(), re.MULTILINE) is not None


def is_known(piece: str) -> bool:
    """Whether the tree has an option, a path or a name: of one with parts, all of them in one file."""
    if piece in FOREIGN:
        return True
    if piece.startswith("--") and piece != "--":
        return has_option(piece)
    if "/" in piece or PurePosixPath(piece).suffix in endings():
        return has_path(piece)
    parts = set(NAME.findall(piece)) - FOREIGN.keys()
    return any(parts <= each for each in names()) if re.search(r"\w(::|\.)\w", piece) else parts <= all_names()


def unknown(page: str) -> Iterator[str]:
    """The words in backquotes of a page that the tree doesn't have, each with its line."""
    text = GONE.sub(lambda section: TWO_COLUMNS.sub(r"\1", section[0]), prose(page))
    for span in SPAN.finditer(text):
        pieces = [] if NO_NAMES.fullmatch(span[2]) else PIECE.findall(span[2])
        missing = [piece for word in pieces if not is_known(piece := word.rstrip(".:"))]
        if missing:
            yield f"{page}:{text.count(chr(10), 0, span.start()) + 1}: `{span[2]}`: the tree has no {', '.join(missing)}"


def anchors(page: str) -> set[str]:
    """The names that GitHub gives to a page's sections."""
    found = set[str]()
    for heading in HEADING.findall(prose(page)):
        shown = re.sub(r"\[([^]]*)\]\([^)]*\)", r"\1", heading).lower()
        anchor = re.sub(r"[^\w -]", "", shown).replace(" ", "-")
        further = (f"{anchor}-{number}" for number in range(1, len(found) + 1))
        found.add(next(name for name in (anchor, *further) if name not in found))
    return found


def leads(page: Path, folder: Path, target: str) -> bool:
    """Whether the target of a page's link exists, seen from a folder."""
    path, _, anchor = target.partition("#")
    place = (folder / path).resolve() if path else page
    return place.exists() and (not anchor or anchor in anchors(str(place.relative_to(TOP))))


def lost(page: str) -> Iterator[str]:
    """The links of a page whose targets don't exist, seen from its folder, and sections in backquotes that don't exist,
    seen from the top."""
    text, place = prose(page), TOP / page
    for link in LINK.finditer(text):
        target = next(filter(None, link.groups()))
        if not re.match(r"[a-z]+:", target) and not leads(place, TOP if link[3] else place.parent, target):
            yield f"{page}:{text.count(chr(10), 0, link.start()) + 1}: nothing is at {target}"


@cache
def edits() -> Counter[str]:
    """How many edits must fail, by crate."""
    parts = [path.split("/") for path in paths() if path.startswith("crates/") and path.endswith(".edit")]
    return Counter(crate for _, crate, folder, _ in parts if folder == "must-fail")


@cache
def counts() -> dict[str, tuple[re.Pattern[str], int]]:
    """The pattern in which pages state each count, and its value."""
    every = [kind for module in (operations, reports) for kind in vars(module).values()]
    kinds = [kind for kind in every if isinstance(kind, type) and isinstance(vars(kind).get("code"), int)]
    tests = (path.read_text(encoding="utf-8") for path in Path(__file__).parent.glob("test_*.py"))
    test_count = sum(len(re.findall(r"^    (?:async )?def test_", text, re.MULTILINE)) for text in tests)
    clients = r"(?:Python\s+)?clients?(?:'s|')?"
    said = {
        "operations": rf"{A_NUMBER}\s+operations\b",
        "edits": rf"{A_NUMBER}\s+(?:must-fail\s+)?edits\b|\bedits\b[^.]*?{A_NUMBER}\s+in\s+all",
        "tests": rf"{A_NUMBER}\s+tests\s+of\s+the\s+{clients}|{clients}\s+(?:tests\s+\()?{A_NUMBER}(?:\)|\s+tests\b)",
    }
    count = {"operations": len(kinds), "edits": sum(edits().values()), "tests": test_count}
    return {what: (re.compile(pattern, re.IGNORECASE), count[what]) for what, pattern in said.items()}


@cache
def number_words() -> dict[str, int]:
    ones = {word: number for number, word in enumerate(f"{UNITS} {TEENS}".split(), start=1)}
    tens = {word: number for number, word in zip(range(20, 100, 10), TENS.split(), strict=True)}
    both = {f"{ten}-{one}": tens[ten] + ones[one] for ten in tens for one in UNITS.split()}
    return ones | tens | both


def number_of(word: str) -> int:
    """The number in a word, or 0."""
    digits = word.replace(",", "")
    return int(digits) if digits.isdecimal() else number_words().get(word, 0)


def is_count(said: int, count: int, is_rough: bool) -> bool:
    """Whether a number is the count: to a twentieth if it is said to be rough."""
    return 20 * abs(said - count) <= count if is_rough else said == count


def miscounted(page: str) -> Iterator[str]:
    """The counts of a page that aren't those of the tree. Edits are counted as edits that must fail if the paragraph
    says so."""
    text = prose(page)
    for crate, said in (row for table in EDITS_TABLE.findall(text) for row in EDITS_ROW.findall(table)):
        if int(said) != edits()[crate]:
            yield f"{page}: {said} edits of {crate}: the tree has {edits()[crate]}"
    for paragraph in re.split(r"\n\s*\n", text):
        for what, (pattern, count) in counts().items():
            if what not in paragraph.lower() or what == "edits" and not re.search(r"must[-\s]fail|prover", paragraph):
                continue
            for found in pattern.finditer(paragraph):
                rough, word = next(pair for pair in zip(found.groups()[::2], found.groups()[1::2], strict=True) if pair[1])
                said = number_of(word)
                if said >= LEAST_COUNT and not is_count(said, count, rough is not None):
                    yield f"{page}: {found[0]!r}: the tree has {count} {what}"


class Names(unittest.TestCase):
    """The names of all pages."""

    def assert_none(self, found: Callable[[str], Iterator[str]]) -> None:
        """Fails with a line for each that is found on some page."""
        lines = [line for page in pages() for line in found(page)]
        if lines:
            self.fail("\n".join(["", *lines]))

    def test_pages(self) -> None:
        self.assertLessEqual({"README.md", "CONTRIBUTING.md", "docs/PROTOCOL.md"}, set(pages()))

    def test_names(self) -> None:
        self.assert_none(unknown)

    def test_links(self) -> None:
        self.assert_none(lost)

    def test_counts(self) -> None:
        self.assert_none(miscounted)


if __name__ == "__main__":
    unittest.main()
