"""How far long work is: what functions are told, and what a terminal shows."""

from __future__ import annotations

import asyncio
import json
import os
import pty
import re
import subprocess
import sys
import threading
import unittest
from collections.abc import Callable
from itertools import pairwise
from pathlib import Path

from duqishom import Store, aio
from duqishom.backups import whole
from duqishom.copies import restore
from duqishom.dumps import dump, line_of, load
from duqishom.files import ROOT_FILE
from duqishom.pieces import SUMMED, number_in, payload_of, place_in
from duqishom.progress import BYTES, CELLS, Reached, Report, Tally, tallied
from duqishom.sums import SUMS_FILE
from tests.folders import FolderTest, said
from tests.gateways import PACKAGE, PATIENCE, STATISTICS, Gateway, stand_in, until
from tests.test_gateway_backups import FILE, ROOT

FORMAT1 = str(Path(__file__).parent / "data" / "format1")
FAMILY = b"c"

# The rate, which is only shown if some time has passed.
RATE = r"(?:, [\d.,]+ \w+ a second)?"


class Stopped(Exception):
    """A function that is told how far work is wants no more of it."""


def stop(reached: Reached) -> None:
    raise Stopped


class Told:
    """Takes reports. Each part of a work begins anew, with another unit or another total."""

    def __init__(self) -> None:
        self.parts: dict[tuple[str, int | None], list[int]] = {}

    def __call__(self, reached: Reached) -> None:
        self.parts.setdefault((reached.unit, reached.total), []).append(reached.done)

    def ends(self) -> dict[tuple[str, int | None], int]:
        """What is done at the end of each part. AssertionError if it doesn't grow."""
        for done in self.parts.values():
            assert done == sorted(done), done
        return {part: done[-1] for part, done in self.parts.items()}


class Functions(FolderTest):
    """Functions that take a function."""

    def told(self, work: Callable[[Report], object]) -> dict[tuple[str, int | None], int]:
        """What is done at the end of each part of some work."""
        told = Told()
        work(told)
        return told.ends()

    def size(self, path: Path) -> int:
        """The bytes of a store's sorted files, without their checksums."""
        files = (file for file in path.glob("t*.tab") if number_in(file.name) % SUMMED)
        return sum(len(payload_of(file, file.read_bytes())) for file in files)

    def test_of_a_folder(self) -> None:
        copies, count = [self.path / name for name in ("copy", "again")], 50
        with Store(folder=self.folder) as store:
            with store.transaction() as t:
                for number in range(count):
                    t.put(b"%d" % number, FAMILY, bytes(20_000))
            store.major(1)
            self.assertRaises(Stopped, store.backup, self.path / "stopped", stop)
            [(part, done)] = self.told(lambda told: store.backup(copies[0], told)).items()
        whole_copy = sum(file.stat().st_size for file in copies[0].iterdir() if file.name != SUMS_FILE)
        self.assertEqual((part, done), ((BYTES, whole_copy), whole_copy))
        self.assertFalse(place_in(self.path / "stopped", 0).exists())
        size = self.size(copies[0])
        parts = self.told(lambda told: whole(copies[0], told))
        self.assertEqual(parts, {(BYTES, size): size, (BYTES, whole_copy): whole_copy, (CELLS, None): count})
        parts = self.told(lambda told: restore(str(copies[0]), str(copies[1]), told))
        self.assertEqual(parts, {(BYTES, whole_copy): whole_copy})
        self.assertRaises(Stopped, whole, copies[0], stop)
        self.assertRaises(Stopped, restore, str(copies[0]), str(self.path / "third"), stop)
        self.assertFalse(place_in(self.path / "third", 0).exists())

    def test_of_cells(self) -> None:
        lines = [line_of((b"%d" % number, FAMILY, b"v")) for number in range(600)]
        out = self.path / "lines"
        with Store() as store:
            self.assertEqual(self.told(lambda told: load(store, lines, told, 600)), {(CELLS, 600): 600})
            with store.transaction() as t, out.open("wb") as file:
                self.assertEqual(self.told(lambda told: dump(t.scan(), file, told)), {(CELLS, None): 600})
            self.assertEqual(sorted(out.read_bytes().splitlines(True)), sorted(lines))
            self.assertRaises(Stopped, load, store, [line_of((b"other", FAMILY, b"v"))] + lines, stop)

    def test_items(self) -> None:
        """All come, and those of a batch are done before the first of the next one comes."""
        for count in (0, 1, 999, 1000, 2001):
            told = Told()
            done = [told.ends().get((CELLS, count), 0) for _ in tallied(range(count), Tally(told, count, CELLS))]
            self.assertEqual(done, [number // 1000 * 1000 for number in range(count)])
            self.assertEqual(told.ends(), {(CELLS, count): count})


class Gateways(FolderTest):
    """Copies that a gateway makes, and that stand still in the middle."""

    def held_up(self) -> Gateway:
        """A gateway whose folder has a file that is a pipe, to which nobody writes."""
        (self.path / ROOT_FILE).write_bytes(ROOT)
        os.mkfifo(self.path / FILE)
        return Gateway(self, ["--program", stand_in(self, "return plain(body)"), "--dir", self.folder, "--no-log"])

    def copies(self, gateway: Gateway) -> dict[str, dict[str, int]]:
        """How far the gateway says that copies are."""
        copies: dict[str, dict[str, int]] = json.loads(gateway.wire().ask(STATISTICS)[1:])["copies"]
        return copies

    def test_what_is_told_until_it_is_stopped(self) -> None:
        gateway, place = self.held_up(), self.path / "copy"

        async def copy(progress: Report) -> None:
            async with aio.Store(socket=gateway.path) as store:
                await store.backup(place, progress)

        def of_tasks(progress: Report) -> None:
            asyncio.run(copy(progress))

        def of_threads(progress: Report) -> None:
            with Store(socket=gateway.path) as store:
                store.backup(place, progress)

        works: tuple[Callable[[Report], None], ...] = (of_threads, of_tasks)
        for work in works:
            seen: list[Reached] = []

            def note(reached: Reached) -> None:
                seen.append(reached)
                self.assertEqual(self.copies(gateway), {str(place): {"done": 0, "total": len(ROOT)}})
                raise Stopped

            self.assertRaises(Stopped, work, note)
            self.assertEqual(seen, [Reached(0, len(ROOT), BYTES)])
            # The request answered now came after the end of the copy's client
            gateway.statistics()
            (self.path / FILE).write_bytes(b"file")
            self.assertTrue(until(lambda: self.copies(gateway) == {}))
            self.assertFalse(place_in(place, 0).exists())
            (place / FILE).unlink()

    def test_it_goes_on(self) -> None:
        gateway, told = self.held_up(), Told()
        writing = threading.Thread(target=(self.path / FILE).write_bytes, args=(b"file",))

        def note(reached: Reached) -> None:
            if not told.parts:
                writing.start()
            told(reached)

        with Store(socket=gateway.path) as store:
            store.backup(self.path / "copy", note)
        writing.join()
        self.assertEqual(list(told.ends()), [(BYTES, len(ROOT))])
        self.assertEqual((self.path / "copy" / FILE).read_bytes(), b"file")


def shown(*words: str) -> tuple[int, str]:
    """The status of the command at a terminal, and what that shows."""
    ours, theirs = pty.openpty()
    command = [sys.executable, "-m", "duqishom", *words]
    with subprocess.Popen(command, cwd=PACKAGE, stdin=theirs, stdout=theirs, stderr=theirs) as child:
        os.close(theirs)
        text = b""
        while piece := read(ours):
            text += piece
        os.close(ours)
        return child.wait(PATIENCE), text.decode()


def read(terminal: int) -> bytes:
    """What comes from a terminal next, or nothing at its end."""
    try:
        return os.read(terminal, 65_536)
    except OSError:
        return b""


class Lines(FolderTest):
    """What the commands show."""

    def test_at_a_terminal(self) -> None:
        """A line is rewritten: what was longer before is overwritten."""
        for words in (["verify", FORMAT1], ["verify", "--progress", FORMAT1]):
            status, text = shown(*words)
            line, _, told = text.partition("\r\n")
            nothing, first, *more = line.split("\r")
            self.assertEqual((status, nothing, first), (0, "", "verify: 0 bytes of 461 bytes"))
            self.assertRegex(more[-1], f"^verify: 2 cells{RATE} *$")
            for before, after in pairwise([first, *more]):
                self.assertGreaterEqual(len(after), len(before.rstrip()))
            self.assertTrue(told.startswith(f"{FORMAT1} is whole"), told)
        status, text = shown("verify", "--quiet", FORMAT1)
        self.assertEqual((status, text.partition(" is whole")[0]), (0, FORMAT1))
        # A dump to the terminal itself has no line
        self.assertNotIn("cells", shown("dump", "--dir", FORMAT1)[1])

    def test_at_no_terminal(self) -> None:
        copy, lines, store = self.path / "copy", self.path / "lines", self.path / "store"
        store.mkdir()
        cases: tuple[tuple[tuple[object, ...], str], ...] = (
            (("verify", FORMAT1), f"verify: 461 bytes of 461 bytes{RATE}\nverify: 2 cells{RATE}\n"),
            (("restore", FORMAT1, copy), f"restore: 535 bytes of 535 bytes{RATE}\n"),
            (("dump", "--dir", FORMAT1, lines), f"dump: 2 cells{RATE}\n"),
            (("load", "--dir", store, lines), f"load: 2 cells of 2 cells{RATE}\n"),
            (("--dir", store, "backup", self.path / "backup"), rf"backup: ([\d.]+ \w+) of \1{RATE}\n"),
        )
        for number, (words, line) in enumerate(cases):
            for option in ("--quiet", "--progress", None):
                with self.subTest(words=words, option=option):
                    for each in (copy, lines, self.path / "backup"):
                        remove(each, unless=lines if number == 3 else None)
                    status, told = said(*words, *([option] if option else []))
                    self.assertEqual(status, 0)
                    self.assertEqual(re.search(line, told) is not None, option == "--progress", told)
        self.assertRaises(SystemExit, said, "verify", FORMAT1, "--progress", "--quiet")

    def test_a_failure_has_a_line_of_its_own(self) -> None:
        lines = self.path / "lines"
        lines.write_bytes(300 * line_of((b"r", FAMILY, b"v")) + b"{\n")
        status, text = shown("load", "--dir", self.folder, str(lines))
        self.assertEqual(status, 1)
        self.assertRegex(text, rf"\rload: 256 cells of 301 cells{RATE} *\r\nload: line 301: .*\r\n256 cells are set\r\n$")


def remove(path: Path, unless: Path | None) -> None:
    """Removes a file or a folder with its files, if it is there."""
    if path == unless or not path.exists():
        return
    if path.is_dir():
        for file in path.iterdir():
            file.unlink()
        path.rmdir()
    else:
        path.unlink()


if __name__ == "__main__":
    unittest.main()
