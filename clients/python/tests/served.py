"""`duqishom serve` with several servers, as a process of its own, and its processes."""

from __future__ import annotations

import os
import signal
import subprocess
import sys
import tempfile
import unittest
from collections.abc import Iterator, Sequence
from pathlib import Path

from duqishom.program import default_program
from tests.gateways import PACKAGE, PATIENCE, listens, until


def has_rows() -> bool:
    """Whether the program asks a bridge for its rows: other programs refuse the words."""
    words = [default_program(), "--rows", "/nowhere", "--clients"]
    done = subprocess.run(words, stdin=subprocess.DEVNULL, capture_output=True, timeout=PATIENCE, check=False)
    return done.returncode != 1


def children(process: int) -> Iterator[int]:
    """The processes that a process has begun, and theirs."""
    for place in Path("/proc").glob("[0-9]*"):
        try:
            parent = int((place / "stat").read_text(errors="replace").rpartition(")")[2].split()[1])
        except OSError:
            continue
        if parent == process:
            yield int(place.name)
            yield from children(int(place.name))


def words_of(process: int) -> list[str]:
    """The words of a process, none if it has ended."""
    try:
        return Path(f"/proc/{process}/cmdline").read_text(errors="replace").split("\0")[:-1]
    except OSError:
        return []


class Served:
    """Several servers at one socket."""

    def __init__(self, case: unittest.TestCase, words: Sequence[str], count: int = 2, program: str | None = None) -> None:
        folder = tempfile.TemporaryDirectory()
        case.addCleanup(folder.cleanup)
        self.path = f"{folder.name}/socket"
        given = [] if program is None else ["--program", program]
        self._command = [sys.executable, "-m", "duqishom", "serve", *words, "--workers", str(count), "--socket", self.path, *given]
        self.log = Path(folder.name, "log")
        case.addCleanup(self.end)
        self.start()

    def start(self) -> None:
        with self.log.open("a") as log:
            self._said_before = log.tell()
            self.process = subprocess.Popen(self._command, cwd=PACKAGE, stderr=log)

    def is_ready(self) -> bool:
        """Whether all servers are ready since the last start, for which it waits, unless it ends before."""
        until(lambda: self.process.poll() is not None or b"duqishom: ready" in self.log.read_bytes()[self._said_before :])
        return self.process.poll() is None and listens(self.path)

    def said(self) -> list[str]:
        return self.log.read_text().splitlines()

    def processes(self, name: str) -> list[int]:
        """The processes that have a word which ends so: the bridge, the gateways or the programs."""
        found = [process for process in children(self.process.pid) if any(word.endswith(name) for word in words_of(process)[:2])]
        return sorted(found)

    def kill(self) -> None:
        self.process.kill()
        self.process.wait(PATIENCE)

    def end(self) -> int:
        """Asks for the end, and returns the status."""
        if self.process.poll() is None:
            self.process.send_signal(signal.SIGTERM)
        try:
            return self.process.wait(PATIENCE)
        except subprocess.TimeoutExpired:
            self.process.kill()
            return self.process.wait(PATIENCE)


def is_running(process: int) -> bool:
    """Whether a process runs, and is no zombie."""
    try:
        return Path(f"/proc/{process}/stat").read_text(errors="replace").rpartition(")")[2].split()[0] != "Z"
    except OSError:
        return False


def kill(process: int) -> None:
    """Kills a process, if it is still there."""
    try:
        os.kill(process, signal.SIGKILL)
    except ProcessLookupError:
        pass
