"""`tabletd` as a child process: frames go to its standard input, and come from its standard output."""

from __future__ import annotations

import os
import shutil
import signal
import subprocess
import sys
from collections.abc import Sequence
from contextlib import suppress
from pathlib import Path
from typing import NoReturn

from duqishom.connection import Frames, StreamEnded
from duqishom.recording import Recording

# The place of the program in a package that was built with one.
OWN = Path(__file__).resolve().parent / "tabletd"

# The seconds that a program may take to end after its input has ended.
PATIENCE = 300

ENDS = {
    1: "the command line is refused",
    2: "the input ended inside a frame",
    3: "a frame was too large",
    4: "a device failed, at open or under the log",
    5: "the store is damaged at open",
    6: "a read or a write failed",
    7: "there is no memory",
    8: "all reads are used up",
}


class ProgramEnded(Exception):
    """The program has ended, and its state in memory is lost. The status is its exit status, negative if a signal ended
    it."""

    def __init__(self, status: int, lost: str = "") -> None:
        why = f": {ENDS[status]}" if status in ENDS else ""
        what = f"; {lost}" if lost else ""
        super().__init__(f"the program has ended with status {status}{why}{what}")
        self.status = status


def default_program() -> str:
    """The program that is started if none is named: the environment's TABLETD, or else the one that was installed with
    this package, or else the tabletd on PATH, or else scripts/tabletd of the repository that this package is in, which
    builds it if necessary. FileNotFoundError if there is none."""
    repository = str((OWN.parent / "../../../scripts/tabletd").resolve())
    found = os.environ.get("TABLETD") or shutil.which(str(OWN)) or shutil.which("tabletd") or shutil.which(repository)
    if found is None:
        raise FileNotFoundError("there is no tabletd: neither on PATH nor in this package, and TABLETD names none")
    return found


def run() -> NoReturn:
    """Becomes the program that was installed with this package, with the words of the command line."""
    os.execv(OWN, ["tabletd", *sys.argv[1:]])


class Program:
    """A running `tabletd`. Its standard error is the caller's, and a Ctrl-C at the terminal doesn't reach it."""

    def __init__(self, program: str | None = None, words: Sequence[str] = (), recording: Recording | None = None) -> None:
        """Starts the program with these words, in a process group of its own, and takes over the recording of its
        frames. OSError if it can't be started."""
        command = [program or default_program(), *words]
        pipe = subprocess.PIPE
        try:
            self._child = subprocess.Popen(command, stdin=pipe, stdout=pipe, bufsize=0, process_group=0)
        except OSError as error:
            why = f"{error.strerror}, as a program to start (a folder or a gateway is opened by connect)"
            raise OSError(error.errno, why, command[0]) from None
        assert self._child.stdin is not None and self._child.stdout is not None
        self._recording = recording
        self._frames = Frames(self._child.stdout, self._child.stdin, recording)

    def ask(self, requests: bytes, count: int, timeout: float | None = None) -> bytes:
        """Sends the frames of so many requests, and gives the frames of the replies.

        RequestTimedOut after `timeout` seconds. ProgramEnded if the program ends instead of replying.
        """
        try:
            return self._frames.ask(requests, count, timeout)
        except StreamEnded:
            raise ProgramEnded(self.close()) from None

    def tell(self, request: bytes, timeout: float | None = None) -> None:
        """Sends the frame of a request, and doesn't wait for its reply."""
        with suppress(StreamEnded):
            self._frames.tell(request, timeout)

    def kill(self) -> None:
        """Kills the program at once, whatever it is doing."""
        if self._child.poll() is None:
            os.killpg(self._child.pid, signal.SIGKILL)

    def close(self) -> int:
        """Ends the input, waits for the program's end, and gives its exit status. It may be called again."""
        if self._child.poll() is None:
            self._frames.settle(PATIENCE)
        self._frames.close()
        if self._recording is not None:
            self._recording.close()
        try:
            return self._child.wait(PATIENCE)
        except subprocess.TimeoutExpired:
            self._child.kill()
            return self._child.wait()
