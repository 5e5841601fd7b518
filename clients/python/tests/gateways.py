"""A gateway under test, and connections that send it frames."""

from __future__ import annotations

import itertools
import json
import os
import signal
import socket
import subprocess
import sys
import tempfile
import time
import unittest
from collections.abc import Callable, Iterator, Sequence
from contextlib import contextmanager
from pathlib import Path
from typing import Any

from duqishom.fields import counted, number

# The longest wait of a test in seconds.
PATIENCE = 60
PACKAGE = Path(__file__).resolve().parents[1]
COLUMN = b"c"

# A user and a group without rights.
NOBODY = 65_534


def frame(body: bytes) -> bytes:
    return counted(body)


def set_(start: bytes, row: bytes, value: bytes) -> bytes:
    return frame(b"\x03" + start + counted(row) + counted(COLUMN) + counted(value))


def get(start: bytes, row: bytes) -> bytes:
    return frame(b"\x02" + start + counted(row) + counted(COLUMN))


def scan(start: bytes, bounds: bytes = b"\0\0\0", cells: int = 1000, keys: bytes = b"\0") -> bytes:
    """A scan, by the bytes of its bounds: the cell after which it begins, its last row, and its family."""
    return frame(b"\x31" + start + keys + bounds + number(4, cells))


def raw(row: bytes, column: int) -> bytes:
    return frame(b"\x11" + counted(row) + counted(COLUMN) + number(1, column) + number(8, 0) + number(8, (1 << 63) - 1))


def step(start: bytes) -> bytes:
    return frame(b"\x04" + start)


def stop(start: bytes) -> bytes:
    return frame(b"\x05" + start)


def clean_begin(row: bytes) -> bytes:
    return frame(b"\x06" + counted(row) + counted(COLUMN))


def clean_step(cleaner: bytes) -> bytes:
    return frame(b"\x07" + cleaner)


def collect_step(collector: bytes, visits: int) -> bytes:
    return frame(b"\x09" + collector + number(4, visits))


def of_tablet(code: int, tablet: int) -> bytes:
    return frame(number(1, code) + number(4, tablet))


def commit(start: bytes, *writes: tuple[bytes, bytes | None]) -> bytes:
    """A Commit of values, or of deletions, to rows."""
    changes = [counted(row) + counted(COLUMN) + (b"\0" if value is None else b"\1" + counted(value)) for row, value in writes]
    return frame(b"\x32" + start + number(4, len(writes)) + b"".join(changes))


def read(start: bytes, *rows: bytes, stays: bytes = b"\0") -> bytes:
    """A Read of rows, by whether the session stays open."""
    return frame(b"\x33" + start + stays + number(4, len(rows)) + b"".join(counted(row) + counted(COLUMN) for row in rows))


BEGIN, COLLECT_BEGIN, SWEEP, CHECKPOINT = frame(b"\x01"), frame(b"\x08"), frame(b"\x0f"), frame(b"\x12")
STATISTICS, CLIENTS = frame(b"\x70"), frame(b"\x72")

# The start by which a Commit or a Read begins a session.
NEW = bytes(8)


class Wire:
    """A connection to a gateway, at a path or at a port of this machine."""

    def __init__(self, address: str | int) -> None:
        self.socket = socket.socket(socket.AF_UNIX if isinstance(address, str) else socket.AF_INET)
        try:
            self.socket.connect(address if isinstance(address, str) else ("127.0.0.1", address))
        except OSError:
            self.close()
            raise
        self.socket.settimeout(PATIENCE)
        self._came = b""

    def send(self, frames: bytes) -> None:
        self.socket.sendall(frames)

    def reply(self) -> bytes:
        """The body of the next reply. EOFError if the connection ends instead."""
        length = int.from_bytes(self._take(4), "big")
        return self._take(length)

    def _take(self, count: int) -> bytes:
        while len(self._came) < count:
            piece = self.socket.recv(1 << 16)
            if not piece:
                raise EOFError
            self._came += piece
        taken, self._came = self._came[:count], self._came[count:]
        return taken

    def ask(self, frames: bytes) -> bytes:
        self.send(frames)
        return self.reply()

    def begin(self) -> bytes:
        """Begins a session, and returns the eight bytes of its start."""
        reply = self.ask(BEGIN)
        assert reply[0] == 0x81, reply
        return reply[1:]

    def commit(self, row: bytes, value: bytes) -> bytes:
        """Writes a cell in a session of its own, and returns the answer to its last step."""
        start = self.begin()
        self.send(set_(start, row, value) + 3 * step(start))
        return [self.reply() for _ in range(4)][3]

    def read(self, row: bytes) -> bytes:
        """The reply to a read of a cell in a new session."""
        start = self.begin()
        self.send(get(start, row) + stop(start))
        return [self.reply() for _ in range(2)][0]

    def read_cleaned(self, row: bytes) -> bytes:
        """The reply to a read of a cell, after a lock on it is cleaned."""
        reply = self.read(row)
        if reply[:2] == b"\x82\x02":
            cleaner = self.ask(clean_begin(row))[2:10]
            if cleaner:
                self.send(2 * clean_step(cleaner))
                self.reply(), self.reply()
            reply = self.read(row)
        return reply

    def told(self) -> list[bytes]:
        """What a client was told before the answer to a Statistics that it asks now."""
        self.send(STATISTICS)
        return list(itertools.takewhile(lambda body: body[0] != 0xF0, iter(self.reply, b"")))

    def close(self) -> None:
        self.socket.close()


def listens(path: str) -> bool:
    """Whether a socket at a path takes connections. It has its path a moment before."""
    # The fourth word of a line is the flags of a socket: this bit says that it listens
    sockets = [line.split() for line in Path("/proc/net/unix").read_text().splitlines()[1:]]
    return any(words[-1] == path and int(words[3], 16) & 1 << 16 for words in sockets)


class Gateway:
    """A gateway in a process of its own, at a socket in a folder of its own."""

    def __init__(
        self, case: unittest.TestCase, words: Sequence[str] = (), path: str | None = None, before: Sequence[str] = ()
    ) -> None:
        """Starts it. Its command goes after the words `before`."""
        folder = tempfile.TemporaryDirectory()
        case.addCleanup(folder.cleanup)
        self.path = path or f"{folder.name}/socket"
        self.admin = f"{folder.name}/admin"
        self._case = case
        self.process = subprocess.Popen(
            [*before, *command_of(self.path), *(word.replace("ADMIN", self.admin) for word in words)],
            cwd=PACKAGE,
            stderr=subprocess.PIPE,
            stdout=subprocess.DEVNULL,
            text=True,
        )
        case.addCleanup(self.end)
        self.first = self.line()

    def line(self) -> str:
        """The next line of the standard error."""
        assert self.process.stderr is not None
        return self.process.stderr.readline().rstrip("\n")

    def wire(self, address: str | int | None = None) -> Wire:
        wire = Wire(address or self.path)
        self._case.addCleanup(wire.close)
        return wire

    def statistics(self) -> dict[str, Any]:
        wire = self.wire()
        reply = wire.ask(STATISTICS)
        wire.close()
        told: dict[str, Any] = json.loads(reply[1:])
        return told

    def sessions(self) -> list[int]:
        """How many sessions each client has, the fewest first. The first is of the connection that asks."""
        wire = self.wire()
        told = json.loads(wire.ask(CLIENTS)[1:])
        wire.close()
        return sorted(int(client["sessions"]) for client in told["clients"])

    def program(self) -> int:
        """The process of the program."""
        return int(self.statistics()["program"]["process"])

    def memory(self) -> int:
        """The gateway's memory in bytes."""
        return int(Path(f"/proc/{self.process.pid}/statm").read_text().split()[1]) * os.sysconf("SC_PAGE_SIZE")

    def stop(self) -> int:
        """Asks the gateway to end, and returns its status."""
        self.process.send_signal(signal.SIGTERM)
        return self.process.wait(PATIENCE)

    def kill(self) -> None:
        self.process.kill()
        self.process.wait(PATIENCE)

    def end(self) -> None:
        if self.process.poll() is None:
            self.process.kill()
            self.process.wait(PATIENCE)
        assert self.process.stderr is not None
        self.process.stderr.close()


def command_of(path: str) -> list[str]:
    """The command of a gateway at a path."""
    return [sys.executable, "-m", "duqishom", "serve", "--socket", path]


def folder_of(case: unittest.TestCase) -> str:
    """A folder that exists for one test."""
    folder = tempfile.TemporaryDirectory()
    case.addCleanup(folder.cleanup)
    return folder.name


def free_port() -> int:
    """A port at which nobody listens."""
    with socket.create_server(("127.0.0.1", 0)) as free:
        return int(free.getsockname()[1])


@contextmanager
def as_user(user: int, group: int = NOBODY) -> Iterator[None]:
    """Makes this process, which is root's, connect as another user with one group."""
    own, groups = os.getegid(), os.getgroups()
    os.setgroups([])
    os.setegid(group)
    os.seteuid(user)
    try:
        yield
    finally:
        os.seteuid(0)
        os.setegid(own)
        os.setgroups(groups)


def until(holds: Callable[[], object]) -> bool:
    """Waits until something holds. Returns whether it held in time."""
    end = time.monotonic() + PATIENCE
    while not holds():
        if time.monotonic() > end:
            return False
        time.sleep(0.01)
    return True


STAND_IN = """#!{python}
import sys, time
asked = []
def plain(body):
    rest = {{1: len(asked).to_bytes(8, "big"), 4: bytes((3,)) + bytes(8), 8: bytes(16)}}.get(body[0], b"")
    return bytes((body[0] | 128,)) + rest
def answer(body):
    {answer}
def answered(body):
    asked.append(body[0])
    return answer(body)
while head := sys.stdin.buffer.read(4):
    client = sys.stdin.buffer.read(4)
    body = sys.stdin.buffer.read(int.from_bytes(head, "big") - 4)
    reply = client + (answered(body) if body else bytes((0x85,)))
    sys.stdout.buffer.write(len(reply).to_bytes(4, "big") + reply)
    sys.stdout.buffer.flush()
"""


def stand_in(case: unittest.TestCase, answer: str) -> str:
    """A program with `--clients` that answers each body, without the client's number, by this line of Python. `asked`
    has the operations so far, and `plain` an accepting reply. It answers by itself that a client is gone."""
    place = Path(folder_of(case), "stand_in")
    place.write_text(STAND_IN.format(python=sys.executable, answer=answer))
    place.chmod(0o755)
    return str(place)
