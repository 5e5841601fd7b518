"""A server's end of a bridge's pipes, which asks for rows and stamps as `tabletd --rows` does."""

from __future__ import annotations

import os
import select
import time
from collections.abc import Mapping
from pathlib import Path

from duqishom.fields import counted, number

# The pipes in the order in which a server opens them, with the way in which it does.
PIPES = (("rows.to", os.O_WRONLY), ("rows.from", os.O_RDONLY), ("stamps.to", os.O_WRONLY), ("stamps.from", os.O_RDONLY))

# The seconds for which a bridge is waited for.
PATIENCE = 60


class EngineFailed(Exception):
    """The bridge has answered FF."""


def have_pipes(folder: Path) -> None:
    """Waits until the last pipe of a folder is there."""
    end = time.monotonic() + PATIENCE
    while not (folder / "stamps.from").exists():
        if time.monotonic() > end:
            raise TimeoutError(folder)
        time.sleep(0.01)


def take(reply: bytes, count: int) -> tuple[bytes, bytes]:
    """The first bytes, and the rest."""
    if len(reply) < count:
        raise ValueError(reply)
    return reply[:count], reply[count:]


def fields_of(reply: bytes, count: int) -> list[bytes]:
    """So many fields, which are all there is."""
    fields, at = [], 0
    for _ in range(count):
        end = at + 4 + int.from_bytes(reply[at : at + 4], "big")
        if len(reply) < max(end, at + 4):
            raise ValueError(reply[at:])
        fields.append(reply[at + 4 : end])
        at = end
    if at != len(reply):
        raise ValueError(reply[at:])
    return fields


def cells_of(reply: bytes) -> dict[bytes, bytes]:
    """A count, and the keys with their values, in their order."""
    count, rest = take(reply, 4)
    fields = fields_of(rest, 2 * int.from_bytes(count, "big"))
    texts = fields[::2]
    assert texts == sorted(set(texts)), texts
    return dict(zip(texts, fields[1::2]))


class Server:
    """A stand-in for a server, at the pipes of a folder."""

    def __init__(self, folder: Path) -> None:
        have_pipes(folder)
        self._pipes = {name: os.open(folder / name, way) for name, way in PIPES}

    def ask(self, pair: str, body: bytes) -> bytes:
        """Asks through a pair of pipes, and gives the body of the reply. EOFError if the bridge ends instead."""
        try:
            self._write(pair, counted(body))
        except BrokenPipeError:
            raise EOFError from None
        length = int.from_bytes(self._read(pair, 4), "big")
        reply = self._read(pair, length)
        if reply == b"\xff":
            raise EngineFailed
        assert reply[0] == body[0] | 0x80, reply
        return reply[1:]

    def _write(self, pair: str, frame: bytes) -> None:
        at = 0
        while at < len(frame):
            at += os.write(self._pipes[f"{pair}.to"], frame[at : at + (1 << 16)])

    def _read(self, pair: str, count: int) -> bytes:
        came = bytearray()
        while len(came) < count:
            if not select.select([self._pipes[f"{pair}.from"]], [], [], PATIENCE)[0]:
                raise TimeoutError
            piece = os.read(self._pipes[f"{pair}.from"], min(1 << 18, count - len(came)))
            if not piece:
                raise EOFError
            came += piece
        return bytes(came)

    def begin(self) -> None:
        """Says that a request begins."""
        self._write("rows", counted(b"\6"))

    def fetch(self, prefix: bytes) -> tuple[int, dict[bytes, bytes]]:
        """The guard of a row, and its keys with their values."""
        guard, rest = take(self.ask("rows", b"\1" + counted(prefix)), 8)
        return int.from_bytes(guard, "big"), cells_of(rest)

    def swap(self, prefix: bytes, guard: int, edits: Mapping[bytes, bytes | None]) -> bool:
        """Makes edits of a row, if it has this guard: whether it had."""
        told = [b"\0" + counted(text) if value is None else b"\1" + counted(text) + counted(value) for text, value in edits.items()]
        reply = self.ask("rows", b"\2" + counted(prefix) + number(8, guard) + number(4, len(edits)) + b"".join(told))
        assert reply in (b"\0", b"\1"), reply
        return reply == b"\0"

    def page(self, first: bytes, most: int) -> tuple[bool, dict[bytes, bytes]]:
        """Whether no key is left behind them, and so many keys from one on."""
        is_last, rest = take(self.ask("rows", b"\3" + counted(first) + number(4, most)), 1)
        return is_last == b"\1", cells_of(rest)

    def draw(self) -> int:
        return int.from_bytes(self.ask("stamps", b"\4"), "big")

    def publish(self, floor: int) -> int:
        return int.from_bytes(self.ask("stamps", b"\5" + number(8, floor)), "big")

    def close(self) -> None:
        for pipe in self._pipes.values():
            os.close(pipe)
        self._pipes = {}


def prefix_of(row: bytes) -> bytes:
    """The bytes with which each key text of a row begins, and no other row's."""
    return row.replace(b"\0", b"\0\xff") + b"\0\0"
