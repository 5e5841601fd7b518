#!/usr/bin/env python3
"""A bridge over a row store in memory, for tests without a cluster: the pipes and the messages of duqishom-bridge.

By chance, and by a seed, it also does what a cluster and other servers do: rows change between two requests, answers are
late, stamps are lost, the store fails, pipes end, and the bridge is killed. And it does what no bridge may do, so that a
test can see that this is found out.
"""

from __future__ import annotations

import argparse
import os
import random
import select
import sys
import threading
import time
from bisect import bisect_left, insort
from collections.abc import Callable
from dataclasses import dataclass, field
from pathlib import Path

OF_A_WRITE = 4096

# Stamps of a server's own range, if each has one: a lie.
RANGE = 1 << 20

# The only object of the rows, as recordings name it.
ROWS = b"\0\0\0\4rows"

LONGEST = 1 << 28

FAILED = b"\xff"


class Ended(Exception):
    """The pipes of a server end."""


def number(size: int, given: int) -> bytes:
    return given.to_bytes(size, "big")


def counted(given: bytes) -> bytes:
    return number(4, len(given)) + given


class Fields:
    """The fields of a body, from the front."""

    def __init__(self, body: bytes) -> None:
        self._body, self._at = body, 0

    def take(self, count: int) -> bytes:
        taken = self._body[self._at : self._at + count]
        self._at += count
        if len(taken) < count:
            raise Ended("a request is out of form")
        return taken

    def number(self, size: int) -> int:
        return int.from_bytes(self.take(size), "big")

    def field(self) -> bytes:
        return self.take(self.number(4))

    def end(self) -> None:
        if self._at != len(self._body):
            raise Ended("a request is out of form")


@dataclass
class Chances:
    """How likely each misfortune is at a request that it can befall."""

    race: float = 0.0
    delay: float = 0.0
    lose: float = 0.0
    fail: float = 0.0
    end: float = 0.0
    kill: float = 0.0
    lie: str = ""


class Record:
    """What a server's messages did and saw, in their order (`docs/CLUSTER.md`): the file of a recording, or none."""

    def __init__(self, path: Path | None) -> None:
        flags = os.O_WRONLY | os.O_CREAT | os.O_EXCL | os.O_NOFOLLOW
        self._file = None if path is None else os.open(path, flags, 0o600)

    def note(self, *parts: bytes) -> None:
        """Adds a frame. If it can't be added, that is the end of the bridge."""
        if self._file is None:
            return
        frame = counted(b"".join(parts))
        try:
            if os.write(self._file, frame) != len(frame):
                raise OSError("the recording can't grow")
        except OSError as failure:
            print(f"memory_bridge: {failure}", file=sys.stderr, flush=True)
            os._exit(70)

    def close(self) -> None:
        if self._file is not None:
            os.close(self._file)


@dataclass
class Store:
    """Rows, stamps and floors of all servers, and how often rows and floors were changed. Whoever uses it holds its
    lock."""

    values: dict[bytes, bytes] = field(default_factory=dict)
    texts: list[bytes] = field(default_factory=list)
    guards: dict[bytes, int] = field(default_factory=dict)
    floors: dict[str, int] = field(default_factory=dict)
    writes: int = 0
    changes: int = 0
    floor_changes: int = 0
    lock: threading.Lock = field(default_factory=threading.Lock)

    def put(self, text: bytes, value: bytes) -> None:
        if text not in self.values:
            insort(self.texts, text)
        self.values[text] = value

    def erase(self, text: bytes) -> None:
        if self.values.pop(text, None) is not None:
            del self.texts[bisect_left(self.texts, text)]

    def cells(self, texts: list[bytes]) -> bytes:
        told = [counted(text) + counted(self.values[text]) for text in texts]
        return number(4, len(told)) + b"".join(told)

    def fetch(self, prefix: bytes) -> bytes:
        at = end = bisect_left(self.texts, prefix)
        while end < len(self.texts) and self.texts[end].startswith(prefix):
            end += 1
        return number(8, self.guards.get(prefix, 0)) + self.cells(self.texts[at:end])

    def page(self, first: bytes, most: int) -> bytes:
        at = bisect_left(self.texts, first)
        return number(1, at + most >= len(self.texts)) + self.cells(self.texts[at : at + most])


class Bridge:
    """Answers requests, with misfortunes."""

    def __init__(self, chances: Chances, seed: int) -> None:
        self._chances = chances
        self._random = random.Random(seed)
        self.store = Store()

    def _happens(self, chance: float) -> bool:
        return chance > 0 and self._random.random() < chance

    def answer(self, server: str, body: bytes, record: Record) -> bytes | None:
        """The body of the reply to a body, or None if it needs none. Ended if there is to be none."""
        if body == b"\6":
            record.note(body)
            return None
        if self._chances.delay > 0:
            time.sleep(self._random.uniform(0, self._chances.delay))
        with self.store.lock:
            if self._happens(self._chances.kill):
                print("memory_bridge: killed", file=sys.stderr, flush=True)
                os._exit(9)
            if self._happens(self._chances.end):
                raise Ended("by chance, before the request")
            reply = self._answered(server, Fields(body), record)
            if self._happens(self._chances.end):
                raise Ended("by chance, behind the request")
        return reply

    def _answered(self, server: str, fields: Fields, record: Record) -> bytes:
        code = fields.number(1)
        requests: dict[int, Callable[[str, Fields, Record], bytes]] = {
            1: self._fetch, 2: self._swap, 3: self._page, 4: self._draw, 5: self._publish
        }  # fmt: skip
        if code not in requests:
            raise Ended("a request is out of form")
        failed = code != 4 and self._happens(self._chances.fail)
        reply = FAILED if failed else requests[code](server, fields, record)
        if reply == FAILED:
            record.note(FAILED, number(1, code))
            return reply
        return number(1, code | 0x80) + reply

    def _place(self) -> bytes:
        """Where rows are now, as recordings have it."""
        return ROWS + number(8, self.store.changes)

    def _fetch(self, _: str, fields: Fields, record: Record) -> bytes:
        prefix = fields.field()
        fields.end()
        record.note(b"\1", counted(prefix), number(8, self.store.guards.get(prefix, 0)), self._place())
        return self.store.fetch(prefix)

    def _swap(self, _: str, fields: Fields, record: Record) -> bytes:
        prefix, guard = fields.field(), fields.number(8)
        edits: list[tuple[bytes, bytes | None]] = []
        for _each in range(fields.number(4)):
            is_put = fields.number(1) == 1
            edits.append((fields.field(), fields.field() if is_put else None))
        fields.end()
        if not all(text.startswith(prefix) for text, _value in edits):
            raise Ended("a request is out of form")
        guards = self.store.guards
        if self._happens(self._chances.race):
            self.store.changes += 1
            record.note(b"\7", counted(prefix), number(8, guards.get(prefix, 0)), self._place())
            guards[prefix] = guards.get(prefix, 0) + 1
        texts = [number(1, value is not None) + counted(text) for text, value in edits]
        record.note(b"\2", counted(prefix), number(8, guard), number(4, len(texts)), *texts)
        if guards.get(prefix, 0) != guard and self._chances.lie != "guards":
            record.note(b"\x82\1")
            return b"\1"
        self.store.changes += 1
        guards[prefix] = guards.get(prefix, 0) + 1
        for text, value in edits:
            if value is None:
                self.store.erase(text)
            else:
                self.store.put(text, value)
        record.note(b"\x82\0", self._place())
        return b"\0"

    def _page(self, _: str, fields: Fields, record: Record) -> bytes:
        first, most = fields.field(), fields.number(4)
        fields.end()
        record.note(b"\3", counted(first), number(4, 1), self._place())
        return self.store.page(first, most)

    def _draw(self, server: str, fields: Fields, record: Record) -> bytes:
        fields.end()
        self.store.writes += 1
        if self._happens(self._chances.lose):
            return FAILED
        stamp = self.store.writes * OF_A_WRITE
        if self._chances.lie == "stamps":
            stamp += RANGE * (1 + int(server.strip("w")))
        record.note(b"\4", number(8, stamp))
        return number(8, stamp)

    def _publish(self, server: str, fields: Fields, record: Record) -> bytes:
        floor = fields.number(8)
        fields.end()
        floors, written = self.store.floors, 0
        if floor > floors[server]:
            self.store.floor_changes += 1
            floors[server], written = floor, self.store.floor_changes
        least = floor if self._chances.lie == "floors" else min(floor, *floors.values())
        record.note(b"\5", number(8, floor), number(8, least), number(8, written), number(8, self.store.floor_changes))
        return number(8, least)


class Pair:
    """Two pipes, one for requests and one for replies."""

    def __init__(self, folder: Path, name: str) -> None:
        self._paths = [folder / f"{name}.to", folder / f"{name}.from"]
        for path in self._paths:
            path.unlink(missing_ok=True)
            os.mkfifo(path, 0o600)
        # Neither waits for the server. Its end is seen at the pipe of requests, once it has opened it
        self.input = os.open(self._paths[0], os.O_RDONLY | os.O_NONBLOCK)
        self._output = os.open(self._paths[1], os.O_RDWR | os.O_NONBLOCK)
        self._came = bytearray()

    def read_some(self) -> None:
        piece = os.read(self.input, 1 << 16)
        if not piece:
            raise Ended("the server has ended")
        self._came += piece

    def next(self) -> bytes | None:
        """The next whole body, which is taken."""
        length = int.from_bytes(self._came[:4], "big")
        if length > LONGEST:
            raise Ended("a request is out of form")
        if len(self._came) < 4 + length or len(self._came) < 4:
            return None
        body = bytes(self._came[4 : 4 + length])
        del self._came[: 4 + length]
        return body

    def put(self, body: bytes, stop: int) -> None:
        left, at = counted(body), 0
        while at < len(left):
            try:
                at += os.write(self._output, left[at : at + (1 << 18)])
            except BlockingIOError:
                waits = select.poll()
                waits.register(self._output, select.POLLOUT)
                waits.register(self.input, 0)
                waits.register(stop, select.POLLIN)
                if any(place != self._output for place, _ in waits.poll()):
                    raise Ended("the server has ended") from None

    def close(self) -> None:
        os.close(self.input)
        os.close(self._output)
        for path in self._paths:
            path.unlink(missing_ok=True)


class Server:
    """A server: a folder with its pipes, and the thread that answers it, one request after the other."""

    def __init__(self, bridge: Bridge, folder: Path, record: Path | None) -> None:
        self._bridge, self._name, self._record = bridge, folder.name, Record(record)
        self._pairs = [Pair(folder, "rows"), Pair(folder, "stamps")]
        self._stop, self._stops = os.pipe()
        self._thread = threading.Thread(target=self._run, daemon=True)
        self._thread.start()

    def close(self) -> None:
        """Its pipes are closed before this returns."""
        os.close(self._stops)
        self._thread.join()
        os.close(self._stop)

    def _run(self) -> None:
        waits = select.poll()
        by_input = {pair.input: pair for pair in self._pairs}
        for place in (*by_input, self._stop):
            waits.register(place, select.POLLIN)
        try:
            while self._stop not in (ready := [place for place, _ in waits.poll()]):
                for place in ready:
                    self._serve(by_input[place])
        except Ended as why:
            print(f"memory_bridge: {self._name}: {why}", file=sys.stderr, flush=True)
        for pair in self._pairs:
            pair.close()
        self._record.close()

    def _serve(self, pair: Pair) -> None:
        pair.read_some()
        while (body := pair.next()) is not None:
            reply = self._bridge.answer(self._name, body, self._record)
            if reply is not None:
                pair.put(reply, self._stop)


def main() -> int:
    parser = argparse.ArgumentParser(prog="memory_bridge.py", description=__doc__)
    parser.add_argument("--servers", metavar="FOLDER", nargs="+", default=[], help="the folders of servers, which get pipes")
    more = "each line of the standard input is a folder, or one, a tab and the file of its recording, and the end of it is the end"
    parser.add_argument("--more", action="store_true", help=more)
    parser.add_argument("--seed", type=int, default=0)
    parser.add_argument("--race", type=float, default=0.0, metavar="P", help="another server changes the row of a Swap before it")
    parser.add_argument("--delay", type=float, default=0.0, metavar="SECONDS", help="the longest pause before an answer")
    parser.add_argument("--lose", type=float, default=0.0, metavar="P", help="a stamp is drawn and told to nobody")
    parser.add_argument("--fail", type=float, default=0.0, metavar="P", help="the store fails before a request")
    parser.add_argument("--end", type=float, default=0.0, metavar="P", help="a server's pipes end, before or behind a request")
    parser.add_argument("--kill", type=float, default=0.0, metavar="P", help="the bridge ends before a request")
    lies = "stamps of each server's own range, Swaps with any guard, or floors of the server alone"
    parser.add_argument("--lie", choices=["", "stamps", "guards", "floors"], default="", help=lies)
    options = parser.parse_args()
    chances = Chances(options.race, options.delay, options.lose, options.fail, options.end, options.kill, options.lie)
    bridge, servers = Bridge(chances, options.seed), dict[str, Server]()

    def take(line: str) -> None:
        place, _, record = line.partition("\t")
        folder = Path(place)
        if folder.name in servers:
            servers.pop(folder.name).close()
        bridge.store.floors.setdefault(folder.name, 0)
        servers[folder.name] = Server(bridge, folder, Path(record) if record else None)

    for folder in options.servers:
        take(folder)
    print("memory_bridge: ready", file=sys.stderr, flush=True)
    if options.more:
        for line in iter(sys.stdin.readline, ""):
            take(line.rstrip("\n"))
    else:
        threading.Event().wait()
    return 0


if __name__ == "__main__":
    sys.exit(main())
