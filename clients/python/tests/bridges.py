"""Bridges under test, and what each has to do, whatever keeps the rows."""

from __future__ import annotations

import os
import random
import subprocess
import tempfile
import threading
import time
import unittest
from collections.abc import Callable, Sequence
from pathlib import Path

from duqishom.messages import Kind, edits_at, mapped, objects_of_page, page_from, seen_in
from tests.gateways import folder_of
from tests.pipes import Server, prefix_of

# The longest wait in seconds.
PATIENCE = 60


def key_of(row: bytes, column: bytes = b"data", stamp: int = 1, family: bytes = b"c") -> bytes:
    """The text of a key."""
    return prefix_of(row) + family + b"\0\0" + column + b"\0\0" + ((1 << 64) - 1 - stamp).to_bytes(8, "big")


class Bridge:
    """A bridge in a process of its own, with folders of servers that it is told of."""

    def __init__(self, case: unittest.TestCase, command: Sequence[str]) -> None:
        self._case = case
        folder = tempfile.TemporaryDirectory()
        case.addCleanup(folder.cleanup)
        self._folder, self._count = Path(folder.name), 0
        self.process = subprocess.Popen([*command, "--more"], stdin=subprocess.PIPE, stderr=subprocess.DEVNULL, bufsize=0)
        case.addCleanup(self.end)

    def folder(self, name: str, record: Path | None = None) -> Path:
        """A new folder for the server of a name, of which the bridge is told, and of the file of its recording."""
        self._count += 1
        place = self._folder / str(self._count) / name
        place.mkdir(parents=True)
        assert self.process.stdin is not None
        self.process.stdin.write(f"{place}\n".encode() if record is None else f"{place}\t{record}\n".encode())
        return place

    def server(self, name: str, record: Path | None = None) -> Server:
        """A server of a name, which takes the place of the one before."""
        server = Server(self.folder(name, record))
        self._case.addCleanup(server.close)
        return server

    def kill(self) -> None:
        self.process.kill()
        self.process.wait(PATIENCE)

    def end(self) -> int:
        """Ends its input, and returns its status."""
        assert self.process.stdin is not None
        self.process.stdin.close()
        return self.process.wait(PATIENCE)


def together(*works: Callable[[], None]) -> None:
    """Does all at once, each in a thread. The first failure is raised."""
    failures: list[BaseException] = []

    def done(work: Callable[[], None]) -> None:
        try:
            work()
        except BaseException as failure:
            failures.append(failure)

    threads = [threading.Thread(target=done, args=(work,)) for work in works]
    for thread in threads:
        thread.start()
    for thread in threads:
        thread.join()
    if failures:
        raise failures[0]


class BridgeCases:
    """What any bridge does. Rows of tests begin so that no two tests share one."""

    def bridge(self, machine: str = "one") -> Bridge:
        raise NotImplementedError

    @property
    def case(self) -> unittest.TestCase:
        assert isinstance(self, unittest.TestCase)
        return self

    def row(self, name: bytes = b"") -> bytes:
        return b"m" + os.urandom(6) + name

    def test_row(self) -> None:
        row, server = self.row(b"\0x"), self.bridge().server("w0")
        prefix, first, second = prefix_of(row), key_of(row), key_of(row, b"lock")
        other = prefix_of(row + b"\0")
        steps: list[tuple[int, dict[bytes, bytes | None], bool, dict[bytes, bytes]]] = [
            (0, {second: b"", first: b"1"}, True, {first: b"1", second: b""}),
            (0, {first: b"2"}, False, {first: b"1", second: b""}),
            (2, {first: b"2"}, False, {first: b"1", second: b""}),
            (1, {first: b"2", second: None}, True, {first: b"2"}),
            (2, {first: None, second: None}, True, {}),
            (0, {first: b"3"}, False, {}),
            (3, {}, True, {}),
            (4, {first: b"3"}, True, {first: b"3"}),
        ]
        self.case.assertEqual(server.fetch(prefix), (0, {}))
        guard = 0
        for given, edits, is_done, cells in steps:
            self.case.assertEqual(server.swap(prefix, given, edits), is_done)
            guard += is_done
            self.case.assertEqual(server.fetch(prefix), (guard, cells))
        self.case.assertEqual(server.fetch(other), (0, {}))

    def test_recording(self) -> None:
        record = Path(folder_of(self.case), "messages")
        row, server = self.row(), self.bridge().server("w0", record)
        prefix, text, other = prefix_of(row), key_of(row), key_of(row, b"lock")
        server.begin()
        self.case.assertEqual(server.fetch(prefix), (0, {}))
        self.case.assertTrue(server.swap(prefix, 0, {text: b"1", other: None}))
        server.begin()
        self.case.assertFalse(server.swap(prefix, 0, {text: b"2"}))
        server.begin()
        server.page(text, 1)
        stamp = server.draw()
        server.publish(7)
        server.publish(5)
        server.close()
        data = mapped(record)
        made, raced, read, drawn, floor, lower = seen_in(data)
        self.case.assertEqual((made.prefix, made.guard, made.changes, made.has_edits), (prefix, 0, True, True))
        self.case.assertEqual(edits_at(data, made.at), [(True, text), (False, other)])
        self.case.assertEqual((raced.is_raced, raced.changes), (True, False))
        self.case.assertEqual((drawn.kind, drawn.version, drawn.changes), (Kind.STAMP, stamp, True))
        self.case.assertEqual((floor.kind, floor.version >= floor.written > 0, lower.written), (Kind.FLOOR, True, 0))
        self.case.assertEqual((read.pages, page_from(data, read.pages[0])), ([read.at], text))
        # The change made the version that was read after it
        self.case.assertEqual(objects_of_page(data, read.at)[0], (made.object, made.version))

    def test_long_row(self) -> None:
        row, server = os.urandom(3990) + bytes(10), self.bridge().server("w0")
        prefix, family = prefix_of(row), b"f" * 64
        large: dict[bytes, bytes | None] = {key_of(row, b"data", stamp, family): bytes(65_536) for stamp in range(1, 65)}
        self.case.assertTrue(server.swap(prefix, 0, large))
        self.case.assertEqual(server.fetch(prefix), (1, dict(sorted(large.items()))))
        many: dict[bytes, bytes | None] = {key_of(row, b"write", stamp, family): b"w" for stamp in range(1, 3001)}
        self.case.assertTrue(server.swap(prefix, 1, many))
        guard, cells = server.fetch(prefix)
        self.case.assertEqual((guard, len(cells)), (2, 3064))
        self.case.assertTrue(server.swap(prefix, 2, {text: None for text in cells}))
        self.case.assertEqual(server.fetch(prefix), (3, {}))

    def test_writers_of_one_row(self) -> None:
        row, bridge = self.row(), self.bridge()
        prefix, text = prefix_of(row), key_of(row)

        def count_up(server: Server) -> Callable[[], None]:
            def work() -> None:
                for _ in range(30):
                    while True:
                        guard, cells = server.fetch(prefix)
                        if server.swap(prefix, guard, {text: b"%d" % (int(cells.get(text, b"0")) + 1)}):
                            break

            return work

        together(*(count_up(bridge.server(name)) for name in ("w0", "w1", "w2")))
        self.case.assertEqual(bridge.server("w0").fetch(prefix), (90, {text: b"90"}))

    def test_pages(self) -> None:
        server, end = self.bridge().server("w0"), os.urandom(4)
        for row in (b"a", b"b", b"b\0", b"b0", b"c", b"m", b"mm", b"s", b"t", b"z", b"\xff\xff"):
            edits: dict[bytes, bytes | None] = {key_of(row + end, b"data", stamp): row for stamp in range(1, 4)}
            self.case.assertTrue(server.swap(prefix_of(row + end), 0, edits))
        is_last, cells = server.page(b"", 1_000_000)
        texts = list(cells)
        self.case.assertTrue(is_last and len(texts) >= 33)
        for most in (7, 10, len(texts) - 1, len(texts), len(texts) + 1):
            at, found = 0, dict[bytes, bytes]()
            while True:
                is_last, page = server.page(texts[at], most)
                found.update(page)
                at += len(page)
                self.case.assertEqual((len(page), is_last), (min(most, len(texts) - at + len(page)), at == len(texts)))
                if is_last:
                    break
            self.case.assertEqual(found, cells)
        for text, after in zip(texts[:-1][-40:], texts[1:][-40:]):
            self.case.assertEqual(list(server.page(text, 1)[1]), [text])
            self.case.assertEqual(list(server.page(text + b"\0", 1)[1]), [after])
        self.case.assertEqual(server.page(texts[-1] + b"\0", 1), (True, {}))
        self.case.assertEqual(server.page(texts[-1], 1), (True, {texts[-1]: cells[texts[-1]]}))

    def test_page_of_one_moment(self) -> None:
        # The second is put before the first is erased, and the other way round: so one of them is there
        first, second = b"a" + os.urandom(6), b"z" + os.urandom(6)
        bridge, rows = self.bridge(), (first, second)
        reader, writer, is_over = bridge.server("w0"), bridge.server("w1"), threading.Event()
        seen = set[tuple[bool, ...]]()
        self.case.assertTrue(writer.swap(prefix_of(first), 0, {key_of(first): b"x"}))

        def read() -> None:
            reads, end = 0, time.monotonic() + PATIENCE
            while reads < 100 or (len(seen) < 2 and time.monotonic() < end):
                _, cells = reader.page(key_of(first), 1_000_000)
                seen.add(tuple(key_of(row) in cells for row in rows))
                reads += 1
            is_over.set()

        def write() -> None:
            guards, turn = [1, 0], 0
            while not is_over.is_set():
                for row, edit in ((1 - turn, b"x"), (turn, None)):
                    assert writer.swap(prefix_of(rows[row]), guards[row], {key_of(rows[row]): edit})
                    guards[row] += 1
                turn = 1 - turn
                time.sleep(random.uniform(0, 0.02))

        together(read, write)
        self.case.assertNotIn((False, False), seen)
        self.case.assertGreaterEqual(len(seen), 2)

    def stamps_of(self, servers: Sequence[Server]) -> None:
        """Each stamp is above all that anyone was given before its draw began."""
        drawn: list[tuple[float, float, int]] = []

        def draw(server: Server) -> Callable[[], None]:
            def work() -> None:
                for _ in range(50):
                    began = time.monotonic()
                    stamp = server.draw()
                    drawn.append((began, time.monotonic(), stamp))

            return work

        together(*map(draw, servers))
        self.case.assertEqual(len({stamp for _, _, stamp in drawn}), 50 * len(servers))
        for began, _, stamp in drawn:
            self.case.assertGreater(stamp, max((other for _, ended, other in drawn if ended < began), default=0))

    def test_stamps(self) -> None:
        bridge = self.bridge()
        self.stamps_of([bridge.server(f"w{place}") for place in range(8)])

    def test_floors(self) -> None:
        bridge = self.bridge()
        one, two = bridge.server("w0"), bridge.server("w1")
        self.case.assertEqual([one.publish(7), two.publish(5), one.publish(9), one.publish(3), two.publish(20)], [0, 5, 5, 3, 9])
        after = bridge.server("w0")
        self.case.assertEqual([after.publish(1), after.publish(30), two.publish(40)], [1, 20, 30])
        self.case.assertEqual(bridge.server("w2").publish(0), 0)

    def test_successor(self) -> None:
        bridge, row = self.bridge(), self.row()
        before, other = bridge.server("w0"), bridge.server("w1")
        self.case.assertTrue(before.swap(prefix_of(row), 0, {}))
        after = bridge.server("w0")
        for pair, body in (("rows", b"\1" + bytes(4)), ("stamps", b"\4")):
            with self.case.assertRaises(EOFError):
                before.ask(pair, body)
        self.case.assertEqual((after.fetch(prefix_of(row))[0], other.fetch(prefix_of(row))[0]), (1, 1))

    def test_out_of_form(self) -> None:
        bridge = self.bridge()
        good, prefix = bridge.server("good"), prefix_of(b"m")
        bodies = (
            b"",
            b"\0",
            b"\6\0",
            b"\7",
            b"\1",
            b"\1" + bytes(5),
            b"\2" + len(prefix).to_bytes(4, "big") + prefix + bytes(8) + b"\0\0\0\1\1\0\0\0\1nx",
            b"\3" + bytes(7),
            b"\4\0",
            b"\5" + bytes(7),
        )
        for body in bodies:
            bad = bridge.server("bad")
            with self.case.assertRaises(EOFError, msg=body.hex()):
                bad.ask("rows", body)
        self.case.assertGreater(good.draw(), 0)

    def test_end(self) -> None:
        bridge = self.bridge()
        server = bridge.server("w0")
        self.case.assertGreater(server.draw(), 0)
        self.case.assertEqual(bridge.end(), 0)
        with self.case.assertRaises(EOFError):
            server.draw()
