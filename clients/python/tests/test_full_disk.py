"""A full disk: a server with a log refuses to write, and goes on."""

from __future__ import annotations

import os
import resource
import subprocess
import unittest
from collections.abc import Callable
from pathlib import Path

from duqishom import Committed, Device, Qualifier, Store, Transaction, Value
from duqishom.files import log_of
from duqishom.folders import read_root
from duqishom.program import default_program
from duqishom.protocol import Checkpoint, More, Sweep
from tests.folders import FolderTest

FAMILY = b"c"

# So many stamps need two further marks of the oracle, each in a record of the log. There is room for these where there
# is none for a step.
STAMPS = 2_500

# The bytes in which a small disk's room is counted.
PAGE = 4_096


class FullDisk(FolderTest):
    """A store whose disk gets full, and has room again."""

    def setUp(self) -> None:
        super().setUp()
        self.store_folder = self.path / "store"
        self.store_folder.mkdir()
        self.number, self.program = self.path / "number", self.path / "program"
        self.program.write_text(f"""#!/bin/sh\ntrap '' XFSZ\necho $$ >{self.number}\nexec {default_program()} "$@"\n""")
        self.program.chmod(0o755)

    def opened(self) -> Store:
        """The store of the folder. Its end makes no checkpoint."""
        return Store(program=str(self.program), folder=self.store_folder, checkpoint_at_close=False, log=True)

    def log(self) -> Path:
        """The log's file."""
        return self.store_folder / "commit.log"

    def begun(self, store: Store, number: int) -> int:
        """A session that is to commit a cell of 60,000 bytes."""
        start = store.begin()
        store.set(start, b"%03d" % number, FAMILY, bytes(60_000))
        return start

    def commit(self, store: Store, start: int) -> None:
        """Takes the remaining steps of a session."""
        while not isinstance(store.step(start), Committed):
            pass

    def put(self, store: Store, number: int) -> None:
        """Commits a cell."""
        self.commit(store, self.begun(store, number))

    def fill(self, store: Store) -> tuple[int, int]:
        """Commits cells until a step is refused. Returns the number of the cell, and its session."""
        for number in range(100):
            start = self.begun(store, number)
            try:
                self.commit(store, start)
            except Device:
                return number, start
        return self.fail("no step was refused")

    def goes_on(self, fill: Callable[[], None], free: Callable[[], None]) -> None:
        """Commits are refused once `fill` was called and the room is used up, sessions begin, files that nothing needs
        are removed, and commits are answered again after `free`."""
        with self.opened() as store:
            self.put(store, 0)
            for value in (b"1", b"2"):
                store.put(b"small", FAMILY, value)
                store.minor(1)
            store.merge(1, 2)
            fill()
            count, start = self.fill(store)
            self.assertGreater(count, 0)
            size = self.log().stat().st_size
            for _ in range(3):
                self.assertRaises(Device, store.step, start)
            self.assertEqual(self.log().stat().st_size, size)
            for _ in range(STAMPS):
                store.stop(store.begin())
            self.assertEqual(store.get(store.begin(), b"000", FAMILY), Value(bytes(60_000)))
            self.assertEqual(store.ask(Sweep()), 2)
            free()
            self.commit(store, start)
            self.put(store, count + 1)
            self.assertGreater(self.log().stat().st_size, size)
            store.kill()
        with self.opened() as store:
            rows = store.run(lambda t: [t.get(b"%03d" % number, FAMILY) for number in range(count + 3)])
        self.assertEqual(rows, [bytes(60_000)] * (count + 2) + [None])

    def limit(self, most: int) -> None:
        """No file of the program may have more bytes."""
        resource.prlimit(int(self.number.read_text()), resource.RLIMIT_FSIZE, (most, resource.RLIM_INFINITY))

    def test_a_limit_of_the_file_size(self) -> None:
        self.goes_on(lambda: self.limit(self.log().stat().st_size + 100), lambda: self.limit(resource.RLIM_INFINITY))

    def test_a_begin_without_room(self) -> None:
        """A stamp is answered once its mark is in the log, and a new log has no room."""
        with self.opened() as store:
            size = self.log().stat().st_size
            self.limit(size)
            for _ in range(3):
                self.assertRaises(Device, store.begin)
            self.assertEqual(store.raw(b"000", FAMILY, Qualifier.DATA), None)
            self.assertEqual(self.log().stat().st_size, size)
            self.limit(resource.RLIM_INFINITY)
            self.assertEqual(store.begin(), 1)
            self.put(store, 0)
            store.kill()
        with self.opened() as store:
            self.assertEqual(store.get(store.begin(), b"000", FAMILY), Value(bytes(60_000)))

    def mount(self) -> None:
        """Puts a small disk under the store's folder."""
        mount = ["mount", "-t", "tmpfs", "-o", "size=16m", "none", str(self.store_folder)]
        if os.geteuid() != 0 or subprocess.run(mount, capture_output=True).returncode != 0:
            self.skipTest("no disk can be mounted here")
        self.addCleanup(lambda: subprocess.run(["umount", str(self.store_folder)], check=True))

    def fill_disk(self, pages: int = 0) -> Path:
        """Fills the small disk but for some pages. Returns the file that does."""
        ballast = self.store_folder / "ballast"
        with ballast.open("wb", buffering=0) as file:
            try:
                while True:
                    file.write(bytes(PAGE))
            except OSError:
                pass
            file.truncate(max(0, file.tell() - pages * PAGE))
        return ballast

    def test_a_small_disk(self) -> None:
        self.mount()
        self.goes_on(lambda: self.assertTrue(self.fill_disk().exists()), (self.store_folder / "ballast").unlink)

    def test_checkpoints_on_a_small_disk(self) -> None:
        """Each is made or refused, whichever of its files is the one that finds no room."""
        self.mount()
        refused = []
        with self.opened() as store:
            for pages in range(16):
                self.put(store, pages)
                ballast = self.fill_disk(pages)
                try:
                    store.ask(Checkpoint())
                except Device:
                    refused.append(pages)
                ballast.unlink()
            store.ask(Checkpoint())
            store.kill()
        self.assertIn(0, refused)
        with self.opened() as store:
            rows = store.run(lambda t: [t.get(b"%03d" % number, FAMILY) for number in range(17)])
        self.assertEqual(rows, [bytes(60_000)] * 16 + [None])

    def is_made(self, store: Store, pages: int, change: Callable[[], object]) -> bool:
        """Whether a change of the tablets is made with so many pages left. It is refused otherwise, and then the store
        still answers."""
        store.ask(Checkpoint())
        ballast = self.fill_disk(pages)
        try:
            change()
        except Device:
            return False
        finally:
            self.assertFalse((self.store_folder / "room.new").exists())
            self.assertIsNotNone(store.raw(b"000", FAMILY, Qualifier.DATA))
            ballast.unlink()
        return True

    def test_splits_and_moves_on_a_small_disk(self) -> None:
        """Each puts two roots, of a page for each tablet. It is made or refused, also with room for the first alone."""
        self.mount()
        splits, moves, server = [], [], 0
        with self.opened() as store:
            for number in range(6):
                store.split(b"%03d" % number + bytes(3_997))
            for pages in range(16):
                store.put(b"%03d" % pages, FAMILY, b"%d" % pages)
                if self.is_made(store, pages, lambda: store.move(1, pages % 15 + 1)):
                    moves.append(pages)
                    server = pages % 15 + 1
                row = b"%03d" % (pages + 6) + bytes(3_997)
                if self.is_made(store, pages, lambda: store.split(row)):
                    splits.append(pages)
            tablets = store.tablets()
            store.kill()
        self.assertEqual(len(tablets), 7 + len(splits))
        for made in (splits, moves):
            self.assertTrue(made and 6 < made[0] and made[-1] == 15)
        found = read_root(self.store_folder).tablets
        self.assertEqual([(tablet.number, tablet.end) for tablet in found], [(t.number, t.end) for t in tablets])
        self.assertEqual([tablet.server for tablet in found if tablet.number == 1], [server])
        with self.opened() as store:
            rows = store.run(lambda t: [t.get(b"%03d" % pages, FAMILY) for pages in range(16)])
        self.assertEqual(rows, [b"%d" % pages for pages in range(16)])

    def test_room_that_a_kill_left(self) -> None:
        with self.opened() as store:
            self.put(store, 0)
            store.kill()
        room = self.store_folder / "room.new"
        room.write_bytes(bytes(PAGE))
        with self.opened() as store:
            self.assertFalse(room.exists())
            self.assertEqual(store.run(lambda t: t.get(b"000", FAMILY)), bytes(60_000))

    def test_a_collector_without_room(self) -> None:
        """A step of many visits is refused as long as there is no room for what it may write."""
        rows = [bytes([number]) * 4_000 for number in range(1, 6)]

        def put_all(t: Transaction, number: int) -> None:
            for row in rows:
                t.put(row, FAMILY, b"%d" % number)

        with self.opened() as store:
            for number in range(130):
                store.run(lambda t: put_all(t, number))
            collector = store.collect_begin().number
            # There is room for four visits of a megabyte, and not for five
            self.limit(self.log().stat().st_size + 4_600_000)
            with self.assertRaises(Device):
                while isinstance(store.collect_step(collector, 1_000), More):
                    pass
            self.assertEqual(store.run(lambda t: t.get(rows[4], FAMILY)), b"129")
            self.limit(resource.RLIM_INFINITY)
            while isinstance(store.collect_step(collector, 1_000), More):
                pass
            self.assertEqual(store.run(lambda t: [t.get(row, FAMILY) for row in rows]), [b"129"] * 5)

    def test_a_kill_with_room_behind_the_log(self) -> None:
        with self.opened() as store:
            self.put(store, 0)
            store.kill()
        data = self.log().read_bytes()
        log = log_of(data)
        self.assertEqual((log.end, log.later), (log.room, None))
        self.assertGreater(len(data), 100_000)
        line = [default_program(), "--dir", str(self.store_folder)]
        ended = subprocess.run(line, stdin=subprocess.DEVNULL, capture_output=True, text=True)
        self.assertEqual((ended.returncode, ended.stderr), (0, ""))
        self.assertFalse((self.store_folder / "commit.cut").exists())
        with self.opened() as store:
            self.assertEqual(store.run(lambda t: t.get(b"000", FAMILY)), bytes(60_000))


if __name__ == "__main__":
    unittest.main()
