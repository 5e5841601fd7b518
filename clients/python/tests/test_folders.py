"""Stores in folders: the state that lasts however the program ends."""

from __future__ import annotations

import os
import random
import resource
import shutil
import signal
import subprocess
import sys
import threading
import unittest
import warnings
from collections.abc import Callable
from pathlib import Path

from duqishom import (
    BadCount,
    Device,
    NoMemory,
    NotOpened,
    Pending,
    ProgramEnded,
    Qualifier,
    Store,
    Tablet,
    Transaction,
    UnknownSession,
    Version,
)
from duqishom.folders import read_root
from duqishom.inspection import Folder, cells, locks
from duqishom.operations import Checkpoint
from duqishom.program import default_program
from tests.folders import FolderTest
from tests.gateways import PACKAGE, Gateway, until
from tests.pages import TOP
from tests.poor import Poor

# The number of cells kept, and of kills of the program. A tabletd that is built with checks is slow, and gets fewer.
CELLS = int(os.environ.get("FOLDER_CELLS", "1000"))
KILLS = int(os.environ.get("FOLDER_KILLS", "50"))
OF_A_TRANSACTION = 100
ROW, OTHER, FAMILY = b"counter", b"other", b"c"
ROOT, FILE = "t8000000000000000.tab", "t8000000000000001.tab"


def kill(store: Store) -> None:
    """Ends a store's program without a warning."""
    store.kill()


class Folders(FolderTest):
    """The state that a folder keeps."""

    def opened(self, *words: str, checksums: bool | None = None) -> Store:
        """The store of the folder, without a log if it is new. Its end makes no checkpoint."""
        return Store(folder=self.folder, words=words, checkpoint_at_close=False, log=False, new=True, checksums=checksums)

    def counter(self) -> bytes | None:
        """The folder's value of one cell."""
        with self.opened() as store:
            return store.run(lambda transaction: transaction.get(ROW, FAMILY))

    def test_the_end_makes_a_checkpoint(self) -> None:
        ways: tuple[Callable[[Store], object], ...] = (Store.close, Store.__del__)
        for number, ends in enumerate(ways, start=1):
            store = Store(folder=self.folder)
            store.run(lambda transaction: transaction.set(ROW, FAMILY, b"%d" % number))
            with warnings.catch_warnings(record=True):
                warnings.simplefilter("always")
                ends(store)
            self.assertEqual(self.counter(), b"%d" % number)
        code = "from duqishom import Store; s = Store(folder=%r); s.run(lambda t: t.set(b'counter', b'c', b'7'))"
        command = [sys.executable, "-c", code % self.folder]
        self.assertEqual(subprocess.run(command, cwd=TOP / "clients" / "python").returncode, 0)
        self.assertEqual(self.counter(), b"7")
        # An opening with a log has put the root again
        root = self.path / ROOT
        store = Store(folder=self.folder)
        was = root.stat().st_ino
        store.close()
        self.assertEqual(root.stat().st_ino, was)

    def limitable(self) -> str:
        """A program that fails to write beyond a limit of the file size, and doesn't end by it."""
        program = self.path / "program"
        program.write_text(f"""#!/bin/sh\ntrap '' XFSZ\necho $$ >{self.path}/number\nexec {default_program()} "$@"\n""")
        program.chmod(0o755)
        return str(program)

    def running(self) -> int:
        """The process of that program."""
        return int((self.path / "number").read_text())

    def limit(self, size: int) -> None:
        """Limits the file size of that program."""
        resource.prlimit(self.running(), resource.RLIMIT_FSIZE, (size, resource.RLIM_INFINITY))

    def test_a_sweep_on_a_full_disk_removes_nothing(self) -> None:
        """And with room again, a checkpoint follows the Sweep, since the program has merged files after the first."""
        program = self.limitable()
        for is_remote in (False, True):
            with self.subTest(is_remote=is_remote):
                folder = self.path / f"store {is_remote}"
                folder.mkdir()
                if is_remote:
                    words = ["--program", program, "--dir", str(folder), "--no-log", "--merge", "2"]
                    store = Store(socket=Gateway(self, words).path)
                else:
                    store = Store(program, folder=folder, log=False, words=["--merge", "2"], checkpoint_at_close=False)
                with store:
                    store.put(ROW, FAMILY, b"1")
                    store.checkpoint()
                    store.major(1)
                    self.limit(1)
                    self.assertRaises(Device, store.sweep)
                    self.assertTrue((folder / FILE).exists())
                    self.limit(resource.RLIM_INFINITY)
                    store.put(ROW, FAMILY, b"2")
                    self.assertGreater(store.sweep(), 1)
                    self.assertFalse((folder / FILE).exists())
                    os.kill(self.running(), signal.SIGKILL)
                self.assertTrue(until(lambda: not Path(f"/proc/{self.running()}").exists()))
                with Store(folder=folder) as again:
                    self.assertEqual(again.get(ROW, FAMILY), b"2")

    def test_a_disk_that_was_full_has_room_again(self) -> None:
        """A limit of the file size simulates a full disk: writes beyond it fail or are cut short."""
        program, folder = self.limitable(), self.path / "store"
        folder.mkdir()
        cells = {b"row%d" % row: b"v" * 100 for row in range(20)}

        def write(transaction: Transaction) -> None:
            for row, value in cells.items():
                transaction.set(row, FAMILY, value)

        def read(transaction: Transaction) -> list[bytes | None]:
            return [transaction.get(row, FAMILY) for row in cells]

        with Store(program=program, folder=folder, log=False) as store:
            store.run(write)
            self.limit(1_000)
            for _ in range(3):
                self.assertRaises(Device, store.minor, 1)
                self.assertEqual(sorted(path.name for path in folder.glob("t*")), [])
            self.limit(resource.RLIM_INFINITY)
            store.minor(1)
            self.assertEqual(len(list(folder.glob("t*"))), 1)
            self.assertEqual(store.sweep(), 0)
        with Store(folder=folder) as store:
            self.assertEqual(store.run(read), list(cells.values()))

    def test_a_folder_that_lost_its_root_is_not_new(self) -> None:
        """Neither where files are left, nor where the mark alone is, and no program is started. It is where that is said."""
        with Store(folder=self.folder, log=False) as store:
            store.put(ROW, FAMILY, b"1")
        serve = [sys.executable, "-m", "duqishom", "serve", "--dir", self.folder, "--no-log", "--socket", str(self.path / "socket")]
        for name in (ROOT, FILE):
            (Path(self.folder) / name).unlink()
            with self.assertRaisesRegex(NotOpened, f"status 5.*{FILE if name == ROOT else 'oracle.mark'} of a store and no root"):
                Store(folder=self.folder, log=False)
            ran = subprocess.run(serve, cwd=PACKAGE, capture_output=True, text=True, timeout=20)
            self.assertEqual(ran.returncode, 2)
            self.assertIn("of a store and no root", ran.stderr)
            self.assertRaises(NotOpened, Store, folder=self.folder)
        with Store(folder=self.folder, log=False, new=True) as store:
            self.assertIsNone(store.get(ROW, FAMILY))

    def test_what_is_lost_is_said(self) -> None:
        store = Store(folder=self.folder, log=False)
        store.run(lambda transaction: transaction.set(ROW, FAMILY, b"1"))
        store.checkpoint()
        for value in (b"2", b"3"):
            store.run(lambda transaction: transaction.set(ROW, FAMILY, value))
        store._connection.kill()
        with self.assertRaisesRegex(ProgramEnded, "status -9; what was done since .*, 2 commits, is not in the folder"):
            store.close()
        self.assertEqual(self.counter(), b"1")

    def test_a_refused_end_may_be_tried_again(self) -> None:
        store = Store(folder=self.folder, log=False)
        store.run(lambda transaction: transaction.set(ROW, FAMILY, b"1"))
        store._connection = Poor(store._connection, Checkpoint.code, 1)
        with self.assertRaisesRegex(NoMemory, "NoMemory: what was done since .*, 1 commits, is not in the folder"):
            store.close()
        self.assertEqual(store.close(), 0)
        self.assertEqual(self.counter(), b"1")
        store = Store(folder=self.folder)
        store.run(lambda transaction: transaction.set(ROW, FAMILY, b"2"))
        self.assertEqual(store.close(checkpoint=False), 0)
        for _ in range(2):
            with self.assertRaisesRegex(ProgramEnded, "1 commits, is not in the folder"):
                store.begin()
        self.assertEqual(self.counter(), b"1")

    def test_backups(self) -> None:
        copy = self.path / "copy"
        with self.opened("--flush", "7") as store:
            for number in range(10):
                store.run(lambda transaction: transaction.set(b"%d" % number, FAMILY, b"1"))
            store.split(b"5")
            store.backup(copy)
            with self.assertRaises(ValueError):
                store.backup(copy)
            store.run(lambda transaction: transaction.set(b"3", FAMILY, b"2"))
        with Store(folder=copy) as store:
            self.assertEqual({store.run(lambda t: t.get(b"%d" % number, FAMILY)) for number in range(10)}, {b"1"})
            self.assertEqual(store.tablets(), (Tablet(2, b"5"), Tablet(1, None)))
        with Store() as store, self.assertRaises(ValueError):
            store.backup(copy)

    def test_cells_last_behind_a_checkpoint(self) -> None:
        rows = [b"row %d" % number for number in range(CELLS)]
        with self.opened("--flush", "100") as store:
            for place in range(0, CELLS, OF_A_TRANSACTION):
                with store.transaction() as transaction:
                    for row in rows[place : place + OF_A_TRANSACTION]:
                        transaction.set(row, FAMILY, row)
            store.checkpoint()
            kill(store)
        with self.opened() as store, store.transaction() as transaction:
            for row in rows:
                self.assertEqual(transaction.get(row, FAMILY), row)

    def test_tablets_and_locks_last_and_sessions_do_not(self) -> None:
        with self.opened() as store:
            store.split(b"m")
            store.split(b"c")
            start = store.begin()
            for row in (ROW, OTHER):
                store.set(start, row, FAMILY, b"1")
            for _ in range(4):
                store.step(start)
            store.checkpoint()
            tablets = store.tablets()
        with self.opened() as store:
            self.assertEqual(store.tablets(), tablets)
            self.assertEqual(store.tablets(), (Tablet(3, b"c"), Tablet(2, b"m"), Tablet(1, None)))
            with self.assertRaises(UnknownSession):
                store.step(start)
            self.assertEqual(store.get(store.begin(), OTHER, FAMILY), Pending(start))
            self.assertEqual(store.run(lambda transaction: transaction.get(OTHER, FAMILY)), b"1")

    def test_nothing_lasts_without_a_checkpoint(self) -> None:
        with self.opened("--flush", "1") as store:
            store.run(lambda transaction: transaction.set(ROW, FAMILY, b"1"))
        with self.opened() as store:
            self.assertIsNone(store.run(lambda transaction: transaction.get(ROW, FAMILY)))
            self.assertEqual(store.begin(), 1002)

    def test_statuses(self) -> None:
        root, tablet = "t0000000000000000.tab", "t0000000000000001.tab"
        with self.opened(checksums=False) as store:
            store.run(lambda transaction: transaction.set(ROW, FAMILY, b"1"))
            store.checkpoint()
            self.assert_ends_with(4, f"{self.folder} is in use by process [0-9]+ .* has started$")
        for name, kept, status, why in (
            (tablet, None, 5, "the root names this file, and it isn't there"),
            (tablet, b"TABLET02", 5, "the root says [0-9]+ bytes, and it has 8"),
            (root, b"TABROOT2", 5, "the root ends inside a field, at byte 8"),
            ("oracle.mark", None, 5, "the mark 0 is below the root's greatest stamp 2"),
            ("oracle.mark", b"7 bytes", 4, "is no mark: it has 7 bytes"),
        ):
            file = Path(self.folder) / name
            whole = file.read_bytes()
            file.unlink()
            if kept is not None:
                file.write_bytes(kept)
            self.assert_ends_with(status, why)
            file.write_bytes(whole)
        with self.opened() as store:
            self.assertEqual(store.run(lambda transaction: transaction.get(ROW, FAMILY)), b"1")
        self.folder += "/none"
        self.assert_ends_with(4, "there is no folder")
        self.folder = str(file)
        self.assert_ends_with(4, "is a file, and no folder")

    def assert_ends_with(self, status: int, why: str) -> None:
        with self.assertRaisesRegex(NotOpened, why) as caught:
            self.opened()
        self.assertEqual(caught.exception.status, status)

    def test_a_folder_of_the_first_format(self) -> None:
        """A folder as the program wrote it before format 2, stopped right after the commit of Bob's and Joe's second
        values."""
        shutil.copytree(Path(__file__).parent / "data" / "format1", self.folder, dirs_exist_ok=True)
        folder = Folder(self.path)
        folder.check()
        self.assertEqual((folder.root.format, [file.format for file in folder.files.values()]), (1, [1]))
        self.assertEqual(list(locks(folder)), ["Joe bal: session 3 sets it; its first cell is Bob bal"])
        self.assertEqual(list(cells(folder)), ["Bob\tbal\t3", "Joe\tbal\t9"])
        with Store(folder=self.folder) as store:
            self.assertEqual(store.raw(b"Joe", b"bal", Qualifier.LOCK), Version(3, b"Bob\x00\x00bal\x00\x00"))
            self.assertEqual(store.raw(b"Bob", b"bal", Qualifier.WRITE), Version(4, b"\x00" * 7 + b"\x03"))
            values = store.run(lambda transaction: [transaction.get(row, b"bal") for row in (b"Bob", b"Joe")])
            self.assertEqual(values, [b"3", b"9"])
            store.major(1)
            store.sweep()
        folder = Folder(self.path)
        folder.check()
        self.assertEqual((folder.root.format, [file.format for file in folder.files.values()]), (2, [2]))
        self.assertEqual(list(cells(folder)), ["Bob\tbal\t3", "Joe\tbal\t9"])

    def test_links_to_themselves(self) -> None:
        with Store(folder=self.folder) as store:
            store.run(lambda transaction: transaction.set(ROW, FAMILY, b"1"))
        for name in (FILE, ROOT, "oracle.mark"):
            file = self.path / name
            whole = file.read_bytes()
            file.unlink()
            file.symlink_to(name)
            self.assert_ends_with(4, "symbolic links")
            file.unlink()
            file.write_bytes(whole)
        self.assertEqual(self.counter(), b"1")

    def test_what_a_stop_left_is_removed(self) -> None:
        with Store(folder=self.folder) as store:
            store.run(lambda transaction: transaction.set(ROW, FAMILY, b"1"))
        for name in ("t8000000000000000.new", "t8000000000000001.new", "oracle.new"):
            (self.path / name).write_bytes(b"garbage")
        self.assertEqual(self.counter(), b"1")
        self.assert_nothing_is_left()

    def assert_nothing_is_left(self) -> None:
        """No partly written file is left in the folder. A partly written mark is rewritten."""
        self.assertEqual([file.name for file in self.path.glob("t*.new")], [])

    def test_automatic_compactions_on_both_sides_of_a_split(self) -> None:
        with self.opened("--flush", "3", "--merge", "4") as store:
            store.split(b"m")
            for number in range(30):
                for side in (b"a", b"z"):
                    store.run(lambda transaction: transaction.set(side + b"%d" % number, FAMILY, side))
            for tablet in (1, 2):
                with self.assertRaises(BadCount):
                    store.merge(tablet, 4)
            self.assertEqual({store.run(lambda t: t.get(b"z%d" % number, FAMILY)) for number in range(30)}, {b"z"})
            store.checkpoint()
        sides = {tablet.number: tablet.files for tablet in read_root(self.path).tablets}
        self.assertTrue(sides[1] and sides[2] and not {name for name, _ in sides[1]} & {name for name, _ in sides[2]})

    def test_files_stay_few_by_themselves(self) -> None:
        """Each of these transactions writes a file, and a tablet takes 64."""
        with self.opened("--flush", "2") as store:
            for number in range(200):
                store.put(b"%d" % (number % 7), FAMILY, b"%d" % number)
            with self.assertRaises(BadCount):
                store.merge(1, 10)
            self.assertEqual(store.get(b"3", FAMILY), b"199")

    def test_killed_at_any_moment(self) -> None:
        chance = random.Random(29)
        kept = 0
        for _ in range(KILLS):
            count = Counting(kept)
            with self.opened("--flush", "7", "--merge", "3") as store:
                timer = threading.Timer(chance.uniform(0.01, 0.2), kill, [store])
                timer.start()
                count.until_killed(store)
            kept = int(self.counter() or b"0")
            self.assertIn(kept, count.may_be_kept)
            self.assert_nothing_is_left()


class Counting:
    """A number in two cells that rises with each transaction, with a checkpoint after some of them."""

    def __init__(self, kept: int) -> None:
        self.may_be_kept = [kept]

    def until_killed(self, store: Store) -> None:
        """Counts until the program has ended. The folder may then have the last checkpoint, or the one that was under
        way."""
        number = self.may_be_kept[0]
        try:
            while True:
                number += 1
                with store.transaction() as transaction:
                    for row in (ROW, OTHER):
                        transaction.set(row, FAMILY, b"%d" % number)
                if number % 3 == 0:
                    self.may_be_kept.append(number)
                    store.checkpoint()
                    self.may_be_kept = [number]
        except ProgramEnded:
            pass


if __name__ == "__main__":
    unittest.main()
