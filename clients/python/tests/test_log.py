"""Folders with a log: everything answered is durable, however the program ends."""

from __future__ import annotations

import io
import os
import random
import shutil
import signal
import subprocess
import tempfile
import threading
import time
import unittest
from collections import Counter
from collections.abc import Iterator
from contextlib import redirect_stderr, redirect_stdout, suppress
from pathlib import Path
from zlib import crc32

from duqishom import ConnectionLost, Held, NotOpened, Patience, Pending, ProgramEnded, Store, Transaction, TransactionFailed
from duqishom.copies import copy_checkpoint
from duqishom.files import FRAME, NUMBER, log_of, spelled_mark
from duqishom.folders import has_log
from duqishom.inspection import main as inspect
from duqishom.program import default_program
from tests.folders import FolderTest
from tests.gateways import Gateway, folder_of, until

# The number of kills of the program of eight clients.
KILLS = int(os.environ.get("LOG_KILLS", "20"))
CLIENTS, ACCOUNTS, FIRST = 8, 12, 100
# The calls of an opening that change a folder.
UPGRADE_CALLS = ("write", "fsync", "rename", "fdatasync", "ftruncate")
ROW, FAMILY = b"counter", b"c"
ROOT, LOG, SIGN, CUT, MARK = "t0000000000000000.tab", "commit.log", "commit.id", "commit.cut", "oracle.mark"


def put(store: Store, value: bytes) -> None:
    """Commits a cell."""
    store.run(lambda t: t.set(ROW, FAMILY, value))


class Logs(FolderTest):
    """The log of a private store."""

    def opened(self, log: bool | None = None, *words: str, checksums: bool | None = None) -> Store:
        """The store of the folder. Its end makes no checkpoint."""
        return Store(folder=self.folder, words=words, checkpoint_at_close=False, log=log, checksums=checksums)

    def value(self) -> bytes | None:
        """The folder's value of one cell."""
        with self.opened() as store:
            return store.run(lambda t: t.get(ROW, FAMILY))

    def test_who_gets_a_log(self) -> None:
        self.assertRaises(ValueError, Store, log=True)
        # How the folder's store is made, how it is opened again, and whether the folder has a log after both
        table: tuple[tuple[bool | None, bool | None, bool, bool], ...] = (
            (None, None, True, True),
            (None, False, True, True),
            (False, None, False, False),
            (False, False, False, False),
            (False, True, False, True),
            (True, None, True, True),
        )
        for number, (makes, opens, first, then) in enumerate(table):
            self.folder = str(self.path / str(number))
            os.mkdir(self.folder)
            with Store(folder=self.folder, log=makes) as store:
                put(store, b"1")
                self.assertEqual(store.has_log, first)
            with Store(folder=self.folder, log=opens) as store:
                self.assertEqual((store.has_log, has_log(self.folder)), (then, then))
            self.assertEqual(self.value(), b"1")

    def test_what_was_answered_lasts(self) -> None:
        store = self.opened(None, "--flush", "9")
        for number in range(10):
            put(store, b"%d" % number)
        start = store.begin()
        for row in (b"a", b"b"):
            store.set(start, row, FAMILY, b"v")
        self.assertEqual([store.step(start) for _ in range(2)], [Held(1, 2), Held(2, 2)])
        store._connection.kill()
        with self.assertRaisesRegex(ProgramEnded, "status -9; the folder has all that was answered$"):
            store.begin()
        store.close()
        with self.opened() as store:
            self.assertEqual(store.run(lambda t: t.get(ROW, FAMILY)), b"9")
            reader = store.begin()
            self.assertGreater(reader, start)
            self.assertEqual(store.get(reader, b"a", FAMILY), Pending(start))
            self.assertIsNone(store.run(lambda t: t.get(b"a", FAMILY)))

    def test_tablets_and_files_last(self) -> None:
        numbers = [b"%02d" % number for number in range(60)]
        with self.opened(True, "--flush", "5", "--merge", "3") as store:
            for number, row in enumerate(numbers):
                store.run(lambda t: t.set(row, FAMILY, row))
                if number % 20 == 7:
                    store.split(numbers[number - 3])
                    store.major(1)
                    store.sweep()
            tablets = store.tablets()
            store.kill()
        with self.opened() as store:
            self.assertEqual(store.tablets(), tablets)
            self.assertEqual(store.run(lambda t: [t.get(row, FAMILY) for row in numbers]), numbers)

    def test_a_copy_has_a_log(self) -> None:
        """It continues the copy's root, and has the same store's number."""
        copy = self.path / "copy"
        with self.opened() as store:
            put(store, b"1")
            store.backup(copy)
            put(store, b"2")
            store.kill()
        self.assertEqual(self.value(), b"2")
        self.assertEqual((copy / SIGN).read_bytes(), (self.path / SIGN).read_bytes())
        self.assertEqual(len(log_of((copy / LOG).read_bytes()).roots()), 1)
        self.folder = str(copy)
        self.assertTrue(has_log(self.folder))
        self.assertEqual(self.value(), b"1")

    def test_a_checkpoint_that_was_refused_is_not_the_last(self) -> None:
        """It was refused for a tablet's 64 files. After they are merged, and a checkpoint is requested, others follow
        automatically."""
        value = bytes(60_000)
        # Upkeep would merge the files
        program = Path(self.enterContext(tempfile.TemporaryDirectory())) / "program"
        program.write_text(f'#!/bin/sh\nexec {default_program()} $(echo "$@" | sed s/--upkeep//)\n')
        program.chmod(0o755)
        words = ("--log-bytes", "1048576")
        with Store(str(program), folder=self.folder, words=words, checkpoint_at_close=False) as store:
            for _ in range(64):
                put(store, b"1")
                store.minor(1)
            for _ in range(20):
                put(store, value)
            self.assertGreater(self.end(), 1_100_000)
            store.major(1)
            store.checkpoint()
            for _ in range(20):
                put(store, value)
            self.assertLess(self.end(), 1_100_000)

    def end(self) -> int:
        """The offset of the end of the log's records."""
        return log_of((self.path / LOG).read_bytes()).end

    def test_tails_of_logs(self) -> None:
        """A log whose last frame isn't whole ends before that frame. Its bytes are reported and kept, but for the zeros
        at the end, which are room."""
        with self.opened() as store:
            put(store, b"1")
            short = self.end()
            put(store, b"2")
            store.kill()
        file = (self.path / LOG).read_bytes()
        whole = file[: self.end()]
        last = short + 1
        for log, value, cut in (
            (file, b"2", b""),
            (whole, b"2", b""),
            (whole + b"\0" * 100, b"2", b""),
            (whole + b"\0\1" + b"\0" * 100, b"2", b"\0\1"),
            (whole[: short + 7] + b"\0" * 100, b"1", whole[short : short + 7].rstrip(b"\0")),
            (whole + whole[16 : short - 1], b"2", whole[16 : short - 1]),
            (whole[:short], b"1", b""),
            (whole[: short + 7], b"1", whole[short : short + 7].rstrip(b"\0")),
            (whole[:last] + b"\1" + whole[last + 1 :], b"1", (whole[short:last] + b"\1" + whole[last + 1 :]).rstrip(b"\0")),
            (whole[:45], None, b""),
        ):
            (self.path / LOG).write_bytes(log)
            (self.path / CUT).unlink(missing_ok=True)
            told = self.told()
            said = f"tabletd: {len(cut)} bytes at the end of the log were cut and kept in commit.cut\n" if cut else ""
            kept = (self.path / CUT).read_bytes() if (self.path / CUT).exists() else b""
            self.assertEqual((told, kept, self.value()), ((0, said), cut, value), len(log))

    def told(self, *words: str) -> tuple[int, str]:
        """The status of a program that opens the folder and gets no request, and its output."""
        line = [default_program(), "--dir", self.folder, *words]
        ended = subprocess.run(line, stdin=subprocess.DEVNULL, capture_output=True, text=True)
        return ended.returncode, ended.stderr

    def test_logs_that_are_not_opened(self) -> None:
        """Each way in which a folder can lose a file, or get one of another folder. A refused folder is unchanged."""
        other = self.path / "other"
        other.mkdir()
        with Store(folder=other) as store:
            put(store, b"0")
        with self.opened(checksums=False) as store:
            put(store, b"0")
            store.checkpoint()
            root = (self.path / ROOT).read_bytes()
            put(store, b"1")
            store.checkpoint()
            for _ in range(2):
                put(store, b"2")
        whole = (self.path / LOG).read_bytes()[: self.end()]
        self.assertEqual(len(log_of(whole).roots()), 1)
        table: tuple[tuple[str, bytes | Path | None, int, str], ...] = (
            (ROOT, root, 5, f"{ROOT}: the log is over another root"),
            (ROOT, None, 5, f"{ROOT}: the log has edits, and there is no root"),
            (ROOT, b"", 5, f"{ROOT}: the root ends inside a field, at byte 0"),
            (MARK, None, 5, f"{MARK}: the mark 0 is below the root's greatest stamp"),
            (SIGN, other / SIGN, 5, f"{LOG}: the log is of the store [0-9a-f]+, and {SIGN} of"),
            (SIGN, b"TABSTORE", 5, f"{SIGN}: this is no sign of a store, at byte 8"),
            (LOG, None, 5, f"{LOG}: {SIGN} says that the folder has a log, and it isn't there"),
            (LOG, other / LOG, 5, f"{LOG}: the log is of the store"),
            (LOG, whole[:60] + bytes([whole[60] ^ 1]) + whole[61:], 5, f"{LOG}: a frame before the whole one of byte [0-9]+ is broken"),
            (LOG, whole[:20] + bytes([whole[20] ^ 1]) + whole[21:], 5, f"{LOG}: no first record stands here, at byte 16"),
            (LOG, whole[:44], 5, f"{LOG}: no first record stands here, at byte 16"),
            (LOG, b"TABLOG01", 5, f"{LOG}: the log is of format 1, and {SIGN} is there"),
            (LOG, b"TABLOG03" + whole[8:], 5, f"{LOG}: the head is neither TABLOG01 nor TABLOG02, at byte 7"),
            (LOG, b"TABL", 5, f"{LOG}: the head is neither TABLOG01 nor TABLOG02, at byte 4"),
            (LOG, Path(LOG), 4, "commit.log can't be opened: .*symbolic links"),
        )
        for name, wrong, status, why in table:
            file = self.path / name
            right = file.read_bytes()
            file.unlink()
            if isinstance(wrong, bytes):
                file.write_bytes(wrong)
            elif wrong == Path(LOG):
                file.symlink_to(wrong)
            elif wrong is not None:
                shutil.copy(wrong, file)
            with self.subTest(why):
                for log in (True, False) if name == LOG and wrong is None else (None,):
                    with self.assertRaisesRegex(NotOpened, why) as caught:
                        self.opened(log)
                    self.assertEqual(caught.exception.status, status)
                if isinstance(wrong, bytes):
                    self.assertEqual(file.read_bytes(), wrong)
                self.assertFalse((self.path / CUT).exists())
            file.unlink(missing_ok=True)
            file.write_bytes(right)
        self.assertEqual(self.value(), b"2")

    def test_an_older_log_than_the_root(self) -> None:
        """A copy of a folder with the log from before a checkpoint and the root from after it: a collected cell would
        come back."""
        with self.opened() as store:
            put(store, b"1")
            log = (self.path / LOG).read_bytes()
            store.run(lambda t: t.delete(ROW, FAMILY))
            store.collect()
            store.checkpoint()
        (self.path / LOG).write_bytes(log)
        with self.assertRaisesRegex(NotOpened, "is over another root"):
            self.opened()

    def test_a_log_for_a_folder_that_lost_its_root(self) -> None:
        """A folder with a file or a mark but no root gets no log, and without a log it is opened as a new store."""
        for lost in (MARK, "t0000000000000001.tab"):
            with self.subTest(lost):
                (self.path / lost).write_bytes(bytes(7) + b"\1")
                self.assertEqual(self.told("--log"), (5, "tabletd: damaged at open\n"))
                self.assertFalse((self.path / LOG).exists() or (self.path / SIGN).exists())
                self.assertEqual(self.told(), (0, ""))
                (self.path / lost).unlink()
        self.assertEqual(self.told("--log"), (0, ""))

    def test_a_mark_that_is_gone_or_old(self) -> None:
        """With its log a store goes on above all that was answered, unless its root has a greater stamp than the file
        of the mark."""
        with self.opened() as store:
            put(store, b"1")
            store.checkpoint()
            store.restart_oracle()
            last = store.begin()
            store.kill()
        self.assertEqual((last, (self.path / MARK).read_bytes(), self.logged_mark()), (1001, spelled_mark(1000), 2000))
        self.assertEqual(self.next_start(), 2001)
        self.assertEqual(self.next_start(), 3001)
        (self.path / MARK).write_bytes(spelled_mark(2))
        self.assertEqual(self.next_start(), 4001)
        with self.opened() as store:
            store.checkpoint()
        self.assertEqual((self.path / MARK).read_bytes(), spelled_mark(5000))
        (self.path / MARK).write_bytes(spelled_mark(1000))
        with self.assertRaisesRegex(NotOpened, f"{MARK}: the mark 1000 is below the root's greatest stamp 5000") as caught:
            self.opened()
        self.assertEqual(caught.exception.status, 5)

    def test_no_answered_stamp_is_drawn_again(self) -> None:
        dice = random.Random(31)
        starts = [start for _ in range(10) for start in self.starts_until_a_kill(dice.uniform(0, 0.05))]
        self.assertEqual(starts, sorted(set(starts)))

    def starts_until_a_kill(self, wait: float) -> Iterator[int]:
        """The starts of sessions, each of a range of its own, in a program that is killed so many seconds after the first
        of them was answered."""
        store = self.opened()
        start = store.begin()
        yield start
        killer = threading.Timer(wait, store._connection.kill)
        killer.start()
        with suppress(ProgramEnded):
            while True:
                store.stop(start)
                store.restart_oracle()
                start = store.begin()
                yield start
        killer.join()
        store.close()

    def test_a_new_store_whose_mark_is_gone(self) -> None:
        """Its root has no stamp, so the log's records alone say which stamps were answered."""
        with self.opened() as store:
            last = store.begin()
            store.kill()
        self.assertEqual((last, (self.path / MARK).exists(), self.logged_mark()), (1, False, 1000))
        self.assertEqual(self.next_start(), 1001)

    def test_a_copy_has_the_mark_of_the_log(self) -> None:
        """A copy of a store that goes on meanwhile has no record of the log, but its mark."""
        copy = self.path / "copy"
        with self.opened() as store:
            put(store, b"1")
            store.checkpoint()
            store.restart_oracle()
            last = store.begin()
            copy_checkpoint(self.folder, str(copy))
        self.assertEqual((last, (copy / MARK).read_bytes()), (1001, spelled_mark(2000)))
        self.assertEqual(len(log_of((copy / LOG).read_bytes()).records), 1)
        self.folder = str(copy)
        self.assertEqual((self.next_start(), self.value()), (2001, b"1"))

    def logged_mark(self) -> int:
        """The mark of the log."""
        return log_of((self.path / LOG).read_bytes()).mark()

    def next_start(self) -> int:
        """The start of the first session after an opening. The program is killed then."""
        with self.opened() as store:
            start = store.begin()
            store.kill()
        return start

    def log_of_format_1(self) -> bytes:
        """Two commits in a folder whose log is of format 1. Returns the log."""
        with self.opened() as store:
            put(store, b"1")
            put(store, b"2")
        log, old = self.path / LOG, b"TABLOG01"
        for text, value in log_of(log.read_bytes()).edits():
            put_to = b"\0" if value is None else b"\1" + NUMBER.pack(len(value)) + value
            body = NUMBER.pack(len(text)) + text + put_to
            old += FRAME.pack(len(body), crc32(NUMBER.pack(len(body)) + body)) + body
        # A program that writes format 1 stores the mark before it answers a stamp
        (self.path / MARK).write_bytes(spelled_mark(log_of(log.read_bytes()).mark()))
        (self.path / SIGN).unlink()
        log.write_bytes(old)
        return old

    def test_a_log_of_format_1_is_upgraded(self) -> None:
        log, old = self.path / LOG, self.log_of_format_1()
        for tail in (b"", b"\1" * 9):
            log.write_bytes(old + tail)
            (self.path / SIGN).unlink(missing_ok=True)
            for _ in range(2):
                self.assertEqual(self.value(), b"2")
            found = log_of(log.read_bytes())
            self.assertEqual((found.format, found.is_over_any(), (self.path / SIGN).exists()), (2, False, True))
        self.assertEqual((self.path / CUT).read_bytes(), tail)

    def test_a_log_of_format_1_above_the_mark(self) -> None:
        """Its program stored the mark before it answered a stamp, so the mark is lost. The log is left as it is."""
        log, old = self.path / LOG, self.log_of_format_1()
        (self.path / MARK).write_bytes(spelled_mark(1))
        with self.assertRaisesRegex(NotOpened, f"{MARK}: the mark 1 is below the stamp [0-9]+ of an edit in the log") as caught:
            self.opened()
        self.assertEqual((caught.exception.status, log.read_bytes(), (self.path / SIGN).exists()), (5, old, False))

    @unittest.skipUnless(shutil.which("strace"), "strace isn't here; Debian has it in the package strace")
    def test_an_upgrade_that_is_killed_loses_nothing(self) -> None:
        """The program is killed at each call of these kinds that it makes until it has opened the folder."""
        self.log_of_format_1()
        killed = Counter[str]()
        for call in UPGRADE_CALLS:
            for number in range(1, 100):
                with tempfile.TemporaryDirectory() as beside:
                    folder = shutil.copytree(self.folder, Path(beside) / "store")
                    inject = f"-e trace={call} -e inject={call}:signal=SIGKILL:when={number}"
                    opening = f"strace -f -qq -o /dev/null {inject} {default_program()} --dir {folder}"
                    # An empty body is refused once the folder is open
                    if subprocess.run(opening.split(), input=bytes(4), capture_output=True, timeout=20).stdout:
                        break
                    killed[call] += 1
                    with Store(folder=folder, checkpoint_at_close=False) as store:
                        self.assertEqual(store.get(ROW, FAMILY), b"2", f"{call} {number}")
        self.assertEqual(set(killed), set(UPGRADE_CALLS))

    @unittest.skipUnless(shutil.which("strace"), "strace isn't here; Debian has it in the package strace")
    def test_a_log_that_failed_ends_the_program(self) -> None:
        """A sync of its file fails, as do all later ones. The commit that wasn't answered may be there."""
        program, folder = self.path / "program", self.path / "store"
        traced = f"-e trace=fdatasync -P {folder / LOG} -e inject=fdatasync:error=EIO:when=8+"
        program.write_text(f"""#!/bin/sh\nexec strace -f -qq -o /dev/null {traced} {default_program()} "$@"\n""")
        program.chmod(0o755)
        folder.mkdir()
        self.folder = str(folder)
        store = Store(program=str(program), folder=folder)
        done = 0
        with self.assertRaisesRegex(ProgramEnded, "under the log; the folder has all that was answered") as caught:
            for number in range(1, 9):
                put(store, b"%d" % number)
                done = number
        self.assertEqual(caught.exception.status, 4)
        store.close()
        self.assertGreater(done, 0)
        self.assertIn(self.value(), (b"%d" % done, b"%d" % (done + 1)))

    def test_inspection_shows_the_log(self) -> None:
        with self.opened() as store:
            put(store, b"1")
            store.checkpoint()
            put(store, b"2")
            store.run(lambda t: t.set(b"left", FAMILY, b"v"))
            store.run(lambda t: t.delete(b"left", FAMILY))
            start = store.begin()
            store.set(start, b"held", FAMILY, b"v")
            store.step(start)
        self.assertEqual(self.inspected("cells"), "counter\tc\t2\n")
        self.assertEqual(self.inspected("locks"), f"held c: session {start} sets it; its first cell is held c\n")
        self.assertIn("7 keys in the log", self.inspected("stats"))
        self.assertIn(f", mark 1000 (1000 in {MARK}), ", self.inspected("stats"))
        size = self.end()
        what = "format 2, store [0-9a-f]{16}, [0-9]+ records from number [0-9]+, over the root of stamp"
        self.assertRegex(self.inspected("log"), what)
        self.assertRegex(self.inspected("log"), f"whole frames up to byte {size} of {size}, and [0-9,]+ bytes of room")
        self.assertRegex(self.inspected("log"), "[0-9]+ edits, mark 1000\n")
        self.next_start()
        self.assertIn(f", mark 2000 (1000 in {MARK}), ", self.inspected("stats"))
        self.assertRegex(self.inspected("log"), "[0-9]+ edits, mark 2000\n")

    def inspected(self, what: str) -> str:
        """The output of `inspect` for the folder."""
        written = io.StringIO()
        with redirect_stdout(written), redirect_stderr(written):
            self.assertEqual(inspect([self.folder, what]), 0)
        return written.getvalue()


def account(number: int) -> bytes:
    """The row of an account."""
    return b"account %02d" % number


def transfer(client: int, number: int) -> tuple[int, int, int]:
    """A client's transfer with this number: the giver, the taker and the amount."""
    dice = random.Random(client * 1_000_003 + number)
    giver, taker = dice.sample(range(ACCOUNTS), 2)
    return giver, taker, dice.randint(1, 9)


class Killed(unittest.TestCase):
    """Eight clients of a gateway, whose program is killed at any moment.

    A transfer moves money between two accounts, and raises a count in a cell of its client. So each account's amount
    follows from the counts: a partial transfer would show.
    """

    def setUp(self) -> None:
        self.folder = folder_of(self)
        self.answered: Counter[int] = Counter()

    def opened(self) -> Store:
        """The store of the folder. Its end makes no checkpoint."""
        return Store(folder=self.folder, patience=Patience(pause=0), checkpoint_at_close=False)

    def pay(self, path: str, client: int) -> None:
        """Makes transfers, and counts the answered ones, until the connection ends."""

        def move(t: Transaction) -> None:
            number = int(t.get(b"client %d" % client, FAMILY) or b"0") + 1
            giver, taker, amount = transfer(client, number)
            for who, more in ((giver, -amount), (taker, amount)):
                t.set(account(who), FAMILY, b"%d" % (int(t.get(account(who), FAMILY) or b"0") + more))
            t.set(b"client %d" % client, FAMILY, b"%d" % number)

        with suppress(ConnectionLost, OSError), Store(socket=path, patience=Patience(tries=5)) as store:
            while True:
                with suppress(TransactionFailed):
                    store.run(move)
                    self.answered[client] += 1

    def kill_once(self, words: list[str], wait: float) -> None:
        """Starts a gateway with its clients, and kills its program `wait` seconds after the first answer."""
        gateway = Gateway(self, ["--dir", self.folder, *words])
        program, before = gateway.program(), self.answered.total()
        clients = [threading.Thread(target=self.pay, args=(gateway.path, client)) for client in range(CLIENTS)]
        for client in clients:
            client.start()
        self.assertTrue(until(lambda: self.answered.total() > before))
        time.sleep(wait)
        os.kill(program, signal.SIGKILL)
        for client in clients:
            client.join()
        self.assertEqual(gateway.process.wait(60), 128 + 9)
        gateway.end()

    def check(self) -> None:
        """The folder's amounts agree with the clients' counts, and no count is below the number of answered transfers.
        A transfer in flight may be included."""
        balances = [FIRST] * ACCOUNTS
        with self.opened() as store, store.transaction() as t:
            for client in range(CLIENTS):
                count = int(t.get(b"client %d" % client, FAMILY) or b"0")
                self.assertIn(count - self.answered[client], (0, 1), f"client {client}")
                self.answered[client] = count
                for number in range(1, count + 1):
                    giver, taker, amount = transfer(client, number)
                    balances[giver] -= amount
                    balances[taker] += amount
            found = [int(t.get(account(number), FAMILY) or b"0") for number in range(ACCOUNTS)]
        self.assertEqual(found, balances)
        self.assertEqual(sum(found), ACCOUNTS * FIRST)

    def test_no_answered_commit_is_lost(self) -> None:
        dice = random.Random(53)
        with self.opened() as store, store.transaction() as t:
            for number in range(ACCOUNTS):
                t.set(account(number), FAMILY, b"%d" % FIRST)
        small = ["--log-bytes", "20000", "--merge", "4"]
        ways: list[list[str]] = [[], ["--flush", "40", "--merge", "3"], small, ["--checkpoint", "0.05"]]
        for number in range(KILLS):
            self.kill_once(ways[number % len(ways)], dice.uniform(0, 0.3))
            self.check()
        self.assertGreater(self.answered.total(), KILLS)
        self.assertGreater(Path(self.folder, LOG).stat().st_size, 0)


if __name__ == "__main__":
    unittest.main()
