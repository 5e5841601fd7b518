"""Backups of a gateway's store while it runs."""

from __future__ import annotations

import asyncio
import os
import random
import resource
import socket
import threading
import unittest
from collections.abc import Callable
from contextlib import suppress
from pathlib import Path

from duqishom import BadRequest, NotCopied, Patience, Store, Transaction, TransactionFailed, aio
from duqishom.files import ROOT_FILE, file_name
from duqishom.pieces import SUMMED, place_in
from tests.folders import FolderTest, said
from tests.gateways import BEGIN, CHECKPOINT, SWEEP, Gateway, Wire, frame, raw, stand_in, until

FAMILY = b"c"
FILE = file_name(1)
ACCOUNTS = [b"account %02d" % number for number in range(20)]
FIRST = 100

# A root of one tablet with the file 1, of a store that has drawn no stamp.
TABLET = bytes.fromhex("00000001 01 00 00000001 0000000000000001 0000000000000004")
ROOT = b"TABROOT2" + bytes(16) + bytes.fromhex("0000000000000002 00000002 00000001") + TABLET + b"TABROOTZ"


def backup(path: Path) -> bytes:
    return frame(b"\x71" + os.fsencode(path))


def number_in(transaction: Transaction, row: bytes) -> int:
    return int(transaction.get(row, FAMILY) or b"0")


class Bank:
    """Clients that pay each other, and one that merges and sweeps, until they are told to end."""

    def __init__(self, gateway: Gateway) -> None:
        self._path = gateway.path
        self._has_ended = threading.Event()
        self.paid = self.swept = 0
        self.failures: list[BaseException] = []
        self._threads = [threading.Thread(target=self._guarded, args=(work,)) for work in (self.pay, self.pay, self.sweep)]

    def _guarded(self, work: Callable[[Store], None]) -> None:
        try:
            with Store(socket=self._path, patience=Patience(tries=100)) as store:
                while not self._has_ended.is_set():
                    with suppress(TransactionFailed):
                        work(store)
        except BaseException as failure:
            self.failures.append(failure)

    def pay(self, store: Store) -> None:
        giver, taker = random.sample(ACCOUNTS, 2)

        def move(t: Transaction) -> None:
            amount = random.randint(1, 9)
            for row, more in ((giver, -amount), (taker, amount)):
                t.set(row, FAMILY, b"%d" % (number_in(t, row) + more))

        store.run(move, attempts=100)
        self.paid += 1

    def sweep(self, store: Store) -> None:
        store.checkpoint()
        store.major(1)
        self.swept += store.sweep()

    def __enter__(self) -> Bank:
        for thread in self._threads:
            thread.start()
        return self

    def __exit__(self, *_: object) -> None:
        self._has_ended.set()
        for thread in self._threads:
            thread.join()


class Running(FolderTest):
    """A copy that is made while others ask."""

    def test_a_bank(self) -> None:
        for log in ("--log", "--no-log"):
            folder, copies = self.path / f"store{log}", [self.path / f"copy{log}{number}" for number in range(3)]
            folder.mkdir()
            # Files pile up while the one that merges waits for a copy.
            gateway = Gateway(self, ["--dir", str(folder), "--flush", "40", "--merge", "20", log])
            with Store(socket=gateway.path) as store:
                with store.transaction() as opening:
                    for account in ACCOUNTS:
                        opening.set(account, FAMILY, b"%d" % FIRST)
                with Bank(gateway) as bank:
                    for copy in copies:
                        paid, swept = bank.paid, bank.swept
                        self.assertTrue(until(lambda: bank.failures or (bank.paid > paid and bank.swept > swept)))
                        store.backup(copy)
            self.assertEqual(bank.failures, [])
            self.assertEqual(gateway.stop(), 0)
            for copy in copies:
                self.assertEqual(said("verify", copy)[0], 0)
                with Store(folder=copy) as opened:
                    self.assertEqual(opened.has_log, log == "--log")
                    total = opened.run(lambda t: sum(number_in(t, row) for row in ACCOUNTS))
                    self.assertEqual(total, FIRST * len(ACCOUNTS))

    def held_up(self, *words: str) -> tuple[Gateway, Wire, int]:
        """A gateway of a folder whose file is a pipe, a client that waits for its copy, and the write end of the
        pipe."""
        (self.path / ROOT_FILE).write_bytes(ROOT)
        os.mkfifo(self.path / FILE)
        # A raw read shows whether a Sweep has come
        program = stand_in(self, "return bytes((0x91, 0)) + bytes((15 in asked,) if 15 in asked else ()) if body[0] == 17 else plain(body)")
        gateway = Gateway(self, ["--program", program, "--dir", self.folder, "--no-log", *words])
        waits = gateway.wire()
        waits.send(backup(self.path / "copy") + BEGIN)
        ends: list[int] = []

        def opened() -> bool:
            with suppress(OSError):
                ends.append(os.open(self.path / FILE, os.O_WRONLY | os.O_NONBLOCK))
            return bool(ends)

        self.assertTrue(until(opened))
        return gateway, waits, ends[0]

    def test_nobody_waits_but_a_sweep(self) -> None:
        gateway, waits, pipe = self.held_up()
        sweeps, other = gateway.wire(), gateway.wire()
        sweeps.send(BEGIN + SWEEP)
        self.assertEqual(sweeps.reply()[0], 0x81)
        for asked, code in ((BEGIN, 0x81), (CHECKPOINT, 0x92), (BEGIN, 0x81)):
            self.assertEqual(other.ask(asked)[0], code)
        self.assertEqual(other.ask(raw(b"r", 0)), b"\x91\0")
        os.write(pipe, b"file")
        os.close(pipe)
        self.assertEqual(waits.reply(), b"\xf1")
        self.assertEqual(waits.reply()[0], 0x81)
        self.assertEqual(sweeps.reply()[0], 0x8F)
        self.assertEqual(other.ask(raw(b"r", 0)), b"\x91\0\1")
        self.assertEqual((self.path / "copy" / FILE).read_bytes(), b"file")
        self.assertEqual((self.path / "copy" / ROOT_FILE).read_bytes(), ROOT)

    def test_a_client_that_leaves(self) -> None:
        for is_half in (False, True):
            with self.subTest(is_half=is_half):
                gateway, waits, pipe = self.held_up()
                if is_half:
                    waits.socket.shutdown(socket.SHUT_WR)
                else:
                    waits.close()
                # The request answered now came later
                gateway.statistics()
                os.write(pipe, b"file")
                os.close(pipe)
                # It is answered when no copy is being made any more
                self.assertEqual(gateway.wire().ask(SWEEP)[0], 0x8F)
                self.assertFalse((self.path / "copy" / ROOT_FILE).exists())
                if is_half:
                    self.assertRegex(waits.reply(), b"^\xf1the copy was stopped")
                for file in (self.path / "copy").iterdir():
                    file.unlink()
                (self.path / FILE).unlink()
                self.assertEqual(gateway.stop(), 0)

    def test_the_end_of_the_gateway(self) -> None:
        gateway, waits, pipe = self.held_up("--grace", "600")
        gateway.process.terminate()
        self.assertTrue(until(lambda: self.is_closed(gateway.path)))
        os.close(pipe)
        is_made = waits.reply() == b"\xf1"
        self.assertEqual(gateway.process.wait(60), 0)
        self.assertEqual((self.path / "copy" / ROOT_FILE).exists(), is_made)

    def is_closed(self, path: str) -> bool:
        """Whether no process listens at a socket any more."""
        with socket.socket(socket.AF_UNIX) as probe:
            return probe.connect_ex(path) != 0


class Refusals(FolderTest):
    """Failed copies, with the sentence that says so, and a store that still works after them."""

    def test_sentences(self) -> None:
        full, folder = self.path / "full", self.path / "store"
        for path in (full, folder):
            path.mkdir()
        (full / "file").touch()
        refuses = stand_in(self, "return bytes((0xFF, 0x13)) if body[0] == 18 else plain(body)")
        with_folder = ["--dir", str(folder)]
        cases: list[tuple[list[str], str, str]] = [
            ([], "copy", "a store in memory has no folder to copy"),
            (with_folder, "full", "full is not empty"),
            (with_folder, "full/file", "File exists"),
            (with_folder, "none/copy", "No such file or directory"),
            ([*with_folder, "--program", refuses], "copy", "the store has refused the checkpoint"),
        ]
        for words, place, why in cases:
            with self.subTest(why):
                gateway = Gateway(self, words)
                with Store(socket=gateway.path) as store:
                    self.assertRaisesRegex(NotCopied, why, store.backup, self.path / place)
                    store.stop(store.begin())
                gateway.stop()
                self.assertFalse(place_in(self.path / place, 0).exists())

    def test_a_full_disk(self) -> None:
        """A limit of the file size simulates it."""
        store_folder = self.path / "store"
        store_folder.mkdir()
        gateway = Gateway(self, ["--dir", str(store_folder)])
        with Store(socket=gateway.path) as store:
            store.run(lambda t: t.set(b"r", FAMILY, b"v"))
            resource.prlimit(gateway.process.pid, resource.RLIMIT_FSIZE, (30, resource.RLIM_INFINITY))
            self.assertRaisesRegex(NotCopied, f"File too large.*copy/{file_name(SUMMED + 1)}", store.backup, self.path / "copy")
            self.assertFalse(place_in(self.path / "copy", 0).exists())
            self.assertEqual(store.sweep(), 0)
            resource.prlimit(gateway.process.pid, resource.RLIMIT_FSIZE, (resource.RLIM_INFINITY, resource.RLIM_INFINITY))
            self.assertEqual(said("--socket", gateway.path, "backup", self.path / "again")[0], 0)
        self.assertIn("1 cells", said("verify", self.path / "again")[1])

    def test_the_administrator(self) -> None:
        store_folder = self.path / "store"
        store_folder.mkdir()
        gateway = Gateway(self, ["--dir", str(store_folder), "--admin", "ADMIN"])
        with Store(socket=gateway.path) as store, Store(socket=gateway.admin) as administrator:
            self.assertRaises(BadRequest, store.backup, self.path / "copy")
            administrator.backup(self.path / "copy")

        async def again() -> None:
            async with aio.Store(socket=gateway.admin) as store:
                with self.assertRaises(NotCopied):
                    await store.backup(self.path / "copy")

        asyncio.run(again())
        self.assertEqual(said("verify", self.path / "copy")[0], 0)


if __name__ == "__main__":
    unittest.main()
