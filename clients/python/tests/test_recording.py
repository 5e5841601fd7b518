"""Recordings: the frames recorded by a store and a gateway, and the judgements of `tablet_audit`."""

from __future__ import annotations

import os
import stat
import subprocess
import tempfile
import unittest
from collections.abc import Callable
from pathlib import Path

from duqishom import Store
from duqishom.frames import whole_frames
from tests.gateways import Gateway, clean_begin, folder_of, raw, set_, step, until
from tests.pages import TOP
from tests.test_clients import ROWS

# The program that judges a recording: the environment's TABLET_AUDIT, or the proved one, if it is built.
AUDIT = os.environ.get("TABLET_AUDIT") or str(TOP / "crates" / "tablet_audit" / "out" / "tablet_audit")


def bodies(file: Path) -> list[bytes]:
    """The bodies of the frames of a file, which has no other bytes."""
    frames: list[bytes] = []
    data = file.read_bytes()
    assert whole_frames(data, frames) == len(data)
    return frames


def judged(place: Path, *words: str) -> tuple[int, str]:
    """The status of the judgement of a recording, and its line."""
    command = [AUDIT, str(place / "requests"), str(place / "replies"), *words]
    ran = subprocess.run(command, capture_output=True, text=True, timeout=60)
    return ran.returncode, ran.stdout


class Recordings(unittest.TestCase):
    def setUp(self) -> None:
        folder = tempfile.TemporaryDirectory()
        self.addCleanup(folder.cleanup)
        self.place = Path(folder.name) / "recording"

    def record(self, folder: str | None = None, log: bool | None = None, checkpoint: bool = True) -> None:
        """Records a store that reads, writes, deletes, cleans and collects, and makes a checkpoint at its end or none."""
        with Store(record=self.place, folder=folder, log=log, checkpoint_at_close=checkpoint) as store:
            with store.transaction() as transaction:
                transaction.set(b"Ann", b"bal", b"1")
                transaction.set(b"Bob", b"bal", b"2")
            with store.transaction() as transaction:
                transaction.get(b"Bob", b"bal")
                transaction.delete(b"Ann", b"bal")
            store.put(b"Joe", b"bal", b"3")
            store.get_many([(b"Bob", b"bal"), (b"Joe", b"bal")])
            store.clean(b"Ann", b"bal")
            store.collect()

    def test_frames_are_kept(self) -> None:
        with Store(record=self.place) as store:
            store.begin()
        self.assertEqual(bodies(self.place / "requests"), [b"", b"\x01"])
        self.assertEqual(bodies(self.place / "replies"), [b"\xff\x16", b"\x81" + bytes(7) + b"\x01"])
        self.assertFalse((self.place / "reopened-at").exists())

    def test_commits_and_reads_are_kept(self) -> None:
        self.record()
        self.assertLessEqual({0x32, 0x33}, {body[0] for body in bodies(self.place / "requests") if body})

    def test_its_owner_alone_may_read_it(self) -> None:
        with tempfile.TemporaryDirectory() as folder:
            for _ in range(2):
                self.record(folder)
        files = [self.place / name for name in ("requests", "replies", "recovered-at")]
        modes = [stat.S_IMODE(path.stat().st_mode) for path in (self.place, *files)]
        self.assertEqual(modes, [0o700, 0o600, 0o600, 0o600])

    def test_no_link_is_followed_and_no_pipe_is_written(self) -> None:
        for name in ("requests", "replies"):
            ways: list[Callable[[Path], None]] = [os.mkfifo, lambda path: os.symlink(self.place / "else", path)]
            for make in ways:
                with self.subTest(name), tempfile.TemporaryDirectory() as folder:
                    make(Path(folder) / name)
                    self.assertRaises(OSError, Store, record=folder)
        self.assertFalse((self.place / "else").exists())

    def test_a_recording_goes_on(self) -> None:
        with tempfile.TemporaryDirectory() as folder:
            self.record(folder, False)
            before = len(bodies(self.place / "replies"))
            self.record(folder, False)
            self.record(folder, True, False)
            behind = len(bodies(self.place / "replies"))
            self.record(folder)
        noted = (self.place / "reopened-at").read_text().strip().split(",")
        self.assertEqual(int(noted[0]), before)
        self.assertEqual(len(noted), 2)
        # The first Begin of each opening raises the mark by 1,000, the third one in the log alone
        self.assertEqual((self.place / "recovered-at").read_text(), f"{behind}:3000\n")

    def test_a_socket_is_recorded_by_its_gateway(self) -> None:
        with self.assertRaises(ValueError):
            Store(socket="nowhere", record=self.place)

    @unittest.skipUnless(os.access(AUDIT, os.X_OK), "tablet_audit isn't built")
    def test_a_recording_is_judged(self) -> None:
        for log, option in ((False, "reopened-at"), (True, "recovered-at")):
            self.place = self.place / option
            with tempfile.TemporaryDirectory() as folder:
                self.record(folder, log)
                count = len(bodies(self.place / "replies"))
                self.assertEqual(judged(self.place), (0, f"{count} replies, each a step of the machine\n"))
                self.record(folder, log)
            self.assertEqual(judged(self.place)[0], 1)
            self.assertEqual(judged(self.place, f"--{option}", (self.place / option).read_text().strip())[0], 0)


# A Commit of the cell r c in a new session, a Read of it in one that ends, and their answers' numbers.
COMMIT, READ, COMMITTED, CONFLICT, TOLD = b"\x32" + bytes(8), b"\x33" + bytes(9), b"\xb2\x01", b"\xb2\x02", b"\xb3"
CELL = b"\0\0\0\x01r\0\0\0\x01c"
SET = COMMIT + b"\0\0\0\x01" + CELL + b"\x01\0\0\0\x01v"


def number(value: int) -> bytes:
    """A stamp in a reply."""
    return value.to_bytes(8, "big")


def framed(frames: list[bytes]) -> bytes:
    """Bodies as frames."""
    return b"".join(len(body).to_bytes(4, "big") + body for body in frames)


@unittest.skipUnless(os.access(AUDIT, os.X_OK), "tablet_audit isn't built")
class WrittenRecordings(unittest.TestCase):
    def test_a_wrong_answer_is_found(self) -> None:
        done = (SET, COMMITTED + number(1) + number(2))
        cases = [
            ("Committed 3 4", [done, (SET, COMMITTED + number(3) + number(4))], 0),
            ("Conflict 3 1", [done, (SET, CONFLICT + number(3) + b"\0\x01")], 1),
            ("Committed 1 3", [done, (SET, COMMITTED + number(1) + number(3))], 1),
            ("1 cells", [done, (READ + b"\0\0\0\x01" + CELL, TOLD + number(3) + b"\0\0\0\x01\x01\0\0\0\x01v")], 0),
            ("1 cells", [done, (READ + b"\0\0\0\x01" + CELL, TOLD + number(3) + b"\0\0\0\x01\0")], 1),
        ]
        for words, exchanges, status in cases:
            with self.subTest(words, status=status):
                place = Path(folder_of(self))
                (place / "requests").write_bytes(framed([request for request, _ in exchanges]))
                (place / "replies").write_bytes(framed([reply for _, reply in exchanges]))
                code, line = judged(place)
                self.assertEqual(code, status)
                self.assertIn(words if status else "2 replies", line)


    def test_a_reply_is_missing(self) -> None:
        place = Path(folder_of(self))
        (place / "requests").write_bytes(framed([SET, SET]))
        (place / "replies").write_bytes(framed([COMMITTED + number(1) + number(2)]))
        self.assertEqual(judged(place), (2, "reply 2 is missing\n"))
        (place / "requests").write_bytes(b"")
        self.assertEqual(judged(place), (2, "request 1 is missing\n"))


# A client's request and its reply, as the hexadecimal bodies of two frames.
Rows = list[tuple[str, str]]
BEGUN, GONE = ("00000001 01", "00000001 81 0000000000000001"), ("00000001", "00000001 85")


@unittest.skipUnless(os.access(AUDIT, os.X_OK), "tablet_audit isn't built")
class ClientRecordings(unittest.TestCase):
    """Recordings over `tabletd --clients`."""

    def judged(self, rows: Rows, *words: str) -> tuple[int, str]:
        """The judgement of these rows."""
        place = Path(folder_of(self))
        (place / "requests").write_bytes(framed([bytes.fromhex(request) for request, _ in rows]))
        (place / "replies").write_bytes(framed([bytes.fromhex(reply) for _, reply in rows]))
        return judged(place, *words)

    def test_rows_of_three_clients(self) -> None:
        self.assertEqual(self.judged(ROWS, "--clients", "--admin", "7"), (0, f"{len(ROWS)} replies, each allowed\n"))
        self.assertEqual(self.judged(ROWS, "--clients")[0], 1)
        self.assertEqual(self.judged(ROWS)[0], 2)

    def test_a_wrong_answer_is_found(self) -> None:
        """Each case has the words of its line, or none if all is well."""
        cases: list[tuple[Rows, str]] = [
            # Another's session
            ([BEGUN, ("00000002 05 0000000000000001", "00000002 FF 01")], ""),
            ([BEGUN, ("00000002 05 0000000000000001", "00000002 85")], "reply 2 is not allowed: client 2: Stop 1 -> client 2: Stop done"),
            ([BEGUN, ("00000001 05 0000000000000001", "00000002 85")], "client 1: Stop 1 -> client 2: Stop done"),
            # An end
            ([BEGUN, GONE, ("00000001 05 0000000000000001", "00000001 FF 01")], ""),
            ([BEGUN, GONE, ("00000001 05 0000000000000001", "00000001 85")], "reply 3 is not allowed"),
            ([BEGUN, ("00000001", "00000001 FF 01")], "client 1: gone -> client 1: refused 1"),
            # A collector is left to client 0, or to the administrator
            ([("00000001 08", "00000001 88 0000000000000001 0000000000000001"), GONE, ("00000001 09 0000000000000001 00000001", "00000001 89 01")], "reply 3"),
            # Refusals without a reason, and for want of memory
            ([("00000001 01", "00000001 FF 07")], "client 1: Begin -> client 1: refused 7"),
            ([("00000001 01", "00000001 FF 14")], ""),
            ([BEGUN, ("00000001 01", "00000001 81 0000000000000001")], "reply 2 is not allowed"),
            # What only the administrator may ask
            ([("00000007 0F", "00000007 8F 0000000000000000")], ""),
            ([("00000001 0F", "00000001 8F 0000000000000000")], "client 1: Sweep"),
            ([("00000007 0F", "00000007 FF 16")], "client 7: Sweep"),
            # What is no request, and what has no client
            ([("00000002 FE", "00000002 FF 16")], ""),
            ([("00000002 FE", "00000001 FF 16")], "client 2: no request -> client 1: refused 22"),
            ([("0000 02", "00000000 FF 16")], ""),
            ([("0000 02", "00000002 FF 16")], "no client -> client 2: refused 22"),
        ]
        for rows, words in cases:
            with self.subTest(rows):
                code, line = self.judged(rows, "--clients", "--admin", "7")
                self.assertEqual(code, 1 if words else 0, line)
                self.assertIn(words, line)

    def test_a_client_has_its_limits(self) -> None:
        begun = [("00000001 01", f"00000001 81 {start:016x}") for start in range(1, 66)]
        self.assertEqual(self.judged(begun[:64], "--clients")[0], 0)
        self.assertEqual(self.judged(begun, "--clients")[0], 1)
        self.assertEqual(self.judged([*begun[:64], ("00000001 01", "00000001 FF 07")], "--clients")[0], 0)

    def test_nobody_has_anything_after_an_opening(self) -> None:
        rows = [BEGUN, ("00000001 05 0000000000000001", "00000001 FF 01")]
        self.assertEqual(self.judged(rows, "--clients")[0], 1)
        self.assertEqual(self.judged(rows, "--clients", "--reopened-at", "1")[0], 0)

    def test_an_answer_needs_a_client(self) -> None:
        self.assertEqual(self.judged([("00000001 01", "81 00")], "--clients"), (2, "reply 1 is outside the grammar\n"))


class RecordedGateways(unittest.TestCase):
    def test_a_gateway_records(self) -> None:
        place = Path(folder_of(self)) / "recording"
        gateway = Gateway(self, ["--record", str(place)])
        gateway.wire().commit(b"Ann", b"1")
        self.assertEqual(gateway.stop(), 0)
        self.assertEqual(bodies(place / "requests")[:2], [b"\xff\xff\xff\xff\0", b"\0\0\0\1\1"])
        self.assertEqual([body[:4] for body in bodies(place / "replies")], [body[:4] for body in bodies(place / "requests")])

    @unittest.skipUnless(os.access(AUDIT, os.X_OK), "tablet_audit isn't built")
    def test_what_a_client_leaves_is_the_gateways(self) -> None:
        """The gateway runs the cleaner of a client that is gone to its end, as the administrator of its program."""
        place = Path(folder_of(self)) / "recording"
        gateway = Gateway(self, ["--record", str(place)])
        first, second = gateway.wire(), gateway.wire()
        start = first.begin()
        first.ask(set_(start, b"r", b"v"))
        self.assertEqual(first.ask(step(start))[:2], b"\x84\x01")
        self.assertEqual(second.ask(clean_begin(b"r"))[:2], b"\x86\x01")
        second.close()
        # The lock is gone once its cleaner has ended
        self.assertTrue(until(lambda: first.ask(raw(b"r", 2)) == b"\x91\x00"))
        self.assertEqual([first.ask(step(start))[:2] for _ in range(2)], [b"\x84\x03", b"\x84\x05"])
        self.assertEqual(gateway.stop(), 0)
        self.assertEqual(judged(place, "--clients", "--admin", "4294967295")[0], 0)
        self.assertEqual(judged(place, "--clients")[0], 1)
