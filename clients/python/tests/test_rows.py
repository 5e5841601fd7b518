"""`tabletd --rows`: what it asks a bridge by itself, what its options do, and how it ends when the bridge is gone."""

from __future__ import annotations

import os
import subprocess
import unittest
from pathlib import Path

from duqishom.fields import counted, number
from duqishom.program import default_program
from tests.gateways import BEGIN, PATIENCE, folder_of, set_, step, stop
from tests.served import has_rows

START = 4096
PUBLISHES = 4096


class RowsTest(unittest.TestCase):
    def setUp(self) -> None:
        if not has_rows():
            self.skipTest("the program has no --rows")

    def begin(self, *words: str) -> None:
        """Starts the program, and opens the other ends of its pipes in its order."""
        folder = Path(folder_of(self))
        names = ("rows.to", "rows.from", "stamps.to", "stamps.from")
        for name in names:
            os.mkfifo(folder / name)
        command = [default_program(), "--rows", str(folder), *words]
        pipe = subprocess.PIPE
        self.program = subprocess.Popen(command, stdin=pipe, stdout=pipe, stderr=pipe)
        self.addCleanup(self.program.communicate)
        self.addCleanup(self.program.kill)
        self.pipes = {name: open(folder / name, "rb" if name.endswith("to") else "wb", buffering=0) for name in names}
        self.addCleanup(self.leave)

    def leave(self) -> None:
        """Closes the pipes."""
        for pipe in self.pipes.values():
            pipe.close()

    def send(self, frames: bytes) -> None:
        assert self.program.stdin is not None
        self.program.stdin.write(frames)
        self.program.stdin.flush()

    def reply(self) -> bytes:
        assert self.program.stdout is not None
        return self.program.stdout.read(int.from_bytes(self.program.stdout.read(4), "big"))

    def asked(self, pair: str) -> bytes:
        """The next message through a pipe."""
        pipe = self.pipes[f"{pair}.to"]
        return pipe.read(int.from_bytes(pipe.read(4), "big"))

    def answer(self, pair: str, body: bytes) -> None:
        self.pipes[f"{pair}.from"].write(counted(body))

    def session(self) -> bytes:
        self.send(BEGIN)
        self.assertEqual(self.asked("stamps"), b"\4")
        self.answer("stamps", b"\x84" + number(8, START))
        self.assertEqual(self.reply(), b"\x81" + number(8, START))
        return number(8, START)

    def test_an_end_behind_a_change(self) -> None:
        self.begin()
        start = self.session()
        self.send(set_(start, b"row", b"value"))
        self.assertEqual(self.reply(), b"\x83")
        self.send(step(start))
        # The request begins, which needs no answer
        self.assertEqual(self.asked("rows"), b"\6")
        self.assertEqual(self.asked("rows"), b"\1" + counted(b"row\0\0"))
        self.answer("rows", b"\x81" + number(8, 7) + number(4, 0))
        self.assertEqual(self.asked("rows")[:17], b"\2" + counted(b"row\0\0") + number(8, 7)[:7])
        self.leave()
        out, said = self.program.communicate(timeout=PATIENCE)
        self.assertEqual((out, said, self.program.returncode), (b"", b"tabletd: rows failed\n", 4))

    def test_a_floor_by_itself(self) -> None:
        self.begin()
        self.send(stop(number(8, 1)) * (PUBLISHES - 1))
        for _ in range(PUBLISHES - 1):
            self.assertEqual(self.reply(), b"\xff\1")
        self.send(stop(number(8, 1)))
        self.assertEqual(self.asked("stamps")[:1], b"\5")
        self.answer("stamps", b"\x85" + number(8, 0))
        self.assertEqual(self.reply(), b"\xff\1")

    def test_bytes_of_sessions(self) -> None:
        self.begin("--session-bytes", "1048576")
        start = self.session()
        for row in range(17):
            self.send(set_(start, b"row%d" % row, bytes(65_536)))
        self.assertEqual([self.reply() for _ in range(17)], [b"\x83"] * 15 + [b"\xff\x14"] * 2)


if __name__ == "__main__":
    unittest.main()
