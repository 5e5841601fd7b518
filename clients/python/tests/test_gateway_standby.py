"""A gateway that stands by until another one's program has left their folder."""

from __future__ import annotations

import os
import signal
import unittest
from contextlib import suppress

from duqishom import Store
from tests.gateways import BEGIN, Gateway, Wire, folder_of, until

VALUE = b"\x82\x01\0\0\0\x01v"
FAMILY = b"c"
READY, PROGRAM = "duqishom: ready", r"process \d+ \(.*\), which process \d+ has started"


def kill(gateway: Gateway) -> None:
    """Kills a gateway and its program, as the end of their machine does."""
    program = gateway.program()
    gateway.process.kill()
    with suppress(ProcessLookupError):
        os.kill(program, signal.SIGKILL)
    gateway.process.wait()


def serves(gateway: Gateway) -> bool:
    """Whether a gateway answers. One that waits closes its socket again, if it has opened it."""
    try:
        return gateway.wire().ask(BEGIN)[0] == 0x81
    except (OSError, EOFError):
        return False


class Standby(unittest.TestCase):
    """What it does, and when."""

    def standby(self, folder: str, path: str | None = None, *words: str) -> Gateway:
        """One that stands by."""
        gateway = Gateway(self, ["--dir", folder, "--standby", *words], path=path)
        self.assertRegex(gateway.first, f"^duqishom: stands by, for {folder} is in use by {PROGRAM}$")
        return gateway

    def test_kill_9_of_the_first(self) -> None:
        """At another socket, and at the same one."""
        for same in (False, True):
            with self.subTest(same=same):
                folder = folder_of(self)
                first = Gateway(self, ["--dir", folder])
                self.assertEqual(first.wire().commit(b"r", b"v")[:2], b"\x84\4")
                second = self.standby(folder, first.path if same else None)
                if not same:
                    self.assertRaises(FileNotFoundError, Wire, second.path)
                kill(first)
                self.assertEqual(second.line(), READY)
                self.assertEqual(second.wire().read(b"r"), VALUE)
                self.assertEqual(second.stop(), 0)

    def test_a_client_goes_on(self) -> None:
        """It tries to connect anew, and its commits are there."""
        folder = folder_of(self)
        first = Gateway(self, ["--dir", folder])
        with Store(socket=first.path, reconnect=60) as store:
            for number in range(20):
                if number == 10:
                    second = self.standby(folder, first.path)
                    kill(first)
                store.put(b"%02d" % number, FAMILY, b"v")
            self.assertEqual(store.count(), 20)
        self.assertEqual(second.stop(), 0)

    def test_one_that_ends_by_itself(self) -> None:
        folder = folder_of(self)
        first = Gateway(self, ["--dir", folder])
        self.assertEqual(first.wire().commit(b"r", b"v")[:2], b"\x84\4")
        second = self.standby(folder)
        self.assertEqual(first.stop(), 0)
        self.assertEqual(second.line(), READY)
        self.assertEqual(second.wire().read(b"r"), VALUE)

    def test_two(self) -> None:
        """One of them serves, and the other stands by for that one."""
        folder = folder_of(self)
        first = Gateway(self, ["--dir", folder])
        both = [self.standby(folder), self.standby(folder)]
        kill(first)
        self.assertTrue(until(lambda: any(map(serves, both))))
        serving, waiting = sorted(both, key=serves, reverse=True)
        self.assertEqual(serving.wire().commit(b"r", b"v")[:2], b"\x84\4")
        self.assertEqual((serves(waiting), waiting.process.poll()), (False, None))
        kill(serving)
        self.assertTrue(until(lambda: serves(waiting)))
        self.assertEqual(waiting.wire().read(b"r"), VALUE)

    def test_a_signal(self) -> None:
        folder = folder_of(self)
        first = Gateway(self, ["--dir", folder])
        for number in (signal.SIGTERM, signal.SIGINT):
            second = self.standby(folder)
            second.process.send_signal(number)
            self.assertEqual(second.process.wait(60), 0)
        self.assertEqual(first.wire().commit(b"r", b"v")[:2], b"\x84\4")

    def test_a_folder_that_is_free(self) -> None:
        gateway = Gateway(self, ["--dir", folder_of(self), "--standby"])
        self.assertEqual(gateway.first, READY)
        gateway = Gateway(self, ["--dir", "/no/such/folder", "--standby"])
        self.assertEqual(gateway.first, "tabletd: device failed at open")
        self.assertEqual(gateway.process.wait(60), 4)

    def test_words(self) -> None:
        for words in (["--standby"], ["--standby", "--dir", folder_of(self), "--program", "/no/such/program"]):
            self.assertEqual(Gateway(self, words).process.wait(60), 2)


if __name__ == "__main__":
    unittest.main()
