"""The documents' examples: each frame, command and line of Python is run, and gives the output on the page."""

from __future__ import annotations

import doctest
import subprocess
import threading
import unittest

from duqishom.program import default_program
from tests.pages import TOP, Ends, Exchange, Got, Sent, commands, exchanges, fenced

README, PROTOCOL, CLIENT, OPERATIONS = "README.md", "docs/PROTOCOL.md", "docs/CLIENT.md", "docs/OPERATIONS.md"
PAGES = (README, PROTOCOL, CLIENT, OPERATIONS)


class Conversation:
    """A program that is sent frames, byte by byte as on a page. It has a minute, since it waits forever if a page is
    wrong."""

    def __init__(self, words: list[str]) -> None:
        pipe = subprocess.PIPE
        self._child = subprocess.Popen([default_program(), *words], stdin=pipe, stdout=pipe, stderr=pipe)
        self._limit = threading.Timer(60, self._child.kill)
        self._limit.start()

    def send(self, frame: bytes) -> None:
        assert self._child.stdin is not None
        self._child.stdin.write(frame)
        self._child.stdin.flush()

    def read(self, count: int) -> bytes:
        assert self._child.stdout is not None
        return self._child.stdout.read(count)

    def end(self) -> tuple[bytes, int, str]:
        """The output after the last reply that was read, the exit status, and the standard error."""
        written, told = self._child.communicate()
        self._limit.cancel()
        return written, self._child.returncode, told.decode().rstrip("\n")


class Frames(unittest.TestCase):
    """The frames of the pages."""

    def follow(self, conversation: Conversation, exchange: Exchange) -> None:
        for line in exchange.lines:
            match line:
                case Sent(frame):
                    conversation.send(frame)
                case Got(frame):
                    self.assertEqual(conversation.read(len(frame)).hex(" "), frame.hex(" "))
                case Ends(status, told):
                    self.assertEqual(conversation.end(), (b"", status, told))

    def assert_followed(self, page: str) -> None:
        conversation = Conversation([])
        for number, exchange in enumerate(exchanges(page), start=1):
            if exchange.is_new:
                conversation.end()
                conversation = Conversation(exchange.words)
            with self.subTest(block=number):
                self.follow(conversation, exchange)
        conversation.end()

    def test_protocol(self) -> None:
        self.assertGreater(len(exchanges(PROTOCOL)), 10)
        self.assert_followed(PROTOCOL)

    def test_first_cell(self) -> None:
        sent = [b"".join(line.frame for line in it.lines if isinstance(line, Sent)) for it in exchanges(PROTOCOL)]
        self.assertIn((TOP / "examples" / "first_cell.frames").read_bytes(), sent)


class Commands(unittest.TestCase):
    """The commands of all pages."""

    def test_commands(self) -> None:
        for page in PAGES:
            for command in commands(page):
                with self.subTest(command.command):
                    ran = subprocess.run(["bash", "-c", command.command], cwd=TOP, capture_output=True, text=True)
                    self.assertEqual(ran.stderr, "")
                    self.assertEqual(ran.stdout, command.output)


class Python(unittest.TestCase):
    """The lines of Python of all pages, each page's run together."""

    def test_lines(self) -> None:
        for page in (README, CLIENT):
            text = "\n".join(block.text for block in fenced(page, "python"))
            test = doctest.DocTestParser().get_doctest(text, {}, page, page, 0)
            result = doctest.DocTestRunner().run(test)
            self.assertGreater(result.attempted, 0)
            self.assertEqual(result.failed, 0)


if __name__ == "__main__":
    unittest.main()
