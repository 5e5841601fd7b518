"""A folder for a test, removed with it, and the command's output about folders."""

from __future__ import annotations

import tempfile
import unittest
from contextlib import redirect_stderr, redirect_stdout
from io import StringIO
from pathlib import Path

from duqishom.__main__ import main


class FolderTest(unittest.TestCase):
    """A test with a folder of its own."""

    def setUp(self) -> None:
        folder = tempfile.TemporaryDirectory()
        self.addCleanup(folder.cleanup)
        self.folder = folder.name
        self.path = Path(folder.name)


def said(*words: object) -> tuple[int, str]:
    """The status of the command, and its output."""
    out = StringIO()
    with redirect_stdout(out), redirect_stderr(out):
        status = main([str(word) for word in words])
    return status, out.getvalue()
