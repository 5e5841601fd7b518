"""The order of a program's calls over a folder: with a log the state that a reply shows is synced before the reply is
sent, without one what a checkpoint puts."""

from __future__ import annotations

import re
import shutil
import tempfile
import unittest
from collections.abc import Callable, Iterable
from pathlib import Path

from duqishom import Store
from duqishom.files import LOG_FILE as LOG
from duqishom.files import log_of
from duqishom.program import default_program
from tests.folders import FolderTest

CALLS = "write,pwrite64,writev,fdatasync,fsync,rename,renameat,renameat2,openat,ftruncate,unlink,unlinkat"

# The file that a mark is written to.
NEW_MARK = "oracle.new"

# The file of the root.
ROOT = "t8000000000000000.tab"

# A call on an open file, and a call on a file by its path.
ON_FILE = re.compile(r"(write|pwrite64|writev|ftruncate|fdatasync|fsync)\((\d+)<([^>]*)>.* = \d+$")
BY_PATH = re.compile(r'(rename|renameat|renameat2|unlink|unlinkat)\((?:AT_FDCWD[^,]*, )?"([^"]*)"(?:, (?:AT_FDCWD[^,]*, )?"([^"]*)")?.* = 0$')


class Disk:
    """The changes of a folder that its calls so far have synced to disk, and those that they haven't."""

    def __init__(self, folder: str) -> None:
        self._folder = folder
        self._unsynced: set[str] = set()
        self._moved: list[str] = []
        self.renewed: set[str] = set()
        self.wrong: list[str] = []
        self.replies = 0

    def take(self, line: str) -> None:
        """Takes a line of a trace."""
        if found := ON_FILE.search(line):
            self._take_file(found[1], int(found[2]), found[3])
        elif found := BY_PATH.search(line):
            self._take_path(found[1], found[2], found[3])

    def _take_file(self, call: str, descriptor: int, path: str) -> None:
        if call in ("fdatasync", "fsync"):
            self._unsynced.discard(path)
            if path == self._folder:
                self._moved.clear()
        elif path.startswith(self._folder):
            self._unsynced.add(path)
        elif descriptor == 1:
            self.replies += 1
            self.wrong += [f"reply {self.replies}: {path} isn't synced" for path in sorted(self._unsynced)]
            self.wrong += [f"reply {self.replies}: {what} isn't synced" for what in self._moved]

    def _take_path(self, call: str, path: str, to: str | None) -> None:
        if not path.startswith(self._folder):
            return
        if call.startswith("rename") and to is not None:
            if path in self._unsynced:
                self.wrong.append(f"{Path(path).name} was renamed before it was synced")
            self.renewed.add(Path(to).name)
        self._unsynced.discard(path)
        self._moved.append(f"{call} of {Path(path).name}")


def synced(trace: Iterable[str]) -> list[set[str]]:
    """The names of the files that were synced before each reply, after the reply before it."""
    names: list[set[str]] = [set()]
    for line in trace:
        found = ON_FILE.search(line)
        if found and found[1] in ("fdatasync", "fsync"):
            names[-1].add(Path(found[3]).name)
        elif found and found[2] == "1":
            names.append(set())
    return names[:-1]


def judged(folder: str, trace: Iterable[str]) -> Disk:
    """The state of a folder after a trace."""
    disk = Disk(folder)
    for line in trace:
        disk.take(line)
    return disk


# A commit, and a file that is renamed to its final name. Without any one of these syncs a reply, or a rename, comes too
# early.
TRACE = (
    'write(3</d/commit.log>, "e", 1) = 1',
    "fdatasync(3</d/commit.log>) = 0",
    'write(1<pipe:[1]>, "r", 1) = 1',
    'write(4</d/t1.new>, "f", 1) = 1',
    "fdatasync(4</d/t1.new>) = 0",
    'rename("/d/t1.new", "/d/t1.tab") = 0',
    "fsync(4</d>) = 0",
    'write(1<pipe:[1]>, "r", 1) = 1',
)


class Order(FolderTest):
    """Each reply's order, as strace shows it."""

    def test_the_judge_sees_each_sync_that_is_left_out(self) -> None:
        self.assertEqual(judged("/d", TRACE).wrong, [])
        for left_out in (1, 4, 6):
            shorter = [line for number, line in enumerate(TRACE) if number != left_out]
            self.assertNotEqual(judged("/d", shorter).wrong, [], TRACE[left_out])

    @unittest.skipUnless(shutil.which("strace"), "strace isn't here; Debian has it in the package strace")
    def test_what_a_reply_says_is_synced_before_it_leaves(self) -> None:
        for log in (False, True):
            disk = judged(self.folder, self.traced(self.all_kinds, log))
            self.assertEqual(disk.wrong, [])
            self.assertGreater(disk.replies, 5)

    @unittest.skipUnless(shutil.which("strace"), "strace isn't here; Debian has it in the package strace")
    def test_log_root_and_mark_are_written_anew_before_the_first_reply_after_a_kill(self) -> None:
        self.traced(self.commit_twice)
        trace = self.traced(self.commit)
        first = next(number for number, line in enumerate(trace) if "write(1<" in line)
        self.assertLessEqual({"commit.log", "oracle.mark", ROOT}, judged(self.folder, trace[:first]).renewed)
        self.assertEqual(judged(self.folder, trace).wrong, [])

    @unittest.skipUnless(shutil.which("strace"), "strace isn't here; Debian has it in the package strace")
    def test_a_stamp_lasts_by_a_record_of_the_log(self) -> None:
        """The file of the mark is stored by a checkpoint and by an opening alone."""
        for is_new in (True, False):
            trace = self.traced(self.draw)
            self.assertEqual(judged(self.folder, trace).wrong, [])
            opening, *draws, checkpoint = synced(trace)[:8]
            self.assertEqual(draws, 2 * [{LOG}, set(), set()])
            self.assertEqual((NEW_MARK in opening, NEW_MARK in checkpoint), (not is_new, True))

    @unittest.skipUnless(shutil.which("strace"), "strace isn't here; Debian has it in the package strace")
    def test_the_next_log_has_room_before_its_root_is_put(self) -> None:
        trace = self.traced(self.commit_twice)
        put = max(number for number, line in enumerate(trace) if "rename" in line and ROOT in line)
        calls = [line for line in trace[:put] if "commit.new" in line]
        self.assertIn("fsync", calls[-1])

    def commit(self, store: Store) -> None:
        """Commits a cell."""
        store.run(lambda t: t.set(b"a", b"c", b"1"))

    def commit_twice(self, store: Store) -> None:
        """Commits a cell before a checkpoint and after it, which leaves a mark and records."""
        self.commit(store)
        store.checkpoint()
        self.commit(store)

    def draw(self, store: Store) -> None:
        """Draws two stamps of each of two ranges, each of which is below a mark of the log by its reply. Then makes a
        checkpoint, and a last request, whose call the trace may lack."""
        for _ in range(2):
            for _ in range(2):
                start = store.begin()
                self.assertGreaterEqual(log_of((self.path / LOG).read_bytes()).mark(), start)
            store.restart_oracle()
        store.checkpoint()
        store.stop(start)

    def all_kinds(self, store: Store) -> None:
        """Requests that use each kind of call."""
        self.commit(store)
        store.minor(1)
        store.checkpoint()
        store.sweep()
        store.split(b"b")
        store.major(1)
        store.restart_oracle()
        self.commit(store)

    def traced(self, script: Callable[[Store], None], log: bool = True) -> list[str]:
        """The calls of a program that answers a script over the folder, which gets a log or none, and is killed then."""
        with tempfile.TemporaryDirectory() as beside:
            trace, wrapped = Path(beside) / "trace", Path(beside) / "wrapped"
            wrapped.write_text(f'#!/bin/sh\nexec strace -f -qq -y -o {trace} -e trace={CALLS} {default_program()} "$@"\n')
            wrapped.chmod(0o755)
            with Store(str(wrapped), folder=self.folder, checkpoint_at_close=False, log=log) as store:
                script(store)
                store.kill()
            return trace.read_text().splitlines()
