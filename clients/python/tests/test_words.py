"""The command, in words through a pipe."""

from __future__ import annotations

import importlib.util
import json
import os
import pty
import subprocess
import sys
import tempfile
import unittest
from pathlib import Path

from duqishom import Store
from duqishom.texts import bytes_of, text_of
from duqishom.version import VERSION
from tests.gateways import PATIENCE, Gateway, folder_of, set_, step
from tests.peer import peer
from tests.poor import NO_MEMORY
from tests.test_scans import ALL, BEGIN, MOST, STOP, THREE

FOLDER = Path(__file__).resolve().parents[1]


def answers(lines: str, *words: str) -> tuple[int, list[str]]:
    """The exit status of the command, and its output, for these lines through a pipe."""
    command = [sys.executable, "-m", "duqishom", *words]
    ran = subprocess.run(command, cwd=FOLDER, input=lines, capture_output=True, text=True)
    return ran.returncode, (ran.stdout + ran.stderr).splitlines()


class Words(unittest.TestCase):
    """Each line of the command, with its output."""

    def assert_answered(self, table: list[tuple[str, str]], status: int) -> None:
        lines = "\n".join(line for line, _ in table)
        self.assertEqual(answers(lines), (status, [answer for _, answer in table]))

    def test_transactions(self) -> None:
        table = [
            ("set Bob bal 10", "committed at 2"),
            ("get Bob bal", "10"),
            ("get Joe bal", "nothing"),
            ("transfer Bob Joe bal 7", "committed at 6: Bob has 3, Joe has 7"),
            ("get Joe bal", "7"),
            ("raw Bob bal write 0 9", "6: start 5"),
            ("raw Bob bal data 0 4", "1: 10"),
            ("raw Bob bal lock 0 last", "nothing"),
        ]
        self.assert_answered(table, 0)

    def test_sessions(self) -> None:
        table = [
            ("begin", "session 1"),
            ("in 1 set Bob bal 10", "set"),
            ("in 1 set Joe bal 2", "set"),
            ("in 1 get Bob bal", "nothing"),
            ("in 1 step", "held 1 of 2"),
            ("raw Bob bal lock 0 9", "1: first cell Bob bal"),
            ("in 1 step", "held 2 of 2"),
            ("in 1 step", "stamped 2"),
            ("in 1 step", "committed at 2"),
            ("begin", "session 3"),
            ("in 3 get Bob bal", "10"),
            ("in 3 get Joe bal", "pending: locked by 1"),
            ("in 1 step", "finished 2 of 2"),
            ("in 3 get Joe bal", "2"),
            ("in 3 stop", "stopped"),
            ("checkpoint", "written"),
            ("begin", "session 4"),
            ("in 4 set Bob bal 11", "set"),
            ("in 4 delete Joe bal", "set to be deleted"),
            ("in 4 commit", "committed at 5"),
            ("get Bob bal", "11"),
            ("begin", "session 7"),
            ("in 7 set Joe bal 1", "set"),
            ("in 7 set Bob bal 1", "set"),
            ("set Bob bal 12", "committed at 9"),
            ("in 7 commit", "conflict at 2"),
            ("get Joe bal", "nothing"),
        ]
        self.assert_answered(table, 0)

    def test_upkeep(self) -> None:
        table = [
            ("set Bob bal 10", "committed at 2"),
            ("compact 1 minor", "compacted"),
            ("set Joe bal 2", "committed at 4"),
            ("compact 1 minor", "compacted"),
            ("compact 1 merge 2", "compacted"),
            ("compact 1 major", "compacted"),
            ("sweep", "3 files removed"),
            ("split Jim", "tablet 2 ends with Jim"),
            ("move 2 5", "moved"),
            ("tablets", "2 up to Jim: server 5, 0 entries of 0 bytes in memory, 1 files of 155 bytes"),
            ("", "1 up to the last row: server 0, 0 entries of 0 bytes in memory, 1 files of 155 bytes"),
            ("move 2 3", "moved"),
            ("set Joe bal 3", "committed at 6"),
            ("collect", "collected up to 7"),
            ("raw Joe bal write 0 5", "nothing"),
            ("get Joe bal", "3"),
            ("restart", "restarted"),
            ("begin", "session 1001"),
        ]
        lines = "\n".join(line for line, _ in table)
        self.assertEqual(answers(lines), (0, "\n".join(answer for _, answer in table).splitlines()))

    def test_what_is_not_done(self) -> None:
        table = [
            ("foo", "not done: no line begins with foo; help shows all"),
            ("set Bob", "not done: the line is set ROW FAMILY VALUE"),
            ("move 1", "not done: the line is move TABLET SERVER"),
            ("set 'Bob", "not done: no closing quotation"),
            ("set Bob b:l 1", "refused 4: BadColumn: family b'b:l': 1 to 64 bytes of 21 to 7E without ':'"),
            ("transfer Bob Joe bal 7", "not done: Bob has 0"),
            ("transfer Bob Bob bal 7", "not done: the two rows are one"),
            ("transfer Bob Joe bal -7", "not done: -7 is no number"),
            ("raw Bob bal row 0 9", "not done: row is none of data, lock and write"),
            ("compact 99999999999 minor", "not done: a number is too large"),
            (
                "compact 2 minor",
                "refused 11: UnknownTablet: tablet 2: tablets have the numbers from 1 to as many as there are",
            ),
            ("in 9 step", "refused 1: UnknownSession: session 9: it has ended, or never began"),
            ("in 9 commit", "refused 1: UnknownSession: session 9: it has ended, or never began"),
            ("backup /tmp", "not done: a store in memory has no folder to copy"),
        ]
        self.assert_answered(table, 1)

    def test_locked_cells(self) -> None:
        table = [
            ("begin", "session 1"),
            ("in 1 set Bob bal 10", "set"),
            ("in 1 step", "held 1 of 1"),
            ("in 1 stop", "stopped"),
            ("get Bob bal", "nothing"),
            ("begin", "session 3"),
            ("in 3 set Bob bal 20", "set"),
            ("in 3 step", "held 1 of 1"),
            ("clean Bob bal", "gone"),
            ("clean Bob bal", "no lock"),
            ("in 3 step", "stamped 4"),
            ("in 3 step", "lost"),
            ("set Bob bal 5", "committed at 6"),
        ]
        self.assert_answered(table, 0)

    def test_bytes(self) -> None:
        table = [
            ("set B\\x00b bal two\\x20words\\x5c", "committed at 2"),
            ("get B\\x00b bal", "two\\x20words\\x5c"),
            ("set 'Bob' \"bal\" é\\xff", "committed at 5"),
            ("get Bob bal", "é\\xff"),
        ]
        table += [("set 'two words' bal ''", "committed at 8"), ('get "two words" bal', '')]
        self.assertEqual(answers("\n".join(line for line, _ in table))[0], 0)
        for given in (b"", b"\\x00", b"a b", bytes(range(256)), "é".encode()):
            self.assertEqual(bytes_of(text_of(given)), given)

    def test_help(self) -> None:
        status, lines = answers("help\nquit\nfoo\n")
        self.assertEqual((status, len(lines)), (0, 33))

    def test_deletions(self) -> None:
        table = [
            ("set Bob bal 10", "committed at 2"),
            ("delete Bob bal", "committed at 4"),
            ("get Bob bal", "nothing"),
            ("raw Bob bal write 0 9", "4: start 3, a deletion"),
            ("begin", "session 6"),
            ("in 6 delete Joe bal", "set to be deleted"),
            ("in 6 step", "held 1 of 1"),
            ("raw Joe bal lock 0 9", "6: first cell Joe bal, a deletion"),
        ]
        self.assert_answered(table, 0)

    def test_scans(self) -> None:
        table = [
            ("scan", "nothing"),
            ("set Bob bal 10", "committed at 3"),
            ("set Bob name 'Robert B.'", "committed at 5"),
            ("set Joe bal 2", "committed at 7"),
            ("set B\\x00b bal ''", "committed at 9"),
            ("scan --family bal", "B\\x00b bal \nBob bal 10\nJoe bal 2"),
            ("scan Bob Bob", "Bob bal 10\nBob name Robert\\x20B."),
            ("scan --prefix B --keys Bo", "Bob bal\nBob name"),
            ("count", "4"),
            ("count C", "1"),
            ("scan K L", "nothing"),
            ("in 9 stop", "refused 1: UnknownSession: session 9: it has ended, or never began"),
            ("scan --keys --limit 2", "B\\x00b bal\nBob bal"),
            ("scan --reverse --limit 2", "Joe bal 2\nBob name Robert\\x20B."),
            ("scan --keys --reverse Bob Bob", "Bob name\nBob bal"),
            (
                "scan a b c",
                "not done: the line is scan [--prefix ROW] [--family FAMILY] [--keys] [--limit N] [--reverse] [START] [END]",
            ),
            ("count --prefix", "not done: the line is count [--prefix ROW] [--family FAMILY] [START] [END]"),
            ("scan --family a:b", "refused 4: BadColumn: family b'a:b': 1 to 64 bytes of 21 to 7E without ':'"),
        ]
        lines = "\n".join(line for line, _ in table)
        self.assertEqual(answers(lines), (1, "\n".join(answer for _, answer in table).splitlines()))

    def test_scans_come_line_by_line(self) -> None:
        """No more cells are asked for than the limit. Lines before a refusal are shown, but no part of a list of JSON."""
        first = b"\xb1\2\0\0\0\1a\0\0\0\1c\0\0\0\1\0\0\0\1a\0\0\0\1c\1\0\0\0\1v"
        program = peer(self, [BEGIN, (ALL + b"\0\0\0\1", first), STOP])
        self.assertEqual(answers("", "--program", program, "scan", "--limit", "1"), (0, ["a c v"]))
        on = b"\x31" + THREE + b"\0\1\0\0\0\1a\0\0\0\1c\0\0" + MOST
        program = peer(self, [BEGIN, (ALL + MOST, first), (on, NO_MEMORY), STOP])
        refused = "refused 20: NoMemory"
        for form, told in (
            ((), ["a c v", refused]),
            (("--raw",), ["a\tc\tv", refused]),
            (("--json",), [json.dumps({"error": refused})]),
        ):
            self.assertEqual(answers("", "--program", program, *form, "scan"), (1, told))

    def test_nobody_reads_on(self) -> None:
        """A pipe that is closed ends a scan, as it ends a dump."""
        with Store(folder=folder_of(self)) as store:
            folder = store.folder
            with store.transaction() as t:
                for number in range(100):
                    t.put(b"%d" % number, b"c", bytes(10_000))
        for form in ("--raw", "--no-checkpoint"):
            command = [sys.executable, "-m", "duqishom", "--dir", str(folder), form, "scan"]
            with subprocess.Popen(command, cwd=FOLDER, stdout=subprocess.PIPE, stderr=subprocess.PIPE) as child:
                assert child.stdout is not None and child.stderr is not None
                self.assertEqual(child.stdout.read(4), b"0\tc\t" if form == "--raw" else b"0 c ")
                child.stdout.close()
                self.assertEqual((child.stderr.read(), child.wait(PATIENCE)), (b"", 0))

    def test_explain(self) -> None:
        told = "; its first cell is Bob bal; it"
        table = [
            ("set Joe bal 2", "committed at 2"),
            ("delete Joe bal", "committed at 4"),
            ("begin", "session 5"),
            ("in 5 set Bob bal 3", "set"),
            ("in 5 set Joe bal -9", "set"),
            ("in 5 step", "held 1 of 2"),
            ("in 5 step", "held 2 of 2"),
            ("explain Bob bal", f"Bob bal: nothing\nlock 5: session 5 sets it to 3{told} hasn't committed"),
            ("locks --prefix J", f"Joe bal: session 5 sets it{told} hasn't committed"),
            ("clean Bob bal", "gone"),
            ("locks", f"Joe bal: session 5 sets it{told} was rolled back"),
            ("clean Joe bal", "rolled back"),
            ("set Joe bal 7", "committed at 9"),
            ("explain Joe bal", "Joe bal: 7\nrecord 9: set to 7 by session 8"),
            ("", "record 4: deleted by session 3\nrecord 2: set to 2 by session 1"),
            ("", "data 5: -9, of session 5, which has no lock and no record here"),
            ("locks", "no locks"),
        ]
        lines = "\n".join(line for line, _ in table)
        self.assertEqual(answers(lines), (0, "\n".join(answer for _, answer in table).splitlines()))

    def test_committed_lock(self) -> None:
        with tempfile.TemporaryDirectory() as folder:
            words = ("begin", "in 1 set Bob bal 3", "in 1 delete Joe bal", *["in 1 step"] * 4, "in 1 stop")
            self.assertEqual(answers("\n".join(words), "--dir", folder)[0], 0)
            told = "session 1 deletes it; its first cell is Bob bal; it has committed at 2"
            self.assertEqual(answers("locks", "--dir", folder), (0, [f"Joe bal: {told}"]))
            status, lines = answers("status", "--dir", folder)
            self.assertEqual((status, lines[1:3]), (0, ["tablets: 1", "files: 1"]))
            self.assertLessEqual({"store tablets: 1", "store files: 1", "store sessions: 0"}, set(lines))

    def test_gateway(self) -> None:
        """Another client holds a cell. Its lock is shown, and the client is first of all."""
        gateway = Gateway(self)
        wire = gateway.wire()
        wire.ask(set_(start := wire.begin(), b"Bob", b"3"))
        wire.ask(step(start))
        status, lines = answers("locks\nclients\nstatus\nsplit m\ntablets", "--socket", gateway.path)
        held = "Bob c: session 1 sets it; its first cell is Bob c; it hasn't committed"
        self.assertEqual((status, lines[0], lines[1].split()[0]), (0, held, "client"))
        self.assertRegex(lines[2], rf"^ +1 +{os.getpid()} +{os.geteuid()} +\d+ s +1 +\d+ s +3 +0$")
        told = {f"version: {VERSION}", "requests Step: 1", "open sessions: 1", "store sessions: 1", "store memtable_entries: 2"}
        self.assertLessEqual(told, set(lines))
        self.assertNotIn("requests Major: 0", lines)
        self.assertEqual([line.partition(":")[0] for line in lines[-2:]], ["2 up to m", "1 up to the last row"])

    def test_forms(self) -> None:
        words = "set Bob bal 'a \\x00'\nget Bob bal\nget Joe bal\nscan --keys\ncount\nexplain Bob bal\nfoo\n"
        wanted: list[object] = [
            {"commit": 2},
            {"row": "Bob", "family": "bal", "value": "a \\x00"},
            {"row": "Joe", "family": "bal", "value": None},
            [{"row": "Bob", "family": "bal"}],
            {"count": 1},
            {
                "row": "Bob",
                "family": "bal",
                "value": "a \\x00",
                "locks": [],
                "records": [{"commit": 2, "session": 1, "kind": "set"}],
                "data": [{"session": 1, "value": "a \\x00"}],
            },
            {"error": "not done: no line begins with foo; help shows all"},
        ]
        status, lines = answers(words, "--json")
        self.assertEqual((status, [json.loads(line) for line in lines]), (1, wanted))
        words = "set Bob bal 'a b'\nget Bob bal\nget Joe bal\nscan"
        self.assertEqual(answers(words, "--raw"), (0, ["committed at 2", "a b", "Bob\tbal\ta b"]))

    def test_help_of_a_line(self) -> None:
        """No store is opened for it. In a line without options a word with hyphens is an argument."""
        for words, first in (
            (("get", "--help"), "usage: get ROW FAMILY"),
            (("compact", "-h"), "usage: compact TABLET {minor,merge,major} ..."),
            (("--dir", "no/such/folder", "count", "--help"), "usage: count [--prefix ROW] [--family FAMILY] [START] [END]"),
        ):
            status, lines = answers("", *words)
            self.assertEqual((status, lines[0]), (0, first))
        self.assertEqual(answers("set --help --prefix -x\nget --help --prefix"), (0, ["committed at 2", "-x"]))

    @unittest.skipUnless(importlib.util.find_spec("readline"), "this Python has no readline")
    def test_terminal(self) -> None:
        """Words are completed, long answers come in pages, and the history lasts."""
        with tempfile.TemporaryDirectory() as folder:
            ours, theirs = pty.openpty()
            shown = {"TERM": "dumb", "PAGER": "tr a-z A-Z", "LINES": "9", "COLUMNS": "80"}
            place = {**os.environ, **shown, "XDG_STATE_HOME": folder}
            command = [sys.executable, "-m", "duqishom"]
            with subprocess.Popen(command, cwd=FOLDER, env=place, stdin=theirs, stdout=theirs, stderr=theirs) as child:
                os.close(theirs)
                told = b""
                for line in (b"sta\t\n", b"in 1 st\t\t\n", b"help\n", b"quit\n"):
                    while not told.endswith(b"> "):
                        told += os.read(ours, 4096)
                    os.write(ours, line)
                    told += b"|"
                self.assertEqual(child.wait(60), 1)
            told += os.read(ours, 65_536)
            os.close(ours)
            for part in (rb"\|status \r\n", rb"\nSTORE TABLETS: 1\r\n", rb"\nstep +stop +\r\n", rb"\nSET ROW FAMILY VALUE  "):
                self.assertRegex(told, part)
            history = Path(folder) / "duqishom" / "history"
            self.assertEqual(history.read_text().split(), ["status", "in", "1", "st", "help", "quit"])
            self.assertEqual(history.stat().st_mode & 0o777, 0o600)

    def test_one_shot(self) -> None:
        for log, last in (("--no-log", "two\\x20words"), ("--log", "3")):
            with tempfile.TemporaryDirectory() as folder:
                for words, status, told in (
                    (("set", "Bob", "bal", "two words"), 0, "committed at 2"),
                    (("get", "Bob", "bal"), 0, "two\\x20words"),
                    (("get", "Bob"), 1, "not done: the line is get ROW FAMILY"),
                    (("--no-checkpoint", "set", "Bob", "bal", "3"), 0, "committed at 2002"),
                    (("get", "Bob", "bal"), 0, last),
                ):
                    self.assertEqual(answers("", "--dir", folder, log, *words), (status, [told]), (log, words))

    def test_no_folder(self) -> None:
        status, told = answers("", "--dir", "no/such/folder", "begin")
        self.assertEqual(status, 2)
        self.assertEqual(told, ["duqishom: the store isn't opened (status 4): there is no folder no/such/folder"])
        self.assertEqual(answers("", "--log", "begin")[0], 2)

    def test_another_program(self) -> None:
        self.assertEqual(answers("begin\n", "--program", "true")[0], 2)
        self.assertEqual(answers("begin\n", "--program", "/nowhere/tabletd")[0], 2)


if __name__ == "__main__":
    unittest.main()
