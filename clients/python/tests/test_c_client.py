"""The client in C: clients/c/duqishom.h by its example and its checks, over a gateway."""

from __future__ import annotations

import shutil
import socket
import subprocess
import tempfile
import threading
import unittest
from collections.abc import Callable, Sequence
from itertools import groupby
from pathlib import Path

from duqishom import Store
from duqishom.fields import counted
from tests.gateways import PATIENCE, Gateway, folder_of, stand_in
from tests.pages import TOP, Ends, exchanges

SOURCES = TOP / "clients" / "c"
COMPILER = next((name for name in ("cc", "gcc", "clang") if shutil.which(name)), "")
STRICT = ("-Wall", "-Wextra", "-Wpedantic", "-Werror")

# The compilers and languages in which the header has no warning, if they are installed.
LANGUAGES = (
    ("gcc", "-std=c11"),
    ("clang", "-std=c11"),
    ("g++", "-x", "c++", "-std=c++11"),
    ("clang++", "-x", "c++", "-std=c++20"),
)

# The output of the example until it waits, and after the gateway has ended.
EXAMPLE = """\
Bob has 13, Joe has 9; attempts: 1
Bob has 9, Joe has 12; attempts: 2
Bob can't give 100: the caller's; attempts: 1
a bad write: BadColumn
Bob: 9
Eve: 1
Joe: 12
has 1; deleted; Conflict at the cell 1
by hand: OK
end the gateway, then press return
"""
AFTER = """\
Bob can't give 7: ConnectionLost; attempts: 0
again: NotConnected
"""

# The cases of checks.c, each with its output.
CASES = {
    "many": "many: OK\nmany: TooManyWrites\n\nfirst: OK\n55\nmany: OK\n",
    "room": "largest: OK\nlargest: NoRoom\n15 values, and Unsent\nlongest: OK\n65536 bytes\nroom: OK\n",
    "frame": "writes: OK\nframe: OK\nwrites: NoRoom\nframe: NoRoom\nframe: OK\n",
    "lock": "over a lock: OK\nattempts: 2\nstage: 5\n1 2 0\ncommitted: 0\ncommitted: 1\n2\nlock: OK\n",
    "fate": "unheard: OutcomeUnknown\ncommitted: 1\n3\nfate: OK\n",
    "closed": "closed: ConnectionLost\n",
    "nested": "nested: Nested\n",
    "write": "write: OK\n",
}

# The output of the case `examples`, whose requests and replies are those of docs/PROTOCOL.md, "Commit" and "Read".
EXAMPLES = """\
Commit 0: OK 1002 1003
Commit 1001: Conflict 1001 at 1
Read 0: OK 1004 Value 11 Nothing Pending 6
Commit 1004: OK 1004 1005
Commit 0: EmptyCommit
Read 77: BadCount 77
examples: OK
"""

# The bytes that a server sends after a Begin before it closes the connection, each with the status of the call.
ANSWERS = (
    ("00000009 81 0000000000000001", "OK"),
    ("00000002 FF 07", "TooManySessions"),
    ("00000002 FF 63", "an unknown refusal"),
    ("00000009 81 00000000000000", "ConnectionLost"),
    ("", "ConnectionLost"),
    ("00000000", "MalformedReply"),
    ("00100001", "MalformedReply"),
    ("00000008 81 00000000000001", "MalformedReply"),
    ("0000000A 81 0000000000000001 00", "MalformedReply"),
    ("00000001 82", "MalformedReply"),
    ("00000001 FF", "MalformedReply"),
    ("00000002 FF 00", "MalformedReply"),
)

# Requests and their replies. A Commit of one cell, one of two cells and three writes, and the look for the lock of the
# second cell.
BEGUN, STOPPED = ("01", "81 0000000000000001"), ("05 0000000000000001", "85")
BOB, JOE = "00000003 426F62 00000003 62616C 01 00000001 31", "00000003 4A6F65 00000003 62616C 00"
ONE, TWO = f"32 0000000000000001 00000001 {BOB}", f"32 0000000000000001 00000003 {BOB} {BOB} {JOE}"
DONE = "B2 01 0000000000000001 0000000000000002"
CONFLICT = "B2 02 0000000000000001 0002"
LOOK = "11 00000003 4A6F65 00000003 62616C 02 0000000000000000 7FFFFFFFFFFFFFFF"
LOCKED, FREE = "91 01 0000000000000003 0000000B 4A6F65000062616C000053", "91 00"

# Transactions of these cells: the requests, each with a server's reply, and the status. In order: commits, refused ones,
# also by an older program, conflicts with a lock that goes and with a commit, and answers that are none.
COMMITS = (
    ("write", (BEGUN, (ONE, DONE)), "OK"),
    ("two", (BEGUN, (TWO, DONE)), "OK"),
    ("write", (BEGUN, (ONE, "FF 0F"), STOPPED), "MemtableFull"),
    ("write", (BEGUN, (ONE, "FF 16"), STOPPED), "BadRequest"),
    ("two", (BEGUN, (TWO, CONFLICT), (LOOK, LOCKED), (LOOK, FREE), BEGUN, (TWO, DONE)), "OK"),
    ("two", (BEGUN, (TWO, CONFLICT), (LOOK, FREE), BEGUN, (TWO, DONE)), "OK"),
    ("write", (BEGUN, (ONE, "B2 03")), "OutcomeUnknown"),
    ("write", (BEGUN, (ONE, f"{DONE} 00")), "OutcomeUnknown"),
    ("write", (BEGUN, (ONE, "B2 02 0001")), "OutcomeUnknown"),
    ("write", (BEGUN, (ONE, "")), "OutcomeUnknown"),
)


@unittest.skipUnless(COMPILER, "there is no C compiler")
class Client(unittest.TestCase):
    """The programs, with the compiler's checks of memory if it has them."""

    folder: Path

    @classmethod
    def setUpClass(cls) -> None:
        made = tempfile.TemporaryDirectory()
        cls.addClassCleanup(made.cleanup)
        cls.folder = Path(made.name)
        for name in ("example", "checks"):
            command = [COMPILER, "-std=c11", *STRICT, "-o", str(cls.folder / name), str(SOURCES / f"{name}.c")]
            if subprocess.run([*command, "-fsanitize=address,undefined"], capture_output=True).returncode != 0:
                subprocess.run(command, check=True)

    def check(self, address: str, case: str) -> str:
        """The output of a case of checks.c."""
        command = [str(self.folder / "checks"), address, case]
        ran = subprocess.run(command, capture_output=True, text=True, timeout=PATIENCE)
        self.assertEqual((ran.returncode, ran.stderr), (0, ""))
        return ran.stdout

    def test_languages(self) -> None:
        for compiler, *words in LANGUAGES:
            if shutil.which(compiler):
                with self.subTest(compiler):
                    for name in ("example.c", "checks.c"):
                        command = [compiler, *words, *STRICT, "-fsyntax-only", str(SOURCES / name)]
                        ran = subprocess.run(command, capture_output=True, text=True)
                        self.assertEqual((ran.returncode, ran.stderr), (0, ""))

    def test_example(self) -> None:
        gateway = Gateway(self)
        pipe = subprocess.PIPE
        command = [str(self.folder / "example"), "unix:" + gateway.path]
        with subprocess.Popen(command, stdin=pipe, stdout=pipe, stderr=pipe, text=True) as example:
            assert example.stdout is not None
            lines = [example.stdout.readline() for _ in EXAMPLE.splitlines()]
            self.assertEqual("".join(lines), EXAMPLE)
            with Store(socket=gateway.path) as store:
                found = store.get_many([(row, b"bal") for row in (b"Bob", b"Joe", b"Eve", b"Ann")])
            self.assertEqual(found, [b"9", b"12", None, None])
            self.assertEqual(gateway.stop(), 0)
            self.assertEqual(example.communicate("\n", PATIENCE), (AFTER, ""))
            self.assertEqual(example.returncode, 0)

    def test_cases(self) -> None:
        gateway = Gateway(self)
        for case, output in CASES.items():
            with self.subTest(case):
                self.assertEqual(self.check(gateway.path, case), output)

    def test_several_clients(self) -> None:
        gateway = Gateway(self)
        command = [str(self.folder / "checks"), gateway.path, "counter"]
        running = [subprocess.Popen(command, stdout=subprocess.PIPE, text=True) for _ in range(4)]
        self.assertEqual([each.communicate(timeout=PATIENCE)[0] for each in running], ["counter: OK\n"] * 4)
        with Store(socket=gateway.path) as store:
            self.assertEqual(store.get(b"counter", b"bal"), b"100")

    def test_connection_lost_in_a_commit(self) -> None:
        for operation, status in ((1, "ConnectionLost"), (0x32, "OutcomeUnknown")):
            with self.subTest(operation):
                program = stand_in(self, f"return sys.exit(3) if body[0] == {operation} else plain(body)")
                gateway = Gateway(self, ["--program", program])
                self.assertEqual(self.check(gateway.path, "write"), f"write: {status}\n")
                gateway.process.wait(PATIENCE)

    def check_served(self, case: str, serve: Callable[[socket.socket], None]) -> str:
        """The output of a case of checks.c whose connection is served by this function."""
        path = folder_of(self) + "/socket"

        def accept() -> None:
            client, _ = server.accept()
            with client:
                client.settimeout(PATIENCE)
                serve(client)

        with socket.socket(socket.AF_UNIX) as server:
            server.bind(path)
            server.listen()
            server.settimeout(PATIENCE)
            serving = threading.Thread(target=accept)
            serving.start()
            output = self.check(path, case)
            serving.join()
        return output

    def test_replies(self) -> None:
        for answer, status in ANSWERS:
            with self.subTest(answer):

                def serve(client: socket.socket, answer: bytes = bytes.fromhex(answer)) -> None:
                    client.recv(64)
                    for byte in answer:
                        client.send(bytes((byte,)))

                self.assertEqual(self.check_served("begin", serve), f"begin: {status}\n")

    def check_exchanges(self, case: str, exchanged: Sequence[tuple[bytes, bytes]]) -> str:
        """The output of a case of checks.c whose requests must be these bytes, and get these replies."""
        asked: list[bytes] = []

        def serve(client: socket.socket) -> None:
            with client.makefile("rwb") as stream:
                for request, reply in exchanged:
                    asked.append(stream.read(len(request)))
                    stream.write(reply)
                    stream.flush()

        output = self.check_served(case, serve)
        self.assertEqual(asked, [request for request, _ in exchanged])
        return output

    def test_commits(self) -> None:
        for case, pairs, status in COMMITS:
            with self.subTest(case=case, pairs=pairs):
                exchanged = [(counted(bytes.fromhex(asked)), counted(bytes.fromhex(reply))) for asked, reply in pairs]
                self.assertEqual(self.check_exchanges(case, exchanged), f"{case}: {status}\n")

    def test_examples(self) -> None:
        blocks = [[line for line in block.lines if not isinstance(line, Ends)] for block in exchanges("docs/PROTOCOL.md")]
        lines = [line for block in blocks if block and block[0].frame[4:5].hex() in ("32", "33") for line in block]
        frames = [b"".join(line.frame for line in group) for _, group in groupby(lines, type)]
        self.assertEqual(self.check_exchanges("examples", list(zip(frames[::2], frames[1::2]))), EXAMPLES)


if __name__ == "__main__":
    unittest.main()
