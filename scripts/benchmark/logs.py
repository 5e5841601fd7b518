"""Stores whose writes are synced before they are answered: how fast they write, and how fast they open a log."""

from __future__ import annotations

import os
import random
import shutil
import sqlite3
import subprocess
import sys
import time
from collections.abc import Callable, Iterator
from pathlib import Path

from benchmark.requests import field

TOP = Path(__file__).resolve().parents[2]
sys.path.insert(0, str(TOP / "clients" / "python"))

from duqishom.files import RecordKind, frame_of, log_of  # noqa: E402

FOLDER = Path(__file__).parent
HEADER = Path("/usr/include/leveldb/db.h")

VALUE = b"v" * 100
FAMILY = b"c"
BEGIN, COMMITTED = b"\x01", b"\x84\x04"

# The size in bytes of a one-cell commit's edits with such a row and value.
COMMIT_BYTES = 259

# The entries at which a memtable is compacted, more than a log has when it is filled.
MANY = "99000"

# The maximum number of cells of a commit.
MOST_CELLS = 256

# The maximum number of edits of a log before a checkpoint empties it.
MOST_EDITS = 49_500


def rows() -> Iterator[bytes]:
    """New rows of 16 bytes, in random order."""
    dice = random.Random(53)
    while True:
        yield b"%016x" % dice.getrandbits(64)


class Program:
    """A tabletd over a pipe."""

    def __init__(self, program: str, folder: Path, *words: str) -> None:
        """Starts it, and waits until it has opened its folder."""
        command = [program, "--dir", str(folder), *words]
        self.child = subprocess.Popen(command, stdin=subprocess.PIPE, stdout=subprocess.PIPE, bufsize=0)
        assert self.child.stdin is not None and self.child.stdout is not None
        self._in, self._out = self.child.stdin.fileno(), self.child.stdout.fileno()
        os.set_blocking(self._in, False)
        self._rest = b""
        self.ask([b""])

    def ask(self, bodies: list[bytes]) -> list[bytes]:
        """The bodies of the replies to these requests, which are sent in one write if they fit."""
        data, replies = memoryview(b"".join(map(field, bodies))), list[bytes]()
        while len(replies) < len(bodies):
            if data:
                try:
                    data = data[os.write(self._in, data) :]
                    continue
                except BlockingIOError:
                    pass
            came = os.read(self._out, 1 << 20)
            if not came:
                sys.exit(f"tabletd has ended with status {self.child.wait()}")
            self._rest += came
            at = 0
            while at + 4 <= len(self._rest) and (end := at + 4 + int.from_bytes(self._rest[at : at + 4], "big")) <= len(self._rest):
                replies.append(self._rest[at + 4 : end])
                at = end
            self._rest = self._rest[at:]
        return replies

    def end(self) -> None:
        """Kills it."""
        self.child.kill()
        self.child.wait()
        for pipe in (self.child.stdin, self.child.stdout):
            assert pipe is not None
            pipe.close()


def set_in(start: bytes, row: bytes) -> bytes:
    """The body of a Set."""
    return b"\x03" + start + field(row) + field(FAMILY) + field(VALUE)


def commits(program: Program, new: Iterator[bytes], count: int) -> None:
    """Commits this many rows, each in a session of its own: all begin in one trip, and commit in the next one."""
    starts = [reply[1:] for reply in program.ask([BEGIN] * count)]
    bodies = [body for start in starts for body in (set_in(start, next(new)), *[b"\x04" + start] * 3)]
    check(program.ask(bodies)[3::4])


def commit(program: Program, new: Iterator[bytes], count: int) -> None:
    """Commits this many rows in one session."""
    [reply] = program.ask([BEGIN])
    start = reply[1:]
    bodies = [*(set_in(start, next(new)) for _ in range(count)), *[b"\x04" + start] * (2 * count + 1)]
    check([program.ask(bodies)[2 * count + 1]])


def check(replies: list[bytes]) -> None:
    """Ends the script if a reply isn't that of a commit."""
    if not all(reply.startswith(COMMITTED) for reply in replies):
        sys.exit("not the replies that are wanted")


def rate(write: Callable[[int], None], count: int, seconds: float) -> float:
    """The rows written per second, `count` at once."""
    began, written = time.monotonic(), 0
    while (took := time.monotonic() - began) < seconds:
        write(count)
        written += count
    return written / took


def tabletd_rate(
    way: Callable[[Program, Iterator[bytes], int], None], program: str, folder: Path, count: int, seconds: float, *words: str
) -> float:
    """The rate of tabletd, one way or the other."""
    running, new = Program(program, folder, *words), rows()
    try:
        return rate(lambda count: way(running, new, count), count, seconds)
    finally:
        running.end()


def opened_sqlite(folder: Path) -> sqlite3.Connection:
    """A database in WAL mode, synced fully."""
    database = sqlite3.connect(folder / "database", isolation_level=None)
    database.execute("PRAGMA journal_mode = WAL")
    database.execute("PRAGMA synchronous = FULL")
    database.execute("CREATE TABLE IF NOT EXISTS cells (row BLOB PRIMARY KEY, value BLOB) WITHOUT ROWID")
    return database


def insert(database: sqlite3.Connection, new: Iterator[bytes], count: int) -> None:
    """Inserts this many rows in one transaction."""
    database.execute("BEGIN")
    database.executemany("INSERT INTO cells VALUES (?, ?)", [(next(new), VALUE) for _ in range(count)])
    database.execute("COMMIT")


def sqlite_rate(folder: Path, count: int, seconds: float) -> float:
    """The rate of SQLite."""
    database, new = opened_sqlite(folder), rows()
    try:
        return rate(lambda count: insert(database, new, count), count, seconds)
    finally:
        database.close()


def file_rate(folder: Path, count: int, seconds: float) -> float:
    """The rate of a file to which the bytes of `count` commits are appended at once, with a sync each time."""
    with (folder / "file").open("ab", buffering=0) as file:

        def add(count: int) -> None:
            file.write(bytes(COMMIT_BYTES * count))
            os.fdatasync(file.fileno())

        return rate(add, count, seconds)


def built() -> str:
    """The program that scripts/tabletd runs, built if it isn't yet."""
    subprocess.run([TOP / "scripts" / "tabletd"], stdin=subprocess.DEVNULL, stderr=subprocess.DEVNULL, check=True)
    out = TOP / "crates" / "tabletd" / "out"
    found = [os.environ.get("TABLETD", ""), str(out / "tabletd"), str(out / "unproved" / "tabletd")]
    return next(program for program in found if program and os.access(program, os.X_OK))


def compiled(name: str, place: Path, *words: str) -> str | None:
    """A program of this folder, or None if a compiler is missing."""
    compiler = shutil.which("c++")
    if compiler is None:
        return None
    program = str(place / name)
    subprocess.run([compiler, "-O2", "-std=c++17", str(FOLDER / f"{name}.cc"), "-o", program, *words], check=True)
    return program


def compiled_client(place: Path) -> str | None:
    """The program that sends Commits to tabletd, or None if a compiler is missing."""
    return compiled("tabletd_log", place)


def compiled_leveldb(place: Path) -> str | None:
    """The program that drives LevelDB, or None if its header or a compiler is missing."""
    return compiled("leveldb_log", place, "-lleveldb") if HEADER.exists() else None


def client_rate(client: str, program: str, folder: Path, count: int, ahead: int, seconds: float) -> float:
    """The rate of tabletd with a log and large memtables, by a client that sends Commits of a row: as soon as at most `ahead` of
    them wait for an answer, it sends more, so that `count` wait."""
    words = [client, count, ahead, seconds, program, "--dir", folder, "--log", "--flush", MANY]
    return float(subprocess.run(list(map(str, words)), check=True, capture_output=True, text=True).stdout)


def leveldb(program: str, what: str, folder: Path, *words: object) -> float:
    """The figure measured by the program that drives LevelDB."""
    ran = subprocess.run([program, what, str(folder), *map(str, words)], check=True, capture_output=True, text=True)
    return float(ran.stdout or "0")


def fill_log(program: str, folder: Path, new: Iterator[bytes], edits: int) -> None:
    """Makes a store whose log has this many edits, or a few more: four for each commit."""
    running = Program(program, folder, "--log", "--flush", MANY)
    left = edits // 4
    while left > 0:
        commits(running, new, min(left, MOST_CELLS))
        left -= MOST_CELLS
    running.end()


def add_edits(log: Path, other: Path) -> None:
    """Appends the edits of another store's log to a log, with continued numbers."""
    to, new = log_of(log.read_bytes()), log_of(other.read_bytes())
    edits = [record for record in new.records if record.kind is RecordKind.EDITS]
    with log.open("r+b") as joined:
        joined.truncate(to.end)
        joined.seek(to.end)
        for number, record in enumerate(edits, start=to.first + len(to.records)):
            joined.write(frame_of(number, record.kind, record.stamp, record.body))


def tabletd_opening(program: str, folder: Path, edits: int) -> tuple[float, int]:
    """The seconds in which tabletd opens a folder whose log has this many edits, up to some 99,000, and the log's size
    in bytes.

    A checkpoint empties a log before it has that many. So the records of a second store, with other rows, are appended
    to it.
    """
    new, log = rows(), folder / "commit.log"
    fill_log(program, folder, new, min(edits, MOST_EDITS))
    if edits > MOST_EDITS:
        other = folder / "other"
        other.mkdir()
        fill_log(program, other, new, min(edits - MOST_EDITS, MOST_EDITS))
        add_edits(log, other / log.name)
        shutil.rmtree(other)
    size = log_of(log.read_bytes()).end
    began = time.monotonic()
    running = Program(program, folder)
    took = time.monotonic() - began
    running.end()
    return took, size


FILL_SQLITE = """
import os, sqlite3, sys
from pathlib import Path
from benchmark.logs import insert, opened_sqlite, rows
database, new = opened_sqlite(Path(sys.argv[1])), rows()
database.execute("PRAGMA wal_autocheckpoint = 0")
for _ in range(int(sys.argv[2]) // 250):
    insert(database, new, 250)
os._exit(0)
"""


def sqlite_opening(folder: Path, count: int) -> tuple[float, int]:
    """The same for SQLite, with this many rows in its log, and the first read."""
    place = {**os.environ, "PYTHONPATH": str(FOLDER.parent)}
    subprocess.run([sys.executable, "-B", "-c", FILL_SQLITE, str(folder), str(count)], check=True, env=place)
    size = (folder / "database-wal").stat().st_size
    began = time.monotonic()
    database = sqlite3.connect(folder / "database")
    database.execute("SELECT * FROM cells LIMIT 1").fetchone()
    took = time.monotonic() - began
    database.close()
    return took, size


def leveldb_opening(program: str, folder: Path, count: int) -> tuple[float, int]:
    """The same for LevelDB."""
    leveldb(program, "fill", folder, count)
    size = sum(log.stat().st_size for log in folder.glob("*.log"))
    return leveldb(program, "open", folder), size
