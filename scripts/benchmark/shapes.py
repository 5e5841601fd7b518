"""The shapes of the streams that scripts/bench measures."""

from __future__ import annotations

import random
from collections.abc import Callable, Iterable, Iterator
from typing import NamedTuple

from benchmark.requests import (
    MAJOR,
    MINOR,
    Exchange,
    Write,
    begin,
    begin_clean,
    begin_collect,
    commit,
    commit_first,
    committed,
    decide,
    draw,
    get,
    hold,
    put,
    read,
    roll_forward,
    scans,
    split,
    stamps_of,
    stop,
    transaction,
    visit,
)

# The number of files of a store whose rows are read, and of a folder that is opened.
FILES = 48

# A number of memtable entries with which none of these streams has an automatic compaction.
LARGE_MEMTABLE = ("--flush", "99999")

# Requests by the size of a stream.
Stream = Callable[[int], Iterable[Exchange]]

# A row that is read, and its value, or None.
Found = tuple[bytes, bytes | None]


# How often the shapes scan, missing and missing1 read their rows.
PASSES = 10


class Shape(NamedTuple):
    """A stream of requests by its size, and the store that it is sent to. The figures are per request, or per row read:
    the size is the number of rows, and `passes` how often each is read, or 0."""

    size: int
    what: str
    asked: Stream
    loaded: Stream = lambda size: ()
    words: tuple[str, ...] = ()
    is_folder: bool = False
    is_opening: bool = False
    passes: int = 0


def short_value(number: int) -> bytes:
    """A value of 8 bytes."""
    return b"%08d" % number


def middle_value(number: int) -> bytes:
    """A value of 100 bytes."""
    return b"%0100d" % number


def long_value(number: int) -> bytes:
    """A value of 1 KiB."""
    return b"%01024d" % number


def short_row(number: int) -> bytes:
    """One of 1,000 rows, in turn."""
    return b"row%03d" % (number % 1000)


def long_row(number: int) -> bytes:
    """One of 1,000 rows of 4,000 bytes, which differ in their last bytes."""
    return short_row(number).rjust(4000, b"r")


def zero_row(number: int) -> bytes:
    """One of 1,000 rows of 14 bytes, the fifth of which is 0."""
    return b"user\0%09d" % (number % 1000)


def hot_row(number: int) -> bytes:
    """The one row."""
    return b"row"


def shuffled_rows(count: int) -> list[bytes]:
    """Rows in a random order, the same one each time."""
    rows = [b"row%05d" % number for number in range(count)]
    random.Random(1).shuffle(rows)
    return rows


def commits(count: int, row_of: Callable[[int], bytes], minor_every: int | None = None) -> Iterator[Exchange]:
    """Transactions of one cell, with a minor compaction of tablet 1 now and then."""
    for number in range(count):
        yield from transaction(number, [(row_of(number), short_value(number))])
        if minor_every and number % minor_every == minor_every - 1:
            yield MINOR


def random_commits(count: int) -> Iterator[Exchange]:
    """Transactions of one cell each, on rows in a random order."""
    return commits(count, shuffled_rows(count).__getitem__)


def whole_commits(count: int) -> Iterator[Exchange]:
    """Transactions of one cell on 1,000 rows, in one request each, with a Minor every 2,000 of them."""
    for number in range(count):
        start, stamped = stamps_of(number)
        yield commit(0, [(short_row(number), short_value(number))], start, stamped)
        if number % 2_000 == 1_999:
            yield MINOR


def accounts(size: int) -> Iterator[Exchange]:
    """Puts 1,000 into each of 1,000 accounts, whatever the size."""
    for number in range(1000):
        yield from transaction(number, [(short_row(number), b"1000")])


def moves(count: int) -> Iterator[tuple[int, list[Write], list[Write]]]:
    """What transfers read and write: the number of each, two of these accounts with their balances, and the same after a
    part of the first was moved into the second."""
    balances = [1000] * 1000
    draws = random.Random(3)
    for number in range(1000, 1000 + count):
        pair = draws.sample(range(1000), 2)
        before = [(short_row(account), b"%d" % balances[account]) for account in pair]
        amount = draws.randrange(balances[pair[0]] + 1)
        balances[pair[0]] -= amount
        balances[pair[1]] += amount
        yield number, before, [(short_row(account), b"%d" % balances[account]) for account in pair]


def transfers(count: int) -> Iterator[Exchange]:
    """Transfers, request by request."""
    for number, before, after in moves(count):
        start, _ = stamps_of(number)
        exchanges = transaction(number, after)
        yield next(exchanges)
        yield from (get(start, row, balance) for row, balance in before)
        yield from exchanges


def whole_transfers(count: int) -> Iterator[Exchange]:
    """The same, in two requests each: a read of both accounts, and a commit of both."""
    for number, before, after in moves(count):
        start, stamped = stamps_of(number)
        yield read(start, before)
        yield commit(start, after, start, stamped)


def first_row(number: int) -> bytes:
    """The row of the first cell of a transaction that stops after its commit."""
    return b"a%08d" % number


def second_row(number: int) -> bytes:
    """The row of its second cell, which stays locked."""
    return b"b%08d" % number


def stopped(number: int) -> Iterator[Exchange]:
    """A transaction of two cells that stops between its commit and the second of them."""
    value = short_value(number)
    yield from committed(number, [(first_row(number), value), (second_row(number), value)])
    yield stop(stamps_of(number)[0])


def cleaned(number: int) -> Iterator[Exchange]:
    """The requests of a cleaner of the lock that such a transaction left."""
    start, commit = stamps_of(number)
    yield begin_clean(number + 1, second_row(number), start)
    yield decide(number + 1)
    yield roll_forward(number + 1, commit)


def stranded(count: int) -> Iterator[Exchange]:
    """Leaves locks behind, then cleans all of them."""
    yield from (exchange for number in range(count) for exchange in stopped(number))
    yield MINOR
    yield from (exchange for number in range(count) for exchange in cleaned(number))


def collected(count: int) -> Iterator[Exchange]:
    """Writes 100 versions of each cell, collects the old ones, and reads each cell.

    A collector's first pass visits each cell once. Its second pass erases the old versions of a cell, and then finds
    the cell clean. At the end of each pass one visit finds no cell.
    """
    rows = count // 100
    for number in range(100 * rows):
        yield from transaction(number, [(b"row%05d" % (number % rows), short_value(number))])
    yield MAJOR
    start, _ = stamps_of(100 * rows)
    visits = 3 * rows + 2
    yield begin_collect(1, start)
    yield from [visit(1, is_last=False)] * ((visits - 1) // 1000)
    yield visit(1, is_last=True)
    yield begin(start)
    yield from (get(start, b"row%05d" % row, short_value(99 * rows + row)) for row in range(rows))


def together(first: int, sessions: int) -> Iterator[Exchange]:
    """Sessions with one write each that are open at once, and take each of their steps in turn.

    `first` transactions come before them.
    """
    begun, _ = stamps_of(first)
    pairs = [(begun + number, begun + sessions + number) for number in range(sessions)]
    yield from (begin(start) for start, _ in pairs)
    yield from (put(start, (short_row(number), short_value(start))) for number, (start, _) in enumerate(pairs))
    yield from (hold(start, 1, 1) for start, _ in pairs)
    yield from (draw(start, commit) for start, commit in pairs)
    yield from (commit_first(start, commit) for start, commit in pairs)


def many_sessions(count: int) -> Iterator[Exchange]:
    """Transactions of one cell each, a thousand of them at once."""
    for first in range(0, count, 1000):
        yield from together(first, min(1000, count - first))


def wide_commits(count: int) -> Iterator[Exchange]:
    """Transactions of 256 cells each, on rows in a random order."""
    rows = iter(shuffled_rows(256 * count))
    for number in range(count):
        yield from transaction(number, [(next(rows), long_value(number)) for _ in range(256)])


def rows_in_files(count: int) -> Iterator[Exchange]:
    """Rows that are set in a random order, and written to files of equal numbers of rows."""
    for number, row in enumerate(shuffled_rows(count)):
        yield from transaction(number, [(row, middle_value(number))])
        if (number + 1) * FILES // count > number * FILES // count:
            yield MINOR


def rows_in_one(count: int) -> Iterator[Exchange]:
    """The same, and then one file of these."""
    yield from rows_in_files(count)
    yield MAJOR


def ordered_writes(count: int) -> list[Write]:
    """Rows in their order, each with its value."""
    return [(b"row%06d" % number, short_value(number)) for number in range(count)]


def rows_in_one_file(count: int) -> Iterator[Exchange]:
    """The same rows, set in a random order and in transactions of 100, and then written to one file."""
    writes = ordered_writes(count)
    random.Random(1).shuffle(writes)
    for number, first in enumerate(range(0, count, 100)):
        yield from transaction(number, writes[first : first + 100])
    yield MAJOR


def all_scans(count: int) -> Iterator[Exchange]:
    """Reads all these rows in one session, several times."""
    start = next_start(-(-count // 100))
    yield begin(start)
    for _ in range(PASSES):
        yield from scans(start, ordered_writes(count))


def present(rows: list[bytes], number: int) -> Found:
    """An existing row, and its value."""
    return rows[number], middle_value(number)


def missing(rows: list[bytes], number: int) -> Found:
    """A missing row between the existing ones."""
    return rows[number] + b"x", None


def gets(count: int, start: int, found: Callable[[list[bytes], int], Found], passes: int = 1) -> Iterator[Exchange]:
    """Random reads in one session, over `count` rows in files: one read per row and pass."""
    rows = shuffled_rows(count)
    draws = random.Random(2)
    yield begin(start)
    for _ in range(passes * count):
        yield get(start, *found(rows, draws.randrange(count)))


def next_start(count: int) -> int:
    """The first start after this number of transactions."""
    return stamps_of(count)[0]


def reopened_start(count: int) -> int:
    """The same in a folder that is opened after them: a program begins with a new range of 1,000 stamps."""
    return -(-2 * count // 1000) * 1000 + 1


def splits(size: int) -> Iterator[Exchange]:
    """Splits between all of 1,024 rows, whatever the size."""
    return (split(b"row%04d" % number, number + 2) for number in range(1023))


def tablet_commits(count: int) -> Iterator[Exchange]:
    """Transactions of one cell each, on these rows in turn."""
    return commits(count, lambda number: b"row%04d" % (number % 1024))


SHAPES = {
    "rows": Shape(
        100_000,
        "commits of one cell on 1,000 rows, with a Minor every 2,000 of them",
        lambda size: commits(size, short_row, 2_000),
    ),
    "random": Shape(33_000, "commits of one cell on rows in a random order", random_commits),
    "hot": Shape(15_000, "commits of one hot cell", lambda size: commits(size, hot_row)),
    "transfer": Shape(
        15_000, "transfers between two of 1,000 rows: two Gets and two Sets", transfers, loaded=accounts
    ),
    "commit": Shape(100_000, "as rows, with a Commit in the place of five requests", whole_commits),
    "move": Shape(
        15_000, "as transfer, with a Read and a Commit in the place of ten requests", whole_transfers, loaded=accounts
    ),
    "files": Shape(
        160_000,
        "commits of one cell on 1,000 rows, with 48 files written on the way",
        lambda size: commits(size, short_row, 10_000),
    ),
    "merge": Shape(
        160_000,
        "the same, with the files merged by --merge 8",
        lambda size: commits(size, short_row, 10_000),
        words=("--merge", "8"),
    ),
    "collect": Shape(
        100_000, "commits of one cell, 100 of each; a Major; collecting old versions; reading each cell", collected
    ),
    "clean": Shape(10_000, "commits of two cells, each stopped before the second one; cleaning those", stranded),
    "many": Shape(30_000, "commits of one cell on 1,000 rows by 1,000 sessions that are open at once", many_sessions),
    "wide": Shape(
        80,
        "commits of 256 cells with values of 1 KiB, with --flush 1500",
        wide_commits,
        words=("--flush", "1500"),
    ),
    "tablet1": Shape(
        30_000, "commits of one cell on 1,024 rows of one tablet", tablet_commits, words=LARGE_MEMTABLE
    ),
    "tablets": Shape(
        30_000, "the same, with a tablet for each row", tablet_commits, loaded=splits, words=LARGE_MEMTABLE
    ),
    "long": Shape(
        3_000, "commits of one cell on 1,000 rows of 4,000 bytes", lambda size: commits(size, long_row, 2_000)
    ),
    "zero": Shape(
        100_000, "as rows, on rows of 14 bytes, one of them 0", lambda size: commits(size, zero_row, 2_000)
    ),
    "get48": Shape(
        48_000,
        "N Gets at random of N rows in 48 files",
        lambda size: gets(size, next_start(size), present),
        loaded=rows_in_files,
        words=LARGE_MEMTABLE,
    ),
    "missing": Shape(
        48_000,
        "10 N Gets of rows that aren't there, between the same N rows",
        lambda size: gets(size, next_start(size), missing, PASSES),
        loaded=rows_in_files,
        words=LARGE_MEMTABLE,
    ),
    "get1": Shape(
        48_000,
        "the same as get48, once a Major has made one file of all",
        lambda size: gets(size, next_start(size), present),
        loaded=rows_in_one,
        words=LARGE_MEMTABLE,
    ),
    "missing1": Shape(
        48_000,
        "the same as missing, once a Major has made one file of all",
        lambda size: gets(size, next_start(size), missing, PASSES),
        loaded=rows_in_one,
        words=LARGE_MEMTABLE,
    ),
    "cached": Shape(
        48_000,
        "the same as get48, with --cache 256",
        lambda size: gets(size, next_start(size), present),
        loaded=rows_in_files,
        words=(*LARGE_MEMTABLE, "--cache", "256"),
    ),
    "scan": Shape(
        100_000,
        "N rows of one file, ten times, by scans of 1,000 cells; its figures are those of a row, and not of a request",
        all_scans,
        loaded=rows_in_one_file,
        passes=PASSES,
    ),
    "folder": Shape(
        48_000,
        "N Gets as those of get48, in a folder",
        lambda size: gets(size, reopened_start(size), present),
        loaded=rows_in_files,
        words=LARGE_MEMTABLE,
        is_folder=True,
    ),
    "open": Shape(
        48_000,
        "opening a folder of N rows in 48 files; its figures are those of a row, and not of a request",
        lambda size: (),
        loaded=rows_in_files,
        words=LARGE_MEMTABLE,
        is_folder=True,
        is_opening=True,
        passes=1,
    ),
}
