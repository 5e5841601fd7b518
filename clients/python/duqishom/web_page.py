"""The page that says how a store is, as HTML."""

from __future__ import annotations

import time
from collections import Counter
from collections.abc import Iterator
from itertools import islice

from duqishom.figures import counted, duration, moment, size, speed
from duqishom.statistics import STORE
from duqishom.version import VERSION
from duqishom.web_charts import are_labelled, large_line, range_of, small_line, tablet_bar
from duqishom.web_folder import FolderState
from duqishom.web_health import MOST_SESSIONS, Health, log_bytes
from duqishom.web_markup import Markup, table, tag
from duqishom.web_samples import INTERVAL, SPAN, Measure, Sample, View, measure, oldest_session, points, recent_rate
from duqishom.web_style import whole

# The rows that a table of tablets or of locks has at most.
MOST_ROWS = 6

# The counts of clients that have another name on the page.
CLIENTS = {"now": "connected", "ever": "since the start"}

# The figures of a folder in bytes, with their names on the page.
FILES = (
    ("bytes of files", "files"),
    ("bytes of files that no tablet has", "files of no tablet"),
    ("bytes free on the disk", "free on the disk"),
)

# The times of an operation's requests, with their names on the page.
TIMES = {"p50": "half within", "p99": "99% within", "greatest": "longest"}

# The operations that the page itself asks for, and that aren't part of the sum.
OWN = ("Statistics", "Status")


def page(path: str, view: View, health: Health, folder: FolderState | None) -> str:
    """The page of the store that a gateway serves at a path, and of its folder, if that is known."""
    last = view.last()
    parts = [header(path, last, view), word(health)]
    if last is not None:
        parts += [tag("p", f"The gateway's figures are {age(last)} old.", class_="note old")] if view.failure else []
        parts += [figures(view, last)]
    return whole(f"{health.word}: duqishom", tag("body", *parts, tag("main", *sections(view, last, folder))))


def age(sample: Sample) -> str:
    """The time since a sample."""
    return duration(time.monotonic() - sample.at)


def header(path: str, last: Sample | None, view: View) -> Markup:
    """The store, how long it is up, the version, and the time."""
    life = "no answer" if last is None or view.failure is not None else f"up for {duration(last.up)}"
    texts = (path, life, f"version {VERSION}", time.strftime("%Y-%m-%d %H:%M:%S %Z"))
    return tag("header", tag("h1", "duqishom"), *(tag("span", text) for text in texts))


def word(health: Health) -> Markup:
    """The health, with its reasons."""
    reasons = tag("ul", *(tag("li", reason) for reason in health.reasons)) if health.reasons else Markup()
    return tag("div", tag("span", health.word, class_=f"word {health.word}"), reasons, class_="health")


def operations(sample: Sample) -> float:
    """The requests of the store's operations."""
    return sum(count for name, count in sample.group("requests").items() if name not in OWN)


def total(name: str) -> Measure:
    """The function from a sample to the sum of its counts under a name."""
    return lambda sample: sum(sample.group(name).values())


def figures(view: View, last: Sample) -> Markup:
    """The figures that are looked at first."""
    shown = (
        (speed(recent_rate(view.samples, operations)), "requests a second"),
        (moment(last.answer), "until the program answers"),
        (speed(recent_rate(view.samples, total("conflicts"))), "conflicts a second"),
        (speed(recent_rate(view.samples, total("refusals"))), "refusals a second"),
        (f"{last.number('clients', 'now'):,}", "clients"),
        (f"{last.number('open', 'sessions'):,}", f"open sessions of {MOST_SESSIONS:,}"),
        (size(last.number("program", "memory")), "memory of the program"),
        (share(view, "program"), "of a processor, the program"),
    )
    return tag("div", *(tag("div", tag("b", figure), what) for figure, what in shown), class_="figures")


def share(view: View, process: str) -> str:
    """The part of a processor that a process takes."""
    taken = recent_rate(view.samples, measure(process, "processor_seconds"))
    return "–" if taken is None else f"{taken:.0%}"


def section(title: str, *parts: Markup, **attributes: object) -> Markup:
    """A part of the page under its title."""
    return tag("section", tag("h2", title), *parts, **attributes)


def pairs(rows: Iterator[tuple[object, object]]) -> Markup:
    """A table of names and values."""
    return table((), list(rows), class_="pairs")


def sections(view: View, last: Sample | None, folder: FolderState | None) -> Iterator[Markup]:
    """The parts under the figures."""
    if last is not None:
        yield section("Requests a second", *requests(view, last))
    yield tag("div", *beside(view, last, folder), class_="beside")
    if folder and folder.tablets:
        yield section("Tablets, as of the last checkpoint", *tablets(folder), class_="wide")


def beside(view: View, last: Sample | None, folder: FolderState | None) -> Iterator[Markup]:
    """The parts beside the requests."""
    if last is not None:
        yield section("Clients", pairs(clients(view, last)))
        if last.group(STORE):
            yield section("Store", pairs(store_rows(last)))
    if folder is not None:
        yield section("Folder", pairs(folder_rows(folder, last)))
    if last is not None:
        if rows := list(failures(last)):
            yield section("Refusals and conflicts", pairs(iter(rows)))
        yield section("Processes", processes(view, last), class_="wide")
        if last.group("process_clients"):
            yield section("Clients by process", *by_process(last), class_="wide")
    if folder is not None:
        yield section(title_of_locks(folder), *locks(folder), class_="wide")


def title_of_locks(folder: FolderState) -> str:
    """The title of the locks: without a log they aren't those of now."""
    return "Locks" if folder.has_log else "Locks, as of the last checkpoint"


def requests(view: View, last: Sample) -> Iterator[Markup]:
    """The requests a second: a line of all, and each operation that was asked for."""
    yield large_line(points(view, operations), duration(SPAN))
    rows: list[tuple[object, ...]] = []
    for name, count in last.group("requests").items():
        if count:
            of = measure("requests", name)
            times = last.group("latency_seconds", name)
            shown = (moment(times[part]) if times else "–" for part in TIMES)
            rows.append((name, speed(recent_rate(view.samples, of)), f"{count:,}", *shown, small_line(points(view, of))))
    yield table(("operation", "a second", "in all", *TIMES.values(), ""), rows, class_="numbers times")
    yield tag("p", "The times are the last minute's, from a request to its reply.", class_="note")
    asks = f"This page asks for one of Statistics and, for each tablet, one of Status every {INTERVAL:g} s."
    yield tag("p", asks, class_="note")


def clients(view: View, last: Sample) -> Iterator[tuple[object, object]]:
    """The figures of clients and of what they have open."""
    for part, count in last.group("clients").items():
        yield CLIENTS.get(part, spoken(part)), f"{count:,}"
    yield from ((spoken(part), f"{count:,}") for part, count in last.group("ended").items() if count)
    yield "open sessions", f"{last.number('open', 'sessions'):,} of {MOST_SESSIONS:,}"
    fewest = min(sample.number("open", "sessions") for sample in view.samples if sample is not None)
    yield f"fewest in {duration(SPAN)}", f"{fewest:,}"
    oldest = oldest_session(view.samples)
    if oldest is not None:
        yield "open for long", f"{oldest[0]:,} for {duration(oldest[1])}"
    yield "cleaners, collectors", f"{last.number('open', 'cleaners'):,}, {last.number('open', 'collectors'):,}"
    yield "bytes that wait", size(last.number("held", "requests") + last.number("held", "replies"))


def store_rows(last: Sample) -> Iterator[tuple[object, object]]:
    """The figures of the store."""
    for part, count in last.group(STORE).items():
        yield spoken(part), size(count) if part.endswith("_bytes") else f"{count:,}"


def failures(last: Sample) -> Iterator[tuple[object, object]]:
    """The refusals and conflicts that there have been, by their kinds."""
    for name in ("conflicts", "refusals"):
        yield from ((part, f"{count:,}") for part, count in last.group(name).items() if count)


def spoken(name: str) -> str:
    """The name of a count in words."""
    return name.replace("_", " ")


def processes(view: View, last: Sample) -> Markup:
    """The memory and the processor time of both processes."""
    rows: list[tuple[object, ...]] = [
        (
            f"{name} {last.number(name, 'process')}",
            size(last.number(name, "memory")),
            duration(last.number(name, "processor_seconds")),
            share(view, name),
        )
        for name in ("program", "gateway")
    ]
    return table(("process", "memory", "processor time", "now"), rows)


def by_process(last: Sample) -> Iterator[Markup]:
    """The processes of clients, those with the most open sessions first, if the gateway tells them."""
    names = sorted(last.group("process_clients"), key=lambda name: -last.number("process_sessions", name))
    groups = ("process_user", "process_clients", "process_sessions")
    rows: list[tuple[object, ...]] = [(name, *(last.number(group, name) for group in groups)) for name in names[:MOST_ROWS]]
    yield table(("process", "user", "clients", "open sessions"), rows)
    yield more(len(names) - len(rows))


def more(count: int) -> Markup:
    """A line that says how many rows a table leaves out, if it does."""
    return tag("p", f"and {count:,} more", class_="note") if count > 0 else Markup()


def tablets(folder: FolderState) -> Iterator[Markup]:
    """The tablets as a bar, and if some have no label there, a table of those with the most files."""
    yield tablet_bar(folder.tablets)
    if are_labelled(folder.tablets):
        return
    most = sorted(folder.tablets, key=lambda tablet: (-tablet.files, -tablet.bytes))[:MOST_ROWS]
    rows: list[tuple[object, ...]] = [(each.number, f"{each.files:,}", size(each.bytes), range_of(each)) for each in most]
    yield table(("tablet", "files", "bytes", "rows"), rows, class_="numbers")
    yield more(len(folder.tablets) - len(most))


def folder_rows(folder: FolderState, last: Sample | None) -> Iterator[tuple[object, object]]:
    """The figures of the folder."""
    figures = folder.figures
    if "seconds since the checkpoint" in figures:
        yield "last checkpoint", f"{duration(int(str(figures['seconds since the checkpoint'])))} ago"
    else:
        yield "last checkpoint", "none"
    if last is not None:
        yield "on request", counted(int(last.alone("checkpoints")), "checkpoint")
    limit = log_bytes(last)
    yield "log", f"{size(folder.log)} of {size(limit)}" if folder.has_log else "none"
    yield "stored mark", f"{folder.mark:,}"
    for name, what in FILES:
        if name in figures:
            yield what, size(int(str(figures[name])))


def locks(folder: FolderState) -> Iterator[Markup]:
    """The locks by their sessions, those that are there longest first."""
    if folder.unsearched is not None:
        yield tag("p", f"Not looked for: {folder.unsearched}.", class_="note")
    elif not folder.locks:
        yield tag("p", "None.", class_="note")
    else:
        first = {lock.session: lock for lock in reversed(folder.locks)}
        counts = Counter(lock.session for lock in folder.locks)
        rows: list[tuple[object, ...]] = [
            (f"{session:,}", f"{count:,}", first[session].cell, duration(first[session].seconds))
            for session, count in islice(counts.items(), MOST_ROWS)
        ]
        yield table(("session", "locks", "one of them", "at least for"), rows)
        yield more(len(counts) - len(rows))
