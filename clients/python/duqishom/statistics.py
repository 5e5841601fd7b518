"""The counts of a gateway and of its store: as lines, or in the text format of Prometheus.

    python3 -m duqishom stats --socket PATH [--prometheus]
"""

from __future__ import annotations

import argparse
import sys
from collections.abc import Iterator, Mapping, Sequence
from contextlib import suppress
from dataclasses import dataclass

from duqishom.administration import asked_at, asked_of
from duqishom.batches import answers_of, request_frames
from duqishom.connection import RequestTimedOut
from duqishom.counted import Counted, Statistics
from duqishom.fields import MalformedReply
from duqishom.program import ProgramEnded
from duqishom.refusals import BadRequest, NoMemory, Refused
from duqishom.remote import Address, Gateway, shown_address, socket_at
from duqishom.reports import status_by

# The seconds for which the report of a program is waited for, which may be busy.
REPORT_PATIENCE = 3.0


@dataclass(frozen=True)
class Metric:
    """A Prometheus metric: its name, whether it is a counter, its help text, its path in the statistics, and the label
    for the names under that path."""

    name: str
    grows: bool
    what: str
    path: tuple[str, ...]
    label: str | None = None


METRICS = (
    Metric("up_seconds", False, "seconds since the gateway's start", ("seconds",)),
    Metric("requests_total", True, "requests of clients, by operation", ("requests",), "operation"),
    Metric("bytes_total", True, "bytes of frames, by direction", ("bytes",), "direction"),
    Metric("clients", False, "clients that are connected", ("clients", "now")),
    Metric("clients_total", True, "clients that were connected", ("clients", "ever")),
    Metric("clients_turned_away_total", True, "clients for whom was no place", ("clients", "turned_away")),
    Metric("clients_not_allowed_total", True, "clients whose users may not connect", ("clients", "not_allowed")),
    Metric("clients_closed_total", True, "clients that were closed for memory", ("clients", "closed_for_memory")),
    Metric("ended_total", True, "clients and sessions that were ended, by reason", ("ended",), "reason"),
    Metric("user_clients", False, "clients of each user, if the asker may know", ("user_clients",), "user"),
    Metric("user_sessions", False, "sessions of each user, if the asker may know", ("user_sessions",), "user"),
    Metric("watches", False, "open watches", ("watches", "open")),
    Metric("changes_total", True, "messages on watches that name cells", ("watches", "changes")),
    Metric("unnamed_changes_total", True, "messages on watches that name no cells", ("watches", "unnamed")),
    Metric("open", False, "what is open in the program", ("open",), "kind"),
    Metric("oldest_session_seconds", False, "seconds since the oldest open session began", ("oldest_session_seconds",)),
    Metric("refusals_total", True, "requests that were refused, by refusal", ("refusals",), "refusal"),
    Metric("conflicts_total", True, "commits that came to nothing, by the answer to Step or Commit", ("conflicts",), "answer"),
    Metric("held", False, "bytes of requests and of replies that wait, and runs that the program has", ("held",), "what"),
    Metric("checkpoints_total", True, "checkpoints that were made", ("checkpoints",)),
    Metric("splits_total", True, "splits that were made", ("splits",)),
    Metric("program_memory_bytes", False, "memory of the program", ("program", "memory")),
    Metric("program_processor_seconds_total", True, "time of the program", ("program", "processor_seconds")),
    Metric("gateway_memory_bytes", False, "memory of the gateway", ("gateway", "memory")),
    Metric("gateway_processor_seconds_total", True, "time of the gateway", ("gateway", "processor_seconds")),
)

# The name of the store's counts among the others, and its metrics.
STORE = "store"
STORE_METRICS = tuple(
    Metric(f"{STORE}_{name}", False, what, (STORE, name))
    for name, what in (
        ("last_stamp", "the last stamp that was drawn"),
        ("floor", "the least start of an open session, or else one above the greatest answered stamp"),
        ("collector_floor", "the greatest floor with which a collector began"),
        ("sessions", "open sessions"),
        ("cleaners", "open cleaners"),
        ("collectors", "open collectors"),
        ("buffered_bytes", "bytes of the writes that sessions buffer"),
        ("journal_bytes", "bytes of the journal"),
        ("tablets", "tablets"),
        ("memtable_entries", "entries of all memtables"),
        ("memtable_bytes", "bytes of these entries"),
        ("files", "files of all tablets"),
        ("most_files", "files of the tablet that has the most"),
        ("file_bytes", "bytes of the entries of all files"),
    )
)

# The histogram of Prometheus: its name, its help text, and its path in the statistics.
HISTOGRAM = Metric("request_seconds", True, "seconds until clients' requests were answered", ("request_seconds",), "operation")


def statistics(address: Address) -> dict[str, Counted]:
    """The counts of the gateway at an address, as `asked_at` says."""
    return asked_at(address, Statistics())


def all_counts(address: Address) -> dict[str, Counted]:
    """The same counts, and those of the store, under its name, if its program has Status and answers in time."""
    gateway = Gateway(address)
    try:
        told: dict[str, Counted] = dict(asked_of(gateway, Statistics()))
        with suppress(BadRequest, NoMemory, RequestTimedOut):
            told[STORE] = status_by(
                lambda trip: answers_of(trip, gateway.ask(*request_frames(trip), REPORT_PATIENCE), is_remote=True)
            ).counts()
        return told
    finally:
        gateway.close()


def lines(told: Mapping[str, Counted], names: str = "") -> Iterator[str]:
    """A line for each number: its names and its value. The histogram is only for Prometheus."""
    for name, counted in told.items():
        if not isinstance(counted, Mapping):
            yield f"{names}{name}: {counted}"
        elif name != HISTOGRAM.name:
            yield from lines(counted, f"{names}{name} ")


def prometheus(told: Mapping[str, Counted]) -> Iterator[str]:
    """The lines of the text format of Prometheus."""
    yield from values(METRICS, told)
    yield from head_of(HISTOGRAM, "histogram")
    counted = found(told, HISTOGRAM.path)
    if isinstance(counted, Mapping):
        for operation, buckets in counted.items():
            if isinstance(buckets, Mapping):
                yield from histogram(operation, buckets)
    yield from store_metrics(told)


def values(metrics: Sequence[Metric], told: Mapping[str, Counted]) -> Iterator[str]:
    """The lines of some metrics."""
    for metric in metrics:
        yield from head_of(metric, "counter" if metric.grows else "gauge")
        counted = found(told, metric.path)
        if isinstance(counted, Mapping):
            yield from (f'duqishom_{metric.name}{{{metric.label}="{part}"}} {number}' for part, number in counted.items())
        else:
            yield f"duqishom_{metric.name} {counted}"


def store_metrics(told: Mapping[str, Counted]) -> Iterator[str]:
    """The last of these lines: those of the store, if it has told its counts."""
    return values(STORE_METRICS if STORE in told else (), told)


def head_of(metric: Metric, kind: str) -> Iterator[str]:
    """The lines before the values of a metric."""
    yield f"# HELP duqishom_{metric.name} {metric.what}"
    yield f"# TYPE duqishom_{metric.name} {kind}"


def histogram(operation: str, buckets: Mapping[str, Counted]) -> Iterator[str]:
    """The lines of one operation's histogram: how many requests took no longer than each bound, and then the sum of
    their times and their number."""
    name, label = f"duqishom_{HISTOGRAM.name}", f'{HISTOGRAM.label}="{operation}"'
    bounds = {bound: count for bound, count in buckets.items() if bound != "sum"}
    yield from (f'{name}_bucket{{{label},le="{bound}"}} {count}' for bound, count in bounds.items())
    yield f"{name}_sum{{{label}}} {buckets['sum']}"
    yield f"{name}_count{{{label}}} {bounds['+Inf']}"


def found(told: Mapping[str, Counted], path: Sequence[str]) -> Counted:
    """The value at the end of a path, or nothing if the gateway hasn't told it."""
    counted = told.get(path[0], {})
    return counted[path[1]] if len(path) > 1 and isinstance(counted, Mapping) else counted


def main(words: Sequence[str]) -> int:
    """Prints the statistics. The status is 0, or 2 if no gateway answers."""
    parser = argparse.ArgumentParser(prog="duqishom stats", description="What a gateway counts, and its store.")
    parser.add_argument("--socket", metavar="PATH", type=socket_at, required=True, help="the gateway's socket, or HOST:PORT")
    parser.add_argument("--prometheus", action="store_true", help="in the text format of Prometheus")
    options = parser.parse_args(words)
    try:
        told = all_counts(options.socket)
    except (OSError, ProgramEnded, MalformedReply, Refused) as failure:
        print(f"duqishom: {shown_address(options.socket)}: {failure}", file=sys.stderr)
        return 2
    for line in prometheus(told) if options.prometheus else lines(told):
        print(line)
    return 0
