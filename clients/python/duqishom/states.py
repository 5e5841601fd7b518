"""The state of a store, from the store, its folder or its gateway: figures with their names."""

from __future__ import annotations

import re
import shutil
import time
from collections.abc import Iterator, Mapping
from contextlib import suppress
from dataclasses import asdict
from pathlib import Path

from duqishom.administration import Client, Listing
from duqishom.figures import duration
from duqishom.files import LOG_FILE
from duqishom.folders import read_root
from duqishom.pieces import SUMMED, files_in, number_in, place_in
from duqishom.refusals import BadRequest
from duqishom.remote import Address
from duqishom.reports import ServerStatus, TabletReport
from duqishom.statistics import STORE, all_counts, lines
from duqishom.store import Store
from duqishom.tellings import Told, as_data
from duqishom.texts import text_of
from duqishom.version import VERSION

# The columns of the clients.
COLUMNS = ("client", "process", "user", "age", "sessions", "oldest", "requests", "bytes held")

# The line of a request, a refusal or a conflict that there hasn't been.
NEVER = re.compile("(?:requests|refusals|conflicts) .*: 0")


def size_of(file: Path) -> int:
    """The size of a file, 0 if it is gone."""
    with suppress(FileNotFoundError):
        return file.stat().st_size
    return 0


def folder_state(folder: Path) -> Iterator[tuple[str, object]]:
    """The figures of a folder, whose tablets and files are those of the last checkpoint."""
    root = read_root(folder)
    named = {place_in(folder, name).name for tablet in root.tablets for name, _ in tablet.files}
    every = {file.name: size_of(file) for file in files_in(folder) if number_in(file.name) % SUMMED != 0}
    yield "tablets", len(root.tablets)
    yield "files", len(named)
    yield "bytes of files", sum(every.get(name, 0) for name in named)
    yield "most files of a tablet", max(len(tablet.files) for tablet in root.tablets)
    yield "bytes of files that no tablet has", sum(size for name, size in every.items() if name not in named)
    yield "bytes of the log", size_of(folder / LOG_FILE)
    yield "greatest stamp of the checkpoint", root.top
    with suppress(FileNotFoundError):
        yield "seconds since the checkpoint", round(time.time() - place_in(folder, 0).stat().st_mtime)
    yield "bytes free on the disk", shutil.disk_usage(folder).free


def state(store: Store, socket: Address | None) -> Told:
    """The state of a store: its folder's, its gateway's counts, and what its program reports, if it has Status."""
    figures: dict[str, object] = {"version": VERSION}
    if socket is not None:
        counted = all_counts(socket)
        told: Mapping[str, object] = figures | counted
        happened = (line for line in lines(counted) if not NEVER.fullmatch(line))
        return Told("\n".join([f"version: {VERSION}", *happened]), told)
    figures.update([] if store.folder is None else folder_state(Path(store.folder)))
    text = [f"{name}: {figure:,}" if isinstance(figure, int) else f"{name}: {figure}" for name, figure in figures.items()]
    with suppress(BadRequest):
        reported = {STORE: store.status().counts()}
        text += [f"{STORE} {name}: {figure:,}" for name, figure in reported[STORE].items()]
        figures.update(reported)
    return Told("\n".join(text), figures)


def tablets(status: ServerStatus) -> Told:
    """The tablets of a store, a line for each."""
    text = (
        f"{each.number} up to {'the last row' if each.end is None else text_of(each.end)}: server {each.server},"
        f" {each.memtable_entries:,} entries of {each.memtable_bytes:,} bytes in memory,"
        f" {each.files} files of {each.file_bytes:,} bytes"
        for each in status.tablets
    )
    return Told("\n".join(text), [tablet_data(each) for each in status.tablets])


def tablet_data(tablet: TabletReport) -> dict[str, object]:
    """A tablet, for JSON."""
    figures = asdict(tablet)
    end = None if tablet.end is None else as_data(tablet.end)
    return {"tablet": figures.pop("number"), **figures, "end": end}


def clients(listing: Listing) -> Told:
    """The clients of a gateway, as a table."""
    rows = [COLUMNS, *map(row_of, listing.clients)]
    widths = [max(map(len, column)) for column in zip(*rows)]
    shown = ["  ".join(part.rjust(width) for part, width in zip(row, widths)) for row in rows]
    more = [f"and {listing.more:,} more"] if listing.more else []
    return Told("\n".join([*shown, *more]), [asdict(client) for client in listing.clients])


def row_of(client: Client) -> tuple[str, ...]:
    """A client as a row of the table."""
    return (
        str(client.client),
        "-" if client.process is None else str(client.process),
        "administrator" if client.admin else "tcp" if client.user is None else str(client.user),
        duration(client.seconds),
        str(client.sessions),
        "-" if client.oldest_session_seconds is None else duration(client.oldest_session_seconds),
        f"{client.requests:,}",
        f"{client.requests_held + client.replies_held:,}",
    )
