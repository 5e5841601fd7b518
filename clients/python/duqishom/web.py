"""A web page that says how a store is, from its gateway's counts and its folder's files.

    python3 -m duqishom web --socket PATH --listen PORT [--dir FOLDER]
"""

from __future__ import annotations

import argparse
import signal
import sys
import threading
from collections.abc import Callable, Sequence

from duqishom.folders import why_no_folder
from duqishom.web_folder import FolderReader
from duqishom.web_health import DOWN, Health, health
from duqishom.web_page import page
from duqishom.web_samples import Sampler, View
from duqishom.web_server import Place, Reply, Server, is_own, place_of, shown

SIGNALS = (signal.SIGTERM, signal.SIGINT)

# The seconds for which the first sample is waited for.
FIRST = 1.0

HTML, METRICS = "text/html; charset=utf-8", "text/plain; version=0.0.4; charset=utf-8"

# The names by which a browser of this machine asks for the page.
OWN_NAMES = frozenset(("localhost", "127.0.0.1", "[::1]"))

DESCRIPTION = """Serves a web page that says how a store is, and /metrics and /health beside it. It answers GET alone, writes
nothing, and has no login."""


class Site:
    """The pages of a store. All are made of what was sampled last: no request of a browser reaches the gateway."""

    def __init__(self, sampler: Sampler, reader: FolderReader | None) -> None:
        self._sampler, self._reader = sampler, reader
        self.pages: dict[str, Callable[[], Reply]] = {"/": self.overview, "/metrics": self.metrics, "/health": self.health}

    def _health(self) -> tuple[View, Health]:
        view = self._sampler.view()
        return view, health(view, self._reader.state if self._reader else None)

    def overview(self) -> Reply:
        """The page."""
        view, found = self._health()
        return Reply(200, page(self._sampler.path, view, found, self._reader.state if self._reader else None), HTML)

    def metrics(self) -> Reply:
        """The counts for Prometheus, or 503 if the store is down."""
        view, found = self._health()
        last = view.last()
        return down(found) if found.word == DOWN or last is None else Reply(200, last.metrics, METRICS)

    def health(self) -> Reply:
        """`ok`, with a line for each warning, or 503 and the reason if the store is down."""
        _, found = self._health()
        warnings = (f"warning: {why}\n" for why in found.reasons)
        return down(found) if found.word == DOWN else Reply(200, "".join(["ok\n", *warnings]))


def down(found: Health) -> Reply:
    """The reply of a store that is down."""
    return Reply(503, "".join(f"{why}\n" for why in found.reasons))


def parser() -> argparse.ArgumentParser:
    """The parser of the command line."""
    words = argparse.ArgumentParser(prog="duqishom web", description=DESCRIPTION)
    words.add_argument("--socket", metavar="PATH", required=True, help="the gateway's socket")
    words.add_argument("--listen", metavar="PORT", required=True, help="a port of 127.0.0.1, or ADDRESS:PORT; 0 is any free port")
    words.add_argument("--any-address", action="store_true", help="let the address be one that other machines reach")
    words.add_argument("--dir", metavar="FOLDER", help="the store's folder: shows its tablets, its log and its locks, too")
    return words


def place_in(parsing: argparse.ArgumentParser, options: argparse.Namespace) -> Place:
    """The place to listen at. Ends the command with status 2 if it is refused."""
    try:
        place = place_of(options.listen)
    except ValueError as error:
        parsing.error(f"--listen {options.listen}: {error}")
    if not (options.any_address or is_own(place)):
        parsing.error(f"other machines reach {place[0]}, and the page has no login: --any-address allows it")
    return place


def main(words: Sequence[str]) -> int:
    """Serves until a signal. The status is then 0, or 2 if the words are refused or the place can't be had."""
    parsing = parser()
    options = parsing.parse_args(words)
    place = place_in(parsing, options)
    sampler, reader = Sampler(options.socket), FolderReader(options.dir) if options.dir else None
    why = why_no_folder(options.dir) if options.dir else ""
    names = frozenset[str]() if options.any_address else OWN_NAMES | {shown(place)}
    try:
        if why:
            raise OSError(why)
        server = Server(place, Site(sampler, reader).pages, names)
    except OSError as failure:
        print(f"duqishom: {failure}", file=sys.stderr)
        return 2
    serve(server, [sampler.run, server.serve_forever, *([reader.run] if reader else [])], sampler)
    return 0


def serve(server: Server, works: Sequence[Callable[[], None]], sampler: Sampler) -> None:
    """Runs these works in threads of their own until a signal comes, which is blocked in all of them."""
    signal.pthread_sigmask(signal.SIG_BLOCK, SIGNALS)
    for work in works:
        threading.Thread(target=work, daemon=True).start()
    sampler.is_ready.wait(FIRST)
    place = server.server_address
    print(f"duqishom: ready at http://{shown((str(place[0]), 0))}:{place[1]}/", file=sys.stderr, flush=True)
    signal.sigwait(SIGNALS)
    server.shutdown()
    server.server_close()
