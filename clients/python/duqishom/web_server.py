"""A small HTTP server: it answers GET for a few paths, and has bounds for its connections and their time."""

from __future__ import annotations

import ipaddress
import re
import socket
import sys
import threading
from collections.abc import Callable, Mapping
from contextlib import suppress
from http import HTTPStatus
from http.server import BaseHTTPRequestHandler
from socketserver import ThreadingTCPServer
from typing import Any, NamedTuple

# The connections at a time. If there are more, the oldest is closed.
MOST_CONNECTIONS = 32

# The seconds that each read and each write of a connection may take.
PATIENCE = 10.0

TEXT = "text/plain; charset=utf-8"

# A page may load nothing, and no other page may have it in a frame.
POLICY = "default-src 'none'; style-src 'unsafe-inline'; frame-ancestors 'none'; base-uri 'none'; form-action 'none'"
HEADERS = (
    ("Content-Security-Policy", POLICY),
    ("X-Content-Type-Options", "nosniff"),
    ("Referrer-Policy", "no-referrer"),
    ("Cache-Control", "no-store"),
)

HOST = re.compile(r"(\[[^\]]*\]|[^:]*)(?::\d*)?")


class Reply(NamedTuple):
    """A status, a text, and the text's type."""

    status: int
    text: str
    type: str = TEXT


# The address and the port at which a server listens.
Place = tuple[str, int]


class Server(ThreadingTCPServer):
    """Serves pages by their paths at one place. Requests whose Host is none of the names are refused, so that no page
    of another site can be made to have this one's name. If there are no names, each is taken."""

    allow_reuse_address = True
    daemon_threads = True
    request_queue_size = 2 * MOST_CONNECTIONS

    def __init__(self, place: Place, pages: Mapping[str, Callable[[], Reply]], names: frozenset[str]) -> None:
        """Listens. OSError if that fails."""
        self.pages, self.names = pages, names
        self._lock = threading.Lock()
        self._open: dict[Any, None] = {}
        self.address_family = socket.AF_INET6 if ":" in place[0] else socket.AF_INET
        super().__init__(place, Handler)

    def process_request(self, request: Any, client_address: Any) -> None:
        with self._lock:
            self._open[request] = None
            if len(self._open) > MOST_CONNECTIONS:
                oldest = next(iter(self._open))
                del self._open[oldest]
                with suppress(OSError):
                    oldest.shutdown(socket.SHUT_RDWR)
        super().process_request(request, client_address)

    def shutdown_request(self, request: Any) -> None:
        with self._lock:
            self._open.pop(request, None)
        super().shutdown_request(request)

    def handle_error(self, request: Any, client_address: Any) -> None:
        if not isinstance(sys.exc_info()[1], OSError):
            super().handle_error(request, client_address)


class Handler(BaseHTTPRequestHandler):
    """One connection, with one request."""

    server: Server
    timeout = PATIENCE

    def parse_request(self) -> bool:
        if not super().parse_request():
            return False
        if self.command != "GET":
            self._reply(Reply(405, "this page answers only GET\n"), ("Allow", "GET"))
            return False
        return True

    def do_GET(self) -> None:
        """Answers with the page at the path."""
        page = self.server.pages.get(self.path.partition("?")[0])
        if self.server.names and not self._is_named():
            self._reply(Reply(421, f"this page answers to {', '.join(sorted(self.server.names))}\n"))
        elif page is None:
            self._reply(Reply(404, f"the pages are {', '.join(self.server.pages)}\n"))
        else:
            self._reply(page())

    def _is_named(self) -> bool:
        """Whether the request names this server, or none. A browser always names one."""
        host = self.headers.get("Host")
        found = None if host is None else HOST.fullmatch(host.strip().lower())
        return host is None or found is not None and found[1] in self.server.names

    def _reply(self, reply: Reply, *more: tuple[str, str]) -> None:
        """Sends a reply. HEAD gets no text."""
        body = reply.text.encode(errors="replace")
        self.send_response(reply.status)
        for name, value in (("Content-Type", reply.type), ("Content-Length", str(len(body))), *HEADERS, *more):
            self.send_header(name, value)
        self.end_headers()
        if self.command != "HEAD":
            self.wfile.write(body)

    def send_error(self, code: int, message: str | None = None, explain: str | None = None) -> None:
        """Answers a request that can't be read."""
        self._reply(Reply(code, f"{HTTPStatus(code).phrase}\n"))

    def version_string(self) -> str:
        return "duqishom"

    def log_message(self, format: str, *args: Any) -> None:
        """Writes no line for a request."""


def place_of(text: str) -> Place:
    """The place that a text names: a port of 127.0.0.1, or an address and its port. ValueError if it names none."""
    address, _, port = text.rpartition(":")
    at = ipaddress.ip_address(address.removeprefix("[").removesuffix("]") if address else "127.0.0.1")
    if not (port.isascii() and port.isdigit() and int(port) < 65_536):
        raise ValueError(f"{port!r} is no port")
    return str(at), int(port)


def is_own(place: Place) -> bool:
    """Whether only this machine reaches a place."""
    return ipaddress.ip_address(place[0]).is_loopback


def shown(place: Place) -> str:
    """The host in the URL of a place."""
    return f"[{place[0]}]" if ":" in place[0] else place[0]
