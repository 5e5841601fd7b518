"""The way to a gateway."""

from __future__ import annotations

import os
import re
import socket
import stat
from collections.abc import Callable
from contextlib import suppress

from duqishom.connection import Frames, RequestTimedOut, StreamEnded
from duqishom.plans import MOST_TABLETS, Fate
from duqishom.program import ProgramEnded

__all__ = ["MOST_TABLETS", "Address", "ConnectionLost", "Fate", "Gateway", "address_of"]

# The path of a Unix socket, or a host and its port.
Address = str | tuple[str, int]

HOST_AND_PORT = re.compile(r"(?:tcp:(?://)?)?(?:\[(?P<six>[0-9A-Fa-f:.]+)\]|(?P<host>[^/:\[\]]+)):(?P<port>\d{1,5})")


def address_of(text: str) -> Address | None:
    """The gateway that a text names, as `unix:PATH` or HOST:PORT: None where it names none."""
    if text.startswith("unix:"):
        return text.removeprefix("unix:")
    if found := HOST_AND_PORT.fullmatch(text):
        return found["six"] or found["host"], int(found["port"])
    return None


def gateway_at(text: str) -> Address | None:
    """The gateway that a text names, which may also be the path of a socket: None if it is a folder's path."""
    try:
        is_socket = stat.S_ISSOCK(os.stat(text).st_mode)
    except OSError:
        is_socket = False
    return text if is_socket else address_of(text)


def socket_at(text: str) -> Address:
    """The gateway that the option --socket names: a path, unless it names another one."""
    return gateway_at(text) or text


def shown_address(address: Address) -> str:
    """A gateway's address, as it is shown."""
    return address if isinstance(address, str) else ":".join(map(str, address))


class ConnectionLost(ProgramEnded):
    """The gateway has closed the connection, or has ended. Unanswered requests may have been done: `Store.fate` tells
    the fate of a commit. The program's status isn't known, and is given as 0."""

    def __init__(self, why: str = "the gateway has closed the connection; what had no answer may be done or not") -> None:
        Exception.__init__(self, why)
        self.status = 0


def connected(address: Address) -> socket.socket:
    """A socket that is connected to a gateway. OSError, with the path or the host, where nobody serves there."""
    try:
        if isinstance(address, tuple):
            ours = socket.create_connection(address)
            ours.setsockopt(socket.IPPROTO_TCP, socket.TCP_NODELAY, 1)
            return ours
        ours = socket.socket(socket.AF_UNIX)
        try:
            ours.connect(address)
        except OSError:
            ours.close()
            raise
        return ours
    except OSError as error:
        raise named_error(error, address) from None


def named_error(error: OSError, address: Address) -> OSError:
    """An error of a connection, with the address at which it was to be."""
    return OSError(error.errno, error.strerror or str(error), shown_address(address))


class Gateway:
    """A connection to a gateway."""

    def __init__(self, address: Address) -> None:
        """Connects. OSError where nobody serves there."""
        self.is_lost = False
        self._is_closed = False
        ours = connected(address)
        self._frames = Frames(ours, ours)

    def ask(self, requests: bytes, count: int, timeout: float | None = None) -> bytes:
        """Sends the frames of so many requests, and gives the frames of the replies.

        RequestTimedOut after `timeout` seconds. ConnectionLost if the connection ends instead of a reply.
        """
        if self._is_closed:
            raise ConnectionLost("the connection to the gateway is closed")
        try:
            return self._frames.ask(requests, count, timeout)
        except StreamEnded:
            raise self._lost() from None

    def ask_for_long(self, request: bytes, pause: float, meanwhile: Callable[[], None]) -> bytes:
        """Sends the frame of a request, and gives that of its reply. Until it is there, `meanwhile` is called again and
        again, with a pause of so many seconds before each time. ConnectionLost if the connection ends instead."""
        with suppress(RequestTimedOut):
            return self.ask(request, 1, pause)
        while True:
            meanwhile()
            try:
                return self._frames.wait(pause)
            except RequestTimedOut:
                pass
            except StreamEnded:
                raise self._lost() from None

    def _lost(self) -> ConnectionLost:
        """Closes the connection, which is lost."""
        self.is_lost = True
        self.close()
        return ConnectionLost()

    def tell(self, request: bytes, timeout: float | None = None) -> None:
        """Sends the frame of a request, and doesn't wait for its reply."""
        if not self._is_closed:
            with suppress(StreamEnded):
                self._frames.tell(request, timeout)

    def kill(self) -> None:
        """Disconnects at once. The gateway ends what is open."""
        self.close()

    def close(self) -> int:
        """Leaves. It may be called again."""
        self._is_closed = True
        self._frames.close()
        return 0
