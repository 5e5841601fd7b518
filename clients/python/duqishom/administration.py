"""What a gateway does itself: it tells its statistics and its clients, kills a client's connection, and copies its
store's folder."""

from __future__ import annotations

import os
from collections.abc import Mapping
from contextlib import suppress
from dataclasses import dataclass
from typing import ClassVar

from duqishom.batches import answers_of, request_frame
from duqishom.copies import NotCopied
from duqishom.counted import Counted, Statistics, told_in
from duqishom.fields import FieldReader, MalformedReply, number
from duqishom.operations import Answer, Operation
from duqishom.program import ProgramEnded
from duqishom.progress import BYTES, Reached, Report, unreported
from duqishom.refusals import Refused
from duqishom.remote import Address, Gateway

# The seconds between two questions how far a copy is.
LOOK_PAUSE = 0.5


@dataclass(frozen=True)
class Backup:
    """Has a gateway copy the folder of its store to a path. The answer is the reason why it failed, empty if it
    didn't."""

    path: str
    code: ClassVar[int] = 0x71

    def place(self) -> str:
        """The path from the top, by which the gateway names the copy too."""
        return os.path.abspath(self.path)

    def fields(self) -> bytes:
        return os.fsencode(self.place())

    def read(self, fields: FieldReader) -> str:
        return fields.rest().decode(errors="replace")


@dataclass(frozen=True)
class Client:
    """A client of a gateway: its number there, its process and its user, if they are known, whether it is at the
    administrator's socket, the seconds since it has connected, its open sessions, the seconds since the oldest of these
    began, if there is one, its requests so far, and the bytes of its requests and of its replies that wait."""

    client: int
    process: int | None
    user: int | None
    admin: bool
    seconds: float
    sessions: int
    oldest_session_seconds: float | None
    requests: int
    requests_held: int
    replies_held: int


@dataclass(frozen=True)
class Listing:
    """Clients of a gateway, those with the oldest sessions first, and how many more there are."""

    clients: tuple[Client, ...]
    more: int


@dataclass(frozen=True)
class Clients:
    """Asks for the clients of a gateway."""

    code: ClassVar[int] = 0x72

    def fields(self) -> bytes:
        return b""

    def read(self, fields: FieldReader) -> Listing:
        told = told_in(fields)
        try:
            return Listing(tuple(Client(**each) for each in told["clients"]), told["more"])
        except (KeyError, TypeError) as why:
            raise MalformedReply(f"these are no clients: {why}") from None


@dataclass(frozen=True)
class Kill:
    """Kills the connection of a client. The answer is whether there was another client with this number."""

    client: int
    code: ClassVar[int] = 0x73

    def fields(self) -> bytes:
        return number(8, self.client)

    def read(self, fields: FieldReader) -> bool:
        return fields.number(1) == 1


def asked_of(gateway: Gateway, operation: Operation[Answer]) -> Answer:
    """The answer to a request over a connection. ConnectionLost if it ends, and a Refused if the request is refused."""
    return answer_in(operation, gateway.ask(request_frame(operation), 1))


def answer_in(operation: Operation[Answer], reply: bytes) -> Answer:
    """The answer in the frame of a reply. A Refused is raised."""
    [answer] = answers_of([operation], reply, is_remote=True)
    if isinstance(answer, Refused):
        raise answer
    told: Answer = answer
    return told


def asked_at(address: Address, operation: Operation[Answer]) -> Answer:
    """The answer to a request over a connection of its own. OSError if no gateway serves at the address, ConnectionLost
    if it ends, and a Refused if the request is refused, or if there is no place for the connection."""
    gateway = Gateway(address)
    try:
        return asked_of(gateway, operation)
    finally:
        gateway.close()


def clients(address: Address) -> Listing:
    """The clients of the gateway at an address, as `asked_at` says. Only the administrator, root and the gateway's user
    are told."""
    return asked_at(address, Clients())


def kill(address: Address, client: int) -> bool:
    """Kills the connection of a client, as `asked_at` says, at the administrator's socket alone. Returns whether there
    was one with this number."""
    return asked_at(address, Kill(client))


def back_up(address: Address, path: str, progress: Report = unreported) -> None:
    """Has the gateway at an address copy its store's folder to a path, over a connection of its own. So others go on
    meanwhile, and the copy is stopped if this is interrupted. `progress` is told how many bytes are copied. OSError if
    nobody serves there."""
    asked, gateway = Backup(path), Gateway(address)
    watch = Watch(asked, progress)
    try:
        if progress is unreported:
            reply = gateway.ask(request_frame(asked), 1)
        else:
            reply = gateway.ask_for_long(request_frame(asked), LOOK_PAUSE, lambda: watch.look(address))
    finally:
        gateway.close()
        watch.close()
    check_copied(asked, reply)


def check_copied(asked: Backup, reply: bytes) -> None:
    """Checks the frame of the reply to a Backup. NotCopied, or a Refused, if no copy was made."""
    why = answer_in(asked, reply)
    if why:
        raise NotCopied(why)


class Watch:
    """Looks how far a copy is, over a connection of its own. If that fails, it looks no more."""

    def __init__(self, asked: Backup, progress: Report) -> None:
        self._path, self._progress = asked.place(), progress
        self._gateway: Gateway | None = None
        self._has_failed = False

    def look(self, address: Address) -> None:
        """Reports how far the copy is, if the gateway tells it."""
        reached = None
        if not self._has_failed:
            self._has_failed = True
            with suppress(OSError, ProgramEnded, Refused, MalformedReply):
                self._gateway = self._gateway or Gateway(address)
                reached = reached_in(asked_of(self._gateway, Statistics()), self._path)
                self._has_failed = False
        if reached is not None:
            self._progress(reached)

    def close(self) -> None:
        """Closes the connection."""
        if self._gateway is not None:
            self._gateway.close()


def reached_in(told: Mapping[str, Counted], path: str) -> Reached | None:
    """How far the copy at a path is, by the statistics of its gateway, or None if there is none whose size is known."""
    copies = told.get("copies")
    copy = copies.get(path) if isinstance(copies, Mapping) else None
    if not isinstance(copy, Mapping):
        return None
    done, total = copy.get("done"), copy.get("total")
    return Reached(done, total, BYTES) if isinstance(done, int) and isinstance(total, int) and total else None
