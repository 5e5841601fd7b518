"""Changes: what a gateway tells of commits that have written cells in rows with a prefix."""

from __future__ import annotations

import time
from collections.abc import Iterator
from contextlib import suppress
from dataclasses import dataclass
from types import TracebackType
from typing import ClassVar

from duqishom.batches import request_frame
from duqishom.cells import Cell, range_of
from duqishom.connection import Frames, RequestTimedOut, StreamEnded
from duqishom.fields import FieldReader, MalformedReply, counted_argument
from duqishom.frames import whole_frames
from duqishom.operations import answer_or_refusal, optional_argument
from duqishom.plans import LOG, Reconnects
from duqishom.refusals import Refused
from duqishom.remote import Address, ConnectionLost, connected

# The tags of what a gateway tells of a watch: that it has begun, a commit, and commits that aren't told one by one.
BEGUN, CHANGED, UNNAMED = 0, 1, 2


@dataclass(frozen=True)
class Change:
    """A commit that has written watched cells: its stamp, and these cells. Both are None if the watch has begun, at first
    or after its connection was lost, or if there were commits that aren't told one by one: then any cell may have
    changed."""

    commit_stamp: int | None = None
    cells: tuple[Cell, ...] | None = None


@dataclass(frozen=True)
class Watch:
    """Asks a gateway to tell of commits to the rows with a prefix, in one family or in all. What it tells begins like a
    reply."""

    prefix: bytes
    family: bytes | None
    code: ClassVar[int] = 0x74

    def fields(self) -> bytes:
        prefix = counted_argument("prefix", self.prefix)
        return prefix + optional_argument("family", self.family)

    def read(self, fields: FieldReader) -> Change:
        tag, _ = fields.number(1), fields.number(8)
        if tag == CHANGED:
            stamp, count = fields.number(8), fields.number(4)
            return Change(stamp, tuple(Cell(fields.counted(), fields.counted()) for _ in range(count)))
        if tag in (BEGUN, UNNAMED):
            return Change()
        raise MalformedReply(f"nothing that is told of a watch has the tag {tag}")


def watch_of(prefix: bytes, family: bytes | None) -> Watch:
    """A watch. BadRow or BadColumn if there can be no such cells."""
    range_of(None, None, prefix, family)
    return Watch(prefix, family)


class Heard:
    """What a watch has heard and not given yet, and the attempts to make its connection anew."""

    def __init__(self, address: Address, watch: Watch, reconnect: float) -> None:
        """Attempts to connect anew are made for `reconnect` seconds."""
        self.address, self.watch = address, watch
        self.pieces: list[bytes] = []
        self._bodies: list[bytes] = []
        self._reconnect = reconnect
        self._attempts: Reconnects | None = None

    def request(self) -> bytes:
        """The frame of the request, for a new connection."""
        self.pieces.clear()
        return request_frame(self.watch)

    def next(self) -> Change | None:
        """The next change that was heard, if there is one. A Refused if the watch was refused."""
        if not self._bodies:
            data = b"".join(self.pieces)
            end = whole_frames(data, self._bodies)
            self.pieces[:] = [data[end:]]
        if not self._bodies:
            return None
        self._attempts = None
        told = answer_or_refusal(self.watch, self._bodies.pop(0), is_remote=True)
        if isinstance(told, Refused):
            raise told
        return told

    def note_lost(self, why: Exception) -> float:
        """Records that the connection is lost or can't be made, and gives the seconds to wait before it is made anew.
        ConnectionLost if it has been so for too long."""
        if self._attempts is None:
            self._attempts = Reconnects(self._reconnect)
            LOG.warning("the connection of a watch to the gateway at %s was lost", self.address)
        pause = self._attempts.pause()
        if pause is None:
            self._attempts = None
            raise ConnectionLost(f"the watch's connection to the gateway was lost, and can't be made anew: {why}") from None
        return pause


class Changes:
    """The changes to the rows with a prefix, one after the other, for `for`: it has a connection of its own.

    The first change has no cells, and comes when the watch begins: whatever is committed later is told, and a snapshot
    that begins after a change shows its commit. If the connection is lost, it is made anew, and a change without cells
    comes again. So does one in place of many for whoever takes them too slowly.

    One thread may use it at a time. It ends with a `with`, or by `close`.
    """

    def __init__(self, address: Address, watch: Watch, timeout: float | None, reconnect: float) -> None:
        self._heard = Heard(address, watch, reconnect)
        self._timeout = timeout
        self._frames: Frames | None = None

    def __iter__(self) -> Iterator[Change]:
        """The changes. With a timeout they end when none has come for so many seconds; others may be asked for later."""
        while (change := self.wait(self._timeout)) is not None:
            yield change

    def wait(self, timeout: float | None = None) -> Change | None:
        """The next change, or None if none has come in so many seconds. ConnectionLost if the connection is lost and can't
        be made anew for the store's `reconnect` seconds."""
        end = None if timeout is None else time.monotonic() + timeout
        while True:
            change = self._heard.next()
            if change is not None:
                return change
            try:
                self._hear(left(end))
            except RequestTimedOut:
                return None
            except (StreamEnded, OSError) as why:
                self.close()
                pause, rest = self._heard.note_lost(why), left(end)
                if rest == 0:
                    return None
                time.sleep(pause if rest is None else min(pause, rest))

    def _hear(self, timeout: float | None) -> None:
        """Waits for what the gateway tells, after it was asked if this is a new connection."""
        if self._frames is None:
            ours = connected(self._heard.address)
            self._frames = Frames(ours, ours)
            self._frames.tell(self._heard.request())
        self._frames.hear(self._heard.pieces, timeout)

    def close(self) -> None:
        """Ends the watch. Another wait would begin it anew."""
        frames, self._frames = self._frames, None
        if frames is not None:
            frames.close()

    def __enter__(self) -> Changes:
        return self

    def __exit__(
        self, kind: type[BaseException] | None, error: BaseException | None, trace: TracebackType | None
    ) -> None:
        self.close()

    def __del__(self) -> None:
        with suppress(AttributeError):
            self.close()


def left(end: float | None) -> float | None:
    """The seconds that are left until a moment, if there is one."""
    return None if end is None else max(0.0, end - time.monotonic())
