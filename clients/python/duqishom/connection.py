"""Frames between a client and a store. The requests of a trip are sent in one write if they fit."""

from __future__ import annotations

import os
import select
import time
import weakref
from contextlib import suppress
from typing import Protocol

from duqishom.frames import LONGEST_BODY as LONGEST_BODY, frames_end

# The maximum size of a read in bytes.
PIECE = 65_536


class Connection(Protocol):
    """A connection to a store."""

    def ask(self, requests: bytes, count: int, timeout: float | None = None) -> bytes:
        """Sends the frames of so many requests, and gives the frames of their replies, in order.

        RequestTimedOut after `timeout` seconds. ProgramEnded if the store ends instead of replying.
        """

    def tell(self, request: bytes, timeout: float | None = None) -> None:
        """Sends the frame of a request, and doesn't wait for its reply. What fails, the next request finds out. RequestTimedOut
        where an earlier request that was interrupted has no reply in so many seconds."""

    def kill(self) -> None:
        """Disconnects from the store at once, whatever it is doing."""

    def close(self) -> int:
        """Disconnects from the store after its last reply, and returns its exit status: 0 if all was well."""


class Descriptor(Protocol):
    """An object to read bytes from or write bytes to: a pipe's end, or a socket."""

    def fileno(self) -> int: ...
    def close(self) -> None: ...


class Recorder(Protocol):
    """A recorder of the frames sent and received."""

    def note_requests(self, frames: bytes) -> None: ...
    def note_replies(self, frames: bytes) -> None: ...


class StreamEnded(Exception):
    """The other side has closed the stream."""


class RequestTimedOut(Exception):
    """No reply came within the timeout. The request may still be done, now or later; the next request waits for both
    replies."""


class Trip:
    """Requests in flight: the numbers of bytes written so far, and the pieces of replies read so far.

    Both only grow, each by one call that nothing can interrupt. So whatever interrupts the caller, Ctrl-C too, the trip
    can be completed later.
    """

    def __init__(self, data: bytes, count: int, behind: Trip | None = None, is_waited_for: bool = True) -> None:
        """A trip may go behind one that nobody waits for: it takes its replies, too."""
        self.data = data
        self.requests: bytes = data if behind is None else behind.requests + data
        self.passed: int = 0 if behind is None else behind.count
        self.count: int = self.passed + count
        self.written: list[int] = []
        self.pieces: list[bytes] = [] if behind is None else behind.pieces
        self.is_waited_for = is_waited_for

    def unsent(self) -> bytes | memoryview:
        """The bytes that aren't written yet."""
        return memoryview(self.data)[sum(self.written) :] if self.written else self.data


class Frames:
    """A stream of frames each way, over two descriptors or one."""

    def __init__(self, reads: Descriptor, writes: Descriptor, recorder: Recorder | None = None) -> None:
        """Takes over both descriptors, and makes the one written to non-blocking. Each completed trip is recorded."""
        self._reads, self._writes = reads, writes
        self._recorder = recorder
        self._trip: Trip | None = None
        os.set_blocking(writes.fileno(), False)
        OPEN.add(self)

    def ask(self, requests: bytes, count: int, timeout: float | None = None) -> bytes:
        """The frames of the replies to so many requests. A trip that was interrupted is completed first.

        StreamEnded if the other side closes, and RequestTimedOut.
        """
        deadline = None if timeout is None else time.monotonic() + timeout
        self._trip = trip = Trip(requests, count, self._unwaited(deadline))
        return self._replies(trip, deadline)

    def wait(self, timeout: float) -> bytes:
        """The frames of the replies to the last trip, which has timed out. StreamEnded and RequestTimedOut as before."""
        assert self._trip is not None
        return self._replies(self._trip, time.monotonic() + timeout)

    def hear(self, pieces: list[bytes], timeout: float | None = None) -> None:
        """Waits for bytes that the other side sends without being asked, and appends them. StreamEnded and RequestTimedOut
        as before."""
        deadline = None if timeout is None else time.monotonic() + timeout
        trip = Trip(b"", 0)
        trip.pieces = pieces
        before = len(pieces)
        while len(pieces) == before:
            self._read(trip, deadline)

    def _replies(self, trip: Trip, deadline: float | None) -> bytes:
        """Completes a trip, and returns the frames of its own replies."""
        replies = self._finish(trip, deadline)
        return replies[frames_end(replies, 0, trip.passed)[0] :] if trip.passed else replies

    def _unwaited(self, deadline: float | None) -> Trip | None:
        """The trip before the next one, if it is sent and nobody waits for it. Another one is taken to its end."""
        trip = self._trip
        if trip is not None and (trip.is_waited_for or trip.unsent()):
            self._finish(trip, deadline)
            return None
        return trip

    def tell(self, request: bytes, timeout: float | None = None) -> None:
        """Sends a request whose reply the next trip takes. What fails, that one finds out.

        StreamEnded where the other side has closed before it replied to an earlier one, and RequestTimedOut.
        """
        deadline = None if timeout is None else time.monotonic() + timeout
        self._trip = trip = Trip(request, 1, self._unwaited(deadline), is_waited_for=False)
        with suppress(BlockingIOError, ConnectionError, ValueError):
            trip.written.extend(map(os.write, (self._writes.fileno(),), (trip.unsent(),)))

    def settle(self, timeout: float) -> None:
        """Takes the reply to a request that wasn't waited for, if there is one, as long as that takes no more than so many
        seconds."""
        if self._trip is not None and not self._trip.is_waited_for:
            with suppress(StreamEnded, RequestTimedOut):
                self._finish(self._trip, time.monotonic() + timeout)

    def _finish(self, trip: Trip, deadline: float | None) -> bytes:
        """Completes a trip, and returns the frames of its replies."""
        rest, taken, missing = b"", 0, trip.count
        while missing:
            if taken == len(trip.pieces):
                self._move(trip, deadline)
                continue
            rest = b"".join([rest, *trip.pieces[taken:]])
            taken = len(trip.pieces)
            end, missing = frames_end(rest, 0, missing)
            rest = rest[end:]
        self._trip = None
        replies = b"".join(trip.pieces)
        if self._recorder is not None:
            self._recorder.note_requests(trip.requests)
            self._recorder.note_replies(replies)
        return replies

    def _move(self, trip: Trip, deadline: float | None) -> None:
        """Writes or reads once, whichever is possible first."""
        unsent = trip.unsent()
        try:
            if unsent:
                # `extend` records the call's result before a signal's handler can run
                trip.written.extend(map(os.write, (self._writes.fileno(),), (unsent,)))
                return
        except BlockingIOError:
            pass
        except ConnectionError:
            # Replies that the other side sent before it closed can still be read
            unsent = b""
        except ValueError:
            raise StreamEnded() from None
        if (unsent or deadline is not None) and not self._is_readable(bool(unsent), deadline):
            return
        self._read(trip, deadline)

    def _read(self, trip: Trip, deadline: float | None) -> None:
        """Reads once."""
        try:
            trip.pieces.extend(map(os.read, (self._reads.fileno(),), (PIECE,)))
        except BlockingIOError:
            self._is_readable(False, deadline)
            return
        except (ConnectionError, ValueError):
            raise StreamEnded() from None
        if not trip.pieces[-1]:
            trip.pieces.pop()
            raise StreamEnded()

    def _is_readable(self, is_sending: bool, deadline: float | None) -> bool:
        """Waits until there is something to read or, if bytes are unsent, space to write. Returns whether there is
        something to read."""
        poll = select.poll()
        reads, writes = self._reads.fileno(), self._writes.fileno()
        if is_sending:
            poll.register(writes, select.POLLOUT)
        poll.register(reads, select.POLLIN | (select.POLLOUT if is_sending and reads == writes else 0))
        left = None if deadline is None else max(0.0, deadline - time.monotonic()) * 1000
        ready = poll.poll(left)
        if not ready:
            raise RequestTimedOut("no reply in the time that was given; the request may be done nonetheless")
        return any(which == reads and what & ~select.POLLOUT for which, what in ready)

    def close(self) -> None:
        """Closes both ways."""
        self._reads.close()
        self._writes.close()


OPEN: weakref.WeakSet[Frames] = weakref.WeakSet()


def close_all() -> None:
    """Closes all streams: in a forked process, the parent's streams. Otherwise the program would wait for both to
    close."""
    for frames in list(OPEN):
        frames.close()


os.register_at_fork(after_in_child=close_all)
