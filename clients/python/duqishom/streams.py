"""Frames over a socket for `asyncio`: many tasks ask at once, and each gets its replies."""

from __future__ import annotations

import asyncio
from collections import deque
from typing import cast

from duqishom.frames import frames_end
from duqishom.remote import Address, ConnectionLost, named_error
from duqishom.several import Support


class Trip:
    """Requests in flight: how many replies are missing, and the pieces of their frames."""

    def __init__(self, count: int) -> None:
        self.missing = count
        self.pieces: list[bytes] = []
        self.is_waited_for = True
        self.done: asyncio.Future[bytes] = asyncio.get_running_loop().create_future()


class FrameStream(asyncio.Protocol):
    """A connection to a gateway, and whether the program there has Commit and Read. Replies come in the order of the
    requests, so the replies to a trip whose task was cancelled are skipped."""

    def __init__(self) -> None:
        self._trips: deque[Trip] = deque()
        self._rest = b""
        self._has_room = asyncio.Event()
        self._has_room.set()
        self.is_open = True
        self.is_lost = False
        self.support = Support()

    @classmethod
    async def open(cls, address: Address) -> FrameStream:
        """Connects to a gateway. OSError, with the path or the host, where none serves there."""
        loop = asyncio.get_running_loop()
        try:
            if isinstance(address, str):
                _, stream = await loop.create_unix_connection(cls, address)
            else:
                _, stream = await loop.create_connection(cls, *address)
        except OSError as error:
            raise named_error(error, address) from None
        return stream

    async def room(self) -> None:
        """Waits until requests can be sent at once."""
        await self._has_room.wait()

    async def ask(self, requests: bytes, count: int) -> bytes:
        """Sends the frames of so many requests in one piece, at once if there is room, and gives the frames of the replies.
        ConnectionLost if the connection ends instead of a reply."""
        await self.room()
        if not self.is_open:
            self.is_lost = True
            raise ConnectionLost()
        trip = Trip(count)
        self._trips.append(trip)
        self._transport.write(requests)
        return await trip.done

    def tell(self, request: bytes) -> None:
        """Sends the frame of a request, and doesn't wait for its reply."""
        if self.is_open:
            trip = Trip(1)
            trip.done.add_done_callback(lambda done: done.cancelled() or done.exception())
            trip.is_waited_for = False
            self._trips.append(trip)
            self._transport.write(request)

    def connection_made(self, transport: asyncio.BaseTransport) -> None:
        self._transport = cast(asyncio.Transport, transport)

    def data_received(self, data: bytes) -> None:
        read, at = self._rest + data, 0
        while self._trips:
            trip = self._trips[0]
            end, trip.missing = frames_end(read, at, trip.missing)
            trip.pieces.append(read[at:end])
            at = end
            if trip.missing:
                break
            self._trips.popleft()
            if not trip.done.done():
                trip.done.set_result(b"".join(trip.pieces))
        self._rest = read[at:]
        if not self._trips and frames_end(read, at, 1)[1] == 0:
            # A gateway that has no place for this connection says so before it is asked
            self._transport.close()

    def connection_lost(self, error: Exception | None) -> None:
        self.is_open = False
        self._has_room.set()
        self.is_lost = any(trip.is_waited_for for trip in self._trips)
        for trip in self._trips:
            if not trip.done.done():
                trip.done.set_exception(ConnectionLost())
        self._trips.clear()

    def pause_writing(self) -> None:
        self._has_room.clear()

    def resume_writing(self) -> None:
        self._has_room.set()

    def close(self) -> None:
        """Disconnects. It may be called again."""
        self._transport.close()
