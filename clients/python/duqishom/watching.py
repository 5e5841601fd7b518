"""Changes for `asyncio`: what a gateway tells of commits that have written cells in rows with a prefix."""

from __future__ import annotations

import asyncio
from collections.abc import AsyncIterator
from contextlib import suppress
from types import TracebackType

from duqishom.changes import Change, Heard, Watch
from duqishom.connection import PIECE, StreamEnded
from duqishom.remote import Address, named_error


class Changes:
    """The changes to the rows with a prefix, one after the other, for `async for`: as `Changes` of the other twin. One
    task may use it at a time. It ends with an `async with`, or by `close`."""

    def __init__(self, address: Address, watch: Watch, timeout: float | None, reconnect: float) -> None:
        self._heard = Heard(address, watch, reconnect)
        self._timeout = timeout
        self._streams: tuple[asyncio.StreamReader, asyncio.StreamWriter] | None = None

    async def __aiter__(self) -> AsyncIterator[Change]:
        """The changes. With a timeout they end when none has come for so many seconds; others may be asked for later."""
        while (change := await self.wait(self._timeout)) is not None:
            yield change

    async def wait(self, timeout: float | None = None) -> Change | None:
        """The next change, or None if none has come in so many seconds. ConnectionLost as `wait` of the other twin."""
        with suppress(TimeoutError):
            async with asyncio.timeout(timeout):
                return await self._next()
        return self._heard.next()

    async def _next(self) -> Change:
        """The next change."""
        while (change := self._heard.next()) is None:
            try:
                await self._hear()
            except (StreamEnded, OSError) as why:
                await self.close()
                await asyncio.sleep(self._heard.note_lost(why))
        return change

    async def _hear(self) -> None:
        """Waits for what the gateway tells, after it was asked if this is a new connection."""
        if self._streams is None:
            self._streams = await opened(self._heard.address)
            self._streams[1].write(self._heard.request())
        piece = await self._streams[0].read(PIECE)
        if not piece:
            raise StreamEnded()
        self._heard.pieces.append(piece)

    async def close(self) -> None:
        """Ends the watch. Another wait would begin it anew."""
        streams, self._streams = self._streams, None
        if streams is not None:
            streams[1].close()

    async def __aenter__(self) -> Changes:
        return self

    async def __aexit__(
        self, kind: type[BaseException] | None, error: BaseException | None, trace: TracebackType | None
    ) -> None:
        await self.close()

    def __del__(self) -> None:
        with suppress(AttributeError, RuntimeError):
            if self._streams is not None:
                self._streams[1].close()


async def opened(address: Address) -> tuple[asyncio.StreamReader, asyncio.StreamWriter]:
    """The streams of a new connection. OSError, with the path or the host, if nobody serves there."""
    try:
        if isinstance(address, str):
            return await asyncio.open_unix_connection(address)
        return await asyncio.open_connection(*address)
    except OSError as error:
        raise named_error(error, address) from None
