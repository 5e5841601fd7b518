"""Places for sessions, in the order in which tasks ask for them."""

from __future__ import annotations

import asyncio
from collections import deque


class Places:
    """So many places. A task that finds none waits for one that is given back. `given` is how many were."""

    def __init__(self, most: int) -> None:
        if most < 1:
            raise ValueError(f"there must be 1 session or more, and not {most}")
        self._places = asyncio.Semaphore(most)
        self._taken = self.given = 0
        self._waiting: deque[asyncio.Future[None]] = deque()

    async def take(self) -> None:
        """Takes a place."""
        await self._places.acquire()
        self._taken += 1

    def give_back(self) -> None:
        """Gives a place back."""
        self._taken -= 1
        self.given += 1
        self._places.release()
        while self._waiting:
            waiting = self._waiting.popleft()
            if not waiting.done():
                waiting.set_result(None)
                return

    async def one_left(self) -> bool:
        """Waits until another one gives its place back: False if there is no other."""
        if self._taken - len(self._waiting) <= 1:
            return False
        self._waiting.append(asyncio.get_running_loop().create_future())
        await self._waiting[-1]
        return True
