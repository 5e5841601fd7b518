"""A store that is short of memory in some requests."""

from __future__ import annotations

from duqishom.connection import Connection
from duqishom.frames import framed, whole_frames

NO_MEMORY = b"\xff\x14"


class Poor:
    """A connection to a store that refuses some requests of one operation, NoMemory if nothing else is said: the first of them, and
    how many, from the place in which they are asked."""

    def __init__(self, connection: Connection, code: int, first: int, count: int = 1, refusal: bytes = NO_MEMORY) -> None:
        self._connection = connection
        self._code = code
        self._refused = range(first, first + count)
        self._asked = 0
        self._refusal = refusal

    def ask(self, requests: bytes, count: int, timeout: float | None = None) -> bytes:
        asked: list[bytes] = []
        replies: list[bytes] = []
        whole_frames(requests, asked)
        refused = []
        for place, body in enumerate(asked):
            self._asked += body[:1] == bytes([self._code])
            if body[:1] == bytes([self._code]) and self._asked in self._refused:
                refused.append(place)
        sent = [framed(body) for place, body in enumerate(asked) if place not in refused]
        whole_frames(self._connection.ask(b"".join(sent), len(sent), timeout), replies)
        for place in refused:
            replies.insert(place, self._refusal)
        return b"".join(map(framed, replies))

    def tell(self, request: bytes, timeout: float | None = None) -> None:
        self._connection.tell(request, timeout)

    def kill(self) -> None:
        self._connection.kill()

    def close(self) -> int:
        return self._connection.close()
