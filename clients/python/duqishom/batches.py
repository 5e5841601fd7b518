"""Trips as bytes: the frames of their requests, and the answers in the frames of their replies.

A batch is many requests of one session, which are encoded in one pass. The replies to writes, steps and a Commit are
compared with the bytes of a commit that goes well, and read field by field only if they differ.
"""

from __future__ import annotations

from collections.abc import Callable, Iterable, Mapping, Sequence
from functools import lru_cache
from itertools import repeat
from struct import Struct
from typing import Any, ClassVar, NamedTuple

from duqishom.answers import Committed, Pending, Progress
from duqishom.cells import Cell
from duqishom.fields import bytes_argument
from duqishom.frames import LENGTH, LONGEST_BODY, framed
from duqishom.operations import (
    Answer,
    Begin,
    Delete,
    Get,
    Operation,
    Set,
    Step,
    Stop,
    answer_or_refusal,
    request_body,
)
from duqishom.refusals import FrameTooLarge, Refused
from duqishom.several import Commit, CommitDone

# The first fields of a Get, a Set or a Delete: length of the body, operation, session, and length of the row.
HEAD = Struct(">IBQI")
STEP = Struct(">IBQ")

# The first fields of the reply to a Get: length of the body, operation with a tag, and length of the value.
FOUND = Struct(">IHI")
VALUE, NOTHING = 0x8201, 0x8200

# The replies to a Set and a Delete, and the replies to steps, without their last fields.
SET_DONE, DELETE_DONE = b"\0\0\0\1\x83", b"\0\0\0\1\x93"
BEGIN, BEGUN, STOPPED = b"\0\0\0\1\1", b"\0\0\0\x09\x81", b"\0\0\0\1\x85"
PLACED = Struct(">IBBHH")
STAMPED, COMMITTED = b"\0\0\0\x0a\x84\3", b"\0\0\0\x0a\x84\4"
HELD, FINISHED = 1, 6

# The reply to a Commit that has committed, without its last fields: the start and the stamp.
COMMIT_DONE, START_AND_STAMP = b"\0\0\0\x12\xb2\1", Struct(">QQ")


class Replies:
    """Takes the replies to a trip from the front of their frames."""

    def __init__(self, frames: bytes, is_remote: bool) -> None:
        self.frames, self.at = frames, 0
        self._is_remote = is_remote

    def has(self, expected: bytes) -> bool:
        """Whether these frames are next. Then they are taken."""
        is_next = self.frames.startswith(expected, self.at)
        self.at += len(expected) if is_next else 0
        return is_next

    def begun(self) -> int | Refused:
        """The answer to a Begin in the next frame, or the refusal."""
        if not self.has(BEGUN):
            return self.answer(Begin())
        at, self.at = self.at, self.at + 8
        return int.from_bytes(self.frames[at : self.at], "big")

    def commit_done(self) -> CommitDone | None:
        """The answer in the next frame, if it is that to a Commit that has committed. Then it is taken."""
        if not self.has(COMMIT_DONE):
            return None
        at, self.at = self.at, self.at + START_AND_STAMP.size
        return CommitDone(*START_AND_STAMP.unpack_from(self.frames, at))

    def answer(self, operation: Operation[Answer]) -> Answer | Refused:
        """The answer in the next frame, or the refusal."""
        begin = self.at + 4
        self.at = begin + LENGTH.unpack_from(self.frames, self.at)[0]
        return answer_or_refusal(operation, self.frames[begin : self.at], self._is_remote)


class Batch:
    """Requests of one session that are sent together."""

    code: ClassVar[int]
    count: int

    def frames(self) -> bytes | bytearray:
        """The frames of the requests."""
        raise NotImplementedError

    def read(self, replies: Replies) -> Any:
        """The answer in the replies."""
        raise NotImplementedError


class Writes(Batch):
    """Buffers writes in a session: Sets, and a Delete where the value is None. The answer is None if all are accepted,
    or else a list with None or the refusal of each."""

    code = Set.code

    def __init__(self, start: int, writes: Mapping[Cell, bytes | None]) -> None:
        self.start, self.writes, self.count = start, dict(writes), len(writes)

    def frames(self) -> bytearray:
        return cell_requests(self.start, Delete.code, self.writes.items())

    def read(self, replies: Replies) -> list[Refused | None] | None:
        if replies.has(b"".join([DELETE_DONE if value is None else SET_DONE for value in self.writes.values()])):
            return None
        return [replies.answer(self._request(cell, value)) for cell, value in self.writes.items()]

    def _request(self, cell: Cell, value: bytes | None) -> Set | Delete:
        """The request for a write."""
        return Delete(self.start, *cell) if value is None else Set(self.start, *cell, value)


class Steps(Batch):
    """Takes the steps of a session that writes so many cells, but for those taken: each cell is held, the stamp is drawn,
    the first cell commits, and each other is finished. The answer is Committed if all are taken now and as expected, or
    else a tuple of each answer."""

    code = Step.code

    def __init__(self, start: int, cells: int, taken: int) -> None:
        self.start, self.cells, self.count = start, cells, 2 * cells + 1 - taken

    def frames(self) -> bytes:
        return STEP.pack(9, Step.code, self.start) * self.count

    def read(self, replies: Replies) -> Committed | tuple[Progress | Refused, ...]:
        held, finished = placed(HELD, 1, self.cells), placed(FINISHED, 2, self.cells)
        at = replies.at + len(held) + len(STAMPED)
        stamp = replies.frames[at : at + 8]
        if self.count > 2 * self.cells and replies.has(b"".join((held, STAMPED, stamp, COMMITTED, stamp, finished))):
            return Committed(int.from_bytes(stamp, "big"))
        step = Step(self.start)
        return tuple([replies.answer(step) for _ in range(self.count)])


@lru_cache(512)
def placed(tag: int, first: int, cells: int) -> bytes:
    """The frames of the answers with this tag for each of a session's cells, from a place on: Held or Finished."""
    return b"".join([PLACED.pack(6, Step.code | 0x80, tag, place, cells) for place in range(first, cells + 1)])


class Gets(Batch):
    """Reads cells as of a session's start. The answer is a list: of each cell the value, None if it has none, the
    Pending lock, or the refusal."""

    code = Get.code

    def __init__(self, start: int, cells: Sequence[Cell]) -> None:
        self.start, self.count = start, len(cells)
        self.cells = [(bytes_argument("row", row), bytes_argument("family", family)) for row, family in cells]

    def frames(self) -> bytearray:
        return cell_requests(self.start, Get.code, zip(self.cells, repeat(None)))

    def read(self, replies: Replies) -> list[bytes | None | Pending | Refused]:
        # The last frame may be shorter than a value's first fields
        frames, at = replies.frames + bytes(FOUND.size), replies.at
        found: list[bytes | None | Pending | Refused] = []
        for cell in self.cells:
            size, code, length = FOUND.unpack_from(frames, at)
            if code == VALUE and size == 6 + length:
                found.append(frames[at + 10 : at + 4 + size])
            elif code == NOTHING and size == 2:
                found.append(None)
            else:
                replies.at = at
                answer = replies.answer(Get(self.start, *cell))
                assert isinstance(answer, (Pending, Refused))
                found.append(answer)
            at += 4 + size
        replies.at = at
        return found


class Whole(Batch):
    """A session that begins, does one request and stops, all in one trip, if its start can be expected; otherwise its begin
    alone. The answer is `Begun`, or the refusal to begin."""

    code = Begin.code

    def __init__(self, expected: Callable[[], int | None], request: Callable[[int], Operation[Any]]) -> None:
        """`expected` is asked as the requests are encoded, and nothing else may be sent between this and them: a Stop of another
        start would end another session of the same client."""
        self._expected, self._request = expected, request
        self._asked: Operation[Any] | None = None

    def frames(self) -> bytes:
        self.start = self._expected()
        if self.start is None:
            self._asked, self.count = None, 1
            return BEGIN
        self._asked, self.count = self._request(self.start), 3
        return b"".join([BEGIN, request_frame(self._asked), STEP.pack(9, Stop.code, self.start)])

    def read(self, replies: Replies) -> Begun | Refused:
        start, answer = replies.begun(), None
        if self._asked is not None and self.start is not None:
            answer = replies.answer(self._asked)
            if not replies.has(STOPPED):
                replies.answer(Stop(self.start))
        return start if isinstance(start, Refused) else Begun(start, answer if start == self.start else None)


class Begun(NamedTuple):
    """A session's start, and the answer to its request or the refusal, behind which it has stopped. None if it has another
    start than was expected: then it is open."""

    start: int
    answer: Any | Refused | None


def cell_requests(start: int, code: int, cells: Iterable[tuple[tuple[bytes, bytes], bytes | None]]) -> bytearray:
    """The frames of a session's requests at cells: a Set of the value, or the operation with this number if it is None.
    FrameTooLarge if one is too long."""
    frames = bytearray()
    head, length = HEAD.pack, LENGTH.pack
    for (row, family), value in cells:
        size = 17 + len(row) + len(family) + (0 if value is None else 4 + len(value))
        if size > LONGEST_BODY:
            raise FrameTooLarge()
        frames += head(size, code if value is None else Set.code, start, len(row))
        frames += row
        frames += length(len(family))
        frames += family
        if value is not None:
            frames += length(len(value))
            frames += value
    return frames


def request_frame(operation: Operation[Answer]) -> bytes:
    """The frame of a request for an operation. FrameTooLarge if it is too long."""
    return framed(request_body(operation))


def request_frames(operations: Sequence[Operation[Any] | Batch]) -> tuple[bytes, int]:
    """The frames of the requests for operations, and their number. FrameTooLarge if one is too long."""
    frames: list[bytes | bytearray] = []
    count = 0
    for operation in operations:
        if isinstance(operation, Batch):
            frames.append(operation.frames())
            count += operation.count
        else:
            frames.append(request_frame(operation))
            count += 1
    return b"".join(frames), count


def answers_of(operations: Sequence[Operation[Any] | Batch], frames: bytes, is_remote: bool = False) -> list[Any]:
    """The answers in the replies to operations, or their refusals, at a gateway or at a store of one's own. MalformedReply
    where one is none."""
    replies = Replies(frames, is_remote)
    return [answer_of(each, replies) for each in operations]


def answer_of(operation: Operation[Any] | Batch, replies: Replies) -> Any:
    """The answer in the next replies to an operation, or its refusal."""
    if isinstance(operation, Batch):
        return operation.read(replies)
    if isinstance(operation, Commit) and (done := replies.commit_done()) is not None:
        return done
    return replies.answer(operation)
