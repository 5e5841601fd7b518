"""Frames of requests and replies: a length, and a body of so many bytes."""

from __future__ import annotations

from struct import Struct

from duqishom.refusals import FrameTooLarge

# A gateway adds a number of four bytes, and a program reads no more than 1,048,576.
LONGEST_BODY = 1_048_572

LENGTH = Struct(">I")


def framed(body: bytes) -> bytes:
    """A body in a frame. FrameTooLarge if it is too long."""
    if len(body) > LONGEST_BODY:
        raise FrameTooLarge()
    return LENGTH.pack(len(body)) + body


def frames_end(read: bytes, at: int, count: int) -> tuple[int, int]:
    """The place behind so many frames, or behind the last whole one, from a place on; and how many frames are missing."""
    end, length_at = len(read), LENGTH.unpack_from
    while count and at + 4 <= end:
        behind = at + 4 + length_at(read, at)[0]
        if behind > end:
            break
        at, count = behind, count - 1
    return at, count


def whole_frames(read: bytes, bodies: list[bytes]) -> int:
    """Appends the bodies of the whole frames that were read, and returns the number of bytes that the frames take."""
    at = 0
    while (frame := frames_end(read, at, 1))[1] == 0:
        bodies.append(read[at + 4 : frame[0]])
        at = frame[0]
    return at
