"""Fields of request and reply bodies. Numbers are big-endian, and bytes follow their length."""

from __future__ import annotations


class MalformedReply(Exception):
    """A reply is not the body of any reply to its request."""


def number(width: int, value: int) -> bytes:
    """A number in `width` bytes. OverflowError if it doesn't fit."""
    return value.to_bytes(width, "big")


def counted(text: bytes) -> bytes:
    """Bytes after their length."""
    return number(4, len(text)) + text


def bytes_argument(name: str, given: bytes) -> bytes:
    """The value given for this argument, as bytes. TypeError, with the argument's name, if it has another type."""
    if isinstance(given, bytes):
        return given
    if isinstance(given, (bytearray, memoryview)):
        return bytes(given)
    raise TypeError(f"{name} must be bytes, and not {type(given).__name__}: {given!r}")


def counted_argument(name: str, given: bytes) -> bytes:
    """The value given for this argument, after its length."""
    text = given if isinstance(given, bytes) else bytes_argument(name, given)
    return len(text).to_bytes(4, "big") + text


class FieldReader:
    """Takes the fields of a body from its front."""

    def __init__(self, body: bytes) -> None:
        self.body = body
        self.at = 0

    def bytes_of(self, length: int) -> bytes:
        """The next `length` bytes."""
        taken = self.body[self.at : self.at + length]
        if len(taken) < length:
            raise self.cut()
        self.at += length
        return taken

    def number(self, width: int) -> int:
        """The next number, of `width` bytes."""
        begin, self.at = self.at, self.at + width
        if self.at > len(self.body):
            raise self.cut()
        return int.from_bytes(self.body[begin : self.at], "big")

    def skip_to(self, end: int) -> None:
        """Goes on behind the fields up to this place, which may be past the end of the body."""
        if end > len(self.body):
            raise self.cut()
        self.at = end

    def cut(self) -> MalformedReply:
        """What is raised where the body ends inside a field."""
        return MalformedReply(f"the body ends inside a field: {self.body.hex(' ')}")

    def counted(self) -> bytes:
        """The next bytes with a length before them."""
        return self.bytes_of(self.number(4))

    def rest(self) -> bytes:
        """All remaining bytes."""
        return self.bytes_of(len(self.body) - self.at)

    def end(self) -> None:
        """MalformedReply if bytes remain."""
        if self.at < len(self.body):
            raise MalformedReply(f"the body goes on behind its last field: {self.body.hex(' ')}")
