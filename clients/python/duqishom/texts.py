"""Bytes as words: UTF-8 text, in which `\\x20` stands for the byte 20 hexadecimal."""

from __future__ import annotations

import re

ESCAPE = re.compile(rb"\\x([0-9A-Fa-f]{2})")


def bytes_of(word: str) -> bytes:
    """The bytes that a word stands for."""
    return ESCAPE.sub(lambda found: bytes.fromhex(found[1].decode()), word.encode())


def text_of(given: bytes, marks: str = " \\") -> str:
    """A word that stands for these bytes. Characters that can't be shown are escaped, and so are these marks and each
    backslash."""
    text = given.decode("utf-8", "surrogateescape")
    return "".join(letter if letter.isprintable() and letter not in marks else escaped(letter) for letter in text)


def escaped(letter: str) -> str:
    """The bytes of a character, each as an escape."""
    return "".join(f"\\x{byte:02x}" for byte in letter.encode("utf-8", "surrogateescape"))
