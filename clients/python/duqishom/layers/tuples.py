"""Tuples as rows, in an order that is that of the tuples.

    unpack(pack(("order", 7, b"line"))) == ("order", 7, b"line")

A tuple's row begins with those of its beginnings, so `t.scan(prefix=pack(("order", 7)))` has all tuples that begin so.
Elements are None, bytes, str, int, float, bool, tuples of these, and `Descending` of one; types stand in this order.
"""

from __future__ import annotations

import struct
from collections.abc import Iterable
from dataclasses import dataclass
from typing import Any

NONE, BYTES, TEXT, NEGATIVE, ZERO, POSITIVE, FLOAT, FALSE, TRUE, TUPLE, DESCENDING = range(1, 12)

CONSTANTS = {NONE: None, ZERO: 0, FALSE: False, TRUE: True}

# What ends bytes, in which a byte 00 is followed by FF; and what ends a tuple in a tuple.
END, TUPLE_END = b"\0\1", 0

REVERSED, SIGN = bytes(range(255, -1, -1)), 1 << 63


@dataclass(frozen=True)
class Descending:
    """An element whose order is reversed: the greatest one comes first."""
    value: Any


def pack(elements: Iterable[Any]) -> bytes:
    """The row of a tuple. TypeError at an element that has no order here, and ValueError at a number without one."""
    return b"".join(map(packed, elements))


def packed(element: Any) -> bytes:
    """The bytes of an element."""
    match element:
        case None | bool():
            return bytes([NONE if element is None else TRUE if element else FALSE])
        case bytes() | str():
            given, code = (element, BYTES) if isinstance(element, bytes) else (element.encode(), TEXT)
            return bytes([code]) + given.replace(b"\0", b"\0\xff") + END
        case int():
            size = (abs(element).bit_length() + 7) // 8
            digits = abs(element).to_bytes(size, "big")
            if element < 0:
                return bytes([NEGATIVE, 255 - size]) + digits.translate(REVERSED)
            return bytes([POSITIVE, size]) + digits if element else bytes([ZERO])
        case float() if element == element:
            [bits] = struct.unpack(">Q", struct.pack(">d", element))
            return bytes([FLOAT]) + struct.pack(">Q", bits ^ (2 * SIGN - 1 if bits & SIGN else SIGN))
        case tuple():
            return bytes([TUPLE]) + pack(element) + bytes([TUPLE_END])
        case Descending(value):
            return bytes([DESCENDING]) + packed(value).translate(REVERSED)
    raise (ValueError if isinstance(element, float) else TypeError)(f"{element!r} has no place in an order")


def unpack(row: bytes) -> tuple[Any, ...]:
    """The tuple of a row. ValueError where it is none."""
    elements, at = [], 0
    try:
        while at < len(row):
            element, at = element_at(row, at)
            elements.append(element)
    except (IndexError, struct.error):
        at = -1
    if at != len(row):
        raise ValueError(f"the row ends inside an element: {row!r}")
    return tuple(elements)


def element_at(row: bytes, at: int) -> tuple[Any, int]:
    """The element at a byte, and where the next one begins."""
    code, at = row[at], at + 1
    if code in CONSTANTS:
        return CONSTANTS[code], at
    if code in (BYTES, TEXT):
        end = row.index(END, at)
        given = row[at:end].replace(b"\0\xff", b"\0")
        return (given if code == BYTES else given.decode()), end + 2
    if code in (NEGATIVE, POSITIVE):
        end = at + 1 + (row[at] if code == POSITIVE else 255 - row[at])
        digits = row[at + 1 : end].translate(None if code == POSITIVE else REVERSED)
        return int.from_bytes(digits, "big") * (1 if code == POSITIVE else -1), end
    if code == FLOAT:
        [bits] = struct.unpack_from(">Q", row, at)
        return struct.unpack(">d", struct.pack(">Q", bits ^ (SIGN if bits & SIGN else 2 * SIGN - 1)))[0], at + 8
    if code == TUPLE:
        elements = []
        while row[at] != TUPLE_END:
            element, at = element_at(row, at)
            elements.append(element)
        return tuple(elements), at + 1
    if code == DESCENDING:
        value, size = element_at(row[at:].translate(REVERSED), 0)
        return Descending(value), at + size
    raise ValueError(f"no element begins with the byte {code:02x}")
