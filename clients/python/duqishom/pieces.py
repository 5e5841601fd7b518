"""The files of a folder by their numbers. One of format 3 has its payload in pieces, each with its length and its checksum:
`docs/FORMATS.md` has it in words."""

from __future__ import annotations

import mmap
import re
import struct
import tempfile
from collections.abc import Iterator
from pathlib import Path
from zlib import crc32

from duqishom.columns import BadForm
from duqishom.files import Bytes, file_name

# The format of files in pieces, and the one before it, which has no checksums.
SUMS_FORMAT, UNSUMMED_FORMAT = 3, 2

# What is added to the number of a file where it is of this format.
SUMMED = 2**63

# The most bytes of payload in a piece. One with fewer is the last of its file.
MOST_PAYLOAD = 1024

# The most bytes of a file whose payload is put together in memory. That of a longer one is in a file without a name.
MOST_IN_MEMORY = 2**20

# The numbers before the payload of a piece: its length and its checksum.
HEAD = struct.Struct(">HI")

# What a checksum covers before the payload: the file's number on the disk, the piece's number, and its length.
PLACE = struct.Struct(">QQH")

# The name of a file on the disk: of a tablet's, or of a root.
FILE = re.compile("t[0-9a-f]{16}\\.tab")

# The file that says that a folder's files are of format 3, and its text.
FORMAT_FILE = "format"
FORMAT_TEXT = b"3\n"


def number_in(name: str) -> int:
    """The number in the name of a file on the disk."""
    return int(name[1:17], 16)


def files_in(folder: Path) -> list[Path]:
    """The files of tablets and the roots of a folder, in the order of their numbers."""
    return sorted(file for file in folder.glob("t*.tab") if FILE.fullmatch(file.name))


def place_in(folder: Path, number: int) -> Path:
    """The file of a number in a folder: the one of format 3, if it is there, or if neither is and the folder has the format."""
    summed, plain = (folder / file_name(known) for known in (number + SUMMED, number))
    has_summed = summed.exists() or (not plain.exists() and (folder / FORMAT_FILE).exists())
    return summed if has_summed else plain


def spelled(number: int, payload: bytes) -> bytes:
    """The bytes of a file of format 3 with this number on the disk."""
    parts = [payload[at : at + MOST_PAYLOAD] for at in range(0, len(payload) + 1, MOST_PAYLOAD)]
    return b"".join(
        HEAD.pack(len(part), crc32(PLACE.pack(number, index, len(part)) + part)) + part for index, part in enumerate(parts)
    )


def payloads(number: int, data: Bytes) -> Iterator[bytes]:
    """The payloads of the pieces of a file with this number on the disk. BadForm at the first piece that isn't as it was
    written, and at a file without its last piece."""
    whole = HEAD.size + MOST_PAYLOAD
    for index, at in enumerate(range(0, len(data) + whole, whole)):
        piece = bytes(data[at : at + whole])
        if len(piece) < HEAD.size:
            raise BadForm("the file has no last piece", len(data))
        length, checksum = HEAD.unpack_from(piece)
        payload = piece[HEAD.size :]
        if length != len(payload) or checksum != crc32(PLACE.pack(number, index, length) + payload):
            raise BadForm(f"piece {index} isn't as it was written", at)
        yield payload
        if length < MOST_PAYLOAD:
            return


def payload_of(place: Path, data: Bytes) -> Bytes:
    """What the bytes of a file mean: the payload of one of format 3, and of any other these bytes. BadForm at the first wrong
    piece."""
    number = number_in(place.name)
    if number < SUMMED:
        return data
    if len(data) <= MOST_IN_MEMORY:
        return b"".join(payloads(number, data))
    with tempfile.TemporaryFile() as file:
        for payload in payloads(number, data):
            file.write(payload)
        file.flush()
        return mmap.mmap(file.fileno(), 0, access=mmap.ACCESS_READ)


def payload_before(place: Path, data: Bytes) -> tuple[Bytes, BadForm | None]:
    """The payload of a file up to its first wrong piece, and what is wrong there."""
    number, read = number_in(place.name), bytearray()
    if number < SUMMED:
        return data, None
    try:
        for payload in payloads(number, data):
            read += payload
    except BadForm as bad:
        return bytes(read), bad
    return bytes(read), None
