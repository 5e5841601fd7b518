"""A program that answers from a table of request bodies, in order, and their replies."""

from __future__ import annotations

import sys
import unittest
from collections.abc import Sequence
from pathlib import Path

from tests.gateways import folder_of

PEER = """#!{python}
import sys
exchanges = {exchanges!r}
while head := sys.stdin.buffer.read(4):
    body = sys.stdin.buffer.read(int.from_bytes(head, "big"))
    asked, reply = exchanges.pop(0) if body and exchanges else (b"", bytes((255, 22)))
    if body != asked:
        print("asked", body.hex(" "), "in place of", asked.hex(" "), file=sys.stderr, flush=True)
        break
    sys.stdout.buffer.write(len(reply).to_bytes(4, "big") + reply)
    sys.stdout.buffer.flush()
"""


def peer(case: unittest.TestCase, exchanges: Sequence[tuple[bytes, bytes]]) -> str:
    """A program that expects these bodies and sends these replies. If it gets another body, it says so and ends."""
    place = Path(folder_of(case), "peer")
    place.write_text(PEER.format(python=sys.executable, exchanges=list(exchanges)))
    place.chmod(0o755)
    return str(place)
