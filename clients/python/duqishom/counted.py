"""The counts of a gateway: their request and answer."""

from __future__ import annotations

import json
from collections.abc import Mapping
from dataclasses import dataclass
from typing import Any, ClassVar

from duqishom.fields import FieldReader, MalformedReply

Number = int | float
Counted = Number | Mapping[str, "Counted"]


def told_in(fields: FieldReader) -> Any:
    """What the JSON text of a reply says. MalformedReply if it is none."""
    try:
        return json.loads(fields.rest())
    except ValueError as why:
        raise MalformedReply(f"this is no JSON: {why}") from None


@dataclass(frozen=True)
class Statistics:
    """Asks for the counts of a gateway, by their names."""

    code: ClassVar[int] = 0x70

    def fields(self) -> bytes:
        return b""

    def read(self, fields: FieldReader) -> dict[str, Counted]:
        told: dict[str, Counted] = told_in(fields)
        return told
