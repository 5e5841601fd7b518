"""Batches: the bytes of their requests, and the answers in replies that are as expected, and in others."""

from __future__ import annotations

import unittest
from typing import Any

from duqishom import Committed, Conflict, Finished, Held, MalformedReply, Pending, Refused, Stamped
from duqishom.batches import Batch, Gets, Steps, Writes, answers_of, request_frames
from duqishom.cells import Cell
from duqishom.operations import Begin, Operation
from duqishom.refusals import FrameTooLarge
from duqishom.several import Commit, CommitConflict, CommitDone

BOB, JOE = Cell(b"Bob", b"bal"), Cell(b"Joe", b"bal")
WRITES = Writes(1, {BOB: b"10", JOE: None})
GETS = Gets(1, [BOB, JOE])
COMMIT = Commit(7, ((*BOB, b"10"),))
HELD = "00000006 84 01 0001 0002  00000006 84 01 0002 0002"
STAMPED, COMMITTED = "0000000A 84 03 0000000000000002", "0000000A 84 04 0000000000000002"
FINISHED = "00000006 84 06 0002 0002"
UNKNOWN = "00000002 FF01"

REQUESTS = (
    (
        WRITES,
        "0000001D 03 0000000000000001 00000003 426F62 00000003 62616C 00000002 3130"
        "00000017 13 0000000000000001 00000003 4A6F65 00000003 62616C",
    ),
    (Steps(1, 2, 4), "00000009 04 0000000000000001"),
    (Steps(1, 1, 0), "00000009 04 0000000000000001" * 3),
    (
        GETS,
        "00000017 02 0000000000000001 00000003 426F62 00000003 62616C"
        "00000017 02 0000000000000001 00000003 4A6F65 00000003 62616C",
    ),
)

ANSWERS: tuple[tuple[Operation[object] | Batch, str, object], ...] = (
    (COMMIT, "00000012 B2 01 0000000000000007 0000000000000009", CommitDone(7, 9)),
    (COMMIT, "0000000C B2 02 0000000000000007 0001", CommitConflict(7, 1)),
    (COMMIT, UNKNOWN, "UnknownSession"),
    (WRITES, "00000001 83  00000001 93", None),
    (WRITES, "00000001 83  00000002 FF14", [None, "NoMemory"]),
    (WRITES, "00000002 FF14  00000001 93", ["NoMemory", None]),
    (Steps(1, 2, 0), HELD + STAMPED + COMMITTED + FINISHED, Committed(2)),
    (Steps(1, 2, 0), HELD + STAMPED + "0000000A 84 04 0000000000000003" + FINISHED, [
        Held(1, 2), Held(2, 2), Stamped(2), Committed(3), Finished(2, 2),
    ]),
    (Steps(1, 2, 0), "00000006 84 01 0001 0002  00000004 84 02 0002" + UNKNOWN * 3, [
        Held(1, 2), Conflict(2), "UnknownSession", "UnknownSession", "UnknownSession",
    ]),
    (Steps(1, 2, 0), HELD + STAMPED + COMMITTED + "00000002 FF0F", [
        Held(1, 2), Held(2, 2), Stamped(2), Committed(2), "MemtableFull",
    ]),
    (Steps(1, 2, 4), FINISHED, [Finished(2, 2)]),
    (Steps(1, 1, 2), COMMITTED, [Committed(2)]),
    (GETS, "00000008 82 01 00000002 3130  00000006 82 01 00000000", [b"10", b""]),
    (GETS, "00000002 82 00  00000008 82 01 00000002 3130", [None, b"10"]),
    (GETS, "0000000A 82 02 0000000000000001  00000002 82 00", [Pending(1), None]),
    (GETS, UNKNOWN + UNKNOWN, ["UnknownSession", "UnknownSession"]),
)

MALFORMED: tuple[tuple[Operation[object] | Batch, str], ...] = (
    (COMMIT, "00000013 B2 01 0000000000000007 0000000000000009 00"),
    (COMMIT, "00000012 B3 01 0000000000000007 0000000000000009"),
    (WRITES, "00000001 83  00000001 83"),
    (WRITES, "00000002 83 00  00000001 93"),
    (Steps(1, 1, 2), "00000006 84 07 0001 0001"),
    (GETS, "00000002 82 00  00000000"),
    (GETS, "00000002 82 00  00000001 82"),
    (GETS, "00000003 82 00 00  00000002 82 00"),
    (GETS, "00000008 82 01 00000001 3130  00000002 82 00"),
)


def shown(answer: object) -> object:
    """An answer with its refusals by their names."""
    if isinstance(answer, (list, tuple)):
        return [shown(each) for each in answer]
    return answer.name if isinstance(answer, Refused) else answer


class Batches(unittest.TestCase):
    def test_requests(self) -> None:
        for batch, frames in REQUESTS:
            with self.subTest(frames=frames):
                self.assertEqual(request_frames([Begin(), batch]), (bytes.fromhex("00000001 01" + frames), 1 + batch.count))
        with self.assertRaises(FrameTooLarge):
            request_frames([Gets(1, [Cell(bytes(1_048_577), b"bal")])])

    def test_answers(self) -> None:
        begun = "00000009 81 0000000000000001"
        for batch, replies, answer in ANSWERS:
            with self.subTest(replies=replies):
                asked: list[Operation[Any] | Batch] = [Begin(), batch, Begin()]
                self.assertEqual(shown(answers_of(asked, bytes.fromhex(begun + replies + begun))), [1, answer, 1])

    def test_malformed_replies(self) -> None:
        for batch, replies in MALFORMED:
            with self.subTest(replies=replies), self.assertRaises(MalformedReply):
                answers_of([batch], bytes.fromhex(replies))


if __name__ == "__main__":
    unittest.main()
