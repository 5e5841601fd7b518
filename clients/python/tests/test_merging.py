"""The merge of a cluster's recordings: worked rows, each with the run that comes of them, or why there is none."""

from __future__ import annotations

import tempfile
import unittest
from io import BytesIO
from pathlib import Path

from duqishom.merging import merge
from duqishom.messages import OutOfForm
from duqishom.pairing import Untold, Wrong
from tests.test_recording import bodies, framed

# A server's requests and their replies, none where nobody got one, and its messages, all in hexadecimal digits.
Rows = list[tuple[str, str | None]]
Recorded = tuple[Rows, list[str]]

# Messages of the row r, at the only object "rows": a Fetch, and a Swap with an edit that puts a key.
ROW = "00000003 720000"
AT = "00000004 726f7773 00000000000000"
LOCK = "01 00000014 720000 63 0000 6c6f636b 0000 fffffffffffffffe"
RECORD = "01 00000015 720000 63 0000 7772697465 0000 ffffffffffffdfff"


def fetch(guard: int, version: int) -> str:
    return f"01 {ROW} {guard:016x} {AT} {version:02x}"


def swap(guard: int, edit: str = LOCK) -> str:
    return f"02 {ROW} {guard:016x} 00000001 {edit}"


def done(version: int) -> str:
    return f"82 00 {AT} {version:02x}"


BEGINS, RACED = "06", "82 01"


def draw(stamp: str) -> str:
    return f"04 {stamp}"


# Stamps: of three sessions, and of a commit.
S1, S2, S3, C = "0000000000001000", "0000000000001fff", "0000000000003000", "0000000000002000"

# Client 7 of a server begins a session, writes r c in it, and holds it.
BEGUN = ("00000007 01", f"00000007 81 {S1}")
SET = (f"00000007 03 {S1} 00000001 72 00000001 63 00000001 76", "00000007 83")
STEP = f"00000007 04 {S1}"
HELD = (STEP, "00000007 84 01 0001 0001")
STAMPED = (STEP, f"00000007 84 03 {C}")
COMMITTED = (STEP, f"00000007 84 04 {C}")
HOLDS = [BEGINS, fetch(0, 0), swap(0), done(1)]

# The same as client 1 of a run.
BEGUN_1 = ("00000001 01", f"00000001 81 {S1}")
SET_1 = (f"00000001 03 {S1} 00000001 72 00000001 63 00000001 76", "00000001 83")
STEP_1 = f"00000001 04 {S1}"
HELD_1 = (STEP_1, "00000001 84 01 0001 0001")

# Another session reads it.
BEGUN_3 = ("00000009 01", f"00000009 81 {S3}")
GET_3 = f"00000009 02 {S3} 00000001 72 00000001 63"
DELETE_3 = (f"00000009 13 {S3} 00000001 72 00000001 63", "00000009 93")
HELD_3 = (f"00000009 04 {S3}", "00000009 84 01 0001 0001")

# By their names: the recordings by the names of servers, and the run, or the words of a failure.
RUNS: dict[str, tuple[dict[str, Recorded], list[tuple[str, str]]]] = {
    "stamps": (
        {
            "w0.1": ([("00000001 01", f"00000001 81 {S3}")], [draw(S3)]),
            "w1.1": ([("00000001 01", f"00000001 81 {S1}")], [draw(S1)]),
        },
        [
            ("00000001 01", f"00000001 81 {S1}"),
            ("00000001", "00000001 85"),
            ("00000002 01", f"00000002 81 {S3}"),
            ("00000002", "00000002 85"),
        ],
    ),
    "a row": (
        {
            "w0.1": ([BEGUN_3, (GET_3, f"00000009 82 02 {S1}")], [draw(S3), BEGINS, fetch(1, 1)]),
            "w1.1": ([BEGUN, SET, HELD], [draw(S1), *HOLDS]),
        },
        [
            BEGUN_1,
            SET_1,
            ("00000002 01", f"00000002 81 {S3}"),
            HELD_1,
            ("00000001", "00000001 85"),
            (f"00000002 02 {S3} 00000001 72 00000001 63", f"00000002 82 02 {S1}"),
            ("00000002", "00000002 85"),
        ],
    ),
    "a raced attempt, a failed one, and requests that are none": (
        {
            "w0.1": (
                [
                    ("ffffffff 00", "ffffffff ff 16"),
                    BEGUN,
                    SET,
                    (STEP, "00000007 ff 13"),
                    HELD,
                    ("00000007", "00000007 85"),
                ],
                [
                    draw(S1),
                    *(BEGINS, fetch(0, 0), "ff 02"),
                    # another changes the row
                    *(BEGINS, fetch(0, 0), f"07 {ROW} {0:016x} {AT} 01", swap(0), RACED),
                    *(BEGINS, fetch(1, 1), swap(1), done(2)),
                ],
            )
        },
        [BEGUN_1, SET_1, (STEP_1, "00000001 ff 13"), HELD_1, ("00000001", "00000001 85")],
    ),
    "cleaners of two servers": (
        {
            "w0.1": (
                [
                    *(BEGUN, SET, HELD),
                    ("00000007 06 00000001 72 00000001 63", f"00000007 86 01 {1:016x} {S1}"),
                    ("00000007", "00000007 85"),
                    (f"ffffffff 07 {1:016x}", "ffffffff 87 01"),
                    (f"ffffffff 07 {1:016x}", "ffffffff 87 04"),
                    (f"ffffffff 07 {1:016x}", "ffffffff ff 09"),
                ],
                [draw(S1), *HOLDS, BEGINS, fetch(1, 1), BEGINS, fetch(1, 1), swap(1), done(2), BEGINS, fetch(2, 2)],
            ),
            "w1.1": (
                [("00000003 06 00000001 72 00000001 63", f"00000003 86 01 {1:016x} {S1}")],
                [BEGINS, fetch(1, 1)],
            ),
        },
        [
            *(BEGUN_1, SET_1, HELD_1),
            ("00000001 06 00000001 72 00000001 63", f"00000001 86 01 0000000000000001 {S1}"),
            ("00000001", "00000001 85"),
            ("00000002 06 00000001 72 00000001 63", f"00000002 86 01 0000000000000002 {S1}"),
            ("00000002", "00000002 85"),
            ("ffffffff 07 0000000000000001", "ffffffff 87 01"),
            ("ffffffff 07 0000000000000001", "ffffffff 87 04"),
            ("00000003 07 7fffffffffffffff", "00000003 ff 09"),
        ],
    ),
    "a server is killed behind a change": (
        {
            "w0.1": ([BEGUN, SET, (STEP, None)], [draw(S1), *HOLDS]),
            "w0.2": ([BEGUN_3, (GET_3, f"00000009 82 02 {S1}")], [draw(S3), BEGINS, fetch(1, 1)]),
        },
        [
            *(BEGUN_1, SET_1, HELD_1),
            ("00000001", "00000001 85"),
            ("00000002 01", f"00000002 81 {S3}"),
            (f"00000002 02 {S3} 00000001 72 00000001 63", f"00000002 82 02 {S1}"),
            ("00000002", "00000002 85"),
        ],
    ),
    "a gateway is killed before many replies": (
        {
            "w0.1": (
                [BEGUN, (SET[0], None), (STEP, None), (STEP, None), (STEP, None), ("00000007 01", None)],
                [draw(S1), *HOLDS, draw(C), BEGINS, fetch(1, 1), swap(1, RECORD), done(2)],
            )
        },
        [
            *(BEGUN_1, SET_1, HELD_1),
            (STEP_1, f"00000001 84 03 {C}"),
            (STEP_1, f"00000001 84 04 {C}"),
        ],
    ),
    "a bridge is killed in a change that was made": (
        {
            "w0.1": ([BEGUN, SET, (STEP, None)], [draw(S1), *HOLDS[:3]]),
            "w0.2": ([BEGUN_3, (GET_3, f"00000009 82 02 {S1}")], [draw(S3), BEGINS, fetch(1, 9)]),
        },
        [
            *(BEGUN_1, SET_1, HELD_1),
            ("00000001", "00000001 85"),
            ("00000002 01", f"00000002 81 {S3}"),
            (f"00000002 02 {S3} 00000001 72 00000001 63", f"00000002 82 02 {S1}"),
            ("00000002", "00000002 85"),
        ],
    ),
    "a bridge is killed in a change that wasn't made": (
        {
            "w0.1": ([BEGUN, SET, (STEP, None)], [draw(S1), *HOLDS[:3]]),
            "w0.2": ([BEGUN_3, (GET_3, "00000009 82 00")], [draw(S3), BEGINS, fetch(0, 9)]),
        },
        [
            *(BEGUN_1, SET_1),
            ("00000001", "00000001 85"),
            ("00000002 01", f"00000002 81 {S3}"),
            (f"00000002 02 {S3} 00000001 72 00000001 63", "00000002 82 00"),
            ("00000002", "00000002 85"),
        ],
    ),
    "a bridge is killed in a change, which another one makes": (
        {
            "w0.1": ([BEGUN, SET, (STEP, None)], [draw(S1), *HOLDS[:3]]),
            "w1.1": (
                [BEGUN_3, DELETE_3, HELD_3],
                [draw(S3), BEGINS, fetch(0, 0), swap(0), done(4)],
            ),
        },
        [
            *(BEGUN_1, SET_1),
            ("00000001", "00000001 85"),
            ("00000002 01", f"00000002 81 {S3}"),
            (f"00000002 13 {S3} 00000001 72 00000001 63", "00000002 93"),
            (f"00000002 04 {S3}", "00000002 84 01 0001 0001"),
            ("00000002", "00000002 85"),
        ],
    ),
    "a cleaner is killed before its change": (
        {
            "w0.1": (
                [("00000007 06 00000001 72 00000001 63", f"00000007 86 01 {1:016x} {S1}"), (f"00000007 07 {1:016x}", None)],
                [BEGINS, fetch(0, 0), BEGINS, fetch(0, 0)],
            )
        },
        [
            ("00000001 06 00000001 72 00000001 63", f"00000001 86 01 0000000000000001 {S1}"),
            ("00000001", "00000001 85"),
        ],
    ),
    "a cleaner is killed with its server": (
        {
            "w0.1": (
                [
                    ("00000007 06 00000001 72 00000001 63", f"00000007 86 01 {1:016x} {S1}"),
                    (f"00000007 07 {1:016x}", "00000007 87 01"),
                    (f"00000007 07 {1:016x}", None),
                ],
                [BEGINS, fetch(0, 0), BEGINS, fetch(0, 0), BEGINS, fetch(0, 0), swap(0, RECORD), done(1)],
            )
        },
        [
            ("00000001 06 00000001 72 00000001 63", f"00000001 86 01 0000000000000001 {S1}"),
            ("00000001 07 0000000000000001", "00000001 87 01"),
            ("00000001 07 0000000000000001", f"00000001 87 02 {C}"),
        ],
    ),
    "a scan of two pages": (
        {
            "w0.1": (
                [
                    BEGUN_3,
                    (
                        f"00000009 31 {S3} 00 00 00 00 000003e8",
                        "00000009 b1 01 00000002 00000001 71 00000001 63 01 00000001 31 00000001 73 00000001 63 01 00000001 32",
                    ),
                ],
                [draw(S3), BEGINS, f"03 00000000 00000001 {AT} 00", f"03 00000004 72000063 00000001 {AT} 01"],
            ),
            "w1.1": ([BEGUN, SET, HELD], [draw(S1), *HOLDS]),
        },
        [
            *(BEGUN_1, SET_1),
            ("00000002 01", f"00000002 81 {S3}"),
            (
                f"00000002 31 {S3} 00 00 00 00 000003e8",
                "00000002 b1 02 00000001 72 00000001 63 00000001 00000001 71 00000001 63 01 00000001 31",
            ),
            HELD_1,
            ("00000001", "00000001 85"),
            (
                f"00000002 31 {S3} 00 01 00000001 72 00000001 63 00 00 000003e8",
                "00000002 b1 01 00000001 00000001 73 00000001 63 01 00000001 32",
            ),
            ("00000002", "00000002 85"),
        ],
    ),
}

FLOOR_5000 = f"{5000:016x} {5000:016x}"

FAILURES: dict[str, tuple[dict[str, Recorded], type[Exception], str]] = {
    "one stamp twice": (
        {"w0.1": ([BEGUN], [draw(S1)]), "w1.1": ([BEGUN], [draw(S1)])},
        Wrong,
        "two changes have made one version of stamps: 4096",
    ),
    "two changes over one guard": (
        {
            "w0.1": ([BEGUN, SET, HELD], [draw(S1), *HOLDS]),
            "w1.1": (
                [BEGUN_3, DELETE_3, HELD_3],
                [draw(S3), BEGINS, fetch(0, 0), swap(0), done(2)],
            ),
        },
        Wrong,
        "w1.1 has taken the row r for one with guard 0, and it was 1",
    ),
    "stamps that don't rise": (
        {
            "w0.1": ([BEGUN, SET, HELD, STAMPED], [draw(S1), *HOLDS, draw(C)]),
            # It read before that session began to hold, and began behind it
            "w1.1": ([BEGUN_3, (GET_3, "00000009 82 00")], [draw(S3), BEGINS, fetch(0, 0)]),
        },
        Wrong,
        "the orders of servers and rows contradict each other",
    ),
    "a floor above a session": (
        {
            "w0.1": ([BEGUN, BEGUN_3], [draw(S1), f"05 {S1} {S1} {1:016x} {1:016x}", draw(S3)]),
            "w1.1": (
                [("00000001 08", f"00000001 88 {1:016x} {5000:016x}"), ("00000001 01", f"00000001 81 {S2}")],
                [f"05 {FLOOR_5000} {2:016x} {2:016x}", draw(S2)],
            ),
        },
        Wrong,
        "w1.1 collects up to 5000, and session 4096 is active",
    ),
    "a change by nobody": (
        {"w0.1": ([BEGUN_3, (GET_3, "00000009 82 00")], [draw(S3), BEGINS, fetch(2, 2)])},
        Untold,
        "the row r was changed by somebody whose recording isn't there: its guard is 2, and not 0",
    ),
    "a change without a request": (
        {"w0.1": ([BEGUN], [draw(S1), *HOLDS])},
        Untold,
        "w0.1: nothing tells which request has changed a row at its end",
    ),
    "a tablet that was split": (
        {
            "w0.1": ([], [f"08 00000001 {AT} 01"]),
            "w1.1": ([], [f"08 00000002 {AT} 02 00000004 726f7774 00000000000000 02"]),
        },
        Untold,
        "a tablet was split meanwhile",
    ),
    "another message behind the last reply": (
        {"w0.1": ([("00000007 01", None)], [BEGINS, fetch(0, 0)])},
        Untold,
        "request 1 asks for a stamp, and its message for rows",
    ),
    "two bridges killed in one change": (
        {
            "w0.1": ([BEGUN, SET, (STEP, None)], [draw(S1), *HOLDS[:3]]),
            "w1.1": ([BEGUN_3, DELETE_3, (f"00000009 04 {S3}", None)], [draw(S3), *HOLDS[:3]]),
            "w2.1": ([("00000001 06 00000001 72 00000001 63", "00000001 86 00")], [BEGINS, fetch(1, 1)]),
        },
        Untold,
        "nobody knows which of two servers has changed a row",
    ),
    "an answer without a message": ({"w0.1": ([BEGUN], [])}, Untold, "nothing tells what request 1 did"),
    "another message": ({"w0.1": ([BEGUN], [BEGINS, fetch(0, 0)])}, Wrong, "request 1 asks for a stamp, and its message for rows"),
    "another row": (
        {"w0.1": ([BEGUN_3, (GET_3.replace("72", "73"), "00000009 82 00")], [draw(S3), BEGINS, fetch(0, 0)])},
        Wrong,
        "request 2 is of another row than its message",
    ),
    "another stamp": ({"w0.1": ([BEGUN], [draw(S3)])}, Wrong, "request 1 has another stamp than its bridge gave"),
    "an answer to what was refused": (
        {"w0.1": ([BEGUN_3, (GET_3, "00000009 82 00")], [draw(S3), BEGINS, "ff 01"])},
        Wrong,
        "request 2 was answered, and its bridge has refused it",
    ),
    "a refusal of what was done": (
        {"w0.1": ([BEGUN, SET, (STEP, "00000007 ff 13")], [draw(S1), *HOLDS])},
        Wrong,
        "request 3 was refused, and has changed a row",
    ),
    "no messages": ({"w0.1": ([], ["63"])}, OutOfForm, "a frame begins with 0x63"),
    "half a message": ({"w0.1": ([], ["01 000000"])}, OutOfForm, "a frame is too short"),
}


def written(folder: str, servers: dict[str, Recorded]) -> Path:
    """A folder with these recordings. Behind each file is half a frame, as a kill leaves it."""
    place = Path(folder)
    for name, (rows, messages) in servers.items():
        (place / name).mkdir()
        answered = [bytes.fromhex(reply) for _, reply in rows if reply is not None]
        asked = [bytes.fromhex(request) for request, _ in rows]
        for file, frames in (("requests", asked), ("replies", answered), ("messages", [bytes.fromhex(each) for each in messages])):
            (place / name / file).write_bytes(framed(frames) + b"\0\0\0\1")
    return place


class MergingTest(unittest.TestCase):
    def test_runs(self) -> None:
        for name, (servers, run) in RUNS.items():
            with self.subTest(name), tempfile.TemporaryDirectory() as folder:
                requests, replies = Path(folder, "requests"), Path(folder, "replies")
                with requests.open("wb") as asked, replies.open("wb") as told:
                    merge([written(tempfile.mkdtemp(dir=folder), servers)], asked, told)
                found = list(zip([body.hex() for body in bodies(requests)], [body.hex() for body in bodies(replies)]))
                wanted = [(request.replace(" ", ""), reply.replace(" ", "")) for request, reply in run]
                self.assertEqual(found, wanted)

    def test_failures(self) -> None:
        for name, (servers, kind, words) in FAILURES.items():
            with self.subTest(name), tempfile.TemporaryDirectory() as folder, self.assertRaises(kind) as failure:
                merge([written(folder, servers)], BytesIO(), BytesIO())
            self.assertIn(words, str(failure.exception), name)

    def test_no_recording(self) -> None:
        with tempfile.TemporaryDirectory() as folder, self.assertRaises(Untold):
            merge([Path(folder)], BytesIO(), BytesIO())


if __name__ == "__main__":
    unittest.main()
