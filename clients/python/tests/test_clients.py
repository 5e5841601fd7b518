"""Several clients over one stream: whose sessions, cleaners and collectors are whose. All bytes are written by hand."""

from __future__ import annotations

import subprocess
import tempfile
import unittest

from duqishom.program import default_program

# Each row is a client's request and the reply, as the hexadecimal bodies of two frames. The first four bytes are the
# client's number.
ROWS = [
    # Client 1 and client 2 each begin a session: 1 and 2.
    ("00000001 01", "00000001 81 0000000000000001"),
    ("00000002 01", "00000002 81 0000000000000002"),
    # Client 2 can't set in, step, read in or stop session 1: UnknownSession, as for session 9, which isn't there.
    ("00000002 03 0000000000000001 00000001 61 00000001 62 00000001 63", "00000002 FF 01"),
    ("00000002 04 0000000000000001", "00000002 FF 01"),
    ("00000002 02 0000000000000001 00000001 61 00000001 62", "00000002 FF 01"),
    ("00000002 05 0000000000000001", "00000002 FF 01"),
    ("00000002 05 0000000000000009", "00000002 FF 01"),
    # Nor delete, nor scan in it: the number of cells, 0, isn't looked at first.
    ("00000002 13 0000000000000001 00000001 61 00000001 62", "00000002 FF 01"),
    ("00000002 31 0000000000000001 00 00 00 00 00000000", "00000002 FF 01"),
    # Nor commit it, nor read in it together; and the number of cells isn't looked at first.
    ("00000002 32 0000000000000001 00000000", "00000002 FF 01"),
    ("00000002 33 0000000000000001 01 00000000", "00000002 FF 01"),
    # Client 1 sets its cell and commits session 1 at 3.
    ("00000001 03 0000000000000001 00000001 61 00000001 62 00000001 63", "00000001 83"),
    ("00000001 32 0000000000000001 00000000", "00000001 B2 01 0000000000000001 0000000000000003"),
    # The session has ended, for client 1 too.
    ("00000001 05 0000000000000001", "00000001 FF 01"),
    # A Commit with start 0 names nothing: client 3 commits a cell in session 4, at 5.
    (
        "00000003 32 0000000000000000 00000001 00000001 64 00000001 62 01 00000001 65",
        "00000003 B2 01 0000000000000004 0000000000000005",
    ),
    # A Read that leaves its session open gives session 6 to client 3, and to nobody else.
    (
        "00000003 33 0000000000000000 01 00000001 00000001 61 00000001 62",
        "00000003 B3 0000000000000006 00000001 01 00000001 63",
    ),
    ("00000001 02 0000000000000006 00000001 61 00000001 62", "00000001 FF 01"),
    ("00000003 02 0000000000000006 00000001 61 00000001 62", "00000003 82 01 00000001 63"),
    # A collector is client 1's: number 1, of floor 2, which is the start of client 2's session.
    ("00000001 08", "00000001 88 0000000000000001 0000000000000002"),
    ("00000002 09 0000000000000001 00000001", "00000002 FF 0A"),
    # Only client 7 may ask for upkeep and raw reads: BadRequest.
    ("00000001 12", "00000001 FF 16"),
    ("00000001 11 00000001 61 00000001 62 01 0000000000000000 FFFFFFFFFFFFFFFF", "00000001 FF 16"),
    ("00000007 0F", "00000007 8F 0000000000000000"),
    # Client 3 is gone: its session 6 is stopped. It has no session then.
    ("00000003", "00000003 85"),
    ("00000003 05 0000000000000006", "00000003 FF 01"),
    # Client 1 is gone: its collector is client 7's, who ends it. Client 2's session 2 is as it was.
    ("00000001", "00000001 85"),
    ("00000001 09 0000000000000001 00000001", "00000001 FF 0A"),
    ("00000007 09 0000000000000001 00000004", "00000007 89 01"),
    ("00000007 09 0000000000000001 00000004", "00000007 89 03"),
    ("00000002 05 0000000000000002", "00000002 85"),
    # What is no operation, and what has no client's number.
    ("00000002 FE", "00000002 FF 16"),
    ("0000 02", "00000000 FF 16"),
]


def frames(bodies: list[bytes]) -> bytes:
    """The frames of bodies."""
    return b"".join(len(body).to_bytes(4, "big") + body for body in bodies)


def bodies(frames: bytes) -> list[bytes]:
    """The bodies of frames."""
    found = []
    while frames:
        end = 4 + int.from_bytes(frames[:4], "big")
        found.append(frames[4:end])
        frames = frames[end:]
    return found


def run(words: list[str], requests: list[bytes]) -> tuple[int, list[bytes]]:
    """The exit status of a program with these options, and its replies to requests."""
    program = default_program()
    done = subprocess.run([program, *words], input=frames(requests), capture_output=True, timeout=20)
    return done.returncode, bodies(done.stdout)


class Clients(unittest.TestCase):
    """A program that serves several clients."""

    def test_rows_of_three_clients(self) -> None:
        status, replies = run(["--clients", "--admin", "7"], [bytes.fromhex(asked) for asked, _ in ROWS])
        self.assertEqual([reply.hex() for reply in replies], [bytes.fromhex(reply).hex() for _, reply in ROWS])
        self.assertEqual(status, 0)

    def test_the_limits_of_a_client(self) -> None:
        begins = [bytes.fromhex("00000001 01")] * 65 + [bytes.fromhex("00000002 01")]
        _, replies = run(["--clients"], begins)
        refused = bytes.fromhex("FF 07")
        self.assertEqual([reply[4:] == refused for reply in replies], [False] * 64 + [True, False])
        collects = [bytes.fromhex("00000001 08")] * 5 + [bytes.fromhex("00000002 08")]
        _, replies = run(["--clients"], collects)
        self.assertEqual([reply[4:] == refused for reply in replies], [False] * 4 + [True, False])

    def test_the_limit_of_cleaners(self) -> None:
        """Client 1 opens a cleaner at each of 65 locks of client 2, and client 3 one more. At its limit also a cell
        without a lock, and one whose row is empty, are refused so."""
        cells = [bytes.fromhex("00000001 %02X 00000001 62" % row) for row in range(65)]
        session = bytes.fromhex("0000000000000001")
        sets = [bytes.fromhex("00000002 03") + session + cell + bytes.fromhex("00000001 63") for cell in cells]
        steps = [bytes.fromhex("00000002 04") + session] * 65
        cleans = [bytes.fromhex("00000001 06") + cell for cell in cells]
        free = [bytes.fromhex("00000001 06 00000001 FF 00000001 62"), bytes.fromhex("00000001 06 00000000 00000001 62")]
        other = [bytes.fromhex("00000003 06") + cells[64]]
        _, replies = run(["--clients"], [bytes.fromhex("00000002 01"), *sets, *steps, *cleans, *free, *other])
        found = [reply == bytes.fromhex("00000001 FF 07") for reply in replies[131:]]
        self.assertEqual(found, [False] * 64 + [True] * 3 + [False])
        self.assertEqual(replies[-1][:5], bytes.fromhex("00000003 86"))

    def test_upkeep_is_the_administrators(self) -> None:
        """Nine requests are refused BadRequest to all but client 7."""
        upkeep = ["0A 00000001", "0B 00000001 00000002", "0C 00000001", "0D 00000001 61", "0E 00000001 00", "0F", "10", "12"]
        upkeep.append("11 00000001 61 00000001 62 01 0000000000000000 0000000000000001")
        asked = [bytes.fromhex(f"{client} {body}") for client in ("00000001", "00000000") for body in upkeep]
        _, replies = run(["--clients", "--admin", "7"], asked)
        refused = [bytes.fromhex(f"{client} FF 16") for client in ("00000001", "00000000")]
        self.assertEqual(replies, [refused[0]] * 9 + [refused[1]] * 9)
        _, replies = run(["--clients", "--admin", "7"], [bytes.fromhex(f"00000007 {body}") for body in upkeep])
        self.assertNotIn(bytes.fromhex("00000007 FF 16"), replies)

    def test_an_end_closes_sixty_four_sessions(self) -> None:
        begin, end = bytes.fromhex("00000001 01"), bytes.fromhex("00000001")
        _, replies = run(["--clients"], ([begin] * 64 + [end]) * 20)
        self.assertNotIn(bytes.fromhex("00000001 FF 07"), replies)
        self.assertEqual(len(replies), 1300)

    def test_an_administrator_without_clients(self) -> None:
        self.assertEqual(run(["--admin", "1"], []), (1, []))

    def test_a_folder_with_a_log(self) -> None:
        """The same rows, and what was committed is there for a later program's client. Its stamps go on from 1,001, the
        end of a range."""
        later = [
            ("00000001 33 0000000000000000 00 00000001 00000001 64 00000001 62", "00000001 B3 00000000000003E9 00000001 01 00000001 65"),
        ]
        with tempfile.TemporaryDirectory() as folder:
            words = ["--clients", "--admin", "7", "--dir", folder, "--log"]
            for rows in (ROWS, later):
                status, replies = run(words, [bytes.fromhex(asked) for asked, _ in rows])
                self.assertEqual([reply.hex() for reply in replies], [bytes.fromhex(reply).hex() for _, reply in rows])
                self.assertEqual(status, 0)


if __name__ == "__main__":
    unittest.main()
