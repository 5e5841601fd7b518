"""Who may connect to a gateway, and how much each user may have there."""

from __future__ import annotations

import os
import subprocess
import unittest
from collections.abc import Callable

from tests.gateways import (
    BEGIN,
    COLLECT_BEGIN,
    NOBODY,
    PACKAGE,
    STATISTICS,
    Gateway,
    Wire,
    as_user,
    command_of,
    folder_of,
    free_port,
    get,
    raw,
    stop,
    until,
)

UNKNOWN_SESSION, TOO_MANY, BAD_REQUEST, NOTHING = b"\xff\x01", b"\xff\x07", b"\xff\x16", b"\x91\x00"
ENDED = (EOFError, ConnectionError)
ANN, BEN, CLUB = 61_001, 61_002, 61_003

needs_root = unittest.skipUnless(os.geteuid() == 0, "only root can be several users")


class Access(unittest.TestCase):
    """Who may connect."""

    @needs_root
    def test_group(self) -> None:
        for words, mode, may in (
            ("", 0o600, [False, False]),
            (f"--group {CLUB}", 0o660, [True, False]),
            (f"--group {CLUB} --mode 600", 0o600, [False, False]),
            (f"--group {CLUB} --mode 666", 0o666, [True, True]),
        ):
            with self.subTest(words):
                gateway = Gateway(self, words.split())
                os.chmod(os.path.dirname(gateway.path), 0o755)
                found = os.stat(gateway.path)
                self.assertEqual((found.st_mode & 0o777, found.st_gid), (mode, CLUB if words else os.getegid()))
                self.assertEqual([self.may_open(gateway, group) for group in (CLUB, NOBODY)], may)

    def may_open(self, gateway: Gateway, group: int) -> bool:
        try:
            with as_user(ANN, group):
                wire = gateway.wire()
        except PermissionError:
            return False
        return wire.ask(BEGIN)[0] == 0x81

    @needs_root
    def test_users(self) -> None:
        for words, users in (
            ("", {ANN: True, BEN: True, 0: True}),
            (f"--allow-uid {ANN}", {ANN: True, BEN: False, 0: True}),
            (f"--allow-uid {ANN} --allow-uid {BEN}", {ANN: True, BEN: True, NOBODY: False}),
            ("--allow-uid root", {ANN: False, BEN: False, 0: True}),
        ):
            with self.subTest(words):
                gateway = Gateway(self, f"--mode 666 --admin ADMIN --admin-mode 666 {words}".split())
                os.chmod(os.path.dirname(gateway.path), 0o755)
                for user, may in users.items():
                    for path in (gateway.path, gateway.admin):
                        with as_user(user):
                            wire = gateway.wire(path)
                        if may:
                            self.assertEqual(wire.ask(BEGIN)[0], 0x81)
                        else:
                            self.assertEqual(wire.ask(BEGIN), BAD_REQUEST)
                            self.assertRaises(ENDED, wire.reply)
                self.assertEqual(gateway.statistics()["clients"]["not_allowed"], 2 * list(users.values()).count(False))

    @needs_root
    def test_who_is_there(self) -> None:
        """Only the administrator, root and the gateway's user are told of users and processes."""
        gateway = Gateway(self, ["--mode", "666", "--admin", "ADMIN"])
        os.chmod(os.path.dirname(gateway.path), 0o755)
        with as_user(ANN):
            anns = [gateway.wire() for _ in range(2)]
        own, admin, process = gateway.wire(), gateway.wire(gateway.admin), str(os.getpid())
        for wire in (*anns, anns[0], admin):
            wire.begin()
        told = gateway.statistics()
        self.assertEqual(told["user_clients"], {str(ANN): 2, "0": 2, "administrator": 1})
        self.assertEqual(told["user_sessions"], {str(ANN): 3, "0": 0, "administrator": 1})
        self.assertEqual((told["process_clients"], told["process_sessions"]), ({process: 5}, {process: 4}))
        self.assertIn(told["process_user"][process], (ANN, 0))
        for wire, is_told in ((anns[0], False), (own, True), (admin, True)):
            self.assertEqual(b"process_user" in wire.ask(STATISTICS), is_told)

    def test_refused_words(self) -> None:
        place = folder_of(self) + "/socket"
        for words in (
            [*command_of(place), "--group", "no such group"],
            [*command_of(place), "--allow-uid", "no such user"],
            [*command_of(place), "--allow-uid", "0", "--tcp", "9"],
            [*command_of(place), "--idle-session", "-1"],
            [*command_of("")[:-2], "--tcp", "9", "--group", "0"],
        ):
            ran = subprocess.run(words, cwd=PACKAGE, capture_output=True, text=True, timeout=60)
            self.assertEqual(ran.returncode, 2, words)
            self.assertFalse(os.path.exists(place))


class Shares(unittest.TestCase):
    """Limits and shares of users. All clients over TCP are one user, those of this process are another."""

    def gateway(self, *words: str) -> Gateway:
        """A gateway, with a port."""
        self.port = free_port()
        return Gateway(self, ["--tcp", str(self.port), *words])

    def fill(self, connect: Callable[[], Wire], clients: int, request: bytes = BEGIN, each: int = 64) -> list[tuple[Wire, list[bytes]]]:
        """This many clients, each with its replies to so many requests."""
        wires = [connect() for _ in range(clients)]
        for wire in wires:
            wire.send(each * request)
        return [(wire, [wire.reply() for _ in range(each)]) for wire in wires]

    def had(self, filled: list[tuple[Wire, list[bytes]]]) -> int:
        """How many replies aren't refusals. These must be TooManySessions."""
        replies = [reply for _, each in filled for reply in each]
        self.assertLessEqual({reply for reply in replies if reply[0] == 0xFF}, {TOO_MANY})
        return sum(reply[0] != 0xFF for reply in replies)

    def test_limits_of_a_user(self) -> None:
        gateway = self.gateway("--user-clients", "2", "--user-sessions", "3", "--admin", "ADMIN")
        # The second client of a user at its limit gets a session of the first
        cases: tuple[tuple[str | int, int, int], ...] = ((gateway.path, 2, 3), (self.port, 2, 3), (gateway.admin, 4, 16))
        for address, clients, sessions in cases:
            wires = [gateway.wire(address) for _ in range(4)]
            self.assertEqual([wire.ask(raw(b"r", 3)) for wire in wires].count(NOTHING), clients)
            replies = [wire.ask(BEGIN) for wire in wires[:clients] for _ in range(4)]
            self.assertEqual([reply[0] for reply in replies].count(0x81), sessions + (clients == 2))
            wires[0].close()
            self.assertTrue(until(lambda: gateway.wire(address).ask(raw(b"r", 3)) == NOTHING))

    def test_sessions(self) -> None:
        """A user who has all gives some to another, the longest idle ones first, until both have as many. Then the ninth
        client takes from those of its own user."""
        gateway = self.gateway()
        hogs = self.fill(lambda: gateway.wire(self.port), 16)
        self.assertEqual(self.had(hogs), 1024)
        wire, replies = hogs[0]
        used = replies[0][1:]
        self.assertEqual(wire.ask(get(used, b"r")), b"\x82\x00")
        others = self.fill(gateway.wire, 9)
        had = self.had(others)
        self.assertGreaterEqual(had, 512)
        self.assertEqual(wire.ask(get(used, b"r")), b"\x82\x00")
        self.assertEqual(wire.ask(get(replies[1][1:], b"r")), UNKNOWN_SESSION)
        told = gateway.statistics()
        self.assertEqual((told["open"]["sessions"], told["ended"]["taken_sessions"]), (1024, had))
        self.assertEqual(told["user_sessions"], {"tcp": 512, str(os.geteuid()): 512})

    def test_sessions_of_one_user(self) -> None:
        """Clients that hang, and have all sessions, give some to the next ones of their user, the longest idle first."""
        gateway = self.gateway()
        hung = self.fill(gateway.wire, 16)
        self.assertEqual(self.had(hung), 1024)
        wire, replies = hung[15]
        used = replies[0][1:]
        self.assertEqual(wire.ask(get(used, b"r")), b"\x82\x00")
        others = [gateway.wire() for _ in range(4)]
        begun = [other.ask(BEGIN) for _ in range(60) for other in others]
        self.assertEqual(self.had([(wire, begun)]), 204)
        self.assertEqual(gateway.sessions(), [0] + 16 * [51] + 4 * [52])
        self.assertEqual(wire.ask(get(used, b"r")), b"\x82\x00")
        self.assertEqual(wire.ask(get(replies[1][1:], b"r")), UNKNOWN_SESSION)

    def test_equal_clients(self) -> None:
        """Of clients that have as many sessions, or one more, none loses any, however often they ask for more."""
        gateway = self.gateway("--user-sessions", "9")
        wires = [gateway.wire() for _ in range(2)]
        begun = [[wire.ask(BEGIN)[1:] for _ in range(4)] for wire in wires]
        begun[0].append(wires[0].ask(BEGIN)[1:])
        for _ in range(50):
            self.assertEqual({wire.ask(BEGIN) for wire in wires}, {TOO_MANY})
            for wire, starts in zip(wires, begun, strict=True):
                self.assertEqual(wire.ask(stop(starts.pop(0))), b"\x85")
                starts.append(wire.begin())
        for wire, starts in zip(wires, begun, strict=True):
            self.assertEqual({wire.ask(get(start, b"r")) for start in starts}, {b"\x82\x00"})
        self.assertEqual(gateway.statistics()["ended"]["taken_sessions"], 0)

    def test_connections(self) -> None:
        gateway = self.gateway("--clients", "6")
        hogs = [gateway.wire(self.port) for _ in range(6)]
        # The first has asked last
        for wire in (*hogs, hogs[0]):
            self.assertEqual(wire.ask(raw(b"r", 3)), NOTHING)
        others = [gateway.wire() for _ in range(4)]
        self.assertEqual([wire.ask(raw(b"r", 3)) for wire in others], 3 * [NOTHING] + [TOO_MANY])
        for wire in hogs[1:4]:
            self.assertRaises(ENDED, wire.reply)
        self.assertEqual([wire.ask(raw(b"r", 3)) for wire in (hogs[0], *hogs[4:])], 3 * [NOTHING])
        self.assertEqual(gateway.wire(self.port).ask(BEGIN), TOO_MANY)

    def test_collectors(self) -> None:
        """They can't be taken, so nobody gets the last ones."""
        gateway = self.gateway("--admin", "ADMIN")
        cases: tuple[tuple[str | int, int], ...] = ((self.port, 30), (gateway.path, 15), (self.port, 0), (gateway.admin, 4))
        for address, count in cases:
            self.assertEqual(self.had(self.fill(lambda: gateway.wire(address), 16, COLLECT_BEGIN, 4)), count)

    def test_administrator(self) -> None:
        """It has places of its own, and then takes others', whatever a crowd does. Its connections are one client."""
        gateway = Gateway(self, ["--admin", "ADMIN", "--clients", "20"])
        crowd = self.fill(gateway.wire, 20)
        self.assertGreaterEqual(self.had(crowd), 960)
        self.assertEqual(crowd[0][0].ask(COLLECT_BEGIN)[0], 0x88)
        self.assertEqual(gateway.wire().ask(BEGIN), TOO_MANY)
        # Sixteen connections, and two more, for which places are taken from the crowd
        for count, had in ((16, 64), (2, 0)):
            admins = self.fill(lambda: gateway.wire(gateway.admin), count)
            self.assertEqual(self.had(admins), had)
            self.assertEqual({wire.ask(COLLECT_BEGIN)[0] for wire, _ in admins[:2]}, {0x88})
        self.assertIn(b'"taken_clients":2', admins[0][0].ask(STATISTICS))

    def test_few_files(self) -> None:
        """With few open files it takes fewer clients, and the administrator still gets in."""
        gateway = Gateway(self, ["--admin", "ADMIN"], before=["sh", "-c", 'ulimit -n 200; exec "$@"', "sh"])
        self.assertEqual(gateway.first, "duqishom: 200 open files are the limit: at most 56 clients get a place")
        self.assertEqual(gateway.line(), "duqishom: ready")
        wires = [gateway.wire() for _ in range(150)]
        self.assertEqual([wire.ask(raw(b"r", 3)) for wire in wires[:56]], 56 * [NOTHING])
        self.assertEqual({wire.ask(STATISTICS)[0] for wire in (gateway.wire(gateway.admin) for _ in range(20))}, {0xF0})


if __name__ == "__main__":
    unittest.main()
