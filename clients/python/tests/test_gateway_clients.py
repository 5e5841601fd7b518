"""The clients of a gateway one by one, and the end of one that the administrator kills."""

from __future__ import annotations

import json
import os
import unittest
from pathlib import Path
from typing import Any

from duqishom import BadRequest, ConnectionLost, Store
from duqishom.administration import clients, kill
from tests.folders import said
from tests.gateways import (
    BEGIN,
    CLIENTS,
    COLLECT_BEGIN,
    NOBODY,
    Gateway,
    Wire,
    as_user,
    collect_step,
    folder_of,
    frame,
    free_port,
    get,
    raw,
    set_,
    stand_in,
    step,
    stop,
    until,
)

BAD_REQUEST, UNKNOWN_SESSION, NOTHING, VALUE = b"\xff\x16", b"\xff\x01", b"\x91\x00", b"\x82\x01\0\0\0\x01v"
ENDED = (EOFError, ConnectionError)
KILLED, NOT_THERE = b"\xf3\x01", b"\xf3\x00"

# The length of a reply that a program of a test gives to a raw read.
LONG = 65_547

needs_root = unittest.skipUnless(os.geteuid() == 0, "only root can be several users")


def killing(client: int) -> bytes:
    return frame(b"\x73" + client.to_bytes(8, "big"))


def listed(wire: Wire) -> list[dict[str, Any]]:
    """The clients that a client is told of."""
    reply = wire.ask(CLIENTS)
    assert reply[0] == 0xF2, reply
    told: dict[str, Any] = json.loads(reply[1:])
    assert told["more"] == 0
    clients: list[dict[str, Any]] = told["clients"]
    return clients


class Lists(unittest.TestCase):
    """What is told of clients, and to whom."""

    def test_the_oldest_sessions_are_first(self) -> None:
        gateway = Gateway(self, ["--tcp", str(port := free_port()), "--admin", "ADMIN"])
        places: tuple[str | int, ...] = (gateway.path, gateway.path, port, gateway.admin)
        first, second, third, admin = map(gateway.wire, places)
        for wire in (first, third, second, third, second):
            start = wire.begin()
        second.send(stop(start) + get(start, b"r")[:20])
        self.assertEqual(second.reply(), b"\x85")
        told = listed(admin)
        self.assertEqual([each["client"] for each in told], [1, 3, 2, 4])
        self.assertEqual([each["sessions"] for each in told], [1, 2, 1, 0])
        self.assertEqual([each["requests"] for each in told], [1, 2, 3, 1])
        self.assertEqual([each["requests_held"] for each in told], [0, 0, 20, 0])
        self.assertEqual([each["replies_held"] for each in told], 4 * [0])
        self.assertEqual([each["admin"] for each in told], [False, False, False, True])
        own = (os.getpid(), os.geteuid())
        self.assertEqual([(each["process"], each["user"]) for each in told], [own, (None, None), own, own])
        ages = [each["oldest_session_seconds"] for each in told]
        self.assertEqual((ages[:3], ages[3]), (sorted(ages[:3], reverse=True), None))
        for each, age in zip(told, ages[:3]):
            self.assertLessEqual(age, each["seconds"])
        self.assertGreaterEqual(gateway.statistics()["oldest_session_seconds"], ages[0])

    @needs_root
    def test_who_is_told(self) -> None:
        gateway = Gateway(self, ["--mode", "666", "--admin", "ADMIN", "--admin-mode", "666"])
        os.chmod(os.path.dirname(gateway.path), 0o755)
        with as_user(NOBODY):
            stranger, admin = gateway.wire(), gateway.wire(gateway.admin)
        self.assertEqual([each["client"] for each in listed(gateway.wire())], [1, 2, 3])
        self.assertEqual(len(listed(admin)), 3)
        self.assertEqual([stranger.ask(request) for request in (CLIENTS, killing(2))], 2 * [BAD_REQUEST])
        with as_user(NOBODY):
            status, text = said("--socket", gateway.path, "clients")
        self.assertEqual((status, text), (1, "not done: only the administrator, root and the gateway's user are told\n"))
        self.assertEqual(admin.ask(killing(1)), KILLED)

    def test_what_is_no_request(self) -> None:
        wire = Gateway(self, ["--admin", "ADMIN"]).wire()
        for request in (b"\x72\0", b"\x73", b"\x73" + bytes(7), b"\x73" + bytes(9)):
            self.assertEqual(wire.ask(frame(request)), BAD_REQUEST)

    def test_lines(self) -> None:
        gateway = Gateway(self, ["--admin", "ADMIN"])
        wire = gateway.wire()
        wire.begin()
        status, text = said("--socket", gateway.path, "clients")
        heads, first, second = text.splitlines()
        self.assertEqual((status, heads.split()[:3], heads.split()[-2:]), (0, ["client", "process", "user"], ["bytes", "held"]))
        self.assertRegex(first, rf"^ +1 +{os.getpid()} +{os.geteuid()} +\d+ s +1 +\d+ s +1 +0$")
        self.assertRegex(second, r" 0 +- +1 +0$")
        _, text = said("--socket", gateway.admin, "--json", "clients")
        shown = [(each["client"], each["admin"]) for each in json.loads(text)]
        self.assertEqual((shown[0], shown[-1]), ((1, False), (3, True)))
        status, text = said("--socket", gateway.path, "kill", "1")
        self.assertEqual((status, text), (1, "not done: clients are killed only at the administrator's socket (serve --admin)\n"))
        for number, told in ((1, (0, "killed\n")), (1, (1, "not done: the gateway has no other client 1\n"))):
            self.assertEqual(said("--socket", gateway.admin, "kill", number), told)
        self.assertRaises(ENDED, wire.reply)
        for words in (("clients",), ("kill", "1")):
            self.assertEqual(said(*words), (1, "not done: no gateway serves this store\n"))


class Kills(unittest.TestCase):
    """The end of a connection."""

    def test_sessions_are_stopped(self) -> None:
        """As those of a connection that is lost, and no other client is harmed."""
        gateway = Gateway(self, ["--admin", "ADMIN"])
        wire, other, admin = gateway.wire(), gateway.wire(), gateway.wire(gateway.admin)
        held, done, others = wire.begin(), wire.begin(), other.begin()
        wire.send(set_(held, b"a", b"v") + step(held) + set_(done, b"c", b"v") + set_(done, b"d", b"v") + 4 * step(done))
        self.assertEqual([wire.reply()[0] for _ in range(8)], [0x83, 0x84, 0x83, 0x83, *4 * [0x84]])
        self.assertEqual([admin.ask(killing(number)) for number in (1, 1, 3, 77)], [KILLED, NOT_THERE, NOT_THERE, NOT_THERE])
        self.assertRaises(ENDED, wire.reply)
        self.assertTrue(until(lambda: gateway.statistics()["open"]["sessions"] == 1))
        self.assertEqual((other.read_cleaned(b"d"), other.ask(stop(others))), (VALUE, b"\x85"))
        self.assertEqual(gateway.statistics()["ended"]["killed_clients"], 1)
        self.assertEqual(gateway.line(), f"duqishom: process {os.getpid()} has killed client 1")

    def test_no_half_reply(self) -> None:
        """A client that has taken none of its replies gets some whole ones, and then the end."""
        answer = f"return bytes((0x91, 1)) + bytes(9) + bytes((1, 0, 0)) + bytes({LONG - 14}) if body[0] == 17 else plain(body)"
        gateway = Gateway(self, ["--program", stand_in(self, answer), "--admin", "ADMIN", "--grace", "600"])
        wire, admin = gateway.wire(), gateway.wire(gateway.admin)
        wire.send(60 * raw(b"r", 1))
        self.assertTrue(until(lambda: listed(admin)[0]["replies_held"] > 20 * LONG))
        self.assertEqual(admin.ask(killing(1)), KILLED)
        self.assertEqual([each["client"] for each in listed(admin)], [2])
        lengths = []
        with self.assertRaises(EOFError):
            while True:
                lengths.append(len(wire.reply()))
        self.assertEqual((set(lengths), wire._came), ({LONG}, b""))
        self.assertGreater(len(lengths), 20)

    def test_one_that_takes_nothing(self) -> None:
        """It has the seconds of grace."""
        answer = "return bytes((0x91, 1)) + bytes(9) + bytes((1, 0, 0)) + bytes(65536) if body[0] == 17 else plain(body)"
        gateway = Gateway(self, ["--program", stand_in(self, answer), "--admin", "ADMIN", "--grace", "0.1"])
        wire, admin = gateway.wire(), gateway.wire(gateway.admin)
        wire.send(60 * raw(b"r", 1))
        self.assertTrue(until(lambda: listed(admin)[0]["replies_held"] > 1 << 20))
        self.assertEqual(admin.ask(killing(1)), KILLED)
        self.assertTrue(until(lambda: gateway.statistics()["held"]["replies"] == 0))

    def test_what_has_no_answer_yet(self) -> None:
        """The connection ends at once, also while the program is busy, and the rest when the program has answered."""
        file = Path(folder_of(self), "file")
        hold = f"while body[0] == 9 and not __import__('os').path.exists({str(file)!r}): time.sleep(0.01)"
        program = stand_in(self, f"{hold}\n    return b'\\x89\\3' if body[0] == 9 else plain(body)")
        gateway = Gateway(self, ["--program", program, "--admin", "ADMIN"])
        wire, other, admin = gateway.wire(), gateway.wire(), gateway.wire(gateway.admin)
        start, collector = wire.begin(), wire.ask(COLLECT_BEGIN)[1:9]
        wire.send(step(start) + collect_step(collector, 1000) + step(start))
        self.assertEqual(wire.reply()[:2], b"\x84\3")
        self.assertTrue(until(lambda: gateway.statistics()["held"]["asked"] == 1))
        other.send(BEGIN)
        self.assertLessEqual({1, 2, 3}, {each["client"] for each in listed(admin)})
        self.assertEqual(admin.ask(killing(1)), KILLED)
        self.assertRaises(ENDED, wire.reply)
        told = gateway.statistics()["open"]
        self.assertEqual((told["sessions"], told["collectors"]), (1, 1))
        file.touch()
        self.assertTrue(until(lambda: gateway.statistics()["open"]["collectors"] == 0))
        self.assertEqual(other.reply()[0], 0x81)
        self.assertTrue(until(lambda: gateway.statistics()["open"]["sessions"] == 1))
        self.assertEqual(gateway.stop(), 0)

    def test_without_an_administrator_s_socket(self) -> None:
        gateway = Gateway(self)
        wire = gateway.wire()
        self.assertEqual(gateway.wire().ask(killing(1)), BAD_REQUEST)
        self.assertEqual(wire.ask(BEGIN)[0], 0x81)

    def test_stores(self) -> None:
        """The client of a store finds its connection lost, and connects anew."""
        gateway = Gateway(self, ["--admin", "ADMIN"])
        with Store(socket=gateway.path) as store:
            start = store.begin()
            [own] = [each for each in clients(gateway.path).clients if each.sessions]
            self.assertRaises(BadRequest, kill, gateway.path, own.client)
            self.assertTrue(kill(gateway.admin, own.client))
            self.assertFalse(kill(gateway.admin, own.client))
            self.assertRaises(ConnectionLost, store.get, start, b"r", b"c")
            store.put(b"r", b"c", b"v")


if __name__ == "__main__":
    unittest.main()
