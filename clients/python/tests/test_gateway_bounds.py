"""Limits of the gateway: its memory whatever clients do, and how long one client can delay another."""

from __future__ import annotations

import resource
import socket
import threading
import time
import unittest
from contextlib import suppress

from duqishom import ConnectionLost, Store, TooManySessions
from duqishom.statistics import statistics
from tests.gateways import (
    BEGIN,
    COLLECT_BEGIN,
    NEW,
    STATISTICS,
    Gateway,
    Wire,
    collect_step,
    frame,
    get,
    raw,
    read,
    set_,
    stand_in,
    step,
    until,
)

# The maximum memory of the gateway in bytes, whatever its clients do, as in docs/GATEWAY.md.
MOST_MEMORY = 256 << 20
VALUE = b"v" * 65_536
CLIENTS = 1000

# The bytes of all clients' replies beyond which each has one request at a time.
REPLIES_OF_ALL = 96 << 20


class Bounds(unittest.TestCase):
    """Limits that clients can't break."""

    def setUp(self) -> None:
        soft, hard = resource.getrlimit(resource.RLIMIT_NOFILE)
        resource.setrlimit(resource.RLIMIT_NOFILE, (min(hard, 4096), hard))
        self.addCleanup(resource.setrlimit, resource.RLIMIT_NOFILE, (soft, hard))

    def clients(self, gateway: Gateway, count: int) -> list[Wire]:
        """This many non-blocking connections."""
        wires = [gateway.wire() for _ in range(count)]
        for wire in wires:
            wire.socket.setblocking(False)
        return wires

    def send_to_all(self, wires: list[Wire], data: bytes, seconds: float) -> int:
        """Sends as much of the data as each connection takes. Returns the total number of bytes taken."""
        end, sent = time.monotonic() + seconds, [0] * len(wires)
        while time.monotonic() < end:
            for place, wire in enumerate(wires):
                try:
                    sent[place] += wire.socket.send(data[sent[place] : sent[place] + 65_536])
                except (BlockingIOError, ConnectionError):
                    pass
        return sum(sent)

    def answers_soon(self, wire: Wire) -> None:
        """Sends a hundred requests, and expects all answers within seconds."""
        began = time.monotonic()
        for _ in range(100):
            self.assertEqual(wire.ask(raw(b"other", 1)), b"\x91\x00")
        self.assertLess(time.monotonic() - began, 100)

    def test_a_thousand_that_read_nothing(self) -> None:
        value = "bytes((0x91, 1)) + bytes(9) + bytes((1, 0, 0)) + bytes(65536)"
        program = stand_in(self, f"return {value} if len(body) == 28 else plain(body)")
        gateway = Gateway(self, ["--clients", str(CLIENTS + 10), "--program", program])
        other = gateway.wire()
        wires = self.clients(gateway, CLIENTS)
        self.send_to_all(wires, raw(b"r", 1) * 2000, 2)
        self.assertLess(gateway.memory(), MOST_MEMORY)
        self.assertTrue(until(lambda: gateway.statistics()["held"]["replies"] > REPLIES_OF_ALL))
        # For a Read whose reply may be so long there is no memory; for one of a cell there is
        self.assertEqual([other.ask(read(NEW, *rows))[:2] for rows in ((b"r", b"s"), (b"r",))], [b"\xff\x14", b"\xb3"])
        began = time.monotonic()
        for _ in range(100):
            self.assertEqual(other.ask(raw(b"other", 1))[0], 0x91)
        self.assertLess(time.monotonic() - began, 100)
        for wire in wires:
            wire.close()
        self.assertTrue(until(lambda: gateway.statistics()["held"]["replies"] == 0))

    def test_a_thousand_that_send_half_of_the_longest_frame(self) -> None:
        gateway = Gateway(self, ["--clients", str(CLIENTS + 10)])
        other = gateway.wire()
        wires = self.clients(gateway, CLIENTS)
        sent = self.send_to_all(wires, frame(b"\x01" * 1_048_572)[:-1], 2)
        self.assertLess(gateway.memory(), MOST_MEMORY)
        self.answers_soon(other)
        if sent > 300 << 20:
            self.assertGreater(gateway.statistics()["clients"]["closed_for_memory"], 0)

    def test_many_that_ask_for_statistics_and_read_nothing(self) -> None:
        gateway = Gateway(self)
        other = gateway.wire()
        wires = self.clients(gateway, 100)
        self.send_to_all(wires, STATISTICS * 100_000, 1)
        self.answers_soon(other)
        self.assertLess(gateway.memory(), MOST_MEMORY)

    def test_one_that_reads_late_gets_all(self) -> None:
        gateway = Gateway(self)
        other, late = gateway.wire(), gateway.wire()
        other.commit(b"r", VALUE)
        start, count = late.begin(), 300
        late.socket.settimeout(30)
        late.send(get(start, b"r") * count)
        self.answers_soon(other)
        self.assertLess(gateway.statistics()["held"]["replies"], 6 << 20)
        self.assertEqual({len(late.reply()) for _ in range(count)}, {len(VALUE) + 6})

    def test_so_many_clients(self) -> None:
        gateway = Gateway(self, ["--clients", "2"])
        wires = [gateway.wire() for _ in range(2)]
        self.assertEqual([wire.ask(raw(b"r", 1)) for wire in wires], 2 * [b"\x91\x00"])
        # One that sends a request, one with a long incomplete request, and more silent ones than may stay for a while
        for request in (BEGIN, frame(b"\x01" * 1_048_572)[:200_000], *40 * [b""]):
            wires.append(gateway.wire())
            wires[-1].send(request)
        for wire in wires[2:]:
            self.assertEqual(wire.reply(), b"\xff\x07")
            self.assertRaises((EOFError, ConnectionError), wire.reply)
        with Store(socket=gateway.path) as store:
            self.assertRaises(TooManySessions, store.begin)
            self.assertRaises(ConnectionLost, store.begin)
        self.assertRaises(TooManySessions, statistics, gateway.path)
        wires[0].close()
        self.assertTrue(until(lambda: gateway.wire().ask(BEGIN)[0] == 0x81))
        self.assertEqual(wires[1].ask(BEGIN)[0], 0x81)


class Fairness(unittest.TestCase):
    """One client's heavy requests don't delay another's light ones."""

    def test_a_get_waits_for_a_few_of_a_thousand_collections(self) -> None:
        gateway = Gateway(self)
        heavy, light = gateway.wire(), gateway.wire()
        self.fill(light, 3, 200)
        collectors = [heavy.ask(COLLECT_BEGIN)[1:9] for _ in range(4)]
        heavy.send(b"".join(collect_step(each, 1000) for each in collectors) * 250)
        came: list[float] = []
        taking = threading.Thread(target=self.take, args=(heavy, came))
        taking.start()
        asked = [self.times(light) for _ in range(2)]
        heavy.socket.shutdown(socket.SHUT_RDWR)
        taking.join()
        for began, ended in asked:
            self.assertLess(sum(began < time_of < ended for time_of in came), 20)

    def take(self, wire: Wire, came: list[float]) -> None:
        """Records the time of each reply, up to the connection's end."""
        with suppress(EOFError, OSError):
            while wire.reply()[0] == 0x89:
                came.append(time.monotonic())

    def times(self, wire: Wire) -> tuple[float, float]:
        """The times at which a light request was sent and its reply came."""
        began = time.monotonic()
        self.assertEqual(wire.ask(raw(b"none", 1)), b"\x91\x00")
        return began, time.monotonic()

    def fill(self, wire: Wire, sessions: int, cells: int) -> None:
        """Commits `cells` cells in each of `sessions` sessions."""
        for session in range(sessions):
            start = wire.begin()
            sets = [set_(start, b"%d %d" % (session, cell), b"v") for cell in range(cells)]
            wire.send(b"".join(sets) + step(start) * (2 * cells + 1))
            for _ in range(3 * cells + 1):
                wire.reply()

    def test_a_burst_of_one_and_single_requests_of_many(self) -> None:
        gateway = Gateway(self)
        burst, singles = gateway.wire(), [gateway.wire() for _ in range(8)]
        burst.socket.setblocking(False)
        sent, data = 0, raw(b"r", 1) * 100_000
        try:
            while sent < len(data):
                sent += burst.socket.send(data[sent : sent + 65_536])
        except BlockingIOError:
            pass
        began = time.monotonic()
        for wire in singles * 3:
            self.assertEqual(wire.ask(raw(b"r", 1)), b"\x91\x00")
        self.assertLess(time.monotonic() - began, 100)
        burst.socket.setblocking(True)
        burst.socket.shutdown(socket.SHUT_WR)
        for _ in range(sent // len(raw(b"r", 1))):
            self.assertEqual(burst.reply(), b"\x91\x00")


if __name__ == "__main__":
    unittest.main()
