"""A gateway's times of requests, and its counts of refusals and conflicts."""

from __future__ import annotations

import os
import re
import time
import unittest
from pathlib import Path
from typing import Any

from duqishom.statistics import prometheus, statistics
from tests.gateways import BEGIN, CHECKPOINT, Gateway, clean_step, folder_of, frame, get, raw, set_, stand_in, step, until

UNKNOWN = bytes(8)
HEAVY = frame(b"\x10")

# The seconds for which a program of a test answers nothing, and those between two lines on slow requests.
LONG, PAUSE = 0.2, 1.0

# The bounds of the histogram's buckets in seconds.
BOUNDS = [float(f"{digit}e{power}") for power in range(-5, 2) for digit in (1, 2, 5)]

# A program that answers a heavy request, or a Checkpoint, only if a file is there.
HOLDS = """while body[0] in (16, 18) and not __import__("os").path.exists({file!r}): time.sleep(0.01)
    return b"\\x84\\4" + bytes(8) if body[0] == 4 else plain(body)"""


class Gateways(unittest.TestCase):
    """Times and counts of a gateway."""

    def number(self, gateway: Gateway, *names: str) -> float:
        """A number of the statistics."""
        told: Any = gateway.statistics()
        for name in names:
            told = told[name]
        return float(told)

    def held(self, words: list[str]) -> tuple[Gateway, Path]:
        """A gateway whose program answers some requests only if a file is there, and the file."""
        file = Path(folder_of(self), "file")
        return Gateway(self, ["--program", stand_in(self, HOLDS.format(file=str(file))), *words]), file

    def test_a_wait_in_the_gateway_counts(self) -> None:
        """A request that came in one piece with later ones has waited as long as they have, and one that came in two
        pieces since it was whole."""
        gateway, file = self.held([])
        heavy, light, slow = (gateway.wire() for _ in range(3))
        slow.send(BEGIN[:3])
        heavy.send(HEAVY)
        self.assertTrue(until(lambda: self.number(gateway, "held", "asked") == 1))
        light.send(10 * raw(b"r", 1))
        self.assertTrue(until(lambda: self.number(gateway, "held", "requests") > len(raw(b"r", 1))))
        time.sleep(LONG)
        began = time.monotonic()
        slow.send(BEGIN[3:])
        file.touch()
        for wire, count in ((heavy, 1), (light, 10), (slow, 1)):
            for _ in range(count):
                wire.reply()
        took = time.monotonic() - began
        told = gateway.statistics()["latency_seconds"]
        self.assertEqual({name: told[name]["count"] for name in told}, {"OracleRestart": 1, "Raw": 10, "Begin": 1})
        self.assertGreater(told["Raw"]["p50"], LONG)
        self.assertGreater(told["Raw"]["greatest"], LONG)
        self.assertLessEqual(told["Begin"]["greatest"], took)

    def test_slow_requests(self) -> None:
        """Each is told, but one line a second at most: the next one says how many there were besides."""
        gateway, file = self.held(["--slow", str(LONG)])
        heavy, light = gateway.wire(), gateway.wire()
        heavy.send(HEAVY)
        self.assertTrue(until(lambda: self.number(gateway, "held", "asked") == 1))
        light.send(3 * (raw(b"r", 1) + BEGIN))
        self.assertTrue(until(lambda: self.number(gateway, "held", "requests") > len(raw(b"r", 1))))
        time.sleep(LONG)
        file.touch()
        heavy.reply()
        for _ in range(6):
            light.reply()
        process = os.getpid()
        self.assertRegex(gateway.line(), rf"^duqishom: OracleRestart of client 1, process {process}, took \d+\.\d{{3}} s$")
        file.unlink()
        time.sleep(PAUSE)
        heavy.send(HEAVY)
        self.assertTrue(until(lambda: self.number(gateway, "held", "asked") == 1))
        time.sleep(LONG)
        file.touch()
        self.assertRegex(gateway.line(), rf"^duqishom: OracleRestart of client 1, .* took .* s, and \d+ more were slow$")

    def test_refusals_and_conflicts(self) -> None:
        """Those of the program and the gateway's own. An empty body, by which a client finds out whether the program
        answers, isn't counted."""
        gateway = Gateway(self, ["--sessions", "2", "--admin", "ADMIN"])
        wire, other = gateway.wire(), gateway.wire()
        starts = [wire.begin() for _ in range(2)]
        wire.send(BEGIN + frame(b"") + frame(b"\x7f") + CHECKPOINT + get(UNKNOWN, b"r") + clean_step(UNKNOWN))
        wire.send(set_(starts[0], b"", b"v") + 2 * set_(starts[0], b"r", b"v") + step(starts[0]))
        wire.send(set_(starts[1], b"r", b"v") + step(starts[1]))
        for _ in range(12):
            wire.reply()
        self.assertEqual(other.ask(get(starts[0], b"r")), b"\xff\1")
        told = gateway.statistics()
        refused = {name: count for name, count in told["refusals"].items() if count}
        wanted = {"TooManySessions": 1, "BadRequest": 2, "UnknownSession": 2, "UnknownCleaner": 1, "BadRow": 1}
        self.assertEqual((refused, told["conflicts"]), (wanted, {"Conflict": 1, "Lost": 0}))

    def test_in_the_form_of_prometheus(self) -> None:
        gateway = Gateway(self)
        self.assertEqual(gateway.wire().commit(b"r", b"v")[:2], b"\x84\4")
        text = "\n".join(prometheus(statistics(gateway.path)))
        self.assertIn("# TYPE duqishom_request_seconds histogram\n", text)
        self.assertIn('duqishom_refusals_total{refusal="Device"} 0\n', text)
        self.assertIn('duqishom_conflicts_total{answer="Conflict"} 0\n', text)
        for operation, count in (("Begin", 1), ("Set", 1), ("Step", 3)):
            found = re.findall(rf'duqishom_request_seconds_bucket{{operation="{operation}",le="(.*)"}} (\d+)\n', text)
            self.assertEqual([float(bound) for bound, _ in found], [*BOUNDS, float("inf")])
            counts = [int(count) for _, count in found]
            self.assertEqual((counts, counts[-1]), (sorted(counts), count))
            self.assertIn(f'duqishom_request_seconds_count{{operation="{operation}"}} {count}\n', f"{text}\n")
        self.assertNotIn('operation="Get",le=', text)


if __name__ == "__main__":
    unittest.main()
