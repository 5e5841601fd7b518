"""The bridge in memory: what any bridge does, and the misfortunes that tests ask it for."""

from __future__ import annotations

import unittest
from collections import Counter

from duqishom.workers import memory_bridge
from tests.bridges import Bridge, BridgeCases
from tests.pipes import EngineFailed, Server, prefix_of


class MemoryBridgeTest(BridgeCases, unittest.TestCase):
    def bridge(self, machine: str = "one") -> Bridge:
        return Bridge(self, memory_bridge(""))


def luck_of(server: Server) -> str:
    """What became of three requests."""
    try:
        server.draw()
        guard, _ = server.fetch(prefix_of(b"m"))
        return "done" if server.swap(prefix_of(b"m"), guard, {}) else "raced"
    except EngineFailed:
        return "failed"
    except EOFError:
        return "ended"


class MisfortunesTest(unittest.TestCase):
    def test_misfortunes(self) -> None:
        for words, kinds in (
            ("--race 0.3", {"done", "raced"}),
            ("--lose 0.3", {"done", "failed"}),
            ("--fail 0.2", {"done", "failed"}),
            ("--delay 0.002", {"done"}),
            ("--end 0.03", {"done", "ended"}),
            ("--kill 0.03", {"done", "ended"}),
        ):
            with self.subTest(words):
                bridge = Bridge(self, memory_bridge(f"{words} --seed 5"))
                server, luck = bridge.server("w0"), Counter[str]()
                while sum(luck.values()) < 100 and "ended" not in luck:
                    luck[luck_of(server)] += 1
                self.assertEqual(set(luck), kinds)
                if "--kill" in words:
                    self.assertEqual(bridge.process.wait(60), 9)


if __name__ == "__main__":
    unittest.main()
