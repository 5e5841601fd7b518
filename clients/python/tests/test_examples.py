"""The two example applications, at a gateway: what they promise holds, though gateway and workers are killed."""

from __future__ import annotations

import os
import signal
import subprocess
import sys
import time
import unittest
from pathlib import Path

import duqishom
from duqishom import Store
from tests.gateways import PACKAGE, PATIENCE, Gateway, folder_of, until
from tests.pages import TOP


class Examples(unittest.TestCase):
    """Each runs in a process of its own."""

    def start(self, name: str, gateway: Gateway, *words: str) -> subprocess.Popen[str]:
        command = [sys.executable, str(TOP / "examples" / name), f"unix:{gateway.path}", *words]
        place = {**os.environ, "PYTHONPATH": str(PACKAGE)}
        example = subprocess.Popen(command, env=place, stdout=subprocess.PIPE, stderr=subprocess.PIPE, text=True)
        self.addCleanup(example.kill)
        return example

    def check_ends(self, example: subprocess.Popen[str], wanted: str) -> None:
        printed, told = example.communicate(timeout=2 * PATIENCE)
        self.assertEqual((example.returncode, told), (0, ""), told)
        self.assertRegex(printed, wanted)

    def gateway(self) -> tuple[Gateway, list[str]]:
        """A gateway over a folder, and its words."""
        folder = folder_of(self)
        words = ["--dir", f"{folder}/kept"]
        os.mkdir(words[1])
        return Gateway(self, words, f"{folder}/socket"), words

    def kill(self, gateway: Gateway, words: list[str]) -> None:
        """Kills a gateway, and starts another one in its place."""
        gateway.kill()
        time.sleep(0.2)
        self.assertTrue(until(lambda: Gateway(self, words, gateway.path).first == "duqishom: ready"))

    def test_shop(self) -> None:
        """Its gateway is killed in the middle, and buyers go on with the next one."""
        gateway, words = self.gateway()
        example = self.start("shop.py", gateway, "3", "6")
        with Store(socket=gateway.path) as store:
            self.assertTrue(until(lambda: store.count(prefix=b"order/", family=b"customer") > 5))
        self.kill(gateway, words)
        self.check_ends(example, r"\A[1-9][0-9]* orders\n\Z")

    def test_web_index(self) -> None:
        """A worker is killed at some moment, and then the gateway. The other workers finish what is left."""
        gateway, words = self.gateway()
        example = self.start("web_index.py", gateway, "3", "12")
        with duqishom.connect(f"unix:{gateway.path}") as store:
            self.assertTrue(until(lambda: store.count(prefix=b"http", family=b"hash") > 2))
        workers = Path(f"/proc/{example.pid}/task/{example.pid}/children").read_text().split()
        os.kill(int(workers[0]), signal.SIGKILL)
        self.kill(gateway, words)
        self.check_ends(example, r"\A1?[0-9] documents\n\Z")


if __name__ == "__main__":
    unittest.main()
