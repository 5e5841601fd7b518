"""How a gateway begins and ends: signals, kills, stale sockets, a service manager."""

from __future__ import annotations

import fcntl
import os
import signal
import socket
import subprocess
import unittest
from contextlib import ExitStack
from pathlib import Path

from duqishom.program import default_program
from tests.gateways import (
    BEGIN,
    CHECKPOINT,
    PACKAGE,
    SWEEP,
    Gateway,
    Wire,
    command_of,
    folder_of,
    frame,
    of_tablet,
    raw,
    set_,
    stand_in,
    step,
    until,
)

VALUE, NOTHING = b"\x82\x01\0\0\0\x01v", b"\x82\x00"


def run_program(folder: str) -> int:
    """The status of a program that opens a folder and gets no request."""
    quiet = subprocess.DEVNULL
    return subprocess.run([default_program(), "--dir", folder], stdin=quiet, stderr=quiet, timeout=60).returncode


def run_again(path: str) -> subprocess.CompletedProcess[str]:
    """A gateway that can't start."""
    return subprocess.run(command_of(path), cwd=PACKAGE, capture_output=True, text=True, timeout=60)


class Ends(unittest.TestCase):
    """The state that is left when it ends."""

    def test_a_signal_keeps_a_folder(self) -> None:
        folder = folder_of(self)
        for number, found in ((signal.SIGTERM, NOTHING), (signal.SIGINT, VALUE), (signal.SIGTERM, VALUE)):
            gateway = Gateway(self, ["--dir", folder])
            wire = gateway.wire()
            self.assertEqual(wire.read(b"r"), found)
            self.assertEqual(wire.commit(b"r", b"v")[:2], b"\x84\x04")
            gateway.process.send_signal(number)
            self.assertEqual(gateway.process.wait(60), 0)
            self.assertRaises((EOFError, ConnectionError), wire.reply)
            self.assertFalse(os.path.exists(gateway.path))

    def test_all_replies_are_out_before_the_end(self) -> None:
        gateway = Gateway(self, ["--program", stand_in(self, "return time.sleep(0.5) or plain(body)")])
        wire = gateway.wire()
        wire.send(3 * frame(b"\x10"))
        self.assertEqual(wire.reply(), b"\x90")
        self.assertTrue(until(lambda: gateway.statistics()["held"]["asked"] == 1))
        gateway.process.send_signal(signal.SIGTERM)
        self.assertEqual(wire.reply(), b"\x90")
        self.assertRaises((EOFError, ConnectionError), wire.reply)
        self.assertEqual(gateway.process.wait(60), 0)

    def test_what_is_committed_at_the_end_is_there(self) -> None:
        """Though its session was stopped before it had finished the cells."""
        folder = folder_of(self)
        gateway = Gateway(self, ["--dir", folder])
        wire = gateway.wire()
        start = wire.begin()
        wire.send(set_(start, b"x", b"v") + set_(start, b"y", b"v") + 4 * step(start))
        self.assertEqual([wire.reply() for _ in range(6)][-1][:2], b"\x84\x04")
        self.assertEqual(gateway.stop(), 0)
        wire = Gateway(self, ["--dir", folder]).wire()
        self.assertEqual(wire.read_cleaned(b"y"), VALUE)

    def test_a_client_that_reads_nothing_does_not_hold_up_the_end(self) -> None:
        program = stand_in(self, "return bytes((0x91, 1)) + bytes(9) + bytes((1, 0, 0)) + bytes(65536)")
        gateway = Gateway(self, ["--program", program, "--grace", "0.5"])
        wire = gateway.wire()
        wire.send(60 * raw(b"r", 1))
        self.assertTrue(until(lambda: gateway.statistics()["held"]["replies"] > 1 << 20))
        self.assertEqual(gateway.stop(), 0)

    def test_a_refused_last_checkpoint(self) -> None:
        program = stand_in(self, "return bytes((0xFF, 0x13)) if body[0] == 18 else plain(body)")
        # With a log nothing is lost by it
        for log, status in (("--no-log", 1), ("--log", 0)):
            gateway = Gateway(self, ["--program", program, "--dir", folder_of(self), log])
            self.assertEqual(gateway.stop(), status)
            self.assertEqual(gateway.line(), "duqishom: a checkpoint was refused: 19")

    def test_checkpoints_now_and_then(self) -> None:
        folder = folder_of(self)
        gateway = Gateway(self, ["--dir", folder, "--checkpoint", "0.1"])
        self.assertEqual(gateway.wire().commit(b"r", b"v")[:2], b"\x84\x04")
        made = gateway.statistics()["checkpoints"]
        self.assertTrue(until(lambda: bool(gateway.statistics()["checkpoints"] > made)))
        program = Path(f"/proc/{gateway.program()}")
        gateway.kill()
        # The program has the folder open until it has ended too
        self.assertTrue(until(lambda: not program.exists()))
        self.assertEqual(Gateway(self, ["--dir", folder]).wire().read(b"r"), VALUE)

    def test_a_sweep_follows_them_in_a_folder_with_a_log(self) -> None:
        folder = folder_of(self)
        gateway = Gateway(self, ["--dir", folder, "--log", "--checkpoint", "0.05", "--flush", "10", "--merge", "2"])
        wire = gateway.wire()
        for number in range(100):
            self.assertEqual(wire.commit(b"r", b"%d" % number)[:2], b"\x84\x04")
        self.assertTrue(until(lambda: len(list(Path(folder).glob("*.tab"))) <= 2))
        self.assertEqual(wire.read(b"r")[-2:], b"99")

    def test_a_checkpoint_goes_right_behind_a_sweep(self) -> None:
        folder = folder_of(self)
        gateway = Gateway(self, ["--dir", folder, "--no-log"])
        wire = gateway.wire()
        for row in (b"a", b"b"):
            self.assertEqual(wire.commit(row, b"v")[:2], b"\x84\x04")
            self.assertEqual(wire.ask(CHECKPOINT), b"\x92")
        self.assertEqual(wire.ask(of_tablet(0x0C, 1)), b"\x8c")
        self.assertEqual(wire.ask(SWEEP)[0], 0x8F)
        self.assertEqual(wire.ask(BEGIN)[0], 0x81)
        gateway.kill()
        self.assertTrue(until(lambda: run_program(folder) == 0))

    def test_a_sweep_goes_right_behind_a_checkpoint_that_was_made(self) -> None:
        """In a folder without a log. A raw read shows the requests that the program got."""
        refused, full = "bytes((255, 19))", "bytes((255, 16 if asked.count(18) == 1 else 19))"
        copy = frame(b"\x71" + folder_of(self).encode())
        cases: list[tuple[list[str], str, bytes, bytes, str]] = [
            (["--no-log", "--dir"], "plain(body)", SWEEP, b"\x8f", "0001120f120111"),
            (["--no-log", "--dir"], refused, SWEEP, b"\xff\x13", "0001120111"),
            (["--no-log", "--dir"], refused, frame(b"\x0f\0"), b"\x8f", "00010f0111"),
            (["--no-log", "--dir"], full, copy, b"\xf1the store has refused", "0001120c12120111"),
            (["--log", "--dir"], refused, SWEEP, b"\x8f", "00010f0111"),
            ([], refused, SWEEP, b"\x8f", "00010f0111"),
        ]
        for words, checkpoint, request, begins, came in cases:
            with self.subTest(words=words, checkpoint=checkpoint, request=request):
                answer = f"return bytes((0x91, *asked)) if body[0] == 17 else {checkpoint} if body[0] == 18 else"
                program = stand_in(self, f"{answer} bytes((255, 11)) if body[0] == 12 else plain(body)")
                wire = Gateway(self, ["--program", program, *words, *([folder_of(self)] if words else [])]).wire()
                wire.send(BEGIN + request + BEGIN + raw(b"r", 0))
                replies = [wire.reply() for _ in range(4)]
                self.assertEqual(replies[1][: len(begins)], begins)
                self.assertEqual([replies[0][0], replies[2][0], replies[3]], [0x81, 0x81, b"\x91" + bytes.fromhex(came)])


class Kills(unittest.TestCase):
    """`kill -9` of either."""

    def test_of_the_gateway(self) -> None:
        folder = folder_of(self)
        gateway = Gateway(self, ["--dir", folder])
        wire = gateway.wire()
        self.assertEqual(wire.commit(b"r", b"v")[:2], b"\x84\x04")
        self.assertEqual(wire.ask(CHECKPOINT), b"\x92")
        gateway.kill()
        self.assertRaises((EOFError, ConnectionError), wire.reply)
        self.assertTrue(until(lambda: run_program(folder) == 0))
        self.assertTrue(os.path.exists(gateway.path))
        again = Gateway(self, ["--dir", folder], path=gateway.path)
        self.assertEqual(again.wire().read(b"r"), VALUE)

    def test_of_the_program(self) -> None:
        gateway = Gateway(self)
        wires = [gateway.wire() for _ in range(3)]
        self.assertEqual(wires[0].ask(BEGIN)[0], 0x81)
        os.kill(gateway.program(), signal.SIGKILL)
        for wire in wires:
            self.assertRaises((EOFError, ConnectionError), wire.reply)
        self.assertEqual(gateway.process.wait(60), 128 + 9)
        self.assertEqual(gateway.line(), "duqishom: the program has ended with status -9")
        self.assertFalse(os.path.exists(gateway.path))

    def test_of_a_program_that_ends_by_itself(self) -> None:
        program = stand_in(self, "return sys.exit(6) if body[0] == 5 else plain(body)")
        gateway = Gateway(self, ["--program", program])
        wire = gateway.wire()
        self.assertRaises((EOFError, ConnectionError), wire.ask, b"\0\0\0\x09\x05" + wire.begin())
        self.assertEqual(gateway.process.wait(60), 6)
        self.assertEqual(gateway.line(), "duqishom: the program has ended with status 6: a read or a write failed")


class Begins(unittest.TestCase):
    """The places where it can listen."""

    def test_beside_another_gateway(self) -> None:
        gateway = Gateway(self)
        again = run_again(gateway.path)
        self.assertEqual((again.returncode, again.stderr), (2, f"duqishom: another gateway serves {gateway.path}\n"))
        self.assertEqual(gateway.wire().ask(BEGIN)[0], 0x81)

    def test_two_at_once_over_what_is_left_of_another(self) -> None:
        path = folder_of(self) + "/socket"
        with socket.socket(socket.AF_UNIX) as left, open(path + ".lock", "w") as lock:
            left.bind(path)
            # A gateway that has started, but doesn't listen at its socket yet
            fcntl.flock(lock, fcntl.LOCK_EX)
            refused = run_again(path)
        self.assertEqual((refused.returncode, refused.stderr), (2, f"duqishom: another gateway serves {path}\n"))
        both = [subprocess.Popen(command_of(path), cwd=PACKAGE, stderr=subprocess.PIPE, text=True) for _ in range(2)]
        firsts = []
        for process in both:
            assert process.stderr is not None
            firsts.append(process.stderr.readline())
        self.assertEqual(sorted(firsts), [f"duqishom: another gateway serves {path}\n", "duqishom: ready\n"])
        for process, first in zip(both, firsts):
            if first == "duqishom: ready\n":
                process.terminate()
            process.communicate(timeout=60)
        self.assertEqual(sorted(process.returncode for process in both), [0, 2])

    def test_at_what_is_no_socket(self) -> None:
        path = folder_of(self) + "/file"
        open(path, "w").close()
        again = run_again(path)
        self.assertEqual((again.returncode, again.stderr), (2, f"duqishom: {path} is there, and is no socket\n"))

    def test_over_a_folder_that_can_not_be_opened(self) -> None:
        damaged, used = folder_of(self), folder_of(self)
        Path(damaged, "oracle.mark").write_bytes(b"mark")
        Gateway(self, ["--dir", used])
        for folder, why in (
            ("/no/such/folder", "there is no folder /no/such/folder"),
            (damaged, rf"{damaged}/oracle.mark is no mark: it has 4 bytes, 6d 61 72 6b"),
            (used, rf"{used} is in use by process \d+ \(.*\), which process \d+ has started"),
        ):
            gateway = Gateway(self, ["--dir", folder])
            self.assertEqual(gateway.first, "tabletd: device failed at open")
            self.assertEqual(gateway.process.wait(60), 4)
            self.assertRegex(gateway.line(), rf"^duqishom: the store isn't opened \(status 4\): {why}$")
            self.assertFalse(os.path.exists(gateway.path))

    def test_nowhere(self) -> None:
        ran = subprocess.run(command_of("")[:-2], cwd=PACKAGE, capture_output=True, text=True, timeout=60)
        self.assertEqual(ran.returncode, 2)
        self.assertEqual(ran.stderr, "duqishom: there is nowhere to listen: name a --socket or a --tcp\n")

    def test_words_in_a_file(self) -> None:
        folder = folder_of(self)
        file = Path(folder, "words")
        file.write_text(f"# A store\n--dir '{folder}'  # in a folder\n\n--checkpoint 3600 --no-log\n")
        gateway = Gateway(self, [f"@{file}"])
        self.assertEqual(gateway.wire().ask(CHECKPOINT), b"\x92")
        self.assertTrue(Path(folder, "lock").exists())
        self.assertEqual(Gateway(self, ["@/no/such/file"]).process.wait(60), 2)

    def test_a_log_without_a_folder(self) -> None:
        self.assertEqual(Gateway(self, ["--log"]).process.wait(60), 2)

    def test_by_a_service_manager(self) -> None:
        folder = folder_of(self)
        path, admin, notices = folder + "/socket", folder + "/admin", folder + "/notices"
        with ExitStack() as stack:
            files = []
            for place in (path, admin):
                listening = stack.enter_context(socket.socket(socket.AF_UNIX))
                listening.bind(place)
                listening.listen(5)
                files.append(listening.fileno())
            manager = stack.enter_context(socket.socket(socket.AF_UNIX, socket.SOCK_DGRAM))
            manager.bind(notices)
            manager.settimeout(60)
            early, others = Wire(path), Wire(admin)
            stack.callback(early.close)
            stack.callback(others.close)
            early.send(BEGIN)
            handed = "LISTEN_PID=$$ LISTEN_FDS=2 LISTEN_FDNAMES=clients:admin"
            script = f'exec 3<&{files[0]} 4<&{files[1]}; {handed} exec "$@"'
            command = ["sh", "-c", script, "sh", *command_of(path)[:-2]]
            environment = {**os.environ, "NOTIFY_SOCKET": notices}
            quiet = subprocess.DEVNULL
            process = subprocess.Popen(command, cwd=PACKAGE, env=environment, pass_fds=files, stderr=quiet)
            stack.enter_context(process)
            stack.callback(process.kill)
            self.assertEqual(manager.recv(100), b"READY=1\n")
            self.assertEqual(early.reply()[0], 0x81)
            for request in (of_tablet(0x0C, 1), SWEEP, frame(b"\x10")):
                self.assertEqual(early.ask(request), b"\xff\x16")
                self.assertEqual(others.ask(request)[0], request[4] | 0x80)
            process.terminate()
            self.assertEqual(manager.recv(100), b"STOPPING=1\n")
            self.assertEqual(process.wait(60), 0)
        self.assertTrue(os.path.exists(path))


if __name__ == "__main__":
    unittest.main()
