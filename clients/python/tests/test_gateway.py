"""Frames through a gateway: each client gets its own replies in their order, and none harms another."""

from __future__ import annotations

import doctest
import json
import os
import random
import socket
import subprocess
import sys
import threading
import unittest

from duqishom.fields import number
from tests.gateways import (
    BEGIN,
    COLLECT_BEGIN,
    PACKAGE,
    SWEEP,
    Gateway,
    clean_begin,
    clean_step,
    collect_step,
    frame,
    get,
    of_tablet,
    raw,
    scan,
    set_,
    stand_in,
    step,
    stop,
    until,
)
from tests.pages import fenced

UNKNOWN_SESSION, UNKNOWN_CLEANER, UNKNOWN_COLLECTOR = b"\xff\x01", b"\xff\x09", b"\xff\x0a"
TOO_MANY, BAD_REQUEST, TOO_LARGE = b"\xff\x07", b"\xff\x16", b"\xff\x17"
NOTHING = b"\x91\x00"

# Bounds of scans, and malformed ones.
SCAN_BOUNDS = (
    b"\0\0\0",
    b"\1\0\0\0\1r\0\0\0\1c\0\0",
    b"\0\1\0\0\0\1r\0",
    b"\0\0\1\0\0\0\1c",
    b"\1\0\0\0\1r\0\0\0\1c\1\0\0\0\1z\1\0\0\0\1c",
)
NO_SCAN_BOUNDS = (b"", b"\0\0", b"\0\0\0\0", b"\2\0\0", b"\0\2\0", b"\0\0\2", b"\1\0\0\0\1r\0\0", b"\0\1\0\0\0\2r\0")


class Frames(unittest.TestCase):
    """Requests that pass, and requests that the gateway answers."""

    def test_modes_of_the_sockets(self) -> None:
        for word, modes in (("--mode", [0o660, 0o600]), ("--admin-mode", [0o600, 0o660])):
            gateway = Gateway(self, ["--admin", "ADMIN", word, "660"])
            self.assertEqual([os.stat(path).st_mode & 0o777 for path in (gateway.path, gateway.admin)], modes)

    def test_each_client_has_its_own_replies_in_order(self) -> None:
        gateway, wrong = Gateway(self), list[bytes]()

        def ask(client: int) -> None:
            wire, dice = gateway.wire(), random.Random(client)
            start = wire.begin()
            wanted = []
            for turn in range(200):
                row = b"%d %d" % (client, turn % 100)
                wire.send(set_(start, row, b"%d" % turn) if turn < 100 else get(start, row))
                wanted.append(b"\x83" if turn < 100 else b"\x82\x00")
                if dice.random() < 0.2:
                    wire.send(dice.choice([frame(b"\x7f"), frame(b""), stop(b"\0" * 8)]))
                    wanted.append(b"")
            for reply in wanted:
                came = wire.reply()
                if came != reply and (reply or came not in (BAD_REQUEST, UNKNOWN_SESSION)):
                    wrong.append(came)

        clients = [threading.Thread(target=ask, args=(client,)) for client in range(16)]
        for client in clients:
            client.start()
        for client in clients:
            client.join()
        self.assertEqual(wrong, [])

    def test_byte_by_byte_beside_others(self) -> None:
        gateway = Gateway(self)
        slow, other = gateway.wire(), gateway.wire()
        for byte in BEGIN:
            slow.send(bytes([byte]))
            self.assertEqual(other.ask(raw(b"r", 1)), NOTHING)
        self.assertEqual(slow.reply()[0], 0x81)

    def test_half_a_frame_is_nobody_s_end(self) -> None:
        gateway = Gateway(self)
        wire = gateway.wire()
        self.assertEqual(wire.ask(BEGIN + b"\0\0")[0], 0x81)
        wire.close()
        self.assertEqual(gateway.wire().ask(BEGIN)[0], 0x81)

    def test_too_large_ends_one_client_alone(self) -> None:
        gateway = Gateway(self)
        wire, other = gateway.wire(), gateway.wire()
        wire.send(2 * raw(b"r", 1) + b"\0\x0f\xff\xfd" + BEGIN)
        self.assertEqual([wire.reply() for _ in range(3)], [NOTHING, NOTHING, TOO_LARGE])
        self.assertRaises(EOFError, wire.reply)
        self.assertEqual(other.ask(BEGIN)[0], 0x81)

    def test_the_longest_frame_passes(self) -> None:
        wire = Gateway(self).wire()
        self.assertEqual(wire.ask(frame(b"\x01" + b"\0" * 1_048_571)), BAD_REQUEST)
        self.assertEqual(wire.ask(BEGIN)[0], 0x81)

    def test_a_client_that_has_ended_its_input_gets_all_replies(self) -> None:
        wire, count = Gateway(self).wire(), 3000

        def send() -> None:
            wire.send(count * raw(b"r", 1) + b"\0\0")
            wire.socket.shutdown(socket.SHUT_WR)

        threading.Thread(target=send).start()
        self.assertEqual({wire.reply() for _ in range(count)}, {NOTHING})
        self.assertRaises(EOFError, wire.reply)

    def test_requests_in_one_piece_with_the_begin_that_they_need(self) -> None:
        wire = Gateway(self).wire()
        start = (1).to_bytes(8, "big")
        wire.send(BEGIN + set_(start, b"r", b"v") + 3 * step(start))
        self.assertEqual([wire.reply()[:2] for _ in range(5)], [b"\x81\0", b"\x83", b"\x84\x01", b"\x84\x03", b"\x84\x04"])

    def test_tcp(self) -> None:
        with socket.create_server(("127.0.0.1", 0)) as free:
            port = free.getsockname()[1]
        gateway = Gateway(self, ["--tcp", str(port)])
        with socket.create_connection(("127.0.0.1", port)) as wire:
            wire.sendall(BEGIN)
            self.assertEqual(wire.recv(100)[:5], b"\0\0\0\x09\x81")
            # A backup, which may be asked for only by the gateway's own user
            wire.sendall(frame(b"\x71copy"))
            self.assertEqual(wire.recv(100), b"\0\0\0\x02\xff\x16")
        self.assertEqual(gateway.wire().ask(BEGIN)[0], 0x81)


class Belongings(unittest.TestCase):
    """Owners of sessions, cleaners and collectors, and their numbers."""

    def test_another_s_are_unknown(self) -> None:
        gateway = Gateway(self)
        wire, other = gateway.wire(), gateway.wire()
        start = wire.begin()
        wire.send(set_(start, b"r", b"v") + step(start))
        self.assertEqual([wire.reply()[0] for _ in range(2)], [0x83, 0x84])
        for request in (set_(start, b"r", b"v"), get(start, b"r"), step(start), stop(start), self.delete(start, b"r")):
            self.assertEqual(other.ask(request), UNKNOWN_SESSION)
        for bounds in SCAN_BOUNDS:
            self.assertEqual(other.ask(scan(start, bounds)), UNKNOWN_SESSION)
        for bounds in NO_SCAN_BOUNDS:
            self.assertEqual(other.ask(scan(start, bounds)), BAD_REQUEST)
        self.assertEqual(other.ask(scan(start, keys=b"\2")), BAD_REQUEST)
        self.assertEqual(other.ask(frame(b"\x04" + start + b"\0")), BAD_REQUEST)
        cleaner = wire.ask(clean_begin(b"r"))[2:10]
        self.assertEqual(other.ask(clean_step(cleaner)), UNKNOWN_CLEANER)
        collector = wire.ask(COLLECT_BEGIN)[1:9]
        self.assertEqual(other.ask(collect_step(collector, 1)), UNKNOWN_COLLECTOR)
        self.assertEqual(wire.ask(clean_step(cleaner)), b"\x87\x01")
        self.assertEqual(wire.ask(collect_step(collector, 1)), b"\x89\x01")

    def delete(self, start: bytes, row: bytes) -> bytes:
        return frame(b"\x13" + set_(start, row, b"")[5:-4])

    def test_shared_ones_are_everybody_s(self) -> None:
        gateway = Gateway(self, ["--shared"])
        wire, other = gateway.wire(), gateway.wire()
        start = wire.begin()
        self.assertEqual(other.ask(set_(start, b"r", b"v")), b"\x83")
        for tag in (1, 3, 4):
            self.assertEqual(other.ask(step(start))[1], tag)
        self.assertEqual(gateway.statistics()["open"]["sessions"], 0)

    def test_a_connection_has_so_many(self) -> None:
        gateway = Gateway(self, ["--sessions", "3", "--collectors", "2", "--cleaners", "1"])
        wire = gateway.wire()
        wire.send(4 * BEGIN)
        starts = [wire.reply() for _ in range(4)]
        self.assertEqual([reply[0] for reply in starts], [0x81, 0x81, 0x81, 0xFF])
        self.assertEqual(starts[3], TOO_MANY)
        wire.send(stop(starts[0][1:]) + BEGIN)
        self.assertEqual([wire.reply()[0] for _ in range(2)], [0x85, 0x81])
        wire.send(3 * COLLECT_BEGIN)
        self.assertEqual([wire.reply()[0] for _ in range(3)], [0x88, 0x88, 0xFF])
        wire.send(set_(starts[1][1:], b"r", b"v") + step(starts[1][1:]) + 2 * clean_begin(b"r"))
        self.assertEqual([wire.reply()[0] for _ in range(4)], [0x83, 0x84, 0x86, 0xFF])
        self.assertEqual(gateway.wire().ask(BEGIN)[0], 0x81)

    def test_what_writes_files_is_for_the_administrator(self) -> None:
        gateway = Gateway(self, ["--admin", "ADMIN"])
        wire, admin = gateway.wire(), gateway.wire(gateway.admin)
        for request in (*(of_tablet(code, 1) for code in (0x0A, 0x0C)), SWEEP, frame(b"\x10"), frame(b"\x12")):
            self.assertEqual(wire.ask(request), BAD_REQUEST)
            self.assertEqual(admin.ask(request)[0], request[4] | 0x80)

    def test_the_administrator_s_connections_are_one_client(self) -> None:
        """What it has open ends with the last of them, and with no other connection."""
        gateway = Gateway(self, ["--admin", "ADMIN"])
        first, second, other = gateway.wire(gateway.admin), gateway.wire(gateway.admin), gateway.wire()
        start = first.begin()
        self.assertEqual(second.ask(set_(start, b"r", b"v")), b"\x83")
        self.assertEqual(other.ask(step(start)), UNKNOWN_SESSION)
        for wire in (first, other):
            wire.close()
        self.assertTrue(until(lambda: len(json.loads(second.ask(frame(b"\x72"))[1:])["clients"]) == 1))
        self.assertEqual(second.ask(step(start))[:2], b"\x84\x01")
        second.close()
        self.assertTrue(until(lambda: gateway.statistics()["open"]["sessions"] == 0))

    def test_what_the_program_knows_by_its_number_alone(self) -> None:
        """An empty body, by which a client finds out whether the program answers, doesn't end the client there."""
        gateway = Gateway(self, ["--admin", "ADMIN"])
        wire = gateway.wire()
        start = wire.begin()
        self.assertEqual(wire.ask(frame(b"")), BAD_REQUEST)
        self.assertEqual(wire.ask(get(start, b"r")), b"\x82\x00")
        # Clients find out by raw reads what has become of a commit, and see no data that isn't committed
        self.assertEqual(wire.ask(set_(start, b"r", b"v")), b"\x83")
        self.assertEqual(wire.ask(step(start))[:2], b"\x84\x01")
        self.assertEqual(wire.ask(raw(b"r", 3)), NOTHING)
        self.assertEqual(wire.ask(raw(b"r", 2))[:2], b"\x91\x01")
        self.assertEqual(wire.ask(raw(b"r", 1)), BAD_REQUEST)
        self.assertEqual(gateway.wire(gateway.admin).ask(raw(b"r", 1))[-1:], b"v")

    def test_room_is_made_where_clients_can_not(self) -> None:
        program = stand_in(
            self,
            "return b'\\xff\\x0f' if body[0] == 4 and 10 not in asked else"
            " b'\\xff\\x0b' if body == b'\\x0a\\0\\0\\0\\x03' else plain(body)",
        )
        gateway = Gateway(self, ["--admin", "ADMIN", "--program", program])
        wire = gateway.wire()
        start = wire.begin()
        self.assertEqual(wire.ask(step(start)), b"\xff\x0f")
        self.assertEqual(wire.ask(step(start))[:2], b"\x84\x03")


class Page(unittest.TestCase):
    """The example of docs/GATEWAY.md."""

    def test_lines(self) -> None:
        text = "\n".join(block.text for block in fenced("docs/GATEWAY.md", "python"))
        test = doctest.DocTestParser().get_doctest(text, {}, "GATEWAY", "GATEWAY", 0)
        result = doctest.DocTestRunner().run(test)
        self.assertGreater(result.attempted, 0)
        self.assertEqual(result.failed, 0)

    def test_statistics_in_both_forms(self) -> None:
        gateway = Gateway(self)
        self.assertEqual(gateway.wire().commit(b"r", b"v")[:2], b"\x84\x04")
        command = [sys.executable, "-m", "duqishom", "stats", "--socket"]
        forms: tuple[tuple[list[str], str], ...] = (
            ([], "requests Step: 3"),
            (["--prometheus"], 'duqishom_requests_total{operation="Step"} 3'),
            ([], "store last_stamp: 2"),
            (["--prometheus"], "duqishom_store_last_stamp 2"),
        )
        for words, line in forms:
            ran = subprocess.run([*command, gateway.path, *words], cwd=PACKAGE, capture_output=True, text=True)
            self.assertEqual((ran.returncode, ran.stderr), (0, ""))
            self.assertIn(line, ran.stdout.splitlines())
        ran = subprocess.run([*command, "/no/socket"], cwd=PACKAGE, capture_output=True, text=True)
        self.assertEqual((ran.returncode, ran.stdout), (2, ""))

    def test_statistics_without_a_report(self) -> None:
        """The program has no Status, or is busy for long. The gateway's counts are told all the same."""
        for answer in ("bytes((255, 22))", "time.sleep(5) or bytes((0xB4,)) + bytes(72)"):
            program = stand_in(self, f"return {answer} if body[0] == 0x34 else plain(body)")
            gateway = Gateway(self, ["--program", program])
            command = [sys.executable, "-m", "duqishom", "stats", "--socket", gateway.path]
            told = subprocess.run(command, cwd=PACKAGE, capture_output=True, text=True)
            self.assertEqual((told.returncode, told.stderr), (0, ""))
            self.assertIn("requests Statistics: 1", told.stdout.splitlines())
            self.assertNotIn("store ", told.stdout)

    def test_a_report_is_for_all(self) -> None:
        """Whoever is the administrator. A body out of form is the program's to refuse."""
        gateway = Gateway(self, ["--admin", "ADMIN"])
        wire = gateway.wire()
        counts = (0, 1, *[0] * 6, 1, *[0] * 5)
        self.assertEqual(wire.ask(of_tablet(0x34, 1)), b"\xb4" + b"".join(number(8, count) for count in counts))
        for body in (b"\x34", b"\x34\0\0\0\1\0"):
            self.assertEqual(wire.ask(frame(body)), b"\xff\x16")
        self.assertEqual(gateway.statistics()["requests"]["Status"], 3)

    def test_words_beside_an_application(self) -> None:
        gateway = Gateway(self)
        self.assertEqual(gateway.wire().commit(b"r", b"v")[:2], b"\x84\x04")
        command = [sys.executable, "-m", "duqishom", "--socket", gateway.path, "get", "r", "c"]
        ran = subprocess.run(command, cwd=PACKAGE, capture_output=True, text=True)
        self.assertEqual((ran.returncode, ran.stdout, ran.stderr), (0, "v\n", ""))


if __name__ == "__main__":
    unittest.main()
