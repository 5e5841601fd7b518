"""The web page: its facts, its metrics, its health, and who gets it."""

from __future__ import annotations

import os
import re
import shutil
import signal
import socket
import subprocess
import sys
import threading
import unittest
from collections.abc import Mapping, Sequence
from contextlib import redirect_stderr, suppress
from http.client import HTTPConnection, HTTPMessage
from html.parser import HTMLParser
from io import StringIO
from pathlib import Path

from duqishom.__main__ import main
from duqishom.counted import Counted
from duqishom.fields import counted
from duqishom.version import VERSION
from duqishom.web_charts import Points, small_line, tablet_bar, widths
from duqishom.web_folder import FolderReader, FolderState, LockState, TabletState
from duqishom.web_health import DOWN, OK, WARNING, Health, health
from duqishom.web_page import page
from duqishom.web_samples import Sample, View, measure, oldest_session, points, rates, recent_rate
from duqishom.web_server import MOST_CONNECTIONS
from tests.folders import FolderTest
from tests.gateways import CHECKPOINT, PACKAGE, PATIENCE, Gateway, Wire, folder_of, frame, set_, step, until

FILE = "t0000000000000001.tab"
CHROMIUM = shutil.which("chromium")
EVIL = b"<script>alert('1')</script>&\""

# The numbers of metrics that move by themselves, or by being asked for.
NAMES = r"duqishom_(?:\w+_seconds(?:_total)?|bytes_total|held|(?:user_)?clients(?:_total)?|\w+_memory_bytes)"
MOVING = re.compile(rf"(?m)^({NAMES}(?:{{.*}})?|.*\"(?:Statistics|Status)\"}}) .*$")

# The times of requests that are only there once the page has asked.
LATE = re.compile(r"(?m)^duqishom_request_seconds_.*\"Status\".*\n")

# The elements that have no end.
VOID = {"meta"}


class Parsed(HTMLParser):
    """A page: its elements, its texts, and the attributes that would load something. AssertionError if elements aren't
    closed in order."""

    def __init__(self, text: str) -> None:
        super().__init__()
        self.open: list[str] = []
        self.tags: list[str] = []
        self.texts: list[str] = []
        self.loaded: list[str] = []
        self.feed(text)
        self.close()
        assert not self.open, self.open

    def handle_starttag(self, tag: str, attrs: list[tuple[str, str | None]]) -> None:
        self.tags.append(tag)
        self.open += [] if tag in VOID else [tag]
        self.loaded += [name for name, _ in attrs if name in ("src", "href", "style") or name.startswith("on")]

    def handle_endtag(self, tag: str) -> None:
        assert self.open.pop() == tag, tag

    def handle_data(self, data: str) -> None:
        if data.strip() and self.open[-1] != "style":
            self.texts.append(data)


class Web:
    """The page's server, in a process of its own."""

    def __init__(self, case: unittest.TestCase, words: Sequence[str]) -> None:
        command = [sys.executable, "-m", "duqishom", "web", "--listen", "0", *words]
        self.process = subprocess.Popen(command, cwd=PACKAGE, stderr=subprocess.PIPE, text=True)
        case.addCleanup(self.end)
        assert self.process.stderr is not None
        self.first = self.process.stderr.readline().rstrip("\n")
        self.port = int(self.first.rpartition(":")[2].rstrip("/"))

    def ask(self, path: str, method: str = "GET", headers: Mapping[str, str] | None = None) -> tuple[int, str, HTTPMessage]:
        """The status, the text and the headers of a reply."""
        connection = HTTPConnection("127.0.0.1", self.port, timeout=PATIENCE)
        try:
            connection.request(method, path, headers=headers or {})
            reply = connection.getresponse()
            return reply.status, reply.read().decode(), reply.headers
        finally:
            connection.close()

    def get(self, path: str) -> tuple[int, str]:
        return self.ask(path)[:2]

    def parsed(self) -> Parsed:
        return Parsed(self.get("/")[1])

    def end(self, number: int = signal.SIGTERM) -> int:
        """Ends it by a signal, and returns its status."""
        if self.process.poll() is None:
            self.process.send_signal(number)
        with suppress(subprocess.TimeoutExpired):
            self.process.wait(PATIENCE)
        assert self.process.stderr is not None
        self.process.stderr.close()
        return self.process.wait(0)


def lock(wire: Wire, row: bytes) -> None:
    """Has a session lock a row, and leaves it there."""
    start = wire.begin()
    wire.send(set_(start, row, b"v") + step(start))
    assert [wire.reply()[0] for _ in range(2)] == [0x83, 0x84]


def fail(wire: Wire) -> None:
    """Has a request refused, and a session end in a conflict."""
    late, start = wire.begin(), wire.begin()
    wire.send(set_(late, b"", b"v") + set_(late, b"row 0", b"v"))
    assert [wire.reply()[0] for _ in range(2)] == [0xFF, 0x83]
    wire.send(set_(start, b"row 0", b"v") + 3 * step(start) + step(late))
    assert [wire.reply()[:2] for _ in range(5)][-1] == b"\x84\2"


class Pages(unittest.TestCase):
    """The pages of a gateway."""

    def test_facts(self) -> None:
        folder = folder_of(self)
        gateway = Gateway(self, ["--dir", folder])
        wire = gateway.wire()
        for number in range(3):
            self.assertEqual(wire.commit(b"row %d" % number, b"v")[:2], b"\x84\x04")
        self.assertEqual(wire.ask(frame(b"\x0d" + counted(b"row 1")))[0], 0x8D)
        self.assertEqual(wire.ask(CHECKPOINT), b"\x92")
        fail(wire)
        web = Web(self, ["--socket", gateway.path, "--dir", folder])
        self.assertTrue(until(lambda: "polyline" in web.parsed().tags and "tablet 2" in web.parsed().texts))
        status, text, headers = web.ask("/")
        shown = Parsed(text)
        self.assertEqual((status, headers["Content-Type"]), (200, "text/html; charset=utf-8"))
        self.assertEqual((shown.loaded, "script" in shown.tags, shown.tags.count("style")), ([], False, 1))
        self.assertTrue({OK, WARNING} & set(shown.texts), shown.texts)
        for fact in (gateway.path, f"version {VERSION}", "up to the last row", r"up to row\x201", "1,000"):
            self.assertIn(fact, shown.texts)
        at = shown.texts.index("Step")
        self.assertEqual(shown.texts[at : at + 3], ["Step", "0", "13"])
        for time in shown.texts[at + 3 : at + 6]:
            self.assertRegex(time, r"^[\d.]+ m?s$")
        at = shown.texts.index("most files")
        self.assertEqual(shown.texts[at + 1], "1")
        at = shown.texts.index("Conflict")
        self.assertEqual(shown.texts[at : at + 4], ["Conflict", "1", "BadRow", "1"])
        at = shown.texts.index("on request")
        self.assertEqual(shown.texts[at + 1], "1 checkpoint")
        self.assertIn(f"program {gateway.program()}", shown.texts)

    def test_metrics_are_those_of_stats(self) -> None:
        gateway = Gateway(self)
        self.assertEqual(gateway.wire().commit(b"r", b"v")[:2], b"\x84\x04")
        web = Web(self, ["--socket", gateway.path])
        self.assertTrue(until(lambda: web.get("/metrics")[0] == 200))
        command = [sys.executable, "-m", "duqishom", "stats", "--prometheus", "--socket", gateway.path]
        said = subprocess.check_output(command, cwd=PACKAGE, text=True)
        status, text = web.get("/metrics")
        first, other = (MOVING.sub(r"\1", LATE.sub("", each)) for each in (text, said))
        self.assertEqual(first, other)
        self.assertIn('duqishom_requests_total{operation="Step"} 3\n', text)
        self.assertIn('duqishom_requests_total{operation="Statistics"}', text)
        self.assertIn("duqishom_store_memtable_entries 3\n", text)

    def test_a_gateway_ends_and_comes_back(self) -> None:
        gateway = Gateway(self)
        web = Web(self, ["--socket", gateway.path])
        self.assertTrue(until(lambda: web.get("/health") == (200, "ok\n")))
        self.assertEqual(gateway.stop(), 0)
        gone = (503, f"no gateway serves {gateway.path}\n")
        self.assertTrue(until(lambda: web.get("/health") == gone))
        self.assertEqual(web.get("/metrics"), gone)
        self.assertTrue({DOWN, "no answer", gone[1].rstrip()} <= set(web.parsed().texts))
        Gateway(self, path=gateway.path)
        self.assertTrue(until(lambda: web.get("/health") == (200, "ok\n")))
        self.assertIn(OK, web.parsed().texts)

    def test_texts_are_escaped(self) -> None:
        folder, path = folder_of(self), f"{folder_of(self)}/<script>&"
        gateway = Gateway(self, ["--dir", folder], path)
        wire = gateway.wire()
        lock(wire, EVIL)
        self.assertEqual(wire.ask(frame(b"\x0d" + counted(EVIL)))[0], 0x8D)
        self.assertEqual(wire.ask(CHECKPOINT), b"\x92")
        web = Web(self, ["--socket", path, "--dir", folder])
        self.assertTrue(until(lambda: EVIL.decode() + " c" in web.parsed().texts))
        shown = web.parsed()
        self.assertNotIn("script", shown.tags)
        for fact in (path, f"up to {EVIL.decode()}"):
            self.assertIn(fact, shown.texts)

    def test_counts_of_another_form(self) -> None:
        """What serves there answers with no counts, and a folder has no root that can be read."""
        folder = folder_of(self)
        listening = socket.socket(socket.AF_UNIX)
        self.addCleanup(listening.close)
        listening.bind(f"{folder}/socket")
        listening.listen()

        def answer() -> None:
            with suppress(OSError):
                while True:
                    connected, _ = listening.accept()
                    with connected:
                        connected.recv(5)
                        connected.sendall(frame(b"\xf0{}"))

        threading.Thread(target=answer, daemon=True).start()
        with open(f"{folder}/t0000000000000000.tab", "wb") as root:
            root.write(b"TABROOT9")
        web = Web(self, ["--socket", f"{folder}/socket", "--dir", folder])
        self.assertTrue(until(lambda: "aren't those of a gateway of this version" in web.get("/health")[1]))
        self.assertEqual((web.get("/health")[0], web.get("/")[0], web.get("/metrics")[0]), (503, 200, 503))


def said_of_web(*words: str) -> tuple[int | str | None, str]:
    """The status of a command that can't serve, and its output."""
    out = StringIO()
    with redirect_stderr(out):
        try:
            return main(["web", *words]), out.getvalue()
        except SystemExit as end:
            return end.code, out.getvalue()


class Requests(unittest.TestCase):
    """What is answered, and what is refused."""

    def test_replies(self) -> None:
        web = Web(self, ["--socket", f"{folder_of(self)}/none"])
        cases: tuple[tuple[str, str, dict[str, str], int], ...] = (
            ("GET", "/?refresh=1", {}, 200),
            ("GET", "/x", {}, 404),
            ("GET", "//../etc/passwd", {}, 404),
            ("GET", "/health", {"Host": "LOCALHOST:1"}, 503),
            ("GET", "/", {"Host": "[::1]:1"}, 200),
            ("GET", "/", {"Host": "evil.example"}, 421),
            ("GET", "/", {"Host": "localhost.evil.example:80"}, 421),
            ("POST", "/", {}, 405),
            ("HEAD", "/", {}, 405),
            ("DELETE", "/health", {}, 405),
            ("<b>", "/", {}, 405),
        )
        for method, path, headers, wanted in cases:
            with self.subTest(method=method, path=path, headers=headers):
                status, text, told = web.ask(path, method, headers)
                self.assertEqual((status, told["X-Content-Type-Options"]), (wanted, "nosniff"))
                self.assertEqual(told["Allow"], "GET" if wanted == 405 else None)
                self.assertIn("default-src 'none'", told["Content-Security-Policy"])

    def test_many_that_say_nothing(self) -> None:
        """The oldest connections are closed, and others are answered."""
        web = Web(self, ["--socket", f"{folder_of(self)}/none"])
        idle = [socket.create_connection(("127.0.0.1", web.port), PATIENCE) for _ in range(2 * MOST_CONNECTIONS)]
        for each in idle:
            self.addCleanup(each.close)
        self.assertEqual(web.get("/")[0], 200)
        self.assertEqual([each.recv(1) for each in idle[:MOST_CONNECTIONS]], [b""] * MOST_CONNECTIONS)

    def test_words(self) -> None:
        taken = socket.create_server(("127.0.0.1", 0))
        self.addCleanup(taken.close)
        cases: tuple[tuple[list[str], str], ...] = (
            (["--listen", "0.0.0.0:0"], "the page has no login"),
            (["--listen", "[::]:0"], "the page has no login"),
            (["--listen", "localhost:0"], "localhost:0"),
            (["--listen", "65536"], "65536"),
            (["--listen", str(taken.getsockname()[1])], "Address already in use"),
            (["--listen", "0", "--dir", "/no/folder"], "there is no folder /no/folder"),
            ([], "--listen"),
        )
        for words, why in cases:
            with self.subTest(words=words):
                status, text = said_of_web("--socket", "/no/socket", *words)
                self.assertEqual(status, 2)
                self.assertIn(why, text)

    def test_any_address_and_signals(self) -> None:
        cases: tuple[tuple[signal.Signals, list[str], str], ...] = (
            (signal.SIGTERM, ["--listen", "0.0.0.0:0", "--any-address"], "duqishom: ready at http://0.0.0.0:"),
            (signal.SIGINT, [], "duqishom: ready at http://127.0.0.1:"),
        )
        for number, words, first in cases:
            web = Web(self, ["--socket", "/no/socket", *words])
            self.assertTrue(web.first.startswith(first), web.first)
            host = {"Host": "any.example"}
            self.assertEqual(web.ask("/", headers=host)[0], 200 if words else 421)
            self.assertEqual(web.end(number), 0)


Groups = dict[str, Mapping[str, float]]


def sample(at: float, groups: Groups, process: int = 1) -> Sample:
    """A sample at a second of a gateway of this process number."""
    told: dict[str, Counted] = {"seconds": at, "gateway": {"process": process}, **groups}
    return Sample(at, told, "", 0.001)


def begins(count: int, sessions: int = 0) -> Groups:
    return {"requests": {"Begin": count}, "open": {"sessions": sessions}}


class Judgements(unittest.TestCase):
    """Rates and health, of samples and folders that are given."""

    def test_rates(self) -> None:
        before = (sample(0, begins(0)), sample(2, begins(10)), None, sample(4, begins(14)))
        samples, of = (*before, sample(6, begins(2), 2), sample(8, begins(2), 2)), measure("requests", "Begin")
        self.assertEqual(rates(samples, of), [5, None, None, None, 0])
        self.assertEqual(points(View(samples[:2], None, 62), of), [(0.9, 5)])
        self.assertEqual([recent_rate(samples[:count], of) for count in range(7)], [None, None, 5, None, 3.5, None, 0])

    def test_oldest_session(self) -> None:
        """Two are open from 2 on, of which one is still open, whatever others begin and end, as long as they are few."""
        samples = (sample(0, begins(0)), sample(2, begins(2, 2)), sample(9, begins(3, 3)), sample(10, begins(4, 3)))
        self.assertEqual(oldest_session(samples), (1, 8))
        self.assertEqual(oldest_session(samples[:3]), (2, 7))
        self.assertIsNone(oldest_session(samples[:2]))
        self.assertIsNone(oldest_session((sample(0, begins(0, 5)), sample(1, begins(0, 5), 2))))

    def test_charts(self) -> None:
        """A line has a gap where there is no point, and the bar is as wide for any number of tablets."""
        one, two = (0.5, 1.0), (1.0, 2.0)
        lines: tuple[tuple[Points, list[str]], ...] = (
            ((), []),
            ((one,), ["50.0,1.0 50.0,1.0"]),
            ((None, one, None, None, one, two, None), ["50.0,9.0 50.0,9.0", "50.0,9.0 100.0,1.0"]),
        )
        for given, found in lines:
            self.assertEqual(re.findall('points="(.*?)"', small_line(given)), found)
        for many, labels in ((1, 3), (5, 15), (1024, 0)):
            tablets = [TabletState(number, b"\xff" * 4000, 1, 10) for number in range(many)]
            self.assertAlmostEqual(sum(widths(tablets)), 1200)
            bar = tablet_bar(tablets)
            self.assertEqual(bar.count("<text"), labels)
            self.assertLess(len(bar), 1000 * many)

    def test_pages(self) -> None:
        """A page without any sample, and one of a gateway that tells who its clients are and then answers no more."""
        self.assertEqual(Parsed(page("/s", View((), "why"), Health(DOWN, ("why",)), FolderState())).texts.count("why"), 1)
        groups: Groups = {"ended": {"idle_clients": 9, "idle_sessions": 0}}
        groups |= {"process_user": {"77": 1000}, "process_clients": {"77": 2}, "process_sessions": {"77": 5}}
        shown = Parsed(page("/s", View((sample(1, groups), None), "why"), Health(DOWN, ("why",)), None)).texts
        at = shown.index("77")
        self.assertEqual(shown[at : at + 4], ["77", "1000", "2", "5"])
        self.assertTrue({"idle clients", "9"} <= set(shown) and "idle sessions" not in shown)

    def test_health(self) -> None:
        calm: Groups = {"clients": {"turned_away": 1, "closed_for_memory": 0}, "refusals": {"Device": 3}, **begins(5, 0)}
        tablet, name, disk = TabletState(7, None, 48, 1), LockState("a c", 3, 61.0), 33_554_433
        gateways: tuple[tuple[Groups, str], ...] = (
            ({}, ""),
            ({"clients": {"turned_away": 3}}, "2 clients turned away in the last 10 min, for there was no place"),
            ({"clients": {"turned_away": 1, "closed_for_memory": 1}}, "1 client closed for memory in the last 10 min"),
            (begins(2000, 768), "768 of 1,024 sessions are open"),
            ({"refusals": {"Device": 3, "BadRow": 5}}, ""),
            ({"refusals": {"Device": 5}}, "2 requests refused Device in the last 10 min"),
        )
        for change, reason in gateways:
            with self.subTest(reason):
                found = health(View((sample(0, calm), sample(2, calm | change)), None), FolderState())
                self.assertEqual((found.word, found.reasons), (WARNING, (reason,)) if reason else (OK, ()))
        found = health(View((sample(0, begins(5, 1)), sample(300, begins(5, 1))), None), None)
        self.assertEqual(found.reasons, ("1 session open for 5 min or longer",))
        log = "the log has 32.0 MiB, and is to be emptied at 32.0 MiB"
        folders = (
            (FolderState(), ""),
            (FolderState(failure="why"), "the folder can't be read: why"),
            (FolderState(tablets=(tablet,)), "tablet 7 has 48 files of at most 64"),
            (FolderState(log=disk, log_before=0), ""),
            (FolderState(log=disk, log_before=disk), f"a checkpoint was refused: {log}"),
            (FolderState(log=50_331_648), "the log is near its bound: 48.0 MiB of 64.0 MiB"),
            (FolderState(free=0.04), "4% of the disk is free"),
            (FolderState(locks=(name, LockState("b c", 4, 59.0))), "1 lock held for 1 min or longer"),
        )
        for folder, reason in folders:
            with self.subTest(reason):
                found = health(View((sample(0, calm),), None), folder)
                self.assertEqual((found.word, found.reasons), (WARNING, (reason,)) if reason else (OK, ()))
        for view in (View((), None), View((sample(0, {}), None), "why")):
            self.assertEqual(health(view, FolderState()).word, DOWN)


class Folders(FolderTest):
    """The reader of a folder."""

    def test_damage(self) -> None:
        """A file that is gone is named until a search finds it again."""
        shutil.copytree(Path(__file__).parent / "data" / "format1", self.path, dirs_exist_ok=True)
        reader, file, kept = FolderReader(self.folder), self.path / FILE, self.path / "kept"
        gone = f"{file}: the root names this file, and it isn't there"
        for moves, failure in ((), None), ((file, kept), gone), ((kept, file), None):
            if moves:
                os.rename(*moves)
            reader.search_at = 0.0
            for _ in range(2):
                reader.read()
                self.assertEqual(reader.state.failure, failure)
            self.assertEqual([lock.cell for lock in reader.state.locks], ["Joe bal"])


@unittest.skipUnless(CHROMIUM, "chromium isn't installed")
class Browser(unittest.TestCase):
    """The page in a browser."""

    def test_browser(self) -> None:
        """It shows the page in a picture of the window's size, and no error."""
        gateway = Gateway(self)
        web, folder = Web(self, ["--socket", gateway.path]), folder_of(self)
        alone = ["--headless", "--disable-gpu", f"--user-data-dir={folder}", *(["--no-sandbox"] if os.geteuid() == 0 else [])]
        command = [str(CHROMIUM), *alone, "--hide-scrollbars", "--window-size=1280,800"]
        address = f"http://127.0.0.1:{web.port}/"
        picture = f"{folder}/page.png"
        ran = subprocess.run([*command, f"--screenshot={picture}", address], cwd=folder, capture_output=True, timeout=PATIENCE)
        self.assertEqual(ran.returncode, 0, ran.stderr)
        with open(picture, "rb") as file:
            head = file.read(24)
        self.assertEqual((head[:8], head[16:24]), (b"\x89PNG\r\n\x1a\n", (1280).to_bytes(4, "big") + (800).to_bytes(4, "big")))
        ran = subprocess.run([*command, "--dump-dom", address], cwd=folder, capture_output=True, timeout=PATIENCE)
        self.assertIn(">Requests a second</h2>", ran.stdout.decode())


if __name__ == "__main__":
    unittest.main()
