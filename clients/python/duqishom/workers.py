"""`python3 -m duqishom serve --rados CONF`: servers over the rows of a Ceph cluster, each behind a gateway of its own.

All gateways take connections from one socket, which is made here, as they do from a service manager. A session belongs to
a connection, so each client stays with its server. One bridge asks the cluster for all of them. A server that ends takes
its clients' connections with it, and is begun again; if the bridge ends, all end.
"""

from __future__ import annotations

import argparse
import fcntl
import grp
import os
import select
import shlex
import shutil
import signal
import socket
import stat
import subprocess
import sys
import tempfile
import time
from collections.abc import Sequence
from contextlib import suppress
from dataclasses import dataclass, field
from pathlib import Path

from duqishom.cluster import BUILT, add_place, found_bridge, place_words
from duqishom.messages import MESSAGES
from duqishom.program import default_program

# The options of a gateway that its workers can't share.
NOT_SHARED = ("--dir", "--rows", "--admin", "--tcp", "--standby", "--checkpoint")

# The statuses if the command is refused, and if the bridge has ended.
REFUSED, BROKEN = 2, 70

# The pauses before a server is begun again, which double, and how long one that lasts has lasted.
FIRST_PAUSE, LAST_PAUSE, LASTS = 0.1, 5.0, 60.0

# The time between two looks, in seconds, and how long the bridge has at the end.
LOOK, GRACE = 0.02, 10.0

# The pipe that a bridge makes last. It removes it when it has no more to do with a server.
LAST_PIPE = "stamps.from"

# The signal of the end of a parent, for prctl.
DEATH_SIGNAL = 1

# Becomes a gateway that ends with this process, and has the socket as its first file behind the three of each program.
BECOME = f"""
import ctypes, os, signal, sys
parent, listening, *words = sys.argv[1:]
ctypes.CDLL(None).prctl({DEATH_SIGNAL}, signal.SIGKILL)
if os.getppid() != int(parent):
    sys.exit(1)
if int(listening) != 3:
    os.dup2(int(listening), 3)
    os.close(int(listening))
os.environ.update(LISTEN_FDS="1", LISTEN_PID=str(os.getpid()))
os.execvp(words[0], words)
"""


class NotServed(Exception):
    """There is nothing to serve, or no place to serve it at."""


def tell(line: str) -> None:
    print(f"duqishom: {line}", file=sys.stderr, flush=True)


def notify(state: str) -> None:
    """Tells the service manager, if there is one."""
    if place := os.environ.get("NOTIFY_SOCKET"):
        with suppress(OSError), socket.socket(socket.AF_UNIX, socket.SOCK_DGRAM) as manager:
            manager.sendto(f"{state}\n".encode(), "\0" + place[1:] if place.startswith("@") else place)


def new_recording(folder: Path, name: str) -> Path:
    """A new folder for the recording of a server that begins: its name, and the next number. OSError if it can't be
    made."""
    numbers = [int(place.name.rpartition(".")[2]) for place in folder.glob(f"{name}.*") if place.name.rpartition(".")[2].isdigit()]
    made = folder / f"{name}.{max(numbers, default=0) + 1}"
    made.mkdir(mode=0o700)
    return made


class Listening:
    """A listening socket at a path, which at no moment can be opened by users that its mode and group exclude. The lock
    beside it stays, and is held as long as the socket is there."""

    def __init__(self, path: str, mode: int, group: int | None) -> None:
        self.path = path
        flags = os.O_RDWR | os.O_CREAT | os.O_APPEND | os.O_NOFOLLOW | os.O_NONBLOCK
        self._lock = os.open(f"{path}.lock", flags, 0o600)
        try:
            fcntl.flock(self._lock, fcntl.LOCK_EX | fcntl.LOCK_NB)
        except BlockingIOError:
            raise NotServed(f"another gateway serves {path}") from None
        self._remove_stale()
        self.socket = socket.socket(socket.AF_UNIX)
        before = os.umask(0o777)
        try:
            self.socket.bind(path)
        finally:
            os.umask(before)
        if group is not None:
            os.chown(path, -1, group, follow_symlinks=False)
        os.chmod(path, mode)
        self.socket.listen(1024)

    def _remove_stale(self) -> None:
        """Removes a socket at which nobody answers."""
        try:
            is_socket = stat.S_ISSOCK(os.lstat(self.path).st_mode)
        except FileNotFoundError:
            return
        if not is_socket:
            raise NotServed(f"{self.path} is there, and is no socket")
        with socket.socket(socket.AF_UNIX) as asks:
            asks.setblocking(False)
            try:
                asks.connect(self.path)
            except ConnectionRefusedError:
                os.unlink(self.path)
                return
            except OSError:
                pass
        raise NotServed(f"another gateway serves {self.path}")

    def close(self) -> None:
        with suppress(FileNotFoundError):
            os.unlink(self.path)
        self.socket.close()
        os.close(self._lock)


@dataclass
class Worker:
    """A server with its gateway: its name, its folder of pipes, that of its recording if there is one, and the process of
    the gateway. It waits for its pipes if there is no process, and before that until it is due."""

    name: str
    folder: Path | None = None
    record: Path | None = None
    process: subprocess.Popen[bytes] | None = None
    due: float = 0.0
    began: float = 0.0
    pause: float = FIRST_PAUSE
    is_ready: bool = False
    was_ready: bool = False
    said: bytes = b""


@dataclass
class Workers:
    """All servers of a machine, and their bridge."""

    bridge_command: Sequence[str]
    gateway_command: Sequence[str]
    listening: Listening
    folder: Path
    workers: list[Worker]
    record: Path | None = None
    starts: int = 0
    is_ready: bool = False
    is_closing: bool = False
    environment: dict[str, str] = field(default_factory=lambda: {**os.environ})

    def run(self) -> int:
        """Serves until the end, and returns the status."""
        for name in ("NOTIFY_SOCKET", "LISTEN_FDNAMES"):
            self.environment.pop(name, None)
        self.bridge = subprocess.Popen([*self.bridge_command, "--more"], stdin=subprocess.PIPE, bufsize=0, start_new_session=True)
        # It can be read once the bridge has ended
        self._bridge_end = os.pidfd_open(self.bridge.pid)
        try:
            status = self._serve()
        finally:
            self._end_gateways()
            self._end_bridge()
            os.close(self._bridge_end)
        return status

    def close(self) -> None:
        self.is_closing = True

    def _serve(self) -> int:
        while not self.is_closing:
            self._hear()
            if (status := self.bridge.poll()) is not None:
                tell(f"the bridge has ended with status {status}")
                return BROKEN if self.is_ready else REFUSED
            for worker in self.workers:
                refused = self._look_at(worker)
                if refused is not None:
                    return refused
            if not self.is_ready and all(worker.is_ready for worker in self.workers):
                self.is_ready = True
                tell("ready")
                notify("READY=1")
        notify("STOPPING=1")
        return 0

    def _look_at(self, worker: Worker) -> int | None:
        """Does what is next for a worker. A status if it can't even begin."""
        now = time.monotonic()
        if worker.process is not None:
            status = worker.process.poll()
            if status is None and worker.folder is not None and not (worker.folder / LAST_PIPE).exists():
                # The bridge has left it alone, so that it can do nothing any more
                worker.process.kill()
                status = worker.process.wait()
            return None if status is None else self._has_ended(worker, status, now)
        if worker.folder is None and now >= worker.due:
            # A folder of its own for each start: so nothing of an earlier one can come through its pipes
            self.starts += 1
            worker.folder = self.folder / str(self.starts) / worker.name
            worker.folder.mkdir(parents=True, mode=0o700)
            worker.record = None if self.record is None else new_recording(self.record, worker.name)
            messages = "" if worker.record is None else f"\t{worker.record / MESSAGES}"
            with suppress(BrokenPipeError):
                assert self.bridge.stdin is not None
                self.bridge.stdin.write(f"{worker.folder}{messages}\n".encode())
        if worker.folder is not None and (worker.folder / LAST_PIPE).exists():
            self._begin(worker, now)
        return None

    def _begin(self, worker: Worker, now: float) -> None:
        become = [sys.executable, "-c", BECOME, str(os.getpid()), str(self.listening.socket.fileno())]
        recorded = [] if worker.record is None else ["--record", str(worker.record)]
        worker.process = subprocess.Popen(
            [*become, *self.gateway_command, *recorded, "--rows", str(worker.folder)],
            stdin=subprocess.DEVNULL,
            stderr=subprocess.PIPE,
            pass_fds=[self.listening.socket.fileno()],
            env=self.environment,
            start_new_session=True,
        )
        assert worker.process.stderr is not None
        os.set_blocking(worker.process.stderr.fileno(), False)
        worker.began, worker.is_ready, worker.said = now, False, b""

    def _has_ended(self, worker: Worker, status: int, now: float) -> int | None:
        """Has a worker begun again later. Its status if it was never ready."""
        self._hear_of(worker)
        assert worker.process is not None and worker.process.stderr is not None
        worker.process.stderr.close()
        worker.process = None
        if not worker.was_ready:
            return REFUSED if status == 0 else status if status > 0 else 128 - status
        if self.record is not None and status == BROKEN:
            # Its recording can't grow, or its gateway has failed
            tell(f"{worker.name} has ended with status {status}")
            return BROKEN
        lasted = now - worker.began
        worker.pause = FIRST_PAUSE if lasted >= LASTS else min(LAST_PAUSE, 2 * worker.pause)
        tell(f"{worker.name} has ended with status {status}, and is begun again")
        shutil.rmtree(self.folder / str(worker.folder).rsplit("/", 2)[1], ignore_errors=True)
        worker.folder, worker.due, worker.is_ready = None, now + worker.pause, False
        return None

    def _hear(self) -> None:
        """Passes on what gateways say. It waits a moment for that, or for the bridge's end."""
        said = {worker.process.stderr: worker for worker in self.workers if worker.process is not None}
        waits = not self.is_ready or any(worker.process is None for worker in self.workers)
        ready, _, _ = select.select([*said, self._bridge_end], [], [], LOOK if waits else 10 * LOOK)
        for stream in said:
            if stream in ready:
                self._hear_of(said[stream])

    def _hear_of(self, worker: Worker) -> None:
        """Passes on what a gateway has said."""
        assert worker.process is not None and worker.process.stderr is not None
        with suppress(BlockingIOError):
            worker.said += os.read(worker.process.stderr.fileno(), 1 << 16)
        *lines, worker.said = worker.said.split(b"\n")
        for line in lines:
            text = line.decode(errors="replace")
            if text == "duqishom: ready":
                worker.is_ready = worker.was_ready = True
            else:
                tell(f"{worker.name}: {text.removeprefix('duqishom: ')}")

    def _end_gateways(self) -> None:
        """Ends the gateways, and with them their programs."""
        processes = [worker.process for worker in self.workers if worker.process is not None]
        for process in processes:
            process.terminate()
        while any(process.poll() is None for process in processes):
            if self.bridge.poll() is not None:
                # Without it they may wait for ever
                for process in processes:
                    process.kill()
            self._hear()
        for worker in self.workers:
            if worker.process is not None:
                self._hear_of(worker)

    def _end_bridge(self) -> None:
        assert self.bridge.stdin is not None
        self.bridge.stdin.close()
        try:
            self.bridge.wait(GRACE)
        except subprocess.TimeoutExpired:
            self.bridge.kill()
            self.bridge.wait()


def group_of(text: str) -> int:
    """A group, by its number or its name."""
    return int(text) if text.isdigit() else grp.getgrnam(text).gr_gid


def memory_bridge(words: str) -> list[str]:
    """The command of a bridge in memory, for tests in the repository."""
    return [sys.executable, str((BUILT.parent / "memory_bridge.py").resolve()), *shlex.split(words)]


def add_options(parsing: argparse.ArgumentParser) -> None:
    """Adds the options of servers over a cluster. All others are the gateways'."""
    parsing.add_argument("--memory-bridge", metavar="WORDS", nargs="?", const="", help="rows in memory, for tests, and what happens to them")
    parsing.add_argument("--workers", metavar="N", type=int, default=8, help="how many servers (8): each waits for one trip at a time")
    parsing.add_argument("--socket", metavar="PATH", required=True, help="the Unix socket for clients")
    parsing.add_argument("--mode", type=lambda text: int(text, 8), help="its mode (600, or 660 with --group)")
    parsing.add_argument("--group", type=group_of, help="its group, by number or name")
    parsing.add_argument("--machine", metavar="NAME", help="the name of these servers: of the host, and the socket's path")
    parsing.add_argument("--record", metavar="FOLDER", help="keep frames and messages there, for cluster audit")
    parsing.add_argument("--program", help="the tabletd to start")


def bridge_command(options: argparse.Namespace) -> list[str]:
    """The command of the bridge."""
    if options.memory_bridge is not None:
        return memory_bridge(options.memory_bridge)
    machine = options.machine or f"{socket.gethostname()}:{os.path.abspath(options.socket)}"
    return [found_bridge(), *place_words(options), "--machine", machine]


def serve(parsing: argparse.ArgumentParser, words: Sequence[str], gateway: str) -> int:
    """Serves at one socket by as many servers as the words say, and returns the status."""
    if not any(word.split("=")[0] == "--memory-bridge" for word in words):
        add_place(parsing)
    add_options(parsing)
    if {"-h", "--help"}.intersection(words):
        parsing.print_help()
        return 0
    options, others = parsing.parse_known_args(words)
    if (not_shared := next((word for word in others if word.split("=")[0] in NOT_SHARED), None)) is not None:
        parsing.error(f"{not_shared} doesn't go with --workers")
    if options.workers < 1:
        parsing.error("--workers is 1 or more")
    command = [gateway, "--program", options.program or default_program(), *others]
    folder = Path(tempfile.mkdtemp(prefix="duqishom-"))
    try:
        mode = options.mode if options.mode is not None else 0o600 if options.group is None else 0o660
        listening = Listening(options.socket, mode, options.group)
        try:
            workers = [Worker(f"w{place}") for place in range(options.workers)]
            record = None
            if options.record is not None:
                record = Path(options.record).absolute()
                record.mkdir(mode=0o700, parents=True, exist_ok=True)
            all_of_them = Workers(bridge_command(options), command, listening, folder, workers, record)
            for each in (signal.SIGTERM, signal.SIGINT):
                signal.signal(each, lambda *_: all_of_them.close())
            return all_of_them.run()
        finally:
            listening.close()
    except (OSError, NotServed) as failure:
        tell(str(failure))
        return REFUSED
    finally:
        shutil.rmtree(folder, ignore_errors=True)
