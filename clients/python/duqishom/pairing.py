"""Finds for each request of a server's recording what it did to the rows that all servers share, and where that stands in
the order of the engine. `merging` makes one run of all servers from it.

A server answers one request after the other, and waits for each reply of its bridge. So the messages that it sent between
two words that a request begins are of one attempt, and those attempts that weren't raced are its requests in their order.
Only requests that ask for nothing, as a Set, have no attempt.
"""

from __future__ import annotations

from array import array
from collections.abc import Iterator
from dataclasses import dataclass, field
from pathlib import Path

from duqishom.messages import (
    FLOORS,
    MESSAGES,
    SWAP,
    Fields,
    Kind,
    OutOfForm,
    Seen,
    body_at,
    edits_at,
    frames_of,
    mapped,
    objects_of_page,
    seen_in,
)

# Requests, by their first byte, and the bit that their replies have.
BEGIN, GET, SET, STEP, STOP = 1, 2, 3, 4, 5
CLEAN_BEGIN, CLEAN_STEP, COLLECT_BEGIN, COLLECT_STEP, DELETE, SCAN = 6, 7, 8, 9, 0x13, 0x31
REPLY, REFUSED = 0x80, 0xFF

# The tags of a Step's reply.
HELD, CONFLICT, STAMPED, COMMITTED, LOST, FINISHED = 1, 2, 3, 4, 5, 6

# Refusals.
TOO_MANY, DEVICE, NO_MEMORY, DAMAGED, BAD_REQUEST = 7, 19, 20, 21, 22

# After so many answers a server publishes its floor, and so often it makes a request that is raced.
BETWEEN_FLOORS, MOST_ATTEMPTS = 4096, 1000

# The number of a gateway itself, and the most that a client may have open.
ADMINISTRATOR = b"\xff\xff\xff\xff"
MOST_CLEANERS, MOST_COLLECTORS = 64, 4

NONE = (1 << 64) - 1


class Untold(Exception):
    """The recordings don't tell enough, so that nobody can say whether the run is right."""


class Wrong(Exception):
    """The recordings contradict each other: what they tell can't have happened."""


@dataclass
class Nodes:
    """What is to be put in order: requests, and other changes, as a few numbers each. Those of a server follow each other.

    Of each node there are the places of its request and its reply in the server's files, if it is one, and of the message
    that tells a row's guard. It is a change or a read of objects at their versions: those from `first` on, up to the next
    node's. Keys are twice the version, since a change of which nobody told may stand between two.
    """

    server: array[int] = field(default_factory=lambda: array("L"))
    request: array[int] = field(default_factory=lambda: array("Q"))
    reply: array[int] = field(default_factory=lambda: array("Q"))
    message: array[int] = field(default_factory=lambda: array("Q"))
    first: array[int] = field(default_factory=lambda: array("Q"))
    object: array[int] = field(default_factory=lambda: array("L"))
    key: array[int] = field(default_factory=lambda: array("Q"))
    changes: bytearray = field(default_factory=bytearray)
    # Requests that have other frames than those of the files, and parts of scans: from which page to which
    made: dict[int, tuple[bytes, bytes]] = field(default_factory=dict)
    parts: dict[int, tuple[int, int]] = field(default_factory=dict)
    objects: dict[bytes, int] = field(default_factory=dict)

    def add(self, server: int, request: int = NONE, reply: int = NONE, message: int = NONE) -> int:
        """Adds a node, and returns its number."""
        self.server.append(server)
        self.request.append(request)
        self.reply.append(reply)
        self.message.append(message)
        self.first.append(len(self.object))
        return len(self.server) - 1

    def at(self, name: bytes, key: int, changes: bool) -> None:
        """The last node is at this place of an object."""
        self.object.append(self.objects.setdefault(name, len(self.objects)))
        self.key.append(key)
        self.changes.append(changes)


@dataclass(slots=True)
class Session:
    """An active session: its client, how far it is, and of how many cells, if that was told."""

    client: bytes
    phase: int = 0
    place: int = 0
    count: int = 0
    stamp: bytes = b""


def prefix_of(row: bytes) -> bytes:
    """The bytes with which each key's text of a row begins."""
    return row.replace(b"\0", b"\0\xff") + b"\0\0"


def unknown_swap(folder: Path) -> tuple[bytes, int] | None:
    """The row and the guard of a Swap at the end of the messages of which nobody told whether it was made."""
    data, last = mapped(folder / MESSAGES), -1
    for last in frames_of(data):
        pass
    if last < 0 or body_at(data, last)[:1] != bytes((SWAP,)):
        return None
    fields = Fields(body_at(data, last))
    return fields.field(), fields.number()


class Server:
    """A server's recording, from its beginning to its end."""

    def __init__(self, number: int, folder: Path) -> None:
        self.number, self.folder, self.name = number, folder, f"{folder.parent.name}/{folder.name}"
        self.requests, self.replies = mapped(folder / "requests"), mapped(folder / "replies")
        self.messages = mapped(folder / MESSAGES)


class Pairing:
    """Adds the nodes of one server. The unknown Swap at its end was made at a place, or wasn't."""

    def __init__(self, nodes: Nodes, server: Server, unknown: tuple[bytes, int] | None) -> None:
        self._nodes, self._server, self._unknown = nodes, server, unknown
        self._left = seen_in(server.messages)
        self._next: Seen | None = None
        self._sessions: dict[bytes, Session] = {}
        self._cleaners: dict[bytes, tuple[bytes, bool]] = {}
        self._collectors: dict[bytes, bytes] = {}
        self._count, self._is_unanswered = 0, False
        self._advance()

    def run(self) -> None:
        """Adds all nodes. OutOfForm, Untold or Wrong."""
        replies = frames_of(self._server.replies)
        for request in frames_of(self._server.requests):
            self._count += 1
            reply = next(replies, None)
            if reply is None:
                if self._peek() is None:
                    break
                self._unanswered(request)
            else:
                self._answered(request, reply)
            if self._count % BETWEEN_FLOORS == 0:
                self._tend()
        if next(replies, None) is not None:
            raise OutOfForm(f"{self._server.name} has more replies than requests")
        self._end()

    # ---- what was asked for, in its order

    def _advance(self) -> None:
        """Goes on behind the next one, and behind attempts that asked for nothing."""
        self._next = next(self._left, None)
        while self._next is not None and self._next.kind == Kind.ROWS and self._next.at < 0:
            self._next = next(self._left, None)

    def _peek(self) -> Seen | None:
        """The next that was asked for. Changes of others before it are added."""
        while self._next is not None and self._next.kind == Kind.OTHER:
            self._silent(self._next)
            self._advance()
        return self._next

    def _taken(self, *kinds: Kind, is_device: bool = False) -> Seen | None:
        """The next of some kinds that isn't raced, or None at the end. A request that fails because others changed its
        row takes the last one of its attempts."""
        raced = 0
        while (seen := self._peek()) is not None:
            self._advance()
            if seen.kind == Kind.FLOOR and Kind.FLOOR not in kinds:
                self._published(seen)
                continue
            if seen.kind not in kinds:
                wanted = " or ".join(kind.value for kind in kinds)
                what = f"{self._server.name}: request {self._count} asks for {wanted}, and its message for {seen.kind.value}"
                # A request without a reply may have been refused before it asked
                raise Untold(what) if self._is_unanswered else Wrong(what)
            raced += seen.is_raced
            if not seen.is_raced or (is_device and raced == MOST_ATTEMPTS):
                return seen
        return None

    def _silent(self, seen: Seen) -> None:
        """Adds what is no request."""
        self._nodes.add(self._server.number, message=seen.at)
        self._nodes.at(seen.object, 2 * seen.version, seen.changes)

    def _published(self, seen: Seen) -> None:
        """Adds the change of a published floor."""
        if seen.written:
            self._nodes.add(self._server.number)
            self._nodes.at(FLOORS, 2 * seen.written, True)

    def _tend(self) -> None:
        """After so many answers the server has published its floor, unless it had no time for it."""
        seen = self._peek()
        if seen is not None and seen.kind == Kind.FLOOR:
            self._advance()
            self._published(seen)

    # ---- requests with replies

    def _answered(self, request: int, reply: int) -> None:
        asked, told = body_at(self._server.requests, request), body_at(self._server.replies, reply)
        code, said = asked[4] if len(asked) > 4 else 0, told[4:]
        refusal = said[1] if len(said) == 2 and said[0] == REFUSED else None
        kinds = self._kinds(code, said, refusal, asked[:4])
        if not kinds:
            self._nodes.add(self._server.number, request, reply)
        else:
            seen = self._taken(*kinds, is_device=refusal == DEVICE)
            if seen is None or seen.is_unknown:
                raise Untold(f"{self._server.name}: nothing tells what request {self._count} did, which was answered")
            if refusal is None:
                self._check(code, asked, said, seen)
                self._placed(request, reply, code, seen)
            else:
                self._nodes.add(self._server.number, request, reply)
                if seen.kind == Kind.FLOOR:
                    self._published(seen)
                elif seen.kind == Kind.ROWS and seen.changes and seen.has_edits:
                    raise Wrong(f"{self._server.name}: request {self._count} was refused, and has changed a row")
        if refusal is None:
            self._note(code, asked, said)

    def _kinds(self, code: int, said: bytes, refusal: int | None, client: bytes) -> tuple[Kind, ...]:
        """What a request with this reply has asked its bridge for."""
        if refusal is not None:
            return self._kinds_of_refused(code, refusal, client)
        if code == BEGIN or (code == STEP and said[1] == STAMPED):
            return (Kind.STAMP,)
        if code == COLLECT_BEGIN:
            return (Kind.FLOOR,)
        return (Kind.ROWS,) if code in (GET, SCAN, STEP, CLEAN_BEGIN, CLEAN_STEP, COLLECT_STEP) else ()

    def _kinds_of_refused(self, code: int, refusal: int, client: bytes) -> tuple[Kind, ...]:
        """The same of a refused one. Its client's own limit is looked at before anything is asked."""
        if refusal == DEVICE:
            asks = {BEGIN: (Kind.STAMP,), STEP: (Kind.ROWS, Kind.STAMP), COLLECT_BEGIN: (Kind.FLOOR,)}
            reads = (GET, SCAN, CLEAN_BEGIN, CLEAN_STEP, COLLECT_STEP)
            return asks.get(code, (Kind.ROWS,) if code in reads else ())
        if refusal == TOO_MANY and code == CLEAN_BEGIN:
            has = sum(owner == client for owner, _ in self._cleaners.values())
            return (Kind.ROWS,) if has < MOST_CLEANERS else ()
        if refusal == TOO_MANY and code == COLLECT_BEGIN:
            has = sum(owner == client for owner in self._collectors.values())
            return (Kind.FLOOR,) if has < MOST_COLLECTORS else ()
        if refusal in (NO_MEMORY, DAMAGED) and code in (GET, SCAN, STEP, CLEAN_BEGIN, CLEAN_STEP, COLLECT_STEP):
            # There may have been no memory before it asked
            seen = self._peek()
            is_next = seen is not None and seen.kind == Kind.ROWS and not seen.changes
            return (Kind.ROWS,) if refusal == DAMAGED or is_next else ()
        return ()

    def _check(self, code: int, asked: bytes, said: bytes, seen: Seen) -> None:
        """Wrong if what was asked for isn't what the request needs."""
        if seen.has_failed:
            raise Wrong(f"{self._server.name}: request {self._count} was answered, and its bridge has refused it")
        row = {GET: 13, CLEAN_BEGIN: 5}.get(code)
        if row is not None and seen.prefix != prefix_of(Fields(asked, row).field()):
            raise Wrong(f"{self._server.name}: request {self._count} is of another row than its message")
        stamp = {BEGIN: said[1:9], STEP: said[2:10]}.get(code, b"")
        if seen.kind == Kind.STAMP and seen.version != int.from_bytes(stamp, "big"):
            raise Wrong(f"{self._server.name}: request {self._count} has another stamp than its bridge gave")

    def _placed(self, request: int, reply: int, code: int, seen: Seen) -> None:
        """Adds a request where it stands in the order."""
        if seen.kind == Kind.FLOOR:
            self._published(seen)
        pages = seen.pages if code == SCAN else seen.pages[-1:] if seen.at in seen.pages else []
        if not pages:
            self._nodes.add(self._server.number, request, reply, seen.at if seen.kind == Kind.ROWS else NONE)
            self._nodes.at(seen.object, 2 * seen.version, seen.changes)
        for place, page in enumerate(pages):
            # A scan of several pages is as many scans, each of one moment
            node = self._nodes.add(self._server.number, request, reply)
            if len(pages) > 1:
                self._nodes.parts[node] = (page if place else -1, pages[place + 1] if place + 1 < len(pages) else -1)
            for name, version in objects_of_page(self._server.messages, page):
                self._nodes.at(name, 2 * version, False)

    def _note(self, code: int, asked: bytes, said: bytes) -> None:
        """Notes what an answer opens and ends."""
        client, name = asked[:4], asked[5:13]
        if code == BEGIN:
            self._sessions[said[1:9]] = Session(client)
        elif code == STEP:
            self._note_step(name, said)
        elif code == STOP:
            self._sessions.pop(name, None)
        elif code == CLEAN_BEGIN and said[1] == 1:
            self._cleaners[said[2:10]] = (client, False)
        elif code == CLEAN_STEP and said[1] == 1:
            self._cleaners[name] = (self._cleaners.get(name, (client, False))[0], True)
        elif code == CLEAN_STEP:
            self._cleaners.pop(name, None)
        elif code == COLLECT_BEGIN:
            self._collectors[said[1:9]] = client
        elif code == COLLECT_STEP and said[1] == 3:
            self._collectors.pop(name, None)
        elif len(asked) == 4:
            self._is_gone(client)

    def _note_step(self, name: bytes, said: bytes) -> None:
        session = self._sessions.get(name)
        if session is None:
            return
        session.phase = said[1]
        if session.phase in (HELD, FINISHED):
            session.place, session.count = int.from_bytes(said[2:4], "big"), int.from_bytes(said[4:6], "big")
        elif session.phase == STAMPED:
            session.stamp = said[2:10]
        is_over = session.phase in (CONFLICT, LOST) or (session.phase == COMMITTED and session.count == 1)
        if is_over or (session.phase == FINISHED and session.place == session.count):
            del self._sessions[name]

    def _is_gone(self, client: bytes) -> None:
        """A client is gone: its sessions are stopped, and its cleaners and collectors are left to the administrator."""
        for name in [name for name, session in self._sessions.items() if session.client == client]:
            del self._sessions[name]
        for name, (owner, is_decided) in self._cleaners.items():
            self._cleaners[name] = (ADMINISTRATOR if owner == client else owner, is_decided)
        for name, owner in self._collectors.items():
            self._collectors[name] = ADMINISTRATOR if owner == client else owner

    # ---- requests without replies: the server or its gateway was killed

    def _unanswered(self, request: int) -> None:
        """Adds a request whose reply nobody got, if it has changed something. Its reply is made up by what it did."""
        asked, self._is_unanswered = body_at(self._server.requests, request), True
        code, client, name = asked[4] if len(asked) > 4 else 0, asked[:4], asked[5:13]
        if len(asked) == 4:
            self._made(asked, b"\x85")
        elif code in (GET, SET, DELETE, SCAN, STEP, STOP):
            session = self._sessions.get(name)
            if session is not None and session.client == client:
                self._unanswered_of_session(asked, code, session)
        elif code == BEGIN:
            self._taken(Kind.STAMP)
        elif code == CLEAN_BEGIN:
            self._taken(Kind.ROWS)
        elif code == CLEAN_STEP and name in self._cleaners:
            self._unanswered_clean(asked)
        elif code == COLLECT_BEGIN and (seen := self._taken(Kind.FLOOR)) is not None:
            self._published(seen)
        elif code == COLLECT_STEP and self._collectors.get(name) in (client, ADMINISTRATOR):
            seen = self._taken(Kind.ROWS)
            if seen is not None and seen.changes:
                self._silent(seen)

    def _unanswered_of_session(self, asked: bytes, code: int, session: Session) -> None:
        if code == STOP:
            self._made(asked, b"\x85")
        elif code == STEP:
            self._unanswered_step(asked, session)
        elif session.phase == 0 and code in (SET, DELETE):
            self._made(asked, bytes((code | REPLY,)))
        elif session.phase == 0:
            self._taken(Kind.ROWS)

    def _unanswered_step(self, asked: bytes, session: Session) -> None:
        if session.count == 0:
            session.count = len(self._cells_of(asked[5:13]))
        if session.count == 0:
            return
        is_held = session.phase == HELD and session.place == session.count
        seen = self._taken(Kind.STAMP if is_held else Kind.ROWS)
        if seen is None or self._is_without_effect(seen):
            return
        changes = seen.changes or seen.is_unknown
        count = session.count.to_bytes(2, "big")
        if is_held:
            said = b"\x84\3" + seen.version.to_bytes(8, "big")
        elif session.phase in (0, HELD):
            said = b"\x84\1" + (session.place + 1).to_bytes(2, "big") + count
        elif session.phase == STAMPED:
            said = b"\x84\4" + session.stamp
        else:
            place = session.place + 1 if session.phase == FINISHED else 2
            said, changes = b"\x84\6" + place.to_bytes(2, "big") + count, True
        if changes:
            self._made(asked, said, seen)
        else:
            # Conflict or Lost, which changes nothing for others
            del self._sessions[asked[5:13]]

    def _is_without_effect(self, seen: Seen) -> bool:
        """Whether a request without a reply has changed nothing. If it only read, and nothing comes behind it, it may have
        been killed before its change."""
        if seen.is_unknown:
            return self._unknown is None
        return seen.has_failed or not (seen.changes or self._peek() is not None)

    def _unanswered_clean(self, asked: bytes) -> None:
        _, is_decided = self._cleaners[asked[5:13]]
        seen = self._taken(Kind.ROWS)
        if seen is None or self._is_without_effect(seen):
            return
        if not is_decided:
            said = b"\x87\1"
        elif not (seen.changes or seen.is_unknown):
            said = b"\x87\4"
        else:
            put = [text for puts, text in edits_at(self._server.messages, seen.at) if puts]
            # A record stands at its commit stamp, which its key's text ends with, all bits turned
            stamp = bytes(255 - byte for byte in put[0][-8:]) if put else b""
            said = b"\x87\2" + stamp if put else b"\x87\3"
        self._made(asked, said, seen)

    def _cells_of(self, start: bytes) -> set[bytes]:
        """The cells that a session has written."""
        found: set[bytes] = set()
        for place, request in enumerate(frames_of(self._server.requests)):
            asked = body_at(self._server.requests, request)
            if place < self._count and asked[4:5] in (b"\3", b"\x13") and asked[5:13] == start:
                fields = Fields(asked, 13)
                found.add(fields.field() + b"\0\0" + fields.field())
        return found

    def _made(self, asked: bytes, said: bytes, seen: Seen | None = None) -> None:
        """Adds a request with a reply that is made up."""
        node = self._nodes.add(self._server.number, message=seen.at if seen is not None and seen.kind == Kind.ROWS else NONE)
        self._nodes.made[node] = (asked, asked[:4] + said)
        if seen is not None and seen.is_unknown and self._unknown is not None:
            self._nodes.at(self._unknown[0], self._unknown[1], True)
        elif seen is not None:
            self._nodes.at(seen.object, 2 * seen.version, seen.changes)
        self._note(asked[4] if len(asked) > 4 else 0, asked, said)

    def _end(self) -> None:
        """The server has ended: its clients are gone."""
        while (seen := self._peek()) is not None:
            self._advance()
            if seen.kind == Kind.FLOOR:
                self._published(seen)
            elif seen.kind == Kind.ROWS and seen.has_edits and (seen.changes or (seen.is_unknown and self._unknown is not None)):
                raise Untold(f"{self._server.name}: nothing tells which request has changed a row at its end")
        owners = {session.client for session in self._sessions.values()} | {owner for owner, _ in self._cleaners.values()}
        for client in sorted(owners):
            self._made(client, b"\x85")


def servers_in(folders: list[Path]) -> Iterator[list[Path]]:
    """The folders of recordings, those of the servers of one name after each other: they followed each other. Untold if
    there are none."""
    by_name: dict[tuple[Path, str], list[tuple[int, Path]]] = {}
    for folder in folders:
        for place in folder.iterdir():
            name, _, number = place.name.rpartition(".")
            if name and number.isdigit() and (place / MESSAGES).exists():
                by_name.setdefault((folder, name), []).append((int(number), place))
    if not by_name:
        raise Untold("there is no recording of a cluster")
    for key in sorted(by_name):
        yield [place for _, place in sorted(by_name[key])]

