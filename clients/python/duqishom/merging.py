"""Merges the recordings of all servers of a cluster into one run, which `tablet_audit` judges.

Each request, and each change that no request made, is a node (`pairing`). The order is that of each server's requests; and
of each object of the engine, whose versions rise with each change: a read of a version follows the change that made it,
and comes before the next one. A topological order of these is the run. It is there if each request was one step.

In the run clients and cleaners have other numbers than in their servers', and the clients of a server are gone at its
end. Collectors aren't in it, since each server knows no more than a floor that isn't above any session of others: that is
looked at here. Nor are bodies that are no request of such a server.
"""

from __future__ import annotations

from array import array
from collections import deque
from collections.abc import Callable, Iterator
from heapq import heappop, heappush
from pathlib import Path
from typing import BinaryIO

from duqishom.fields import counted, number
from duqishom.messages import FETCH, MESSAGES, Fields, body_at, mapped, page_from, seen_in, tablets_in
from duqishom.pairing import (
    ADMINISTRATOR,
    BAD_REQUEST,
    BEGIN,
    CLEAN_BEGIN,
    CLEAN_STEP,
    COLLECT_BEGIN,
    COLLECT_STEP,
    COMMITTED,
    CONFLICT,
    FINISHED,
    LOST,
    NONE,
    REFUSED,
    STEP,
    STOP,
    Nodes,
    Pairing,
    Server,
    Untold,
    Wrong,
    servers_in,
    unknown_swap,
)
from duqishom.texts import text_of

# The name of a cleaner that nobody has.
NOBODYS = number(8, (1 << 63) - 1)


def unknown_places(folders: list[Path]) -> dict[Path, tuple[bytes, int]]:
    """Where the Swaps were made of which nobody told: those of whose rows a later guard was seen, before the first one who
    saw it, and whose guard nobody else has raised. Untold if two of them may have."""
    unknown = {folder: swap for folder in folders if (swap := unknown_swap(folder)) is not None}
    found: dict[Path, tuple[bytes, int]] = {}
    raised: set[tuple[bytes, int]] = set()
    for folder in folders if unknown else ():
        for seen in seen_in(mapped(folder / MESSAGES)):
            if seen.changes:
                raised.add((seen.prefix, seen.guard))
            for killed, (prefix, guard) in unknown.items():
                key = 2 * seen.version - 1
                if seen.prefix == prefix and seen.guard > guard and (killed not in found or key < found[killed][1]):
                    found[killed] = (seen.object, key)
    made = {folder: place for folder, place in found.items() if unknown[folder] not in raised}
    if len({unknown[folder] for folder in made}) < len(made):
        raise Untold("nobody knows which of two servers has changed a row, at whose ends their bridges were killed")
    return made


class Order:
    """The order of nodes, those of each chain one after the other. Wrong if there is none."""

    def __init__(self, nodes: Nodes, chains: list[int]) -> None:
        """`chains` has the first node of each chain."""
        self._nodes = nodes
        count, places = len(nodes.server), len(nodes.object)
        self._first = array("Q", nodes.first)
        self._first.append(places)
        self._begins = bytearray(count + 1)
        for chain in [*chains, count]:
            self._begins[chain] = 1
        self._node = array("Q", (node for node in range(count) for _ in range(self._first[node], self._first[node + 1])))
        self._sort(places)
        self._waits = array("Q", (not begins for begins in self._begins[:count]))
        self._count_waits(places)

    def _sort(self, places: int) -> None:
        """Sorts the places of nodes by object and version, a change before those who saw it."""
        nodes = self._nodes
        rank = [nodes.object[at] << 72 | nodes.key[at] << 1 | (not nodes.changes[at]) for at in range(places)]
        self._sorted = array("Q", sorted(range(places), key=rank.__getitem__))
        self._rank = array("Q", bytes(8 * places))
        for rank_, at in enumerate(self._sorted):
            self._rank[at] = rank_

    def _is_same_object(self, rank: int) -> bool:
        """Whether a rank is of the object of the rank before it."""
        sorted_, objects = self._sorted, self._nodes.object
        return 0 < rank < len(sorted_) and objects[sorted_[rank]] == objects[sorted_[rank - 1]]

    def _count_waits(self, places: int) -> None:
        nodes, reads, has_change = self._nodes, 0, False
        self._change_behind = array("Q", bytes(8 * places))
        change = NONE
        for rank in range(places - 1, -1, -1):
            self._change_behind[rank] = change
            if nodes.changes[self._sorted[rank]]:
                change = rank
            if not self._is_same_object(rank):
                change = NONE
        last = -1
        for rank, at in enumerate(self._sorted):
            if not self._is_same_object(rank):
                reads, has_change, last = 0, False, -1
            if not nodes.changes[at]:
                self._waits[self._node[at]] += has_change
                reads += 1
                continue
            if nodes.key[at] == last:
                raise Wrong(f"two changes have made one version of {self._name(nodes.object[at])}: {last // 2}")
            self._waits[self._node[at]] += reads or has_change
            reads, has_change, last = 0, True, nodes.key[at]

    def _name(self, object_: int) -> str:
        return next(name for name, place in self._nodes.objects.items() if place == object_).decode(errors="replace")

    def _behind(self, node: int) -> Iterator[int]:
        """The nodes that wait for a node."""
        if not self._begins[node + 1]:
            yield node + 1
        for at in range(self._first[node], self._first[node + 1]):
            rank = self._rank[at]
            if not self._nodes.changes[at]:
                if self._change_behind[rank] != NONE:
                    yield self._node[self._sorted[self._change_behind[rank]]]
                continue
            next_ = rank + 1
            while self._is_same_object(next_) and not self._nodes.changes[self._sorted[next_]]:
                yield self._node[self._sorted[next_]]
                next_ += 1
            if next_ == rank + 1 and self._is_same_object(next_):
                yield self._node[self._sorted[next_]]

    def __iter__(self) -> Iterator[int]:
        """The nodes in an order. Those that wait for their server alone come as early as they can."""
        count = len(self._nodes.server)
        ready = deque(node for node in range(count) if self._waits[node] == 0)
        came = 0
        while ready:
            node = ready.popleft()
            came += 1
            yield node
            for behind in self._behind(node):
                self._waits[behind] -= 1
                if self._waits[behind] == 0:
                    is_free = self._first[behind] == self._first[behind + 1]
                    (ready.appendleft if is_free else ready.append)(behind)
        if came < count:
            raise Wrong(f"the orders of servers and rows contradict each other: {count - came} requests have no place")


def cell_of_text(text: bytes) -> tuple[bytes, bytes]:
    """The cell of a key's text."""
    at = 0
    while text[at : at + 2] != b"\0\0":
        at += 2 if text[at : at + 2] == b"\0\xff" else 1
    return text[:at].replace(b"\0\xff", b"\0"), text[at + 2 :].partition(b"\0\0")[0]


class Scan:
    """A Scan and its reply, of which each page is a scan of its own."""

    def __init__(self, asked: bytes, told: bytes) -> None:
        fields = Fields(asked, 14)
        self._client, self._head = asked[:4], asked[4:14]
        self._after = self._cell(fields) if fields.number(1) else None
        end = b"\1" + counted(fields.field()) if fields.number(1) else b"\0"
        family = b"\1" + counted(fields.field()) if fields.number(1) else b"\0"
        self._rest = end + family + number(4, fields.number(4))
        fields = Fields(told, 5)
        self._reach = self._cell(fields) if fields.number(1) == 2 else None
        self._items = [self._item(fields) for _ in range(fields.number(4))]

    def _cell(self, fields: Fields) -> tuple[bytes, bytes]:
        return fields.field(), fields.field()

    def _item(self, fields: Fields) -> tuple[tuple[bytes, bytes], bytes]:
        cell, tag = self._cell(fields), fields.number(1)
        found = counted(fields.field()) if tag == 1 else number(8, fields.number()) if tag == 2 else b""
        return cell, number(1, tag) + found

    def part(self, after: tuple[bytes, bytes] | None, to: tuple[bytes, bytes] | None) -> tuple[bytes, bytes] | None:
        """The request and the reply of the cells behind one and up to another one, or None if it has none."""
        low, high = after or self._after, to or self._reach
        if low is not None and high is not None and high <= low:
            return None
        items = [item for item in self._items if (low is None or item[0] > low) and (high is None or item[0] <= high)]
        named = [counted(row) + counted(family) + found for (row, family), found in items]
        begin = b"\0" if low is None else b"\1" + counted(low[0]) + counted(low[1])
        reach = b"\1" if high is None else b"\2" + counted(high[0]) + counted(high[1])
        told = b"\xb1" + reach + number(4, len(named)) + b"".join(named)
        return self._client + self._head + begin + self._rest, self._client + told


class Run:
    """Writes the merged run. Wrong where guards or floors contradict it."""

    def __init__(self, nodes: Nodes, servers: list[Server], requests: BinaryIO, replies: BinaryIO) -> None:
        self._nodes, self._servers, self._requests, self._replies = nodes, servers, requests, replies
        self._guards: dict[bytes, int] = {}
        self._clients: dict[tuple[int, bytes], bytes] = {}
        self._cleaners: dict[tuple[int, bytes], tuple[bytes, bytes]] = {}
        self._cleaner_count = 0
        self._active: dict[bytes, bytes] = {}
        self._starts: list[bytes] = []
        # The nodes of the run's replies
        self.written = array("Q")

    def take(self, node: int) -> None:
        """The next node."""
        nodes, server = self._nodes, self._servers[self._nodes.server[node]]
        if nodes.message[node] != NONE:
            self._look_at_row(server, nodes.message[node])
        if node in nodes.made:
            asked, told = nodes.made[node]
        elif nodes.request[node] != NONE:
            asked, told = body_at(server.requests, nodes.request[node]), body_at(server.replies, nodes.reply[node])
        else:
            return
        if node in nodes.parts:
            low, high = (None if at < 0 else cell_of_text(page_from(server.messages, at)) for at in nodes.parts[node])
            part = Scan(asked, told).part(low, high)
            if part is None:
                return
            asked, told = part
        self._say(node, server, asked, told)

    def _look_at_row(self, server: Server, at: int) -> None:
        """Checks a row's guard, which each change raises by one."""
        body = body_at(server.messages, at)
        fields = Fields(body)
        prefix, guard = fields.field(), fields.number()
        known = self._guards.get(prefix, 0)
        if guard != known:
            row = text_of(prefix[:-2].replace(b"\0\xff", b"\0"))
            if guard > known:
                told = f"its guard is {guard}, and not {known}"
                raise Untold(f"the row {row} was changed by somebody whose recording isn't there: {told}")
            raise Wrong(f"{server.name} has taken the row {row} for one with guard {guard}, and it was {known}")
        if body[0] != FETCH:
            self._guards[prefix] = known + 1

    def _client(self, server: int, client: bytes) -> bytes:
        """The number of a client in the run."""
        return self._clients.setdefault((server, client), number(4, len(self._clients) + 1))

    def _say(self, node: int, server: Server, asked: bytes, told: bytes) -> None:
        """Adds a request and its reply, unless it has no place in the run."""
        code, said = asked[4] if len(asked) > 4 else 0, told[4:]
        is_refused = said[0] == REFUSED
        if len(asked) < 4 or (is_refused and said[1] == BAD_REQUEST):
            return
        if code in (COLLECT_BEGIN, COLLECT_STEP):
            if code == COLLECT_BEGIN and not is_refused:
                self._look_at_floor(server, said[9:17])
            return
        client, body = self._client(server.number, asked[:4]), asked[4:]
        if code == CLEAN_STEP:
            owner, name = self._cleaners.get((server.number, body[1:9]), (client, NOBODYS))
            body = body[:1] + name + body[9:]
            if owner == ADMINISTRATOR and asked[:4] == ADMINISTRATOR:
                client = ADMINISTRATOR
        elif code == CLEAN_BEGIN and said[:2] == b"\x86\1":
            self._cleaner_count += 1
            name = number(8, self._cleaner_count)
            self._cleaners[server.number, said[2:10]] = (client, name)
            said = said[:2] + name + said[10:]
        if not is_refused:
            self._note(server.number, client, code, asked, said)
        for file, frame in ((self._requests, client + body), (self._replies, client + said)):
            file.write(counted(frame))
        self.written.append(node)

    def _note(self, server: int, client: bytes, code: int, asked: bytes, said: bytes) -> None:
        """Notes which sessions and cleaners are there after an answer."""
        name = asked[5:13]
        if code == BEGIN:
            self._active[said[1:9]] = client
            heappush(self._starts, said[1:9])
        elif code == STOP or (code == STEP and self._is_last(name, said)):
            self._active.pop(name, None)
        elif code == CLEAN_STEP and said[1] != 1:
            self._cleaners.pop((server, name), None)
        elif len(asked) == 4:
            for start in [start for start, owner in self._active.items() if owner == client]:
                del self._active[start]
            for key, (owner, cleaner) in self._cleaners.items():
                if owner == client:
                    self._cleaners[key] = (ADMINISTRATOR, cleaner)

    def _is_last(self, name: bytes, said: bytes) -> bool:
        """Whether a Step's reply is its session's last one, as far as floors are concerned: it may be after its commit."""
        return said[1] in (CONFLICT, LOST, COMMITTED) or (said[1] == FINISHED and said[2:4] == said[4:6])

    def _look_at_floor(self, server: Server, floor: bytes) -> None:
        """Checks that a collector's floor isn't above the start of a session that is active."""
        while self._starts and self._starts[0] not in self._active:
            heappop(self._starts)
        if self._starts and floor > self._starts[0]:
            start = int.from_bytes(self._starts[0], "big")
            raise Wrong(f"{server.name} collects up to {int.from_bytes(floor, 'big')}, and session {start} is active")


def paired(folders: list[Path]) -> tuple[Nodes, list[Server], list[int]]:
    """The nodes of the recordings in some folders, their servers, and the first node of each chain."""
    chains = list(servers_in(folders))
    places = [place for chain in chains for place in chain]
    if len({tablets for place in places for tablets in tablets_in(mapped(place / MESSAGES))}) > 1:
        raise Untold("a tablet was split meanwhile, and nothing orders what was before and behind that")
    unknown = unknown_places(places)
    nodes, servers, begins = Nodes(), list[Server](), list[int]()
    for chain in chains:
        begins.append(len(nodes.server))
        for place in chain:
            servers.append(Server(len(servers), place))
            Pairing(nodes, servers[-1], unknown.get(place)).run()
    return nodes, servers, begins


def merge(folders: list[Path], requests: BinaryIO, replies: BinaryIO) -> Callable[[int], str]:
    """Writes the run that the recordings in some folders are. Returns what tells of a reply of the run, by its number
    from 1 on. Untold, Wrong, OutOfForm; OSError if a file can't be read or written."""
    nodes, servers, begins = paired(folders)
    run = Run(nodes, servers, requests, replies)
    for node in Order(nodes, begins):
        run.take(node)

    def told(reply: int) -> str:
        node = run.written[reply - 1]
        server = servers[nodes.server[node]]
        request = nodes.request[node]
        return f"{server.name}, at its end" if request == NONE else f"{server.name}, the request at byte {request}"

    return told

