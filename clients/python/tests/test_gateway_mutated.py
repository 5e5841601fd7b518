"""Frames that are mutated at random, sent by several clients of a gateway, beside an honest one."""

from __future__ import annotations

import os
import random
import socket
import unittest
from contextlib import suppress

from duqishom.fields import counted, number
from tests.gateways import (
    BEGIN,
    CHECKPOINT,
    CLIENTS,
    COLLECT_BEGIN,
    COLUMN,
    NEW,
    STATISTICS,
    SWEEP,
    Gateway,
    clean_begin,
    clean_step,
    collect_step,
    commit,
    frame,
    get,
    raw,
    read,
    scan,
    set_,
    step,
    stop,
)

# How many frames are mutated, for how many stores, by how many clients of each, and how many one sends at once.
FRAMES = int(os.environ.get("GATEWAY_FRAMES", "20000"))
OF_STORE, MUTANTS, AHEAD = 4000, 8, 25
EXTREMES = [number(4, each) for each in (0, 1, 257, (1 << 20) - 1, (1 << 31), (1 << 32) - 1)]


def well_formed(dice: random.Random, name: bytes) -> bytes:
    """The body of any request, with this name where it has one. Most are of sessions, cleaners and collectors."""
    row, few, kind = b"row %d" % dice.randrange(20), dice.randrange(5), dice.randrange(24)
    cell, tablet = counted(row) + counted(COLUMN), number(4, few)
    if kind < 4:
        return dice.choice((BEGIN, BEGIN, COLLECT_BEGIN, clean_begin(row)))[4:]
    if kind < 10:
        return dice.choice((get(name, row), set_(name, row, bytes(few)), scan(name, cells=few), frame(b"\x13" + name + cell)))[4:]
    if kind < 16:
        return dice.choice((step(name), step(name), stop(name), clean_step(name), collect_step(name, few)))[4:]
    if kind < 20:
        start = dice.choice((name, NEW))
        return dice.choice((commit(start, *few * [(row, b"v")]), read(start, *few * [row], stays=bytes((few % 2,)))))[4:]
    if kind < 23:
        watch = frame(b"\x74" + counted(row) + b"\0")
        return dice.choice((STATISTICS, CLIENTS, raw(row, 1), frame(b""), frame(b"\x73" + name), watch))[4:]
    of_tablet = bytes((dice.randrange(0x0A, 0x0F),)) + tablet + dice.choice((b"", number(4, 2), counted(row)))
    return dice.choice((of_tablet, of_tablet, SWEEP[4:], CHECKPOINT[4:], b"\x10", b"\x71path"))


def mutated(dice: random.Random, body: bytes, other: bytes) -> bytes:
    """A body after some changes, or after none. Of the other one it may get the end."""
    for _ in range(dice.randrange(3)):
        at = dice.randrange(len(body) + 1)
        size = dice.randrange(9)
        changes = (
            body[:at] + dice.randbytes(1) + body[at + 1 :],
            body[:at] + body[at + size :],
            body[:at] + dice.randbytes(size) + body[at:],
            body[:at] + dice.choice(EXTREMES) + body[at + 4 :],
            body[:at] + other[at:],
        )
        body = dice.choice(changes)
    return body


class Mutant:
    """A client that sends mutated frames."""

    def __init__(self, gateway: Gateway, dice: random.Random) -> None:
        self.gateway, self.dice = gateway, dice
        self.wire = gateway.wire()
        self.names = [NEW]
        self.sent = list[bytes]()

    def send(self, names: list[bytes]) -> None:
        """Sends some. They have names of its own, and some of these ones, which are others'."""
        dice = self.dice
        for _ in range(AHEAD):
            name = dice.choice(names if dice.random() < 0.1 else self.names)
            self.sent.append(mutated(dice, well_formed(dice, name), well_formed(dice, name)))
        self.wire.send(b"".join(map(frame, self.sent)))

    def wrong(self) -> list[tuple[bytes, bytes]]:
        """Takes the replies. Returns those that no such request may have, with their requests."""
        taken = [(body, self.reply()) for body in self.sent]
        self.sent = []
        opened = [reply for body, reply in taken if reply[:1] in (b"\x81", b"\x88") or reply[:2] == b"\x86\x01"]
        self.names = (self.names + [(reply[2:] if reply[0] == 0x86 else reply[1:])[:8] for reply in opened])[-8:]
        return [(body, reply) for body, reply in taken if not fits(body, reply)]

    def reply(self) -> bytes:
        """The next reply, without the messages of watches."""
        while (reply := self.wire.reply())[:2] in (b"\xf4\x01", b"\xf4\x02"):
            pass
        return reply

    def end(self) -> None:
        """Ends the connection by frames of wrong lengths, and makes a new one."""
        dice = self.dice
        bodies = [mutated(dice, well_formed(dice, NEW), b"") for _ in range(AHEAD)]
        lengths = [max(len(body) + dice.randrange(-3, 4), 0) for body in bodies]
        with suppress(EOFError, ConnectionError):
            self.wire.send(b"".join(number(4, length) + body for length, body in zip(lengths, bodies, strict=True)))
            self.wire.socket.shutdown(socket.SHUT_WR)
            while True:
                self.wire.reply()
        self.wire.close()
        self.wire = self.gateway.wire()


def fits(body: bytes, reply: bytes) -> bool:
    """Whether a reply is a refusal, or is one to a request with this operation."""
    is_refusal = len(reply) == 2 and reply[0] == 0xFF and 1 <= reply[1] <= 23
    return is_refusal or (body[0] < 0x80 and reply[0] == body[0] | 0x80)


class Mutated(unittest.TestCase):
    """What such frames do to a gateway and its other clients."""

    def test_beside_an_honest_client(self) -> None:
        for seed in range(-(-FRAMES // OF_STORE)):
            with self.subTest(seed=seed):
                self.send(Gateway(self), random.Random(seed))

    def send(self, gateway: Gateway, dice: random.Random) -> None:
        """Sends the frames of a store."""
        honest = gateway.wire()
        mutants = [Mutant(gateway, dice) for _ in range(MUTANTS)]
        for turn in range(OF_STORE // (MUTANTS * AHEAD)):
            names = [name for mutant in mutants for name in mutant.names]
            for mutant in mutants:
                mutant.send(names)
            row, value = b"the honest one's row %d" % (turn % 10), b"%d" % turn
            honest.send(commit(NEW, (row, value)) + read(NEW, row))
            done, found = honest.reply(), honest.reply()
            self.assertEqual((done[:2], found[:1], found[9:]), (b"\xb2\1", b"\xb3", b"\0\0\0\1\1" + counted(value)))
            self.assertEqual([mutant.wrong() for mutant in mutants], MUTANTS * [[]])
            if turn % 5 == 0:
                dice.choice(mutants).end()
        self.assertEqual(gateway.statistics()["clients"]["now"], MUTANTS + 2)
        for wire in (honest, *(mutant.wire for mutant in mutants)):
            wire.close()
        self.assertEqual(gateway.stop(), 0)
        gateway.end()


if __name__ == "__main__":
    unittest.main()
