"""The drill (docs/PROTOCOL.md, "The drill"): a schedule that a seed makes, line by line, and what came of it."""

from __future__ import annotations

import re
from collections import Counter

from .replay import Run
from .wire import string, take_frame, uint32, uint64

CLIENTS, KEYS, REQUESTS, LIVES = 8, 64, 8, 50
CHILD = CLIENTS + 1
TICKET = bytes(16)
REPLIES = {6: "successes", 5: "failures", 12: "lists", 14: "signatures"}


class Draws:
    """Knuth's linear congruential generator of MMIX, of whose 64 bits the low 33 aren't used."""

    def __init__(self, seed: int) -> None:
        self.x = seed

    def below(self, bound: int) -> int:
        self.x = (self.x * 6364136223846793005 + 1442695040888963407) % 2**64
        return (self.x >> 33) % bound


def key_of(number: int) -> tuple[bytes, bytes]:
    """The public blob of a stand-in key, and its secret as a string."""
    public = string(b"keyed-sha256@example.com") + string(bytes([number]) * 32)
    return public, string(bytes([128 + number]) * 32)


def request(number: int, draws: Draws) -> tuple[int, bytes]:
    """The round of this number: the client that asks, and the body of its request."""
    client, key, kind = 1 + draws.below(CLIENTS), draws.below(KEYS), draws.below(REQUESTS)
    public, secret = key_of(key)
    added = public + secret + string(b"%d" % number)
    if kind in (0, 1):
        return client, b"\x11" + added
    if kind == 2:
        return client, b"\x19" + added + b"\x01" + uint32(1 + draws.below(LIVES))
    if kind == 3:
        return client, b"\x12" + string(public)
    if kind == 4:
        return client, b"\x0b"
    if kind in (5, 6):
        return client, b"\x0d" + string(public) + string(uint64(number)) + uint32(0)
    return client, b"\xc8"


class Drill:
    def __init__(self, seed: int) -> None:
        self.draws = Draws(seed)
        self.run = Run()
        self.lines: list[bytes] = []
        for _ in range(CLIENTS):
            self.line(b"join client")

    def line(self, line: bytes) -> list[str]:
        """Runs one more line, and tells what it printed."""
        printed = len(self.run.printed)
        self.lines.append(line)
        self.run.line(line)
        return self.run.printed[printed:]

    def hear(self, port: int, body: bytes) -> list[str]:
        return self.line(b"hear %d %s" % (port, string(body).hex().encode()))

    def round(self, number: int) -> None:
        client, body = request(number, self.draws)
        put = self.run.agent.last["ask"]
        self.line(b"at %d 0" % number)
        if "start 1 helper" in self.hear(client, body):
            self.line(b"started 1 " + TICKET.hex().encode())
            self.line(b"join child")
            self.hear(CHILD, b"\x01" + uint64(1) + string(TICKET))
        for ask in range(put + 1, self.run.agent.last["ask"] + 1):
            self.hear(CHILD, b"\x65" + uint64(ask) + string(uint64(number)))

    def text(self) -> bytes:
        """The schedule so far."""
        return b"".join(line + b"\n" for line in self.lines)


def replies_in(printed: list[str]) -> Counter[str]:
    """How many replies of each kind the clients took."""
    streams: dict[int, bytearray] = {port: bytearray() for port in range(1, CLIENTS + 1)}
    for line in printed:
        taken = re.fullmatch(r"to (\d+) ([0-9a-f]+)", line)
        if taken and int(taken[1]) in streams:
            streams[int(taken[1])] += bytes.fromhex(taken[2])
    counts: Counter[str] = Counter()
    for stream in streams.values():
        while body := take_frame(stream, 2**32):
            counts[REPLIES[body[0]]] += 1
    return counts


def drill(rounds: int, seed: int) -> tuple[bytes, bytes]:
    """The drill's schedule, and its summary."""
    whole = Drill(seed)
    for number in range(1, rounds + 1):
        whole.round(number)
    return whole.text(), summary(rounds, seed, whole.run)


def summary(rounds: int, seed: int, run: Run) -> bytes:
    counts = replies_in(run.printed)
    told = [f"requests {rounds}", *(f"{name} {counts[name]}" for name in REPLIES.values())]
    told.append(f"held {len(run.agent.identities)}")
    return f"drill {rounds} {seed}: {', '.join(told)}\n".encode()
