"""Writes lines that fit what happened before, by the model's state, and requests of every kind."""

from __future__ import annotations

from collections import Counter
from collections.abc import Iterable
from random import Random

from . import pool
from .agent import Port
from .replay import Run
from .wire import string, uint32

SESSIONS = [bytes([n]) * size for n, size in enumerate((32, 32, 20, 1, 128, 64), 65)]
PASSPHRASES = [b"a", b"ab", b"passphrase"]


class Over(Exception):
    """A line was refused, so the schedule ends."""


def limit_by(seed: str) -> int | None:
    """The limit of questions, where a schedule of this seed is run with one."""
    return Random(f"limit of {seed}").choice([None] * 4 + [1, 5, 60, 2**32 - 1])


class Writer:
    def __init__(self, seed: str) -> None:
        self.random = random = Random(seed)
        self.life = random.choice([None] * 8 + [0, 1, 3, 2**32 - 1])
        self.limit = limit_by(seed)
        self.run = Run(self.life, self.limit)
        self.agent = self.run.agent
        self.lines: list[bytes] = []
        self.unsent: dict[int, bytes] = {}  # the rest of a frame that was cut
        self.keys = random.sample(pool.KEYS, 3) + pool.KEYS[:2]
        self.reached: Counter[str] = Counter({f"default lifetime {self.life}": 1})
        self.reached[f"confirm limit {self.limit}"] += 1
        self.tickets: dict[int, bytes] = {}  # of each start, also where the agent forgot it
        self.format = random.choice([1, 1, 2])
        self.seconds = [0]  # that there were

    def seen(self) -> Counter[str]:
        return self.run.agent.seen + self.reached

    # Small words

    def chance(self, part: float) -> bool:
        return self.random.random() < part

    def pick(self, choices: Iterable) -> object:
        return self.random.choice(list(choices))

    def one_of(self, moves: dict[str, int]) -> None:
        """Makes a move, of which each has its weight."""
        name = self.random.choices(list(moves), list(moves.values()))[0]
        getattr(self, name)()

    def say(self, line: str | bytes) -> None:
        line = line.encode() if isinstance(line, str) else line
        before = self.agent.mono
        self.lines.append(line)
        self.run.line(line)
        if self.run.status:
            raise Over
        word = "comment" if line.startswith(b"#") else line.split(b" ")[0].decode() or "empty"
        if word == "at":
            moved = self.run.moment[0] - before
            self.seconds.append(self.agent.mono)
            word += " later" if moved > 0 else " again" if moved == 0 else " earlier"
        self.reached[f"line {word}"] += 1

    def ports(self, door: str) -> list[int]:
        return [number for number, port in self.agent.ports.items() if port.door == door]

    def client(self, fresh: float = 0.1) -> int:
        """An open client, a new one so often, and else one that waits for nothing."""
        idle = [
            n
            for n in self.ports("client")
            if not self.agent.ports[n].waits and n not in self.unsent
        ]
        if not idle or self.chance(fresh):
            self.join("client")
            if self.agent.last["port"] in self.agent.ports:
                return self.agent.last["port"]
        return self.random.choice(idle or self.ports("client"))

    def join(self, door: str) -> None:
        self.say(f"join {door}")

    def hear(self, port: int, text: bytes) -> None:
        """These bytes come from a port, in as many lines as they need."""
        for at in range(0, len(text), 32000):
            if port in self.agent.ports:
                piece = text[at : at + 32000].hex()
                self.say(f"hear {port} {piece.upper() if self.chance(0.1) else piece}")

    def send(self, port: int, *bodies: bytes, cut: float = 0.15) -> None:
        """Messages come from a port, whole or in pieces, of which the last may be missing."""
        text = self.unsent.pop(port, b"") + b"".join(map(string, bodies))
        if not self.chance(cut) or len(text) < 2:
            return self.hear(port, text)
        at = self.random.choice([1, 3, 4, 5, len(text) - 1, self.random.randrange(1, len(text))])
        at = min(at, len(text) - 1)
        self.reached["frame in pieces"] += 1
        self.hear(port, text[:at])
        if self.chance(0.6):
            self.hear(port, text[at:])
        else:
            self.unsent[port] = text[at:]

    # Requests

    def body(self, port: int) -> bytes:
        """A request, and sometimes what is none."""
        random = self.random
        key = self.pick(self.keys)
        kinds: dict[str, float] = {
            "list": 4,
            "add": 4,
            "terms": 4,
            "remove": 2.5,
            "remove all": 0.7,
            "lock": 0.5,
            "unlock": 0.7,
            "sign": 3,
            "bind": 0.8,
            "extension": 0.4,
            "other": 0.5,
            "faulty": 1.2,
            "garbled": 1.5,
            "login": 2,
        }
        if self.agent.passphrase is not None:
            kinds |= {"unlock": 6}
        kind = random.choices(list(kinds), list(kinds.values()))[0]
        comment = random.choice([b"", b"c", b"two words", b"\x00\xff\n", random.randbytes(9)])
        flags = uint32(random.choice([0, 0, 2, 4, 2**32 - 1]))
        if kind == "list":
            return b"\x0b"
        if kind == "add":
            return b"\x11" + key.added + string(comment)
        if kind == "terms":
            return b"\x19" + key.added + string(comment) + pool.terms(random)
        if kind == "remove":
            return b"\x12" + string(key.blob)
        if kind == "remove all":
            return b"\x13"
        if kind == "lock":
            return b"\x16" + string(random.choice([*PASSPHRASES, b""]))
        if kind == "unlock":
            held = self.agent.passphrase
            words = PASSPHRASES + [b""] if held is None or self.chance(0.4) else [held]
            return b"\x17" + string(random.choice(words))
        if kind == "sign":
            held = [each for each in self.keys if each.blob in self.agent.identities]
            key = random.choice(held) if held and self.chance(0.8) else key
            message = random.choice([b"", b"abc", random.randbytes(40), pool.file_data(random)])
            return b"\x0d" + string(key.blob) + string(message) + flags
        if kind == "login":
            return b"\x0d" + string(key.blob) + string(self.login(port, key)) + flags
        if kind == "bind":
            return self.binding(self.agent.ports[port])
        if kind == "extension":
            name = random.choice([b"query", b"", b"session-bind@openssh.con", b"x@example.com"])
            return b"\x1b" + string(name) + random.choice([b"", b"\x00", b"\x00\x00\x00\x09"])
        if kind == "other":
            return bytes([random.randrange(256)]) + random.randbytes(random.randrange(3))
        if kind == "faulty":
            text = pool.faulty_addition(random)
            return random.choice([b"\x11", b"\x19"]) + text
        return pool.garbled(random, self.body(port))

    def login(self, port: int, key: pool.Key) -> bytes:
        """A login on the newest binding, or with one thing wrong."""
        chain, random = self.agent.ports[port].chain, self.random
        session, host_key = random.choice(SESSIONS), random.choice(pool.HOSTS).key
        user = random.choice(pool.USERS)
        if chain and self.chance(0.85):
            session, host_key = chain[-1].session, chain[-1].host_key
        if len(chain) > 1 and self.chance(0.25):
            session = chain[-2].session
        if self.chance(0.3):
            return pool.login(random, key, session, user, None)
        if self.chance(0.25):
            return pool.faulty_login(random, key, session, host_key)
        if self.chance(0.15):
            host_key = random.choice(pool.HOSTS).key
        return pool.login(random, key, session, user, host_key)

    def binding(self, client: Port) -> bytes:
        random = self.random
        known = [each.session for each in client.chain]
        lengths = [b"", b"s" * 128, b"s" * 129] if self.chance(0.2) else SESSIONS
        session = random.choice(known if known and self.chance(0.3) else lengths)
        host_key = random.choice(pool.HOSTS).key
        same = [each.host_key for each in client.chain if each.session == session]
        if same and self.chance(0.7):
            host_key = same[0]
        if self.chance(0.05):
            host_key = host_key[:-1]
        return pool.bind(host_key, session, random.choice([0, 1, 1, 1, 2]))
