"""Logins over three hosts that OpenSSH's programs made, as rows: from `ssh-add -h` to the signature.

What was recorded stands in the table of crates/part_table: hosts, sessions, what `ssh` gave to sign and
what `ssh-add -h` sent, and beside it what OpenSSH's agent listed and signed. The private key and the
signatures weren't recorded; no agent looks at them.
"""

from __future__ import annotations

import re
from base64 import b64decode
from dataclasses import dataclass
from pathlib import Path

from .rows import LIST, NO, NOTHING, OK, hear, listing, row, st, to, u32, u64
from .rows_children import chain, hello, sign, signed
from .rows_runs import EVERY_ROW as EARLIER

RECORDED = Path(__file__).parents[1] / "crates/part_table"
# The headings of the table under which each way stands.
WAYS = {
    "# hosts with certificates are answered as by OpenSSH": "certificates",
    "# hosts with plain keys are answered as by OpenSSH": "plain_keys",
}
COMMENT = b"user@host"
# A second of 2026, at which the certificates of the hosts are good.
WALL = 1795000000


@dataclass
class Rules:
    words: str
    constraints: bytes
    listed: list[bool]
    signed: list[bool]
    listed_beyond: list[bool]


@dataclass
class Way:
    name: str
    blob: bytes
    hops: list[tuple[bytes, bytes, bytes]]  # host key, session, message
    rules: list[Rules]


ANSWER = re.compile(r"listed: (true|false) signed: (Ok|Err)\(.*\) listed beyond: (true|false)")


def bytes_of(word: str) -> bytes:
    return b64decode(word.removeprefix("base64:"), validate=True)


def read_way(name: str, lines: list[tuple[str, str]]) -> Way:
    """The way of these questions and answers."""
    way = Way(name, b"", [], [])
    heading = ""
    for question, answer in lines:
        match question.split(" "):
            case ["#", *words]:
                heading = " ".join(words)
            case ["way", "key", blob]:
                way.blob = bytes_of(blob)
            case ["way", "host", *texts]:
                key, session, message = map(bytes_of, texts)
                way.hops.append((key, session, message))
            case ["way", "rules", constraints]:
                way.rules.append(Rules(heading, bytes_of(constraints), [], [], []))
            case ["way", "login", *_]:
                found = ANSWER.fullmatch(answer)
                assert found, f"{name}: {answer}"
                way.rules[-1].listed.append(found[1] == "true")
                way.rules[-1].signed.append(found[2] == "Ok")
                way.rules[-1].listed_beyond.append(found[3] == "true")
    return way


def read_ways() -> list[Way]:
    """The ways of the table, in the order of their names."""
    questions, answers = ((RECORDED / name).read_text().splitlines() for name in ("stdin", "stdout"))
    lines = list(zip(questions, answers, strict=True))
    ways = []
    for heading, name in sorted(WAYS.items(), key=lambda item: item[1]):
        first = questions.index(heading)
        ways.append(read_way(name, lines[first : questions.index("", first)]))
    return ways


class Login:
    """The lines of a row, and what they print."""

    def __init__(self, way: Way, rules: Rules) -> None:
        self.way, self.rules = way, rules
        public = way.blob[-32:]
        self.private = st(b"ssh-ed25519") + st(public) + st(b"\x07" * 32 + public)
        add = b"\x19" + self.private + st(COMMENT) + rules.constraints
        self.lines = [f"at 0 {WALL}", "join client", *hear(1, add)]
        self.printed = [to(1, OK)]
        self.asks, self.ports = 0, 1

    def join(self, places: int, is_over: bool) -> int:
        """A client's connection is bound to so many hosts; at the last one the way ends, or not."""
        port = 2 if self.asks == 0 else self.ports + 1
        hops = [
            (key, session, int(place < places or is_over))
            for place, (key, session, _) in enumerate(self.way.hops[:places], 1)
        ]
        lines, printed = chain(port, 3, self.asks + 1, *hops)
        if self.asks == 0:  # the first binding starts the helper, at port 3
            lines[1:1] = ["started 1 " + "00" * 16, "join child", *hear(3, hello(1))]
            printed[:0] = ["start 1 helper"]
        self.lines += ["join client", *lines]
        self.printed += printed
        self.asks += places
        self.ports = max(3, port)
        return port

    def list(self, port: int, is_listed: bool) -> None:
        self.lines += hear(port, LIST)
        self.printed.append(to(port, listing((self.way.blob, COMMENT)) if is_listed else NOTHING))

    def sign(self, port: int, message: bytes, is_signed: bool) -> None:
        self.lines += hear(port, sign(self.way.blob, message))
        if not is_signed:
            self.printed.append(to(port, NO))
            return
        self.asks += 1
        frame = b"\x01" + u64(self.asks) + st(self.private) + st(self.way.blob)
        self.lines += hear(3, signed(self.asks, b"s"))
        self.printed += [to(3, frame + st(message) + u32(0)), to(port, b"\x0e" + st(b"s"))]

    def leave(self, port: int) -> None:
        self.lines.append(f"end {port}")
        self.printed.append(f"close {port}")

    def hosts(self) -> None:
        """To log in to each host, and to have the agent forwarded to each."""
        for place, (_, _, message) in enumerate(self.way.hops):
            port = self.join(place + 1, is_over=False)
            self.list(port, self.rules.listed[place])
            self.sign(port, message, self.rules.signed[place])
            self.leave(port)
            port = self.join(place + 1, is_over=True)
            self.list(port, self.rules.listed_beyond[place])
            self.leave(port)


for way in read_ways():
    for rules in way.rules:
        login = Login(way, rules)
        login.hosts()
        row(f"{way.name}: {rules.words}", login.lines, login.printed)

EVERY_ROW = EARLIER  # with those of the files that this one stands on
