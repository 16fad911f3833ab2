"""The run of a schedule (docs/PROTOCOL.md, "Schedules" and "Output")."""

import re

from .agent import WAITS, Agent
from .wire import Fault, demand

LONGEST_LINE, LONGEST_SCHEDULE = 65536, 2**60

# The fields behind a line's first word.
LINES = {b"at": ("number", "number"), b"hear": ("number", "hex"), b"end": ("number",)}
LINES |= {b"hold": ("number",), b"free": ("number",), b"take": ("number", "count")}
LINES |= {b"started": ("number", "ticket"), b"failed": ("number",)}


def value(kind: str, text: bytes) -> int | bytes:
    if kind in ("hex", "ticket"):
        demand(re.fullmatch(rb"(?:[0-9a-fA-F]{2})+", text) is not None, "hex")
        demand(kind == "hex" or len(text) == 32, "hex")
        return bytes.fromhex(text.decode())
    demand(re.fullmatch(rb"0|[1-9][0-9]{0,19}", text) is not None, "number")
    number = int(text)
    demand(number < 2**64 and (kind == "number" or number >= 1), "number")
    return number


class Run:
    def __init__(self, default_life: int | None = None, confirm_limit: int | None = None) -> None:
        self.agent = Agent(default_life)
        self.chosen = {} if confirm_limit is None else {"confirmation": confirm_limit}
        self.moment = (0, 0)
        self.held: set[int] = set()
        self.late: set[int] = set()  # closed by the moment of the line before, where it is `at`
        self.known_starts: set[int] = set()
        self.lines = self.size = self.status = 0
        self.printed: list[str] = []

    def fields(self, line: bytes) -> tuple[bytes, list]:
        word, *texts = line.split(b" ")
        if line in (b"join client", b"join child"):
            return word, [texts[0].decode()]
        kinds = LINES.get(word)
        demand(kinds is not None and len(texts) == len(kinds), "word")
        return word, [value(kind, text) for kind, text in zip(kinds, texts)]

    def line(self, line: bytes, ended: bool = True) -> None:
        """Runs a line; behind a refused one none is run."""
        if self.status:
            return
        self.lines += 1
        self.size += len(line) + ended
        try:
            self.run(line)
        except Fault as fault:
            self.printed.append(f"refused {self.lines} {fault}")
            self.status = 1

    def text(self, text: bytes) -> None:
        *lines, rest = text.split(b"\n")
        for line in lines:
            self.line(line)
        if rest:
            self.line(rest, ended=False)

    def output(self) -> bytes:
        printed = self.printed if self.status else [*self.printed, "end"]
        return "".join(line + "\n" for line in printed).encode()

    def run(self, line: bytes) -> None:
        """Runs a line, and settles."""
        demand(len(line) <= LONGEST_LINE and self.size <= LONGEST_SCHEDULE, "long")
        agent, late, self.late = self.agent, self.late, set()
        if line == b"schedule 2" and self.lines == 1:
            agent.waits = WAITS | self.chosen
            return self.settle([])
        if line == b"" or line.startswith(b"#"):
            return self.settle([])
        word, given = self.fields(line)
        if word in (b"hear", b"end", b"take") and given[0] in late:
            agent.seen[f"behind its own closing: {word.decode()}"] += 1
            return self.settle([])
        if word in (b"hear", b"end", b"hold", b"free", b"take"):
            demand(given[0] in agent.ports, "port")
        elif word in (b"started", b"failed"):
            demand(given[0] in agent.starts, "order")
        if word in (b"hold", b"free"):
            self.held -= {given[0]}
            self.held |= {given[0]} if word == b"hold" else set()
            return self.settle([])
        if word == b"take":
            demand(given[1] <= len(agent.ports[given[0]].owed), "order")
            self.take(*given)
        else:
            if word == b"at":
                self.moment, given = (given[0], given[1]), []
            agent.event(*self.moment, getattr(agent, word.decode()), *given)
            self.late = set(agent.closes) if word == b"at" else set()
        self.settle(agent.closes)

    def take(self, port: int, count: int) -> None:
        self.printed.append(f"to {port} {self.agent.ports[port].owed[:count].hex()}")
        self.agent.event(*self.moment, self.agent.take, port, count)

    def settle(self, closes: list[int]) -> None:
        """Ports that aren't held take all that they are owed, the least one first."""
        agent = self.agent
        while True:
            new = sorted(set(agent.starts) - self.known_starts)
            self.known_starts |= set(new)
            self.printed += [f"start {job} {agent.starts[job]}" for job in new]
            self.printed += [f"close {port}" for port in closes]
            ready = [n for n, port in agent.ports.items() if port.owed and n not in self.held]
            if not ready:
                return
            least = min(ready)
            self.take(least, len(agent.ports[least].owed))
            closes = agent.closes


def replay(
    text: bytes, default_life: int | None = None, confirm_limit: int | None = None
) -> tuple[bytes, int]:
    """What a schedule prints, and the status."""
    run = Run(default_life, confirm_limit)
    run.text(text)
    return run.output(), run.status
