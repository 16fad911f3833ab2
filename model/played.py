"""Runs of an agent as its loop makes them: events by calls to the outside, each with its answer.

The events are those of a random schedule. Half of the runs have them in any order in which they
fit; in the other half the loop reads what it wants, and writes what is owed.
"""

from __future__ import annotations

import hashlib
from collections import Counter
from collections.abc import Callable
from random import Random

from .agent import LIMITS, WAITS, Agent, Port
from .generate import Schedule
from .record import Entry
from .replay import Run
from .rows_record import BOUND
from .wire import Fault, string, take_frame

ROOM = 16384  # bytes of a read
Event = tuple  # mono, wall, the name of what happens, and what it happens to
Seen = tuple[tuple, str, tuple, int]


class Watched(Agent):
    """An agent that keeps the events that happened to it."""

    def __init__(self, default_life: int | None) -> None:
        super().__init__(default_life)
        self.events: list[Event] = []

    def event(self, mono: int, wall: int, happens: Callable[..., None], *what: object) -> None:
        self.events.append((mono, wall, happens.__name__, *what))
        super().event(mono, wall, happens, *what)


def losses(agent: Agent) -> int:
    return sum(count for name, count in agent.seen.items() if name.startswith("helper lost: "))


def seen(agent: Agent) -> Seen:
    """What both runs have to have in common; what clients are owed by its digest."""
    owed = hashlib.sha256()
    for number, port in sorted(agent.ports.items()):
        if port.door == "client" and port.owed:
            owed.update(string(b"%d" % number) + string(port.owed))
    ports = tuple((number, port.door) for number, port in sorted(agent.ports.items()))
    return ports, owed.hexdigest(), tuple(sorted(agent.starts.items())), losses(agent)


def fits(agent: Agent, name: str, *what) -> bool:
    if name in ("hear", "take", "end") and what[0] not in agent.ports:
        return False
    if name == "take":
        return 1 <= what[1] <= len(agent.ports[what[0]].owed)
    return name not in ("started", "failed") or what[0] in agent.starts


def is_wanted(port: Port) -> bool:
    """Whether the loop reads from a port: from a client while it has no whole and no bad frame, and while it waits or is
    owed bytes only as long as it has none."""
    if port.door == "child" or not port.heard:
        return True
    try:
        return not port.waits and not port.owed and take_frame(port.heard[:], LIMITS["body of a client"]) is None
    except Fault:
        return False


class Played:
    """A run by the calls of a loop: a step is an event with its calls, and what is seen then."""

    def __init__(self, seed: str) -> None:
        self.random = random = Random(seed)
        text, self.life, _ = Schedule(seed).case()
        limits = [{}, {"ask": random.randrange(1, 90)}, {"ask": 1, "confirmation": 1}]
        limits.append({"ask": random.randrange(1, 9), "confirmation": random.randrange(1, 9)})
        self.waits = random.choice([WAITS] * 4 + limits)
        self.agent = Agent(self.life)
        self.agent.waits = self.waits
        self.steps: list[tuple[list[Entry], Seen]] = [(list(BOUND), seen(self.agent))]
        self.noise: list[Entry] = []
        self.unread: dict[int, bytearray] = {}  # what was sent to the loop, and it hasn't read
        self.reached: Counter[str] = Counter()
        source = Run(self.life)
        source.agent = watched = Watched(self.life)
        source.text(text)
        self.in_order = random.random() < 0.5
        self.cut, self.silent = random.choice([0, 0, 0.2]), random.choice([0, 0.3, 1])
        self.slow = random.random() < 0.2  # child processes take nothing
        for event in watched.events:
            self.serve(*event) if self.in_order else self.pieces(*event)
        kind = "in the loop's order" if self.in_order else "in any order"
        self.reached[f"runs {kind}"] += 1
        self.reached += Counter({name: self.agent.seen[name] for name in self.agent.seen})

    def journal(self) -> list[Entry]:
        return [entry for entries, _ in self.steps for entry in entries]

    def happens(self, mono: int, wall: int, name: str, *what) -> None:
        """An event, where it fits, with its call, its moment, and the closings behind it."""
        agent = self.agent
        if not fits(agent, name, *what):
            self.reached["events that didn't fit"] += 1
            return
        if name == "at" and (late := self.closed_by(mono)) and self.random.random() < 0.6:
            name, *what = self.crossing(self.random.choice(late))
        elif name == "at" and self.random.random() < self.silent:
            return  # the next event brings the moment
        if self.random.random() < 0.1:
            self.no_event()
        now = Entry("now", None, (mono, wall))
        entries = [now, Entry("poll", None)] if name == "at" else [self.call(name, *what), now]
        agent.event(mono, wall, getattr(agent, name), *what)
        entries += [Entry("close", port) for port in agent.closes]
        self.steps.append((self.noise + entries, seen(agent)))
        self.noise = []
        self.reached[f"event {name}"] += 1

    def closed_by(self, mono: int) -> list[int]:
        """The ports that a moment closes."""
        agent, second = self.agent, max(self.agent.mono, mono)

        def is_over(what: str, began: int) -> bool:
            return what in agent.waits and second - began >= agent.waits[what]

        confirmations = agent.confirmations.values()
        late = [each.port for each in confirmations if is_over("confirmation", each.began)]
        if any(is_over("ask", ask.began) for ask in agent.asks.values()):
            late.append(agent.helper_port)
        return [port for port in late if port in agent.ports]

    def crossing(self, port: int) -> Event:
        """An event of a port that its own moment closes."""
        owed = len(self.agent.ports[port].owed)
        events: list[Event] = [("hear", port, b"\0"), ("end", port)]
        events += [("take", port, self.random.randrange(1, owed + 1))] if owed else []
        return self.random.choice(events)

    def call(self, name: str, *what) -> Entry:
        if name == "join":
            return Entry("accept", what[0], self.agent.last["port"] + 1)
        if name == "end":
            how = [("read", "End"), ("read", "End"), ("read", "Failed"), ("write", "Failed")]
            call, answer = self.random.choice(how)
            return Entry(call, what[0], answer)
        if name == "failed":
            return Entry("start", what[0], "Failed")
        call = {"hear": "read", "take": "write", "started": "start"}[name]
        return Entry(call, what[0], what[1])

    def no_event(self) -> None:
        """A call that brings no event."""
        ports = list(self.agent.ports) or [1]
        door, port = self.random.choice(["client", "child"]), self.random.choice(ports)
        entries = [Entry("accept", door, "NotNow"), Entry("accept", door, "Failed")]
        entries += [Entry("read", port, "NotNow"), Entry("write", port, "NotNow")]
        self.noise.append(self.random.choice([*entries, Entry("poll", None)]))

    def pieces(self, mono: int, wall: int, name: str, *what) -> None:
        """An event as it comes; what is heard in pieces that a read has room for."""
        if name != "hear":
            return self.happens(mono, wall, name, *what)
        port, text = what
        while text:
            size = min(len(text), ROOM)
            if self.random.random() < self.cut:
                size = self.random.randrange(1, size + 1)
            self.happens(mono, wall, "hear", port, text[:size])
            text = text[size:]

    def serve(self, mono: int, wall: int, name: str, *what) -> None:
        """The outside does this, and the loop serves what is ready: it reads what is wanted, and it
        writes all that is owed, of which a port may take less."""
        if name == "hear":
            self.unread.setdefault(what[0], bytearray()).extend(what[1])
        elif name != "take":
            self.happens(mono, wall, name, *what)
        agent = self.agent
        while ready := self.ready():
            port, call = self.random.choice(ready)
            if call == "write":
                owed = len(agent.ports[port].owed)
                count = owed if self.random.random() < 0.8 else self.random.randrange(1, owed + 1)
                self.happens(mono, wall, "take", port, count)
            else:
                size = min(len(self.unread[port]), ROOM)
                if self.random.random() < self.cut:
                    size = self.random.randrange(1, size + 1)
                piece = bytes(self.unread[port][:size])
                del self.unread[port][:size]
                self.happens(mono, wall, "hear", port, piece)
            if self.random.random() < 0.03:
                return

    def ready(self) -> list[tuple[int, str]]:
        ports = self.agent.ports
        heard = [number for number, text in self.unread.items() if text and number in ports]
        reads = [(number, "read") for number in heard if is_wanted(ports[number])]
        writes = [(number, "write") for number, port in ports.items() if port.owed]
        return reads + [each for each in writes if not self.slow or ports[each[0]].door == "client"]
