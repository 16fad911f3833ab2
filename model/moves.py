"""What clients do in random schedules, and lines that are refused."""

from __future__ import annotations

from .replay import LONGEST_LINE
from .wire import string, uint32
from .writer import Writer

BAD_LENGTHS = [b"\0\0\0\0", uint32(262145), b"\xff\xff\xff\xff", b"\x01\0\0\0"]


class Moves(Writer):
    def joins(self) -> None:
        self.join("client")

    def requests(self) -> None:
        port = self.client()
        for _ in range(self.random.choice([1, 1, 1, 2, 3])):
            if port in self.agent.ports:
                self.send(port, self.body(port))

    def in_one_piece(self) -> None:
        port = self.client()
        self.send(port, *[self.body(port) for _ in range(self.random.randrange(2, 5))])

    def goes_on(self) -> None:
        for port in list(self.unsent):
            rest = self.unsent.pop(port)
            if port in self.agent.ports and self.chance(0.9):
                self.hear(port, rest + self.random.choice([b"", b"", string(b"\x0b")]))

    def bad_length(self) -> None:
        port = self.client()
        before = self.random.choice([b"", b"", string(b"\x0b")])
        self.hear(port, before + self.random.choice(BAD_LENGTHS))

    def ends(self) -> None:
        if self.agent.ports:
            port = self.pick(self.agent.ports)
            self.say(f"end {port}")
            if self.chance(0.02):
                self.say(f"hear {port} 00")

    def clock(self) -> None:
        if self.agent.waits and self.chance(0.6):
            return self.deadline()
        mono, wall = self.run.moment
        steps = [0, 0, 1, 1, 2, 3, 5, 10, 100]
        mono = max(0, mono + self.random.choice([-5, -1, *steps]))
        wall = self.random.choice([0, 99, 100, 150, 199, 200, wall, 2**64 - 1])
        if self.chance(0.02):
            mono = 2**64 - self.random.randrange(1, 12)
        self.say(f"at {min(mono, 2**64 - 1)} {wall}")

    def deadline(self) -> None:
        """A moment at the limit of something that waits, or one second beside it."""
        if not self.agent.waits:
            return
        ends = [ask.began + self.agent.waits["ask"] for ask in self.agent.asks.values()]
        for confirmation in self.agent.confirmations.values():
            ends.append(confirmation.began + self.agent.waits["confirmation"])
        if self.chance(0.2):
            # What was answered meanwhile has no end any more.
            second = self.pick(self.seconds)
            ends += [second + limit for limit in self.agent.waits.values()] * 9
        later = [end for end in ends if end - 1 > self.agent.mono]
        if not later:
            return
        end = self.random.choice([min(later), min(later), max(later), self.pick(later)])
        end += self.random.choice([-1, -1, 0, 0, 0, 1, 1, 30])
        opened = set(self.agent.ports)
        self.say(f"at {min(end, 2**64 - 1)} {self.run.moment[1]}")
        self.comes_late(opened - set(self.agent.ports))

    def comes_late(self, closed: set[int]) -> None:
        """Lines for a port that the moment of the line before closed, or its settling."""
        late, settled = self.run.late, closed - self.run.late
        late = settled if settled and (not late or self.chance(0.3)) else late
        for port in self.random.sample(sorted(late), min(len(late), 1)):
            lines = [f"hear {port} 00", f"hear {port} 000000010b", f"end {port}", f"take {port} 1"]
            if self.chance(0.15):
                self.say(self.pick([f"hold {port}", f"free {port}", "# a comment"]))
            if self.chance(0.7):
                self.say(self.pick(lines))
            if self.chance(0.1):
                self.say(self.pick(lines))

    def holds(self) -> None:
        if self.agent.ports:
            word = self.random.choice(["hold", "hold", "free"])
            self.say(f"{word} {self.pick(self.agent.ports)}")

    def takes(self) -> None:
        """A held port takes some bytes, or is freed; a free one is held."""
        owed = {number: len(port.owed) for number, port in self.agent.ports.items() if port.owed}
        if not owed:
            if self.agent.ports:
                port = self.pick(self.agent.ports)
                self.say(f"hold {port}")
                if self.agent.ports[port].door == "client" and port not in self.unsent:
                    self.send(port, *[self.body(port) for _ in range(3)])
            return
        port = self.pick(owed)
        if self.chance(0.2):
            return self.say(f"free {port}")
        count = self.random.choice([1, 4, 5, owed[port], self.random.randrange(1, owed[port] + 1)])
        if count <= owed[port] or self.chance(0.05):
            self.say(f"take {port} {count}")

    def comments(self) -> None:
        lines = ["", "# a comment", "#"]
        self.say(self.random.choice(lines) if self.chance(0.98) else "schedule 2")

    def mistakes(self) -> None:
        """A line that is refused."""
        ports = list(self.agent.ports) or [1]
        port, gone = self.pick(ports), self.random.choice([0, 1, self.agent.last["port"] + 1])
        while gone in self.agent.ports:
            gone += 1
        lines = [
            f"end {gone}",
            f"hear {gone} 00",
            f"hold {gone}",
            f"free {gone}",
            f"take {gone} 1",
            f"take {port} 999999",
            f"take {port} 0",
            f"take {port} 18446744073709551616",
            f"hear {port} 0",
            f"hear {port} ",
            f"hear {port} 0x00",
            f"hear {gone} 0g",
            f"hear {port}  00",
            f"hear 0{port} 00",
            f"end {port} ",
            f"end {port}\r",
            f"end -{port}",
            "at 1",
            "at 1 18446744073709551616",
            "at 01 1",
            "at 1 1 1",
            "at  1",
            "at a b",
            f"take {port} +1",
            "join",
            "join client ",
            "join Client",
            "join child",
            " ",
            "x",
            "joinclient",
            "schedule 2",
            "schedule",
            "#\n ",
            "\t",
            "hold",
            "started 9 " + "00" * 16,
            "started 9 00",
            "failed 9",
            "failed",
            "started 1 " + "0" * 31,
            "started x " + "00" * 16,
            "failed 1 1",
            "failed 01",
            b"hear \xff 00",
            b"hear %d \xd9\xa0" % port,
            "#" * (LONGEST_LINE + 1),
            f"hear {port} " + "0" * LONGEST_LINE,
            "x" * LONGEST_LINE,
            "end " + "1" * 5000,
        ]
        for line in [self.pick(lines)] if self.chance(0.5) else []:
            pieces = line.split("\n") if isinstance(line, str) else [line]
            for piece in pieces:
                self.say(piece)
