"""What children do in random schedules, and what clients do that need them."""

from __future__ import annotations

from . import pool
from .moves import BAD_LENGTHS, Moves
from .wire import string, uint32, uint64


class ChildMoves(Moves):
    def tend(self, well: float = 0.9) -> None:
        """Starts what is to be started, and lets children say hello and answer, mostly well."""
        random, agent = self.random, self.agent
        for job in list(agent.starts):
            if self.chance(0.9):
                if self.chance((1 + well) / 2):
                    self.starts(job)
                else:
                    self.say(f"failed {job}")
        for job, ticket in list(agent.tickets.items()):
            if self.chance(0.9) and job in agent.tickets:
                self.join("child")
                port, hello = agent.last["port"], b"\x01" + uint64(job) + string(ticket)
                if port not in agent.ports:
                    continue
                if not self.chance((3 + well) / 4):
                    self.hear(port, random.choice(BAD_LENGTHS))
                    continue
                if not self.chance((1 + well) / 2):
                    wrong = [string(bytes(16)), string(ticket[1:]), string(ticket) + b"x"]
                    wrong = [b"\x01" + uint64(job) + each for each in wrong]
                    wrong += [b"\x01" + uint64(job + 1) + string(ticket), b"i" + uint64(job)]
                    hello = random.choice([*wrong, hello[:-1], b"\x02" + hello[1:]])
                self.send(port, hello, *([self.child_body()] if self.chance(0.1) else []), cut=0.1)
        port = agent.helper_port
        if port is not None and self.chance(0.9):
            count = min(len(agent.asks), random.choice([1, 1, 2, 300]))
            asks = random.sample(list(agent.asks), count)
            bodies = [self.answer(ask) if self.chance(well) else self.child_body() for ask in asks]
            self.send(port, *bodies, cut=0.1)
        for job, confirmation in list(agent.confirmations.items()):
            port = confirmation.port
            if port in agent.ports and self.chance(0.7):
                named = job if self.chance(0.97) else job + random.choice([1, -1])
                body = bytes([random.choice([105, 105, 105, 106])]) + uint64(named)
                if self.chance((9 + well) / 10):
                    self.send(port, body if self.chance(well) else self.child_body(), cut=0.1)
                elif self.chance(0.5):
                    self.hear(port, random.choice(BAD_LENGTHS))
                else:
                    self.say(f"end {port}")

    def starts(self, job: int) -> None:
        self.tickets[job] = self.random.randbytes(16)
        self.say(f"started {job} {self.tickets[job].hex()}")

    def answer(self, ask: int) -> bytes:
        number, yes = uint64(ask), self.chance(0.85)
        if self.agent.asks[ask].binding is not None:
            return (b"g" if yes else b"h") + number
        signature = self.random.choice([b"", b"sig", self.random.randbytes(64)])
        return b"e" + number + string(signature) if yes else b"f" + number

    def child_body(self) -> bytes:
        """A child's message that may not fit, or is none."""
        random = self.random
        known = list(self.agent.asks) + list(self.agent.confirmations)
        numbers = known if known and self.chance(0.6) else [0, 1, 2, 2**64 - 1]
        kind = bytes([random.choice([101, 102, 103, 104, 105, 106])])
        body = kind + uint64(random.choice(numbers))
        text = string(random.randbytes(random.choice([0, 15, 16, 17])))
        if self.chance(0.2):
            return kind + uint64(random.choice(numbers)) + (text if kind == b"e" else b"")
        bodies = [
            body,
            body[:-1] + bytes([body[-1] ^ 1]),
            body + text,
            body[:5],
            body + b"\x00",
            b"\x00",
            b"\x02" + body[1:],
            b"\x01" + uint64(random.choice(numbers)) + text,
            b"\x01" + body[1:],
            b"\x01" + uint64(self.agent.last["job"]) + string(bytes(16)),
            b"\x01" + uint64(self.agent.last["job"]) + string(bytes(16)) + b"\x00",
        ]
        return random.choice(bodies)

    def children(self) -> None:
        self.tend(well=self.random.choice([0.5, 0.8, 1]))

    def strays(self) -> None:
        """A child comes unasked; a child says anything, with a bad length, or ends."""
        ports = self.ports("child")
        if not ports or self.chance(0.4):
            self.join("child")
            port, jobs = self.agent.last["port"], list(self.tickets)
            if port in self.agent.ports and jobs:
                job = self.random.choice(jobs)
                self.send(port, b"\x01" + uint64(job) + string(self.tickets[job]))
            return
        named = [port for port in ports if self.agent.ports[port].job is not None]
        port = self.random.choice(named if named and self.chance(0.5) else ports)
        kind = self.random.randrange(6)
        if kind == 0:
            self.say(f"end {port}")
        elif kind == 1:
            self.hear(port, self.random.choice(BAD_LENGTHS))
        elif kind < 4:
            self.send(port, self.child_body())

    def ask(self) -> None:
        """A key that is held is to sign."""
        port = self.client(fresh=0.3)
        held = [each for each in pool.KEYS if each.blob in self.agent.identities]
        key = self.random.choice(held) if held else self.pick(self.keys)
        if not held:
            self.send(port, b"\x11" + key.added + string(b"comment"), cut=0)
        if port in self.agent.ports:
            self.send(port, b"\x0d" + string(key.blob) + string(b"message") + uint32(0), cut=0.05)
        if self.chance(0.7):
            self.tend()

    def purposes(self) -> None:
        """A key for some purposes is to sign for several, maybe after a question; it may be added again meanwhile."""
        random, port, key = self.random, self.client(fresh=0.3), self.pick(self.keys)
        extra = random.choice([b"", b"\x02", b"\x02", b"\x02" + pool.uses(1), pool.uses(2)])
        add = b"\x19" + key.added + string(b"c") + pool.some_purposes(random) + extra
        self.send(port, add, cut=0)
        for _ in range(random.choice([1, 2, 3])):
            if port not in self.agent.ports or self.agent.ports[port].waits:
                return
            user = random.choice([b"u", b"u" * 65, b"\x1f\x7f u\n"])
            messages = [self.login(port, key), pool.login(random, key, b"s", user, None), b"m"]
            messages += [pool.file_data(random)] * 2 + [pool.may_be(random, key, user)] * 3
            signing = string(key.blob) + string(random.choice(messages)) + uint32(random.choice([0, 2, 4, 4, 6]))
            self.send(port, b"\x0d" + signing, cut=0.03)
            if self.chance(0.15):
                other = self.client(fresh=0.3)
                if other in self.agent.ports:
                    self.send(other, b"\x19" + key.added + string(b"d") + pool.some_purposes(random), cut=0)
            if self.chance(0.8):
                self.tend(well=0.95)

    def bind(self, port: int, host_key: bytes, session: bytes, forwarding: int) -> None:
        """Binds a client, where the helper says so."""
        if port in self.agent.ports:
            self.send(port, pool.bind(host_key, session, forwarding), cut=0.03)
        for _ in range(3):
            if port in self.agent.ports and self.agent.ports[port].waits:
                self.tend(well=0.98)

    def binds(self) -> None:
        port = self.client(fresh=0.2)
        for _ in range(self.random.choice([1, 1, 2, 4])):
            if port in self.agent.ports and not self.agent.ports[port].waits:
                body = self.binding(self.agent.ports[port])
                self.send(port, body, cut=0.03)
                self.tend(well=0.95)

    def walk(self) -> None:
        """A client comes over some hosts, and uses a key with rules for them, or nearly them."""
        random, port = self.random, self.client(fresh=0.7)
        wrong = self.chance(0.15)
        route = random.sample(pool.HOSTS, random.choice([1, 1, 2, 2, 3]))
        if wrong:
            route[random.randrange(len(route))] = random.choice(pool.FALSE_HOSTS)
        key = self.pick(self.keys)
        terms = pool.restrict(*pool.route_rules(random, route))
        if self.chance(0.4):
            logins = [pool.purposes(b"login"), pool.purposes(b"other", b"login"), pool.some_purposes(random)]
            terms = random.choice([terms + random.choice(logins), random.choice(logins) + terms])
        if self.chance(0.4):
            terms += b"\x02"
        if self.chance(0.6):
            self.say(f"at {self.run.moment[0]} {random.choice([100, 150, 199])}")
        other = self.client(fresh=0.5)
        if other in self.agent.ports:
            body = b"\x19" + key.added + string(b"with rules") + terms
            self.send(other, body, cut=0)
        if self.chance(0.1):
            random.shuffle(route)
        for place, host in enumerate(route):
            last = place == len(route) - 1
            forwarding = self.chance(0.2) if last else not self.chance(0.05)
            self.bind(port, host.key, b"session %d" % place, forwarding)
        for _ in range(random.choice([1, 2, 4])):
            if port in self.agent.ports and not self.agent.ports[port].waits:
                choice = random.randrange(8)
                if choice == 0:
                    self.send(port, b"\x0b", cut=0)
                elif choice == 1:
                    self.send(port, b"\x12" + string(key.blob), cut=0)
                elif choice == 2:
                    self.clock()
                else:
                    body = b"\x0d" + string(key.blob) + string(self.login(port, key)) + uint32(2)
                    self.send(port, body, cut=0)
            if self.chance(0.3):
                self.clock()
            if self.agent.confirmations and self.chance(0.6):
                self.raise_children()
                self.say(f"at {self.run.moment[0]} {random.choice([99, 150, 200])}")
            if self.chance(0.8):
                self.tend()

    def confirm(self) -> None:
        """A key asks for confirmation; something may happen before the grant."""
        random, port, key = self.random, self.client(fresh=0.4), self.pick(self.keys)
        comment = random.choice([b"one", b"x" * 256 + b"y", b"\x1f\x20\x7e\x7f\xff", b""])
        add = b"\x19" + key.added + string(comment) + b"\x02"
        if self.chance(0.4):
            add += pool.uses(random.choice([1, 1, 2]))
        sign = b"\x0d" + string(key.blob) + string(b"m") + uint32(4)
        if self.chance(0.7):
            self.send(port, *random.choice([[add], [add], [b"\x13", add]]), cut=0)
        if port in self.agent.ports:
            self.send(port, sign, cut=0)
        if self.chance(0.3):
            self.tend(well=0.95)
        if self.chance(0.6):
            other = self.client(fresh=0.3)
            remove, lock = b"\x12" + string(key.blob), b"\x16" + string(b"a")
            bodies = [[remove], [remove, add], [lock], [b"\x13"], [b"\x13", add], [b"\x0b"]]
            bodies += [[sign]] * 3
            if other in self.agent.ports:
                self.send(other, *random.choice(bodies), cut=0)
        if self.chance(0.15) and port in self.agent.ports:
            self.say(f"end {port}")
        if self.chance(0.7):
            self.tend(well=0.95)

    def late_grant(self) -> None:
        """A rule permits a login for a while, and the user is asked in the meantime."""
        random, port, key = self.random, self.client(fresh=0.8), self.pick(self.keys)
        host = pool.HOSTS[8]
        self.say(f"at {self.run.moment[0]} 150")
        names = [(b"", host.name), (b"", b"\x1b\xff" + b"h" * 60 + b".example.org"), (b"perseus", b"p.example.org")]
        rules = [pool.rule(pool.hop(b"", b"", []), pool.hop(*name, [host.entry])) for name in names]
        random.shuffle(rules)
        purposes = random.choice([b"", pool.purposes(b"login"), pool.purposes(b"other", b"login")])
        add = b"\x19" + key.added + string(b"c") + b"\x02" + pool.restrict(*rules) + purposes
        if port in self.agent.ports:
            self.send(port, add, cut=0)
        self.bind(port, host.key, b"login", forwarding=0)
        user = random.choice([b"u", b"\x1b[2J" + b"u" * 61])
        message = pool.login(random, key, b"login", user, None)
        if port in self.agent.ports and not self.agent.ports[port].waits:
            body = b"\x0d" + string(key.blob) + string(message) + uint32(0)
            self.send(port, body, cut=0)
            self.raise_children()
            self.say(f"at {self.run.moment[0]} {random.choice([99, 100, 199, 200])}")
            self.tend(well=0.97)

    def hangs(self) -> None:
        """Clients ask, children are started and maybe connect, and time goes on."""
        for _ in range(self.random.choice([1, 2, 3, 5]) if self.agent.waits else 0):
            port, key = self.client(fresh=0.4), self.keys[0]
            held = list(self.agent.identities) or [key.blob]
            if port in self.agent.ports:
                if key.blob in held and self.chance(0.7):
                    self.send(port, b"\x11" + key.added + string(b"waits"), cut=0)
                behind = self.random.choice([b"", b"", b"", string(b"\x0b"), b"\0\0\0\0"])
                sign = b"\x0d" + string(self.random.choice(held)) + string(b"m") + uint32(0)
                self.hear(port, string(sign) + behind)
            for job in self.forgotten() if self.chance(0.6) else []:
                self.starts(job) if self.chance(0.5) else self.say(f"failed {job}")
            for job in list(self.agent.starts) if self.chance(0.3) else []:
                self.starts(job)
            if self.chance(0.4):
                self.say(f"at {self.agent.mono + self.random.choice([1, 10, 29, 59])} 0")
            if self.chance(0.5):
                self.raise_children() if self.chance(0.5) else self.tend(well=0.98)
            if self.chance(0.3):
                self.answers_oldest()
            if self.chance(0.5):
                self.deadline()
            if self.chance(0.15):
                self.strays()
        self.deadline()

    def answers_oldest(self) -> None:
        """The helper answers its oldest ask, and then comes the second at which that was late."""
        asks, port = self.agent.asks, self.agent.helper_port
        if len(asks) < 2 or port is None or port in self.unsent:
            return
        oldest = min(asks)
        second = asks[oldest].began + self.agent.waits["ask"]
        self.send(port, self.answer(oldest), cut=0)
        self.say(f"at {second} {self.run.moment[1]}")

    def forgotten(self) -> list[int]:
        """Jobs that are to be started, and that nobody waits for any more."""
        wanted = {self.agent.helper, *self.agent.confirmations}
        return [job for job in self.agent.starts if job not in wanted]

    def raise_children(self) -> None:
        """Each job is started, and each child says hello."""
        for job in list(self.agent.starts):
            self.starts(job)
        for job, ticket in list(self.agent.tickets.items()):
            self.join("child")
            if self.agent.last["port"] in self.agent.ports:
                body = b"\x01" + uint64(job) + string(ticket)
                self.send(self.agent.last["port"], body, cut=0)
