"""Random schedules that know the protocol, steered by the model's state.

A schedule is written line by line, and the model runs each line at once, so that most lines fit
what happened before. The same seed gives the same schedule.
"""

from __future__ import annotations

from collections import Counter
from random import Random

from . import pool
from .agent import LIMITS
from .child_moves import ChildMoves
from .replay import LONGEST_LINE, Run
from .wire import string, uint32, uint64
from .writer import Over

Case = tuple[bytes, int | None, tuple[bytes, int]]


class Schedule(ChildMoves):
    def case(self) -> Case:
        """A schedule, the default lifetime, and what the model prints, with the status."""
        text = self.write()
        if text and self.chance(0.1):
            text = garbled_text(self.random, text)
            self.run = Run(self.life, self.limit)
            self.run.text(text)
            self.reached = Counter({"text garbled": 1, f"default lifetime {self.life}": 1})
        if self.run.status:
            self.reached["refused " + self.run.printed[-1].split(" ")[2]] += 1
        return text, self.life, (self.run.output(), self.run.status)

    def write(self) -> bytes:
        random = self.random
        try:
            if self.format == 2:
                other = self.random.choice(["schedule 1", "schedule 3", "schedule 02", "schedule"])
                self.say("schedule 2" if self.chance(0.97) else other)
            if random.random() < 0.15:
                self.one_of(LONG_MOVES)
            for _ in range(random.choice([5, 15, 40, 80])):
                self.one_of(MOVES)
        except Over:
            if self.chance(0.3):
                self.lines += [b"join client", b"end 1"]
        text = b"\n".join(self.lines)
        if self.lines and (not self.lines[-1] or self.chance(0.9)):
            text += b"\n"
        return text

    # Moves that reach the limits

    def many_clients(self) -> None:
        for _ in range(self.random.choice([128, 129, 131])):
            self.join("client")
        for _ in range(self.random.choice([0, 1, 3])):
            self.say(f"end {self.pick(self.agent.ports)}")
            self.join("client")

    def long_body(self) -> None:
        """A body of the longest length, or nearly."""
        port, size = self.client(), LIMITS["body of a client"] - self.random.choice([0, 0, 1])
        kind = self.random.choice([b"\x01", b"\x0b", b"\x16", b"\x17", b"\x12", b"\x0d", b"\x19"])
        if kind == b"\x0d":
            start = kind + string(self.keys[0].blob)
            body = start + string(bytes(size - len(start) - 8)) + uint32(0)
        elif kind == b"\x19":
            key = plain_with_long_secret()
            start = kind + key
            body = start + string(bytes(size - len(start) - 4))
        else:
            body = kind + string(bytes(size - 5))
        self.send(port, body, b"\x0b", cut=0.3)

    def full_list(self) -> None:
        """A list as long as it may be, one byte less or one more."""
        port, keys = self.client(), self.random.sample(pool.KEYS, 3)
        left = LIMITS["list"] - 5
        for key in keys[:-1]:
            comment = bytes([self.random.randrange(256)]) * (120000 + self.random.randrange(9))
            self.send(port, b"\x11" + key.added + string(comment), cut=0.1)
            left -= 8 + len(key.blob) + len(comment)
        size = left - 8 - len(keys[-1].blob) + self.random.choice([-1, 0, 0, 1, 1])
        number, rest = self.random.choice([(b"\x11", b""), (b"\x19", b"\x01" + uint32(3))])
        self.send(port, number + keys[-1].added + string(b"z" * size) + rest, b"\x0b", cut=0)
        size += self.random.choice([-1, 0, 0, 1])
        self.send(port, number + keys[-1].added + string(b"y" * size) + rest, b"\x0b", cut=0)

    def full_room(self) -> None:
        """Private strings and rules that take as much as they may, one byte less or one more."""
        port, host = self.client(), pool.PLAIN_HOSTS[0]
        origin = pool.hop(b"", b"", [])
        first = pool.rule(origin, pool.hop(b"", b"h", [host.entry]))
        each, most = 200 + len(host.key), 261000 // len(first)
        for seed in range(100, 115):
            key = pool.plain_key(pool.STAND_IN, seed)
            held = sum(one.room for one in self.agent.identities.values())
            count, more = divmod(LIMITS["room"] - held - len(key.added), each)
            # One byte too many is refused, and then the very last has room.
            ends = self.random.choice([[1, 0], [1, 0], [0, 1], [-1, 1]])
            if count >= most:
                count, more, ends = most, 0, [0]
            for end in ends if count > 0 else []:
                left = max(0, more + end)
                name, user = b"h" * (1 + left // 8), b"u" * (left % 8)
                last = pool.rule(origin, pool.hop(user, name, [host.entry]))
                rules = pool.restrict(*[first] * (count - 1), last)
                self.send(port, b"\x19" + key.added + string(b"") + rules, cut=0)

    def long_line(self) -> None:
        self.say("#" * (LONGEST_LINE - self.random.choice([0, 1])))
        if self.chance(0.5):
            self.say("#" * (LONGEST_LINE + 1))

    def many_asks(self) -> None:
        """256 asks stay unanswered, since their askers leave; a grant may come behind them."""
        key, port = self.keys[3], self.client(fresh=1)
        add = b"\x11" + key.added + string(b"c")
        sign = b"\x0d" + string(key.blob) + string(b"") + uint32(0)
        self.send(port, add, cut=0)
        granted = self.chance(0.6)
        if granted:
            other = self.keys[4]
            bodies = [b"\x19" + other.added + string(b"d") + b"\x02"]
            bodies.append(b"\x0d" + string(other.blob) + string(b"") + uint32(0))
            self.send(port, *bodies, cut=0)
            for _ in range(2):
                self.raise_children()
        for _ in range(LIMITS["asks"] - len(self.agent.asks) - self.random.choice([0, 0, 0, 1])):
            self.join("client")
            port = self.agent.last["port"]
            if port in self.agent.ports:
                self.send(port, sign, cut=0)
                if self.chance(0.95):
                    self.say(f"end {port}")
        self.send(self.client(fresh=1), sign, cut=0)
        if granted:
            for job, confirmation in list(self.agent.confirmations.items()):
                if confirmation.port in self.agent.ports:
                    self.send(confirmation.port, b"i" + uint64(job), cut=0)
        if self.chance(0.7):
            self.tend(well=1)

    def heavy_asks(self) -> None:
        """Asks whose bodies have 8 MiB in all, or a byte less; some are answered, and others asked for."""
        key, port = self.keys[3], self.client(fresh=1)
        self.send(port, b"\x11" + key.added + string(b"c"), cut=0)
        if key.blob not in self.agent.identities:
            return
        around = 25 + len(self.agent.identities[key.blob].private) + len(key.blob)
        longest = LIMITS["body of a client"] - 13 - len(key.blob)
        left = LIMITS["bodies of asks"] + self.random.choice([0, 0, 1, 1])
        left -= sum(ask.size for ask in self.agent.asks.values())
        while left >= around:
            # What is left behind a long message has room for one more.
            size = left - around if left <= around + longest else min(longest, left - 2 * around)
            left -= around + size
            self.join("client")
            port = self.agent.last["port"]
            self.send(port, b"\x0d" + string(key.blob) + string(bytes(size)) + uint32(0), cut=0)
            if self.chance(0.3) and port in self.agent.ports:
                self.say(f"end {port}")
        for _ in range(2):
            sign = b"\x0d" + string(key.blob) + string(b"") + uint32(0)
            self.send(self.client(fresh=1), sign, cut=0)
            self.tend(well=1)

    def many_children(self) -> None:
        for _ in range(self.random.choice([32, 33, 34])):
            self.join("child")

    def long_answer(self) -> None:
        """An answer of the longest length, or nearly; a longer one is announced."""
        key, client = self.keys[3], self.client(fresh=1)
        sign = b"\x0d" + string(key.blob) + string(b"") + uint32(0)
        self.send(client, b"\x11" + key.added + string(b"c"), sign, cut=0)
        self.raise_children()
        port, asks = self.agent.helper_port, [
            n for n, a in self.agent.asks.items() if not a.binding
        ]
        if port is None or not asks:
            return
        size = LIMITS["body of a child"] - 13 - self.random.choice([0, 0, 1])
        if self.chance(0.3):
            return self.hear(port, uint32(LIMITS["body of a child"] + 1))
        self.send(port, b"e" + uint64(asks[0]) + string(bytes(size)), cut=0.2)

    def many_bindings(self) -> None:
        port = self.client(fresh=1)
        for place in range(3 * LIMITS["bindings"]):
            if port in self.agent.ports and len(self.agent.ports[port].chain) < LIMITS["bindings"]:
                host = self.random.choice(pool.PLAIN_HOSTS)
                self.bind(port, host.key, b"hop %d" % place, forwarding=1)
        for _ in range(self.random.randrange(3)):
            host = self.random.choice(pool.PLAIN_HOSTS)
            self.bind(port, host.key, b"hop %d" % self.random.choice([1, 99, 99]), forwarding=1)

    def large_host_keys(self) -> None:
        """Host keys of a connection with as many bytes as they may have, one less or one more."""
        port, more = self.client(fresh=1), self.random.choice([-1, 0, 0, 1, 1])
        for place, size in enumerate([16384, 16384, 16384, 16384 + more]):
            host_key = string(b"ssh-rsa") + string(b"\x03") + string(b"\x01" * (size - 20))
            self.bind(port, host_key, b"large %d" % place, forwarding=1)

    def many_principals(self) -> None:
        """Certificates of a connection's hosts that name as much as they may, one byte less or more."""
        port, more = self.client(fresh=1), self.random.choice([-1, 0, 0, 1, 1])
        for place, size in enumerate([300, 300, 424 + more]):
            names = string(b"*") + string(b"n" * (size - 9))
            host_key = pool.certificate(pool.ED25519, place, 2, names=names, signer=pool.CA)
            self.bind(port, host_key, b"named %d" % place, forwarding=1)

    def long_user(self) -> None:
        """Logins of users of as many letters as are judged, or one more."""
        key, port, host = self.keys[3], self.client(fresh=1), pool.PLAIN_HOSTS[0]
        to_all = pool.rule(pool.hop(b"", b"", []), pool.hop(b"u*", b"h", [host.entry]))
        self.send(port, b"\x19" + key.added + string(b"c") + pool.restrict(to_all), cut=0)
        self.bind(port, host.key, b"session", forwarding=0)
        user = b"u" * (4096 + self.random.choice([-1, 0, 0, 1, 1]))
        message = pool.login(self.random, key, b"session", user, host.key)
        self.send(port, b"\x0d" + string(key.blob) + string(message) + uint32(0), cut=0)

    def many_keys(self) -> None:
        """1,000 keys whose lifetimes end together, but for one that may be added again before."""
        port, life = self.client(fresh=1), self.random.choice([2, 10, 60])
        keys = [pool.plain_key(pool.STAND_IN, seed) for seed in range(1000, 2000)]
        rest = string(b"k") + b"\x01" + uint32(life)
        for key in keys:
            self.send(port, b"\x19" + key.added + rest, cut=0)
        end = min(self.agent.mono + life, 2**64 - 1)
        for second in (end - 1, end):
            held = len(self.agent.identities)
            self.say(f"at {second} {self.run.moment[1]}")
            self.reached["1,000 lifetimes end"] += held - len(self.agent.identities) >= 999
            self.send(port, b"\x0b", cut=0)
            if self.chance(0.5):
                self.send(port, b"\x19" + self.pick(keys).added + rest, cut=0)

    def many_confirmations(self) -> None:
        key, port = self.pick(self.keys), self.client(fresh=1)
        sign = b"\x0d" + string(key.blob) + string(b"") + uint32(0)
        self.send(port, b"\x19" + key.added + string(b"c") + b"\x02", cut=0)
        for _ in range(LIMITS["confirmations"] + self.random.choice([0, 1, 1])):
            self.send(self.client(fresh=1), sign, cut=0)
            if self.chance(0.05):
                self.tend(well=1)


def garbled_text(random: Random, text: bytes) -> bytes:
    """A schedule in which some bytes or lines are other ones, doubled, missing or moved."""
    for _ in range(random.randrange(1, 4)):
        lines = text.split(b"\n")
        kind, at = random.randrange(6), random.randrange(len(text) + 1)
        first, second = random.randrange(len(lines)), random.randrange(len(lines))
        some = random.choice([b" ", b"\n", b"\r", b"0", b"9", b"a", b"F", b"#", b"\x00", b"\xff"])
        if kind == 0:
            text = text[:at] + some + text[at:]
        elif kind == 1:
            text = text[:at] + text[at + 1 :]
        elif kind == 2:
            text = text[:at] + some + text[at + 1 :]
        else:
            if kind == 3:
                lines[first], lines[second] = lines[second], lines[first]
            elif kind == 4:
                lines.insert(first, lines[second])
            else:
                del lines[first]
            text = b"\n".join(lines)
    return text


def plain_with_long_secret() -> bytes:
    """An RSA key one of whose numbers is long."""
    return (
        string(b"ssh-rsa") + string(b"n") + string(b"e") + string(bytes(100000)) + string(b"") * 3
    )


# Each move's weight.
MOVES: dict[str, int] = {
    "joins": 4,
    "requests": 30,
    "in_one_piece": 6,
    "goes_on": 5,
    "bad_length": 1,
    "ends": 2,
    "clock": 8,
    "holds": 3,
    "takes": 8,
    "comments": 2,
    "mistakes": 1,
    "children": 12,
    "strays": 3,
    "ask": 10,
    "purposes": 8,
    "binds": 8,
    "walk": 10,
    "confirm": 8,
    "late_grant": 3,
    "hangs": 6,
}
LONG_MOVES: dict[str, int] = {
    "many_clients": 3,
    "long_body": 4,
    "full_list": 6,
    "full_room": 3,
    "long_line": 2,
    "many_asks": 5,
    "heavy_asks": 5,
    "many_children": 3,
    "long_answer": 7,
    "many_bindings": 4,
    "large_host_keys": 10,
    "many_principals": 8,
    "long_user": 5,
    "many_confirmations": 6,
    "many_keys": 2,
}

# What the schedules are to reach, in the words of the model and of `reached`.
GOALS = [
    goal.strip()
    for part in (
        # requests, causes, limits and lines
        """request 11; request 17; request 18; request 19; request 22; request 23; request 25
            add: replaced; lifetime ends; 1,000 lifetimes end; list: locked; client: bad length
            frame in pieces; text garbled
            cause: malformed Short; cause: malformed UnknownType; cause: malformed BadLength
            cause: malformed Mismatch; cause: malformed Trailing; cause: locked
            cause: unknown request; cause: unknown extension; cause: sign: not held
            cause: constraints Short; cause: constraints Unknown; cause: constraints Twice
            cause: constraints Reserved; cause: constraints FromUser; cause: constraints FromHalf
            cause: constraints ToHalf; cause: constraints NoRules; cause: constraints Key Short
            cause: constraints NoUses; use: last; use: more are left
            cause: constraints Purpose Many; cause: constraints Purpose Long; cause: constraints Purpose Unknown
            cause: constraints Purpose Twice; cause: constraints Purpose Missing
            cause: other purpose; cause: by SHA-1
            asked: login, one of the key's; asked: file, one of the key's; asked: other, one of the key's
            asked: login, none of the key's; asked: file, none of the key's; asked: other, none of the key's
            asked: certificate, one of the key's; asked: certificate, none of the key's; asked: maybe, none of the key's
            cause: add: list is full; cause: add: no room; limit: room; limit: room + 1
            cause: remove: not held; cause: lock: empty passphrase
            cause: unlock: not locked; cause: unlock: another passphrase
            limit: body of a client; limit: client; limit: client + 1; limit: list; limit: list + 1
            line at later; line at again; line at earlier; line hold; line free; line take; line end
            line empty; line comment; line join; line hear; refused long; refused word; refused number
            refused hex; refused port; refused order""",
        # default lifetimes
        """default lifetime 0; default lifetime 1; default lifetime 3
            default lifetime 4294967295""",
        # limits of questions
        """confirm limit 1; confirm limit 5; confirm limit 60; confirm limit 4294967295""",
        # the helper
        """request 13; cause: helper lost; helper: REFUSED; helper: SIGNED; hello
            answer: asker left; cause: asks; limit: asks; limit: asks + 1; limit: child
            cause: bodies of asks; limit: bodies of asks; limit: bodies of asks + 1
            limit: child + 1; limit: body of a child; line started; line failed
            hello: Short; hello: Kind; hello: TicketLength; hello: Trailing; hello: bad length
            hello: no hello; hello: no such job; hello: another ticket
            helper lost: Short; helper lost: Kind; helper lost: TicketLength; helper lost: Trailing
            helper lost: bad length; helper lost: no answer; helper lost: not pending
            helper lost: wrong kind; helper lost: ended; helper lost: start failed""",
        # bindings
        """request 27; helper: TRUE; helper: TRUE again; helper: FALSE
            cause: bind: empty session; cause: bind: long session; cause: bind: bound for a login
            cause: bind: another host key; cause: bind: full; limit: bindings; limit: bindings + 1
            cause: bind: host keys; limit: host keys; limit: host keys + 1
            cause: bind: principals; limit: principals; limit: principals + 1
            limit: session; limit: session + 1""",
        # destination constraints
        """list: hidden; rules: permit; cause: add: not visible; cause: remove: not visible
            cause: rules Unbound; cause: rules Hop; cause: rules OtherSession
            cause: rules NoHostKey; cause: rules OtherHostKey; cause: rules NotUserAuth Short
            cause: rules NotUserAuth EmptySession; cause: rules NotUserAuth NotRequest
            cause: rules NotUserAuth Service; cause: rules NotUserAuth Method
            cause: rules NotUserAuth NoSignatureFlag; cause: rules NotUserAuth OtherKey
            cause: rules NotUserAuth Algorithm; cause: rules NotUserAuth HostKey Short
            cause: rules NotUserAuth Trailing; cause: rules LongUser""",
        # confirmations
        """confirmation: granted; confirmation: asker left; cause: confirmations
            limit: confirmations; limit: confirmations + 1; cause: granted: locked
            cause: granted: not held; cause: granted: rules Hop; cause: granted: asks
            granted: login, one of the key's; granted: file, one of the key's; granted: other, one of the key's
            granted: certificate, one of the key's
            cause: confirmation: not granted: DENIED; cause: confirmation: not granted: GRANTED
            cause: confirmation: ended; cause: confirmation: start failed
            cause: confirmation: limit; cause: confirmation: bad length; cause: confirmation: Short; cause: confirmation: Kind
            cause: confirmation: Trailing; cause: confirmation: TicketLength
            question: login; question: signature; question: certificate; question: data; question: host""",
        # what waits too long, and schedules of format 2
        """line schedule; helper lost: ask limit
            ask limit: -1; ask limit: +0; ask limit: +1
            ask limit: to start; ask limit: started; ask limit: joined
            confirmation limit: -1; confirmation limit: +0; confirmation limit: +1
            late start: helper; late start: confirm; late failure: helper; late failure: confirm
            behind its own closing: hear; behind its own closing: end
            behind its own closing: take""",
    )
    for goal in part.replace("\n", ";").split(";")
]
