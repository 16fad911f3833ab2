"""The agent: what an event changes, and what each port is owed afterwards.

draft-miller-ssh-agent, OpenSSH's PROTOCOL.agent, and docs/PROTOCOL.md for what these leave open.
`seen` counts how often each request, cause and limit was met.
"""

from collections import Counter
from collections.abc import Callable
from dataclasses import dataclass, field

from . import formats
from .purposes import is_by_sha1, kind_of
from .questions import line_of, question
from .rules import Binding, Chain, Purposes, Rules, are_for, may_sign, principals, room, visible
from .wire import Fault, demand, string, take_frame, uint32, within

# "client" and "child" are open ports, of children those that haven't said hello.
LIMITS = {"body of a client": 262144, "body of a child": 262144, "list": 262144}
LIMITS |= {"client": 128, "child": 32, "asks": 256, "confirmations": 16}
LIMITS |= {"bindings": 16, "session": 128}
# Bytes of all private strings and rules, and of the host keys of one connection and what they name.
LIMITS |= {"room": 8388608, "host keys": 65536}
LIMITS |= {"principals": 1024}
# Behind how many bytes in the bodies of the asks that are open one more is put: it may be as long as it is.
LIMITS |= {"bodies of asks": 8388607}
# The seconds for which an ask may stay unanswered, and a confirmation open.
WAITS = {"ask": 60, "confirmation": 300}

REQUESTS = {11: "list_all", 13: "sign", 17: "add", 18: "remove", 19: "remove_all"}
REQUESTS |= {22: "lock", 23: "unlock", 25: "add", 27: "extension"}
FAILURE, SUCCESS = b"\x05", b"\x06"


@dataclass
class Identity:
    addition: int
    private: bytes
    comment: bytes
    death: int | None
    confirm: bool
    uses: int | None
    rules: Rules | None
    purposes: Purposes
    room: int


@dataclass
class Port:
    """A client, or a child, whose job its hello names."""

    door: str
    heard: bytearray = field(default_factory=bytearray)
    owed: bytearray = field(default_factory=bytearray)
    waits: bool = False
    chain: Chain = field(default_factory=list)
    attempted: bool = False
    job: int | None = None


@dataclass
class Ask:
    asker: int
    began: int  # the second at which it was put
    binding: Binding | None = None  # what is verified; None where a key is to sign
    new: bool = False
    size: int = 0  # how many bytes its body has, once it is put


@dataclass
class Confirmation:
    asker: int
    began: int  # the second at which it was raised
    addition: int
    signing: tuple[bytes, bytes, int]
    frame: bytes
    port: int | None = None


class Agent:
    def __init__(self, default_life: int | None = None) -> None:
        self.default_life = default_life or None
        self.waits: dict[str, int] = {}  # those of WAITS that are limited
        self.mono = self.wall = 0
        self.identities: dict[bytes, Identity] = {}
        self.passphrase: bytes | None = None
        self.ports: dict[int, Port] = {}
        self.closes: list[int] = []
        self.helper: int | None = None  # its job
        self.helper_port: int | None = None
        self.unsent = bytearray()  # frames that wait for its hello
        self.asks: dict[int, Ask] = {}
        self.confirmations: dict[int, Confirmation] = {}
        self.starts: dict[int, str] = {}
        self.tickets: dict[int, bytes] = {}  # of started jobs that no hello has named
        self.last: Counter[str] = Counter()
        self.seen: Counter[str] = Counter()

    def next_number(self, what: str) -> int:
        self.last[what] += 1
        return self.last[what]

    def above(self, what: str, amount: int) -> bool:
        beyond = amount - LIMITS[what]
        if beyond in (0, 1):
            self.seen[f"limit: {what}{' + 1' * beyond}"] += 1
        return beyond > 0

    def event(self, mono: int, wall: int, happens: Callable[..., None], *what: object) -> None:
        self.mono, self.wall = max(self.mono, mono), wall
        self.closes = []
        for blob, identity in list(self.identities.items()):
            if identity.death is not None and identity.death <= self.mono:
                del self.identities[blob]
                self.seen["lifetime ends"] += 1
        self.end_late()
        if happens not in (self.hear, self.take, self.end) or what[0] not in self.closes:
            happens(*what)
        self.closes.sort()

    def is_over(self, what: str, began: int) -> bool:
        """Whether something has waited as long as it may."""
        if what not in self.waits:
            return False
        beyond = self.mono - began - self.waits[what]
        if beyond in (-1, 0, 1):
            self.seen[f"{what} limit: {beyond:+}"] += 1
        return beyond >= 0

    def end_late(self) -> None:
        """Gives the helper up that left an ask unanswered, and ends old confirmations."""
        if any([self.is_over("ask", ask.began) for ask in self.asks.values()]):
            where = "to start" if self.helper in self.starts else "started"
            self.seen[f"ask limit: {where if self.helper_port is None else 'joined'}"] += 1
            self.close(self.helper_port)
            self.lose_helper("ask limit")
        for job, confirmation in sorted(self.confirmations.items()):
            if self.is_over("confirmation", confirmation.began):
                self.deny(job, "limit")

    def at(self) -> None:
        """Only the moment is new."""

    def join(self, door: str) -> None:
        number = self.next_number("port")
        others = [port for port in self.ports.values() if port.door == door and port.job is None]
        if self.above(door, len(others) + 1):
            self.closes.append(number)
        else:
            self.ports[number] = Port(door)

    def hear(self, number: int, piece: bytes) -> None:
        port = self.ports[number]
        port.heard += piece
        if port.door == "client":
            self.look(number, port)
        else:
            self.listen(number, port)

    def take(self, number: int, count: int) -> None:
        port = self.ports[number]
        del port.owed[:count]
        if port.door == "client":
            self.look(number, port)

    def close(self, number: int) -> None:
        if self.ports.pop(number, None):
            self.closes.append(number)

    def end(self, number: int) -> None:
        job = self.ports[number].job
        self.close(number)
        if number == self.helper_port:
            self.lose_helper("ended")
        elif job is not None:
            self.deny(job, "ended")
        for job in [job for job, each in self.confirmations.items() if each.asker == number]:
            self.end_confirmation(job)
            self.seen["confirmation: asker left"] += 1

    def started(self, job: int, ticket: bytes) -> None:
        kind = self.starts.pop(job)
        if job == self.helper or job in self.confirmations:
            self.tickets[job] = ticket
        else:
            self.seen[f"late start: {kind}"] += 1

    def failed(self, job: int) -> None:
        kind = self.starts.pop(job)
        if job == self.helper:
            self.lose_helper("start failed")
        elif job in self.confirmations:
            self.deny(job, "start failed")
        else:
            self.seen[f"late failure: {kind}"] += 1

    def look(self, number: int, client: Port) -> None:
        """Takes the next request, where the client waits for nothing and is owed nothing."""
        if client.waits or client.owed:
            return
        try:
            body = take_frame(client.heard, LIMITS["body of a client"])
        except Fault as fault:
            self.seen[f"client: {fault}"] += 1
            return self.close(number)
        if body is None:
            return
        self.above("body of a client", len(body))
        if self.passphrase is None and body.startswith(b"\x1b" + string(formats.BIND)):
            client.attempted = True
        try:
            reply = self.answer(number, client, body)
        except Fault as cause:
            self.seen[f"cause: {cause}"] += 1
            reply = FAILURE
        client.waits = reply is None
        client.owed += b"" if reply is None else string(reply)

    def answer(self, number: int, client: Port, body: bytes) -> bytes | None:
        kind, *fields = within("malformed", formats.request, body)
        demand(self.passphrase is None or kind in (11, 23), "locked")
        demand(kind in REQUESTS, "unknown request")
        self.seen[f"request {kind}"] += 1
        return getattr(self, REQUESTS[kind])(number, client, *fields)

    def may_see(self, client: Port, identity: Identity) -> bool:
        return visible(identity.rules, client.chain, client.attempted, self.wall)

    def list_all(self, number: int, client: Port) -> bytes:
        shown = [
            string(blob) + string(identity.comment)
            for blob, identity in self.identities.items()
            if self.passphrase is None and self.may_see(client, identity)
        ]
        self.seen["list: locked"] += self.passphrase is not None and self.identities != {}
        self.seen["list: hidden"] += self.passphrase is None and len(shown) < len(self.identities)
        return b"\x0c" + uint32(len(shown)) + b"".join(shown)

    def sign(self, number: int, client: Port, blob: bytes, message: bytes, flags: int) -> None:
        demand(blob in self.identities, "sign: not held")
        identity, signing = self.identities[blob], (blob, message, flags)
        self.may_sign(client, identity, signing, "asked")
        if not identity.confirm:
            return self.put_signing(number, identity, signing)
        demand(not self.above("confirmations", len(self.confirmations) + 1), "confirmations")
        job = self.next_number("job")
        self.starts[job] = "confirm"
        line = line_of(blob, message, identity.rules, client.chain, self.wall)
        text = question(identity.comment, blob, identity.purposes, line)
        if identity.purposes:
            self.seen[f"question: {line.split(b' ')[2].decode()}"] += 1
            self.seen["question: host"] += bool(identity.rules)
        frame = formats.confirm_frame(job, text)
        self.confirmations[job] = Confirmation(
            number, self.mono, identity.addition, signing, frame
        )

    def may_sign(
        self, client: Port, identity: Identity, signing: tuple[bytes, bytes, int], when: str
    ) -> None:
        """Raises why a key isn't to sign a message: what it is for, or where to."""
        blob, message, flags = signing
        if identity.purposes:
            told = "one of" if are_for(identity.purposes, blob, message) else "none of"
            self.seen[f"{when}: {kind_of(message, blob)}, {told} the key's"] += 1
        demand(not identity.purposes or not is_by_sha1(blob, flags), "by SHA-1")
        demand(are_for(identity.purposes, blob, message), "other purpose")
        within("rules", may_sign, identity.rules, blob, client.chain, message, self.wall)
        self.seen["rules: permit"] += bool(identity.rules)

    def add(
        self, number: int, client: Port, blob: bytes, private: bytes, comment: bytes, rest: bytes
    ) -> bytes:
        terms = within("constraints", formats.constraints, rest)
        held = self.identities.get(blob)
        demand(held is None or self.may_see(client, held), "add: not visible")
        comments = {each: identity.comment for each, identity in self.identities.items()}
        comments[blob] = comment
        size = 5 + sum(8 + len(each) + len(text) for each, text in comments.items())
        demand(not self.above("list", size), "add: list is full")
        uses, rules = terms.get("uses"), terms.get("rules")
        purposes = terms.get("purposes", frozenset())
        own = room(private, rules, purposes)
        taken = own + sum(each.room for held_blob, each in self.identities.items() if held_blob != blob)
        demand(not self.above("room", taken), "add: no room")
        self.seen["add: replaced"] += held is not None
        life = terms.get("life", self.default_life)
        death = None if life is None else self.mono + life
        number, confirm = self.next_number("addition"), "confirm" in terms
        key = Identity(number, private, comment, death, confirm, uses, rules, purposes, own)
        self.identities[blob] = key
        return SUCCESS

    def remove(self, number: int, client: Port, blob: bytes) -> bytes:
        demand(blob in self.identities, "remove: not held")
        demand(self.may_see(client, self.identities[blob]), "remove: not visible")
        del self.identities[blob]
        return SUCCESS

    def remove_all(self, number: int, client: Port) -> bytes:
        self.identities.clear()
        return SUCCESS

    def lock(self, number: int, client: Port, passphrase: bytes) -> bytes:
        demand(passphrase != b"", "lock: empty passphrase")
        self.passphrase = passphrase
        return SUCCESS

    def unlock(self, number: int, client: Port, passphrase: bytes) -> bytes:
        demand(self.passphrase is not None, "unlock: not locked")
        demand(passphrase == self.passphrase, "unlock: another passphrase")
        self.passphrase = None
        return SUCCESS

    def extension(self, number: int, client: Port, name: bytes, *fields: bytes) -> None:
        demand(name == formats.BIND, "unknown extension")
        host_key, session, signature, forwarding = fields
        new = self.judge(client.chain, host_key, session)
        ask = Ask(number, self.mono, Binding(host_key, session, bool(forwarding)), new)
        self.put(ask, formats.verify_frame, host_key, signature, session)

    def judge(self, chain: Chain, host_key: bytes, session: bytes) -> bool:
        """Whether a binding that a chain may have is new to it."""
        demand(session != b"", "bind: empty session")
        demand(not self.above("session", len(session)), "bind: long session")
        demand(not chain or chain[-1].forwarding, "bind: bound for a login")
        for binding in chain:
            if binding.session == session:
                demand(binding.host_key == host_key, "bind: another host key")
                return False
        demand(not self.above("bindings", len(chain) + 1), "bind: full")
        size = len(host_key) + sum(len(binding.host_key) for binding in chain)
        demand(not self.above("host keys", size), "bind: host keys")
        named = principals(host_key) + sum(principals(binding.host_key) for binding in chain)
        demand(not self.above("principals", named), "bind: principals")
        return True

    def put(self, ask: Ask, frame: Callable[..., bytes], *fields: object) -> None:
        """Asks the helper, which is started where there is none."""
        demand(not self.above("asks", len(self.asks) + 1), "asks")
        bodies = sum(other.size for other in self.asks.values())
        demand(not self.above("bodies of asks", bodies), "bodies of asks")
        if self.helper is None:
            self.helper = self.next_number("job")
            self.starts[self.helper] = "helper"
        number = self.next_number("ask")
        self.asks[number] = ask
        owed = self.unsent if self.helper_port is None else self.ports[self.helper_port].owed
        asked = frame(number, *fields)
        ask.size = len(asked) - 4
        owed += asked

    def put_signing(
        self, asker: int, identity: Identity, signing: tuple[bytes, bytes, int]
    ) -> None:
        """Asks the helper for a signature, and then counts it as a use of the key."""
        self.put(Ask(asker, self.mono), formats.sign_frame, identity.private, *signing)
        if identity.uses is not None:
            identity.uses -= 1
            if identity.uses == 0:
                del self.identities[signing[0]]
            self.seen["use: last" if identity.uses == 0 else "use: more are left"] += 1

    def settle(self, asker: int, reply: bytes, how: str) -> None:
        """Gives a client what it waits for, where it hasn't left."""
        self.seen[how] += 1
        self.seen["answer: asker left"] += asker not in self.ports
        if asker in self.ports:
            self.ports[asker].waits = False
            self.ports[asker].owed += string(reply)

    def lose_helper(self, why: str) -> None:
        self.seen[f"helper lost: {why}"] += 1
        failed, self.asks = self.asks, {}
        self.tickets.pop(self.helper, None)
        self.helper, self.helper_port, self.unsent = None, None, bytearray()
        for ask in failed.values():
            self.settle(ask.asker, FAILURE, "cause: helper lost")

    def end_confirmation(self, job: int) -> Confirmation:
        confirmation = self.confirmations.pop(job)
        self.tickets.pop(job, None)
        self.close(confirmation.port)
        return confirmation

    def deny(self, job: int, why: str) -> None:
        self.settle(self.end_confirmation(job).asker, FAILURE, f"cause: confirmation: {why}")

    def grant(self, job: int) -> None:
        """What was tested at the request is tested again."""
        told = self.end_confirmation(job)
        identity = self.identities.get(told.signing[0])
        try:
            demand(self.passphrase is None, "locked")
            demand(identity is not None and identity.addition == told.addition, "not held")
            self.may_sign(self.ports[told.asker], identity, told.signing, "granted")
            self.put_signing(told.asker, identity, told.signing)
            self.seen["confirmation: granted"] += 1
        except Fault as cause:
            self.settle(told.asker, FAILURE, f"cause: granted: {cause}")

    def listen(self, number: int, child: Port) -> None:
        """A child's first message names its job, and those behind it are answers."""
        try:
            while number in self.ports:
                body = take_frame(child.heard, LIMITS["body of a child"])
                if body is None:
                    return
                self.above("body of a child", len(body))
                told = formats.from_child(body)
                if child.job is None:
                    self.hello(number, child, *told)
                elif number == self.helper_port:
                    self.helped(*told)
                else:
                    demand(told[:2] == ("GRANTED", child.job), f"not granted: {told[0]}")
                    self.grant(child.job)
        except Fault as fault:
            self.close(number)
            if child.job is None:
                self.seen[f"hello: {fault}"] += 1
            elif number == self.helper_port:
                self.lose_helper(str(fault))
            else:
                self.deny(child.job, str(fault))

    def hello(self, number: int, child: Port, kind: str, job: int, ticket: bytes) -> None:
        demand(kind == "HELLO", "no hello")
        demand(job in self.tickets, "no such job")
        demand(ticket == self.tickets[job], "another ticket")
        del self.tickets[job]
        child.job = job
        if job == self.helper:
            self.helper_port, child.owed, self.unsent = number, self.unsent, bytearray()
        else:
            self.confirmations[job].port = number
            child.owed += self.confirmations[job].frame
        self.seen["hello"] += 1

    def helped(self, kind: str, number: int, signature: bytes) -> None:
        """The helper answers an ask."""
        verified = kind in ("TRUE", "FALSE")
        demand(verified or kind in ("SIGNED", "REFUSED"), "no answer")
        demand(number in self.asks, "not pending")
        ask = self.asks[number]
        demand(verified == (ask.binding is not None), "wrong kind")
        del self.asks[number]
        if kind == "TRUE" and ask.new and ask.asker in self.ports:
            self.ports[ask.asker].chain.append(ask.binding)
        replies = {"SIGNED": b"\x0e" + string(signature), "TRUE": SUCCESS}
        again = " again" * (kind == "TRUE" and not ask.new)
        self.settle(ask.asker, replies.get(kind, FAILURE), f"helper: {kind}{again}")
