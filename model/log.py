"""The log of a record: a line for each request for a signature that its agent read, with its fate.

    python3 -m model.log [LIFE] [--confirm-limit SECONDS] < RECORD

RECORD is a schedule, LIFE the default lifetime of its keys, SECONDS the limit of questions. The agent
itself says when it reads a request, asks the user, asks its helper and was rid of a reply: no byte is
read a second time.
"""

from __future__ import annotations

import base64
import hashlib
import sys
from collections.abc import Callable
from dataclasses import dataclass
from datetime import datetime, timedelta, timezone

from . import formats
from .agent import Agent, Identity, Port
from .audit import BAD_RECORD, USAGE, Result, choices, written
from .purposes import is_certificate, login_of, may_be_login
from .replay import LONGEST_LINE, LONGEST_SCHEDULE, Run
from .wire import Fault, Reader, demand

WHOLE, READ_FAULT = 0, 3
DIGESTS = {b"sha256": 32, b"sha512": 64}


@dataclass
class Request:
    """A request that was read: of `fields` by number, at this second; how far it went."""

    fields: list
    since: int
    raised: bool = False
    put: int | None = None  # how many helpers were lost when it was put to one


class Told(Agent):
    """An agent that tells the fates of the requests for signatures that it reads."""

    def __init__(self, default_life: int | None) -> None:
        super().__init__(default_life)
        self.lost = self.lost_before = 0  # helpers, now and before the event that happens
        self.clients: dict[int, Request | None] = {}  # in the order in which they first sent
        self.replies: dict[int, int] = {}  # the numbers of those that clients took a part of
        self.comments: dict[bytes, bytes] = {}
        self.lines: list[bytes] = []

    def event(self, mono: int, wall: int, happens: Callable[..., None], *what: object) -> None:
        self.lost_before = self.lost
        super().event(mono, wall, happens, *what)
        for port in self.closes:
            request = self.clients.pop(port, None)
            if request:
                self.tell(request, b"client left")

    def hear(self, number: int, piece: bytes) -> None:
        if self.ports[number].door == "client":
            self.clients.setdefault(number)
        super().hear(number, piece)

    def take(self, number: int, count: int) -> None:
        port = self.ports[number]
        if port.door == "client":
            if number not in self.replies:
                self.replies[number] = port.owed[4]
            if count == len(port.owed):
                self.conclude(number, self.replies.pop(number))
        super().take(number, count)

    def answer(self, number: int, client: Port, body: bytes) -> bytes | None:
        try:
            fields = formats.request(body)
        except Fault:
            fields = [0]
        self.clients[number] = Request(fields, self.wall)
        return super().answer(number, client, body)

    def sign(self, number: int, client: Port, blob: bytes, message: bytes, flags: int) -> None:
        questions = self.last["job"], len(self.confirmations)
        super().sign(number, client, blob, message, flags)
        if (self.last["job"], len(self.confirmations)) == (questions[0] + 1, questions[1] + 1):
            self.request(number).raised = True

    def put_signing(
        self, asker: int, identity: Identity, signing: tuple[bytes, bytes, int]
    ) -> None:
        super().put_signing(asker, identity, signing)
        self.request(asker).put = self.lost

    def lose_helper(self, why: str) -> None:
        self.lost += 1
        super().lose_helper(why)

    def request(self, number: int) -> Request:
        request = self.clients[number]
        assert request is not None
        return request

    def conclude(self, number: int, reply: int) -> None:
        """A client took a whole reply."""
        request = self.request(number)
        self.clients[number] = None
        if request.fields[0] in (17, 25) and reply == 6:
            self.comments[request.fields[1]] = request.fields[3]
        if reply == 14:
            self.tell(request, b"signed")
        elif request.put is None:
            self.tell(request, b"refused")
        elif request.put == self.lost_before:
            self.tell(request, b"refused by the helper")
        else:
            self.tell(request, b"refused, the helper was lost")

    def tell(self, request: Request, fate: bytes, wall: int | None = None) -> None:
        """Tells of a request to sign, and of no other."""
        if request.fields[0] != 13:
            return
        _, blob, message, _ = request.fields
        key = b"key " + fingerprint(blob)
        if blob in self.comments:
            key = b"key %s %s" % (quoted(self.comments[blob]), fingerprint(blob))
        parts = [second(self.wall if wall is None else wall), what(message, blob), key]
        if request.raised:
            agreed = request.put is not None
            parts.append(b"asked, agreed" if agreed else b"asked, no consent that counted")
        self.lines.append(b"  ".join([*parts, fate]) + b"\n")

    def end_all(self) -> None:
        """Tells of what has no fate."""
        for request in self.clients.values():
            if request:
                self.tell(request, b"no answer yet", request.since)


def second(wall: int) -> bytes:
    """The date and the time of a second of UTC. The calendar is the same again after 400 years."""
    eras, rest = divmod(wall, 146097 * 86400)
    day = datetime(1970, 1, 1, tzinfo=timezone.utc) + timedelta(seconds=rest)
    return f"{day.year + 400 * eras:04d}{day:-%m-%dT%H:%M:%SZ}".encode()


def quoted(text: bytes) -> bytes:
    shown = bytes(b if 0x20 <= b <= 0x7E and b != 0x22 else 0x3F for b in text[:256])
    return b'"%s"' % shown


def fingerprint(blob: bytes) -> bytes:
    try:
        plain = formats.public_key(blob).plain_blob
    except Fault:
        return b"(no key)"
    return b"SHA256:" + base64.b64encode(hashlib.sha256(plain).digest()).rstrip(b"=")


def namespace(message: bytes) -> bytes:
    """The namespace of a file's signature (OpenSSH's PROTOCOL.sshsig)."""
    reader = Reader(message)
    demand(reader.take(6) == b"SSHSIG", "Preamble")
    name, _, algorithm, digest = (reader.string() for _ in range(4))
    demand(name != b"" and len(digest) == DIGESTS.get(algorithm), "Sshsig")
    reader.end()
    return name


def what(message: bytes, blob: bytes) -> bytes:
    """What is signed, in words."""
    named = login_of(message, blob)
    if named is not None:
        user, host_key = named
        to = b"" if host_key is None else b" to " + fingerprint(host_key)
        return b"login as " + quoted(user) + to
    try:
        return b"file in namespace " + quoted(namespace(message))
    except Fault:
        told = b"certificate" if is_certificate(message) else b"may be a login" if may_be_login(message) else b"other data"
        return b"%s, %d bytes" % (told, len(message))


class LogRun(Run):
    def __init__(self, default_life: int | None, confirm_limit: int | None = None) -> None:
        super().__init__(default_life, confirm_limit)
        self.agent: Told = Told(default_life)


def log_of(record: bytes, *chosen: int | None) -> Result:
    """The log of a record's whole lines, and the status: a line that isn't whole is refused where it is too long."""
    run = LogRun(*chosen)
    run.text(record[: record.rfind(b"\n") + 1])
    rest = len(record) - record.rfind(b"\n") - 1
    is_long = rest > LONGEST_LINE or run.size + rest > LONGEST_SCHEDULE
    run.agent.end_all()
    return b"".join(run.agent.lines), BAD_RECORD if run.status or is_long else WHOLE


def log(words: list[str], read: Callable[[str], bytes | None]) -> Result:
    """The log of the record that the first word names, by the others. One that can't be read is read as none."""
    name, *others = words
    chosen = choices(others)
    if chosen is None:
        return b"", USAGE
    record = read(name)
    return (b"", READ_FAULT) if record is None else log_of(record, *chosen)


def read_input(_: str) -> bytes | None:
    try:
        return sys.stdin.buffer.read()
    except OSError:
        return None


if __name__ == "__main__":
    sys.exit(written(*log(["-", *sys.argv[1:]], read_input)))
