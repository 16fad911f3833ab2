"""A filter before another agent, from docs/PROTOCOL.md: which requests of a pair of connections it passes on, what each
side is sent, and when the pair is closed."""

from __future__ import annotations

from .purposes import is_by_sha1, purposes_of
from .wire import Fault, Reader, string, take_frame, uint32

LONGEST = 262144
MOST_LINKS, MOST_SPARES = 64, 16
FAILURE = b"\x05"
BIND = b"session-bind@openssh.com"


def reads(body: bytes, number: int, *fields: str) -> list | None:
    """The fields of a message of this number, or None where they aren't the whole of it."""
    reader = Reader(body)
    try:
        if reader.byte() != number:
            return None
        found = [getattr(reader, field)() for field in fields]
        reader.end()
    except Fault:
        return None
    return found


def is_signature_request(body: bytes, listed: set[bytes], purposes: set[bytes] | None) -> bool:
    """A request for a signature with a key that is listed; where purposes are given for one of them, and not by SHA-1."""
    found = reads(body, 13, "string", "string", "uint32")
    if found is None or found[0] not in listed:
        return False
    if purposes is None:
        return True
    return bool(purposes & purposes_of(found[1], found[0])) and not is_by_sha1(found[0], found[2])


def is_bind(body: bytes) -> bool:
    found = reads(body, 27, "string", "string", "string", "string", "byte")
    return found is not None and found[0] == BIND


def identities(body: bytes) -> list[tuple[bytes, bytes]] | None:
    """The entries of an answer that lists keys."""
    if body[:1] != b"\x0c" or len(body) < 5:
        return None
    count = int.from_bytes(body[1:5], "big")
    if 8 * count > len(body):
        return None
    found = reads(body, 12, "uint32", *["string"] * (2 * count))
    return None if found is None else list(zip(found[1::2], found[2::2]))


class Links:
    """The connections of a filter's pairs to the agent behind: how many there are, and the pairs that owe nothing over
    theirs and never bound it, the one first of which it is so longest."""

    def __init__(self) -> None:
        self.count = 0
        self.spares: list[Pair] = []

    def tell(self, pair: Pair) -> None:
        """Something happened to this pair."""
        if not pair.is_spare():
            self.spares = [other for other in self.spares if other is not pair]
        elif pair not in self.spares:
            self.spares.append(pair)
        if self.spares and (len(self.spares) > MOST_SPARES or self.count >= MOST_LINKS):
            self.spares.pop(0).link(False)


class Pair:
    """A client's connection, and at times one of its own to the agent behind. `sent` is what each side was sent, and
    `made` how many connections to the agent behind were made."""

    def __init__(self, listed: set[bytes], purposes: set[bytes] | None = None, links: Links | None = None) -> None:
        self.listed, self.purposes = listed, purposes
        self.links = links or Links()
        self.unread = {"client": bytearray(), "upstream": bytearray()}
        self.sent = {"client": b"", "upstream": b""}
        self.waits: str | None = None
        self.is_open = True
        self.is_linked = False
        self.is_bound = False
        self.made = 0

    def hear(self, side: str, piece: bytes) -> None:
        """A side sends bytes, and each side takes what it is sent. Between an answer and the next request nothing is owed
        to the agent behind, so that for this moment the connection counts as one more that is spare."""
        if self.is_open:
            self.unread[side] += piece
            try:
                while self.request() or self.answer():
                    self.links.tell(self)
            except Fault:
                self.close()
            self.links.tell(self)

    def wants(self, side: str) -> bool:
        """Whether a side is read: not while a whole message of it waits. Its end isn't noticed either then."""
        return (side == "client" or self.is_linked) and take_frame(bytearray(self.unread[side]), LONGEST) is None

    def end(self, side: str) -> None:
        """A side sends no more. Where nothing was under way at the agent behind, its end isn't the pair's."""
        if side == "client" or self.waits or self.is_bound:
            self.close()
        else:
            self.link(False)
        self.links.tell(self)

    def close(self) -> None:
        self.is_open = False
        self.link(False)

    def link(self, is_linked: bool) -> None:
        """There is a connection to the agent behind from here on, or none."""
        self.links.count += is_linked - self.is_linked
        self.made += is_linked and not self.is_linked
        self.is_linked = is_linked

    def is_spare(self) -> bool:
        """Whether there is a connection to the agent behind that isn't needed."""
        return self.is_linked and not self.is_bound and not self.waits

    def request(self) -> bool:
        """Takes the client's next request, where no reply is waited for. Whether there was one."""
        if self.waits:
            return False
        body = take_frame(self.unread["client"], LONGEST)
        if body is None:
            return False
        if body == b"\x0b":
            self.waits = "list"
        elif is_signature_request(body, self.listed, self.purposes) or is_bind(body):
            self.waits = "reply"
        self.sent["upstream" if self.waits else "client"] += string(body if self.waits else FAILURE)
        if self.waits:
            self.link(True)
        self.is_bound = self.is_bound or is_bind(body)
        return True

    def answer(self) -> bool:
        """Takes the answer of the agent behind. Whether there was one."""
        if not self.unread["upstream"]:
            return False
        if not self.waits:
            raise Fault("unasked")
        body = take_frame(self.unread["upstream"], LONGEST)
        if body is None:
            return False
        self.sent["client"] += string(self.cut(body) if self.waits == "list" else body)
        self.waits = None
        # Bytes behind an answer are none to the next request.
        if self.unread["upstream"]:
            raise Fault("behind an answer")
        return True

    def cut(self, body: bytes) -> bytes:
        """The answer to a request for the list, as the client is to see it."""
        if body == FAILURE:
            return FAILURE
        entries = identities(body)
        if entries is None:
            raise Fault("no list")
        kept = [(blob, comment) for blob, comment in entries if blob in self.listed]
        return b"\x0c" + uint32(len(kept)) + b"".join(string(blob) + string(comment) for blob, comment in kept)
