"""Keys, certificates, logins, constraints and messages, each read to its first fault.

draft-miller-ssh-agent; RFC 4252; OpenSSH's PROTOCOL files; docs/PROTOCOL.md for what is ours.
"""

from collections.abc import Iterator
from dataclasses import dataclass
from functools import lru_cache
from typing import Any

from .wire import Fault, Reader, demand, matches, string, uint32, uint64, within

ED25519, RSA, STAND_IN = b"ssh-ed25519", b"ssh-rsa", b"keyed-sha256@example.com"
CURVES = {b"ecdsa-sha2-" + name: name for name in (b"nistp256", b"nistp384", b"nistp521")}
CERTIFIED = b"-cert-v01@openssh.com"
BIND = b"session-bind@openssh.com"
RESTRICT = b"restrict-destination-v00@openssh.com"
USES = b"uses-v00@example.com"
PURPOSES = b"purposes-v00@example.com"

# A field has so many bytes, is these bytes, is a number of at most 2,048 bytes behind its zeros, or
# (None) is any string.
NUMBER = "number"
Fields = list[int | bytes | str | None]
Forms = dict[bytes, Fields]

# The fields of a public key blob, behind its type.
PUBLIC: Forms = {ED25519: [32], RSA: [None] * 2, STAND_IN: [32]}
PUBLIC |= {name: [curve, None] for name, curve in CURVES.items()}
# The fields of an addition: those in the place of the blob's, and those behind them or behind a
# certificate.
ADDED: Forms = PUBLIC | {RSA: [NUMBER] * 2}
PRIVATE: Forms = {ED25519: [64], RSA: [NUMBER] * 4, STAND_IN: [32]}
PRIVATE |= {name: [NUMBER] for name in CURVES}
BEHIND_CERTIFICATE: Forms = PRIVATE | {ED25519: [32, 64]}


def fields(reader: Reader, forms: Fields) -> list[bytes]:
    taken = []
    for form in forms:
        text = reader.string()
        demand(not isinstance(form, int) or len(text) == form, "BadLength")
        demand(form != NUMBER or len(text.lstrip(b"\0")) <= 2048, "BadLength")
        demand(not isinstance(form, bytes) or text == form, "Mismatch")
        taken.append(text)
    return taken


def plain_type(key_type: bytes) -> bytes:
    """The type without its mark of a certificate; the stand-in type has no certificates."""
    plain = key_type.removesuffix(CERTIFIED)
    demand(plain in PUBLIC and (plain == key_type or plain != STAND_IN), "UnknownType")
    return plain


def strings(text: bytes) -> Iterator[bytes]:
    """The strings that fill a text."""
    reader = Reader(text)
    while not reader.is_done():
        yield reader.string()


@dataclass(frozen=True)
class Certificate:
    kind: int
    principals: list[bytes]
    after: int
    before: int
    critical: bytes
    signer: bytes

    def is_good_for(self, host: bytes, wall: int) -> bool:
        if self.kind != 2 or self.critical != b"" or not self.after <= wall < self.before:
            return False
        return not self.principals or any(matches(host, name) for name in self.principals)


@dataclass(frozen=True)
class PublicKey:
    key_type: bytes
    plain_blob: bytes
    certificate: Certificate | None

    def fits(self, algorithm: bytes) -> bool:
        """Whether the key signs by this algorithm (RFC 8332, section 3)."""
        mark = self.key_type.removeprefix(RSA)
        by_hash = (b"rsa-sha2-256" + mark, b"rsa-sha2-512" + mark)
        return algorithm == self.key_type or (mark != self.key_type and algorithm in by_hash)


@lru_cache(256)
def public_key(blob: bytes) -> PublicKey:
    reader = Reader(blob)
    key_type = reader.string()
    plain = plain_type(key_type)
    certified = plain != key_type
    if certified:
        reader.string()  # nonce
    own = fields(reader, PUBLIC[plain])
    certificate = None
    if certified:
        reader.uint64()  # serial
        kind, _, principals = reader.uint32(), reader.string(), list(strings(reader.string()))
        after, before, critical = reader.uint64(), reader.uint64(), reader.string()
        _, _, signer, _ = (reader.string() for _ in range(4))  # extensions, reserved; signature
        certificate = Certificate(kind, principals, after, before, critical, signer)
    reader.end()
    return PublicKey(key_type, string(plain) + b"".join(map(string, own)), certificate)


def added_key(reader: Reader) -> tuple[bytes, bytes]:
    """The blob of an added key, and its bytes as they came."""
    start = reader.at
    key_type = reader.string()
    plain = plain_type(key_type)
    if plain != key_type:
        blob = reader.string()
        demand(public_key(blob).key_type == key_type, "Mismatch")
        fields(reader, BEHIND_CERTIFICATE[plain])
    else:
        own = fields(reader, ADDED[plain])
        if plain == RSA:
            own.reverse()  # an addition has n first, and a blob e
        blob = string(plain) + b"".join(map(string, own))
        fields(reader, PRIVATE[plain])
    return blob, reader.text[start : reader.at]


def is_of_key(named: bytes, blob: bytes) -> bool:
    """Whether a blob names the key of another: it is the plain one or a certificate, as that may be."""
    try:
        return public_key(named).plain_blob == public_key(blob).plain_blob
    except Fault:
        return False


def login(message: bytes, blob: bytes, widely: bool = False) -> tuple[bytes, bytes, bytes | None]:
    """The session, the user and the host key of a message that logs in with this key. Widely: by any blob of the key,
    whatever the host key's text is."""
    reader = Reader(message)
    session = reader.string()
    demand(session != b"", "EmptySession")
    demand(reader.byte() == 50, "NotRequest")
    user = reader.string()
    demand(reader.string() == b"ssh-connection", "Service")
    method, host_key = reader.string(), None
    bound = method == b"publickey-hostbound-v00@openssh.com"
    demand(bound or method == b"publickey", "Method")
    demand(reader.byte() == 1, "NoSignatureFlag")
    algorithm = reader.string()
    named = reader.string()
    demand(is_of_key(named, blob) if widely else named == blob, "OtherKey")
    demand(within("Algorithm", public_key, named).fits(algorithm), "Algorithm")
    if bound:
        host_key = reader.string()
        if not widely:
            within("HostKey", public_key, host_key)
    reader.end()
    return session, user, host_key


@dataclass(frozen=True)
class Hop:
    user: bytes
    host: bytes
    keys: list[tuple[bytes, bool]]  # blobs, and whether they are authorities


def hop(text: bytes) -> Hop:
    reader, keys = Reader(text), []
    user, host = reader.string(), reader.string()
    demand(reader.string() == b"", "Reserved")
    while not reader.is_done():
        blob = reader.string()
        within("Key", public_key, blob)
        keys.append((blob, reader.byte() != 0))
    return Hop(user, host, keys)


@lru_cache(64)
def destination(text: bytes) -> tuple[Hop, Hop]:
    """A destination constraint: from where, and to where."""
    reader = Reader(text)
    source = hop(reader.string())
    demand(source.user == b"", "FromUser")
    demand(bool(source.host) == bool(source.keys), "FromHalf")
    target = hop(reader.string())
    demand(target.host != b"" and target.keys != [], "ToHalf")
    demand(reader.string() == b"", "Reserved")
    demand(reader.is_done(), "Short")
    return source, target


def purposes(text: bytes) -> set[bytes]:
    """The words for what a key is for, which fill a text."""
    taken: set[bytes] = set()
    for word in strings(text):
        demand(len(taken) < 64, "Purpose Many")
        demand(len(word) <= 255, "Purpose Long")
        namespace = word.removeprefix(b"sshsig:")
        known = word in (b"login", b"sshsig", b"certificate", b"other") or namespace not in (b"", word)
        demand(known, "Purpose Unknown")
        demand(word not in taken, "Purpose Twice")
        taken.add(word)
    demand(bool(taken), "Purpose Missing")
    return taken


def constraints(text: bytes) -> dict[str, Any]:
    """The lifetime, the wish for confirmation, the uses, the purposes and the rules, as far as they are there."""
    reader, terms = Reader(text), {}
    while not reader.is_done():
        kind = reader.byte()
        if kind == 255:
            name = {RESTRICT: "rules", USES: "uses", PURPOSES: "purposes"}.get(reader.string())
        else:
            name = {1: "life", 2: "confirm"}.get(kind)
        demand(name is not None, "Unknown")
        demand(name not in terms, "Twice")
        if name == "life":
            terms[name] = reader.uint32()
        elif name == "confirm":
            terms[name] = True
        elif name == "uses":
            terms[name] = reader.uint32()
            demand(terms[name] != 0, "NoUses")
        elif name == "purposes":
            terms[name] = purposes(reader.string())
        else:
            terms[name] = [destination(each) for each in strings(reader.string())]
            demand(terms[name] != [], "NoRules")
    return terms


def request(body: bytes) -> list:
    """The number of a request and its fields; constraints as they came."""
    demand(body != b"", "Empty")
    reader = Reader(body)
    taken: list = [reader.byte()]
    if taken == [13]:
        taken += [reader.string(), reader.string(), reader.uint32()]
    elif taken in ([17], [25]):
        rest = reader.rest if taken == [25] else bytes
        taken += [*added_key(reader), reader.string(), rest()]
    elif taken in ([18], [22], [23]):
        taken += [reader.string()]
    elif taken == [27]:
        taken += [reader.string()]
        if taken[1] != BIND:
            return taken  # whatever an unknown extension contains
        taken += [reader.string(), reader.string(), reader.string(), reader.byte() != 0]
    elif taken not in ([11], [19]):
        return taken
    reader.end()
    if taken[0] == 27:
        public_key(taken[2])
    return taken


def sign_frame(ask: int, private: bytes, blob: bytes, message: bytes, flags: int) -> bytes:
    texts = string(private) + string(blob) + string(message)
    return string(b"\x01", uint64(ask), texts, uint32(flags))


def verify_frame(ask: int, host_key: bytes, signature: bytes, session: bytes) -> bytes:
    return string(b"\x02", uint64(ask), string(host_key), string(signature), string(session))


def confirm_frame(job: int, text: bytes) -> bytes:
    return string(b"\x03", uint64(job), string(text))


FROM_CHILD = {1: "HELLO", 101: "SIGNED", 102: "REFUSED", 103: "TRUE", 104: "FALSE"}
FROM_CHILD |= {105: "GRANTED", 106: "DENIED"}


def from_child(body: bytes) -> tuple[str, int, bytes]:
    """The kind of a child's message, its number, and its ticket or signature."""
    reader = Reader(body)
    kind = FROM_CHILD.get(reader.byte(), "")
    demand(kind != "", "Kind")
    number = reader.uint64()
    text = reader.string() if kind in ("HELLO", "SIGNED") else b""
    demand(kind != "HELLO" or len(text) == 16, "TicketLength")
    reader.end()
    return kind, number, text
