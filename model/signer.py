"""The helper that signs: what it sends, what it hands on to a helper behind it, and how it ends.

RFC 8032, section 5.1 (ed25519.py), SEC 1 and RFC 6979 (ecdsa.py), RFC 8017; RFC 8709, RFC 5656, section 3.1, RFC 4253,
section 6.6, and RFC 8332 for keys and signatures, OpenSSH's PROTOCOL.certkeys; docs/PROTOCOL.md, "Keys" and "Messages of
child processes", and docs/DECISIONS.md, "RSA".
"""

import hashlib
from collections.abc import Callable
from dataclasses import dataclass
from typing import NoReturn, Protocol

from . import ed25519
from .ecdsa import KEPT_P256, KEPT_P384, KEPT_P521, Curve
from .formats import CERTIFIED, ED25519, RSA, from_child
from .tools import BAD_FRAME, DONE, USAGE, End, hello, next_body, to_child
from .wire import Fault, Reader, demand, string, uint64

# RFC 5656, sections 3.1 and 10.1.
CURVES = {b"nistp256": KEPT_P256, b"nistp384": KEPT_P384, b"nistp521": KEPT_P521}
ECDSA = {b"ecdsa-sha2-" + name: name for name in CURVES}
SIGN, SIGNED, REFUSED, TRUE, FALSE = 1, b"\x65", b"\x66", b"\x67", b"\x68"
HASHES = {b"ssh-rsa": "sha1", b"rsa-sha2-256": "sha256", b"rsa-sha2-512": "sha512"}
# RFC 8017, section 9.2, note 1.
DIGEST_INFO = {
    "sha1": bytes.fromhex("3021300906052b0e03021a05000414"),
    "sha256": bytes.fromhex("3031300d060960864801650304020105000420"),
    "sha512": bytes.fromhex("3051300d060960864801650304020305000440"),
}

# What the helper behind replies to a request's body: a body, or None where it ends, isn't there or says nothing.
Behind = Callable[[bytes], bytes | None]


@dataclass
class Transcript:
    sent: bytes
    handed: list[bytes]
    status: int


class OtherKey(Exception):
    """The request is for the helper behind."""


def fault(name: str) -> NoReturn:
    raise Fault(name)


def key_type(text: bytes) -> bytes:
    """The first string of a blob or of a private string; no bytes where it has none."""
    try:
        return Reader(text).string()
    except Fault:
        return b""


def sized(reader: Reader, length: int) -> bytes:
    text = reader.string()
    demand(len(text) == length, "BadLength")
    return text


def known(reader: Reader, *texts: bytes) -> None:
    for text in texts:
        demand(reader.string() == text, "Mismatch")


def mpint(number: int) -> bytes:
    """RFC 4251, section 5, of a number that isn't negative."""
    return number.to_bytes(number.bit_length() // 8 + 1, "big") if number else b""


def secret_number(reader: Reader) -> int:
    """A number above 0, which may have zeros in front."""
    text = reader.string()
    demand(any(text) and text[0] < 128, "Number")
    return int.from_bytes(text, "big")


def number(reader: Reader) -> int:
    """A number above 0, in the one form of RFC 4251."""
    text = reader.string()
    demand(text != b"" and text == mpint(int.from_bytes(text, "big")), "Number")
    return int.from_bytes(text, "big")


# ---- keys of the types that are known


class Key(Protocol):
    """A public key. What its private string has of it, how it signs with what follows that, and what it accepts."""

    def public_strings(self) -> list[bytes]: ...

    def sign(self, private: Reader, certified: bool, message: bytes, flags: int) -> bytes: ...

    def accepts(self, message: bytes, signature: bytes) -> bool: ...


@dataclass
class Ed25519Key:
    public: bytes

    @classmethod
    def read(cls, reader: Reader) -> Key:
        return cls(sized(reader, 32))

    def public_strings(self) -> list[bytes]:
        return [self.public]

    def sign(self, private: Reader, certified: bool, message: bytes, flags: int) -> bytes:
        if certified:
            known(private, self.public)
        secret = sized(private, 64)
        demand(secret[32:] == self.public, "Mismatch")
        demand(ed25519.public_key(secret[:32], ed25519.kept_times) == self.public, "Mismatch")
        return string(ED25519) + string(ed25519.sign(secret[:32], message, ed25519.kept_times))

    def accepts(self, message: bytes, signature: bytes) -> bool:
        reader = Reader(signature)
        demand(reader.string() == ED25519, "Algorithm")
        signed = sized(reader, 64)
        reader.end()
        return ed25519.verify(self.public, message, signed, ed25519.kept_times)


@dataclass
class EcdsaKey:
    name: bytes
    point: bytes

    @classmethod
    def reader_of(cls, name: bytes) -> Callable[[Reader], Key]:
        """What reads keys over the curve of this name."""

        def read(reader: Reader) -> Key:
            known(reader, name)
            return cls(name, sized(reader, 1 + 2 * CURVES[name].size))

        return read

    @property
    def curve(self) -> Curve:
        return CURVES[self.name]

    def public_strings(self) -> list[bytes]:
        return [self.name, self.point]

    def sign(self, private: Reader, certified: bool, message: bytes, flags: int) -> bytes:
        d = secret_number(private)
        demand(0 < d < self.curve.n and self.curve.public_key(d) == self.point, "Mismatch")
        signed = self.curve.sign(d, message)
        r, s = (int.from_bytes(half, "big") for half in (signed[: self.curve.size], signed[self.curve.size :]))
        return string(b"ecdsa-sha2-" + self.name) + string(string(mpint(r)) + string(mpint(s)))

    def accepts(self, message: bytes, signature: bytes) -> bool:
        reader = Reader(signature)
        demand(reader.string() == b"ecdsa-sha2-" + self.name, "Algorithm")
        pair = Reader(reader.string())
        reader.end()
        r, s = number(pair), number(pair)
        pair.end()
        octets = self.curve.octets
        return max(r, s) < self.curve.n and self.curve.verify(self.point, message, octets(r) + octets(s))


@dataclass
class RsaKey:
    e: int
    n: int

    @classmethod
    def read(cls, reader: Reader) -> Key:
        return cls(number(reader), number(reader))

    def public_strings(self) -> list[bytes]:
        return [mpint(self.n), mpint(self.e)]

    def size(self) -> int:
        return (self.n.bit_length() + 7) // 8

    def encoded(self, name: bytes, message: bytes) -> int:
        """RFC 8017, section 9.2: EMSA-PKCS1-v1_5."""
        text = DIGEST_INFO[HASHES[name]] + hashlib.new(HASHES[name], message).digest()
        return int.from_bytes(b"\x01" + b"\xff" * (self.size() - len(text) - 3) + b"\x00" + text, "big")

    def opens(self, name: bytes, message: bytes, signed: int) -> bool:
        """RFC 8017, section 8.2.2, for keys of 1024 to 8192 bits whose exponent has at most 64."""
        if not 1024 <= self.n.bit_length() <= 8192 or self.n % 2 == 0 or self.e.bit_length() > 64 or signed >= self.n:
            return False
        return pow(signed, self.e, self.n) == self.encoded(name, message)

    def sign(self, private: Reader, certified: bool, message: bytes, flags: int) -> bytes:
        d, inverse, p, q = (secret_number(private) for _ in range(4))
        demand(all(64 < factor.bit_length() <= 4096 and factor % 2 for factor in (p, q)), "Mismatch")
        demand(d.bit_length() <= 8 * self.size() and inverse.bit_length() <= 8 * ((p.bit_length() + 7) // 8), "Mismatch")
        demand(1024 <= self.n.bit_length() <= 8192, "Mismatch")
        name = b"rsa-sha2-256" if flags & 2 else b"rsa-sha2-512" if flags & 4 else b"ssh-rsa"
        # RFC 8017, section 5.2.1, step 2.b.
        m = self.encoded(name, message)
        first, second = pow(m, d % (p - 1), p), pow(m, d % (q - 1), q)
        signed = second + q * ((first - second) * inverse % p)
        demand(self.opens(name, message, signed), "Mismatch")
        return string(name) + string(signed.to_bytes(self.size(), "big"))

    def accepts(self, message: bytes, signature: bytes) -> bool:
        reader = Reader(signature)
        name = reader.string()
        demand(name in HASHES, "Algorithm")
        signed = reader.string()
        reader.end()
        # Some signers leave zeros in front off.
        return len(signed) <= self.size() and self.opens(name, message, int.from_bytes(signed, "big"))


READS: dict[bytes, Callable[[Reader], Key]] = {ED25519: Ed25519Key.read, RSA: RsaKey.read}
READS |= {algorithm: EcdsaKey.reader_of(name) for algorithm, name in ECDSA.items()}
OURS = (*READS, *(name + CERTIFIED for name in READS))


def plain_key(blob: bytes) -> Key:
    """The key of a plain blob."""
    reader = Reader(blob)
    key = READS.get(reader.string(), lambda _: fault("UnknownType"))(reader)
    reader.end()
    return key


def certified_key(blob: bytes) -> tuple[Key, Reader]:
    """The key of a certificate, and what stands behind."""
    reader = Reader(blob)
    name = reader.string()
    demand(name.endswith(CERTIFIED), "UnknownType")
    reader.string()  # nonce
    return READS[name.removesuffix(CERTIFIED)](reader), reader


# ---- answers


def signature_of(private: bytes, blob: bytes, message: bytes, flags: int) -> bytes:
    """The signature, where the private string is an addition of the very key. Of a certificate, which is the same in
    both, nothing behind the key is read."""
    demand(key_type(blob) in OURS, "UnknownType")
    certified = key_type(blob).endswith(CERTIFIED)
    key = certified_key(blob)[0] if certified else plain_key(blob)
    reader = Reader(private)
    known(reader, key_type(blob), *([blob] if certified else key.public_strings()))
    signature = key.sign(reader, certified, message, flags)
    reader.end()
    return signature


def is_signed(key: Key, message: bytes, signature: bytes) -> bool:
    try:
        return key.accepts(message, signature)
    except Fault:
        return False


def is_sealed(authority: bytes, sealed: bytes, seal: bytes) -> bool:
    """The authority, a plain key, signed, and not by SHA-1."""
    return key_type(seal) != RSA and is_signed(plain_key(authority), sealed, seal)


def is_by_host(host_key: bytes, signature: bytes, session: bytes) -> bool:
    """The host key signed the session, and its authority the certificate, where it has one."""
    if not key_type(host_key).endswith(CERTIFIED):
        return is_signed(plain_key(host_key), session, signature)
    key, reader = certified_key(host_key)
    # serial and type; id and principals; after and before; options, extensions, reserved
    for numbers, strings in ((12, 2), (16, 3)):
        reader.take(numbers)
        for _ in range(strings):
            reader.string()
    authority = reader.string()
    sealed = host_key[: len(host_key) - len(reader.left)]
    seal = reader.string()
    reader.end()
    if key_type(authority) not in OURS:
        raise OtherKey
    return is_signed(key, session, signature) and is_sealed(authority, sealed, seal)


def answer(body: bytes) -> bytes:
    """The answer to a body; `OtherKey` where it is handed on, `Fault` where it is none of a helper's."""
    kind, ask, texts = to_child(body)
    demand(kind != 3, "Kind")
    # The helper behind sees no private key of these types, whatever blob stands beside it.
    if not any(key_type(text) in OURS for text in texts[: 2 if kind == SIGN else 1]):
        raise OtherKey
    try:
        if kind == SIGN:
            return SIGNED + uint64(ask) + string(signature_of(*texts[:3], int.from_bytes(texts[3], "big")))
        return (TRUE if is_by_host(*texts) else FALSE) + uint64(ask)
    except Fault:
        return (REFUSED if kind == SIGN else FALSE) + uint64(ask)


def counted(body: bytes, reply: bytes | None) -> bytes:
    """The answer to a body that was handed on: the reply, where it is one to this very request."""
    kind, ask, _ = to_child(body)
    wanted = ("SIGNED", "REFUSED") if kind == SIGN else ("TRUE", "FALSE")
    try:
        if reply is not None and from_child(reply)[0] in wanted and from_child(reply)[1] == ask:
            return reply
    except Fault:
        pass
    return (REFUSED if kind == SIGN else FALSE) + uint64(ask)


def helper(words: list[str], behind: Behind, peer: bytes) -> Transcript:
    """Words behind the program's name; what the helper behind replies; all that the agent says."""
    told = Transcript(b"", [], DONE)
    try:
        if len(words) not in (3, 4):
            raise End(USAGE)
        told.sent = hello(words)[1]
        heard = Reader(peer)
        while (body := next_body(heard)) is not None:
            try:
                told.sent += string(answer(body))
            except OtherKey:
                told.handed.append(body)
                told.sent += string(counted(body, behind(body) if len(words) == 4 else None))
    except End as end:
        told.status = end.args[0]
    except Fault:
        told.status = BAD_FRAME
    return told
