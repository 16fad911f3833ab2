"""Literal schedules and what they print, by the documents alone and not by the model.

Bytes are put together as the documents describe them.
"""

from __future__ import annotations

from dataclasses import dataclass


@dataclass
class Row:
    name: str
    schedule: bytes
    printed: bytes
    status: int
    life: int | None
    limit: int | None = None


ROWS: list[Row] = []


def row(
    name: str,
    schedule: list[str],
    printed: list[str],
    life: int | None = None,
    limit: int | None = None,
) -> None:
    """A row without a refused line prints `end` at last."""
    refused = printed != [] and printed[-1].startswith("refused")
    output = printed if refused else [*printed, "end"]
    texts = ["".join(line + "\n" for line in lines).encode() for lines in (schedule, output)]
    ROWS.append(Row(name, texts[0], texts[1], int(refused), life, limit))


def u32(number: int) -> bytes:
    return bytes([number >> 24, number >> 16 & 255, number >> 8 & 255, number & 255])


def u64(number: int) -> bytes:
    return u32(number >> 32) + u32(number & 0xFFFFFFFF)


def st(*parts: bytes) -> bytes:
    text = b"".join(parts)
    return u32(len(text)) + text


def hear(port: int, *bodies: bytes) -> list[str]:
    """These messages come from a port, in pieces that a line can hold."""
    text = b"".join(st(body) for body in bodies)
    return [f"hear {port} {text[at:at + 32000].hex()}" for at in range(0, len(text), 32000)]


def to(port: int, *bodies: bytes) -> str:
    return f"to {port} " + b"".join(st(body) for body in bodies).hex()


def listing(*pairs: tuple[bytes, bytes]) -> bytes:
    return b"\x0c" + u32(len(pairs)) + b"".join(st(blob) + st(text) for blob, text in pairs)


def stand_in(tag: int) -> bytes:
    return st(T) + st(bytes([tag]) * 32)


def added(tag: int, comment: bytes = b"") -> bytes:
    return stand_in(tag) + st(bytes([tag + 16]) * 32) + st(comment)


OK, NO, LIST, NOTHING = b"\x06", b"\x05", b"\x0b", b"\x0c" + u32(0)
T = b"keyed-sha256@example.com"
K1, K2, H1, H2 = stand_in(0x11), stand_in(0x12), stand_in(0xA1), stand_in(0xA2)
S1, S2 = b"\xc1" * 32, b"\xc2" * 32
ONE = (K1, b"one")
ADD1, ADD1B = b"\x11" + added(0x11, b"one"), b"\x11" + added(0x11, b"uno")
TERMS1 = b"\x19" + added(0x11, b"one")
USES = b"\xff" + st(b"uses-v00@example.com")


ED25519_CERT = st(b"ssh-ed25519-cert-v01@openssh.com")


def cert(kind: int, names: bytes, critical: bytes = b"", signer: bytes = H2) -> bytes:
    """A certificate of these kind, names, critical options and signer, good from 100 to 200."""
    text = ED25519_CERT + st(b"\x05" * 32) + st(b"\x31" * 32) + u64(1)
    text += u32(kind) + st(b"id") + st(names) + u64(100) + u64(200) + st(critical) + st(b"") * 2
    return text + st(signer) + st(b"x")


def lock(text: bytes) -> bytes:
    return b"\x16" + st(text)


def unlock(text: bytes) -> bytes:
    return b"\x17" + st(text)


def remove(blob: bytes) -> bytes:
    return b"\x12" + st(blob)


# Frames and lines

row("empty schedule", [], [])
row("comments, and a last line without LF", ["# at", "", "join client", "#"], [])
row("list", ["join client", "hear 1 000000010b"], ["to 1 000000050c00000000"])
row(
    "list in five pieces",
    ["join client", "hear 1 00", "hear 1 00", "hear 1 00", "hear 1 01", "hear 1 0b"],
    ["to 1 000000050c00000000"],
)
row("length 0", ["join client", "hear 1 00000000"], ["close 1"])
row(
    "lengths 262144 and 262145",
    ["join client", "hear 1 00040000", "join client", "hear 2 000400", "hear 2 01"],
    ["close 2"],
)
row(
    "a body of 262144 bytes",
    ["join client", *hear(1, b"\xc8" * 262144), *hear(1, LIST)],
    [to(1, NO), to(1, NOTHING)],
)
row(
    "an unknown request",
    ["join client", "hear 1 00000001c8", "hear 1 000000010b"],
    ["to 1 0000000105", "to 1 000000050c00000000"],
)
row("no such port", ["join client", "hear 7 00"], ["refused 2 port"])
row(
    "a closed port",
    ["join client", "end 1", "join client", "end 1"],
    ["close 1", "refused 4 port"],
)
row(
    "one request at a time, and taking in pieces",
    [
        "join client",
        "join client",
        "hold 1",
        *hear(1, LIST, LIST),
        "take 1 8",
        *hear(2, ADD1),
        "take 1 1",
        "take 1 84",
    ],
    ["to 1 000000050c000000", to(2, OK), "to 1 00", to(1, listing(ONE))],
)
row(
    "more than is owed",
    ["join client", "hold 1", *hear(1, LIST), "take 1 9", "take 1 1"],
    ["to 1 000000050c00000000", "refused 5 order"],
)
row("nothing is taken", ["join client", "take 1 0"], ["refused 2 number"])
row(
    "hold and free behind a close",
    ["join client", "join client", "end 2", "hold 1", "free 1", "", "#", *hear(1, LIST), "free 1"],
    ["close 2", to(1, NOTHING)],
)
row(
    "a bad length behind a request",
    ["join client", "hold 1", "hear 1 000000010b00000000", "take 1 9", "hear 1 00"],
    ["to 1 000000050c00000000", "close 1", "refused 5 port"],
)
row(
    "a freed port takes, and then its next request's reply",
    ["join client", "hold 1", *hear(1, LIST, ADD1), "free 1"],
    [to(1, NOTHING), to(1, OK)],
)
for text, fault in [
    ("end ", "number"),
    ("hear  00", "number"),
    ("at 1 ", "number"),
    ("at 1 01", "number"),
    ("at 18446744073709551616 0", "number"),
    ("hear 1 ", "hex"),
    ("hear 1 0", "hex"),
    ("hear 1 0g", "hex"),
    ("hear 2 0g", "hex"),
    ("join client ", "word"),
    ("join", "word"),
    ("join clients", "word"),
    ("end 1\r", "number"),
    ("join client\r", "word"),
    (" ", "word"),
    ("end 1 1", "word"),
    ("END 1", "word"),
    ("take 2 0", "number"),
    ("hold 2", "port"),
    ("free 0", "port"),
]:
    row(f"the line {text!r}", ["join client", text], [f"refused 2 {fault}"])
row("the greatest numbers", ["at 18446744073709551615 18446744073709551615"], [])
row("a line of 65536 bytes", ["#" * 65536, "#" * 65537], ["refused 2 long"])
row("a word of 65537 bytes", ["x" * 65536, "x"], ["refused 1 word"])
row("a word too long", ["x" * 65537], ["refused 1 long"])

# Keys and the lock

row(
    "a key is replaced in its place",
    ["join client"]
    + hear(1, ADD1, LIST, b"\x11" + added(0x12, b"two"), ADD1B, LIST, remove(K1), ADD1, LIST),
    [to(1, OK), to(1, listing(ONE)), to(1, OK), to(1, OK)]
    + [to(1, listing((K1, b"uno"), (K2, b"two"))), to(1, OK), to(1, OK)]
    + [to(1, listing((K2, b"two"), ONE))],
)
row(
    "a lifetime, and a clock that falls",
    ["join client", "at 5 0", *hear(1, TERMS1 + b"\x01" + u32(10)), "at 14 0", *hear(1, LIST)]
    + ["at 3 0", *hear(1, LIST), "at 15 0", *hear(1, LIST)],
    [to(1, OK), to(1, listing(ONE)), to(1, listing(ONE)), to(1, NOTHING)],
)
row(
    "a lifetime that begins while the clock is behind",
    ["join client", "at 14 0", "at 3 0", *hear(1, TERMS1 + b"\x01" + u32(2)), "at 15 0"]
    + [*hear(1, LIST), "at 16 0", *hear(1, LIST)],
    [to(1, OK), to(1, listing(ONE)), to(1, NOTHING)],
)
row(
    "constraints that come twice, are unknown or are cut off",
    ["join client", *hear(1, TERMS1 + b"\x01" + u32(9) + b"\x01" + u32(9), TERMS1 + b"\x02\x02")]
    + hear(1, TERMS1 + b"\x03", TERMS1 + b"\x00", TERMS1 + b"\x01\x00", TERMS1 + b"\xff")
    + hear(1, LIST, TERMS1 + b"\x02\x01" + u32(9), LIST),
    [*[to(1, NO)] * 6, to(1, NOTHING), to(1, OK), to(1, listing(ONE))],
)
row(
    "a number of uses of 0, twice, cut off, and one that is read",
    ["join client", *hear(1, TERMS1 + USES + u32(0), TERMS1 + USES + u32(1) + USES + u32(1))]
    + hear(1, TERMS1 + USES + b"\x00\x00\x01", LIST, TERMS1 + USES + u32(1), LIST),
    [*[to(1, NO)] * 3, to(1, NOTHING), to(1, OK), to(1, listing(ONE))],
)
row(
    "a number of uses while the agent is locked",
    ["join client", *hear(1, lock(b"pw"), TERMS1 + USES + u32(1), unlock(b"pw"), LIST)],
    [to(1, OK), to(1, NO), to(1, OK), to(1, NOTHING)],
)
row(
    "a lifetime of 0",
    ["join client", *hear(1, TERMS1 + b"\x01" + u32(0), LIST)],
    [to(1, OK), to(1, NOTHING)],
)
row(
    "a lifetime past the clock's end",
    ["at 18446744073709551615 0", "join client", *hear(1, TERMS1 + b"\x01" + u32(1), LIST)],
    [to(1, OK), to(1, listing(ONE))],
)
row(
    "an addition without constraints has no lifetime",
    ["join client", *hear(1, TERMS1 + b"\x01" + u32(1), TERMS1), "at 9 0", *hear(1, LIST)],
    [to(1, OK), to(1, OK), to(1, listing(ONE))],
)
row(
    "a default lifetime, and another one",
    ["join client", *hear(1, ADD1, b"\x19" + added(0x12, b"two") + b"\x01" + u32(9), LIST)]
    + ["at 5 0", *hear(1, LIST), "at 9 0", *hear(1, LIST)],
    [to(1, OK), to(1, OK), to(1, listing(ONE, (K2, b"two"))), to(1, listing((K2, b"two")))]
    + [to(1, NOTHING)],
    life=5,
)
row(
    "a default lifetime of 0 is none",
    ["join client", *hear(1, ADD1), "at 5 0", *hear(1, LIST)],
    [to(1, OK), to(1, listing(ONE))],
    life=0,
)
row(
    "the lock",
    ["join client"]
    + hear(1, ADD1, lock(b"pw"), LIST, b"\x0d" + st(K1) + st(b"abc") + u32(0))
    + hear(1, unlock(b"no"), unlock(b"pw"), unlock(b"pw"), LIST),
    [to(1, OK), to(1, OK), to(1, NOTHING), to(1, NO)]
    + [to(1, NO), to(1, OK), to(1, NO), to(1, listing(ONE))],
)
row(
    "an empty passphrase doesn't lock, and a second lock doesn't overwrite the first",
    ["join client", *hear(1, ADD1, lock(b""), LIST, lock(b"a"), lock(b"b"), unlock(b"b"))]
    + hear(1, unlock(b"a"), unlock(b"")),
    [to(1, OK), to(1, NO), to(1, listing(ONE)), to(1, OK), to(1, NO), to(1, NO)]
    + [to(1, OK), to(1, NO)],
)
row(
    "a passphrase's beginning doesn't unlock, nor does a longer one",
    ["join client", *hear(1, lock(b"ab"), unlock(b"a"), unlock(b"abc"), unlock(b"ab"))],
    [to(1, OK), to(1, NO), to(1, NO), to(1, OK)],
)
row(
    "what a locked agent refuses",
    ["join client", *hear(1, ADD1, lock(b"a"), ADD1B, remove(K1), b"\x13", b"\x1b" + st(b"query"))]
    + hear(1, TERMS1 + b"\x03", b"\x0b\x00", b"\x09", unlock(b"a"), LIST),
    [to(1, OK), to(1, OK), *[to(1, NO)] * 7, to(1, OK), to(1, listing(ONE))],
)
row(
    "other extensions and requests",
    ["join client", *hear(1, b"\x1b" + st(b"query"), b"\x1b" + st(b"x@example.com") + b"\x00")]
    + hear(1, b"\x1b" + u32(9), b"\x1b", b"\x01", b"\x09", b"\x14", b"\x15", b"\x1a", b"\x00"),
    [to(1, NO)] * 10,
)
row(
    "all keys are removed, and a later one is there",
    ["join client", *hear(1, ADD1, b"\x11" + added(0x12), b"\x13", LIST, remove(K1), ADD1, LIST)],
    [*[to(1, OK)] * 3, to(1, NOTHING), to(1, NO), to(1, OK), to(1, listing(ONE))],
)
row(
    "bytes behind the last field",
    ["join client", *hear(1, ADD1 + b"\x00", b"\x0b\x00", lock(b"a") + b"\x00", b"\x13\x00", LIST)],
    [*[to(1, NO)] * 4, to(1, NOTHING)],
)
E1 = st(b"ssh-ed25519") + st(b"\x31" * 32)
row(
    "an ed25519 key",
    ["join client", *hear(1, b"\x11" + E1 + st(b"\x32" * 64) + st(b"user@host"), LIST)],
    [to(1, OK), to(1, listing((E1, b"user@host")))],
)
row(
    "an RSA addition has n first, and its blob e",
    [
        "join client",
        *hear(
            1,
            b"\x11"
            + st(b"ssh-rsa")
            + b"".join(map(st, (b"n", b"e", b"d", b"i")))
            + st(b"p")
            + st(b"q")
            + st(b"c"),
            LIST,
        ),
    ],
    [to(1, OK), to(1, listing((st(b"ssh-rsa") + st(b"e") + st(b"n"), b"c")))],
)
LONG = b"\x01" + b"\xff" * 2047
row(
    "a number of an addition has at most 2048 bytes behind its zeros",
    ["join client"]
    + [
        line
        for place, number in [(0, b"\x00\x00" + LONG), *[(n, LONG + b"\x00") for n in range(6)]]
        for line in hear(
            1,
            b"\x11"
            + st(b"ssh-rsa")
            + b"".join(st(number if n == place else b"n") for n in range(6))
            + st(b"c"),
        )
    ]
    + hear(
        1, b"\x11" + st(b"ecdsa-sha2-nistp256") + st(b"nistp256") + st(LONG * 2) + st(LONG) + st(b"")
    )
    + hear(
        1, b"\x11" + st(b"ecdsa-sha2-nistp256") + st(b"nistp256") + st(b"Q") + st(LONG * 2) + st(b"")
    ),
    [to(1, OK), *[to(1, NO)] * 6, to(1, OK), to(1, NO)],
)
row(
    "a curve's name is that of the type",
    ["join client"]
    + [
        line
        for curve in (b"nistp256", b"nistp384")
        for line in hear(
            1, b"\x11" + st(b"ecdsa-sha2-nistp256") + st(curve) + st(b"Q") + st(b"d") + st(b"")
        )
    ],
    [to(1, OK), to(1, NO)],
)
BIG1, BIG2 = b"a" * 131000, b"b" * 130995
row(
    "a list of 262144 bytes is full",
    ["join client", *hear(1, b"\x11" + added(0x11, BIG1)), *hear(1, b"\x11" + added(0x12, BIG2))]
    + [*hear(1, b"\x11" + added(0x13), LIST), *hear(1, b"\x11" + added(0x12, BIG2 + b"b"), LIST)],
    [to(1, OK), to(1, OK), to(1, NO), to(1, listing((K1, BIG1), (K2, BIG2)))]
    + [to(1, NO), to(1, listing((K1, BIG1), (K2, BIG2)))],
)
row(
    "a key is replaced in a full list",
    ["join client", *hear(1, b"\x11" + added(0x11, BIG1)), *hear(1, b"\x11" + added(0x12, BIG2))]
    + hear(1, b"\x11" + added(0x12, BIG2)),
    [to(1, OK), to(1, OK), to(1, OK)],
)
CERT = cert(2, st(b"*.example.org"))
row(
    "a certificate of the type that is named, and of another",
    ["join client"]
    + hear(1, b"\x11" + st(b"ssh-rsa-cert-v01@openssh.com") + st(CERT) + st(b"") * 5)
    + hear(1, b"\x11" + ED25519_CERT + st(CERT) + st(b"\x31" * 32) + st(b"\x32" * 64) + st(b"c"))
    + hear(1, LIST),
    [to(1, NO), to(1, OK), to(1, listing((CERT, b"c")))],
)
row(
    "128 clients, one more, and one in a left one's place",
    [*["join client"] * 129, *hear(128, LIST), "end 5", "join client", *hear(130, LIST)],
    ["close 129", to(128, NOTHING), "close 5", to(130, NOTHING)],
)
