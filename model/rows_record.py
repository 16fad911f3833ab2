"""Literal journals of the loop's calls, and the records of them, put together by hand.

Secrets are the bytes 21, 22 and so on, or texts that a record must not hold.
"""

from __future__ import annotations

from dataclasses import dataclass

from .record import Entry
from .rows import ADD1, CERT, E1, ED25519_CERT, K1, LIST, NO, NOTHING, OK, ONE, T, TERMS1, USES
from .rows import hear, listing, lock, st, to, u32, u64, unlock
from .rows_children import bind, hello, sign, signed
from .rows_rules import GRANT1, ORIGIN, hop, restrict, rule


@dataclass
class RecordRow:
    """What is printed for the record is told where it is worth while."""

    name: str
    journal: list[Entry]
    record: bytes
    printed: bytes | None


ROWS: list[RecordRow] = []
BOUND = [Entry("bind", "client"), Entry("bind", "child")]


def row(
    name: str,
    journal: list[Entry],
    lines: list[str],
    printed: list[str] | None = None,
    start: list[Entry] = BOUND,
) -> None:
    """A journal behind both binds, and what its record has behind the line `schedule 2`."""
    record = text_of(["schedule 2", *lines] if start else lines)
    deeds = None if printed is None else text_of([*printed, "end"])
    ROWS.append(RecordRow(name, [*start, *journal], record, deeds))


def text_of(lines: list[str]) -> bytes:
    return "".join(line + "\n" for line in lines).encode()


def now(mono: int, wall: int) -> Entry:
    return Entry("now", None, (mono, wall))


def then(call: str, about: str | int, answer: object, mono: int = 5, wall: int = 9) -> list[Entry]:
    """A call, and the moment behind it."""
    return [Entry(call, about, answer), now(mono, wall)]


def sent(port: int, *bodies: bytes) -> list[Entry]:
    """Whole messages come in one piece."""
    return then("read", port, b"".join(map(st, bodies)))


POLL = Entry("poll", None)
AT = "at 5 9"
JOIN = then("accept", "client", 1)
JOINED = [AT, "join client"]
HEARD = [*JOINED, AT, "hold 1"]  # and then what is heard

# Moments and ports

row("no call at all", [], [], [], start=[])
row("both binds alone", [], [], [])
row("the first bind alone", [], [], start=BOUND[:1])
row("a bind that failed", [], [], start=[Entry("bind", "client", "Failed")])
row("a moment before a poll", [now(0, 0), POLL, now(7, 8), POLL], ["at 0 0", "at 7 8"], [])
row(
    "a locked agent: the passphrase is its number",
    [now(0, 0), POLL, *JOIN, *then("read", 1, bytes.fromhex("0000000716000000027077"))]
    + then("write", 1, 5),
    ["at 0 0", AT, "join client", AT, "hold 1", "hear 1 00000006160000000131", AT, "take 1 5"],
    ["to 1 0000000106"],
)
FRAME = st(ADD1)
BLANK1 = st(b"\x11" + st(T) + st(b"\x11" * 32) + st(bytes(32)) + st(b"one"))
row(
    "an addition in two pieces is told once it is whole, without its secret",
    [now(0, 0), POLL, *JOIN, *then("read", 1, FRAME[:10]), *then("read", 1, FRAME[10:])]
    + then("write", 1, 5),
    ["at 0 0", AT, "join client", AT, AT, "hold 1", f"hear 1 {BLANK1.hex()}", AT, "take 1 5"],
    ["to 1 0000000106"],
)
row(
    "each event at its own moment",
    [*then("accept", "client", 1, 1, 2), *then("read", 1, st(LIST), 3, 4)]
    + then("write", 1, 4, 2**64 - 1, 0)
    + then("write", 1, 5, 6, 2**64 - 1),
    ["at 1 2", "join client", "at 3 4", "hold 1", "hear 1 000000010b"]
    + ["at 18446744073709551615 0", "take 1 4", "at 6 18446744073709551615", "take 1 5"],
    ["to 1 00000005", "to 1 0c00000000"],
)
row(
    "a child's bytes as they come, and no hold behind the first ones",
    [*then("accept", "child", 1), *then("read", 1, b"\0\0"), *then("read", 1, b"\0\x1d\x01")]
    + then("read", 1, "End"),
    [AT, "join child", AT, "hold 1", "hear 1 0000", AT, "hear 1 001d01", AT, "end 1"],
    ["close 1"],
)
row(
    "a child's bytes that a client's would have hidden",
    [*then("accept", "child", 1), *sent(1, lock(b"pw"), ADD1)],
    [AT, "join child", AT, "hold 1", f"hear 1 {(st(lock(b'pw')) + st(ADD1)).hex()}"],
    ["close 1"],
)
row(
    "a child's longest piece is one line",
    [*then("accept", "child", 1), *then("read", 1, b"\0" * 16384)],
    [AT, "join child", AT, "hold 1", "hear 1 " + "00" * 16384],
    ["close 1"],
)
row(
    "two ports are held, each before it is heard first",
    [*JOIN, *then("accept", "client", 2), *sent(2, LIST), *sent(1, LIST), *sent(2, b"\x13")],
    [AT, "join client", AT, "join client", AT, "hold 2", "hear 2 000000010b"]
    + [AT, "hold 1", "hear 1 000000010b", AT, "hear 2 0000000113"],
    [],
)
row(
    "what is no event has no line",
    [Entry("accept", "client", "NotNow"), now(1, 1), Entry("accept", "client", "Failed")]
    + [now(2, 2), *JOIN, Entry("read", 1, "NotNow"), now(3, 3), Entry("write", 1, "NotNow")]
    + [now(4, 4), Entry("close", 1), now(6, 6)],
    ["at 1 1", "at 2 2", AT, "join client", "at 3 3", "at 4 4", "at 6 6"],
    [],
)
row(
    "a read that failed, and a write that failed, are the ends of their ports",
    [*JOIN, *then("accept", "client", 2), *then("accept", "child", 3), *sent(1, LIST)]
    + [*then("write", 1, "Failed"), Entry("close", 1), *then("read", 2, "Failed")]
    + [Entry("close", 2), *then("read", 3, "End"), Entry("close", 3)],
    [AT, "join client", AT, "join client", AT, "join child", AT, "hold 1", "hear 1 000000010b"]
    + [AT, "end 1", AT, "end 2", AT, "end 3"],
    ["close 1", "close 2", "close 3"],
)
row(
    "a job that is started, and one that can't be",
    [*JOIN, *sent(1, ADD1), *then("write", 1, 5), *sent(1, sign(K1, b"abc"))]
    + [*then("start", 1, "Failed"), *then("write", 1, 5), *sent(1, sign(K1, b"abc"))]
    + then("start", 2, bytes(range(0xF0, 0x100))),
    [*HEARD, f"hear 1 {BLANK1.hex()}", AT, "take 1 5", AT, *hear(1, sign(K1, b"abc"))]
    + [AT, "failed 1", AT, "take 1 5", AT, *hear(1, sign(K1, b"abc"))]
    + [AT, "started 2 f0f1f2f3f4f5f6f7f8f9fafbfcfdfeff"],
    [to(1, OK), "start 1 helper", to(1, NO), "start 2 helper"],
)
row(
    "an event with no moment behind it",
    [*JOIN, Entry("read", 1, st(LIST))],
    JOINED,
    [],
)
row(
    "an event with another call before the next moment",
    [*JOIN, *sent(1, b"\x13"), Entry("write", 1, 5), POLL, now(6, 9)],
    [*HEARD, "hear 1 0000000113", "at 6 9"],
    [],
)
row(
    "a moment that could not be told ends the record",
    [*JOIN, Entry("read", 1, st(LIST)), Entry("now", None, "Memory"), *sent(1, LIST)],
    JOINED,
)
row("an accept that wanted memory", [*JOIN, Entry("accept", "client", "Memory"), now(7, 7)], JOINED)

# Frames

LONG = b"\x0d" * 20000
row(
    "what leaves in one event is told in lines of 16384 bytes",
    [*JOIN, *then("read", 1, st(LONG)[:16384]), *then("read", 1, st(LONG)[16384:])],
    [*JOINED, AT, AT, "hold 1", "hear 1 00004e20" + "0d" * 16380, "hear 1 " + "0d" * 3620],
    [],
)
row(
    "16384 bytes are one line, and one more are two",
    [*JOIN, *then("read", 1, st(b"\x0d" * 16380)), *then("accept", "client", 2)]
    + [*then("read", 2, st(b"\x0d" * 16381)[:9]), *then("read", 2, st(b"\x0d" * 16381)[9:])],
    [*HEARD, "hear 1 00003ffc" + "0d" * 16380, AT, "join client", AT, AT, "hold 2"]
    + ["hear 2 00003ffd" + "0d" * 16380, "hear 2 0d"],
    [],
)
row(
    "frames that come together are told together, and the rest waits for its own end",
    [*JOIN, *then("read", 1, st(LIST) + st(b"\x13") + b"\0\0"), *then("read", 1, b"\0\x01")]
    + [*then("read", 1, b"\x0b\0\0\0"), *then("read", 1, "End")],
    [*HEARD, "hear 1 000000010b0000000113", AT, AT, "hear 1 000000010b", AT, "end 1"],
    ["close 1"],
)
PIECES = [st(b"\x0d" * 262144)[at : at + 16384] for at in range(0, 262148, 16384)]
row(
    "a frame of 262144 bytes",
    JOIN + [entry for piece in PIECES for entry in then("read", 1, piece)],
    [*JOINED, *[AT] * 17, "hold 1", "hear 1 00040000" + "0d" * 16380]
    + [*["hear 1 " + "0d" * 16384] * 15, "hear 1 0d0d0d0d"],
    [],
)
row(
    "a bad length behind a request: its four bytes, nothing behind them, and the takes",
    [*JOIN, *then("read", 1, st(LIST) + b"\0\x04\0\x01secret"), *then("read", 1, b"\0\0\0\x01\x0b")]
    + [*then("write", 1, 4), *then("write", 1, 5), Entry("close", 1)],
    [*HEARD, "hear 1 000000010b00040001", AT, AT, "take 1 4", AT, "take 1 5"],
    ["to 1 00000005", "to 1 0c00000000", "close 1"],
)
row(
    "a bad length in two pieces, and then the end",
    [*JOIN, *then("accept", "client", 2), *sent(2, LIST), *then("read", 2, b"\xff\xff\xff")]
    + [*then("read", 2, b"\xff\0\0\0\x01\x0b"), *then("read", 2, "Failed")],
    [*JOINED, AT, "join client", AT, "hold 2", "hear 2 000000010b", AT, AT, "hear 2 ffffffff"]
    + [AT, "end 2"],
    ["close 2"],
)
row(
    "a length of 0 at once",
    [*JOIN, *then("read", 1, bytes(9)), Entry("close", 1)],
    [*HEARD, "hear 1 00000000"],
    ["close 1"],
)

# Passphrases

FIRST, SECOND, TENTH = "0000000616000000", "0000000617000000", "0000000717000000023130"
row(
    "locks and unlocks share the numbers of their passphrases",
    [*JOIN, *sent(1, lock(b"hunter")), *then("write", 1, 5), *sent(1, unlock(b"Hunter"))]
    + [*then("write", 1, 5), *sent(1, unlock(b"hunter")), *then("write", 1, 5)]
    + [*sent(1, unlock(b"hunter")), *then("write", 1, 5), *sent(1, lock(b"Hunter"))]
    + then("write", 1, 5),
    [*HEARD, f"hear 1 {FIRST}0131", AT, "take 1 5", AT, f"hear 1 {SECOND}0132", AT, "take 1 5"]
    + [AT, f"hear 1 {SECOND}0131", AT, "take 1 5", AT, f"hear 1 {SECOND}0131", AT, "take 1 5"]
    + [AT, f"hear 1 {FIRST}0132", AT, "take 1 5"],
    [to(1, OK), to(1, NO), to(1, OK), to(1, NO), to(1, OK)],
)
row(
    "one client's passphrase is another's too",
    [*JOIN, *then("accept", "client", 2), *sent(1, lock(b"a")), *sent(2, unlock(b"a"))],
    [*JOINED, AT, "join client", AT, "hold 1", f"hear 1 {FIRST}0131", AT, "hold 2"]
    + [f"hear 2 {SECOND}0131"],
    [],
)
row(
    "an empty passphrase stays, and has no number",
    [*JOIN, *sent(1, lock(b""), unlock(b""), lock(b"x"))],
    [*HEARD, "hear 1 0000000516000000000000000517000000000000000616" + "000000" + "0131"],
    [],
)
row(
    "the tenth passphrase has two digits; a passphrase of digits is one like others",
    [*JOIN, *sent(1, *[unlock(b"%d" % place) for place in range(10, 0, -1)])],
    [*HEARD, "hear 1 " + "".join(f"{SECOND}013{n}" for n in range(1, 10)) + TENTH],
    [],
)
row(
    "a lock or an unlock that can't be read is its number alone, and counts for none",
    JOIN + sent(1, b"\x16" + u32(2) + b"p", b"\x17", b"\x17" + st(b"secret") + b"\0", lock(b"q")),
    [*HEARD, "hear 1 000000011600000001170000000117" + FIRST + "0131"],
    [],
)

WORDS = [bytes([place]) * 262139 for place in range(15)]
TRIED = JOIN + [entry for word in WORDS for entry in sent(1, unlock(word))]
COUNTED = [[AT, *hear(1, unlock(b"%d" % place))] for place in range(1, 18)]
WHOLE = [*HEARD, *COUNTED[0][1:], *[line for lines in COUNTED[1:15] for line in lines]]
row(
    "passphrases that take all the room that they may",
    [*TRIED, *sent(1, unlock(bytes(261195))), *sent(1, unlock(WORDS[3]))],
    [*WHOLE, *COUNTED[15], *COUNTED[3]],
)
row(
    "passphrases that take a byte more end the record",
    [*TRIED, *sent(1, unlock(bytes(261196))), *sent(1, LIST)],
    WHOLE,
)

# Additions


def adds(name: str, body: bytes, told: bytes, *printed: str) -> None:
    """A client adds a key, which is recorded so, and takes the answer."""
    row(
        name,
        [*JOIN, *sent(1, body), *then("write", 1, 5)],
        [*HEARD, *hear(1, told), AT, "take 1 5"],
        list(printed) or [to(1, OK)],
    )


ED_CERT = b"\x11" + ED25519_CERT + st(CERT) + st(b"\x31" * 32)
adds(
    "a certificate's addition: the public key stays, the private field is blank",
    ED_CERT + st(b"\x22" * 64) + st(b"c"),
    ED_CERT + st(bytes(64)) + st(b"c"),
)
ED = b"\x11" + E1
adds("an ed25519 key", ED + st(b"\x32" * 64) + st(b"c"), ED + st(bytes(64)) + st(b"c"))
RSA = b"\x11" + st(b"ssh-rsa") + st(b"n") + st(b"e")
adds(
    "an RSA key: n and e stay; d, iqmp, p and q are blank, each of its length",
    RSA + st(b"dd") + st(b"") + st(b"p") + st(b"qqq") + st(b"c"),
    RSA + st(b"\0\0") + st(b"") + st(b"\0") + st(b"\0\0\0") + st(b"c"),
)
RSA_TYPE = st(b"ssh-rsa-cert-v01@openssh.com")
RSA_CERT = RSA_TYPE + st(b"nonce") + st(b"e") + st(b"n") + u64(1) + u32(1) + st(b"id") + st(b"")
RSA_CERT += u64(0) + u64(9) + st(b"") * 4 + st(b"x")
adds(
    "an RSA certificate: four private fields",
    b"\x11" + RSA_TYPE + st(RSA_CERT) + st(b"d") + st(b"ii") + st(b"p") + st(b"q") + st(b"c"),
    b"\x11" + RSA_TYPE + st(RSA_CERT) + st(b"\0") + st(b"\0\0") + st(b"\0") + st(b"\0") + st(b"c"),
)
ECDSA = b"\x11" + st(b"ecdsa-sha2-nistp256") + st(b"nistp256") + st(b"Q")
adds("an ECDSA key: d is blank", ECDSA + st(b"d" * 33) + st(b""), ECDSA + st(bytes(33)) + st(b""))
BLANK_TERMS = b"\x19" + st(T) + st(b"\x11" * 32) + st(bytes(32)) + st(b"one")
TERMS = b"\x01" + u32(10) + b"\x02" + restrict(rule(ORIGIN, hop(b"u", b"h", (K1, 0))))
TERMS += USES + u32(3)
adds("an addition's constraints stay", TERMS1 + TERMS, BLANK_TERMS + TERMS)
adds("an addition with constraints, but none of them", TERMS1, BLANK_TERMS)
adds("a comment stays", TERMS1[:-3] + b"\x21" * 3, BLANK_TERMS[:-3] + b"\x21" * 3)
for what, body in [
    ("with a byte behind it", ADD1 + b"\0"),
    ("that is cut off within its secret", ADD1[:100]),
    ("without a comment", ADD1[:-7]),
    ("of an unknown type", b"\x11" + st(b"ssh-dss") + ADD1[29:]),
    ("whose secret has 31 bytes", b"\x11" + K1 + st(b"\x21" * 31) + st(b"one")),
]:
    adds(f"an addition {what} is its number alone", body, b"\x11", to(1, NO))
for what, terms in [
    ("unknown", b"\x03"),
    ("given twice", b"\x02\x02"),
    ("cut off", b"\x01\0"),
    ("no uses", USES + u32(0)),
    ("no rules", restrict()),
]:
    name = f"an addition whose constraint is {what} is its number alone"
    adds(name, TERMS1 + terms, b"\x19", to(1, NO))
for what, body in [
    ("adds a key of SSH's version 1 under constraints", b"\x18" + ADD1[1:]),
    ("adds one without", b"\x07" + ADD1[1:]),
    ("is a challenge for one", b"\x03" + ADD1[1:]),
    ("adds the keys of a smartcard", b"\x14" + st(b"reader") + st(b"1234")),
    ("removes them", b"\x15" + st(b"reader") + st(b"1234")),
    ("adds them under constraints", b"\x1a" + st(b"reader") + st(b"1234") + b"\x02"),
    ("has the number 0", b"\x00\x01"),
    ("has the number 255", b"\xff" * 9),
    ("is such a number alone", b"\x14"),
]:
    adds(f"a request that isn't served is its number alone: {what}", body, body[:1], to(1, NO))

# What else there is stays

PLAIN = [LIST, LIST + b"\0", sign(K1, b"to be signed"), b"\x0d", bind(K1, b"session", 1)]
OTHERS = [b"\x12" + st(K1), b"\x13", b"\x1b" + st(b"query") + b"\0"]
row(
    "requests without secrets that are served stay as they are, read or not",
    [*JOIN, *sent(1, *PLAIN), *sent(1, *OTHERS)],
    [*HEARD, *hear(1, *PLAIN), AT, *hear(1, *OTHERS)],
)
row(
    "a locked agent's additions are recorded as others are",
    [*JOIN, *sent(1, lock(b"pw")), *then("write", 1, 5), *sent(1, ADD1), *then("write", 1, 5)]
    + [*sent(1, LIST), *then("write", 1, 9)],
    [*HEARD, f"hear 1 {FIRST}0131", AT, "take 1 5", AT, f"hear 1 {BLANK1.hex()}", AT, "take 1 5"]
    + [AT, "hear 1 000000010b", AT, "take 1 9"],
    [to(1, OK), to(1, NO), to(1, NOTHING)],
)

# Whole runs

BLANK_PUT = b"\x01" + u64(1) + st(K1 + st(bytes(32))) + st(K1) + st(b"abc") + u32(0)
row(
    "a signature, from the addition to the answer",
    [now(0, 0), POLL, *JOIN, *sent(1, ADD1), *then("write", 1, 5), *sent(1, sign(K1, b"abc"))]
    + [*then("start", 1, bytes(16)), now(5, 9), POLL, *then("accept", "child", 2)]
    + [*sent(2, hello(1)), *then("write", 2, 100), *then("write", 2, 96)]
    + [*sent(2, signed(1, b"sig")), *then("write", 1, 12), *then("read", 1, "End")]
    + [Entry("close", 1), now(6, 9), POLL],
    ["at 0 0", *HEARD, f"hear 1 {BLANK1.hex()}", AT, "take 1 5", AT, *hear(1, sign(K1, b"abc"))]
    + [AT, "started 1 " + "00" * 16, AT, AT, "join child", AT, "hold 2", *hear(2, hello(1))]
    + [AT, "take 2 100", AT, "take 2 96", AT, *hear(2, signed(1, b"sig")), AT, "take 1 12"]
    + [AT, "end 1", "at 6 9"],
    [to(1, OK), "start 1 helper", f"to 2 {st(BLANK_PUT)[:100].hex()}"]
    + [f"to 2 {st(BLANK_PUT)[100:].hex()}", to(1, b"\x0e" + st(b"sig")), "close 1"],
)
row(
    "an answer that crosses the end of its question is passed over",
    [*JOIN, *sent(1, TERMS1 + b"\x02"), *then("write", 1, 5), *sent(1, sign(K1, b"abc"))]
    + [*then("start", 1, bytes(16)), *then("accept", "child", 2), *sent(2, hello(1))]
    + [*then("read", 2, bytes.fromhex(GRANT1.split(" ")[2]), 305, 9), Entry("close", 2)]
    + [*then("write", 1, 5, 305, 9), *then("read", 1, st(LIST), 305, 9)]
    + then("write", 1, 84, 305, 9),
    [*HEARD, *hear(1, BLANK_TERMS + b"\x02"), AT, "take 1 5", AT, *hear(1, sign(K1, b"abc")), AT]
    + ["started 1 " + "00" * 16, AT, "join child", AT, "hold 2", *hear(2, hello(1)), "at 305 9"]
    + [GRANT1, "at 305 9", "take 1 5", "at 305 9", "hear 1 000000010b", "at 305 9", "take 1 84"],
    [to(1, OK), "start 1 confirm", "close 2", to(1, NO), to(1, listing(ONE))],
)
