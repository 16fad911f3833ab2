"""The literal rows of schedules that are alike but for one thing, and whether the outside is told which it was."""

from __future__ import annotations

from dataclasses import dataclass

from .rows import K1, LIST, NO, NOTHING, OK, hear, listing, row, st, stand_in, to, u32, u64
from .rows_children import helper, sign, signed
from .rows_hostile import answer
from .rows_purposes import EVERY_ROW as EARLIER

SECRET, OTHER = b"\x21" * 32, b"\x21" * 31 + b"\x20"  # they differ in one bit


@dataclass
class Pair:
    """Two schedules, and whether more than what a helper is sent differs."""

    what: str
    one: bytes
    other: bytes
    is_told: bool


PAIRS: list[Pair] = []
Lines = tuple[list[str], list[str]]  # a schedule and what it prints


def pair(what: str, one: Lines, other: Lines, is_told: bool) -> None:
    row(f"alike but for {what}: the one", *one)
    row(f"alike but for {what}: the other", *other)
    texts = ["".join(line + "\n" for line in lines).encode() for lines in (one[0], other[0])]
    PAIRS.append(Pair(what, texts[0], texts[1], is_told))


def lines(key: bytes, blob: bytes, comment: bytes, rest: bytes = b"") -> list[str]:
    """A key is added, listed and signed with."""
    added = b"\x11" + key + st(comment) + rest
    asked = hear(1, added, LIST, sign(blob, b"abc"))
    return ["join client", *asked]


def taken(key: bytes, blob: bytes, comment: bytes) -> Lines:
    """The addition is taken, and a helper signs."""
    put = b"\x01" + u64(1) + st(key) + st(blob) + st(b"abc") + u32(0)
    return (
        [*lines(key, blob, comment), *helper(2), *hear(2, signed(1, b"s"))],
        [to(1, OK), to(1, listing((blob, comment))), "start 1 helper", to(2, put)]
        + [to(1, answer(b"s"))],
    )


def refused(key: bytes, blob: bytes, rest: bytes = b"") -> Lines:
    """The addition is refused, and so is the signature."""
    return lines(key, blob, b"one", rest), [to(1, NO), to(1, NOTHING), to(1, NO)]


def keyed(secret: bytes) -> bytes:
    return stand_in(0x11) + st(secret)


WANTED = taken(keyed(SECRET), K1, b"one")
pair("a bit of a private field", WANTED, taken(keyed(OTHER), K1, b"one"), False)
pair("a bit of the comment", WANTED, taken(keyed(SECRET), K1, b"ond"), True)
pair("a byte that a private field lacks", WANTED, refused(keyed(SECRET[1:]), K1), True)
pair("a byte behind the last field", WANTED, refused(keyed(SECRET), K1, b"\0"), True)

# A private field of any length: what goes to the helper has another one.
ECDSA = st(b"ecdsa-sha2-nistp256") + st(b"nistp256") + st(b"Q")
pair(
    "the length of a private field",
    taken(ECDSA + st(SECRET), ECDSA, b"one"),
    taken(ECDSA + st(b"\0" + SECRET), ECDSA, b"one"),
    True,
)


def cut_off(secret: bytes) -> Lines:
    """An addition that ends within its private field, before its client leaves."""
    frame = st(b"\x11" + keyed(secret) + st(b"one"))
    return ["join client", f"hear 1 {frame[:-8].hex()}", "end 1"], ["close 1"]


pair("what a rest holds behind its length", cut_off(SECRET), cut_off(OTHER), False)
pair(
    "the length that a rest announces",
    (["join client", "hear 1 00040000"], []),
    (["join client", "hear 1 00040001"], ["close 1"]),
    True,
)

EVERY_ROW = EARLIER  # with those of the files that this one stands on
