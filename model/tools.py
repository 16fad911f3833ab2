"""The stand-in helper and the confirmation relay: what they send, and how they end.

docs/PROTOCOL.md, "Messages of child processes"; HMAC is RFC 2104, by Python's own.
"""

import hmac
import re
from dataclasses import dataclass

from .formats import STAND_IN
from .wire import Fault, Reader, demand, string, uint32, uint64

DONE, BAD_FRAME, USAGE, FILE_FAULT, BAD_FILE, TORN_END = 0, 1, 2, 3, 4, 8
LONGEST_BODY = LONGEST_FILE = 1048576


class End(Exception):
    """The program ends, with this status."""


def hello(words: list[str]) -> tuple[int, bytes]:
    """The job of the first words, and the message that names it."""
    good = re.fullmatch("0|[1-9][0-9]{0,19}", words[1]) and int(words[1]) < 2**64
    if not good or not re.fullmatch("[0-9a-fA-F]{32}", words[2]):
        raise End(USAGE)
    job = int(words[1])
    return job, string(b"\x01", uint64(job), string(bytes.fromhex(words[2])))


def next_body(heard: Reader) -> bytes | None:
    """The next message's body; None at the end, which is between two."""
    if not heard.left:
        return None
    try:
        length = heard.uint32()
    except Fault:
        raise End(TORN_END) from None
    if not 1 <= length <= LONGEST_BODY:
        raise End(BAD_FRAME)
    try:
        return heard.take(length)
    except Fault:
        raise End(TORN_END) from None


def to_child(body: bytes) -> tuple[int, int, list[bytes]]:
    """The kind, the number and the strings of a message to a child."""
    reader = Reader(body)
    kind = reader.byte()
    demand(kind in (1, 2, 3), "Kind")
    number = reader.uint64()
    texts = [reader.string() for _ in range(1 if kind == 3 else 3)]
    if kind == 1:
        texts.append(uint32(reader.uint32()))
    reader.end()
    return kind, number, texts


def signature(secret: bytes, data: bytes) -> bytes:
    return string(STAND_IN) + string(hmac.digest(secret, data, "sha256"))


def secrets(data: bytes) -> dict[bytes, bytes]:
    """Tags and secrets of a data file; the first line of a tag counts."""
    if len(data) > LONGEST_FILE:
        raise End(FILE_FAULT)
    *lines, rest = data.split(b"\n")
    known: dict[bytes, bytes] = {}
    for line in lines:
        found = re.fullmatch(rb"([0-9a-fA-F]{64}) ([0-9a-fA-F]{64})", line)
        if not found:
            raise End(BAD_FILE)
        tag, secret = (bytes.fromhex(part.decode()) for part in found.groups())
        known.setdefault(tag, secret)
    if rest:
        raise End(BAD_FILE)
    return known


def helper_answer(body: bytes, known: dict[bytes, bytes]) -> bytes:
    kind, number, texts = to_child(body)
    demand(kind != 3, "Kind")
    if kind == 1:
        private, blob, data, _ = texts
        secret = private[-32:]
        wanted = blob + string(secret)
        if private == wanted and len(blob) == 64 and blob[:28] == string(STAND_IN):
            if blob[28:32] == uint32(32):
                return b"\x65" + uint64(number) + string(signature(secret, data))
        return b"\x66" + uint64(number)
    host_key, told, session = texts
    tags = {string(STAND_IN) + string(tag): secret for tag, secret in known.items()}
    good = host_key in tags and told == signature(tags[host_key], session)
    return (b"\x67" if good else b"\x68") + uint64(number)


@dataclass
class Told:
    """What a program sent to its peer, how it ended, and the words it ran a program with."""

    sent: bytes
    status: int
    ran: list[bytes]


def helper(words: list[str], data: bytes | None, peer: bytes) -> Told:
    """Words behind the program's name; what its data file holds (None: it can't be read)."""
    told = Told(b"", DONE, [])
    try:
        if len(words) not in (3, 4):
            raise End(USAGE)
        _, greeting = hello(words)
        if len(words) == 4 and data is None:
            raise End(FILE_FAULT)
        known = secrets(data or b"") if len(words) == 4 else {}
        told.sent = greeting
        heard = Reader(peer)
        while (body := next_body(heard)) is not None:
            told.sent += string(helper_answer(body, known))
    except End as end:
        told.status = end.args[0]
    except Fault:
        told.status = BAD_FRAME
    return told


def verdict(status: int, output: bytes) -> bool:
    return status == 0 and re.split(rb"[\r\n]", output)[0].lower() in (b"", b"yes")


def relay(words: list[str], answer: tuple[int, bytes] | None, peer: bytes) -> Told:
    """`answer` is the asked program's status and output; None where it can't be run."""
    told = Told(b"", DONE, [])
    try:
        if len(words) != 4:
            raise End(USAGE)
        job, told.sent = hello(words)
        body = next_body(Reader(peer))
        if body is None:
            raise End(TORN_END)
        kind, number, texts = to_child(body)
        demand((kind, number) == (3, job), "Kind")
        demand(all(byte == 10 or 0x20 <= byte <= 0x7E for byte in texts[0]), "prompt")
        if answer is not None:
            told.ran.append(texts[0])
        granted = answer is not None and verdict(*answer)
        told.sent += string(b"\x69" if granted else b"\x6a", uint64(job))
    except End as end:
        told.status = end.args[0]
    except Fault:
        told.status = BAD_FRAME
    return told
