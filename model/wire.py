"""Data types and frames (RFC 4251, section 5), and patterns (ssh_config)."""

import re
from collections.abc import Callable
from typing import Any


class Fault(Exception):
    """Why bytes aren't read, or a request fails: its name."""


def demand(holds: bool, fault: str) -> None:
    if not holds:
        raise Fault(fault)


def within(name: str, read: Callable[..., Any], *given: object) -> Any:
    """Reads a part; its fault is told under the part's name."""
    try:
        return read(*given)
    except Fault as fault:
        raise Fault(f"{name} {fault}") from None


def uint32(value: int) -> bytes:
    return value.to_bytes(4, "big")


def uint64(value: int) -> bytes:
    return value.to_bytes(8, "big")


def string(*parts: bytes) -> bytes:
    text = b"".join(parts)
    return uint32(len(text)) + text


class Reader:
    """Takes one field after another from the front of some bytes."""

    def __init__(self, text: bytes) -> None:
        self.text, self.at = text, 0

    @property
    def left(self) -> bytes:
        return self.text[self.at :]

    def is_done(self) -> bool:
        return self.at == len(self.text)

    def take(self, count: int) -> bytes:
        start, end = self.at, self.at + count
        demand(end <= len(self.text), "Short")
        self.at = end
        return self.text[start:end]

    def byte(self) -> int:
        return self.take(1)[0]

    def uint32(self) -> int:
        return int.from_bytes(self.take(4), "big")

    def uint64(self) -> int:
        return int.from_bytes(self.take(8), "big")

    def string(self) -> bytes:
        return self.take(self.uint32())

    def rest(self) -> bytes:
        return self.take(len(self.text) - self.at)

    def end(self) -> None:
        demand(self.is_done(), "Trailing")


def take_frame(heard: bytearray, longest: int) -> bytes | None:
    """Takes a message's body from the front; None where it isn't whole yet."""
    if len(heard) < 4:
        return None
    end = 4 + int.from_bytes(heard[:4], "big")
    demand(5 <= end <= 4 + longest, "bad length")
    if len(heard) < end:
        return None
    body = bytes(heard[4:end])
    del heard[:end]
    return body


def matches(text: bytes, pattern: bytes) -> bool:
    """`*` stands for any bytes, `?` for one, and each other byte for itself."""
    wild = {b"*": b".*", b"?": b"."}
    parts = [wild.get(byte, re.escape(byte)) for byte in re.findall(rb"(?s:.)", pattern)]
    return re.fullmatch(b"".join(parts), text, re.DOTALL) is not None
