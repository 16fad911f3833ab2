"""Runs the built agent on pairs of schedules that differ only in private fields of added keys.

What clients and confirmers get has to be the same, byte for byte, and so has everything that is
printed but the bytes to helpers, whose lengths have to be. No model is asked: see tests/secrets.sh.
"""

from __future__ import annotations

import argparse
import multiprocessing
import os
import re
import sys
from functools import partial
from random import Random

from .agent import LIMITS
from .differential import Result, run_program, shorten, show
from .formats import CERTIFIED, PRIVATE, added_key
from .generate import Schedule
from .rows_secrets import EVERY_ROW, PAIRS
from .wire import Fault, Reader, string

HEARD = re.compile(rb"hear ([0-9]+) ((?:[0-9a-fA-F]{2})+)")
JOINED = re.compile(rb"join (client|child)")
GIVEN = re.compile(rb"to ([0-9]+) ([0-9a-f]*)")
CONFIRM = b"03"  # the kind of a message that asks the user


def other_secret(added: bytes) -> bytes:
    """An added key with other bytes in its private fields, of equal lengths."""
    fields, at = [], 0
    while at < len(added):
        size = int.from_bytes(added[at : at + 4], "big")
        fields.append(added[at + 4 : at + 4 + size])
        at += 4 + size
    count = len(PRIVATE[fields[0].removesuffix(CERTIFIED)])
    random = Random(added)
    fields[-count:] = [random.randbytes(len(field)) for field in fields[-count:]]
    return b"".join(map(string, fields))


def other_stream(stream: bytes) -> bytes:
    """What a client sends, with another secret in each whole addition that reads."""
    at = 0
    while len(stream) >= at + 4:
        size = int.from_bytes(stream[at : at + 4], "big")
        if not 0 < size <= LIMITS["body of a client"] or len(stream) < at + 4 + size:
            break
        body = stream[at + 4 : at + 4 + size]
        if body[0] in (17, 25):
            try:
                added = added_key(Reader(body[1:]))[1]
            except Fault:
                added = b""
            if added:
                start = at + 5
                stream = stream[:start] + other_secret(added) + stream[start + len(added) :]
        at += 4 + size
    return stream


def with_other_secrets(text: bytes) -> bytes:
    """The schedule in which each whole addition that reads has another secret, cut at the same places."""
    lines = text.split(b"\n")
    heard = [HEARD.fullmatch(line) for line in lines]
    streams: dict[bytes, bytes] = {}
    for told in heard:
        if told:
            streams[told[1]] = streams.get(told[1], b"") + bytes.fromhex(told[2].decode())
    streams = {port: other_stream(stream) for port, stream in streams.items()}
    for place, told in enumerate(heard):
        if told:
            size = len(told[2]) // 2
            piece, streams[told[1]] = streams[told[1]][:size], streams[told[1]][size:]
            lines[place] = b"hear " + told[1] + b" " + piece.hex().encode()
    return b"\n".join(lines)


def to_children(text: bytes) -> set[bytes]:
    """The numbers of the ports that may be a helper's."""
    doors = [match[1] for line in text.split(b"\n") if (match := JOINED.fullmatch(line))]
    return {b"%d" % number for number, door in enumerate(doors, 1) if door == b"child"}


def seen(text: bytes, result: Result) -> tuple[list[bytes], int]:
    """What the outside sees: what goes to a helper counts by its lengths."""
    children, told = to_children(text), []
    streams: dict[bytes, bytes] = {}
    given = [GIVEN.fullmatch(line) for line in result[0].split(b"\n")]
    for line in given:
        if line:
            streams[line[1]] = streams.get(line[1], b"") + line[2]
    helpers = {port for port in children if streams.get(port, b"")[8:10] != CONFIRM}
    for place, line in enumerate(result[0].split(b"\n")):
        match = given[place]
        if match and match[1] in helpers:
            line = b"to %s (%d)" % (match[1], len(match[2]))
        told.append(line)
    return told, result[1]


def differs(program: str, life: int | None, text: bytes) -> bool:
    other = with_other_secrets(text)
    one, two = run_program(program, text, life), run_program(program, other, life)
    return seen(text, one) != seen(other, two)


def try_pair(program: str, seed: str) -> tuple[bool, bool, bytes, int | None]:
    """Whether the two runs differ, and whether the schedule has a secret at all."""
    text, life, _ = Schedule(seed).case()
    return differs(program, life, text), with_other_secrets(text) != text, text, life


def try_rows(program: str) -> int:
    """Every literal row with another secret; how many have one."""
    count = 0
    for row in EVERY_ROW:
        if differs(program, row.life, row.schedule):
            print(f"row '{row.name}' tells a secret")
            sys.exit(1)
        count += with_other_secrets(row.schedule) != row.schedule
    return count


def try_literal_pairs(program: str) -> None:
    """Pairs of literal rows: what isn't secret is told, so that the comparison is not blind, and what is isn't."""
    for pair in PAIRS:
        one, other = (seen(text, run_program(program, text, None)) for text in (pair.one, pair.other))
        if (one != other) != pair.is_told:
            print(f"alike but for {pair.what}: {'nothing' if pair.is_told else 'a secret'} is told")
            sys.exit(1)


def main() -> int:
    parser = argparse.ArgumentParser(prog="tests/secrets.sh")
    parser.add_argument("program")
    parser.add_argument("count", type=int)
    parser.add_argument("seed", nargs="?", default=str(int.from_bytes(os.urandom(4), "big")))
    words = parser.parse_args()
    print(f"seed {words.seed}")
    try_literal_pairs(words.program)
    rows, secrets = try_rows(words.program), 0
    with multiprocessing.Pool() as workers:
        seeds = [f"{words.seed}/{place}" for place in range(words.count)]
        pairs = workers.imap(partial(try_pair, words.program), seeds, 8)
        for told, has_secret, text, life in pairs:
            secrets += has_secret
            if told:
                show("a secret is told", shorten(text, partial(differs, words.program, life)))
                return 1
    print(f"{rows} rows and {secrets} of {words.count} schedules with other secrets: nothing told")
    return 0


if __name__ == "__main__":
    sys.exit(main())
