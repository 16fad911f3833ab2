"""An audit: which signatures a helper was asked for in a run, if its record and its deeds fit.

    python3 -m model.audit RECORD DEEDS [LIFE] [--confirm-limit SECONDS]

RECORD is a schedule, DEEDS what some agent printed for it, LIFE the default lifetime of its keys,
SECONDS the limit of questions to the user.
"""

from __future__ import annotations

import os
import re
import sys
from collections.abc import Callable
from itertools import zip_longest

from .add_tool import read_life
from .agent import Agent, Ask
from .replay import Run

LONGEST_FILE = 268435456
YES, DIFFERS, USAGE, FILE_FAULT, BAD_RECORD, WRITE_FAULT = 0, 1, 2, 3, 4, 6
Result = tuple[bytes, int]


class Watched(Agent):
    """An agent that reports what its helper is asked to sign, with the line that is run."""

    def __init__(self, default_life: int | None) -> None:
        super().__init__(default_life)
        self.line = 0
        self.report: list[str] = []

    def put(self, ask: Ask, frame: Callable[..., bytes], *fields: bytes) -> None:
        super().put(ask, frame, *fields)
        if ask.binding is None:
            self.tell(self.last["ask"], ask.asker, fields[1])

    def tell(self, ask: int, port: int, blob: bytes) -> None:
        self.report.append(f"sign {self.line} ask {ask} port {port} key {blob.hex()}")


class WatchedRun(Run):
    """The run of a schedule by such an agent, which knows the line of an event and its settling."""

    def __init__(self, default_life: int | None, confirm_limit: int | None = None) -> None:
        super().__init__(default_life, confirm_limit)
        self.agent: Watched = Watched(default_life)

    def line(self, line: bytes, ended: bool = True) -> None:
        self.agent.line = self.lines + 1
        super().line(line, ended)


def lines_of(text: bytes) -> list[bytes]:
    """The lines of a text, each with its LF where it has one."""
    return re.findall(rb"[^\n]*\n|[^\n]+", text)


def first_difference(one: bytes, other: bytes) -> int | None:
    """The number of the first line, from 1, at which two texts differ."""
    for number, (mine, theirs) in enumerate(zip_longest(lines_of(one), lines_of(other)), 1):
        if mine != theirs:
            return number
    return None


def verdict(record: bytes, deeds: bytes, *chosen: int | None) -> Result:
    """What is printed of a record and its deeds, and the status."""
    run = WatchedRun(*chosen)
    run.text(record)
    if run.status:
        return b"bad %d\n" % run.lines, BAD_RECORD
    line = first_difference(run.output(), deeds)
    if line is not None:
        return b"no %d\n" % line, DIFFERS
    report = run.agent.report
    lines = [*report, f"yes {len(report)}"]
    return "".join(line + "\n" for line in lines).encode(), YES


def choices(words: list[str]) -> tuple[int, int | None] | None:
    """The default lifetime, and the limit of questions: `[LIFE] [--confirm-limit SECONDS]`."""
    words, limit = list(words), None
    if words[-2:-1] == ["--confirm-limit"]:
        limit = read_life(words.pop())
        words.pop()
        if not limit:
            return None
    life = read_life(words[0]) if words else 0
    return None if len(words) > 1 or life is None else (life, limit)


def audit(words: list[str], read: Callable[[str], bytes | None]) -> Result:
    """The audit of these words. A file that can't be read, or is too long, is read as none."""
    chosen = choices(words[2:])
    if len(words) < 2 or chosen is None:
        return b"", USAGE
    record, deeds = read(words[0]), read(words[1])
    if record is None or deeds is None:
        return b"", FILE_FAULT
    return verdict(record, deeds, *chosen)


def read_file(path: str) -> bytes | None:
    try:
        with open(path, "rb") as file:
            text = file.read(LONGEST_FILE + 1)
    except (OSError, ValueError):
        return None
    return text if len(text) <= LONGEST_FILE else None


def written(output: bytes, status: int) -> int:
    """Writes an output; its status, or that of a failed write."""
    try:
        while output:
            output = output[os.write(1, output) :]
    except OSError:
        return WRITE_FAULT
    return status


if __name__ == "__main__":
    sys.exit(written(*audit(sys.argv[1:], read_file)))
