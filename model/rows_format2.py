"""The literal rows of the schedule's format: its line, what stays as it was, and lines for closed ports."""

from __future__ import annotations

import re

from .rows import LIST, NO, ONE, Row, hear, listing, row, to
from .rows_deadlines import ASKED_PRINT, FORMAT2, HELD, IN_FORMAT1, LOST, RAISED, RAISED_PRINT
from .rows_deadlines import EVERY_ROW as EARLIER
from .rows_deadlines import WAITING, WAITING_PRINT, at
from .rows_hostile import SIGN1

# The format's line

row("a schedule of format 2 without another line", [FORMAT2], [])
row("the format behind a line", ["join client", FORMAT2], ["refused 2 word"])
row("the format twice", [FORMAT2, FORMAT2], ["refused 2 word"])
row("the format behind a comment", ["# a comment", FORMAT2], ["refused 2 word"])
row("the format behind an empty line", ["", FORMAT2], ["refused 2 word"])
OTHERS = ["schedule", "schedule 1", "schedule 3", "schedule 02", "schedule 2 ", "schedule  2"]
OTHERS += ["schedule 2 0", "schedule 2\r", "schedule two", "Schedule 2", "schedule\t2", " schedule 2"]
OTHERS += ["schedule2", "schedule 22", "schedule -2", "schedule 18446744073709551616", "schedules 2"]
for line in OTHERS:
    row(f"no format: {line!r}", [line], ["refused 1 word"])
    row(f"no format, and not in line 1: {line!r}", [FORMAT2, line], ["refused 2 word"])

# Earlier rows that no deadline ends


def is_short(earlier: Row) -> bool:
    """Whether its clock stays below 60; the long ones are left out."""
    moments = re.findall(rb"^at ([0-9]+) ", earlier.schedule, re.MULTILINE)
    return len(earlier.schedule) < 4000 and all(int(mono) < 60 for mono in moments)


for earlier in filter(is_short, IN_FORMAT1):
    lines, printed = (text.decode().split("\n")[:-1] for text in (earlier.schedule, earlier.printed))
    if earlier.status:
        _, number, fault = printed.pop().split(" ")
        printed.append(f"refused {int(number) + 1} {fault}")
    elif printed[-1:] == ["end"]:
        printed.pop()
    row(f"{earlier.name}, in format 2", [FORMAT2, *lines], printed, earlier.life, earlier.limit)

# A line for a port that its own moment closed

for name, line in [
    ("bytes from", "hear 2 00"),
    ("the end of", "end 2"),
    ("a taking by", "take 2 1"),
]:
    row(
        f"{name} a port that the line before closed",
        [*WAITING, at(60), line, *hear(1, LIST), "x"],
        [*WAITING_PRINT, *LOST, to(1, listing(ONE)), "refused 11 word"],
    )
    row(
        f"{name} such a port, behind another line",
        [*WAITING, at(60), "# a comment", line],
        [*WAITING_PRINT, *LOST, "refused 10 port"],
    )
    row(
        f"{name} such a port, twice",
        [*WAITING, at(60), line, line],
        [*WAITING_PRINT, *LOST, "refused 10 port"],
    )
    row(
        f"{name} such a port, behind another moment",
        [*WAITING, at(60), at(60), line],
        [*WAITING_PRINT, *LOST, "refused 10 port"],
    )
    row(
        f"{name} a child process whose question the line before ended",
        [*RAISED, at(300), line, "end 1"],
        [*RAISED_PRINT, *LOST, "close 1"],
    )
    row(
        f"{name} a port that has never been there",
        [*WAITING, at(60), line.replace("2", "3", 1)],
        [*WAITING_PRINT, *LOST, "refused 9 port"],
    )
for word in ("hold", "free"):
    row(
        f"{word} of a port that the line before closed",
        [*WAITING, at(60), f"{word} 2"],
        [*WAITING_PRINT, *LOST, "refused 9 port"],
    )
for line, fault in [("hear 2 0", "hex"), ("take 2 0", "number"), ("end 2 2", "word")]:
    row(
        f"{line}, where the line before closed the port",
        [*WAITING, at(60), line],
        [*WAITING_PRINT, *LOST, f"refused 9 {fault}"],
    )
SETTLING = [*HELD, "hear 1 " + hear(1, SIGN1)[0].split()[2] + "00000000"]
row(
    "bytes from a client that the settling of the line before closed",
    [*SETTLING, at(60), "hear 1 00"],
    [*ASKED_PRINT, to(1, NO), "close 1", "refused 6 port"],
)
row(
    "the end of a helper that another line closed",
    [*WAITING, at(59), "end 2", at(60), "end 2"],
    [*WAITING_PRINT, *LOST, "refused 11 port"],
)

EVERY_ROW = EARLIER  # with those of the files that this one stands on
