"""Literal rows of short runs: ports that are held, lines that are refused, and moments."""

from __future__ import annotations

from .rows import K1, LIST, NO, NOTHING, OK, ONE, hear, listing, row, to
from .rows_children import hello, put1
from .rows_rules import EVERY_ROW as EARLIER
from .rows_rules import GRANT1, ORIGIN, RAISED, RAISED_PRINT, hop, rule, ruled

EMPTY, HEAR_LIST = to(1, NOTHING), hear(1, LIST)
UNKNOWN = b"\xc8"

# Ports that are held

for name, schedule, printed in [
    (
        "a held port takes in pieces, and all once it is free",
        ["join client", "hold 1", *HEAR_LIST, "take 1 4", "take 1 1", *HEAR_LIST, "free 1"],
        ["to 1 00000005", "to 1 0c", "to 1 00000000", EMPTY],
    ),
    (
        "a held port takes two replies, one behind the other",
        ["join client", "hold 1", *hear(1, LIST, LIST), "take 1 9", "take 1 9"],
        [EMPTY, EMPTY],
    ),
    (
        "a bad length closes once the reply was taken in pieces",
        ["join client", "hold 1", "hear 1 000000010b00000000", "take 1 8", "take 1 1"],
        ["to 1 000000050c000000", "to 1 00", "close 1"],
    ),
    (
        "another port takes while one is held",
        ["join client", "join client", "hold 1", *HEAR_LIST, *hear(2, LIST), "free 1"],
        [to(2, NOTHING), EMPTY],
    ),
    (
        "two held ports are freed, the second first",
        [*["join client"] * 3, "hold 2", "hold 1", *hear(1, UNKNOWN), *hear(2, UNKNOWN)]
        + [*hear(3, UNKNOWN), "free 2", "free 1"],
        [to(3, NO), to(2, NO), to(1, NO)],
    ),
    (
        "a port is held and freed twice",
        ["join client", "hold 1", "hold 1", "free 1", "free 1", *hear(1, UNKNOWN)],
        [to(1, NO)],
    ),
    ("a held port takes nothing by itself", ["join client", "hold 1", *HEAR_LIST], []),
    (
        "a held port ends with what it is owed",
        ["join client", "hold 1", *HEAR_LIST, "end 1", "join client", *hear(2, UNKNOWN)],
        ["close 1", to(2, NO)],
    ),
    (
        "a port is held behind a close",
        ["join client", "join client", "end 1", "hold 2", "free 2", *hear(2, UNKNOWN)],
        ["close 1", to(2, NO)],
    ),
    (
        "a port is freed that wasn't held",
        ["join client", "join client", "hear 1 00000000", "free 2", "hold 2"],
        ["close 1"],
    ),
    (
        "more is taken than is owed, by one byte",
        ["join client", "hold 1", *HEAR_LIST, "take 1 10"],
        ["refused 4 order"],
    ),
    ("nothing is owed", ["join client", "take 1 1"], ["refused 2 order"]),
    (
        "a port that isn't held took all itself",
        ["join client", *HEAR_LIST, "take 1 1"],
        [EMPTY, "refused 3 order"],
    ),
    (
        "the greatest count is taken",
        ["join client", "hold 1", *hear(1, UNKNOWN), "take 1 5", "take 1 18446744073709551615"],
        [to(1, NO), "refused 5 order"],
    ),
    ("a port is held before any", ["hold 1"], ["refused 1 port"]),
    ("a port is freed that isn't there yet", ["join client", "free 2"], ["refused 2 port"]),
    ("port 0 takes", ["take 0 1"], ["refused 1 port"]),
    (
        "a port is freed that ended",
        ["join client", "hold 1", "end 1", "free 1"],
        ["close 1", "refused 4 port"],
    ),
    ("nothing is taken before any port", ["take 1 0"], ["refused 1 number"]),
    ("half a byte before any port", ["hear 1 0"], ["refused 1 hex"]),
    ("a port that is no number, and half a byte", ["hear x 0"], ["refused 1 number"]),
    (
        "moments print nothing",
        ["at 5 7", "join client", "at 3 18446744073709551615", *HEAR_LIST, "at 5 7"],
        [EMPTY],
    ),
    (
        "a moment while a port is held",
        ["join client", "hold 1", *hear(1, UNKNOWN), "at 9 9", "free 1"],
        [to(1, NO)],
    ),
    ("a moment of three numbers", ["at 0 1 2"], ["refused 1 word"]),
    ("a moment whose second number is empty", ["at 0 "], ["refused 1 number"]),
]:
    row(name, schedule, printed)

# Requests, and child processes

row("a start fails that nobody asked for", ["join child", "failed 1"], ["refused 2 order"])
row(
    "an empty agent removes all, a request that is cut off behind its number, and the number 255",
    ["join client", *hear(1, b"\x13", b"\x0d", b"\xff", LIST)],
    [to(1, OK), to(1, NO), to(1, NO), EMPTY],
)
row(
    "a key for one destination is listed where nothing is bound",
    ["join client", *hear(1, ruled(rule(ORIGIN, hop(b"", b"h", (K1, 0)))), LIST)],
    [to(1, OK), to(1, listing(ONE))],
)
row(
    "a grant in two pieces asks the helper",
    [*RAISED, GRANT1[:19], "hear 2 " + GRANT1[19:], "started 2 " + "00" * 16, "join child"]
    + hear(4, hello(2)),
    [*RAISED_PRINT, "start 2 helper", "close 2", to(4, put1(1, b"abc"))],
)

EVERY_ROW = EARLIER  # with those of the files that this one stands on
