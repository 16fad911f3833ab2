"""The literal rows of many at once: keys whose lifetimes end together, and clients that leave one after another."""

from __future__ import annotations

from .rows import LIST, NO, NOTHING, OK, T, TERMS1, hear, listing, remove, row, st, to, u32
from .rows_children import sign
from .rows_deadlines import at, child
from .rows_format2 import EVERY_ROW as EARLIER
from .rows_hostile import SIGN1
from .rows_rules import confirm

# 1,000 keys whose lifetimes end together


def blob(number: int) -> bytes:
    return st(T) + st(u32(number) * 8)


def added_for_ten(number: int) -> bytes:
    """An addition with a lifetime of ten seconds."""
    return b"\x19" + blob(number) + st(bytes(32)) + st(u32(number)) + b"\x01" + u32(10)


NUMBERS = range(1000)
FULL = ["join client", *[line for n in NUMBERS for line in hear(1, added_for_ten(n))]]
FULL_PRINT = [to(1, OK)] * 1000
ALL = listing(*[(blob(n), u32(n)) for n in NUMBERS])
row(
    "1,000 keys are there in the ninth second, and none in the tenth",
    [*FULL, at(9), *hear(1, LIST), at(10), *hear(1, LIST, remove(blob(999)), sign(blob(0), b"abc"))],
    [*FULL_PRINT, to(1, ALL), to(1, NOTHING), to(1, NO), to(1, NO)],
)
row(
    "of 1,000 keys one is added again, and outlives the others",
    [*FULL, at(9), *hear(1, added_for_ten(500)), at(10), *hear(1, LIST), at(19), *hear(1, LIST)],
    [*FULL_PRINT, to(1, OK), to(1, listing((blob(500), u32(500)))), to(1, NOTHING)],
)

# 16 clients that wait for the user

CLIENTS = range(1, 17)  # each with its child process at the port 16 above
WAIT = [*["join client"] * 16, *hear(1, TERMS1 + b"\x02"), *[x for n in CLIENTS for x in hear(n, SIGN1)]]
WAIT += [line for n in CLIENTS for line in child(n, 16 + n)]
WAIT_PRINT = [to(1, OK), *[f"start {n} confirm" for n in CLIENTS]]
WAIT_PRINT += [to(16 + n, confirm(n)) for n in CLIENTS]


def leave(order: list[int]) -> None:
    """All leave, and each one's dialog with it; then one more may ask, and its job has the next number."""
    row(
        "16 clients that wait for the user leave: " + " ".join(map(str, order)),
        [*WAIT, *[f"end {n}" for n in order], "join client", *hear(33, SIGN1)],
        [*WAIT_PRINT, *[f"close {port}" for n in order for port in (n, 16 + n)], "start 17 confirm"],
    )


for first in CLIENTS:
    RISING = [*CLIENTS][first - 1 :] + [*CLIENTS][: first - 1]
    leave(RISING)
    leave(RISING[::-1])
for step in (3, 5, 7, 9, 11, 13):
    leave([1 + step * n % 16 for n in range(16)])

EVERY_ROW = EARLIER  # with those of the files that this one stands on
