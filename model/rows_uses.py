"""The literal rows of keys that may be used so often."""

from __future__ import annotations

from .rows import ADD1, K2, LIST, NO, NOTHING, OK, ONE, TERMS1, USES, hear, listing, lock
from .rows import row, to, u32, u64, unlock
from .rows_children import hello, helper, put1, sign, signed
from .rows_hostile import EVERY_ROW as EARLIER
from .rows_hostile import SIGN1, answer
from .rows_rules import confirm

ONCE, TWICE = USES + u32(1), USES + u32(2)
TICKET = "00" * 16
GONE = to(2, NOTHING)


def granted(port: int, job: int) -> list[str]:
    return hear(port, b"\x69" + u64(job))


def denied(port: int, job: int) -> list[str]:
    return hear(port, b"\x6a" + u64(job))


# One use

HOLDING = ["join client", "join client", *hear(1, TERMS1 + ONCE)]
row(
    "a key that may be used once is gone as its signature is put to the helper",
    [*HOLDING, *hear(1, SIGN1), *hear(2, LIST), *helper(3), *hear(3, signed(1, b"s"))]
    + hear(1, SIGN1),
    [to(1, OK), "start 1 helper", GONE, to(3, put1(1, b"abc")), to(1, answer(b"s")), to(1, NO)],
)
row(
    "a helper that is lost gives no use back",
    [*HOLDING, *hear(1, SIGN1), "failed 1", *hear(1, SIGN1, LIST)],
    [to(1, OK), "start 1 helper", to(1, NO), to(1, NO), to(1, NOTHING)],
)
row(
    "a client that leaves gives no use back",
    [*HOLDING, *hear(1, SIGN1), "end 1", *hear(2, LIST)],
    [to(1, OK), "start 1 helper", "close 1", GONE],
)
row(
    "what is refused uses nothing",
    [*HOLDING, *hear(2, sign(K2, b"abc"), lock(b"a")), *hear(1, SIGN1), *hear(2, unlock(b"a"))]
    + hear(2, LIST),
    [to(1, OK), to(2, NO), to(2, OK), to(1, NO), to(2, OK), to(2, listing(ONE))],
)

# More than one

row(
    "a key that may be used twice is gone after its second signature",
    ["join client", "join client", *hear(1, TERMS1 + TWICE, SIGN1), *hear(2, LIST, SIGN1, LIST)]
    + [*helper(3), *hear(3, signed(1, b"s"), signed(2, b"t"))],
    [to(1, OK), "start 1 helper", to(2, listing(ONE)), to(3, put1(1, b"abc"), put1(2, b"abc"))]
    + [to(1, answer(b"s")), to(2, answer(b"t")), GONE],
)
row(
    "a replacement may be used as often as it says",
    [*HOLDING, *hear(1, TERMS1 + TWICE, SIGN1), *hear(2, LIST, SIGN1), "failed 1", *hear(2, LIST)],
    [to(1, OK), to(1, OK), "start 1 helper", to(2, listing(ONE)), to(1, NO), to(2, NO), GONE],
)
row(
    "a replacement without a number of uses may be used without end",
    [*HOLDING, *hear(1, ADD1, SIGN1), *hear(2, SIGN1), "failed 1", *hear(2, LIST)],
    [to(1, OK), to(1, OK), "start 1 helper", to(1, NO), to(2, NO), to(2, listing(ONE))],
)

# With confirmation

BOTH = ["join client", "join client", *hear(1, TERMS1 + ONCE + b"\x02", SIGN1), *hear(2, SIGN1)]
BOTH += [f"started 1 {TICKET}", "join child", *hear(3, hello(1))]
BOTH += [f"started 2 {TICKET}", "join child", *hear(4, hello(2))]
BOTH_PRINT = [to(1, OK), "start 1 confirm", "start 2 confirm", to(3, confirm(1))]
BOTH_PRINT += [to(4, confirm(2))]
row(
    "the second of two that were agreed to finds the key used up",
    [*BOTH, *granted(3, 1), *granted(4, 2)],
    [*BOTH_PRINT, "start 3 helper", "close 3", "close 4", to(2, NO)],
)
row(
    "a user's refusal uses nothing",
    [*BOTH, *denied(3, 1), *granted(4, 2)],
    [*BOTH_PRINT, "close 3", to(1, NO), "start 3 helper", "close 4"],
)
row(
    "a confirmation that ends uses nothing",
    [*BOTH, "end 1", *granted(4, 2)],
    [*BOTH_PRINT, "close 1", "close 3", "start 3 helper", "close 4"],
)

EVERY_ROW = EARLIER  # with those of the files that this one stands on
