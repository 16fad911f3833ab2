"""Literal rows of peers that do what none should: helpers that answer twice, crowds, leavers.

Orders are drawn with a seed. What is printed follows from the documents: the answers before a frame
that loses the helper count, what waits behind it fails, and ports close in the order of their
numbers.
"""

from __future__ import annotations

from random import Random

from .rows import ADD1, K1, LIST, NO, NOTHING, OK, ONE, TERMS1, hear, listing, lock, row, st, to
from .rows import u64, unlock
from .rows_children import TWO, TWO_PRINT, hello, helper, put1, sign, signed
from .rows_logins import EVERY_ROW as EARLIER
from .rows_rules import confirm

SIGN1 = sign(K1, b"abc")
ASKED = ["join client", *hear(1, ADD1, SIGN1)]
ASKED_PRINT = [to(1, OK), "start 1 helper"]
WAITING = [*ASKED, *helper(2)]
WAITING_PRINT = [*ASKED_PRINT, to(2, put1(1, b"abc"))]
TICKET = " " + "00" * 16


def answer(signature: bytes) -> bytes:
    return b"\x0e" + st(signature)


# A helper's answers

row(
    "two answers to one request in one piece",
    [*WAITING, *hear(2, signed(1, b"s"), signed(1, b"s"))],
    [*WAITING_PRINT, "close 2", to(1, answer(b"s"))],
)
for what, line in [
    ("an answer for a binding, to a signing request", hear(2, b"\x67" + u64(1))[0]),
    ("a length of 0 in place of an answer", "hear 2 00000000"),
    ("an answer to a request that nobody made", hear(2, signed(7, b"s"))[0]),
    ("an answer that is cut off by its length", hear(2, signed(1, b"")[:-1])[0]),
    ("a byte behind an answer, within its length", hear(2, signed(1, b"s") + b"\0")[0]),
    ("a helper that asks for a signature itself", hear(2, put1(1, b"abc"))[0]),
    ("a second hello of the helper", hear(2, hello(1))[0]),
    ("a helper that grants", hear(2, b"\x69" + u64(1))[0]),
]:
    row(what, [*WAITING, line], [*WAITING_PRINT, "close 2", to(1, NO)])

# Two clients wait. Each is answered twice, the second first; the text is cut in two at each byte.
TWICE = b"".join(st(signed(ask, b"%d" % ask)) for ask in (2, 2, 1, 1))
FRAME = len(TWICE) // 4
for cut in range(1, len(TWICE)):
    lines = [*TWO, f"hear 3 {TWICE[:cut].hex()}", f"hear 3 {TWICE[cut:].hex()}"]
    first, lost = to(2, answer(b"2")), "close 3"
    if cut < FRAME:
        printed = [lost, to(1, NO), first]
    elif cut < 2 * FRAME:
        printed = [first, lost, to(1, NO)]
    else:
        printed = [lost, to(1, NO), first, f"refused {len(lines)} port"]
    row(f"each answer twice, in reverse, cut behind {cut} bytes", lines, [*TWO_PRINT, *printed])

# The same without a second answer, and then a question more, as any helper may do it.
REVERSE = b"".join(st(signed(ask, b"%d" % ask)) for ask in (2, 1))
for cut in range(1, len(REVERSE)):
    second, first = to(2, answer(b"2")), to(1, answer(b"1"))
    row(
        f"answers in reverse, cut behind {cut} bytes",
        [*TWO, f"hear 3 {REVERSE[:cut].hex()}", f"hear 3 {REVERSE[cut:].hex()}", *hear(1, SIGN1)]
        + hear(3, signed(3, b"s")),
        [*TWO_PRINT, *([first, second] if cut < FRAME else [second, first]), to(3, put1(3, b"abc"))]
        + [to(1, answer(b"s"))],
    )
row(
    "a helper answers at one byte a line",
    [*TWO, *[f"hear 3 {byte:02x}" for byte in REVERSE]],
    [*TWO_PRINT, to(2, answer(b"2")), to(1, answer(b"1"))],
)

row(
    "one request at a time is put to the helper",
    ["join client", *hear(1, ADD1), *hear(1, SIGN1, SIGN1, SIGN1), *helper(2)]
    + [line for ask in (1, 2, 3) for line in hear(2, signed(ask, b"%d" % ask))],
    [*WAITING_PRINT, to(1, answer(b"1")), to(2, put1(2, b"abc")), to(1, answer(b"2"))]
    + [to(2, put1(3, b"abc")), to(1, answer(b"3"))],
)
row(
    "the next request is put once the reply before it was taken whole",
    ["join client", *hear(1, ADD1), "hold 1", *hear(1, SIGN1, SIGN1), *helper(2)]
    + [*hear(2, signed(1, b"s")), "take 1 9", "take 1 1", *hear(2, signed(2, b"t")), "free 1"],
    [*WAITING_PRINT, "to 1 000000060e00000001"]
    + ["to 1 73", to(2, put1(2, b"abc")), to(1, answer(b"t"))],
)

# Hellos, and children that say none

row(
    "a hello with another ticket, and then one with its own",
    [*ASKED, "started 1" + TICKET, "join child", *hear(2, b"\x01" + u64(1) + st(b"\xff" * 16))]
    + ["join child", *hear(3, hello(1))],
    [*ASKED_PRINT, "close 2", to(3, put1(1, b"abc"))],
)
LONG_HELLO = b"\x01" + u64(1) + st(bytes(262144 - 13))
for what, text in [
    ("a hello of 1 MiB is turned away by its length", (1 << 20).to_bytes(4, "big")),
    ("a hello of 262145 bytes is turned away by its length", (262145).to_bytes(4, "big")),
    ("a hello of 262144 bytes, whose ticket is as long", st(LONG_HELLO)),
    ("a hello of 12 bytes", st(hello(1)[:12])),
    ("a hello with a ticket of 15 bytes", st(b"\x01" + u64(1) + st(bytes(15)))),
    ("a hello with a byte behind it, within its length", st(hello(1) + b"\0")),
    ("a hello for job 0", st(hello(0))),
    ("a hello for job 2^64 - 1", st(hello(2**64 - 1))),
]:
    # The child is closed by the last of the lines, and the next one's hello is taken.
    pieces = [f"hear 2 {text[at:at + 32000].hex()}" for at in range(0, len(text), 32000)]
    row(
        what,
        [*ASKED, "started 1" + TICKET, "join child", *pieces, "join child", *hear(3, hello(1))],
        [*ASKED_PRINT, "close 2", to(3, put1(1, b"abc"))],
    )
row(
    "a hello that comes at one byte a line",
    [*ASKED, "started 1" + TICKET, "join child", *[f"hear 2 {b:02x}" for b in st(hello(1))]],
    WAITING_PRINT,
)
for count in (31, 32, 33):
    row(
        f"{count} child processes that say nothing, and a client",
        [*["join child"] * count, "join client", *hear(count + 1, LIST)],
        [*(["close 33"] if count == 33 else []), to(count + 1, NOTHING)],
    )

# Crowds of clients

CROWD = [line for n in range(2, 258) for line in ("join client", *hear(n, SIGN1), f"end {n}")]
row(
    "256 clients ask for a signature and leave, and one more asks",
    ["join client", *hear(1, ADD1), *CROWD, "join client", *hear(258, SIGN1)],
    [to(1, OK), "start 1 helper", *[f"close {n}" for n in range(2, 258)], to(258, NO)],
)
row("129 clients on a new agent", ["join client"] * 129, ["close 129"])

# 16 clients wait for the user, and leave in orders that are drawn. Some of their children said hello.
ORDERS = Random("sixteen leave")
RISING = list(range(1, 17))
PLAIN = [RISING, RISING[::-1], RISING[::2] + RISING[1::2], RISING[8:] + RISING[:8]]
for number in range(16):
    order = PLAIN[number] if number < len(PLAIN) else ORDERS.sample(range(1, 17), 16)
    ready = ORDERS.sample(range(1, 17), 16)[: ORDERS.randrange(17)]
    lines, printed = ["join client", *hear(1, TERMS1 + b"\x02")], [to(1, OK)]
    for client in range(1, 17):
        lines += [*(["join client"] if client > 1 else []), *hear(client, SIGN1)]
        printed.append(f"start {client} confirm")
    child = {}
    for port, job in enumerate(ready, 17):
        child[job] = port
        lines += [f"started {job}{TICKET}", "join child", *hear(port, hello(job))]
        printed.append(to(port, confirm(job)))
    for client in order:
        lines.append(f"end {client}")
        printed += [f"close {client}", *([f"close {child[client]}"] if client in child else [])]
    # Nothing of them is left: 16 more are asked for.
    first = 17 + len(ready)
    for place in range(17):
        lines += ["join client", *hear(first + place, SIGN1)]
        printed.append(to(first + 16, NO) if place == 16 else f"start {17 + place} confirm")
    row(f"16 that wait for the user leave, order {number}", lines, printed)

# Single bytes, and short bodies

SLOW = (262140).to_bytes(4, "big") + b"\xc8" * 262140
row(
    "262144 bytes, one a line, and a list",
    ["join client", *[f"hear 1 {byte:02x}" for byte in SLOW], *hear(1, LIST)],
    [to(1, NO), to(1, NOTHING)],
)
# A body of each length from 0 to 40: behind its number zeros, or a string that fills it.
for number in (0, 5, 11, 13, 17, 18, 19, 22, 23, 25, 27, 200, 255):
    for fill in ("zeros", "a string"):
        lines = ["join client", *hear(1, ADD1), "join client", "hear 1 00000000"]
        printed = [to(1, OK), "close 1"]
        for length in range(1, 41):
            left = length - 1
            content = bytes(left) if fill == "zeros" or left < 4 else st(b"a" * (left - 4))
            lines += hear(2, bytes([number]) + content)
            if number == 11 and length == 1:
                printed.append(to(2, listing(ONE)))
            elif number == 19 and length == 1:
                printed.append(to(2, OK))
            elif number == 22 and fill == "a string" and length > 5:
                # A passphrase: it locks, and the same one unlocks.
                lines += hear(2, lock(b"b"), unlock(b"a" * (left - 4)))
                printed += [to(2, OK), to(2, NO), to(2, OK)]
            else:
                printed.append(to(2, NO))
        last = NOTHING if number == 19 else listing(ONE)
        row(
            f"bodies of 1 to 40 bytes of number {number}, filled with {fill}",
            [*lines, *hear(2, LIST)],
            [*printed, to(2, last)],
        )

NUMBERS = [number for number in range(256) if number not in (11, 13, 17, 18, 19, 22, 23, 25, 27)]
row(
    "bodies of 1, 2, 5 and 40 bytes of each number that no request has",
    ["join client", *hear(1, ADD1)]
    + [hear(1, bytes([n]) + bytes(left))[0] for n in NUMBERS for left in (0, 1, 4, 39)]
    + hear(1, LIST),
    [to(1, OK), *[to(1, NO)] * (4 * len(NUMBERS)), to(1, listing(ONE))],
)

EVERY_ROW = EARLIER  # with those of the files that this one stands on
