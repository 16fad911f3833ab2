"""The literal rows of what a client may make the agent hold: private strings, rules, host keys, asks."""

from __future__ import annotations

from .rows import ADD1, H1, K1, LIST, NO, OK, S1, added, cert, hear, listing, remove, row, st, stand_in
from .rows import to, u64
from .rows_children import START, START_PRINT, bind, chain, hello, put1, sign, true, verify
from .rows_many import EVERY_ROW as EARLIER
from .rows_rules import ORIGIN, hop, restrict, rule

# Private strings and rules of 8 MiB in all
#
# A key of the tests' type has a private string of 28 + 36 + 36 bytes. A rule from the agent's host
# to one that is called h and has one key of 64 bytes takes 64 + (64 + 8 + 64 + 64) bytes: a host
# counts eight times.

MOST, KEY, RULE = 8388608, 100, 264


def ruled(
    tag: int, rules: int, host: bytes = b"h", user: bytes = b"", comment: bytes = b""
) -> bytes:
    """An addition with so many rules, the last of them to this host and for this user."""
    first, last = rule(ORIGIN, hop(b"", b"h", (H1, 0))), rule(ORIGIN, hop(user, host, (H1, 0)))
    return b"\x19" + added(tag, comment) + restrict(*[first] * (rules - 1), last)


LEFT = MOST - 13 * (KEY + 2380 * RULE)
RULES, MORE = divmod(LEFT - KEY, RULE)
TAGS = range(0x21, 0x2E)
FILL = ["join client", *[line for tag in TAGS for line in hear(1, ruled(tag, 2380))]]
HOST = b"h" * (1 + MORE // 8)
EXACT, ABOVE = (ruled(0x31, RULES, HOST, b"u" * (MORE % 8 + more)) for more in (0, 1))
HELD = [(stand_in(tag), b"") for tag in [*TAGS, 0x31]]
row(
    "private strings and rules of 8 MiB in all, and one byte more",
    [*FILL, *hear(1, ABOVE, EXACT, b"\x11" + added(0x32), LIST)],
    [*[to(1, OK)] * 13, to(1, NO), to(1, OK), to(1, NO), to(1, listing(*HELD))],
)
row(
    "a key is replaced in a full table, and has no byte more",
    [*FILL, *hear(1, EXACT, ABOVE, EXACT, remove(stand_in(0x21)), b"\x11" + added(0x32))],
    [*[to(1, OK)] * 13, *[to(1, answer) for answer in (OK, NO, OK, OK, OK)]],
)
NAMED, LONGER = (
    ruled(0x31, RULES, user=b"u" * more, comment=b"c" * 1000) for more in (MORE, MORE + 1)
)
row(
    "a user's name counts, and a comment doesn't",
    [*FILL, *hear(1, LONGER, NAMED, b"\x11" + added(0x32))],
    [*[to(1, OK)] * 13, to(1, NO), to(1, OK), to(1, NO)],
)

row(
    "a host with one letter more counts eight bytes more",
    [*FILL, *hear(1, ruled(0x31, RULES, HOST + b"h"), ruled(0x31, RULES, HOST))],
    [*[to(1, OK)] * 13, to(1, NO), to(1, OK)],
)

# Host keys of 65536 bytes in all


def rsa(size: int) -> bytes:
    """An RSA key whose blob has so many bytes."""
    return st(b"ssh-rsa") + st(b"\x03") + st(b"\x01" * (size - 20))


QUARTER = rsa(16384)
THREE = chain(1, 2, 2, *[(QUARTER, bytes([n]) * 32, 1) for n in range(3)])
row(
    "host keys of 65536 bytes in all, and one byte more",
    [*START, *THREE[0], *hear(1, bind(rsa(16385), S1, 1)), *hear(1, bind(QUARTER, S1, 1))]
    + [*hear(2, true(5)), *hear(1, bind(H1, b"new", 0)), *hear(1, bind(QUARTER, S1, 1))]
    + hear(2, true(6)),
    [*START_PRINT, *THREE[1], to(1, NO), to(2, verify(5, QUARTER, S1)), to(1, OK)]
    + [to(1, NO), to(2, verify(6, QUARTER, S1)), to(1, OK)],
)

# Principals of 1024 bytes in all, each a string, of which a plain host key has none

WILD = cert(2, st(b"*.example.org") + st(b"n" * 487))
TWO = chain(1, 2, 2, (WILD, b"one", 1), (H1, b"plain", 1))
row(
    "principals of 1024 bytes in all, and one byte more",
    [*START, *TWO[0], *hear(1, bind(cert(2, st(b"n" * 513)), S1, 1))]
    + [*hear(1, bind(cert(2, st(b"n" * 512)), S1, 1)), *hear(2, true(4))],
    [*START_PRINT, *TWO[1], to(1, NO)]
    + [to(2, verify(4, cert(2, st(b"n" * 512)), S1)), to(1, OK)],
)
row(
    "a first host key that names 1025 bytes",
    [*START, *hear(1, bind(cert(2, st(b"n" * 1021)), S1, 1))],
    [*START_PRINT, to(1, NO)],
)

# Bodies of 8 MiB in all, of the asks that are open
#
# The body of an ask for a signature by a key of the tests' type is 25 + 100 + 64 bytes longer than the message: the
# kind, the ask's number, the flags and three lengths; the private string; the key's blob. The body of a request is 77
# bytes longer. The body that verifies a binding is 21 bytes longer than host key, signature and session.

LONG = b"m" * (262144 - 77)
BODY = 189 + len(LONG)
NUMBER, REST = divmod(MOST, BODY)
LAST = b"m" * (REST - 189)
PORTS = range(1, NUMBER + 3)
CROWD = ["join client"] * (NUMBER + 3)
CROWD += [*hear(1, ADD1), *[line for port in PORTS[:NUMBER] for line in hear(port, sign(K1, LONG))]]
CROWD_PRINT = [to(1, OK), "start 1 helper"]
BEHIND, NEXT = NUMBER + 1, NUMBER + 2
FRAMES = [put1(number, LONG) for number in PORTS[:NUMBER]]
THERE = ["started 1 " + "00" * 16, "join child", *hear(NUMBER + 4, hello(1))]
HELPER = NUMBER + 4
row(
    "asks whose bodies have 8 MiB in all: no signature more, and no binding",
    [*CROWD, *hear(BEHIND, sign(K1, LAST)), *hear(NEXT, sign(K1, b"")), *hear(NEXT, bind(H1, S1, 0))],
    [*CROWD_PRINT, to(NEXT, NO), to(NEXT, NO)],
)
row(
    "asks whose bodies have a byte less: one more, as long as it may be, and none behind it",
    [*CROWD, *hear(BEHIND, sign(K1, LAST[1:])), *hear(NEXT, sign(K1, LONG))]
    + [*hear(NEXT + 1, sign(K1, b"")), *THERE],
    [*CROWD_PRINT, to(NEXT + 1, NO)]
    + [to(HELPER, *FRAMES, put1(BEHIND, LAST[1:]), put1(NEXT, LONG))],
)
row(
    "an answer makes room for an ask whose client left, and so does the loss of the helper",
    [*CROWD, *hear(BEHIND, sign(K1, LAST)), "end 1", *THERE, *hear(HELPER, b"\x66" + u64(1))]
    + [*hear(NEXT, sign(K1, LONG)), *hear(NEXT + 1, sign(K1, b"")), f"end {HELPER}"]
    + hear(NEXT + 1, sign(K1, b"")),
    [*CROWD_PRINT, "close 1", to(HELPER, *FRAMES, put1(BEHIND, LAST)), to(HELPER, put1(NEXT, LONG))]
    + [to(NEXT + 1, NO), f"close {HELPER}", *[to(port, NO) for port in range(2, NEXT + 1)], "start 2 helper"],
)

EVERY_ROW = EARLIER  # with those of the files that this one stands on
