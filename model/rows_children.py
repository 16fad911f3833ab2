"""The literal rows in which a helper signs and verifies."""

from __future__ import annotations

from .rows import ADD1, H1, H2, K1, LIST, NO, OK, ONE, S1, hear, listing, lock
from .rows import row, st, stand_in, to, u32, u64

# A helper signs


def sign(blob: bytes, message: bytes) -> bytes:
    return b"\x0d" + st(blob) + st(message) + u32(0)


def hello(job: int) -> bytes:
    return b"\x01" + u64(job) + st(bytes(16))


def signed(ask: int, signature: bytes) -> bytes:
    return b"\x65" + u64(ask) + st(signature)


def put1(ask: int, message: bytes) -> bytes:
    """The frame that asks the helper for a signature by the first key."""
    private = st(stand_in(0x11) + st(b"\x21" * 32))
    return b"\x01" + u64(ask) + private + st(K1) + st(message) + u32(0)


def helper(port: int) -> list[str]:
    return ["started 1 " + "00" * 16, "join child", *hear(port, hello(1))]


row(
    "a helper signs",
    ["join client", *hear(1, ADD1, sign(K1, b"abc")), *helper(2)]
    + ["hear 2 0000001065000000000000000100000003736967"],
    [to(1, OK), "start 1 helper", to(2, put1(1, b"abc")), "to 1 000000080e00000003736967"],
)
TWO = ["join client", "join client", *hear(1, ADD1, sign(K1, b"abc")), *hear(2, sign(K1, b"xyz"))]
TWO += helper(3)
TWO_PRINT = [to(1, OK), "start 1 helper", to(3, put1(1, b"abc"), put1(2, b"xyz"))]
row(
    "answers go by their numbers, and one for a client that left is dropped",
    [*TWO, *hear(3, signed(2, b"s2")), *hear(3, signed(1, b"s1")), *hear(2, sign(K1, b"w"))]
    + ["end 2", *hear(3, signed(3, b"s3"))],
    [*TWO_PRINT, to(2, b"\x0e" + st(b"s2")), to(1, b"\x0e" + st(b"s1"))]
    + [to(3, put1(3, b"w")), "close 2"],
)
row(
    "a helper is lost; the next one's asks go on in their numbers",
    [*TWO, "hear 3 0000001065", "end 3", *hear(1, sign(K1, b"q"))]
    + ["started 2 " + "00" * 16, "join child", *hear(4, hello(2))],
    [*TWO_PRINT, "close 3", to(1, NO), to(2, NO), "start 2 helper", to(4, put1(3, b"q"))],
)
row(
    "REFUSED is a failure, and a second answer loses the helper",
    [*TWO, *hear(3, b"\x66" + u64(1)), *hear(3, b"\x66" + u64(1))],
    [*TWO_PRINT, to(1, NO), "close 3", to(2, NO)],
)
row(
    "a signing isn't verified",
    [*TWO, *hear(3, b"\x67" + u64(1))],
    [*TWO_PRINT, "close 3", to(1, NO), to(2, NO)],
)
row(
    "a start fails",
    ["join client", *hear(1, ADD1, sign(K1, b"abc")), "failed 1", "failed 1"],
    [to(1, OK), "start 1 helper", to(1, NO), "refused 4 order"],
)
row(
    "a client that waits is heard later",
    ["join client", *hear(1, ADD1, sign(K1, b"abc"), LIST), *hear(1, LIST), *helper(2)]
    + hear(2, signed(1, b"s")),
    [to(1, OK), "start 1 helper", to(2, put1(1, b"abc")), to(1, b"\x0e" + st(b"s"))]
    + [to(1, listing(ONE)), to(1, listing(ONE))],
)
row(
    "a start that failed takes its frames along",
    ["join client", *hear(1, ADD1, sign(K1, b"abc")), "failed 1", *hear(1, sign(K1, b"xyz"))]
    + ["started 2 " + "00" * 16, "join child", *hear(2, hello(2))],
    [to(1, OK), "start 1 helper", to(1, NO), "start 2 helper", to(2, put1(2, b"xyz"))],
)
row(
    "a second hello for a job",
    [*TWO, "join child", *hear(4, hello(1)), *hear(3, signed(1, b"s"))],
    [*TWO_PRINT, "close 4", to(1, b"\x0e" + st(b"s"))],
)
row(
    "a signature as long as it may be, and one that is longer",
    [*TWO, *hear(3, signed(1, b"s" * 262131)), "hear 3 00040001"],
    [*TWO_PRINT, to(1, b"\x0e" + st(b"s" * 262131)), "close 3", to(2, NO)],
)
row(
    "no hello, another ticket, and another job close a child",
    ["join client", *hear(1, ADD1, sign(K1, b"abc")), "started 1 " + "07" * 16, *["join child"] * 4]
    + [*hear(2, signed(1, b"s")), *hear(3, hello(1)), *hear(4, hello(2)), "hear 5 00000000"],
    [to(1, OK), "start 1 helper", "close 2", "close 3", "close 4", "close 5"],
)
row(
    "an answer behind the hello, whose frame is written all the same",
    ["join client", *hear(1, ADD1, sign(K1, b"abc")), "started 1 " + "00" * 16, "join child"]
    + hear(2, hello(1), signed(1, b"s")),
    [to(1, OK), "start 1 helper", to(1, b"\x0e" + st(b"s")), to(2, put1(1, b"abc"))],
)
row(
    "what is asked stays asked when the key is removed and the agent is locked",
    ["join client", "join client", *hear(1, ADD1, sign(K1, b"abc")), *hear(2, b"\x13", lock(b"a"))]
    + [*helper(3), *hear(3, signed(1, b"s"))],
    [to(1, OK), "start 1 helper", to(2, OK), to(2, OK), to(3, put1(1, b"abc"))]
    + [to(1, b"\x0e" + st(b"s"))],
)
LEAVING = [
    line for n in range(2, 257) for line in ("join client", *hear(n, sign(K1, b"")), f"end {n}")
]
row(
    "256 asks are unanswered, and one more",
    ["join client", *hear(1, ADD1), *LEAVING, *hear(1, sign(K1, b""))]
    + ["join client", *hear(257, sign(K1, b""), LIST)],
    [to(1, OK), "start 1 helper", *[f"close {n}" for n in range(2, 257)]]
    + [to(257, NO), to(257, listing(ONE))],
)
row(
    "a child that said hello isn't among the 32",
    ["join client", *hear(1, ADD1, sign(K1, b"abc")), *helper(2), *["join child"] * 33],
    [to(1, OK), "start 1 helper", to(2, put1(1, b"abc")), "close 35"],
)
row(
    "32 children without a hello, and one more",
    [*["join child"] * 33, "end 3", "join child"],
    ["close 33", "close 3"],
)

# Bindings


def bind(host_key: bytes, session: bytes, forwarding: int) -> bytes:
    return (
        b"\x1b"
        + st(b"session-bind@openssh.com")
        + st(host_key)
        + st(session)
        + st(b"sg")
        + bytes([forwarding])
    )


def verify(ask: int, host_key: bytes, session: bytes) -> bytes:
    return b"\x02" + u64(ask) + st(host_key) + st(b"sg") + st(session)


def true(ask: int) -> bytes:
    return b"\x67" + u64(ask)


def chain(port: int, child: int, first: int, *hops: tuple[bytes, bytes, int]) -> tuple:
    """Lines that bind a client to hosts, and what they print, with asks from this number on."""
    lines, printed = [], []
    for ask, (key, session, onward) in enumerate(hops, first):
        lines += [*hear(port, bind(key, session, onward)), *hear(child, true(ask))]
        printed += [to(child, verify(ask, key, session)), to(port, OK)]
    return lines, printed


START = ["join client", *hear(1, ADD1, sign(K1, b"")), *helper(2), *hear(2, signed(1, b"s"))]
START_PRINT = [to(1, OK), "start 1 helper", to(2, put1(1, b"")), to(1, b"\x0e" + st(b"s"))]
FIFTEEN = [(H1, bytes([n]) * 32, 1) for n in range(15)]
bound = chain(1, 2, 2, (H1, S1, 1), (H1, S1, 1), *FIFTEEN)
row(
    "a session again, another host for it, 16 bindings, and one more",
    [*START, *bound[0], *hear(1, bind(H2, S1, 1)), *hear(1, bind(H1, b"new", 0))]
    + [*hear(1, bind(H1, S1, 1)), *hear(2, true(19))],
    [*START_PRINT, *bound[1], to(1, NO), to(1, NO), to(2, verify(19, H1, S1)), to(1, OK)],
)
SESSIONS = chain(1, 2, 2, (H1, b"s" * 128, 1), (H1, b"s" * 127 + b"t", 0))
row(
    "sessions of 0, 128 and 129 bytes, and a binding behind a login's",
    [*START, *hear(1, bind(H1, b"", 1), bind(H1, b"s" * 129, 1)), *SESSIONS[0]]
    + hear(1, bind(H1, b"s" * 128, 1)),
    [*START_PRINT, to(1, NO), to(1, NO), *SESSIONS[1], to(1, NO)],
)
row(
    "FALSE binds nothing, and a host key has to be readable",
    [*START, *hear(1, bind(H1, S1, 0)), *hear(2, b"\x68" + u64(2)), *hear(1, bind(H1[:-1], S1, 0))]
    + [*hear(1, bind(H2, S1, 0)), *hear(2, true(3))],
    [*START_PRINT, to(2, verify(2, H1, S1)), to(1, NO), to(1, NO), to(2, verify(3, H2, S1))]
    + [to(1, OK)],
)
row(
    "a client that leaves while its binding is verified",
    ["join client", *hear(1, bind(H1, S1, 1)), *helper(2), "end 1", *hear(2, true(1))]
    + ["join client", *hear(3, LIST, bind(H1, S1, 0)), *hear(2, true(2))],
    ["start 1 helper", to(2, verify(1, H1, S1)), "close 1", to(3, listing())]
    + [to(2, verify(2, H1, S1)), to(3, OK)],
)
row(
    "a helper that is lost before it verified; the next one is asked anew",
    ["join client", *hear(1, bind(H1, S1, 0)), *helper(2), "end 2", *hear(1, bind(H1, S1, 0))]
    + ["started 2 " + "00" * 16, "join child", *hear(3, hello(2)), *hear(3, true(2))],
    ["start 1 helper", to(2, verify(1, H1, S1)), "close 2", to(1, NO), "start 2 helper"]
    + [to(3, verify(2, H1, S1)), to(1, OK)],
)
