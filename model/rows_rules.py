"""The literal rows of destination constraints and of confirmation."""

from __future__ import annotations

import base64
import hashlib

from .rows import ADD1, CERT, E1, ED25519_CERT, H1, H2, K1, LIST, NO, NOTHING, OK, ONE, ROWS
from .rows import S1, S2, T, TERMS1, cert, hear, listing, lock, remove, row, st, to, u32
from .rows import u64, unlock
from .rows_children import sign, hello, signed, put1, helper, bind, verify, true, chain

# Destination constraints


def hop(user: bytes, host: bytes, *keys: tuple[bytes, int]) -> bytes:
    texts = b"".join(st(key) + bytes([authority]) for key, authority in keys)
    return st(user) + st(host) + st(b"") + texts


def rule(source: bytes, target: bytes) -> bytes:
    return st(st(source) + st(target) + st(b""))


def restrict(*rules: bytes) -> bytes:
    return b"\xff" + st(b"restrict-destination-v00@openssh.com") + st(*rules)


def bound_login(session: bytes, user: bytes, host_key: bytes) -> bytes:
    return (
        st(session)
        + b"\x32"
        + st(user)
        + st(b"ssh-connection")
        + st(b"publickey-hostbound-v00@openssh.com")
        + b"\x01"
        + st(T)
        + st(K1)
        + st(host_key)
    )


def plain_login(session: bytes, user: bytes) -> bytes:
    return (
        st(session)
        + b"\x32"
        + st(user)
        + st(b"ssh-connection")
        + st(b"publickey")
        + b"\x01"
        + st(T)
        + st(K1)
    )


def ruled(*rules: bytes) -> bytes:
    return TERMS1 + restrict(*rules)


ORIGIN = hop(b"", b"")
RULE_USER = rule(ORIGIN, hop(b"perseus", b"cetus", (H1, 0)))
RULE_TWO = [rule(ORIGIN, hop(b"", b"cetus", (H1, 0)))]
RULE_TWO += [rule(hop(b"", b"cetus", (H1, 0)), hop(b"", b"scylla", (H2, 0)))]
RULE_CA = rule(ORIGIN, hop(b"", b"web.example.org", (H2, 1)))


def asked(port: int, child: int, ask: int, message: bytes) -> tuple[list[str], list[str]]:
    """A signature that is asked of the helper, and given."""
    lines = [*hear(port, sign(K1, message)), *hear(child, signed(ask, b"s"))]
    return lines, [to(child, put1(ask, message)), to(port, b"\x0e" + st(b"s"))]


def first_bind(key: bytes, session: bytes, onward: int) -> tuple[list[str], list[str]]:
    """The first binding starts the helper, at port 2."""
    lines = [*hear(1, bind(key, session, onward)), *helper(2), *hear(2, true(1))]
    return lines, ["start 1 helper", to(2, verify(1, key, session)), to(1, OK)]


TO = hop(b"", b"h", (H1, 0))
row(
    "constraints that aren't rules",
    ["join client"]
    + [
        line
        for text in [
            restrict(),
            restrict(rule(hop(b"u", b"h", (H1, 0)), TO)),
            restrict(rule(hop(b"", b"h"), TO)),
            restrict(rule(hop(b"", b"", (H1, 0)), TO)),
            restrict(rule(ORIGIN, hop(b"", b"h"))),
            restrict(rule(ORIGIN, hop(b"", b"", (H1, 0)))),
            restrict(rule(ORIGIN, hop(b"", b"h", (H1[:-1], 0)))),
            restrict(st(st(ORIGIN) + st(TO) + st(b"r"))),
            restrict(st(st(ORIGIN) + st(TO) + st(b"") + b"x")),
            restrict(rule(ORIGIN, TO)) * 2,
        ]
        for line in hear(1, TERMS1 + text)
    ]
    + hear(1, LIST, ruled(rule(ORIGIN, TO))),
    [*[to(1, NO)] * 10, to(1, NOTHING), to(1, OK)],
)
way = first_bind(H2, S1, 0)
row(
    "a rule from another host isn't for the way from here",
    ["join client", *hear(1, ruled(RULE_TWO[1])), *way[0], *hear(1, LIST)],
    [to(1, OK), *way[1], to(1, NOTHING)],
)
onward = first_bind(H1, S1, 1)
row(
    "a login where the connection is only forwarded",
    ["join client", *hear(1, ruled(*RULE_TWO)), *onward[0], *hear(1, LIST)]
    + hear(1, sign(K1, bound_login(S1, b"u", H1))),
    [to(1, OK), *onward[1], to(1, listing(ONE)), to(1, NO)],
)
one = first_bind(H1, S1, 0)
some = asked(1, 2, 2, bound_login(S1, b"perseus", H1))
row(
    "a user as a pattern, and logins that aren't well made",
    ["join client", *hear(1, ruled(rule(ORIGIN, hop(b"per*", b"cetus", (H1, 0))))), *one[0]]
    + some[0]
    + hear(1, sign(K1, bound_login(S1, b"xper", H1)), sign(K1, b"\0" * 4 + b"\x32"))
    + hear(1, sign(K1, bound_login(S1, b"perseus", H1) + b"x"))
    + hear(1, sign(K1, bound_login(S1, b"perseus", H1).replace(b"com\x01", b"com\x02"))),
    [to(1, OK), *one[1], *some[1], *[to(1, NO)] * 4],
)
most, above = (bound_login(S1, b"u" * size, H1) for size in (4096, 4097))
long = asked(1, 2, 2, most)
row(
    "users of 4096 bytes and of one more, whom the pattern takes in, and a message that is no login",
    ["join client", *hear(1, ruled(rule(ORIGIN, hop(b"*", b"cetus", (H1, 0))))), *one[0]]
    + [*hear(1, sign(K1, above)), *long[0], *hear(1, sign(K1, above + b"x"))],
    [to(1, OK), *one[1], to(1, NO), *long[1], to(1, NO)],
)
RSA_CERT = st(b"ssh-rsa-cert-v01@openssh.com")
RSA_KEY = RSA_CERT + st(b"nonce") + st(b"e") + st(b"n") + u64(1) + u32(1) + st(b"id") + st(b"")
RSA_KEY += u64(0) + u64(9) + st(b"") * 4 + st(b"x")
RSA_ADDED = RSA_CERT + st(RSA_KEY) + st(b"d") + st(b"") * 3


def rsa_login(algorithm: bytes) -> bytes:
    text = st(S1) + b"\x32" + st(b"u") + st(b"ssh-connection") + st(b"publickey") + b"\x01"
    return text + st(algorithm) + st(RSA_KEY)


good = rsa_login(b"rsa-sha2-256-cert-v01@openssh.com")
row(
    "the algorithms of an RSA certificate",
    ["join client", *hear(1, b"\x19" + RSA_ADDED + st(b"") + restrict(RULE_TWO[0])), *one[0]]
    + [*hear(1, sign(RSA_KEY, rsa_login(b"rsa-sha2-256")), sign(RSA_KEY, rsa_login(b"ssh-rsa")))]
    + hear(1, sign(RSA_KEY, good)),
    [to(1, OK), *one[1], to(1, NO), to(1, NO)]
    + [to(2, b"\x01" + u64(2) + st(RSA_ADDED) + st(RSA_KEY) + st(good) + u32(0))],
)
perseus = asked(1, 2, 2, bound_login(S1, b"perseus", H1))
row(
    "a rule for one user at one host",
    ["join client", *hear(1, ruled(RULE_USER), sign(K1, b"x")), *one[0], *perseus[0]]
    + hear(1, sign(K1, bound_login(S1, b"root", H1)), sign(K1, bound_login(S2, b"perseus", H1)))
    + hear(1, sign(K1, bound_login(S1, b"perseus", H2)), sign(K1, b"x"), LIST),
    [to(1, OK), to(1, NO), *one[1], *perseus[1], *[to(1, NO)] * 4, to(1, listing(ONE))],
)
over = first_bind(H1, S1, 1)
last = chain(1, 2, 2, (H2, S2, 0))
through = asked(1, 2, 3, bound_login(S2, b"u", H2))
row(
    "over a host to the next",
    ["join client", *hear(1, ruled(*RULE_TWO)), *over[0], *last[0]]
    + hear(1, sign(K1, plain_login(S2, b"u")), sign(K1, bound_login(S1, b"u", H2)))
    + through[0],
    [to(1, OK), *over[1], *last[1], to(1, NO), to(1, NO), *through[1]],
)
row(
    "a host that leads nowhere hides the key",
    ["join client", *hear(1, ruled(RULE_USER)), *over[0], *hear(1, LIST, remove(K1), ADD1)]
    + ["join client", *hear(3, LIST)],
    [to(1, OK), *over[1], to(1, NOTHING), to(1, NO), to(1, NO), to(3, listing(ONE))],
)
row(
    "a binding that failed hides the key, and one at a locked agent doesn't",
    ["join client", *hear(1, ruled(RULE_USER), lock(b"a"), bind(H1, S1, 0), unlock(b"a"), LIST)]
    + hear(1, b"\x1b" + st(b"session-bind@openssh.com"), LIST),
    [to(1, OK), to(1, OK), to(1, NO), to(1, OK), to(1, listing(ONE)), to(1, NO), to(1, NOTHING)],
)
row(
    "what is hidden is removed with all others",
    ["join client", "join client", *hear(1, ruled(RULE_USER))]
    + hear(1, b"\x1b" + st(b"session-bind@openssh.com"), LIST, b"\x13")
    + hear(2, LIST),
    [to(1, OK), to(1, NO), to(1, NOTHING), to(1, OK), to(2, NOTHING)],
)
late = asked(1, 2, 2, bound_login(S1, b"perseus", H1))
row(
    "a binding that is verified while the agent is locked is taken",
    ["join client", *hear(1, ruled(RULE_USER), bind(H1, S1, 0)), *helper(2), "join client"]
    + [*hear(3, lock(b"a")), *hear(2, true(1)), *hear(1, LIST), *hear(3, unlock(b"a"))]
    + [*hear(1, LIST), *late[0]],
    [to(1, OK), "start 1 helper", to(2, verify(1, H1, S1)), to(3, OK), to(1, OK), to(1, NOTHING)]
    + [to(3, OK), to(1, listing(ONE)), *late[1]],
)
row(
    "a binding that was never verified hides the key",
    ["join client", *hear(1, ruled(RULE_USER), bind(H1, S1, 0)), *helper(2), "end 2"]
    + hear(1, LIST),
    [to(1, OK), "start 1 helper", to(2, verify(1, H1, S1)), "close 2", to(1, NO), to(1, NOTHING)],
)
away = chain(3, 2, 2, (H2, S2, 0))
here = asked(1, 2, 3, bound_login(S1, b"u", H1))
row(
    "two connections that are bound to different hosts",
    ["join client", *hear(1, ruled(*RULE_TWO)), *one[0], "join client", *hear(3, LIST), *away[0]]
    + [*hear(3, LIST, sign(K1, bound_login(S2, b"u", H2)), remove(K1)), *hear(1, LIST), *here[0]],
    [to(1, OK), *one[1], to(3, listing(ONE)), *away[1], to(3, NOTHING), to(3, NO), to(3, NO)]
    + [to(1, listing(ONE)), *here[1]],
)
ORG = st(b"*.example.org")
for what, host_key, entry, fits in [
    ("an authority", CERT, (H2, 1), True),
    ("an authority of another key", CERT, (H1, 1), False),
    ("the signer, but no authority", CERT, (H2, 0), False),
    ("the certificate", CERT, (CERT, 0), False),
    ("an authority, and no names", cert(2, b""), (H2, 1), True),
    ("an authority, and two names", cert(2, st(b"x") + st(b"w?b.*")), (H2, 1), True),
    ("an authority, and another name", cert(2, st(b"example.org")), (H2, 1), False),
    ("an authority, and a name in capitals", cert(2, st(b"WEB.example.org")), (H2, 1), False),
    (
        "an authority, and a name with one byte more",
        cert(2, st(b"web.?example.org")),
        (H2, 1),
        False,
    ),
    ("an authority, and a user's certificate", cert(1, ORG), (H2, 1), False),
    ("an authority, and critical options", cert(2, ORG, critical=b"o"), (H2, 1), False),
    ("a plain key", H2, (H2, 0), True),
    ("a plain key, but as an authority", H2, (H2, 1), False),
]:
    bound = first_bind(host_key, S1, 0)
    row(
        f"a rule's key is {what}",
        ["at 0 150", "join client"]
        + hear(1, ruled(rule(ORIGIN, hop(b"", b"web.example.org", entry))))
        + [*bound[0], *hear(1, LIST)],
        [to(1, OK), *bound[1], to(1, listing(ONE) if fits else NOTHING)],
    )
web = first_bind(CERT, S1, 0)
inside = asked(1, 2, 2, bound_login(S1, b"u", CERT))
again = asked(1, 2, 3, bound_login(S1, b"u", CERT))
row(
    "a host certificate's time is the wall clock's, which may fall",
    ["join client", *hear(1, ruled(RULE_CA)), *web[0], "at 0 199", *inside[0], "at 0 200"]
    + [*hear(1, sign(K1, bound_login(S1, b"u", CERT)), LIST), "at 0 100", *again[0], "at 0 99"]
    + hear(1, LIST),
    [to(1, OK), *web[1], *inside[1], to(1, NO), to(1, NOTHING), *again[1], to(1, NOTHING)],
)

# Confirmation


def confirm(job: int, comment: bytes = b"one", blob: bytes = K1, line: bytes = b"") -> bytes:
    digest = base64.b64encode(hashlib.sha256(blob).digest()).rstrip(b"=")
    text = b"Allow use of key " + comment + b"?\nKey fingerprint SHA256:" + digest + b"." + line
    return b"\x03" + u64(job) + st(text)


GRANT1 = "hear 2 00000009690000000000000001"
RAISED = ["join client", *hear(1, TERMS1 + b"\x02", sign(K1, b"abc")), *helper(2), "join client"]
RAISED_PRINT = [to(1, OK), "start 1 confirm", to(2, confirm(1))]
row(
    "a grant is for the addition that was asked for",
    [*RAISED, *hear(3, remove(K1), ADD1), GRANT1],
    [*RAISED_PRINT, to(3, OK), to(3, OK), "close 2", to(1, NO)],
)
row(
    "no number is given twice, also behind a removal of all",
    [*RAISED, *hear(3, b"\x13", TERMS1 + b"\x02"), GRANT1],
    [*RAISED_PRINT, to(3, OK), to(3, OK), "close 2", to(1, NO)],
)
row(
    "a grant asks the helper",
    [*RAISED, GRANT1, "started 2 " + "00" * 16, "join child", *hear(4, hello(2))],
    [*RAISED_PRINT, "start 2 helper", "close 2", to(4, put1(1, b"abc"))],
)
row(
    "a grant to a locked agent",
    [*RAISED, *hear(3, lock(b"a")), GRANT1],
    [*RAISED_PRINT, to(3, OK), "close 2", to(1, NO)],
)
row(
    "a prompt shows 256 bytes that can be printed, and the fingerprint of the plain key",
    [
        "join client",
        *hear(
            1,
            b"\x19"
            + ED25519_CERT
            + st(CERT)
            + st(b"\x31" * 32)
            + st(b"s" * 64)
            + st(b"\x1f\x20\x7e\x7f\xff" + b"a" * 252)
            + b"\x02",
            sign(CERT, b""),
        ),
    ]
    + helper(2),
    [to(1, OK), "start 1 confirm", to(2, confirm(1, b"? ~??" + b"a" * 251, E1))],
)
looking = first_bind(CERT, S1, 0)
answered = ["started 2 " + "00" * 16, "join child", *hear(3, hello(2))]
row(
    "a grant behind a certificate's time",
    ["at 0 150", "join client", *hear(1, ruled(RULE_CA) + b"\x02"), *looking[0]]
    + [*hear(1, sign(K1, plain_login(S1, b"u"))), *answered, "at 0 200"]
    + ["hear 3 00000009690000000000000002"],
    [to(1, OK), *looking[1], "start 2 confirm", to(3, confirm(2)), "close 3", to(1, NO)],
)
row(
    "a start that is too late",
    ["join client", *hear(1, TERMS1 + b"\x02", sign(K1, b"abc")), "end 1", *helper(2)],
    [to(1, OK), "start 1 confirm", "close 1", "close 2"],
)
row(
    "denied",
    [*RAISED, "hear 2 000000096a0000000000000001", *hear(1, LIST)],
    [*RAISED_PRINT, "close 2", to(1, NO), to(1, listing(ONE))],
)
row(
    "another job's grant is none",
    [*RAISED, "hear 2 00000009690000000000000002"],
    [*RAISED_PRINT, "close 2", to(1, NO)],
)
row(
    "a client that leaves takes its confirmation away",
    [*RAISED, "end 1"],
    [*RAISED_PRINT, "close 1", "close 2"],
)
SIXTEEN = [line for n in range(1, 18) for line in ("join client", *hear(n, sign(K1, b"abc")))]
row(
    "16 confirmations, and one more",
    ["join client", *hear(1, TERMS1 + b"\x02"), *SIXTEEN[1:], "end 3", *hear(17, sign(K1, b""))],
    [to(1, OK), *[f"start {n} confirm" for n in range(1, 17)], to(17, NO), "close 3"]
    + ["start 17 confirm"],
)

EVERY_ROW = ROWS  # with those of the files that this one stands on
