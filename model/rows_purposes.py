"""The literal rows of keys that are for some purposes alone."""

from __future__ import annotations

import hashlib

from .rows import K1, K2, LIST, NO, NOTHING, OK, ONE, S1, S2, TERMS1, USES, H1, H2, hear, listing, row, st, to, u32, u64
from .rows_children import bind, chain, hello, helper, put1, sign, signed, true, verify
from .rows_hostile import answer
from .rows_room import EVERY_ROW as EARLIER
from .rows_room import FILL, KEY, LEFT, RULE, ruled
from .rows_rules import ORIGIN, RSA_ADDED, RSA_KEY, bound_login, confirm, hop, plain_login, restrict, rule

DIGEST = hashlib.sha512(b"what is signed\n").digest()


def purposes(*words: bytes) -> bytes:
    return b"\xff" + st(b"purposes-v00@example.com") + st(*map(st, words))


def file_in(namespace: bytes, algorithm: bytes = b"sha512", digest: bytes = DIGEST) -> bytes:
    """What ssh-keygen -Y sign has signed (OpenSSH's PROTOCOL.sshsig)."""
    return b"SSHSIG" + st(namespace) + st(b"") + st(algorithm) + st(digest)


LOGIN, GIT, FILE = plain_login(S1, b"root"), file_in(b"git"), file_in(b"file")
OTHER = b"neither"


def row_for(name: str, words: tuple[bytes, ...], signs: tuple[bytes, ...], refuses: tuple[bytes, ...]) -> None:
    """A key for these purposes signs the first messages, and none of the others."""
    lines = ["join client", *hear(1, TERMS1 + purposes(*words)), *hear(1, sign(K1, signs[0])), *helper(2)]
    printed = [to(1, OK), "start 1 helper", to(2, put1(1, signs[0]))]
    lines, printed = [*lines, *hear(2, signed(1, b"s"))], [*printed, to(1, answer(b"s"))]
    for ask, message in enumerate(signs[1:], 2):
        lines += [*hear(1, sign(K1, message)), *hear(2, signed(ask, b"s"))]
        printed += [to(2, put1(ask, message)), to(1, answer(b"s"))]
    lines += [line for message in refuses for line in hear(1, sign(K1, message))]
    row(name, lines, printed + [to(1, NO)] * len(refuses))


row_for("a key for git never logs in", (b"sshsig:git",), (GIT,), (LOGIN, FILE, OTHER, file_in(b"gi"), file_in(b"git2")))
row_for("a key for logins signs no file", (b"login",), (LOGIN, bound_login(S1, b"root", H1)), (GIT, OTHER, b""))
row_for("a key for files signs in each namespace", (b"sshsig",), (GIT, FILE), (LOGIN, OTHER, b"SSHSIG"))
# What an authority signs begins with the certificate's type (OpenSSH's PROTOCOL.certkeys).
CERTIFIED = st(b"ssh-ed25519-cert-v01@openssh.com") + st(b"nonce") + st(b"k" * 32)
row_for(
    "a key for other data signs what is neither",
    (b"other",),
    (OTHER, b"", GIT + b"x", file_in(b""), file_in(b"git", b"sha256"), CERTIFIED[:35], b"x" + CERTIFIED),
    (LOGIN, GIT, CERTIFIED),
)
row_for("a key for several purposes", (b"other", b"sshsig:git", b"login"), (LOGIN, GIT, OTHER), (FILE, CERTIFIED))
row_for(
    "a key for certificates",
    (b"certificate",),
    (CERTIFIED, CERTIFIED[:36], st(b"-cert-v01@openssh.com"), st(b"ssh-dss-cert-v00@openssh.com"), st(b"any-cert-v01@openssh.com") + st(b"ssh-connection")),
    (LOGIN, GIT, OTHER, CERTIFIED[:35], st(b"ssh-ed25519-cert-v02@openssh.com"), st(b"-cert-v01@openssh.com "), b""),
)

# What may be a login has no purpose

FLAGGED = [LOGIN.replace(b"publickey\x01", b"publickey" + flag) for flag in (b"\x00", b"\x02", b"\xff")]
HOSTBASED = st(S1) + b"\x32" + st(b"root") + st(b"ssh-connection") + st(b"hostbased") + st(b"ssh-ed25519") + st(K1)
MAYBE = (
    *FLAGGED,
    LOGIN[4:],  # the session's identifier without its length
    LOGIN + b"x",
    b"x" + LOGIN,
    LOGIN[:-1],
    plain_login(b"", b"root"),
    bound_login(S1, b"root", H1)[:-1],
    LOGIN.replace(st(K1), st(K2)),
    LOGIN.replace(st(b"ssh-connection"), st(b"any service")),
    LOGIN.replace(st(b"publickey"), st(b"any method")),
    HOSTBASED,
    S1 + b"\x32" + st(b"root") + st(b"ssh-userauth") + b"\x01" + st(K1),  # an old client's (SSH_BUG_PKAUTH)
    b"\x00\x00\x00\x0cssh-userauth",
    b"\x00\x00\x00\x0essh-connection",
    b"\x00\x00\x00\x09publickey",
    b"\x00\x00\x00\x0apublickey.",
    b"\x00\x00\x00\x09hostbased",
    b"\x00\x00\x00\x0dhostbased-v00",
)
NEARLY = (
    b"ssh-connection publickey hostbased",
    b"\x00\x00\x00\x0dssh-connection",
    b"\x00\x00\x00\x0dssh-userauth.",
    b"\x00\x00\x00\x0bssh-userauth",
    b"\x00\x00\x00\x0fssh-connections",
    b"\x00\x00\x00\x0essh-connectio",
    b"\x00\x00\x00\x08publickey",
    b"\x00\x00\x00\x0apublickey",
    b"\x00\x00\x00\x09Publickey",
    b"\x00\x00\x09hostbased",
    b"\x00\x00\x00\x0ahostbased",
    b"\x00\x00\x00\x09xhostbased",
)
EACH = (b"login", b"sshsig", b"certificate", b"other")
row_for("what may be a login has no purpose", EACH, (OTHER, LOGIN, bound_login(S1, b"root", b"no key")), MAYBE)
row_for("what is nearly what may be a login is other data", (b"other",), NEARLY, MAYBE[-5:])
row_for("a key for logins signs none that may be one", (b"login",), (bound_login(S1, b"root", b""), LOGIN), MAYBE)

# The same key by its plain blob and by a certificate

E, E_PRIVATE = st(b"ssh-ed25519") + st(b"\x21" * 32), st(b"\x21" * 32) + st(b"\x22" * 64)
E_CERT = CERTIFIED[:36] + st(b"nonce") + st(b"\x21" * 32) + bytes(8) + u32(1) + st(b"id") + st() + bytes(8)
E_CERT += b"\xff" * 8 + st() + st() + st() + st(b"signer") + st(b"signature")
E_MORE = E_CERT.replace(b"nonce", b"other")
ADD_E = b"\x19" + E + st(b"\x22" * 64) + st(b"one") + purposes(b"login")
ADD_CERT = b"\x19" + CERTIFIED[:36] + st(E_CERT) + E_PRIVATE + st(b"one") + purposes(b"login")


def login_by(algorithm: bytes, blob: bytes) -> bytes:
    return LOGIN.replace(st(b"keyed-sha256@example.com") + st(K1), st(algorithm) + st(blob))


PLAIN_E, BY_CERT = login_by(b"ssh-ed25519", E), login_by(b"ssh-ed25519-cert-v01@openssh.com", E_CERT)
CROSSED = login_by(b"ssh-ed25519", E_CERT), login_by(b"ssh-ed25519-cert-v01@openssh.com", E), login_by(b"ssh-ed25519", K1)
for name, addition, key, message in (
    ("the plain key signs its certificate's login", ADD_E, E, BY_CERT),
    ("the certificate's key signs the plain one's login", ADD_CERT, E_CERT, PLAIN_E),
    ("the certificate's key signs another certificate's login", ADD_CERT, E_CERT, BY_CERT.replace(E_CERT, E_MORE)),
):
    row(
        name,
        ["join client", *hear(1, addition, *[sign(key, each) for each in CROSSED], sign(key, message))],
        [to(1, OK), to(1, NO), to(1, NO), to(1, NO), "start 1 helper"],
    )
row(
    "a key for a host signs by its own blob alone",
    ["join client", *hear(1, ADD_E + restrict(rule(ORIGIN, hop(b"root", b"cetus", (H1, 0)))), bind(H1, S1, 0))]
    + [*helper(2), *hear(2, true(1)), *hear(1, sign(E, BY_CERT), sign(E, PLAIN_E))],
    [to(1, OK), "start 1 helper", to(2, verify(1, H1, S1)), to(1, OK), to(1, NO)]
    + [to(2, b"\x01" + u64(2) + st(E + st(b"\x22" * 64)) + st(E) + st(PLAIN_E) + u32(0))],
)

# By SHA-1 no key with purposes signs


def flagged(blob: bytes, message: bytes, flags: int) -> bytes:
    return b"\x0d" + st(blob) + st(message) + u32(flags)


R = st(b"ssh-rsa") + st(b"e") + st(b"n")
ADD_R = b"\x19" + st(b"ssh-rsa") + st(b"n") + st(b"e") + st(b"d") * 4 + st(b"one")
for flags in (2, 4, 6, 7):
    row(
        f"an RSA key with purposes signs by the flags {flags}",
        ["join client", *hear(1, ADD_R + purposes(b"other"), *[flagged(R, OTHER, none) for none in (0, 1, 8)])]
        + hear(1, flagged(R, OTHER, flags)),
        [to(1, OK), to(1, NO), to(1, NO), to(1, NO), "start 1 helper"],
    )
row(
    "an RSA key without purposes signs by SHA-1",
    ["join client", *hear(1, ADD_R, flagged(R, OTHER, 0))],
    [to(1, OK), "start 1 helper"],
)
row(
    "an RSA key's certificate with purposes doesn't sign by SHA-1, and nobody is asked",
    ["join client", *hear(1, b"\x19" + RSA_ADDED + st(b"one") + purposes(b"other") + b"\x02")]
    + hear(1, flagged(RSA_KEY, OTHER, 0), flagged(RSA_KEY, OTHER, 2)),
    [to(1, OK), to(1, NO), "start 1 confirm"],
)

# The constraint

MANY = [b"sshsig:%d" % number for number in range(65)]
row(
    "purposes that are none, twice, too many, too long or cut off",
    ["join client", *hear(1, TERMS1 + purposes(), TERMS1 + purposes(b"login", b"login"))]
    + hear(1, TERMS1 + purposes(*MANY), TERMS1 + purposes(b"sshsig:" + b"n" * 249))
    + hear(1, TERMS1 + purposes(b"login") + purposes(b"other"), TERMS1 + purposes(b"login")[:-1])
    + hear(1, TERMS1 + b"\xff" + st(b"purposes-v00@example.com") + st(st(b"login"), b"\x00\x00\x00"))
    + hear(1, LIST, TERMS1 + purposes(*MANY[:64]), TERMS1 + purposes(b"sshsig:" + b"n" * 248), LIST),
    [*[to(1, NO)] * 7, to(1, NOTHING), to(1, OK), to(1, OK), to(1, listing(ONE))],
)
row(
    "no other words are purposes",
    ["join client", *hear(1, *[TERMS1 + purposes(word) for word in (b"", b"Login", b"logins", b"sshsig:", b"git")])]
    + hear(1, TERMS1 + purposes(b"login", b"all"), LIST),
    [*[to(1, NO)] * 6, to(1, NOTHING)],
)
row(
    "a key that is added again is for what it is added for",
    ["join client", *hear(1, TERMS1 + purposes(b"login"), TERMS1 + purposes(b"other"), sign(K1, LOGIN))]
    + hear(1, TERMS1, sign(K1, LOGIN)),
    [to(1, OK), to(1, OK), to(1, NO), to(1, OK), "start 1 helper"],
)

REST, OVER = divmod(LEFT - KEY - 2 * 320, RULE)
FITS, MORE = (ruled(0x31, REST, user=b"u" * over) + purposes(b"login", b"other") for over in (OVER, OVER + 1))
row(
    "a purpose takes 320 bytes of the room",
    [*FILL, *hear(1, MORE, FITS, FITS)],
    [*[to(1, OK)] * 13, to(1, NO), to(1, OK), to(1, OK)],
)

# Beside the other constraints

row(
    "what a key isn't for counts as no use, and nobody is asked",
    ["join client", *hear(1, TERMS1 + purposes(b"sshsig:git") + USES + u32(1) + b"\x02", sign(K1, LOGIN), LIST)]
    + hear(1, sign(K1, GIT)),
    [to(1, OK), to(1, NO), to(1, listing(ONE)), "start 1 confirm"],
)
FOR_H1 = restrict(rule(ORIGIN, hop(b"root", b"cetus", (H1, 0))))
row(
    "a key for a host and for logins",
    ["join client", *hear(1, TERMS1 + purposes(b"login", b"other") + FOR_H1, sign(K1, OTHER), bind(H1, S1, 0))]
    + [*helper(2), *hear(2, true(1)), *hear(1, sign(K1, OTHER), sign(K1, GIT), sign(K1, bound_login(S1, b"root", H1)))],
    [to(1, OK), to(1, NO), "start 1 helper", to(2, verify(1, H1, S1)), to(1, OK), to(1, NO), to(1, NO)]
    + [to(2, put1(2, bound_login(S1, b"root", H1)))],
)
row(
    "a key for a host and for files signs nothing there",
    ["join client", *hear(1, TERMS1 + purposes(b"sshsig") + FOR_H1, bind(H1, S1, 0)), *helper(2), *hear(2, true(1))]
    + hear(1, LIST, sign(K1, bound_login(S1, b"root", H1)), sign(K1, GIT)),
    [to(1, OK), "start 1 helper", to(2, verify(1, H1, S1)), to(1, OK), to(1, listing(ONE)), to(1, NO), to(1, NO)],
)

# The third line of a question


def asks(name: str, terms: bytes, message: bytes, line: bytes) -> None:
    """The user is asked for a signature of this message, with this behind the two lines."""
    row(
        name,
        ["join client", *hear(1, TERMS1 + terms + b"\x02", sign(K1, message)), *helper(2)],
        [to(1, OK), "start 1 confirm", to(2, confirm(1, line=line))],
    )


ALL = purposes(b"login", b"sshsig", b"certificate", b"other")
asks("no purposes, no third line", b"", LOGIN, b"")
asks("a login's third line", ALL, LOGIN, b"\nFor a login as root.")
asks("a file's third line", ALL, GIT, b"\nFor a signature in namespace git.")
asks("the third line of other data", ALL, OTHER, b"\nFor other data of 7 bytes.")
asks("a certificate's third line", ALL, CERTIFIED, b"\nFor a certificate of 81 bytes.")
asks("the third line of no data", ALL, b"", b"\nFor other data of 0 bytes.")
asks("a user of 64 bytes is shown", ALL, plain_login(S1, b"u" * 64), b"\nFor a login as " + b"u" * 64 + b".")
asks("a user of 65 bytes is cut", ALL, plain_login(S1, b"u" * 64 + b"v"), b"\nFor a login as " + b"u" * 64 + b".")
asks("a user's line ends are shown", ALL, plain_login(S1, b"a\nb\x7f\xc3\xa9 "), b"\nFor a login as a?b??? .")
asks("a namespace is cut", ALL, file_in(b"\t" + b"n" * 64), b"\nFor a signature in namespace ?" + b"n" * 63 + b".")

# Where the key has destination constraints, the line of a login ends with the host


def names(
    name: str, rules: list[bytes], user: bytes, line: bytes, *hops: tuple[bytes, bytes, int], terms: bytes = ALL
) -> None:
    """A key under these constraints is to sign a login over these bindings, and the user is asked with this behind."""
    (first_key, first_session, first_on), *others = hops
    bound, (last_key, last_session, _) = chain(1, 2, 2, *others), hops[-1]
    row(
        name,
        ["join client", *hear(1, TERMS1 + terms + restrict(*rules) + b"\x02", bind(first_key, first_session, first_on))]
        + [*helper(2), *hear(2, true(1)), *bound[0], *hear(1, sign(K1, bound_login(last_session, user, last_key)))]
        + ["started 2 " + "00" * 16, "join child", *hear(3, hello(2))],
        [to(1, OK), "start 1 helper", to(2, verify(1, first_key, first_session)), to(1, OK), *bound[1]]
        + ["start 2 confirm", to(3, confirm(2, line=line))],
    )


def from_here(user: bytes, host: bytes, *keys: tuple[bytes, int]) -> bytes:
    return rule(ORIGIN, hop(user, host, *keys))


AT_H1, AT_H2, HERE = (H1, 0), (H2, 0), (H1, S1, 0)
OVER_H1 = ((H1, S1, 1), (H2, S2, 0))
CETUS = from_here(b"", b"cetus", AT_H1)
ONWARD = rule(hop(b"", b"cetus", AT_H1), hop(b"", b"scylla", AT_H2))
TO_CETUS = b"\nFor a login as root to cetus."
names("a login's third line names the host of the key's constraint", [CETUS], b"root", TO_CETUS, HERE)
names(
    "a constraint for another host, and one for another user, don't name it",
    [from_here(b"", b"scylla", AT_H2), from_here(b"perseus", b"for perseus", AT_H1), CETUS],
    b"root",
    TO_CETUS,
    HERE,
)
names(
    "the first constraint that permits names the host",
    [from_here(b"", b"scylla", AT_H2, AT_H1), CETUS, from_here(b"root", b"third", AT_H1)],
    b"root",
    b"\nFor a login as root to scylla.",
    HERE,
)
names(
    "over a host to the next the last hop's constraint names it",
    [from_here(b"", b"straight", AT_H2), CETUS, rule(hop(b"", b"scylla", AT_H2), hop(b"", b"back", AT_H2)), ONWARD],
    b"root",
    b"\nFor a login as root to scylla.",
    *OVER_H1,
)
LONG = b"\x1b\xc3\xa9h\n" + b"h" * 59
names(
    "a host of 64 bytes is shown",
    [from_here(b"", LONG, AT_H1)],
    b"u",
    b"\nFor a login as u to ???h?" + b"h" * 59 + b".",
    HERE,
)
names(
    "a host of 65 bytes is cut, and so is a user",
    [from_here(b"", LONG + b"i", AT_H1)],
    b"u" * 65,
    b"\nFor a login as " + b"u" * 64 + b" to ???h?" + b"h" * 59 + b".",
    HERE,
)
names("a user may hold what looks like a host", [CETUS], b"git to x", b"\nFor a login as git to x to cetus.", HERE)
names("a key without purposes is asked for by two lines, whatever its hosts", [CETUS], b"root", b"", HERE, terms=b"")

EVERY_ROW = EARLIER  # with those of the files that this one stands on
