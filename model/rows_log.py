"""Literal records and their logs, put together by hand.

The fingerprint of a blob is the SHA-256 of it in base64.
"""

from __future__ import annotations

import base64
import hashlib

from .over_files import FileRow, lines
from .rows import ADD1, K1, K2, hear, st
from .rows_children import helper, sign, signed
from .rows_deadlines import ASKED, FORMAT2, at
from .rows_hostile import SIGN1
from .rows_rules import GRANT1, RAISED


ROWS: list[FileRow] = []


def row(name: str, record: list[str], told: list[str], life: str = "", status: int = 0) -> None:
    words = ["r", *[life] * (life != "")]
    ROWS.append(FileRow(name, words, {"r": lines(record)}, lines(told), status))


def shown(blob: bytes) -> str:
    digest = base64.b64encode(hashlib.sha256(blob).digest()).decode().rstrip("=")
    return f"SHA256:{digest}"


ZERO = "1970-01-01T00:00:00Z"
KEY1, BARE = f'key "one" {shown(K1)}', f"key {shown(K1)}"
ABC = "other data, 3 bytes"

# The fates of a request

ADDED = ["join client", *hear(1, ADD1)]
RECORD = [*ADDED, *hear(1, SIGN1)]
SIGNED = [*RECORD, *helper(2), *hear(2, signed(1, b"s"))]
REFUSED = "hear 2 00000009660000000000000001"
row("no line", [], [])
row("an addition is no request for a signature", ADDED, [])
row("a signature", SIGNED, [f"{ZERO}  {ABC}  {KEY1}  signed"])
row("no answer yet", RECORD, [f"{ZERO}  {ABC}  {KEY1}  no answer yet"])
row("the client left", [*RECORD, "end 1"], [f"{ZERO}  {ABC}  {KEY1}  client left"])
row(
    "the helper refused",
    [*RECORD, *helper(2), REFUSED],
    [f"{ZERO}  {ABC}  {KEY1}  refused by the helper"],
)
row(
    "the helper was lost",
    [*RECORD, *helper(2), "end 2"],
    [f"{ZERO}  {ABC}  {KEY1}  refused, the helper was lost"],
)
row(
    "the helper refused, and then was lost",
    [*RECORD, *helper(2), REFUSED, "end 2"],
    [f"{ZERO}  {ABC}  {KEY1}  refused by the helper"],
)
row(
    "the helper refused, and was lost by the same bytes",
    [*RECORD, *helper(2), REFUSED + "00000000"],
    [f"{ZERO}  {ABC}  {KEY1}  refused, the helper was lost"],
)
row(
    "the helper refused, and was lost before the client took that",
    [*RECORD, *helper(2), "hold 1", REFUSED, "end 2", "free 1"],
    [f"{ZERO}  {ABC}  {KEY1}  refused, the helper was lost"],
)
row(
    "a helper that didn't start",
    [*RECORD, "failed 1"],
    [f"{ZERO}  {ABC}  {KEY1}  refused, the helper was lost"],
)
row(
    "a key that isn't held has no comment",
    ["join client", *hear(1, SIGN1)],
    [f"{ZERO}  {ABC}  {BARE}  refused"],
)
row(
    "a key that was removed keeps its comment",
    [*ADDED, *hear(1, b"\x13"), *hear(1, SIGN1)],
    [f"{ZERO}  {ABC}  {KEY1}  refused"],
)
row(
    "what is no key has no fingerprint",
    ["join client", *hear(1, sign(b"k", b"abcd"))],
    [f"{ZERO}  other data, 4 bytes  key (no key)  refused"],
)

# Consent

row(
    "no consent",
    [*RAISED, "end 1"],
    [f"{ZERO}  {ABC}  {KEY1}  asked, no consent that counted  client left"],
)
row(
    "consent",
    [*RAISED, GRANT1],
    [f"{ZERO}  {ABC}  {KEY1}  asked, agreed  no answer yet"],
)
row(
    "the user said no",
    [*RAISED, "hear 2 000000096a0000000000000001"],
    [f"{ZERO}  {ABC}  {KEY1}  asked, no consent that counted  refused"],
)

# Seconds

row(
    "the second of the fate",
    [*ADDED, "at 5 1796000587", *hear(1, SIGN1), "at 9 1796000588", "end 1"],
    [f"2026-11-30T01:03:08Z  {ABC}  {KEY1}  client left"],
)
row(
    "that of the reading where there is no fate",
    [*ADDED, "at 5 951868799", *hear(1, SIGN1), "at 9 1796000588"],
    [f"2000-02-29T23:59:59Z  {ABC}  {KEY1}  no answer yet"],
)
row(
    "the key's lifetime ended",
    [*ADDED, "at 5 86399", *hear(1, SIGN1)],
    [f"1970-01-01T23:59:59Z  {ABC}  {KEY1}  refused"],
    life="5",
)
row(
    "the ask's limit in format 2",
    [*ASKED, at(60)],
    [f"{ZERO}  {ABC}  {KEY1}  refused, the helper was lost"],
)

# What is signed

MESSAGE = b"SSHSIG" + st(b"git") + st(b"") + st(b"sha512") + st(b"d" * 64)
for kind, message, told in [
    ("a commit", MESSAGE, 'file in namespace "git"'),
    ("a digest of another length", MESSAGE[:-1], f"other data, {len(MESSAGE) - 1} bytes"),
    ("a byte behind it", MESSAGE + b"x", f"other data, {len(MESSAGE) + 1} bytes"),
    (
        "a namespace that moves the cursor",
        MESSAGE.replace(st(b"git"), st(b'\x1b[A"')),
        'file in namespace "?[A?"',
    ),
    (
        "a long namespace",
        MESSAGE.replace(st(b"git"), st(b"n" * 300)),
        'file in namespace "' + "n" * 256 + '"',
    ),
]:
    row(kind, [*ADDED, *hear(1, sign(K1, message))], [f"{ZERO}  {told}  {KEY1}  no answer yet"])

LOGIN = st(b"session") + b"\x32" + st(b"root") + st(b"ssh-connection")
PLAIN = LOGIN + st(b"publickey") + b"\x01" + st(b"keyed-sha256@example.com") + st(K1)
BOUND = LOGIN + st(b"publickey-hostbound-v00@openssh.com") + b"\x01"
BOUND += st(b"keyed-sha256@example.com") + st(K1) + st(K2)
for kind, message, told in [
    ("a login", PLAIN, 'login as "root"'),
    ("a login that is bound to a host", BOUND, f'login as "root" to {shown(K2)}'),
    ("a login that is bound to what is no key", BOUND[:-68] + st(b"no key"), 'login as "root" to (no key)'),
    ("a login with another key", PLAIN[:-1] + b"\0", "may be a login, 148 bytes"),
    ("a flag byte of 2", PLAIN.replace(b"publickey\x01", b"publickey\x02"), "may be a login, 148 bytes"),
    ("a session without its length", PLAIN[4:], "may be a login, 144 bytes"),
    ("a byte behind a login", PLAIN + b"x", "may be a login, 149 bytes"),
    ("a method alone", st(b"hostbased"), "may be a login, 13 bytes"),
    ("a service alone", st(b"ssh-connection"), "may be a login, 18 bytes"),
    ("a service's front", st(b"ssh-connectio"), "other data, 17 bytes"),
    ("a certificate", st(b"ssh-rsa-cert-v01@openssh.com") + st(b"publickey"), "certificate, 45 bytes"),
    ("another version's certificate", st(b"ssh-rsa-cert-v02@openssh.com"), "other data, 32 bytes"),
]:
    row(kind, [*ADDED, *hear(1, sign(K1, message))], [f"{ZERO}  {told}  {KEY1}  no answer yet"])

# Records that are cut or refused

ROWS.append(
    FileRow(
        "a last line without its LF waits",
        ["r"],
        {"r": lines(RECORD) + b"end 1"},
        lines([f"{ZERO}  {ABC}  {KEY1}  no answer yet"]),
        0,
    )
)
row("a refused line ends the record", [*ADDED, "end 7", *hear(1, SIGN1)], [], status=4)
row(
    "what was told before it is told",
    [*SIGNED, *hear(1, SIGN1), "end 7", "end 1"],
    [f"{ZERO}  {ABC}  {KEY1}  signed", f"{ZERO}  {ABC}  {KEY1}  no answer yet"],
    status=4,
)
ROWS.append(FileRow("a lifetime that is none", ["r", "1y"], {"r": b""}, b"", 2))
ROWS.append(FileRow("two lifetimes", ["r", "5", "5"], {"r": lines(RECORD)}, b"", 2))
for chosen in (["--confirm-limit", "0"], ["--confirm-limit", "x"], ["--confirm-limit"], ["5", "--confirm-limit"]):
    ROWS.append(FileRow(f"the words {chosen}", ["r", *chosen], {"r": lines(RECORD)}, b"", 2))
OVER = lines([FORMAT2, *RAISED, "at 89 89", "at 90 90"])
ENDED = lines([f"1970-01-01T00:01:30Z  {ABC}  {KEY1}  asked, no consent that counted  refused"])
for chosen in (["--confirm-limit", "90"], ["0", "--confirm-limit", "1m30"]):
    ROWS.append(FileRow(f"a question that ended by a limit of {chosen}", ["r", *chosen], {"r": OVER}, ENDED, 0))
TWICE = ["--confirm-limit", "5", "--confirm-limit", "5"]
ROWS.append(FileRow("a limit of questions twice", ["r", *TWICE], {"r": lines(RECORD)}, b"", 2))
# A line that isn't whole waits while it may still be run, and is refused once it is too long.
WAITING = lines([f"{ZERO}  {ABC}  {KEY1}  no answer yet"])
ROWS.append(FileRow("the longest line, cut", ["r"], {"r": lines(RECORD) + b"#" * 65536}, WAITING, 0))
ROWS.append(FileRow("a line that is too long already", ["r"], {"r": lines(RECORD) + b"#" * 65537}, WAITING, 4))
