"""Literal records with deeds, and what an audit prints of them, put together by hand."""

from __future__ import annotations

from .over_files import FileRow, lines
from .rows import ADD1, CERT, ED25519_CERT, H1, H2, K1, K2, LIST, NO, OK, ONE, S1, TERMS1, USES
from .rows import added, hear, listing, lock, st, to, u32
from .rows_children import LEAVING, TWO, TWO_PRINT, bind, chain, helper, put1, sign, signed
from .rows_children import true, verify
from .rows_deadlines import ASKED, ASKED_PRINT, FORMAT2, HELD, LOST, at
from .rows_hostile import SIGN1, answer
from .rows_rules import GRANT1, ORIGIN, RAISED, RAISED_PRINT, SIXTEEN, hop, rule, ruled
from .rows_uses import BOTH, BOTH_PRINT, GONE, HOLDING, granted


ROWS: list[FileRow] = []
WORDS = ["r", "d"]
KEY1, KEY2 = f"key {K1.hex()}", f"key {K2.hex()}"


def words(
    name: str, given: list[str], files: dict[str, bytes], printed: list[str], status: int
) -> None:
    ROWS.append(FileRow(name, given, files, lines(printed), status))


def row(name: str, record: list[str], deeds: list[str], report: list[str], life: str = "") -> None:
    """Deeds, without their last line `end`, and the report if they fit."""
    count = len(report)
    given, files = WORDS + [life] * (life != ""), {"r": lines(record), "d": lines([*deeds, "end"])}
    words(name, given, files, [*report, f"yes {count}"], 0)


def differs(name: str, record: list[str], deeds: bytes, line: int, life: str = "") -> None:
    given, files = WORDS + [life] * (life != ""), {"r": lines(record), "d": deeds}
    words(name, given, files, [f"no {line}"], 1)


def bad(name: str, record: list[str], deeds: bytes, line: int) -> None:
    words(name, WORDS, {"r": lines(record), "d": deeds}, [f"bad {line}"], 4)


# One signature, and what may be wrong with its deeds

RECORD = ["join client", *hear(1, ADD1), *hear(1, SIGN1)]
DEEDS = ["to 1 0000000106", "start 1 helper"]
row("a signature is asked for", RECORD, DEEDS, [f"sign 3 ask 1 port 1 {KEY1}"])
WHOLE = lines([*DEEDS, "end"])
QUESTION = lines([DEEDS[0], "start 1 confirm", "end"])
differs("a confirmation in a signature's place", RECORD, QUESTION, 2)
bad("a line that is refused", [RECORD[0], "hear 7 00", *RECORD[1:]], WHOLE, 2)
for name, deeds, line in [
    ("no deeds at all", b"", 1),
    ("an answer that wasn't given", WHOLE.replace(b"106\n", b"105\n"), 1),
    ("the last line without its LF", WHOLE[:-1], 3),
    ("the last line cut", WHOLE[:-2], 3),
    ("the last line missing", WHOLE[:-4], 3),
    ("the first line missing", WHOLE[WHOLE.index(b"\n") + 1 :], 1),
    ("the last line twice", WHOLE + b"end\n", 4),
    ("an empty line behind the last", WHOLE + b"\n", 4),
    ("bytes behind the last line", WHOLE + b"x", 4),
    ("two lines in another order", lines([DEEDS[1], DEEDS[0], "end"]), 1),
    ("a line more in the middle", lines([DEEDS[0], "close 1", DEEDS[1], "end"]), 2),
    ("a line whose LF has a CR before it", WHOLE.replace(b"\nend", b"\r\nend"), 2),
    ("a last line that says something else", WHOLE.replace(b"end", b"End"), 3),
    ("the deeds of a run that was refused", lines([*DEEDS, "refused 4 word"]), 3),
    ("a line with a byte more", WHOLE.replace(b"helper", b"helper "), 2),
]:
    differs(f"deeds with {name}", RECORD, deeds, line)
SIGNED = [*RECORD, *helper(2), *hear(2, signed(1, b"s"))]
PUT = [*DEEDS, to(2, put1(1, b"abc"))]
row("an answer is no request", SIGNED, [*PUT, to(1, answer(b"s"))], [f"sign 3 ask 1 port 1 {KEY1}"])
differs("another signature", SIGNED, lines([*PUT, to(1, answer(b"t")), "end"]), 4)
differs(
    "a signature that another agent made without its user's consent",
    [*RAISED, "hear 2 000000096a0000000000000001"],
    lines([*RAISED_PRINT, "close 2", to(1, answer(b"s")), "end"]),
    5,
)

# Records that are refused, and those that aren't to the end

bad("a word that is none", ["join"], lines(["refused 1 word"]), 1)
bad("a refused line before a difference", [*RECORD, "", "#", "end 2"], b"", 6)
bad("a refused line behind a difference", [RECORD[0], *hear(1, LIST), "take 1 5"], b"no", 3)
bad("the first of two refused lines", ["join client", "take 1 0", "x"], lines(["end"]), 2)
bad("a format that isn't in line 1", ["", FORMAT2], lines(["end"]), 2)
bad("a line of 65537 bytes", ["join client", "#" * 65537], lines(["end"]), 2)
row("an empty record", [], [], [])
words(
    "a record whose last line has no LF",
    WORDS,
    {"r": lines(RECORD)[:-1], "d": WHOLE},
    [f"sign 3 ask 1 port 1 {KEY1}", "yes 1"],
    0,
)
row(
    "lines that are skipped are counted",
    ["# a comment", "", *RECORD],
    DEEDS,
    [f"sign 5 ask 1 port 1 {KEY1}"],
)

# Which acts are told, and where

row(
    "asks by their numbers, the first in the settling of an addition's line",
    [*TWO, *hear(3, signed(2, b"s2")), *hear(3, signed(1, b"s1")), *hear(2, sign(K1, b"w"))]
    + ["end 2", *hear(3, signed(3, b"s3"))],
    [*TWO_PRINT, to(2, answer(b"s2")), to(1, answer(b"s1")), to(3, put1(3, b"w")), "close 2"],
    [f"sign 3 ask 1 port 1 {KEY1}", f"sign 4 ask 2 port 2 {KEY1}", f"sign 10 ask 3 port 2 {KEY1}"],
)
row(
    "a grant for an addition that was replaced asks for nothing",
    [*RAISED, *hear(3, b"\x12\0\0\0\x40" + K1), *hear(3, ADD1), GRANT1],
    [*RAISED_PRINT, to(3, OK), to(3, OK), "close 2", to(1, NO)],
    [],
)
row(
    "a grant asks at its own line, for the client that asked for it",
    [*RAISED, GRANT1],
    [*RAISED_PRINT, "start 2 helper", "close 2"],
    [f"sign 7 ask 1 port 1 {KEY1}"],
)
row(
    "a grant to a locked agent asks for nothing",
    [*RAISED, *hear(3, lock(b"a")), GRANT1],
    [*RAISED_PRINT, to(3, OK), "close 2", to(1, NO)],
    [],
)
row(
    "17 questions ask for no signature",
    ["join client", *hear(1, TERMS1 + b"\x02"), *SIXTEEN[1:]],
    [to(1, OK), *[f"start {n} confirm" for n in range(1, 17)], to(17, NO)],
    [],
)
row(
    "a key that may be used once is asked for once",
    [*HOLDING, *hear(1, SIGN1), *hear(2, LIST), *helper(3), *hear(3, signed(1, b"s"))]
    + hear(1, SIGN1),
    [to(1, OK), "start 1 helper", GONE, to(3, put1(1, b"abc")), to(1, answer(b"s")), to(1, NO)],
    [f"sign 4 ask 1 port 1 {KEY1}"],
)
row(
    "the second of two grants finds the key used up",
    [*BOTH, *granted(3, 1), *granted(4, 2)],
    [*BOTH_PRINT, "start 3 helper", "close 3", "close 4", to(2, NO)],
    [f"sign 11 ask 1 port 1 {KEY1}"],
)
row(
    "an ask that was lost by its deadline, and the next one",
    [*ASKED, at(59), at(60), "failed 1", *hear(1, SIGN1)],
    [*ASKED_PRINT, to(1, NO), "start 2 helper"],
    [f"sign 4 ask 1 port 1 {KEY1}", f"sign 8 ask 2 port 1 {KEY1}"],
)
differs(
    "the same in format 1, where no deadline is",
    [*ASKED[1:], at(59), at(60)],
    lines([*ASKED_PRINT, to(1, NO), "end"]),
    3,
)
row(
    "a request that waited is asked for in the settling of the moment that ended the one before",
    [*HELD, *hear(1, SIGN1, SIGN1), at(60)],
    [*ASKED_PRINT, to(1, NO), "start 2 helper"],
    [f"sign 4 ask 1 port 1 {KEY1}", f"sign 5 ask 2 port 1 {KEY1}"],
)
row(
    "a verification is no signature, but has a number",
    ["join client", *hear(1, bind(H1, S1, 0)), *helper(2), *hear(2, true(1)), *hear(1, ADD1)]
    + hear(1, SIGN1),
    ["start 1 helper", to(2, verify(1, H1, S1)), to(1, OK), to(1, OK), to(2, put1(2, b"abc"))],
    [f"sign 8 ask 2 port 1 {KEY1}"],
)
BINDINGS = chain(1, 2, 2, (H1, S1, 1), (H1, S1, 1))
row(
    "verifications between two signatures",
    [*SIGNED, *BINDINGS[0], *hear(1, SIGN1)],
    [*PUT, to(1, answer(b"s")), *BINDINGS[1], to(2, put1(4, b"abc"))],
    [f"sign 3 ask 1 port 1 {KEY1}", f"sign 12 ask 4 port 1 {KEY1}"],
)
row(
    "256 asks are told, and what comes behind them isn't",
    ["join client", *hear(1, ADD1), *LEAVING, *hear(1, sign(K1, b""))]
    + ["join client", *hear(257, sign(K1, b""), LIST)],
    [to(1, OK), "start 1 helper", *[f"close {n}" for n in range(2, 257)]]
    + [to(257, NO), to(257, listing(ONE))],
    [f"sign {3 * n - 2} ask {n - 1} port {n} {KEY1}" for n in range(2, 257)]
    + [f"sign 768 ask 256 port 1 {KEY1}"],
)
row(
    "a client that left before the answer",
    [*RECORD, "end 1", *helper(2), *hear(2, signed(1, b"s"))],
    [*DEEDS, "close 1", to(2, put1(1, b"abc"))],
    [f"sign 3 ask 1 port 1 {KEY1}"],
)
row(
    "requests that are refused ask for nothing",
    ["join client", *hear(1, ADD1, sign(K2, b"abc"), SIGN1 + b"\0", lock(b"a")), *hear(1, SIGN1)],
    [to(1, OK), to(1, NO), to(1, NO), to(1, OK), to(1, NO)],
    [],
)
HOLD = ["join client", *hear(1, ADD1), "hold 1", *hear(1, LIST, SIGN1)]
row(
    "a freed port's next request is asked for at the line that freed it",
    [*HOLD, "# a comment", "free 1"],
    [to(1, OK), to(1, listing(ONE)), "start 1 helper"],
    [f"sign 6 ask 1 port 1 {KEY1}"],
)
TAKEN = to(1, listing(ONE))
row(
    "a held port's next request is asked for at the line of the last taking",
    [*HOLD, "take 1 80", "take 1 4"],
    [to(1, OK), TAKEN[:-8], "to 1 " + TAKEN[-8:], "start 1 helper"],
    [f"sign 6 ask 1 port 1 {KEY1}"],
)
CERTIFIED = b"\x11" + ED25519_CERT + st(CERT) + st(b"\x31" * 32) + st(b"\x32" * 64) + st(b"c")
row(
    "a certificate is told whole",
    ["join client", *hear(1, CERTIFIED), *hear(1, sign(CERT, b"abc"))],
    [to(1, OK), "start 1 helper"],
    [f"sign 3 ask 1 port 1 key {CERT.hex()}"],
)
row(
    "a key for another host than the one that a client is bound to, and an unbound client",
    ["join client", *hear(1, ruled(rule(ORIGIN, hop(b"", b"h", (H1, 0))))), *hear(1, SIGN1)]
    + [*hear(1, bind(H2, S1, 0)), *helper(2), *hear(2, true(1)), *hear(1, SIGN1)],
    [to(1, OK), to(1, NO), "start 1 helper", to(2, verify(1, H2, S1)), to(1, OK), to(1, NO)],
    [],
)
TWO_KEYS = ["join client", "join client", *hear(2, b"\x11" + added(0x12, b"two")), *hear(1, ADD1)]
row(
    "two keys and two clients",
    [*TWO_KEYS, *hear(1, sign(K2, b"abc")), *hear(2, SIGN1)],
    [to(2, OK), to(1, OK), "start 1 helper"],
    [f"sign 5 ask 1 port 1 {KEY2}", f"sign 6 ask 2 port 2 {KEY1}"],
)
row(
    "a key with uses left, asked for twice in one settling of two clients",
    ["join client", "join client", *hear(1, TERMS1 + USES + u32(2)), "hold 1", "hold 2"]
    + [*hear(1, LIST, SIGN1), *hear(2, LIST, SIGN1), "free 1", "free 2"],
    [to(1, OK), to(1, listing(ONE)), "start 1 helper", to(2, listing(ONE))],
    [f"sign 8 ask 1 port 1 {KEY1}", f"sign 9 ask 2 port 2 {KEY1}"],
)

# Words and files

LATER = ["join client", *hear(1, ADD1), at(5), *hear(1, SIGN1)]
row("a default lifetime that is over", LATER, [to(1, OK), to(1, NO)], [], life="5")
row("a default lifetime that isn't over", LATER, DEEDS, [f"sign 4 ask 1 port 1 {KEY1}"], life="6")
row("a default lifetime of 0", LATER, DEEDS, [f"sign 4 ask 1 port 1 {KEY1}"], life="0")
row("a default lifetime with a unit", LATER, DEEDS, [f"sign 4 ask 1 port 1 {KEY1}"], life="1m")
row("a default lifetime of parts", LATER, [to(1, OK), to(1, NO)], [], life="2s3")
differs("a default lifetime that the deeds don't have", LATER, WHOLE, 2, life="5")
OVER = lines([to(1, OK), to(1, NO), "end"])
differs("the deeds of a default lifetime, without it", LATER, OVER, 2)
FILES = {"r": lines(RECORD), "d": WHOLE}
for given in ([], ["r"], [*WORDS, "5", "5"], ["-t", "5", "r", "d"]):
    words(f"the words {given}", given, FILES, [], 2)
for life in ("", "10x", "-1", "4294967296", "x", " 5", "5 ", "h"):
    words(f"the lifetime {life!r}", [*WORDS, life], FILES, [], 2)
for limit in ("", "0", "0s", "x", "-1", "4294967296", " 5", "1.5"):
    words(f"the limit {limit!r}", [*WORDS, "--confirm-limit", limit], FILES, [], 2)
for given in (["--confirm-limit"], ["5", "--confirm-limit"], ["--confirm-limit", "5", "5"], ["--confirm-limit=5"]):
    words(f"a limit in the words {given}", [*WORDS, *given], FILES, [], 2)
TWICE = ["--confirm-limit", "5", "--confirm-limit", "5"]
words("a limit twice", [*WORDS, *TWICE], FILES, [], 2)
words("a lifetime, and a limit twice", [*WORDS, "5", *TWICE], FILES, [], 2)
words("a limit before the files", ["--confirm-limit", "5", *WORDS], FILES, [], 2)
words("a limit whose name is cut", [*WORDS, "--confirm-limi", "5"], FILES, [], 2)
words("a limit, and no file", ["none", "none", "--confirm-limit", "0"], FILES, [], 2)
ENDED = {"r": lines([FORMAT2, *RAISED, at(89), at(90)]), "d": lines([*RAISED_PRINT, *LOST, "end"])}
for chosen in (["--confirm-limit", "90"], ["0", "--confirm-limit", "1m30"], ["7", "--confirm-limit", "90s"]):
    words(f"a question that ended by a limit of {chosen}", [*WORDS, *chosen], ENDED, ["yes 0"], 0)
words("a question that ended by another limit", [*WORDS, "--confirm-limit", "91"], ENDED, ["no 4"], 1)
words("a question that ended by a limit, without it", WORDS, ENDED, ["no 4"], 1)
words("no record", ["none", "d"], FILES, [], 3)
words("no deeds", ["r", "none"], FILES, [], 3)
words("no deeds to a record that is refused", ["d", "none"], FILES, [], 3)
words("no file, and a lifetime that can't be read", ["none", "none", "x"], FILES, [], 2)
words("one file in both places", ["r", "r"], FILES, ["no 1"], 1)
words("deeds in the record's place", ["d", "r"], FILES, ["bad 1"], 4)
