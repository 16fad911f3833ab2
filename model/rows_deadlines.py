"""The literal rows of asks that stay unanswered, and of questions that stay open.

In a schedule of format 2 a helper has 60 seconds for an ask, and a user 300 for a question, or what is chosen.
"""

from __future__ import annotations

from .rows import ADD1, H1, K1, LIST, NO, NOTHING, OK, ONE, S1, TERMS1, hear, listing
from .rows import row, to
from .rows_children import bind, hello, put1, sign, signed, true, verify
from .rows_hostile import SIGN1, answer
from .rows_rules import GRANT1, confirm
from .rows_uses import EVERY_ROW as EARLIER
from .rows_uses import ONCE, denied

IN_FORMAT1 = list(EARLIER)  # the rows before these
FORMAT2 = "schedule 2"
TICKET = " " + "00" * 16


def at(mono: int) -> str:
    return f"at {mono} 0"


def child(job: int, port: int) -> list[str]:
    """A child process is started, connects, and says hello."""
    return [f"started {job}{TICKET}", "join child", *hear(port, hello(job))]


HELD = [FORMAT2, "join client", *hear(1, ADD1)]
ASKED = [*HELD, *hear(1, SIGN1)]
ASKED_PRINT = [to(1, OK), "start 1 helper"]
WAITING = [*ASKED, *child(1, 2)]
WAITING_PRINT = [*ASKED_PRINT, to(2, put1(1, b"abc"))]
LOST = ["close 2", to(1, NO)]
RAISED = [FORMAT2, "join client", *hear(1, TERMS1 + b"\x02", SIGN1), *child(1, 2)]
RAISED_PRINT = [to(1, OK), "start 1 confirm", to(2, confirm(1))]

# What has no deadline

row(
    "in a schedule of format 1 an ask waits for ever",
    [*ASKED[1:], at(59), at(60), at(2**64 - 1)],
    ASKED_PRINT,
)
row(
    "in a schedule of format 1 a question waits for ever",
    [*RAISED[1:], at(300), at(2**64 - 1), *denied(2, 1)],
    [*RAISED_PRINT, "close 2", to(1, NO)],
)
row(
    "in a schedule of format 1 a helper answers after any time",
    [*WAITING[1:], at(60), at(301), *hear(2, signed(1, b"s")), *hear(1, SIGN1), at(2**64 - 1)],
    [*WAITING_PRINT, to(1, answer(b"s")), to(2, put1(2, b"abc"))],
)

# An ask

row(
    "an ask is lost by its 60th second, and the start that failed belongs to no helper",
    [*ASKED, at(59), at(60), "failed 1", *hear(1, SIGN1)],
    [*ASKED_PRINT, to(1, NO), "start 2 helper"],
)
row(
    "a helper that said hello is closed with its ask",
    [*WAITING, at(59), at(60), *hear(1, SIGN1)],
    [*WAITING_PRINT, *LOST, "start 2 helper"],
)
row(
    "an answer one second before the limit",
    [*WAITING, at(59), *hear(2, signed(1, b"s")), at(60), at(119)],
    [*WAITING_PRINT, to(1, answer(b"s"))],
)
row(
    "an answer in the second of the limit comes at a port that is closed",
    [*WAITING, at(60), *hear(2, signed(1, b"s")), *hear(1, LIST)],
    [*WAITING_PRINT, *LOST, to(1, listing(ONE))],
)
row("a clock that jumps", [*WAITING, at(2**64 - 1)], [*WAITING_PRINT, *LOST])
row(
    "a clock that goes back is the greatest second so far",
    [HELD[0], at(100), *HELD[1:], at(0), *hear(1, SIGN1), at(99), at(159), at(3), at(160)],
    [*ASKED_PRINT, to(1, NO)],
)
row(
    "an ask near the clock's end is never lost",
    [HELD[0], at(2**64 - 60), *HELD[1:], *hear(1, SIGN1), at(2**64 - 1)],
    ASKED_PRINT,
)
row(
    "an ask that is lost in the clock's last second",
    [HELD[0], at(2**64 - 61), *HELD[1:], *hear(1, SIGN1), at(2**64 - 2), at(2**64 - 1)],
    [*ASKED_PRINT, to(1, NO)],
)
row(
    "the wall's clock ends nothing",
    [*WAITING, "at 59 18446744073709551615", *hear(2, signed(1, b"s"))],
    [*WAITING_PRINT, to(1, answer(b"s"))],
)
row(
    "a part of an answer is no answer",
    [*WAITING, at(30), f"hear 2 {hear(2, signed(1, b's'))[0].split()[2][:-2]}", at(60)],
    [*WAITING_PRINT, *LOST],
)
row(
    "an ask of a client that left loses the helper too",
    [*WAITING, "end 1", at(60)],
    [*WAITING_PRINT, "close 1", "close 2"],
)
row(
    "a client that is held is told once it takes",
    [*WAITING, "hold 1", at(60), "take 1 5"],
    [*WAITING_PRINT, "close 2", to(1, NO)],
)
row(
    "a helper that doesn't take its ask",
    [*ASKED, f"started 1{TICKET}", "join child", "hold 2", *hear(2, hello(1)), "take 2 3", at(60)],
    [*ASKED_PRINT, "to 2 " + to(2, put1(1, b"abc"))[5:11], *LOST],
)
row(
    "a lost helper gives no use back by its limit either",
    [FORMAT2, "join client", *hear(1, TERMS1 + ONCE, SIGN1), at(60), *hear(1, SIGN1, LIST)],
    [*ASKED_PRINT, to(1, NO), to(1, NO), to(1, NOTHING)],
)
row(
    "a host's signature that nobody verifies",
    [*HELD, *hear(1, bind(H1, S1, 0)), *child(1, 2), at(59), at(60), *hear(2, true(1))]
    + [*hear(1, bind(H1, S1, 0)), *child(2, 3), *hear(3, true(2))],
    [*ASKED_PRINT, to(2, verify(1, H1, S1)), *LOST, "start 2 helper", to(3, verify(2, H1, S1))]
    + [to(1, OK)],
)

# More than one ask

TWO = [*HELD, "join client", *hear(1, SIGN1), *child(1, 3)]
TWO_PRINT = [*ASKED_PRINT, to(3, put1(1, b"abc"))]
SECOND = hear(2, sign(K1, b"xyz"))
SECOND_PRINT = [to(3, put1(2, b"xyz"))]
row(
    "the oldest ask loses the helper, and the youngest fails with it",
    [*TWO, at(59), *SECOND, at(60)],
    [*TWO_PRINT, *SECOND_PRINT, "close 3", to(1, NO), to(2, NO)],
)
row(
    "once the oldest was answered the next one counts",
    [*TWO, at(30), *SECOND, at(40), *hear(3, signed(1, b"s")), at(60), at(89), at(90)],
    [*TWO_PRINT, *SECOND_PRINT, to(1, answer(b"s")), "close 3", to(2, NO)],
)
row(
    "once the youngest was answered the oldest counts still",
    [*TWO, at(30), *SECOND, at(40), *hear(3, signed(2, b"s")), at(59), at(60)],
    [*TWO_PRINT, *SECOND_PRINT, to(2, answer(b"s")), "close 3", to(1, NO)],
)
row(
    "asks behind an answer have seconds of their own",
    [*WAITING, at(50), *hear(2, signed(1, b"s")), *hear(1, SIGN1), at(60), at(109)]
    + [*hear(2, signed(2, b"t")), at(110), *hear(1, SIGN1), at(169), at(170)],
    [*WAITING_PRINT, to(1, answer(b"s")), to(2, put1(2, b"abc")), to(1, answer(b"t"))]
    + [to(2, put1(3, b"abc")), *LOST],
)
row(
    "the next helper's asks have seconds of their own",
    [*WAITING, at(60), *hear(1, SIGN1), at(61), at(119), at(120), *hear(1, SIGN1), at(180)],
    [*WAITING_PRINT, *LOST, "start 2 helper", to(1, NO), "start 3 helper", to(1, NO)],
)
row(
    "the next helper's ask counts from when it was put, and not from its hello",
    [*WAITING, "end 2", at(7), *hear(1, SIGN1), at(40), *child(2, 3), at(66), at(67)],
    [*WAITING_PRINT, *LOST, "start 2 helper", to(3, put1(2, b"abc")), "close 3", to(1, NO)],
)
row(
    "a request that waited behind the lost one is put in that very second",
    [*HELD, *hear(1, SIGN1, SIGN1), at(60), at(119), at(120)],
    [*ASKED_PRINT, to(1, NO), "start 2 helper", to(1, NO)],
)

# 256 clients ask; the first half of them leaves, since no more than 128 are open.
CROWD = [line for n in range(2, 258) for line in ("join client", *hear(n, SIGN1))]
for n in range(2, 130):
    CROWD.insert(CROWD.index("join client", 3 * (n - 2)) + 2, f"end {n}")
CROWD_PRINT = [to(1, OK), "start 1 helper", *[f"close {n}" for n in range(2, 130)]]
row(
    "256 asks run out at one moment",
    [FORMAT2, "join client", *hear(1, ADD1), *CROWD[:-2], "end 1", *CROWD[-2:], *child(1, 258)]
    + [at(60), *hear(257, LIST)],
    [*CROWD_PRINT, "close 1", to(258, *[put1(n, b"abc") for n in range(1, 257)]), "close 258"]
    + [*[to(n, NO) for n in range(130, 258)], to(257, listing(ONE))],
)

row(
    "256 clients ask and leave, and the next one has a helper once they ran out",
    [FORMAT2, "join client", *hear(1, ADD1)]
    + [line for n in range(2, 258) for line in ("join client", *hear(n, SIGN1), f"end {n}")]
    + [*hear(1, SIGN1), at(59), *hear(1, SIGN1), at(60), *hear(1, SIGN1)],
    [to(1, OK), "start 1 helper", *[f"close {n}" for n in range(2, 258)], to(1, NO), to(1, NO)]
    + ["start 2 helper"],
)

# A helper that answers at one byte a second: the limit is for the whole answer.
SLOW = hear(2, signed(1, b"s" * 42))[0].split(" ")[2]  # 59 bytes
SLOWER = hear(2, signed(1, b"s" * 43))[0].split(" ")[2]
for name, text, last in [
    ("59 bytes", SLOW, [to(1, answer(b"s" * 42))]),
    ("60 bytes", SLOWER, LOST),
]:
    row(
        f"an answer of {name}, at one byte a second",
        WAITING
        + [line for n in range(len(text) // 2) for line in (at(n + 1), f"hear 2 {text[2 * n:][:2]}")],
        [*WAITING_PRINT, *last],
    )

# A helper that hasn't said hello

row(
    "a helper that is to be started yet is given up, and the next one is served",
    [*ASKED, at(60), *hear(1, SIGN1), f"started 1{TICKET}", *child(2, 2), *hear(2, signed(2, b"s"))],
    [*ASKED_PRINT, to(1, NO), "start 2 helper", to(2, put1(2, b"abc")), to(1, answer(b"s"))],
)
row(
    "a hello for a job that was started once it was given up",
    [*ASKED, at(60), f"started 1{TICKET}", "join child", *hear(2, hello(1)), *hear(1, SIGN1)],
    [*ASKED_PRINT, to(1, NO), "close 2", "start 2 helper"],
)
row(
    "a hello behind its own deadline",
    [*ASKED, f"started 1{TICKET}", "join child", at(60), *hear(2, hello(1)), *hear(1, SIGN1)],
    [*ASKED_PRINT, to(1, NO), "close 2", "start 2 helper"],
)
row(
    "a hello one second before its deadline, and none of the helper's in the second behind",
    [*ASKED, f"started 1{TICKET}", "join child", at(59), *hear(2, hello(1)), at(60)],
    [*ASKED_PRINT, to(2, put1(1, b"abc")), *LOST],
)
row(
    "a start that failed for a helper that was given up leaves the next one alone",
    [*ASKED, at(60), *hear(1, SIGN1), "failed 1", *child(2, 2), *hear(2, signed(2, b"s"))],
    [*ASKED_PRINT, to(1, NO), "start 2 helper", to(2, put1(2, b"abc")), to(1, answer(b"s"))],
)
row(
    "the next one's start fails while the first is to be started yet",
    [*ASKED, at(60), *hear(1, SIGN1), "failed 2", "failed 1", *hear(1, SIGN1)],
    [*ASKED_PRINT, to(1, NO), "start 2 helper", to(1, NO), "start 3 helper"],
)
row(
    "a job that is started twice",
    [*ASKED, at(60), f"started 1{TICKET}", f"started 1{TICKET}"],
    [*ASKED_PRINT, to(1, NO), "refused 7 order"],
)
row(
    "three helpers in turn are given up before they are started",
    [*ASKED, at(60), *hear(1, SIGN1), at(120), *hear(1, SIGN1), at(180), "failed 2"]
    + [f"started 3{TICKET}", "failed 1", *hear(1, SIGN1)],
    [*ASKED_PRINT, to(1, NO), "start 2 helper", to(1, NO), "start 3 helper", to(1, NO)]
    + ["start 4 helper"],
)

# A question

row(
    "a question ends by its 300th second, and an answer in that second comes too late",
    [*RAISED, at(299), at(300), GRANT1],
    [*RAISED_PRINT, *LOST],
)
row(
    "an answer one second before the limit of a question",
    [*RAISED, at(299), GRANT1],
    [*RAISED_PRINT, "start 2 helper", "close 2"],
)
row(
    "the client of a question that ended goes on",
    [*RAISED, at(300), *hear(1, LIST, SIGN1)],
    [*RAISED_PRINT, *LOST, to(1, listing(ONE)), "start 2 confirm"],
)
row(
    "a request behind one whose question ended is put in that very second",
    [FORMAT2, "join client", *hear(1, TERMS1 + b"\x02", SIGN1, SIGN1), at(300), at(599), at(600)],
    [to(1, OK), "start 1 confirm", to(1, NO), "start 2 confirm", to(1, NO)],
)
row(
    "an agreed signature has 60 seconds from then on",
    [*RAISED, at(299), GRANT1, at(300), at(358), at(359)],
    [*RAISED_PRINT, "start 2 helper", "close 2", to(1, NO)],
)
row(
    "a question whose child process is to be started yet",
    [FORMAT2, "join client", *hear(1, TERMS1 + b"\x02", SIGN1), at(299), at(300)]
    + [f"started 1{TICKET}", "join child", *hear(2, hello(1)), *hear(1, LIST)],
    [to(1, OK), "start 1 confirm", to(1, NO), "close 2", to(1, listing(ONE))],
)
row(
    "a question whose child process can't be started, behind its limit",
    [FORMAT2, "join client", *hear(1, TERMS1 + b"\x02", SIGN1), at(300), "failed 1"]
    + hear(1, LIST),
    [to(1, OK), "start 1 confirm", to(1, NO), to(1, listing(ONE))],
)
row(
    "a question whose child process has said no hello",
    [FORMAT2, "join client", *hear(1, TERMS1 + b"\x02", SIGN1), f"started 1{TICKET}"]
    + ["join child", at(300), *hear(2, hello(1))],
    [to(1, OK), "start 1 confirm", to(1, NO), "close 2"],
)
row(
    "a question counts from when it was raised, and not from its hello",
    [FORMAT2, at(10), "join client", *hear(1, TERMS1 + b"\x02", SIGN1), at(200), *child(1, 2)]
    + [at(309), at(310)],
    [*RAISED_PRINT, *LOST],
)
row(
    "a question near the clock's end never ends",
    [FORMAT2, at(2**64 - 300), *RAISED[1:], at(2**64 - 1), *denied(2, 1)],
    [*RAISED_PRINT, "close 2", to(1, NO)],
)

# Another limit of a question

row("a question ends by its first second", [*RAISED, at(1), GRANT1], [*RAISED_PRINT, *LOST], limit=1)
row(
    "an answer in the second of a question, which has one",
    [*RAISED, GRANT1, at(1), at(59), at(60)],
    [*RAISED_PRINT, "start 2 helper", "close 2", to(1, NO)],
    limit=1,
)
row(
    "a question of one second that is raised by the clock's last second",
    [FORMAT2, at(2**64 - 2), *RAISED[1:], at(2**64 - 1)],
    [*RAISED_PRINT, *LOST],
    limit=1,
)
row(
    "a question behind one of one second is asked in that second",
    [FORMAT2, "join client", *hear(1, TERMS1 + b"\x02", SIGN1, SIGN1), at(1), at(2)],
    [to(1, OK), "start 1 confirm", to(1, NO), "start 2 confirm", to(1, NO)],
    limit=1,
)
row(
    "an answer one second before another limit",
    [*RAISED, at(89), GRANT1, at(90)],
    [*RAISED_PRINT, "start 2 helper", "close 2"],
    limit=90,
)
row(
    "a question of 90 seconds ends by its 90th",
    [*RAISED, at(89), at(90), GRANT1],
    [*RAISED_PRINT, *LOST],
    limit=90,
)
row(
    "a question of 301 seconds outlasts 300",
    [*RAISED, at(300), at(301)],
    [*RAISED_PRINT, *LOST],
    limit=301,
)
row(
    "the greatest limit, a second before it",
    [*RAISED, at(300), at(2**32 - 2), GRANT1],
    [*RAISED_PRINT, "start 2 helper", "close 2"],
    limit=2**32 - 1,
)
row(
    "the greatest limit",
    [*RAISED, at(2**32 - 2), at(2**32 - 1), GRANT1],
    [*RAISED_PRINT, *LOST],
    limit=2**32 - 1,
)
row(
    "an ask has its 60 seconds beside a shorter limit of questions",
    [*ASKED, at(59), at(60)],
    [*ASKED_PRINT, to(1, NO)],
    limit=1,
)
row("and beside a longer one", [*ASKED, at(59), at(60)], [*ASKED_PRINT, to(1, NO)], limit=600)
row(
    "a limit of questions in a schedule of format 1 is none",
    [*RAISED[1:], at(1), at(300), at(2**64 - 1), *denied(2, 1)],
    [*RAISED_PRINT, "close 2", to(1, NO)],
    limit=1,
)
row(
    "a lifetime and a limit of questions",
    [*RAISED, at(1), at(2), *hear(1, LIST)],
    [*RAISED_PRINT, *LOST, to(1, listing(ONE))],
    life=5,
    limit=2,
)

# 16 questions: those of the odd clients have child processes that said hello. One second lies between two.
SIXTEEN = [FORMAT2, "join client", *hear(1, TERMS1 + b"\x02")]
for n in range(1, 17):
    SIXTEEN += [*(["join client"] if n > 1 else []), at(n), *hear(n, SIGN1)]
CHILDREN = [line for place in range(8) for line in child(2 * place + 1, 17 + place)]
SIXTEEN_PRINT = [to(1, OK), *[f"start {n} confirm" for n in range(1, 17)]]
SIXTEEN_PRINT += [to(17 + place, confirm(2 * place + 1)) for place in range(8)]
row(
    "16 questions end at one moment",
    [*SIXTEEN, *CHILDREN, at(316), *hear(1, SIGN1)],
    [*SIXTEEN_PRINT, *[f"close {n}" for n in range(17, 25)], *[to(n, NO) for n in range(1, 17)]]
    + ["start 17 confirm"],
)
row(
    "16 questions end one by one",
    [*SIXTEEN, *CHILDREN, at(300), *[at(300 + n) for n in range(1, 17)]],
    SIXTEEN_PRINT
    + [
        line
        for n in range(1, 17)
        for line in [*([f"close {17 + n // 2}"] if n % 2 else []), to(n, NO)]
    ],
)
row(
    "the first four of 16 questions end",
    [*SIXTEEN, *CHILDREN, at(304), *denied(19, 5)],
    [*SIXTEEN_PRINT, "close 17", "close 18", *[to(n, NO) for n in range(1, 5)], "close 19"]
    + [to(5, NO)],
)

# Both limits

BOTH = [FORMAT2, "join client", "join client", *hear(1, TERMS1 + b"\x02", SIGN1), *child(1, 3)]
BOTH += [at(240), *hear(2, ADD1), *hear(2, SIGN1), *child(2, 4)]
BOTH_PRINT = [to(1, OK), "start 1 confirm", to(3, confirm(1)), to(2, OK), "start 2 helper"]
BOTH_PRINT += [to(4, put1(1, b"abc"))]
row(
    "an ask and a question end at one moment",
    [*BOTH, at(299), at(300)],
    [*BOTH_PRINT, "close 3", "close 4", to(1, NO), to(2, NO)],
)
row(
    "an ask's limit leaves a question alone",
    [*RAISED, "join client", at(10), *hear(3, ADD1, SIGN1), at(70), at(299), *denied(2, 1)],
    [*RAISED_PRINT, to(3, OK), "start 2 helper", to(3, NO), "close 2", to(1, NO)],
)

EVERY_ROW = EARLIER  # with those of the files that this one stands on
