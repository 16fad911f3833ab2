"""Random runs whose records are replayed, from the top:

    python3 -m model.replays N [SEED]
    python3 -m model.replays --wrong N [SEED]    tries the wrong recorders of wrong_records.txt

A record is run, and after each event of the run that it records both have the same open ports, the
same bytes owed to every client, the same jobs to start and the same count of lost helpers. No line
is refused. The record holds no secret, and is whole up to a write that failed.
"""

from __future__ import annotations

import argparse
import multiprocessing
import os
import re
import sys
import time
from collections import Counter
from collections.abc import Callable
from itertools import zip_longest
from types import ModuleType
from typing import Any

from . import formats, record
from .agent import LIMITS
from .differential import read_wrong, tell_found, wrong_module
from .played import ROOM, Played, seen
from .record import Entry
from .replay import Run
from .rows_record import ROWS
from .wire import Fault, string, take_frame

JOBS = 2
WRONG = "wrong_records.txt"


# What a record has to be


def differs(played: Played, recording: ModuleType) -> str | None:
    """Where the record's run differs from the one that was recorded."""
    told: list[bytes] = []
    recorder = recording.Recorder(lambda line: told.append(line) is None)
    run, done = Run(played.life), 0
    for number, (entries, wanted) in enumerate(played.steps):
        for entry in entries:
            recorder.record(entry)
        for line in b"".join(told[done:]).split(b"\n")[:-1]:
            run.line(line)
            if line == b"schedule 2":
                run.agent.waits = played.waits
            if run.status:
                return f"law: step {number}: {run.printed[-1]}"
        done = len(told)
        if seen(run.agent) != wanted:
            return f"law: step {number}: {seen(run.agent)}, not {wanted}"
    passed = {name: run.agent.seen[name] for name in run.agent.seen if name.startswith("behind")}
    played.reached += Counter(passed)
    return None


HEARD = re.compile(rb"^hear ([0-9]+) ([0-9a-f]+)$", re.MULTILINE)
Pieces = list[tuple[int, bytes]]


def tells(played: Played, text: bytes) -> str | None:
    """Whether a record tells a secret, or leaves out or changes what is none."""
    journal = played.journal()
    clients = {e.answer for e in journal if e == Entry("accept", "client", e.answer)}
    reads = [e for e in journal if e.call == "read" and isinstance(e.answer, bytes)]
    came = [(entry.about, entry.answer) for entry in reads]
    told = [(int(port), bytes.fromhex(piece.decode())) for port, piece in HEARD.findall(text)]
    if [each for each in came if each[0] not in clients] != [
        each for each in told if each[0] not in clients
    ]:
        return "children: not the same pieces"
    mine, theirs = frames(came, clients), frames(told, clients)
    if any(theirs[1].values()):
        return "secrets: more is told than whole frames"
    numbers: dict[bytes, bytes] = {}
    for one, other in zip_longest(mine[0], theirs[0]):
        if one is None or other is None or one[0] != other[0]:
            return f"frames: {one}, told as {other}"
        if not is_redaction(one[1], other[1], numbers):
            return f"secrets: {one}, told as {other}"
        played.reached[f"told: {one[1][0] if one[1] else 'a bad length'}"] += 1
        played.reached["told: its number alone"] += len(other[1]) == 1 < len(one[1])
    return None


def frames(pieces: Pieces, clients: set[int]) -> tuple[Pieces, dict[int, bytes]]:
    """The whole frames of clients in their order, a bad length as an empty one; what is left."""
    found, left = [], {}
    for port, piece in pieces:
        if port not in clients:
            continue
        left[port] = left.get(port, bytearray()) + piece
        if (port, b"") in found:
            continue
        try:
            while (body := take_frame(left[port], LIMITS["body of a client"])) is not None:
                found.append((port, body))
        except Fault:
            found.append((port, b""))
            del left[port][:4]
    return found, left


def is_redaction(body: bytes, told: bytes, numbers: dict[bytes, bytes]) -> bool:
    """Whether one body is told as another. New passphrases get their numbers."""
    if body[:1] and body[0] not in (11, 13, 17, 18, 19, 22, 23, 25, 27):
        return told == body[:1]
    if body[:1] not in (b"\x11", b"\x16", b"\x17", b"\x19"):
        return told == body
    try:
        fields = formats.request(body)
        if body[0] in (22, 23):
            text = fields[1] and numbers.setdefault(fields[1], b"%d" % (len(numbers) + 1))
            return told == body[:1] + string(text)
        formats.constraints(fields[4])
    except Fault:
        return told == body[:1]
    private = list(formats.strings(fields[2]))[-(4 if b"ssh-rsa" in fields[2][:16] else 1) :]
    blank = b"".join(string(bytes(len(each))) for each in private)
    start = 1 + len(fields[2]) - len(blank)
    return told == body[:start] + blank + body[start + len(blank) :]


LINES = [rb"schedule 2", rb"at \d+ \d+", rb"join client", rb"join child", rb"hold \d+"]
LINES += [rb"hear \d+ [0-9a-f]+", rb"take \d+ [1-9]\d*", rb"end \d+"]
LINES += [rb"started \d+ [0-9a-f]{32}", rb"failed \d+"]
LINE = re.compile(b"|".join(LINES))


def malformed(played: Played, text: bytes) -> str | None:
    """What is wrong with the lines of a record and their order."""
    lines = text.split(b"\n")
    if lines.pop() != b"" or lines[:1] != [b"schedule 2"]:
        return "lines: no whole lines of format 2"
    held, before = set(), b""
    for number, line in enumerate(lines, 1):
        word, *given = line.split(b" ")
        if not LINE.fullmatch(line) or (number > 1) != (word != b"schedule"):
            return f"lines: line {number} is {line[:80]}"
        if word == b"hold" and (given[0] in held or b"hear %s " % given[0] not in lines[number]):
            return f"lines: line {number} is a hold too many"
        if word == b"hear":
            if given[0] not in held and before != b"hold " + given[0]:
                return f"lines: line {number} is of a port that isn't held"
            held.add(given[0])
            if len(given[1]) > 2 * ROOM:
                return f"lines: line {number} is too long"
        before = line
    moments = [e.answer for e in played.journal() if e.call == "now"]
    told = [tuple(map(int, line.split(b" ")[1:])) for line in lines if line.startswith(b"at ")]
    return None if moments == told else "lines: other moments"


def cut_off(played: Played, text: bytes, recording: ModuleType) -> str | None:
    """Whether a record goes on after a write that failed, be it once."""
    calls, told, fails = 0, bytearray(), played.random.randrange(1, 2 + text.count(b"\n"))

    def write(line: bytes) -> bool:
        nonlocal calls
        calls += 1
        if calls != fails:
            told.extend(line)
        return calls != fails

    recorder = recording.Recorder(write)
    for entry in played.journal():
        recorder.record(entry)
        if recorder.broken != (calls >= fails):
            return "prefix: broken isn't told"
    good = text.startswith(told) and calls <= fails
    return None if good else f"prefix: {calls} writes, of which number {fails} failed"


def fault(played: Played, recording: ModuleType = record) -> str | None:
    """What is wrong with the record of a run."""
    found = differs(played, recording)
    if found:
        return found
    text = text_of(played.journal(), recording)
    return tells(played, text) or malformed(played, text) or cut_off(played, text, recording)


def text_of(journal: list[Entry], recording: ModuleType = record) -> bytes:
    told: list[bytes] = []
    recorder = recording.Recorder(lambda line: told.append(line) is None)
    for entry in journal:
        recorder.record(entry)
    return b"".join(told)


def try_one(seed: str) -> tuple[str | None, Counter[str], int]:
    played = Played(seed)
    found = fault(played)
    return found, played.reached, len(played.steps)


# What the runs are to reach
GOALS = """told: 11; told: 13; told: 17; told: 18; told: 19; told: 22; told: 23; told: 25; told: 27
told: a bad length; told: its number alone; event join; event hear; event take; event end
event started; event failed; event at; events that didn't fit; helper lost: ask limit
cause: confirmation: limit; behind its own closing: hear; behind its own closing: take
behind its own closing: end; lifetime ends; cause: unlock: another passphrase
runs in the loop's order; runs in any order; confirmation: granted; helper: SIGNED; helper: TRUE"""


def try_runs(count: int, seed: str) -> bool:
    began, reached, steps = time.monotonic(), Counter(), 0
    with multiprocessing.Pool(JOBS) as pool:
        seeds = [f"{seed}/{place}" for place in range(count)]
        for each, (found, some, length) in zip(seeds, pool.imap(try_one, seeds, 4)):
            if found:
                pool.terminate()
                print(f"run {each}: {found[:2000]}")
                return False
            reached += some
            steps += length
    goals = GOALS.replace("\n", "; ").split("; ")
    print("; ".join(f"{name} {reached[name]}" for name in goals))
    missed = [name for name in goals if not reached[name]]
    if missed:
        print("not reached: " + "; ".join(missed))
    seconds = time.monotonic() - began
    print(f"{count} runs of {steps} steps, in {seconds:.0f} s: each record is its run again")
    return not missed or count < 2000


# Wrong recorders


RUNS: list[Played] = []


def first_found(edit: dict[str, str]) -> tuple[int, str | None]:
    """How many rows tell a wrong recorder from the right one, and which run does."""
    wrong, rows = wrong_module(edit, "record"), 0
    for row in ROWS:
        rows += attempt(lambda: text_of(row.journal, wrong) != row.record) is not False
    for place, played in enumerate(RUNS, 1):
        if found := attempt(lambda: fault(played, wrong)):
            return rows, f"run {place}, {found.split(':')[0]}"
    return rows, None


def attempt(find: Callable[[], Any]) -> Any:
    """What is found, or that it raises something."""
    try:
        return find()
    except Exception as raised:
        return f"raises {raised!r}"


def try_each(
    kind: str,
    name: str,
    cases: list[Any],
    draw: Callable[[str], Any],
    find: Callable[[dict[str, str]], tuple[int, str | None]],
    seeds: list[str],
) -> bool:
    """Whether each wrong program of a file is found by a row and by a case. The processes that find share the cases."""
    edits = read_wrong(name)
    with multiprocessing.Pool(JOBS) as pool:
        cases.extend(pool.imap(draw, seeds, 4))
    with multiprocessing.Pool(JOBS, maxtasksperchild=1) as pool:
        found = pool.map(find, edits, 1)
    return tell_found(kind, edits, found)


def try_wrong(count: int, seed: str) -> bool:
    seeds = [f"{seed}/{place}" for place in range(count)]
    return try_each("recorders", WRONG, RUNS, Played, first_found, seeds)


def main() -> int:
    parser = argparse.ArgumentParser(prog="python3 -m model.replays")
    parser.add_argument("count", type=int)
    parser.add_argument("seed", nargs="?", default=str(int.from_bytes(os.urandom(4), "big")))
    parser.add_argument("--wrong", action="store_true", help="try the wrong recorders")
    words = parser.parse_args()
    print(f"seed {words.seed}")
    return int(not (try_wrong if words.wrong else try_runs)(words.count, words.seed))


if __name__ == "__main__":
    sys.exit(main())
