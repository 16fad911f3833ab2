"""Random records and deeds, of which a program and the model have to say the same, from the top:

    python3 -m model.differential_audit PROGRAM N [SEED]
    python3 -m model.differential_audit --wrong N [SEED]    tries the wrong ones of wrong_audits.txt

PROGRAM may be several words, as 'python3 -m model.audit'. .ci/differential_audit does the same.
"""

from __future__ import annotations

import os
import sys
import tempfile
from collections import Counter
from dataclasses import dataclass
from functools import partial
from pathlib import Path
from random import Random

from . import audit
from .audit import BAD_RECORD, DIFFERS, FILE_FAULT, LONGEST_FILE, USAGE, WRITE_FAULT, YES
from .differential import Result, rows_agree, wrong_module
from .generate import Schedule, garbled_text
from .over_files import edge_holds, found_by, run, run_program, show_difference, try_cases
from .record import record
from .replay import replay
from .replays import Played, try_each
from .rows_audit import ROWS
from .writer import limit_by

WRONG = "wrong_audits.txt"


@dataclass
class Case:
    """The words, of which `r` and `d` name files; those files; what was changed; what is right."""

    words: list[str]
    files: dict[str, bytes]
    kind: str
    wanted: Result

    def __init__(self, seed: str) -> None:
        random = Random(seed)
        text, life = written(random, seed)
        if random.random() < 0.3:
            text = with_comments(random, text)
        limit = limit_by(seed)
        deeds = replay(text, life, limit)[0]
        self.kind, text, deeds = changed(random, text, deeds, life, limit)
        self.words, self.files = ["r", "d"], {"r": text, "d": deeds}
        if life or random.random() < 0.1:
            self.words.append(f"{life or 0}{random.choice(['', '', 's', 'S'])}")
        self.words += [] if limit is None else ["--confirm-limit", str(limit)]
        if random.random() < 0.06:
            self.kind = self.other_words(random)
        self.wanted = audit.audit(self.words, self.files.get)

    def other_words(self, random: Random) -> str:
        """Words that are no form, or files that aren't there."""
        if random.random() < 0.5:
            self.files.pop(random.choice("rd"))
            return "a file is missing"
        lives = [["5", "5"], [random.choice(["", "x", "1y"])]]
        self.words = random.choice([[], ["r"], *[["r", "d", *life] for life in lives]])
        return "other words"


def written(random: Random, seed: str) -> tuple[bytes, int | None]:
    """A schedule, or the record of a run; and the default lifetime."""
    if random.random() < 0.3:
        played = Played(seed)
        return record(played.journal()), played.life
    text, life, _ = Schedule(seed).case()
    return text, life


def with_comments(random: Random, text: bytes) -> bytes:
    """The schedule with lines that are skipped, but none before the first line."""
    told = []
    for line in text.split(b"\n"):
        told.append(line)
        if random.random() < 0.1:
            told += [random.choice([b"# a comment", b""])] * random.choice([1, 1, 3])
    return b"\n".join(told)


def changed(
    random: Random, text: bytes, deeds: bytes, life: int | None, limit: int | None
) -> tuple[str, bytes, bytes]:
    """What was changed, the schedule, and the deeds."""
    lines = deeds.split(b"\n")[:-1]
    place, other = random.randrange(len(lines)), random.randrange(len(lines))
    at = random.randrange(len(deeds))
    kind = random.choice([*["nothing"] * 12, *CHANGES])
    if kind == "a line less":
        del lines[place]
    elif kind == "a line twice":
        lines.insert(place, lines[place])
    elif kind == "two lines change places":
        lines[place], lines[other] = lines[other], lines[place]
    elif kind == "another line":
        others = [b"", b"end", b"to 1 0000000105", b"start 1 helper", b"close 1"]
        lines[place] = random.choice(others)
    elif kind == "a line more":
        lines.append(random.choice([b"", b"end", b"close 1"]))
    elif kind == "another digit":
        lines[place] = lines[place][:-1] + bytes([lines[place][-1] ^ 1])
    elif kind == "capitals":
        lines[place] = lines[place].upper()
    elif kind == "the last line is another":
        lines[-1] = random.choice([b"En", b"end ", b"end\r", b"refused 1 word", b"ends"])
    elif kind == "the last line is missing":
        del lines[-1]
    elif kind == "no LF at the end":
        return kind, text, deeds[:-1]
    elif kind == "cut":
        return kind, text, deeds[:at]
    elif kind == "another byte":
        return kind, text, deeds[:at] + bytes([random.randrange(256)]) + deeds[at + 1 :]
    elif kind == "another lifetime":
        return kind, text, replay(text, random.choice([1, 2, 3, 30]) + (life or 0), limit)[0]
    elif kind == "the record":
        return kind, garbled_text(random, text), deeds
    elif kind == "the record's format":
        if text.startswith(b"schedule 2\n"):
            return kind, text.replace(b"schedule 2", b"#", 1), deeds
        return kind, b"schedule 2\n" + text, deeds
    return kind, text, b"".join(line + b"\n" for line in lines)


CHANGES = ["a line less", "a line twice", "two lines change places", "another line", "a line more"]
CHANGES += ["another digit", "capitals", "the last line is another", "the last line is missing"]
CHANGES += ["no LF at the end", "cut", "another byte", "another lifetime", "the record"]
CHANGES += ["the record's format"]


def try_rows(program: list[str]) -> bool:
    return rows_agree(
        ROWS,
        {
            "the model": lambda row: audit.audit(row.words, row.files.get),
            "the program": lambda row: run_program(program, row.words, row.files),
        },
    )


def try_edges(program: list[str]) -> bool:
    """Files at the bound and above it, and an output that can't be written."""
    good, text, deeds = True, b"join client\nhear 1 000000010b\n", b"to 1 000000050c00000000\nend\n"
    with tempfile.TemporaryDirectory() as folder:
        files = {"record": text, "deeds": deeds, "longest": b"", "longer": b"", "bad": b"x\n"}
        for name, some in files.items():
            Path(folder, name).write_bytes(some)
        for name, size in (("longest", LONGEST_FILE), ("longer", LONGEST_FILE + 1)):
            os.truncate(f"{folder}/{name}", size)
        for words, place, wanted in [
            ("record deeds", None, (b"yes 0\n", YES)),
            ("record longest", None, (b"no 1\n", DIFFERS)),
            ("record longer", None, (b"", FILE_FAULT)),
            ("longer deeds", None, (b"", FILE_FAULT)),
            ("bad longer", None, (b"", FILE_FAULT)),
            ("longer deeds x", None, (b"", USAGE)),
            ("longest deeds", None, (b"bad 1\n", BAD_RECORD)),
            (". deeds", None, (b"", FILE_FAULT)),
            ("record deeds", "/dev/full", (b"", WRITE_FAULT)),
            ("record bad", "/dev/full", (b"", WRITE_FAULT)),
            ("bad deeds", "/dev/full", (b"", WRITE_FAULT)),
            ("record none", "/dev/full", (b"", FILE_FAULT)),
            ("record", "/dev/full", (b"", USAGE)),
        ]:
            good = edge_holds(program, folder, "audit", words, place, wanted) and good
    print("files at the bound and above it, and outputs that can't be written, by the program")
    return good


def try_one(program: list[str], seed: str) -> tuple[bool, Counter[str]]:
    case = Case(seed)
    output, status = case.wanted
    told = Counter({f"status {status}": 1, f"{case.kind}: status {status}": 1})
    if status == YES:
        told["signatures told"] = output.count(b"\n") - 1
        told["reports with some"] = output.count(b"\n") > 1
        run = audit.WatchedRun(None)
        run.text(case.files["r"])
        for name in ("confirmation: granted", "limit: asks + 1", "use: last", "helper: TRUE"):
            told[f"in reports: {name}"] = int(run.agent.seen[name] > 0)
    return not program or run_program(program, case.words, case.files) == case.wanted, told


# What the pairs are to reach
GOALS = [f"status {status}" for status in (YES, DIFFERS, USAGE, FILE_FAULT, BAD_RECORD)]
# A changed record seldom is one that prints another line: one to three pairs of 2,000, so a run may have none.
GOALS += [f"{kind}: status {DIFFERS}" for kind in CHANGES if not kind.startswith("the record")]
GOALS += ["nothing: status 0", "nothing: status 4", "the record: status 4", "reports with some"]
GOALS += ["in reports: confirmation: granted", "in reports: limit: asks + 1"]
GOALS += ["in reports: use: last", "in reports: helper: TRUE"]


def try_pairs(program: list[str], count: int, seed: str) -> bool:
    mismatch = lambda each: show_difference(program, Case(each), f"pair {each}")
    return try_cases("records with deeds", partial(try_one, program), mismatch, GOALS, count, seed)


# Wrong audits

CASES: list[Case] = []


def first_found(edit: dict[str, str]) -> tuple[int, str | None]:
    return found_by(wrong_module(edit, "audit").audit, ROWS, CASES, "pair")


def try_wrong(count: int, seed: str) -> bool:
    seeds = [f"{seed}/{place}" for place in range(count)]
    return try_each("audits", WRONG, CASES, Case, first_found, seeds)


def tries(program: list[str], count: int, seed: str) -> bool:
    return try_rows(program) and try_edges(program) and try_pairs(program, count, seed)


if __name__ == "__main__":
    sys.exit(run(__doc__, sys.argv[1:], tries, try_wrong))
