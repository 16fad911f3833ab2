"""Random records, of which a program that reads them and the model have to write the same log, from the top:

    python3 -m model.differential_log PROGRAM N [SEED]
    python3 -m model.differential_log --wrong N [SEED]    tries the wrong ones of wrong_logs.txt

PROGRAM may be several words, as 'python3 -m model.log'. .ci/differential_log does the same.
"""

from __future__ import annotations

import os
import subprocess
import sys
import tempfile
from collections import Counter
from functools import partial
from pathlib import Path
from random import Random

from . import log
from .audit import BAD_RECORD, USAGE, WRITE_FAULT
from .differential import rows_agree, wrong_module
from .differential_audit import with_comments, written
from .generate import garbled_text
from .log import READ_FAULT, WHOLE
from .over_files import ENVIRONMENT, found_by, run, run_over_input, show_difference, try_cases
from .pool import KEYS
from .replays import try_each
from .rows_log import ROWS
from .wire import string, uint32
from .writer import limit_by

WRONG = "wrong_logs.txt"


class Case:
    """The words, of which the first names the record; that file; what was changed; what is right."""

    def __init__(self, seed: str) -> None:
        random = Random(seed)
        text, life = written(random, seed)
        if random.random() < 0.3:
            text = with_comments(random, text)
        if random.random() < 0.3:
            text = with_files(random, text, life, limit_by(seed))
        self.kind, text = changed(random, text)
        self.words, self.files = ["r"], {"r": text}
        if life or random.random() < 0.1:
            self.words.append(f"{life or 0}{random.choice(['', '', 's', 'S'])}")
        limit = limit_by(seed)
        self.words += [] if limit is None else ["--confirm-limit", str(limit)]
        if random.random() < 0.04:
            self.kind = self.other_words(random)
        self.wanted = log.log(self.words, self.files.get)

    def other_words(self, random: Random) -> str:
        """Words that are no form."""
        self.words = random.choice([["r", "5", "5"], ["r", random.choice(["", "x", "1y"])]])
        return "other words"


def with_files(random: Random, text: bytes, *chosen: int | None) -> bytes:
    """The schedule, and a client behind it that has keys sign for files, or nearly so."""
    run = log.LogRun(*chosen)
    run.text(text)
    port = run.agent.last["port"] + 1
    lines = [b"join client"]
    for _ in range(random.choice([1, 3])):
        name = random.choice([b"git", b"file", b'a"b\n', b"n" * 300, b""])
        size = random.choice([32, 64])
        algorithm = random.choice([b"sha256", b"sha512", b"sha512", b"md5"])
        front = random.choice([b"SSHSIG", b"SSHSIG", b"SSHSIG", b"sshsig"])
        message = front + string(name) + string(b"") + string(algorithm) + string(b"d" * size)
        message += random.choice([b"", b"", b"", b"x"])
        held = [*run.agent.identities] or [random.choice(KEYS).blob]
        body = b"\x0d" + string(random.choice(held)) + string(message) + uint32(0)
        lines.append(b"hear %d %s" % (port, string(body).hex().encode()))
    behind = b"" if text.endswith(b"\n") or not text else b"\n"
    return text + behind + b"\n".join(lines) + b"\n"


def changed(random: Random, text: bytes) -> tuple[str, bytes]:
    """What was changed, and the schedule."""
    kind = random.choice([*["nothing"] * 8, *CHANGES])
    at = random.randrange(len(text) + 1)
    if kind == "cut":
        return kind, text[:at]
    if kind == "no LF at the end":
        return kind, text[:-1]
    if kind == "a line less":
        lines = text.split(b"\n")
        del lines[random.randrange(len(lines))]
        return kind, b"\n".join(lines)
    if kind == "garbled":
        return kind, garbled_text(random, text) if text else text
    return kind, text


CHANGES = ["cut", "cut", "no LF at the end", "a line less", "garbled"]


def try_rows(program: list[str]) -> bool:
    return rows_agree(
        ROWS,
        {
            "the model": lambda row: log.log(row.words, row.files.get),
            "the program": lambda row: run_over_input(program, row.words, row.files),
        },
    )


def try_edges(program: list[str]) -> bool:
    """Inputs that can't be read, and outputs that can't be written."""
    good = True
    with tempfile.TemporaryDirectory() as folder:
        told = next(row for row in ROWS if row.printed)
        for name, text in {"record": told.files["r"], "bad": b"x\n", "none": b""}.items():
            Path(folder, name).write_bytes(text)
        for name, words, place, wanted in [
            ("record", [], None, (told.printed, WHOLE)),
            (None, [], None, (b"", READ_FAULT)),
            (None, ["x"], None, (b"", USAGE)),
            ("none", [], "/dev/full", (b"", WHOLE)),
            ("bad", [], "/dev/full", (b"", BAD_RECORD)),
            ("record", [], "/dev/full", (b"", WRITE_FAULT)),
            ("record", ["5", "5"], "/dev/full", (b"", USAGE)),
        ]:
            good = edge_holds(program, name and f"{folder}/{name}", words, place or f"{folder}/output", wanted) and good
    print("inputs that can't be read and outputs that can't be written, by the program")
    return good


def edge_holds(program: list[str], record: str | None, words: list[str], place: str, wanted: tuple[bytes, int]) -> bool:
    """Whether a program ends as it should that reads a record, or nothing that can be read, and writes to a place."""
    source = os.open(record, os.O_RDONLY) if record else os.open(os.devnull, os.O_WRONLY)
    with open(place, "wb") as output:
        done = subprocess.run(
            [*program, *words], stdin=source, stdout=output, stderr=subprocess.DEVNULL, env=ENVIRONMENT
        )
    os.close(source)
    result = (b"" if place == "/dev/full" else Path(place).read_bytes(), done.returncode)
    if result != wanted:
        print(f"log {record} {words}, into {place}: {result}, not {wanted}")
    return result == wanted


# The ends of lines that the records are to reach, and what is signed
FATES = ["signed", "refused", "refused by the helper", "refused, the helper was lost"]
FATES += ["client left", "no answer yet"]
CONSENTS = ["asked, agreed", "asked, no consent that counted"]
KINDS = ["login", "file", "other"]


def try_one(program: list[str], seed: str) -> tuple[bool, Counter[str]]:
    case = Case(seed)
    output, status = case.wanted
    told = Counter({f"status {status}": 1, f"{case.kind}: status {status}": 1})
    for line in output.decode().splitlines():
        parts = line.split("  ")
        told[parts[-1]] += 1
        told[parts[1].split(" ")[0]] += 1
        told[parts[-2]] += parts[-2] in CONSENTS
        told["to a host"] += " to SHA256:" in line
        told["without a comment"] += '  key "' not in line
    return not program or run_over_input(program, case.words, case.files) == case.wanted, told


GOALS = [f"status {status}" for status in (WHOLE, USAGE, BAD_RECORD)]
GOALS += [*FATES, *CONSENTS, *KINDS, "to a host", "without a comment", "cut: status 0"]


def try_records(program: list[str], count: int, seed: str) -> bool:
    mismatch = lambda each: show_difference(program, Case(each), f"record {each}", run_over_input)
    return try_cases("records", partial(try_one, program), mismatch, GOALS, count, seed)


# Wrong logs

CASES: list[Case] = []


def first_found(edit: dict[str, str]) -> tuple[int, str | None]:
    return found_by(wrong_module(edit, "log").log, ROWS, CASES, "record")


def try_wrong(count: int, seed: str) -> bool:
    seeds = [f"{seed}/{place}" for place in range(count)]
    return try_each("logs", WRONG, CASES, Case, first_found, seeds)


def tries(program: list[str], count: int, seed: str) -> bool:
    return try_rows(program) and try_edges(program) and try_records(program, count, seed)


if __name__ == "__main__":
    sys.exit(run(__doc__, sys.argv[1:], tries, try_wrong))
