"""What differential_audit.py and differential_log.py share: programs whose words name files, beside the model."""

from __future__ import annotations

import multiprocessing
import os
import shlex
import subprocess
import tempfile
import time
from collections import Counter
from collections.abc import Callable
from dataclasses import dataclass
from pathlib import Path
from typing import Any, Protocol

from .differential import Result, show
from .replays import JOBS, attempt

ENVIRONMENT = os.environ | {"PYTHONDONTWRITEBYTECODE": "1"}


@dataclass
class FileRow:
    """The words, the files by their names, what is printed, and the status."""

    name: str
    words: list[str]
    files: dict[str, bytes]
    printed: bytes
    status: int


def lines(texts: list[str]) -> bytes:
    return "".join(text + "\n" for text in texts).encode()


class FileCase(Protocol):
    """The words, the files by their names, what was changed, and what is right."""

    words: list[str]
    files: dict[str, bytes]
    kind: str
    wanted: Result


# What a program prints for words and files.
Runner = Callable[[list[str], list[str], dict[str, bytes]], Result]

# What a model prints for words, where a call reads the files that they name.
Model = Callable[[list[str], Callable[[str], bytes | None]], Result]


def run_program(program: list[str], words: list[str], files: dict[str, bytes]) -> Result:
    with tempfile.TemporaryDirectory() as folder:
        for name, text in files.items():
            Path(folder, name).write_bytes(text)
        paths = [f"{folder}/{word}" if word in ("r", "d", "none") else word for word in words]
        done = subprocess.run(
            [*program, *paths], stdout=subprocess.PIPE, stderr=subprocess.DEVNULL, env=ENVIRONMENT
        )
    return done.stdout, done.returncode


def run_over_input(program: list[str], words: list[str], files: dict[str, bytes]) -> Result:
    """The same of a program that reads the file which the first word names from its standard input."""
    name, *others = words
    done = subprocess.run(
        [*program, *others], input=files[name], stdout=subprocess.PIPE, stderr=subprocess.DEVNULL, env=ENVIRONMENT
    )
    return done.stdout, done.returncode


def edge_holds(program: list[str], folder: str, name: str, words: str, place: str | None, wanted: Result) -> bool:
    """Whether a program ends as it should for words that name files of a folder, its output at a place or in a file."""
    paths = [word if word == "x" else f"{folder}/{word}" for word in words.split(" ")]
    with open(place or f"{folder}/output", "wb") as output:
        status = subprocess.run(
            [*program, *paths], stdout=output, stderr=subprocess.DEVNULL, env=ENVIRONMENT
        ).returncode
    result = (b"" if place else Path(folder, "output").read_bytes(), status)
    if result != wanted:
        print(f"{name} {words}, into {place or 'a file'}: {result}, not {wanted}")
    return result == wanted


def try_cases(
    what: str,
    try_one: Callable[[str], tuple[bool, Counter[str]]],
    show_mismatch: Callable[[str], None],
    goals: list[str],
    count: int,
    seed: str,
) -> bool:
    """Whether a program does as the model in so many cases, and where these are plenty, whether they reach the goals."""
    began, told = time.monotonic(), Counter[str]()
    seeds = [f"{seed}/{place}" for place in range(count)]
    with multiprocessing.Pool(JOBS) as pool:
        for each, (same, some) in zip(seeds, pool.imap(try_one, seeds, 4)):
            if not same:
                pool.terminate()
                show_mismatch(each)
                return False
            told += some
    print("; ".join(f"{name} {number}" for name, number in sorted(told.items())))
    missed = [name for name in goals if not told[name]]
    if missed:
        print("not reached: " + "; ".join(missed))
    print(f"{count} {what}, in {time.monotonic() - began:.0f} s: no mismatch")
    return not missed or count < 2000


def show_difference(program: list[str], case: FileCase, heading: str, run: Runner = run_program) -> None:
    """Says what program and model make of a case, whose files are left in bin/."""
    output, status = run(program, case.words, case.files)
    print(f"{heading}, {case.kind}, words {case.words}; bin/mismatch.* are its files")
    for name, text in case.files.items():
        Path(f"bin/mismatch.{name}").write_bytes(text)
    show(f"the program, with status {status}", output)
    show(f"the model, with status {case.wanted[1]}", case.wanted[0])


def found_by(wrong: Model, rows: list[FileRow], cases: list[Any], noun: str) -> tuple[int, str | None]:
    """How many rows tell a wrong model from the right one, and which case does."""
    differs = lambda words, files, wanted: attempt(lambda: wrong(words, files.get) != wanted) is not False
    found = sum(differs(row.words, row.files, (row.printed, row.status)) for row in rows)
    for place, case in enumerate(cases, 1):
        if differs(case.words, case.files, case.wanted):
            return found, f"{noun} {place}"
    return found, None


def run(
    page: str | None,
    words: list[str],
    tries: Callable[[list[str], int, str], bool],
    try_wrong: Callable[[int, str], bool],
) -> int:
    """By the words PROGRAM N [SEED], or --wrong N [SEED]: the exit status."""
    program, count, seed = [*words, "", "", ""][:3]
    if not count.isdigit() or len(words) > 3:
        print(page)
        return 2
    seed = seed or str(int.from_bytes(os.urandom(4), "big"))
    print(f"seed {seed}")
    if program == "--wrong":
        return int(not try_wrong(int(count), seed))
    parts = shlex.split(program)
    parts[:1] = [os.path.abspath(parts[0])] if "/" in parts[0] else parts[:1]
    return int(not tries(parts, int(count), seed))
