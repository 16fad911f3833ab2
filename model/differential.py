"""Compares the built agent with the model, and the model with wrong ones. See tests/differential.sh."""

from __future__ import annotations

import argparse
import importlib
import multiprocessing
import os
import random
import re
import subprocess
import sys
import tempfile
import time
from collections import Counter
from collections.abc import Callable
from pathlib import Path
from types import ModuleType

from .drill import drill
from .generate import GOALS, Case, Schedule
from .replay import LONGEST_LINE, replay
from .rows_secrets import EVERY_ROW

HERE = Path(__file__).parent
Result = tuple[bytes, int]


def run_program(
    program: str, text: bytes, life: int | None = None, limit: int | None = None
) -> Result:
    words = [program, "replay"] + ([] if life is None else ["-t", str(life)])
    words += [] if limit is None else ["--confirm-limit", str(limit)]
    done = subprocess.run(words, input=text, stdout=subprocess.PIPE, stderr=subprocess.DEVNULL)
    return done.stdout, done.returncode


def fewer_lines(lines: list[bytes], differs: Callable[[bytes], bool]) -> list[bytes]:
    """Leaves out lines as long as the rest still differs."""
    size = len(lines) - 1
    while size >= 1:
        at = 0
        while at < len(lines):
            fewer = lines[:at] + lines[at + size :]
            if differs(b"\n".join(fewer)):
                lines = fewer
            else:
                at += size
        size //= 2
    return lines


def line_by_frame(lines: list[bytes]) -> list[bytes]:
    """What comes from a port in lines behind each other, with a line for each whole frame."""
    told: list[tuple[bytes, bytes]] = []
    for line in lines:
        heard = re.fullmatch(rb"(hear [0-9]+ )([0-9a-fA-F]+)", line)
        if heard and told and told[-1][0] == heard[1]:
            told[-1] = (heard[1], told[-1][1] + heard[2])
        else:
            told.append((heard[1], heard[2]) if heard else (line, b""))
    split = []
    for start, text in told:
        while len(text) >= 8 and len(text) > (end := 8 + 2 * int(text[:8], 16)):
            split.append(start + text[:end])
            text = text[end:]
        split.append(start + text)
    return split


def shorten(text: bytes, differs: Callable[[bytes], bool]) -> bytes:
    lines = fewer_lines(text.split(b"\n"), differs)
    split = line_by_frame(lines)
    if differs(b"\n".join(split)):
        lines = fewer_lines(split, differs)
    return b"\n".join(lines)


def show(title: str, text: bytes) -> None:
    print(f"{title}:")
    for line in text.decode(errors="backslashreplace").split("\n"):
        print("   ", line if len(line) <= 300 else f"{line[:300]}.. ({len(line)} characters)")


def show_mismatch(program: str, text: bytes, life: int | None, limit: int | None) -> None:
    def differs(some: bytes) -> bool:
        return run_program(program, some, life, limit) != replay(some, life, limit)

    short = shorten(text, differs)
    place = Path("bin/mismatch.schedule")
    place.write_bytes(short)
    chosen = f"a default lifetime of {life} and a limit of questions of {limit}"
    show(f"a mismatch, with {chosen} ({place} has it whole)", short)
    for name, (output, status) in [
        ("the program", run_program(program, short, life, limit)),
        ("the model", replay(short, life, limit)),
    ]:
        show(f"{name}, with status {status}", output)


def rows_agree(rows: list, runs: dict[str, Callable[..., Result]]) -> bool:
    """Literal rows, each by all runs, which are named."""
    good = True
    for row in rows:
        for name, run in runs.items():
            if (result := run(row)) != (row.printed, row.status):
                good = False
                print(f"row '{row.name}': {name} differs, with status {result[1]}")
                show("printed", result[0])
                show("wanted", row.printed)
    print(f"{len(rows)} rows by the model and by the program")
    return good


def try_rows(program: str) -> bool:
    """The literal rows, by the model and by the program."""
    return rows_agree(
        EVERY_ROW,
        {
            "the model": lambda row: replay(row.schedule, row.life, row.limit),
            "the program": lambda row: run_program(program, row.schedule, row.life, row.limit),
        },
    )


def run_long(program: str, line: bytes, count: int, last: bytes) -> Result:
    """Runs a schedule of one line, so often, and last lines."""
    with subprocess.Popen(
        [program, "replay"],
        stdin=subprocess.PIPE,
        stdout=subprocess.PIPE,
        stderr=subprocess.DEVNULL,
    ) as child:
        try:
            for _ in range(count):
                child.stdin.write(line)
            child.stdin.write(last)
            child.stdin.close()
        except BrokenPipeError:
            pass
        output = child.stdout.read()
    return output, child.returncode


def try_long(program: str) -> bool:
    """A schedule of 300 MB, with a last line that counts and one that is refused."""
    line, last = b"#" * (LONGEST_LINE - 1) + b"\n", b"join client\n"
    count = 300_000_000 // len(line)
    for more, wanted in [(b"", (b"end\n", 0)), (b"x\n", (b"refused %d word\n" % (count + 2), 1))]:
        if run_long(program, line, count, last + more) != wanted:
            print("a schedule of 300 MB: the program prints something else")
            return False
    print("schedules of 300 MB, by the program")
    return True


def try_examples(program: str) -> bool:
    for path in sorted(Path("examples").glob("*.schedule")):
        text = path.read_bytes()
        if run_program(program, text) != replay(text):
            show_mismatch(program, text, None)
            return False
    return True


# N and SEED, with lines that were worked out by hand. The draws of seed 1 are port 7, key 25 and kind 4, then 7, 26, 3.
DRILLS = {(0, 1): "requests 0, successes 0, failures 0, lists 0, signatures 0, held 0"}
DRILLS[1, 1] = "requests 1, successes 0, failures 0, lists 1, signatures 0, held 0"
DRILLS[2, 1] = "requests 2, successes 0, failures 1, lists 1, signatures 0, held 0"

NO_DRILLS = ["", "1", "1 2 3", "01 1", "1 01", "-1 1", "+1 1", "1 -1", "1 x", "x 1", "100001 1"]
NO_DRILLS += [f"1 {2**64}", f"{2**64} 1", f"{2**64 + 1} 1", "1 1.0", "1e2 1", "-t 1", "1 0x1"]


def run_drill(program: str, words: list[str]) -> Result:
    done = subprocess.run(
        [program, "drill", *words], stdout=subprocess.PIPE, stderr=subprocess.DEVNULL
    )
    return done.stdout, done.returncode


def try_drill(task: tuple[str, int, int]) -> bool:
    """The program's line is the model's, and it prints for the drill's schedule what the model does."""
    program, rounds, seed = task
    text, line = drill(rounds, seed)
    same = run_drill(program, [str(rounds), str(seed)]) == (line, 0)
    return same and run_program(program, text) == replay(text)


def try_drills(program: str, count: int, seed: str) -> bool:
    """Drills of literal lines, words that are none, and as many random drills."""
    for (rounds, number), told in DRILLS.items():
        wanted = f"drill {rounds} {number}: {told}\n".encode()
        seen = run_drill(program, [str(rounds), str(number)]), (drill(rounds, number)[1], 0)
        if seen != ((wanted, 0), (wanted, 0)):
            print(f"drill {rounds} {number}: {seen}")
            return False
    for words in NO_DRILLS:
        if run_drill(program, words.split()) != (b"", 2):
            print(f"drill {words}: no refusal")
            return False
    chosen = random.Random(seed)
    tasks = [(program, chosen.randrange(400), chosen.getrandbits(64)) for _ in range(count)]
    tasks += [(program, 300, 0), (program, 300, 2**64 - 1)]
    with multiprocessing.Pool() as pool:
        for task, same in zip(tasks, pool.imap(try_drill, tasks)):
            if not same:
                pool.terminate()
                print(f"drill {task[1]} {task[2]}: the program and the model differ")
                return False
    print(f"{len(DRILLS)} literal drills, {len(NO_DRILLS)} refused, {len(tasks)} random: no mismatch")
    return True


def try_one(task: tuple[str, str]) -> tuple[bool, Counter[str], int]:
    program, seed = task
    writer = Schedule(seed)
    text, life, wanted = writer.case()
    done = run_program(program, text, life, writer.limit)
    return done == wanted, writer.seen(), text.count(b"\n")


def try_schedules(program: str, count: int, seed: str) -> bool:
    began, seen, lines = time.monotonic(), Counter(), 0
    tasks = [(program, f"{seed}/{place}") for place in range(count)]
    with multiprocessing.Pool() as pool:
        for task, (same, reached, length) in zip(tasks, pool.imap(try_one, tasks, 8)):
            if not same:
                pool.terminate()
                writer = Schedule(task[1])
                text, life, _ = writer.case()
                print(f"schedule {task[1]}:")
                show_mismatch(program, text, life, writer.limit)
                return False
            seen += reached
            lines += length
    return report(count, lines, seen, time.monotonic() - began)


def report(count: int, lines: int, seen: Counter, seconds: float) -> bool:
    """How often each goal was reached. Each is where there were enough schedules."""
    counts = [f"{name} {seen[name]}" for name in GOALS]
    others = [f"{name} {number}" for name, number in sorted(seen.items()) if name not in GOALS]
    print("reached: " + "; ".join(counts))
    print("and: " + "; ".join(others))
    print(f"{count} schedules of {lines} lines in {seconds:.0f} s: no mismatch")
    missed = [name for name in GOALS if not seen[name]]
    if missed:
        print("not reached: " + "; ".join(missed))
    return not missed or count < 2000


# Wrong models


def read_wrong(name: str = "wrong.txt") -> list[dict[str, str]]:
    """Edits of one line each: what is wrong, the file, the old text and the new."""
    edits = []
    for block in (HERE / name).read_text().split("\n\n"):
        lines = [line for line in block.split("\n") if line and not line.startswith("#")]
        edit = dict(line.split(": ", 1) for line in lines)
        if not edit:
            continue
        if (HERE / edit["file"]).read_text().count(edit["old"]) != 1:
            raise ValueError(f"{edit['wrong']}: the old text doesn't stand there once")
        edits.append(edit)
    return edits


CASES: list[Case] = []


def tell_found(kind: str, edits: list[dict[str, str]], found: list[tuple[int, str | None]]) -> bool:
    """By how many rows, and by which random case, each wrong one was found; whether all were."""
    for edit, (rows, case) in zip(edits, found):
        print(f"{rows:3} rows, {case or 'no case':20}  {edit['wrong']}")
    missed = sum(not rows and not case for rows, case in found)
    by_rows = sum(not case for _, case in found) - missed
    print(f"{len(edits)} wrong {kind}: {by_rows} found by rows alone, {missed} not at all")
    return missed == 0


def write_case(seed: str) -> tuple[Case, int | None]:
    writer = Schedule(seed)
    return writer.case(), writer.limit


def wrong_module(edit: dict[str, str], wanted: str) -> ModuleType:
    """A module of the models of which one line is changed. A process may import one such edit."""
    with tempfile.TemporaryDirectory() as folder:
        Path(folder, "wrong_model").mkdir()
        for path in HERE.glob("*.py"):
            text = path.read_text()
            if edit["file"] == path.name:
                text = text.replace(edit["old"], edit["new"])
            Path(folder, "wrong_model", path.name).write_text(text)
        sys.path.insert(0, folder)
        return importlib.import_module(f"wrong_model.{wanted}")


def first_found(edit: dict[str, str]) -> int | None:
    """The number of the first schedule that tells this wrong model from the right one."""
    wrong = wrong_module(edit, "replay")
    for place, ((text, life, wanted), limit) in enumerate(CASES, 1):
        try:
            if wrong.replay(text, life, limit) != wanted:
                return place
        except Exception:
            return place
    return None


def try_wrong(count: int, seed: str) -> bool:
    began, edits = time.monotonic(), read_wrong()
    with multiprocessing.Pool() as pool:
        CASES.extend(pool.imap(write_case, [f"{seed}/{place}" for place in range(count)], 8))
    with multiprocessing.Pool(maxtasksperchild=1) as pool:
        found = pool.map(first_found, edits, 1)
    for edit, place in zip(edits, found):
        print(f"{place or 'NOT FOUND':>9}  {edit['wrong']}")
    missed = found.count(None)
    seconds = time.monotonic() - began
    print(f"{len(edits)} wrong models, {missed} not found by {count} schedules, in {seconds:.0f} s")
    return missed == 0


def main() -> int:
    parser = argparse.ArgumentParser(prog="tests/differential.sh")
    parser.add_argument("program")
    parser.add_argument("count", type=int)
    parser.add_argument("seed", nargs="?", default=str(int.from_bytes(os.urandom(4), "big")))
    parser.add_argument("--wrong", action="store_true", help="try the wrong models")
    words = parser.parse_args()
    print(f"seed {words.seed}")
    if words.wrong:
        return int(not try_wrong(words.count, words.seed))
    good = (
        try_rows(words.program)
        and try_long(words.program)
        and try_examples(words.program)
        and try_drills(words.program, max(20, words.count // 100), words.seed)
        and try_schedules(words.program, words.count, words.seed)
    )
    return int(not good)


if __name__ == "__main__":
    sys.exit(main())
