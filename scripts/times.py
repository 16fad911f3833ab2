"""What each crate took in the gate the last time, as generated/TIMES.md has it, and what that makes of several."""

from __future__ import annotations

import re
from collections.abc import Iterable
from pathlib import Path

# Of a crate: its proof, that of its tests, its wrong programs, and builds of programs and tests.
PARTS = ["proof", "tests", "edits", "build"]
# By crate and part, processor seconds.
Times = dict[tuple[str, str], float]
ROW = re.compile(r"\| (\w+) \|" + r" (\d*) \|" * len(PARTS) + r" ([0-9a-f]+) \|")


def table_of(top: Path) -> Path:
    return top / "generated/TIMES.md"


def read_rows(top: Path) -> dict[str, tuple[dict[str, float], str]]:
    """Of each crate that was timed: its parts, and the commit at which it was."""
    table, rows = table_of(top), {}
    for line in table.read_text().splitlines() if table.exists() else []:
        if row := ROW.fullmatch(line):
            name, *numbers, commit = row.groups()
            rows[name] = ({part: float(number) for part, number in zip(PARTS, numbers) if number}, commit)
    return rows


def read_times(top: Path) -> Times:
    return {(name, part): seconds for name, (parts, _) in read_rows(top).items() for part, seconds in parts.items()}


def code_lines(top: Path, name: str) -> int:
    return sum(path.read_text().count("\n") for path in (top / "crates" / name / "src").rglob("*.rt"))


def with_guesses(top: Path, times: Times, names: Iterable[str]) -> tuple[Times, list[str]]:
    """The times with one for the proof of each of these crates, and those that have none of their own: theirs is by the lines
    of their code, as the others' proofs went. Where no crate was timed, nothing is guessed."""
    timed = [name for name, part in times if part == "proof" and (top / "crates" / name).exists()]
    unknown = [name for name in names if (name, "proof") not in times]
    lines = sum(code_lines(top, name) for name in timed)
    a_line = sum(times[name, "proof"] for name in timed) / lines if lines else 0
    guessed = {(name, "proof"): a_line * code_lines(top, name) for name in unknown} if a_line else {}
    return {**times, **guessed}, unknown


def longest(times: Times, below: dict[str, list[str]], names: Iterable[str]) -> tuple[float, list[str]]:
    """The dearest chain of these crates: a crate's proof waits for those of the crates below it, its tests for these and its
    wrong programs for both. `below` names the crates below each, and has the lowest first."""
    wanted, chains, ends = set(names), {}, [(0.0, [])]
    for name in filter(wanted.__contains__, below):
        before, way = max((chains[other] for other in below[name] if other in chains), default=(0.0, []))
        proof, tests, edits = (times.get((name, part), 0) for part in ("proof", "tests", "edits"))
        chains[name] = (before + proof, [*way, name])
        ends.append((before + max(proof, tests) + edits, chains[name][1]))
    return max(ends)
