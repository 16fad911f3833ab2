"""The records of what was proved: bin/PROVED beside the programs, and crates/NAME/out/PROVED of each. docs/DAILY.md says what
their fields mean. scripts/prove alone adds one; front/proof_of compares a program with its own."""

from __future__ import annotations

import functools
import hashlib
import os
import subprocess
from datetime import datetime, timezone
from pathlib import Path

from crates_txt import read_crates, read_named, with_those_below

# By the fields' names, in their order.
Record = dict[str, str]


@functools.cache
def sum_while(file: Path, identity: tuple[int, int, int]) -> str:
    return hashlib.sha256(file.read_bytes()).hexdigest()


def sum_of(file: Path) -> str:
    """The file's SHA-256, which is computed once for all programs."""
    found = file.stat()
    return sum_while(file, (found.st_ino, found.st_size, found.st_mtime_ns))


def files_read(top: Path, crate: str) -> list[Path]:
    """The files of a crate that its proof reads."""
    parts = (top / "crates" / crate / part for part in ("src", "specs", "proofs"))
    return [Path(at) / name for part in parts for at, _, names in os.walk(part) for name in names]


def crates_of(top: Path, program: str) -> list[str]:
    return sorted(with_those_below(read_crates(top), [program]))


def sources(top: Path, program: str) -> list[str]:
    """What a program is built of: the lines of crates.txt of its crate and of all below it, in one form; HANDLES; and a line
    of sha256sum for each file that their proofs read. Each kind in the order of its bytes."""
    named, below = read_named(top), crates_of(top, program)
    lines = [f"{crate}: {' '.join(named[crate])}".rstrip() for crate in below]
    handles = top / "HANDLES"
    lines += handles.read_text().splitlines() if handles.exists() else []
    files = [file for crate in below for file in files_read(top, crate)]
    return lines + [f"{sum_of(file)}  {name}" for name, file in sorted((str(file.relative_to(top)), file) for file in files)]


def sum_of_sources(top: Path, program: str) -> str:
    return hashlib.sha256("".join(f"{line}\n" for line in sources(top, program)).encode()).hexdigest()


def git(top: Path, *words: str) -> str | None:
    """What git prints, or None where it can't say."""
    try:
        done = subprocess.run(["git", *words], cwd=top, capture_output=True, text=True)
    except OSError:
        return None
    return done.stdout.strip() if done.returncode == 0 else None


def commit_of(top: Path, program: str) -> tuple[str, str]:
    """The commit, and whether a source of the program differs from it."""
    parts = [f"crates/{crate}/{part}" for crate in crates_of(top, program) for part in ("src", "specs", "proofs")]
    commit = git(top, "rev-parse", "HEAD")
    changed = git(top, "status", "--porcelain", "--untracked-files=all", "--", "crates.txt", "HANDLES", *parts)
    return ("unknown", "unknown") if commit is None or changed is None else (commit, "yes" if changed else "no")


def record_of(program: str, file: Path, sum: str, commit: tuple[str, str], kit: str, checker: str) -> Record:
    """The record of a program that was proved just now, of sources with this sum."""
    made = file.read_bytes()
    return {
        "program": program,
        "sha256": hashlib.sha256(made).hexdigest(),
        "size": str(len(made)),
        "commit": commit[0],
        "changed": commit[1],
        "sources": sum,
        "kit": kit,
        "checker": checker,
        "time": datetime.now(timezone.utc).strftime("%Y-%m-%dT%H:%M:%SZ"),
    }


def read_records(file: Path) -> dict[str, Record]:
    """The records of a file by their programs; none where there is no such file."""
    records: dict[str, Record] = {}
    for text in file.read_text().split("\n\n") if file.exists() else []:
        record = dict(line.split(": ", 1) for line in text.splitlines() if ": " in line)
        if "program" in record:
            records.setdefault(record["program"], record)
    return records


def write_records(file: Path, records: dict[str, Record]) -> None:
    """Writes the records in the order of their programs' names; no file where there are none. A reader meets the old file or
    the new one."""
    if not records:
        file.unlink(missing_ok=True)
        return
    texts = ["".join(f"{name}: {value}\n" for name, value in records[program].items()) for program in sorted(records)]
    new = file.with_name(f"{file.name}.new")
    new.write_text("\n".join(texts))
    new.chmod(0o644)
    new.replace(file)


def is_of(record: Record | None, program: Path) -> bool:
    """Whether the record is of these very bytes."""
    if record is None or not program.is_file():
        return False
    return record.get("sha256") == hashlib.sha256(program.read_bytes()).hexdigest()


def read_names(file: Path) -> set[str]:
    return set(file.read_text().split()) if file.exists() else set()


def write_names(file: Path, names: set[str]) -> None:
    """A name a line; no file where there are none."""
    if names:
        file.write_text("".join(f"{name}\n" for name in sorted(names)))
        file.chmod(0o644)
    else:
        file.unlink(missing_ok=True)
