"""crates.txt, as developers' scripts read it: which crates there are, in its order, and what each stands on."""

from __future__ import annotations

import re
from collections.abc import Callable, Iterable
from pathlib import Path

LINE = re.compile(r"(?m)^([a-z]\w*)[^:#\n]*:([^#\n]*)")


def read_named(top: Path) -> dict[str, list[str]]:
    """Each crate, with all that it names: crates of the repository and of the toolchain."""
    return {name: names.split() for name, names in LINE.findall((top / "crates.txt").read_text())}


def read_programs(top: Path) -> list[str]:
    """The programs that are installed: the crates below the heading of that name."""
    _, _, rest = (top / "crates.txt").read_text().partition("\n# Programs\n")
    return [name for name, _ in LINE.findall(rest.partition("\n# ")[0])]


def read_crates(top: Path) -> dict[str, list[str]]:
    """Each crate, with those of the repository that it names."""
    named = read_named(top)
    return {name: [other for other in names if other in named] for name, names in named.items()}


def with_those_below(
    crates: dict[str, list[str]], names: Iterable[str], is_end: Callable[[str], bool] = lambda name: False
) -> set[str]:
    """These crates, and all that they stand on; below an end nothing is looked at."""
    found: set[str] = set()
    left = list(names)
    while left:
        name = left.pop()
        if name not in found:
            found.add(name)
            left += [] if is_end(name) else crates[name]
    return found
