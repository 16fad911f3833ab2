"""The Rattle kit's crates, which our programs link: what each stands on, and of which Rust crate it is a port, under which
licences. The kit's own folders say so."""

from __future__ import annotations

import functools
import os
import re
import shutil
import sys
from pathlib import Path
from typing import NamedTuple

GRANT = "Permission is hereby granted"
# Some name their Rust crate and give a version of the part of it that they follow.
NAMED = r"(?:Rust crate `([\w-]+)`|\b({}_builder)) (\d+\.\d+\.\d+)"


class Port(NamedTuple):
    """The Rust crate after which one of the kit's was written."""

    name: str
    version: str
    licences: str
    holders: list[str]


@functools.cache
def kit() -> Path:
    """The kit's folder, by its command."""
    for command in (os.environ.get("RT"), "rt"):
        found = shutil.which(command) if command else None
        if found and (folder := Path(found).resolve().parents[1]).joinpath("rlibs").is_dir():
            return folder
    sys.exit("no Rattle kit is there, whose folders say what its crates are: scripts/toolchain")


def names_below(name: str) -> list[str]:
    """The kit's crates that one of them names."""
    with open(kit() / "rlibs" / f"{name}.rlib/format", "rb") as file:
        return [line.split()[1].decode() for line in file if line.startswith(b"dep ")]


def licences_of(about: str, texts: str) -> str:
    """What the texts of a crate's licences are, in the words of SPDX; the crate's page names one whose text it hasn't."""
    either = {"MIT": GRANT in texts, "Apache-2.0": "Apache License" in texts or "MIT or Apache" in about}
    chosen = " OR ".join(name for name, is_one in either.items() if is_one)
    return f"({chosen}) AND Unicode-3.0" if "UNICODE LICENSE" in texts else chosen


def port(name: str, about: str, texts: list[str]) -> Port:
    """What a page says of the Rust crate behind a crate of this name, whose licences have these texts."""
    found = re.search(NAMED.format(name), about)
    if found is None:
        sys.exit(f"rattle/{name}: it has a licence, and doesn't say of which Rust crate and version it is a port")
    own = [text for text in texts if not text.lstrip().startswith("Apache License")]
    holders = [line for text in own for line in re.findall(r"(?m)^\s*(Copyright \S.*?)\s*$", text)]
    return Port(found[1] or found[2], found[3], licences_of(about, "".join(texts)), holders)


@functools.cache
def ports_in(name: str) -> dict[str, Port | None]:
    """The crate, and what it is a port of, or None where it is the kit's own; then a part of it that is a port, and says so
    above its licence."""
    folder = kit() / "rattle" / name
    if files := sorted(folder.glob("LICENSE*")):
        return {name: port(name, (folder / "README.md").read_text(), [file.read_text() for file in files])}
    heads = {file: file.read_text()[:4000] for file in sorted(folder.glob("src/**/*.rt"))}
    parts = {f"{name}/{file.parent.name}": port(name, head, [head]) for file, head in heads.items() if GRANT in head}
    return {name: None, **parts}
