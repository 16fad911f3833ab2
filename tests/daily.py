#!/usr/bin/env python3
"""The front ends, as a user meets them: each option of mortarleek-agent and mortarleek-add beside what ssh-agent and ssh-add
do with the same words, life and end of a daemon, folders that others can't reach, manuals, completions, the unit, and
what is installed. Words choose checks by a part of their names."""

import importlib
import sys

sys.dont_write_bytecode = True

from installed import PROGRAM, check

# Each module adds its checks, in this order.
for part in ("words", "edges", "start", "places", "life", "use", "add", "messages", "setup", "recipes", "kept", "units", "install"):
    importlib.import_module(f"front_{part}")

if __name__ == "__main__":
    check.main(PROGRAM)
