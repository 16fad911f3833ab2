#!/usr/bin/env python3
"""A drill of the most rounds: twice the same line, counts that add up, and at most 4 MB of memory."""

import os
import pathlib
import re
import subprocess
import sys

sys.dont_write_bytecode = True

import rig
import watch

WORDS = ("drill", "100000", "7")
ROUNDS = 100000
KEYS = 64
BYTES = 4096 * 1024
LINE = re.compile(
    r"drill 100000 7: requests 100000, successes (\d+), failures (\d+), lists (\d+), signatures (\d+), held (\d+)\n"
)

check = rig.Checks("drill")


@check
def the_same_line_twice(_):
    line, again = (rig.run([rig.agent_program(), *WORDS], timeout=600) for _ in range(2))
    assert line == again, (line, again)
    *counts, held = map(int, LINE.fullmatch(line).groups())
    assert sum(counts) == ROUNDS, line
    assert held <= KEYS, line


def full_pipe():
    """Both ends of a pipe that takes no byte before somebody reads."""
    end, begin = os.pipe()
    os.set_blocking(begin, False)
    try:
        while os.write(begin, b"\n"):
            pass
    except BlockingIOError:
        os.set_blocking(begin, True)
    return end, begin


def state(pid):
    """R for a process that runs, S for one that waits, Z for one that ended."""
    return pathlib.Path(f"/proc/{pid}/stat").read_text().rpartition(")")[2].split()[0]


@check
def little_memory(_):
    """Looked at while its line waits for a reader, as it waits for nothing else. What the system tells of a process
    that ended is more: it counts the memory of the one that started it, too."""
    end, begin = full_pipe()
    with subprocess.Popen([rig.agent_program(), *WORDS], stdout=begin) as process:
        try:
            rig.until(lambda: state(process.pid) in "SZ", seconds=600, what="the line")
            assert process.poll() is None, f"status {process.returncode}"
            memory = watch.memory(process.pid, "VmHWM")
        finally:
            process.kill()
    os.close(begin)
    os.close(end)
    print(f"drill: at most {memory // 1024} kB")
    assert memory <= BYTES, memory


if __name__ == "__main__":
    check.main(rig.agent_program())
