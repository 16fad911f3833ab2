"""What is seen of a running agent from outside: memory, descriptors, processes; and its build with AddressSanitizer."""

import contextlib
import os
import pathlib
import shutil
import subprocess
import tempfile
import time

from rig import BUILT, LIST, TOP, Skip, children, needs, serves, until


def memory(pid, field="VmRSS"):
    """Bytes of memory, as the system counts them: VmRSS now, or VmHWM at the most so far."""
    for line in pathlib.Path(f"/proc/{pid}/status").read_text().splitlines():
        if line.startswith(field + ":"):
            return int(line.split()[1]) * 1024
    raise LookupError(field)


def memory_if_alive(pid):
    """The same of a process that may have ended."""
    with contextlib.suppress(OSError, LookupError):
        return memory(pid)
    return 0


def spent(pid):
    """Processor seconds of a process, to the microsecond: by the scheduler's own count of all its threads."""
    tasks = pathlib.Path(f"/proc/{pid}/task").glob("*/schedstat")
    return sum(int(task.read_text().split()[0]) for task in tasks) / 1e9


def descriptors(pid):
    return len(os.listdir(f"/proc/{pid}/fd"))


def settled(number):
    """What a number is once it stays the same for a second."""
    found, since = number(), time.monotonic()
    while time.monotonic() - since < 1:
        time.sleep(0.05)
        if (now := number()) != found:
            found, since = now, time.monotonic()
    return found


class Held:
    """What the agent holds while no client is connected."""

    def __init__(self, pid, most):
        """Waits until it has at most so many descriptors."""
        until(lambda: descriptors(pid) <= most, 60, what="the closing of descriptors")
        self.descriptors, self.processes, self.memory = descriptors(pid), children(pid), memory(pid)
        self.helpers = sum(map(memory_if_alive, self.processes))

    def __str__(self):
        parts = [f"{self.memory >> 10} kB", f"helper {self.helpers >> 10} kB", f"{self.descriptors} descriptors"]
        return ", ".join([*parts, f"{len(self.processes)} processes"])


def load():
    return f"load {os.getloadavg()[0]:.1f} on {os.cpu_count()} processors"


def served_within(peer, tries=5):
    """The least number of seconds in which a client gets its list."""
    found = []
    for _ in range(tries):
        begin = time.monotonic()
        peer.ask(LIST)
        found.append(time.monotonic() - begin)
    return min(found)


def family(pid):
    """A process's children and theirs."""
    found = children(pid)
    return found + [each for child in found for each in family(child)]


def checked_agent():
    """The agent as `rt try` links it, with AddressSanitizer: a copy of the program that it runs. Takes minutes."""
    place = BUILT / "checked"
    sources = [path for path in TOP.glob("crates/*/src/**/*.rt") if "_tests/" not in str(path)]
    program = place / "agent_prog"
    if program.exists() and program.stat().st_mtime > max(path.stat().st_mtime for path in sources):
        return program
    tool = os.environ.get("RT", "rt")
    needs(tool)
    place.mkdir(parents=True, exist_ok=True)
    with tempfile.TemporaryDirectory(prefix="mk-") as folder:
        words = [tool, "try", "--seconds", "3600", "--", "serve", "-a", f"{folder}/a", "--helper", "/bin/false"]
        quiet = dict(stdin=subprocess.DEVNULL, stdout=subprocess.DEVNULL, stderr=subprocess.DEVNULL)
        process = subprocess.Popen(words, cwd=TOP / "crates/agent_prog", **quiet)
        try:
            bound = lambda: serves(f"{folder}/a") or process.poll() is not None
            until(bound, 3000, what="the agent that `rt try` links")
            for pid in family(process.pid):
                with contextlib.suppress(OSError, ValueError):
                    # The word before `serve` is the program, behind a loader and its words.
                    told = pathlib.Path(f"/proc/{pid}/cmdline").read_bytes().split(b"\0")
                    path = pathlib.Path(os.fsdecode(told[told.index(b"serve") - 1]))
                    if path.name == "program":
                        shutil.copy(path, program)
                        return program
        finally:
            process.terminate()
            process.wait()
    raise Skip("`rt try` ran no agent")
