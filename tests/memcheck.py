"""memcheck over a built program, with a secret marked as undefined: what constant_time.py and rsa.py share.

gdb stops where a function takes the secret, marks that, and goes on until the function returns; memcheck tells each jump
and each address that depends on it."""

import pathlib
import re
import struct
import subprocess
import time

import rig

WORDS = ["valgrind", "-q", "--vgdb=yes", "--vgdb-error=0", "--vgdb-shadow-registers=yes"]

# How gdb gets at the program that memcheck runs, on a busy machine too.
BEGIN = """
set pagination off
set confirm off
set breakpoint pending on
set remotetimeout 120
target remote | vgdb --pid={pid} --wait=120
"""

# Where the program stops, what is marked there, and how often it is continued until then.
SCRIPT = BEGIN + """
break {function}
continue
{marks}
set $back = *(unsigned long*)$rsp
delete
{public}
break *$back
monitor v.set vgdb-error {most}
continue
printf "returned %d\\n", $pc == $back
monitor v.info n_errs_found
monitor v.set vgdb-error 0
delete
continue
monitor v.info n_errs_found
kill
"""


class Found:
    """What memcheck found: `returned` says whether the function did before an error, `before` how many there were then,
    `after` how many when the program stopped next; `said` is gdb's output, `places` the function and the address of each
    error, in the order in which they came."""

    def __init__(self, said, log):
        counts = [int(number) for number in re.findall(r"n_errs_found (\d+)", said)]
        assert "returned " in said and len(counts) == 2, said[-2000:]
        self.said, self.returned = said, "returned 1" in said
        self.before, self.after = counts
        self.places = re.findall(r"uninitialised value.*\n==\d+== +at (0x[0-9A-F]+): (.*) \(", log)


def undefined(place, size):
    """Marks these bytes behind an address as undefined."""
    return f'eval "monitor make_memory undefined 0x%lx {size}", {place}'


def shown(place, text):
    """Says the words at an address that hold this text, and marks them as undefined."""
    return f"x/{len(text) // 8}xg {place}\n{undefined(place, len(text))}"


def were_there(found, texts):
    """Whether gdb showed these texts, in this order, where they were marked."""
    words = [int(word, 16) for word in re.findall(r"\t0x([0-9a-f]{16})\b", found.said)]
    wanted = [word for text in texts for word in struct.unpack(f"<{len(text) // 8}Q", text)]
    return words[: len(wanted)] == wanted


def watched(folder, start, program, function, marks, public="", most=0):
    """What memcheck finds of a function: `start(folder, words, output)` starts the program under these words. It goes on
    behind so many errors."""
    log = pathlib.Path(folder, "memcheck")
    with open(pathlib.Path(folder, "output"), "w") as output:
        memcheck = start(folder, [*WORDS, f"--log-file={log}"], output)
    try:
        time.sleep(1)
        script = pathlib.Path(folder, "script")
        script.write_text(SCRIPT.format(pid=memcheck.pid, function=function, marks="\n".join(marks), public=public, most=most))
        said = rig.run(["gdb", "-q", "-batch", "-x", script, program], status=None, timeout=300)
    finally:
        memcheck.kill()
        memcheck.wait()
    return Found(said, log.read_text())


def on_a_line(tool, line):
    """Starts a tool on a line."""

    def start(folder, words, output):
        lines = pathlib.Path(folder, "lines")
        lines.write_text(f"{line}\n")
        return subprocess.Popen([*words, tool, lines], stdout=output, stderr=subprocess.STDOUT)

    return start
