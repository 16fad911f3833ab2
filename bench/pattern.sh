#!/bin/sh
# Times searches of pattern_core at their worst, which a `*` at both ends brings, beside Python's fnmatch for the same text and pattern on the same
# machine. Wants python3, and crates/bench_tool/out/bench_tool, which `rt ci` or `rt run` leaves there.
# Prints a line a case: pattern, seconds of the program, seconds of fnmatch, and the ratio of the two.
set -eu
cd "$(dirname "$0")/.."
program=crates/bench_tool/out/bench_tool
[ -x "$program" ] || { echo "no $program: run rt ci bench_tool" >&2; exit 1; }
python3 - "$program" <<'PYTHON'
import fnmatch, re, subprocess, sys, time

def best(call, runs=5):
    seconds = []
    for _ in range(runs):
        start = time.perf_counter()
        call()
        seconds.append(time.perf_counter() - start)
    return min(seconds)

text = "a" * 65536
for pattern in ["*a*a*a*b*", "*" + "a" * 64 + "b*", "*" + "a" * 512 + "b*"]:
    words = [sys.argv[1], "pattern", str(len(text)), pattern]
    answer = subprocess.run(words, capture_output=True, text=True, check=True).stdout.strip()
    assert answer == "false", answer
    ours = best(lambda: subprocess.run(words, capture_output=True, check=True))
    matcher = re.compile(fnmatch.translate(pattern))
    theirs = best(lambda: matcher.match(text), 2)
    name = pattern if len(pattern) < 12 else f"*a..ab* of {len(pattern)}"
    print(f"{name}: {ours:.4f} s, fnmatch {theirs:.4f} s, ratio {ours / theirs:.3f}")
PYTHON
