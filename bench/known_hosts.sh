#!/bin/sh
# Times the look for a host in files of known hosts with hashed lines, beside `ssh-keygen -F` over the same file on the
# same machine. Wants python3, ssh-keygen, and crates/bench_tool/out/bench_tool, which `rt ci` or `rt run` leaves there.
# Prints a line a file: its size, seconds of the program, seconds of ssh-keygen, and the ratio of the two. The second
# file is half as long as the first: a time that is linear is half of the first one's.
set -eu
cd "$(dirname "$0")/.."
program=crates/bench_tool/out/bench_tool
[ -x "$program" ] || { echo "no $program: run rt ci bench_tool" >&2; exit 1; }
python3 - "$program" <<'PYTHON'
import base64, hashlib, hmac, os, random, subprocess, sys, tempfile, time

def text(data):
    return base64.b64encode(data).decode()

def line(host, chance):
    salt = chance.randbytes(20)
    digest = hmac.new(salt, host.encode(), hashlib.sha1).digest()
    blob = b"\0\0\0\x0bssh-ed25519\0\0\0\x20" + chance.randbytes(32)
    return f"|1|{text(salt)}|{text(digest)} ssh-ed25519 {text(blob)}\n"

def best(words, runs=3):
    seconds = []
    for _ in range(runs):
        start = time.perf_counter()
        subprocess.run(words, capture_output=True, check=True)
        seconds.append(time.perf_counter() - start)
    return min(seconds)

chance = random.Random(1)
host = "cetus.example.org"
with tempfile.TemporaryDirectory() as folder:
    for size in [16777216, 8388608]:
        path = os.path.join(folder, f"known_hosts_{size}")
        own = line(host, chance)
        others = (size - len(own)) // len(own)
        with open(path, "w") as file:
            for number in range(others):
                file.write(line(f"host{number}.example.org", chance))
            file.write(own)
        words = [sys.argv[1], "hosts", path, host]
        answer = subprocess.run(words, capture_output=True, text=True, check=True).stdout.strip()
        assert answer == "1 keys", answer
        ours = best(words)
        theirs = best(["ssh-keygen", "-F", host, "-f", path])
        print(f"{os.path.getsize(path)} bytes, {others + 1} lines: {ours:.3f} s, ssh-keygen -F {theirs:.3f} s, ratio {ours / theirs:.3f}")
PYTHON
