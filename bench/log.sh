#!/usr/bin/env bash
# Processor time and memory of `log_prog` over a record of LINES lines (10,000,000 if not given), beside those of
# `agent_prog replay` and sha256sum over the same one, which is made as it is read: 16 clients sign without pause over
# one helper, which answers once each of them has asked. Then the memory of `mortarleek log -f` over a file that grows
# to that record, some 200 bytes a line, which is removed at the end. Memory is what is resident behind the first
# hundredth of the record and behind all of it. Needs python3, front/ and bin/, which `make` builds.
set -eu
cd "$(dirname "$0")/.."
for program in agent_prog log_prog; do
    [ -x "bin/$program" ] || { echo "bench: run make first" >&2; exit 1; }
done
work=$(mktemp -d)
trap 'rm -rf "$work"' EXIT
cp bin/log_prog front/mortarleek-log front/front_end.sh "$work"

python3 - "${1:-10000000}" "$work" "$PWD/bin" <<'PYTHON'
import os, pathlib, struct, subprocess, sys, threading, time

lines, work, programs = int(sys.argv[1]), sys.argv[2], sys.argv[3]
turns = (lines - 20) // 32


def string(content):
    return struct.pack(">I", len(content)) + content


def hear(port, *fields):
    return f"hear {port} {string(b''.join(fields)).hex()}\n"


def record():
    """The record in pieces: what comes before the first turn, and the turns one after another."""
    blob = string(b"keyed-sha256@example.com") + string(bytes(32))
    request = "".join(hear(client, b"\x0d", string(blob), string(bytes(32)), bytes(4)) for client in range(1, 17))
    yield "join client\n" * 16 + hear(1, b"\x11", blob, string(bytes(32)), string(b"the key"))
    for turn in range(turns):
        piece = [request]
        if turn == 0:
            piece.append(f"started 1 {bytes(16).hex()}\njoin child\n")
            piece.append(hear(17, struct.pack(">BQ", 1, 1), string(bytes(16))))
        for client in range(1, 17):
            piece.append(hear(17, struct.pack(">BQ", 101, 16 * turn + client), string(bytes(64))))
        yield "".join(piece)


def resident(pid):
    """The kB that a process holds now."""
    for line in pathlib.Path(f"/proc/{pid}/status").read_text().splitlines():
        if line.startswith("VmRSS:"):
            return int(line.split()[1])
    return 0


def settled(pid):
    """The same once it has read what was written to it: it waits for more."""
    for _ in range(1000):
        time.sleep(0.01)
        if pathlib.Path(f"/proc/{pid}/stat").read_text().rsplit(")", 1)[1].split()[0] == "S":
            break
    return resident(pid)


def fed(*command):
    """A command's seconds of processor time over the record, and its memory at the first hundredth and at the end."""
    started = subprocess.Popen(command, stdin=subprocess.PIPE, stdout=subprocess.DEVNULL)
    memory = []
    for place, piece in enumerate(record()):
        started.stdin.write(piece.encode())
        if place == turns // 100:
            started.stdin.flush()
            memory.append(settled(started.pid))
    started.stdin.flush()
    memory.append(settled(started.pid))
    started.stdin.close()
    _, status, used = os.wait4(started.pid, 0)
    assert status == 0, (command, status)
    return used.ru_utime + used.ru_stime, memory


def children(pid):
    """A process and all below it."""
    found = [pid]
    for child in pathlib.Path(f"/proc/{pid}/task/{pid}/children").read_text().split():
        found += children(int(child))
    return found


def named(pid):
    return pathlib.Path(f"/proc/{pid}/comm").read_text().strip()


def of_followers(pid):
    """The kB of log_prog and of the awk that writes its lines, below the script."""
    memory = {}
    for child in children(pid):
        if "awk" in named(child) or named(child) == "log_prog":
            memory["awk" if "awk" in named(child) else "log_prog"] = resident(child)
    return memory


def followed():
    """The memory of the script's programs while the record grows, as its lines are told."""
    told = [0]
    with open(f"{work}/record", "wb") as file:
        command = [f"{work}/mortarleek-log", "-f", f"{work}/record"]
        script = subprocess.Popen(command, stdout=subprocess.PIPE, stderr=subprocess.DEVNULL)

        def count():
            while data := os.read(script.stdout.fileno(), 1 << 16):
                told[0] += data.count(b"\n")

        threading.Thread(target=count, daemon=True).start()
        memory, began = [], time.monotonic()
        for place, piece in enumerate(record()):
            file.write(piece.encode())
            if place in (turns // 100, turns):
                file.flush()
                while told[0] < 16 * place:
                    time.sleep(0.1)
                memory.append(of_followers(script.pid))
    script.terminate()
    script.wait()
    return memory, time.monotonic() - began


log, log_memory = fed(f"{programs}/log_prog")
replay, replay_memory = fed(f"{programs}/agent_prog", "replay")
hashed, _ = fed("sha256sum")
print(f"{lines} lines: log {log:.1f} s, {log / replay:.2f} times replay, {log / hashed:.1f} times sha256sum")
for name, (first, last) in (("log", log_memory), ("replay", replay_memory)):
    print(f"{name}: {first} kB behind a hundredth, {last} kB at the end")
(first, last), took = followed()
for name in first:
    print(f"followed in {took:.0f} s, {name}: {first[name]} kB behind a hundredth, {last[name]} kB at the end")
PYTHON
