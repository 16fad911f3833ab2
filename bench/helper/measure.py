"""The measurements of bench/helper.sh, a line each. The words are a folder with `libcrypto`, a number of rounds, and `times`
or `instructions`."""

import base64
import collections
import os
import pathlib
import re
import socket
import statistics
import struct
import subprocess
import sys
import time

TOP = pathlib.Path(__file__).resolve().parents[2]
sys.path.insert(0, str(TOP / "tests"))
sys.path.insert(0, str(TOP / "helper/tests"))

import openssh
import rig
from peer import sign_body, verify_body
from rig import ADD, SIGN, children, string, strings

WORK, ROUNDS, WHAT = pathlib.Path(sys.argv[1]), int(sys.argv[2]), sys.argv[3]
MESSAGE = bytes(200)
PROVED, OTHER = rig.HELPER, rig.OTHER
# key, its name, flags of a request and what libcrypto calls the hash that they ask for, requests in a round, and those whose
# instructions are counted
KEYS = [
    (("ed25519", "256"), "Ed25519", 0, "-", 1000, 20),
    (("ecdsa", "256"), "P-256", 0, "SHA256", 1000, 20),
    (("ecdsa", "384"), "P-384", 0, "SHA384", 200, 5),
    (("ecdsa", "521"), "P-521", 0, "SHA512", 200, 5),
    (("rsa", "2048"), "RSA-2048", 4, "SHA512", 200, 4),
    (("rsa", "3072"), "RSA-3072", 4, "SHA512", 60, 2),
    (("rsa", "4096"), "RSA-4096", 4, "SHA512", 20, 2),
    (("rsa", "8192"), "RSA-8192", 4, "SHA512", 5, 1),
]
# What libcrypto's program calls them.
CALLS = {"signs": "sign", "verifies": "verify"}
# An Ed25519 key as RFC 8410 has it, but for its seed: OpenSSH writes none.
PKCS8 = bytes.fromhex("302e020100300506032b657004220420")


def family(pid):
    """The process and all below it."""
    return [pid, *(number for child in children(pid) for number in family(child))]


def used(pid):
    """Processor seconds of a process and of those below it, by the scheduler's own count."""
    return sum(int(pathlib.Path(f"/proc/{number}/schedstat").read_text().split()[0]) for number in family(pid)) / 1e9


def asked(peer, body, count):
    """Asks so often, one request after another, and answers the last reply."""
    for _ in range(count):
        peer.send(body)
        answer = peer.reply()
    return answer


def helper_time(program, body, count):
    """What a request takes in a helper that has answered one."""
    child = rig.Child(program)
    asked(child.peer, body, 2)
    begin = used(child.process.pid)
    asked(child.peer, body, count)
    took = (used(child.process.pid) - begin) / count
    child.end()
    return took


def agent_time(agent, key, flags, count):
    """What a signature takes in an agent that has made one, its helpers counted."""
    with agent, agent.peer() as peer:
        peer.ask(ADD, key.private, string(b""))
        body = bytes([SIGN]) + string(key.blob) + string(MESSAGE) + struct.pack(">I", flags)
        assert asked(peer, body, 2)[0] == rig.SIGNATURE
        begin = used(agent.process.pid)
        asked(peer, body, count)
        return (used(agent.process.pid) - begin) / count


def libcrypto(key, digest, what, count):
    """Processor seconds of libcrypto for a signature or a verification, with a key that is kept or made anew for each."""
    return int(rig.run([WORK / "libcrypto", der(key), digest, what, count])) / 1e9


def der(key):
    """A file with the key as libcrypto reads it."""
    path = key.path.with_suffix(".der")
    if not path.exists():
        if key.name == "ssh-ed25519":
            content = PKCS8 + key.fields[1][:32]
        else:
            rig.run(["ssh-keygen", "-q", "-p", "-m", "PEM", "-P", "", "-N", "", "-f", key.path])
            content = base64.b64decode("".join(key.path.read_text().splitlines()[1:-1]))
        path.write_bytes(content)
    return path


def helpers():
    """The helpers that are built, by names."""
    return {path.name: path for path in (PROVED, OTHER) if path.exists()}


def bodies(key, flags):
    """A request to sign, and one to verify that signature."""
    sign = sign_body(1, key.private, key.blob, MESSAGE, flags)
    child = rig.Child(next(iter(helpers().values())))
    child.peer.send(sign)
    (signature,) = strings(child.peer.reply()[9:])
    child.end()
    return sign, verify_body(1, key.blob, signature, MESSAGE)


def measure(key, name, flags, digest, count):
    """The median of all rounds, of each in turn."""
    sign, verify = bodies(key, flags)
    all_rounds = collections.defaultdict(list)
    for _ in range(ROUNDS):
        for helper, program in helpers().items():
            all_rounds[helper, "signs"].append(helper_time(program, sign, count))
            all_rounds[helper, "verifies"].append(helper_time(program, verify, count))
        for what, word in CALLS.items():
            all_rounds["libcrypto", what].append(libcrypto(key, digest, word, count))
            if key.name == "ssh-ed25519":
                all_rounds["libcrypto with its key", what].append(libcrypto(key, digest, f"{word}-anew", count))
        openssh_s = rig.openssh_agent(WORK, stderr=subprocess.DEVNULL)
        all_rounds["ssh-agent", "signs"].append(agent_time(openssh_s, key, flags, count))
        if rig.agent_program().exists():
            ours = rig.our_agent(rig.agent_program(), WORK, stderr=subprocess.DEVNULL)
            all_rounds["the agent", "signs"].append(agent_time(ours, key, flags, count))
    tell(name, {what: statistics.median(took) for what, took in all_rounds.items()}, lambda seconds: f"in {seconds * 1e6:.0f} us")


def tell(name, found, said):
    """A line for each, with what it is of the others."""
    for (who, what), value in found.items():
        beside = ", ".join(
            f"{value / found[other, what]:.2f} of {other}"
            for other in ("libcrypto", "libcrypto with its key", "ssh-agent")
            if other != who and (other, what) in found
        )
        print(f"{name}: {who} {what} {said(value)}{': ' if beside else ''}{beside}", flush=True)


def callgrind(words, run):
    """Instructions of a program under callgrind, and of those that it starts: `run` starts it under these words, and ends it."""
    before = set(WORK.glob("callgrind.*"))
    form = f"--callgrind-out-file={WORK}/callgrind.%p"
    run(["valgrind", "-q", "--tool=callgrind", "--trace-children=yes", form, *map(str, words)])
    texts = [path.read_text() for path in set(WORK.glob("callgrind.*")) - before]
    return sum(int(re.search(r"(?m)^(?:totals|summary): (\d+)", text)[1]) for text in texts)


def by_itself(words):
    subprocess.run(words, stdout=subprocess.DEVNULL, stderr=subprocess.DEVNULL, check=True)


def of_helper(body, count):
    """Asks a helper so often."""

    def run(words):
        ours, theirs = socket.socketpair()
        with theirs:
            process = subprocess.Popen(words, stdin=theirs, stdout=subprocess.DEVNULL, stderr=subprocess.DEVNULL)
        with rig.Peer(ours, seconds=300) as peer:
            peer.reply()
            asked(peer, body, count)
        process.wait(300)

    return run


def of_agent(path, key, flags, count):
    """Has an agent sign so often, which listens at a path."""

    def run(words):
        process = subprocess.Popen(words, stdin=subprocess.DEVNULL, stdout=subprocess.DEVNULL, stderr=subprocess.DEVNULL)
        rig.until(lambda: rig.listens(path, True), 60, what="the agent's socket")
        with rig.Peer(rig.connected(path, 300), seconds=300) as peer:
            peer.ask(ADD, key.private, string(b""))
            body = bytes([SIGN]) + string(key.blob) + string(MESSAGE) + struct.pack(">I", flags)
            assert asked(peer, body, count)[0] == rig.SIGNATURE
        process.terminate()
        process.wait(300)
        pathlib.Path(path).unlink(missing_ok=True)

    return run


def instructions(key, name, flags, digest, count):
    """Of many less those of one, so that the start of a program isn't counted, nor a table."""
    sign, verify = bodies(key, flags)
    each = lambda run: (run(1 + count) - run(1)) / count
    found = {}
    # mortarleek-helper asks for memory of a kind that valgrind knows nothing of.
    for what, body in (("signs", sign), ("verifies", verify)):
        words = [PROVED, "-", "1", "0" * 32]
        found[PROVED.name, what] = each(lambda number: callgrind(words, of_helper(body, number)))
    for what, word in CALLS.items():
        run = lambda number: callgrind([WORK / "libcrypto", der(key), digest, word, number], by_itself)
        found["libcrypto", what] = each(run)
        if key.name == "ssh-ed25519":
            run = lambda number: callgrind([WORK / "libcrypto", der(key), digest, f"{word}-anew", number], by_itself)
            found["libcrypto with its key", what] = each(run)
    agents = {"ssh-agent": ["ssh-agent", "-D", "-a"]}
    if rig.agent_program().exists():
        agents["the agent"] = [rig.agent_program(), "serve", "--helper", PROVED, "-a"]
    for who, words in agents.items():
        path = f"{WORK}/counted.sock"
        found[who, "signs"] = each(lambda number: callgrind([*words, path], of_agent(path, key, flags, number)))
    tell(name, found, lambda number: f"by {number / 1e6:.3f} million instructions")


print(f"helper: load {os.getloadavg()[0]:.1f} on {os.cpu_count()} processors, {time.strftime('%F')}", flush=True)
for (kind, bits), name, flags, digest, count, few in KEYS:
    key = openssh.generate(WORK, kind, bits)
    if WHAT == "instructions":
        instructions(key, name, flags, digest, few)
    else:
        measure(key, name, flags, digest, count)
