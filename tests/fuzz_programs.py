#!/usr/bin/env python3
"""Random inputs of the programs beside the agent: what is asked of the signer, records for log and audit, what an agent
behind a filter answers, and files and answers for add_tool. Real ones are changed and cut anywhere (fuzz.py does so to the
agent). Each program has to end by itself, with a status of its own, in time and within its memory; the filter has to go on,
and serve an honest client.

SECONDS=N is how long each goes on (10), SEED=WORD draws the inputs anew. Words choose checks by a part of their names."""

import contextlib
import os
import random
import select
import shlex
import shutil
import socket
import struct
import subprocess
import sys
import threading
import time

sys.dont_write_bytecode = True

import filter as filters
import rig
from frames import Ended, string
from fuzz import changed
from hosts import certify, keygen

sys.path[:0] = [str(rig.TOP), str(rig.TOP / "helper/tests")]
import openssh
from model import differential_audit, differential_log

check = rig.Checks("fuzz_programs")
SECONDS = float(os.environ.get("SECONDS", "10"))
SEED = os.environ.get("SEED") or str(int.from_bytes(os.urandom(4), "big"))
# In seconds and bytes: a program that reads what is no more than some hundred kB.
LONGEST, MOST = 20, 64 << 20
LONGEST_TEXT = 1 << 19
SIGN, VERIFY = 1, 2
LIST_ANSWER, SIGN_ANSWER = 12, 14


def drawn(name, case):
    """Cases by a seed each, until the time is over; tells how many there were."""
    end, number = time.monotonic() + SECONDS, 0
    while time.monotonic() < end:
        seed = f"{SEED}/{name}/{number}"
        try:
            case(random.Random(seed))
        except (AssertionError, subprocess.TimeoutExpired) as fault:
            raise AssertionError(f"seed {seed}: {fault}") from fault
        number += 1
    print(f"{name}: {number} inputs of seed {SEED}", flush=True)


def bounded(program):
    """The words that run a program with so much memory: where that doesn't suffice, its status says so. One of `make quick`
    is linked with AddressSanitizer, which takes terabytes of addresses."""
    is_checked = (rig.BUILT / "unproved").exists()
    return [str(program)] if is_checked else ["prlimit", f"--data={MOST}", str(program)]


def run_over(statuses, program, words, text=b"", **more):
    """A program over a text on its standard input ends by itself, with one of these statuses."""
    words = [*bounded(program), *map(str, words)]
    done = subprocess.run(words, input=text, stdout=subprocess.DEVNULL, stderr=subprocess.DEVNULL, timeout=LONGEST, **more)
    assert done.returncode in statuses, f"status {done.returncode}"


# The signer.


def asks_of(folder):
    """Frames of requests that are served: each kind of key, plain and certified, and what binds a session."""
    authority, texts = openssh.generate(folder, "ed25519", "256"), []
    for kind, bits in (("ed25519", "256"), ("rsa", "1024"), ("ecdsa", "256"), ("ecdsa", "384"), ("ecdsa", "521")):
        key = openssh.generate(folder, kind, bits)
        for each in (key, openssh.certify(key, authority)):
            body = string(each.private) + string(each.blob) + string(b"a message") + struct.pack(">I", key.flags[-1])
            texts.append((SIGN, body))
        session = openssh.signed_text(b"a session")
        signed = openssh.signature_by_openssh(key, b"a session")
        texts.append((VERIFY, string(key.blob) + string(signed) + string(session)))
    return texts


def heard(connection):
    """What comes until its end."""
    with contextlib.suppress(OSError):
        while connection.recv(1 << 16):
            pass


@check
def the_signer_ends_with_a_status_of_its_own(folder):
    program, asks = rig.built("mortarleek_signer"), asks_of(folder)

    def case(draw):
        frames = [string(struct.pack(">BQ", kind, number) + body) for number, (kind, body) in enumerate(draw.choices(asks, k=4), 1)]
        child = rig.Child(rig.script(folder / "bounded", f'exec {shlex.join(bounded(program))} "$@"'), "/bin/true")
        text = changed(draw, b"".join(frames), frames)
        hears = threading.Thread(target=heard, args=(child.peer.socket,))
        hears.start()
        with contextlib.suppress(OSError):
            child.peer.socket.settimeout(LONGEST)
            for at in range(0, len(text), size := draw.choice([7, 100, 1 << 20])):
                child.peer.socket.sendall(text[at : at + size])
            child.peer.socket.shutdown(socket.SHUT_WR)
        hears.join(LONGEST)
        status, _ = child.end()
        assert status in (0, 1, 6, 7, 8), f"status {status}"

    drawn("signer", case)


# Records.


def bytes_changed(draw, text):
    """The record or the deeds, of which some have many megabytes: a front of those."""
    text = text[:LONGEST_TEXT]
    return changed(draw, text, [text]) if text and draw.random() < 0.7 else text


@check
def a_log_ends_with_a_status_of_its_own(folder):
    program = rig.there(rig.BUILT / "log_prog")

    def case(draw):
        made = differential_log.Case(str(draw.random()))
        run_over({0, 2, 3, 4, 6}, program, made.words[1:], bytes_changed(draw, made.files["r"]))

    drawn("log", case)


@check
def an_audit_ends_with_a_status_of_its_own(folder):
    program = rig.there(rig.BUILT / "audit_prog")

    def case(draw):
        made = differential_audit.Case(str(draw.random()))
        for name, text in made.files.items():
            (folder / name).write_bytes(bytes_changed(draw, text))
        run_over({0, 1, 2, 3, 4}, program, made.words, cwd=folder)

    drawn("audit", case)


# The agent behind a filter.


@check
def a_filter_goes_on_whatever_the_agent_behind_answers(folder):
    key = keygen(folder / "key")
    blob = openssh.read(key).blob
    listed = bytes([LIST_ANSWER]) + struct.pack(">I", 1) + string(blob) + string(b"one")
    answers = [listed, bytes([SIGN_ANSWER]) + string(bytes(83)), bytes([rig.FAILURE]), bytes([rig.SUCCESS])]
    requests = [bytes([rig.LIST]), bytes([rig.SIGN]) + string(blob) + string(b"data") + bytes(4), filters.BIND]
    with filters.Behind(folder) as behind, filters.filtered(folder, behind.path, filters.public(key)) as before:

        def case(draw):
            with before.peer(seconds=5) as client:
                for _ in range(draw.choice([1, 2, 5])):
                    client.send(draw.choice(requests))
                with contextlib.suppress(TimeoutError, OSError, Ended), behind.peer() as upstream:
                    upstream.socket.settimeout(0.2)
                    for _ in range(draw.choice([1, 2, 5])):
                        upstream.reply()
                        frames = [string(answer) for answer in draw.choices(answers, k=draw.choice([1, 1, 1, 3]))]
                        text = b"".join(frames)
                        upstream.socket.sendall(changed(draw, text, frames) if draw.random() < 0.7 else text)
            assert before.process.poll() is None, f"the filter ended with status {before.process.poll()}"
            if draw.random() < 0.1:
                with before.peer(seconds=5) as client:
                    client.send(bytes([rig.LIST]))
                    with contextlib.ExitStack() as held:
                        # Connections for clients that left may wait before this one's.
                        while not select.select([client.socket], [], [], 0.05)[0]:
                            if select.select([behind.listener], [], [], 1)[0]:
                                upstream = held.enter_context(behind.peer())
                                with contextlib.suppress(Ended, OSError):
                                    upstream.reply()
                                    upstream.send(listed)
                    assert client.reply() == listed

        drawn("filter", case)


# The files and the agent of add_tool.


class Answers:
    """An agent that answers one client after another as it is told, or changed."""

    def __init__(self, folder):
        self.path, self.draw = folder / "agent.sock", random.Random(SEED)
        self.listener = socket.socket(socket.AF_UNIX)
        self.listener.bind(str(self.path))
        self.listener.listen(16)
        threading.Thread(target=self.serve, daemon=True).start()

    def serve(self):
        while True:
            try:
                connection = self.listener.accept()[0]
            except OSError:
                return
            with rig.Peer(connection, seconds=5) as peer, contextlib.suppress(OSError, Ended):
                while True:
                    peer.reply()
                    answer = string(bytes([self.draw.choice([rig.SUCCESS] * 3 + [rig.FAILURE])]))
                    peer.socket.sendall(changed(self.draw, answer, [answer]) if self.draw.random() < 0.1 else answer)

    def close(self):
        self.listener.close()


@check
def add_tool_ends_with_a_status_of_its_own(folder):
    program, agent = rig.there(rig.BUILT / "add_tool"), Answers(folder)
    keys = [keygen(folder / kind, kind, bits) for kind, bits in (("ed25519", 256), ("rsa", 2048), ("ecdsa", 256))]
    certify(keys[0], keys[1])
    files = sorted(path for path in folder.iterdir() if path.is_file())
    texts = [path.read_bytes() for path in files]
    hosts = b"".join(b"host%d %s\n" % (n, path.read_bytes()) for n, path in enumerate(files) if path.suffix == ".pub")
    inside = folder / "changed"
    inside.mkdir()

    def case(draw):
        shutil.rmtree(inside)
        inside.mkdir()
        for path, text in zip(files, texts):
            (inside / path.name).write_bytes(text if draw.random() < 0.4 else changed(draw, text, texts))
            (inside / path.name).chmod(0o600)
        (inside / "hosts").write_bytes(changed(draw, hosts, texts))
        words = draw.choice([[], [], ["-c"], ["-t", "1h"], ["-H", "hosts", "-h", draw.choice(["host0", "host1>host2"])]])
        names = draw.sample([key.name for key in keys], k=2)
        run_over({0, 1}, program, [*words, *names], cwd=inside, env={"SSH_AUTH_SOCK": str(agent.path)})

    try:
        drawn("add_tool", case)
    finally:
        agent.close()


if __name__ == "__main__":
    check.main(rig.BUILT / "log_prog")
