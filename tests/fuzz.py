#!/usr/bin/env python3
"""Random peers of a running agent: clients that send what real ones sent, changed and cut anywhere, and helpers, relays
and other children that answer twice, in reverse, wrongly, in pieces or never.

    tests/fuzz.py [--seconds N] [--seed SEED] [--checked] [--case SEED/BATCH] [--write]

Batches of peers go on for so many seconds, each with an agent of its own; before them go those that failed once, which
tests/seeds/ names. The agent must not end, must keep below 32 MB, and must serve a quiet client within a second at the
end of each batch. With --checked it is the one that `rt try` links with AddressSanitizer, which must keep below 64 MB.
With --write generated/FUZZ.md says what a run was that failed nowhere. Ends with 1 where something failed, and keeps its
seed in tests/seeds/."""

import argparse
import collections
import contextlib
import os
import pathlib
import random
import signal
import socket
import struct
import subprocess
import sys
import tempfile
import time

sys.dont_write_bytecode = True

import rig
import watch
from frames import Ended, string
from recordings import recordings

SEEDS = pathlib.Path(__file__).parent / "seeds"
FIGURES = pathlib.Path(__file__).parent.parent / "generated" / "FUZZ.md"
MOST_MEMORY, MOST_CHECKED = 32 << 20, 64 << 20
PEERS, STEPS = 24, 3000
SIGN, VERIFY, CONFIRM = 1, 2, 3
SIGNED, REFUSED, TRUE, FALSE, GRANTED, DENIED = range(101, 107)
NUMBERS = [0, 1, 4, 5, 255, 262143, 262144, 262145, 1 << 20, 2**31 - 1, 2**31, 2**32 - 1]
# Two keys, the second with confirmation, and what is asked of them and of the helper.
HELD = [rig.stand_in_key(tag * 32) for tag in (b"p", b"q")]
ADDS = [bytes([rig.ADD]) + b"".join(HELD[0][:2]), bytes([rig.ADD_LIMITED]) + b"".join(HELD[1][:2]) + b"\x02"]
BIND = bytes([rig.EXTENSION]) + b"".join(map(string, (b"session-bind@openssh.com", HELD[0][2], b"session", b"sg")))
ASKS = [string(bytes([rig.SIGN]) + string(held[2]) + string(b"message") + bytes(4)) for held in HELD]
ASKS += [string(BIND + b"\1"), string(bytes([rig.LIST]))]
# The process that the agent starts hands its connection over, or ends at once.
ENDS = '[ ! -e {folder}/ends ] || exit 1; exec {program} "$@"'


def changed(draw, text, others):
    """A text with a few changes: of bytes, of lengths, of the order of its pieces."""
    text = bytearray(text)
    for _ in range(draw.choice([0, 1, 1, 2, 3, 8])):
        at = draw.randrange(len(text) + 1)
        kind = draw.choice(["byte", "length", "cut", "twice", "more", "other", "short"])
        if kind == "byte" and at < len(text):
            text[at] ^= 1 << draw.randrange(8)
        elif kind == "length":
            text[at : at + 4] = struct.pack(">I", draw.choice([*NUMBERS, draw.randrange(300)]))
        elif kind == "cut":
            del text[at : at + draw.choice([1, 2, 4, 40])]
        elif kind == "twice":
            text[at:at] = text[at : at + draw.choice([1, 5, 100])]
        elif kind == "more":
            text[at:at] = draw.randbytes(draw.choice([1, 4, 64, 3000]))
        elif kind == "other":
            text[at:] = draw.choice(others)
        elif kind == "short":
            del text[at:]
    return bytes(text[: 1 << 19])


class Peer:
    """One end of a connection that nobody waits for."""

    LEAVES = 0.003

    def __init__(self, draw, connection, text):
        self.draw, self.left, self.heard = draw, bytearray(text), bytearray()
        self.socket = connection
        self.socket.setblocking(False)
        self.is_deaf = draw.random() < 0.1
        self.sizes = draw.choice([[1], [1, 3, 4, 5], [1, 16, 100, 1000], [1 << 14], [1 << 20]])
        self.is_over = False

    def step(self):
        """Sends a piece, hears one, or leaves."""
        draw = self.draw
        try:
            if self.left:
                count = self.socket.send(self.left[: draw.choice(self.sizes)])
                del self.left[:count]
            elif draw.random() < 0.02:
                self.socket.shutdown(draw.choice([socket.SHUT_WR, socket.SHUT_RDWR]))
            if not self.is_deaf:
                piece = self.socket.recv(draw.choice([1, 100, 1 << 16]))
                self.heard += piece
                self.is_over = not piece
                self.told()
        except BlockingIOError:
            pass
        except OSError:
            self.is_over = True
        if draw.random() < self.LEAVES:
            self.is_over = True
        if self.is_over:
            self.socket.close()

    def told(self):
        """A client keeps no answer."""
        self.heard.clear()


class Child(Peer):
    """A helper or a relay, which answers after a manner of its own."""

    LEAVES = 0.01
    MANNERS = ["well"] * 4 + ["twice", "reverse", "wrong kind", "wrong number", "changed", "never", "late", "ends"]

    def __init__(self, draw, started, others, counts):
        hello = string(struct.pack(">BQ", 1, started.job) + string(started.ticket))
        connection = started.peer.socket
        super().__init__(draw, connection, hello if draw.random() < 0.9 else changed(draw, hello, others))
        self.others, self.counts, self.manner, self.kept = others, counts, draw.choice(self.MANNERS), []
        self.sizes = draw.choice([[1], [1, 3, 4, 5], [1 << 14]])

    def told(self):
        while len(self.heard) >= 4:
            end = 4 + int.from_bytes(self.heard[:4], "big")
            if len(self.heard) < end:
                return
            self.answer(bytes(self.heard[4:end]))
            del self.heard[:end]

    def answer(self, body):
        draw, kind = self.draw, body[0]
        self.counts[f"asked of kind {kind}"] += 1
        (number,) = struct.unpack(">Q", body[1:9])
        answers = {SIGN: [SIGNED, SIGNED, REFUSED], VERIFY: [TRUE, TRUE, FALSE], CONFIRM: [GRANTED, GRANTED, DENIED]}
        told = draw.choice(answers[kind])
        if self.manner == "wrong kind":
            told = draw.randrange(256)
        if self.manner == "wrong number":
            number = draw.choice([0, number + 1, number - 1 & 2**64 - 1, 2**64 - 1])
        size = draw.choice([0, 1, 83, 83, 300, 20000])
        frame = string(struct.pack(">BQ", told, number) + (string(draw.randbytes(size)) if told == SIGNED else b""))
        if self.manner == "changed":
            frame = changed(draw, frame, self.others)
        if self.manner == "twice":
            frame += frame
        if self.manner == "ends":
            self.is_over = True
        elif self.manner in ("late", "reverse"):
            self.kept.append(frame)
            if len(self.kept) > 2 or draw.random() < 0.3:
                self.left += b"".join(reversed(self.kept) if self.manner == "reverse" else self.kept)
                self.kept.clear()
        elif self.manner != "never":
            self.left += frame


class Batch:
    """Peers of one agent, all drawn from one seed."""

    def __init__(self, program, seed, folder, counts):
        self.draw, self.folder, self.counts = random.Random(seed), folder, counts
        self.program, self.peers, self.taken = program, [], 0
        self.real, self.made = recordings()

    def text(self):
        draw = self.draw
        if draw.random() < 0.5:
            chosen = b"".join(draw.choices(ASKS, k=draw.choice([1, 1, 2, 9])))
        else:
            chosen = draw.choice(self.real if draw.random() < 0.6 else self.made)
        return chosen if draw.random() < 0.3 else changed(draw, chosen, self.real)

    def join(self, agent):
        """One peer more: a child that was started, one that lies, or a client."""
        draw = self.draw
        if self.taken < len(self.started) and draw.random() < 0.8:
            started = self.started[self.taken]
            self.taken += 1
            if draw.random() < 0.85:
                self.peers.append(Child(draw, started, self.made, self.counts))
                self.counts["children with a ticket"] += 1
            else:
                hello = string(struct.pack(">BQ", 1, draw.randrange(9)) + string(bytes(16)))
                lied = draw.choice([b"", self.text(), hello])
                self.peers.append(Peer(draw, started.peer.socket, lied))
                self.counts["children without"] += 1
        else:
            connection = socket.socket(socket.AF_UNIX)
            connection.setblocking(False)
            with contextlib.suppress(BlockingIOError, ConnectionRefusedError):
                connection.connect(agent.path)  # refused where too many wait
                self.peers.append(Peer(draw, connection, self.text()))
                self.counts["clients"] += 1

    def run(self, agent):
        try:
            for _ in range(STEPS):
                self.started = self.helper.all()
                if self.draw.random() < 0.003:
                    ends = self.folder / "ends"
                    ends.unlink() if ends.exists() else ends.touch()
                if len(self.peers) < PEERS and self.draw.random() < 0.3:
                    self.join(agent)
                for peer in self.draw.sample(self.peers, min(4, len(self.peers))):
                    peer.step()
                self.peers = [peer for peer in self.peers if not peer.is_over]
                self.counts["steps"] += 1
                time.sleep(0.0002)  # the agent's turn, and that of the processes that it starts
        finally:
            for peer in self.peers:
                peer.socket.close()

    def play(self, is_checked):
        """What was wrong, or None."""
        self.helper = rig.HandedOver(self.folder, "hands")
        helper = rig.script(self.folder / "helper", ENDS.format(folder=self.folder, program=self.helper.program))
        words = ["--relay", helper, "--askpass", "/bin/true"]
        with open(self.folder / "errors", "w+") as errors:
            with rig.our_agent(self.program, self.folder, *words, helper=helper, stderr=errors) as agent:
                waited = 1e9
                with contextlib.suppress(OSError, Ended), agent.peer() as quiet:
                    for body in ADDS:
                        quiet.ask(body[0], body[1:])
                    self.run(agent)
                    waited = watch.served_within(quiet)
                with contextlib.suppress(subprocess.TimeoutExpired):
                    agent.process.wait(0.01 if waited < 1e9 else 5)
                    errors.seek(0)
                    return f"the agent ended with status {agent.process.returncode}: {errors.read()[-3000:]}"
                if waited > 1:
                    return f"the quiet client waited {waited:.1f} s"
                most = watch.memory(agent.process.pid, "VmHWM")
                self.counts["kB at the most"] = max(self.counts["kB at the most"], most >> 10)
                if most > (MOST_CHECKED if is_checked else MOST_MEMORY):
                    return f"the agent took {most} bytes"
                agent.process.send_signal(signal.SIGKILL)
                agent.process.wait()
                self.helper.close()
        return None


def play(program, seed, counts, is_checked):
    with tempfile.TemporaryDirectory(prefix="mk-") as folder:
        return Batch(program, seed, pathlib.Path(folder), counts).play(is_checked)


def figures(counts, seconds, is_checked):
    """What a run was, as a page."""
    built = "linked with AddressSanitizer" if is_checked else "as it is built"
    page = ["# A run of random peers", "", "Written by `tests/fuzz.py --write`, of a run in which nothing failed.", ""]
    page += [f"- the agent: {built}", f"- seconds: {seconds:.0f}"]
    return "\n".join([*page, *[f"- {name}: {count}" for name, count in sorted(counts.items())], ""])


def main():
    parser = argparse.ArgumentParser(prog="tests/fuzz.py")
    parser.add_argument("--seconds", type=float, default=60)
    parser.add_argument("--seed", default=str(int.from_bytes(os.urandom(4), "big")))
    parser.add_argument("--checked", action="store_true", help="the agent that `rt try` links")
    parser.add_argument("--case", help="one batch, by its seed and number")
    parser.add_argument("--write", action="store_true", help="writes generated/FUZZ.md")
    words = parser.parse_args()
    program = watch.checked_agent() if words.checked else rig.there(rig.agent_program())
    counts, began = collections.Counter(), time.monotonic()
    kept = sorted(line for file in SEEDS.glob("*.seed") for line in file.read_text().split("\n")[:1])
    first = [words.case] if words.case else kept
    print(f"fuzz: seed {words.seed}, {len(first)} kept ones first, {program}", flush=True)
    number = 0
    while first or (not words.case and time.monotonic() - began < words.seconds):
        seed = first.pop(0) if first else f"{words.seed}/{number}"
        number += seed.startswith(f"{words.seed}/")
        if fault := play(program, seed, counts, words.checked):
            print(f"fuzz: {seed}: {fault}")
            file = SEEDS / (seed.replace("/", "-") + ".seed")
            if not file.exists():
                SEEDS.mkdir(exist_ok=True)
                summary = [line for line in fault.splitlines() if line.startswith("SUMMARY")]
                file.write_text(f"{seed}\n{(summary or fault.splitlines())[0]}\n")
            return 1
        counts["batches"] += 1
    if words.write:
        FIGURES.write_text(figures(counts, time.monotonic() - began, words.checked))
    told = ", ".join(f"{name} {count}" for name, count in counts.items())
    print(f"fuzz: nothing failed in {time.monotonic() - began:.0f} s: {told}; {watch.load()}")
    return 0


if __name__ == "__main__":
    try:
        sys.exit(main())
    except (rig.Skip, subprocess.SubprocessError) as reason:
        print(f"fuzz: not run: {reason}")
        sys.exit(1)
