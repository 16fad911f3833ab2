#!/usr/bin/env python3
"""Many clients that sign at once: 128, each so many times, with the helper for tests. Ten of them are processes that
are killed in the middle. Each signature is compared with that of hashlib. Or hostile clients beside honest ones.

    tests/load.py [--each N] [--minutes M]
    tests/load.py --hostile [--minutes M]

Rounds of such clients go on for so many minutes, at least one. Between rounds no client is connected: the agent then
holds no descriptor and no process more than before the first round, and no memory more than after the rounds of the
first minute. Memory has a tolerance of 128 kB: it is counted in pages, and the C library gives the last of its heap
back or keeps it, by the order in which clients leave. The last line has the figures and the machine's load; ends with 1
where something failed.

With --hostile two agents, one with a helper that is slow and then silent, are beset by each kind of client that
tests/edge.py has, in scenes that take turns. Honest clients list and sign meanwhile, each request of which has to be
answered: how long that took (median, 99th of a hundred, longest) and what agents and helpers hold is printed. Behind a
round of scenes no client is connected, no descriptor and no process is left, and of memory the later rounds leave no
more than the first ones, but for pieces that the C library keeps."""

import argparse
import hashlib
import hmac
import os
import pathlib
import random
import selectors
import subprocess
import sys
import tempfile
import time

sys.dont_write_bytecode = True

import hostile
import rig
import watch
from frames import string

CLIENTS, KILLED = 128, 10
TOLERANCE = 128 << 10
# A client that signs until it is killed; it tells each signature that it got by a dot.
SIGNS = """
import socket, sys
peer = socket.socket(socket.AF_UNIX)
peer.connect(sys.argv[1])
request = bytes.fromhex(sys.argv[2])
while True:
    peer.sendall(request)
    end = int.from_bytes(peer.recv(4, socket.MSG_WAITALL), "big")
    peer.recv(end, socket.MSG_WAITALL)
    sys.stdout.write(".")
    sys.stdout.flush()
"""


def request(blob, text):
    return bytes([rig.SIGN]) + string(blob) + string(text) + bytes(4)


def signature(text):
    mac = hmac.new(bytes(range(32)), text, hashlib.sha256).digest()
    return bytes([rig.SIGNATURE]) + string(string(b"keyed-sha256@example.com") + string(mac))


class Client:
    """Asks for one signature after another, and compares each."""

    def __init__(self, agent, blob, number, each):
        self.peer, self.blob, self.number, self.left = agent.peer(seconds=120), blob, number, each
        self.place = self.peer.socket
        self.ask()

    def ask(self):
        self.text = b"%d %d" % (self.number, self.left)
        self.peer.send(request(self.blob, self.text))

    def hear(self):
        """Takes a signature, and leaves with the last one."""
        body = self.peer.reply()
        assert body == signature(self.text), f"client {self.number}: {body.hex()}"
        self.left -= 1
        if self.left:
            self.ask()
        return 1

    def leave(self):
        self.peer.close()


class Killed:
    """A process that signs, and is killed in the middle of one of its first signatures."""

    def __init__(self, agent, blob):
        words = [sys.executable, "-c", SIGNS, agent.path, string(request(blob, b"killed")).hex()]
        self.process, self.left = subprocess.Popen(words, stdout=subprocess.PIPE), random.randrange(1, 60)
        self.place = self.process.stdout

    def hear(self):
        dots = os.read(self.place.fileno(), 100)
        assert dots, "a process that signs ended by itself"
        self.left = max(0, self.left - len(dots))
        return 0

    def leave(self):
        self.process.kill()
        self.process.wait()
        self.place.close()


def round_of(agent, blob, each):
    """All clients, from the first request to the last leaving: how many signatures were compared."""
    made = 0
    clients = [Killed(agent, blob) for _ in range(KILLED)]
    clients += [Client(agent, blob, number, each) for number in range(CLIENTS - KILLED)]
    with selectors.DefaultSelector() as ready:
        for client in clients:
            ready.register(client.place, selectors.EVENT_READ, client)
        while ready.get_map():
            found = ready.select(120)
            assert found, "nobody was answered for two minutes"
            for key, _ in found:
                made += key.data.hear()
                if not key.data.left:
                    ready.unregister(key.fileobj)
                    key.data.leave()
    return made


def serve(folder, each, minutes):
    helper = rig.built("standin_helper")
    with rig.our_agent(rig.agent_program(), folder, helper=helper, stderr=subprocess.DEVNULL) as agent:
        pid = agent.process.pid
        with agent.peer() as peer:
            fields, comment, blob = rig.stand_in_key(b"t" * 32)
            assert peer.ask(rig.ADD, fields, comment) == bytes([rig.SUCCESS])
            asked = request(blob, b"first")
            assert peer.ask(asked[0], asked[1:]) == signature(b"first")
        alone = watch.Held(pid, watch.settled(lambda: watch.descriptors(pid)))
        made, rounds, began = 0, 0, time.monotonic()
        round_of(agent, blob, 20)
        first = watch.Held(pid, alone.descriptors)
        while not rounds or time.monotonic() - began < 60 * minutes:
            made += round_of(agent, blob, each)
            rounds += 1
            last = watch.Held(pid, alone.descriptors)
            if time.monotonic() - began < 60 and minutes > 1:
                first = last
        seconds = time.monotonic() - began
    print(f"load: at first {first}; at the end {last}")
    print(
        f"load: {rounds} rounds of {CLIENTS} clients, {KILLED} of them killed: {made} signatures compared in "
        f"{seconds:.0f} s, {made / seconds:.0f} a second; {watch.load()}"
    )
    assert last.processes == alone.processes, "another helper, or more of them"
    assert last.memory <= first.memory + TOLERANCE, "the agent's memory grew"
    assert last.helpers <= first.helpers + TOLERANCE, "the helper's memory grew"


def main():
    parser = argparse.ArgumentParser(prog="tests/load.py")
    parser.add_argument("--each", type=int, default=1000, help="signatures of each client in a round")
    parser.add_argument("--minutes", type=float, default=0)
    parser.add_argument("--hostile", action="store_true", help="hostile clients beside honest ones")
    words = parser.parse_args()
    try:
        rig.there(rig.agent_program())
        with tempfile.TemporaryDirectory(prefix="mk-") as folder:
            if words.hostile:
                hostile.serve(pathlib.Path(folder), words.minutes or 1)
            else:
                serve(folder, words.each, words.minutes)
    except rig.Skip as reason:
        print(f"load: not run: {reason}")
        return 1
    return 0


if __name__ == "__main__":
    sys.exit(main())
