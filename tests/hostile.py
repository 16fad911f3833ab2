"""Hostile clients beside honest ones, for `tests/load.py --hostile`: what honest requests wait for, and what two agents
hold meanwhile. The hostile ones have the shapes of tests/edge.py."""

import array
import contextlib
import itertools
import multiprocessing
import socket
import struct
import subprocess
import sys
import time

import edge
import openssh
import rig
import watch
from frames import Ended, string
from rig import ADD, FAILURE, IDENTITIES, LIST, LOCK, SIGNATURE, SUCCESS, UNLOCK

fork = multiprocessing.get_context("fork")

# Longer than any honest request may take, in seconds: a helper that says nothing has 60.
WAIT = 600
# How much more an agent may hold behind a later round than behind those of the first half: the C library keeps pieces.
TOLERANCE = 4 << 20
# Who connects beside others that come and go waits behind all that wait at the listener, of which 16 come in between two
# polls: so this one has its turns where nobody does, and behind each scene.
COMES = "10 come and list"
STAY = ("120 that list", "dear lists and logins", "a locked agent", "asks of a slow helper")
# A number of an addition that no other one has.
OTHER = 1 << 20

# A helper that takes some hundredths of a second for each answer, and half a minute after its start answers no more.
SLOW = """
import os, socket, struct, sys, time
sys.path.insert(0, sys.argv[1])
from frames import Frames, string
peer = Frames(socket.socket(fileno=0))
hello = struct.pack(">BQ", 1, int(sys.argv[3])) + string(bytes.fromhex(os.environ["MORTARLEEK_TICKET"]))
peer.socket.sendall(string(hello))
end = time.monotonic() + 30
while time.monotonic() < end:
    body = peer.body()
    time.sleep(0.02)
    said = b"\\x65" + body[1:9] + string(b"slow") if body[0] == 1 else b"\\x67" + body[1:9]
    peer.socket.sendall(string(said))
time.sleep(3600)
"""


# Hostile clients: each function is a process's, which goes on until it is killed.


def program(path, text, *words):
    """One of the programs of tests/edge.py, for as long as it likes."""
    sys.argv[1:] = [path, "1000000", *words]
    exec(text, {"__name__": "__main__"})


def connected(path, seconds):
    """A client that waits its turn at the listener, for so many seconds at most."""
    connection = socket.socket(socket.AF_UNIX)
    connection.setsockopt(socket.SOL_SOCKET, socket.SO_SNDTIMEO, struct.pack("@ll", seconds, 0))
    connection.connect(path)
    return rig.Peer(connection, seconds=seconds)


def opened(path, first=()):
    """A client that sent some requests first, of which each was granted."""
    peer = connected(path, 3600)
    for body in first:
        peer.send(body)
        assert peer.reply()[0] == SUCCESS
    return peer


def asks(path, bodies, count, first=()):
    """So many clients, each with a request at any time."""
    peers = [opened(path, first) for _ in range(count)]
    for body in itertools.cycle(bodies):
        for peer in peers:
            peer.send(body)
        for peer in peers:
            peer.reply()


def leaves(path, body, count, pause):
    """So many clients that ask and leave unanswered, and so on."""
    while True:
        with contextlib.ExitStack() as held:
            for _ in range(count):
                held.enter_context(opened(path)).send(body)
            time.sleep(pause)


def stays(path, count):
    """So many clients with a request that is written but for its last byte."""
    peers = [opened(path) for _ in range(count)]
    for peer in peers:
        peer.socket.sendall(string(bytes(edge.LONGEST))[:-1])
    while True:
        time.sleep(3600)


def binds(path, bodies, count):
    """So many clients that bind themselves as often as it goes and once more, and leave."""
    while True:
        with contextlib.ExitStack() as held:
            peers = [held.enter_context(opened(path)) for _ in range(count)]
            for body in bodies:
                for peer in peers:
                    peer.send(body)
                for peer in peers:
                    peer.reply()


def attack(function, *words):
    """A process that is hostile; where it is thrown out it comes again."""

    def again():
        sys.stdin = None
        while True:
            with contextlib.suppress(OSError, Ended, AssertionError):
                function(*words)
            time.sleep(0.05)

    process = fork.Process(target=again, daemon=True)
    process.start()
    return process


# Honest clients.


class Honest:
    """A process that has its turns, one after another with a pause, and tells how long each took."""

    def __init__(self, kind, pause, end, begin):
        self.kind, (self.told, pipe) = kind, fork.Pipe(duplex=False)
        self.process = fork.Process(target=self.go, args=(pipe, pause, end, begin), daemon=True)
        self.process.start()
        pipe.close()

    def go(self, pipe, pause, end, begin):
        times, refused, fault = array.array("d"), 0, None
        try:
            turn = begin()
            while time.monotonic() < end:
                before = time.monotonic()
                refused += turn()
                times.append(time.monotonic() - before)
                time.sleep(pause)
        except Exception as found:
            fault = f"{type(found).__name__}: {found}"
        pipe.send((times, refused, fault))

    def hear(self):
        """The times, how many were refused, and what went wrong."""
        if not self.told.poll(WAIT + 60):
            return array.array("d"), 0, "it says nothing"
        return self.told.recv()


def peer_of(path):
    return connected(path, WAIT)


def lists(path):
    """Lists over one connection."""
    peer = peer_of(path)

    def turn():
        assert peer.ask(LIST)[0] == IDENTITIES, "no list"
        return 0

    return turn


def comes(path):
    """Connects, lists and leaves."""

    def turn():
        with peer_of(path) as peer:
            assert peer.ask(LIST)[0] == IDENTITIES, "no list"
        return 0

    return turn


def is_refused(peer, body, wanted):
    """Asks for a signature: a refusal is an answer too."""
    peer.send(body)
    answer = peer.reply()
    assert answer in (wanted, bytes([FAILURE])), f"neither signed nor refused: {answer[:20].hex()}"
    return answer == bytes([FAILURE])


def signs(path, body, wanted):
    """Has something signed over one connection."""
    peer = peer_of(path)
    return lambda: is_refused(peer, body, wanted)


# What is told.


class Waits:
    """How long the honest requests of a kind waited beside one kind of attack."""

    def __init__(self):
        self.times, self.refused = array.array("d"), 0

    def __str__(self):
        found = sorted(self.times)
        if not found:
            return "none"
        at = lambda part: f"{1000 * found[min(len(found) - 1, int(part * len(found)))]:.1f}"
        tail = f", {self.refused} refused" if self.refused else ""
        return f"{len(found)}: {at(0.5)}, {at(0.99)}, {at(1)} ms{tail}"


class Stage:
    """An agent with its honest clients, and the scenes that are played around them."""

    def __init__(self, name, agent, signing, scenes, may_refuse):
        self.name, self.agent, self.signing, self.scenes, self.may_refuse = name, agent, signing, scenes, may_refuse
        self.honest = honest_clients(agent.path, *signing)
        self.pid, self.behind, self.waits, self.most = agent.process.pid, [], {}, {}
        self.alone = watch.Held(self.pid, watch.settled(lambda: watch.descriptors(self.pid)))

    def begin(self, scene, seconds):
        """The processes of a scene."""
        hostile = [attack(*words) for words in self.scenes[scene]]
        end = time.monotonic() + seconds
        honest = [words for words in self.honest if scene in STAY or words[0] != COMES]
        return scene, hostile, [Honest(kind, pause, end, begin) for kind, pause, begin in honest]

    def finish(self, begun):
        """Ends a scene, and takes in what its honest clients tell."""
        scene, hostile, honest = begun
        faults = []
        for each in honest:
            times, refused, fault = each.hear()
            waits = self.waits.setdefault((scene, each.kind), Waits())
            waits.times.extend(times)
            waits.refused += refused
            if fault or not times:
                faults.append(f"{self.name}, {scene}: {each.kind}: {fault or 'none was answered'}")
            elif refused and scene not in self.may_refuse:
                faults.append(f"{self.name}, {scene}: {each.kind}: {refused} were refused")
        for process in hostile:
            process.kill()
        for process in (*hostile, *(each.process for each in honest)):
            process.join()
        assert not faults, "; ".join(faults)

    def look(self):
        """What the agent and its children hold at a moment."""
        found = [0, 0, 0]
        for pid in rig.children(self.pid):
            with contextlib.suppress(OSError, LookupError):
                held, open_ones = watch.memory(pid), watch.descriptors(pid)
                found = [found[0] + 1, found[1] + held, found[2] + open_ones]
        now = dict(
            memory=watch.memory(self.pid), descriptors=watch.descriptors(self.pid),
            children=found[0], held=found[1], open=found[2],
        )
        self.most = {name: max(number, self.most.get(name, 0)) for name, number in now.items()}
        return (
            f"{self.name}: {now['memory'] >> 10} kB, {now['descriptors']} descriptors; {now['children']} children: "
            f"{now['held'] >> 10} kB, {now['open']} descriptors"
        )

    def drain(self, scene):
        """Whoever connects behind a scene is served, and so are those that came before."""
        waits = self.waits.setdefault((scene, "one that comes and lists behind it"), Waits())
        before = time.monotonic()
        comes(self.agent.path)()
        waits.times.append(time.monotonic() - before)

    def settle(self):
        """What is held once all are gone, and the helper has answered what was asked before, or was given up."""
        with peer_of(self.agent.path) as peer:
            rig.until(lambda: not is_refused(peer, *self.signing), WAIT, "a signature")
        rig.until(lambda: len(rig.children(self.pid)) <= len(self.alone.processes), 120, "the end of children")
        held = watch.Held(self.pid, self.alone.descriptors)
        self.behind.append(held)
        return held

    def judge(self):
        """Whether the later rounds left more than the first ones."""
        half = (len(self.behind) + 1) // 2
        first = max(held.memory for held in self.behind[:half])
        last = max((held.memory for held in self.behind[half:]), default=first)
        assert last <= first + TOLERANCE, f"{self.name}: its memory grew from {first >> 10} to {last >> 10} kB"

    def table(self):
        for (scene, kind), waits in self.waits.items():
            yield f"{self.name}, {scene}: {kind}: {waits}"
        most = ", ".join(f"{name} {number}" for name, number in self.most.items())
        yield f"{self.name}: at most {most}, {watch.memory(self.pid, 'VmHWM') >> 10} kB at its peak"


# The stages.


def added(peer, fields, comment, constraints=b""):
    assert peer.ask(rig.ADD_LIMITED if constraints else ADD, fields, comment, constraints) == bytes([SUCCESS])


def honest_clients(path, body, wanted):
    """Each kind with its pause, and how it begins."""
    return [
        ("a list after another", 0, lambda: lists(path)),
        ("20 lists a second", 0.05, lambda: lists(path)),
        (COMES, 0.1, lambda: comes(path)),
        ("a signature after another", 0, lambda: signs(path, body, wanted)),
        ("5 signatures a second", 0.2, lambda: signs(path, body, wanted)),
    ]


def real_stage(folder, agent):
    """The proved helper, and a thousand keys in a table that is full."""
    path = agent.path
    host, authority = openssh.generate(folder, "ed25519", "256"), openssh.generate(folder, "ed25519", "256")
    _, names = edge.SEARCHES[1]
    certificate = openssh.certify(host, authority, ",".join(name.decode() for name in names), True)
    texts = [b"session %d" % place for place in range(17)]
    sessions = [(openssh.signed_text(text), openssh.signature_by_openssh(host, text)) for text in texts]
    bound = edge.session_bind(host.blob, *sessions[0], b"\0")
    certified = edge.session_bind(certificate.blob, *sessions[0], b"\0")
    with agent.peer(seconds=WAIT) as peer:
        fields, comment, blob = edge.ed25519_key(b"e" * 32)
        added(peer, fields, comment)
        question = edge.request(edge.add(peer, b"c" * 32, edge.CONFIRM))
        fields, comment, dearest = edge.drawn_rsa(8192, 64)
        added(peer, fields, comment)
        pattern = b"*" + b"a" * 1000 + b"b*"
        addition, limited = edge.to_one_host(b"l" * 32, b"h", pattern, host.blob, b"\0")
        assert peer.ask(*addition)[0] == SUCCESS
        log_in = edge.request(limited, edge.login(sessions[0][0], b"a" * 4096, limited))
        edge.filled(agent, 1000)
        count = edge.filled_with_hosts(agent, b"a" * 20, authority.blob)
        body = edge.request(blob)
        peer.send(body)
        wanted = peer.reply()
        assert wanted[0] == SIGNATURE
        assert len(peer.blobs()) == 1004 + count
        # The hostile ones tell nobody where what they need isn't given.
        for first, asked, answer in ((certified, bytes([LIST]), IDENTITIES), (bound, log_in, FAILURE)):
            with opened(path, [first]) as other:
                other.send(asked)
                assert other.reply()[0] == answer
    too_much = edge.with_large_private(OTHER), edge.with_many_rules(OTHER)
    additions = [bytes([number]) + b"".join(words) for number, *words in too_much]
    guesses = [bytes([UNLOCK]) + string(guess) for guess in (b"x" * 262000, b"secret", b"", b"y" * 4096)]
    binding = [edge.session_bind(host.blob, *session) for session in sessions]
    rsa = edge.request(dearest)
    listing = lambda times: [(program, path, edge.LISTS, "30")] * times
    dear = [(asks, path, [bytes([LIST])], 2, [certified])] + [(asks, path, [log_in], 4, [bound])]
    pipelined = [(program, path, edge.FLOOD)] * 2
    full = [(asks, path, additions, 4)]
    guessing = [(asks, path, guesses, 4)]
    halves = [(stays, path, 30)]
    crowd = [(program, path, edge.CROWD)] * 2
    bindings = [(binds, path, binding, 2), (leaves, path, question, 17, 1)]
    signing = [(asks, path, [rsa], 4)]
    leaving = [(leaves, path, rsa, 16, 0.1)]
    scenes = {
        "120 that list": listing(4),
        "dear lists and logins": dear + pipelined,
        "full table, guesses, halves, bindings, questions": full + guessing + halves + bindings,
        "a locked agent": guessing * 2 + pipelined,
        "a crowd that comes and goes": crowd,
        "all but the crowd": listing(1) + dear + pipelined + full + guessing + halves + bindings + signing,
        "dearest signatures, also of who leaves": signing + leaving,
    }
    may_refuse = {"a locked agent", "all but the crowd", "dearest signatures, also of who leaves"}
    return Stage("agent", agent, (body, wanted), scenes, may_refuse)


def slow_stage(agent):
    """A helper that is slow, and then silent."""
    path = agent.path
    wanted = bytes([SIGNATURE]) + string(b"slow")
    with agent.peer(seconds=WAIT) as peer:
        blob = edge.add(peer)
        body = edge.request(blob)
        assert not is_refused(peer, body, wanted), "its helper signs at first"
    long = edge.request(blob, bytes(262000))
    host_key = edge.rsa_blob(16000)
    bodies = [edge.session_bind(host_key, b"session %d" % place) for place in range(5)]
    scene = [(asks, path, [edge.request(blob, bytes(1000))], 20), (leaves, path, long, 20, 1), (binds, path, bodies, 8)]
    scene += [(stays, path, 20)]
    name = "asks of a slow helper"
    return Stage("slow", agent, (body, wanted), {name: scene}, {name})


def locked(stage, is_locked):
    """Locks or unlocks an agent."""
    with peer_of(stage.agent.path) as peer:
        assert peer.ask(LOCK if is_locked else UNLOCK, string(b"the passphrase")) == bytes([SUCCESS])


def round_of(real, slow, seconds, began):
    """Each scene of the one agent in turn, beside that of the other."""
    (only,) = slow.scenes
    beside = slow.begin(only, seconds)
    for scene in real.scenes:
        if scene == "a locked agent":
            locked(real, True)
        span, spent = seconds / len(real.scenes), watch.spent(real.pid)
        begun = real.begin(scene, span)
        time.sleep(span)
        spent = watch.spent(real.pid) - spent
        print(
            f"load: {(time.monotonic() - began) / 60:.1f} min, {scene}: the agent had a processor for {spent:.1f} of "
            f"{span:.0f} s; {real.look()}; {slow.look()}", flush=True,
        )
        real.finish(begun)
        real.drain(scene)
        if scene == "a locked agent":
            locked(real, False)
    slow.finish(beside)


def serve(folder, minutes):
    """Rounds of five minutes, or two shorter ones; what they left and how long honest requests took so far is printed
    behind each."""
    asker = rig.script(folder / "ask", "exec sleep 20")
    (folder / "slow.py").write_text(SLOW)
    slow = rig.script(folder / "slow", f'exec {sys.executable} -B {folder}/slow.py {rig.TOP}/tests "$@"')
    words = ["--relay", rig.built("confirm_relay"), "--askpass", asker]
    more = dict(helper=rig.built("mortarleek_signer"), stderr=subprocess.DEVNULL)
    quiet = dict(helper=slow, name="slow", stderr=subprocess.DEVNULL)
    with edge.serve(folder, *words, **more) as first, edge.serve(folder, **quiet) as second:
        stages = real_stage(folder, first), slow_stage(second)
        began, rounds = time.monotonic(), 0
        while rounds < 2 or time.monotonic() - began < 60 * minutes:
            round_of(*stages, min(300, 30 * minutes), began)
            rounds += 1
            for stage in stages:
                print(f"load: behind round {rounds}, {stage.name}: {stage.settle()}", flush=True)
                print("\n".join(f"load: {line}" for line in stage.table()), flush=True)
        for stage in stages:
            stage.judge()
    print(f"load: {rounds} rounds in {(time.monotonic() - began) / 60:.0f} minutes; {watch.load()}")
