#!/usr/bin/env python3
"""Attacks on a running agent, each on sockets of its own and bounded in time: tickets that others read, helpers that
end before they say who they are, dialogs that nobody waits for, floods, crowds, a second agent at the same path, and
what an agent keeps of whoever started it. Words choose checks by a part of their names; with the environment variable
AGENT another program is taken for agent_prog."""

import base64
import contextlib
import fcntl
import hashlib
import os
import pathlib
import pwd
import random
import re
import select
import shutil
import signal
import socket
import subprocess
import sys
import tempfile
import threading
import time

sys.dont_write_bytecode = True

import rig
import watch
from frames import Ended, string
from rig import (
    ADD,
    ADD_LIMITED,
    FAILURE,
    IDENTITIES,
    LIST,
    SIGN,
    SIGNATURE,
    SUCCESS,
    Skip,
    children,
    is_alive,
    our_agent,
    run,
    stand_in_key,
    until,
    zombies,
)

sys.path[:0] = [str(rig.TOP), str(rig.TOP / "helper/tests")]

import openssh
from model import ed25519

check = rig.Checks("edge")
PROGRAM = rig.agent_program()
CLIENTS = 128
LONGEST = 262144
# What is read of a client that waits or has yet to take a reply, in bytes.
ONE_READ = 16384
TICKET = "MORTARLEEK_TICKET"
DIGITS = re.compile(rb"[0-9a-fA-F]{32}")
CONFIRM = b"\x02"


def serve(folder, *words, **more):
    return our_agent(PROGRAM, folder, *words, **more)


def add(peer, tag=b"t" * 32, constraints=b""):
    """Adds a stand-in key, and answers its blob."""
    fields, comment, blob = stand_in_key(tag)
    assert peer.ask(ADD_LIMITED if constraints else ADD, fields, comment, constraints) == bytes([SUCCESS])
    return blob


def request(blob, message=b"message"):
    return bytes([SIGN]) + string(blob) + string(message) + bytes(4)


def open_descriptors(pid):
    return {link.name: os.readlink(link) for link in pathlib.Path(f"/proc/{pid}/fd").iterdir()}


def answers(agent, blob, seconds=20):
    """The first byte of what a signature is answered, by a client of its own."""
    with agent.peer(seconds=seconds) as peer:
        peer.send(request(blob))
        return peer.reply()[0]


# Tickets.


class User:
    """An agent of another user, whose programs are root's and of mode 0711, as `make install` leaves them; and what a
    process of that user tries beside it."""

    def __init__(self, folder, ask, *words, helper="standin_helper", **more):
        if os.geteuid() != 0:
            raise Skip("only root starts programs that a user can't read")
        user = pwd.getpwnam("nobody")
        self.as_user = dict(user=user.pw_uid, group=user.pw_gid, extra_groups=[])
        folder.chmod(0o755)
        for name, source in ((helper, rig.built(helper)), ("confirm_relay", rig.built("confirm_relay")), ("agent_prog", PROGRAM)):
            shutil.copy(source, folder / name)
            (folder / name).chmod(0o711)
        self.place = folder / "run"
        self.place.mkdir()
        os.chown(self.place, user.pw_uid, user.pw_gid)
        asker = rig.script(folder / "ask", ask.format(place=self.place))
        asker.chmod(0o755)
        more = dict(helper=folder / helper, stderr=subprocess.DEVNULL, **more, **self.as_user)
        words = ["--relay", folder / "confirm_relay", "--askpass", asker, *words]
        self.agent = our_agent(folder / "agent_prog", self.place, *words, **more)
        self.helper_name = helper

    def __enter__(self):
        return self

    def __exit__(self, *_):
        self.agent.end()

    def read(self, pid, name):
        """What the user reads of a process."""
        return subprocess.run(["cat", f"/proc/{pid}/{name}"], capture_output=True, timeout=20, **self.as_user)

    def words(self, pid):
        return self.read(pid, "cmdline").stdout

    def python(self, text, *words, **more):
        """Starts a program in Python as the user."""
        more = dict(stdout=subprocess.PIPE, stderr=subprocess.PIPE, text=True, cwd="/", **more, **self.as_user)
        # Another user may not reach the one that runs this.
        python = "/usr/bin/python3" if os.path.exists("/usr/bin/python3") else sys.executable
        return subprocess.Popen([python, "-c", text, *map(str, words)], **more)

    def helper(self):
        """The helper that runs."""
        for pid in children(self.agent.process.pid):
            if self.helper_name.encode() in self.words(pid):
                return pid
        return None

    def end_helper(self):
        helper = self.helper()
        os.kill(helper, signal.SIGKILL)
        until(lambda: not is_alive(helper))

    def no_other_file(self):
        """Of what is in the user's folder nothing is named for child processes."""
        assert not list(self.place.glob("*children*")), list(self.place.iterdir())


@check
def no_process_of_the_user_reads_a_ticket(folder):
    with User(folder, "exec sleep 60") as user:
        agent, read = user.agent, user.read
        with agent.peer() as peer, agent.peer() as other:
            blob, asked = add(peer), add(peer, b"u" * 32, CONFIRM)
            assert peer.ask(request(blob)[0], request(blob)[1:])[0] == SIGNATURE
            other.send(request(asked))
            family = lambda: [pid for child in children(agent.process.pid) for pid in (child, *children(child))]
            until(lambda: len(family()) == 3, what="helper, relay and ASKPASS")
            until(lambda: b"sleep" in b"".join(map(user.words, family())), what="ASKPASS")
            for pid in (agent.process.pid, *family()):
                said, kept = read(pid, "cmdline"), read(pid, "environ")
                assert said.returncode == 0 and said.stdout, pid
                assert not DIGITS.search(said.stdout), said.stdout
                assert not DIGITS.search(kept.stdout) and TICKET.encode() not in kept.stdout, kept.stdout
                assert kept.returncode != 0 or b"sleep" in said.stdout, said.stdout
            # the attack: the helper ends, and the next one's words are read while it stands still
            user.end_helper()
            peer.send(request(blob))
            found = until(user.helper, what="the next helper")
            assert not DIGITS.search(user.words(found))
            assert peer.reply()[0] == SIGNATURE


# Takes the place of a socket for child processes, where there is one, says what comes there at the real one, and what
# comes from that on standard output.
LURE = """
import os, socket, struct, sys
path = sys.argv[1]
real = path + ".real"
try:
    os.rename(path, real)
except FileNotFoundError:
    pass
listener = socket.socket(socket.AF_UNIX)
listener.bind(path)
listener.listen()
print("ready", flush=True)
child = listener.accept()[0]
hello = child.recv(100)
agent = socket.socket(socket.AF_UNIX)
agent.connect(real)
agent.sendall(hello)
body = agent.recv(1 << 16)
print(body.hex(), flush=True)
agent.sendall(struct.pack(">IB", 9, 105) + hello[5:13])
agent.recv(1)
"""


@check
def a_lure_beside_the_agent_catches_no_helper(folder):
    with User(folder, "exit 1") as user, user.agent.peer() as peer:
        blob = add(peer)
        assert peer.ask(request(blob)[0], request(blob)[1:])[0] == SIGNATURE
        with user.python(LURE, user.agent.path + ".children") as lure:
            try:
                assert lure.stdout.readline() == "ready\n"
                user.end_helper()
                peer.send(request(blob))
                assert peer.reply()[0] == SIGNATURE, "another process took the helper's place"
                lure.terminate()
                assert lure.stdout.read() == "", "a request with its private key"
            finally:
                lure.kill()


@check
def a_lure_beside_the_agent_catches_no_relay(folder):
    with User(folder, "echo asked > {place}/asked; exit 1") as user, user.agent.peer() as peer:
        blob = add(peer, constraints=CONFIRM)
        with user.python(LURE, user.agent.path + ".children") as lure:
            try:
                assert lure.stdout.readline() == "ready\n"
                peer.send(request(blob))
                assert peer.reply() == bytes([FAILURE]), "signed, and nobody consented"
                assert (user.place / "asked").exists(), "ASKPASS never ran"
                lure.terminate()
                assert lure.stdout.read() == ""
            finally:
                lure.kill()


# Reads the last ticket of a record, and says HELLO with it wherever it can, before the helper: what comes of that.
FIRST = """
import os, re, socket, struct, sys
record, *paths = sys.argv[1:]
job, ticket = re.findall(r"started (\\d+) ([0-9a-f]{32})", open(record).read())[-1]
hello = struct.pack(">IBQI", 29, 1, int(job), 16) + bytes.fromhex(ticket)
for path in paths:
    try:
        agent = socket.socket(socket.AF_UNIX)
        agent.settimeout(2)
        agent.connect(path)
        agent.sendall(hello)
        print(agent.recv(1 << 16).hex(), flush=True)
    except OSError:
        pass
"""


@check
def a_ticket_of_a_record_is_worth_nothing(folder):
    private = bytes(range(32)).hex()
    record = folder / "record"
    with open(record, "w") as output, User(folder, "exit 1", "--record", stdout=output) as user:
        with user.agent.peer(seconds=60) as peer:
            blob = add(peer)
            assert peer.ask(request(blob)[0], request(blob)[1:])[0] == SIGNATURE
            for _ in range(3):
                user.end_helper()
                before = record.read_text().count("started ")
                peer.send(request(blob))
                helper = until(user.helper, what="the next helper")
                os.kill(helper, signal.SIGSTOP)
                until(lambda: record.read_text().count("started ") > before, what="the line of the record")
                with user.python(FIRST, record, user.agent.path + ".children", user.agent.path) as first:
                    said, errors = first.communicate(timeout=60)
                assert not errors and private not in said, "the private key"
                os.kill(helper, signal.SIGCONT)
                assert peer.reply()[0] == SIGNATURE
        user.no_other_file()


STRANGERS = """
import socket, sys, time
kept = []
for path in sys.argv[1:]:
    for _ in range(64):
        try:
            kept.append(socket.socket(socket.AF_UNIX))
            kept[-1].connect(path)
        except OSError:
            pass
print("ready", flush=True)
time.sleep(100)
"""


@check
def strangers_keep_no_helper_out(folder):
    with User(folder, "exit 1") as user, user.agent.peer() as peer:
        blob = add(peer)
        with user.python(STRANGERS, user.agent.path + ".children", user.agent.path) as strangers:
            try:
                assert strangers.stdout.readline() == "ready\n"
                for _ in range(3):
                    assert peer.ask(request(blob)[0], request(blob)[1:])[0] == SIGNATURE
                    user.end_helper()
            finally:
                strangers.kill()
        user.no_other_file()


# Takes each descriptor of the processes of its words, and lists them.
TAKES = """
import ctypes, os, sys
libc = ctypes.CDLL(None, use_errno=True)
for pid in map(int, sys.argv[1:]):
    try:
        print("listed", pid, os.listdir(f"/proc/{pid}/fd"))
    except PermissionError:
        pass
    process = os.pidfd_open(pid)
    for number in range(16):
        if libc.syscall(438, process, number, 0) >= 0:
            print("taken", pid, number)
print("tried")
"""


@check
def no_process_of_the_user_takes_a_descriptor(folder):
    with User(folder, "exec sleep 60") as user, user.agent.peer() as peer, user.agent.peer() as other:
        blob, asked = add(peer), add(peer, b"u" * 32, CONFIRM)
        assert peer.ask(request(blob)[0], request(blob)[1:])[0] == SIGNATURE
        other.send(request(asked))
        agent = user.agent.process.pid
        until(lambda: len(children(agent)) == 2, what="helper and relay")
        with user.python(TAKES, agent, *children(agent)) as takes:
            assert takes.communicate(timeout=60) == ("tried\n", "")


@check
def what_stands_in_the_agent_s_folder_can_not_consent(folder):
    """Each file that the front end leaves to its user says yes, and the program of SSH_ASKPASS no."""
    from installed import Installed

    rig.built("confirm_relay")
    installed = Installed(folder)
    asker = rig.script(folder / "ask", f"echo asked >> {folder}/asked; exit 1")
    words = dict(SSH_ASKPASS=str(asker), SSH_ASKPASS_REQUIRE="force")
    with installed.start("--stand-in", environment=words) as daemon:
        with rig.Peer(rig.connected(daemon.path)) as peer:
            blob = add(peer, constraints=CONFIRM)
            for file in pathlib.Path(daemon.path).parent.iterdir():
                if file.is_file():
                    rig.script(file, "exit 0")
            assert peer.ask(request(blob)[0], request(blob)[1:]) == bytes([FAILURE])
            assert (folder / "asked").exists()


# Programs that are swapped.


def swapped(path, source):
    """Puts another file in a program's place."""
    shutil.copy(source, f"{path}.new")
    os.rename(f"{path}.new", path)


@check
def a_helper_that_was_swapped_is_not_started(folder):
    rig.built("standin_helper")
    helper = folder / "helper"
    shutil.copy(rig.BUILT / "standin_helper", helper)
    with open(folder / "errors", "w") as errors, serve(folder, helper=helper, stderr=errors) as agent:
        with agent.peer() as peer:
            blob = add(peer)
        assert answers(agent, blob) == SIGNATURE
        (first,) = children(agent.process.pid)
        swapped(helper, rig.BUILT / "standin_helper")
        assert answers(agent, blob) == SIGNATURE, "the one that runs goes on"
        os.kill(first, signal.SIGKILL)
        until(lambda: not is_alive(first))
        for _ in range(3):
            assert answers(agent, blob) == FAILURE
        assert not children(agent.process.pid)
    told = (folder / "errors").read_text()
    assert told.count("isn't the file that it was") == 1 and str(helper) in told, told


@check
def an_upgrade_by_root_goes_on(folder):
    """The file and each folder above it are root's, and nobody else's to write: which those of /tmp aren't."""
    rig.built("standin_helper")
    if os.geteuid() != 0:
        raise Skip("it takes root")
    with tempfile.TemporaryDirectory(dir="/usr/local/lib", prefix="mk-") as place:
        helper = pathlib.Path(place) / "helper"
        shutil.copy(rig.BUILT / "standin_helper", helper)
        with serve(folder, helper=helper, stderr=subprocess.DEVNULL) as agent:
            with agent.peer() as peer:
                blob = add(peer)
            for wanted, mode in ((SIGNATURE, 0o755), (FAILURE, 0o775), (SIGNATURE, 0o755)):
                swapped(helper, rig.BUILT / "standin_helper")
                os.chmod(place, mode)
                assert answers(agent, blob) == wanted, oct(mode)
                for pid in children(agent.process.pid):
                    os.kill(pid, signal.SIGKILL)
                    until(lambda: not is_alive(pid))


@check
def a_ticket_in_the_words_is_still_taken_and_a_dash_alone_is_not(folder):
    rig.built("standin_helper")
    child = rig.Child(rig.BUILT / "standin_helper")
    assert child.end()[0] == 0
    for name in ("standin_helper", "confirm_relay", "mortarleek_signer"):
        run([rig.built(name), "-", "1", "-", "/bin/true"], 2, env={}, timeout=20, stdin=subprocess.DEVNULL)


# Helpers that end.


@check
def a_helper_that_ends_before_its_hello_stops_nobody(folder):
    with serve(folder, helper="/bin/false") as agent:
        with agent.peer(seconds=60) as peer:
            blob = add(peer)
            before = len(open_descriptors(agent.process.pid))
            for _ in range(1000):
                assert peer.ask(request(blob)[0], request(blob)[1:]) == bytes([FAILURE])
            until(lambda: zombies(agent.process.pid) <= 1, what="the reaping of ended helpers")
            until(lambda: len(open_descriptors(agent.process.pid)) <= before + 2, what="the closing of descriptors")
            assert len(peer.blobs()) == 1
        spent = rig.spent(agent.process.pid)
        time.sleep(2)
        assert rig.spent(agent.process.pid) - spent <= 0.05, "it is busy while nothing is asked"


@check
def many_that_ask_at_once_are_refused_where_each_helper_ends(folder):
    with serve(folder, helper="/bin/false") as agent:
        peers = [agent.peer(seconds=60) for _ in range(60)]
        blob = add(peers[0])
        for _ in range(3):
            for peer in peers:
                peer.send(request(blob))
            assert {peer.reply() for peer in peers} == {bytes([FAILURE])}
        for peer in peers:
            peer.close()


@check
def a_helper_that_closes_its_connection_before_its_hello_is_refused_and_ended(folder):
    helper = rig.script(folder / "helper", f"echo $$ >> {folder}/started; exec sleep 60 < /dev/null")
    with serve(folder, helper=helper) as agent:
        with agent.peer() as peer:
            blob = add(peer)
        for _ in range(3):
            assert answers(agent, blob) == FAILURE
        started = [int(pid) for pid in (folder / "started").read_text().split()]
        assert len(started) == 3
        until(lambda: not any(map(is_alive, started)) and not zombies(agent.process.pid), 8, what="the helpers' end")


@check
def a_helper_that_ends_within_its_hello_is_refused(folder):
    """Some bytes of a hello and the end are there at once, or other bytes than those of a hello."""
    for said in (r"\0", r"\0\0\0\035\1\0\0\0\0", r"\0\0\0\035\2", r"GET / HTTP/1.1\r\nHost: localhost\r\n\r\n"):
        for then in ("exit 0", "exec sleep 60"):
            helper = rig.script(folder / "helper", f"printf '{said}' >&0; {then}")
            if then != "exit 0" and said in (r"\0", r"\0\0\0\035\1\0\0\0\0"):
                continue  # that one has a minute
            with serve(folder, helper=helper) as agent, agent.peer() as peer:
                blob = add(peer)
                for _ in range(20):
                    assert peer.ask(request(blob)[0], request(blob)[1:]) == bytes([FAILURE]), said


@check
def after_helpers_that_ended_one_that_answers_is_started(folder):
    """The helper's file says each time whether it ends, and where."""
    rig.built("standin_helper")
    helper = rig.script(folder / "helper", f'[ ! -e {folder}/ends ] || exit 0; exec {rig.BUILT}/standin_helper "$@"')
    with serve(folder, helper=helper) as agent:
        with agent.peer() as peer:
            blob = add(peer)
        for _ in range(5):
            (folder / "ends").touch()
            assert answers(agent, blob) == FAILURE
            (folder / "ends").unlink()
            assert answers(agent, blob) == SIGNATURE
            (found,) = children(agent.process.pid)
            os.kill(found, signal.SIGKILL)
            until(lambda: not is_alive(found))


def ed25519_key(seed):
    """The fields of a key that can sign, and its blob."""
    kind, public = string(b"ssh-ed25519"), ed25519.public_key(seed)
    return kind + string(public) + string(seed + public), string(b"one"), kind + string(public)


@check
def a_helper_killed_at_each_of_its_system_calls_leaves_nobody_waiting(folder):
    if not shutil.which("strace"):
        raise Skip("strace isn't there")
    for name, key in (("standin_helper", stand_in_key), ("mortarleek_signer", ed25519_key)):
        killed_at_each_call(folder, rig.built(name), key)


def killed_at_each_call(folder, program, key):
    """Has a helper start and sign, and be killed at its first system call, at its second one and so on: whoever asked is
    answered, and so is who asks next."""
    place = folder / program.name
    place.mkdir()
    helper = rig.script(
        place / "helper",
        f'exec strace -f -qq -o {place}/trace -e "inject=$(cat {place}/at)" {program} "$@"',
    )
    (place / "at").write_text("all:signal=SIGKILL:when=60000")

    def end_all(agent):
        for pid in children(agent.process.pid):
            for found in (*children(pid), pid):
                with contextlib.suppress(ProcessLookupError):
                    os.kill(found, signal.SIGKILL)
            until(lambda: not is_alive(pid))

    with serve(place, helper=helper, stderr=subprocess.DEVNULL) as agent:
        with agent.peer() as peer:
            fields, comment, blob = key(b"k" * 32)
            assert peer.ask(ADD, fields, comment) == bytes([SUCCESS])
        if answers(agent, blob) != SIGNATURE:
            raise Skip("strace can't trace here")
        # strace counts the calls of each name, and meddles with none before the program runs.
        calls = re.findall(r"(?m)^\d+ +(\w+)\(", (place / "trace").read_text())
        assert len(calls) > 10, calls
        for at, name in list(enumerate(calls))[1:]:
            end_all(agent)
            (place / "at").write_text(f"{name}:signal=SIGKILL:when={calls[: at + 1].count(name)}")
            answered = answers(agent, blob)
            # Only the last ones come behind its answer.
            assert answered == FAILURE or answered == SIGNATURE and at > len(calls) - 6, (at, name, answered, calls)
        end_all(agent)
        (place / "at").write_text("all:signal=SIGKILL:when=60000")
        assert answers(agent, blob) == SIGNATURE


# Dialogs.


@check
def no_dialog_is_left_behind_a_client_that_left_nor_behind_the_agent(folder):
    rig.built("confirm_relay")
    rig.built("standin_helper")
    asker = rig.script(folder / "ask", f"echo $$ >> {folder}/asked; exec sleep 300")
    asked = lambda: [int(line) for line in (folder / "asked").read_text().split()] if (folder / "asked").exists() else []
    more = dict(helper=rig.BUILT / "standin_helper", stderr=subprocess.DEVNULL)
    with serve(folder, "--relay", rig.BUILT / "confirm_relay", "--askpass", asker, **more) as agent:
        with agent.peer() as peer:
            blob = add(peer, constraints=CONFIRM)
        for number in range(40):
            with agent.peer() as peer:
                peer.send(request(blob))
                until(lambda: len(asked()) > number, 30, what="the question")
        until(lambda: not any(map(is_alive, asked())), 30, what="the end of the dialogs")
        until(lambda: len(children(agent.process.pid)) <= 1, 30, what="the end of the relays")
        with agent.peer() as peer:
            peer.send(request(blob))
            until(lambda: len(asked()) > 40, 30, what="the question")
            agent.process.kill()
            agent.process.wait()
            until(lambda: not any(map(is_alive, asked())), 30, what="the end of the dialog")


@check
def of_sixteen_questions_one_is_shown_at_a_time(folder):
    """And one whose asker left while it waited never is."""
    rig.built("confirm_relay")
    rig.built("standin_helper")
    go, log = folder / "go", folder / "asked"
    asker = rig.script(
        folder / "ask",
        f'printf "%s\\n" "$1" | tail -n 1 >> {log}; until [ -e {go} ]; do sleep 0.05; done; rm {go}; echo yes',
    )
    asked = lambda: log.read_text().splitlines() if log.exists() else []
    more = dict(helper=rig.BUILT / "standin_helper", stderr=subprocess.DEVNULL)
    with serve(folder, "--relay", rig.BUILT / "confirm_relay", "--askpass", asker, **more) as agent:
        with agent.peer() as peer:
            blobs = [add(peer, bytes([number]) * 32, CONFIRM) for number in range(3)]
        with contextlib.ExitStack() as held:
            peers = [held.enter_context(agent.peer(seconds=60)) for _ in range(16)]
            for peer in peers:
                peer.send(request(blobs[0]))
            until(lambda: len(children(agent.process.pid)) == 16, 30, what="the relays")
            assert answers(agent, blobs[0]) == FAILURE
            for number in range(1, 17):
                until(lambda: len(asked()) == number, 30, what="the next question")
                time.sleep(0.2)
                assert len(asked()) == number, asked()
                go.touch()
                until(lambda: not go.exists(), 30, what="the answer")
            assert [peer.reply()[0] for peer in peers] == [SIGNATURE] * 16
        with contextlib.ExitStack() as held:
            peers = {blob: held.enter_context(agent.peer(seconds=60)) for blob in blobs}
            for blob, peer in peers.items():
                peer.send(request(blob))
            until(lambda: len(asked()) == 17 and len(children(agent.process.pid)) == 4, 30, what="one question and three relays")
            fingerprints = {blob: base64.b64encode(hashlib.sha256(blob).digest()).decode().rstrip("=") for blob in blobs}
            (shown,) = (blob for blob in blobs if f":{fingerprints[blob]}." in asked()[-1])
            for blob in blobs:
                if blob != shown:
                    peers[blob].close()
            until(lambda: len(children(agent.process.pid)) == 2, 30, what="the end of the others")
            go.touch()
            assert peers[shown].reply()[0] == SIGNATURE
            time.sleep(0.3)
            assert len(asked()) == 17, asked()
        assert (folder / "ours.sock.questions").stat().st_mode & 0o777 == 0o600


# Floods and crowds.

FLOOD = """
import socket, sys, threading, time
end = time.monotonic() + float(sys.argv[2])
peer = socket.socket(socket.AF_UNIX)
peer.connect(sys.argv[1])
def take():
    while peer.recv(1 << 20):
        pass
threading.Thread(target=take, daemon=True).start()
piece = b"\\0\\0\\0\\1\\x0b" * 20000
while time.monotonic() < end:
    peer.sendall(piece)
"""

CROWD = """
import socket, sys, time
end = time.monotonic() + float(sys.argv[2])
while time.monotonic() < end:
    peer = socket.socket(socket.AF_UNIX)
    peer.settimeout(1)
    try:
        peer.connect(sys.argv[1])
        peer.sendall(b"\\0\\0\\0\\1\\x0b")
    except OSError:
        pass
    peer.close()
"""


def listed(peer):
    """How long a listing takes."""
    begin = time.monotonic()
    assert peer.ask(LIST)[0] == IDENTITIES
    return time.monotonic() - begin


def comes_and_lists(agent):
    """How long it takes to connect and to list."""
    begin = time.monotonic()
    with agent.peer() as peer:
        listed(peer)
    return time.monotonic() - begin


@contextlib.contextmanager
def flooded(agent, flood, count):
    """While so many processes flood the agent, for ten seconds at most."""
    floods = [subprocess.Popen([sys.executable, "-c", flood, agent.path, "10"]) for _ in range(count)]
    time.sleep(1)
    try:
        yield
        assert floods[0].poll() is None, "the flood was over before"
    finally:
        for process in floods:
            process.kill()
            process.wait()


@check
def a_client_that_sends_without_a_pause_keeps_nobody_out(folder):
    """Each waits for the requests in one read of the other's bytes, which are three thousand here."""
    with serve(folder) as agent, agent.peer() as before:
        listed(before)
        with flooded(agent, FLOOD, 1):
            for waited in (listed(before), comes_and_lists(agent)):
                assert waited < 4, f"{waited:.2f} s"


@check
def a_flood_of_connections_keeps_out_nobody_who_is_connected(folder):
    """Who connects then waits behind those that connected before."""
    with serve(folder) as agent, agent.peer() as before:
        listed(before)
        with flooded(agent, CROWD, 2):
            for _ in range(10):
                waited = listed(before)
                assert waited < 2, f"{waited:.2f} s"


@check
def one_client_above_the_bound_waits_until_another_leaves(folder):
    with serve(folder) as agent:
        peers = [agent.peer() for _ in range(CLIENTS)]
        for peer in peers:
            assert peer.ask(LIST)[0] == IDENTITIES

        def is_idle():
            spent = rig.spent(agent.process.pid)
            time.sleep(1)
            assert rig.spent(agent.process.pid) - spent <= 0.05, "it is busy while nobody leaves"

        rig.one_more_waits(agent, peers, is_idle)


@check
def two_hundred_clients_at_once_are_served(folder):
    with serve(folder) as agent:
        found, start = [], threading.Barrier(200)

        def client():
            with agent.peer(seconds=60) as peer:
                start.wait()
                peer.send(bytes([LIST]))
                with contextlib.suppress(Ended, OSError):
                    found.append(peer.reply()[0])

        threads = [threading.Thread(target=client) for _ in range(200)]
        for thread in threads:
            thread.start()
        for thread in threads:
            thread.join()
        assert found == [IDENTITIES] * 200, len(found)


LISTS = """
import os, selectors, socket, sys, time
end = time.monotonic() + float(sys.argv[2])
piece = b"\\0\\0\\0\\1\\x0b" * 20000
waiting = selectors.DefaultSelector()
for _ in range(int(sys.argv[3])):
    peer = socket.socket(socket.AF_UNIX)
    peer.connect(sys.argv[1])
    peer.setblocking(False)
    waiting.register(peer, selectors.EVENT_READ | selectors.EVENT_WRITE, [0])
room = bytearray(1 << 20)
while time.monotonic() < end:
    for key, events in waiting.select(1):
        try:
            if events & selectors.EVENT_READ:
                key.fileobj.recv_into(room)
            if events & selectors.EVENT_WRITE:
                # Whole requests, whatever of them went before.
                sent = key.data[0] % 5
                key.data[0] = sent + key.fileobj.send(piece[sent:])
        except BlockingIOError:
            pass
"""


def filled(agent, count):
    """Adds so many keys."""
    with agent.peer() as peer:
        for number in range(count):
            add(peer, number.to_bytes(32, "big"))


@check
def a_list_beside_120_that_list_without_a_pause_is_short(folder):
    """With a thousand keys held: whoever else sends has an answer or two before it. What counts is how long the agent works
    meanwhile, which is less than the time that goes by where others have its processor."""
    helper = rig.script(folder / "helper", "exec sleep 60")
    with serve(folder, helper=helper) as agent, agent.peer(seconds=60) as before:
        filled(agent, 1000)
        floods = [
            subprocess.Popen([sys.executable, "-c", LISTS, agent.path, "60", "30"], stdin=subprocess.DEVNULL)
            for _ in range(4)
        ]
        try:
            time.sleep(3)
            waited, worked = [], []
            for _ in range(11):
                spent = watch.spent(agent.process.pid)
                waited.append(listed(before))
                worked.append(watch.spent(agent.process.pid) - spent)
            assert all(process.poll() is None for process in floods), "the flood was over before"
            for what, found in (("went by", waited), ("of its work", worked)):
                print(f"a list beside 120 that list: {sorted(found)[5]:.3f} s {what}, at most {max(found):.3f} s")
            assert sorted(worked)[5] < 0.15, worked
        finally:
            for process in floods:
                process.kill()
                process.wait()


@check
def no_key_is_listed_long_behind_its_end_whatever_is_sent_before(folder):
    """Each of twenty sends 3,200 lists at once, which take longer than the key lives."""
    helper = rig.script(folder / "helper", "exec sleep 60")
    with serve(folder, helper=helper) as agent, agent.peer() as peer:
        filled(agent, 1000)
        lists, found = string(bytes([LIST])) * 3200, []
        blob = add(peer, constraints=b"\x01" + (2).to_bytes(4, "big"))
        end = time.monotonic() + 2

        def client():
            with agent.peer(seconds=120) as mine:
                mine.socket.sendall(lists)
                with_it = without = 0
                for _ in range(3200):
                    if blob in mine.reply():
                        with_it = time.monotonic()
                    else:
                        without += 1
                found.append((with_it, without))

        threads = [threading.Thread(target=client) for _ in range(20)]
        for thread in threads:
            thread.start()
        for thread in threads:
            thread.join()
        assert len(found) == 20
        assert any(without for _, without in found), "all was over before the key's end"
        late = max(with_it for with_it, _ in found) - end
        print(f"listed last {late:.3f} s behind its end")
        assert late < 0.1, f"{late:.2f} s"


# What is told once.


@check
def pieces_of_just_what_a_read_brings_are_read_to_their_end(folder):
    """A read brings 16384 bytes: behind as many there may be more, or nothing."""
    with serve(folder) as agent, agent.peer() as peer:
        for body in (16384 - 4, 32768 - 4, 65536 - 4):
            peer.send(b"\xc8" * body)
            assert peer.reply() == bytes([FAILURE])
            peer.send(bytes([LIST]))
            assert peer.reply()[0] == IDENTITIES
        spent = rig.spent(agent.process.pid)
        time.sleep(1)
        assert rig.spent(agent.process.pid) - spent <= 0.05


@check
def what_waits_for_a_signature_costs_no_time(folder):
    """A client whose bytes fill a read, and whose first request isn't answered."""
    helper = rig.script(folder / "helper", "exec sleep 60")
    with serve(folder, helper=helper) as agent, agent.peer() as peer:
        blob = add(peer)
        first = string(request(blob))
        peer.socket.sendall(first + string(b"\xc8" * (16384 - 4 - len(first))) + string(bytes([LIST])))
        time.sleep(0.5)
        spent = rig.spent(agent.process.pid)
        time.sleep(2)
        assert rig.spent(agent.process.pid) - spent <= 0.05, "it is busy while nothing can be done"
        for pid in children(agent.process.pid):
            os.kill(pid, signal.SIGKILL)
        assert [peer.reply()[0] for _ in range(3)] == [FAILURE, FAILURE, IDENTITIES]


@check
def an_end_behind_the_last_request_is_heard(folder):
    with serve(folder) as agent:
        for count in (1, 40, 4000):
            with agent.peer() as peer:
                peer.socket.sendall(string(b"\xc8") * count)
                peer.socket.shutdown(socket.SHUT_WR)
                with contextlib.suppress(Ended):
                    for _ in range(count):
                        assert peer.reply() == bytes([FAILURE])
                assert peer.has_ended()
        until(lambda: len(open_descriptors(agent.process.pid)) < 12, what="the closing of clients' descriptors")


LONG = """
import os, socket, struct, sys
peer = socket.socket(fileno=0)
string = lambda content: struct.pack(">I", len(content)) + content
peer.sendall(string(struct.pack(">BQ", 1, int(sys.argv[2])) + string(bytes.fromhex(os.environ["MORTARLEEK_TICKET"]))))
heard = b""
while True:
    while len(heard) < 4 or len(heard) < 4 + int.from_bytes(heard[:4], "big"):
        more = peer.recv(1 << 16)
        if not more:
            sys.exit()
        heard += more
    end = 4 + int.from_bytes(heard[:4], "big")
    body, heard = heard[4:end], heard[end:]
    peer.sendall(string(struct.pack(">BQ", 101, struct.unpack(">Q", body[1:9])[0]) + string(bytes(200000))))
"""


@check
def a_long_answer_of_a_helper_arrives(folder):
    (folder / "long.py").write_text(LONG)
    helper = rig.script(folder / "helper", f'exec {sys.executable} {folder}/long.py "$@"')
    with serve(folder, helper=helper) as agent, agent.peer() as peer:
        blob = add(peer)
        for _ in range(3):
            assert len(peer.ask(request(blob)[0], request(blob)[1:])) == 1 + 4 + 200000


# What one client may make an agent hold.


def resident(agent):
    """How many bytes of an agent's memory are in use."""
    status = pathlib.Path(f"/proc/{agent.process.pid}/status").read_text()
    return int(re.search(r"VmRSS:\s+(\d+) kB", status)[1]) << 10


def rsa_blob(size):
    """The blob of an RSA key, of so many bytes."""
    return string(b"ssh-rsa") + string(b"\3") + string(b"\1" * (size - 20))


def with_large_private(number):
    """An addition with a private field of 262,000 bytes, which are zeros in front of no number."""
    fields = [number.to_bytes(4, "big"), b"\3", bytes(262000), b"", b"", b""]
    return ADD, string(b"ssh-rsa") + b"".join(map(string, fields)), string(b"")


def with_many_rules(number):
    """An addition with as many destination constraints as a message carries, each to one host of one key."""
    fields, comment, blob = stand_in_key(number.to_bytes(32, "big"))
    origin, host = string(b"") * 3, string(b"") + string(b"h") + string(b"") + string(blob) + b"\0"
    rules = string(string(origin) + string(host) + string(b"")) * 2370
    return ADD_LIMITED, fields, comment, b"\xff" + string(b"restrict-destination-v00@openssh.com") + string(rules)


def with_short_rules(number):
    """The same with hosts' keys that are as short as may be."""
    return to_one_host(number.to_bytes(32, "big"), b"h")[0]


def with_many_purposes(number):
    """An addition with as many purposes as there may be, each of the longest."""
    fields, comment, _ = stand_in_key(number.to_bytes(32, "big"))
    words = b"".join(string(b"sshsig:%0248d" % place) for place in range(64))
    return ADD_LIMITED, fields, comment, b"\xff" + string(b"purposes-v00@example.com") + string(words)


@check
def what_one_client_adds_takes_a_bounded_part_of_memory(folder):
    """Private strings, constraints and purposes have 8 MiB of room in all: what is above it is refused, and the others
    stay."""
    for made, taken in ((with_large_private, 32), (with_many_rules, 13), (with_short_rules, 9), (with_many_purposes, 407)):
        with serve(folder, name=made.__name__, helper="/bin/false") as agent, agent.peer(seconds=60) as peer:
            peer.ask(LIST)
            before, begin = resident(agent), time.monotonic()
            answers = [peer.ask(*made(number))[0] for number in range(taken + 68)]
            grown, waited = resident(agent) - before, time.monotonic() - begin
            print(f"{made.__name__}: {taken} keys, {grown / 2**20:.1f} MiB, {taken + 68} additions in {waited:.1f} s")
            assert answers == [SUCCESS] * taken + [FAILURE] * 68, answers.count(SUCCESS)
            assert len(peer.blobs()) == taken
            assert grown <= 32 << 20, grown
            assert peer.ask(*made(0))[0] == SUCCESS, "a key is replaced in a full table"


@check
def a_number_of_an_addition_has_at_most_2048_bytes(folder):
    """Behind its zeros: n, e, d, iqmp, p and q of RSA each, where one more is refused and leaves nothing."""
    longest = b"\1" + b"\xff" * 2047
    with serve(folder, helper="/bin/false") as agent, agent.peer() as peer:
        for place in range(6):
            for number, answer in ((b"\0" + longest, SUCCESS), (longest + b"\0", FAILURE)):
                fields = [number if n == place else b"\3" for n in range(6)]
                body = string(b"ssh-rsa") + b"".join(map(string, fields)), string(b"")
                assert peer.ask(ADD, *body)[0] == answer, (place, len(number))
        assert len(peer.blobs()) == 3, "by n, by e, and one whose others were replaced"


@check
def the_host_keys_of_a_connection_are_bounded_in_all(folder):
    """With a helper that says yes to all, each of 32 connections is bound to 65,536 bytes of host keys at most."""
    helper = rig.HandedOver(folder)
    try:
        with serve(folder, helper=helper.program) as agent, contextlib.ExitStack() as open_peers:
            peers = [open_peers.enter_context(agent.peer(seconds=60)) for _ in range(32)]
            peers[0].ask(LIST)
            before, child, host_key = resident(agent), None, rsa_blob(16000)
            for peer in peers:
                answers = []
                for place in range(16):
                    peer.send(session_bind(host_key, b"session %d" % place))
                    if place < 4:
                        child = child or helper.wait(1).hello()
                        child.send(b"\x67" + child.reply()[1:9])
                    answers.append(peer.reply()[0])
                assert answers == [SUCCESS] * 4 + [FAILURE] * 12, answers
            grown = resident(agent) - before
            print(f"32 connections with 16 tries of 16,000 bytes each: {grown / 2**20:.1f} MiB")
            assert grown <= 8 << 20, grown
    finally:
        helper.close()


@check
def what_a_silent_helper_is_owed_is_bounded(folder):
    """Of requests of 262,000 bytes, to a helper that says hello and reads no more, 32 have 8 MiB: all others are refused,
    also once their clients left, until the helper is lost. It takes less than the 60 seconds that a helper has."""
    helper, message = rig.HandedOver(folder), bytes(262000)

    def answered(peers):
        return select.select([peer.socket for peer in peers], [], [], 0)[0]

    try:
        with serve(folder, helper=helper.program) as agent:
            with agent.peer() as peer:
                blob = add(peer)
            before, begin = resident(agent), time.monotonic()
            for turn in range(8):
                with contextlib.ExitStack() as open_peers:
                    peers = [open_peers.enter_context(agent.peer(seconds=60)) for _ in range(40)]
                    for peer in peers:
                        peer.send(request(blob, message))
                    count = 8 if turn == 0 else 40
                    until(lambda: len(answered(peers)) >= count, 20, what=f"{count} refusals")
                    time.sleep(0.2)
                    refused = [peer for peer in peers if peer.socket in answered(peers)]
                    assert len(refused) == count, (turn, len(refused))
                    assert {peer.reply() for peer in refused} == {bytes([FAILURE])}
                if turn == 0:
                    child = helper.wait(1).hello()
            grown, took = resident(agent) - before, time.monotonic() - begin
            print(f"320 requests of 262,000 bytes, 32 of them put: {grown / 2**20:.1f} MiB, {took:.1f} s")
            assert took < 50, "the helper's time is over"
            assert grown <= 32 << 20, grown
            child.close()
            with agent.peer() as peer:
                peer.send(request(blob, message))
                asked = helper.wait(2).hello().reply()
                assert len(asked) == 25 + 100 + len(blob) + len(message), "its places are free again"
    finally:
        helper.close()


class Parts:
    """What an agent's parts take of memory, of which one is filled behind the other."""

    def __init__(self, agent):
        self.pid, self.told, self.last = agent.process.pid, [], watch.memory(agent.process.pid)

    def tell(self, what):
        """Once the agent has nothing to do."""
        watch.settled(lambda: rig.spent(self.pid))
        now = watch.memory(self.pid)
        self.told.append(f"{what} {(now - self.last) / 2**20:.1f}")
        self.last = now


def with_long_comment(size):
    """An addition with a comment of so many bytes."""
    fields, comment, _ = rig.plain_key(b"l" * 32, b"c" * size)
    return ADD, fields, comment


def fill(agent):
    """Adds keys until the 8 MiB of the table have no room, and its list is the longest, of which one asks for consent;
    answers the blob of that one."""
    with agent.peer(seconds=60) as peer:
        blob, number = add(peer, b"q" * 32, CONFIRM), 0
        while peer.ask(*with_many_rules(number))[0] == SUCCESS:
            number += 1
        assert number == 13, number
        length = LONGEST - 5 - 14 * (8 + len(blob) + 3) - 8 - len(rig.plain_key(b"l" * 32)[2])
        assert peer.ask(*with_long_comment(length + 1))[0] == FAILURE
        assert peer.ask(*with_long_comment(length))[0] == SUCCESS
    return blob


def bound_to_much(agent, helper, held, count):
    """So many clients, each bound to host keys of 65,536 bytes by a helper that says yes."""
    peers, child = [held.enter_context(agent.peer(seconds=60)) for _ in range(count)], None
    for peer in peers:
        for place in range(4):
            peer.send(session_bind(rsa_blob(16384), b"session %d" % place))
            child = child or helper.wait(1).hello()
            child.send(b"\x67" + child.reply()[1:9])
            assert peer.reply()[0] == SUCCESS
    return peers


def fill_the_link(agent):
    """Clients that bind themselves to a long host key and leave, until the helper is owed 8 MiB."""
    body = session_bind(rsa_blob(65536), b"session", b"s" * (LONGEST - 65536 - 300))
    for _ in range(3):
        with contextlib.ExitStack() as held:
            peers = [held.enter_context(agent.peer(seconds=60)) for _ in range(15)]
            for peer in peers:
                peer.send(body)
            watch.settled(lambda: rig.spent(agent.process.pid))
    with agent.peer(seconds=60) as peer:
        peer.send(body)
        assert peer.reply() == bytes([FAILURE]), "the helper is owed less"


def fill_all(agent, helper, is_recorded):
    """Fills each part of an agent, and tells what these take of memory, in MiB. Of a client that has yet to take a list
    one read is kept, so that it first leaves a list, and then half a request."""
    parts = Parts(agent)
    if is_recorded:
        with agent.peer() as peer:
            for number in range(16):
                assert peer.ask(rig.UNLOCK, string(bytes([number]) * 262000)) == bytes([FAILURE])
        parts.tell("tried passphrases")
    asked = request(fill(agent), bytes(262000))
    parts.tell("table")
    with contextlib.ExitStack() as held:
        peers = bound_to_much(agent, helper, held, CLIENTS - 16)
        parts.tell("host keys")
        fill_the_link(agent)
        parts.tell("asks of the helper")
        questions = [held.enter_context(agent.peer(seconds=60)) for _ in range(16)]
        for peer in questions:
            peer.send(asked)
        until(lambda: len(children(agent.process.pid)) == 17, 30, what="the relays")
        parts.tell("questions")
        for peer in peers:
            peer.send(bytes([LIST]))
        parts.tell("unread lists")
        half = string(bytes(LONGEST))[:-1]
        for peer in peers + questions:
            peer.socket.sendall(half[:ONE_READ])
        parts.tell("begun requests")
        for peer in peers:
            assert peer.reply()[0] == IDENTITIES
        for peer in peers:
            peer.socket.sendall(half[ONE_READ:])
        parts.tell("half requests in the place of lists")
        most = watch.memory(agent.process.pid, "VmHWM")
    return most, parts.told


# The most memory of an agent, in MiB, and of one that makes a record.
MOST_OF_ALL, MOST_RECORDED = 80, 120


@check
def an_agent_takes_a_bounded_memory_whatever_is_done_to_it(folder):
    """With as many of its parts at their bounds as can be at once: 128 clients, of which 16 wait for the user, and the
    others first leave a list and a read of their next request, and then have half of that written."""
    for name, most in ("plain", MOST_OF_ALL), ("recorded", MOST_RECORDED):
        home = folder / name
        home.mkdir()
        helper = rig.HandedOver(home)
        asker = rig.script(home / "ask", "exec sleep 60")
        words = ["--relay", rig.built("confirm_relay"), "--askpass", asker]
        words += ["--record"] if name == "recorded" else []
        try:
            with serve(home, *words, helper=helper.program, stderr=subprocess.DEVNULL) as agent:
                peak, told = fill_all(agent, helper, name == "recorded")
                print(f"{name}: at most {peak / 2**20:.1f} MiB: {', '.join(told)}")
                assert peak <= most << 20, peak
        finally:
            helper.close()


AUTHORITY = string(b"ssh-rsa") + string(b"") * 2


def certified(names):
    """The host certificate of an Ed25519 key by AUTHORITY, with these principals, good at any time."""
    texts = [string(b"ssh-ed25519-cert-v01@openssh.com"), string(b"n" * 32), string(b"k" * 32), bytes(8)]
    texts += [b"\0\0\0\2", string(b"id"), string(b"".join(map(string, names))), bytes(8), b"\xff" * 8]
    return b"".join(texts) + string(b"") * 3 + string(AUTHORITY) + string(b"x")


def to_one_host(tag, host, user=b"", key=AUTHORITY, is_authority=b"\1", size=261500):
    """An addition with as many constraints as have this size, each from the agent's host to one of this name."""
    fields, comment, blob = stand_in_key(tag)
    hop = string(user) + string(host) + string(b"") + string(key) + is_authority
    rule = string(string(string(b"") * 3) + string(hop) + string(b""))
    rules = string(b"restrict-destination-v00@openssh.com") + string(rule * (size // len(rule)))
    return (ADD_LIMITED, fields, comment, b"\xff" + rules), blob


def session_bind(host_key, session, signature=b"s", forwarding=b"\1"):
    """The request that binds a client to a host."""
    words = map(string, (b"session-bind@openssh.com", host_key, session, signature))
    return bytes([rig.EXTENSION]) + b"".join(words) + forwarding


def login(session, user, blob):
    """What a user signs by a stand-in key for a login."""
    text = string(session) + b"\x32" + string(user) + string(b"ssh-connection")
    return text + string(b"publickey") + b"\1" + string(b"keyed-sha256@example.com") + string(blob)


def bind(peer, helper, host_key, forwarding=b"\0"):
    """Binds a client to a host in the session `session`, by a helper that says yes to it."""
    peer.send(session_bind(host_key, b"session", forwarding=forwarding))
    child = helper.wait(1).hello()
    child.send(b"\x67" + child.reply()[1:9])
    assert peer.reply()[0] == SUCCESS
    return child


def processor_time(pid, call, times=5):
    """How many seconds of a process's processor time a call takes, the least of some."""
    took = []
    for _ in range(times):
        before = watch.spent(pid)
        call()
        took.append(watch.spent(pid) - before)
    return min(took)


# Names of hosts, and principals of which none takes one in but after as long a search as there is.
SEARCHES = [
    (b"a", [b"*b*"] * 146),
    (b"a" * 20, [b"*" + b"a" * 10 + b"b*"] * 60),
    (b"a" * 100, [b"*" + b"a" * 40 + b"b*"] * 21),
    (b"a" * 4096, [b"*" + b"a" * 1017 + b"b*"]),
    (b"a" * 250000, [b"*" + b"a" * 1017 + b"b*"]),
]


def filled_with_hosts(agent, host, key=AUTHORITY):
    """Adds keys for hosts of this name until the table is full, and answers how many."""
    count = 0
    with agent.peer(seconds=60) as peer:
        for size in (261500, 65536, 16384, 4096, 1024):
            while peer.ask(*to_one_host(b"hosts%27d" % count, host, key=key, size=size)[0])[0] == SUCCESS:
                count += 1
    return count


@check
def a_list_over_a_full_table_is_short_whatever_its_hosts_and_principals_are(folder):
    """Of a client that is bound to a host whose certificate has as many principals as one may."""
    for place, (host, names) in enumerate(SEARCHES):
        home = folder / str(place)
        home.mkdir()
        helper = rig.HandedOver(home)
        try:
            with serve(home, helper=helper.program) as agent, agent.peer(seconds=60) as peer:
                count = filled_with_hosts(agent, host)
                child = bind(peer, helper, certified(names))
                took = processor_time(agent.process.pid, lambda: peer.ask(LIST))
                print(f"{len(names)} principals, {count} keys for hosts of {len(host)} letters: {took:.2f} s a list")
                assert peer.blobs() == [], "none of the hosts has such a name"
                assert took <= 0.5, took
                child.close()
        finally:
            helper.close()


@check
def a_login_is_judged_shortly_whatever_its_user_is(folder):
    """Under a key with as many constraints for users as a message has, whose patterns are long."""
    helper, host_key = rig.HandedOver(folder), rsa_blob(300)
    try:
        with serve(folder, helper=helper.program) as agent, agent.peer(seconds=60) as peer:
            for place, letters in enumerate((1000, 2000, 10)):
                pattern = b"*" + b"a" * letters + b"b*"
                addition, blob = to_one_host(bytes([place]) * 32, b"h", pattern, host_key, b"\0")
                assert peer.ask(*addition)[0] == SUCCESS
                if place == 0:
                    child = bind(peer, helper, host_key)
                for size in (4096, 4097, 250000):
                    asked = request(blob, login(b"session", b"a" * size, blob))
                    took = processor_time(agent.process.pid, lambda: peer.send(asked) or peer.reply())
                    print(f"users like {len(pattern)} bytes, a user of {size} letters: {took:.2f} s a signature")
                    assert took <= 0.5, took
            child.close()
    finally:
        helper.close()


# What a signature costs the helper, which makes one after another.


def mpint(number):
    return string(number.to_bytes(number.bit_length() // 8 + 1, "big"))


def rsa_key(n, e, d, p, q, iqmp):
    """The fields of an RSA key as they are added, and its blob."""
    kind = string(b"ssh-rsa")
    return kind + b"".join(map(mpint, (n, e, d, iqmp, p, q))), string(b"one"), kind + mpint(e) + mpint(n)


def time_of_a_signature(agent, peer, key, wanted, times=5):
    """How many seconds of the helper's processor time a request with a key takes, which ends as is said."""
    fields, comment, blob = key
    assert peer.ask(ADD, fields, comment)[0] == SUCCESS
    text = request(blob)
    assert peer.ask(text[0], text[1:])[0] == wanted
    (helper,) = children(agent.process.pid)
    return processor_time(helper, lambda: peer.send(text) or peer.reply(), times)


def drawn_rsa(bits, exponent):
    """Odd numbers in the places of an RSA key's, which make no signature: of so many bits, and its exponent of so many."""
    draw = random.Random(bits + exponent)
    odd = lambda bits: draw.getrandbits(bits) | 1 << bits - 1 | 1
    p, q = odd(bits // 2), odd(bits // 2)
    return rsa_key(p * q, odd(exponent), odd(bits - 2), p, q, odd(bits // 2 - 1))


@check
def an_rsa_key_beyond_the_bounds_is_refused_before_it_costs_anything(folder):
    """As long as an addition may have it, and just beyond what the helper takes."""
    with serve(folder, helper=rig.built("mortarleek_signer"), stderr=subprocess.DEVNULL) as agent, agent.peer() as peer:
        for bits, exponent in ((16384, 16383), (16384, 17), (8208, 17), (8192, 8191), (8192, 65)):
            took = time_of_a_signature(agent, peer, drawn_rsa(bits, exponent), FAILURE)
            print(f"{bits} bits, an exponent of {exponent}: {took:.2f} s a request")
            assert took <= 0.05, took


@check
def as_many_signatures_as_may_be_asked_for_come_before_the_helper_is_given_up(folder):
    """With the dearest key, of 8192 bits and an exponent of 64: 256 within 20 of the 60 seconds that one has. Numbers within the
    bounds that are no key cost no more."""
    path = folder / "key"
    words = ["-pkeyopt", "rsa_keygen_bits:8192", "-pkeyopt", f"rsa_keygen_pubexp:{2**64 - 59}"]
    run(["openssl", "genpkey", "-quiet", "-algorithm", "RSA", *words, "-out", path], timeout=600)
    path.chmod(0o600)
    run(["ssh-keygen", "-q", "-p", "-N", "", "-f", path])
    key = openssh.read(path)
    keys = ((key.private, string(b"one"), key.blob), SIGNATURE), (drawn_rsa(8192, 64), FAILURE)
    with serve(folder, helper=rig.built("mortarleek_signer"), stderr=subprocess.DEVNULL) as agent:
        for each, wanted in keys:
            with agent.peer(seconds=60) as peer:
                took = time_of_a_signature(agent, peer, each, wanted)
            print(f"8192 bits, an exponent of 64: {took:.3f} s a request, 256 in {256 * took:.0f} s")
            assert 256 * took <= 20, took


# Hosts that nobody answers for.


@check
def a_host_s_certificate_by_sha1_binds_nobody(folder):
    """By an authority whose other signatures are taken."""
    rig.built("mortarleek_signer")
    host, authority = openssh.generate(folder, "ed25519", "256"), openssh.generate(folder, "rsa", "2048")
    session, signature = openssh.signed_text(b"a session"), openssh.signature_by_openssh(host, b"a session")
    with serve(folder, stderr=subprocess.DEVNULL) as agent:
        for algorithm, wanted in (("rsa-sha2-256", SUCCESS), ("rsa-sha2-512", SUCCESS), ("ssh-rsa", FAILURE)):
            certificate = openssh.certify(host, authority, "a.example.org", True, algorithm)
            words = map(string, (b"session-bind@openssh.com", certificate.blob, session, signature))
            with agent.peer() as peer:
                assert peer.ask(rig.EXTENSION, *words, b"\0")[0] == wanted, algorithm


# Paths, and what is inherited.


@check
def a_bind_waits_for_the_lock_beside_the_path(folder):
    path = folder / "s"
    with open(f"{path}.lock", "w") as lock:
        fcntl.flock(lock, fcntl.LOCK_EX)
        words = [PROGRAM, "serve", "-a", path, "--helper", "/bin/false"]
        with subprocess.Popen(words, stdin=subprocess.DEVNULL, stdout=subprocess.DEVNULL) as process:
            time.sleep(1)
            assert not path.exists(), "it was bound while another held the lock"
            fcntl.flock(lock, fcntl.LOCK_UN)
            until(lambda: rig.serves(path), what="the socket")
            fcntl.flock(lock, fcntl.LOCK_EX)  # nobody holds it while the agent serves
            process.terminate()
    assert (folder / "s.lock").exists()


@check
def of_agents_that_start_at_once_one_has_the_path(folder):
    for _ in range(5):
        path = folder / "s"
        words = [PROGRAM, "serve", "-a", path, "--helper", "/bin/false"]
        quiet = dict(stdin=subprocess.DEVNULL, stdout=subprocess.DEVNULL, stderr=subprocess.DEVNULL)
        agents = [subprocess.Popen(words, **quiet) for _ in range(8)]
        until(lambda: sum(agent.poll() is None for agent in agents) == 1, 60, what="one agent alone")
        with rig.Peer(rig.connected(path)) as peer:
            assert peer.ask(LIST)[0] == IDENTITIES
        assert sorted(agent.wait() for agent in agents if agent.poll() is not None) == [3] * 7
        for agent in agents:
            agent.kill()
            agent.wait()


@check
def an_agent_that_ends_takes_no_other_s_socket_away(folder):
    agent = serve(folder, "--until-idle")
    with agent.peer() as peer:
        peer.ask(LIST)
        os.unlink(agent.path)
        other = serve(folder)
    assert agent.process.wait(20) == 0
    with other:
        with other.peer() as peer:
            assert peer.ask(LIST)[0] == IDENTITIES


@check
def an_agent_keeps_neither_the_folder_nor_the_descriptors_of_its_starter(folder):
    rig.built("standin_helper")
    shutil.copy(rig.BUILT / "standin_helper", folder / "helper")
    with open(folder / "held", "w") as held:
        words = [PROGRAM, "serve", "-a", "s", "--helper", "./helper"]
        more = dict(cwd=folder, pass_fds=[held.fileno()], stdin=subprocess.DEVNULL, stdout=subprocess.DEVNULL)
        process = subprocess.Popen(words, **more)
    path = folder / "s"
    until(lambda: rig.serves(path), what="the socket")
    with rig.Agent(process, path) as agent:
        with agent.peer() as peer:
            blob = add(peer)
        assert answers(agent, blob) == SIGNATURE
        (helper,) = children(process.pid)
        for pid in (process.pid, helper):
            assert os.readlink(f"/proc/{pid}/cwd") == "/", pid
            assert str(folder) not in " ".join(open_descriptors(pid).values()), open_descriptors(pid)


@check
def a_replay_takes_no_descriptor(folder):
    """So one without a free descriptor runs too."""
    with subprocess.Popen([PROGRAM, "replay"], stdin=subprocess.PIPE, stdout=subprocess.PIPE, text=True) as process:
        process.stdin.write("join client\nhear 1 000000010b\n")
        process.stdin.flush()
        assert process.stdout.readline() == "to 1 000000050c00000000\n"
        assert sorted(open_descriptors(process.pid)) == ["0", "1", "2"]
        process.stdin.close()
        assert process.stdout.read() == "end\n"
    assert process.returncode == 0


if __name__ == "__main__":
    check.main(PROGRAM)
