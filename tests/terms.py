#!/usr/bin/env python3
"""The built terms_relay: OpenSSH's ssh-add adds keys of every form that it reads for two uses, by the relay and by
mortarleek add, and each is used three times; what passes, each exit status, and the socket that is gone. Words choose
checks by a part of their names. With the environment variable TERMS another program is taken for terms_relay."""

import os
import pathlib
import socket
import subprocess
import sys
import threading
import time

sys.dont_write_bytecode = True

import rig
from frames import Ended, Frames, string
from installed import Installed, Keys, keygen
from rig import openssh_agent, our_agent, run

check = rig.Checks("terms")
PROGRAM = pathlib.Path(os.environ.get("TERMS", rig.BUILT / "terms_relay"))
LONGEST = 262144
ADD, LIMITED, FAILURE, SUCCESS = 17, 25, 5, 6


def uses(count):
    return b"\xff" + string(b"uses-v00@example.com") + count.to_bytes(4, "big")


def purposes(*words):
    return b"\xff" + string(b"purposes-v00@example.com") + string(b"".join(string(word) for word in words))


class Recorder:
    """An agent that answers additions as done and all else as refused, or as it is told, and keeps what it gets."""

    def __init__(self, path, answer=None):
        self.path, self.bodies, self.answer = path, [], answer
        self.listener = socket.socket(socket.AF_UNIX)
        self.listener.bind(str(path))
        self.listener.listen()
        threading.Thread(target=self.serve, daemon=True).start()

    def serve(self):
        while True:
            client = Frames(self.listener.accept()[0])
            try:
                while True:
                    body = client.body()
                    self.bodies.append(body)
                    done = string(bytes([SUCCESS if body[0] in (ADD, LIMITED) else FAILURE]))
                    answer = done if self.answer is None else self.answer
                    if answer == b"":
                        break
                    client.socket.sendall(answer)
            except (Ended, OSError):
                pass
            client.socket.close()


class Relay:
    """A relay before the agent at a path, and a client of it."""

    def __init__(self, folder, agent, count=2, name="relay", words=None):
        folder.chmod(0o700)
        self.path = folder / name
        self.process = subprocess.Popen(
            [rig.there(PROGRAM), *(words or ["-u", str(count)]), self.path, agent],
            stdin=subprocess.DEVNULL,
            stdout=subprocess.PIPE,
            stderr=subprocess.PIPE,
            text=True,
        )
        self.line = self.process.stdout.readline()

    def connect(self):
        peer = socket.socket(socket.AF_UNIX)
        peer.connect(str(self.path))
        return peer

    def end(self, status):
        _, said = self.process.communicate(timeout=20)
        assert self.process.returncode == status, (self.process.returncode, said)
        assert not self.path.exists()
        return said


def talk(folder, agent, sent, status, name, count=2, words=None):
    """What the relay gives back to a client that sends these bytes and ends."""
    relay = Relay(folder, agent, count, name, words)
    assert relay.line == "listens\n", relay.process.communicate()
    with relay.connect() as peer:
        peer.sendall(sent)
        peer.shutdown(socket.SHUT_WR)
        heard = b""
        while more := peer.recv(1 << 16):
            heard += more
    relay.end(status)
    return heard


@check
def what_is_passed_on(folder):
    agent = Recorder(folder / "agent")
    cases = (
        (bytes([ADD]) + b"fields", bytes([LIMITED]) + b"fields" + uses(2)),
        (bytes([LIMITED]) + b"fields\x02", bytes([LIMITED]) + b"fields\x02" + uses(2)),
        (b"\x0b", b"\x0b"),
        (b"\x0d" + b"fields", b"\x0d" + b"fields"),
        (bytes([ADD]), bytes([LIMITED]) + uses(2)),
        (b"\x1b" * (LONGEST), b"\x1b" * LONGEST),
        (bytes([ADD]) * (LONGEST - 29), bytes([LIMITED]) + bytes([ADD]) * (LONGEST - 30) + uses(2)),
    )
    for place, (body, becomes) in enumerate(cases):
        agent.bodies.clear()
        heard = talk(folder, agent.path, string(body), 0, f"r{place}")
        assert agent.bodies == [becomes], (place, agent.bodies[:1])
        assert heard == string(bytes([SUCCESS if body[0] in (ADD, LIMITED) else FAILURE])), heard
    # several at once are answered in turn
    agent.bodies.clear()
    heard = talk(folder, agent.path, b"".join(string(body) for body, _ in cases[:4]), 0, "many")
    assert agent.bodies == [becomes for _, becomes in cases[:4]] and heard == string(b"\6") * 2 + string(b"\5") * 2
    assert talk(folder, agent.path, b"", 0, "none") == b""


@check
def purposes_become_a_constraint(folder):
    agent = Recorder(folder / "agent")
    many = [word for number in range(64) for word in ("-p", f"sshsig:{number}")]
    for place, (words, behind) in enumerate(
        (
            (["-p", "login"], purposes(b"login")),
            (["-p", "sshsig:git", "-p", "other", "-p", "sshsig"], purposes(b"sshsig:git", b"other", b"sshsig")),
            (["-p", "certificate"], purposes(b"certificate")),
            (["-p", "sshsig:my own", "-u", "7", "-p", "login"], uses(7) + purposes(b"sshsig:my own", b"login")),
            (["-p", "sshsig:" + "n" * 248], purposes(b"sshsig:" + b"n" * 248)),
            (many, purposes(*(b"sshsig:%d" % number for number in range(64)))),
        )
    ):
        agent.bodies.clear()
        talk(folder, agent.path, string(bytes([ADD]) + b"fields") + string(b"\x0b"), 0, f"p{place}", words=words)
        assert agent.bodies == [bytes([LIMITED]) + b"fields" + behind, b"\x0b"], (words, agent.bodies)
    key = keygen(folder / "key")
    first = Relay(folder, agent.path, name="first", words=["-p", "login"])
    run(["ssh-add", "-q", key], env=dict(os.environ, SSH_AUTH_SOCK=str(first.path)))
    first.end(0)
    body = agent.bodies[-1]
    agent.bodies.clear()
    assert talk(folder, agent.path, string(body), 4, "again", words=["-p", "other"]) == b"" and agent.bodies == []
    assert talk(folder, agent.path, string(body), 0, "beside") == string(b"\6") and agent.bodies == [body + uses(2)]
    for words, why in (
        (["-p", "git"], "each is login"),
        (["-p", "sshsig:"], "each is login"),
        (["-p", ""], "each is login"),
        (["-u", "2", "-p", "login", "-p", "other", "-p", "login"], "twice"),
        (["-p", "sshsig:" + "n" * 249], "255 bytes"),
        ([*many, "-p", "login"], "64"),
    ):
        relay = Relay(folder, agent.path, name="none", words=words)
        said = relay.end(11)
        assert relay.line == "" and "the purposes are refused" in said and why in said, said


@check
def each_end_has_its_status(folder):
    agent = Recorder(folder / "agent")
    for sent, status in (
        (string(b""), 1),
        ((LONGEST + 1).to_bytes(4, "big"), 1),
        (string(bytes([ADD]) * (LONGEST - 28)), 3),
        (b"\0\0\0", 8),
        (string(b"\x0b")[:-1], 8),
    ):
        agent.bodies.clear()
        assert talk(folder, agent.path, sent, status, f"s{status}{len(sent)}") == b"" and agent.bodies == []
    for place, (answer, status) in enumerate(((string(b""), 9), (b"\xff\xff\xff\xff", 9), (b"", 10))):
        other = Recorder(folder / f"agent{place}", answer)
        assert talk(folder, other.path, string(b"\x0b"), status, f"t{place}") == b""
    relay = Relay(folder, folder / "nowhere", name="lost")
    assert relay.line == ""
    relay.end(7)
    for words in ([], ["-u", "2", "a"], ["-u", "0", "a", "b"], ["-u", "2", "-t", "5", "a", "b"], ["a", "b"], ["-u", "2", "-c", "a", "b"]):
        done = subprocess.run([rig.there(PROGRAM), *words], stderr=subprocess.PIPE, stdin=subprocess.DEVNULL, text=True)
        assert done.returncode == 2 and "usage" in done.stderr, (words, done)


@check
def a_term_that_is_there_already_is_refused_before_anything_is_sent(folder):
    agent = Recorder(folder / "agent")
    key = keygen(folder / "key")
    first = Relay(folder, agent.path, 3, "first")
    run(["ssh-add", "-q", key], env=dict(os.environ, SSH_AUTH_SOCK=str(first.path)))
    first.end(0)
    (body,) = agent.bodies
    assert body[:1] == bytes([LIMITED]) and body.endswith(uses(3))
    agent.bodies.clear()
    assert talk(folder, agent.path, string(body), 4, "again") == b"" and agent.bodies == []


@check
def the_socket_is_gone_with_the_first_connection(folder):
    agent = Recorder(folder / "agent")
    relay = Relay(folder, agent.path)
    with relay.connect() as peer:
        peer.sendall(string(b"\x0b"))
        assert Frames(peer).body() == bytes([FAILURE])
        assert not relay.path.exists()
    relay.end(0)
    began = time.monotonic()
    relay = Relay(folder, agent.path)
    relay.end(6)
    assert 9 < time.monotonic() - began < 15


def forms(folder):
    """Keys of each form that ssh-add reads, by what is added."""
    keys = Keys(folder)
    modern = keygen(folder / "pkcs8", "-m", "PKCS8", kind="ecdsa")
    environment = {"HOME": str(keys.home), "SSH_ASKPASS": str(keys.asker), "SSH_ASKPASS_REQUIRE": "force"}
    return environment, (keys.locked, keys.old, modern, keys.certified, keys.plain, "-"), keys


@check
def a_key_of_every_form_gets_the_terms(folder):
    environment, keys, own = forms(folder)
    agent = Recorder(folder / "agent")
    for place, key in enumerate(keys):
        for more, behind in (([], b""), (["-t", "60", "-c"], b"\x01\0\0\0\x3c\x02")):
            agent.bodies.clear()
            relay = Relay(folder, agent.path, name=f"k{place}{len(more)}")
            text = own.plain.read_text() if key == "-" else None
            run(
                ["ssh-add", *more, key],
                env=dict(os.environ, **environment, SSH_AUTH_SOCK=str(relay.path)),
                **(dict(input=text) if text else dict(stdin=subprocess.DEVNULL)),
            )
            relay.end(0)
            added = [body for body in agent.bodies if body[0] in (ADD, LIMITED)]
            assert len(added) == (2 if key == own.certified else 1), (key, len(added))
            assert all(body[0] == LIMITED and body.endswith(behind + uses(2)) for body in added), key


@check
def a_key_of_every_form_for_two_uses_is_used_twice(folder):
    environment, keys, own = forms(folder)
    installed = Installed(folder)
    environment = dict(installed.environment, **environment)
    with our_agent(rig.there(rig.agent_program()), folder) as agent:
        environment.update(SSH_AUTH_SOCK=agent.path)
        for key in keys:
            said = run(
                [installed.add, "--any-agent", "-u", "2", *([] if key == "-" else ["-v"]), key],
                env=environment,
                **(dict(input=own.plain.read_text()) if key == "-" else dict(stdin=subprocess.DEVNULL)),
            )
            assert "The key may be used 2 times" in said, said
            public = f"{own.plain if key == '-' else key}.pub"
            for status in (0, 0, 1):
                run(["ssh-add", "-T", public], None if status else 0, env=environment)
            assert pathlib.Path(public).read_text().split()[1] not in run(["ssh-add", "-L"], None, env=environment), key
            run(["ssh-add", "-D"], None, env=environment)
        assert not [path for path in installed.temporary.iterdir() if "add" in path.name]


@check
def a_number_goes_to_no_agent_that_may_pass_over_it(folder):
    environment, keys, own = forms(folder)
    installed = Installed(folder)
    with openssh_agent(folder) as other:
        environment = dict(installed.environment, **environment, SSH_AUTH_SOCK=other.path)
        said = run([installed.add, "-u", "2", own.locked], 1, env=environment)
        assert "--any-agent" in said and "no identities" in run(["ssh-add", "-l"], 1, env=environment), said
        run([installed.add, "-u", "2", "--any-agent", own.locked], 1, env=environment)
        assert "no identities" in run(["ssh-add", "-l"], 1, env=environment)


if __name__ == "__main__":
    check.main(PROGRAM)
