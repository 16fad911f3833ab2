#!/usr/bin/env python3
"""`agent_prog serve --record` under OpenSSH's clients: its record, replayed, gives each client the bytes that it got,
and has no private key and no passphrase in it; a full disk, or more tried passphrases than have room, is said when it
comes, and disturbs nobody, or with `--record-or-stop` ends the agent, which waits where the disk is full; `mortarleek-agent --record` makes a new file of
mode 0600; `mortarleek-status` tells of a record that stopped."""

import base64
import contextlib
import os
import pathlib
import re
import resource
import select
import shutil
import socket
import subprocess
import sys
import threading

sys.dont_write_bytecode = True

import rig
from frames import string
from rig import ADD, FAILURE, IDENTITIES, LIST, LOCK, SIGN, SIGNATURE, SUCCESS, UNLOCK, our_agent, run, until

check = rig.Checks("record")
PROGRAM = rig.agent_program()
PASSPHRASE = "correct horse battery"


class Tap:
    """A socket before an agent's, which keeps what each of its clients got, in the order of their connections."""

    def __init__(self, folder, behind):
        self.path, self.behind, self.got = f"{folder}/tap.sock", behind, []
        self.listener = socket.socket(socket.AF_UNIX)
        self.listener.bind(self.path)
        self.listener.listen()
        threading.Thread(target=self.serve, daemon=True).start()

    def serve(self):
        with contextlib.suppress(OSError):
            while True:
                self.pass_on(self.listener.accept()[0])

    def pass_on(self, client):
        got = bytearray()
        self.got.append(got)
        with client, rig.connected(self.behind) as agent:
            while True:
                for ready in select.select([client, agent], [], [])[0]:
                    data = ready.recv(65536)
                    if not data:
                        return
                    if ready is agent:
                        got += data
                    (agent if ready is client else client).sendall(data)


def recorded(folder, *words, helper=None):
    """An agent whose record is a file of the folder."""
    with open(f"{folder}/record", "wb") as file:
        return our_agent(PROGRAM, folder, "--record", *words, helper=helper, stdout=file)


def replayed(record, *words):
    """What each port gets when a record is replayed."""
    done = subprocess.run([str(PROGRAM), "replay", *words], input=record, stdout=subprocess.PIPE, timeout=60, check=True)
    ports = {}
    for line in done.stdout.decode().splitlines():
        match line.split(" "):
            case ["to", port, digits]:
                ports.setdefault(int(port), bytearray()).extend(bytes.fromhex(digits))
            case ["refused", *rest]:
                raise AssertionError(f"refused {rest}")
    return ports


def clients_of(record):
    """The numbers of the clients' ports."""
    joins = [line for line in record.decode().splitlines() if line.startswith("join ")]
    return [number for number, line in enumerate(joins, 1) if line == "join client"]


def is_in(secret, record):
    """A secret stands in a record as it is, in hexadecimal, or in base64 at any of its three places."""
    forms = [secret, secret.hex().encode(), secret.hex().upper().encode()]
    for lead in range(3):
        text = base64.b64encode(bytes(lead) + secret)
        forms.append(text[lead + 1 : len(text) - 4])
    heard = b"".join(bytes.fromhex(line.split(" ")[2]) for line in record.decode().splitlines() if line.startswith("hear "))
    return any(form in text for form in forms for text in (record, heard))


# Of a key's fields, how many stand before the private ones, and how many are private.
FIELDS = {b"ssh-ed25519": (1, 1), b"ssh-rsa": (2, 4), b"ecdsa-sha2-nistp256": (2, 1)}


def taken(text):
    """The string in front of a text, and what is behind it."""
    size = int.from_bytes(text[:4], "big")
    return text[4 : 4 + size], text[4 + size :]


def secrets_of(key):
    """The private fields of a key file without a passphrase (OpenSSH's PROTOCOL.key), without the zeros in front."""
    lines = key.read_text().splitlines()
    rest = base64.b64decode("".join(lines[1:-1]))[len(b"openssh-key-v1\0") :]
    for _ in range(3):
        rest = taken(rest)[1]
    rest = taken(taken(rest[4:])[1])[0][8:]
    kind, rest = taken(rest)
    before, private = FIELDS[kind]
    fields = []
    for _ in range(before + private):
        field, rest = taken(rest)
        fields.append(field.lstrip(b"\0"))
    return [field[:32] if kind == b"ssh-ed25519" else field for field in fields[before:]]


@check
def replayed_each_client_gets_its_bytes(folder):
    rig.built("mortarleek_signer")
    keys = [folder / "ed25519", folder / "rsa", folder / "ecdsa"]
    for key in keys:
        bits = {"rsa": ["-b", "2048"], "ecdsa": ["-b", "256"]}.get(key.name, [])
        run(["ssh-keygen", "-q", "-t", key.name, *bits, "-N", "", "-C", f"comment {key.name}", "-f", key])
    secrets = [secret for key in keys for secret in secrets_of(key)]
    assert len(secrets) >= 5 and all(len(secret) >= 30 for secret in secrets), [len(secret) for secret in secrets]
    askpass = rig.script(folder / "askpass", f"echo '{PASSPHRASE}'")
    (folder / "text").write_text("a text to be signed\n")
    agent = recorded(folder)
    tap = Tap(folder, agent.path)
    words = dict(SSH_AUTH_SOCK=tap.path, SSH_ASKPASS=str(askpass), SSH_ASKPASS_REQUIRE="force", DISPLAY=":0")
    do = lambda *command, status=0: run(command, status, env=dict(os.environ, **words), stdin=subprocess.DEVNULL)
    do("ssh-add", *keys)
    do("ssh-add", "-l")
    for key in keys:
        do("ssh-keygen", "-q", "-Y", "sign", "-n", "file", "-f", f"{key}.pub", folder / "text")
        (folder / "text.sig").unlink()
    do("ssh-add", "-x")
    do("ssh-add", "-l", status=1)
    do("ssh-add", "-X")
    do("ssh-add", "-d", keys[0])
    do("ssh-add", "-t", "1h", keys[0])
    do("ssh-add", "-D")
    agent.end()
    record = (folder / "record").read_bytes()
    ports, clients = replayed(record), clients_of(record)
    assert len(clients) == len(tap.got), (clients, len(tap.got))
    for port, got in zip(clients, tap.got):
        assert ports.get(port, b"") == got, f"port {port}: {bytes(got).hex()} came, {bytes(ports.get(port, b'')).hex()} replayed"
    assert b"comment rsa".hex().encode() in record
    for secret in [*secrets, PASSPHRASE.encode()]:
        assert not is_in(secret, record), f"{secret.hex()} stands in the record"


@check
def a_full_disk_disturbs_nobody(folder):
    with open("/dev/full", "wb") as full:
        helper = rig.BUILT / "standin_helper"
        said = dict(stdout=full, stderr=subprocess.PIPE)
        agent = our_agent(PROGRAM, folder, "--record", "--until-idle", helper=helper, **said)
    # That is said when it comes.
    assert b"nothing more is recorded" in agent.process.stderr.readline()
    fields, comment, blob = rig.plain_key(b"t" * 32)
    with agent.peer() as peer:
        assert peer.ask(ADD, fields, comment)[0] == SUCCESS
        assert [found for found, _ in peer.blobs()] == [blob]
        assert peer.ask(LOCK, string(b"pw"))[0] == SUCCESS
        assert peer.ask(LIST)[0] == IDENTITIES
    assert agent.process.wait(20) == 7
    assert agent.process.stderr.read() == b"mortarleek: the output could not be written\n"


# A program whose files may be limited: a write above the limit fails then, and no signal ends it.
LIMITED = ("sh", "-c", "trap '' XFSZ; exec \"$@\"", "sh")


def fill_up(process, record):
    """The record has no room for another byte."""
    resource.prlimit(process, resource.RLIMIT_FSIZE, (record.stat().st_size,) * 2)


@check
def with_record_or_stop_nothing_is_signed_unseen(folder):
    helper, record = rig.BUILT / "standin_helper", folder / "record"
    words = ("--record", "--record-or-stop")
    with open(record, "wb") as file:
        agent = our_agent(PROGRAM, folder, *words, helper=helper, limits=LIMITED, stdout=file, stderr=subprocess.PIPE)
    fields, comment, blob = rig.stand_in_key(b"t" * 32)
    asked = (SIGN, string(blob), string(b"data"), bytes(4))
    with agent.peer() as peer:
        assert peer.ask(ADD, fields, comment)[0] == SUCCESS
        assert peer.ask(*asked)[0] == SIGNATURE
        # What that reply took is told before the next is heard.
        assert peer.ask(LIST)[0] == IDENTITIES
        fill_up(agent.process.pid, record)
        before = record.read_bytes()
        peer.send(bytes([SIGN]) + b"".join(asked[1:]))
        assert peer.has_ended()
    assert agent.process.wait(20) == 8
    said = agent.process.stderr.read().decode().splitlines()
    assert len(said) == 2 and "nothing more is recorded" in said[0] and said[1].endswith("and the agent with it"), said
    assert record.read_bytes() == before


def signs(peer, blob):
    """Whether the agent answers a request for a signature within two seconds."""
    peer.send(bytes([SIGN]) + string(blob) + string(b"data") + bytes(4))
    peer.socket.settimeout(2)
    try:
        return peer.reply()[0] == SIGNATURE
    except TimeoutError:
        return False
    finally:
        peer.socket.settimeout(20)


@check
def on_a_full_disk_it_waits_with_its_keys(folder):
    """A disk of 64 kB, which root can mount."""
    disk = folder / "disk"
    disk.mkdir()
    if subprocess.run(["mount", "-t", "tmpfs", "-o", "size=64k", "tmpfs", disk], stderr=subprocess.DEVNULL).returncode:
        raise rig.Skip("no disk can be mounted here")
    try:
        record, words = disk / "record", ("--record", "--record-or-stop")
        with open(record, "wb") as file:
            agent = our_agent(PROGRAM, folder, *words, helper=rig.BUILT / "standin_helper", stdout=file, stderr=subprocess.PIPE)
        fields, comment, blob = rig.stand_in_key(b"t" * 32)
        with agent.peer() as peer:
            assert peer.ask(ADD, fields, comment)[0] == SUCCESS
            assert signs(peer, blob)
            for _ in range(2):
                with contextlib.suppress(OSError), open(disk / "other", "wb", buffering=0) as other:
                    while True:
                        other.write(bytes(512))
                # What is left of the last page of the record is used up by what comes of requests.
                while signs(peer, blob):
                    pass
                assert b"no room for the record" in agent.process.stderr.readline()
                assert agent.process.poll() is None
                (disk / "other").unlink()
                assert peer.reply()[0] == SIGNATURE
                assert b"there is room for the record again" in agent.process.stderr.readline()
            assert [found for found, _ in peer.blobs()] == [blob]
        agent.end()
        # It is whole: nothing is missing where it waited.
        assert replayed(record.read_bytes())[1].count(bytes([SIGNATURE])) > 3
    finally:
        run(["umount", "-l", disk])


@check
def from_the_first_line_on_too(folder):
    words = [str(PROGRAM), "serve", "-a", f"{folder}/s", "--helper", "helper", "--record-or-stop"]
    with open("/dev/full", "wb") as full:
        ended = subprocess.run([*words, "--record"], stdout=full, stderr=subprocess.DEVNULL, timeout=20, check=False)
    assert ended.returncode == 8, ended
    assert subprocess.run(words, stderr=subprocess.DEVNULL, timeout=20, check=False).returncode == 2


@check
def what_is_not_served_is_told_by_its_number(folder):
    agent = recorded(folder, helper=rig.BUILT / "standin_helper")
    pin = b"a PIN of 20 bytes .."
    with agent.peer() as peer:
        for number in (20, 21, 26, 7, 24, 3, 255):
            assert peer.ask(number, string(b"reader"), string(pin))[0] == FAILURE
        # What the last of them took is told before the next is heard.
        assert peer.ask(LIST)[0] == IDENTITIES
    agent.end()
    record = (folder / "record").read_bytes()
    assert not is_in(pin, record) and b"hear 1 0000000114\n" in record, record
    refusals = (b"\0\0\0\1" + bytes([FAILURE])) * 7
    assert replayed(record)[1][: len(refusals)] == refusals


# The longest passphrase of a message; so many of them have room, and one more of so many bytes.
LONGEST, FULL, LEFT = 262139, 15, 261195
NO_ROOM = b"mortarleek: no room for more passphrases that were tried: nothing more is recorded\n"


def tries(peer, *places):
    """One guess after another, each of the longest."""
    for place in places:
        assert peer.ask(UNLOCK, string(bytes([place]) * LONGEST))[0] == FAILURE


@check
def more_passphrases_than_are_kept_end_the_record(folder):
    words = dict(helper=rig.BUILT / "standin_helper", stderr=subprocess.PIPE)
    with open(folder / "record", "wb") as file:
        agent = our_agent(PROGRAM, folder, "--record", "--until-idle", stdout=file, **words)
    said = agent.process.stderr
    with agent.peer() as peer:
        tries(peer, *range(FULL), 3)
        until(lambda: b"hear 1 0000000617000000013" in (folder / "record").read_bytes(), what="the record")
        assert not select.select([said], [], [], 0)[0], said.readline()
        assert peer.ask(UNLOCK, string(bytes(LEFT + 1)))[0] == FAILURE
        # That is said when it comes, and once.
        assert said.readline() == NO_ROOM
        tries(peer, FULL + 1)
        assert peer.ask(LIST)[0] == IDENTITIES
    assert agent.process.wait(20) == 7
    assert said.read() == b"mortarleek: the output could not be written\n"
    record = (folder / "record").read_bytes()
    told = [line for line in record.splitlines() if line.startswith(b"hear ")]
    assert len(told) == FULL + 1 and told[FULL] == told[3], told
    assert len(replayed(record)[1]) == 5 * (FULL + 1)


@check
def with_record_or_stop_they_end_the_agent(folder):
    words = dict(helper=rig.BUILT / "standin_helper", stderr=subprocess.PIPE)
    with open(folder / "record", "wb") as file:
        agent = our_agent(PROGRAM, folder, "--record", "--record-or-stop", stdout=file, **words)
    with agent.peer() as peer:
        tries(peer, *range(FULL))
        peer.send(bytes([UNLOCK]) + string(bytes([FULL]) * LONGEST))
        assert peer.has_ended()
    assert agent.process.wait(20) == 8
    said = agent.process.stderr.read()
    assert said == NO_ROOM + b"mortarleek: the record ended, and the agent with it\n", said


@check
def without_the_word_nothing_is_written(folder):
    with open(folder / "output", "wb") as file:
        agent = our_agent(PROGRAM, folder, "--until-idle", helper=rig.BUILT / "standin_helper", stdout=file)
    with agent.peer() as peer:
        assert peer.ask(LIST)[0] == IDENTITIES
    assert agent.process.wait(20) == 0
    assert (folder / "output").read_bytes() == b""


@check
def the_front_end_makes_a_new_file(folder):
    place = folder / "place"
    place.mkdir()
    rig.lay_scripts(place)
    for name in ("agent_prog", "standin_helper"):
        shutil.copy(rig.built(name), place)
    words = [place / "mortarleek-agent", "--stand-in", "--record", "new", "-T"]
    environment = dict(os.environ, TMPDIR=str(folder))
    # Of the last client an agent that is ended may leave the reply out, so there are two.
    listed = run([*words, "sh", "-c", "ssh-add -l; ssh-add -l"], 1, env=environment, cwd=folder)
    assert "no identities" in listed, listed
    record = folder / "new"
    assert record.stat().st_mode & 0o777 == 0o600
    until(lambda: not list(folder.glob("mortarleek-*")), what="the end of the agent")
    lines = record.read_text().splitlines()
    assert lines[0] == "schedule 2" and "join client" in lines, lines
    assert IDENTITIES in [got[4] for got in replayed(record.read_bytes()).values()], lines
    before = record.read_bytes()
    said = run([*words, "ssh-add", "-l"], 1, env=environment, cwd=folder)
    assert "new file" in said, said
    assert record.read_bytes() == before
    run([place / "mortarleek-agent", "--record", "other", "-k"], 1, env=environment, cwd=folder)
    assert not pathlib.Path(folder / "other").exists()


def status_tells_once(folder, stop):
    """What `mortarleek-status` tells of an agent whose record ends with this call."""
    place, record = folder / "place", folder / "new"
    place.mkdir(parents=True)
    rig.lay_scripts(place)
    for name in ("agent_prog", "standin_helper", "add_tool"):
        shutil.copy(rig.built(name), place)
    environment = dict(os.environ, TMPDIR=str(folder))
    command = [*LIMITED, place / "mortarleek-agent", "--stand-in", "--record", record, "-T", "-s"]
    told = dict(re.findall(r"(\w+)=([^;]+);", run(command, env=environment, cwd=folder)))
    environment |= told
    try:
        line = "not recorded: what happens now"
        said = run([place / "mortarleek-status"], env=environment)
        assert f"record: {record}\n" in said and line not in said, said
        stop(told, record)
        # The first try may write a front of a line.
        run([place / "add_tool", "-l"], 1, env=environment)
        said = run([place / "mortarleek-status"], env=environment)
        assert f"record: {record}\n{line}" in said, said
    finally:
        run([place / "mortarleek-agent", "-k"], env=environment)


@check
def status_tells_of_a_record_that_stopped(folder):
    def fill(told, record):
        guard = int(told["SSH_AGENT_PID"])
        for child in pathlib.Path(f"/proc/{guard}/task/{guard}/children").read_text().split():
            fill_up(int(child), record)

    def guess(told, _record):
        with rig.Peer(rig.connected(told["SSH_AUTH_SOCK"])) as peer:
            tries(peer, *range(FULL + 1))

    status_tells_once(folder / "full", fill)
    status_tells_once(folder / "guessed", guess)


@check
def a_refusal_is_recorded_too(folder):
    agent = recorded(folder, helper=rig.BUILT / "standin_helper")
    with agent.peer() as peer:
        assert peer.ask(200)[0] == FAILURE
    with agent.peer() as peer:
        peer.socket.sendall(bytes.fromhex("00040001"))
        assert peer.has_ended()
    agent.end()
    lines = (folder / "record").read_text().splitlines()
    assert "hear 1 00000001c8" in lines and "take 1 5" in lines and "hear 2 00040001" in lines, lines


if __name__ == "__main__":
    check.main(PROGRAM)
