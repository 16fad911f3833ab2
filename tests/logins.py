#!/usr/bin/env python3
"""Whatever a real server takes as a login is told as one, or as what may be one, and is signed for no other purpose. A small
SSH client has the agent sign each form of login_forms.py, and sends it to OpenSSH's sshd and the servers of
login_servers.py; thousands of messages that are changed by chance go to a server as the key itself signs them. The words
`ten thousand` and `two thousand` choose the long ones."""

import base64
import collections
import concurrent.futures
import contextlib
import dataclasses
import os
import pathlib
import subprocess
import sys

sys.dont_write_bytecode = True

from cryptography.hazmat.primitives import hashes
from cryptography.hazmat.primitives.asymmetric import ec, padding, utils
from cryptography.hazmat.primitives.serialization import Encoding, NoEncryption, PrivateFormat, load_ssh_private_key

import login_mutants
import login_servers
import rig
from frames import string, strings
from hosts import USER, certify, keygen
from login_forms import FORMS, Key, Login, field
from rig import ADD_LIMITED, FAILURE, SIGN, SIGNATURE, SUCCESS, Agent, Skip, our_agent
from ssh_client import HOST_KEYS, Client, Gone, mpint

sys.path.insert(0, str(rig.TOP))
from model.purposes import kind_of

check = rig.Checks("logins")
AGENT = rig.agent_program()
LOG = pathlib.Path(os.environ.get("LOG", rig.BUILT / "log_prog"))
FILTER = pathlib.Path(os.environ.get("FILTER", rig.BUILT / "filter_proxy"))
CONFIRM = b"\2"
ALGORITHMS = {"ed25519": (b"ssh-ed25519", 0), "rsa": (b"rsa-sha2-512", 4), "ecdsa": (b"ecdsa-sha2-nistp256", 0)}
# What WHAT of a log begins with (docs/PROTOCOL.md, "A log").
KINDS = {"login as": "login", "file in ": "file", "certific": "certificate", "may be a": "maybe", "other da": "other"}
WORDS = "login", "certificate", "other"
MANY = int(os.environ.get("LOGINS", "300"))


# Keys, by themselves and in agents.


def purposes(*words):
    return b"\xff" + string(b"purposes-v00@example.com") + string(b"".join(string(word.encode()) for word in words))


class Keys:
    """A key of each kind with a certificate: as files, as blobs, and to sign with."""

    def __init__(self, folder):
        self.authority = keygen(folder / "authority")
        self.paths = {"ed25519": keygen(folder / "ed25519"), "rsa": keygen(folder / "rsa", "rsa", 2048)}
        self.paths["ecdsa"] = keygen(folder / "ecdsa", "ecdsa")
        self.keys, self.private = {}, {}
        for kind, path in self.paths.items():
            certify(self.authority, path, "-n", USER)
            blobs = [base64.b64decode(pathlib.Path(f"{path}{end}").read_text().split()[1]) for end in (".pub", "-cert.pub")]
            self.keys[kind] = Key(*blobs, *ALGORITHMS[kind])
            self.private[kind] = load_ssh_private_key(path.read_bytes(), None)

    def sign(self, kind, message, flags):
        """A signature blob (RFC 8709, section 6; RFC 8332, section 3; RFC 5656, section 3.1.2)."""
        private = self.private[kind]
        if kind == "ed25519":
            return field(b"ssh-ed25519", private.sign(message))
        if kind == "rsa":
            name, digest = {0: (b"ssh-rsa", hashes.SHA1), 2: (b"rsa-sha2-256", hashes.SHA256)}.get(
                flags, (b"rsa-sha2-512", hashes.SHA512)
            )
            return field(name, private.sign(message, padding.PKCS1v15(), digest()))
        r, s = utils.decode_dss_signature(private.sign(message, ec.ECDSA(hashes.SHA256())))
        return field(b"ecdsa-sha2-nistp256", mpint(r) + mpint(s))

    def additions(self, kind):
        """The fields of an addition of the plain key and of its certificate (docs/PROTOCOL.md, "Keys")."""
        key, private = self.keys[kind], self.private[kind]
        certified = string(key.certified() if kind != "rsa" else b"ssh-rsa-cert-v01@openssh.com") + string(key.certificate)
        if kind == "ed25519":
            own = strings(key.blob)[1]
            seed = private.private_bytes(Encoding.Raw, PrivateFormat.Raw, NoEncryption())
            return key.blob + string(seed + own), certified + string(own) + string(seed + own)
        numbers = private.private_numbers()
        if kind == "ecdsa":
            secret = mpint(numbers.private_value)
            return key.blob + secret, certified + secret
        secret = mpint(numbers.d) + mpint(numbers.iqmp) + mpint(numbers.p) + mpint(numbers.q)
        plain = string(b"ssh-rsa") + mpint(numbers.public_numbers.n) + mpint(numbers.public_numbers.e)
        return plain + secret, certified + secret

    def add(self, agent, constraints=b""):
        with agent.peer() as peer:
            for kind in self.keys:
                for addition in self.additions(kind):
                    assert peer.ask(ADD_LIMITED, addition, string(kind.encode()), constraints) == bytes([SUCCESS])


# What a program of ours makes of a message.


class Told:
    """Agents with the keys for each purpose, one that asks about all of them, a filter for other data, and an agent without
    purposes that keeps a record."""

    def __init__(self, folder, keys, stack):
        self.folder, self.asked = folder, folder / "asked"
        self.record = open(folder / "record", "wb")
        stack.callback(self.record.close)
        self.any = stack.enter_context(our_agent(AGENT, folder, "--record", name="any", stdout=self.record))
        keys.add(self.any)
        self.agents = {}
        for word in WORDS:
            self.agents[word] = stack.enter_context(our_agent(AGENT, folder, name=word))
            keys.add(self.agents[word], purposes(word))
        asker = rig.script(folder / "asker", f"printf '%s\\n--\\n' \"$1\" >> {self.asked}; echo yes")
        words = ("--relay", rig.built("confirm_relay"), "--askpass", asker)
        self.asks = stack.enter_context(our_agent(AGENT, folder, *words, name="asks"))
        keys.add(self.asks, CONFIRM + purposes("login", "sshsig", "certificate", "other"))
        behind = stack.enter_context(our_agent(AGENT, folder, name="behind"))
        keys.add(behind)
        self.agents["filter"] = stack.enter_context(filtered(folder, behind, keys))
        self.peers = {name: stack.enter_context(agent.peer()) for name, agent in self.agents.items()}
        self.peers |= {"any": stack.enter_context(self.any.peer()), "asks": stack.enter_context(self.asks.peer())}

    def sign(self, name, blob, message, flags):
        """The signature that an agent makes, or None."""
        reply = self.peers[name].ask(SIGN, string(blob), string(message), flags.to_bytes(4, "big"))
        if reply == bytes([FAILURE]):
            return None
        assert reply[0] == SIGNATURE
        return strings(reply[1:])[0]

    def line(self, blob, message, flags):
        """The third line of the question about a message, or None where it isn't signed and nobody was asked."""
        self.asked.write_text("")
        signed = self.sign("asks", blob, message, flags)
        questions = self.asked.read_text().split("\n--\n")[:-1]
        assert len(questions) == (signed is not None), (questions, signed)
        return questions[0].split("\n")[2] if questions else None

    def logged(self):
        """What the log of the record tells of each message, in the order of the requests."""
        self.any.end()
        with open(self.folder / "record", "rb") as record:
            lines = subprocess.run([LOG], stdin=record, stdout=subprocess.PIPE, check=True, timeout=120).stdout.decode()
        return [KINDS[line.split("  ")[1][:8]] for line in lines.splitlines()]


@contextlib.contextmanager
def filtered(folder, behind, keys):
    """A filter before an agent that passes the signatures of other data with each key."""
    names = [f"{path}{end}" for path in keys.paths.values() for end in (".pub", "-cert.pub")]
    (folder / "listed").write_text("".join(pathlib.Path(name).read_text() for name in names))
    path = str(folder / "filter.sock")
    process = subprocess.Popen(
        list(map(str, [rig.there(FILTER), folder / "listed", behind.path, path, "other"])), stdin=subprocess.DEVNULL
    )
    rig.until(lambda: os.path.exists(path) and rig.listens(path, True) or process.poll() is not None, what="the filter")
    with Agent(process, path) as before:
        yield before


# Each form, at each server.


@dataclasses.dataclass(frozen=True)
class Seen:
    """What became of a form: whether the server took it, and what was signed by which of the key's blobs."""

    form: object
    took: bool
    signed: bytes
    blob: bytes
    flags: int


def at_server(server, keys, sign, forms):
    """Each form in a connection of its own, signed by a function of the blob, the text and the flags."""
    for form in forms:
        key = keys.keys[form.key]
        host_keys = ("ssh-dss",) if form.host_key == "dsa" else HOST_KEYS[:-1]
        with Client(server.port, form.banner, host_keys) as client:
            login = Login(client.session, USER.encode(), key.blob, key.algorithm)
            signed, request = form.make(login, client, key)
            flags = key.flags if form.flags is None else form.flags
            blob = key.blob if form.asked_by == "plain" else key.certificate
            signature = sign(blob, signed, flags)
            try:
                took = client.logs_in(request, signature, none(login) if server.is_silent else None)
            except (Gone, OSError):
                took = False
            yield Seen(form, took, signed, blob, flags)


def none(login):
    """A request that asks by no method (RFC 4252, section 5.2)."""
    return b"\x32" + field(login.user, login.service, b"none")


def is_by_sha1(seen):
    return seen.form.key == "rsa" and not seen.flags & 6


# What each server takes of the forms, at the least: a test that logs in nowhere shows nothing.
PLAIN = {"plain, ed25519", "plain, signed by the certificate's entry, ecdsa"}
TAKEN = {name: PLAIN for name in ("dropbear", "asyncssh", "paramiko", "twisted", "go", "libssh")}
TAKEN["dropbear"] = PLAIN | {"flag 2", "flag 255", "service b'abcdefghijklmn'"}
TAKEN["asyncssh"] = PLAIN | {"flag 2", "a zero byte more in front of e", "algorithm b''"}
TAKEN["openssh"] = PLAIN | {
    "flag 2",
    "flag 255",
    "host-bound, flag 2",
    "session without its length",
    "session without its length, flag 2",
    "certificate, signed by the plain entry, ed25519",
    "a zero byte more in front of e",
    "a blob of the type rsa",
    "host-bound, ed25519",
    "host-bound, a DSA host key",
}


def tell(server, seen, kinds):
    taken = collections.Counter(kind for each, kind in zip(seen, kinds) if each.took)
    print(f"logins: {server.version} took {sum(taken.values())} of {len(seen)} forms: {dict(sorted(taken.items()))}", flush=True)


@check
def each_form_at_sshd(folder):
    """By our agent, with log, question, purposes and filter beside each."""
    keys = Keys(folder)
    dsa = keygen(folder / "dsa_host", "dsa", 1024)
    place = login_servers.Place(folder, list(keys.paths.values()), keys.authority)
    with contextlib.ExitStack() as stack:
        told = Told(folder, keys, stack)
        server = stack.enter_context(login_servers.openssh(place, f"HostKey {dsa}", "HostKeyAlgorithms +ssh-dss"))
        seen = list(at_server(server, keys, lambda *asked: told.sign("any", *asked), FORMS))
        kinds = [kind_of(each.signed, each.blob) for each in seen]
        for each, kind in zip(seen, kinds):
            asked = each.blob, each.signed, each.flags
            name, sha1 = each.form.name, is_by_sha1(each)
            signs = {word: told.sign(word, *asked) is not None for word in (*WORDS, "filter")}
            assert not each.took or kind in ("login", "maybe"), (name, kind)
            assert not each.took or not (signs["other"] or signs["certificate"] or signs["filter"]), (name, signs)
            assert signs == {word: kind == word and not sha1 for word in WORDS} | {"filter": kind == "other" and not sha1}, (name, signs)
            lines = {"login": f"For a login as {USER}", "other": f"For other data of {len(each.signed)} bytes."}
            line = told.line(*asked)
            assert line is None if sha1 or kind == "maybe" else line.startswith(lines[kind]), (name, line)
        assert told.logged() == kinds
        tell(server, seen, kinds)
        assert TAKEN["openssh"] <= {each.form.name for each in seen if each.took}


@check
def each_form_at_other_servers(folder):
    """By the agent without purposes and its log; what a server takes is signed for none but logins."""
    forms = [form for form in FORMS if form.host_key != "dsa"]

    def case(start):
        place = folder / start.__name__
        place.mkdir()
        keys = Keys(place)
        with contextlib.ExitStack() as stack:
            told = Told(place, keys, stack)
            server = stack.enter_context(start(login_servers.Place(place, list(keys.paths.values()), keys.authority)))
            seen = list(at_server(server, keys, lambda *asked: told.sign("any", *asked), forms))
            kinds = [kind_of(each.signed, each.blob) for each in seen]
            for each, kind in zip(seen, kinds):
                if each.took:
                    assert kind in ("login", "maybe"), (server.version, each.form.name, kind)
                    signs = [told.sign(word, each.blob, each.signed, each.flags) for word in ("other", "certificate", "filter")]
                    assert signs == [None] * 3, (server.version, each.form.name)
            assert told.logged() == kinds, server.version
            tell(server, seen, kinds)
            assert TAKEN[start.__name__] <= {each.form.name for each in seen if each.took}, server.version

    def tried(start):
        with contextlib.suppress(Skip):
            case(start)
            return True

    with concurrent.futures.ThreadPoolExecutor(len(login_servers.OTHERS)) as pool:
        made = list(pool.map(tried, login_servers.OTHERS))
    if made.count(True) < 3:
        raise Skip(f"{made.count(True)} of {len(made)} servers are there")


# Messages that are changed by chance.


def mutated(folder, start, count, seed):
    """What a server took of so many is told as a login or what may be one by the model and by log_prog, and all is told
    alike by both."""
    keys = Keys(folder)
    with start(login_servers.Place(folder, list(keys.paths.values()), keys.authority)) as server:
        told = login_mutants.run(server, keys.keys, keys.sign, USER.encode(), count, seed)
    kinds = [kind_of(signed, keys.keys[name].blob) for name, signed, _ in told]
    taken = collections.Counter(kind for kind, (_, _, took) in zip(kinds, told) if took)
    print(f"logins: {server.version} took {sum(taken.values())} of {count} messages of seed {seed}: {dict(taken)}", flush=True)
    for kind, (name, signed, took) in zip(kinds, told):
        assert not took or kind in ("login", "maybe"), (name, signed.hex())
    assert taken["login"] and taken["maybe"]
    assert logged([(keys.keys[name].blob, signed) for name, signed, _ in told]) == kinds


def logged(messages):
    """What log_prog tells of messages that an agent without keys is asked to sign."""
    lines = ["join client"]
    for blob, message in messages:
        lines.append("hear 1 " + string(bytes([SIGN]) + string(blob) + string(message) + bytes(4)).hex())
    record = "".join(f"{line}\n" for line in lines).encode()
    done = subprocess.run([rig.there(LOG)], input=record, stdout=subprocess.PIPE, check=True, timeout=600)
    return [KINDS[line.split("  ")[1][:8]] for line in done.stdout.decode().splitlines()]


@check
def some_hundred_mutated_logins_at_sshd(folder):
    mutated(folder, login_servers.openssh, MANY, os.environ.get("SEED", "gate"))


@check.by_hand
def ten_thousand_mutated_logins_at_sshd(folder):
    mutated(folder, login_servers.openssh, 10000, os.environ.get("SEED", "1"))


@check.by_hand
def two_thousand_mutated_logins_at_another_server(folder):
    mutated(folder, login_servers.asyncssh, 2000, os.environ.get("SEED", "2"))


if __name__ == "__main__":
    check.main(AGENT)
