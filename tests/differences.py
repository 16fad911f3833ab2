#!/usr/bin/env python3
"""What our agent answers otherwise than OpenSSH's: each case is a client's requests, put to the built agent and to
ssh-agent in the same run. Prints a table of the cases whose answers differ, as it stands in docs/DECISIONS.md beside the
reasons, and ends with 1 where that page has another one. With `--all` it prints those too that both answer alike. With
the environment variable AGENT another program is taken for agent_prog."""

import base64
import math
import pathlib
import secrets
import struct
import subprocess
import sys
import tempfile

sys.dont_write_bytecode = True

import rig
from frames import Ended, string, strings
from hosts import certify, keygen
from rig import openssh_agent, our_agent

PAGE = rig.TOP / "docs/DECISIONS.md"
RESTRICT = string(b"restrict-destination-v00@openssh.com")
BIND = string(b"session-bind@openssh.com")
HEAD = "| A client sends | Ours | OpenSSH's"
NAMES = {rig.FAILURE: "failure", rig.SUCCESS: "success", rig.SIGNATURE: "a signature"}
CASES = []


def case(what):
    """A case: a function of a client of the agent, and of what the cases share."""

    def add(function):
        CASES.append((what, function))
        return function

    return add


# Keys.


def contents(path):
    """The fields of a private key's file that OpenSSH wrote without a passphrase, as an agent is sent them: the key, its
    comment, and the public blob."""
    text = pathlib.Path(path).read_text().split("-----")[2]
    blob_at = strings_from(bytes_of(text)[len(b"openssh-key-v1\0") :], 3)
    blob, private = strings_from(blob_at[1][4:], 2)[0]
    count = {b"ssh-ed25519": 2, b"ssh-rsa": 6, b"ecdsa-sha2-nistp256": 3, b"ssh-dss": 5}
    (kind,), rest = strings_from(private[8:], 1)
    fields, _ = strings_from(rest, count[kind])
    return string(kind) + b"".join(map(string, fields)), string(b"key"), blob


def bytes_of(text):
    """What base64 text stands for."""
    return base64.b64decode(text)


def strings_from(content, count):
    """So many strings at the front of the bytes, and what follows them."""
    found = []
    for _ in range(count):
        (length,) = struct.unpack_from(">I", content)
        found.append(content[4 : 4 + length])
        content = content[4 + length :]
    return found, content


def mpint(number):
    return string(number.to_bytes(number.bit_length() // 8 + 1, "big"))


def prime(bits):
    """A probable prime with its two highest bits set."""
    while True:
        number = secrets.randbits(bits) | 3 << bits - 2 | 1
        if all(number % small for small in (3, 5, 7, 11, 13)) and all(pow(base, number - 1, number) == 1 for base in (2, 3)):
            return number


def rsa_key(bits):
    """An RSA key of so many bits, as an agent is sent it."""
    while True:
        p, q = prime(bits // 2), prime(bits // 2)
        if p != q and math.gcd(65537, (p - 1) * (q - 1)) == 1:
            break
    n, d = p * q, pow(65537, -1, (p - 1) * (q - 1))
    parts = (n, 65537, d, pow(q, -1, p), p, q)
    return string(b"ssh-rsa") + b"".join(map(mpint, parts)), string(b"key"), string(b"ssh-rsa") + mpint(65537) + mpint(n)


class Shared:
    """Keys that the cases use, and an agent of OpenSSH's that signs as hosts do."""

    def __init__(self, folder):
        self.folder = folder
        self.key = contents(keygen(folder / "key"))
        self.curve = contents(keygen(folder / "curve", "ecdsa"))
        self.dsa = contents(keygen(folder / "dsa", "dsa", 1024))
        self.authority = keygen(folder / "authority")
        self.other = keygen(folder / "other")
        self.host = keygen(folder / "host")
        self.signer = openssh_agent(folder, name="signer")
        self.signer.run("ssh-add", "-q", self.host)

    def blob(self, path):
        """The blob of a public key's file."""
        return bytes_of(pathlib.Path(path).read_text().split()[1])

    def certificate(self, *words):
        """The blob of a certificate of the host's key."""
        certify(self.authority, self.host, "-h", *words)
        return self.blob(f"{self.host}-cert.pub")

    def bind(self, session=b"session", forwarding=1, host_key=None, more=b""):
        """The content of a request to bind a connection to the host."""
        with self.signer.peer() as peer:
            blob = self.blob(f"{self.host}.pub")
            answer = peer.ask(rig.SIGN, string(blob), string(session), struct.pack(">I", 0))
        signature = strings(answer[1:])[0]
        key = host_key or blob
        return BIND + string(key) + string(session) + string(signature) + bytes([forwarding]) + more


# Requests.


def said(body):
    """What a reply says."""
    if body[0] == rig.IDENTITIES:
        (count,) = struct.unpack_from(">I", body, 1)
        return {0: "no key", 1: "a key"}.get(count, f"{count} keys")
    return NAMES.get(body[0], f"reply {body[0]}")


def asked(peer, number, *content):
    """What the agent answers, or that it closed the connection."""
    try:
        return said(peer.ask(number, *content))
    except (Ended, ConnectionResetError, BrokenPipeError):
        return "closed"


def hop(host, *keys, user=b""):
    entries = b"".join(string(blob) + bytes([authority]) for blob, authority in keys)
    return string(user) + string(host) + string(b"") + entries


def to_host(host, *keys, user=b""):
    """Destination constraints that lead from the agent's own host to another."""
    rule = string(hop(b"")) + string(hop(host, *keys, user=user)) + string(b"")
    return b"\xff" + RESTRICT + string(string(rule))


def limited(peer, key, *terms):
    return asked(peer, rig.ADD_LIMITED, key[0], key[1], *terms)


def then_lists(first, peer):
    return f"{first}, then {asked(peer, rig.LIST)}"


# What follows the last field.


@case("a list with a byte behind its number")
def _(peer, shared):
    return asked(peer, rig.LIST, b"\0")


@case("a removal of all with a byte behind its number")
def _(peer, shared):
    return asked(peer, rig.REMOVE_ALL, b"\0")


@case("a removal with a byte behind the blob")
def _(peer, shared):
    asked(peer, rig.ADD, *shared.key[:2])
    return asked(peer, rig.REMOVE, string(shared.key[2]), b"\0")


@case("a lock with a byte behind the passphrase")
def _(peer, shared):
    return asked(peer, rig.LOCK, string(b"open"), b"\0")


@case("a request to sign with a byte behind the flags")
def _(peer, shared):
    asked(peer, rig.ADD, *shared.key[:2])
    return asked(peer, rig.SIGN, string(shared.key[2]), string(b"message"), struct.pack(">I", 0), b"\0")


@case("a request to sign without its flags")
def _(peer, shared):
    asked(peer, rig.ADD, *shared.key[:2])
    return asked(peer, rig.SIGN, string(shared.key[2]), string(b"message"))


@case("a binding with a byte behind its flag")
def _(peer, shared):
    return asked(peer, rig.EXTENSION, shared.bind(more=b"\0"))


@case("number 17 with a lifetime behind the comment")
def _(peer, shared):
    return asked(peer, rig.ADD, *shared.key[:2], b"\x01", struct.pack(">I", 60))


@case("number 25 without a constraint")
def _(peer, shared):
    return limited(peer, shared.key)


# Constraints.


@case("an empty list of destination constraints")
def _(peer, shared):
    return limited(peer, shared.key, b"\xff", RESTRICT, string(b""))


@case("a destination without a key")
def _(peer, shared):
    return limited(peer, shared.key, to_host(b"host"))


@case("a destination without a host")
def _(peer, shared):
    return limited(peer, shared.key, to_host(b"", (shared.key[2], 0)))


@case("a lifetime twice")
def _(peer, shared):
    return limited(peer, shared.key, (b"\x01" + struct.pack(">I", 60)) * 2)


@case("a lifetime of 0 twice")
def _(peer, shared):
    return limited(peer, shared.key, (b"\x01" + struct.pack(">I", 0)) * 2)


@case("a confirmation twice")
def _(peer, shared):
    return limited(peer, shared.key, b"\x02\x02")


@case("destination constraints twice")
def _(peer, shared):
    return limited(peer, shared.key, to_host(b"host", (shared.key[2], 0)) * 2)


@case("an empty list of destination constraints, and then one of one")
def _(peer, shared):
    return limited(peer, shared.key, b"\xff", RESTRICT, string(b""), to_host(b"host", (shared.key[2], 0)))


@case("a lifetime of 0, and then a list")
def _(peer, shared):
    return then_lists(limited(peer, shared.key, b"\x01", struct.pack(">I", 0)), peer)


@case("the greatest lifetime, and then a list")
def _(peer, shared):
    return then_lists(limited(peer, shared.key, b"\x01\xff\xff\xff\xff"), peer)


# Sizes.


@case("a body of 262144 bytes")
def _(peer, shared):
    return asked(peer, 99, bytes(262143))


@case("a body of 262145 bytes")
def _(peer, shared):
    return asked(peer, 99, bytes(262144))


@case("a body of 0 bytes")
def _(peer, shared):
    peer.socket.settimeout(3)
    try:
        peer.send(b"")
        return said(peer.reply())
    except Ended:
        return "closed"
    except TimeoutError:
        return "nothing"


@case("three keys whose comments have 131000 bytes each, and then a list")
def _(peer, shared):
    answers = []
    for tag in range(3):
        key, _, _ = rig.plain_key(bytes([tag + 1]) * 32)
        answers.append(asked(peer, rig.ADD, key, string(b"c" * 131000)))
    return then_lists(", ".join(answers), peer)


@case("a passphrase of 100000 bytes")
def _(peer, shared):
    return asked(peer, rig.LOCK, string(b"p" * 100000))


# Keys.


@case("a DSA key")
def _(peer, shared):
    return asked(peer, rig.ADD, *shared.dsa[:2])


@case("an RSA key of 768 bits")
def _(peer, shared):
    return asked(peer, rig.ADD, *rsa_key(768)[:2])


@case("an ECDSA key whose private half belongs to no public one")
def _(peer, shared):
    fields = strings(shared.curve[0])
    return asked(peer, rig.ADD, *map(string, fields[:3]), string(bytes(40)), shared.curve[1])


@case("an RSA key with one bit of its modulus turned")
def _(peer, shared):
    kind, modulus, *more = strings(rsa_key(2048)[0])
    turned = modulus[:-1] + bytes([modulus[-1] ^ 2])
    return asked(peer, rig.ADD, *map(string, (kind, turned, *more)), string(b"key"))


@case("an Ed25519 key whose private half has another public one")
def _(peer, shared):
    kind, public, private = strings(shared.key[0])
    return asked(peer, rig.ADD, *map(string, (kind, public, private[:32] + bytes(32))), shared.key[1])


# Locks and others.


@case("a lock without a passphrase")
def _(peer, shared):
    return asked(peer, rig.LOCK, string(b""))


@case("an extension that none knows")
def _(peer, shared):
    return asked(peer, rig.EXTENSION, string(b"none@example.com"))


@case("the extension `query`")
def _(peer, shared):
    return asked(peer, rig.EXTENSION, string(b"query"))


# Bindings.


@case("a binding with an empty session")
def _(peer, shared):
    return asked(peer, rig.EXTENSION, shared.bind(session=b""))


@case("a binding with a session of 129 bytes")
def _(peer, shared):
    return asked(peer, rig.EXTENSION, shared.bind(session=b"s" * 129))


@case("a binding of a session that stands before a login")
def _(peer, shared):
    asked(peer, rig.EXTENSION, shared.bind(b"one", 1))
    asked(peer, rig.EXTENSION, shared.bind(b"two", 0))
    return asked(peer, rig.EXTENSION, shared.bind(b"one", 1))


@case("a 17th binding")
def _(peer, shared):
    for place in range(16):
        asked(peer, rig.EXTENSION, shared.bind(b"session %d" % place))
    return asked(peer, rig.EXTENSION, shared.bind(b"last"))


def after_a_bad_bind(peer, shared, content):
    limited(peer, shared.key, to_host(b"host", (shared.blob(f"{shared.host}.pub"), 0)))
    return then_lists(asked(peer, rig.EXTENSION, content), peer)


@case("a key with destination constraints, a binding that is cut off, and then a list")
def _(peer, shared):
    return after_a_bad_bind(peer, shared, BIND)


@case("a key with destination constraints, a binding with a wrong signature, and then a list")
def _(peer, shared):
    return after_a_bad_bind(peer, shared, shared.bind().replace(b"session\0", b"another\0", 1))


# Certificates.


def seen_at(peer, shared, host, authority, *words):
    """Whether a key for a host of an authority is listed over a connection that is bound by a certificate."""
    limited(peer, shared.key, to_host(host, (shared.blob(f"{authority}.pub"), 1)))
    bound = asked(peer, rig.EXTENSION, shared.bind(host_key=shared.certificate(*words), forwarding=0))
    return then_lists(bound, peer)


def certified(host, *principals):
    """The case of a certificate for these principals, or for any."""
    what = f"a certificate for {principals[0]}" if principals else "a certificate without principals"
    words = [word for name in principals for word in ("-n", name)]

    @case(f"a constraint on {host}, {what}".replace("*", "\\*"))
    def _(peer, shared):
        return seen_at(peer, shared, host.encode(), shared.authority, *words)


certified("a.example.org", "a.example.org")
certified("a.example.org", "*.example.org")
certified("*.example.org", "a.example.org")
certified("a.example.org", "A.example.org")
certified("a.example.org")


@case("a constraint on another authority")
def _(peer, shared):
    return seen_at(peer, shared, b"a.example.org", shared.other, "-n", "a.example.org")


# Additions again.


@case("a key with destination constraints, added again without any by who may see it, and then a list where it was hidden")
def _(peer, shared):
    limited(peer, shared.key, to_host(b"other", (shared.key[2], 0)))
    again = asked(peer, rig.ADD, *shared.key[:2])
    asked(peer, rig.EXTENSION, shared.bind())
    return then_lists(again, peer)


@case("a key with destination constraints, added again over a connection that doesn't see it")
def _(peer, shared):
    limited(peer, shared.key, to_host(b"other", (shared.key[2], 0)))
    asked(peer, rig.EXTENSION, shared.bind())
    return then_lists(asked(peer, rig.ADD, *shared.key[:2]), peer)


@case("a key without constraints, added again with some over a bound connection, and then a list there")
def _(peer, shared):
    asked(peer, rig.ADD, *shared.key[:2])
    asked(peer, rig.EXTENSION, shared.bind())
    return then_lists(limited(peer, shared.key, to_host(b"other", (shared.key[2], 0))), peer)


@case("a key with destination constraints, removed over a connection that doesn't see it")
def _(peer, shared):
    limited(peer, shared.key, to_host(b"other", (shared.key[2], 0)))
    asked(peer, rig.EXTENSION, shared.bind())
    return asked(peer, rig.REMOVE, string(shared.key[2]))


def answers(start, shared):
    """What an agent of its own answers in each case."""
    found = []
    for place, (_, function) in enumerate(CASES):
        with start(f"agent{place}") as agent, agent.peer() as peer:
            found.append(function(peer, shared))
    return found


def on_page():
    """The rows of the page's table, without the reasons in its last column."""
    text = PAGE.read_text()
    table = text[text.index(HEAD) :].split("\n\n")[0]
    return [line.strip("| ").split(" | ")[:3] for line in table.splitlines()[2:]]


def main(words):
    program = rig.there(rig.agent_program())
    rig.built("mortarleek_signer")
    with tempfile.TemporaryDirectory(prefix="mk-") as name:
        folder = pathlib.Path(name)
        shared = Shared(folder)
        with shared.signer:
            theirs = answers(lambda name: openssh_agent(folder, name=name, stderr=subprocess.DEVNULL), shared)
            ours = answers(lambda name: our_agent(program, folder, name=name), shared)
    all_rows = [[what, one, two] for (what, _), one, two in zip(CASES, ours, theirs)]
    differing = [row for row in all_rows if row[1] != row[2]]
    print(f"{HEAD} |\n|---|---|---|")
    for row in all_rows if "--all" in words else differing:
        print(f"| {' | '.join(row)} |")
    print(f"\n{len(differing)} cases differ, {len(all_rows) - len(differing)} are answered alike")
    if on_page() != differing:
        print(f"{PAGE.relative_to(rig.TOP)} has another table", file=sys.stderr)
        return 1
    return 0


if __name__ == "__main__":
    sys.exit(main(sys.argv[1:]))
