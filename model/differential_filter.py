#!/usr/bin/env python3
"""Random clients and agents on both sides of the built filter, over sockets, beside the model: each side is sent the same
bytes, a connection to the agent behind is made and given back at the same piece, and a pair is closed at the same one.
More pairs are open than may keep a connection over which nothing is owed.

    model/differential_filter.py FILTER [RUNS [SEED]]
    model/differential_filter.py --wrong [RUNS [SEED]]

The second tries wrong models, each of which has to differ.
"""

from __future__ import annotations

import base64
import os
import random
import socket
import struct
import subprocess
import sys
import tempfile
import time
from collections import Counter
from pathlib import Path

if not __package__:
    sys.dont_write_bytecode = True
    sys.path.insert(0, str(Path(__file__).resolve().parents[1]))

from model.filter import BIND, Links, Pair
from model.wire import Reader, string, uint32

# More pairs than may keep a spare connection, and fewer than may have one at once, so that nobody waits for a place.
PAIRS, PIECES, PATIENCE = 48, 1200, 20.0

# What a filter that waits for an answer leaves in the socket has to fit there. Python's own time limit would wait until
# three quarters of the socket are free, and a piece counts until all of it was read: so the kernel's limit is used.
MOST_UNREAD = 50000
SENDING = struct.pack("ll", int(PATIENCE), 0)


def key(tag: int) -> bytes:
    return string(b"ssh-ed25519") + string(bytes([tag]) * 32)


LISTED, OTHER = [key(tag) for tag in range(1, 6)], [key(tag) for tag in range(6, 11)]
LISTED += [string(b"ssh-rsa") + string(b"\x03") + string(b"\x01" * 256)]


def line_of(listed: bytes) -> str:
    """The line of a list of keys."""
    return f"{Reader(listed).string().decode()} {base64.b64encode(listed).decode()} c\n"


def algorithm_of(signer: bytes) -> bytes:
    """By which a login names the key."""
    return b"rsa-sha2-512" if signer == LISTED[-1] else b"ssh-ed25519"


# The purposes of one filter after another: none are given to the first.
PURPOSES: tuple[tuple[str, ...], ...] = ((), ("login", "sshsig:git"), ("sshsig",), ("other", "sshsig:file"), ("certificate",))


def given(words: tuple[str, ...]) -> set[bytes] | None:
    return {word.encode() for word in words} or None


def blob(dice: random.Random) -> bytes:
    """A key that is listed, one that isn't, or one that begins or ends as a listed one does."""
    listed = dice.choice(LISTED)
    return dice.choice((listed, listed, dice.choice(OTHER), listed[:-1], listed + b"\0", b""))


def message(dice: random.Random, blob: bytes) -> bytes:
    """What a key may be asked to sign: a login with it or with another key, by one method or the other, to a host whose key
    is read or not, a file in a namespace, a certificate, other data; and at times a byte more, fewer or another."""
    kind, user = dice.randrange(5), dice.choice((b"", b"u", b"user"))
    text = dice.randbytes(dice.choice((0, 3, 40, 20000)))
    if kind == 0:
        host = dice.choice((b"", string(LISTED[0]), string(b"none")))
        method = b"publickey-hostbound-v00@openssh.com" if host else b"publickey"
        signer = dice.choice((blob, blob, blob, LISTED[0]))
        text = string(dice.randbytes(32)) + bytes([50]) + string(user) + string(b"ssh-connection")
        text += string(method) + bytes([dice.choice((1, 1, 1, 2))]) + string(algorithm_of(signer)) + string(signer) + host
    elif kind == 1:
        digested, size = dice.choice(((b"sha256", 32), (b"sha512", 64), (b"sha512", 32)))
        namespace = dice.choice((b"git", b"git", b"gi", b"file", b""))
        text = b"SSHSIG" + string(namespace) + string(b"") + string(digested) + string(dice.randbytes(size))
    elif kind == 2:
        text = string(b"ssh-ed25519" + dice.choice((b"-cert-v01@openssh.com", b"-cert-v02@openssh.com"))) + text
    if text and dice.random() < 0.1:
        place = dice.randrange(len(text))
        text = dice.choice((text + b"\0", text[:-1], text[:place] + dice.randbytes(1) + text[place + 1 :]))
    return text


def request(dice: random.Random) -> bytes:
    host, signer = dice.choice((blob(dice), b"host")), blob(dice)
    sign = b"\x0d" + string(signer) + string(message(dice, signer)) + uint32(dice.choice((0, 1, 2, 4)))
    bind = b"\x1b" + string(BIND) + string(host) + string(b"session") + string(b"sg") + b"\1"
    body = dice.choice(
        (
            *(b"\x0b",) * 8,
            sign,
            sign,
            bind,
            b"\x13",
            b"\x12" + string(blob(dice)),
            b"\x16" + string(b"word"),
            b"\x1b" + string(b"other@example.com") + b"text",
            bytes([dice.randrange(256)]) + dice.randbytes(dice.randrange(30)),
        )
    )
    change = dice.random()
    if change < 0.05:
        body += b"\0"
    elif change < 0.1 and len(body) > 1:
        body = body[:-1]
    return string(body)


def answer(dice: random.Random, waits: str) -> bytes:
    """What an agent answers, mostly as it should."""
    entries = [(blob(dice), b"c" * dice.choice((0, 3, 9000))) for _ in range(dice.randrange(12))]
    count = uint32(max(0, len(entries) + dice.choice((0,) * 20 + (1, -1))))
    listing = b"\x0c" + count + b"".join(string(key) + string(comment) for key, comment in entries)
    signature = b"\x0e" + string(dice.randbytes(dice.choice((64, 5000))))
    usual = listing if waits == "list" else signature
    body = dice.choice((usual,) * 12 + (b"\x05", b"\x05", b"\x06", listing, signature))
    said = string(body)
    change = dice.random()
    if change < 0.02:
        return said + b"\0"
    if change < 0.04:
        return dice.choice((string(b""), uint32(262145), string(body + b"\0")))
    return said


class Played:
    """A pair of the built filter, beside the model's."""

    def __init__(self, path: str, listener: socket.socket, purposes: set[bytes] | None, links: Links) -> None:
        client = socket.socket(socket.AF_UNIX)
        client.settimeout(PATIENCE)
        client.setsockopt(socket.SOL_SOCKET, socket.SO_SNDTIMEO, SENDING)
        client.connect(path)
        self.listener, self.made = listener, 0
        self.ends = {"client": client}
        self.seen = {"client": b"", "upstream": b""}
        self.kept = {"client": b"", "upstream": b""}
        self.model = Pair(set(LISTED), purposes, links)

    def close(self) -> None:
        for end in self.ends.values():
            end.close()

    def send(self, side: str, piece: bytes) -> None:
        """A side sends a piece, or ends where it is empty."""
        if not piece:
            # What the agent behind ended is read to its end, so that nothing else happens before the filter noticed.
            self.ends[side].shutdown(socket.SHUT_RDWR if side == "client" else socket.SHUT_WR)
            self.model.end(side)
            return
        self.model.hear(side, piece)
        end = self.ends[side]
        end.settimeout(None)
        try:
            end.sendall(piece)
        except OSError as fault:
            assert not self.model.is_open, f"{side}: {fault} at {piece[:40].hex()}, waits for {self.model.waits}"
        end.settimeout(PATIENCE)

    def follow(self) -> None:
        """Connections to the agent behind begin and end as the model's."""
        if "upstream" in self.ends and (self.made < self.model.made or not self.model.is_linked):
            while self.take("upstream"):
                pass
            self.ends.pop("upstream").close()
        if self.made < self.model.made:
            upstream = self.listener.accept()[0]
            upstream.setsockopt(socket.SOL_SOCKET, socket.SO_SNDTIMEO, SENDING)
            upstream.settimeout(PATIENCE)
            self.ends["upstream"] = upstream
            self.made += 1

    def take(self, side: str) -> bool:
        """Reads once. Whether the other side goes on."""
        try:
            more = self.ends[side].recv(1 << 20)
        except ConnectionResetError:
            more = b""
        self.seen[side] += more
        return bool(more)

    def compare(self) -> None:
        """What each side is sent is what the model says. In the piece that closes a pair it may be cut off anywhere."""
        if self.model.is_open:
            self.follow()
        for side, end in self.ends.items():
            wanted = self.model.sent[side]
            if self.model.is_open:
                while len(self.seen[side]) < len(wanted) and self.take(side):
                    pass
                assert self.seen[side] == wanted, f"{side}: {self.seen[side][-80:].hex()}, not {wanted[-80:].hex()}"
                self.kept[side] = wanted
            else:
                while self.take(side):
                    pass
                assert self.kept[side] == self.seen[side][: len(self.kept[side])], side
                assert wanted.startswith(self.seen[side]), f"{side}: {self.seen[side][-80:].hex()} before the end"


class Script:
    """What the peers of one pair do, as the model says that it is their turn."""

    def __init__(self) -> None:
        self.left = {"client": bytearray(), "upstream": bytearray()}

    def next(self, dice: random.Random, model: Pair) -> tuple[str, bytes] | None:
        """A side, and the bytes that it sends next, or none where it ends. Nothing where it has to wait."""
        if not model.is_linked:
            self.left["upstream"].clear()
        if model.waits and not self.left["upstream"] and not model.unread["upstream"] and dice.random() < 0.7:
            self.left["upstream"] += answer(dice, model.waits)
        side = "upstream" if self.left["upstream"] and dice.random() < 0.8 else "client"
        if side == "client" and len(model.unread["client"]) > MOST_UNREAD:
            return None
        if side == "client" and not self.left["client"]:
            # Clients rest between requests, so that many owe nothing at once.
            if dice.random() < 0.85:
                return None
            self.left["client"] += b"".join(request(dice) for _ in range(dice.choice((1, 1, 2, 5))))
            if dice.random() < 0.01:
                self.left["client"] += dice.choice((bytes(4), uint32(262145)))
        chance = dice.random()
        if chance < 0.01 and model.wants(side):
            return side, b""
        if chance < 0.02 and model.is_linked and not model.waits:
            return "upstream", dice.choice((b"\0", b""))
        count = dice.choice((len(self.left[side]), len(self.left[side]), 1, 3, 16384))
        piece = bytes(self.left[side][:count])
        del self.left[side][:count]
        return side, piece


def play(
    dice: random.Random, path: str, listener: socket.socket, purposes: set[bytes] | None, seen: Counter
) -> None:
    """Pairs beside each other, of which one after another gets a piece."""
    links = Links()
    played = [(Played(path, listener, purposes, links), Script()) for _ in range(PAIRS)]
    for _ in range(PIECES):
        number = dice.randrange(PAIRS)
        pair, script = played[number]
        if not pair.model.is_open:
            seen["closed"] += 1
            pair.close()
            played[number] = Played(path, listener, purposes, links), Script()
        elif step := script.next(dice, pair.model):
            pair.send(*step)
            pair.compare()
            for other, _ in played:
                if other is not pair and other.model.is_open and "upstream" in other.ends and not other.model.is_linked:
                    seen["given back"] += 1
                    other.follow()
            seen[f"waits for {pair.model.waits}"] += 1
    for pair, _ in played:
        pair.close()


# Wrong models: a line of filter.py, and what stands in its place.
WRONG = {
    "passes every request": (
        "elif is_signature_request(body, self.listed, self.purposes) or is_bind(body):",
        "else:",
    ),
    "cuts nothing": ("if blob in self.listed]", "]"),
    "passes a signature with any key": ("if found is None or found[0] not in listed:", "if found is None:"),
    "passes a signature with the front of a listed key": (
        "if found is None or found[0] not in listed:",
        "if found is None or not any(blob.startswith(found[0]) for blob in listed):",
    ),
    "passes a signature for anything": ("return bool(purposes & ", "return True or bool(purposes & "),
    "passes what is for no purpose": ("return bool(purposes & ", "return not bool(purposes & "),
    "passes a signature by SHA-1": (" and not is_by_sha1(found[0], found[2])", ""),
    "refuses by SHA-1 without purposes": (
        "    if purposes is None:\n        return True",
        "    if purposes is None:\n        return not is_by_sha1(found[0], found[2])",
    ),
    "takes any key's login for its own": (
        "    if login_of(message, blob) is not None:",
        "    if any(login_of(message, each) for each in [blob, *LISTED]):",
    ),
    "takes a login for other data": ('        return "login"', '        return "other"'),
    "takes a file for other data": ('        return "file"', '        return "other"'),
    "takes a certificate for other data": ('        return "certificate"', '        return "other"'),
    "takes what may be a login for other data": ('return "maybe" if may_be_login(message) else "other"', 'return "other"'),
    "takes what may be a login for a login": ('return "maybe" if may_be_login', 'return "login" if may_be_login'),
    "tells a namespace by its front": ('(namespace_of(message) or b"")}', '(namespace_of(message) or b"") + b"t"}'),
    "takes an empty namespace": ("return namespace if namespace and DIGESTS", "return namespace if DIGESTS"),
    "takes any digest": ("DIGESTS.get(digested) == len(digest)", "digested in DIGESTS"),
    "passes no bind": (" or is_bind(body):", ":"),
    "passes every extension": ("return found is not None and found[0] == BIND", "return body[:1] == bytes([27])"),
    "leaves the count of all": ("uint32(len(kept))", "uint32(len(entries))"),
    "lists nothing for a failure": ("            return FAILURE\n", "            return b'\\x0c' + uint32(0)\n"),
    "keeps what nobody asked for": ('raise Fault("unasked")', "return False"),
    "keeps what stands behind an answer": ('raise Fault("behind an answer")', "pass"),
    "takes a request before the answer": ("        if self.waits:\n            return False\n", ""),
    "passes on what is no list": ('raise Fault("no list")', "return body"),
    "refuses without an answer": ("string(body if self.waits else FAILURE)", "(string(body) if self.waits else b'')"),
    "gives a bound connection back": ("self.is_linked and not self.is_bound and not", "self.is_linked and not"),
    "gives one back that owes": ("not self.is_bound and not self.waits", "not self.is_bound"),
    "sees nothing between an answer and a request": (
        "self.answer():\n                    self.links.tell(self)",
        "self.answer():\n                    pass",
    ),
    "keeps one more": ("len(self.spares) > MOST_SPARES", "len(self.spares) > MOST_SPARES + 1"),
    "keeps none": ("len(self.spares) > MOST_SPARES", "len(self.spares) > 0"),
    "gives the newest one back": ("self.spares.pop(0)", "self.spares.pop()"),
    "exchanges a bound connection": ("or self.waits or self.is_bound:", "or self.waits:"),
    "ends where an idle connection does": ('if side == "client" or self.waits or self.is_bound:', "if True:"),
    "takes no bind for one": ("self.is_bound = self.is_bound or is_bind(body)", "pass"),
    "connects for what it refuses": ("        if self.waits:\n            self.link(True)", "        self.link(True)"),
    "has no longest message": ("LONGEST = 262144", "LONGEST = 1 << 32"),
}


def differs(wrong: dict, dice: random.Random) -> bool:
    """Whether a wrong model does something else at one piece of a script."""
    purposes = given(dice.choice(PURPOSES))
    kinds = ((Pair, Links()), (wrong["Pair"], wrong["Links"]()))
    pairs = [[kind(set(LISTED), purposes, links) for kind, links in kinds] + [Script()] for _ in range(PAIRS)]
    for _ in range(PIECES):
        model, other, script = pairs[dice.randrange(PAIRS)]
        if not model.is_open or (step := script.next(dice, model)) is None:
            continue
        side, piece = step
        for each in (model, other):
            each.hear(side, piece) if piece else each.end(side)
        for model, other, _ in pairs:
            states = [(each.sent, each.is_open, each.made, each.is_linked) for each in (model, other)]
            if states[0] != states[1]:
                return True
    return False


def filter_with_purposes() -> str:
    """filter.py with purposes.py in the place of its import, so that a wrong model may be wrong in either."""
    folder, imported = Path(__file__).parent, "from .purposes import is_by_sha1, purposes_of\n"
    own, purposes = [(folder / name).read_text() for name in ("filter.py", "purposes.py")]
    assert own.count(imported) == 1
    return own.replace(imported, purposes.split("from __future__ import annotations\n", 1)[1])


def try_wrong(runs: int, seed: str) -> int:
    text = filter_with_purposes()
    unseen = []
    for name, (old, new) in WRONG.items():
        assert text.count(old) == 1, name
        found: dict = {"__name__": "model.wrong", "__package__": "model", "LISTED": LISTED}
        exec(compile(text.replace(old, new), name, "exec"), found)
        if not any(differs(found, random.Random(f"{seed} {run}")) for run in range(runs)):
            unseen.append(name)
    print(f"filter: {len(WRONG) - len(unseen)} of {len(WRONG)} wrong models are told from the right one {unseen or ''}")
    return len(unseen) > 0


def main(program: str, runs: str = "200", seed: str = "") -> int:
    seed = seed or str(random.SystemRandom().randrange(1 << 32))
    if program == "--wrong":
        return try_wrong(int(runs), seed)
    for words in PURPOSES:
        if status := beside(program, words, int(runs), seed):
            return status
    return 0


def beside(program: str, words: tuple[str, ...], runs: int, seed: str) -> int:
    """Runs beside a filter with these purposes."""
    seen: Counter = Counter()
    with tempfile.TemporaryDirectory() as folder:
        keys, path = f"{folder}/keys", f"{folder}/filter"
        Path(keys).write_text("".join(map(line_of, LISTED)))
        listener = socket.socket(socket.AF_UNIX)
        listener.settimeout(PATIENCE)
        listener.bind(f"{folder}/agent")
        listener.listen()
        process = subprocess.Popen([program, keys, f"{folder}/agent", path, *words], stdin=subprocess.DEVNULL)
        try:
            end = time.monotonic() + PATIENCE
            while not os.path.exists(path) and time.monotonic() < end and process.poll() is None:
                time.sleep(0.02)
            time.sleep(0.2)
            for run in range(runs):
                try:
                    play(random.Random(f"{seed} {run}"), path, listener, given(words), seen)
                except (AssertionError, OSError) as fault:
                    print(f"filter: run {run} of seed {seed}: {type(fault).__name__}: {fault}")
                    return 1
            assert process.poll() is None, "the filter ended"
        finally:
            process.terminate()
            process.wait()
    print(f"filter: {runs} runs of seed {seed} for {' '.join(words) or 'anything'} agree: {dict(sorted(seen.items()))}")
    return 0


if __name__ == "__main__":
    sys.exit(main(*sys.argv[1:]))
