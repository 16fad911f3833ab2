"""Random requests to the helper that signs, beside its model: plain keys and certificates of any authority, good and with
something changed, keys of other types, and helpers behind that reply rightly, wrongly or not at all.

    python3 -m model.differential_signer PROGRAM N [SEED]
    python3 -m model.differential_signer --wrong N [SEED]    tries the wrong ones of wrong_signers.txt
"""

from __future__ import annotations

import importlib
import json
import math
import socket
import subprocess
import sys
import tempfile
import threading
from collections import Counter
from collections.abc import Callable
from dataclasses import dataclass, replace
from pathlib import Path
from random import Random
from types import ModuleType

from . import ed25519
from .differential import HERE, read_wrong
from .formats import CERTIFIED, ED25519, RSA, sign_frame, verify_frame
from .signer import CURVES, ECDSA, FALSE, HASHES, REFUSED, SIGNED, TRUE, RsaKey, Transcript, helper, mpint
from .wire import Reader, string, uint32, uint64

# Points of order 1, 2 and 4; x = 0 with the sign; and a y that is no number of the field.
SMALL, SIGN_OF_X = (1, ed25519.P - 1, 0, 1 << 255), 1 << 255
ODD = [ed25519.octets(number) for number in (*SMALL, 1 | SIGN_OF_X, ed25519.P - 1 | SIGN_OF_X, ed25519.P, ed25519.P + 1, 2**256 - 1)]

# The helper behind: it takes down what it is asked, and replies by the plan that stands beside it.
BEHIND = """#!{python} -IS
import json, os, socket, sys
folder = {folder!r}
here = socket.socket(fileno=os.dup(0))
words = sys.argv[1:]
if words[2] == "-":
    words[2] = os.environ.get("MORTARLEEK_TICKET", "")
with open(folder + "/words", "a") as file:
    print(json.dumps(words), file=file)
def say(body):
    here.sendall(len(body).to_bytes(4, "big") + body)
say(b"\\1" + int(words[1]).to_bytes(8, "big") + (16).to_bytes(4, "big") + bytes.fromhex(words[2]))
heard = b""
while True:
    while len(heard) < 4 or len(heard) < 4 + int.from_bytes(heard[:4], "big"):
        more = here.recv(65536)
        if not more:
            sys.exit(0)
        heard += more
    end = 4 + int.from_bytes(heard[:4], "big")
    with open(folder + "/asked", "a") as file:
        print(heard[4:end].hex(), file=file)
    heard = heard[end:]
    with open(folder + "/plan") as file:
        plan = json.load(file)
    with open(folder + "/asked") as file:
        how, text = plan[len(file.readlines()) - 1]
    if how == "body":
        say(bytes.fromhex(text))
    elif how == "bytes":
        here.sendall(bytes.fromhex(text))
    else:
        sys.exit(0)
"""


def addition(name: bytes, before: bytes, seed: bytes, public: bytes) -> bytes:
    return string(name) + before + string(public) + string(seed + public)


def strings(texts: list[bytes]) -> bytes:
    return b"".join(map(string, texts))


@dataclass
class Key:
    """A key as an agent holds it: the strings of its public half as a blob has them, those of its private string that a
    plain key has in their place, and the private ones."""

    plain: bytes
    public: list[bytes]
    added: list[bytes]
    secret: list[bytes]
    signs: Callable[[bytes, bytes], bytes]
    certificate: bytes | None = None

    @property
    def name(self) -> bytes:
        return self.plain if self.certificate is None else self.plain + CERTIFIED

    @property
    def blob(self) -> bytes:
        return string(self.plain) + strings(self.public) if self.certificate is None else self.certificate

    def private_of(self, secret: list[bytes]) -> bytes:
        """The private string with these private ones."""
        if self.certificate is None:
            return string(self.plain) + strings(self.added) + strings(secret)
        before = self.added if self.plain == ED25519 else []
        return string(self.name) + string(self.certificate) + strings(before) + strings(secret)

    @property
    def private(self) -> bytes:
        return self.private_of(self.secret)

    def sign(self, message: bytes, algorithm: bytes = b"rsa-sha2-256") -> bytes:
        name = algorithm if self.plain == RSA else self.plain
        return string(name) + string(self.signs(message, name))


def ed25519_key(seed: bytes) -> Key:
    public = ed25519.public_key(seed, ed25519.kept_times)
    return Key(ED25519, [public], [public], [seed + public], lambda message, _: ed25519.sign(seed, message, ed25519.kept_times))


def ecdsa_key(name: bytes, d: int) -> Key:
    curve = CURVES[name]
    public = [name, curve.public_key(d)]

    def sign(message: bytes, _: bytes) -> bytes:
        signed = curve.sign(d, message)
        return strings([mpint(int.from_bytes(half, "big")) for half in (signed[: curve.size], signed[curve.size :])])

    return Key(b"ecdsa-sha2-" + name, public, public, [mpint(d)], sign)


def is_prime(number: int, random: Random) -> bool:
    """Miller and Rabin's test, of twelve bases."""
    if any(number % small == 0 for small in (3, 5, 7, 11, 13, 17, 19, 23)):
        return False
    twos = (number - 1 & 1 - number).bit_length() - 1
    for _ in range(12):
        powers = [pow(random.randrange(2, number - 1), number - 1 >> twos, number)]
        for _ in range(twos - 1):
            powers.append(powers[-1] * powers[-1] % number)
        if powers[0] != 1 and number - 1 not in powers:
            return False
    return True


def prime(bits: int, e: int, random: Random) -> int:
    while True:
        number = random.getrandbits(bits) | 3 << bits - 2 | 1
        if math.gcd(number - 1, e) == 1 and is_prime(number, random):
            return number


def rsa_key(bits: int, e: int, random: Random) -> Key:
    p, q = prime(bits - bits // 2, e, random), prime(bits // 2, e, random)
    n, d = p * q, pow(e, -1, math.lcm(p - 1, q - 1))
    key = RsaKey(e, n)

    def sign(message: bytes, name: bytes) -> bytes:
        return pow(key.encoded(name, message), d, n).to_bytes(key.size(), "big")

    return Key(RSA, [mpint(e), mpint(n)], [mpint(n), mpint(e)], [mpint(number) for number in (d, pow(q, -1, p), p, q)], sign)


def certified(key: Key, authority: Key, random: Random, named: bytes | None = None, algorithm: bytes = b"rsa-sha2-512") -> Key:
    """A certificate of the authority, or of one that is named so and signs in its own way."""
    body = string(key.plain + CERTIFIED) + string(random.randbytes(32)) + strings(key.public) + uint64(random.getrandbits(64))
    body += uint32(random.choice([1, 2])) + string(b"id") + string(string(b"host") * random.randrange(3))
    body += uint64(0) + uint64(2**64 - 1) + string(b"") + string(b"") + string(b"")
    body += string(authority.blob if named is None else named)
    seal = authority.sign(body, algorithm) if named is None else string(b"ssh-dss") + string(b"a signature")
    return replace(key, certificate=body + string(seal))


def turned(text: bytes, random: Random) -> bytes:
    """The text with one bit turned."""
    if not text:
        return b"x"
    place = random.randrange(8 * len(text))
    changed = bytearray(text)
    changed[place // 8] ^= 1 << place % 8
    return bytes(changed)


def spoilt(text: bytes, random: Random) -> bytes:
    return random.choice([turned(text, random), turned(text, random), text[:-1], text + b"\0", b"", text[: len(text) // 2]])


class Pool:
    """The keys of a run, which come again, so that a model in Python keeps up."""

    def __init__(self, random: Random) -> None:
        self.random = random
        self.ed25519 = [ed25519_key(random.randbytes(32)) for _ in range(4)]
        ecdsas = [ecdsa_key(name, random.randrange(1, curve.n)) for name, curve in CURVES.items() for _ in range(2)]
        ecdsas += [ecdsa_key(name, random.choice([1, 255, curve.n - 1])) for name, curve in CURVES.items()]
        rsas = [rsa_key(bits, e, random) for bits, e in ((1024, 65537), (1031, 3))]
        self.plain = self.ed25519 + ecdsas + rsas
        self.certified = [certified(key, authority, random) for key in self.plain for authority in random.sample(self.plain, 2)]
        dss = string(b"ssh-dss") + string(b"\x00" + random.randbytes(128))
        # Authorities of other types, one that is itself a certificate, and one that signs by SHA-1.
        self.foreign = [certified(key, key, random, dss) for key in self.plain[::3]]
        self.foreign += [certified(self.plain[2], self.plain[0], random, blob) for blob in (self.certified[0].blob, b"")]
        self.foreign += [certified(self.plain[1], rsas[0], random, algorithm=b"ssh-rsa")]
        stand_in = string(b"keyed-sha256@example.com") + string(bytes(32))
        near = (b"ssh-ed25519-", b"ssh-ed25519-cert-v01@openssh.co", b"SSH-ED25519", b"ecdsa-sha2-nistp25", b"ssh-rsa2", b"rsa-sha2-256")
        self.others = [dss, stand_in, *(string(name) + string(bytes(32)) for name in near), b"", uint32(11), b"\0\0\0\xffssh-ed25519"]
        on_token = string(b"sk-ecdsa-sha2-nistp256@openssh.com") + string(b"nistp256") + string(b"\x04" + random.randbytes(64))
        self.others += [on_token + string(b"ssh:")]
        self.messages = [random.randbytes(length) for length in (0, 1, 32, 63, 64, 111, 112, 127, 128, 300)]


def spoilt_number(text: bytes, random: Random) -> bytes:
    """An mpint in another form, or of another number."""
    value = int.from_bytes(text, "big")
    others = [b"\0" + text, b"\0\0" + text, b"", b"\0", text.lstrip(b"\0"), b"\xff" + text, text + b"\0", text[:-1], turned(text, random)]
    return random.choice([*others, *map(mpint, (value + 1, value - 1, 2 * value, *(value + curve.n for curve in CURVES.values())))])


def spoilt_private(pool: Pool, key: Key) -> tuple[bytes, bytes]:
    """A private string and its blob, one of whose parts is another one's or changed."""
    random, secret = pool.random, list(key.secret)
    other = random.choice([other for other in pool.plain if other.plain == key.plain])
    place = random.randrange(len(secret))
    if key.plain != ED25519:
        secret[place] = random.choice([other.secret[place], spoilt_number(secret[place], random)])
        if key.plain == RSA and random.random() < 0.3:
            # d modulo p - 1 and q - 1 is the same.
            _, _, p, q = (int.from_bytes(text, "big") for text in key.secret)
            secret[0] = mpint(int.from_bytes(key.secret[0], "big") + (p - 1) * (q - 1) * random.choice([1, 2**64]))
        return key.private_of(secret), key.blob
    # Each half of the secret field, and the field, in another's place or changed.
    seed, public = key.secret[0][:32], key.public[0]
    mixed = [other.secret[0][:32] + public, turned(seed, random) + public, seed + other.public[0], seed + turned(public, random)]
    return key.private_of([random.choice(mixed)]), key.blob


def spoilt_public(pool: Pool, key: Key) -> tuple[bytes, bytes]:
    """A private string and a blob that agree in a public half that is no key's, or is in another form."""
    random = pool.random
    if key.plain == ED25519:
        odd = random.choice(ODD)
        return addition(ED25519, b"", key.secret[0][:32], odd), string(ED25519) + string(odd)
    place = random.randrange(len(key.public))
    public, changed = list(key.public), (spoilt_number if key.plain == RSA else turned)(key.public[place], random)
    public[place] = changed
    added = public[::-1] if key.plain == RSA else public
    return string(key.plain) + strings(added) + strings(key.secret), string(key.plain) + strings(public)


def signing(pool: Pool, ask: int) -> bytes:
    random = pool.random
    key = random.choice(pool.plain * 3 + pool.certified * 2 + pool.foreign)
    private, blob, message, flags = key.private, key.blob, random.choice(pool.messages), random.choice([0, 1, 2, 3, 4, 6, 2**32 - 1])
    case = random.random()
    if case < 0.1:
        private = spoilt(private, random)
    elif case < 0.2:
        blob = spoilt(blob, random)
    elif case < 0.3:
        other = random.choice(pool.plain + pool.certified)
        private, blob = random.choice([(other.private, blob), (private, other.blob)])
    elif case < 0.45:
        private, blob = spoilt_private(pool, key)
    elif case < 0.48 and key.certificate is not None:
        key = replace(key, certificate=blob[: random.randrange(len(key.name) + 40, len(blob))] + random.choice([b"", b"x"]))
        private, blob = key.private, key.blob
    elif case < 0.53:
        private, blob = spoilt_public(pool, key)
    elif case < 0.63:
        blob = random.choice(pool.others)
        private = random.choice([private, blob + string(b"private")])
    return sign_frame(ask, private, blob, message, flags)


def odd_signature(pool: Pool, key: Key, message: bytes) -> tuple[bytes, bytes]:
    """A host key's blob and a signature at the bounds of what its algorithm takes."""
    random = pool.random
    if key.plain == ED25519 and random.random() < 0.5:
        # R = [S]B is right under a key of order 1, and under others by chance.
        number = random.choice([0, 1, 7, ed25519.L - 1, ed25519.L, 2**255])
        point = ed25519.encode(ed25519.kept_times(number % ed25519.L, ed25519.BASE))
        return string(ED25519) + string(random.choice(ODD)), string(ED25519) + string(point + ed25519.octets(number))
    if key.plain == ED25519:
        signed = key.signs(message, ED25519)
        more = ed25519.integer(signed[32:]) + ed25519.L
        wrong = [signed[:32] + ed25519.octets(more), signed[:-1], signed + b"\0", b"", signed[:32]]
        return key.blob, string(ED25519) + string(random.choice(wrong))
    if key.plain in ECDSA:
        curve = CURVES[ECDSA[key.plain]]
        n = curve.n
        reader = Reader(key.signs(message, key.plain))
        r, s = (int.from_bytes(reader.string(), "big") for _ in range(2))
        pairs = [(r, n - s), (s, r), (0, s), (r, 0), (n, s), (r, n), (r + n, s), (r, s + n), (r, 256**curve.size)]
        pair = random.choice([*(list(map(mpint, pair)) for pair in pairs), [mpint(r), spoilt_number(mpint(s), random)], [mpint(r)]])
        return key.blob, string(key.plain) + string(strings(pair))
    # Without its zeros in front, with more of them, above the modulus, of an exponent of 1, and by another hash than it says.
    name, n = random.choice(list(HASHES)), int.from_bytes(key.public[1], "big")
    signed = key.signs(message, name)
    forms = [b"\0" + signed, signed[1:], (int.from_bytes(signed, "big") + n).to_bytes(len(signed) + 1, "big"), b"", signed.lstrip(b"\0")]
    case = random.random()
    if case < 0.4:
        return key.blob, string(name) + string(random.choice(forms))
    if case < 0.85:
        e = random.choice([1, 1, 1, 2**64 + 1, 2**64 - 1])
        encoded = RsaKey(e, n).encoded(name, message).to_bytes(len(signed), "big")
        return string(RSA) + string(mpint(e)) + string(mpint(n)), string(name) + string(random.choice([encoded, encoded[1:]]))
    return key.blob, string(random.choice(list(HASHES))) + string(signed)


def verifying(pool: Pool, ask: int) -> bytes:
    random = pool.random
    key = random.choice(pool.plain * 3 + pool.certified * 2 + pool.foreign)
    host, message = key.blob, random.choice(pool.messages)
    name = random.choice(list(HASHES))
    signature = key.sign(message, name)
    case = random.random()
    if case < 0.25:
        part = random.randrange(4)
        if part == 0:
            host = turned(host, random)
        elif part == 1:
            message = turned(message, random)
        else:
            signature = signature[:-32] + turned(signature[-32:], random)
    elif case < 0.35:
        host, signature = random.choice([(spoilt(host, random), signature), (host, spoilt(signature, random))])
    elif case < 0.55:
        host, signature = odd_signature(pool, key, message)
    elif case < 0.6:
        other = random.choice([b"ssh-dss", key.name + b"x", key.plain + CERTIFIED, *HASHES, ED25519, *ECDSA])
        signature = string(other) + string(key.signs(message, name if key.plain == RSA else key.plain))
    elif case < 0.68:
        host = random.choice(pool.others)
    elif case < 0.75:
        signature = random.choice(pool.plain).sign(message, name)
    return verify_frame(ask, host, signature, message)


NOT_REQUESTS = [b"\x00", b"\x01", b"\x04" + uint64(1), b"\x03" + uint64(1) + string(b"prompt"), b"\x65" + uint64(1) + string(b"x")]
ENDS = [b"", b"", b"", b"", uint32(0), uint32(1048577), b"\0", b"\0\0\0\5abcd", uint32(1048576)]


def reply_to(body: bytes, pool: Pool) -> tuple[str, bytes]:
    """What the helper behind does, asked so: sends a body or other bytes, or ends."""
    random = pool.random
    number = int.from_bytes(body[1:9], "big")
    signed = SIGNED + uint64(number) + string(random.randbytes(random.choice([0, 1, 83, 5000])))
    good = [signed, REFUSED + uint64(number)] if body[0] == 1 else [TRUE + uint64(number), FALSE + uint64(number)]
    other = [signed, TRUE + uint64(number)][body[0] == 1]
    case = random.random()
    if case < 0.75:
        return "body", random.choice(good)
    if case < 0.85:
        return "body", random.choice(good)[:1] + uint64(number ^ 1) + (string(b"x") if good[0] == signed else b"")
    if case < 0.93:
        wrong = [other, good[0] + b"\0", good[0][:-1], b"\x01" + uint64(number) + string(bytes(16)), b"\x69" + uint64(number), b"\0"]
        return "body", random.choice(wrong)
    if case < 0.96:
        return "bytes", random.choice([uint32(0), uint32(2**32 - 1), uint32(1048577)])
    return "end", b""


class Planned:
    """The helper behind, played by the model: its plan is what the program's one follows."""

    def __init__(self, pool: Pool) -> None:
        self.pool, self.plan = pool, []

    def __call__(self, body: bytes) -> bytes | None:
        how, text = reply_to(body, self.pool)
        self.plan.append((how, text.hex()))
        return text if how == "body" else None


def session(pool: Pool) -> tuple[list[str], bytes, int]:
    """Words behind the program's name, but for the helper behind; what the agent says, and how many requests."""
    random = pool.random
    job = random.choice([0, 1, 7, 2**64 - 1, random.getrandbits(64)])
    words = ["-", str(job), random.randbytes(16).hex()]
    if random.random() < 0.05:
        words = random.choice([words[:2], [*words, "b", "c"], ["-", "01", words[2]], ["-", str(2**64), words[2]], ["-", "1", words[2][1:]]])
    told, count = b"", random.choice([0, 1, 5, 20, 40])
    for _ in range(count):
        make = random.choice([signing, verifying])
        told += make(pool, random.choice([0, 1, 2, 2**64 - 1, random.getrandbits(64)]))
    if random.random() < 0.1:
        told += string(random.choice(NOT_REQUESTS)) + signing(pool, 9)
    return words, told + random.choice(ENDS), count


def talk(command: list[str], peer: bytes, random: Random) -> tuple[bytes, int]:
    """Tells a program these bytes at its standard input, in pieces, and hears it out."""
    ours, theirs = socket.socketpair()
    with ours:
        with theirs:
            child = subprocess.Popen(command, stdin=theirs, stdout=subprocess.DEVNULL, stderr=subprocess.DEVNULL)
        places = sorted(random.randrange(len(peer) + 1) for _ in range(random.choice([0, 1, 5])))

        def tell() -> None:
            try:
                for begin, end in zip([0, *places], [*places, len(peer)]):
                    ours.sendall(peer[begin:end])
                ours.shutdown(socket.SHUT_WR)
            except OSError:
                # It ended before all was told.
                pass

        teller = threading.Thread(target=tell)
        teller.start()
        ours.settimeout(60)
        heard = b""
        try:
            while more := ours.recv(65536):
                heard += more
        except ConnectionResetError:
            pass
        teller.join()
    return heard, child.wait(30)


def compare(program: str, pool: Pool, folder: Path, counts: Counter) -> str | None:
    """Plays one session with both; says where they differ."""
    words, peer, count = session(pool)
    planned = Planned(pool)
    has_behind = len(words) == 3 and pool.random.random() < 0.8
    script = folder / "behind"
    wanted = helper([*words, str(script)] if has_behind else words, planned, peer)
    script.write_text(BEHIND.format(python=sys.executable, folder=str(folder)))
    script.chmod(0o700)
    (folder / "plan").write_text(json.dumps(planned.plan))
    heard, status = talk([program, *words, *([str(script)] if has_behind else [])], peer, pool.random)
    lines = (folder / "asked").read_text().split() if (folder / "asked").exists() else []
    seen = Transcript(heard, [bytes.fromhex(line) for line in lines], status)
    count_answers(wanted, count, has_behind, counts)
    if not has_behind:
        wanted.handed = []
    for line in (folder / "words").read_text().splitlines() if (folder / "words").exists() else []:
        if json.loads(line) != ["-", words[1], "0" * 32]:
            return f"the helper behind has the words {line}"
    for name in ("asked", "words"):
        (folder / name).unlink(missing_ok=True)
    if seen == wanted:
        return None
    place = next((at for at, (a, b) in enumerate(zip(seen.sent, wanted.sent)) if a != b), min(len(seen.sent), len(wanted.sent)))
    return (
        f"status {seen.status}, the model {wanted.status}; {len(seen.sent)} bytes, the model {len(wanted.sent)}, alike up to "
        f"{place}; {len(seen.handed)} handed on, the model {len(wanted.handed)}; words {words}, told {peer.hex()}"
    )


def count_answers(told: Transcript, count: int, has_behind: bool, counts: Counter) -> None:
    counts["requests"] += count
    counts[f"status {told.status}"] += 1
    counts["handed on"] += len(told.handed) if has_behind else 0
    counts["for a helper that isn't there"] += 0 if has_behind else len(told.handed)
    names = {SIGNED: "signed", REFUSED: "refused", TRUE: "true", FALSE: "false"}
    left = told.sent
    while left:
        end = 4 + int.from_bytes(left[:4], "big")
        counts[names.get(left[4:5], "hello")] += 1
        left = left[end:]


# What a run of 2000 requests has to reach.
GOALS = ("signed", "refused", "true", "false", "handed on", "for a helper that isn't there", "status 0", "status 1", "status 2", "status 8")


def run(program: str, requests: int, seed: str) -> str:
    """Plays random sessions until so many requests were told: a line that counts them. Raises where one differs."""
    random, counts = Random(seed), Counter()
    pool = Pool(random)
    with tempfile.TemporaryDirectory(prefix="mk-") as folder:
        while counts["requests"] < requests:
            fault = compare(program, pool, Path(folder), counts)
            assert fault is None, f"seed {seed}, behind {counts['requests']} requests: {fault}"
    missing = [goal for goal in GOALS if not counts[goal]]
    assert requests < 2000 or not missing, f"seed {seed} never reached {missing}"
    return ", ".join(f"{what} {counts[what]}" for what in sorted(counts))


# What the model of the helper is made of.
MODULES = ("wire", "formats", "tools", "ed25519", "ecdsa", "signer")


def wrong_module(edit: dict[str, str], folder: str, number: int) -> ModuleType:
    """The model with one line changed, as a package of its own in a folder that modules are looked for in."""
    place = Path(folder, f"wrong_signer_{number}")
    place.mkdir()
    for name in MODULES:
        text = (HERE / f"{name}.py").read_text()
        if edit["file"] == f"{name}.py":
            text = text.replace(edit["old"], edit["new"])
        (place / f"{name}.py").write_text(text)
    return importlib.import_module(f"{place.name}.signer")


def seen_of(model: ModuleType, words: list[str], replies: list[bytes | None], peer: bytes) -> tuple:
    """What a model sends, hands on and ends with, given these replies."""
    left = list(replies)
    told = model.helper(words, lambda body: left.pop(0) if left else None, peer)
    return told.sent, told.handed, told.status


def try_wrong(requests: int, seed: str) -> bool:
    """Says behind how many requests each wrong signer is told from the right one; whether all are."""
    random, sessions, told = Random(seed), [], 0
    pool = Pool(random)
    while told < requests:
        words, peer, count = session(pool)
        planned = Planned(pool)
        words = [*words, "behind"] if len(words) == 3 and random.random() < 0.8 else words
        wanted = helper(words, planned, peer)
        replies = [bytes.fromhex(text) if how == "body" else None for how, text in planned.plan]
        told += count
        sessions.append((words, replies, peer, told, (wanted.sent, wanted.handed, wanted.status)))
    missed = 0
    with tempfile.TemporaryDirectory() as folder:
        sys.path.insert(0, folder)
        for number, edit in enumerate(read_wrong("wrong_signers.txt")):
            wrong = wrong_module(edit, folder, number)
            found = next((at for words, replies, peer, at, wanted in sessions if seen_of(wrong, words, replies, peer) != wanted), None)
            missed += found is None
            print(f"{found or 'never':>5}  {edit['wrong']}", flush=True)
    print(f"{number + 1} wrong signers: {missed} not told by {told} requests")
    return missed == 0


if __name__ == "__main__":
    program, count, seed = sys.argv[1], int(sys.argv[2]), sys.argv[3] if len(sys.argv) > 3 else "1"
    if program == "--wrong":
        sys.exit(not try_wrong(count, seed))
    print(run(program, count, seed))
