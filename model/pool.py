"""What random schedules are made of: keys, hosts, constraints, logins, and their faults."""

from __future__ import annotations

from dataclasses import dataclass
from random import Random

from .formats import BEHIND_CERTIFICATE, BIND, CERTIFIED, CURVES, ED25519, Fields, PRIVATE, PUBLIC
from .formats import PURPOSES, RESTRICT, RSA, STAND_IN, USES
from .wire import string, uint32, uint64


def of_forms(forms: Fields, seed: int) -> list[bytes]:
    """Texts of these forms, the same for the same seed."""
    random = Random(seed)
    sizes = [form if isinstance(form, int) else random.randrange(1, 40) for form in forms]
    texts = [random.randbytes(size) for size in sizes]
    return [form if isinstance(form, bytes) else text for form, text in zip(forms, texts)]


def certificate(plain: bytes, seed: int, kind: int = 1, **changed: bytes | int) -> bytes:
    """A certificate of a key. The signature isn't one, since nobody checks it."""
    with_default = {"names": b"", "after": 0, "before": 2**64 - 1, "critical": b"", "signer": b""}
    parts = with_default | changed
    texts = [string(plain + CERTIFIED), string(b"nonce")]
    texts += map(string, of_forms(PUBLIC[plain], seed))
    texts += [uint64(seed), uint32(kind), string(b"id"), string(parts["names"])]
    texts += [uint64(parts["after"]), uint64(parts["before"]), string(parts["critical"])]
    texts += [string(b""), string(b""), string(parts["signer"]), string(b"signature")]
    return b"".join(texts)


@dataclass(frozen=True)
class Key:
    key_type: bytes
    blob: bytes
    added: bytes
    algorithms: tuple[bytes, ...]


def plain_key(plain: bytes, seed: int) -> Key:
    own, private = of_forms(PUBLIC[plain], seed), of_forms(PRIVATE[plain], seed + 1000)
    shown = own[::-1] if plain == RSA else own
    blob = string(plain) + b"".join(map(string, own))
    added = string(plain) + b"".join(map(string, shown + private))
    more = (b"rsa-sha2-256", b"rsa-sha2-512") if plain == RSA else ()
    return Key(plain, blob, added, (plain, *more))


def certified_key(plain: bytes, seed: int) -> Key:
    blob = certificate(plain, seed, names=string(b"perseus"))
    private = of_forms(BEHIND_CERTIFICATE[plain], seed + 2000)
    added = string(plain + CERTIFIED) + string(blob) + b"".join(map(string, private))
    more = [b"rsa-sha2-256", b"rsa-sha2-512"] if plain == RSA else []
    names = tuple(each + CERTIFIED for each in [plain, *more])
    return Key(plain + CERTIFIED, blob, added, names)


TYPES = [ED25519, RSA, *CURVES]
KEYS = [plain_key(STAND_IN, seed) for seed in (1, 2, 3)]
KEYS += [plain_key(plain, seed) for seed, plain in enumerate(TYPES, 10)]
KEYS += [certified_key(plain, seed) for seed, plain in enumerate(TYPES, 20)]


@dataclass(frozen=True)
class Host:
    """A host's name, its key, and the key of a rule that is to fit it."""

    name: bytes
    key: bytes
    entry: tuple[bytes, bool]


def certified_host(name: bytes, seed: int, entry: bytes = b"", **changed: bytes | int) -> Host:
    changed = {"kind": 2, "signer": CA, "names": string(b"*.example.org")} | changed
    return Host(name, certificate(TYPES[seed % 5], seed, **changed), (entry or CA, True))


CA, OTHER_CA = plain_key(STAND_IN, 50).blob, plain_key(ED25519, 51).blob
PLAIN_HOSTS = [
    Host(b"h%d.example.org" % n, plain_key(STAND_IN, 60 + n).blob, (b"", False)) for n in range(4)
]
PLAIN_HOSTS += [Host(b"cetus", plain_key(plain, 70).blob, (b"", False)) for plain in TYPES[:3]]
PLAIN_HOSTS = [Host(host.name, host.key, (host.key, False)) for host in PLAIN_HOSTS]
HOSTS = PLAIN_HOSTS + [
    certified_host(b"c0.example.org", 80),
    certified_host(b"c1.example.org", 81, after=100, before=200),
    certified_host(b"c2.example.org", 82, names=b""),
    certified_host(b"c3.example.org", 83, names=string(b"x") + string(b"c?.exam*org")),
]
# None of these fits: a rule's key is no authority, or an authority; another signer; a user's
# certificate; critical options; another name; a pattern in another case; no time at all.
FALSE_HOSTS = [
    Host(b"f0.example.org", HOSTS[7].key, (HOSTS[7].key, False)),
    Host(b"f1.example.org", PLAIN_HOSTS[0].key, (PLAIN_HOSTS[0].key, True)),
    certified_host(b"f2.example.org", 90, entry=OTHER_CA),
    certified_host(b"f3.example.org", 91, kind=1),
    certified_host(b"f4.example.org", 92, critical=string(b"force-command")),
    certified_host(b"f5.example.com", 93),
    certified_host(b"f6.Example.org", 94),
    certified_host(b"f7.example.org", 95, after=100, before=100),
    certified_host(b"f8.example.org", 96, names=string(b"c?.example.org")),
    certified_host(b"c.example.org", 98, names=string(b"c?.example.org")),
    Host(b"f9.example.org", certified_host(b"", 97).key, (CA, False)),
]
USERS = [b"perseus", b"root", b"", b"p", b"oot", b"ro"]
PATTERNS = [b"", b"", b"perseus", b"per*", b"?oot", b"*", b"P*", b"ro?", b"*s*s"]


def hop(user: bytes, host: bytes, keys: list[tuple[bytes, bool]], reserved: bytes = b"") -> bytes:
    texts = [string(user), string(host), string(reserved)]
    return b"".join(texts + [string(key) + bytes([ca]) for key, ca in keys])


def rule(source: bytes, target: bytes, reserved: bytes = b"", more: bytes = b"") -> bytes:
    return string(string(source), string(target), string(reserved), more)


def restrict(*rules: bytes) -> bytes:
    return b"\xff" + string(RESTRICT) + string(*rules)


def route_rules(random: Random, route: list[Host]) -> list[bytes]:
    """Rules that permit a route, with keys, other names for a host and rules beside it, in any order."""
    rules, source = [], hop(b"", b"", [])
    for host in route:
        keys = [host.entry]
        if random.random() < 0.3:
            keys.append((random.choice(PLAIN_HOSTS).key, random.random() < 0.5))
            random.shuffle(keys)
        target = hop(random.choice(PATTERNS), host.name, keys)
        rules.append(rule(source, target))
        if random.random() < 0.3:
            name = random.choice([b"again.example.org", b"\x1b\xff" + b"h" * 60 + b".example.org"])
            rules.append(rule(source, hop(random.choice(PATTERNS), name, keys)))
        source = hop(b"", host.name, keys)
    if random.random() < 0.4:
        rules.append(rule(source, hop(b"", b"further", [HOSTS[1].entry])))
    if random.random() < 0.2:
        rules.pop(random.randrange(len(rules)))
    if random.random() < 0.3 or not rules:
        rules.append(rule(hop(b"", b"", []), hop(b"", b"other", [random.choice(HOSTS).entry])))
    random.shuffle(rules)
    return rules


def faulty_restrict(random: Random) -> bytes:
    key, bad = [HOSTS[0].entry], [(HOSTS[0].key[:-1], False)]
    origin, there = hop(b"", b"", []), hop(b"", b"h", key)
    good = rule(origin, there)
    faulty = [
        restrict(),
        restrict(good, rule(hop(b"u", b"h", key), there)),
        restrict(rule(hop(b"", b"h", []), there)),
        restrict(rule(hop(b"", b"", key), there), good),
        restrict(rule(origin, hop(b"u", b"h", []))),
        restrict(rule(origin, hop(b"u", b"", key))),
        restrict(rule(origin, hop(b"", b"", []))),
        restrict(rule(origin, there, reserved=b"r")),
        restrict(rule(origin, hop(b"", b"h", key, reserved=b"r"))),
        restrict(rule(hop(b"", b"", [], reserved=b"r"), there)),
        restrict(rule(origin, there, more=b"x")),
        restrict(rule(origin, hop(b"", b"h", bad))),
        restrict(rule(hop(b"", b"h", bad), there)),
        restrict(rule(origin, there[:-1])),
        restrict(good)[:-1],
        restrict(good) + restrict(good),
        b"\xff" + string(b"associated-certs-v00@openssh.com") + string(b""),
        b"\xff\x00",
    ]
    return random.choice(faulty)


def uses(count: int) -> bytes:
    return b"\xff" + string(USES) + uint32(count)


WORDS = [b"login", b"sshsig", b"certificate", b"other", b"sshsig:git", b"sshsig:file", b"sshsig:g", b"sshsig:" + b"n" * 248]


def purposes(*words: bytes) -> bytes:
    return b"\xff" + string(PURPOSES) + string(*map(string, words))


def some_purposes(random: Random) -> bytes:
    return purposes(*random.sample(WORDS, random.choice([1, 1, 2, 3])))


def faulty_purposes(random: Random) -> bytes:
    many = [b"sshsig:%d" % place for place in range(64)]
    faulty = [
        purposes(),
        purposes(*many, b"login"),
        purposes(b"login", b"login"),
        purposes(b"sshsig:" + b"n" * 249),
        purposes(b"sshsig:"),
        purposes(b"other", b"logins"),
        purposes(b""),
        purposes(b"Login"),
        purposes(b"login")[:-1],
        purposes(b"login") + purposes(b"other"),
        b"\xff" + string(PURPOSES) + string(uint32(5) + b"logi"),
        b"\xff" + string(PURPOSES) + string(string(b"login"), b"x"),
        b"\xff" + string(PURPOSES),
    ]
    return random.choice([*faulty, purposes(*many)])


def file_data(random: Random) -> bytes:
    """A file's data as it is signed in a namespace, or nearly so."""
    algorithm, size = random.choice([(b"sha256", 32), (b"sha512", 64), (b"sha512", 64), (b"sha256", 64)])
    namespace = random.choice([b"git", b"git", b"file", b"g", b"gi", b""])
    texts = [namespace, b"", algorithm, random.randbytes(size)]
    front = random.choice([b"SSHSIG", b"SSHSIG", b"SSHSIG", b"SSHSIH"])
    return front + b"".join(map(string, texts)) + random.choice([b"", b"", b"", b"x"])


def may_be(random: Random, key: Key, user: bytes) -> bytes:
    """What may be a login, or nearly so; or what an authority signs, or nearly that."""
    good = login(random, key, b"session of 32 bytes, as by SHA256", user, random.choice([None, b"no host key"]))
    plain = key.key_type.removesuffix(CERTIFIED)
    other = random.choice([each for each in KEYS if each.key_type.removesuffix(CERTIFIED) == plain])
    name = random.choice([b"ssh-connection", b"ssh-userauth", b"publickey", b"hostbased", b"publickey-v02", b"ssh-connectio", b"publicke"])
    texts = [
        good[4:],
        good.replace(b"\x01" + string(key.algorithms[0]), b"\x02" + string(key.algorithms[0])),
        login(random, other, b"session", user, None),
        login(random, other, b"session", user, None),
        random.randbytes(random.randrange(9)) + string(name) + random.choice([b"", b"x"]),
        random.randbytes(4) + uint32(len(name) + random.choice([-1, 1])) + name + random.choice([b"", b"x"]),
        string(b"ssh-rsa" + random.choice([CERTIFIED, CERTIFIED.replace(b"1", b"0"), CERTIFIED[:-1], CERTIFIED + b"x"])) + b"nonce",
        string(key.key_type + CERTIFIED) + string(b"ssh-connection"),
    ]
    return random.choice(texts)


def terms(random: Random) -> bytes:
    """Constraints, in any order, sometimes faulty."""
    parts = []
    if random.random() < 0.5:
        life = random.choice([0, 1, 2, 3, 5, 10, 100, 2**32 - 1])
        parts.append(b"\x01" + uint32(life))
    if random.random() < 0.3:
        parts.append(b"\x02")
    if random.random() < 0.4:
        hosts = random.choice([HOSTS, HOSTS, FALSE_HOSTS])
        route = random.sample(hosts, random.randrange(1, 4))
        parts.append(restrict(*route_rules(random, route)))
    if random.random() < 0.15:
        parts.append(random.choice([b"\x03", b"\x01\x00", b"\x02", b"\x00", b"\x01" + uint32(7)]))
    if random.random() < 0.15:
        parts.append(faulty_restrict(random))
    if random.random() < 0.15:
        parts.append(uses(random.choice([1, 1, 2, 3, 2**32 - 1])))
    if random.random() < 0.1:
        faulty = [uint32(0), uint32(1) + b"\xff" + string(USES), uint32(0)[:3], b""]
        parts.append(b"\xff" + string(USES) + random.choice(faulty))
    if random.random() < 0.25:
        parts.append(some_purposes(random))
    if random.random() < 0.06:
        parts.append(faulty_purposes(random))
    random.shuffle(parts)
    return b"".join(parts)


def faulty_addition(random: Random) -> bytes:
    """An added key with a fault, and a comment."""
    key, other = random.sample(KEYS, 2)
    certified = random.choice(KEYS[8:])
    cert = certified.blob
    faulty = [
        string(b"ssh-dss") + key.added,
        string(b"sk-ssh-ed25519@openssh.com") + string(b"\x01" * 32),
        string(STAND_IN + CERTIFIED) + string(b"\x01" * 32) * 2,
        string(ED25519) + string(b"\x01" * 31) + string(b"\x02" * 64),
        string(ED25519) + string(b"\x01" * 32) + string(b"\x02" * 32),
        string(STAND_IN) + string(b"\x01" * 33) + string(b"\x02" * 32),
        string(STAND_IN) + string(b"\x01" * 32) + string(b"\x02" * 33),
        string(TYPES[2]) + string(b"nistp384") + string(b"Q") + string(b"d"),
        string(RSA) + string(b"\x01" * 2049) + string(b"n") * 5,
        string(RSA) + string(b"n") * 5 + string(b"\x01" * 2049),
        string(ED25519 + CERTIFIED) + string(cert) + string(b"\x01" * 32) + string(b"\x01" * 64),
        string(RSA + CERTIFIED) + string(cert) + string(b"d") * 4,
        string(ED25519 + CERTIFIED) + string(KEYS[3].blob) + string(b"\x01" * 32),
        string(certified.key_type) + string(cert + b"x") + string(b"d") * 4,
        string(certified.key_type) + string(cert[:-1]) + string(b"d") * 4,
        string(ED25519 + CERTIFIED) + string(KEYS[8].blob) + string(b"\x01" * 32) * 2,
        string(ED25519 + CERTIFIED) + string(KEYS[8].blob) + string(b"\x01" * 31),
        string(ED25519 + CERTIFIED)
        + string(certificate(ED25519, 1, names=b"\x00\x00\x00\x05x"))
        + string(b"\x01" * 32)
        + string(b"\x01" * 64),
        key.added[: random.randrange(len(key.added))],
        other.blob,
    ]
    return random.choice(faulty) + string(b"comment")


def login(random: Random, key: Key, session: bytes, user: bytes, host_key: bytes | None) -> bytes:
    """What a client signs to log in; a method without a host key where there is none."""
    method = b"publickey" if host_key is None else b"publickey-hostbound-v00@openssh.com"
    texts = [string(session), b"\x32", string(user), string(b"ssh-connection"), string(method)]
    texts += [b"\x01", string(random.choice(key.algorithms)), string(key.blob)]
    return b"".join(texts) + (b"" if host_key is None else string(host_key))


def faulty_login(random: Random, key: Key, session: bytes, host_key: bytes) -> bytes:
    good = login(random, key, session, b"perseus", host_key)
    others = set(KEYS) - {key}
    other = random.choice(sorted(others, key=lambda each: each.blob))
    faulty = [
        good[: random.randrange(len(good))],
        good + b"x",
        login(random, key, b"", b"perseus", host_key),
        login(random, key, session, b"perseus", host_key[:-1]),
        login(random, other, session, b"perseus", host_key),
        login(random, Key(b"", key.blob, b"", other.algorithms[:1]), session, b"u", None),
        good.replace(b"\x32", b"\x33", 1) if b"\x32" not in session else b"",
        good.replace(b"ssh-connection", b"ssh-userauth00"),
        good.replace(b"publickey-hostbound-v00", b"publickey-hostbound-v01"),
        good.replace(b"@openssh.com\x01", b"@openssh.com\x00", 1),
        good.replace(b"@openssh.com\x01", b"@openssh.com\x02", 1),
        b"abc",
    ]
    return random.choice(faulty)


def bind(host_key: bytes, session: bytes, forwarding: int) -> bytes:
    texts = [string(BIND), string(host_key), string(session), string(b"signature")]
    return b"\x1b" + b"".join(texts) + bytes([forwarding])


def garbled(random: Random, body: bytes) -> bytes:
    """A body with some bytes less, more or other."""
    at = random.randrange(len(body))
    kind = random.randrange(5)
    if kind == 0:
        return body[: at + 1]
    if kind == 1:
        return body + random.randbytes(random.randrange(1, 5))
    if kind == 2:
        return body[:at] + body[at + 1 :] or b"\x0b"
    return body[:at] + bytes([random.choice([0, 1, 2, 255, body[at] ^ 1])]) + body[at + 1 :]
