#!/usr/bin/env python3
"""RSA signatures as they are built (rsa_tool), beside RSA Laboratories' and NIST's vectors (Debian's
python3-cryptography-vectors) and libcrypto. Words choose checks by a part of their names; `rsa.py N SEED` takes N random
keys of each size (4) and 100 N random messages by a seed."""

import functools
import hashlib
import math
import os
import pathlib
import random
import re
import sys

sys.dont_write_bytecode = True

import line_tools
import memcheck
import rig
from line_tools import spoken, turned
from memcheck import on_a_line
from rig import BUILT

check = rig.Checks("rsa")
TOOL = pathlib.Path(os.environ.get("RSA", BUILT / "rsa_tool"))
same = functools.partial(line_tools.same, functools.partial(line_tools.answers, TOOL))
VECTORS = pathlib.Path("/usr/lib/python3/dist-packages/cryptography_vectors/asymmetric/RSA")
NUMBERS = [int(word) for word in sys.argv[1:] if word.isdigit()]
COUNT = NUMBERS[0] if NUMBERS else 4
SEED = NUMBERS[1] if len(NUMBERS) > 1 else 66
HASHES = ["sha1", "sha256", "sha512"]

# What stands before the digest in a DigestInfo: RFC 8017, section 9.2, note 1.
PREFIXES = {
    "sha1": bytes.fromhex("3021300906052b0e03021a05000414"),
    "sha256": bytes.fromhex("3031300d060960864801650304020105000420"),
    "sha512": bytes.fromhex("3051300d060960864801650304020305000440"),
}


def octets(number):
    """A number without zeros in front, in hexadecimal."""
    text = f"{number:x}"
    return "0" * (len(text) % 2) + text


class Key:
    """The numbers of a private key."""

    def __init__(self, p, q, e, d=None, iqmp=None):
        self.p, self.q, self.e, self.n = p, q, e, p * q
        self.d = pow(e, -1, math.lcm(p - 1, q - 1)) if d is None else d
        self.iqmp = pow(q, -1, p) if iqmp is None else iqmp

    def size(self):
        return (self.n.bit_length() + 7) // 8

    def power(self, encoded):
        return pow(int.from_bytes(encoded, "big"), self.d, self.n).to_bytes(self.size(), "big")

    def signing(self, name, message, front=lambda: "", **changed):
        """The line, with what stands in front of each number but e."""
        numbers = {part: getattr(self, part) for part in ("n", "e", "d", "p", "q", "iqmp")} | changed
        n, e, *others = (front() + octets(number) if part != "e" else str(number) for part, number in numbers.items())
        return " ".join(["sign", name, n, e, *others, message.hex()])

    def verifying(self, name, message, signature, e=None, n=None):
        n = octets(self.n) if n is None else n
        return f"verify {name} {n} {self.e if e is None else e} {signature.hex()} {message.hex()}"


def encoded(name, message, size):
    """EMSA-PKCS1-v1_5 by hand."""
    info = PREFIXES[name] + hashlib.new(name, message).digest()
    return b"\x00\x01" + b"\xff" * (size - len(info) - 3) + b"\x00" + info


@functools.cache
def libcrypto():
    """Python's cryptography, which calls libcrypto."""
    with line_tools.cryptography("rsa"):
        from cryptography.exceptions import InvalidSignature
        from cryptography.hazmat.primitives import hashes
        from cryptography.hazmat.primitives.asymmetric import padding, rsa
    names = {"sha1": hashes.SHA1(), "sha256": hashes.SHA256(), "sha512": hashes.SHA512()}
    return rsa, padding.PKCS1v15(), names, InvalidSignature


def key_of(private):
    numbers = private.private_numbers()
    return Key(numbers.p, numbers.q, numbers.public_numbers.e, numbers.d, numbers.iqmp)


@functools.cache
def drawn(bits):
    """A key of libcrypto, and libcrypto's own handle of it."""
    rsa = libcrypto()[0]
    private = rsa.generate_private_key(public_exponent=65537, key_size=bits)
    return key_of(private), private


def accepts_libcrypto(private, name, message, signature):
    _, padding, names, invalid = libcrypto()
    try:
        private.public_key().verify(signature, message, padding, names[name])
    except (invalid, ValueError):
        return False
    return True


@check
def the_vectors_of_rsa_laboratories(folder):
    """15 keys of 1024 to 1031, 1536 and 2048 bits, of 20 messages each, by SHA-1."""
    rig.install("rsa")
    rows, sizes = [], set()
    text = (VECTORS / "pkcs1v15sign-vectors.txt").read_text()
    for part in re.split(r"# Example \d+: ", text)[1:]:
        fields = [
            (name, int(value.replace(" ", "").replace("\n", ""), 16), bytes.fromhex(value))
            for name, value in re.findall(r"# ([A-Z][\w ]*?):? *\n((?:[0-9a-f ]+\n)+)", part)
        ]
        numbers = {name: number for name, number, _ in fields}
        d = [number for name, number, _ in fields if name == "Exponent"][1]
        key = Key(numbers["Prime 1"], numbers["Prime 2"], 65537, d, numbers["Coefficient"])
        assert key.n == numbers["Modulus"]
        sizes.add(key.n.bit_length())
        messages = [value for name, _, value in fields if name == "Message to be signed"]
        signatures = [value for name, _, value in fields if name == "Signature"]
        assert len(messages) == len(signatures) == 20
        for message, signature in zip(messages, signatures):
            rows.append((key.signing("sha1", message), signature.hex()))
            rows.append((key.verifying("sha1", message, signature), "true"))
    assert sizes == {*range(1024, 1032), 1536, 2048}, sizes
    assert same(folder, rows) == 600


def vectors_of_nist(name, last):
    """What each vector of a file of NIST assigns, with what stands above it for its modulus: those that have `last` in
    the end, and are by a hash function of ours where they are by one."""
    known = {}
    for line in (VECTORS / name).read_text().splitlines():
        if "=" not in line:
            continue
        part, value = (side.strip() for side in line.strip("[] ").split("=", 1))
        known[part] = value
        if part == "mod":
            # Of another key.
            known = {part: value}
        if part == last and name_of(known) in (None, *HASHES):
            yield {part: value for part, value in known.items() if part in ("SHAAlg", "Msg", "Result")} | {
                part: int(known[part], 16) for part in ("n", "e", "d", "p", "q", "S") if part in known
            }


def name_of(row):
    """The hash function of a vector, in our name."""
    return row["SHAAlg"].lower().replace("-", "") if "SHAAlg" in row else None


@functools.cache
def factors(n, e, d):
    """Two factors of n, by exponents that undo each other: a root of 1 other than 1 and -1."""
    odd = e * d - 1
    assert pow(2, odd, n) == 1
    odd //= odd & -odd
    for base in range(2, 200):
        root = pow(base, odd, n)
        while root not in (1, n - 1):
            root, before = root * root % n, root
            if root == 1:
                p = math.gcd(before - 1, n)
                return p, n // p
    raise ValueError("no factors")


def signed_and_verified(key, name, message, signature):
    return [(key.signing(name, message), signature.hex()), (key.verifying(name, message, signature), "true")]


@check
def the_verifications_of_nist(folder):
    """Signatures that were changed in one thing each: message, exponent, signature, and the form of the encoding; and
    the ones that weren't, made anew."""
    rig.install("rsa")
    rows = []
    for path in ("SigVer15EMTest.txt", "FIPS_186-2/SigVer15_186-3.rsp"):
        for row in vectors_of_nist(path, "Result"):
            key, message = Key(row["p"], row["q"], row["e"], row["d"]), bytes.fromhex(row["Msg"])
            assert key.n == row["n"]
            signature, holds = row["S"].to_bytes(key.size(), "big"), row["Result"].startswith("P")
            rows.append((key.verifying(name_of(row), message, signature), spoken(holds)))
            if holds:
                rows.append((key.signing(name_of(row), message), signature.hex()))
    wanted = [answer for _, answer in rows]
    assert (wanted.count("true"), wanted.count("false"), len(rows)) == (45, 315, 405)
    same(folder, rows)


@check
def the_signatures_of_nist(folder):
    """With keys of 1024 to 4096 bits; where d is there they are made anew."""
    rig.install("rsa")
    rows, signed = [], 0
    for path in ("SigGen15_186-2.txt", "SigGen15_186-2.rsp", "SigGen15_186-3.rsp"):
        for row in vectors_of_nist(f"FIPS_186-2/{path}", "S"):
            n, message = row["n"], bytes.fromhex(row["Msg"])
            signature = row["S"].to_bytes((n.bit_length() + 7) // 8, "big")
            rows.append((f"verify {name_of(row)} {octets(n)} {row['e']} {signature.hex()} {row['Msg']}", "true"))
            if "d" in row:
                key = Key(*factors(n, row["e"], row["d"]), row["e"], row["d"])
                rows.append((key.signing(name_of(row), message), signature.hex()))
                signed += 1
    assert signed == 150
    assert same(folder, rows) == 600


@check
def the_keys_of_nist(folder):
    """Of 1024 to 4096 bits, with public exponents of 3, 17 and 65537, and what each signs by the formula."""
    rig.install("rsa")
    rows, message = [], b"a key of NIST"
    for number, row in enumerate(vectors_of_nist("FIPS_186-2/KeyGenRSA.rsp", "d")):
        key, name = Key(row["p"], row["q"], row["e"], row["d"]), HASHES[number % len(HASHES)]
        assert key.n == row["n"]
        rows += signed_and_verified(key, name, message, key.power(encoded(name, message, key.size())))
    assert same(folder, rows) == 2 * 30


@check
def random_keys_beside_libcrypto(folder):
    """Signed alike, of sizes that are whole words and that aren't; with one bit turned, refused as libcrypto does."""
    rsa, padding, names, _ = libcrypto()
    pick, rows = random.Random(SEED), []
    for bits in (1024, 1040, 1096, 2048, 2050, 3072):
        for _ in range(COUNT):
            private = rsa.generate_private_key(public_exponent=pick.choice((3, 65537)), key_size=bits)
            key = key_of(private)
            for name in HASHES:
                message = pick.randbytes(pick.choice((0, 1, 64, 200)))
                signature = private.sign(message, padding, names[name])
                rows.append((key.signing(name, message), signature.hex()))
                rows.append((key.verifying(name, message, signature), "true"))
                wrong = turned(signature, pick.randrange(8 * len(signature)))
                rows.append((key.verifying(name, message, wrong), spoken(accepts_libcrypto(private, name, message, wrong))))
    same(folder, rows)


# Bits of p and of q: one longer than the other, of moduli of 1025 and 2049 bits, and of 1024 to 2048.
SHAPES = [(513, 512), (512, 513), (1025, 1024), (1024, 1025), (300, 725), (1024, 256), (256, 800), (512, 512)]
# One more than there are shapes, so that each comes with each.
EXPONENTS = [3, 5, 17, 257, 65539, 2**31 + 11, 2**32 + 1, 2**63 + 29, 2**64 - 1]


def prime(pick, bits, e):
    """A prime p of so many bits, where e and p - 1 share no factor: by libcrypto where it makes such short keys."""
    while True:
        if bits >= 512:
            numbers = libcrypto()[0].generate_private_key(65537, 2 * bits).private_numbers()
            number = pick.choice((numbers.p, numbers.q))
        else:
            number = pick.getrandbits(bits) | 1 | 3 << bits - 2
            if not all(number % small for small in range(3, 2000, 2)) or pow(2, number - 1, number) != 1:
                continue
        if math.gcd(e, number - 1) == 1:
            return number


def unusual_key(pick, shape, e):
    """With another d that does the same work; and libcrypto's handle of it."""
    p, q = (prime(pick, bits, e) for bits in shape)
    order = math.lcm(p - 1, q - 1)
    d = pow(e, -1, order)
    key = Key(p, q, e, d + order * pick.randrange((p * q - d) // order + 1))
    rsa = libcrypto()[0]
    public = rsa.RSAPublicNumbers(e, key.n)
    return key, rsa.RSAPrivateNumbers(p, q, key.d, key.d % (p - 1), key.d % (q - 1), key.iqmp, public).private_key()


@check
def unusual_keys_beside_libcrypto(folder):
    """Factors of unlike lengths, p < q, moduli of a bit more than whole words, exponents from 3 to 64 bits, other d, and
    zeros in front of all numbers: signed alike, and with one bit turned refused as libcrypto does."""
    _, padding, names, _ = libcrypto()
    pick, rows, seen = random.Random(SEED), [], set()
    for number, shape in enumerate(SHAPES * COUNT):
        key, private = unusual_key(pick, shape, EXPONENTS[number % len(EXPONENTS)])
        seen |= {key.n.bit_length(), "p < q" if key.p < key.q else "p > q"}
        for _ in range(13):
            name, message = pick.choice(HASHES), pick.randbytes(pick.randrange(200))
            signature = private.sign(message, padding, names[name])
            seen |= {"zeros"} if not signature[0] else set()
            rows.append((key.signing(name, message, lambda: "00" * pick.randrange(3)), signature.hex()))
            rows.append((key.verifying(name, message, signature, n="00" * pick.randrange(3) + octets(key.n)), "true"))
            wrong = turned(signature, pick.randrange(8 * len(signature)))
            rows.append((key.verifying(name, message, wrong), spoken(accepts_libcrypto(private, name, message, wrong))))
    assert seen >= {"p < q", "p > q", "zeros", 1025, 2049}, seen
    same(folder, rows)


@check
def random_messages_beside_libcrypto(folder):
    """Signed alike, by keys that come again."""
    _, padding, names, _ = libcrypto()
    pick, rows = random.Random(SEED), []
    for _ in range(100 * COUNT):
        key, private = drawn(pick.choice((1024, 2048, 3072)))
        name, message = pick.choice(HASHES), pick.randbytes(pick.randrange(200))
        rows.append((key.signing(name, message), private.sign(message, padding, names[name]).hex()))
    same(folder, rows)


@check
def long_keys_beside_libcrypto(folder):
    """4096 and 8192 bits."""
    _, padding, names, _ = libcrypto()
    rows = []
    for bits in (4096, 8192):
        key, private = drawn(bits)
        for name in HASHES:
            signature = private.sign(b"long", padding, names[name])
            rows.append((key.signing(name, b"long"), signature.hex()))
            rows.append((key.verifying(name, b"long", signature), "true"))
    same(folder, rows)


@check
def each_bit_of_one_signature(folder):
    key, private = drawn(1024)
    message, rows = b"each bit of this signature", []
    signature = key.power(encoded("sha256", message, key.size()))
    for place in range(8 * len(signature)):
        wrong = turned(signature, place)
        rows.append((key.verifying("sha256", message, wrong), spoken(accepts_libcrypto(private, "sha256", message, wrong))))
    rows.append((key.verifying("sha256", message, signature), "true"))
    assert same(folder, rows) == 1025


@check
def wrong_encodings(folder):
    """Paddings, hash names and forms of a DigestInfo, each signed by hand and changed in one thing."""
    key, _ = drawn(1024)
    message, size = b"this", key.size()
    right = encoded("sha256", message, size)
    digest = hashlib.sha256(message).digest()
    info = PREFIXES["sha256"] + digest
    bare = PREFIXES["sha256"].replace(b"\x05\x00", b"").replace(b"\x30\x31\x30\x0d", b"\x30\x2f\x30\x0b") + digest
    others = [
        b"\x00\x02" + right[2:],
        b"\x01\x01" + right[2:],
        b"\x00\x00" + right[2:],
        right[:10] + b"\xfe" + right[11:],
        b"\x00\x01" + b"\xff" * (size - len(info) - 2) + info,
        b"\x00\x01" + b"\xff" * 8 + b"\x00" + info + bytes(size - len(info) - 11),
        b"\x00\x01" + b"\xff" * (size - len(bare) - 3) + b"\x00" + bare,
        b"\x00\x01" + b"\xff" * (size - len(digest) - 3) + b"\x00" + digest,
        encoded("sha512", message, size),
        encoded("sha1", message, size),
        encoded("sha256", b"that", size),
    ]
    rows = [(key.verifying("sha256", message, key.power(right)), "true")]
    rows += [(key.verifying("sha256", message, key.power(other)), "false") for other in others]
    same(folder, rows)


@check
def lengths_and_bounds_of_signatures(folder):
    """Of k octets alone, and below n; zeros in front of n count for nothing."""
    key, _ = drawn(1024)
    message = b"bounds"
    signature = key.power(encoded("sha256", message, key.size()))
    number = int.from_bytes(signature, "big")
    rows = [(key.verifying("sha256", message, signature, n="000000" + octets(key.n)), "true")]
    for other in (b"", signature[1:], signature[:-1], b"\x00" + signature, signature + b"\x00", bytes(128), b"\xff" * 128):
        rows.append((key.verifying("sha256", message, other), "false"))
    for other in (number + key.n, key.n, key.n - 1, 0, 1):
        if other < 1 << 1024:
            rows.append((key.verifying("sha256", message, other.to_bytes(128, "big")), "false"))
    # a signature that begins with a zero, and the same without it
    for salt in range(100000):
        message = str(salt).encode()
        signature = key.power(encoded("sha256", message, key.size()))
        if not signature[0]:
            break
    rows.append((key.verifying("sha256", message, signature), "true"))
    rows.append((key.verifying("sha256", message, signature[1:]), "false"))
    rows.append((key.signing("sha256", message), signature.hex()))
    same(folder, rows)


@check
def public_keys_that_are_none(folder):
    """Moduli too short, too long or even, and exponents of 0, 1 and even ones, as the formula has them."""
    key, _ = drawn(1024)
    message = b"keys"
    em = encoded("sha256", message, key.size())
    rows = []
    for n in ("00", "01", octets(key.n >> 1), octets(key.n >> 8), octets(key.n + 1), octets(key.n << 1), "ff" * 1025):
        rows.append((key.verifying("sha256", message, em, n=n), "false"))
    rows.append((key.verifying("sha256", message, em, e=0), "false"))
    # s^1 is s: the formula takes the encoding itself, as the standard does; which exponents a key may have is for others
    rows.append((key.verifying("sha256", message, em, e=1), "true"))
    square = (int.from_bytes(em, "big") ** 2 % key.n).to_bytes(key.size(), "big")
    rows.append((key.verifying("sha256", message, square, e=2), "false"))
    same(folder, rows)


@check
def private_keys_that_are_none(folder):
    """What doesn't fit together, or has another size, signs nothing; zeros in front count for nothing."""
    key, _ = drawn(1024)
    other, _ = drawn(1040)
    message, refused = b"private", []
    right = key.power(encoded("sha256", message, key.size())).hex()
    for changed in (
        {"p": key.q},
        {"q": key.p},
        {"p": key.q, "q": key.p},
        {"p": key.p + 2},
        {"p": key.p + 1},
        {"q": key.q + 1},
        {"p": 3},
        {"p": 1},
        {"p": 0},
        {"q": 2**64 - 59},
        {"p": key.n, "q": 1},
        {"d": key.d + 2},
        {"d": 0},
        {"d": key.n << 64},
        {"iqmp": key.iqmp + 1},
        {"iqmp": 0},
        {"iqmp": key.p << 64},
        {"n": other.n},
        {"n": key.n + 2},
        {"n": key.n + 1},
        {"e": 65539},
        {"e": 65536},
        {"e": 0},
    ):
        refused.append((key.signing("sha256", message, **changed), "refused"))
    rows = [(key.signing("sha256", message), right), (key.signing("sha256", message, lambda: "0000"), right)]
    # An exponent that does the same work: another by a multiple of both p - 1 and q - 1. Below n there are two at least,
    # and d may be either; one of more bits than n has another size.
    both = math.lcm(key.p - 1, key.q - 1)
    rows.append((key.signing("sha256", message, d=key.d - both if key.d >= both else key.d + both), right))
    refused.append((key.signing("sha256", message, d=key.d + both * (2**key.n.bit_length() // both + 1)), "refused"))
    same(folder, rows + refused)


@check
def factors_of_different_lengths(folder):
    """p of 400 bits and q of 700, either way round, and factors whose words aren't whole."""
    libcrypto()
    pick, rows = random.Random(SEED), []
    for first, second in ((400, 700), (700, 400), (513, 515), (520, 504), (100, 1000), (1000, 100)):
        key = Key(prime(pick, first, 65537), prime(pick, second, 65537), 65537)
        if key.n.bit_length() < 1024:
            continue
        for name in HASHES:
            signature = key.power(encoded(name, b"unlike", key.size()))
            rows.append((key.signing(name, b"unlike"), signature.hex()))
            rows.append((key.verifying(name, b"unlike", signature), "true"))
    assert len(rows) > 20
    same(folder, rows)


def stacked(place):
    """A word that a function is passed on the stack."""
    return f"*(unsigned long *)($rsp + {place})"


# What looks at a signature first.
VERIFIES = "rsa_verify::verification::opens"
# Where LLVM's build passes each secret number, and its octets for a key of 1024 bits: the message, d and a factor; then
# both parts, iqmp, p and q. A wrong place shows: memcheck would find nothing in the verification either.
SECRETS = [
    ("rsa_sign::part::part_of", [("$rsi", 128), ("$rcx", 128), ("$r9", 64)]),
    ("rsa_sign::joining::set_joined", [("$rsi", 64), ("$rcx", 64), ("$r9", 64), (stacked(16), 64), (stacked(32), 64)]),
]


@check
def no_step_depends_on_a_secret(folder):
    """By memcheck: no jump and no address, of each number by itself, until the signature that comes of it is verified."""
    rig.install("constant_time")
    start = on_a_line(TOOL, drawn(1024)[0].signing("sha256", b"watched"))
    for function, marks in SECRETS:
        for place, size in marks:
            found = memcheck.watched(folder, start, TOOL, function, [memcheck.undefined(place, size)])
            assert found.returned and found.before == 0, f"{function}, {place}: {found.places}"
            assert {where for _, where in found.places} == {VERIFIES}, f"{function}, {place}: {found.places}"


@check
def lines_that_are_none(folder):
    same(folder, [("", "not a line"), ("sign", "not a line"), ("sign md5 00 3", "not a line"), ("verify sha1 00 x", "not a line")])


if __name__ == "__main__":
    sys.argv[1:] = [word for word in sys.argv[1:] if not word.isdigit()]
    check.main(TOOL)
