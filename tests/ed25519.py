#!/usr/bin/env python3
"""Ed25519 as it is built (ed25519_tool), beside RFC 8032's vectors, Debian's python3-cryptography-vectors, libcrypto and
the second reading of model/ed25519.py. Words choose checks by a part of their names; `ed25519.py N SEED` takes N random
keys (10000) by a seed."""

import functools
import os
import pathlib
import random
import sys
import unittest.mock

sys.dont_write_bytecode = True

import line_tools
import rig
from line_tools import spoken, turned
from rig import BUILT, TOP

sys.path.insert(0, str(TOP))

from model import ed25519 as model

check = rig.Checks("ed25519")
TOOL = pathlib.Path(os.environ.get("ED25519", BUILT / "ed25519_tool"))
same = functools.partial(line_tools.same, functools.partial(line_tools.answers, TOOL))
VECTORS = "/usr/lib/python3/dist-packages/cryptography_vectors/asymmetric/Ed25519/sign.input"
NUMBERS = [int(word) for word in sys.argv[1:] if word.isdigit()]
COUNT = NUMBERS[0] if NUMBERS else 10000
SEED = NUMBERS[1] if len(NUMBERS) > 1 else 64

# RFC 8032, section 7.1: seed, public key, message and signature of TEST 1, 2, 3 and SHA(abc). TEST 1024 is Debian's last.
ROWS = [
    (
        "9d61b19deffd5a60ba844af492ec2cc44449c5697b326919703bac031cae7f60",
        "d75a980182b10ab7d54bfed3c964073a0ee172f3daa62325af021a68f707511a",
        "",
        "e5564300c360ac729086e2cc806e828a84877f1eb8e5d974d873e065224901555fb8821590a33bacc61e39701cf9b46bd25bf5f0595bbe24"
        "655141438e7a100b",
    ),
    (
        "4ccd089b28ff96da9db6c346ec114e0f5b8a319f35aba624da8cf6ed4fb8a6fb",
        "3d4017c3e843895a92b70aa74d1b7ebc9c982ccf2ec4968cc0cd55f12af4660c",
        "72",
        "92a009a9f0d4cab8720e820b5f642540a2b27b5416503f8fb3762223ebdb69da085ac1e43e15996e458f3613d0f11d8c387b2eaeb4302aee"
        "b00d291612bb0c00",
    ),
    (
        "c5aa8df43f9f837bedb7442f31dcb7b166d38535076f094b85ce3a2e0b4458f7",
        "fc51cd8e6218a1a38da47ed00230f0580816ed13ba3303ac5deb911548908025",
        "af82",
        "6291d657deec24024827e69c3abe01a30ce548a284743a445e3680d7db5ac3ac18ff9b538d16f290ae67f760984dc6594a7c15e9716ed28d"
        "c027beceea1ec40a",
    ),
    (
        "833fe62409237b9d62ec77587520911e9a759cec1d19755b7da901b96dca3d42",
        "ec172b93ad5e563bf4932c70e1245034c35467ef2efd4d64ebf819683467e2bf",
        "ddaf35a193617abacc417349ae20413112e6fa4e89a97ea20a9eeee64b55d39a2192992a274fc1a836ba3c23a3feebbd454d4423643ce80e"
        "2a9ac94fa54ca49f",
        "dc2a4459e7369633a52b1bf277839a00201009a3efbf3ecb69bea2186c26b58909351fc9ac90b3ecfdfbc7c66431e0303dca179c138ac17a"
        "d9bef1177331a704",
    ),
]


def calls_of(seed, public, message, signature):
    """The calls of one vector."""
    return [
        (f"key {seed}", public),
        (f"sign {seed} {public} {message}", signature),
        (f"verify {public} {signature} {message}", "true"),
    ]


@functools.cache
def libcrypto():
    """The key types of Python's cryptography, which calls libcrypto."""
    with line_tools.cryptography("ed25519"):
        from cryptography.exceptions import InvalidSignature
        from cryptography.hazmat.primitives.asymmetric import ed25519
    return ed25519.Ed25519PrivateKey, ed25519.Ed25519PublicKey, InvalidSignature


def accepts_libcrypto(public, message, signature):
    _, keys, invalid = libcrypto()
    try:
        keys.from_public_bytes(public).verify(signature, message)
    except (invalid, ValueError):
        return False
    return True


def verifying(public, message, signature):
    return f"verify {public.hex()} {signature.hex()} {message.hex()}"


def public_bytes(key):
    """The 32 bytes of a private key's public key, by calls that old releases have too."""
    from cryptography.hazmat.primitives.serialization import Encoding, PublicFormat

    return key.public_key().public_bytes(Encoding.Raw, PublicFormat.Raw)


@check
def the_vectors_of_the_standard(folder):
    rows = [row for vector in ROWS for row in calls_of(*vector)]
    rows.append((f"sign {ROWS[0][0]} {ROWS[1][1]} ", "refused"))
    same(folder, rows)


@check
def the_thousand_vectors_of_debian(folder):
    """Messages of 0 to 1023 bytes: the rows that came with the reference implementation."""
    rig.install("ed25519")
    rows = []
    for line in pathlib.Path(VECTORS).read_text().splitlines():
        secret, public, message, signed = line.split(":")[:4]
        rows += calls_of(secret[:64], public, message, signed[:128])
    assert secret.startswith("f5e5767cf153319517630f22") and signed.startswith("0aab4c900501b3e24d7cdf46"), "TEST 1024"
    assert same(folder, rows) == 3 * 1024


def unusual_seed(pick):
    """Zeros or ones with one or two bits turned, or with some bytes by chance, or one byte over and over."""
    seed = bytearray(pick.choice((b"\x00", b"\xff")) * 32)
    kind = pick.randrange(4)
    if kind == 0:
        return bytes([pick.randrange(256)]) * 32
    if kind == 1:
        return turned(turned(seed, pick.randrange(256)), pick.randrange(256))
    if kind == 2:
        return turned(seed, pick.randrange(256))
    begin = pick.randrange(32)
    end = pick.randrange(begin, 33)
    seed[begin:end] = pick.randbytes(end - begin)
    return bytes(seed)


@check
def random_keys_beside_libcrypto(folder):
    """Signed alike, with every other seed an unusual one; and with one bit of R, S, A or the message turned, refused as
    libcrypto does."""
    private, _, _ = libcrypto()
    pick, rows, fixed = random.Random(SEED), [], [bytes(32), b"\xff" * 32]
    for number in range(COUNT):
        seed, message = pick.randbytes(32), pick.randbytes(pick.choice((0, 1, 31, 64, 111, 112, 200)))
        if number % 2:
            seed = unusual_seed(pick)
        if number < len(fixed):
            seed = fixed[number]
        key = private.from_private_bytes(seed)
        public, signature = public_bytes(key), key.sign(message)
        rows += calls_of(seed.hex(), public.hex(), message.hex(), signature.hex())
        texts = [public, message, signature]
        part = pick.choice((0, 2, 2) if not message else (0, 1, 2, 2))
        texts[part] = turned(texts[part], pick.randrange(8 * len(texts[part])))
        rows.append((verifying(*texts), spoken(accepts_libcrypto(*texts))))
        other = turned(public, pick.randrange(8 * len(public)))
        rows.append((f"sign {seed.hex()} {other.hex()} {message.hex()}", "refused"))
    same(folder, rows)


@check
def each_bit_of_one_signature(folder):
    """Each bit of R, S, the key and the message, turned alone."""
    private, _, _ = libcrypto()
    key, message = private.from_private_bytes(bytes(range(32))), b"each bit of this message"
    texts = [public_bytes(key), message, key.sign(message)]
    rows = []
    for part, text in enumerate(texts):
        for place in range(8 * len(text)):
            changed = list(texts)
            changed[part] = turned(text, place)
            rows.append((verifying(*changed), spoken(accepts_libcrypto(*changed))))
    assert same(folder, rows) == 8 * (32 + len(message) + 64)


@check
def long_messages(folder):
    private, _, _ = libcrypto()
    key, rows = private.from_private_bytes(b"\x07" * 32), []
    for length in (*range(1025), 262000):
        message = b"m" * length
        rows += calls_of("07" * 32, public_bytes(key).hex(), message.hex(), key.sign(message).hex())
    same(folder, rows)


# Points of order 1, 2, 4 and 8, as RFC 8032, section 5.1.3, decodes them.
SMALL = [
    "0100000000000000000000000000000000000000000000000000000000000000",
    "ecffffffffffffffffffffffffffffffffffffffffffffffffffffffffffff7f",
    "0000000000000000000000000000000000000000000000000000000000000000",
    "0000000000000000000000000000000000000000000000000000000000000080",
    "26e8958fc2b227b045c3f489f2ef98f0d5dfac05d3c63339b13802886d53fc05",
    "26e8958fc2b227b045c3f489f2ef98f0d5dfac05d3c63339b13802886d53fc85",
    "c7176a703d4dd84fba3c0b760d10670f2a2053fa2c39ccc64ec7fd7792ac037a",
    "c7176a703d4dd84fba3c0b760d10670f2a2053fa2c39ccc64ec7fd7792ac03fa",
]


def response_only(number):
    """R and S with R the encoding of [S]B: right under a key of order 1, and under others by chance."""
    return model.encode(model.times(number % model.L, model.BASE)) + model.octets(number)


@check
def points_of_small_order(folder):
    """A small-order key, a mixed one, a small-order R, and S at and above L: as libcrypto answers, and the model."""
    rows, pick = [], random.Random(SEED)
    signature = response_only(7)
    cases = [(bytes.fromhex(key), pick.randbytes(8), signature) for key in SMALL for _ in range(8)]
    for text in SMALL:
        point = bytes.fromhex(text)
        mixed = model.encode(model.added(model.decode(point), model.times(5, model.BASE)))
        cases += [(mixed, pick.randbytes(8), signature), (bytes.fromhex(SMALL[0]), b"", point + bytes(32))]
    for number in (0, 1, model.L - 1, model.L, model.L + 1, model.L + 7, 2**253 - 1, 2**255, 2**256 - 1):
        cases.append((bytes.fromhex(SMALL[0]), b"S", response_only(number)))
    for case in cases:
        by_model = model.verify(*case)
        assert by_model == accepts_libcrypto(*case), case
        rows.append((verifying(*case), spoken(by_model)))
    wanted = {answer for _, answer in rows}
    assert wanted == {"true", "false"}
    same(folder, rows)


@check
def parts_of_small_order(folder):
    """Keys and R with a part of order 8, for which section 5.1.7's equation holds with the factor 8. Without that it holds
    where R's part is the one of [k]A', be k taken modulo L or with all its 512 bits: the first counts, here and for
    libcrypto."""
    part, rows = model.decode(bytes.fromhex(SMALL[4])), []
    assert model.times(4, part) != model.NEUTRAL == model.times(8, part)
    kinds = [(modulo, whole) for modulo in (False, True) for whole in (False, True)]
    for scalar, nonce in ((0, 0), (1, 1), (12345, 2**200 + 1)):
        public = model.encode(model.added(model.times(scalar, model.BASE), part))
        for count in range(8):
            commitment = model.encode(model.added(model.times(nonce, model.BASE), model.times(8 - count, part)))
            for kind in kinds:
                for message in (str(number).encode() for number in range(100000)):
                    k = model.integer(model.hashed(commitment, public, message))
                    if kind == (k % model.L % 8 == count, k % 8 == count):
                        break
                case = public, message, commitment + model.octets((nonce + k * scalar) % model.L)
                assert model.verify(*case) == accepts_libcrypto(*case) == kind[0], case
                rows.append((verifying(*case), spoken(kind[0])))
        # The key of a seed has no such part.
        public = model.encode(model.times(scalar + 1, model.BASE))
        for count in range(8):
            commitment = model.encode(model.added(model.times(nonce, model.BASE), model.times(count, part)))
            k = model.integer(model.hashed(commitment, public, b""))
            case = public, b"", commitment + model.octets((nonce + k * (scalar + 1)) % model.L)
            assert model.verify(*case) == accepts_libcrypto(*case) == (count == 0), case
            rows.append((verifying(*case), spoken(count == 0)))
    assert same(folder, rows) == 3 * (8 * 4 + 8)


def no_encodings():
    """y at or above p, and x = 0 with the sign set."""
    zero_signed = [model.octets(1 | 1 << 255), model.octets(model.P - 1 | 1 << 255)]
    return zero_signed + [model.octets(model.P + more | sign << 255) for more in range(19) for sign in (0, 1)]


@check
def commitments_that_are_no_encodings(folder):
    """In the place of R, where the equation holds of the point that a reduction makes of some: refused, by libcrypto too."""
    rows = []
    for commitment in no_encodings():
        for key in map(bytes.fromhex, SMALL):
            for message in (bytes([number]) for number in range(8)):
                case = key, message, commitment + bytes(32)
                assert not model.verify(*case) and not accepts_libcrypto(*case), case
                rows.append((verifying(*case), "false"))
    same(folder, rows)


@check
def keys_that_are_no_encodings(folder):
    """y at or above p, and x = 0 with the sign set: refused here, by section 5.1.3, where libcrypto reduces or ignores."""
    rows, others, signature = [], 0, response_only(9)
    for key in no_encodings():
        assert model.decode(key) is None
        for message in (bytes([number]) for number in range(8)):
            others += accepts_libcrypto(key, message, signature)
            rows.append((verifying(key, message, signature), "false"))
    assert others > 0, "libcrypto refused them all"
    same(folder, rows)


@check
def the_second_reading(folder):
    """Random keys, messages and changed signatures, by the model alone."""
    pick, rows = random.Random(SEED + 1), []
    for _ in range(max(1, COUNT // 200)):
        seed, message = pick.randbytes(32), pick.randbytes(pick.randrange(100))
        public, signature = model.public_key(seed), model.sign(seed, message)
        rows += calls_of(seed.hex(), public.hex(), message.hex(), signature.hex())
        wrong = turned(signature, pick.randrange(8 * len(signature)))
        rows.append((verifying(public, message, wrong), spoken(model.verify(public, message, wrong))))
    same(folder, rows)


def without_the_key(*texts):
    return HASHED(*(texts[:1] + texts[2:] if len(texts) == 3 else texts))


def without_bit_254(seed):
    scalar, prefix = EXPANDED(seed)
    return scalar ^ 1 << 254, prefix


HASHED, EXPANDED = model.hashed, model.expanded
# Readings of the standard that are wrong in one thing: which name of the model stands for what.
WRONG = [("D", -model.D % model.P), ("expanded", without_bit_254), ("hashed", without_the_key)]


@check
def wrong_readings_are_told_by_the_vectors(_):
    """The sign of d, a clamp without bit 254, and a challenge without the key."""
    seed, _, message, signature = map(bytes.fromhex, ROWS[1])
    assert model.sign(seed, message) == signature
    for name, wrong in WRONG:
        with unittest.mock.patch.object(model, name, wrong):
            try:
                told = model.sign(seed, message) != signature
            except ValueError:
                # With another d the law isn't complete: some sums have no denominator.
                told = True
        assert told, name


@check
def lines_that_are_none(folder):
    seed, public = ROWS[0][:2]
    rows = [("", "not a line"), ("key", "not a line"), ("key 00", "not a line"), (f"hash {seed}", "not a line")]
    rows += [(f"sign {seed} 00", "not a line"), (f"verify {public} 00", "not a line"), (f"sign {seed} {public} 0", "not a line")]
    same(folder, rows)


if __name__ == "__main__":
    sys.argv[1:] = [word for word in sys.argv[1:] if not word.isdigit()]
    check.main(TOOL)
