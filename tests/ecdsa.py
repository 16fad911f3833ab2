#!/usr/bin/env python3
"""ECDSA over P-256, P-384 and P-521 as it is built (ecdsa_tool), beside RFC 6979's vectors, NIST's, libcrypto and the second
reading of model/ecdsa.py. Words choose checks by a part of their names; `ecdsa.py N SEED` takes N random keys of each
curve (1000) by a seed."""

import functools
import os
import pathlib
import random
import re
import sys

sys.dont_write_bytecode = True

import line_tools
import rig
from line_tools import spoken, turned
from rig import BUILT, TOP

sys.path.insert(0, str(TOP))

from model import ecdsa as model
from model.ecdsa import CURVES, KEPT_P256, KEPT_P384, KEPT_P521, P256, P384, P521

check = rig.Checks("ecdsa")
# The curves that keep multiples of points that come again.
KEPT = dict(zip(CURVES, (KEPT_P256, KEPT_P384, KEPT_P521)))
TOOL = pathlib.Path(os.environ.get("ECDSA", BUILT / "ecdsa_tool"))
same = functools.partial(line_tools.same, functools.partial(line_tools.answers, TOOL))
VECTORS = pathlib.Path("/usr/lib/python3/dist-packages/cryptography_vectors/asymmetric/ECDSA/FIPS_186-3")
NUMBERS = [int(word) for word in sys.argv[1:] if word.isdigit()]
COUNT = NUMBERS[0] if NUMBERS else 1000
SEED = NUMBERS[1] if len(NUMBERS) > 1 else 66

# RFC 6979, sections A.2.5 to A.2.7: private key, public key, and r and s of "sample" and "test".
VECTORS_6979 = {
    P256: (
        "c9afa9d845ba75166b5c215767b1d6934e50c3db36e89b127b8a622b120f6721",
        "0460fed4ba255a9d31c961eb74c6356d68c049b8923b61fa6ce669622e60f29fb67903fe1008b8bc99a41ae9e95628bc64f2"
        "f1b20c2d7e9f5177a3c294d4462299",
        "efd48b2aacb6a8fd1140dd9cd45e81d69d2c877b56aaf991c34d0ea84eaf3716f7cb1c942d657c41d436c7a1b6e29f65f3e9"
        "00dbb9aff4064dc4ab2f843acda8",
        "f1abb023518351cd71d881567b1ea663ed3efcf6c5132b354f28d3b0b7d38367019f4113742a2b14bd25926b49c649155f26"
        "7e60d3814b4c0cc84250e46f0083",
    ),
    P384: (
        "6b9d3dad2e1b8c1c05b19875b6659f4de23c3b667bf297ba9aa47740787137d896d5724e4c70a825f872c9ea60d2edf5",
        "04ec3a4e415b4e19a4568618029f427fa5da9a8bc4ae92e02e06aae5286b300c64def8f0ea9055866064a254515480bc1380"
        "15d9b72d7d57244ea8ef9ac0c621896708a59367f9dfb9f54ca84b3f1c9db1288b231c3ae0d4fe7344fd2533264720",
        "94edbb92a5ecb8aad4736e56c691916b3f88140666ce9fa73d64c4ea95ad133c81a648152e44acf96e36dd1e80fabe4699ef"
        "4aeb15f178cea1fe40db2603138f130e740a19624526203b6351d0a3a94fa329c145786e679e7b82c71a38628ac8",
        "8203b63d3c853e8d77227fb377bcf7b7b772e97892a80f36ab775d509d7a5feb0542a7f0812998da8f1dd3ca3cf023dbddd0"
        "760448d42d8a43af45af836fce4de8be06b485e9b61b827c2f13173923e06a739f040649a667bf3b828246baa5a5",
    ),
    P521: (
        "00fad06daa62ba3b25d2fb40133da757205de67f5bb0018fee8c86e1b68c7e75caa896eb32f1f47c70855836a6d16fcc1466"
        "f6d8fbec67db89ec0c08b0e996b83538",
        "0401894550d0785932e00eaa23b694f213f8c3121f86dc97a04e5a7167db4e5bcd371123d46e45db6b5d5370a7f20fb63315"
        "5d38ffa16d2bd761dcac474b9a2f5023a400493101c962cd4d2fddf782285e64584139c2f91b47f87ff82354d6630f746a28"
        "a0db25741b5b34a828008b22acc23f924faafbd4d33f81ea66956dfeaa2bfdfcf5",
        "00c328fafcbd79dd77850370c46325d987cb525569fb63c5d3bc53950e6d4c5f174e25a1ee9017b5d450606add152b534931"
        "d7d4e8455cc91f9b15bf05ec36e377fa00617cce7cf5064806c467f678d3b4080d6f1cc50af26ca209417308281b68af2826"
        "23eaa63e5b5c0723d8b8c37ff0777b1a20f8ccb1dccc43997f1ee0e44da4a67a",
        "013e99020abf5cee7525d16b69b229652ab6bdf2affcaef38773b4b7d08725f10cdb93482fdcc54edcee91eca4166b2a7c62"
        "65ef0ce2bd7051b7cef945babd47ee6d01fbd0013c674aa79cb39849527916ce301c66ea7ce8b80682786ad60f98f7e78a19"
        "ca69eff5c57400e3b3a0ad66ce0978214d13baf4e9ac60752f7b155e2de4dce3",
    ),
}


def private_of(curve):
    """The vectors' private key."""
    return int(VECTORS_6979[curve][0], 16)


def public_of(curve):
    """Its public key."""
    return bytes.fromhex(VECTORS_6979[curve][1])


def keying(curve, d):
    return f"key {curve.name} {curve.octets(d).hex()}"


def signing(curve, d, public, message):
    return f"sign {curve.name} {curve.octets(d).hex()} {public.hex()} {message.hex()}"


def verifying(curve, public, message, signature):
    return f"verify {curve.name} {public.hex()} {signature.hex()} {message.hex()}"


def calls_of(curve, d, public, message, signature):
    """The calls of one vector."""
    return [
        (keying(curve, d), public.hex()),
        (signing(curve, d, public, message), signature.hex()),
        (verifying(curve, public, message, signature), "true"),
    ]


@functools.cache
def libcrypto():
    """What Python's cryptography, which calls libcrypto, has for this."""
    with line_tools.cryptography("ecdsa"):
        from cryptography.exceptions import InvalidSignature
        from cryptography.hazmat.primitives import hashes
        from cryptography.hazmat.primitives.asymmetric import ec, utils
    return ec, utils, hashes, InvalidSignature


def of_libcrypto(curve):
    """The curve and its hash function there."""
    ec, _, hashes, _ = libcrypto()
    return {
        P256: (ec.SECP256R1(), hashes.SHA256()),
        P384: (ec.SECP384R1(), hashes.SHA384()),
        P521: (ec.SECP521R1(), hashes.SHA512()),
    }[curve]


@functools.cache
def by_rfc_6979(curve):
    """How libcrypto is asked for the signatures of RFC 6979; None where it is too old for that."""
    from cryptography.exceptions import UnsupportedAlgorithm

    try:
        return libcrypto()[0].ECDSA(of_libcrypto(curve)[1], deterministic_signing=True)
    except (TypeError, UnsupportedAlgorithm):
        return None


def accepts_libcrypto(curve, public, message, signature):
    ec, utils, _, invalid = libcrypto()
    r, s = (int.from_bytes(half, "big") for half in (signature[: curve.size], signature[curve.size :]))
    group, hash_function = of_libcrypto(curve)
    try:
        key = ec.EllipticCurvePublicKey.from_encoded_point(group, public)
        key.verify(utils.encode_dss_signature(r, s), message, ec.ECDSA(hash_function))
    except (invalid, ValueError):
        return False
    return True


@check
def the_vectors_of_the_standard(folder):
    rows = []
    for curve, (_, _, *signatures) in VECTORS_6979.items():
        for message, signature in zip((b"sample", b"test"), signatures):
            rows += calls_of(curve, private_of(curve), public_of(curve), message, bytes.fromhex(signature))
            assert curve.sign(private_of(curve), message).hex() == signature
    assert same(folder, rows) == 6 * len(CURVES)


def vectors_of_nist(name, section):
    """What each vector of a section of a file of NIST assigns."""
    text = VECTORS.joinpath(name).read_text().replace("\r", "")
    (part,) = (part for part in re.split(r"^(?=\[[PKB]-\d)", text, flags=re.M) if part.startswith(section))
    rows = (dict(re.findall(r"^(\w+) = (\w+)", block, flags=re.M)) for block in part.split("\n\n"))
    return [row for row in rows if "Qx" in row]


def public_in(curve, row):
    """The public key of a vector of NIST."""
    return b"\x04" + b"".join(bytes.fromhex(row[part].zfill(2 * curve.size)) for part in ("Qx", "Qy"))


@check
def the_vectors_of_nist(folder):
    """SigVer of CAVP for each curve with its hash: r, s, the message or the key changed, or none; and SigGen, whose keys
    also sign here."""
    rig.install("ecdsa")
    for curve in CURVES:
        section = f"[P-{curve.name[1:]},SHA-{curve.hash_name[3:]}]"
        rows = []
        for name in ("SigVer.rsp", "SigGen.txt"):
            for row in vectors_of_nist(name, section):
                signature = b"".join(bytes.fromhex(row[part].zfill(2 * curve.size)) for part in ("R", "S"))
                public, message, holds = public_in(curve, row), bytes.fromhex(row["Msg"]), row.get("Result", "P") == "P"
                rows.append((verifying(curve, public, message, signature), spoken(holds)))
                if "d" in row:
                    d = int(row["d"], 16)
                    rows += calls_of(curve, d, public, message, KEPT[curve].sign(d, message))
        wanted = [answer for _, answer in rows]
        assert (wanted.count("false"), wanted.count("true")) == (12, 3 + 2 * 15), curve.name
        assert same(folder, rows) == 15 + 4 * 15


@check
def the_keys_of_nist(folder):
    """KeyPair of CAVP: the public key of each private number, by which signatures hold."""
    rig.install("ecdsa")
    rows = []
    for curve in CURVES:
        for edition in ("FIPS_186-2", "FIPS_186-3"):
            for row in vectors_of_nist(f"../{edition}/KeyPair.rsp", f"[P-{curve.name[1:]}]"):
                d = int(row["d"], 16)
                rows += calls_of(curve, d, public_in(curve, row), b"a key", KEPT[curve].sign(d, b"a key"))
    assert same(folder, rows) == 3 * 2 * 10 * len(CURVES)


def unusual_numbers(curve):
    """What draws private numbers that are small, near n, with zeros in front or behind, or with one or two bits or runs."""
    bits = curve.n.bit_length()

    def within(number):
        return number % (curve.n - 1) + 1

    return [
        lambda pick: pick.randrange(1, 256),
        lambda pick: curve.n - pick.randrange(1, 256),
        lambda pick: within(pick.getrandbits(8 * pick.randrange(1, curve.size))),
        lambda pick: within(pick.getrandbits(bits) >> 8 * pick.randrange(1, 9)),
        lambda pick: within(pick.getrandbits(bits) << 64 * pick.randrange(1, bits // 64)),
        lambda pick: within(1 << pick.randrange(bits)),
        lambda pick: within((1 << pick.randrange(bits)) + (1 << pick.randrange(bits))),
        lambda pick: within((1 << pick.randrange(bits)) - (1 << pick.randrange(bits))),
    ]


@functools.cache
def with_ends_in_front(curve):
    """A message whose digest begins with 16 zeros, and one with 16 ones."""
    texts = [f"message {number}".encode() for number in range(500000)]
    return [next(text for text in texts if curve.digest(text).startswith(front)) for front in (bytes(2), b"\xff\xff")]


@check
def random_keys_beside_libcrypto_and_the_model(folder):
    """Keys as libcrypto makes them, every other with an unusual number; signatures as the model does, which libcrypto
    makes too where it can, and takes; libcrypto's own, which are taken here; and one bit turned."""
    ec, utils, _, _ = libcrypto()
    print(f"ecdsa: libcrypto {'makes' if by_rfc_6979(P256) else 'does not make'} the signatures of RFC 6979", flush=True)
    from cryptography.hazmat.primitives.serialization import Encoding, PublicFormat

    pick = random.Random(SEED)
    for curve in CURVES:
        rows, unusual, fixed = [], unusual_numbers(curve), [1, curve.n - 1, 2, curve.n - 2]
        group, hash_function = of_libcrypto(curve)

        def signed(private, message, how):
            return b"".join(map(curve.octets, utils.decode_dss_signature(private.sign(message, how))))

        for number in range(COUNT):
            message = pick.randbytes(pick.choice((0, 1, 31, 55, 56, 64, 111, 112, 200)))
            if number % 16 == 8:
                message = pick.choice(with_ends_in_front(curve))
            d = pick.choice(unusual)(pick) if number % 2 else pick.randrange(1, curve.n)
            if number < len(fixed):
                d = fixed[number]
            private = ec.derive_private_key(d, group)
            public = private.public_key().public_bytes(Encoding.X962, PublicFormat.UncompressedPoint)
            signature = KEPT[curve].sign(d, message)
            assert accepts_libcrypto(curve, public, message, signature)
            if how := by_rfc_6979(curve):
                assert signed(private, message, how) == signature, (d, message)
            rows += calls_of(curve, d, public, message, signature)
            rows.append((verifying(curve, public, message, signed(private, message, ec.ECDSA(hash_function))), "true"))
            texts = [public, message, signature]
            part = pick.choice((0, 2, 2) if not message else (0, 1, 2, 2))
            texts[part] = turned(texts[part], pick.randrange(8 * len(texts[part])))
            rows.append((verifying(curve, *texts), spoken(accepts_libcrypto(curve, *texts))))
            rows.append((signing(curve, d, turned(public, pick.randrange(8 * len(public))), message), "refused"))
        same(folder, rows)


@check
def each_bit_of_one_signature(folder):
    """Each bit of r, s, the key and the message, turned alone."""
    message = b"each bit of this message"
    for curve in CURVES:
        rows = []
        texts = [public_of(curve), message, curve.sign(private_of(curve), message)]
        for part, text in enumerate(texts):
            for place in range(8 * len(text)):
                changed = list(texts)
                changed[part] = turned(text, place)
                rows.append((verifying(curve, *changed), spoken(KEPT[curve].verify(*changed))))
        assert {answer for _, answer in rows} == {"false"}
        assert same(folder, rows) == 8 * (4 * curve.size + 1 + len(message))


@check
def private_keys_at_the_ends(folder):
    """0, n and above are refused, and 1, 2, n - 2 and n - 1 are not."""
    rows = []
    for curve in CURVES:
        top = 2 ** (8 * curve.size)
        for d in (0, curve.n, curve.n + 1, curve.p, top - 1):
            rows += [(keying(curve, d), "refused"), (signing(curve, d, public_of(curve), b"\0"), "refused")]
        for d in (1, 2, curve.n - 2, curve.n - 1, 2**64, 2**128 - 1, curve.n // 2, 2 ** (curve.n.bit_length() - 1)):
            rows += calls_of(curve, d, curve.public_key(d), b"ends", curve.sign(d, b"ends"))
    same(folder, rows)


@check
def signatures_at_the_ends(folder):
    """r and s of 0, 1, n - 1, n, n + 1 and above, as the model answers; and s and n - s, which both hold."""
    message = b"ends"
    for curve in CURVES:
        rows, public = [], public_of(curve)
        right = curve.sign(private_of(curve), message)
        numbers = [0, 1, 2, curve.n - 1, curve.n, curve.n + 1, curve.p, 2 ** (8 * curve.size) - 1]
        halves = [int.from_bytes(half, "big") for half in (right[: curve.size], right[curve.size :])]
        for r in [*numbers, halves[0]]:
            for s in [*numbers, halves[1], curve.n - halves[1]]:
                signature = curve.octets(r) + curve.octets(s)
                rows.append(
                    (verifying(curve, public, message, signature), spoken(curve.verify(public, message, signature)))
                )
        assert [answer for _, answer in rows].count("true") == 2
        same(folder, rows)


@check
def sums_that_double_or_end_at_infinity(folder):
    """[u1]G and [u2]Q that are one point, or opposite ones; and x of R at or above n, of which r is the rest."""
    message = b"a sum"
    for curve in CURVES:
        rows, n = [], curve.n
        e = curve.leftmost(curve.digest(message)) % n
        for d in (1, n - 1, 2, 3):
            # With r d = e the two terms are equal, with r d = -e they are opposite, for any s.
            for sign in (1, -1):
                r = sign * e * pow(d, -1, n) % n
                for s in (1, 2, 12345, r, n - 1):
                    signature = curve.octets(r) + curve.octets(s)
                    public = curve.public_key(d)
                    answer = spoken(curve.verify(public, message, signature))
                    rows.append((verifying(curve, public, message, signature), answer))
        found = 0
        for x in range(n, n + 50):
            y = pow(x**3 + model.A * x + curve.b, (curve.p + 1) // 4, curve.p)
            if not curve.on_curve(x, y):
                continue
            found += 1
            for s in (1, 77):
                # Q with [e / s]G + [r / s]Q = (x, y), for r = x - n.
                r = x - n
                if r == 0:
                    continue
                point = curve.added(curve.times(s, (x, y)), curve.times(n - e, curve.g))
                public = curve.encode(curve.times(pow(r, -1, n), point))
                assert curve.verify(public, message, curve.octets(r) + curve.octets(s))
                rows.append((verifying(curve, public, message, curve.octets(r) + curve.octets(s)), "true"))
                rows.append((verifying(curve, public, message, curve.octets(x) + curve.octets(s)), "false"))
        assert found > 5
        same(folder, rows)


@check
def keys_that_are_no_points(folder):
    """Another first byte, x or y at or above p, points beside the curve, and zeros: refused, by libcrypto too."""
    message = b"keys"
    for curve in CURVES:
        rows, size = [], curve.size
        signature = curve.sign(private_of(curve), message)
        public = public_of(curve)
        x, y = public[1 : size + 1], public[size + 1 :]
        top, above = curve.octets(curve.p), b"\xff" * size
        keys = [bytes([first]) + x + y for first in range(256) if first not in (4, 6, 7)]
        keys += [b"\x04" + a + b for a, b in ((x, x), (y, x), (top, y), (x, top), (above, y), (x, above))]
        keys += [bytes(2 * size + 1), b"\x04" + bytes(2 * size), b"\x04" + x + bytes(size), b"\x04" + top + top]
        root = pow(curve.b, (curve.p + 1) // 4, curve.p)
        # x = 0 may have points; x = p is no other form of it.
        keys += [b"\x04" + top + curve.octets(root)]
        for key in keys:
            assert curve.decode(key) is None and not accepts_libcrypto(curve, key, message, signature), key.hex()
            rows.append((verifying(curve, key, message, signature), "false"))
        # The hybrid form, 06 or 07, which libcrypto takes, isn't SEC 1's.
        rows += [(verifying(curve, bytes([first]) + x + y, message, signature), "false") for first in (6, 7)]
        same(folder, rows)


@check
def lines_that_are_none(folder):
    rows = [("", "not a line"), ("key", "not a line"), ("key p224 00", "not a line")]
    for curve in CURVES:
        name, private, public = curve.name, curve.octets(private_of(curve)).hex(), public_of(curve).hex()
        rows += [(f"key {name} 00", "not a line"), (f"hash {name} {private}", "not a line")]
        rows += [(f"sign {name} {private} 00", "not a line"), (f"verify {name} {public} 00", "not a line")]
        rows += [(f"sign {name} {private} {public} 0", "not a line")]
    same(folder, rows)


if __name__ == "__main__":
    sys.argv[1:] = [word for word in sys.argv[1:] if not word.isdigit()]
    check.main(TOOL)
