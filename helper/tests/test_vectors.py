"""Vectors of RFC 8032, RFC 6979, RFC 3526 and RFC 7919, and stand-in keys by Python's hmac."""

import hashlib
import hmac
import math
import subprocess
import tempfile
import unittest

from peer import IS_BEHIND, Helper, mpint, string, strings

# RFC 8032, section 7.1: seed, public key, message, signature.
ED25519 = [
    ("9d61b19deffd5a60ba844af492ec2cc44449c5697b326919703bac031cae7f60",
     "d75a980182b10ab7d54bfed3c964073a0ee172f3daa62325af021a68f707511a", "",
     "e5564300c360ac729086e2cc806e828a84877f1eb8e5d974d873e065224901555"
     "fb8821590a33bacc61e39701cf9b46bd25bf5f0595bbe24655141438e7a100b"),
    ("4ccd089b28ff96da9db6c346ec114e0f5b8a319f35aba624da8cf6ed4fb8a6fb",
     "3d4017c3e843895a92b70aa74d1b7ebc9c982ccf2ec4968cc0cd55f12af4660c", "72",
     "92a009a9f0d4cab8720e820b5f642540a2b27b5416503f8fb3762223ebdb69da"
     "085ac1e43e15996e458f3613d0f11d8c387b2eaeb4302aeeb00d291612bb0c00"),
    ("c5aa8df43f9f837bedb7442f31dcb7b166d38535076f094b85ce3a2e0b4458f7",
     "fc51cd8e6218a1a38da47ed00230f0580816ed13ba3303ac5deb911548908025", "af82",
     "6291d657deec24024827e69c3abe01a30ce548a284743a445e3680d7db5ac3ac"
     "18ff9b538d16f290ae67f760984dc6594a7c15e9716ed28dc027beceea1ec40a"),
    ("833fe62409237b9d62ec77587520911e9a759cec1d19755b7da901b96dca3d42",
     "ec172b93ad5e563bf4932c70e1245034c35467ef2efd4d64ebf819683467e2bf",
     hashlib.sha512(b"abc").hexdigest(),
     "dc2a4459e7369633a52b1bf277839a00201009a3efbf3ecb69bea2186c26b589"
     "09351fc9ac90b3ecfdfbc7c66431e0303dca179c138ac17ad9bef1177331a704"),
]

# RFC 6979, A.2.5 to A.2.7: curve, x, Ux, Uy, and r and s for "sample" and "test" with its digest.
ECDSA = [
    ("nistp256", 65,
     "C9AFA9D845BA75166B5C215767B1D6934E50C3DB36E89B127B8A622B120F6721",
     "60FED4BA255A9D31C961EB74C6356D68C049B8923B61FA6CE669622E60F29FB6",
     "7903FE1008B8BC99A41AE9E95628BC64F2F1B20C2D7E9F5177A3C294D4462299",
     "EFD48B2AACB6A8FD1140DD9CD45E81D69D2C877B56AAF991C34D0EA84EAF3716",
     "F7CB1C942D657C41D436C7A1B6E29F65F3E900DBB9AFF4064DC4AB2F843ACDA8",
     "F1ABB023518351CD71D881567B1EA663ED3EFCF6C5132B354F28D3B0B7D38367",
     "019F4113742A2B14BD25926B49C649155F267E60D3814B4C0CC84250E46F0083"),
    ("nistp384", 97,
     "6B9D3DAD2E1B8C1C05B19875B6659F4DE23C3B667BF297BA9AA47740787137D8"
     "96D5724E4C70A825F872C9EA60D2EDF5",
     "EC3A4E415B4E19A4568618029F427FA5DA9A8BC4AE92E02E06AAE5286B300C64"
     "DEF8F0EA9055866064A254515480BC13",
     "8015D9B72D7D57244EA8EF9AC0C621896708A59367F9DFB9F54CA84B3F1C9DB1"
     "288B231C3AE0D4FE7344FD2533264720",
     "94EDBB92A5ECB8AAD4736E56C691916B3F88140666CE9FA73D64C4EA95AD133C"
     "81A648152E44ACF96E36DD1E80FABE46",
     "99EF4AEB15F178CEA1FE40DB2603138F130E740A19624526203B6351D0A3A94F"
     "A329C145786E679E7B82C71A38628AC8",
     "8203B63D3C853E8D77227FB377BCF7B7B772E97892A80F36AB775D509D7A5FEB"
     "0542A7F0812998DA8F1DD3CA3CF023DB",
     "DDD0760448D42D8A43AF45AF836FCE4DE8BE06B485E9B61B827C2F13173923E0"
     "6A739F040649A667BF3B828246BAA5A5"),
    ("nistp521", 133,
     "00FAD06DAA62BA3B25D2FB40133DA757205DE67F5BB0018FEE8C86E1B68C7E75"
     "CAA896EB32F1F47C70855836A6D16FCC1466F6D8FBEC67DB89EC0C08B0E996B8"
     "3538",
     "01894550D0785932E00EAA23B694F213F8C3121F86DC97A04E5A7167DB4E5BCD"
     "371123D46E45DB6B5D5370A7F20FB633155D38FFA16D2BD761DCAC474B9A2F50"
     "23A4",
     "00493101C962CD4D2FDDF782285E64584139C2F91B47F87FF82354D6630F746A"
     "28A0DB25741B5B34A828008B22ACC23F924FAAFBD4D33F81EA66956DFEAA2BFD"
     "FCF5",
     "00C328FAFCBD79DD77850370C46325D987CB525569FB63C5D3BC53950E6D4C5F"
     "174E25A1EE9017B5D450606ADD152B534931D7D4E8455CC91F9B15BF05EC36E3"
     "77FA",
     "00617CCE7CF5064806C467F678D3B4080D6F1CC50AF26CA209417308281B68AF"
     "282623EAA63E5B5C0723D8B8C37FF0777B1A20F8CCB1DCCC43997F1EE0E44DA4"
     "A67A",
     "013E99020ABF5CEE7525D16B69B229652AB6BDF2AFFCAEF38773B4B7D08725F1"
     "0CDB93482FDCC54EDCEE91ECA4166B2A7C6265EF0CE2BD7051B7CEF945BABD47"
     "EE6D",
     "01FBD0013C674AA79CB39849527916CE301C66EA7CE8B80682786AD60F98F7E7"
     "8A19CA69EFF5C57400E3B3A0AD66CE0978214D13BAF4E9AC60752F7B155E2DE4"
     "DCE3"),
]

STANDIN = b"keyed-sha256@example.com"


def strung(*fields):
    return b"".join(map(string, fields))


def number(digits):
    return int(digits, 16)


class Ed25519(unittest.TestCase):
    def test_signatures_are_those_of_rfc_8032_and_no_other_half_signs(self):
        with Helper() as helper:
            for seed, pk, message, wanted in ED25519:
                seed, pk, message, wanted = map(bytes.fromhex, (seed, pk, message, wanted))
                wanted = strung(b"ssh-ed25519", wanted)
                private = strung(b"ssh-ed25519", pk, seed + pk)
                blob = strung(b"ssh-ed25519", pk)
                self.assertEqual(helper.sign(private, blob, message), wanted)
                self.assertTrue(helper.verify(blob, wanted, message))
                foreign = bytes.fromhex(ED25519[0 if pk.hex() == ED25519[1][1] else 1][1])
                private = strung(b"ssh-ed25519", foreign, seed + foreign)
                self.assertIsNone(helper.sign(private, strung(b"ssh-ed25519", foreign), message))


class Ecdsa(unittest.TestCase):
    def test_signatures_of_rfc_6979_verify_and_so_do_own_ones(self):
        with Helper() as helper:
            for curve, length, d, x, y, *pairs in ECDSA:
                name = b"ecdsa-sha2-" + curve.encode()
                half = (length - 1) // 2
                point = b"\4" + number(x).to_bytes(half, "big") + number(y).to_bytes(half, "big")
                blob = strung(name, curve.encode(), point)
                private = blob + mpint(number(d))
                for message, r, s in ((b"sample", *pairs[:2]), (b"test", *pairs[2:])):
                    given = strung(name, mpint(number(r)) + mpint(number(s)))
                    self.assertTrue(helper.verify(blob, given, message))
                    self.assertFalse(helper.verify(blob, given, message + b"s"))
                    own = helper.sign(private, blob, message)
                    self.assertTrue(helper.verify(blob, own, message))
                    # Nonces are random, but those of mortarleek_signer.
                    self.assertEqual(own == given, IS_BEHIND)


def rsa_key(p, q, e=65537):
    """The private string and the blob of the key with these factors."""
    n, d = p * q, pow(e, -1, math.lcm(p - 1, q - 1))
    added = [mpint(value) for value in (n, e, d, pow(q, -1, p), p, q)]
    blob = string(b"ssh-rsa") + mpint(e) + mpint(n)
    return string(b"ssh-rsa") + b"".join(added), blob


def primes_of_4096_bits():
    """The primes of RFC 3526, section 5, and RFC 7919, appendix A.3, from their formulas."""
    one = 1 << 4104

    def arctan(whole):
        total = term = one // whole
        for odd in range(3, 20000, 2):
            term = -term // (whole * whole)
            total += term // odd
            if abs(term) <= 1:
                return total

    pi = 4 * (4 * arctan(5) - arctan(239)) >> 138
    e, term = one, one
    for count in range(1, 3000):
        term //= count
        e += term
    e >>= 138
    most = 2**4096 - 2**4032 - 1
    return most + 2**64 * (pi + 240904), most + 2**64 * (e + 5736041)


def prime(bits):
    words = ["openssl", "prime", "-generate", "-bits", str(bits)]
    return int(subprocess.run(words, capture_output=True, check=True).stdout)


class Rsa(unittest.TestCase):
    def test_a_key_has_1024_to_8192_bits(self):
        with Helper() as helper:
            for p, q, signs in ((prime(511), prime(512), False), (prime(512), prime(512), True)):
                private, blob = rsa_key(p, q)
                signature = helper.sign(private, blob, b"message")
                self.assertEqual(signature is not None, signs)
            p, q = primes_of_4096_bits()
            private, blob = rsa_key(p, q)
            for flags in (2, 4):
                signature = helper.sign(private, blob, b"message", flags)
                self.assertTrue(helper.verify(blob, signature, b"message"))
                self.assertEqual(len(strings(signature)[1]), 1024)
            private, blob = rsa_key(2 * p + 1, q)
            self.assertIsNone(helper.sign(private, blob, b"message"))

    def test_a_public_exponent_has_at_most_64_bits(self):
        p, q = prime(512), prime(512)
        order = math.lcm(p - 1, q - 1)
        least, most = (next(e for e in range(2**bits - 1, 2, -2) if math.gcd(e, order) == 1) for bits in (65, 64))
        with Helper() as helper:
            for e, signs in ((most, True), (least, False), (3 if order % 3 else 5, order % 3 or order % 5)):
                if math.gcd(e, order) > 1:
                    continue
                private, blob = rsa_key(p, q, e)
                signature = helper.sign(private, blob, b"message", 2)
                self.assertEqual(signature is not None, bool(signs))

    def test_a_factor_has_at_most_4096_bits(self):
        p, q = 2**4423 - 1, prime(512)  # a Mersenne prime
        private, blob = rsa_key(p, q)
        with Helper() as helper:
            self.assertIsNone(helper.sign(private, blob, b"message", 2))

    def test_an_exponent_that_does_not_undo_the_public_one_is_refused(self):
        p, q, e = prime(512), prime(512), 65537
        n, d = p * q, pow(e, -1, math.lcm(p - 1, q - 1))
        blob = string(b"ssh-rsa") + mpint(e) + mpint(n)
        # One that is right modulo one factor alone, by the remainders of d.
        orders = math.lcm(p - 1, q - 1)
        wrong = next(d + step * (p - 1) for step in range(1, q) if (d + step * (p - 1)) % (q - 1) != d % (q - 1))
        with Helper() as helper:
            for exponent, signs in ((d, True), (d + orders, d + orders < n), (wrong, False), (d + 2, False)):
                private = string(b"ssh-rsa") + b"".join(map(mpint, (n, e, exponent, pow(q, -1, p), p, q)))
                signature = helper.sign(private, blob, b"message", 2)
                self.assertEqual(signature is not None, signs)

    def test_factors_of_no_use_are_refused(self):
        p, q = prime(512), prime(512)
        n, e, d = p * q, 65537, pow(65537, -1, (p - 1) * (q - 1))
        blob = string(b"ssh-rsa") + mpint(e) + mpint(n)
        with Helper() as helper:
            for factors in ((1, n), (n, 1), (0, n), (p, q + 2), (2 * p, q)):
                for iqmp in (1, 0):
                    fields = (n, e, d, iqmp, *factors)
                    private = string(b"ssh-rsa") + b"".join(map(mpint, fields))
                    signature = helper.sign(private, blob, b"message")
                    self.assertIsNone(signature)
            for exponent in (0, 1, 2, n, n + 2):
                other = string(b"ssh-rsa") + mpint(exponent) + mpint(n)
                fields = (n, exponent, d, pow(q, -1, p), p, q)
                private = string(b"ssh-rsa") + b"".join(map(mpint, fields))
                self.assertIsNone(helper.sign(private, other, b"message"))


class Standin(unittest.TestCase):
    TAG, SECRET = b"\x11" * 32, b"\x21" * 32

    def signature(self, secret, message):
        return strung(STANDIN, hmac.digest(secret, message, "sha256"))

    def test_a_key_signs_by_hmac_where_its_lengths_and_its_blob_are_right(self):
        blob = strung(STANDIN, self.TAG)
        private = strung(STANDIN, self.TAG, self.SECRET)
        with Helper() as helper:
            for flags in (0, 2, 0xFFFFFFFF):
                signature = helper.sign(private, blob, b"abc", flags)
                self.assertEqual(signature, self.signature(self.SECRET, b"abc"))
            for wrong, other in ((strung(STANDIN, self.TAG, b"\x0b" * 20), blob),
                                 (private, strung(STANDIN, b"\x12" * 32)),
                                 (private + b"\0", blob), (private, blob + b"\0"),
                                 (strung(STANDIN, self.TAG[1:], self.SECRET),
                                  strung(STANDIN, self.TAG[1:]))):
                self.assertIsNone(helper.sign(wrong, other, b"Hi There"))

    def test_the_first_line_of_a_tag_verifies(self):
        lines = [(bytes([tag]) * 32, bytes([secret]) * 32)
                 for tag, secret in ((0xA1, 0xC1), (0xA2, 0xC2), (0xA1, 0xC3))]
        with tempfile.NamedTemporaryFile() as data:
            for place, (tag, secret) in enumerate(lines):
                line = f"{tag.hex()} {secret.hex()}\n"
                data.write((line.upper() if place else line).encode())
            data.flush()
            with Helper(data=data.name) as helper:
                for tag, secret, right in ((*lines[0], True), (*lines[1], True), (*lines[2], False),
                                           (b"\xa3" * 32, b"\xc3" * 32, False)):
                    signature = self.signature(secret, b"session")
                    blob = strung(STANDIN, tag)
                    self.assertEqual(helper.verify(blob, signature, b"session"), right)
                    self.assertFalse(helper.verify(blob, signature, b"session."))
                    self.assertFalse(helper.verify(blob, signature[:-1], b"session"))
                    self.assertFalse(helper.verify(blob + b"\0", signature, b"session"))


if __name__ == "__main__":
    unittest.main()
