"""Keys and certificates that ssh-keygen makes now: signatures, and every field altered."""

import hashlib
import tempfile
import unittest

from openssh import FIELDS, KINDS, accepts, certify, generate, signature_by_openssh, signed_text
from peer import IS_BEHIND, Helper, mpint, string, strings

MESSAGE = b"a message\n"
SIGNED = signed_text(MESSAGE)
P256_ORDER = 0xFFFFFFFF00000000FFFFFFFFFFFFFFFFBCE6FAADA7179E84F3B9CAC2FC632551
SHA1_INFO = bytes.fromhex("3021300906052b0e03021a05000414")


class Keys(unittest.TestCase):
    @classmethod
    def setUpClass(cls):
        cls.made = tempfile.TemporaryDirectory()
        cls.addClassCleanup(cls.made.cleanup)
        cls.folder = cls.made.name
        cls.keys = [generate(cls.folder, kind, bits) for kind, bits in KINDS]
        cls.others = [generate(cls.folder, kind, bits) for kind, bits in KINDS]
        cls.authority = generate(cls.folder, "ed25519", "256")
        cls.certified = [certify(key, cls.authority) for key in cls.keys]
        cls.hosts = [certify(key, cls.authority, "a.example.org", host=True) for key in cls.keys]
        cls.helper = Helper()
        cls.addClassCleanup(cls.helper.end)

    def sign(self, key, flags=0, message=SIGNED):
        return self.helper.sign(key.private, key.blob, message, flags)

    def test_a_certificate_has_to_be_signed_by_its_authority(self):
        for key, authority in zip(self.keys, self.others):
            with self.subTest(f"{key} by {authority}"):
                host = certify(key, authority, "a.example.org", host=True)
                signature = signature_by_openssh(key, MESSAGE)
                self.assertTrue(self.helper.verify(host.blob, signature, SIGNED))
                renamed = host.blob.replace(b"a.example.org", b"b.example.org")
                self.assertNotEqual(renamed, host.blob)
                for blob in (renamed, host.blob[:-1], host.blob + b"\0"):
                    self.assertFalse(self.helper.verify(blob, signature, SIGNED))
                foreign = certify(key, self.authority, "a.example.org", host=True)
                seal = foreign.blob[foreign.blob.rindex(string(self.authority.blob)) :]
                behind = host.blob.rindex(string(authority.blob))
                self.assertFalse(self.helper.verify(host.blob[:behind] + seal, signature, SIGNED))

    def test_openssh_accepts_each_signature(self):
        for key in self.keys + self.certified:
            with self.subTest(str(key)):
                authority = self.authority if key.certified else None
                for flags in key.flags:
                    signature = self.sign(key, flags)
                    self.assertTrue(accepts(self.folder, key, signature, MESSAGE, authority))
                    self.assertFalse(accepts(self.folder, key, signature, b"another", authority))

    def test_each_signature_of_openssh_is_true_and_of_nothing_else(self):
        for key, other, host in zip(self.keys, self.others, self.hosts):
            with self.subTest(str(key)):
                signature = signature_by_openssh(key, MESSAGE)
                for blob in (key.blob, host.blob):
                    self.assertTrue(self.helper.verify(blob, signature, SIGNED))
                    self.assertFalse(self.helper.verify(blob, signature, SIGNED + b"\0"))
                self.assertFalse(self.helper.verify(other.blob, signature, SIGNED))
                for place in range(len(signature)):
                    altered = bytearray(signature)
                    altered[place] ^= 1
                    self.assertFalse(self.helper.verify(key.blob, bytes(altered), SIGNED))
                for wrong in (signature[:-1], signature + b"\0", b""):
                    self.assertFalse(self.helper.verify(key.blob, wrong, SIGNED))
                    self.assertFalse(self.helper.verify(key.blob[:-1], signature, SIGNED))

    def test_a_signature_names_the_plain_algorithm(self):
        names = {0: b"ssh-rsa", 1: b"ssh-rsa", 2: b"rsa-sha2-256", 4: b"rsa-sha2-512",
                 6: b"rsa-sha2-256"}
        for key in self.keys + self.certified:
            with self.subTest(str(key)):
                for flags, name in names.items():
                    algorithm, _ = strings(self.sign(key, flags))
                    wanted = name if key.plain == "ssh-rsa" else key.plain.encode()
                    self.assertEqual(algorithm, wanted)

    def test_an_rsa_signature_is_as_long_as_the_modulus_and_its_zeros_may_be_left_off(self):
        for key in (key for key in self.keys if key.plain == "ssh-rsa"):
            with self.subTest(str(key)):
                length = (int.from_bytes(key.fields[0], "big").bit_length() + 7) // 8
                for count in range(4000):
                    message = count.to_bytes(2, "big")
                    name, content = strings(self.sign(key, 2, message))
                    self.assertEqual(len(content), length)
                    if content[0] == 0:
                        break
                short = string(name) + string(content.lstrip(b"\0"))
                long = string(name) + string(b"\0" + content)
                self.assertLess(len(short), len(long) - 1)
                self.assertTrue(self.helper.verify(key.blob, short, message))
                self.assertFalse(self.helper.verify(key.blob, long, message))

    def test_the_sha_1_signature_of_rsa_opens_to_its_digest(self):
        for key in (key for key in self.keys if key.plain == "ssh-rsa"):
            with self.subTest(str(key)):
                _, content = strings(self.sign(key, 0, MESSAGE))
                n, e = (int.from_bytes(field, "big") for field in key.fields[:2])
                opened = pow(int.from_bytes(content, "big"), e, n).to_bytes(len(content), "big")
                wanted = b"\0" + SHA1_INFO + hashlib.sha1(MESSAGE).digest()
                padding = b"\0\1".ljust(len(content) - len(wanted), b"\xff")
                self.assertEqual(opened, padding + wanted)

    def test_messages_of_any_length_are_signed(self):
        for key in self.keys:
            with self.subTest(str(key)):
                for message in (b"", b"x", bytes(262144)):
                    signature = self.sign(key, 2, message)
                    self.assertTrue(self.helper.verify(key.blob, signature, message))

    def test_an_altered_field_is_refused_or_the_signature_is_right(self):
        """libcrypto does without iqmp, or without the factors, where the signature would be wrong. Zeros in front of
        a private number are dropped."""
        for key in self.keys + self.certified:
            with self.subTest(str(key)):
                public = 1 if key.certified else FIELDS[key.name][0]
                for place, field in enumerate(key.fields):
                    for altered in alterations(field):
                        fields = list(key.fields)
                        fields[place] = altered
                        signature = self.sign(key.with_fields(fields))
                        padded = key.plain != "ssh-ed25519" and altered == b"\0" + field
                        if place >= public and padded:
                            self.assertTrue(self.helper.verify(key.blob, signature, SIGNED))
                        elif place < public or key.plain != "ssh-rsa":
                            self.assertIsNone(signature)
                        elif signature is not None:
                            self.assertTrue(self.helper.verify(key.blob, signature, SIGNED))

    def test_zeros_in_front_of_private_numbers_are_dropped(self):
        for key in (key for key in self.keys + self.certified if key.plain != "ssh-ed25519"):
            with self.subTest(str(key)):
                public = 1 if key.certified else FIELDS[key.name][0]
                for zeros in (b"\0", bytes(3)):
                    fields = key.fields[:public] + [zeros + field for field in key.fields[public:]]
                    signature = self.sign(key.with_fields(fields))
                    self.assertTrue(self.helper.verify(key.blob, signature, SIGNED))

    @unittest.skipIf(IS_BEHIND, "mortarleek_signer says nothing of keys")
    def test_why_a_key_cannot_sign_is_said_once(self):
        short = bytes([1]) * 96  # an RSA modulus of 761 bits
        blob = b"".join(map(string, (b"ssh-rsa", b"\3", short)))
        private = b"".join(map(string, (b"ssh-rsa", short, b"\3", b"\1", b"\1", b"\1", b"\1")))
        with tempfile.TemporaryFile() as said:
            with Helper(stderr=said) as helper:
                for _ in range(2):
                    self.assertIsNone(helper.sign(private, blob, SIGNED))
            said.seek(0)
            lines = said.read().decode().splitlines()
        self.assertEqual(len(lines), 1)
        self.assertIn("1024 to 8192 bits", lines[0])

    def test_fields_that_are_left_off_doubled_or_swapped_are_refused(self):
        for key in self.keys + self.certified:
            with self.subTest(str(key)):
                for place in range(len(key.fields)):
                    fields = key.fields[:place] + key.fields[place + 1 :]
                    self.assertIsNone(self.sign(key.with_fields(fields)))
                    fields = key.fields[: place + 1] + key.fields[place:]
                    self.assertIsNone(self.sign(key.with_fields(fields)))
                for place in range(len(key.fields) - 1):
                    fields = list(key.fields)
                    fields[place : place + 2] = fields[place + 1], fields[place]
                    signature = self.sign(key.with_fields(fields))
                    if signature is not None:
                        self.assertTrue(self.helper.verify(key.blob, signature, SIGNED))
                self.assertIsNone(self.helper.sign(key.private[:-1], key.blob, SIGNED))
                self.assertIsNone(self.helper.sign(key.private + b"\0", key.blob, SIGNED))
                self.assertIsNone(self.helper.sign(b"", key.blob, SIGNED))

    def test_a_key_under_another_blob_is_refused(self):
        everything = self.keys + self.others + self.certified + self.hosts
        for key in everything:
            with self.subTest(str(key)):
                for other in everything:
                    if other.blob != key.blob:
                        self.assertIsNone(self.helper.sign(key.private, other.blob, SIGNED))

    def test_the_seed_alone_does_not_sign_under_a_foreign_half(self):
        key, other = self.keys[0], self.others[0]
        sk, foreign = key.fields[1], other.fields[0]
        for fields, blob in (([foreign, sk[:32] + foreign], other.blob),
                             ([foreign, sk], other.blob),
                             ([key.fields[0], sk[:32] + foreign], key.blob)):
            altered = key.with_fields(fields)
            self.assertIsNone(self.helper.sign(altered.private, blob, SIGNED))

    def test_a_compressed_point_is_refused(self):
        for key in (key for key in self.keys if key.name.startswith("ecdsa")):
            with self.subTest(str(key)):
                curve, point, d = key.fields
                half = (len(point) - 1) // 2
                forms = [bytes([2 + point[-1] % 2]) + point[1 : 1 + half],
                         bytes([6 + point[-1] % 2]) + point[1:], b"\0", point + b"\0", point[:-1]]
                signature = self.sign(key)
                for form in forms:
                    altered = key.with_fields([curve, form, d])
                    blob = b"".join(map(string, (key.name.encode(), curve, form)))
                    self.assertIsNone(self.helper.sign(altered.private, blob, SIGNED))
                    self.assertFalse(self.helper.verify(blob, signature, SIGNED))

    def test_an_ecdsa_number_outside_the_order_is_refused(self):
        key = next(key for key in self.keys if key.name == "ecdsa-sha2-nistp256")
        d = int.from_bytes(key.fields[2], "big")
        for number in (0, P256_ORDER, d + P256_ORDER, P256_ORDER - d):
            (field,) = strings(mpint(number))
            self.assertIsNone(self.sign(key.with_fields([*key.fields[:2], field])))


def alterations(field):
    """The field with a bit changed, cut, longer, and emptied."""
    for place in {0, len(field) // 3, len(field) // 2, len(field) - 1}:
        for bit in (1, 0x80):
            altered = bytearray(field)
            altered[place] ^= bit
            yield bytes(altered)
    yield from (b"", field[:-1], field[1:], field + b"\0", b"\0" + field)


if __name__ == "__main__":
    unittest.main()
