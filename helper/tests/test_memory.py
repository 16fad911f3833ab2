"""After the answers, no piece of a private number is in the helper's memory. Needs root."""

import os
import pathlib
import re
import tempfile
import unittest

from openssh import FIELDS, KINDS, certify, generate
from peer import PROGRAM, Helper, string

CONTROL = os.environ.get("HELPER_LEAVING", "")
PIECE = 12
SECRET = os.urandom(32)


def private_numbers(key):
    """The private fields, and what is computed of them."""
    fields = key.fields[FIELDS[key.name][0] :]
    if key.name == "ssh-ed25519":
        return [fields[0][:32]]
    if key.name == "ssh-rsa":
        d, _, p, q = (int.from_bytes(field, "big") for field in fields)
        rests = [d % (factor - 1) for factor in (p, q)]
        fields = fields + [rest.to_bytes(rest.bit_length() // 8 + 1, "big") for rest in rests]
    return [field.lstrip(b"\0") for field in fields]


def pieces(number):
    """Pieces of the number, in both orders of its bytes."""
    for content in (number, number[::-1]):
        for place in range(0, len(content) - PIECE + 1, PIECE):
            yield content[place : place + PIECE]


def readable_memory(pid):
    with open(f"/proc/{pid}/maps") as maps, open(f"/proc/{pid}/mem", "rb", 0) as memory:
        for line in maps:
            start, end, mode = re.match(r"(\w+)-(\w+) (\S+)", line).groups()
            if mode[0] == "r" and "[v" not in line:
                memory.seek(int(start, 16))
                yield memory.read(int(end, 16) - int(start, 16))


@unittest.skipUnless(os.geteuid() == 0, "only root may read the memory of the helper")
class Memory(unittest.TestCase):
    @classmethod
    def setUpClass(cls):
        cls.made = tempfile.TemporaryDirectory()
        cls.addClassCleanup(cls.made.cleanup)
        cls.keys = [generate(cls.made.name, kind, bits) for kind, bits in KINDS]
        authority = generate(cls.made.name, "ed25519", "256")
        cls.certified = [certify(key, authority) for key in cls.keys]

    def found(self, program):
        """How many of the private numbers are found, of how many, after the answers."""
        numbers = [SECRET] + [number for key in self.keys for number in private_numbers(key)]
        name = string(b"keyed-sha256@example.com")
        blob = name + string(bytes(32))
        with Helper(program=program) as helper:
            for _ in range(3):
                for key in self.keys + self.certified:
                    signature = helper.sign(key.private, key.blob, b"message", 2)
                    self.assertTrue(helper.verify(key.blob, signature, b"message"))
                    spoilt = key.with_fields(key.fields[:-1] + [key.fields[-1][:-1] + b"\0"])
                    helper.sign(spoilt.private, spoilt.blob, b"message", 4)
                self.assertIsNotNone(helper.sign(blob + string(SECRET), blob, b"message"))
            memory = b"".join(readable_memory(helper.process.pid))
            self.assertGreater(len(memory), 1 << 20)
            self.assertIn(pathlib.Path(program).name.encode(), memory)
        left = [number for number in numbers if any(piece in memory for piece in pieces(number))]
        return len(left), len(numbers)

    def test_no_private_number_is_left(self):
        left, all_of_them = self.found(PROGRAM)
        self.assertGreater(all_of_them, 25)
        self.assertEqual(left, 0)

    @unittest.skipUnless(CONTROL, "HELPER_LEAVING names no program that leaves requests in memory")
    def test_the_search_finds_what_a_program_leaves(self):
        left, _ = self.found(CONTROL)
        self.assertGreater(left, 0)


if __name__ == "__main__":
    unittest.main()
