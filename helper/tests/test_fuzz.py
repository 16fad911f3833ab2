"""Mutated requests: whatever comes is answered, or ends the program with the status of a bad frame."""

import os
import random
import tempfile
import unittest

from openssh import KINDS, certify, generate
from peer import FALSE, REFUSED, SIGNED, TRUE, Ended, Helper, sign_body, strings
from peer import verify_body

COUNT = int(os.environ.get("FUZZ_COUNT", "30000"))
SEED = int(os.environ.get("FUZZ_SEED", "1"))
BAD_FRAME = 1
MESSAGE = b"a message"


def mutated(draw, content, others):
    """The bytes with a few changes: bits, bytes, lengths, pieces left off, doubled or of others."""
    content = bytearray(content)
    for _ in range(draw.choice((1, 1, 1, 2, 3, 8))):
        place = draw.randrange(len(content) + 1)
        count = draw.choice((1, 2, 4, 32, draw.randrange(1, 300)))
        change = draw.randrange(7)
        if change == 0 and place < len(content):
            content[place] ^= 1 << draw.randrange(8)
        elif change == 1 and place < len(content):
            content[place] = draw.choice((0, 1, 4, 0x7F, 0x80, 0xFF))
        elif change == 2:
            del content[place : place + count]
        elif change == 3:
            content[place:place] = bytes(draw.randrange(256) for _ in range(count))
        elif change == 4:
            content[place:place] = content[place : place + count]
        elif change == 5:
            other = draw.choice(others)
            start = draw.randrange(len(other) + 1)
            content[place : place + count] = other[start : start + count]
        else:
            content[place : place + 4] = draw.choice((b"\0\0\0\0", b"\xff" * 4, b"\0\0\0\1"))
    return bytes(content)


class Fuzz(unittest.TestCase):
    def test_mutated_requests_are_answered_or_end_the_program(self):
        draw = random.Random(SEED)
        seen = dict.fromkeys((SIGNED, REFUSED, TRUE, FALSE, "ended"), 0)
        with tempfile.TemporaryDirectory() as folder:
            keys = [generate(folder, kind, bits) for kind, bits in KINDS]
            keys += [certify(key, keys[0]) for key in keys]
        helper = Helper()
        requests = []
        for key in keys:
            requests.append((key.private, key.blob, MESSAGE, draw.choice((0, 2, 4)).to_bytes(4, "big")))
            requests.append((key.blob, helper.sign(key.private, key.blob, MESSAGE, 2), MESSAGE))
        parts = [part for request in requests for part in request]
        for _ in range(COUNT):
            body = self.body(draw, draw.choice(requests), parts)
            try:
                kind, number, fields = helper.ask(body)
            except Ended as end:
                self.assertEqual(end.args, (BAD_FRAME,), body.hex())
                helper.end()
                helper = Helper()
                seen["ended"] += 1
                continue
            seen[kind] += 1
            self.assertEqual(number.to_bytes(8, "big"), body[1:9])
            if kind == SIGNED:
                _, blob, message = strings(body[9:-4])
                self.assertTrue(helper.verify(blob, strings(fields)[0], message), body.hex())
        self.assertEqual(helper.end(), 0)
        self.assertEqual(sum(seen.values()), COUNT)
        self.assertTrue(all(seen.values()), seen)

    def body(self, draw, request, parts):
        """A body of which one field is mutated, or all of it."""
        fields = list(request)
        whole = draw.random() < 0.1
        if not whole:
            place = draw.choice((0, 0, 0, 1, 1, draw.randrange(len(fields))))
            fields[place] = mutated(draw, fields[place], parts)
        if len(fields) == 4:
            flags = int.from_bytes(fields[3][:4], "big")
            body = sign_body(draw.getrandbits(64), *fields[:3], flags)
        else:
            body = verify_body(draw.getrandbits(64), *fields)
        return mutated(draw, body, parts) or b"\0" if whole else body


if __name__ == "__main__":
    unittest.main()
