"""Keys and signatures of ecdsa.py, ed25519.py and rsa.py as SSH has them, and their lines as requests to the helper that
signs: what it answers is told as the tools tell it."""

import ecdsa
from rig import string, strings

from model.signer import mpint

CURVES = {curve.name: curve for curve in ecdsa.CURVES}
ED25519, RSA = b"ssh-ed25519", b"ssh-rsa"
# The name of an RSA signature's algorithm, and the flags that ask for it, by its hash function.
RSA_ALGORITHMS = {"sha1": RSA, "sha256": b"rsa-sha2-256", "sha512": b"rsa-sha2-512"}
RSA_FLAGS = {"sha1": 0, "sha256": 2, "sha512": 4}


def algorithm_of(curve):
    return b"ecdsa-sha2-nist" + curve.name.encode()


def ed25519_blob(public):
    return string(ED25519) + string(public)


def ed25519_private(seed, public):
    return ed25519_blob(public) + string(seed + public)


def ecdsa_blob(curve, public):
    return string(algorithm_of(curve)) + string(b"nist" + curve.name.encode()) + string(public)


def rsa_blob(n, e):
    return string(RSA) + string(mpint(e)) + string(mpint(n))


def secret(octets):
    """A secret number, whose octets may have zeros in front: one more where it would be negative."""
    return string(b"\0" + octets if octets[:1] >= b"\x80" else octets)


def rsa_private(n, e, d, p, q, iqmp):
    """The private string, of octets but for n and e."""
    return string(RSA) + string(mpint(n)) + string(mpint(e)) + b"".join(map(secret, (d, iqmp, p, q)))


def signed(helper, private, blob, algorithm, message, flags=0):
    """What a signature has behind its algorithm's name; None where it is refused."""
    signature = helper.sign(private, blob, message=message, flags=flags)
    if signature is None:
        return None
    name, text = strings(signature)
    assert name == algorithm, (name, algorithm)
    return text


def verified(helper, blob, algorithm, text, message):
    return helper.verify(blob, string(algorithm) + string(text), message)


def ed25519_answer(helper, call, first, second, message):
    """What it answers to a line of ed25519.py."""
    first, second, message = map(bytes.fromhex, (first, second, message))
    if call == "sign":
        return signed(helper, ed25519_private(first, second), ed25519_blob(second), ED25519, message)
    return verified(helper, ed25519_blob(first), ED25519, second, message)


def ecdsa_answer(helper, call, name, first, second, message):
    """To a line of ecdsa.py."""
    curve = CURVES[name]
    first, second, message = map(bytes.fromhex, (first, second, message))
    if call == "verify":
        halves = (second[: curve.size], second[curve.size :])
        text = b"".join(string(mpint(int.from_bytes(half, "big"))) for half in halves)
        return verified(helper, ecdsa_blob(curve, first), algorithm_of(curve), text, message)
    blob = ecdsa_blob(curve, second)
    text = signed(helper, blob + secret(first), blob, algorithm_of(curve), message)
    return text and b"".join(curve.octets(int.from_bytes(number, "big")) for number in strings(text))


def rsa_answer(helper, call, hashed, n, e, *rest):
    """To a line of rsa.py."""
    n, e, rest = int(n, 16), int(e), list(map(bytes.fromhex, rest))
    if call == "verify":
        return verified(helper, rsa_blob(n, e), RSA_ALGORITHMS[hashed], *rest)
    *numbers, message = rest
    private = rsa_private(n, e, *numbers)
    return signed(helper, private, rsa_blob(n, e), RSA_ALGORITHMS[hashed], message, RSA_FLAGS[hashed])


def told(answer):
    """An answer as the tools tell it."""
    if isinstance(answer, bool):
        return "true" if answer else "false"
    return "refused" if answer is None else answer.hex()


def answers(helper, answer, lines):
    """What the helper answers to each line."""
    return [told(answer(helper, *line.split(" "))) for line in lines]
