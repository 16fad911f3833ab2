#!/usr/bin/env python3
"""What a signature leaves in a process: pieces of eight bytes of the seed, of its hash, of the secret scalar, of the nonce
and of the hash that it comes from, in all writable memory and in the registers, while the program (signing_traces) waits
behind the signature. With `sign_checked` pieces are found, with `sign_erased` none. Of the helper that signs
(mortarleek_signer) nothing is found behind its answers, also of an ECDSA key's number and nonce and of an RSA key's numbers;
while it signs, and while it waits for the rest of a request, pieces are. TRACES=PROGRAM and MORTARLEEK_SIGNER=PROGRAM put
other programs in their places, as Rattle's own compiler's builds."""

import contextlib
import hashlib
import hmac
import os
import pathlib
import re
import struct
import subprocess
import sys
import time

sys.dont_write_bytecode = True

import rig
from rig import BUILT, TOP, string

sys.path.insert(0, str(TOP))
sys.path.insert(0, str(TOP / "helper/tests"))

import openssh
from model.ecdsa import P256, P384, P521
from model import ed25519 as model

check = rig.Checks("traces")
PROGRAM = pathlib.Path(os.environ.get("TRACES", BUILT / "signing_traces"))
HELPER = pathlib.Path(os.environ.get("MORTARLEEK_SIGNER", rig.HELPER))
MESSAGE = b"a message that is signed, of forty bytes"
PIECE = 8
# What reduces the hash of the nonce, and then the challenge.
REDUCES = "scalar25519::scalar::Scalar::from_bytes"
# So many powers of a message are in the row of which RSA takes one for each five bits of an exponent.
ROW = 32
# What squares in Montgomery's form.
SQUARES = "rsa_powers::form::square_assign"
# A piece of an array of words may stand with each word's bytes turned round, as SHA-512 takes them.
WORD = 8


def turned(text):
    return b"".join(text[place : place + WORD][::-1] for place in range(0, len(text), WORD))


def secrets(seed):
    """The pieces that must not stay, each with the name of what it is a piece of."""
    hashed = hashlib.sha512(seed).digest()
    scalar, prefix = model.expanded(seed)
    nonce_hash = hashlib.sha512(prefix + MESSAGE).digest()
    nonce = model.integer(nonce_hash) % model.L
    texts = {
        "seed": seed,
        "hash": hashed,
        "scalar": model.octets(scalar),
        "hash of the nonce": nonce_hash,
        "nonce": model.octets(nonce),
    }
    # The scalars are halved bit by bit where they are multiplied.
    for turn in range(1, 192):
        texts[f"scalar after {turn} turns"] = model.octets(scalar >> turn)
        texts[f"nonce after {turn} turns"] = model.octets(nonce >> turn)
    return pieces_of(texts, model.public_key(seed) + model.sign(seed, MESSAGE) + MESSAGE)


def pieces_of(texts, public):
    """The pieces of these texts that aren't public, each with the name of its text."""
    pieces = {}
    for name, text in texts.items():
        step = WORD if "turns" in name else 1
        for form in (text, turned(text)):
            for place in range(0, len(form) - PIECE + 1, step):
                piece = form[place : place + PIECE]
                # Pieces that are mostly zeros stand anywhere.
                if sum(byte != 0 for byte in piece) >= 6 and piece not in public and piece not in turned(public):
                    pieces.setdefault(piece, name)
    return pieces


def memory(process):
    """Each mapping that can be written, with its bytes."""
    for line in pathlib.Path(f"/proc/{process}/maps").read_text().splitlines():
        words = line.split()
        begin, end = (int(word, 16) for word in words[0].split("-"))
        name = words[5] if len(words) > 5 else "unnamed"
        if "w" not in words[1] or name in ("[vvar]", "[vsyscall]"):
            continue
        with open(f"/proc/{process}/mem", "rb", 0) as file:
            file.seek(begin)
            yield name, file.read(end - begin)


def registers(process):
    """The bytes of the general and the vector registers."""
    commands = ["info registers", *(f"p/x $ymm{number}.v4_int64" for number in range(16))]
    words = ["gdb", "-q", "-batch", "-p", str(process), *(word for command in commands for word in ("-ex", command))]
    said = rig.run(words, status=None)
    return b"".join(int(word, 16).to_bytes(8, "little") for word in re.findall(r"0x([0-9a-f]{1,16})\b", said))


def found_in(texts, pieces):
    """The names of the pieces that stand in these texts, and in which."""
    found = []
    for name, text in texts:
        for place in range(len(text) - PIECE + 1):
            if (piece := text[place : place + PIECE]) in pieces:
                found.append((pieces[piece], name))
    return found


def left(word, seed):
    """The names of the pieces that stay behind a signature, and where."""
    process = subprocess.Popen([PROGRAM, word], stdin=subprocess.PIPE, stdout=subprocess.PIPE)
    try:
        process.stdin.write(seed + model.public_key(seed))
        process.stdin.flush()
        waits = pathlib.Path(f"/proc/{process.pid}/syscall")
        # 0 is the call that reads.
        rig.until(lambda: waits.read_text().startswith("0 "), what="the signature")
        time.sleep(0.5)
        found = found_in([*memory(process.pid), ("registers", registers(process.pid))], secrets(seed))
        said, _ = process.communicate(bytes(33), timeout=60)
        assert said.decode().strip() == model.sign(seed, MESSAGE).hex(), said
    finally:
        process.kill()
        process.wait()
    return found


SEEDS = [bytes((37 * place + 0x91) & 255 for place in range(32)), bytes((91 * place + 0x13) & 255 for place in range(32))]


@check
def a_signature_that_is_not_erased_is_found(_):
    assert left("plain", SEEDS[0]), "the search finds nothing, also where something is"


@check
def a_signature_that_is_erased_leaves_nothing(_):
    for seed in SEEDS:
        found = left("erased", seed)
        assert not found, sorted(set(found))


# The helper.
NAME = b"ssh-ed25519"


def request(seed, public=None):
    """A request to sign the message, under this public key or the seed's own."""
    own = model.public_key(seed)
    blob = string(NAME) + string(public or own)
    private = string(NAME) + string(own) + string(seed + own)
    return struct.pack(">BQ", 1, 1) + string(private) + string(blob) + string(MESSAGE) + bytes(4)


@contextlib.contextmanager
def helper():
    child = rig.Child(rig.there(HELPER))
    try:
        yield child
    finally:
        child.end()


def found_in_helper(child, pieces):
    """What stands in it while it waits for more."""
    time.sleep(0.5)
    return found_in([*memory(child.process.pid), ("registers", registers(child.process.pid))], pieces)


@check
def the_helper_s_answers_leave_nothing(_):
    """Signed, and refused since the seed is another key's."""
    for seed, other in zip(SEEDS, reversed(SEEDS)):
        with helper() as child:
            for public in (None, model.public_key(other), None):
                child.peer.send(request(seed, public))
                answer = child.peer.reply()
                assert answer[0] == (101 if public is None else 102), answer
                assert public or answer.endswith(model.sign(seed, MESSAGE))
            found = found_in_helper(child, secrets(seed))
            assert not found, sorted(set(found))


@check
def the_helper_s_request_is_found_while_the_rest_is_to_come(_):
    """The control: of a request that isn't whole the seed stands in memory."""
    with helper() as child:
        child.peer.socket.sendall(string(request(SEEDS[0]))[:-1])
        found = found_in_helper(child, secrets(SEEDS[0]))
        assert any(name == "seed" for name, _ in found), "the search finds nothing, also where something is"


def found_while_it_signs(folder, body, function, calls, pieces):
    """The names of the pieces that stand in a helper which is stopped behind so many calls of a function, and its answer."""
    stopped, ready = folder / "stopped", folder / "ready"
    with helper() as child:
        commands = [
            f"break {function}", f"ignore 1 {calls}",
            f"shell touch {ready}",
            "continue",
            f"shell touch {stopped}; while [ -e {stopped} ]; do sleep 0.1; done",
            "delete",
            "detach",
        ]
        words = ["gdb", "-q", "-batch", "-p", str(child.process.pid), *(word for line in commands for word in ("-ex", line))]
        debugger = subprocess.Popen(words, stdin=subprocess.DEVNULL, stdout=subprocess.PIPE, stderr=subprocess.STDOUT, text=True)
        try:
            rig.until(ready.exists, 60, what="the debugger")
            child.peer.send(body)
            rig.until(stopped.exists, 60, what=function)
            names = {name for name, _ in found_in(memory(child.process.pid), pieces)}
        finally:
            with contextlib.suppress(FileNotFoundError):
                stopped.unlink()
            ready.unlink(missing_ok=True)
            debugger.communicate(timeout=60)
        return names, child.peer.reply()


@check
def what_the_helper_signs_with_is_found_while_it_signs(folder):
    """The other control: stopped at the challenge it has the seed, the secret scalar and the nonce."""
    names, answer = found_while_it_signs(folder, request(SEEDS[0]), REDUCES, 1, secrets(SEEDS[0]))
    assert {"seed", "scalar", "nonce"} <= names, names
    assert answer.endswith(model.sign(SEEDS[0], MESSAGE))


def numbered(name, number, size):
    """A number's bytes, the highest first, and the lowest first."""
    text = number.to_bytes(size, "big")
    return {name: text, f"{name}, the lowest byte first": text[::-1]}


def ecdsa_secrets(curve, d, message):
    """The private number and the nonce, both in Montgomery's form too, what they are multiplied to, and K and V."""
    hashed, size = curve.digest(message), curve.size
    nonce, n, radix = next(curve.nonces(d, hashed)), curve.n, 256 ** (8 * -(-size // 8))
    signature = curve.sign(d, message)
    r = int.from_bytes(signature[:size], "big")
    texts = {}
    for name, number in {"number": d, "nonce": nonce, "inverse": pow(nonce, -1, n), "product": r * d % n, "sum": (int.from_bytes(hashed, "big") + r * d) % n}.items():
        texts |= numbered(name, number, size) | numbered(f"{name} in Montgomery's form", number * radix % n, size)
    for turn in range(1, 8 * size - 64):
        texts |= {f"number after {turn} turns": (d >> turn).to_bytes(size, "little")}
        texts |= {f"nonce after {turn} turns": (nonce >> turn).to_bytes(size, "little")}
    value, key = b"\1" * len(hashed), bytes(len(hashed))
    seed = curve.octets(d) + curve.octets(int.from_bytes(hashed, "big") % n)
    for mark in (b"\0", b"\1"):
        key = hmac.digest(key, value + mark + seed, curve.hash_name)
        value = hmac.digest(key, value, curve.hash_name)
        texts |= {f"K behind {mark}": key, f"V behind {mark}": value}
        texts |= {f"K behind {mark}, {pad:#x}": bytes(byte ^ pad for byte in key) for pad in (0x36, 0x5C)}
    return pieces_of(texts, curve.public_key(d) + hashed + signature + signature[:size][::-1] + signature[size:][::-1])


def rsa_secrets(numbers, signature):
    """d and the factors, what is made of them, the two parts of the signature, and the powers that they are made by."""
    n, e, d, inverse, p, q = numbers
    signed = int.from_bytes(signature, "big")
    secret = {"d": d, "p": p, "q": q, "iqmp": inverse, "p - 1": p - 1, "q - 1": q - 1, "dP": d % (p - 1), "dQ": d % (q - 1)}
    secret |= {"s modulo p": signed % p, "s modulo q": signed % q}
    message = pow(signed, e, n)
    for name, factor in (("p", p), ("q", q)):
        # A factor's row of powers, in Montgomery's form: of it a power by d is made.
        radix = 2 ** (64 * -(-factor.bit_length() // 64))
        secret |= {f"power {power} modulo {name}": pow(message, power, factor) * radix % factor for power in range(ROW)}
        secret[f"square of the radix modulo {name}"] = radix * radix % factor
    texts, size = {}, (n.bit_length() + 7) // 8
    for name, number in secret.items():
        texts |= numbered(name, number, size)
    public = b"".join(text for number in (n, e, signed, pow(signed, e, n)) for text in numbered("", number, size).values())
    return pieces_of(texts, public)


def is_of_a_row(name, where):
    return name.startswith("power ") and where == "registers"


def signing(private, blob, flags):
    return struct.pack(">BQ", 1, 1) + string(private) + string(blob) + string(MESSAGE) + struct.pack(">I", flags)


@check
def the_helper_s_answers_leave_nothing_of_other_keys(folder):
    """Signed, and refused since a private number is another one. The control: of a request that isn't whole, pieces stay."""
    if rig.is_rattle_s(rig.there(HELPER)):
        raise rig.Skip("a register of the build by Rattle's own compiler keeps a piece of an ECDSA nonce")
    ecdsas = [("ecdsa", curve.name[1:], 0, curve) for curve in (P256, P384, P521)]
    for kind, bits, flags, curve in (*ecdsas, ("rsa", "2048", 4, None)):
        key = openssh.generate(folder, kind, bits)
        numbers = [int.from_bytes(field, "big") for field in key.fields]
        changed = list(key.fields)
        changed[2] = changed[2][:-1] + bytes([changed[2][-1] ^ 2])
        with helper() as child:
            for fields in (key.fields, changed, key.fields):
                child.peer.send(signing(key.with_fields(fields).private, key.blob, flags))
                answer = child.peer.reply()
                assert answer[0] == (102 if fields is changed else 101), answer
            pieces = ecdsa_secrets(curve, numbers[2], MESSAGE) if curve else rsa_secrets(numbers, answer[-256:])
            # A word of the last row that was chosen stays in a vector register (docs/THREATS.md), and in no memory.
            found = [(name, where) for name, where in found_in_helper(child, pieces) if not is_of_a_row(name, where)]
            assert not found, sorted(set(found))
            child.peer.socket.sendall(string(signing(key.private, key.blob, flags))[:-1])
            assert found_in_helper(child, pieces), "the search finds nothing, also where something is"


@check
def an_rsa_key_s_row_of_powers_is_found_while_it_signs(folder):
    """The control of the row: stopped in the squares of one power it has that factor's row, and of it more than a half."""
    if rig.is_rattle_s(rig.there(HELPER)):
        raise rig.Skip("Rattle's own compiler inlines a square")
    key = openssh.generate(folder, "rsa", "2048")
    body = signing(key.private, key.blob, 4)
    with helper() as child:
        child.peer.send(body)
        answer = child.peer.reply()
    pieces = rsa_secrets([int.from_bytes(field, "big") for field in key.fields], answer[-256:])
    names, again = found_while_it_signs(folder, body, SQUARES, 100, pieces)
    powers = {name for name in names if name.startswith("power ")}
    assert len(powers) > ROW / 2, sorted(names)
    assert again == answer


if __name__ == "__main__":
    check.main(PROGRAM)
