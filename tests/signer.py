#!/usr/bin/env python3
"""The helper with Ed25519, ECDSA and RSA keys as it is built (mortarleek_signer), of which this process is the agent:
keys and certificates that ssh-keygen makes, and its word on signatures. Words choose checks by a part of their names.
MORTARLEEK_SIGNER=PROGRAM puts another program in its place."""

import os
import pathlib
import struct
import sys

sys.dont_write_bytecode = True

import rig
from rig import TOP, string, strings

sys.path.insert(0, str(TOP / "helper/tests"))

from openssh import accepts, certify, generate, signature_by_openssh, signed_text

check = rig.Checks("signer")
PROGRAM = pathlib.Path(os.environ.get("MORTARLEEK_SIGNER", rig.BUILT / "mortarleek_signer"))
SIGN, VERIFY, SIGNED, REFUSED, TRUE, FALSE = 1, 2, 101, 102, 103, 104
ECDSAS = [("ecdsa", "256"), ("ecdsa", "384"), ("ecdsa", "521")]
KINDS = [("ed25519", "256"), *ECDSAS, ("rsa", "1024"), ("rsa", "2048"), ("rsa", "2049"), ("rsa", "3072")]
MESSAGE = b"a message\n"
TEXT = signed_text(MESSAGE)


class Helper(rig.Child):
    """The helper, with what it is asked."""

    def __init__(self):
        super().__init__(PROGRAM)
        self.asks = 0

    def __enter__(self):
        return self

    def __exit__(self, *_):
        self.end()

    def ask(self, kind, *texts, more=b""):
        """The kind of the answer, and what stands in it."""
        self.asks += 1
        self.peer.send(struct.pack(">BQ", kind, self.asks) + b"".join(map(string, texts)) + more)
        answer = self.peer.reply()
        found, number = struct.unpack_from(">BQ", answer)
        assert number == self.asks, (number, self.asks)
        return found, answer[9:]

    def sign(self, private, blob, flags=0, message=TEXT):
        """The signature, or None."""
        kind, rest = self.ask(SIGN, private, blob, message, more=struct.pack(">I", flags))
        assert kind == SIGNED or (kind, rest) == (REFUSED, b""), (kind, rest)
        return strings(rest)[0] if kind == SIGNED else None

    def verify(self, host_key, signature, session=TEXT):
        answer = self.ask(VERIFY, host_key, signature, session)
        assert answer in ((TRUE, b""), (FALSE, b"")), answer
        return answer[0] == TRUE


def made(folder):
    """A key of each kind, and one more that certifies."""
    return [generate(folder, kind, bits) for kind, bits in KINDS], generate(folder, "ed25519", "256")


@check
def ssh_keygen_accepts_each_signature(folder):
    """By plain keys and certificates, RSA's by SHA-256 and SHA-512."""
    keys, authority = made(folder)
    with Helper() as helper:
        for key in keys + [certify(key, authority) for key in keys]:
            by = authority if key.certified else None
            for flags in key.flags:
                signature = helper.sign(key.private, key.blob, flags)
                assert accepts(folder, key, signature, MESSAGE, by), (str(key), flags)
                assert not accepts(folder, key, signature, b"another", by), (str(key), flags)


@check
def a_signature_is_of_the_algorithm_that_the_flags_ask_for(folder):
    names = {0: b"ssh-rsa", 1: b"ssh-rsa", 2: b"rsa-sha2-256", 4: b"rsa-sha2-512", 6: b"rsa-sha2-256"}
    with Helper() as helper:
        for key in made(folder)[0]:
            for flags, name in names.items():
                signature = helper.sign(key.private, key.blob, flags)
                wanted = name if key.plain == "ssh-rsa" else key.plain.encode()
                assert strings(signature)[0] == wanted, (str(key), flags)
                assert helper.verify(key.blob, signature)


@check
def each_signature_of_ssh_keygen_is_true_and_of_nothing_else(folder):
    keys, authority = made(folder)
    with Helper() as helper:
        for key, other in zip(keys, keys[1:] + keys[:1]):
            signature = signature_by_openssh(key, MESSAGE)
            host = certify(key, authority, "a.example.org", host=True)
            for blob in key.blob, host.blob:
                assert helper.verify(blob, signature), str(key)
                assert not helper.verify(blob, signature, TEXT + b"\0"), str(key)
            assert not helper.verify(other.blob, signature), str(key)
            for place in range(len(signature)):
                altered = bytearray(signature)
                altered[place] ^= 1
                assert not helper.verify(key.blob, bytes(altered)), (str(key), place)
            for wrong in signature[:-1], signature + b"\0", b"":
                assert not helper.verify(key.blob, wrong), str(key)


@check
def a_certificate_has_to_be_signed_by_its_authority(folder):
    """By an authority of each kind."""
    keys, _ = made(folder)
    with Helper() as helper:
        for key, authority in zip(keys, keys[1:] + keys[:1]):
            signature = signature_by_openssh(key, MESSAGE)
            host = certify(key, authority, "a.example.org", host=True)
            assert helper.verify(host.blob, signature), (str(key), str(authority))
            renamed = host.blob.replace(b"a.example.org", b"b.example.org")
            assert renamed != host.blob
            for blob in renamed, host.blob[:-1], host.blob + b"\0":
                assert not helper.verify(blob, signature), (str(key), str(authority))


@check
def a_private_string_of_another_key_is_refused(folder):
    keys, authority = made(folder)
    with Helper() as helper:
        for key, other in zip(keys, keys[1:] + keys[:1]):
            certified = certify(key, authority)
            assert helper.sign(other.private, key.blob) is None
            assert helper.sign(certified.private, key.blob) is None
            assert helper.sign(key.private, certified.blob) is None
            for place in range(len(key.fields)):
                fields = list(key.fields)
                fields[place] = fields[place][:-1] + bytes([fields[place][-1] ^ 1])
                assert helper.sign(key.with_fields(fields).private, key.blob) is None, (str(key), place)


@check
def keys_of_another_type_are_refused_where_nothing_is_behind(_):
    """A security key's, which no ssh-keygen makes without one."""
    name = b"sk-ssh-ed25519@openssh.com"
    blob = string(name) + string(bytes(32)) + string(b"ssh:")
    with Helper() as helper:
        assert helper.sign(blob + string(b"private"), blob) is None
        assert not helper.verify(blob, string(name) + string(bytes(64)) + bytes(5))


if __name__ == "__main__":
    check.main(PROGRAM)
