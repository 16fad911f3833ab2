#!/usr/bin/env python3
"""Wycheproof's vectors for signatures, of Debian's source package that holds them, beside ecdsa_tool, ed25519_tool, rsa_tool
and the proved helper (mortarleek_signer) as they are built: what a file calls valid is accepted and what it calls invalid
refused, and of what it calls acceptable a table below says which. Words choose checks by a part of their names. The files
are kept in ~/.cache/mortarleek-wycheproof; WYCHEPROOF=FOLDER takes others, and MORTARLEEK_SIGNER=PROGRAM puts another
program in the helper's place."""

import collections
import functools
import json
import os
import pathlib
import sys
import tarfile
import tempfile

sys.dont_write_bytecode = True

import ecdsa
import ed25519
import line_requests
import line_tools
import rig
import rsa
from line_requests import CURVES, RSA_ALGORITHMS, RSA_FLAGS, mpint
from line_tools import spoken
from rig import run, string
from signer import PROGRAM, Helper

check = rig.Checks("wycheproof")
PACKAGE = "android-platform-external-boringssl"
SOURCES = "deb-src [signed-by=/usr/share/keyrings/debian-archive-keyring.gpg] http://deb.debian.org/debian bookworm main\n"
CACHE = pathlib.Path(os.environ.get("XDG_CACHE_HOME") or pathlib.Path.home() / ".cache") / "mortarleek-wycheproof"

# What is answered where a file says `acceptable`, by its flags, of which each has to be one of these.
ACCEPTABLE = {
    # r or s without the zero in front that a positive integer of DER wants: in SSH that is a negative number, by RFC 4251,
    # section 5, and RFC 5656, section 3.1.2, has positive ones. OpenSSH refuses it too.
    "MissingZero": False,
    # r and s are right, and stand in fewer octets than the order has. SSH's numbers have as few as they need.
    "SigSize": True,
    # A DigestInfo without NULL: RFC 8017, section 9.2, note 1, has it, and section 8.2.2 compares octets.
    "MissingNull": False,
    # Keys of 1024 and 1536 bits: OpenSSH's agent takes keys of 1024 bits and more.
    "SmallModulus": True,
    # A public exponent of 3, which RFC 8017, section 3.1, allows; keys that FIPS 186-5 has made have more than 2^16.
    "SmallPublicKey": True,
    # SHA-1: a request without flags asks for it, by `ssh-rsa`. Which keys sign so is the agent's matter.
    "WeakHash": True,
}
CURVE_NAMES = {"secp256r1": "p256", "secp384r1": "p384", "secp521r1": "p521"}


def fetch(files, apt):
    """Puts the files into a folder, which is there once all are: out of the package's source, whose signature apt-get
    checks, by lists of its own in another folder. The machine's sources stay as they are, and need have none of source."""
    (apt / "lists/partial").mkdir(parents=True)
    (apt / "sources.list").write_text(SOURCES)
    options = {
        "Dir::Etc::SourceList": apt / "sources.list",
        "Dir::Etc::SourceParts": "/dev/null",
        "Dir::State::Lists": apt / "lists",
        "Dir::Cache": apt,
        # Of the user who runs it, whose the folder is.
        "APT::Sandbox::User": "",
    }
    words = ["apt-get", "-qq", *(word for name, value in options.items() for word in ("-o", f"{name}={value}"))]
    run([*words, "update"], timeout=600)
    run([*words, "--download-only", "source", PACKAGE], cwd=apt, timeout=1800)
    (archive,) = apt.glob(f"{PACKAGE}_*.orig.tar.*")
    new = apt / "files"
    new.mkdir()
    with tarfile.open(archive) as tape:
        for member in tape:
            path = pathlib.PurePath(member.name)
            if path.match("wycheproof_testvectors/*.json") and path.name.startswith(("ecdsa_", "eddsa_", "rsa_sig")):
                (new / path.name).write_bytes(tape.extractfile(member).read())
    new.rename(files)


@functools.cache
def folder_of_files():
    if "WYCHEPROOF" in os.environ:
        return pathlib.Path(os.environ["WYCHEPROOF"])
    files = CACHE / "files"
    if not files.exists():
        CACHE.mkdir(parents=True, exist_ok=True)
        with tempfile.TemporaryDirectory(dir=CACHE) as folder:
            fetch(files, pathlib.Path(folder))
    return files


def groups(pattern, kind):
    """The groups of a kind in the files of a name."""
    for path in sorted(folder_of_files().glob(pattern)):
        for group in json.loads(path.read_text())["testGroups"]:
            if group["type"] == kind:
                yield path.name, group


def vectors(name, group):
    """Each vector of a group: where it stands, whether it is to be accepted, its message and its signature."""
    for vector in group["tests"]:
        said = vector["result"]
        if said == "acceptable":
            assert vector["flags"], (name, vector["tcId"])
        holds = said == "valid" or said == "acceptable" and all(ACCEPTABLE[flag] for flag in vector["flags"])
        place = f"{name}, {vector['tcId']} ({said}, {' '.join(vector['flags'])}): {vector['comment']}"
        yield place, holds, bytes.fromhex(vector["msg"]), bytes.fromhex(vector["sig"])


def name_of(group):
    return group["sha"].lower().replace("-", "")


class Answers:
    """What the helper and a tool answered otherwise than wanted, and how much was asked."""

    def __init__(self, tool, folder):
        self.tool, self.folder = tool, folder
        self.counts, self.wrong, self.lines = collections.Counter(), [], []

    def __enter__(self):
        self.helper = Helper()
        return self

    def __exit__(self, kind, *_):
        self.helper.end()

    def judge(self, place, answer, wanted):
        if answer != wanted:
            self.wrong.append(f"{place}: {answer}, not {wanted}")

    def verified(self, place, holds, *asked):
        """Asks the helper for its word on a signature: blob, algorithm, octets and message."""
        self.counts[spoken(holds)] += 1
        self.judge(f"helper, {place}", line_requests.verified(self.helper, *asked), holds)

    def signed(self, place, signature, *asked):
        """Asks the helper for this signature: private string, blob, algorithm, message and flags."""
        self.counts["signed"] += 1
        self.judge(f"helper, {place}", line_requests.signed(self.helper, *asked), signature)

    def line(self, place, line, wanted):
        """Keeps a line for the tool."""
        self.lines.append((place, line, wanted))

    def told(self):
        """Asks the tool, tells how many there were, and that none was wrong."""
        said = line_tools.answers(self.tool, self.folder, [line for _, line, _ in self.lines])
        for (place, line, wanted), answer in zip(self.lines, said):
            self.judge(f"{self.tool.name}, {place}", answer, wanted)
        counted = ", ".join(f"{count} {what}" for what, count in sorted(self.counts.items()))
        print(f"wycheproof: helper: {counted}; {self.tool.name}: {len(self.lines)} lines", flush=True)
        assert not self.wrong, "\n".join([f"{len(self.wrong)} otherwise", *self.wrong[:40]])
        return self.counts


# ECDSA.


def element(text, tag):
    """The contents of DER's element of a tag, and what follows it."""
    if len(text) < 2 or text[0] != tag:
        raise ValueError("tag")
    length, rest = text[1], text[2:]
    if length == 0x81 and rest and rest[0] >= 0x80:
        length, rest = rest[0], rest[1:]
    elif length >= 0x80:
        raise ValueError("length")
    if len(rest) < length:
        raise ValueError("end")
    return rest[:length], rest[length:]


def contents_of_der(signature):
    """The octets of r and of s in a signature that is DER but for these; None where it isn't."""
    try:
        pair, after = element(signature, 0x30)
        r, rest = element(pair, 0x02)
        s, more = element(rest, 0x02)
    except ValueError:
        return None
    return None if after or more else (r, s)


def contents_of_halves(signature):
    """The same of two numbers of one length, as SSH has them; None where they are none of one length."""
    if not signature or len(signature) % 2:
        return None
    middle = len(signature) // 2
    return tuple(mpint(int.from_bytes(half, "big")) for half in (signature[:middle], signature[middle:]))


def is_plain(octets):
    """Whether these are the one form that SSH and DER have for a positive number."""
    return octets == mpint(int.from_bytes(octets, "big")) != b""


def ecdsa_groups(folder, kind, contents):
    """Each number's octets as the file has them, in the two strings of SSH's signature; and the file's own text in their
    place, which is none."""
    with Answers(ecdsa.TOOL, folder) as answers:
        for name, group in groups("ecdsa_*", kind):
            curve = CURVES.get(CURVE_NAMES.get(group["key"]["curve"]))
            if curve is None or name_of(group) != curve.hash_name:
                answers.counts["groups of others"] += 1
                continue
            answers.counts["groups"] += 1
            public = bytes.fromhex(group["key"]["uncompressed"])
            algorithm, blob = line_requests.algorithm_of(curve), line_requests.ecdsa_blob(curve, public)
            for place, holds, message, signature in vectors(name, group):
                answers.verified(f"{place}, as it is", False, blob, algorithm, signature, message)
                found = contents(signature)
                if found is None:
                    answers.counts["without a form in SSH"] += 1
                    answers.judge(place, holds, False)
                    continue
                answers.verified(place, holds, blob, algorithm, b"".join(map(string, found)), message)
                numbers = [int.from_bytes(octets, "big") for octets in found]
                if all(map(is_plain, found)) and max(numbers) < 256**curve.size:
                    halves = b"".join(map(curve.octets, numbers))
                    answers.line(place, ecdsa.verifying(curve, public, message, halves), spoken(holds))
        return answers.told()


@check
def ecdsa_signatures_in_der(folder):
    counts = ecdsa_groups(folder, "EcdsaVerify", contents_of_der)
    assert min(counts["true"], counts["false"], counts["without a form in SSH"]) > 500, counts


@check
def ecdsa_signatures_of_two_numbers(folder):
    counts = ecdsa_groups(folder, "EcdsaP1363Verify", contents_of_halves)
    assert min(counts["true"], counts["false"]) > 500, counts


# Ed25519.


@check
def ed25519_signatures(folder):
    """Verified, and where they are valid made anew."""
    with Answers(ed25519.TOOL, folder) as answers:
        for name, group in groups("eddsa_*", "EddsaVerify"):
            assert group["key"]["curve"] == "edwards25519"
            answers.counts["groups"] += 1
            seed, public = (bytes.fromhex(group["key"][part]) for part in ("sk", "pk"))
            blob, private = line_requests.ed25519_blob(public), line_requests.ed25519_private(seed, public)
            for place, holds, message, signature in vectors(name, group):
                answers.verified(place, holds, blob, line_requests.ED25519, signature, message)
                if holds:
                    answers.signed(place, signature, private, blob, line_requests.ED25519, message)
                    for line, wanted in ed25519.calls_of(seed.hex(), public.hex(), message.hex(), signature.hex()):
                        answers.line(place, line, wanted)
                elif len(signature) == 64:
                    answers.line(place, ed25519.verifying(public, message, signature), "false")
        counts = answers.told()
        assert min(counts["true"], counts["false"], counts["signed"]) > 50, counts


# RSA.


@check
def rsa_signatures(folder):
    with Answers(rsa.TOOL, folder) as answers:
        for name, group in groups("rsa_signature_*", "RsassaPkcs1Verify"):
            hashed, n, e = name_of(group), int(group["n"], 16), int(group["e"], 16)
            if hashed not in rsa.HASHES:
                answers.counts["groups of others"] += 1
                continue
            answers.counts["groups"] += 1
            for place, holds, message, signature in vectors(name, group):
                answers.verified(place, holds, line_requests.rsa_blob(n, e), RSA_ALGORITHMS[hashed], signature, message)
                line = f"verify {hashed} {rsa.octets(n)} {e} {signature.hex()} {message.hex()}"
                answers.line(place, line, spoken(holds))
        counts = answers.told()
        assert min(counts["true"], counts["false"]) > 100, counts


@check
def rsa_signatures_made_anew(folder):
    with Answers(rsa.TOOL, folder) as answers:
        for name, group in groups("rsa_sig_gen_*", "RsassaPkcs1Generate"):
            hashed, n, e, d = name_of(group), *(int(group[part], 16) for part in ("n", "e", "d"))
            if hashed not in rsa.HASHES:
                answers.counts["groups of others"] += 1
                continue
            answers.counts["groups"] += 1
            key, blob, algorithm = rsa.Key(*rsa.factors(n, e, d), e, d), line_requests.rsa_blob(n, e), RSA_ALGORITHMS[hashed]
            private = line_requests.rsa_private(n, e, *map(mpint, (d, key.p, key.q, key.iqmp)))
            for place, holds, message, signature in vectors(name, group):
                assert holds, place
                answers.signed(place, signature, private, blob, algorithm, message, RSA_FLAGS[hashed])
                answers.verified(place, True, blob, algorithm, signature, message)
                for line, wanted in rsa.signed_and_verified(key, hashed, message, signature):
                    answers.line(place, line, wanted)
        counts = answers.told()
        assert counts["signed"] > 50, counts


if __name__ == "__main__":
    check.main(PROGRAM)
