#!/usr/bin/env python3
"""Where the steps of mortarleek_signer depend on a private key: a list of functions, and of why each may.

memcheck runs the helper under gdb, which marks every secret field of a request as undefined where `put_signature` takes it,
until that returns: the key was read, tried and has signed, and the signature was checked and written. Each jump and each
address that depends on one of these fields is found then, with its function, which has to stand in the list below, with no
more places than there. So it is for each kind of key, several lengths of it, numbers with zeros in front, and certificates.
What comes of a secret depends on it too, until the last: a finished signature is written, and memcheck tells that. No
instruction of what computes with secrets divides, which takes a time by its numbers. MORTARLEEK_SIGNER=PROGRAM puts another
program in its place: Rattle's own compiler's build too, which inlines other functions.

    tests/signer_secrets.py            all
    tests/signer_secrets.py --list     what is found, a line for each kind and function, and nothing is compared
"""

import collections
import hashlib
import os
import pathlib
import re
import socket
import struct
import subprocess
import sys
import tempfile

sys.dont_write_bytecode = True

import rig
from rig import TOP, string

sys.path.insert(0, str(TOP))
sys.path.insert(0, str(TOP / "helper/tests"))

import memcheck
import openssh
from model.ecdsa import P256, P384, P521

check = rig.Checks("signer_secrets")
HELPER = pathlib.Path(os.environ.get("MORTARLEEK_SIGNER", rig.HELPER))
MESSAGE = b"a message of some bytes"
# What memcheck says first of what it finds, and what that is.
FOUND = {"Conditional jump": "jump", "Use of uninitialised value": "address", "Syscall param": "call"}

# The list: for each kind of key the functions in which a jump or an address may depend on a secret, with how many places at
# most in all of a line, by either compiler, and why. Each compiler inlines other functions, so a line has several names.
READS = "the first byte of a number: its sign, and a zero in front"
SIGNS = "how long the number is, with zeros put in front, and whether it is in range; whether the key's x and y are the coordinates \
of the point that is made of the number; whether both signatures are the same, the second of which finds a fault of the machine"
BEGINS_ANEW = "RFC 6979 and FIPS 186-5: whether a nonce is in range, and whether r or s is 0"
WRITES = "the finished signature is written"
LIST = {
    "ed25519": {("ed25519::erase::sign_with_copy",): (2, "the public keys are compared, and both signatures")},
    **{
        curve.name: {
            ("ecdsa_wire::pair::read_pair",): (3, READS),
            (
                "signer_keys::answers::signature_by",
                f"signer_keys::answers::{curve.name}_signature",
                f"signer_keys::{curve.name}_signatures::sign",
                f"{curve.name}_ecdsa::keys::is_key_of",
                f"{curve.name}_ecdsa::sign::sign_twice",
                f"{curve.name}_field::element::Element::equals",
            ): (21, SIGNS),
            (f"{curve.name}_ecdsa::sign::sign_hash",): (6, BEGINS_ANEW),
            ("signer_keys::numbers::put_mpint", f"signer_keys::{curve.name}_signatures::text"): (5, WRITES),
        }
        for curve in (P256, P384, P521)
    },
    "rsa": {
        ("rsa_wire::pair::read_private",): (12, READS),
        (
            "signer_keys::answers::put_signature",
            "signer_keys::answers::signature_by",
            "signer_keys::rsa_signatures::sign_by",
            "rsa_sign::signing::sign_significant",
        ): (7, "how long d, the factors and iqmp are without zeros in front; whether each factor is odd; whether there is a signature"),
        ("rsa_verify::verification::opens", "rsa_verify::verification::verify_info"): (2, "the signature, which is verified"),
    },
}

# The crates that compute with secrets.
COMPUTES = re.compile(
    r"<(?:words64|wide_words|p(?:256|384|521)_(?:field|order|curve|multiples|ecdsa)|field25519|scalar25519|curve25519"
    r"|curve25519_multiples|ed25519|rsa_numbers|rsa_octets|rsa_powers|rsa_sign|hmac_core|hmac_wide|sha2)::"
)

# It goes on behind so many findings.
MOST = 1_000_000

# Where the helper stops first, and what it does there: the private string is looked for behind each register that the call
# is passed, through what that points to, and its secret fields are marked.
SCRIPT = memcheck.BEGIN + """
break signer_keys::answers::put_signature
continue
python
import gdb
inferior, wanted = gdb.selected_inferior(), bytes.fromhex("{private}")

def at(place, size):
    try:
        return bytes(inferior.read_memory(place, size))
    except (gdb.error, OverflowError):
        return b""

def found():
    for register in ("rdi", "rsi", "rdx", "rcx", "r8"):
        record = at(int(gdb.parse_and_eval("$" + register)) % 2**64, 160)
        for place in range(0, len(record), 8):
            string = int.from_bytes(record[place : place + 8], "little")
            if at(string, len(wanted)) == wanted:
                return string

place = found()
for offset, size in {spots} if place else ():
    gdb.execute(f"monitor make_memory undefined {{place + offset:#x}} {{size}}")
print("marked", place is not None)
end
set $back = *(unsigned long*)$rsp
delete
break *$back
monitor v.set vgdb-error {most}
continue
printf "returned %d\\n", $pc == $back
kill
"""


class Case:
    """A request to sign: the kind of its key, the private string and the stretches of it that are secret."""

    def __init__(self, kind, name, blob, fields, flags=0):
        self.kind, self.blob, self.flags, self.spots = kind, blob, flags, []
        self.private = string(name)
        for field, secret in fields:
            place = len(self.private) + 4
            self.private += string(field)
            if secret:
                self.spots.append((place, secret))

    def body(self):
        head = struct.pack(">BQ", 1, 1) + string(self.private) + string(self.blob)
        return head + string(MESSAGE) + struct.pack(">I", self.flags)


def of_key(kind, key, flags=0):
    """Of a key that OpenSSH made: its last fields are secret, of the last one of Ed25519 the first 32 bytes."""
    public = len(key.fields) - (openssh.FIELDS[key.plain][1] - openssh.FIELDS[key.plain][0])
    sizes = [32 if key.plain == "ssh-ed25519" else len(field) for field in key.fields]
    secret = [size if place >= public else 0 for place, size in enumerate(sizes)]
    return Case(kind, key.name.encode(), key.blob, list(zip(key.fields, secret)), flags)


def of_number(curve, d):
    """Of an ECDSA key with this private number."""
    name, text = b"nist" + curve.name.encode(), curve.public_key(d)
    kind = b"ecdsa-sha2-" + name
    number = d.to_bytes(d.bit_length() // 8 + 1, "big")
    return Case(curve.name, kind, string(kind) + string(name) + string(text), [(name, 0), (text, 0), (number, len(number))])


def cases(folder):
    """Each kind of key: of several lengths, with zeros in front of a number, and in a certificate."""
    authority = openssh.generate(folder, "ed25519", "256")
    yield of_key("ed25519", openssh.generate(folder, "ed25519", "256"))
    yield of_key("ed25519", openssh.certify(openssh.generate(folder, "ed25519", "256"), authority))
    for curve in (P256, P384, P521):
        key = openssh.generate(folder, "ecdsa", curve.name[1:])
        yield of_key(curve.name, key)
        yield of_key(curve.name, openssh.certify(key, authority))
        yield of_number(curve, int.from_bytes(hashlib.sha512(curve.name.encode()).digest(), "big") >> 300)
    for bits in ("1024", "1536", "2048", "2049"):
        key = openssh.generate(folder, "rsa", bits)
        yield from (of_key("rsa", key, flags) for flags in (0, 4))
    yield of_key("rsa", openssh.certify(key, authority), 2)


def found_of(folder, case):
    """What memcheck finds while the helper answers: how often each function has a jump, an address or a call by a secret."""
    ours, theirs = socket.socketpair()
    log, script = folder / "memcheck", folder / "script"
    words = [*memcheck.WORDS, "--error-limit=no", f"--log-file={log}", HELPER, "-", "7", "00" * 16]
    with ours, theirs:
        ours.sendall(string(case.body()))
        process = subprocess.Popen(words, stdin=theirs, stdout=subprocess.DEVNULL, stderr=subprocess.DEVNULL)
        try:
            script.write_text(SCRIPT.format(pid=process.pid, private=case.private.hex(), spots=case.spots, most=MOST))
            said = rig.run(["gdb", "-q", "-batch", "-x", script, HELPER], status=None, timeout=120)
        finally:
            process.kill()
            process.wait()
    assert "marked True" in said, f"{case.kind}: the private string isn't where it was looked for: {said[-1000:]}"
    assert "returned 1" in said, f"{case.kind}: it didn't return: {said[-1000:]}"
    form = rf"({'|'.join(FOUND)}).*\n==\d+== +at 0x[0-9A-F]+: ([^\n(]*) \("
    return collections.Counter((name, FOUND[what]) for what, name in re.findall(form, log.read_text()))


def all_found(folder):
    """What is found for each kind of key, over its cases."""
    found = collections.defaultdict(collections.Counter)
    for number, case in enumerate(cases(folder)):
        own = folder / f"case-{number}"
        own.mkdir()
        found[case.kind] |= found_of(own, case)
    return found


@check
def a_step_depends_on_a_secret_where_the_list_says_so_alone(folder):
    rig.there(HELPER)
    for kind, found in all_found(folder).items():
        places = collections.Counter()
        for (name, _), count in found.items():
            of = [names for names in LIST[kind] if name in names]
            assert of, f"{kind}: {name} depends on a secret"
            places[of[0]] += count
        for names, count in places.items():
            most, _ = LIST[kind][names]
            assert count <= most, f"{kind}: {names}: {count} places, {most} in the list"
        assert places, f"{kind}: memcheck finds nothing, also where something is"


@check
def nothing_that_computes_with_secrets_divides(_):
    function, found = "", []
    for line in rig.run(["objdump", "-d", "--no-show-raw-insn", rig.there(HELPER)], timeout=300).splitlines():
        if line.endswith(">:"):
            function = line
        elif COMPUTES.search(function) and re.search(r"\ti?div", line):
            found.append((function, line))
    assert not found, found


if __name__ == "__main__":
    if sys.argv[1:] == ["--list"]:
        with tempfile.TemporaryDirectory() as folder:
            for kind, found in all_found(pathlib.Path(folder)).items():
                for (name, what), count in sorted(found.items()):
                    print(f"{kind:8} {count:4} {what:8} {name}")
        sys.exit(0)
    check.main(HELPER)
