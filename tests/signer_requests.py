#!/usr/bin/env python3
"""The proved helper as it is built (mortarleek_signer), of which this process is the agent: what tests/ed25519.py,
tests/ecdsa.py and tests/rsa.py have, as requests; random requests beside model/signer.py, the helper behind, and how it
ends. Words choose checks by a part of their names; `signer_requests.py N SEED` takes N random keys of Ed25519 (1000), fewer
of the others, and 2 N random requests by a seed. MORTARLEEK_SIGNER=PROGRAM puts another program in its place."""

import json
import os
import pathlib
import random
import socket
import struct
import subprocess
import sys
import time

sys.dont_write_bytecode = True

import ecdsa
import ed25519 as vectors
import line_requests
import line_tools
import rig
import rsa
from line_requests import ed25519_blob as public_blob
from line_requests import ed25519_private as addition
from rig import TOP, children, is_alive, run, string, strings, until

sys.path.insert(0, str(TOP / "helper/tests"))

from model import differential_signer as differential
from model.signer import mpint

check = rig.Checks("signer_requests")
PROGRAM = pathlib.Path(os.environ.get("MORTARLEEK_SIGNER", rig.HELPER))
PLAIN = b"ssh-ed25519"
SIGN, VERIFY, SIGNED, REFUSED, TRUE, FALSE = 1, 2, 101, 102, 103, 104
vectors.COUNT = vectors.NUMBERS[0] if vectors.NUMBERS else 1000
ecdsa.COUNT, rsa.COUNT = max(20, vectors.COUNT // 10), max(1, vectors.COUNT // 500)
SEED = vectors.NUMBERS[1] if len(vectors.NUMBERS) > 1 else random.SystemRandom().randrange(10**9)


class Helper(rig.Child):
    """The helper, with what it is asked."""

    def __init__(self, *words, program=PROGRAM, **more):
        super().__init__(program, *words, **more)
        self.asks = 0

    def __enter__(self):
        return self

    def __exit__(self, *_):
        self.end()

    def ask(self, kind, *texts, more=b""):
        """The kind of the answer, and what stands in it."""
        self.asks += 1
        self.peer.send(struct.pack(">BQ", kind, self.asks) + b"".join(map(string, texts)) + more)
        answer = self.peer.reply()
        found, number = struct.unpack_from(">BQ", answer)
        assert number == self.asks, (number, self.asks)
        return found, answer[9:]

    def sign(self, private, blob, message, flags=0):
        """The signature, or None."""
        kind, rest = self.ask(SIGN, private, blob, message, more=struct.pack(">I", flags))
        assert kind == SIGNED or (kind, rest) == (REFUSED, b""), (kind, rest)
        return strings(rest)[0] if kind == SIGNED else None

    def verify(self, host_key, signature, session):
        answer = self.ask(VERIFY, host_key, signature, session)
        assert answer in ((TRUE, b""), (FALSE, b"")), answer
        return answer[0] == TRUE


check.part = "vectors"


def ask_too(module, answer, *others):
    """Checks of a module, but for some: what it asks of its tool is asked of the helper, without the calls for a public
    key, which it hasn't."""

    def same(folder, rows):
        asked = [row for row in rows if not row[0].startswith("key ")]
        with Helper() as helper:
            line_tools.same(lambda _, lines: line_requests.answers(helper, answer, lines), folder, asked)
        return len(rows)

    def through_it(case):
        def made(folder):
            case(folder)

        made.__name__ = f"{module.check.name}_{case.__name__}"
        return made

    module.same = same
    for _, case in module.check.cases:
        if case not in (module.lines_that_are_none, *others):
            check(through_it(case))


ask_too(vectors, line_requests.ed25519_answer, vectors.wrong_readings_are_told_by_the_vectors)
# These two take the model half a minute.
ask_too(
    ecdsa,
    line_requests.ecdsa_answer,
    ecdsa.each_bit_of_one_signature,
    ecdsa.sums_that_double_or_end_at_infinity,
)
# The helper puts zeros before a signature that lacks them; the last two are about rsa_sign, whoever asks for it.
ask_too(
    rsa,
    line_requests.rsa_answer,
    rsa.lengths_and_bounds_of_signatures,
    rsa.long_keys_beside_libcrypto,
    rsa.no_step_depends_on_a_secret,
)

check.part = "requests"


@check
def random_requests_are_answered_as_by_the_model(_):
    print(f"mortarleek_signer: {differential.run(str(PROGRAM), 2 * vectors.COUNT, str(SEED))}", flush=True)


@check
def ecdsa_signatures_are_those_of_rfc_6979(_):
    """Sections A.2.5 to A.2.7, each curve with its own hash function."""
    with Helper() as helper:
        for curve, (number, point, *signatures) in ecdsa.VECTORS_6979.items():
            curve_name = b"nist" + curve.name.encode()
            name = b"ecdsa-sha2-" + curve_name
            blob = string(name) + string(curve_name) + string(bytes.fromhex(point))
            for message, signed in zip((b"sample", b"test"), signatures):
                r, s = (mpint(int(half, 16)) for half in (signed[: 2 * curve.size], signed[2 * curve.size :]))
                wanted = string(name) + string(string(r) + string(s))
                assert helper.sign(blob + string(mpint(int(number, 16))), blob, message) == wanted, (curve.name, message)
                assert helper.verify(blob, wanted, message) and not helper.verify(blob, wanted, message + b"\0")


def behind(folder, does):
    """A helper behind, which says its hello, and then does this in Python with its connection `here`."""
    text = f"""#!{sys.executable} -IS
import json, os, socket, sys, time
places = os.listdir("/proc/self/fd")
here = socket.socket(fileno=os.dup(0))
with open({str(folder)!r} + "/started", "a") as file:
    print(os.getpid(), json.dumps([sys.argv[1:], dict(os.environ), places]), file=file)
job = int(sys.argv[2]).to_bytes(8, "big")
here.sendall((29).to_bytes(4, "big") + b"\\1" + job + (16).to_bytes(4, "big") + bytes(16))
{does}
"""
    path = folder / "behind"
    path.write_text(text)
    path.chmod(0o700)
    return path


# A security key's.
OTHER_TYPE = b"sk-ssh-ed25519@openssh.com"
OTHER = string(OTHER_TYPE) + string(bytes(32)) + string(b"ssh:")
SEED_OF_ONE, PUBLIC_OF_ONE = (bytes.fromhex(text) for text in vectors.ROWS[0][:2])


def signs(helper):
    """It signs with an Ed25519 key."""
    signature = helper.sign(addition(SEED_OF_ONE, PUBLIC_OF_ONE), public_blob(PUBLIC_OF_ONE), b"")
    return signature == string(PLAIN) + string(bytes.fromhex(vectors.ROWS[0][3]))


def started(folder):
    """The numbers of the helpers behind that were started."""
    path = folder / "started"
    return [int(line.split()[0]) for line in path.read_text().splitlines()] if path.exists() else []


@check
def keys_of_other_types_are_refused_where_nothing_is_behind(_):
    with Helper() as helper:
        assert helper.sign(OTHER + string(b"private"), OTHER, b"message") is None
        assert not helper.verify(OTHER, string(OTHER_TYPE) + string(b"signature"), b"session")
        assert signs(helper) and children(helper.process.pid) == []


@check
def a_helper_behind_that_can_t_be_run_is_none(folder):
    (folder / "text").write_text("no program")
    for path in (folder / "nowhere", folder, folder / "text"):
        with Helper(path) as helper:
            for _ in range(2):
                assert helper.sign(OTHER + string(b"private"), OTHER, b"message") is None
                assert signs(helper)
            assert children(helper.process.pid) == []


@check
def it_starts_the_helper_behind_at_the_first_need_and_ends_it(folder):
    """With words of its own, no variables and three descriptors, and not for an Ed25519 key."""
    echo = "while here.recv(65536): here.sendall((9).to_bytes(4, 'big') + b'f' + job[:7] + b'\\2')"
    path = behind(folder, echo)
    with Helper(path) as helper:
        assert signs(helper) and started(folder) == []
        assert helper.sign(OTHER + string(b"private"), OTHER, b"message") is None
        (pid,) = started(folder)
        assert children(helper.process.pid) == [pid]
        words, variables, places = json.loads((folder / "started").read_text().split(" ", 1)[1])
        assert words == ["-", str(helper.job), "0" * 32], words
        # The fourth is the folder that is listed; Python sets its own variable.
        assert set(variables) <= {"LC_CTYPE"} and set(places) <= {"0", "1", "2", "3"}, (variables, places)
        # Of its own it has its standard streams, of which the input is the agent's connection, and one more connection.
        folder = pathlib.Path(f"/proc/{helper.process.pid}/fd")
        targets = {place.name: os.readlink(place) for place in folder.iterdir()}
        others = set(targets.values()) - {targets["0"], targets["1"], targets["2"]}
        assert len(others) == 1 and others.pop().startswith("socket:"), targets
    until(lambda: not is_alive(pid), what="the end of the helper behind")


@check
def a_helper_behind_that_ends_is_started_again(folder):
    path = behind(folder, "here.recv(65536)")
    with Helper(path) as helper:
        for count in (1, 2, 3):
            assert helper.sign(OTHER + string(b"private"), OTHER, b"message") is None
            assert len(started(folder)) == count and signs(helper)
        assert rig.zombies(helper.process.pid) <= 1


@check.beside
def a_helper_behind_that_says_nothing_is_waited_for_for_20_seconds(folder):
    """Also one that says a part of a frame, and one that never says its hello."""
    silent = folder / "silent"
    silent.mkdir()
    hanging = rig.script(silent / "behind", f'echo "$$ {{}}" >> {silent}/started; exec sleep 100')
    (folder / "part").mkdir()
    for place, path in ((silent, hanging), (folder / "part", behind(folder / "part", "here.recv(65536); here.sendall(b'\\0\\0'); time.sleep(100)"))):
        with Helper(path) as helper:
            helper.peer.socket.settimeout(60)
            begin = time.monotonic()
            assert helper.sign(OTHER + string(b"private"), OTHER, b"message") is None
            assert 19 <= time.monotonic() - begin < 25, time.monotonic() - begin
            assert signs(helper)
            (pid,) = started(place)
        until(lambda: not is_alive(pid), 10, what="the end of the helper behind")


@check
def no_key_that_mortarleek_helper_knows_is_handed_on(folder):
    """Each kind of key, plain and certified, is signed with and verified here, as OpenSSH accepts it, and a key of another
    type is refused there."""
    import openssh

    rig.there(rig.OTHER)
    authority = openssh.generate(folder, "ed25519", "256")
    other = openssh.generate(folder, "ecdsa", "256")
    keys = [openssh.generate(folder, kind, bits) for kind, bits in openssh.KINDS]
    certified = [(openssh.certify(key, signer), signer) for key in keys for signer in (authority, other)]
    with Helper(rig.OTHER) as helper:
        for key, signer in [(key, None) for key in keys] + certified:
            signature = helper.sign(key.private, key.blob, openssh.signed_text(b"a message\n"))
            if key.plain != "ssh-rsa":
                assert openssh.accepts(folder, key, signature, b"a message\n", signer), (key, signer)
            assert helper.verify(key.blob, signature, openssh.signed_text(b"a message\n"))
            assert not helper.verify(key.blob, signature, openssh.signed_text(b"another\n"))
        # A certificate of another authority's key, changed.
        for key, signer in certified:
            if key.plain == "ssh-ed25519":
                signature = helper.sign(key.private, key.blob, b"session")
                assert helper.verify(key.blob, signature, b"session")
                assert not helper.verify(key.blob[:-1] + bytes([key.blob[-1] ^ 1]), signature, b"session"), signer
        assert children(helper.process.pid) == []
        assert helper.sign(OTHER + string(b"private"), OTHER, b"message") is None
        assert len(children(helper.process.pid)) == 1


@check
def what_is_tried_of_mortarleek_helper_holds_of_both(folder):
    """Its own tests of keys and vectors, each of whose requests goes to the proved one first."""
    rig.there(rig.OTHER)
    both = rig.script(folder / "both", f'exec {PROGRAM.absolute()} "$@" {rig.OTHER}')
    words = [sys.executable, "-B", "-m", "unittest", "-q", "test_keys", *(f"test_vectors.{name}" for name in ("Ed25519", "Ecdsa", "Rsa"))]
    run(words, cwd=TOP / "helper/tests", env=dict(os.environ, HELPER=str(both), BEHIND="1"), timeout=900)


# How it ends.
check.part = "ends"


def ended(told, *, shut=True):
    """The status behind these bytes."""
    helper = Helper()
    helper.peer.socket.sendall(told)
    if shut:
        helper.peer.socket.shutdown(socket.SHUT_WR)
    status = helper.process.wait(20)
    helper.end()
    return status


@check
def each_end_has_its_status(_):
    request = struct.pack(">BQ", VERIFY, 1) + string(b"") * 3
    assert ended(b"") == ended(string(request)) == 0
    for body in (b"\0", request + b"\0", request[:-1], struct.pack(">BQ", 3, 7) + string(b"prompt")):
        assert ended(string(body), shut=False) == 1, body
    for length in (0, 1048577, 2**32 - 1):
        assert ended(struct.pack(">I", length), shut=False) == 1, length
    for words in ([], ["-"], ["-", "1"], ["-", "01", "0" * 32], ["-", "1", "0" * 31], ["-", "1", "0" * 32, "a", "b"], ["-", "1", "-"]):
        run([PROGRAM, *words], 2, env={}, stdin=subprocess.DEVNULL, timeout=20)
    run([PROGRAM, "/nowhere/at/all", "1", "0" * 32], 7, stdin=subprocess.DEVNULL, timeout=20)
    for part in (1, 4, 12):
        assert ended(string(request)[:part]) == 8, part


@check
def a_request_in_single_bytes_is_one(_):
    request = struct.pack(">BQ", SIGN, 9) + string(addition(SEED_OF_ONE, PUBLIC_OF_ONE)) + string(public_blob(PUBLIC_OF_ONE))
    request += string(b"") + bytes(4)
    with Helper() as helper:
        for byte in string(request):
            helper.peer.socket.sendall(bytes([byte]))
            time.sleep(0.0005)
        wanted = string(PLAIN) + string(bytes.fromhex(vectors.ROWS[0][3]))
        assert helper.peer.reply() == struct.pack(">BQ", SIGNED, 9) + string(wanted)


@check
def the_longest_request_is_answered(_):
    """A body of 1048576 bytes."""
    blob = public_blob(PUBLIC_OF_ONE)
    left = 1048576 - 9 - 12 - 4 - len(addition(SEED_OF_ONE, PUBLIC_OF_ONE)) - len(blob)
    with Helper() as helper:
        message = b"m" * left
        signature = helper.sign(addition(SEED_OF_ONE, PUBLIC_OF_ONE), blob, message)
        private, keys, _ = vectors.libcrypto()
        assert strings(signature)[1] == private.from_private_bytes(SEED_OF_ONE).sign(message)


if __name__ == "__main__":
    sys.argv[1:] = [word for word in sys.argv[1:] if not word.isdigit()]
    check.main(PROGRAM)
