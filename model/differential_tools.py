"""Random peers of the stand-in helper and the confirmation relay, beside their models."""

from __future__ import annotations

import base64
import hmac
import os
import socket
import subprocess
import sys
import tempfile
from collections import Counter
from pathlib import Path
from random import Random

from . import add_tool
from . import pool
from .add_tool import Talk
from .formats import STAND_IN
from .rows import H1, H2, K1, added, st
from .rows_rules import hop, restrict, rule
from .tools import Told, helper, relay, signature, verdict
from .wire import string, uint32, uint64

T = string(STAND_IN)
ASKPASS = """#!/bin/sh
printf '%s' "$1" > {folder}/word
cat {folder}/answer
exit $(cat {folder}/status)
"""


def blob(tag: bytes) -> bytes:
    return T + string(tag)


def frames(random: Random, job: int, tags: list[tuple[bytes, bytes]]) -> bytes:
    """Messages to a helper, of which the last may be none."""
    told = b""
    for ask in range(random.randrange(6)):
        tag, secret = random.choice(tags)
        data, other = random.randbytes(random.choice([0, 1, 63, 64, 65, 500])), random.choice(tags)
        if random.random() < 0.5:
            private = blob(tag) + string(secret)
            faulty = [private + b"x", private[:-1], blob(tag) + string(secret[:31])]
            faulty += [T + string(tag[:31]) + string(secret), string(b"ssh-rsa") + private[28:]]
            private = random.choice([private] * 9 + faulty)
            shown = blob(random.choice([tag] * 9 + [other[0], tag[:31]]))
            body = b"\x01" + uint64(ask) + string(private) + string(shown) + string(data)
            body += uint32(random.choice([0, 2, 2**32 - 1]))
        else:
            told_by = random.choice([secret] * 4 + [other[1]])
            wrong = [b"", signature(secret, data)[:-1], signature(secret, data + b"x")]
            proof = random.choice([signature(told_by, data)] * 6 + wrong)
            body = b"\x02" + uint64(ask) + string(blob(tag)) + string(proof) + string(data)
        told += string(body)
        if random.random() < 0.08:
            bad = [body + b"x", body[:-1], body[:5], b"\x00", b"\x04" + body[1:]]
            bad.append(b"\x03" + uint64(job) + string(b"prompt"))
            told += string(random.choice(bad))
    ends = [b"", b"", b"", uint32(0), uint32(1048577), b"\0", b"\0\0\0\5abcd", uint32(1048576)]
    return told + random.choice(ends)


def questions(random: Random, job: int) -> bytes:
    """What a relay is told."""
    prompts = [b"Allow?\nYes", b"", b"tab\t", b"\x7f", b"\x7e\x20", b"a" * 3000, b"\xff", b"'\"$x"]
    body = b"\x03" + uint64(random.choice([job] * 9 + [job ^ 1])) + string(random.choice(prompts))
    bad = [body + b"x", body[:-1], b"\x02" + body[1:], b"\x69" + uint64(job), b"\x03"]
    told = string(random.choice([body] * 12 + bad)) + random.choice([b"", b"", b"more"])
    return random.choice([told] * 12 + [told[:7], b"", uint32(0), uint32(1048577), b"\0\0"])


def talk(
    words: list[str], folder: Path, peer: bytes, random: Random, stays: bool = False
) -> tuple[bytes, int]:
    """Starts a program in a folder, with the socket `s` and the input `in`; tells it these bytes,
    ends its side unless it stays, and hears it out. The outputs are in the files `out` and `err`.
    """
    files = [
        open(folder / name, mode) for name, mode in (("in", "rb"), ("out", "wb"), ("err", "wb"))
    ]
    known = {"SSH_AUTH_SOCK": str(folder / "s")}
    with socket.socket(socket.AF_UNIX) as door, files[0], files[1], files[2]:
        door.bind(str(folder / "s"))
        door.listen(1)
        door.settimeout(0.02)
        child = subprocess.Popen(words, None, None, *files, cwd=folder, env=os.environ | known)
        line = None
        while line is None:
            try:
                line, _ = door.accept()
            except TimeoutError:
                if child.poll() is not None:
                    return b"", child.returncode
        with line:
            line.settimeout(10)
            heard, at = b"", random.randrange(len(peer) + 1)
            try:
                for piece in (peer[:at], peer[at:]):
                    line.sendall(piece)
                if not stays:
                    line.shutdown(socket.SHUT_WR)
            except (BrokenPipeError, ConnectionResetError):
                pass
            try:
                while more := line.recv(65536):
                    heard += more
            except ConnectionResetError:
                pass
        return heard, child.wait(10)


def try_helper(program: str, random: Random, folder: Path) -> tuple[Told, Told, list[str]]:
    tags = [(random.randbytes(32), random.randbytes(32)) for _ in range(3)]
    tags.append((tags[0][0], random.randbytes(32)))
    lines = [b"%s %s\n" % (tag.hex().encode(), secret.hex().encode()) for tag, secret in tags]
    text = b"".join(lines[: random.randrange(5)])
    bad = [text[:-1], text + b"\n", text + b"x", text.replace(b" ", b"  ", 1), lines[0].upper()]
    text = random.choice([text] * 9 + bad + [lines[0] * 8200])
    job = random.choice([1, 7, 2**64 - 1])
    words = [str(folder / "s"), str(job), random.randbytes(16).hex()]
    data: bytes | None = text
    if random.random() < 0.8:
        words.append(str(folder / "data"))
        (folder / "data").write_bytes(text)
        if random.random() < 0.05:
            words[3], data = str(folder / "none"), None
    if random.random() < 0.1:
        words = random.choice([words[:2], [*words, "x", "y"], [words[0], "01", *words[2:]]])
    peer = frames(random, job, tags)
    sent, status = talk([program, *words], folder, peer, random)
    return Told(sent, status, []), helper(words, data, peer), words


def try_relay(program: str, random: Random, folder: Path) -> tuple[Told, Told, list[str]]:
    outputs = [b"", b"yes", b"YES\n", b"Yes\r\nno", b"no", b"yes ", b"\n", b"\nno", b"y", b"yesyes"]
    status, output = random.choice([0, 0, 0, 0, 1, 255]), random.choice(outputs)
    (folder / "answer").write_bytes(output)
    (folder / "status").write_text(str(status))
    (folder / "askpass").write_text(ASKPASS.format(folder=folder))
    (folder / "askpass").chmod(0o755)
    job = random.choice([1, 7, 2**64 - 1])
    words = [str(folder / "s"), str(job), random.randbytes(16).hex(), str(folder / "askpass")]
    answer: tuple[int, bytes] | None = (status, output)
    if random.random() < 0.1:
        words[3], answer = str(folder / "none"), None
    if random.random() < 0.05:
        words = random.choice([words[:3], [*words, "x"], [words[0], "1x", *words[2:]]])
    peer = questions(random, job)
    # A relay takes the end of its agent for a no, so the agent stays where it has told all.
    stays = len(peer) >= 4 + int.from_bytes(peer[:4], "big")
    sent, ended = talk([program, *words], folder, peer, random, stays)
    word = folder / "word"
    ran = [word.read_bytes()] if word.exists() else []
    return Told(sent, ended, ran), relay(words, answer, peer), words


def key_file(random: Random, key: pool.Key, comment: bytes) -> bytes:
    """The base64 of a key file, or of what is none."""
    check, size = random.randbytes(4), random.choice([8] * 50 + [16])
    inside = check * 2 + key.added + string(comment)
    if random.random() < 0.02:
        inside = b"x" + inside[1:]
    padding = bytes(range(1, 17))[: -len(inside) % size]
    inside += random.choice([padding] * 50 + [padding[:-1], padding[::-1]])
    names = random.choice([[b"none", b"none", b""]] * 50 + [[b"aes", b"none", b""], [b"none"] * 3])
    count, blob = uint32(random.choice([1] * 50 + [2])), key.blob
    if random.random() < 0.02:
        blob = random.choice(pool.KEYS).blob
    text = b"openssh-key-v1\0" + b"".join(map(string, names)) + count + string(blob)
    text += string(inside) + random.choice([b""] * 50 + [b"x"])
    text = text[: random.choice([len(text)] * 50 + [5, len(text) // 2])]
    lines = base64.b64encode(text)
    lines = b"\n".join(lines[at : at + 70] for at in range(0, len(lines), 70)) + b"\n"
    return random.choice(
        [lines] * 50 + [lines[:-2], b"-" + lines, lines.replace(b"\n", b" \t\r\n")]
    )


def hosts_file(random: Random) -> bytes:
    """Known hosts: plain, as patterns, hashed, marked and faulty."""
    told = b""
    for _ in range(random.randrange(8)):
        host = random.choice(pool.PLAIN_HOSTS)
        salt = random.randbytes(20)
        digest = hmac.digest(salt, host.name.lower(), "sha1")
        hashed = b"|1|" + base64.b64encode(salt) + b"|" + base64.b64encode(digest)
        names = [
            host.name,
            host.name.upper(),
            hashed,
            hashed,
            b"*.example.org",
            b"h?.example.org,x",
        ]
        names += [
            b"*.org,!h1.example.org",
            b"!h0*",
            b"x,cetus",
            b"|1|x",
            b"|1|!|!",
            b"H0.EXAMPLE.ORG",
        ]
        key = public = random.choice(pool.HOSTS).key
        key_type = key[4 : 4 + key[3]]
        marker = random.choice([b""] * 6 + [b"@cert-authority "] * 3 + [b"@revoked ", b"@other "])
        gap = random.choice([b" ", b" ", b"\t", b"  "])
        public = base64.b64encode(random.choice([public] * 9 + [public[:-1]]))
        parts = [
            random.choice(names),
            random.choice([key_type] * 9 + [b"ssh-rsa"]),
            public,
            b"and more",
        ]
        line = gap.join(parts[: random.choice([4, 4, 3, 3, 3, 2])])
        told += marker + line + random.choice([b"\n", b"\n", b"\r\n"])
        told += random.choice([b"", b"", b"# a comment\n", b"\n"])
    return told


def try_add_tool(
    program: str, random: Random, folder: Path
) -> tuple[add_tool.Talk, add_tool.Talk, list[str]]:
    comments = [b"one", b"", b"two words", b"\x00\xff", b"y" * 300]
    files: dict[str, bytes] = {}
    for name in ("f1", "f2", "f3"):
        key = random.choice(pool.KEYS[:8] * 3 + pool.KEYS[8:])
        files[name] = key_file(random, key, random.choice(comments))
        line = [key.key_type, base64.b64encode(key.blob), b"comment"]
        line[0] = random.choice([key.key_type] * 9 + [b"ssh-rsa"])
        line = line[: random.choice([3, 3, 3, 2, 1])]
        files[name + ".pub"] = b" ".join(line) + random.choice([b"\n", b"", b"\nmore\n"])
    files |= {"k1": hosts_file(random), "k2": hosts_file(random)}
    if random.random() < 0.03:
        files["f2"] = b"A" * 1048577
    if random.random() < 0.03:
        files["f1"] = key_file(random, pool.KEYS[0], b"c" * 262000)
    for name, text in files.items():
        (folder / name).write_bytes(text)
    typed = random.choice([b"pw\n", b"pw", b"pw\nmore", b"", b"\n", b"x" * 1024, b"x" * 1025])
    (folder / "in").write_bytes(typed)
    mode = random.choice(["add"] * 8 + list(add_tool.MODES))
    words: list[str] = [] if mode == "add" else [mode]
    if mode == "add":
        lives = [
            "90",
            "1h30",
            "1H30M",
            "0",
            "10x",
            "",
            "4294967295",
            "4294967296",
            "7w1d",
            "h",
            "-1",
        ]
        hosts = [host.name.decode() for host in pool.PLAIN_HOSTS] + [
            "x",
            "other.org",
            "",
            "H1.example.org",
        ]
        host, user = lambda: random.choice(hosts), lambda: random.choice(
            ["", "", "u@", "@", "a@b@"]
        )
        if random.random() < 0.3:
            words += ["-t", random.choice(lives)]
        if random.random() < 0.3:
            counts = ["1", "3", "4294967295", "4294967296", "0", "03", "+3", "-1", "3s", ""]
            words += ["-u", random.choice(counts)] * random.choice([1] * 9 + [2])
        if random.random() < 0.3:
            words += ["-c"] * random.choice([1] * 9 + [2])
        if random.random() < 0.7:
            words += ["-H", "k1"]
        if random.random() < 0.2:
            words += ["-H", random.choice(["k2", "k2", "none"])]
        for _ in range(random.choice([0, 0, 1, 1, 2])):
            way = random.choice(["", f"{host()}>", f"{host()}>", f"u@{host()}>"])
            words += ["-h", way + user() + host()]
    if mode in ("add", "-d"):
        words += ["--"] if random.random() < 0.2 else []
        names = ["f1", "f2", "f3"] if mode == "add" else ["f1.pub", "f2.pub", "f3.pub"]
        words += random.sample(names, random.randrange(4)) + ["none"] * (random.random() < 0.05)
    if random.random() < 0.05:
        words = [random.choice(["-l", "-D", "-c", "-q", "-t", "-u"]), *words]
    pairs = [string(key.blob) + string(random.choice(comments)) for key in pool.KEYS]
    pairs.append(string(b"unreadable") + string(b"x"))
    some = random.sample(pairs, random.choice([0, 1, 3, 14]))
    listing = b"\x0c" + uint32(len(some)) + b"".join(some)
    good = listing if mode in ("-l", "-L") else b"\x06"
    bad = [b"\x05", b"\x06\x00", b"\x0c", listing + b"x", listing[:-1], b"\x01", b"\x06", listing]
    replies = [random.choice([good] * 30 + bad) for _ in range(4)]
    ends = [b"", uint32(0), uint32(262145), b"\0\0", b"\0\0\0\2\6"]
    peer = b"".join(map(string, replies[: random.choice([4, 4, 4, 1, 0])])) + random.choice(ends)
    sent, status = talk([program, *words], folder, peer, random)
    output, errors = (folder / "out").read_bytes(), (folder / "err").read_bytes()
    wanted = add_tool.run(words, files, peer, typed)
    more = errors[len(wanted.errors) :]
    if wanted.errors and errors.startswith(wanted.errors) and more.count(b"\n") == 1:
        # the program may tell cause and remedy in a line of its own behind the one that is fixed
        errors = wanted.errors
    return add_tool.Talk(sent, output, errors, status), wanted, words


def try_rows() -> bool:
    """What the models answer, in literal bytes."""
    greeting = "0000001d01" + "0000000000000001" + "00000010" + "00" * 16
    words = ["s", "1", "00" * 16]
    ask = string(b"\x03" + uint64(1) + string(b"ok"))
    short = string(blob(b"\x11" * 32)[:-36] + string(b"\x11" * 32) + string(b"\x0b" * 20))
    other = string(blob(b"\x11" * 32) + string(b"\x21" * 32))
    k1, k2 = string(blob(b"\x11" * 32)), string(blob(b"\x12" * 32))
    data = string(b"Hi There") + uint32(0)
    signs = [string(b"\x01" + uint64(1) + text + data) for text in (short + k1, other + k2)]
    yes, no = "00000009690000000000000001", "000000096a0000000000000001"
    rows = [
        (relay([*words, "ask"], (0, b"yes"), ask), Told(bytes.fromhex(greeting + yes), 0, [b"ok"])),
        (relay([*words, "ask"], None, ask), Told(bytes.fromhex(greeting + no), 0, [])),
        *[
            (
                helper(words, None, sign),
                Told(bytes.fromhex(greeting + "00000009660000000000000001"), 0, []),
            )
            for sign in signs
        ],
        (
            [verdict(0, b""), verdict(0, b"YES\n"), verdict(0, b"no"), verdict(1, b"yes")],
            [True, True, False, False],
        ),
    ]
    salt, scylla = b"\x0c" * 20, b"scylla.example.org"
    digest = hmac.digest(salt, scylla, "sha1")
    hosts = b"|1|%s|%s %s %s\n@cert-authority *.example.org,!bad.example.org %s %s\n" % (
        *(base64.b64encode(text) for text in (salt, digest)),
        *(STAND_IN, base64.b64encode(H1), STAND_IN, base64.b64encode(H2)),
    )
    inside = bytes(8) + added(0x11, b"one") + bytes(range(1, 6))
    key = b"openssh-key-v1\0" + string(b"none") * 2 + string(b"") + uint32(1) + string(K1)
    files = {"kh": hosts, "f1": base64.b64encode(key + string(inside))}
    source = hop(b"", scylla, (H1, 0), (H2, 1))
    way = rule(source, hop(b"medea", b"charybdis.example.org", (H2, 1)))
    told = Talk(
        st(b"\x19" + added(0x11, b"one") + restrict(way)), b"", b"Identity added: f1 (one)\n"
    )
    nothing = Talk(st(b"\x0b"), b"The agent has no identities.\n", b"", 1)
    refused = Talk(b"", b"", b"ssh-add: destination\n", 1)
    ways = ["scylla.example.org>medea@charybdis.example.org"]
    ways += ["a@scylla.example.org>charybdis.example.org"]
    for dest, talk_wanted in zip(ways, (told, refused)):
        seen = add_tool.run(["-H", "kh", "-h", dest, "f1"], files, st(b"\x06"), b"")
        rows.append((seen, talk_wanted))
    rows.append((add_tool.run(["-l"], {}, st(b"\x0c" + uint32(0)), b""), nothing))
    thrice = Talk(
        st(b"\x19" + added(0x11, b"one") + b"\xff" + st(b"uses-v00@example.com") + uint32(3)),
        b"",
        b"Identity added: f1 (one)\n",
    )
    rows.append((add_tool.run(["-u", "3", "f1"], files, st(b"\x06"), b""), thrice))
    usage = Talk(b"", b"", b"ssh-add: usage\n", 1)
    for count in ("0", "03", "+3", "4294967296", "-1", "3s", ""):
        rows.append((add_tool.run(["-u", count, "f1"], files, st(b"\x06"), b""), usage))
    lives = [add_tool.read_life(text) for text in ("90", "1h30", "1H30M", "10x", "")]
    rows.append((lives, [90, 3630, 5400, None, None]))
    for seen, wanted in rows:
        if seen != wanted:
            print(f"a row differs: {seen}\nwanted: {wanted}")
    return all(seen == wanted for seen, wanted in rows)


def main() -> int:
    """differential_tools.py PROGRAMS N [SEED], with the folder of the built programs."""
    programs, count = sys.argv[1], int(sys.argv[2])
    seed = sys.argv[3] if len(sys.argv) > 3 else str(int.from_bytes(os.urandom(4), "big"))
    print(f"seed {seed}")
    if not try_rows():
        return 1
    trials = {"standin_helper": try_helper, "confirm_relay": try_relay, "add_tool": try_add_tool}
    for name, trial in trials.items():
        program, statuses = os.path.abspath(f"{programs}/{name}"), Counter()
        if not os.path.exists(program):
            print(f"{name}: isn't built")
            continue
        for place in range(count):
            with tempfile.TemporaryDirectory() as folder:
                Path(folder, "in").touch()
                random = Random(f"{seed}/{name}/{place}")
                seen, wanted, words = trial(program, random, Path(folder))
            if seen != wanted:
                print(
                    f"{name}: {seed}/{name}/{place}, words {words}:\n{seen}\nthe model:\n{wanted}"
                )
                return 1
            cause = getattr(wanted, "errors", b"").decode(errors="replace").split("\n")[-2:-1]
            statuses[" ".join([str(wanted.status), *cause][: wanted.status + 1])] += 1
        print(f"{name}: {count} runs, by status {dict(sorted(statuses.items()))}: no mismatch")
    return 0


if __name__ == "__main__":
    sys.exit(main())
