#!/usr/bin/env python3
"""The built standin_helper and confirm_relay against an agent that this script plays on a Unix socket.

What they should send is computed here, by hmac and hashlib and from docs/PROTOCOL.md, apart from the code that is
tested. The last line is `tools: N passed, M failed`; ends with 1 where something failed.
"""
import hashlib
import hmac
import os
import random
import socket
import stat
import struct
import subprocess
import sys
import tempfile
import threading
import time

sys.dont_write_bytecode = True

from frames import string

ROOT = os.path.dirname(os.path.dirname(os.path.abspath(__file__)))
HELPER = os.path.join(ROOT, "bin", "standin_helper")
RELAY = os.path.join(ROOT, "bin", "confirm_relay")
TICKET = bytes(range(16))
TYPE = b"keyed-sha256@example.com"
passed = failed = 0


def check(what, seen, wanted):
    global passed, failed
    if seen == wanted:
        passed += 1
        print(f"tools: {what}: ok")
    else:
        failed += 1
        print(f"tools: {what}: failed: {repr(seen)[:300]} and not {repr(wanted)[:300]}")


def message(kind, number, fields=b""):
    return string(bytes([kind]) + struct.pack(">Q", number) + fields)


def blob(tag):
    return string(TYPE) + string(tag)


def private(tag, secret):
    return blob(tag) + string(secret)


def signature(secret, text):
    return string(TYPE) + string(hmac.new(secret, text, hashlib.sha256).digest())


def sign(number, key, public, text, flags=0):
    return message(1, number, string(key) + string(public) + string(text) + struct.pack(">I", flags))


def verify(number, key, made, session):
    return message(2, number, string(key) + string(made) + string(session))


def confirm(job, prompt):
    return message(3, job, string(prompt))


def hello(job):
    return message(1, job, string(TICKET))


def signed(number, made):
    return message(101, number, string(made))


def told(number, kind):
    return message(kind, number)


def hear(peer, heard):
    """Appends what comes until the other side ends."""
    try:
        while True:
            more = peer.recv(1 << 20)
            if not more:
                return
            heard += more
    except ConnectionResetError:
        pass


def talk(program, words, stream, piece=65536, end="shut"):
    """Starts the program with a socket's path before the words, sends the stream in pieces, and ends. Gives its exit
    status, what it sent, and what it wrote on standard error."""
    with tempfile.TemporaryDirectory() as folder:
        path = os.path.join(folder, "socket")
        with socket.socket(socket.AF_UNIX) as listener:
            listener.bind(path)
            listener.listen(1)
            listener.settimeout(20)
            child = subprocess.Popen([program, path, *words], stdin=subprocess.DEVNULL, stdout=subprocess.DEVNULL,
                                     stderr=subprocess.PIPE)
            try:
                peer, _ = listener.accept()
            except socket.timeout:
                child.kill()
                return child.wait(), b"", child.stderr.read()
            with peer:
                peer.settimeout(60)
                heard = bytearray()
                # What comes is read beside the writing: either side would wait for the other.
                reader = threading.Thread(target=hear, args=(peer, heard))
                reader.start()
                try:
                    for at in range(0, len(stream), piece):
                        peer.sendall(stream[at:at + piece])
                    if end == "shut":
                        peer.shutdown(socket.SHUT_WR)
                except (BrokenPipeError, ConnectionResetError):
                    pass
                reader.join()
            errors = child.stderr.read()
            return child.wait(), bytes(heard), errors


def script(folder, name, lines):
    path = os.path.join(folder, name)
    with open(path, "w") as out:
        out.write("#!/bin/sh\n" + lines + "\n")
    os.chmod(path, os.stat(path).st_mode | stat.S_IXUSR)
    return path


def helper_words(*more):
    return ["1", TICKET.hex(), *more]


def requests(count, hosts, seed):
    """So many requests and the answers to them."""
    draw = random.Random(seed)
    asked, answers = [], []
    for number in range(1, count + 1):
        tag, secret = draw.randbytes(32), draw.randbytes(32)
        text = draw.randbytes(draw.randrange(0, 300))
        what = draw.randrange(6)
        if what == 0:
            asked.append(sign(number, private(tag, secret), blob(tag), text, draw.randrange(1 << 32)))
            answers.append(signed(number, signature(secret, text)))
        elif what == 1:
            asked.append(sign(number, private(tag, secret), blob(draw.randbytes(32)), text))
            answers.append(told(number, 102))
        elif what == 2:
            asked.append(sign(number, private(tag, secret[:draw.randrange(32)]), blob(tag), text))
            answers.append(told(number, 102))
        elif what == 3:
            host, key = hosts[draw.randrange(len(hosts))]
            first = next(secret for name, secret in hosts if name == host)
            asked.append(verify(number, blob(host), signature(key, text), text))
            answers.append(told(number, 103 if first == key else 104))
        elif what == 4:
            asked.append(verify(number, blob(tag), signature(secret, text), text))
            answers.append(told(number, 104))
        else:
            host, key = hosts[draw.randrange(len(hosts))]
            asked.append(verify(number, blob(host), signature(key, text + b"!"), text))
            answers.append(told(number, 104))
    return b"".join(asked), b"".join(answers)


def hosts_file(folder, name, hosts, digits=bytes.hex):
    path = os.path.join(folder, name)
    with open(path, "w") as out:
        for tag, secret in hosts:
            out.write(f"{digits(tag)} {digits(secret)}\n")
    return path


def try_helper(folder):
    one = [(bytes([0xa1]) * 32, bytes([0x31]) * 32)]
    data = hosts_file(folder, "hosts", one)
    k1, k2 = blob(b"\x11" * 32), blob(b"\x12" * 32)
    h1 = blob(one[0][0])
    own = private(b"\x11" * 32, b"\x21" * 32)

    def run(what, words, stream, status, sent, **more):
        seen = talk(HELPER, words, stream, **more)
        check(what, seen[:2], (status, sent))
        check(f"{what}: errors", seen[2].count(b"\n"), 0 if status == 0 else 1)

    greeting = hello(1)
    run("no request", helper_words(), b"", 0, greeting)
    short = sign(1, private(b"\x11" * 32, b"\x0b" * 20), k1, b"Hi There")
    run("a secret of 20 bytes", helper_words(), short, 0, greeting + told(1, 102))
    run("another key's blob", helper_words(), sign(1, own, k2, b"Hi There"), 0, greeting + told(1, 102))
    # RFC 4231, section 4.2, has a key of 20 bytes: the helper's have 32, so this vector is Python's.
    literal = bytes.fromhex("0000004d65000000000000000100000040000000186b657965642d736861323536406578616d706c652e636f6d"
                            "00000020d681060441dfd9307eaa8034533bf52862ab063045084cf7b00bd1622ab8b515")
    run("a signature", helper_words(), sign(1, own, k1, b"Hi There"), 0, greeting + literal)
    run("flags are not read", helper_words(), sign(7, own, k1, b"", 0xffffffff), 0,
        greeting + signed(7, signature(b"\x21" * 32, b"")))
    other = string(b"ssh-ed25519") + string(b"\x11" * 32)
    run("a key of another kind", helper_words(), sign(1, other + string(b"\x21" * 64), other, b"x"), 0,
        greeting + told(1, 102))
    run("no key, as the last ask", helper_words(), verify(2**64 - 1, b"", b"", b""), 0, greeting + told(2**64 - 1, 104))
    run("bytes behind a private string", helper_words(), sign(1, own + b"\0", k1, b"x"), 0, greeting + told(1, 102))
    made = signature(one[0][1], b"\xc1" * 32)
    run("a host's signature", helper_words(data), verify(2, h1, made, b"\xc1" * 32), 0, greeting + told(2, 103))
    run("of another session", helper_words(data), verify(2, h1, made, b"\xc2" * 32), 0, greeting + told(2, 104))
    run("of another host", helper_words(data), verify(2, k1, made, b"\xc1" * 32), 0, greeting + told(2, 104))
    run("without a data file", helper_words(), verify(2, h1, made, b"\xc1" * 32), 0, greeting + told(2, 104))
    twice = hosts_file(folder, "twice", [(one[0][0], b"\x32" * 32), one[0]])
    run("the first line of a host counts", helper_words(twice),
        verify(2, h1, made, b"\xc1" * 32) + verify(3, h1, signature(b"\x32" * 32, b"s"), b"s"), 0,
        greeting + told(2, 104) + told(3, 103))
    upper = hosts_file(folder, "upper", one, lambda b: b.hex().upper())
    run("digits in upper case", helper_words(upper), verify(2, h1, made, b"\xc1" * 32), 0, greeting + told(2, 103))

    run("a length of 0", helper_words(), sign(1, own, k1, b"a") + bytes(4) + short, 1,
        greeting + signed(1, signature(b"\x21" * 32, b"a")))
    run("a length above the bound", helper_words(), struct.pack(">I", 1048577), 1, greeting)
    run("a request to a relay", helper_words(), confirm(1, b"ok"), 1, greeting)
    run("a body of another kind", helper_words(), message(9, 1), 1, greeting)
    run("bytes behind the last field", helper_words(), string(told(1, 1)[4:] + b"\0"), 1, greeting)
    run("an end within a frame", helper_words(), short[:-1], 8, greeting)
    run("an end within a length", helper_words(), short + b"\0\0", 8, greeting + told(1, 102))
    most = 1048576 - 25 - 100 - 64
    text = b"m" * most
    run("the longest body", helper_words(), sign(1, own, k1, text), 0, greeting + signed(1, signature(b"\x21" * 32, text)))

    def refused(what, words, status):
        done = subprocess.run([HELPER, *words], capture_output=True)
        check(what, (done.returncode, done.stderr.count(b"\n")), (status, 1))

    refused("no words", [], 2)
    refused("two words", ["s", "1"], 2)
    refused("five words", ["s", *helper_words("a", "b")], 2)
    for job in ["", "01", "-1", "+1", "1 ", "x", "18446744073709551616"]:
        refused(f"the job {job!r}", ["s", job, TICKET.hex()], 2)
    for ticket in ["", "00", "0" * 31, "0" * 33, "g" * 32]:
        refused(f"the ticket {ticket!r}", ["s", "1", ticket], 2)
    refused("no agent", [os.path.join(folder, "nobody"), *helper_words()], 7)
    run("the greatest job", ["18446744073709551615", TICKET.hex().upper()], b"", 0, hello(18446744073709551615))

    def data_file(what, status, content=None):
        path = os.path.join(folder, "data")
        if content is None:
            path = os.path.join(folder, "missing")
        else:
            with open(path, "wb") as out:
                out.write(content)
        seen = talk(HELPER, helper_words(path), b"")
        check(what, seen[:2], (status, greeting if status == 0 else b""))

    line = b"a1" * 32 + b" " + b"31" * 32 + b"\n"
    data_file("a missing data file", 3)
    data_file("an empty data file", 0, b"")
    data_file("a line without its LF", 4, line[:-1])
    data_file("a line with CR", 4, line[:-1] + b"\r\n")
    data_file("a line of other digits", 4, line.replace(b"a", b"g", 1))
    data_file("two spaces", 4, line.replace(b" ", b"  "))
    data_file("an empty line", 4, line + b"\n")
    data_file("the longest data file of lines", 0, line * 8065)
    data_file("a data file of the bound, of another form", 4, b"0" * 1048576)
    data_file("a data file above the bound", 3, line * 8066)

    draw = random.Random(22)
    hosts = [(draw.randbytes(32), draw.randbytes(32)) for _ in range(20)]
    hosts += [(tag, draw.randbytes(32)) for tag, _ in hosts[:5]]
    many = hosts_file(folder, "many", hosts)
    asked, answers = requests(1000, hosts, 1)
    for piece in [1, 7, 4096]:
        seen = talk(HELPER, helper_words(many), asked, piece=piece)
        check(f"1000 requests in pieces of {piece}", seen[:2], (0, greeting + answers))


def try_relay(folder):
    log = os.path.join(folder, "log")
    note = f'printf "%s\\n" "$#" "$1" >> {log}\n'

    def run(what, ask, stream, status, sent, runs, **more):
        if os.path.exists(log):
            os.remove(log)
        # An agent that ends its side while the user is asked has left, and the question goes with it.
        seen = talk(RELAY, helper_words(ask), stream, end="wait" if status == 0 else "shut", **more)
        check(what, seen[:2], (status, sent))
        check(f"{what}: errors", seen[2].count(b"\n"), 0 if status == 0 else 1)
        made = open(log).read() if os.path.exists(log) else ""
        check(f"{what}: runs", made, "".join(f"1\n{word}\n" for word in runs))

    greeting = hello(1)
    granted, denied = told(1, 105), told(1, 106)
    ok = confirm(1, b"ok")

    def asks(name, lines):
        return script(folder, name, note + lines)

    yes = asks("yes", "echo yes")
    run("yes", yes, ok, 0, greeting + granted, ["ok"])
    for piece in [1, 7]:
        run(f"yes, in pieces of {piece}", yes, ok, 0, greeting + granted, ["ok"], piece=piece)
    run("nothing is a yes", asks("nothing", "exit 0"), ok, 0, greeting + granted, ["ok"])
    run("an empty line is a yes", asks("empty", "echo; echo no"), ok, 0, greeting + granted, ["ok"])
    run("YES with CR is a yes", asks("upper", "printf 'YES\\r\\nno'"), ok, 0, greeting + granted, ["ok"])
    run("no", asks("no", "echo no"), ok, 0, greeting + denied, ["ok"])
    run("yes without a line feed", asks("unended", "printf yes"), ok, 0, greeting + granted, ["ok"])
    run("yes and more is no yes", asks("more", "echo yes please"), ok, 0, greeting + denied, ["ok"])
    run("y is no yes", asks("y", "echo y"), ok, 0, greeting + denied, ["ok"])
    run("a space and yes is no yes", asks("space", "echo ' yes'"), ok, 0, greeting + denied, ["ok"])
    run("yes with status 1 is no yes", asks("one", "echo yes; exit 1"), ok, 0, greeting + denied, ["ok"])
    run("a signal is no yes", asks("signal", "kill -9 $$"), ok, 0, greeting + denied, ["ok"])
    run("a program that isn't there", os.path.join(folder, "nobody"), ok, 0, greeting + denied, [])
    key = b"Allow use of key one?\nKey fingerprint SHA256:x."
    run("two lines", yes, confirm(1, key), 0, greeting + granted, [key.decode()])
    run("an empty prompt", yes, confirm(1, b""), 0, greeting + granted, [""])
    run("bytes behind the request", yes, ok + b"\0\0\0\0", 0, greeting + granted, ["ok"])

    for what, prompt in [("an escape", b"ok\x1b[2J"), ("a tab", b"a\tb"), ("a CR", b"ok\r"), ("a byte 7f", b"\x7f"),
                         ("a byte 80", b"\x80"), ("a zero byte", b"a\0b")]:
        run(f"{what} in the prompt", yes, confirm(1, prompt), 1, greeting, [])
    run("the request of another job", yes, confirm(2, b"ok"), 1, greeting, [])
    run("a request to a helper", yes, verify(1, b"", b"", b""), 1, greeting, [])
    run("a length of 0", yes, bytes(4), 1, greeting, [])
    run("a length above the bound", yes, struct.pack(">I", 1048577), 1, greeting, [])
    run("bytes behind the prompt", yes, string(ok[4:] + b"\0"), 1, greeting, [])
    run("an end before a request", yes, b"", 8, greeting, [])
    run("an end within a request", yes, ok[:-1], 8, greeting, [])

    def refused(what, words, status):
        done = subprocess.run([RELAY, *words], capture_output=True)
        check(what, (done.returncode, done.stderr.count(b"\n")), (status, 1))

    refused("relay: no words", [], 2)
    refused("relay: no program", ["s", *helper_words()], 2)
    refused("relay: five words", ["s", *helper_words("a", "b")], 2)
    refused("relay: no agent", [os.path.join(folder, "nobody"), *helper_words(yes)], 7)


def asking(ask, questions):
    """A relay that was asked at its standard input, beside others of its agent: the process, and the agent's end."""
    ours, theirs = socket.socketpair()
    words = ["-", *helper_words(ask)]
    with theirs:
        child = subprocess.Popen([RELAY, *words], stdin=theirs, stdout=subprocess.DEVNULL, stderr=subprocess.DEVNULL,
                                 env=dict(os.environ, MORTARLEEK_QUESTIONS=questions))
    ours.settimeout(30)
    ours.sendall(confirm(1, b"ok"))
    return child, ours


def said(peer):
    heard = bytearray()
    hear(peer, heard)
    peer.close()
    return bytes(heard)


def lines_of(log):
    return open(log).read().split() if os.path.exists(log) else []


def until(holds, seconds=20):
    end = time.monotonic() + seconds
    while not holds() and time.monotonic() < end:
        time.sleep(0.02)
    return holds()


def try_turns(folder):
    log, go, questions = (os.path.join(folder, name) for name in ("turns", "go", "questions"))
    lines = f'echo begin >> {log}; while [ ! -e {go} ]; do sleep 0.02; done; echo end >> {log}'
    ask = script(folder, "turn", f'[ -z "${{MORTARLEEK_QUESTIONS-}}" ] || echo told >> {log}\n{lines}')

    def begin(count, file=questions):
        for path in (log, go):
            if os.path.exists(path):
                os.remove(path)
        relays = [asking(ask, file) for _ in range(count)]
        until(lambda: lines_of(log) != [])
        return relays

    def end(relays):
        open(go, "w").close()
        heard = [said(peer) for _, peer in relays]
        return heard, [child.wait(20) for child, _ in relays]

    relays = begin(4)
    time.sleep(0.5)
    check("turns: one of four asks", lines_of(log), ["begin"])
    check("turns: the file is its user's alone", stat.S_IMODE(os.stat(questions).st_mode), 0o600)
    heard, statuses = end(relays)
    check("turns: each is answered", (heard, statuses), ([hello(1) + told(1, 105)] * 4, [0] * 4))
    check("turns: one after another", lines_of(log), ["begin", "end"] * 4)

    # Of two that wait the agent of one leaves, or shuts its end.
    for leave in (socket.socket.close, lambda peer: peer.shutdown(socket.SHUT_WR)):
        first = begin(1)
        (left, peer), *other = [asking(ask, questions) for _ in range(2)]
        time.sleep(0.2)
        leave(peer)
        check("turns: a question that nobody waits for ends", until(lambda: left.poll() is not None, 5), True)
        heard, statuses = end(first + other)
        check("turns: and is never shown", (lines_of(log), statuses), (["begin", "end"] * 2, [0, 0]))
        peer.close()

    # One that is killed holds up nobody.
    (killed, peer), = begin(1)
    killed.kill()
    killed.wait()
    peer.close()
    relays = [asking(ask, questions)]
    check("turns: behind one that was killed", until(lambda: lines_of(log) == ["begin"] * 2), True)
    end(relays)

    # What isn't a plain file of the user's alone keeps no question back.
    public, pipe = os.path.join(folder, "public"), os.path.join(folder, "pipe")
    open(public, "w").close()
    os.chmod(public, 0o644)
    os.mkfifo(pipe)
    for file in (public, pipe, folder, os.path.join(folder, "no", "folder"), ""):
        relays = begin(2, file)
        check(f"turns: not by {os.path.basename(file)}", until(lambda: lines_of(log) == ["begin"] * 2, 5), True)
        check("turns: each is answered then", end(relays)[1], [0, 0])


def main():
    made = subprocess.run(["make", "--no-print-directory", "bin/standin_helper", "bin/confirm_relay"], cwd=ROOT,
                          stdout=subprocess.DEVNULL)
    if made.returncode != 0:
        sys.exit("tools: the programs could not be built")
    with tempfile.TemporaryDirectory() as folder:
        try_helper(folder)
        try_relay(folder)
        try_turns(folder)
    print(f"tools: {passed} passed, {failed} failed")
    sys.exit(1 if failed else 0)


if __name__ == "__main__":
    main()
