"""The agent's side of a helper: its process, its socket, and the frames between them."""

import os
import pathlib
import socket
import struct
import subprocess
import sys
import tempfile
import time

FOLDER = pathlib.Path(__file__).resolve().parents[1]
sys.path.append(str(FOLDER.parent / "tests"))

from frames import Ended, Frames, string, strings

PROGRAM = os.environ.get("HELPER", str(FOLDER / "target/release/mortarleek-helper"))
# Whether mortarleek_signer stands before it, and hands on what it doesn't know.
IS_BEHIND = "BEHIND" in os.environ

SIGN, VERIFY, CONFIRM = 1, 2, 3
HELLO, SIGNED, REFUSED, TRUE, FALSE = 1, 101, 102, 103, 104


def mpint(number):
    """A number that isn't negative, as RFC 4251 writes it."""
    return string(number.to_bytes(number.bit_length() // 8 + 1, "big") if number else b"")


def sign_body(number, private, blob, message, flags=0):
    fields = string(private) + string(blob) + string(message) + struct.pack(">I", flags)
    return struct.pack(">BQ", SIGN, number) + fields


def verify_body(number, host_key, signature, session):
    fields = string(host_key) + string(signature) + string(session)
    return struct.pack(">BQ", VERIFY, number) + fields


class Helper:
    """A running helper, connected by a socket's path, whose HELLO was read."""

    def __init__(self, program=PROGRAM, job=1, ticket=bytes(16), word=None, data=None, **more):
        self.folder = tempfile.TemporaryDirectory()
        os.chmod(self.folder.name, 0o755)
        path = self.folder.name + "/children"
        with socket.socket(socket.AF_UNIX) as listener:
            listener.bind(path)
            os.chmod(path, 0o777)
            listener.listen()
            listener.settimeout(20)
            words = [program, path, str(job), word or ticket.hex()] + ([data] if data else [])
            more.setdefault("env", {})
            more.setdefault("stderr", subprocess.DEVNULL)
            self.process = subprocess.Popen(words, **more)
            try:
                self.peer, _ = listener.accept()
            except TimeoutError:
                self.process.kill()
                self.process.wait()
                raise Ended(self.process.returncode) from None
        self.peer.settimeout(60)
        self.frames = Frames(self.peer)
        self.asks = 0
        self.hello = self.body()

    def __enter__(self):
        return self

    def __exit__(self, *_):
        self.end()

    def end(self):
        """Ends the connection, and gives the helper's exit status."""
        self.peer.close()
        status = self.process.wait(20)
        self.folder.cleanup()
        return status

    def trickle(self, content):
        """Sends the bytes one by one, each for itself to be read."""
        for byte in content:
            self.peer.sendall(bytes([byte]))
            time.sleep(0.0005)

    def body(self):
        """The body of the helper's next frame; `Ended` has the helper's status."""
        try:
            return self.frames.body()
        except Ended:
            raise Ended(self.process.wait(20)) from None

    def ask(self, body):
        """The kind, number and fields that answer the body."""
        self.peer.sendall(string(body))
        answer = self.body()
        kind, number = struct.unpack_from(">BQ", answer)
        return kind, number, answer[9:]

    def sign(self, private, blob, message, flags=0):
        """The signature, or None where it is refused."""
        self.asks += 1
        kind, number, fields = self.ask(sign_body(self.asks, private, blob, message, flags))
        assert number == self.asks and kind in (SIGNED, REFUSED)
        if kind == REFUSED:
            assert not fields
            return None
        (signature,) = strings(fields)
        return signature

    def verify(self, host_key, signature, session):
        """Whether the helper calls the signature right."""
        self.asks += 1
        answer = self.ask(verify_body(self.asks, host_key, signature, session))
        assert answer in ((TRUE, self.asks, b""), (FALSE, self.asks, b""))
        return answer[0] == TRUE
