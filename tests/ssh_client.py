"""A small SSH client that logs in by messages of the caller's own making (RFC 4253 and 4252): curve25519-sha256,
aes128-ctr and hmac-sha2-256 alone. It takes any host key, so it is for servers on loopback."""

import contextlib
import hashlib
import hmac
import os
import socket
import struct

from cryptography.hazmat.primitives.asymmetric.x25519 import X25519PrivateKey, X25519PublicKey
from cryptography.hazmat.primitives.ciphers import Cipher, algorithms, modes
from cryptography.hazmat.primitives.serialization import Encoding, PublicFormat

from frames import string, strings

DISCONNECT, UNIMPLEMENTED, EXT_INFO = 1, 3, 7
SERVICE_REQUEST, SERVICE_ACCEPT, KEXINIT, NEWKEYS, ECDH_INIT, ECDH_REPLY = 5, 6, 20, 21, 30, 31
USERAUTH_REQUEST, USERAUTH_FAILURE, USERAUTH_SUCCESS, USERAUTH_PK_OK = 50, 51, 52, 60
BANNER = b"SSH-2.0-login"
HOST_KEYS = "ssh-ed25519", "ecdsa-sha2-nistp256", "rsa-sha2-512", "rsa-sha2-256", "ssh-rsa", "ssh-dss"


class Gone(Exception):
    """The server closed the connection, with the reason that this carries."""


def mpint(number):
    return string(number.to_bytes(number.bit_length() // 8 + 1, "big") if number else b"")


class Client:
    """A connection whose keys are exchanged, and for which user authentication was begun."""

    def __init__(self, port, banner=BANNER, host_keys=HOST_KEYS, seconds=20):
        self.socket = socket.create_connection(("127.0.0.1", port), seconds)
        self.socket.setsockopt(socket.IPPROTO_TCP, socket.TCP_NODELAY, 1)
        self.held, self.sealing, self.opening, self.sent, self.got = b"", None, None, 0, 0
        try:
            self.socket.sendall(banner + b"\r\n")
            while not (line := self.line()).startswith(b"SSH-"):
                pass
            self.version = line
            self.exchange(banner, line, host_keys)
            self.send(bytes([SERVICE_REQUEST]), string(b"ssh-userauth"))
            assert self.next()[0] == SERVICE_ACCEPT
        except BaseException:
            self.socket.close()
            raise

    def __enter__(self):
        return self

    def __exit__(self, *_):
        self.socket.close()

    # Bytes, and packets (RFC 4253, sections 4.2 and 6).

    def read(self, count):
        while len(self.held) < count:
            try:
                more = self.socket.recv(65536)
            except ConnectionError as fault:
                raise Gone(str(fault)) from None
            if not more:
                raise Gone("closed")
            self.held += more
        taken, self.held = self.held[:count], self.held[count:]
        return taken

    def line(self):
        found = b""
        while not found.endswith(b"\n"):
            found += self.read(1)
        return found.rstrip(b"\r\n")

    def send(self, *parts):
        body = b"".join(parts)
        padding = 16 - (len(body) + 5) % 16
        padding += 16 if padding < 4 else 0
        packet = struct.pack(">IB", len(body) + padding + 1, padding) + body + bytes(padding)
        if self.sealing:
            cipher, key = self.sealing
            tag = hmac.digest(key, struct.pack(">I", self.sent) + packet, "sha256")
            packet = cipher.update(packet) + tag
        self.sent = self.sent + 1 & 0xFFFFFFFF
        try:
            self.socket.sendall(packet)
        except ConnectionError as fault:
            raise Gone(str(fault)) from None

    def packet(self):
        """The next packet's payload."""
        if self.opening:
            cipher, key = self.opening
            first = cipher.update(self.read(16))
            rest = cipher.update(self.read(struct.unpack(">I", first[:4])[0] - 12))
            whole = first + rest
            assert hmac.compare_digest(self.read(32), hmac.digest(key, struct.pack(">I", self.got) + whole, "sha256"))
        else:
            whole = self.read(4)
            whole += self.read(struct.unpack(">I", whole)[0])
        self.got = self.got + 1 & 0xFFFFFFFF
        return whole[5 : len(whole) - whole[4]]

    def next(self):
        """The next packet that isn't an aside (RFC 4253, section 11; RFC 4252's banner; RFC 8308)."""
        while (payload := self.packet())[0] in (2, UNIMPLEMENTED, 4, EXT_INFO, 53):
            pass
        if payload[0] == DISCONNECT:
            raise Gone(strings(payload[5:])[0].decode(errors="replace"))
        return payload

    # Keys (RFC 4253, section 7; RFC 5656, section 4; RFC 8731).

    def exchange(self, banner, version, host_keys):
        offers = "curve25519-sha256,curve25519-sha256@libssh.org", ",".join(host_keys)
        pairs = ("aes128-ctr", "hmac-sha2-256", "none")
        names = [*offers, *(name for name in pairs for _ in range(2)), "", ""]
        ours = bytes([KEXINIT]) + os.urandom(16) + b"".join(string(name.encode()) for name in names) + bytes(5)
        self.send(ours)
        theirs = self.next()
        assert theirs[0] == KEXINIT
        secret = X25519PrivateKey.generate()
        point = secret.public_key().public_bytes(Encoding.Raw, PublicFormat.Raw)
        self.send(bytes([ECDH_INIT]), string(point))
        reply = self.next()
        assert reply[0] == ECDH_REPLY
        self.host_key, their_point, signature = strings(reply[1:])
        shared = mpint(int.from_bytes(secret.exchange(X25519PublicKey.from_public_bytes(their_point)), "big"))
        parts = banner, version, ours, theirs, self.host_key, point, their_point
        digest = hashlib.sha256(b"".join(map(string, parts)) + shared).digest()
        self.session, self.host_signature = digest, signature
        self.send(bytes([NEWKEYS]))
        assert self.next()[0] == NEWKEYS
        derived = {letter: hashlib.sha256(shared + digest + letter.encode() + digest).digest() for letter in "ABCDEF"}
        aes = lambda key, start: Cipher(algorithms.AES(derived[key][:16]), modes.CTR(derived[start][:16])).encryptor()
        self.sealing = aes("C", "A"), derived["E"]
        self.opening = aes("D", "B"), derived["F"]

    # User authentication (RFC 4252).

    def logs_in(self, request, signature, behind=None):
        """Whether the server takes a request with a signature behind it. A request of no method behind that brings an
        answer of a server that gives none to a wrong signature."""
        self.send(request, string(signature))
        if behind is not None:
            with contextlib.suppress(Gone):
                self.send(behind)
        return self.next()[0] == USERAUTH_SUCCESS
