"""The tool that adds, lists and removes keys: what it sends and prints, and how it ends.

ssh-add(1) and sshd(8) (known hosts) for what is like there; OpenSSH's PROTOCOL.key for key files.
"""

import base64
import binascii
import hashlib
import hmac
import re
from dataclasses import dataclass, field

from .formats import CERTIFIED, CURVES, ED25519, RESTRICT, RSA, USES
from .formats import PublicKey, added_key, plain_type, public_key
from .wire import Fault, Reader, demand, matches, string, uint32

DONE, FAILED, NO_AGENT = 0, 1, 2
LONGEST_KEY_FILE, LONGEST_HOSTS_FILE, LONGEST_BODY = 1048576, 16777216, 262144
MODES = ("-l", "-L", "-d", "-D", "-x", "-X")
UNITS = {"": 1, "s": 1, "m": 60, "h": 3600, "d": 86400, "w": 604800}

Key = tuple[bytes, bool]


@dataclass
class Talk:
    """What the tool sends and prints. A fault of the tool is named by the last line of errors."""

    sent: bytes = b""
    output: bytes = b""
    errors: bytes = b""
    status: int = DONE


@dataclass
class Words:
    mode: str = "add"
    confirm: bool = False
    life: int | None = None
    uses: int | None = None
    destinations: list[str] = field(default_factory=list)
    hosts: list[str] = field(default_factory=list)
    files: list[str] = field(default_factory=list)


def read_life(text: str) -> int | None:
    if not re.fullmatch("(?:[0-9]+[smhdwSMHDW]?)+", text):
        return None
    parts = re.findall("([0-9]+)([a-zA-Z]?)", text)
    life = sum(int(count) * UNITS[unit.lower()] for count, unit in parts)
    return life if life < 2**32 else None


def read_count(text: str) -> int | None:
    """Decimal digits without leading zeros, from 1 to 2^32 - 1."""
    if not re.fullmatch("[1-9][0-9]*", text):
        return None
    return int(text) if int(text) < 2**32 else None


def read_words(given: list[str]) -> Words:
    words, left, options = Words(), list(given), []
    while left and left[0].startswith("-"):
        option = left.pop(0)
        if option == "--":
            break
        options.append(option)
        if option in MODES:
            demand(words.mode == "add", "usage")
            words.mode = option
        elif option == "-c":
            demand(not words.confirm, "usage")
            words.confirm = True
        else:
            demand(option in ("-t", "-u", "-h", "-H") and left != [], "usage")
            value = left.pop(0)
            if option == "-t":
                demand(words.life is None, "usage")
                words.life = read_life(value)
                demand(words.life is not None, "usage")
            elif option == "-u":
                demand(words.uses is None, "usage")
                words.uses = read_count(value)
                demand(words.uses is not None, "usage")
            else:
                (words.destinations if option == "-h" else words.hosts).append(value)
    words.files = left
    demand(words.mode == "add" or not set(options) & {"-c", "-t", "-u", "-h", "-H"}, "usage")
    demand(not words.destinations or words.hosts != [], "usage")
    demand((words.files != []) == (words.mode in ("add", "-d")), "usage")
    return words


def from_base64(text: bytes) -> bytes:
    try:
        return base64.b64decode(text, validate=True)
    except binascii.Error:
        raise Fault("Base64") from None


def read_key_file(text: bytes) -> tuple[bytes, bytes]:
    """The added key's bytes, and the comment."""
    reader = Reader(from_base64(re.sub(rb"[ \t\r\n]", b"", text)))
    demand(reader.left.startswith(b"openssh-key-v1\0"), "Magic")
    reader.take(15)
    demand([reader.string() for _ in range(3)] == [b"none", b"none", b""], "Cipher")
    demand(reader.uint32() == 1, "Count")
    public, inside = reader.string(), Reader(reader.string())
    demand(len(inside.left) % 8 == 0, "Block")
    reader.end()
    demand(inside.uint32() == inside.uint32(), "Check")
    key_type = Reader(inside.left).string()
    demand(plain_type(key_type) == key_type, "UnknownType")
    blob, private = added_key(inside)
    comment = inside.string()
    demand(len(inside.left) <= 7 and inside.left == bytes(range(1, 8))[: len(inside.left)], "Pad")
    demand(blob == public, "OtherKey")
    return private, comment


def read_public_file(text: bytes) -> bytes:
    words = text.split(b"\n")[0].split(b" ")
    demand(len(words) >= 2, "Words")
    blob = from_base64(words[1])
    demand(public_key(blob).key_type == words[0], "OtherType")
    return blob


def is_host(host: bytes, entry: bytes) -> bool:
    """Whether a host is that of an entry of known hosts."""
    host = host.lower()
    if entry.startswith(b"|1|"):
        try:
            salt, digest = (from_base64(part) for part in entry[3:].split(b"|"))
        except (Fault, ValueError):
            return False
        return hmac.digest(salt, host, "sha1") == digest
    patterns = entry.lower().split(b",")
    refused = any(matches(host, each[1:]) for each in patterns if each.startswith(b"!"))
    return not refused and any(matches(host, each) for each in patterns if each[:1] != b"!")


def host_keys(text: bytes, host: bytes) -> list[Key]:
    keys = []
    for line in text.split(b"\n"):
        fields = line.removesuffix(b"\r").replace(b"\t", b" ").split(b" ")
        fields = [each for each in fields if each]
        marker = fields.pop(0) if fields and fields[0].startswith(b"@") else b""
        if line.startswith(b"#") or len(fields) < 3 or marker not in (b"", b"@cert-authority"):
            continue
        try:
            blob = from_base64(fields[2])
            known = public_key(blob).key_type == fields[1]
        except Fault:
            continue
        if known and is_host(host, fields[0]):
            keys.append((blob, marker != b""))
    return keys


def hop(user: str, host: str, keys: list[Key]) -> bytes:
    texts = [string(blob) + bytes([authority]) for blob, authority in keys]
    return string(user.encode()) + string(host.encode()) + string(b"") + b"".join(texts)


def destination(text: str, hosts: list[bytes]) -> bytes:
    """The constraint that `-h` asks for."""
    source, arrow, target = text.partition(">")
    if not arrow:
        source, target = "", text
    demand("@" not in source, "destination")
    user, at, host = target.partition("@") if "@" in target else ("", "", target)
    demand(not at or user != "", "destination")
    demand(host != "" and (not arrow or source != ""), "destination")
    hops = [hop("", "", [])]
    for name, its_user in ([(source, "")] if arrow else []) + [(host, user)]:
        keys = [key for known in hosts for key in host_keys(known, name.encode())]
        demand(keys != [], "destination")
        hops.append(hop(its_user, name, keys))
    return string(string(hops[-2]) + string(hops[-1]) + string(b""))


def shown(key: PublicKey) -> tuple[bytes, bytes, bytes]:
    """The size in bits, the fingerprint and the word for the type."""
    plain = key.key_type.removesuffix(CERTIFIED)
    if plain == RSA:
        reader = Reader(key.plain_blob)
        number = [reader.string() for _ in range(3)][2]
        size, word = int.from_bytes(number, "big").bit_length(), b"RSA"
    elif plain in CURVES:
        size, word = int(plain[-3:]), b"ECDSA"
    else:
        size, word = 256, b"ED25519" if plain == ED25519 else b"KEYED-SHA256"
    digest = base64.b64encode(hashlib.sha256(key.plain_blob).digest()).rstrip(b"=")
    mark = b"-CERT" if plain != key.key_type else b""
    return b"%d" % size, b"SHA256:" + digest, word + mark


class Tool:
    def __init__(self, files: dict[str, bytes], peer: bytes) -> None:
        self.files, self.peer, self.talk = files, Reader(peer), Talk()

    def file(self, path: str, longest: int) -> bytes:
        demand(path in self.files, "file")
        demand(len(self.files[path]) <= longest, "filetoolong")
        return self.files[path]

    def ask(self, body: bytes) -> bytes:
        """Sends a request, and gives the body of its reply."""
        demand(len(body) <= LONGEST_BODY, "toolong")
        self.talk.sent += string(body)
        try:
            size = self.peer.uint32()
            demand(1 <= size <= LONGEST_BODY, "length")
            return self.peer.take(size)
        except Fault:
            raise Fault("badreply") from None

    def do(self, body: bytes, line: bytes) -> None:
        """Asks for something that is done or refused, and prints a line where it was done."""
        reply = self.ask(body)
        demand(reply != b"\x05", "refused")
        demand(reply == b"\x06", "badreply")
        self.talk.errors += line + b"\n"

    def add(self, words: Words) -> None:
        hosts = [self.file(path, LONGEST_HOSTS_FILE) for path in words.hosts]
        terms = b"" if not words.life else b"\x01" + uint32(words.life)
        terms += b"\x02" * words.confirm
        if words.uses:
            terms += b"\xff" + string(USES) + uint32(words.uses)
        if words.destinations:
            rules = [destination(each, hosts) for each in words.destinations]
            terms += b"\xff" + string(RESTRICT) + string(*rules)
        for path in words.files:
            text = self.file(path, LONGEST_KEY_FILE)
            try:
                private, comment = read_key_file(text)
            except Fault:
                raise Fault("body") from None
            body = (b"\x19" if terms else b"\x11") + private + string(comment) + terms
            self.do(body, b"Identity added: " + path.encode() + b" (" + comment + b")")

    def remove(self, words: Words) -> None:
        for path in words.files:
            text = self.file(path, LONGEST_KEY_FILE)
            try:
                blob = read_public_file(text)
            except Fault:
                raise Fault("public") from None
            self.do(b"\x12" + string(blob), b"Identity removed: " + path.encode())

    def list(self, words: Words) -> None:
        reply = Reader(self.ask(b"\x0b"))
        demand(reply.left != b"\x05", "refused")
        demand(reply.left[:1] == b"\x0c", "badreply")
        try:
            reply.byte()
            pairs = [(reply.string(), reply.string()) for _ in range(reply.uint32())]
            reply.end()
        except Fault:
            raise Fault("badreply") from None
        if not pairs:
            self.talk.output += b"The agent has no identities.\n"
            raise Fault("")
        for blob, comment in pairs:
            try:
                key = public_key(blob)
            except Fault:
                continue
            if words.mode == "-L":
                self.talk.output += b"%s %s %s\n" % (key.key_type, base64.b64encode(blob), comment)
            else:
                size, fingerprint, word = shown(key)
                self.talk.output += b"%s %s %s (%s)\n" % (size, fingerprint, comment, word)

    def lock(self, words: Words, typed: bytes) -> None:
        passphrase = typed.split(b"\n")[0]
        demand(passphrase != b"", "emptypassphrase")
        demand(len(passphrase) <= 1024, "longpassphrase")
        number, line = (b"\x16", b"locked") if words.mode == "-x" else (b"\x17", b"unlocked")
        self.do(number + string(passphrase), b"Agent " + line + b".")


def run(given: list[str], files: dict[str, bytes], peer: bytes | None, typed: bytes) -> Talk:
    """Words behind the program's name; files; what the agent replies (None: there is none)."""
    tool = Tool(files, peer or b"")
    try:
        words = read_words(given)
        if peer is None:
            return Talk(status=NO_AGENT)
        if words.mode == "add":
            tool.add(words)
        elif words.mode == "-d":
            tool.remove(words)
        elif words.mode == "-D":
            tool.do(b"\x13", b"All identities removed.")
        elif words.mode in ("-l", "-L"):
            tool.list(words)
        else:
            tool.lock(words, typed)
    except Fault as fault:
        tool.talk.status = FAILED
        if str(fault):
            tool.talk.errors += b"ssh-add: " + str(fault).encode() + b"\n"
    return tool.talk
