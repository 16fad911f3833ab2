"""What a message that a key signs is for (docs/PROTOCOL.md, "Purposes of signatures")."""

from __future__ import annotations

import re

from .formats import CERTIFIED, RSA, login, public_key
from .wire import Fault, Reader

DIGESTS = {b"sha256": 32, b"sha512": 64}


def namespace_of(message: bytes) -> bytes | None:
    """The namespace of a file's signed data, or None where the message is none."""
    reader = Reader(message)
    try:
        if reader.take(6) != b"SSHSIG":
            return None
        namespace, _, digested, digest = [reader.string() for _ in range(4)]
        reader.end()
    except Fault:
        return None
    return namespace if namespace and DIGESTS.get(digested) == len(digest) else None


def login_of(message: bytes, blob: bytes) -> tuple[bytes, bytes | None] | None:
    """The user and the host key of a login by the key of this blob, or None where the message is none."""
    try:
        return login(message, blob, widely=True)[1:]
    except Fault:
        return None


def is_certificate(message: bytes) -> bool:
    """Whether the message begins as one that an authority signs."""
    try:
        return Reader(message).string().endswith((CERTIFIED, b"-cert-v00@openssh.com"))
    except Fault:
        return False


def may_be_login(message: bytes) -> bool:
    """Whether a string that stands anywhere in the message is a service's name, or begins as a method's."""
    for found in re.finditer(b"ssh-connection|ssh-userauth|publickey|hostbased", message):
        start = found.start()
        length = int.from_bytes(message[start - 4 : start], "big") if start >= 4 else 0
        is_service = found[0].startswith(b"ssh-")
        named = length == len(found[0]) if is_service else length >= 9
        if named and start + length <= len(message):
            return True
    return False


def is_by_sha1(blob: bytes, flags: int) -> bool:
    """Whether a request with this key and these flags is for a signature by SHA-1."""
    try:
        is_rsa = public_key(blob).key_type.removesuffix(CERTIFIED) == RSA
    except Fault:
        return False
    return is_rsa and not flags & 6


def kind_of(message: bytes, blob: bytes) -> str:
    """What the message is, the first in the order of the table."""
    if login_of(message, blob) is not None:
        return "login"
    if namespace_of(message) is not None:
        return "file"
    if is_certificate(message):
        return "certificate"
    return "maybe" if may_be_login(message) else "other"


def purposes_of(message: bytes, blob: bytes) -> set[bytes]:
    """The words for what the key of this blob signs the message for; none for what may be a login."""
    kind = kind_of(message, blob)
    if kind == "file":
        return {b"sshsig", b"sshsig:" + (namespace_of(message) or b"")}
    return set() if kind == "maybe" else {kind.encode()}
