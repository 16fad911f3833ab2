"""What the user is asked before a key is used (docs/PROTOCOL.md, "Confirmation (ours)")."""

from __future__ import annotations

import base64
import hashlib

from .formats import public_key
from .purposes import kind_of, login_of, namespace_of
from .rules import Chain, Purposes, Rules, host_of


def shown(text: bytes, most: int) -> bytes:
    """At most so many bytes of a text, each that isn't printable ASCII as a question mark."""
    return bytes(byte if 0x20 <= byte <= 0x7E else ord("?") for byte in text[:most])


def line_of(blob: bytes, message: bytes, rules: Rules | None, chain: Chain, wall: int) -> bytes:
    """What a message is for; of a login also the host, where the key's constraints name it."""
    named = login_of(message, blob)
    if named is not None:
        user = named[0]
        host = host_of(rules, chain, user, wall)
        to = b"" if host is None else b" to " + shown(host, 64)
        return b"For a login as " + shown(user, 64) + to + b"."
    namespace = namespace_of(message)
    if namespace is not None:
        return b"For a signature in namespace " + shown(namespace, 64) + b"."
    texts = {"certificate": b"a certificate of", "maybe": b"what may be a login, of", "other": b"other data of"}
    return b"For %s %d bytes." % (texts[kind_of(message, blob)], len(message))


def question(comment: bytes, blob: bytes, purposes: Purposes, line: bytes) -> bytes:
    """The key's comment and the fingerprint of its plain key, and for one with purposes what the message is for."""
    digest = base64.b64encode(hashlib.sha256(public_key(blob).plain_blob).digest()).rstrip(b"=")
    text = b"Allow use of key %s?\nKey fingerprint SHA256:%s." % (shown(comment, 256), digest)
    return text + b"\n" + line if purposes else text
