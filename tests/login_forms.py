"""Forms of logins by a key: what is signed, and what is sent to the server with the signature. The plain ones of RFC 4252
and OpenSSH's PROTOCOL, and others that a server might take."""

import dataclasses

from frames import string, strings
from ssh_client import BANNER

CONNECTION, PUBLICKEY, BOUND = b"ssh-connection", b"publickey", b"publickey-hostbound-v00@openssh.com"
# A client of this name signs the session identifier without its length (OpenSSH's compat.c, SSH_OLD_SESSIONID).
SECURE_CRT = b"SSH-2.0-3.0 SecureCRT"
SHA256, SHA512 = 2, 4


def field(text, *more):
    return b"".join(map(string, (text, *more)))


@dataclasses.dataclass(frozen=True)
class Login:
    """The fields of a login's signed text, in their order."""

    session: bytes
    user: bytes
    blob: bytes
    algorithm: bytes
    service: bytes = CONNECTION
    method: bytes = PUBLICKEY
    flag: int = 1
    more: bytes = b""
    number: int = 50

    def request(self):
        head = bytes([self.number]) + field(self.user, self.service, self.method) + bytes([self.flag])
        return head + field(self.algorithm, self.blob) + self.more

    def signed(self):
        return string(self.session) + self.request()

    def but(self, **changes):
        return dataclasses.replace(self, **changes)


@dataclasses.dataclass(frozen=True)
class Key:
    """A key: its plain blob, and that of its certificate; by which algorithm it signs, with these flags of the agent's."""

    blob: bytes
    certificate: bytes
    algorithm: bytes
    flags: int = 0

    def certified(self):
        """The algorithm with the certificate's mark."""
        return self.algorithm + b"-cert-v01@openssh.com"


@dataclasses.dataclass(frozen=True)
class Form:
    """A form: by which key, from the plain fields the pair of what is signed and what is sent, the client's name, and by
    which of the key's blobs an agent is asked."""

    name: str
    make: object
    key: str = "ed25519"
    banner: bytes = BANNER
    asked_by: str = "plain"
    flags: int | None = None
    host_key: str = "ed25519"


def both(login):
    """The same text is signed and sent."""
    return login.signed(), login.request()


def with_zero(blob, place):
    """An RSA blob with a zero byte more in front of one of its numbers."""
    parts = strings(blob)
    parts[place] = b"\0" + parts[place]
    return field(*parts)


def retyped(blob, kind):
    return field(kind, *strings(blob)[1:])


def forms():
    """All of them, each a function of the plain login and the client."""
    made = []

    def form(name, make, **more):
        made.append(Form(name, make, **more))

    plain = lambda **changes: lambda login, client, key: both(login.but(**changes))
    # As the documents have it.
    for kind in ("ed25519", "rsa", "ecdsa"):
        form(f"plain, {kind}", plain(), key=kind)
        bound = lambda login, client, key: both(login.but(method=BOUND, more=field(client.host_key)))
        form(f"host-bound, {kind}", bound, key=kind)
        certified = lambda login, client, key: both(login.but(blob=key.certificate, algorithm=key.certified()))
        form(f"certificate, {kind}", certified, key=kind, asked_by="certificate")
        # An agent that holds one of the blobs signs for the other.
        form(f"certificate, signed by the plain entry, {kind}", certified, key=kind)
        form(f"plain, signed by the certificate's entry, {kind}", plain(), key=kind, asked_by="certificate")
    form("RSA by SHA-256", plain(algorithm=b"rsa-sha2-256"), key="rsa", flags=SHA256)
    form("RSA by SHA-1", plain(algorithm=b"ssh-rsa"), key="rsa", flags=0)
    # The byte that says that a signature follows (RFC 4252, section 7), which RFC 4251 would read as true.
    for flag in (2, 255, 0):
        form(f"flag {flag}", plain(flag=flag))
        form(
            f"host-bound, flag {flag}",
            lambda login, client, key, flag=flag: both(login.but(method=BOUND, flag=flag, more=field(client.host_key))),
        )
    # The session identifier.
    unframed = lambda login: (login.session + login.request(), login.request())
    form("session without its length", lambda login, client, key: unframed(login), banner=SECURE_CRT)
    form("session without its length, flag 2", lambda login, client, key: unframed(login.but(flag=2)), banner=SECURE_CRT)
    form(
        "session without its length, host-bound",
        lambda login, client, key: unframed(login.but(method=BOUND, more=field(client.host_key))),
        banner=SECURE_CRT,
    )
    form("session without its length, another client", lambda login, client, key: unframed(login))
    form("empty session", lambda login, client, key: (login.but(session=b"").signed(), login.request()))
    form("no session", lambda login, client, key: (login.request(), login.request()))
    form("another session", lambda login, client, key: (login.but(session=bytes(32)).signed(), login.request()))
    form(
        "session with a zero byte more",
        lambda login, client, key: (login.but(session=login.session + b"\0").signed(), login.request()),
    )
    # The key's blob.
    for place, name in ((1, "e"), (2, "n")):
        form(
            f"a zero byte more in front of {name}",
            lambda login, client, key, place=place: both(login.but(blob=with_zero(key.blob, place))),
            key="rsa",
        )
    for kind, key in ((b"ed25519", "ed25519"), (b"ED25519", "ed25519"), (b"rsa", "rsa"), (b"rsa-sha2-512", "rsa")):
        form(
            f"a blob of the type {kind.decode()}",
            lambda login, client, key, kind=kind: both(login.but(blob=retyped(key.blob, kind))),
            key=key,
        )
    form(
        "a byte behind the blob's fields",
        lambda login, client, key: both(login.but(blob=login.blob + b"\0")),
    )
    # The algorithm.
    for name in (b"ed25519", b"ssh-ed25519\0", b"SSH-ED25519", b"", b"rsa-sha2-512"):
        form(f"algorithm {name!r}"[:40], plain(algorithm=name))
    form("plain algorithm, certificate", lambda login, client, key: both(login.but(blob=key.certificate)))
    form("certificate's algorithm, plain blob", lambda login, client, key: both(login.but(algorithm=key.certified())))
    form("algorithm ssh-rsa, signed by SHA-512", plain(algorithm=b"ssh-rsa"), key="rsa", flags=SHA512)
    form("algorithm rsa-sha2-512, signed by SHA-1", plain(), key="rsa", flags=0)
    # The host key of the host-bound method.
    form("host-bound, a DSA host key", bound, host_key="dsa")
    form("host-bound, no host key", lambda login, client, key: both(login.but(method=BOUND, more=field(b""))))
    form("host-bound, nothing behind", plain(method=BOUND))
    form("host-bound, another host key", lambda login, client, key: both(login.but(method=BOUND, more=field(key.blob))))
    form("publickey, a host key behind", lambda login, client, key: both(login.but(more=field(client.host_key))))
    # The method, sent alike, and sent as it should be.
    methods = (
        b"publickey\0",
        b"PUBLICKEY",
        b"Publickey",
        b"publickey ",
        b"publickey-hostbound",
        b"publickey-hostbound-v00@openssh.com\0",
        b"hostbased",
        b"none",
        b"password",
        b"keyboard-interactive",
        b"",
    )
    for method in methods:
        form(f"method {method!r}"[:48], plain(method=method))
        form(
            f"method {method!r}, sent publickey"[:60],
            lambda login, client, key, method=method: (login.but(method=method).signed(), login.request()),
        )
    form(
        "method publickey with a zero byte, signed without",
        lambda login, client, key: (login.signed(), login.but(method=b"publickey\0").request()),
    )
    # The service (RFC 4252, section 5).
    services = (b"ssh-userauth", b"ssh-connection\0", b"SSH-CONNECTION", b"ssh-connections", b"abcdefghijklmn", b"")
    for service in services:
        form(f"service {service!r}", plain(service=service))
        form(
            f"service {service!r}, sent ssh-connection",
            lambda login, client, key, service=service: (login.but(service=service).signed(), login.request()),
        )
    form(
        "service with a zero byte, signed without",
        lambda login, client, key: (login.signed(), login.but(service=b"ssh-connection\0").request()),
    )
    # The user.
    form("a style behind the user", lambda login, client, key: both(login.but(user=login.user + b":style")))
    form("a zero byte behind the user", lambda login, client, key: both(login.but(user=login.user + b"\0")))
    form(
        "a zero byte behind the user, signed without",
        lambda login, client, key: (login.signed(), login.but(user=login.user + b"\0").request()),
    )
    form("a role behind the user", lambda login, client, key: both(login.but(user=login.user + b"/role")))
    # What stands around it.
    form("bytes behind the signed text", lambda login, client, key: (login.signed() + b"more", login.request()))
    form("bytes in front of the signed text", lambda login, client, key: (b"more" + login.signed(), login.request()))
    form("bytes behind the blob", lambda login, client, key: both(login.but(more=b"more")))
    form("another number, sent 50", lambda login, client, key: (login.but(number=51).signed(), login.request()))
    form("a text of no algorithm", lambda login, client, key: old_text(login, CONNECTION), banner=b"SSH-2.0-2.0.11 old")
    form(
        "a text of no method and no algorithm, for ssh-userauth",
        lambda login, client, key: old_text(login, b"ssh-userauth"),
        banner=b"SSH-2.0-2.0.11 old",
    )
    return made


def old_text(login, service):
    """What ssh.com's clients before 2.0.13 signed (OpenSSH's compat.c up to 7.6: SSH_BUG_PKAUTH, SSH_BUG_PKSERVICE)."""
    text = bytes([50]) + field(login.user, service) + b"\1" + field(login.blob)
    return login.session + text, login.request()


FORMS = forms()
