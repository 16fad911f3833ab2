"""Keys and certificates that OpenSSH's ssh-keygen makes, and its word on signatures."""

import base64
import hashlib
import pathlib
import subprocess

from peer import string, strings

# How many strings of an added key, behind its type, are public and how many there are in all.
FIELDS = {"ssh-ed25519": (1, 2), "ssh-rsa": (2, 6), "ecdsa-sha2-nistp256": (2, 3),
          "ecdsa-sha2-nistp384": (2, 3), "ecdsa-sha2-nistp521": (2, 3)}
CERTIFIED = "-cert-v01@openssh.com"
KINDS = [("ed25519", "256"), ("rsa", "1024"), ("rsa", "2048"), ("rsa", "3072"), ("rsa", "2049"),
         ("ecdsa", "256"), ("ecdsa", "384"), ("ecdsa", "521")]


def keygen(*words, **more):
    return subprocess.run(["ssh-keygen", *words], stdout=subprocess.PIPE,
                          stderr=subprocess.STDOUT, **more)


class Key:
    """A key as an agent holds it: its type, the fields that were added, and its blob."""

    def __init__(self, name, fields, blob, path):
        self.name, self.fields, self.blob, self.path = name, fields, blob, path

    def __str__(self):
        return f"{self.name} {self.path.name}"

    @property
    def plain(self):
        return self.name[: -len(CERTIFIED)] if self.certified else self.name

    @property
    def certified(self):
        return self.name.endswith(CERTIFIED)

    @property
    def private(self):
        """The private string of a request to sign."""
        return string(self.name.encode()) + b"".join(map(string, self.fields))

    @property
    def flags(self):
        """The flags that ask for signatures that ssh-keygen accepts."""
        return (2, 4) if self.plain == "ssh-rsa" else (0,)

    def with_fields(self, fields):
        return Key(self.name, fields, self.blob, self.path)


def generate(folder, kind, bits):
    """Makes a key, and reads the files that it is kept in."""
    path = pathlib.Path(folder) / f"{kind}-{bits}-{len(list(pathlib.Path(folder).iterdir()))}"
    keygen("-q", "-t", kind, "-b", bits, "-N", "", "-C", "", "-f", str(path), check=True)
    return read(path)


def read(path):
    """The key of a file that ssh-keygen wrote."""
    text = base64.b64decode("".join(path.read_text().splitlines()[1:-1]))
    assert text.startswith(b"openssh-key-v1\0")
    _, rest = take(text[15:], 3)
    (blob, private), _ = take(rest[4:], 2)
    (name,), rest = take(private[8:], 1)
    fields, _ = take(rest, FIELDS[name.decode()][1])
    return Key(name.decode(), fields, blob, path)


def take(content, count):
    """So many strings, and what follows them."""
    found = []
    for _ in range(count):
        length = int.from_bytes(content[:4], "big")
        found.append(content[4 : 4 + length])
        content = content[4 + length :]
    return found, content


def certify(key, authority, principal="user", host=False, algorithm=None):
    """The key in a certificate of the authority, with the fields that an agent is given."""
    public = str(key.path) + ".pub"
    words = (["-h"] if host else []) + (["-t", algorithm] if algorithm else [])
    keygen("-q", "-s", str(authority.path), "-I", "id", "-n", principal, *words, public, check=True)
    certificate = key.path.with_name(key.path.name + "-cert.pub")
    blob = base64.b64decode(certificate.read_text().split()[1])
    certificate.unlink()
    kept = key.fields if key.name == "ssh-ed25519" else key.fields[FIELDS[key.name][0] :]
    return Key(key.name + CERTIFIED, [blob, *kept], blob, key.path)


def signed_text(message):
    """What an SSHSIG signature of the message is over (OpenSSH's PROTOCOL.sshsig)."""
    digest = hashlib.sha512(message).digest()
    return b"SSHSIG" + b"".join(map(string, [b"file", b"", b"sha512", digest]))


def accepts(folder, key, signature, message, authority=None):
    """Whether `ssh-keygen -Y verify` accepts the signature of `signed_text(message)`."""
    signer = authority or key
    option = "cert-authority " if authority else ""
    blob = base64.b64encode(signer.blob).decode()
    allowed = pathlib.Path(folder) / "allowed"
    allowed.write_text(f"user {option}{signer.name} {blob}\n")
    fields = [key.blob, b"file", b"", b"sha512", signature]
    body = b"SSHSIG\0\0\0\1" + b"".join(map(string, fields))
    wrapped = pathlib.Path(folder) / "signature"
    wrapped.write_text("-----BEGIN SSH SIGNATURE-----\n"
                       + base64.encodebytes(body).decode()
                       + "-----END SSH SIGNATURE-----\n")
    words = ["-f", str(allowed), "-I", "user", "-n", "file", "-s", str(wrapped)]
    return keygen("-Y", "verify", *words, input=message).returncode == 0


def signature_by_openssh(key, message):
    """The signature of `signed_text(message)` that `ssh-keygen -Y sign` makes."""
    words = ["ssh-keygen", "-Y", "sign", "-f", str(key.path), "-n", "file"]
    made = subprocess.run(words, input=message, capture_output=True, check=True).stdout
    body = base64.b64decode("".join(made.decode().splitlines()[1:-1]))
    return strings(body[10:])[-1]
