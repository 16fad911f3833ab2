"""Messages made of real logins by chance, a seed giving the same again: what is signed and what is sent, which a server is
asked to take."""

import concurrent.futures
import random

from frames import string, strings
from login_forms import BOUND, SECURE_CRT, Login, field, retyped, with_zero
from ssh_client import BANNER, Client, Gone

SERVICES = b"ssh-userauth", b"ssh-connection\0", b"SSH-connection", b"ssh-connection2", b"ssh-connectio", b"abcdefghijklmn", b""
METHODS = b"publickey\0", b"Publickey", b"publickey2", b"publickey-hostbound", b"hostbased", b"none", b"password", b"publicke", b""
FLAGS = 0, 1, 2, 3, 16, 127, 128, 254, 255


def other_blob(dice, key):
    """Another blob by which a server might find the key."""
    kind = strings(key.blob)[0]
    return dice.choice(
        [
            key.certificate,
            key.certificate,
            with_zero(key.blob, 1),
            with_zero(key.blob, len(strings(key.blob)) - 1),
            retyped(key.blob, kind.removeprefix(b"ssh-")),
            retyped(key.blob, kind.upper()),
            key.blob + b"\0",
            key.blob[:-1],
        ]
    )


def changed_field(dice, login, key):
    """The login with another field."""
    kind = dice.randrange(9)
    if kind == 0:
        return login.but(user=login.user + dice.choice([b"\0", b":style", b"/role", b" ", b"\0x"]))
    if kind == 1:
        return login.but(service=dice.choice(SERVICES))
    if kind == 2:
        return login.but(method=dice.choice(METHODS))
    if kind in (3, 4):
        return login.but(flag=dice.choice(FLAGS))
    if kind == 5:
        names = [b"", b"rsa-sha2-256", b"ssh-rsa", key.certified(), login.algorithm + b"\0", login.algorithm.upper()]
        return login.but(algorithm=dice.choice(names))
    if kind == 6:
        return login.but(blob=other_blob(dice, key))
    if kind == 7:
        return login.but(blob=key.certificate, algorithm=key.certified())
    return login.but(number=dice.choice([0, 49, 51, 60]), more=login.more + dice.choice([b"", b"\0", string(key.blob)]))


def changed_bytes(dice, text):
    """The text with a bit turned, a byte more, fewer or another, a length that is another, or two fields in turn."""
    place, kind = dice.randrange(len(text)), dice.randrange(6)
    if kind == 0:
        return text[:place] + bytes([text[place] ^ 1 << dice.randrange(8)]) + text[place + 1 :]
    if kind == 1:
        return text[:place] + dice.choice([b"\0", dice.randbytes(1), dice.randbytes(4)]) + text[place:]
    if kind == 2:
        return text[:place] + text[place + dice.choice([1, 1, 4]) :]
    if kind == 3:
        return text[:place] + bytes([dice.choice([0, 1, 2, 255])]) + text[place + 1 :]
    if kind == 4:
        places = [at for at in range(len(text) - 3) if text[at : at + 3] == bytes(3)] or [0]
        at = dice.choice(places) + 3
        return text[:at] + bytes([(text[at] + dice.choice([-1, 1, 4])) % 256]) + text[at + 1 :] if at < len(text) else text
    first, second = sorted([place, dice.randrange(len(text))])
    return text[:first] + text[second:] + text[first:second]


def mutant(dice, login, key):
    """What is signed and what is sent."""
    session, as_sent = string(login.session), None
    if dice.random() < 0.75:
        login = changed_field(dice, login, key)
        if dice.random() < 0.2:
            as_sent, login = login, changed_field(dice, login, key)
    request = login.request()
    if dice.random() < 0.3:
        request = changed_bytes(dice, request)
    sent = request if as_sent is None else as_sent.request()
    change = dice.random()
    if change < 0.12:
        session = login.session
    elif change < 0.16:
        session = changed_bytes(dice, session)
    return session + request, sent


class Line:
    """Connections to a server, one after another: a next one where the server closed the last, let it in, or would take
    another user or service for a fault."""

    def __init__(self, server):
        self.server, self.client, self.named = server, None, None

    def close(self):
        if self.client:
            self.client.socket.close()
        self.client = None

    def to(self, banner, host_bound):
        """A client of this name. What is sent first tells for whom and what the connection is."""
        if self.client is None or self.banner != banner:
            self.close()
            self.client, self.banner, self.named = Client(self.server.port, banner), banner, None
        return self.client

    def takes(self, make, banner):
        """Whether the server takes what is made for the connection, and the text that was signed."""
        client = self.to(banner, False)
        signed, sent, signature = make(client)
        named = named_in(sent)
        if self.named not in (None, named):
            self.close()
            client = self.to(banner, False)
            signed, sent, signature = make(client)
        self.named = named
        try:
            took = client.logs_in(sent, signature)
        except (Gone, OSError):
            took = None
        if took is not False:
            self.close()
        return bool(took), signed


def named_in(sent):
    """The fields of user and service, or the whole where there are none."""
    try:
        return tuple(strings(sent[1:])[:2])
    except Exception:
        return sent


def run(server, keys, sign, user, count, seed, lanes=4):
    """Asks a server to take so many messages, by so many connections at a time: of each the key's name, what was signed,
    and whether it took it."""

    def lane(number):
        told, line = [], Line(server)
        for place in range(number, count, lanes):
            name = random.Random(f"{seed} key {place}").choice(list(keys))
            key, banner = keys[name], SECURE_CRT if place % 8 == 7 else BANNER

            def make(client):
                dice = random.Random(f"{seed} {place}")
                login = Login(client.session, user, key.blob, key.algorithm)
                if dice.random() < 0.3:
                    login = login.but(method=BOUND, more=field(client.host_key))
                signed, sent = mutant(dice, login, key)
                return signed, sent, sign(name, signed, key.flags)

            for _ in range(3):
                try:
                    took, signed = line.takes(make, banner)
                    break
                except (Gone, OSError):  # no connection was to be had
                    line.close()
            else:
                raise AssertionError(f"{server.name} takes no connections")
            told.append((name, signed, took))
        line.close()
        return told

    with concurrent.futures.ThreadPoolExecutor(lanes) as pool:
        return [each for told in pool.map(lane, range(lanes)) for each in told]
