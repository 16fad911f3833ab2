"""Whether the hosts that a connection came over permit a key to be seen or used.

The records are those of OpenSSH's PROTOCOL.agent; how a chain of hosts is judged is ours.
"""

from collections.abc import Set
from dataclasses import dataclass

from .formats import Hop, login, public_key
from .purposes import purposes_of
from .wire import demand, matches, within

Rules = list[tuple[Hop, Hop]]
Purposes = Set[bytes]  # empty where none are given


@dataclass
class Binding:
    """What a helper verified of a connection: a host, the session there, and its purpose."""

    host_key: bytes
    session: bytes
    forwarding: bool


Chain = list[Binding]


def room(private: bytes, rules: Rules | None, purposes: Purposes = frozenset()) -> int:
    """What a key takes beside its blob and its comment: 320 bytes for each purpose, 64 more for each hop and its keys,
    and a host eight times."""
    size = len(private) + 320 * len(purposes)
    if not rules:
        return size
    hops = [hop for rule in rules for hop in rule]
    names = sum(64 + len(hop.user) + 8 * len(hop.host) for hop in hops)
    return size + names + sum(64 + len(blob) for hop in hops for blob, _ in hop.keys)


def principals(host_key: bytes) -> int:
    """How many bytes the principals of a host key's certificate take, each as a string."""
    certificate = public_key(host_key).certificate
    return sum(4 + len(name) for name in certificate.principals) if certificate else 0


def is_at(hop: Hop, host_key: bytes, wall: int) -> bool:
    """Whether the host with this key is the hop's."""
    certificate = public_key(host_key).certificate
    if certificate is None:
        return (host_key, False) in hop.keys
    return (certificate.signer, True) in hop.keys and certificate.is_good_for(hop.host, wall)


def permitting(
    rules: Rules, before: bytes | None, to: bytes, user: bytes | None, wall: int
) -> Hop | None:
    """The to-hop of the first rule that permits the way from one host (None: the agent's) to another."""
    for source, target in rules:
        starts = not source.keys if before is None else is_at(source, before, wall)
        for_user = user is None or target.user == b"" or matches(user, target.user)
        if starts and for_user and is_at(target, to, wall):
            return target
    return None


def leads(rules: Rules, before: bytes | None, to: bytes, user: bytes | None, wall: int) -> bool:
    return permitting(rules, before, to, user, wall) is not None


def every_hop(rules: Rules, chain: Chain, user: bytes | None, wall: int) -> bool:
    """Whether each hop is permitted: all but the newest forward, and that one has the user."""
    before = None
    for binding in chain[:-1]:
        if not binding.forwarding or not leads(rules, before, binding.host_key, None, wall):
            return False
        before = binding.host_key
    if user is not None and chain[-1].forwarding:
        return False
    return leads(rules, before, chain[-1].host_key, user, wall)


def visible(rules: Rules | None, chain: Chain, attempted: bool, wall: int) -> bool:
    if not rules:
        return True
    if not chain:
        return not attempted
    onward = any(is_at(source, chain[-1].host_key, wall) for source, _ in rules)
    return every_hop(rules, chain, None, wall) and (onward or not chain[-1].forwarding)


def may_sign(rules: Rules | None, blob: bytes, chain: Chain, message: bytes, wall: int) -> None:
    """Raises why the rules don't let a connection sign a message."""
    if not rules:
        return
    demand(chain != [], "Unbound")
    session, user, host_key = within("NotUserAuth", login, message, blob)
    demand(len(user) <= 4096, "LongUser")
    demand(every_hop(rules, chain, user, wall), "Hop")
    demand(session == chain[-1].session, "OtherSession")
    demand(host_key is not None or len(chain) == 1, "NoHostKey")
    demand(host_key in (None, chain[-1].host_key), "OtherHostKey")


def host_of(rules: Rules | None, chain: Chain, user: bytes, wall: int) -> bytes | None:
    """What a key's rules call the host of a login over these bindings: the host of the first rule that permits it
    from the one before. None where there are no rules."""
    if not rules:
        return None
    before = chain[-2].host_key if len(chain) > 1 else None
    found = permitting(rules, before, chain[-1].host_key, user, wall)
    return found.host if found else None


def are_for(purposes: Purposes, blob: bytes, message: bytes) -> bool:
    """Whether a key of these purposes may sign a message; one without any may sign all."""
    return not purposes or bool(purposes & purposes_of(message, blob))
