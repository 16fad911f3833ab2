#!/usr/bin/env python3
"""Whether a signature leaves in which the machine made a fault.

The nonce of an Ed25519 or ECDSA signature follows from key and message, so one with a fault, beside a right one of the same
message, gives the key away. Each is made twice, and leaves where both are the same. gdb turns one bit round in one of the two
as it was made: nothing may leave then. The control turns none. Of RSA a signature leaves only where it verifies, which is a
clause (rsa_sign)."""

import os
import pathlib
import sys

sys.dont_write_bytecode = True

import rig
from rig import BUILT, TOP

sys.path.insert(0, str(TOP))

from model import ed25519 as model
from model.ecdsa import P256, P384, P521

check = rig.Checks("faults")
ED25519 = pathlib.Path(os.environ.get("ED25519", BUILT / "ed25519_tool"))
ECDSA = pathlib.Path(os.environ.get("ECDSA", BUILT / "ecdsa_tool"))
SEED = bytes.fromhex("9d61b19deffd5a60ba844af492ec2cc44449c5697b326919703bac031cae7f60")
MESSAGE = "72" * 40

# The caller's room for what a function gives is its first word. A bit of byte PLACE of that is turned round as the
# function returns for the TIME-th time.
SCRIPT = """
set pagination off
set confirm off
set breakpoint pending on
break {function}
run {lines}
{again}
set $made = (unsigned char*)$rdi
finish
set var $made[{place}] = $made[{place}] ^ {bit}
delete
continue
"""


def tools():
    """Each tool with the function that makes a signature once, and a line that asks for one."""
    public = model.public_key(SEED)
    yield ED25519, "ed25519::sign::sign_expanded", f"sign {SEED.hex()} {public.hex()} {MESSAGE}"
    for curve in (P256, P384, P521):
        private = int.from_bytes((3 * SEED)[: curve.size], "big") % curve.n
        line = f"sign {curve.name} {curve.octets(private).hex()} {curve.public_key(private).hex()} {MESSAGE}"
        yield ECDSA, f"{curve.name}_ecdsa::sign::sign_hash", line


def said(folder, tool, function, line, time, place, bit):
    """What the tool says of the line, where that bit was turned round in what the function made."""
    lines, script = pathlib.Path(folder, "lines"), pathlib.Path(folder, "script")
    lines.write_text(f"{line}\n")
    again = "continue\n" * (time - 1)
    script.write_text(SCRIPT.format(function=function, lines=lines, again=again, place=place, bit=bit))
    out = rig.run(["gdb", "-q", "-batch", "-x", script, rig.there(tool)])
    assert "Breakpoint 1, " in out, f"{function} was not stopped at: {out}"
    return [found for found in out.splitlines() if len(found) >= 128 and set(found) <= set("0123456789abcdef")], out


@check
def a_signature_in_which_a_bit_turned_does_not_leave(folder):
    for tool, function, line in tools():
        for time in (1, 2):
            for place in (8, 40):
                found, out = said(folder, tool, function, line, time, place, 4)
                assert not found and "refused" in out, f"{function}, {time}, {place}: {out}"


@check
def where_none_turned_it_leaves(folder):
    for tool, function, line in tools():
        for time in (1, 2):
            found, out = said(folder, tool, function, line, time, 8, 0)
            assert len(found) == 1, f"{function}, {time}: {out}"


if __name__ == "__main__":
    check.main(ECDSA)
