#!/usr/bin/env python3
"""Whether what a built program does depends on an Ed25519 seed.

memcheck runs a program under gdb, which marks a secret as undefined where a function takes it. Until the function returns,
memcheck has to find no jump and no address that depends on it. Behind that the program writes what the function gave,
which depends on the secret: there memcheck has to find something, or it wouldn't find anything. A signature begins with a
comparison of the seed's public key, which is no secret: gdb marks that as defined where it is made, and where it doesn't,
the comparison is found. In the code of LLVM's build, by its own look, no conditional jump may stand but at the ends of loops
over numbers that aren't secret. The same of a multiple of the base point of P-256, P-384 and P-521 in ecdsa_tool; of a whole
signature there the jumps are counted, which are where FIPS 186-5 has it begin anew. ED25519=PROGRAM,
MORTARLEEK_SIGNER=PROGRAM and ECDSA=PROGRAM put other programs in their places: the first two Rattle's own compiler's builds
too."""

import os
import pathlib
import re
import socket
import struct
import subprocess
import sys

sys.dont_write_bytecode = True

import memcheck
import rig
from memcheck import on_a_line
from rig import BUILT, TOP, string

sys.path.insert(0, str(TOP))

from model import ed25519 as model
from model.ecdsa import P256, P384, P521

check = rig.Checks("constant_time")
TOOL = pathlib.Path(os.environ.get("ED25519", BUILT / "ed25519_tool"))
HELPER = pathlib.Path(os.environ.get("MORTARLEEK_SIGNER", rig.HELPER))
ECDSA = pathlib.Path(os.environ.get("ECDSA", BUILT / "ecdsa_tool"))
SEED = bytes.fromhex("9d61b19deffd5a60ba844af492ec2cc44449c5697b326919703bac031cae7f60")
PUBLIC = bytes.fromhex("d75a980182b10ab7d54bfed3c964073a0ee172f3daa62325af021a68f707511a")
MESSAGE = bytes([0x72]) * 40

# What makes a public key or multiplies for it, and what it takes behind the room for what it gives and the table: the seed, or
# the secret scalar. Each compiler inlines some of them.
SCALAR = model.octets(model.expanded(SEED)[0])
MAKES = {
    "ed25519::keys::public_key": {"$rdx": SEED},
    "ed25519::keys::encoded_multiple": {"$rdx": SCALAR},
    "curve25519_multiples::table::BaseTable::multiple": {"$rdx": SCALAR},
}
# What signs, and the seed that it takes; and what gives the bytes of the seed's public key there.
SIGNS, TAKEN, GIVES = "ed25519::erase::sign_with_copy", {"$rdx": SEED}, "curve25519::point::Point::encode"

# The jumps that a function may have: one at the end of each of its loops.
JUMPS = {
    "ed25519::sign::sign_expanded": 1,
    "curve25519_multiples::table::BaseTable::multiple": 1,
    "curve25519::point::Point::add": 0,
    "curve25519::point::Point::encode": 0,
    "field25519::element::Element::mul": 0,
    "field25519::element::Element::square_times": 1,
    "scalar25519::scalar::Scalar::from_bytes": 1,
    "sha2::block512::compress": 1,
}

# The curves of ecdsa_tool, and the words of 64 bits and the bytes of a number.
CURVES = {"p256": (4, 32), "p384": (6, 48), "p521": (9, 66)}

# The same of ecdsa_tool, where products stand as they do in LLVM's build: over P-256 that modulo p is inlined, here into what
# makes Montgomery's form; over P-521 it has a form of its own, and that modulo n its two parts.
PRODUCTS = {
    "p256": ("p256_field::element::Element::from_words", "p256_order::residue::Residue::product"),
    "p384": ("p384_field::residue::product_of", "p384_order::residue::product_of"),
    "p521": ("p521_field::element::Element::mul", "wide_words::u576::U576::widening_mul", "p521_order::residue::reduced"),
}
ECDSA_JUMPS = {
    function: most
    for curve, (words, _) in CURVES.items()
    for function, most in (
        (f"{curve}_multiples::table::BaseTable::multiple", 1),
        (f"{curve}_multiples::table::BaseTable::of_sixteen", 0),
        (f"{curve}_curve::point::Point::add", 0),
        *((product, 0) for product in PRODUCTS[curve]),
        (f"wide_words::u{64 * words}::U{64 * words}::is_below", 0),
    )
}

# Marks what a function gives first as defined: 32 bytes, for which LLVM's build is passed room, and which Rattle's own
# compiler gives in registers.
IS_PUBLIC = """
break {function}
continue
set $made = $rdi
set $made_back = *(unsigned long*)$rsp
delete
break *$made_back
continue
{marks}
delete
"""
IN_MEMORY = 'eval "monitor make_memory defined 0x%lx 32", $made'
IN_REGISTERS = "\n".join(f"set ${register}s1 = 0" for register in ("rax", "rdx", "rcx", "rsi"))

# What is watched ends where a signature was made for the second time: behind that both are compared.
IS_MADE_TWICE = """
break ed25519::sign::sign_expanded
continue
continue
set $back = *(unsigned long*)$rsp
delete
"""


def present(program, functions):
    """The first of these that the program has code of: what Rattle's own compiler inlined has a name, and no length."""
    symbols = [line.split() for line in rig.run(["nm", "-S", "--defined-only", program]).splitlines()]
    names = {words[3] for words in symbols if len(words) == 4 and int(words[1], 16)}
    return next(name for name in functions if name in names)


def of_helper(folder, before, output):
    """Starts the helper with a request to sign."""
    name = string(b"ssh-ed25519")
    private = name + string(PUBLIC) + string(SEED + PUBLIC)
    request = struct.pack(">BQ", 1, 1) + string(private) + string(name + string(PUBLIC)) + string(MESSAGE) + bytes(4)
    ours, theirs = socket.socketpair()
    ours.sendall(string(request))
    ours.shutdown(socket.SHUT_WR)
    words = [*before, rig.there(HELPER), "-", "1", "0" * 32]
    with theirs:
        process = subprocess.Popen(words, stdin=theirs, stdout=output, stderr=subprocess.STDOUT)
    process.agent = ours
    return process


def watched(folder, start, program, function, takes, public=""):
    """What memcheck finds of a function, where each of these texts is marked that it takes, at its register."""
    marks = [memcheck.shown(register, text) for register, text in takes.items()]
    found = memcheck.watched(folder, start, program, function, marks, public)
    assert memcheck.were_there(found, takes.values()), f"{function}: the secret isn't where it was marked"
    return found


def holds(folder, start, program, function, takes, public=""):
    found = watched(folder, start, program, function, takes, public)
    assert found.returned and found.before == 0, f"{function}: a jump or an address depends on a secret"
    assert found.after > 0, f"{function}: memcheck finds nothing, also where something is"


@check
def a_public_key_is_made_alike_for_each_seed(folder):
    function = present(TOOL, MAKES)
    holds(folder, on_a_line(TOOL, f"key {SEED.hex()}"), TOOL, function, MAKES[function])


@check
def a_multiple_of_a_base_point_is_made_alike_for_each_number(folder):
    """The number is the third word that the function is passed, behind the room for the point and the table: in words,
    the lowest first."""
    for curve, (words, size) in CURVES.items():
        # Over P-521 the first byte has one bit.
        private = (b"\0" * (size % 8 > 0) + 3 * SEED)[:size]
        taken = {"$rdx": private[::-1].ljust(8 * words, b"\0")}
        multiple = f"{curve}_multiples::table::BaseTable::multiple"
        holds(folder, on_a_line(rig.there(ECDSA), f"key {curve} {private.hex()}"), ECDSA, multiple, taken)


@check
def an_ecdsa_signature_turns_but_where_the_standard_asks(folder):
    """From the private number to r and s: at whether the nonce is in its range, at both ends of it, whether r is 0, and
    whether s is. Each of them begins anew with another nonce."""
    for curve in (P256, P384, P521):
        private = int.from_bytes((3 * SEED)[: curve.size], "big") % curve.n
        line = f"sign {curve.name} {curve.octets(private).hex()} {curve.public_key(private).hex()} {MESSAGE.hex()}"
        function, start = f"{curve.name}_ecdsa::sign::sign_hash", on_a_line(rig.there(ECDSA), line)
        # Behind the room for what it gives and the table it takes the number.
        marks = [memcheck.undefined("$rdx", 8 * CURVES[curve.name][0])]
        found = memcheck.watched(folder, start, ECDSA, function, marks, most=100)
        assert found.returned and found.before == 4, f"{function}: {found.places}"
        assert {place for _, place in found.places[:4]} == {function}, f"{function}: {found.places}"
        assert found.after > 4, f"{function}: memcheck finds nothing behind it, where something is"


@check
def the_helper_signs_alike_for_each_seed(folder):
    """From the seed to the second signature; behind it both are compared, and one is copied and written, which memcheck
    tells."""
    marks = IN_REGISTERS if rig.is_rattle_s(rig.there(HELPER)) else IN_MEMORY
    public = IS_PUBLIC.format(function=GIVES, marks=marks) + IS_MADE_TWICE
    holds(folder, of_helper, HELPER, SIGNS, TAKEN, public)


@check
def a_comparison_that_may_stop_early_is_found(folder):
    """The control: that of the public keys, where the one that is made isn't marked as public."""
    found = watched(folder, of_helper, HELPER, SIGNS, TAKEN)
    assert not found.returned and found.before > 0, "memcheck finds no jump where one is"


def jumps(function, program):
    """The conditional jumps in the code of a function."""
    listing = rig.run(["objdump", "-d", "--no-show-raw-insn", f"--disassemble={function}", program])
    assert f"<{function}>:" in listing, f"no function {function}"
    return re.findall(r"\t(j(?!mp)\w+) .*", listing)


@check
def no_jump_stands_but_at_the_ends_of_loops(_):
    for program, table in ((TOOL, JUMPS), (rig.there(HELPER), JUMPS), (rig.there(ECDSA), ECDSA_JUMPS)):
        if rig.is_rattle_s(program):
            raise rig.Skip("Rattle's own compiler leaves comparisons of places with lengths in the code")
        for function, most in table.items():
            found = jumps(function, program)
            assert len(found) <= most, f"{program}: {function}: {len(found)} conditional jumps, {most} loops"


if __name__ == "__main__":
    check.main(TOOL)
