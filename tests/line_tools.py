"""What ecdsa.py, ed25519.py and rsa.py have in common: a program that answers each line of a file, and what it should say."""

import contextlib
import pathlib
import subprocess

import rig


@contextlib.contextmanager
def cryptography(check):
    """Within it Python's cryptography, which calls libcrypto, is imported; a `Skip` says why where it can't be had."""
    rig.install(check)
    try:
        yield
    except ImportError as error:
        raise rig.Skip(f"no cryptography for this Python: {error}") from None


def answers(program, folder, lines):
    """What the program answers to each line."""
    path = pathlib.Path(folder, "lines")
    path.write_text("".join(f"{line}\n" for line in lines))
    done = subprocess.run([program, path], stdout=subprocess.PIPE, text=True, timeout=1200, check=True)
    said = done.stdout.splitlines()
    assert len(said) == len(lines), (len(said), len(lines))
    return said


def same(ask, folder, rows):
    """Each line of the rows has the answer that stands beside it, where `ask` is asked. How many there are."""
    said = ask(folder, [line for line, _ in rows])
    for (line, wanted), answer in zip(rows, said):
        # A random one is seen in no other place.
        assert answer == wanted, f"{line[:20000]}: {answer[:3000]}, not {wanted[:3000]}"
    return len(rows)


def spoken(holds):
    """The answer to a line that asks whether something holds."""
    return "true" if holds else "false"


def turned(text, place):
    """The text with one bit turned."""
    changed = bytearray(text)
    changed[place // 8] ^= 1 << place % 8
    return bytes(changed)
