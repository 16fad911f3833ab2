#!/usr/bin/env python3
"""`audit_prog` over literal records and over one that `agent_prog serve --record` made with OpenSSH's clients: it lists
the signatures that were asked for, with their keys; where one line of the deeds or of the record is changed it names that
line."""

import base64
import os
import pathlib
import subprocess
import sys

sys.dont_write_bytecode = True

import rig
from rig import our_agent, run

sys.path.insert(0, str(rig.TOP))
from model.rows_audit import ROWS

check = rig.Checks("audit")
AGENT = rig.agent_program()
AUDIT = pathlib.Path(os.environ.get("AUDIT", rig.BUILT / "audit_prog"))
USAGE, FILE_FAULT = 2, 3


def audited(*words):
    """What an audit prints, and its status."""
    done = subprocess.run(
        [str(rig.there(AUDIT)), *map(str, words)], stdout=subprocess.PIPE, stderr=subprocess.PIPE, timeout=120
    )
    # A line on standard error comes with every other status than 0.
    lines = done.stderr.decode().splitlines()
    assert len(lines) == (done.returncode != 0), lines
    return done.stdout.decode(), done.returncode


def replayed(record):
    return subprocess.run([str(AGENT), "replay"], input=record, stdout=subprocess.PIPE, timeout=60, check=True).stdout


class Pair:
    """A record and deeds in files of a folder, which are changed one line at a time."""

    def __init__(self, folder, record, deeds):
        self.record, self.deeds = folder / "record", folder / "deeds"
        self.record_text, self.deeds_text = record, deeds
        self.set()

    def set(self, record=None, deeds=None):
        self.record.write_bytes(self.record_text if record is None else record)
        self.deeds.write_bytes(self.deeds_text if deeds is None else deeds)

    def audited(self, *life):
        return audited(self.record, self.deeds, *life)

    def told(self, **texts):
        """What is printed with other texts."""
        self.set(**texts)
        found = self.audited()
        self.set()
        return found


def with_line(text, place, line):
    """The text with another line, counted from 0, or without it where there is none."""
    lines = text.splitlines(keepends=True)
    lines[place : place + 1] = [] if line is None else [line + b"\n"]
    return b"".join(lines)


def each_line_counts(pair):
    """Every line of deeds and record that is changed is named; of a record every line that is none."""
    lines = pair.deeds_text.splitlines()
    for place, line in enumerate(lines):
        wanted = (f"no {place + 1}\n", 1)
        other = line[:-1] + bytes([line[-1] ^ 1])
        assert pair.told(deeds=with_line(pair.deeds_text, place, other)) == wanted, place
        assert pair.told(deeds=with_line(pair.deeds_text, place, line + b" ")) == wanted, place
        if lines[place + 1 : place + 2] != [line]:
            assert pair.told(deeds=with_line(pair.deeds_text, place, None)) == wanted, place
    assert pair.told(deeds=pair.deeds_text[:-1]) == (f"no {len(lines)}\n", 1)
    assert pair.told(deeds=pair.deeds_text + b"\n") == (f"no {len(lines) + 1}\n", 1)
    for place in range(0, len(pair.record_text.splitlines()), 7):
        wanted = (f"bad {place + 1}\n", 4)
        assert pair.told(record=with_line(pair.record_text, place, b"none")) == wanted, place
        # A record that is refused is so whatever the deeds are.
        assert pair.told(record=with_line(pair.record_text, place, b"none"), deeds=b"") == wanted, place


@check
def literal_records_are_reported(folder):
    for number, row in enumerate(ROWS):
        place = folder / str(number)
        place.mkdir()
        for name, text in row.files.items():
            (place / name).write_bytes(text)
        words = [place / word if word in ("r", "d", "none") else word for word in row.words]
        assert audited(*words) == (row.printed.decode(), row.status), row.name


@check
def what_real_clients_asked_for_is_listed(folder):
    rig.built("mortarleek_signer")
    keys = [folder / "ed25519", folder / "rsa", folder / "ecdsa"]
    for key in keys:
        bits = {"rsa": ["-b", "2048"], "ecdsa": ["-b", "256"]}.get(key.name, [])
        run(["ssh-keygen", "-q", "-t", key.name, *bits, "-N", "", "-C", key.name, "-f", key])
    (folder / "text").write_text("a text to be signed\n")
    with open(folder / "made", "wb") as file:
        agent = our_agent(AGENT, folder, "--record", stdout=file)
    signed = []
    agent.run("ssh-add", "-q", *keys)
    for key in [*keys, keys[0]]:
        agent.run("ssh-keygen", "-q", "-Y", "sign", "-n", "file", "-f", f"{key}.pub", folder / "text")
        (folder / "text.sig").unlink()
        signed.append(key)
    agent.run("ssh-add", "-q", "-d", keys[0])
    agent.run("ssh-keygen", "-q", "-Y", "sign", "-n", "file", "-f", f"{keys[0]}.pub", folder / "text", status=None)
    agent.run("ssh-add", "-q", "-D")
    agent.end()
    record = (folder / "made").read_bytes()
    pair = Pair(folder, record, replayed(record))
    report, status = pair.audited()
    lines = report.splitlines()
    assert status == 0 and lines[-1] == f"yes {len(signed)}" and len(lines) == len(signed) + 1, report
    heard = record.decode().splitlines()
    for number, (line, key) in enumerate(zip(lines, signed), 1):
        word, at, ask, its, port, where, name, digits = line.split(" ")
        blob = base64.b64decode(pathlib.Path(f"{key}.pub").read_text().split(" ")[1])
        assert (word, ask, its, port, name) == ("sign", "ask", str(number), "port", "key"), line
        assert bytes.fromhex(digits) == blob, f"{key.name}: {line}"
        # The line of the record says that this client sent what was signed.
        assert heard[int(at) - 1].startswith(f"hear {where} "), (line, heard[int(at) - 1][:40])
    each_line_counts(pair)
    prints = subprocess.run(
        ["sh", str(rig.TOP / "examples/fingerprints.sh")], input=report, stdout=subprocess.PIPE, text=True, check=True
    ).stdout.splitlines()
    for line, key in zip(prints, signed):
        assert line.split(" ")[8] == run(["ssh-keygen", "-l", "-f", f"{key}.pub"]).split(" ")[1], line


@check
def a_signature_without_consent_is_a_difference(folder):
    record = (rig.TOP / "examples/consent.schedule").read_bytes()
    pair = Pair(folder, record, replayed(record))
    report, status = pair.audited()
    assert status == 0 and report.endswith("\nyes 1\n") and report.startswith("sign 19 ask 1 port 2 key "), report
    each_line_counts(pair)
    # It started its helper and not its relay.
    assert pair.told(deeds=pair.deeds_text.replace(b"start 1 confirm\n", b"start 1 helper\n")) == ("no 3\n", 1)
    # The second use was refused by the user, and answered all the same.
    refused = pair.deeds_text.replace(b"to 2 0000000105\n", b"to 2 000000080e00000003736967\n")
    assert pair.told(deeds=refused) == (f"no {len(pair.deeds_text.splitlines()) - 1}\n", 1)


@check
def other_words_and_files_are_told_apart(folder):
    pair = Pair(folder, b"join client\n", b"end\n")
    assert pair.audited() == ("yes 0\n", 0)
    assert pair.audited("1h") == ("yes 0\n", 0)
    for words in [(), (pair.record,), (pair.record, pair.deeds, "1y"), (pair.record, pair.deeds, "1", "1")]:
        assert audited(*words) == ("", USAGE), words
    for words in [(folder / "none", pair.deeds), (pair.record, folder / "none"), (folder, pair.deeds)]:
        assert audited(*words) == ("", FILE_FAULT), words
    (folder / "none").mkdir()
    assert audited(folder / "none", "x", "y", "z")[1] == USAGE


if __name__ == "__main__":
    check.main(AUDIT)
