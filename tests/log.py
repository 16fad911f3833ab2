#!/usr/bin/env python3
"""`log_prog` and `mortarleek log` over literal records and over some that `agent_prog serve --record` made with OpenSSH's
clients and git: logins, also over two hosts, and signatures for files and commits are told with their keys, hosts and
fates, and a refusal too."""

import base64
import json
import os
import pathlib
import shutil
import subprocess
import sys
import time

sys.dont_write_bytecode = True

import rig
from hosts import SSHD, USER, Hosts, keygen
from rig import our_agent, run, string, until

sys.path.insert(0, str(rig.TOP))
from model.rows_log import ROWS

check = rig.Checks("log")
AGENT = rig.agent_program()
LOG = pathlib.Path(os.environ.get("LOG", rig.BUILT / "log_prog"))


def logged(record, *words):
    """What a log of a record prints, its status, and what it says on standard error."""
    with open(record, "rb") as file:
        done = subprocess.run(
            [str(rig.there(LOG)), *words], stdin=file, stdout=subprocess.PIPE, stderr=subprocess.PIPE, timeout=120
        )
    return done.stdout.decode(), done.returncode, done.stderr.decode()


def shown(key):
    return run(["ssh-keygen", "-l", "-E", "sha256", "-f", f"{key}.pub"]).split(" ")[1]


class Front:
    """`mortarleek log` in a folder with log_prog, and a home of its own."""

    def __init__(self, folder):
        self.folder = folder / "front"
        (self.folder / ".ssh").mkdir(parents=True)
        rig.lay_scripts(self.folder)
        shutil.copy(rig.there(LOG), self.folder / "log_prog")
        self.words = [str(self.folder / "mortarleek"), "log"]
        self.env = os.environ | {"HOME": str(self.folder), "TZ": "UTC"}

    def told(self, *words, status=0):
        done = subprocess.run(
            [*self.words, *map(str, words)], env=self.env, stdout=subprocess.PIPE, stderr=subprocess.PIPE, timeout=60
        )
        assert done.returncode == status, (words, done.returncode, done.stderr)
        return done.stdout.decode().splitlines()


@check
def literal_records_are_told(folder):
    for number, row in enumerate(ROWS):
        place = folder / str(number)
        place.mkdir()
        for name, text in row.files.items():
            (place / name).write_bytes(text)
        printed, status, said = logged(place / row.words[0], *row.words[1:])
        assert (printed, status) == (row.printed.decode(), row.status), row.name
        is_cut = any(text and not text.endswith(b"\n") for text in row.files.values())
        assert len(said.splitlines()) == (status != 0 or is_cut), (row.name, said)


def without_times(lines):
    """The lines without their seconds, which are of the last minutes."""
    for line in lines:
        then = time.strptime(line[:20], "%Y-%m-%dT%H:%M:%SZ")
        assert -2 < time.time() - (time.mktime(then) - time.timezone) < 600, line
    return [line[20:] for line in lines]


@check
def what_real_clients_had_signed_is_told(folder):
    key, other = keygen(folder / "id"), keygen(folder / "other")
    hosts = Hosts(folder, "gate") if os.path.exists(SSHD) else None
    with open(folder / "record", "wb") as file:
        agent = our_agent(AGENT, folder, "--record", stdout=file)
    agent.run("ssh-add", "-q", key, other)
    wanted = []
    if hosts:
        hosts.authorized.write_text(pathlib.Path(f"{key}.pub").read_text())
        agent.run("ssh", "-F", hosts.config, "gate", "true")
        host = shown(folder / "host_gate")
        wanted.append(f'  login as "{USER}" to {host}  key "id" {shown(key)}  signed')
    for name in ("git", "file"):
        (folder / "text").write_text("a text to be signed\n")
        agent.run("ssh-keygen", "-q", "-Y", "sign", "-n", name, "-f", f"{other}.pub", folder / "text")
        (folder / "text.sig").unlink()
        wanted.append(f'  file in namespace "{name}"  key "other" {shown(other)}  signed')
    agent.run("ssh-add", "-q", "-d", other)
    # ssh-keygen asks for no signature with a key that the agent doesn't list.
    with agent.peer() as peer:
        blob = base64.b64decode(pathlib.Path(f"{other}.pub").read_text().split()[1])
        assert peer.ask(rig.SIGN, string(blob), string(b"other data"), bytes(4)) == bytes([rig.FAILURE])
    wanted.append(f'  other data, 10 bytes  key "other" {shown(other)}  refused')
    agent.end()
    printed, status, said = logged(folder / "record")
    assert (status, said) == (0, ""), (status, said)
    assert without_times(printed.splitlines()) == wanted, printed
    # An audit lists the same signatures, in this order.
    record = (folder / "record").read_bytes()
    deeds = subprocess.run([str(AGENT), "replay"], input=record, stdout=subprocess.PIPE, check=True).stdout
    (folder / "deeds").write_bytes(deeds)
    report = run([rig.built("audit_prog"), folder / "record", folder / "deeds"]).splitlines()
    assert report[-1] == f"yes {sum(line.endswith('  signed') for line in wanted)}", report
    # Wherever the record is cut, what was told before is told first, as far as it has a fate.
    lines = printed.splitlines()
    for end in range(0, len(record), max(1, len(record) // 40)):
        (folder / "cut").write_bytes(record[:end])
        told, status, said = logged(folder / "cut")
        fates = [line for line in told.splitlines() if not line.endswith("  no answer yet")]
        assert status == 0 and fates == lines[: len(fates)], (end, told)
        assert bool(said) == (end > 0 and record[end - 1 : end] != b"\n"), (end, said)
    if hosts:
        names_are_those_of_known_hosts(folder, printed, hosts)


def names_are_those_of_known_hosts(folder, printed, hosts):
    front = Front(folder)
    login = printed.splitlines()[0]
    key = " ".join(pathlib.Path(folder / "host_gate.pub").read_text().split(" ")[:2])
    known = front.folder / ".ssh/known_hosts"
    assert " (" not in front.told(folder / "record")[0]
    known.write_text(f"gate.example.org,192.0.2.1 {key}\n")
    told = front.told(folder / "record")[0]
    host = shown(folder / "host_gate")
    assert told[19:] == login[20:].replace(host, f"{host} (gate.example.org,192.0.2.1)"), told
    assert told[:19] == f"{login[:10]} {login[11:19]}", told
    run(["ssh-keygen", "-q", "-H", "-f", known])
    assert " (" not in front.told(folder / "record")[0]
    assert f"{host} (gate.example.org)  key" in front.told("--host", "gate.example.org", folder / "record")[0]


def recorded(folder, key):
    """An agent that has this key, which is hidden from its clients, and writes a record."""
    with open(folder / "record", "wb") as file:
        agent = our_agent(AGENT, folder, "--record", stdout=file)
    agent.run("ssh-add", "-q", key)
    os.rename(key, f"{key}.hidden")
    return agent


def told_of(folder, agent):
    """The lines of a record's log behind their seconds, once its agent has ended."""
    agent.end()
    printed, status, said = logged(folder / "record")
    assert (status, said) == (0, ""), (status, said)
    return without_times(printed.splitlines())


@check
def commits_and_tags_of_git_are_told(folder):
    key, place = keygen(folder / "id"), folder / "place"
    place.mkdir()
    (folder / "allowed").write_text(f"me@example.org {pathlib.Path(f'{key}.pub').read_text()}")
    git = ["git", "-C", place]
    for setting in ("user.name=me", "user.email=me@example.org", "gpg.format=ssh", f"user.signingkey={key}.pub"):
        git += ["-c", setting]
    git += ["-c", f"gpg.ssh.allowedSignersFile={folder}/allowed"]
    with recorded(folder, key) as agent:
        agent.run(*git, "init", "-q")
        for message in ("first", "second"):
            agent.run(*git, "commit", "-q", "-S", "--allow-empty", "-m", message)
            assert "Good" in agent.run(*git, "verify-commit", "HEAD")
        agent.run(*git, "tag", "-s", "-m", "signed", "v1")
        assert "Good" in agent.run(*git, "verify-tag", "v1")
        # A commit that isn't signed asks the agent for nothing, and so does one whose key it has no more.
        agent.run(*git, "commit", "-q", "--no-gpg-sign", "--allow-empty", "-m", "third")
        agent.run("ssh-add", "-q", "-D")
        unsigned = [str(word) for word in git] + ["commit", "-q", "-S", "--allow-empty", "-m", "fourth"]
        refused = subprocess.run(
            unsigned, env=agent.environment, stdin=subprocess.DEVNULL, stderr=subprocess.DEVNULL, start_new_session=True
        )
        assert refused.returncode != 0
        told = told_of(folder, agent)
    assert told == [f'  file in namespace "git"  key "id" {shown(key)}  signed'] * 3, told


@check
def what_is_signed_over_two_hosts_is_told(folder):
    if not os.path.exists(SSHD):
        return
    key = keygen(folder / "id")
    (folder / "text").write_text("a text to be signed\n")
    with Hosts(folder, "one", "two") as hosts:
        hosts.allow(key)
        with recorded(folder, key) as agent:
            over = f"ssh -F {hosts.config} -A two"
            assert hosts.ssh(agent, "-A", "one", f"{over} true") == (0, "")
            sign = f"ssh-keygen -q -Y sign -n git -f {key}.pub {folder}/text"
            assert hosts.ssh(agent, "-A", "one", f"{over} {sign}") == (0, "")
            # Nothing is forwarded to the first host, so that nobody there asks for a signature.
            assert hosts.ssh(agent, "-a", "one", f"{over} true")[0] != 0
            told = told_of(folder, agent)
    logins = [f'  login as "{USER}" to {shown(folder / f"host_{name}")}' for name in ("one", "two")]
    ways = [*logins, *logins, '  file in namespace "git"', logins[0]]
    assert told == [f'{way}  key "id" {shown(key)}  signed' for way in ways], told


@check
def lines_are_chosen_and_told_as_objects(folder):
    front = Front(folder)
    row = next(row for row in ROWS if row.name == "what was told before it is told")
    (folder / "r").write_bytes(row.files["r"])
    lines = front.told(folder / "r", status=4)
    assert [line[19:] for line in lines] == [line[20:] for line in row.printed.decode().splitlines()]
    assert front.told("--key", "one", folder / "r", status=4) == lines
    assert front.told("--key", "two", folder / "r", status=4) == []
    assert front.told("--key", lines[0].split(" ")[10], folder / "r", status=4) == lines
    assert front.told("--since", "1970-01-01 00:00:01Z", folder / "r", status=4) == []
    assert front.told("--since", "1970-01-01 00:00:00Z", folder / "r", status=4) == lines
    first = json.loads(front.told("--json", folder / "r", status=4)[0])
    wanted = {"time": "1970-01-01T00:00:00Z", "for": "other", "bytes": 3, "comment": "one"}
    assert first == wanted | {"key": lines[0].split(" ")[10], "fate": "signed"}, first
    for words in ([], ["-x", "r"], ["r", "r"], ["--key"], ["--since", "never", "r"]):
        front.told(*words, status=2)
    front.told(folder / "none", status=3)


@check
def texts_that_others_chose_stay_in_their_line(folder):
    front = Front(folder)
    for row in ROWS:
        if row.files.get("r") and len(row.words) == 1:
            (folder / "r").write_bytes(row.files["r"])
            lines = front.told(folder / "r", status=row.status)
            assert len(lines) == row.printed.count(b"\n"), row.name
            for line in front.told("--json", folder / "r", status=row.status):
                told = json.loads(line)
                assert told["fate"] in row.printed.decode(), row.name


@check
def a_record_that_grows_is_followed(folder):
    front = Front(folder)
    row = next(row for row in ROWS if row.name == "a signature")
    lines = row.files["r"].splitlines(keepends=True)
    (folder / "r").write_bytes(b"".join(lines[:-1]) + lines[-1][:4])
    with open(folder / "told", "wb") as file:
        process = subprocess.Popen([*front.words, "-f", folder / "r"], env=front.env, stdout=file, stderr=file)
    try:
        time.sleep(2)
        assert (folder / "told").read_bytes() == b""
        with open(folder / "r", "ab") as record:
            record.write(lines[-1][4:])
        until(lambda: (folder / "told").read_text().endswith("  signed\n"), what="the line")
        with open(folder / "r", "ab") as record:
            record.write(b"end 7\n")
        assert process.wait(20) == 4
        assert (folder / "told").read_text().splitlines()[1].endswith("of the record is refused")
    finally:
        process.kill()
        process.wait()


def replaced(path):
    path.rename(f"{path}.1")
    path.write_bytes(b"")


@check
def a_record_that_is_cut_or_replaced_is_not_followed(folder):
    front = Front(folder)
    row = next(row for row in ROWS if row.name == "a signature")
    for change in (lambda path: os.truncate(path, 10), replaced, pathlib.Path.unlink):
        (folder / "r").write_bytes(row.files["r"])
        process = subprocess.Popen(
            [*front.words, "-f", folder / "r"], env=front.env, stdout=subprocess.PIPE, stderr=subprocess.PIPE, text=True
        )
        time.sleep(2)
        change(folder / "r")
        told, said = process.communicate(timeout=20)
        assert process.returncode == 3 and told.endswith("  signed\n") and told.count("\n") == 1, (told, said)
        assert said.endswith("the record was cut, or another file took its place\n"), said


if __name__ == "__main__":
    sys.exit(check.main(LOG))
