#!/usr/bin/env python3
"""Real clients against the built agent, on loopback: each check is made with OpenSSH's agent too, in the same run, and
what that gives is the expected value; but for a number of uses and for purposes, which that agent doesn't know. It
starts an sshd of its own, with its own keys, at free ports. Words choose checks: the parts ssh, destinations, programs,
other, others, purposes and scripts, or a part of a check's name. With the environment variable AGENT another program is
taken for agent_prog."""

import atexit
import concurrent.futures
import contextlib
import functools
import os
import pathlib
import re
import shutil
import signal
import subprocess
import sys
import tempfile
import time

sys.dont_write_bytecode = True

import rig
from hosts import SSHD, USER, Hosts, certify, keygen
from installed import Installed
from purposes import commits, shown, tags
from rig import Skip, openssh_agent, our_agent, run, until

check = rig.Checks("clients")
PROGRAM = rig.agent_program()
KINDS = (("ed25519", 256), ("rsa", 2048), ("rsa", 3072), ("ecdsa", 256), ("ecdsa", 384), ("ecdsa", 521))


def alike(folder, case, *words, **more):
    """Has a case answered by OpenSSH's agent and then by ours: the answers are the same."""
    with openssh_agent(folder, *words) as theirs:
        wanted = case(theirs)
    with our_agent(PROGRAM, folder, *words, **more) as ours:
        seen = case(ours)
    assert seen == wanted, f"ours {seen}, ssh-agent {wanted}"
    return wanted


# Ours with mortarleek-helper in the place of the proved one.
OTHER = dict(helper=rig.OTHER)


def log_in(folder, keys, names=("one",), words=("one", "echo in"), added=(), start={}, **more):
    """Logs in with keys that an agent holds."""
    with Hosts(folder, *names, **more) as hosts:
        hosts.allow(*keys)

        def case(agent):
            answers = []
            for key in keys:
                agent.run("ssh-add", "-q", *added, key)
                answers.append(hosts.ssh(agent, *words))
                agent.run("ssh-add", "-q", "-D")
            return [*answers, hosts.ssh(agent, *words)]

        return alike(folder, case, **start)


# ssh.
@contextlib.contextmanager
def a_host_to_log_in(folder):
    """A key, and a host at which it may log in."""
    key = keygen(folder / "key")
    with Hosts(folder, "one") as hosts:
        hosts.allow(key)
        yield key, hosts


check.part = "ssh"


@check
def logins_by_every_kind_of_key(folder):
    keys = [keygen(folder / f"{kind}{bits}", kind, bits) for kind, bits in KINDS]
    *ins, out = log_in(folder, keys)
    assert ins == [(0, "in\n")] * len(KINDS) and out[0] == 255


@check
def logins_by_every_kind_of_certificate(folder):
    keys = [keygen(folder / f"{kind}{bits}", kind, bits) for kind, bits in KINDS]
    with Hosts(folder, "one") as hosts:
        for key in keys:
            certify(hosts.authority, key, "-n", USER)

        def case(agent):
            answers = []
            for key in keys:
                agent.run("ssh-add", "-q", key)
                agent.run("ssh-add", "-q", "-d", "-k", key)
                answers.append(agent.run("ssh-add", "-L"))
                answers.append(hosts.ssh(agent, "one", "echo in"))
                agent.run("ssh-add", "-q", "-D")
            return answers

        assert alike(folder, case).count((0, "in\n")) == len(KINDS)


@check
def logins_by_every_algorithm_of_rsa(folder):
    key = keygen(folder / "rsa", "rsa", 2048)
    for algorithm in ("ssh-rsa", "rsa-sha2-256", "rsa-sha2-512"):
        place = folder / algorithm
        place.mkdir()
        words = ("-o", f"PubkeyAcceptedAlgorithms={algorithm}", "one", "echo in")
        assert log_in(place, [key], words=words)[0] == (0, "in\n")


@check
def sixteen_logins_at_once(folder):
    with a_host_to_log_in(folder) as (key, hosts):

        def case(agent):
            agent.run("ssh-add", "-q", key)
            started = [
                subprocess.Popen(
                    ["ssh", "-F", hosts.config, "one", "echo in"],
                    stdin=subprocess.DEVNULL,
                    stdout=subprocess.PIPE,
                    stderr=subprocess.STDOUT,
                    env=agent.environment,
                )
                for _ in range(16)
            ]
            return [(process.communicate(timeout=60)[0], process.returncode) for process in started]

        assert alike(folder, case) == [(b"in\n", 0)] * 16


@check
def two_hundred_logins_leave_one_helper_and_no_descriptor(folder):
    """Our agent's alone: eight at a time, and the helper is killed behind each 25."""
    with a_host_to_log_in(folder) as (key, hosts), our_agent(PROGRAM, folder) as agent:
        agent.run("ssh-add", "-q", key)
        assert hosts.ssh(agent, "one", "echo in") == (0, "in\n")
        descriptors = len(os.listdir(f"/proc/{agent.process.pid}/fd"))
        with concurrent.futures.ThreadPoolExecutor(8) as pool:
            for _ in range(8):
                said = list(pool.map(lambda _: hosts.ssh(agent, "one", "echo in"), range(25)))
                assert said == [(0, "in\n")] * 25, said
                (helper,) = rig.children(agent.process.pid)
                assert len(os.listdir(f"/proc/{agent.process.pid}/fd")) == descriptors
                os.kill(helper, signal.SIGKILL)
                until(lambda: not rig.is_alive(helper))
        until(lambda: not rig.zombies(agent.process.pid), 20, "the reaping of helpers")


@check
def a_locked_agent_logs_nobody_in(folder):
    with a_host_to_log_in(folder) as (key, hosts):

        def lock(agent, word, typed):
            done = subprocess.run(
                ["ssh-add", word],
                input=typed,
                stdout=subprocess.DEVNULL,
                stderr=subprocess.DEVNULL,
                env=agent.environment,
                start_new_session=True,
            )
            return done.returncode

        def case(agent):
            agent.run("ssh-add", "-q", key)
            return [
                lock(agent, "-x", b"word\nword\n"),
                hosts.ssh(agent, "one", "echo in"),
                lock(agent, "-X", b"other\n"),
                hosts.ssh(agent, "one", "echo in"),
                lock(agent, "-X", b"word\n"),
                hosts.ssh(agent, "one", "echo in"),
            ]

        answers = alike(folder, case)
        assert [status for status, _ in answers[1::2]] == [255, 255, 0]


@check
def a_key_that_ran_out_logs_nobody_in(folder):
    with a_host_to_log_in(folder) as (key, hosts):

        def case(agent):
            agent.run("ssh-add", "-q", "-t", "8", key)
            first = hosts.ssh(agent, "one", "echo in")
            time.sleep(9.2)
            return [first, hosts.ssh(agent, "one", "echo in")]

        assert [status for status, _ in alike(folder, case)] == [0, 255]


@check
def a_use_is_confirmed_or_denied(folder):
    key = keygen(folder / "key")
    relay = [rig.built("confirm_relay")]
    asker = rig.script(folder / "ask", f'echo "$1" >> {folder}/asked; exit "$(cat {folder}/status)"')
    with Hosts(folder, "one") as hosts:
        hosts.allow(key)

        def case(agent):
            agent.run("ssh-add", "-q", "-c", key)
            answers = []
            for status in ("0", "1", "0"):
                (folder / "status").write_text(status)
                answers.append(hosts.ssh(agent, "one", "echo in"))
            asked = (folder / "asked").read_text()
            (folder / "asked").unlink()
            return [*answers, re.findall("SHA256:\\S+", asked.replace(".\n", "\n"))]

        environment = dict(os.environ, SSH_ASKPASS=str(asker), SSH_ASKPASS_REQUIRE="force", DISPLAY=":none")
        with openssh_agent(folder, env=environment) as theirs:
            wanted = case(theirs)
        words = ["--relay", *relay, "--askpass", asker] if relay else ["--relay", "/bin/true", "--askpass", asker]
        with our_agent(PROGRAM, folder, *words) as ours:
            assert case(ours) == wanted
        assert [status for status, _ in wanted[:3]] == [0, 255, 0]


@check
def keys_that_ssh_adds_itself(folder):
    """Each form of AddKeysToAgent: a first login adds the key of a file, and a second one has the agent's alone."""
    key, relay = keygen(folder / "key"), rig.built("confirm_relay")
    asker = rig.script(folder / "ask", f'echo asked >> {folder}/asked; exit "$(cat {folder}/status)"')
    with Hosts(folder, "one") as hosts:
        hosts.allow(key)

        def case(agent):
            answers = []
            for value in ("no", "yes", "confirm", "8s"):
                (folder / "asked").write_text("")
                (folder / "status").write_text("0")
                answers.append(hosts.ssh(agent, "-o", f"AddKeysToAgent={value}", "-i", key, "one", "echo in"))
                answers.append(agent.run("ssh-add", "-l", status=None))
                answers.append(hosts.ssh(agent, "one", "echo in"))
                (folder / "status").write_text("1")
                answers.append((hosts.ssh(agent, "one", "echo in")[0], (folder / "asked").read_text()))
                if value == "8s":
                    time.sleep(9.2)
                    answers.append(agent.run("ssh-add", "-l", status=1))
                agent.run("ssh-add", "-q", "-D")
            return answers

        environment = dict(os.environ, SSH_ASKPASS=str(asker), SSH_ASKPASS_REQUIRE="force", DISPLAY=":none")
        with openssh_agent(folder, env=environment) as theirs:
            wanted = case(theirs)
        with our_agent(PROGRAM, folder, "--relay", relay, "--askpass", asker) as ours:
            seen = case(ours)
        assert seen == wanted, f"ours {seen}, ssh-agent {wanted}"
        assert [status for status, _ in wanted[0::4][:4]] == [0] * 4
        assert [answer[0] for answer in (wanted[2], wanted[6], wanted[10], wanted[14])] == [255, 0, 0, 0]
        assert [wanted[3], wanted[7], wanted[11], wanted[15]] == [(255, ""), (0, ""), (255, "asked\nasked\n"), (0, "")]


@check
def a_key_that_may_be_used_so_often(folder):
    """Our agent's alone: each login uses the key once, and nothing else of a login does."""
    key, body = keygen(folder / "key"), folder / "body"
    body.write_text("".join(pathlib.Path(key).read_text().splitlines(True)[1:-1]))
    add = rig.built("add_tool")
    share = ("-o", f"ControlPath={folder}/master")
    with Hosts(folder, "one", "two") as hosts, our_agent(PROGRAM, folder) as agent:
        hosts.allow(key)
        for uses, tries in (
            ("1", [(0, "one", "true"), (255, "one", "true")]),
            (
                "1",
                [
                    (0, *share, "-o", "ControlPersist=30", "-M", "-fN", "one"),
                    (0, *share, "one", "true"),
                    (0, *share, "-O", "exit", "one"),
                    (255, "one", "true"),
                ],
            ),
            ("2", [(0, "-A", "one", f"ssh -F {hosts.config} two true"), (255, "one", "true")]),
        ):
            agent.run(add, "-u", uses, body)
            for status, *words in tries:
                seen, said = hosts.ssh(agent, *words)
                assert seen == status, (uses, words, seen, said)
            assert agent.run("ssh-add", "-l", status=1) == "The agent has no identities.\n"


@check
def forwarding_over_one_two_and_three_hosts(folder):
    key = keygen(folder / "key")
    with Hosts(folder, "one", "two", "three") as hosts:
        hosts.allow(key)
        ssh = f"ssh -F {hosts.config} -A"

        def case(agent):
            agent.run("ssh-add", "-q", key)
            return [
                hosts.ssh(agent, "-A", "one", "ssh-add -l"),
                hosts.ssh(agent, "-A", "one", f"{ssh} two ssh-add -l"),
                hosts.ssh(agent, "-A", "one", f"{ssh} two {ssh} three ssh-add -l"),
                hosts.ssh(agent, "-A", "one", f"ssh-add -T {key}.pub"),
                hosts.ssh(agent, "-a", "one", "ssh-add -l"),
            ]

        answers = alike(folder, case)
        assert [status for status, _ in answers] == [0, 0, 0, 0, 2], answers


@check
def jumps_and_shared_connections(folder):
    key = keygen(folder / "key")
    with Hosts(folder, "one", "two", "three") as hosts:
        hosts.allow(key)

        def case(agent):
            agent.run("ssh-add", "-q", key)
            share = ("-o", f"ControlPath={folder}/%n-{os.path.basename(agent.path)}")
            return [
                hosts.ssh(agent, "-J", "one", "two", "echo in"),
                hosts.ssh(agent, "-J", "one,two", "three", "echo in"),
                hosts.ssh(agent, *share, "-o", "ControlPersist=30", "-M", "-fN", "one"),
                hosts.ssh(agent, *share, "one", "echo shared"),
                hosts.ssh(agent, *share, "-O", "exit", "one")[0],
            ]

        answers = alike(folder, case)
        assert [answer[0] for answer in answers[:4]] == [0, 0, 0, 0], answers


@check
def a_client_that_dies_in_the_middle_disturbs_nobody(folder):
    with a_host_to_log_in(folder) as (key, hosts):

        def case(agent):
            agent.run("ssh-add", "-q", key)
            for wait in (0, 0.01, 0.03, 0.1, 0.2, 0.3):
                process = subprocess.Popen(
                    ["ssh", "-F", hosts.config, "-A", "one", "sleep 5"],
                    env=agent.environment,
                    stdin=subprocess.DEVNULL,
                    stdout=subprocess.DEVNULL,
                    stderr=subprocess.DEVNULL,
                )
                time.sleep(wait)
                process.kill()
                process.wait()
            return [hosts.ssh(agent, "one", "echo in"), agent.run("ssh-add", "-l")]

        assert alike(folder, case)[0] == (0, "in\n")


# Destinations.
check.part = "destinations"


def destinations(folder, rules, tries, start={}, **more):
    """Adds a key under rules, and tries ways through the hosts `one`, `two` and `three`: a way is the hosts in order."""
    key = keygen(folder / "key")
    with Hosts(folder, "one", "two", "three", **more) as hosts:
        hosts.allow(key)

        def case(agent):
            words = [word for rule in rules for word in ("-h", rule)]
            answers = [agent.run("ssh-add", "-q", *words, "-H", hosts.known, key, status=None)]
            for way in tries:
                first, *rest = way
                command = "ssh-add -l; echo in"
                for name in reversed(rest):
                    command = (
                        f"ssh -F {hosts.config} -A {name} '{command}'"
                        if "'" not in command
                        else (f'ssh -F {hosts.config} -A {name} "{command}"')
                    )
                answers.append(hosts.ssh(agent, "-A", first, command))
            return [*answers, agent.run("ssh-add", "-l", status=None)]

        return alike(folder, case, **start)


WAYS = (("one",), ("two",), ("one", "two"), ("two", "one"), ("one", "two", "three"), ("one", "three"))


@check
def destinations_by_host(folder):
    for number, rules in enumerate(
        (["one"], ["one", "one>two"], ["one", "one>two", "two>three"], ["two", "one>two"], ["none"])
    ):
        place = folder / str(number)
        place.mkdir()
        destinations(place, rules, WAYS)


@check
def destinations_by_user(folder):
    for number, rules in enumerate(
        (
            [f"{USER}@one"],
            ["nobody@one"],
            [f"{USER[0]}*@one"],
            [f"!{USER},*@one"],
            ["one", f"one>{USER}@two"],
            ["one", "one>nobody@two"],
        )
    ):
        place = folder / str(number)
        place.mkdir()
        destinations(place, rules, WAYS[:4])


@check
def destinations_by_certified_hosts(folder):
    destinations(folder, ["one", "one>two"], WAYS, certified=True)


@check
def destinations_in_hashed_known_hosts(folder):
    destinations(folder, ["one", "one>two"], WAYS, hashed=True)


# Other programs of OpenSSH and git.
check.part = "programs"


@check
def scp_sftp_and_rsync(folder):
    with a_host_to_log_in(folder) as (key, hosts):
        (folder / "file").write_bytes(bytes(range(256)) * 400)

        def case(agent):
            agent.run("ssh-add", "-q", key)
            place = folder / f"from_{os.path.basename(agent.path)}"
            place.mkdir()
            statuses = []
            for number, words in enumerate(
                (
                    ["scp", "-q", "-F", hosts.config, f"one:{folder}/file", place / "0"],
                    ["scp", "-q", "-O", "-F", hosts.config, f"one:{folder}/file", place / "1"],
                    ["sftp", "-q", "-F", hosts.config, f"one:{folder}/file", place / "2"],
                    ["rsync", "-e", f"ssh -F {hosts.config}", f"one:{folder}/file", place / "3"],
                )
            ):
                agent.run(*words)
                statuses.append((place / str(number)).read_bytes() == (folder / "file").read_bytes())
            return statuses

        assert alike(folder, case) == [True] * 4


@check
def ssh_keygen_signs_files_and_others_verify(folder):
    keys = [keygen(folder / f"{kind}{bits}", kind, bits) for kind, bits in KINDS]
    allowed = folder / "allowed"
    allowed.write_text("".join(f"me {pathlib.Path(f'{key}.pub').read_text()}" for key in keys))
    message = folder / "message"
    message.write_text("a message\n")

    def case(agent):
        answers = []
        for key in keys:
            agent.run("ssh-add", "-q", key)
            for more in ([], ["-O", "hashalg=sha256"]):
                agent.run("ssh-keygen", "-Y", "sign", "-f", f"{key}.pub", "-n", "file", *more, message)
                with open(message) as text:
                    answers.append(
                        run(
                            [
                                "ssh-keygen",
                                "-Y",
                                "verify",
                                "-f",
                                allowed,
                                "-I",
                                "me",
                                "-n",
                                "file",
                                "-s",
                                f"{message}.sig",
                            ],
                            stdin=text,
                        )
                    )
                (folder / "message.sig").unlink()
            agent.run("ssh-add", "-q", "-d", key)
            said = subprocess.run(
                ["ssh-keygen", "-Y", "sign", "-f", f"{key}.pub", "-n", "file", message],
                env=agent.environment,
                stdin=subprocess.DEVNULL,
                stdout=subprocess.DEVNULL,
                stderr=subprocess.DEVNULL,
                start_new_session=True,
            )
            # Without the agent's key it reads the private file that lies beside.
            answers.append(said.returncode)
            (folder / "message.sig").unlink(missing_ok=True)
        return answers

    answers = alike(folder, case)
    assert sum("Good" in str(answer) for answer in answers) == 2 * len(keys)


@check
def a_certificate_authority_s_key_can_stay_in_the_agent(folder):
    authority, key = keygen(folder / "authority"), keygen(folder / "key")

    def case(agent):
        agent.run("ssh-add", "-q", authority)
        agent.run("ssh-keygen", "-q", "-U", "-s", f"{authority}.pub", "-I", "id", "-n", "me", "-z", "7", f"{key}.pub")
        said = run(["ssh-keygen", "-L", "-f", f"{key}-cert.pub"])
        return re.sub(r"Valid: .*", "", said)

    assert "Serial: 7" in alike(folder, case)


def git_signs(folder, start={}):
    """Signs a commit and a tag with a key that the agent alone has, and has git verify them."""
    key = keygen(folder / "key")
    (folder / "allowed").write_text(f"me@example.org {pathlib.Path(f'{key}.pub').read_text()}")
    hidden = pathlib.Path(f"{key}.hidden")

    def case(agent):
        place = folder / f"git {os.path.basename(agent.path)}"
        place.mkdir()
        git = [
            "git",
            "-C",
            place,
            "-c",
            "user.name=me",
            "-c",
            "user.email=me@example.org",
            "-c",
            "gpg.format=ssh",
            "-c",
            f"user.signingkey={key}.pub",
            "-c",
            f"gpg.ssh.allowedSignersFile={folder}/allowed",
        ]
        agent.run("ssh-add", "-q", key)
        os.rename(key, hidden)
        try:
            agent.run(*git, "init", "-q")
            agent.run(*git, "commit", "-q", "-S", "--allow-empty", "-m", "signed")
            agent.run(*git, "tag", "-s", "-m", "signed", "v1")
            said = [agent.run(*git, "verify-commit", "HEAD"), agent.run(*git, "verify-tag", "v1")]
            agent.run("ssh-add", "-q", "-D")
            refused = subprocess.run(
                [str(word) for word in git] + ["commit", "-q", "-S", "--allow-empty", "-m", "x"],
                env=agent.environment,
                stdin=subprocess.DEVNULL,
                stdout=subprocess.DEVNULL,
                stderr=subprocess.DEVNULL,
                start_new_session=True,
            )
            return [*said, refused.returncode]
        finally:
            os.rename(hidden, key)

    commit, tag, refused = alike(folder, case, **start)
    assert "Good" in commit and "Good" in tag and refused != 0


@check
def git_signs_commits_and_tags(folder):
    git_signs(folder)


# mortarleek-helper in the place of the proved helper.
check.part = "other"


@check
def a_login_by_the_other_helper(folder):
    """With a key of each kind that signs, and with one in a certificate."""
    log_in(folder, [keygen(folder / f"{kind}{bits}", kind, bits) for kind, bits in KINDS], start=OTHER)
    place = folder / "certified"
    place.mkdir()
    with Hosts(place, "one") as hosts, our_agent(PROGRAM, place, **OTHER) as agent:
        key = keygen(place / "key")
        certify(hosts.authority, key, "-n", USER)
        agent.run("ssh-add", "-q", key)
        agent.run("ssh-add", "-q", "-d", "-k", key)
        assert hosts.ssh(agent, "one", "echo in") == (0, "in\n")


@check
def git_signs_by_the_other_helper(folder):
    git_signs(folder, OTHER)


@check
def hosts_are_bound_by_the_other_helper(folder):
    """Destinations, which want each host's signature verified: of plain host keys, and of certified ones."""
    for certified in (False, True):
        place = folder / str(certified)
        place.mkdir()
        said = destinations(place, ["one", "one>two"], WAYS, OTHER, certified=certified)
        assert [status for status, _ in said[1:4]] == [0, 255, 0], said


# Other people's clients.
check.part = "others"


def system_python(module):
    python = "/usr/bin/python3"
    if subprocess.run([python, "-c", f"import {module}"], stderr=subprocess.DEVNULL).returncode:
        raise Skip(f"no {module}")
    return python


def with_each(agent, keys, *command):
    """What a command says with each of the keys alone in the agent."""
    answers = []
    for key in keys:
        agent.run("ssh-add", "-q", key)
        answers.append(agent.run(*command))
        agent.run("ssh-add", "-q", "-D")
    return answers


def with_each_kind(folder, login):
    """What a client says that logs in by these words with a key of each kind, the same as with OpenSSH's agent."""
    keys = [keygen(folder / f"{kind}{bits}", kind, bits) for kind, bits in KINDS]
    with Hosts(folder, "one") as hosts:
        words = login(folder, hosts)
        hosts.allow(*keys)
        return alike(folder, lambda agent: with_each(agent, keys, *words))


def paramiko_login(folder, hosts):
    """The command of a login by paramiko, which also lists."""
    python, script = system_python("paramiko"), folder / "by_paramiko.py"
    script.write_text(
        f"""import paramiko
client = paramiko.SSHClient()
client.set_missing_host_key_policy(paramiko.AutoAddPolicy())
client.connect("127.0.0.1", {hosts.one}, username={USER!r}, allow_agent=True, look_for_keys=False)
print(client.exec_command("echo in")[1].read().decode(), end="")
print([key.get_name() for key in paramiko.Agent().get_keys()])
"""
    )
    return python, "-W", "ignore", script


@check
def paramiko_logs_in(folder):
    answers = with_each_kind(folder, paramiko_login)
    assert all(answer.startswith("in\n") for answer in answers)


def asyncssh_login(folder, hosts):
    """The command of a login by asyncssh."""
    python, script = system_python("asyncssh"), folder / "by_asyncssh.py"
    script.write_text(
        f"""import asyncio, asyncssh
async def main():
    async with asyncssh.connect("127.0.0.1", {hosts.one}, username={USER!r}, known_hosts=None, config=None) as connection:
        print((await connection.run("echo in")).stdout, end="")
asyncio.run(main())
"""
    )
    return python, "-W", "ignore", script


@check
def asyncssh_logs_in(folder):
    answers = with_each_kind(folder, asyncssh_login)
    assert answers == ["in\n"] * len(KINDS)


def plink_login(folder, hosts):
    if not shutil.which("plink"):
        raise Skip("no plink")
    finger = run(["ssh-keygen", "-lf", folder / "host_one.pub"]).split()[1]
    words = ["plink", "-ssh", "-batch", "-agent", "-hostkey", finger, "-P", hosts.one, f"{USER}@127.0.0.1", "echo in"]
    return ["env", f"HOME={folder}", *words]


def dbclient_login(folder, hosts):
    if not shutil.which("dbclient"):
        raise Skip("no dbclient")
    return ["env", f"HOME={folder}", "dbclient", "-y", "-y", "-p", hosts.one, f"{USER}@127.0.0.1", "echo in"]


@check
def plink_and_dbclient_log_in(folder):
    with a_host_to_log_in(folder) as (key, hosts):

        def case(agent):
            agent.run("ssh-add", "-q", key)
            answers = []
            for command in (plink_login, dbclient_login):
                with contextlib.suppress(Skip):
                    said = agent.run(*command(folder, hosts), stdin=subprocess.DEVNULL)
                    answers.append(said.splitlines()[-1])
            return answers

        answers = alike(folder, case)
        if not answers:
            raise Skip("neither plink nor dbclient")


# An entry's settings as KeePassXC keeps them, in UTF-16: its key is added when the database opens, for ten minutes, and removed
# when it closes.
KEEPASSXC = """<?xml version="1.0" encoding="UTF-16"?>
<EntrySettings>
 <AllowUseOfSshKey>true</AllowUseOfSshKey>
 <AddAtDatabaseOpen>true</AddAtDatabaseOpen>
 <RemoveAtDatabaseClose>true</RemoveAtDatabaseClose>
 <UseLifetimeConstraintWhenAdding>true</UseLifetimeConstraintWhenAdding>
 <LifetimeConstraintDuration>600</LifetimeConstraintDuration>
 <Location><SelectedType>attachment</SelectedType><AttachmentName>key</AttachmentName></Location>
</EntrySettings>
"""


@check
def keepassxc_adds_a_key_and_takes_it_away(folder):
    if not shutil.which("keepassxc"):
        raise Skip("no keepassxc")
    key, home = keygen(folder / "key"), folder / "home"
    (home / ".config/keepassxc").mkdir(parents=True)
    (home / ".config/keepassxc/keepassxc.ini").write_text(
        "[General]\nConfigVersion=2\nUpdateCheckMessageShown=true\n[SSHAgent]\nEnabled=true\n"
    )
    settings = folder / "settings"
    settings.write_bytes(KEEPASSXC.encode("utf-16"))
    environment = dict(os.environ, HOME=str(home), QT_QPA_PLATFORM="offscreen")

    def cli(*words):
        run(["keepassxc-cli", *words], input="secret\nsecret\n", env=environment)

    cli("db-create", "-q", "-p", folder / "db.kdbx")
    cli("add", "-q", folder / "db.kdbx", "login")
    for name, file in (("key", key), ("KeeAgent.settings", settings)):
        cli("attachment-import", "-q", folder / "db.kdbx", "login", name, file)

    def listed(agent):
        return agent.run("ssh-add", "-l", status=None)

    def case(agent):
        words = ["keepassxc", "--pw-stdin", folder / "db.kdbx"]
        quiet = dict(stdin=subprocess.PIPE, stdout=subprocess.DEVNULL, stderr=subprocess.DEVNULL)
        program = subprocess.Popen(words, env=dict(environment, SSH_AUTH_SOCK=agent.path), **quiet)
        try:
            program.stdin.write(b"secret\n")
            program.stdin.close()
            until(lambda: "ED25519" in listed(agent), 60, what="the key")
            (folder / "text").write_text("text")
            agent.run("ssh-keygen", "-q", "-Y", "sign", "-n", "file", "-f", f"{key}.pub", folder / "text")
            (folder / "text.sig").unlink()
            seen = listed(agent)
            program.send_signal(signal.SIGINT)
            program.wait(60)
        finally:
            program.kill()
            program.wait()
        return seen, listed(agent)

    seen, left = alike(folder, case)
    assert "ED25519" in seen and "no identities" in left, (seen, left)


LIBSSH2 = r"""
#include <libssh2.h>
#include <netinet/in.h>
#include <stdio.h>
#include <stdlib.h>
#include <string.h>
#include <sys/socket.h>

int main(int argc, char **argv)
{
    struct sockaddr_in address = { .sin_family = AF_INET, .sin_port = htons(atoi(argv[1])) };
    address.sin_addr.s_addr = htonl(INADDR_LOOPBACK);
    int fd = socket(AF_INET, SOCK_STREAM, 0);
    if (connect(fd, (struct sockaddr *)&address, sizeof address))
        return 2;
    libssh2_init(0);
    LIBSSH2_SESSION *session = libssh2_session_init();
    if (libssh2_session_handshake(session, fd))
        return 3;
    LIBSSH2_AGENT *agent = libssh2_agent_init(session);
    if (libssh2_agent_connect(agent) || libssh2_agent_list_identities(agent))
        return 4;
    struct libssh2_agent_publickey *key = NULL, *last = NULL;
    int status = 5;
    while (status && libssh2_agent_get_identity(agent, &key, last) == 0) {
        printf("%s\n", key->comment);
        status = libssh2_agent_userauth(agent, argv[2], key) ? 5 : 0;
        last = key;
    }
    return status;
}
"""


def libssh2_login(folder, hosts):
    """The command of a login by libssh2, which prints the comments of the keys that it tries."""
    if not pathlib.Path("/usr/include/libssh2.h").exists():
        raise Skip("no libssh2-1-dev")
    (folder / "login.c").write_text(LIBSSH2)
    run(["gcc", "-o", folder / "by_libssh2", folder / "login.c", "-lssh2"])
    return folder / "by_libssh2", hosts.one, USER


@check
def libssh2_logs_in(folder):
    keys = [keygen(folder / f"{kind}{bits}", kind, bits) for kind, bits in KINDS]
    with Hosts(folder, "one") as hosts:
        words = libssh2_login(folder, hosts)
        hosts.allow(*keys)

        def case(agent):
            answers = []
            for key in keys:
                agent.run("ssh-add", "-q", key)
                answers.append(agent.run(*words, status=None))
                agent.run("ssh-add", "-q", "-D")
            return [*answers, agent.run(*words, status=5)]

        assert alike(folder, case) == [*(f"{key.name}\n" for key in keys), ""]


GO = r"""
package main

import (
	"fmt"
	"net"
	"os"

	"golang.org/x/crypto/ssh"
	"golang.org/x/crypto/ssh/agent"
)

func main() {
	socket, err := net.Dial("unix", os.Getenv("SSH_AUTH_SOCK"))
	if err != nil {
		panic(err)
	}
	keys := agent.NewClient(socket)
	config := &ssh.ClientConfig{
		User:            os.Args[2],
		Auth:            []ssh.AuthMethod{ssh.PublicKeysCallback(keys.Signers)},
		HostKeyCallback: ssh.InsecureIgnoreHostKey(),
	}
	client, err := ssh.Dial("tcp", os.Args[1], config)
	if err != nil {
		fmt.Println("refused")
		os.Exit(5)
	}
	session, _ := client.NewSession()
	said, err := session.Output("echo in")
	fmt.Printf("%s%v\n", said, err)
	held, err := keys.List()
	for _, key := range held {
		fmt.Println(key.Type(), key.Comment)
	}
	fmt.Println(keys.Lock([]byte("word")), keys.Unlock([]byte("word")), keys.RemoveAll())
}
"""


def go_login(folder, hosts):
    """The command of a login by Go's client, which also lists, locks and removes."""
    if not pathlib.Path("/usr/share/gocode/src/golang.org/x/crypto/ssh/agent").exists():
        raise Skip("no golang-golang-x-crypto-dev")
    (folder / "login.go").write_text(GO)
    # The packages of Debian lie in a tree of sources of their own.
    environment = {
        "PATH": os.environ["PATH"],
        "GO111MODULE": "off",
        "GOPATH": "/usr/share/gocode",
        "GOCACHE": str(folder / "cache"),
        "GOFLAGS": "-p=2",
    }
    run(["/usr/bin/go", "build", "-o", folder / "by_go", folder / "login.go"], env=environment, timeout=900)
    return folder / "by_go", f"127.0.0.1:{hosts.one}", USER


@check
def go_s_client_logs_in_and_lists_locks_and_removes(folder):
    keys = [keygen(folder / f"{kind}{bits}", kind, bits) for kind, bits in KINDS]
    with Hosts(folder, "one") as hosts:
        words = go_login(folder, hosts)
        hosts.allow(*keys)

        def case(agent):
            answers = []
            for key in keys:
                agent.run("ssh-add", "-q", key)
                answers.append(agent.run(*words))
            return [*answers, agent.run(*words, status=5)]

        answers = alike(folder, case)
        assert all(answer.startswith("in\n") for answer in answers[:-1]), answers


# Keys for some purposes, which OpenSSH's agent doesn't know: what ours does alone.
check.part = "purposes"


def add_for(agent, key, *purposes):
    """Adds a key for these purposes alone."""
    body = pathlib.Path(f"{key}.body")
    body.write_text("".join(pathlib.Path(key).read_text().splitlines(True)[1:-1]))
    agent.run(rig.built("add_tool"), *(word for purpose in purposes for word in ("-p", purpose)), body)


def works(agent, *command):
    done = subprocess.run(
        [str(word) for word in command],
        env=agent.environment,
        timeout=60,
        stdin=subprocess.DEVNULL,
        stdout=subprocess.DEVNULL,
        stderr=subprocess.DEVNULL,
    )
    return done.returncode == 0


LOGINS = ((("login",), True), (("sshsig:git",), False), (("sshsig", "other"), False), (("sshsig:git", "login"), True))


def by_purposes(folder, login, kinds=KINDS):
    """A client logs in by a key of each kind that is for logins, and by no other key; one for git signs a commit."""
    keys = [keygen(folder / f"{kind}{bits}", kind, bits) for kind, bits in kinds]
    with Hosts(folder, "one") as hosts:
        command = login(folder, hosts)
        hosts.allow(*keys)
        with our_agent(PROGRAM, folder) as agent:
            for key in keys:
                for purposes, comes_in in LOGINS:
                    add_for(agent, key, *purposes)
                    assert works(agent, *command) == comes_in, (key.name, purposes)
                    if purposes == ("sshsig:git",):
                        assert commits(folder, agent, key), key.name
                    agent.run("ssh-add", "-q", "-D", status=None)


@check
def ssh_logs_in_by_purposes(folder):
    by_purposes(folder, lambda folder, hosts: ("ssh", "-F", hosts.config, "one", "true"))


@check
def scp_sftp_and_rsync_copy_by_purposes(folder):
    (folder / "file").write_text("text")
    for number, words in enumerate((["scp", "-F"], ["scp", "-O", "-F"], ["sftp", "-F"], ["rsync", "-e"])):
        place = folder / str(number)
        place.mkdir()

        def copy(_, hosts):
            reaches = f"ssh -F {hosts.config}" if words[0] == "rsync" else hosts.config
            return [*words, reaches, "-q", f"one:{folder}/file", place / "copy"]

        by_purposes(place, copy, KINDS[:1])


@check
def paramiko_logs_in_by_purposes(folder):
    by_purposes(folder, paramiko_login)


@check
def asyncssh_logs_in_by_purposes(folder):
    by_purposes(folder, asyncssh_login)


@check
def go_s_client_logs_in_by_purposes(folder):
    by_purposes(folder, go_login)


@check
def libssh2_logs_in_by_purposes(folder):
    by_purposes(folder, libssh2_login)


@check
def plink_logs_in_by_purposes(folder):
    by_purposes(folder, plink_login, KINDS[:1])


@check
def dbclient_logs_in_by_purposes(folder):
    by_purposes(folder, dbclient_login, KINDS[:1])


@check
def forwarded_jumps_and_shared_connections_by_purposes(folder):
    key = keygen(folder / "key")
    with Hosts(folder, "one", "two") as hosts, our_agent(PROGRAM, folder) as agent:
        hosts.allow(key)
        for purposes, comes_in in LOGINS:
            add_for(agent, key, *purposes)
            for words in (
                ["-A", "one", f"ssh -F {hosts.config} two true"],
                ["-J", "one", "two", "true"],
                ["-o", f"ControlPath={folder}/master", "-o", "ControlMaster=auto", "one", "true"],
            ):
                assert (hosts.ssh(agent, *words)[0] == 0) == comes_in, (purposes, words)


@check
def certificates_by_purposes(folder):
    """Where ssh sees a certificate and its plain key, it has the plain key sign the login, which names the certificate:
    that is the plain key's login too, so what is for logins comes in by the certificate, with the plain key or without,
    and what is for other data comes in nowhere."""
    installed = Installed(folder)
    for kind, bits in (("ed25519", 256), ("rsa", 2048), ("ecdsa", 256)):
        place = folder / kind
        place.mkdir()
        key = keygen(place / "key", kind, bits)
        with Hosts(place, "one", "two") as hosts, our_agent(PROGRAM, place) as agent:
            certify(hosts.authority, key, "-n", USER)
            environment = dict(installed.environment, SSH_AUTH_SOCK=agent.path)
            onward = f"ssh -F {hosts.config} two true"
            ways = (["one", "true"], ["-A", "one", onward])
            comes_in = lambda: all([hosts.ssh(agent, *words)[0] == 0 for words in ways])
            for purposes, does in (
                ("login", True),
                ("git", False),
                ("sshsig,other,ca", False),
                ("other", False),
                ("login,other", True),
                ("all", True),
            ):
                agent.run("ssh-add", "-q", "-D", status=None)
                run([installed.add, "--any-agent", "-q", "--for", purposes, key], env=environment)
                for allowed in ((), (key,)):
                    hosts.allow(*allowed)
                    assert comes_in() == does, (kind, purposes, allowed)
                hosts.allow()
                agent.run("ssh-add", "-q", "-d", "-k", key)
                assert comes_in() == does, (kind, purposes)


NAMESPACES = {"git": "sshsig:git", "file": "sshsig:file", "my own@example.org": "sshsig:my own@example.org"}


@check
def files_in_three_namespaces_by_purposes(folder):
    """By keys of each kind and both digests, and by a certificate. An authority's key in the agent signs certificates where
    it is for these, and else none."""
    installed = Installed(folder)
    keys = [keygen(folder / f"{kind}{bits}", kind, bits) for kind, bits in KINDS]
    certified, authority = keygen(folder / "certified"), keygen(folder / "authority")
    certify(authority, certified, "-n", "me")
    message, allowed = folder / "message", folder / "allowed"
    message.write_text("a message\n")
    lines = [f"me {pathlib.Path(f'{key}.pub').read_text()}" for key in keys]
    allowed.write_text("".join(lines) + f"me cert-authority {pathlib.Path(f'{authority}.pub').read_text()}")
    signature = pathlib.Path(f"{message}.sig")

    def signs(agent, public, namespace, *more):
        """Whether ssh-keygen signs the message by what the agent has, so that it is verified."""
        signature.unlink(missing_ok=True)
        if not works(agent, "ssh-keygen", "-Y", "sign", "-f", public, "-n", namespace, *more, message):
            return False
        with open(message) as text:
            words = ["-f", allowed, "-I", "me", "-n", namespace, "-s", signature]
            return "Good" in run(["ssh-keygen", "-Y", "verify", *words], stdin=text)

    with our_agent(PROGRAM, folder) as agent:
        for key in keys:
            public = shown(key)
            for purpose in (*NAMESPACES.values(), "sshsig", "login", "other"):
                add_for(agent, key, purpose)
                for namespace, named in NAMESPACES.items():
                    for more in ([], ["-O", "hashalg=sha256"]):
                        does = signs(agent, public, namespace, *more)
                        assert does == (purpose in (named, "sshsig")), (key.name, purpose, namespace)
            for purpose, does in (("sshsig:git", True), ("login", False)):
                add_for(agent, key, purpose)
                assert commits(folder, agent, key) == does, (key.name, purpose)
                assert not does or tags(folder, agent, key), key.name
        environment = dict(installed.environment, SSH_AUTH_SOCK=agent.path)
        for purposes, does in (("file", True), ("git", False), ("login,other", False)):
            agent.run("ssh-add", "-q", "-D")
            run([installed.add, "--any-agent", "-q", "--for", purposes, certified], env=environment)
            agent.run("ssh-add", "-q", "-d", "-k", certified)
            place = pathlib.Path(shown(certified)).parent / "key-cert.pub"
            shutil.copy(f"{certified}-cert.pub", place)
            assert signs(agent, place, "file") == does, purposes
        for purposes, does in ((("certificate",), True), (("login", "sshsig", "other"), False)):
            add_for(agent, authority, *purposes)
            words = ["ssh-keygen", "-q", "-U", "-s", f"{authority}.pub", "-I", "id", "-n", "me", f"{keys[0]}.pub"]
            assert works(agent, *words) == does, purposes


# OpenSSH's own scripts.
check.part = "scripts"


def source_of_openssh(folder):
    """The source of Debian's package, by apt."""
    release = dict(
        line.split("=", 1) for line in pathlib.Path("/etc/os-release").read_text().splitlines() if "=" in line
    )
    name = release.get("VERSION_CODENAME", "").strip('"')
    (folder / "lists/partial").mkdir(parents=True)
    signed = "[signed-by=/usr/share/keyrings/debian-archive-keyring.gpg] http://deb.debian.org"
    lines = f"deb-src {signed}/debian {name} main\ndeb-src {signed}/debian-security {name}-security main\n"
    (folder / "sources.list").write_text(lines)
    options = [f"Dir::Etc::sourcelist={folder}/sources.list", "Dir::Etc::sourceparts=/dev/null"]
    apt = ["apt-get", "-q", *(f"-o{option}" for option in (*options, f"Dir::State::lists={folder}/lists"))]
    quiet = dict(cwd=folder, stdout=subprocess.DEVNULL, stderr=subprocess.DEVNULL)
    for words in (["update"], ["source", "--download-only", "openssh"]):
        if subprocess.run([*apt, *words], **quiet).returncode:
            raise Skip("the source of Debian's openssh can't be had")
    (archive,) = folder.glob("openssh_*.orig.tar.gz")
    run(["tar", "xzf", archive], cwd=folder)
    return next(folder.glob("openssh-*/regress"))


@functools.cache
def regress():
    """The folder of OpenSSH's scripts, beside one with our programs as they are installed."""
    folder = pathlib.Path(tempfile.mkdtemp(prefix="mk-"))
    atexit.register(shutil.rmtree, folder, ignore_errors=True)
    folder.chmod(0o755)
    os.makedirs("/run/sshd", exist_ok=True)
    bin = folder / "bin"
    bin.mkdir()
    rig.lay_scripts(bin)
    for name, source in (("agent_prog", PROGRAM), ("mortarleek_signer", rig.HELPER)):
        shutil.copy(source, bin / name)
        (bin / name).chmod(0o755)
    # DSA is left out of the kinds of key: it is refused, by choice.
    rig.script(folder / "ssh", 'case " $* " in *" -Q "*) ssh "$@" | grep -v dss ;; *) exec /usr/bin/ssh "$@" ;; esac')
    return source_of_openssh(folder), bin, folder / "ssh"


def openssh_script(folder, name, change=lambda text: text):
    """Runs a script of OpenSSH's for agents with our front end in the place of ssh-agent, and beside it with ssh-agent.
    Answers for each of them why it failed, or nothing."""
    source, bin, ssh = regress()
    folder.chmod(0o755)
    # The scripts look for their other files beside them.
    script = source / f"our-{name}.sh"
    script.write_text(change((source / f"{name}.sh").read_text()))
    environment = {
        "PATH": os.environ["PATH"],
        "HOME": os.environ.get("HOME", "/"),
        "TEST_SHELL": "sh",
        "TEST_SSH_SSH": str(ssh),
        "TEST_SSH_SSHD": SSHD,
        "TEST_SSH_SSHADD": "/usr/bin/ssh-add",
        "TEST_SSH_SSHKEYGEN": "/usr/bin/ssh-keygen",
        "TEST_SSH_SFTPSERVER": "/usr/lib/openssh/sftp-server",
    }
    started = []
    for agent in (bin / "mortarleek-agent", "/usr/bin/ssh-agent"):
        place = folder / os.path.basename(agent)
        shutil.rmtree(place, ignore_errors=True)
        place.mkdir()
        log = open(place / "said", "w")
        more = dict(cwd=source, stdin=subprocess.DEVNULL, stdout=log, stderr=log, start_new_session=True)
        words = ["sh", source / "test-exec.sh", place, script]
        process = subprocess.Popen(words, env=dict(environment, TEST_SSH_SSHAGENT=str(agent)), **more)
        started.append((process, place / "said"))
    answers = []
    try:
        for process, log in started:
            status = process.wait(900)
            said = log.read_text()
            passed = status == 0 and re.search(r"(?m)^ok ", said) and "skipped" not in said.lower()
            answers.append("" if passed else f"status {status}: {said[-600:]}")
    finally:
        for process, _ in started:
            with contextlib.suppress(ProcessLookupError):
                os.killpg(process.pid, signal.SIGKILL)
        # a script that failed leaves its agents behind
        for guard in pathlib.Path("/proc").glob("[0-9]*/cmdline"):
            with contextlib.suppress(OSError):
                if f"\0{bin}/agent_guard\0" in guard.read_text(errors="replace"):
                    os.kill(int(guard.parent.name), signal.SIGTERM)
    return answers


def passes(folder, name):
    ours, theirs = openssh_script(folder, name)
    assert ours == "", f"{ours}\nwith ssh-agent: {theirs or 'passed'}"


@check
def openssh_s_script_agent(folder):
    passes(folder, "agent")


@check
def openssh_s_script_agent_timeout(folder):
    # It adds keys for ten seconds and lists them all: where the machine is too busy for that, they get longer.
    for seconds in (10, 40, 120):
        longer = lambda text: text.replace("SSHAGENT_TIMEOUT=10\n", f"SSHAGENT_TIMEOUT={seconds}\n")
        ours, theirs = openssh_script(folder, "agent-timeout", longer)
        if not ours:
            return
    raise AssertionError(f"{ours}\nwith ssh-agent: {theirs or 'passed'}")


@check
def openssh_s_script_agent_subprocess(folder):
    passes(folder, "agent-subprocess")


@check
def openssh_s_script_agent_restrict(folder):
    passes(folder, "agent-restrict")


@check
def other_programs_of_the_user_can_t_trace_it(folder):
    """What agent-ptrace.sh asks, of the agent's own process: SSH_AGENT_PID is its guard, a shell that holds no key."""
    if os.geteuid() != 0:
        raise Skip("it takes root to install programs that their user can't read")
    folder.chmod(0o755)
    place = folder / "place"
    place.mkdir()
    place.chmod(0o777)
    user = rig.AS_NOBODY
    environment = {"PATH": os.environ["PATH"], "HOME": str(place), "TMPDIR": str(place)}

    def tracing(program, words):
        """What gdb says of the process of a program that the user started."""
        path = place / "sock"
        with subprocess.Popen([*user, program, *words, "-a", path], env=environment, **quiet) as process:
            try:
                until(path.exists, what="the agent's socket")
                return run([*user, "gdb", "-nx", "-batch", "-p", process.pid], None, env=environment)
            finally:
                process.terminate()
                process.wait()
                for left in place.iterdir():
                    left.unlink()

    quiet = dict(stdin=subprocess.DEVNULL, stdout=subprocess.DEVNULL, stderr=subprocess.DEVNULL)
    serve = ["serve", "--helper", "/bin/false"]
    refused = "Operation not permitted"
    for mode in (0o711, 0o755):
        shutil.copy(PROGRAM, folder / "agent_prog")
        (folder / "agent_prog").chmod(mode)
        said = tracing(folder / "agent_prog", serve)
        # where its user can read it, the user's programs may trace it: so the refusal is the mode's
        assert (refused in said) == (mode == 0o711), (oct(mode), said[-600:])
    assert refused in tracing("ssh-agent", ["-D"])


if __name__ == "__main__":
    rig.there(rig.HELPER)
    rig.there(rig.OTHER)
    check.main(PROGRAM)
