#!/usr/bin/env python3
"""Keys that `mortarleek add --for` adds for purposes, by real programs: git signs commits and tags, ssh-keygen signs files
in three namespaces, ssh logs in, over two hosts too, with a certificate, and where the user is asked. Words choose checks
by a part of their names."""

import base64
import pathlib
import re
import shutil
import subprocess
import sys

sys.dont_write_bytecode = True

import rig
from hosts import USER, Hosts, certify
from installed import Installed, keygen
from rig import our_agent, run, string

check = rig.Checks("purposes")
PROGRAM = rig.agent_program()
QUIET = dict.fromkeys(("stdin", "stdout", "stderr"), subprocess.DEVNULL)
# The words of --for, and which it lets: a login, git, a file, another namespace, a certificate, other data.
CASES = (
    ("login", "login"),
    ("git", "git"),
    ("git,file", "git file"),
    ("sshsig:my own", "own"),
    ("sshsig", "git file own"),
    ("other", "other"),
    ("ca", "ca"),
    ("login,git", "login git"),
    ("login,sshsig,other", "login git file own other"),
    ("all", "login git file own ca other"),
)
NAMESPACES = {"git": "git", "file": "file", "own": "my own"}
# The third line of a question about each; `ssh-add -T` has 1024 random bytes signed (OpenSSH's ssh-add.c, test_key).
LINES = {name: f"For a signature in namespace {namespace}." for name, namespace in NAMESPACES.items()}
LINES |= {"login": f"For a login as {USER}.", "ca": "For a certificate of N bytes.", "other": "For other data of 1024 bytes."}


def shown(key):
    """The public key alone, in a folder of its own: what signs with it has to ask an agent."""
    place = pathlib.Path(f"{key}.shown")
    place.mkdir(exist_ok=True)
    return shutil.copy(f"{key}.pub", place / "key.pub")


def signs(agent, key, namespace):
    """Whether ssh-keygen signs a text in the namespace with a key that the agent has, and can verify that."""
    words = ["ssh-keygen", "-Y", "sign", "-f", shown(key), "-n", namespace]
    done = subprocess.run(words, input=b"text", env=agent.environment, timeout=60, capture_output=True)
    if done.returncode:
        return False
    signature, allowed = pathlib.Path(f"{key}.sig"), pathlib.Path(f"{key}.allowed")
    signature.write_bytes(done.stdout)
    allowed.write_text(f"me {pathlib.Path(f'{key}.pub').read_text()}")
    run(["ssh-keygen", "-Y", "verify", "-f", allowed, "-I", "me", "-n", namespace, "-s", signature], input="text")
    return True


def git(folder, agent, key, *words):
    """Whether git does something that it signs with a key that the agent has."""
    place = folder / f"{key.name} of git"
    settings = ["user.name=me", "user.email=me@example.org", "gpg.format=ssh", f"user.signingkey={shown(key)}"]
    agent.run("git", "init", "-q", place)
    named = ["git", "-C", str(place), *(word for setting in settings for word in ("-c", setting)), *words]
    return subprocess.run(named, env=agent.environment, timeout=60, **QUIET).returncode == 0


def commits(folder, agent, key):
    return git(folder, agent, key, "commit", "-q", "-S", "--allow-empty", "-m", "signed")


def tags(folder, agent, key):
    """The same of a tag. Some git makes it all the same, without a signature, where nothing signs."""
    if not git(folder, agent, key, "tag", "-s", "-m", "signed", "one"):
        return False
    return "BEGIN SSH SIGNATURE" in run(["git", "-C", folder / f"{key.name} of git", "cat-file", "tag", "one"])


def tests(agent, key):
    """Whether the agent signs what ssh-add tries a key with, which is neither a login nor a file."""
    done = subprocess.run(["ssh-add", "-T", f"{key}.pub"], env=agent.environment, timeout=60, **QUIET)
    return done.returncode == 0


def certifies(agent, key):
    """Whether ssh-keygen has the agent sign a user's certificate with the key, as an authority."""
    subject = pathlib.Path(f"{key}.subject.pub")
    shutil.copy(f"{key}.pub", subject)
    words = ["ssh-keygen", "-q", "-U", "-s", shown(key), "-I", "id", "-n", "me", subject]
    return subprocess.run(list(map(str, words)), env=agent.environment, timeout=60, **QUIET).returncode == 0


def does(agent, hosts, key, *words):
    """What a key that the agent has is for."""
    found = {"login"} if hosts.ssh(agent, *words, "one", "echo in") == (0, "in\n") else set()
    found |= {name for name, namespace in NAMESPACES.items() if signs(agent, key, namespace)}
    return found | ({"ca"} if certifies(agent, key) else set()) | ({"other"} if tests(agent, key) else set())


def added(installed, agent, *words, status=0, **more):
    environment = dict(installed.environment, SSH_AUTH_SOCK=agent.path)
    return run([installed.add, "--any-agent", *words], status, env=environment, **more)


@check
def a_key_signs_what_it_was_added_for(folder):
    installed, key = Installed(folder), keygen(folder / "key")
    with Hosts(folder, "one") as hosts, our_agent(PROGRAM, folder) as agent:
        hosts.allow(key)
        for place, (words, wanted) in enumerate(CASES):
            given = ["--for", words] if place % 2 else [f"--for={words}"]
            said = added(installed, agent, *given, key)
            assert "The key may be used for" in said and said.endswith(" alone\n"), said
            assert does(agent, hosts, key) == set(wanted.split()), words
        # A key that is added again has the purposes of the addition, and without any it is for everything.
        added(installed, agent, key)
        assert does(agent, hosts, key) == set("login git file own ca other".split())
        # What --for names twice in a line, and what one word names for two.
        assert added(installed, agent, "--for", "git", "--for", "login", key).endswith("for sshsig:git, login alone\n")
        assert does(agent, hosts, key) == {"git", "login"}


@check
def git_signs_commits_and_tags_with_a_key_for_git(folder):
    installed, key, other = Installed(folder), keygen(folder / "key"), keygen(folder / "other")
    with our_agent(PROGRAM, folder) as agent:
        added(installed, agent, "--for", "git", key)
        added(installed, agent, "--for", "login,file,other", other)
        assert commits(folder, agent, key) and tags(folder, agent, key)
        place = folder / "key of git"
        (folder / "allowed").write_text(f"me@example.org {pathlib.Path(f'{key}.pub').read_text()}")
        verify = ["git", "-C", place, "-c", f"gpg.ssh.allowedSignersFile={folder / 'allowed'}"]
        assert "Good \"git\" signature" in run([*verify, "verify-commit", "-v", "HEAD"])
        assert "Good \"git\" signature" in run([*verify, "verify-tag", "-v", "one"])
        assert not commits(folder, agent, other)
        git(folder, agent, other, "commit", "-q", "--allow-empty", "-m", "plain")
        assert not tags(folder, agent, other)


@check
def a_key_of_every_form_may_be_for_git(folder):
    """Encrypted, PEM, PKCS #8, certified, on the standard input: ssh-add reads them, and the relay sets the purposes."""
    installed = Installed(folder)
    asker = rig.script(folder / "secret", "echo secret")
    asking = {"SSH_ASKPASS": str(asker), "SSH_ASKPASS_REQUIRE": "force"}
    locked = keygen(folder / "locked", passphrase="secret")
    old = keygen(folder / "old", "-m", "PEM", kind="rsa")
    modern = keygen(folder / "pkcs8", "-m", "PKCS8", kind="ecdsa")
    plain = keygen(folder / "plain")
    with our_agent(PROGRAM, folder) as agent, Hosts(folder, "one") as hosts:
        environment = dict(installed.environment, **asking, SSH_AUTH_SOCK=agent.path)
        hosts.allow(locked, old, modern, plain)
        for key in (locked, old, modern, "-"):
            text = dict(input=plain.read_text()) if key == "-" else dict(stdin=subprocess.DEVNULL)
            said = run([installed.add, "--any-agent", "-u", "9", "--for", "git", key], env=environment, **text)
            assert said.endswith("The key may be used 9 times\nThe key may be used for sshsig:git alone\n"), said
            key = plain if key == "-" else key
            assert does(agent, hosts, key) == {"git"}, key
            agent.run("ssh-add", "-q", "-D")


@check
def a_login_over_two_hosts_with_a_certificate_too(folder):
    installed, key, certified = Installed(folder), keygen(folder / "key"), keygen(folder / "certified")
    with Hosts(folder, "one", "two") as hosts, our_agent(PROGRAM, folder) as agent:
        certify(hosts.authority, certified, "-n", USER)
        hosts.allow(key)
        onward = f"ssh -F {hosts.config} two 'echo in'"
        over = lambda: hosts.ssh(agent, "-A", "one", onward)
        for who in (key, certified):
            for words, logs_in, commit in (("login", True, False), ("git", False, True), ("login,git", True, True)):
                agent.run("ssh-add", "-q", "-D")
                # Where ssh sees both it has the plain key sign the login that names the certificate.
                added(installed, agent, "-q", "--for", words, who)
                assert (hosts.ssh(agent, "one", "echo in") == (0, "in\n")) == logs_in, (who.name, words)
                assert (over() == (0, "in\n")) == logs_in, (who.name, words)
                assert who is certified or commits(folder, agent, who) == commit, (who.name, words)
        # A host to which the agent is forwarded may have commits signed by a key for git, and log in nowhere with it.
        agent.run("ssh-add", "-q", "-D")
        added(installed, agent, "-q", "--for", "git", key)
        entry = keygen(folder / "entry")
        hosts.allow(entry, key)
        added(installed, agent, "-q", "--for", "login", entry)
        sign = f"printf text | ssh-keygen -Y sign -n git -f {shown(key)}"
        log_in = f"ssh -F {hosts.config} -o IdentitiesOnly=yes -i {key}.pub two 'echo in'"
        status, said = hosts.ssh(agent, "-A", "one", sign)
        assert status == 0 and "BEGIN SSH SIGNATURE" in said, said
        assert hosts.ssh(agent, "-A", "one", log_in)[0] == 255
        # On its way ssh says that the first key signed nothing.
        status, said = hosts.ssh(agent, "-A", "one", log_in.replace(f"{key}.pub", f"{entry}.pub"))
        assert status == 0 and said.endswith("in\n"), said


def that_agrees(folder):
    """The words of an agent that asks a program which agrees, and the file in which that keeps the questions."""
    asked = folder / "asked"
    asker = rig.script(folder / "asker", f"printf '%s\\n--\\n' \"$1\" >> {asked}; echo yes")
    return ("--relay", rig.built("confirm_relay"), "--askpass", asker), asked


@check
def nobody_is_asked_about_what_a_key_is_not_for(folder):
    """A question begins with what it is for a key without purposes, and then tells what is signed."""
    installed, key = Installed(folder), keygen(folder / "key")
    words, asked = that_agrees(folder)
    with Hosts(folder, "one") as hosts, our_agent(PROGRAM, folder, *words) as agent:
        hosts.allow(key)
        for purposes, wanted in CASES:
            asked.write_text("")
            agent.run("ssh-add", "-q", "-D")
            added(installed, agent, "-q", "-c", "--for", purposes, key)
            assert does(agent, hosts, key) == set(wanted.split()), purposes
            # A certificate's length is none of this test's.
            questions = re.sub(r"(certificate of) \d+", r"\1 N", asked.read_text()).split("\n--\n")[:-1]
            assert len(questions) == len(wanted.split()), (purposes, questions)
            fingerprint = run(["ssh-keygen", "-lf", f"{key}.pub"]).split()[1]
            begin = f"Allow use of key key?\nKey fingerprint {fingerprint}.\n"
            assert sorted(questions) == sorted(begin + LINES[name] for name in wanted.split()), questions


@check
def the_question_about_a_key_for_hosts_names_the_host(folder):
    """As the first constraint that permits the login has it; a key without purposes has the two lines of ssh-agent."""
    installed, key = Installed(folder), keygen(folder / "key")
    words, asked = that_agrees(folder)
    with Hosts(folder, "one", "two") as hosts, our_agent(PROGRAM, folder, *words) as agent:
        hosts.allow(key)
        others = folder / "others"
        others.write_text("".join(f"alias.{line}\n" for line in hosts.known.read_text().splitlines()))
        fingerprint = run(["ssh-keygen", "-lf", f"{key}.pub"]).split()[1]
        begin, known = f"Allow use of key key?\nKey fingerprint {fingerprint}.", ("-H", hosts.known, "-H", others)
        one, onward = ("one", "echo in"), ("-A", "one", f"ssh -F {hosts.config} two 'echo in'")
        for purposes, destinations, way, names in (
            ("login", ["one"], one, ["one"]),
            ("all", ["two", "one", "alias.one"], one, ["one"]),
            ("git,login", ["alias.one", "one"], one, ["alias.one"]),
            ("login", ["nobody@alias.one", f"{USER}@one", "alias.one"], one, ["one"]),
            ("login", ["one", "alias.two", "one>alias.two", "one>two"], onward, ["one", "alias.two"]),
            ("login", ["alias.two", "one", "one>two"], onward, ["one", "two"]),
            (None, ["one"], one, [None]),
        ):
            asked.write_text("")
            agent.run("ssh-add", "-q", "-D")
            words = [word for name in destinations for word in ("-h", name)]
            added(installed, agent, "-q", "-c", *(["--for", purposes] if purposes else []), *known, *words, key)
            assert hosts.ssh(agent, *way) == (0, "in\n"), (destinations, way)
            wanted = [begin + (f"\nFor a login as {USER} to {name}." if name else "") for name in names]
            assert asked.read_text().split("\n--\n")[:-1] == wanted, (destinations, asked.read_text())


@check
def purposes_beside_destinations_uses_and_lifetimes(folder):
    installed, key = Installed(folder), keygen(folder / "key")
    with Hosts(folder, "one", "two") as hosts, our_agent(PROGRAM, folder) as agent:
        hosts.allow(key)
        towards = ["-H", hosts.known, "-h", "one"]
        for words in ("git", "sshsig,other", "sshsig:login"):
            said = added(installed, agent, *towards, "--for", words, key, status=1)
            assert said.startswith("mortarleek-add: -h: ") and "login" in said and said.count("\n") == 1, said
            assert "no identities" in agent.run("ssh-add", "-l", status=1)
        for words in ("login", "git,login", "all"):
            added(installed, agent, *towards, "-q", "--for", words, key)
            assert does(agent, hosts, key) == {"login"}, words
            assert hosts.ssh(agent, "two", "echo in")[0] == 255
        # A refusal uses nothing.
        added(installed, agent, "-q", "--for", "git", "-u", "1", "-t", "60", key)
        assert hosts.ssh(agent, "one", "echo in")[0] == 255 and not signs(agent, key, "file") and not tests(agent, key)
        assert signs(agent, key, "git")
        assert "no identities" in agent.run("ssh-add", "-l", status=1)


@check
def an_rsa_key_with_purposes_does_not_sign_by_sha1(folder):
    """Nor does its certificate; one without purposes does (draft-miller-ssh-agent, "Signature flags")."""
    installed, key = Installed(folder), keygen(folder / "key", kind="rsa")
    certify(keygen(folder / "authority"), key, "-n", USER)
    blobs = [base64.b64decode(pathlib.Path(f"{key}{end}.pub").read_text().split()[1]) for end in ("", "-cert")]
    with our_agent(PROGRAM, folder) as agent, agent.peer() as peer:
        for words, by_sha1 in (([], True), (["--for", "other"], False), (["--for", "all"], False)):
            added(installed, agent, "-q", *words, key)
            for blob in blobs:
                for flags in (0, 1, 8, 2, 4, 6):
                    reply = peer.ask(rig.SIGN, string(blob), string(b"other data"), flags.to_bytes(4, "big"))
                    assert (reply[0] == rig.SIGNATURE) == (by_sha1 or flags & 6 != 0), (words, flags)


@check
def words_that_name_no_purposes_add_nothing(folder):
    installed, key = Installed(folder), keygen(folder / "key")
    locked = keygen(folder / "locked", passphrase="secret")
    long = "sshsig:" + "n" * 249
    many = ",".join(f"sshsig:{number}" for number in range(65))
    with our_agent(PROGRAM, folder) as agent:
        for words, why in (
            (["--for"], "requires an argument"),
            (["--for", ""], "a word is empty"),
            (["--for", "git,,file"], "a word is empty"),
            (["--for", "gti"], "a purpose is login"),
            (["--for", "sshsig:"], "a purpose is login"),
            (["--for", "Login"], "a purpose is login"),
            (["--for", "git,sshsig:git"], "named twice"),
            (["--for=all", "--for", "login"], "named twice"),
            (["--for", "git", "-l"], "adds no key"),
            (["--for", "git", "-u", "1", "-D"], "-u, --for: -D adds no key"),
        ):
            files = [] if words[-1] in ("-l", "-D") or words == ["--for"] else [key]
            said = added(installed, agent, *words, *files, status=1)
            assert why in said, (words, said)
        for file in (key, locked):
            for words in (long, many):
                said = added(installed, agent, "--for", words, file, status=None, stdin=subprocess.DEVNULL)
                assert "255 bytes" in said or "64" in said, said
        assert "no identities" in agent.run("ssh-add", "-l", status=1)
    # Behind -- it is a file's name.
    with our_agent(PROGRAM, folder, name="more") as agent:
        assert "--for: No such file" in added(installed, agent, "--", "--for", status=1)
    # An agent that may pass over the purposes gets nothing.
    with rig.openssh_agent(folder) as other:
        environment = dict(installed.environment, SSH_AUTH_SOCK=other.path)
        said = run([installed.add, "--for", "git", key], 1, env=environment)
        assert "mortarleek-add: --for: the agent at" in said and "--any-agent" in said, said
        said = run([installed.add, "--for", "git", "--any-agent", key], 1, env=environment)
        assert "no identities" in other.run("ssh-add", "-l", status=1), said


if __name__ == "__main__":
    check.main(PROGRAM)
