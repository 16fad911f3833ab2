"""What the checks of the front ends share: the programs as they are installed, a daemon of them, keys in a home, and
what OpenSSH's own tools answer to the same words."""

import contextlib
import os
import re
import shutil
import signal
import subprocess
import sys

import rig
from rig import Skip, children, is_alive, run, until

sys.path.append(str(rig.TOP / "scripts"))

from provenance import record_of, write_records

check = rig.Checks("daily")
PROGRAM = rig.agent_program()


class Installed:
    """The programs as `make install` lays them, in a folder of the test's."""

    def __init__(self, folder, helper=True, tool=True):
        self.prefix = folder / "prefix"
        bin, libexec = self.prefix / "bin", self.prefix / "libexec/mortarleek"
        bin.mkdir(parents=True)
        libexec.mkdir(parents=True)
        rig.lay_scripts(bin, libexec)
        shutil.copy(PROGRAM, libexec / "agent_prog")
        for name in (*(["mortarleek_signer"] if helper else []), "standin_helper", "confirm_relay"):
            if (rig.BUILT / name).exists():
                shutil.copy(rig.BUILT / name, libexec)
        if tool:
            shutil.copy(rig.built("add_tool"), libexec)
            shutil.copy(rig.built("terms_relay"), libexec)
        if helper and not (libexec / "mortarleek_signer").exists():
            raise Skip("bin/mortarleek_signer isn't built: make")
        self.agent, self.add = bin / "mortarleek-agent", bin / "mortarleek-add"
        self.temporary = folder / "temporary"
        self.temporary.mkdir()
        self.environment = {
            "PATH": os.environ["PATH"],
            "TMPDIR": str(self.temporary),
            "HOME": str(folder),
            "SHELL": "/bin/sh",
        }

    def start(self, *words, environment={}, **more):
        """A daemon, by the lines that it prints for the shell; the variables that these set."""
        said = run([self.agent, *words], env=dict(self.environment, **environment), **more)
        script = f'{said}\nprintf \'%s\\n\' "$SSH_AUTH_SOCK" "$SSH_AGENT_PID"'
        _, path, pid = run(["sh", "-c", script]).splitlines()
        return Daemon(self, path, int(pid))

    def folders(self):
        return sorted(self.temporary.iterdir())


def call_proved(records, folder, *names, commit="12ab", checker="logic=proved by this test", sources=lambda name: "0" * 64):
    """Writes records of these programs of a folder, as if they had been proved there; answers what is said of each then."""
    said = (commit, "no"), "a kit", checker
    made = {name: record_of(name, folder / name, sources(name), *said) for name in names}
    write_records(records, {name: record | {"time": "2026-12-01T12:00:00Z"} for name, record in made.items()})
    return f"commit {commit}, a kit"


@contextlib.contextmanager
def a_display(width=640, height=360):
    """The name of a display of one's own, by a server without a screen."""
    reader, writer = os.pipe()
    words = ["Xvfb", "-displayfd", str(writer), "-screen", "0", f"{width}x{height}x24", "-nolisten", "tcp"]
    server = subprocess.Popen(words, pass_fds=[writer], stderr=subprocess.DEVNULL)
    os.close(writer)
    try:
        yield ":" + os.read(reader, 20).decode().strip()
    finally:
        os.close(reader)
        server.terminate()
        server.wait()


def dialog_on(display):
    """The window of an askpass program, once it is seen."""
    looks = ["xdotool", "search", "--onlyvisible", "--class", "askpass"]
    shown = dict(os.environ, DISPLAY=display)
    return until(lambda: run(looks, None, env=shown).strip(), 60, "the dialog").split()[0]


class Daemon:
    def __init__(self, installed, path, pid):
        self.installed, self.path, self.pid = installed, path, pid
        self.environment = dict(installed.environment, SSH_AUTH_SOCK=path, SSH_AGENT_PID=str(pid))

    def __enter__(self):
        return self

    def __exit__(self, *_):
        if is_alive(self.pid):
            self.signal(signal.SIGTERM)

    def run(self, *words, status=0, **more):
        return run(words, status, env=dict(self.environment, **more.pop("environment", {})), **more)

    def agents(self):
        """The numbers of the guard and of the agent."""
        return [self.pid, agent_of(self.pid)]

    def signal(self, number):
        """Sends the guard a signal, and waits until all that belongs to it has ended."""
        pids = self.agents()
        os.kill(self.pid, number)
        until(lambda: not any(map(is_alive, pids)), what="the end of the agent")


def agent_of(guard):
    """The number of the agent: the guard has a child beside it that looks after the folder."""
    (agent,) = (pid for pid in children(guard) if os.readlink(f"/proc/{pid}/exe").endswith("/agent_prog"))
    return agent


def keygen(path, *words, passphrase="", comment=None, kind="ed25519"):
    run(["ssh-keygen", "-q", "-t", kind, "-N", passphrase, "-C", comment or path.name, "-f", path, *words])
    return path


def plain(said):
    """What is said, with numbers of processes and paths of sockets made equal."""
    said = re.sub(r"\S*/(mortarleek|ssh)-\w+/agent\.\d+", "SOCKET", said)
    return re.sub(r"(pid |_PID[= ]\"?)\d+", r"\1N", said)


def both(installed, words, status=None, environment={}):
    """What ours and ssh-agent print on the standard output, and their statuses, for the same words."""
    answers = []
    for program in (installed.agent, "ssh-agent"):
        done = subprocess.run(
            [program, *words],
            capture_output=True,
            text=True,
            timeout=30,
            env=dict(installed.environment, **environment),
        )
        for pid in re.findall(r"Agent pid (\d+);", done.stdout):
            os.kill(int(pid), signal.SIGTERM)
        answers.append((plain(done.stdout), done.returncode))
    assert answers[0] == answers[1], f"ours {answers[0]}, ssh-agent {answers[1]}"
    assert status is None or answers[0][1] == status, answers[0]
    return answers[0][0]


class Keys:
    """A home with keys of each kind, and an agent of each side."""

    def __init__(self, folder):
        self.home = folder / "home"
        (self.home / ".ssh").mkdir(parents=True, mode=0o700)
        ssh = self.home / ".ssh"
        for kind in ("rsa", "ecdsa", "ed25519"):
            keygen(ssh / f"id_{kind}", kind=kind, comment=f"{kind} of home")
        authority = keygen(folder / "authority")
        self.certified = keygen(folder / "certified", comment="with a certificate")
        run(["ssh-keygen", "-q", "-s", authority, "-I", "me", "-n", "root", f"{self.certified}.pub"])
        self.plain = keygen(folder / "plain key")
        self.locked = keygen(folder / "locked", passphrase="secret")
        self.old = keygen(folder / "old", "-m", "PEM", kind="rsa")
        self.asker = rig.script(folder / "secret", "echo secret")
        self.defaults = [ssh / f"id_{kind}" for kind in ("rsa", "ecdsa", "ed25519")]
