"""Hosts on loopback for the checks of clients: each an sshd with keys and a configuration of its own."""

import contextlib
import getpass
import os
import pathlib
import re
import socket
import subprocess

from rig import run, until

USER = getpass.getuser()
SSHD = "/usr/sbin/sshd"


def keygen(path, kind="ed25519", bits=256):
    run(["ssh-keygen", "-q", "-t", kind, "-b", bits, "-N", "", "-C", path.name, "-f", path])
    return path


def certify(authority, key, *words):
    run(["ssh-keygen", "-q", "-s", authority, "-I", key.name, *words, f"{key}.pub"])


def free_port():
    with socket.socket() as probe:
        probe.bind(("127.0.0.1", 0))
        return probe.getsockname()[1]


class Hosts:
    """Hosts of one machine, each an sshd with a key of its own, and clients that know them by name."""

    def __init__(self, folder, *names, certified=False, hashed=False, options=""):
        self.folder, self.processes = folder, []
        self.authority = keygen(folder / "authority")
        self.authorized = folder / "authorized"
        self.authorized.touch()
        if os.geteuid() == 0:
            os.makedirs("/run/sshd", exist_ok=True)
        known = config = ""
        for name in names:
            key, port = keygen(folder / f"host_{name}"), free_port()
            lines = [
                f"Port {port}",
                "ListenAddress 127.0.0.1",
                f"HostKey {key}",
                f"PidFile {folder}/{name}.pid",
                f"AuthorizedKeysFile {self.authorized}",
                f"TrustedUserCAKeys {self.authority}.pub",
                "UsePAM no",
                "StrictModes no",
                "PermitRootLogin yes",
                "PasswordAuthentication no",
                "MaxStartups 200",
                "RequiredRSASize 1024",
                "PubkeyAcceptedAlgorithms +ssh-rsa,ssh-rsa-cert-v01@openssh.com",
                "Subsystem sftp internal-sftp",
                "PermitUserRC no",
                # bash reads no ~/.bashrc of the machine's where it isn't the first shell
                "SetEnv SHLVL=1",
                "LogLevel ERROR",
                options,
            ]
            if certified:
                certify(self.authority, key, "-h", "-n", name)
                lines.append(f"HostCertificate {key}-cert.pub")
            else:
                known += f"{name} {pathlib.Path(f'{key}.pub').read_text()}"
            (folder / f"{name}.conf").write_text("\n".join(lines) + "\n")
            run([SSHD, "-t", "-f", folder / f"{name}.conf"])
            self.processes.append(
                subprocess.Popen(
                    [SSHD, "-D", "-e", "-f", folder / f"{name}.conf"],
                    stdin=subprocess.DEVNULL,
                    stdout=subprocess.DEVNULL,
                    stderr=open(folder / f"{name}.log", "w"),
                )
            )
            config += f"Host {name}\n  HostName 127.0.0.1\n  Port {port}\n  HostKeyAlias {name}\n"
            setattr(self, name, port)
        if certified:
            known = f"@cert-authority * {pathlib.Path(f'{self.authority}.pub').read_text()}"
        self.known = folder / "known_hosts"
        self.known.write_text(known)
        if hashed:
            run(["ssh-keygen", "-q", "-H", "-f", self.known])
            (folder / "known_hosts.old").unlink()
        self.config = folder / "ssh_config"
        self.config.write_text(
            f"{config}Host *\n  User {USER}\n  UserKnownHostsFile {self.known}\n  GlobalKnownHostsFile none\n"
            "  StrictHostKeyChecking yes\n  BatchMode yes\n  PreferredAuthentications publickey\n  IdentityFile none\n"
            "  ControlPath none\n  UpdateHostKeys no\n  PubkeyAcceptedAlgorithms +ssh-rsa,ssh-rsa-cert-v01@openssh.com\n"
            "  LogLevel ERROR\n  ConnectTimeout 20\n"
        )
        for name in names:
            until(lambda: self.answers(getattr(self, name)), what="sshd")

    def answers(self, port):
        with contextlib.suppress(OSError), socket.create_connection(("127.0.0.1", port), 1) as peer:
            return peer.recv(4) == b"SSH-"

    def __enter__(self):
        return self

    def __exit__(self, *_):
        for process in self.processes:
            process.terminate()
            process.wait()

    def allow(self, *keys):
        """These keys, and no others, may log in."""
        self.authorized.write_text("".join(pathlib.Path(f"{key}.pub").read_text() for key in keys))

    def ssh(self, agent, *words, **more):
        """The status of an ssh, and what it prints; processes and folders are called the same for both agents."""
        done = subprocess.run(
            ["ssh", "-F", str(self.config), *map(str, words)],
            stdin=subprocess.DEVNULL,
            stdout=subprocess.PIPE,
            stderr=subprocess.STDOUT,
            text=True,
            timeout=60,
            env=agent.environment,
            **more,
        )
        return done.returncode, re.sub(r"port \d+", "port N", done.stdout)
