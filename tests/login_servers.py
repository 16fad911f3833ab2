"""SSH servers on loopback, each with a host key, the one user who runs this, and the keys and the authority that may log
in: OpenSSH's sshd, Dropbear, asyncssh, paramiko, Twisted Conch, Go's x/crypto/ssh, and libssh."""

import contextlib
import os
import pathlib
import re
import shutil
import socket
import subprocess

from hosts import SSHD, USER, free_port, keygen
from rig import Skip, run, until

ASYNCSSH = """
import asyncio, sys
import asyncssh

port, host_key, authorized = sys.argv[1:4]


class Server(asyncssh.SSHServer):
    def begin_auth(self, username):
        return True


async def main():
    await asyncssh.create_server(
        Server, "127.0.0.1", int(port), server_host_keys=[host_key], authorized_client_keys=authorized
    )
    await asyncio.Event().wait()


asyncio.run(main())
"""

PARAMIKO = """
import socket, sys, threading
import paramiko

port, host_key, authorized = sys.argv[1:4]
allowed = {line.split()[1] for line in open(authorized) if not line.startswith("cert-authority")}
key = paramiko.Ed25519Key.from_private_key_file(host_key)


class Server(paramiko.ServerInterface):
    def get_allowed_auths(self, username):
        return "publickey"

    def check_auth_publickey(self, username, key):
        return paramiko.AUTH_SUCCESSFUL if key.get_base64() in allowed else paramiko.AUTH_FAILED


def serve(connection):
    transport = paramiko.Transport(connection)
    transport.add_server_key(key)
    try:
        transport.start_server(server=Server())
        transport.join()
    except Exception as fault:
        print(fault, file=sys.stderr)


with socket.create_server(("127.0.0.1", int(port)), backlog=64) as listener:
    while True:
        threading.Thread(target=serve, args=[listener.accept()[0]], daemon=True).start()
"""

TWISTED = """
import base64, sys
from twisted.conch import avatar, checkers
from twisted.conch.ssh import connection, factory, keys, userauth
from twisted.cred import portal
from twisted.internet import reactor
from zope.interface import implementer

port, host_key, authorized, user = sys.argv[1:5]
lines = [line for line in open(authorized) if not line.startswith("cert-authority")]
allowed = [keys.Key.fromString(line) for line in lines]
key = keys.Key.fromFile(host_key)


@implementer(portal.IRealm)
class Realm:
    def requestAvatar(self, name, mind, *interfaces):
        return interfaces[0], avatar.ConchUser(), lambda: None


class Factory(factory.SSHFactory):
    publicKeys = {b"ssh-ed25519": key.public()}
    privateKeys = {b"ssh-ed25519": key}
    services = {b"ssh-userauth": userauth.SSHUserAuthServer, b"ssh-connection": connection.SSHConnection}
    portal = portal.Portal(
        Realm(), [checkers.SSHPublicKeyChecker(checkers.InMemorySSHKeyDB({user.encode(): allowed}))]
    )


reactor.listenTCP(int(port), Factory(), interface="127.0.0.1")
reactor.run()
"""

GO = """
package main

import (
	"bytes"
	"errors"
	"log"
	"net"
	"os"
	"strings"

	"golang.org/x/crypto/ssh"
)

func main() {
	text, _ := os.ReadFile(os.Args[2])
	key, err := ssh.ParsePrivateKey(text)
	if err != nil {
		log.Fatal(err)
	}
	var allowed, authorities [][]byte
	text, _ = os.ReadFile(os.Args[3])
	for len(bytes.TrimSpace(text)) > 0 {
		public, _, options, rest, err := ssh.ParseAuthorizedKey(text)
		if err != nil {
			log.Fatal(err)
		}
		if strings.Join(options, ",") == "cert-authority" {
			authorities = append(authorities, public.Marshal())
		} else {
			allowed = append(allowed, public.Marshal())
		}
		text = rest
	}
	among := func(keys [][]byte, key ssh.PublicKey) bool {
		for _, one := range keys {
			if bytes.Equal(one, key.Marshal()) {
				return true
			}
		}
		return false
	}
	checker := ssh.CertChecker{
		IsUserAuthority: func(key ssh.PublicKey) bool { return among(authorities, key) },
		UserKeyFallback: func(_ ssh.ConnMetadata, key ssh.PublicKey) (*ssh.Permissions, error) {
			if among(allowed, key) {
				return nil, nil
			}
			return nil, errors.New("not allowed")
		},
	}
	config := &ssh.ServerConfig{PublicKeyCallback: checker.Authenticate, MaxAuthTries: -1}
	config.AddHostKey(key)
	listener, err := net.Listen("tcp", "127.0.0.1:"+os.Args[1])
	if err != nil {
		log.Fatal(err)
	}
	for {
		connection, err := listener.Accept()
		if err != nil {
			log.Fatal(err)
		}
		go func() {
			if _, _, requests, err := ssh.NewServerConn(connection, config); err == nil {
				ssh.DiscardRequests(requests)
			}
		}()
	}
}
"""

LIBSSH = r"""
#include <libssh/callbacks.h>
#include <libssh/libssh.h>
#include <libssh/server.h>
#include <signal.h>
#include <stdio.h>
#include <unistd.h>

static ssh_key allowed[16];
static int count;

static int by_key(ssh_session session, const char *user, struct ssh_key_struct *key, char state, void *data)
{
    for (int i = 0; i < count; i++)
        if (ssh_key_cmp(key, allowed[i], SSH_KEY_CMP_PUBLIC) == 0)
            return state == SSH_PUBLICKEY_STATE_NONE || state == SSH_PUBLICKEY_STATE_VALID ? SSH_AUTH_SUCCESS
                                                                                           : SSH_AUTH_DENIED;
    return SSH_AUTH_DENIED;
}

int main(int argc, char **argv)
{
    for (int i = 3; i < argc && count < 16; i++)
        if (ssh_pki_import_pubkey_file(argv[i], &allowed[count++]))
            return 2;
    ssh_bind bind = ssh_bind_new();
    ssh_bind_options_set(bind, SSH_BIND_OPTIONS_BINDADDR, "127.0.0.1");
    ssh_bind_options_set(bind, SSH_BIND_OPTIONS_BINDPORT_STR, argv[1]);
    ssh_bind_options_set(bind, SSH_BIND_OPTIONS_HOSTKEY, argv[2]);
    if (ssh_bind_listen(bind))
        return 3;
    signal(SIGCHLD, SIG_IGN);
    for (;;) {
        ssh_session session = ssh_new();
        if (ssh_bind_accept(bind, session))
            return 4;
        if (fork() == 0) {
            struct ssh_server_callbacks_struct calls = { .auth_pubkey_function = by_key };
            ssh_callbacks_init(&calls);
            ssh_set_server_callbacks(session, &calls);
            ssh_set_auth_methods(session, SSH_AUTH_METHOD_PUBLICKEY);
            if (ssh_handle_key_exchange(session))
                return 5;
            ssh_event event = ssh_event_new();
            ssh_event_add_session(event, session);
            while (ssh_event_dopoll(event, -1) == SSH_OK)
                ;
            return 0;
        }
        ssh_disconnect(session);
        ssh_free(session);
    }
}
"""


class Server:
    """A server that runs, with its port and its name; a silent one doesn't answer to a signature that is wrong."""

    is_silent = False

    def __init__(self, name, version, port, words, folder):
        self.name, self.version, self.port = name, version, port
        self.said = folder / f"{name}.said"
        self.process = subprocess.Popen(
            list(map(str, words)), stdin=subprocess.DEVNULL, stdout=subprocess.DEVNULL, stderr=open(self.said, "w")
        )

    def __enter__(self):
        try:
            until(self.answers, 60, what=self.name)
        except BaseException:
            self.__exit__()
            raise
        return self

    def answers(self):
        assert self.process.poll() is None, f"{self.name}: {self.said.read_text()}"
        with contextlib.suppress(OSError), socket.create_connection(("127.0.0.1", self.port), 1) as peer:
            return peer.recv(4) == b"SSH-"

    def __exit__(self, *_):
        self.process.terminate()
        try:
            self.process.wait(5)
        except subprocess.TimeoutExpired:
            self.process.kill()
            self.process.wait()


class Place:
    """A folder with what every server is given: the keys that may log in, an authority, and a host key."""

    def __init__(self, folder, keys, authority):
        self.folder, self.keys, self.authority = folder, keys, authority
        self.host_key = keygen(folder / "host_key")
        self.authorized = folder / "authorized_keys"
        lines = [pathlib.Path(f"{key}.pub").read_text() for key in keys]
        if authority:
            lines.append(f"cert-authority {pathlib.Path(f'{authority}.pub').read_text()}")
        self.authorized.write_text("".join(lines))
        self.authorized.chmod(0o600)

    def script(self, name, text, version, module):
        """A server in Python, of Debian's own."""
        done = subprocess.run(
            ["/usr/bin/python3", "-c", f"import {module}; print({version})"], capture_output=True, text=True
        )
        if done.returncode:
            raise Skip(f"no {module}")
        path = self.folder / f"{name}_server.py"
        path.write_text(text)
        port = free_port()
        words = ["/usr/bin/python3", "-W", "ignore", path, port, self.host_key, self.authorized, USER]
        return Server(name, f"{name} {done.stdout.strip()}", port, words, self.folder)


def openssh(place, *options, host_key=None):
    """OpenSSH's sshd, which takes as many tries as come."""
    if os.geteuid() == 0:
        os.makedirs("/run/sshd", exist_ok=True)
    port, config = free_port(), place.folder / "sshd.conf"
    lines = [
        f"Port {port}",
        "ListenAddress 127.0.0.1",
        f"HostKey {host_key or place.host_key}",
        "PidFile none",
        f"AuthorizedKeysFile {place.authorized}",
        "UsePAM no",
        "StrictModes no",
        "PermitRootLogin yes",
        "PasswordAuthentication no",
        "MaxAuthTries 1000000",
        "MaxStartups 200",
        "LoginGraceTime 0",
        "PubkeyAcceptedAlgorithms +ssh-rsa,ssh-rsa-cert-v01@openssh.com",
        "LogLevel VERBOSE",
        *options,
    ]
    config.write_text("\n".join(lines) + "\n")
    version = run(["ssh", "-V"]).split(",")[0].replace("_", " ", 1)
    return Server("openssh", version, port, [SSHD, "-D", "-e", "-f", config], place.folder)


def dropbear(place):
    """Dropbear, which reads ~/.ssh of the user alone: it sees the folder in the place of the user's own."""
    if not shutil.which("dropbear"):
        raise Skip("no dropbear")
    home, port = pathlib.Path(os.path.expanduser(f"~{USER}")), free_port()
    seen = place.folder / "home"
    (seen / ".ssh").mkdir(mode=0o700, parents=True, exist_ok=True)
    shutil.copy(place.authorized, seen / ".ssh/authorized_keys")
    mounted = 'mount --bind "$1" "$2" && shift 2 && exec "$@"'
    unshared = ["unshare", "-m", "sh", "-c", mounted, "sh", seen, home]
    if subprocess.run([*map(str, unshared), "true"], stderr=subprocess.DEVNULL).returncode:
        raise Skip("no mounts of our own")
    key = place.folder / "dropbear_key"
    if not key.exists():
        run(["dropbearkey", "-t", "ed25519", "-f", key])
    version = re.search(r"v(\S+)", run(["dropbear", "-V"])).group(1)
    words = ["dropbear", "-F", "-E", "-s", "-T", 1000000, "-r", key, "-P", "", "-p", f"127.0.0.1:{port}"]
    return Server("dropbear", f"Dropbear {version}", port, [*unshared, *words], place.folder)


def asyncssh(place):
    return place.script("asyncssh", ASYNCSSH, "asyncssh.__version__", "asyncssh")


def paramiko(place):
    return place.script("paramiko", PARAMIKO, "paramiko.__version__", "paramiko")


def twisted(place):
    return place.script("twisted", TWISTED, "twisted.__version__", "twisted")


def go(place):
    """Go's x/crypto/ssh, as Debian has its source."""
    source = pathlib.Path("/usr/share/gocode/src/golang.org/x/crypto/ssh")
    if not shutil.which("go") or not source.exists():
        raise Skip("no Go with x/crypto")
    module = place.folder / "go"
    module.mkdir(exist_ok=True)
    (module / "main.go").write_text(GO)
    program = place.folder / "go_server"
    environment = dict(
        os.environ, GOPATH="/usr/share/gocode", GO111MODULE="off", GOFLAGS="", GOCACHE=str(place.folder / "go_cache")
    )
    if not program.exists():
        run(["go", "build", "-o", program, "main.go"], cwd=module, env=environment, timeout=300)
    version = run(["dpkg-query", "-f", "${Version}", "-W", "golang-golang-x-crypto-dev"]).split(":")[-1]
    port = free_port()
    return Server("go", f"x/crypto/ssh {version}", port, [program, port, place.host_key, place.authorized], place.folder)


def libssh(place):
    if not pathlib.Path("/usr/include/libssh/server.h").exists():
        raise Skip("no libssh-dev")
    program = place.folder / "libssh_server"
    if not program.exists():
        (place.folder / "server.c").write_text(LIBSSH)
        run(["gcc", "-o", program, place.folder / "server.c", "-lssh"])
    version = run(["dpkg-query", "-f", "${Version}", "-W", "libssh-dev"]).split("-")[0]
    port = free_port()
    words = [program, port, place.host_key, *(f"{key}.pub" for key in place.keys)]
    server = Server("libssh", f"libssh {version}", port, words, place.folder)
    server.is_silent = True
    return server


OTHERS = dropbear, asyncssh, paramiko, twisted, go, libssh
