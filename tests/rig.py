"""What the checks of the serving agent share: counting, packages, agents, and clients that speak for themselves."""

import concurrent.futures
import contextlib
import fcntl
import os
import pathlib
import resource
import shutil
import signal
import socket
import struct
import subprocess
import sys
import tempfile
import time
import traceback

from frames import Frames, string, strings

TOP = pathlib.Path(__file__).resolve().parents[1]
BUILT = TOP / "bin"
FAILURE, SUCCESS, IDENTITIES, SIGNATURE = 5, 6, 12, 14
LIST, SIGN, ADD, REMOVE, REMOVE_ALL, LOCK, UNLOCK, ADD_LIMITED, EXTENSION = 11, 13, 17, 18, 19, 22, 23, 25, 27


# The agent says a line where a core file may be written.
resource.setrlimit(resource.RLIMIT_CORE, (0, 0))


class Skip(Exception):
    """The check can't be made here, for the reason that it carries."""


def needs(*tools):
    """A `Skip` where one of these tools isn't in PATH."""
    for tool in tools:
        if shutil.which(tool) is None:
            raise Skip(f"no {tool}")


def install(name):
    """Debian's packages of a line of packages.txt, those that are missing; a `Skip` says why where they can't be had."""
    done = subprocess.run([TOP / "tests/packages.sh", name, f"@{name}"], stderr=subprocess.PIPE, text=True)
    if done.returncode:
        raise Skip(done.stderr.strip().splitlines()[-1])


def run(words, status=0, **more):
    """What a command prints on both streams; its status has to be as said, or any where that is None."""
    more.setdefault("timeout", 120)
    done = subprocess.run(
        [str(word) for word in words], stdout=subprocess.PIPE, stderr=subprocess.STDOUT, text=True, **more
    )
    assert status is None or done.returncode == status, f"{words}: status {done.returncode}: {done.stdout[-2000:]}"
    return done.stdout


def until(condition, seconds=10, what="it"):
    """Waits for a condition to hold, and answers what it answered."""
    end = time.monotonic() + seconds
    while True:
        if found := condition():
            return found
        assert time.monotonic() < end, f"{what} didn't come in {seconds} s"
        time.sleep(0.01)


# Programs.


def agent_program():
    """The built agent, or where AGENT names another program, that one."""
    return pathlib.Path(os.environ.get("AGENT", BUILT / "agent_prog"))


def there(program):
    """A program that is there, or a `Skip`."""
    if not program.exists():
        raise Skip(f"{program} isn't built")
    return program


def built(name):
    """A built program, or a `Skip`."""
    return there(BUILT / name)


# Processes.


def children(pid):
    """The numbers of the processes that a process started and that have not ended."""
    found = []
    for stat in pathlib.Path("/proc").glob("[0-9]*/stat"):
        with contextlib.suppress(OSError):
            fields = stat.read_text().rpartition(")")[2].split()
            if int(fields[1]) == pid and fields[0] != "Z":
                found.append(int(stat.parent.name))
    return found


def zombies(pid):
    """How many of the processes that a process started ended without being waited for."""
    found = 0
    for stat in pathlib.Path("/proc").glob("[0-9]*/stat"):
        with contextlib.suppress(OSError):
            fields = stat.read_text().rpartition(")")[2].split()
            found += int(fields[1]) == pid and fields[0] == "Z"
    return found


def is_alive(pid):
    with contextlib.suppress(OSError):
        return pathlib.Path(f"/proc/{pid}/stat").read_text().rpartition(")")[2].split()[0] != "Z"
    return False


def spent(pid):
    """Processor seconds that a process has used."""
    fields = pathlib.Path(f"/proc/{pid}/stat").read_text().rpartition(")")[2].split()
    return (int(fields[11]) + int(fields[12])) / os.sysconf("SC_CLK_TCK")


# The agent's protocol.


def connected(path, seconds=20):
    """A socket that is connected to the one at a path."""
    connection = socket.socket(socket.AF_UNIX)
    connection.settimeout(seconds)
    connection.connect(str(path))
    return connection


class Peer(Frames):
    """A client of an agent, over a socket that is connected."""

    def __init__(self, connection, seconds=20):
        super().__init__(connection)
        self.socket.settimeout(seconds)

    def __enter__(self):
        return self

    def __exit__(self, *_):
        self.close()

    def close(self):
        self.socket.close()

    def send(self, *bodies):
        self.socket.sendall(b"".join(map(string, bodies)))

    def reply(self):
        """The body of the next reply."""
        return self.body()

    def ask(self, number, *content):
        self.send(bytes([number]) + b"".join(content))
        return self.reply()

    def blobs(self):
        """The keys that the agent lists, each with its comment."""
        body = self.ask(LIST)
        assert body[0] == IDENTITIES, body[:1]
        found = strings(body[5:])
        return list(zip(found[::2], found[1::2]))

    def has_ended(self):
        """Whether the agent closed the connection."""
        try:
            return self.socket.recv(1) == b""
        except ConnectionResetError:
            return True


def plain_key(tag, comment=b"one"):
    """The fields of a key of Ed25519 as they are added, and its blob: it is held, and signs nothing."""
    kind = string(b"ssh-ed25519")
    return kind + string(tag) + string(tag * 2), string(comment), kind + string(tag)


def stand_in_key(tag, comment=b"one"):
    """The fields of a key that the helper for tests signs with, as they are added, and its blob."""
    kind = string(b"keyed-sha256@example.com")
    return kind + string(tag) + string(bytes(range(32))), string(comment), kind + string(tag)


# Agents.


class Agent:
    """An agent that runs: its socket, and its process."""

    def __init__(self, process, path):
        self.process, self.path = process, str(path)
        self.environment = dict(os.environ, SSH_AUTH_SOCK=self.path)

    def __enter__(self):
        return self

    def __exit__(self, *_):
        self.end()

    def end(self):
        if self.process.poll() is None:
            # A stopped process hears of its end only once it goes on.
            self.process.terminate()
            self.process.send_signal(signal.SIGCONT)
        try:
            return self.process.wait(10)
        except subprocess.TimeoutExpired:
            self.process.kill()
            return self.process.wait()

    def peer(self, **more):
        return Peer(connected(self.path), **more)

    def run(self, *words, status=0, **more):
        more["env"] = dict(self.environment, **more.pop("env", {}))
        return run(words, status, **more)


def openssh_agent(folder, *words, name="openssh", **more):
    """OpenSSH's own."""
    path = f"{folder}/{name}.sock"
    process = subprocess.Popen(["ssh-agent", "-D", "-a", path, *words], stdout=subprocess.DEVNULL, **more)
    until(lambda: listens(path, True), what="ssh-agent's socket")
    return Agent(process, path)


def listens(path, stale):
    """Whether somebody listens at a path: a file is enough, but for one that lay there before."""
    if not stale:
        return os.path.exists(path)
    with socket.socket(socket.AF_UNIX) as peer:
        return peer.connect_ex(path) == 0


def file_at(path):
    """Which file stands at a path, if any does."""
    with contextlib.suppress(FileNotFoundError):
        found = os.stat(path)
        return found.st_ino, found.st_ctime_ns
    return None


def serves(path, before=None):
    """Whether an agent of ours listens at a path: another socket than before is there, and it has given the lock of the
    path back. Nothing connects: an agent may be one that ends behind its last client."""
    if file_at(path) in (None, before):
        return False
    with open(f"{path}.lock") as lock:
        try:
            fcntl.flock(lock, fcntl.LOCK_SH | fcntl.LOCK_NB)
        except BlockingIOError:
            return False
    return True


# The proved helper, and mortarleek-helper, a second reading of what it does.
HELPER, OTHER = BUILT / "mortarleek_signer", BUILT / "mortarleek-helper"


def signer():
    """The helper that mortarleek-agent starts: the proved one, and the other where that isn't built."""
    return HELPER if HELPER.exists() else OTHER


def our_agent(program, folder, *words, helper=None, name="ours", limits=(), **more):
    """Ours, started as its words say, with a helper that signs unless another is named."""
    path = f"{folder}/{name}.sock"
    command = [*limits, str(program), "serve", "-a", path, "--helper", str(helper or signer()), *map(str, words)]
    more.setdefault("stdin", subprocess.DEVNULL)
    more.setdefault("stdout", subprocess.DEVNULL)
    before = file_at(path)
    process = subprocess.Popen(command, **more)
    until(lambda: serves(path, before) or process.poll() is not None, what="the agent's socket")
    assert process.poll() is None, f"the agent ended with status {process.returncode}"
    return Agent(process, path)


# Another user, and the words before a program's that this one is to run. A shell stands between, since setpriv itself
# could still read every file when it starts a program.
NOBODY = 65534
AS_NOBODY = ("setpriv", f"--reuid={NOBODY}", f"--regid={NOBODY}", "--clear-groups", "sh", "-c", 'exec "$@"', "sh")


# What the front ends start and source.
SHELL_PARTS = ("agent_guard", "front_end.sh", "proof_of")


def lay_scripts(folder, libexec=None):
    """Copies the front ends into a folder, and their parts beside them or into a folder of their own."""
    for script in sorted((TOP / "front").glob("mortarleek*")):
        shutil.copy(script, folder)
    for script in SHELL_PARTS:
        shutil.copy(TOP / "front" / script, libexec or folder)


def one_more_waits(agent, peers, meanwhile=lambda: None):
    """Beside the most clients that may be open one more is served once one of them has left, and not before. All leave."""
    with agent.peer() as more:
        more.send(bytes([LIST]))
        more.socket.settimeout(1)
        with contextlib.suppress(TimeoutError):
            raise AssertionError(f"answered {more.socket.recv(64)}")
        meanwhile()
        peers.pop().close()
        more.socket.settimeout(20)
        assert more.reply()[0] == IDENTITIES
    for peer in peers:
        peer.close()


class Child:
    """A program that an agent starts, of which this process is the agent: started with a connection, a job and a ticket."""

    def __init__(self, program, *words, job=7, ticket=bytes(range(16)), said=True):
        self.job, self.ticket = job, ticket
        ours, theirs = socket.socketpair()
        with theirs:
            command = [str(program), "-", str(job), ticket.hex(), *map(str, words)]
            self.process = subprocess.Popen(command, stdin=theirs, stdout=subprocess.PIPE, stderr=subprocess.PIPE)
        self.peer = Peer(ours)
        if said:
            assert self.peer.reply() == struct.pack(">BQ", 1, job) + string(ticket)

    def end(self):
        """Closes the connection, and answers the status, and what was said on standard error."""
        self.peer.close()
        output, errors = self.process.communicate(timeout=20)
        assert output == b"", output
        return self.process.returncode, errors.decode()


class HandedOver:
    """A program for an agent to start, by which this process gets the connection, and speaks in the program's place."""

    def __init__(self, folder, name="helper"):
        self.program = script(
            f"{folder}/{name}", f'exec {sys.executable} {TOP}/tests/hands_over.py {folder}/{name}.taker "$@"'
        )
        self.listener = socket.socket(socket.AF_UNIX)
        self.listener.bind(f"{folder}/{name}.taker")
        self.listener.listen(64)
        self.started = []

    def wait(self, count, seconds=20):
        """Waits until so many were started, and answers the last of them."""
        self.listener.settimeout(seconds)
        while len(self.started) < count:
            self.started.append(Started(self.listener.accept()[0]))
        return self.started[count - 1]

    def all(self):
        """Those that were started so far."""
        self.listener.settimeout(0)
        with contextlib.suppress(BlockingIOError):
            self.wait(1 << 30, 0)
        return self.started

    def close(self):
        for started in self.all():
            started.close()
        self.listener.close()


class Started:
    """A program that an agent started, with its words and its ticket, in whose place this process speaks."""

    def __init__(self, process):
        self.process = process
        process.settimeout(20)
        told, (connection,), _, _ = socket.recv_fds(process, 4096, 1)
        pid, ticket, self.socket, job, dash, *self.words = told.decode().split("\0")
        assert dash == "-", told
        self.pid, self.job, self.ticket = int(pid), int(job), bytes.fromhex(ticket)
        self.peer = Peer(socket.socket(fileno=connection), seconds=100)

    def hello(self, ticket=None):
        """Names itself, and answers what it goes on with."""
        told = self.ticket if ticket is None else ticket
        self.peer.socket.sendall(string(struct.pack(">BQ", 1, self.job) + string(told)))
        return self.peer

    def close(self):
        self.peer.close()
        self.process.close()


def script(path, text):
    """A shell script that can be run."""
    path = pathlib.Path(path)
    path.write_text(f"#!/bin/sh\n{text}\n")
    path.chmod(0o700)
    return path


def is_rattle_s(program):
    """Whether Rattle's own compiler built the program."""
    return "backend=rattle" in run(["readelf", "-p", ".comment", program])


# Counting.


class Checks:
    """A list of checks, of which each is a function of a folder of its own, in parts."""

    def __init__(self, name):
        self.name, self.cases, self.part = name, [], ""
        self.aside, self.named = set(), set()

    def __call__(self, case):
        self.cases.append((self.part, case))
        return case

    def beside(self, case):
        """A check that mostly waits: it begins with the first, and is told behind the last."""
        self.aside.add(case)
        return self(case)

    def by_hand(self, case):
        """A check that is too long for all runs: a word has to name it."""
        self.named.add(case)
        return self(case)

    def main(self, program):
        """Runs the checks that the process's words name, once a program is there, and Debian's packages."""
        try:
            there(program)
            install(self.name)
        except Skip as reason:
            print(f"{self.name}: not run: {reason}")
            sys.exit(1)
        self.run(sys.argv[1:])

    def run(self, words):
        """Runs all checks, or those of the parts that the words name, and those that have another word in their names.
        The process ends with 1 where one failed, and with 2, and nothing run, where a word chooses none."""
        # In a script's background these are ignored, and so they would be by all that is started here.
        signal.signal(signal.SIGINT, signal.default_int_handler)
        signal.signal(signal.SIGHUP, signal.SIG_DFL)
        parts, chosen, lacking = {part for part, _ in self.cases}, [], set(words)
        for part, case in self.cases:
            what = spoken(case)
            named = lambda word: word == part if word in parts else word.replace("_", " ") in what
            naming = set(filter(named, words))
            lacking -= naming
            if naming or not words and case not in self.named:
                chosen.append(case)
        if lacking:
            print(f"{self.name}: no check has {min(lacking, key=words.index)!r} in its name", file=sys.stderr)
            sys.exit(2)
        counts = dict.fromkeys(("passed", "failed", "skipped"), 0)

        def tell(end, said):
            print(f"{self.name}: {said}", flush=True)
            counts[end] += 1

        with concurrent.futures.ThreadPoolExecutor(len(self.aside) or 1) as others:
            beside = [others.submit(attempt, case) for case in chosen if case in self.aside]
            for case in chosen:
                if case not in self.aside:
                    tell(*attempt(case))
            for other in beside:
                tell(*other.result())
        tail = f", {counts['skipped']} skipped" if counts["skipped"] else ""
        print(f"{self.name}: {counts['passed']} passed, {counts['failed']} failed{tail}")
        sys.exit(counts["failed"] != 0)


def spoken(case):
    """A check's name, in words."""
    return case.__name__.replace("_", " ")


def attempt(case):
    """Makes a check in a folder of its own: how it ended, and a line on that."""
    what, folder, begin = spoken(case), tempfile.mkdtemp(prefix="mk-"), time.monotonic()
    try:
        case(pathlib.Path(folder))
        return "passed", f"{what}: ok ({time.monotonic() - begin:.0f} s)"
    except Skip as reason:
        return "skipped", f"{what}: skipped: {reason}"
    except Exception as fault:
        frame = traceback.extract_tb(fault.__traceback__)
        ours = lambda f: f.filename.startswith(str(TOP / "tests")) and "rig" not in f.filename
        at = next((f for f in reversed(frame) if ours(f)), frame[-1])
        return "failed", f"{what}: failed at line {at.lineno}: {type(fault).__name__}: {fault}"
    finally:
        shutil.rmtree(folder, ignore_errors=True)
