#!/usr/bin/env python3
"""`agent_prog serve` on real sockets: OpenSSH's ssh-add does to it what it does to ssh-agent in the same run, and it
bears many clients, clients that don't read, helpers that are killed or hang, a stop, and a shortage of descriptors. Words
choose checks by a part of their names; with the environment variable AGENT another program is taken for agent_prog. Five
minutes are only for who names it: `tests/serve.py dialog`."""

import atexit
import contextlib
import functools
import hashlib
import hmac
import os
import pathlib
import re
import shutil
import signal
import socket
import struct
import subprocess
import sys
import tempfile
import time

sys.dont_write_bytecode = True

import rig
from frames import Ended, string
from rig import (
    ADD,
    ADD_LIMITED,
    EXTENSION,
    FAILURE,
    IDENTITIES,
    LIST,
    SIGN,
    SIGNATURE,
    SUCCESS,
    children,
    is_alive,
    openssh_agent,
    our_agent,
    run,
    stand_in_key,
    until,
    zombies,
)

check = rig.Checks("serve")
PROGRAM = rig.agent_program()
KINDS = (("ed25519", 256), ("rsa", 2048), ("rsa", 3072), ("ecdsa", 256), ("ecdsa", 384), ("ecdsa", 521))
CLIENTS = 128


def keygen(path, *words, kind="ed25519", bits=256, comment=None):
    run(["ssh-keygen", "-q", "-t", kind, "-b", bits, "-N", "", "-C", comment or path.name, "-f", path, *words])
    return path


@functools.cache
def made():
    """A folder with a key of each kind, and one with certificates beside them: RSA's take long to make."""
    place = pathlib.Path(tempfile.mkdtemp(prefix="mk-"))
    atexit.register(shutil.rmtree, place, ignore_errors=True)
    for name in ("plain", "certified"):
        (place / name).mkdir()
    authority = keygen(place / "authority")
    for kind, bits in KINDS:
        key = keygen(place / f"plain/{kind}{bits}", kind=kind, bits=bits)
        for file in (key, f"{key}.pub"):
            shutil.copy2(file, place / "certified")
        run(["ssh-keygen", "-q", "-s", authority, "-I", "me", "-n", "root", place / f"certified/{key.name}.pub"])
    return place


def keys_of_each_kind(folder, name):
    """Keys of a folder's own; `name` is plain or certified."""
    shutil.copytree(made() / name, folder, dirs_exist_ok=True)
    return [folder / f"{kind}{bits}" for kind, bits in KINDS]


def serve(folder, *words, **more):
    return our_agent(PROGRAM, folder, *words, **more)


def added(peer, tag=b"t" * 32, key=rig.plain_key):
    """Adds a key, and answers its blob."""
    fields, comment, blob = key(tag)
    assert peer.ask(ADD, fields, comment) == bytes([SUCCESS])
    return blob


# Beside OpenSSH's agent.


def alike(folder, steps, *words):
    """Has ssh-add do the steps to both agents: what it prints, its status, and the list afterwards are the same. A step
    is its words; a number is a wait of so many seconds."""
    with serve(folder, *words) as ours, openssh_agent(folder, *words) as theirs:
        for step in steps:
            if isinstance(step, (int, float)):
                time.sleep(step)
                continue
            typed, words = (step[0], step[1:]) if isinstance(step[0], bytes) else (None, step)
            seen = []
            for agent in (ours, theirs):
                # A session of its own has no terminal, so that a passphrase is a line of the standard input.
                done = subprocess.run(
                    ["ssh-add", *map(str, words)],
                    input=typed,
                    stdout=subprocess.PIPE,
                    stderr=subprocess.STDOUT,
                    env=agent.environment,
                    start_new_session=True,
                    timeout=60,
                )
                listed = agent.run("ssh-add", "-L", status=None)
                seen.append((done.returncode, done.stdout.decode(errors="replace"), listed))
            assert seen[0] == seen[1], f"ssh-add {' '.join(map(str, words))}: ours {seen[0]}, ssh-agent {seen[1]}"


@check
def ssh_add_adds_lists_and_removes_keys_of_each_kind(folder):
    keys = keys_of_each_kind(folder, "plain")
    steps = [["-l"], ["-L"], ["-D"]]
    for key in keys:
        steps += [[key], ["-l"], ["-L"]]
    steps += [
        [keys[2]],
        ["-l"],
        ["-d", f"{keys[1]}.pub"],
        ["-d", keys[1]],
        ["-d", f"{keys[1]}.pub"],
        ["-l"],
        [keys[1]],
    ]
    steps += [["-l"], ["-D"], ["-l"], ["-D"]]
    alike(folder, steps)


@check
def ssh_add_adds_and_removes_certificates(folder):
    steps = []
    for key in keys_of_each_kind(folder, "certified"):
        steps += [[key], ["-l"], ["-L"]]
    steps += [["-d", folder / "rsa2048"], ["-l"], ["-k", folder / "rsa2048"], ["-l"], ["-D"]]
    alike(folder, steps)


@check
def ssh_add_locks_and_unlocks(folder):
    key, other = keygen(folder / "key"), keygen(folder / "other")
    alike(
        folder,
        [
            [key],
            [b"one\none\n", "-x"],
            ["-l"],
            ["-L"],
            ["-D"],
            [other],
            ["-d", key],
            [b"one\none\n", "-x"],
            [b"two\n", "-X"],
            ["-l"],
            [b"one\n", "-X"],
            ["-l"],
            [b"one\n", "-X"],
            [b"a b c\na b c\n", "-x"],
            [b"a b\n", "-X"],
            [b"a b c\n", "-X"],
            ["-T", f"{key}.pub"],
        ],
    )


def as_lives_permit(folder, steps, *words):
    """Compares the steps for keys that live two seconds, or longer where the machine is too busy for that."""
    for life in (2, 15, 60):
        try:
            return alike(folder, steps(str(life)), *(word or str(life) for word in words))
        except AssertionError:
            if life == 60:
                raise


@check
def lifetimes_end_where_ssh_agent_s_do(folder):
    one, two, three = (keygen(folder / name) for name in ("one", "two", "three"))
    steps = lambda life: [
        ["-t", life, one],
        ["-t", "1h", two],
        [three],
        ["-l"],
        int(life) + 1.2,
        ["-l"],
        ["-t", life, two],
        ["-t", "1h", two],
        int(life) + 1.2,
        ["-l"],
    ]
    as_lives_permit(folder, steps)


@check
def the_lifetime_of_the_words_holds_for_keys_without_one(folder):
    one, two = (keygen(folder / name) for name in ("one", "two"))
    steps = lambda life: [[one], ["-t", "1h", two], ["-l"], int(life) + 1.2, ["-l"]]
    as_lives_permit(folder, steps, "-t", "")


@check
def constraints_are_taken_as_ssh_agent_does(folder):
    key = keygen(folder / "key")
    alike(folder, [["-c", key], ["-l"], ["-c", "-t", "5m", key], ["-l"], ["-t", "5m", key], ["-l"]])


@check
def destinations_are_taken_as_ssh_agent_does(folder):
    key = keygen(folder / "key")
    keygen(folder / "host")
    hosts = folder / "known_hosts"
    hosts.write_text("host.example " + (folder / "host.pub").read_text())
    alike(
        folder,
        [["-h", "host.example", "-H", hosts, key], ["-l"], ["-h", "me@host.example", "-H", hosts, key], ["-l"]],
    )


@check
def what_no_agent_knows_is_refused(folder):
    with serve(folder) as ours, openssh_agent(folder, stderr=subprocess.DEVNULL) as theirs:
        for body in (
            b"\x01",
            b"\x02",
            b"\x09",
            b"\x14",
            b"\xc8",
            b"\xff" * 100,
            bytes([EXTENSION]) + string(b"none@example.com"),
        ):
            answers = []
            for agent in (ours, theirs):
                with agent.peer() as peer:
                    peer.send(body)
                    answers.append(peer.reply()[:1])
            if body[0] not in (1, 9):  # requests of SSH's first protocol, which OpenSSH answers as none
                assert answers[0] == answers[1], (body[:1], answers)


@check
def keys_of_each_kind_sign(folder):
    rig.built("mortarleek_signer")
    with serve(folder) as ours, openssh_agent(folder) as theirs:
        for key in keys_of_each_kind(folder, "certified"):
            for agent in (ours, theirs):
                agent.run("ssh-add", "-q", key)
                agent.run("ssh-add", "-T", f"{key}.pub")
                agent.run("ssh-add", "-T", f"{key}-cert.pub")
                agent.run("ssh-add", "-q", "-D")
                agent.run("ssh-add", "-T", f"{key}.pub", status=1)


# Sockets.


@check
def the_socket_is_of_mode_0600_before_anybody_can_connect(folder):
    previous = os.umask(0)
    try:
        with serve(folder) as agent:
            assert os.stat(agent.path).st_mode & 0o7777 == 0o600
            assert sorted(os.listdir(folder)) == ["ours.sock", "ours.sock.lock"], "another file is made"
    finally:
        os.umask(previous)


@check
def a_stale_socket_is_replaced_and_a_live_one_never(folder):
    agent = serve(folder)
    agent.process.kill()
    agent.process.wait()
    assert os.path.exists(agent.path)
    with serve(folder) as live:
        with live.peer() as peer:
            blob = added(peer)
        before = os.stat(live.path).st_ino
        said = run([PROGRAM, "serve", "-a", live.path, "--helper", "/bin/false"], 3, timeout=10)
        assert said.count("\n") == 1, said
        assert os.stat(live.path).st_ino == before
        with live.peer() as peer:
            assert [key for key, _ in peer.blobs()] == [blob]


@check
def what_isn_t_a_socket_is_left_alone(folder):
    path, lock = folder / "ours.sock", folder / "ours.sock.lock"
    for make in (
        lambda: path.write_text("kept\n"),
        lambda: path.mkdir(),
        lambda: path.symlink_to(folder / "x"),
    ):
        make()
        run([PROGRAM, "serve", "-a", path, "--helper", "/bin/false"], 3, timeout=10)
        assert path.is_symlink() or path.is_dir() or path.read_text() == "kept\n"
        assert sorted(folder.iterdir()) == sorted([path, lock]), list(folder.iterdir())
        path.rmdir() if path.is_dir() and not path.is_symlink() else path.unlink()


@check
def statuses_and_their_lines(folder):
    path = str(folder / "s")
    for words in (
        [],
        ["-a", path],
        ["--helper", "h"],
        ["-a", path, "--helper", "h", "-t", "1x"],
        ["-a", path, "--helper", "h", "--confirm-limit", "0"],
        ["-a", path, "--helper", "h", "--confirm-limit", "1x"],
        ["-a", path, "--helper", "h", "--confirm-limit", "4294967296"],
        ["-a", path, "--helper", "h", "--confirm-limit", "5", "--confirm-limit", "5"],
        ["-a", path, "--helper", "h", "--relay", "r"],
        ["-a", path, "--helper", "h", "more"],
        ["--help"],
    ):
        said = run([PROGRAM, "serve", *words], 2, timeout=10)
        assert said.count("\n") == 1 and not os.path.exists(path), said
    said = run([PROGRAM, "serve", "-a", str(folder / "none/s"), "--helper", "h"], 3, timeout=10)
    assert said.count("\n") == 1, said
    said = run([PROGRAM, "serve", "-a", str(folder / ("x" * 200)), "--helper", "h"], 3, timeout=10)
    assert said.count("\n") == 1, said


@check
def until_idle_it_ends_with_0_and_takes_the_socket_away(folder):
    agent = serve(folder, "--until-idle")
    time.sleep(0.3)
    assert agent.process.poll() is None
    first, second = agent.peer(), agent.peer()
    added(first)
    first.close()
    assert len(second.blobs()) == 1
    time.sleep(0.2)
    assert agent.process.poll() is None
    second.close()
    assert agent.process.wait(10) == 0
    assert not os.path.exists(agent.path)


@check
def after_SIGTERM_the_front_end_takes_the_socket_away(folder):
    bin = folder / "bin"
    bin.mkdir()
    rig.lay_scripts(bin)
    for name, source in (("agent_prog", PROGRAM), ("mortarleek_signer", "/bin/true")):
        run(["cp", source, bin / name])
    path = folder / "s"
    process = subprocess.Popen([bin / "mortarleek-agent", "-D", "-a", path], stdout=subprocess.PIPE, text=True)
    process.stdout.readline()
    assert "no identities" in run(["ssh-add", "-l"], 1, env=dict(os.environ, SSH_AUTH_SOCK=str(path)))
    process.terminate()
    assert process.wait(10) == 2
    process.stdout.close()
    # the lock of its path stays
    assert sorted(folder.iterdir()) == [bin, folder / "s.lock"]


# Many clients, and slow ones.


@check
def a_hundred_and_twenty_eight_clients_at_once(folder):
    with serve(folder) as agent:
        peers = [agent.peer() for _ in range(CLIENTS)]
        blob = added(peers[0])
        for _ in range(3):
            for peer in peers:
                peer.send(bytes([LIST]), b"\xc8")
            for peer in peers:
                assert blob in peer.reply() and peer.reply() == bytes([FAILURE])
        rig.one_more_waits(agent, peers)


@check
def clients_that_come_and_go(folder):
    with serve(folder) as agent:
        for number in range(1000):
            with agent.peer() as peer:
                peer.send(bytes([LIST]))
                if number % 2:
                    assert peer.reply()[0] == IDENTITIES
        fds = pathlib.Path(f"/proc/{agent.process.pid}/fd")
        until(lambda: len(list(fds.iterdir())) < 20, what="the closing of clients' descriptors")
        before = rig.spent(agent.process.pid)
        time.sleep(1)
        assert rig.spent(agent.process.pid) - before <= 0.02


@check
def a_client_that_stops_reading_holds_up_nobody(folder):
    with serve(folder) as agent:
        with agent.peer() as slow, agent.peer() as quick:
            for number in range(60):
                added(quick, bytes([number]) * 32)
            listed = quick.ask(LIST)
            count = 0
            slow.socket.settimeout(0.5)
            try:
                while count < 20000:
                    slow.send(bytes([LIST]))
                    count += 1
            except TimeoutError:
                pass
            begin = time.monotonic()
            for _ in range(200):
                assert quick.ask(LIST) == listed
            assert time.monotonic() - begin < 60
            memory = re.search(r"VmRSS:\s+(\d+)", pathlib.Path(f"/proc/{agent.process.pid}/status").read_text())
            assert int(memory[1]) < 100_000, memory[0]
            before = rig.spent(agent.process.pid)
            time.sleep(1)
            assert rig.spent(agent.process.pid) - before <= 0.05, "it is busy while nothing can be done"
            slow.socket.settimeout(20)
            for _ in range(count):
                assert slow.reply() == listed
            assert slow.ask(LIST) == listed


@check
def requests_in_single_bytes_and_many_at_once(folder):
    with serve(folder) as agent, agent.peer() as peer:
        blob = added(peer)
        for byte in string(bytes([LIST])):
            peer.socket.sendall(bytes([byte]))
            time.sleep(0.01)
        assert blob in peer.reply()
        peer.send(*[b"\xc8"] * 500)
        for _ in range(500):
            assert peer.reply() == bytes([FAILURE])
        peer.send(b"\xc8" * 262144)
        assert peer.reply() == bytes([FAILURE])
        # what came before a length that no message has is answered, and then the connection ends
        peer.socket.sendall(string(b"\xc8") + struct.pack(">I", 262145) + b"rest")
        assert peer.reply() == bytes([FAILURE])
        assert peer.has_ended()
        with agent.peer() as other:
            other.socket.sendall(bytes(4))
            assert other.has_ended()
        # Bytes and the end at once: the reply may come or not, as with ssh-agent, and the connection ends.
        with agent.peer() as other:
            other.send(bytes([LIST]))
            other.socket.shutdown(socket.SHUT_WR)
            try:
                assert blob in other.reply() and other.has_ended()
            except Ended:
                pass


@check
def a_descriptor_sent_along_is_not_kept(folder):
    with serve(folder) as agent, agent.peer() as peer:
        fds = pathlib.Path(f"/proc/{agent.process.pid}/fd")
        peer.ask(LIST)
        before = len(list(fds.iterdir()))
        for _ in range(20):
            socket.send_fds(peer.socket, [string(bytes([LIST]))], [0, 1, 2])
            assert peer.reply()[0] == IDENTITIES
        assert len(list(fds.iterdir())) == before


# Stops and shortages.


@check
def a_stopped_agent_goes_on(folder):
    with serve(folder) as agent, agent.peer() as before:
        blob = added(before)
        agent.process.send_signal(signal.SIGSTOP)
        time.sleep(0.1)
        during = [agent.peer() for _ in range(20)]
        for peer in (before, *during):
            peer.send(bytes([LIST]))
        time.sleep(0.3)
        agent.process.send_signal(signal.SIGCONT)
        for peer in (before, *during):
            assert blob in peer.reply()
            peer.close()
        for _ in range(20):
            agent.process.send_signal(signal.SIGSTOP)
            agent.process.send_signal(signal.SIGCONT)
        with agent.peer() as peer:
            assert blob in peer.ask(LIST)


@check
def a_shortage_of_descriptors_starves_nobody(folder):
    with serve(folder, limits=["prlimit", "--nofile=20:20"]) as agent:
        peers = [agent.peer() for _ in range(30)]
        for peer in peers:
            peer.send(bytes([LIST]))

        def served(seconds):
            found = set()
            end = time.monotonic() + seconds
            for peer in peers:
                peer.socket.settimeout(max(0.05, min(0.3, end - time.monotonic())))
                try:
                    if peer.socket.recv(4096):
                        found.add(peer)
                except TimeoutError:
                    pass
            return found

        first = served(3)
        assert 5 <= len(first) < 30, len(first)
        before = rig.spent(agent.process.pid)
        time.sleep(2)
        assert rig.spent(agent.process.pid) - before <= 0.1, "it is busy while descriptors are short"
        for peer in first:
            peer.close()
        peers = [peer for peer in peers if peer not in first]
        time.sleep(1.2)
        second = served(6)
        assert len(second) >= min(len(first), len(peers)) - 2, (len(first), len(second))
        for peer in second:
            peer.close()
        peers = [peer for peer in peers if peer not in second]
        time.sleep(1.2)
        assert len(served(6)) == len(peers)
        for peer in peers:
            peer.close()
        with agent.peer() as peer:
            assert peer.ask(LIST)[0] == IDENTITIES


# Helpers.


def signed(agent, key):
    """Whether a signature is made."""
    quiet = dict(stdout=subprocess.DEVNULL, stderr=subprocess.DEVNULL)
    return subprocess.run(["ssh-add", "-T", f"{key}.pub"], env=agent.environment, timeout=60, **quiet).returncode == 0


@check
def a_killed_helper_is_started_again_at_the_next_request(folder):
    rig.built("mortarleek_signer")
    key = keygen(folder / "key")
    with serve(folder) as agent:
        agent.run("ssh-add", "-q", key)
        assert children(agent.process.pid) == []
        for _ in range(5):
            assert signed(agent, key)
            (helper,) = children(agent.process.pid)
            assert signed(agent, key)
            assert children(agent.process.pid) == [helper]
            os.kill(helper, signal.SIGKILL)
            until(lambda: not is_alive(helper))
        assert zombies(agent.process.pid) <= 1
        assert signed(agent, key)


@check
def many_helpers_leave_no_process_behind(folder):
    rig.built("mortarleek_signer")
    key = keygen(folder / "key")
    with serve(folder) as agent, agent.peer() as peer:
        agent.run("ssh-add", "-q", key)
        ((blob, _),) = peer.blobs()
        helpers = set()
        for _ in range(30):
            assert peer.ask(SIGN, string(blob), string(b"message"), bytes(4))[0] == SIGNATURE
            (helper,) = children(agent.process.pid)
            helpers.add(helper)
            os.kill(helper, signal.SIGKILL)
            until(lambda: not is_alive(helper))
            # one that ended is waited for once a connection ends or the next is started
            assert zombies(agent.process.pid) <= 1
        assert len(helpers) == 30
        agent.peer().close()
        until(lambda: zombies(agent.process.pid) == 0, what="the end of the last helper")
        assert children(agent.process.pid) == []


@check
def clients_that_sign_at_once_get_an_answer_each(folder):
    rig.built("mortarleek_signer")
    key = keygen(folder / "key")
    with serve(folder) as agent:
        agent.run("ssh-add", "-q", key)
        peers = [agent.peer() for _ in range(CLIENTS)]
        ((blob, _),) = peers[0].blobs()
        request = bytes([SIGN]) + string(blob) + string(b"message") + bytes(4)
        # Ed25519 signs one message in one way.
        wanted = peers[0].ask(request[0], request[1:])
        assert wanted[0] == SIGNATURE
        for round in range(4):
            for peer in peers:
                peer.send(request)
            if round == 2:
                os.kill(children(agent.process.pid)[0], signal.SIGKILL)
            answers = {peer.reply() for peer in peers}
            assert answers == {wanted} or round == 2 and answers <= {wanted, bytes([FAILURE])}, round
        for peer in peers:
            peer.close()


@check
def a_helper_that_dies_while_it_signs_is_a_refusal(folder):
    rig.built("mortarleek_signer")
    key = keygen(folder / "key")
    with serve(folder) as agent:
        agent.run("ssh-add", "-q", key)
        assert signed(agent, key)
        (helper,) = children(agent.process.pid)
        os.kill(helper, signal.SIGSTOP)
        blob = next(blob for blob, _ in agent.peer().blobs())
        with agent.peer() as peer, agent.peer() as other:
            peer.send(bytes([SIGN]) + string(blob) + string(b"message") + bytes(4))
            # nobody else waits meanwhile
            assert other.ask(LIST)[0] == IDENTITIES
            time.sleep(0.2)
            os.kill(helper, signal.SIGKILL)
            assert peer.reply() == bytes([FAILURE])
        assert signed(agent, key)


@check
def a_helper_that_isn_t_there_is_a_refusal(folder):
    key = keygen(folder / "key")
    for helper in ("/nowhere/at/all", "/etc/passwd"):
        with serve(folder, helper=helper) as agent:
            agent.run("ssh-add", "-q", key)
            for _ in range(3):
                assert not signed(agent, key)
            assert "key" in agent.run("ssh-add", "-l")


# What the agent hands on of its environment, and of that the relay to the program that asks.
DIALOG = """HOME LANG TERM DISPLAY XAUTHORITY WAYLAND_DISPLAY XDG_RUNTIME_DIR DBUS_SESSION_BUS_ADDRESS LANGUAGE LC_ALL
LC_CTYPE LC_MESSAGES XDG_CURRENT_DESKTOP XDG_SESSION_TYPE DESKTOP_SESSION KDE_FULL_SESSION KDE_SESSION_VERSION GDK_SCALE
GDK_DPI_SCALE QT_SCALE_FACTOR XCURSOR_SIZE XCURSOR_THEME""".split()
KEPT = ["PATH", *DIALOG, "MORTARLEEK_MANAGER"]
CODE = dict(LD_LIBRARY_PATH="/l", LD_PRELOAD="", GTK_MODULES="m", QT_PLUGIN_PATH="/q", PYTHONPATH="/p")


@check
def a_helper_gets_its_words_the_kept_variables_and_three_descriptors(folder):
    # `read` is the shell's own, so the process that is looked at is the one that the agent started.
    helper = rig.script(
        folder / "helper", f'printf "%s\\n" "$$" "$@" > {folder}/words; mv {folder}/words {folder}/told; read x < {folder}/end'
    )
    os.mkfifo(folder / "end")
    kept = {name: f"the {name}" for name in KEPT} | {"PATH": os.environ["PATH"]}
    more = dict(SECRET="s", SSH_AUTH_SOCK="/other", LD_LIBRARY_PATH="/l", LC_NUMERIC="C", HOMES="h")
    opened = os.open(folder, os.O_RDONLY)
    try:
        with serve(
            folder, "--helper-data", "/some/data", helper=helper, env=kept | more, pass_fds=[opened]
        ) as agent, agent.peer() as peer, agent.peer():
            blob = added(peer, key=stand_in_key)
            peer.send(bytes([SIGN]) + string(blob) + string(b"message") + bytes(4))
            until((folder / "told").exists, what="the helper")
            pid, socket_path, job, ticket, data = (folder / "told").read_text().splitlines()
            assert children(agent.process.pid) == [int(pid)]
            assert (socket_path, job, ticket, data) == ("-", "1", "-", "/some/data")
            entries = pathlib.Path(f"/proc/{pid}/environ").read_bytes().decode().rstrip("\0").split("\0")
            shown = dict(entry.split("=", 1) for entry in entries)
            assert re.fullmatch("[0-9a-f]{32}", shown.pop("MORTARLEEK_TICKET")) and shown == kept, entries
            fds = pathlib.Path(f"/proc/{pid}/fd")
            places = {int(fd.name): os.readlink(fd) for fd in fds.iterdir()}
            # beside the script, which the shell reads
            places = {fd: place for fd, place in places.items() if place != str(helper)}
            assert sorted(places) == [0, 1, 2] and places[1] == "/dev/null", places
            assert places[0].startswith("socket:"), places
            os.kill(int(pid), signal.SIGKILL)
    finally:
        os.close(opened)


@check
def a_false_ticket_is_turned_away(folder):
    helper = rig.HandedOver(folder)
    with contextlib.closing(helper), serve(folder, helper=helper.program) as agent, agent.peer() as peer:
        blob = added(peer, key=stand_in_key)
        request = bytes([SIGN]) + string(blob) + string(b"message") + bytes(4)
        peer.send(request)
        liar = helper.wait(1)
        assert liar.hello(bytes(16)).has_ended() and peer.reply() == bytes([FAILURE])
        peer.send(request)
        child = helper.wait(2).hello()
        body = child.reply()
        assert body[0] == 1 and blob in body
        (ask,) = struct.unpack(">Q", body[1:9])
        child.socket.sendall(string(struct.pack(">BQ", 101, ask) + string(b"signed")))
        assert peer.reply() == bytes([SIGNATURE]) + string(b"signed")


@check
def the_helper_for_tests_signs(folder):
    rig.built("standin_helper")
    with serve(folder, "--until-idle", helper=rig.BUILT / "standin_helper") as agent:
        with agent.peer() as peer:
            blob = added(peer, key=stand_in_key)
            body = peer.ask(SIGN, string(blob), string(b"Hi There"), bytes(4))
            mac = hmac.new(bytes(range(32)), b"Hi There", hashlib.sha256).digest()
            assert body == bytes([SIGNATURE]) + string(string(b"keyed-sha256@example.com") + string(mac)), body
        assert agent.process.wait(10) == 0


# What waits too long.

ASK_LIMIT, CONFIRM_LIMIT = 60, 300


class Hanging:
    """An agent with a helper that does nothing but hand its connection over, so that this process can take its place."""

    def __init__(self, folder, name):
        self.helper = rig.HandedOver(folder, f"{name}.helper")
        self.agent = serve(folder, name=name, helper=self.helper.program)
        self.client = self.agent.peer(seconds=100)
        self.blob = added(self.client, key=stand_in_key)

    def __enter__(self):
        return self

    def __exit__(self, *_):
        self.client.close()
        self.agent.end()
        self.helper.close()

    def ask(self):
        self.client.send(bytes([SIGN]) + string(self.blob) + string(b"message") + bytes(4))
        self.began = time.monotonic()

    def waited(self):
        return time.monotonic() - self.began

    def hello(self, job):
        """Speaks in the place of a helper, once that was started."""
        started = self.helper.wait(job)
        assert started.job == job
        return started.hello()

    def request(self, child, ask):
        """The helper is asked for a signature."""
        body = child.reply()
        assert body[:9] == struct.pack(">BQ", 1, ask) and self.blob in body, body

    def answer(self, child, ask):
        child.socket.sendall(string(struct.pack(">BQ", 101, ask) + string(b"signed")))

    def asks(self, job):
        """The client asks, and what takes the place of this job's helper has the request."""
        self.ask()
        child = self.hello(job)
        self.request(child, job)
        return child

    def refused(self):
        """The client is refused by the limit; others are served meanwhile."""
        time.sleep(ASK_LIMIT / 2)
        with self.agent.peer() as other:
            assert [blob for blob, _ in other.blobs()] == [self.blob]
        assert self.client.reply() == bytes([FAILURE])
        # Whole seconds are counted, so the first of them may be short.
        assert ASK_LIMIT - 1 <= self.waited() < ASK_LIMIT + 15, self.waited()

    def goes_on(self):
        """The next request has a helper of its own, which signs."""
        assert [blob for blob, _ in self.client.blobs()] == [self.blob]
        self.answer(self.asks(2), 2)
        assert self.client.reply() == bytes([SIGNATURE]) + string(b"signed")
        assert len(self.helper.all()) == 2


@check.beside
def a_helper_that_never_says_hello_is_given_up(folder):
    with Hanging(folder, "silent") as run:
        run.ask()
        run.refused()
        # The agent ends the process, too, and what it may still have said goes nowhere.
        child = run.helper.wait(1)
        until(lambda: not is_alive(child.pid), 5, what="the end of the helper")
        assert child.peer.has_ended()
        run.goes_on()


@check.beside
def a_helper_that_hangs_is_given_up(folder):
    with Hanging(folder, "hanging") as run:
        child = run.asks(1)
        run.refused()
        assert child.has_ended()
        run.goes_on()


@check.beside
def a_helper_that_answers_after_61_seconds_answers_nobody(folder):
    with Hanging(folder, "late") as run:
        child = run.asks(1)
        run.refused()
        time.sleep(max(0, ASK_LIMIT + 1 - run.waited()))
        with contextlib.suppress(BrokenPipeError, ConnectionResetError):
            run.answer(child, 1)
        assert child.has_ended()
        run.goes_on()


def asked_for(agent, key, question):
    """A client that has a signature tried, once the user is asked: that writes the question to a file."""
    client = subprocess.Popen(
        ["ssh-add", "-T", f"{key}.pub"],
        env=agent.environment,
        stdout=subprocess.DEVNULL,
        stderr=subprocess.DEVNULL,
    )
    until(question.exists, what="the question")
    return client


@check
def a_confirmation_is_asked_and_holds_up_nobody(folder):
    rig.built("confirm_relay")
    rig.built("mortarleek_signer")
    relay = rig.BUILT / "confirm_relay"
    key = keygen(folder / "key")
    asker = rig.script(
        folder / "ask",
        f'echo "$1" > {folder}/asked; while [ -d {folder} ] && [ ! -e {folder}/go ]; do sleep 0.05; done; '
        f"exec sh {folder}/go",
    )
    with serve(folder, "--relay", relay, "--askpass", asker, stderr=subprocess.DEVNULL) as agent:
        agent.run("ssh-add", "-q", "-c", key)
        for answer, wanted in (
            ("exit 0", 0),
            ("echo yes", 0),
            ("echo Yes", 0),
            ("exit 1", 1),
            ("echo no", 1),
            ("kill -9 $$", 1),
        ):
            waiting = asked_for(agent, key, folder / "asked")
            for _ in range(20):
                assert "key" in agent.run("ssh-add", "-l")
            (folder / "next").write_text(answer + "\n")
            (folder / "next").rename(folder / "go")
            assert waiting.wait(20) == wanted, answer
            asked = (folder / "asked").read_text()
            finger = run(["ssh-keygen", "-lf", f"{key}.pub"]).split()[1]
            assert asked.strip() == f"Allow use of key key?\nKey fingerprint {finger}.", asked
            (folder / "asked").unlink()
            (folder / "go").unlink()
        # a client that leaves while it is asked for
        waiting = asked_for(agent, key, folder / "asked")
        waiting.kill()
        waiting.wait()
        assert "key" in agent.run("ssh-add", "-l")
        (folder / "go").write_text("exit 0\n")


def shown_to_askpass(folder, environment):
    """The variables that the program that asks is started with."""
    asker = rig.script(folder / "ask", f"/usr/bin/env -0 > {folder}/shown; exit 1")
    words = ["--relay", rig.built("confirm_relay"), "--askpass", asker]
    with serve(folder, *words, env=environment, helper="/bin/false", stderr=subprocess.DEVNULL) as agent:
        with agent.peer() as peer:
            fields, comment, blob = stand_in_key(b"t" * 32)
            assert peer.ask(ADD_LIMITED, fields, comment, b"\2") == bytes([SUCCESS])
            assert peer.ask(SIGN, string(blob), string(b"message"), bytes(4)) == bytes([FAILURE])
    shown = dict(entry.split("=", 1) for entry in (folder / "shown").read_text().rstrip("\0").split("\0"))
    # what the shell of the script sets itself
    return {name: value for name, value in shown.items() if name not in ("PWD", "OLDPWD", "SHLVL", "_")}


@check
def the_program_that_asks_gets_what_a_dialog_needs_and_nothing_that_names_code(folder):
    given = {name: f"the {name}" for name in DIALOG} | CODE | dict(PATH=os.environ["PATH"], SECRET="s")
    wanted = {name: f"the {name}" for name in DIALOG} | dict(SSH_ASKPASS_PROMPT="confirm")
    assert shown_to_askpass(folder, given) == wanted


@check
def where_no_display_was_there_the_manager_tells_it(folder):
    told = "DISPLAY=:9\nGTK_MODULES=m\nLANG=$'a\\nb'\nXAUTHORITY=/x y\nWAYLAND_DISPLAY\n"
    (folder / "variables").write_text(told)
    manager = rig.script(folder / "manager", f'[ "$*" = "--user show-environment" ] && cat {folder}/variables')
    given = dict(PATH=os.environ["PATH"], MORTARLEEK_MANAGER=str(manager), LANG="C")
    wanted = dict(DISPLAY=":9", XAUTHORITY="/x y", LANG="C", SSH_ASKPASS_PROMPT="confirm")
    assert shown_to_askpass(folder, given) == wanted


@check
def a_question_ends_by_the_limit_that_is_chosen(folder):
    relay = rig.built("confirm_relay")
    key = keygen(folder / "key")
    asker = rig.script(folder / "ask", f"echo $$ > {folder}/asked\nexec sleep 600")
    words = ["--relay", relay, "--askpass", asker, "--confirm-limit", "2", "--record"]
    with open(folder / "record", "wb") as file:
        with serve(folder, *words, stdout=file, stderr=subprocess.DEVNULL) as agent:
            agent.run("ssh-add", "-q", "-c", key)
            with agent.peer() as peer:
                ((blob, _),) = peer.blobs()
                begin = time.monotonic()
                peer.send(bytes([SIGN]) + string(blob) + string(b"message") + bytes(4))
                dialog = int(until(lambda: (folder / "asked").exists() and (folder / "asked").read_text()))
                assert peer.reply() == bytes([FAILURE])
                # Whole seconds are counted, so the first of them may be short.
                waited = time.monotonic() - begin
                assert 1 <= waited < 12, waited
                until(lambda: not is_alive(dialog), what="the dialog's end")
                assert peer.ask(LIST)[0] == IDENTITIES
    # The same of its record, run with the same word. Without it the question is open still, so that the client is owed no
    # refusal, and the line where it takes one is refused.
    for chosen, status, fails in (["--confirm-limit", "2"], 0, 1), (["-t", "1h", "--confirm-limit", "2s"], 0, 1), ([], 1, 0):
        with open(folder / "record", "rb") as file:
            ran = subprocess.run([PROGRAM, "replay", *chosen], stdin=file, capture_output=True, text=True)
        done = ran.stdout
        assert ran.returncode == status, (chosen, done, ran.stderr)
        assert len(re.findall(r"^to [0-9]+ 0000000105$", done, re.M)) == fails, (chosen, done)


@check
def words_of_replay_choose_a_limit_in_one_form(folder):
    for chosen in (
        ["--confirm-limit"],
        ["--confirm-limit", "0"],
        ["--confirm-limit", "0s"],
        ["--confirm-limit", "x"],
        ["--confirm-limit", "4294967296"],
        ["--confirm-limit=5"],
        ["--confirm-limit", "5", "-t", "5"],
        ["--confirm-limit", "5", "--confirm-limit", "5"],
        ["-t", "5", "--confirm-limit"],
        ["-t", "5", "--confirm-limit", "0"],
        ["-t", "5", "--confirm-limit", "5", "more"],
        ["-t", "1x", "--confirm-limit", "5"],
    ):
        said = run([PROGRAM, "replay", *chosen], 2, stdin=subprocess.DEVNULL)
        assert said.count("\n") == 1, said
    for chosen in (["--confirm-limit", "1"], ["--confirm-limit", "4294967295"], ["-t", "0", "--confirm-limit", "1h30"]):
        assert run([PROGRAM, "replay", *chosen], stdin=subprocess.DEVNULL) == "end\n"


@check.by_hand
def a_dialog_that_stands_for_301_seconds_goes_away_with_its_port(folder):
    rig.built("confirm_relay")
    key = keygen(folder / "key")
    asker = rig.script(folder / "ask", f"echo $$ > {folder}/asked\nexec sleep 600")
    relay = rig.BUILT / "confirm_relay"
    with serve(folder, "--relay", relay, "--askpass", asker, stderr=subprocess.DEVNULL) as agent:
        agent.run("ssh-add", "-q", "-c", key)
        with agent.peer(seconds=400) as peer, agent.peer() as other:
            ((blob, _),) = other.blobs()
            begin = time.monotonic()
            peer.send(bytes([SIGN]) + string(blob) + string(b"message") + bytes(4))
            dialog = int(until(lambda: (folder / "asked").exists() and (folder / "asked").read_text()))
            time.sleep(begin + CONFIRM_LIMIT - 5 - time.monotonic())
            assert is_alive(dialog) and [key for key, _ in other.blobs()] == [blob]
            assert peer.reply() == bytes([FAILURE])
            waited = time.monotonic() - begin
            assert CONFIRM_LIMIT - 1 <= waited < CONFIRM_LIMIT + 15, waited
            until(lambda: not is_alive(dialog), what="the dialog's end")
            assert [key for key, _ in other.blobs()] == [blob]
            assert peer.ask(LIST)[0] == IDENTITIES


if __name__ == "__main__":
    check.main(PROGRAM)
