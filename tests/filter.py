#!/usr/bin/env python3
"""The built filter before OpenSSH's agent and before ours: logins, forwarded connections, what ssh-add does through it,
crowds, agents that end and come back, and its front end mortarleek-filter. Words choose checks by a part of their names.
With the environment variables AGENT and FILTER other programs are taken for agent_prog and filter_proxy."""

import base64
import contextlib
import os
import pathlib
import select
import shutil
import signal
import socket
import subprocess
import sys
import time

sys.dont_write_bytecode = True

import clients
import rig
from frames import Ended, string
from hosts import Hosts, keygen
from rig import FAILURE, IDENTITIES, LIST, SIGN, Agent, Peer, openssh_agent, our_agent, plain_key, run, until

check = rig.Checks("filter")
PROGRAM = pathlib.Path(os.environ.get("FILTER", rig.BUILT / "filter_proxy"))
MOST, LINKS, SPARES, LONGEST = 128, 64, 16, 262144
# A session bind whose host key no agent reads.
BIND = b"\x1b" + string(b"session-bind@openssh.com") + string(b"key") + string(b"session") + string(b"sg") + b"\0"


def listening(path):
    with socket.socket(socket.AF_UNIX) as peer:
        return peer.connect_ex(str(path)) == 0


def filtered(folder, upstream, text, name="filter", purposes=(), **more):
    """A filter before the agent at a path, with the lines of its list, and for these purposes where there are any."""
    keys, path = folder / f"{name}.keys", folder / f"{name}.sock"
    keys.write_text(text)
    process = subprocess.Popen(
        [rig.there(PROGRAM), keys, upstream, path, *purposes],
        stdin=subprocess.DEVNULL,
        stdout=subprocess.DEVNULL,
        **more,
    )
    until(lambda: process.poll() is not None or listening(path), what="the filter's socket")
    assert process.poll() is None, f"the filter ended with status {process.returncode}"
    return Agent(process, path)


def public(*keys):
    return "".join(pathlib.Path(f"{key}.pub").read_text() for key in keys)


@contextlib.contextmanager
def each_agent(folder):
    """OpenSSH's agent and ours."""
    program = rig.there(rig.agent_program())
    with openssh_agent(folder, stderr=subprocess.DEVNULL) as theirs, our_agent(program, folder) as ours:
        yield theirs, ours


def each_with_two(folder):
    """Each agent in its turn, with a key that is listed and one that isn't."""
    keys = [keygen(folder / name) for name in ("listed", "other")]
    with each_agent(folder) as agents:
        for agent in agents:
            agent.run("ssh-add", "-q", *keys)
            yield agent, keys


@check
def logins_with_a_listed_key_and_with_no_other(folder):
    with Hosts(folder, "one") as hosts:
        for agent, keys in each_with_two(folder):
            with filtered(folder, agent.path, public(keys[0])) as before:
                hosts.allow(keys[0])
                assert hosts.ssh(before, "one", "echo in") == (0, "in\n")
                hosts.allow(keys[1])
                assert hosts.ssh(before, "one", "echo in")[0] == 255
                assert hosts.ssh(agent, "one", "echo in") == (0, "in\n")
                # Also where the client names the key itself.
                asks = ("-o", "IdentitiesOnly=yes", "-i", f"{keys[1]}.pub", "one", "echo in")
                assert hosts.ssh(before, *asks)[0] == 255
                assert hosts.ssh(agent, *asks) == (0, "in\n")


@check
def forwarded_connections_keep_destination_constraints(folder):
    keys = [keygen(folder / name) for name in ("near", "far", "free", "other")]
    with Hosts(folder, "one", "two") as hosts, each_agent(folder) as agents:
        rules = (("-h", "one"), ("-h", "one", "-h", "one>two"), (), ())
        for agent in agents:
            for key, words in zip(keys, rules):
                agent.run("ssh-add", "-q", *words, "-H", hosts.known, key)
            with filtered(folder, agent.path, public(*keys[:3])) as before:
                for key, wanted in zip(keys, (255, 0, 0, 255)):
                    # To the first host everybody comes with the key that may go anywhere.
                    hosts.allow(keys[2], key)
                    only = f"ssh -F {hosts.config} -o IdentitiesOnly=yes -i {key}.pub two 'echo in'"
                    seen = hosts.ssh(before, "-A", "one", only)
                    assert seen[0] == wanted, (key.name, seen)
                    if key is not keys[3]:
                        assert hosts.ssh(agent, "-A", "one", only)[0] == wanted, key.name
                listed = hosts.ssh(before, "-A", "one", "ssh-add -L")
                comments = {line.split()[2] for line in listed[1].splitlines()}
                assert listed[0] == 0 and comments == {"far", "free"}, listed


def logs_in_by(folder, login):
    """A client of SSH that is no OpenSSH logs in through the filter with the key that is listed, and not without it."""
    with Hosts(folder, "one") as hosts:
        words = login(folder, hosts)
        for agent, keys in each_with_two(folder):
            hosts.allow(keys[0])
            for text, status in ((public(keys[0]), 0), (public(keys[1]), None)):
                with filtered(folder, agent.path, text) as before:
                    assert before.run(*words, status=status).startswith("in\n") == (status == 0)


@check
def asyncssh_logs_in_through_it(folder):
    logs_in_by(folder, clients.asyncssh_login)


@check
def go_s_client_logs_in_through_it(folder):
    logs_in_by(folder, clients.go_login)


@check
def what_ssh_add_does_through_it(folder):
    for agent, keys in each_with_two(folder):
        both = agent.run("ssh-add", "-L")
        with filtered(folder, agent.path, public(keys[0])) as before:
            assert before.run("ssh-add", "-L") == public(keys[0])
            assert before.run("ssh-add", "-l") == agent.run("ssh-add", "-l").splitlines(True)[0]
            before.run("ssh-add", "-T", f"{keys[0]}.pub")
            before.run("ssh-add", "-T", f"{keys[1]}.pub", status=1)
            before.run("ssh-add", "-d", keys[0], status=1)
            before.run("ssh-add", "-D", status=1)
            before.run("ssh-add", keys[1], status=1)
            typed = rig.script(folder / "typed", "echo word")
            asking = dict(SSH_ASKPASS=str(typed), SSH_ASKPASS_REQUIRE="force", DISPLAY="none")
            before.run("ssh-add", "-x", status=1, env=asking)
            before.run("ssh-add", "-X", status=1, env=asking)
            assert agent.run("ssh-add", "-L") == both
        with filtered(folder, agent.path, "") as before:
            assert "no identities" in before.run("ssh-add", "-l", status=1)


def shown(key):
    """The public key alone, in a folder of its own: what signs with it has to ask an agent."""
    place = pathlib.Path(f"{key}.shown")
    place.mkdir(exist_ok=True)
    return shutil.copy(f"{key}.pub", place / "key.pub")


def commits(folder, agent, key):
    """Whether git signs a commit with a key that the agent has."""
    place = folder / f"git of {os.path.basename(agent.path)}"
    settings = ["user.name=me", "user.email=me@example.org", "gpg.format=ssh", f"user.signingkey={shown(key)}"]
    git = ["git", "-C", place, *(word for setting in settings for word in ("-c", setting))]
    agent.run("git", "init", "-q", place)
    words = [str(word) for word in (*git, "commit", "-q", "-S", "--allow-empty", "-m", "signed")]
    quiet = dict.fromkeys(("stdin", "stdout", "stderr"), subprocess.DEVNULL)
    return subprocess.run(words, env=agent.environment, timeout=60, **quiet).returncode == 0


def is_for(folder, words, commit, login):
    """What a listed key may do through a filter for some purposes; the agent behind would do both."""
    with Hosts(folder, "one") as hosts:
        for agent, keys in each_with_two(folder):
            hosts.allow(keys[0])
            logs_in = lambda agent: hosts.ssh(agent, "one", "echo in") == (0, "in\n")
            with filtered(folder, agent.path, public(keys[0]), purposes=words) as before:
                assert before.run("ssh-add", "-L") == public(keys[0])
                assert (commits(folder, before, keys[0]), logs_in(before)) == (commit, login), words
            assert commits(folder, agent, keys[0]) and logs_in(agent)


@check
def a_key_for_git_signs_a_commit_and_logs_in_nowhere(folder):
    is_for(folder, ["sshsig:git"], True, False)


@check
def a_key_for_logins_signs_no_commit(folder):
    is_for(folder, ["login"], False, True)


@check
def a_hundred_clients_at_once(folder):
    for agent, keys in each_with_two(folder):
        with agent.peer() as peer:
            blobs = dict((comment, blob) for blob, comment in peer.blobs())
        with filtered(folder, agent.path, public(keys[0])) as before:
            peers = [before.peer() for _ in range(100)]
            for number, peer in enumerate(peers):
                blob = blobs[b"listed" if number % 2 else b"other"]
                peer.send(bytes([LIST]), bytes([SIGN]) + string(blob) + string(b"abc") + bytes(4), bytes([LIST]))
            for number, peer in enumerate(peers):
                replies = [peer.reply() for _ in range(3)]
                assert replies[0] == replies[2] and replies[0][:5] == bytes([IDENTITIES, 0, 0, 0, 1])
                assert replies[1][0] == (rig.SIGNATURE if number % 2 else FAILURE), number
                peer.close()


@check
def more_clients_than_may_be_open_wait(folder):
    with openssh_agent(folder, stderr=subprocess.DEVNULL) as agent, filtered(folder, agent.path, "") as before:
        peers = [before.peer() for _ in range(MOST)]
        assert [peer.ask(LIST)[0] for peer in peers] == [IDENTITIES] * MOST
        rig.one_more_waits(before, peers)


def replied(peers):
    """The clients that have a reply to read."""
    ready = select.select([peer.socket for peer in peers], [], [], 0)[0]
    return [peer for peer in peers if peer.socket in ready]


def owner_waits(agent):
    """For how long the agent's owner waits for a list."""
    begin = time.monotonic()
    with agent.peer() as owner:
        assert owner.ask(LIST)[0] == IDENTITIES
    return time.monotonic() - begin


@check
def idle_clients_leave_the_agent_behind_to_its_owner(folder):
    with our_agent(rig.there(rig.agent_program()), folder) as agent, filtered(folder, agent.path, "") as before:
        for binds, answered in ((False, MOST), (True, LINKS)):
            peers = [before.peer() for _ in range(MOST)]
            for peer in peers:
                peer.send(BIND if binds else bytes([LIST]))
            until(lambda: len(replied(peers)) == answered, what="the replies")
            spent = min(owner_waits(agent) for _ in range(5))
            print(f"filter: the owner's list beside {MOST} clients came in {spent * 1000:.1f} ms")
            assert spent < 0.15, spent
            # Who is bound holds its place, and who waits for one is served once one is left.
            first = replied(peers)
            assert len(first) == answered
            for peer in first + [peer for peer in peers if peer not in first]:
                assert peer.reply()[0] == (FAILURE if binds else IDENTITIES)
                peer.close()


@check
def no_more_than_64_wait_for_the_agent_behind(folder):
    with Behind(folder) as behind, filtered(folder, behind.path, "") as before:
        peers = [before.peer() for _ in range(LINKS + 2)]
        for peer in peers:
            peer.send(bytes([LIST]))
        upstreams = [behind.peer() for _ in range(LINKS)]
        behind.waits()
        for upstream in upstreams:
            assert upstream.reply() == bytes([LIST])
        for place in range(2):
            upstreams[place].send(bytes([FAILURE]))
            assert upstreams[place].has_ended()
            upstreams.append(behind.peer())
            assert upstreams[-1].reply() == bytes([LIST])
        for upstream in upstreams[2:]:
            upstream.send(bytes([FAILURE]))
        assert [peer.reply() for peer in peers] == [bytes([FAILURE])] * len(peers)


@check
def a_client_waits_while_the_agent_behind_has_no_place(folder):
    with Behind(folder, 0) as behind, filtered(folder, behind.path, "") as before, socket.socket(socket.AF_UNIX) as full:
        full.connect(str(behind.path))
        with before.peer() as peer:
            peer.send(bytes([LIST]))
            begin = rig.spent(before.process.pid)
            time.sleep(1)
            assert rig.spent(before.process.pid) - begin < 0.2
            behind.peer().close()
            with behind.peer() as upstream:
                assert upstream.reply() == bytes([LIST])
                upstream.send(bytes([FAILURE]))
            assert peer.reply() == bytes([FAILURE])


@check
def an_agent_that_ends_and_comes_back(folder):
    key = keygen(folder / "key")
    agent = openssh_agent(folder, stderr=subprocess.DEVNULL)
    with filtered(folder, agent.path, public(key)) as before:
        idle, bound = before.peer(), before.peer()
        for peer in (idle, bound):
            assert peer.ask(LIST)[0] == IDENTITIES
        bound.send(BIND)
        assert bound.reply() == bytes([FAILURE])
        agent.end()
        assert bound.has_ended()
        for _ in range(3):
            with before.peer() as peer:
                peer.send(bytes([LIST]))
                assert peer.has_ended()
        begin = rig.spent(before.process.pid)
        time.sleep(1)
        assert rig.spent(before.process.pid) - begin < 0.2
        with contextlib.suppress(FileNotFoundError):
            os.unlink(agent.path)
        with openssh_agent(folder, stderr=subprocess.DEVNULL) as agent:
            agent.run("ssh-add", "-q", key)
            assert before.run("ssh-add", "-L") == public(key)
            # Who asked for nothing meanwhile doesn't notice.
            assert idle.ask(LIST)[0] == IDENTITIES


class Behind:
    """An agent behind a filter, played by this process."""

    def __init__(self, folder, most=200):
        self.path = folder / "behind.sock"
        self.listener = socket.socket(socket.AF_UNIX)
        self.listener.bind(str(self.path))
        self.listener.listen(most)
        self.listener.settimeout(10)

    def __enter__(self):
        return self

    def __exit__(self, *_):
        self.listener.close()

    def peer(self):
        return Peer(self.listener.accept()[0])

    def waits(self):
        """Nobody else connects for a while."""
        self.listener.settimeout(0.3)
        with contextlib.suppress(TimeoutError):
            self.listener.accept()
            raise AssertionError("one more connection")
        self.listener.settimeout(10)


@contextlib.contextmanager
def played(folder, text=""):
    """A filter before an agent that this process plays: the pair of connections of a client that is bound."""
    with Behind(folder) as behind, filtered(folder, behind.path, text) as before, before.peer() as client:
        client.send(BIND)
        with behind.peer() as upstream:
            assert upstream.reply() == BIND
            upstream.send(bytes([FAILURE]))
            assert client.reply() == bytes([FAILURE])
            yield client, upstream, before, behind


def passes(client, upstream, body=bytes([LIST]), answer=bytes([FAILURE])):
    """A request goes over this connection to the agent behind, and the answer back."""
    client.send(body)
    assert upstream.reply() == body
    upstream.send(answer)
    assert client.reply() == answer


@check
def a_connection_is_made_for_the_first_request_and_stays(folder):
    with Behind(folder) as behind, filtered(folder, behind.path, "") as before, before.peer() as client:
        assert client.ask(rig.REMOVE_ALL) == bytes([FAILURE])
        behind.waits()
        client.send(bytes([LIST]), bytes([LIST]))
        with behind.peer() as upstream:
            for answer in (bytes([IDENTITIES, 0, 0, 0, 0]), bytes([FAILURE])):
                assert upstream.reply() == bytes([LIST])
                upstream.send(answer)
                assert client.reply() == answer
            passes(client, upstream, BIND)
            passes(client, upstream)
            behind.waits()
            client.close()
            assert upstream.has_ended()


@check
def sixteen_idle_clients_that_never_bound_keep_a_connection(folder):
    with Behind(folder) as behind, filtered(folder, behind.path, "") as before, contextlib.ExitStack() as stack:
        peers = [stack.enter_context(before.peer()) for _ in range(SPARES + 2)]
        links = []
        for number, peer in enumerate(peers):
            peer.send(BIND if number == 0 else bytes([LIST]))
            links.append(stack.enter_context(behind.peer()))
            assert links[-1].reply() == (BIND if number == 0 else bytes([LIST]))
            # The second one's answer comes last, so the third one has been idle longest.
            if number != 1:
                links[-1].send(bytes([FAILURE]))
                assert peer.reply() == bytes([FAILURE])
        assert not replied(links)
        links[1].send(bytes([FAILURE]))
        assert peers[1].reply() == bytes([FAILURE])
        assert links[2].has_ended() and not replied(links[:2] + links[3:])
        # Its client doesn't notice, and the next one in the line goes.
        peers[2].send(bytes([LIST]))
        with behind.peer() as upstream:
            assert upstream.reply() == bytes([LIST])
            upstream.send(bytes([FAILURE]))
            assert peers[2].reply() == bytes([FAILURE])
            assert links[3].has_ended()
            for number in (0, 1, 4):
                passes(peers[number], links[number])
            behind.waits()


@check
def an_idle_connection_that_ends_is_made_anew(folder):
    with Behind(folder) as behind, filtered(folder, behind.path, "") as before, before.peer() as client:
        client.send(bytes([LIST]))
        for rested in (0.2, 0):
            with behind.peer() as upstream:
                assert upstream.reply() == bytes([LIST])
                upstream.send(bytes([FAILURE]))
                assert client.reply() == bytes([FAILURE])
            # With no rest the filter hears of the end and of the request at once, or of the request first.
            time.sleep(rested)
            client.send(bytes([LIST]))
        with behind.peer() as upstream:
            assert upstream.reply() == bytes([LIST])
        # A request that was sent is not sent again.
        assert client.has_ended()


@check
def the_end_and_the_next_request_may_come_at_once(folder):
    with Behind(folder) as behind, filtered(folder, behind.path, "") as before:
        for body in (bytes([LIST]), BIND):
            for ends_first in (True, False):
                with before.peer() as client:
                    client.send(bytes([LIST]))
                    with behind.peer() as upstream:
                        assert upstream.reply() == bytes([LIST])
                        upstream.send(bytes([FAILURE]))
                        assert client.reply() == bytes([FAILURE])
                        # While the filter stands still both happen.
                        os.kill(before.process.pid, signal.SIGSTOP)
                        if not ends_first:
                            client.send(body)
                    if ends_first:
                        client.send(body)
                    os.kill(before.process.pid, signal.SIGCONT)
                    with behind.peer() as upstream:
                        assert upstream.reply() == body
                        upstream.send(bytes([FAILURE]))
                        assert client.reply() == bytes([FAILURE])


@check
def a_request_waits_for_the_reply_to_the_one_before(folder):
    with played(folder) as (client, upstream, *_):
        client.send(bytes([LIST]), bytes([rig.REMOVE_ALL]), bytes([LIST]))
        assert upstream.reply() == bytes([LIST])
        upstream.socket.settimeout(0.3)
        with contextlib.suppress(TimeoutError):
            upstream.reply()
            raise AssertionError("the second is sent before the first was answered")
        upstream.socket.settimeout(20)
        upstream.send(bytes([IDENTITIES, 0, 0, 0, 0]))
        assert [client.reply(), client.reply()] == [bytes([IDENTITIES, 0, 0, 0, 0]), bytes([FAILURE])]
        assert upstream.reply() == bytes([LIST])
        upstream.send(bytes([FAILURE]))
        assert client.reply() == bytes([FAILURE])


@check
def only_the_pair_that_breaks_the_rules_is_closed(folder):
    answer = string(bytes([IDENTITIES, 0, 0, 0, 0]))
    for said, asked in (
        (b"\0", False),
        (answer + b"\0", True),
        (string(bytes([rig.SUCCESS])), True),
        (string(b""), True),
        (string(b"x" * (LONGEST + 1))[:4], True),
        (string(bytes([IDENTITIES, 0, 0, 0, 1])), True),
        (b"", True),
    ):
        place = folder / str(len(list(folder.iterdir())))
        place.mkdir()
        with played(place) as (client, upstream, before, behind):
            with before.peer() as other, contextlib.ExitStack() as stack:
                other.send(bytes([LIST]))
                beside = stack.enter_context(behind.peer())
                assert beside.reply() == bytes([LIST])
                if asked:
                    client.send(bytes([LIST]))
                    assert upstream.reply() == bytes([LIST])
                if said:
                    upstream.socket.sendall(said)
                else:
                    upstream.close()
                with contextlib.suppress(Ended, ConnectionResetError):
                    got = client.reply()
                    assert got == answer[4:] and said.startswith(answer), (said, got)
                    assert client.has_ended(), said
                beside.send(bytes([IDENTITIES, 0, 0, 0, 0]))
                assert other.reply() == bytes([IDENTITIES, 0, 0, 0, 0])


@check
def long_answers_in_pieces_and_clients_that_read_late(folder):
    kept = [plain_key(bytes([1, n // 256, n % 256]) + bytes(29), b"c" * 200) for n in range(800)]
    entries = lambda found: b"".join(string(blob) + comment for _, comment, blob in found)
    whole, cut = (
        bytes([IDENTITIES]) + len(found).to_bytes(4, "big") + entries(found) for found in (kept, kept[::20])
    )
    lines = "".join(f"ssh-ed25519 {base64.b64encode(blob).decode()}\n" for _, _, blob in kept[::20])
    assert len(whole) < LONGEST
    with played(folder, lines) as (client, upstream, *_):
        for _ in range(5):
            client.send(bytes([LIST]))
            assert upstream.reply() == bytes([LIST])
            for at in range(0, len(string(whole)), 5000):
                upstream.socket.sendall(string(whole)[at : at + 5000])
            time.sleep(0.1)
            assert client.reply() == cut


def is_served(filter_):
    """Whether a new client gets its list."""
    with contextlib.suppress(OSError, Ended), filter_.peer() as peer:
        return peer.ask(LIST)[0] == IDENTITIES
    return False


@check
def clients_that_leave_and_floods_keep_nobody_out(folder):
    with openssh_agent(folder, stderr=subprocess.DEVNULL) as agent, filtered(folder, agent.path, "") as before:
        for _ in range(300):
            peer = before.peer()
            peer.send(bytes([LIST]))
            peer.close()
        # A client is closed while as many wait at the agent behind as may.
        until(lambda: is_served(before), what="a list")
        flood = before.peer()
        flood.socket.setblocking(False)
        end, worst = time.monotonic() + 2, 0.0
        while time.monotonic() < end:
            with contextlib.suppress(BlockingIOError):
                flood.socket.send(string(bytes([rig.REMOVE_ALL])) * 1000)
            with contextlib.suppress(BlockingIOError):
                flood.socket.recv(1 << 16)
            begin = time.monotonic()
            with before.peer() as peer:
                assert peer.ask(LIST)[0] == IDENTITIES
            worst = max(worst, time.monotonic() - begin)
        assert worst < 2, worst


@check
def words_lists_and_sockets_that_are_refused(folder):
    key = keygen(folder / "key")
    with openssh_agent(folder, stderr=subprocess.DEVNULL) as agent:
        program, path, keys = rig.there(PROGRAM), folder / "refused.sock", folder / "keys"
        for words in ([], [keys], [keys, agent.path]):
            assert "usage" in run([program, *words], 2)
        # Purposes are read before the list.
        for words, why in (
            (["git"], "each is login"),
            ([""], "each is login"),
            (["sshsig:"], "each is login"),
            (["login", "login"], "twice"),
            (["sshsig:" + "n" * 249], "255 bytes"),
            ([f"sshsig:{number}" for number in range(65)], "more than 64"),
        ):
            assert why in run([program, keys, agent.path, path, *words], 7), words
        assert "could not be read" in run([program, keys, agent.path, path], 6)
        keys.write_bytes(b"\n" * 1048577)
        assert "more than 1048576 bytes" in run([program, keys, agent.path, path], 6)
        for text, line in (("nonsense\n", 1), (f"\n{public(key)}ssh-rsa {public(key).split()[1]}\n", 3), ("a b\n", 1)):
            keys.write_text(text)
            assert f"line {line} of the list" in run([program, keys, agent.path, path], 1)
        keys.write_text(public(key))
        run([program, keys, agent.path, folder / "none" / "socket"], 3)
        assert not path.exists()
        with filtered(folder, agent.path, public(key)) as before:
            assert os.stat(before.path).st_mode & 0o7777 == 0o600
            run([program, keys, agent.path, before.path], 3)
            assert listening(before.path)
            before.process.kill()
            before.process.wait()
        # A file that nobody listens at is replaced, and no other one.
        with filtered(folder, agent.path, public(key)) as before:
            assert before.run("ssh-add", "-l", status=1).startswith("The agent has no identities")
        path.write_text("a file")
        run([program, keys, agent.path, path], 3)
        assert path.read_text() == "a file"


@check
def random_clients_and_agents_beside_the_model(folder):
    model = rig.TOP / "model/differential_filter.py"
    # Some 20 s each, and more beside other work.
    print(run([model, rig.there(PROGRAM), 4], timeout=400), end="")
    print(run([model, "--wrong", 200, 1], timeout=400), end="")


# mortarleek-filter.


class Front:
    """The front end as it is installed, with the filter alone of the programs."""

    def __init__(self, folder):
        bin, libexec = folder / "prefix/bin", folder / "prefix/libexec/mortarleek"
        bin.mkdir(parents=True)
        libexec.mkdir(parents=True)
        rig.lay_scripts(bin, libexec)
        shutil.copy(rig.there(PROGRAM), libexec / "filter_proxy")
        (libexec / "filter_proxy").chmod(0o711)
        self.temporary = folder / "temporary"
        self.temporary.mkdir()
        self.script = bin / "mortarleek-filter"
        self.environment = {"PATH": os.environ["PATH"], "TMPDIR": str(self.temporary), "HOME": str(folder)}

    def run(self, agent, *words, status=0, **more):
        return run([self.script, *words], status, env=dict(self.environment, SSH_AUTH_SOCK=agent.path), **more)

    def is_clean(self):
        return not list(self.temporary.iterdir())


@contextlib.contextmanager
def front_and_three_keys(folder):
    """The front end, OpenSSH's agent, and three keys that it holds."""
    keys = [keygen(folder / name) for name in ("one", "two", "three")]
    with openssh_agent(folder, stderr=subprocess.DEVNULL) as agent:
        agent.run("ssh-add", "-q", *keys)
        yield Front(folder), agent, keys


@check
def the_front_end_runs_a_command_and_cleans_up(folder):
    with front_and_three_keys(folder) as (front, agent, keys):
        named = [word for key in keys[:2] for word in ("-k", f"{key}.pub")]
        assert front.run(agent, *named, "ssh-add", "-L") == public(*keys[:2])
        # A private key stands for the public one beside it.
        assert front.run(agent, "-k", keys[2], "ssh-add", "-L") == public(keys[2])
        assert "no identities" in front.run(agent, "true", status=0) + front.run(agent, "ssh-add", "-l", status=1)
        assert front.run(agent, *named, "sh", "-c", "exit 7", status=7) == ""
        shows = 'umask; stat -c "%a %F" "${SSH_AUTH_SOCK%/*}" "$SSH_AUTH_SOCK"; echo ${SSH_AGENT_PID-none}'
        said = front.run(agent, *named, "sh", "-c", shows)
        mask = os.umask(0)
        os.umask(mask)
        assert said == f"{mask:04o}\n700 directory\n600 socket\nnone\n", said
        front.run(agent, *named, "./nothing", status=None)
        until(front.is_clean, what="an empty folder")
        for words, why in (
            (["-k"], "usage"),
            ([], "usage"),
            (["-x", "true"], "usage"),
            (["-k", folder / "none", "true"], "can't be read"),
            (["-k", "/dev/null", "true"], "can't be read"),
            (["-k", rig.script(folder / "text", "echo"), "true"], "line 1 of the list"),
        ):
            assert why in front.run(agent, *words, status=1), words
        assert front.is_clean()
        lonely = Agent(agent.process, folder / "nobody")
        assert "no agent listens" in front.run(lonely, *named, "true", status=1)


@check
def the_guard_removes_nothing_that_the_front_end_did_not_make(folder):
    front = Front(folder)
    for name in ("mine", "mortarleek-filter-abcdefgh"):
        place = folder / name
        place.mkdir(mode=0o700)
        (place / "kept").write_text("kept")
        for file in ("list", "said"):
            for mode in (0o755, 0o700):
                place.chmod(mode)
                words = [front.script, "--guard", place, folder / "nobody", "1", ""]
                said = run(words, None, env=dict(front.environment, SSH_AUTH_SOCK=""), timeout=30)
                assert (place / "kept").read_text() == "kept", said
                assert said.startswith("usage") or name != "mine", said
            (place / file).write_text("")
    for words in (["--guard"], ["--guard", folder], ["--guard", folder / "none", "x", "1", ""]):
        assert run([front.script, *words], 1, env=front.environment).startswith("usage: "), words


@check
def the_front_end_hands_on_signals(folder):
    key = keygen(folder / "key")
    front = Front(folder)
    with openssh_agent(folder, stderr=subprocess.DEVNULL) as agent:
        for number in (signal.SIGTERM, signal.SIGINT, signal.SIGKILL, signal.SIGHUP):
            process = subprocess.Popen(
                [front.script, "-k", f"{key}.pub", "sh", "-c", "echo up; exec sleep 60"],
                env=dict(front.environment, SSH_AUTH_SOCK=agent.path),
                stdout=subprocess.PIPE,
                stdin=subprocess.DEVNULL,
            )
            assert process.stdout.readline() == b"up\n"
            process.send_signal(number)
            assert process.wait(10) == -number
            until(front.is_clean, what="an empty folder")
        # The command reads what is typed, and an interrupt of its terminal ends it alone.
        assert front.run(agent, "-k", f"{key}.pub", "cat", input="typed\n") == "typed\n"
        interrupts = ("sh", "-c", "trap 'ssh-add -l; exit 3' INT; kill -INT 0")
        said = front.run(agent, "-k", f"{key}.pub", *interrupts, status=3, start_new_session=True)
        assert "no identities" in said
        until(front.is_clean, what="an empty folder")


def home(folder):
    """A folder of the user's for sockets that stay."""
    place = folder / "home"
    place.mkdir(mode=0o700)
    return place


@check
def a_socket_that_stays_until_it_is_ended(folder):
    place = home(folder)
    path = place / "some.sock"
    with front_and_three_keys(folder) as (front, agent, keys):
        shown = lambda: run(["ssh-add", "-L"], env=dict(front.environment, SSH_AUTH_SOCK=str(path)))
        assert front.run(agent, "-a", path, "-k", keys[0]) == ""
        assert shown() == public(keys[0])
        (own,) = place.glob(".mortarleek-filter-*")
        assert [oct(held.stat().st_mode & 0o777) for held in (own, path)] == ["0o700", "0o600"]
        # It holds its place, and nobody but its own filter is ended.
        assert "in use" in front.run(agent, "-a", path, "-k", keys[1], status=1)
        assert "no filter" in front.run(agent, "--end", "-a", place / "other.sock", status=1)
        assert shown() == public(keys[0])
        assert front.run(agent, "--end", "-a", path) == ""
        assert [left.name for left in place.iterdir()] == ["some.sock.lock"]
        assert "no filter" in front.run(agent, "--end", "-a", path, status=1)
        # What a guard that was killed left is taken away by the next start.
        for key in keys[1:]:
            front.run(agent, "-a", path, "-k", key)
            (own,) = place.glob(".mortarleek-filter-*")
            guard = int((own / "running").read_text().split()[1])
            if key is keys[1]:
                os.kill(guard, signal.SIGKILL)
                until(lambda: not listening(path), what="the filter's end")
        assert shown() == public(keys[2])
        # A relative path is the same one.
        front.run(agent, "--end", "-a", "some.sock", cwd=place)
        assert not path.exists()
        for words, why in (
            (["-a", path, "true"], "usage"),
            (["--end"], "usage"),
            (["--end", "-a", path, "-k", keys[0]], "usage"),
            (["-a", folder / "none/s"], "no such folder"),
            (["-a", f"{place}/"], "no name for a socket"),
            (["-a", f"{keys[0]}.pub"], "is no socket"),
            (["-a", place / ("s" * 108)], "too long"),
        ):
            assert why in front.run(agent, *words, status=1), words
        place.chmod(0o777)
        assert "others may change" in front.run(agent, "-a", path, "-k", keys[0], status=1)
        assert [left.name for left in place.iterdir()] == ["some.sock.lock"]


@check
def a_forwarded_socket_shows_its_keys_on_two_hosts(folder):
    keys = [keygen(folder / name) for name in ("near", "far", "other")]
    front, place = Front(folder), home(folder)
    path = place / "far.sock"
    with Hosts(folder, "one", "two") as hosts, openssh_agent(folder, stderr=subprocess.DEVNULL) as agent:
        agent.run("ssh-add", "-q", *keys)
        hosts.allow(*keys)
        front.run(agent, "-a", path, "-k", f"{keys[1]}.pub")
        to_two = f"ssh -F {hosts.config} -o ForwardAgent=yes two 'ssh-add -L'"
        for command in ("ssh-add -L", to_two):
            seen = hosts.ssh(agent, "-o", f"ForwardAgent={path}", "one", command)
            assert seen[0] == 0 and seen[1] == public(keys[1]), seen
        front.run(agent, "--end", "-a", path)


@check
def keys_are_named_by_pipes_fingerprints_and_comments(folder):
    with front_and_three_keys(folder) as (front, agent, keys):
        one, two, three = public(*keys).splitlines(True)
        told = [run(["ssh-keygen", "-l", "-E", hash, "-f", f"{keys[1]}.pub"]).split()[1] for hash in ("sha256", "md5")]
        for word in (*told, two.split()[2]):
            assert front.run(agent, "-k", word, "ssh-add", "-L") == two, word
        piped = [front.script, "-k", "/dev/stdin", "ssh-add", "-L"]
        assert run(piped, env=dict(front.environment, SSH_AUTH_SOCK=agent.path), input=one + three) == one + three
        agent.run("ssh-keygen", "-q", "-t", "ed25519", "-N", "", "-C", two.split()[2], "-f", folder / "twin")
        agent.run("ssh-add", "-q", folder / "twin")
        for word, why in (
            (two.split()[2], "more than one key"),
            ("nobody", "no key with this comment"),
            ("SHA256:nothing", "no key with this fingerprint"),
            ("", "wants a file"),
        ):
            assert why in front.run(agent, "-k", word, "true", status=1), word
        until(front.is_clean, what="an empty folder")


# Namespaces, and the words by which a signature in each is made.
NAMESPACES = ("git", "file", "my own")
WORDS = {
    "git": ("git",),
    "git,file": ("git", "file"),
    "sshsig:my own": ("my own",),
    "sshsig:git,sshsig:my own": ("git", "my own"),
    "sshsig": NAMESPACES,
    "all": NAMESPACES,
    "login,other": (),
    "ca": (),
}


@check
def the_front_end_lets_keys_sign_for_the_words_that_it_is_given(folder):
    place = home(folder)
    path = place / "some.sock"
    with front_and_three_keys(folder) as (front, agent, keys):
        named, signs = ("-k", keys[0]), ("ssh-keygen", "-q", "-Y", "sign", "-f", shown(keys[0]), "-n")
        for words, signed in WORDS.items():
            for namespace in NAMESPACES:
                status = 0 if namespace in signed else 255
                front.run(agent, *named, "--sign-only", words, *signs, namespace, status=status, input="text")
        front.run(agent, "--sign-only=file", *named, *signs, "file", input="text")
        front.run(agent, "--sign-only", "git", *named, "--sign-only", "file", *signs, "git", input="text")
        front.run(agent, "-a", path, *named, "--sign-only", "sshsig:my own")
        for namespace in NAMESPACES:
            status, behind = 0 if namespace == "my own" else 255, dict(front.environment, SSH_AUTH_SOCK=str(path))
            run([*signs, namespace], status, env=behind, input="text")
        assert "usage" in front.run(agent, "--end", "-a", path, "--sign-only", "git", status=1)
        front.run(agent, "--end", "-a", path)
        for words, why in (
            (["--sign-only"], "wants words"),
            (["--sign-only", "", "true"], "a word is empty"),
            (["--sign-only", "git,,file", "true"], "a word is empty"),
            (["--sign-only", "git\nfile", "true"], "control characters"),
            (["--sign-only", "gti", "true"], "each is login"),
            (["--sign-only", "git,sshsig:git", "true"], "twice"),
            (["--sign", "git", "true"], "usage"),
        ):
            assert why in front.run(agent, *named, *words, status=1), words
        until(front.is_clean, what="an empty folder")


if __name__ == "__main__":
    try:
        rig.there(PROGRAM)
        rig.built("mortarleek_signer")
        rig.install("filter")
    except rig.Skip as reason:
        print(f"filter: not run: {reason}")
        sys.exit(1)
    check.run(sys.argv[1:])
