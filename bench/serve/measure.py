"""The measurements of bench/serve.sh: a line each. The words are a folder with `load` and `null`, a number of rounds, and
the parts that are to be measured, all where there are none."""

import os
import pathlib
import re
import shutil
import statistics
import subprocess
import sys
import time

TOP = pathlib.Path(__file__).resolve().parents[2]
sys.path.insert(0, str(TOP / "tests"))
sys.path.insert(0, str(TOP / "helper/tests"))

import openssh
import plots
import rig
from frames import string
from rig import ADD, ADD_LIMITED, EXTENSION, FAILURE, LIST, LOCK, REMOVE, REMOVE_ALL, SIGN, SIGNATURE, SUCCESS, UNLOCK
from rig import Agent, children, openssh_agent, our_agent, plain_key, until

WORK, ROUNDS, CHOSEN = pathlib.Path(sys.argv[1]), int(sys.argv[2]), sys.argv[3:]
PROGRAM = rig.agent_program()
SECONDS = 0.3
PERF, VALGRIND = shutil.which("perf"), shutil.which("valgrind")


def spent(pid):
    """Processor nanoseconds of a process, of all its threads."""
    tasks = pathlib.Path(f"/proc/{pid}/task").glob("*/schedstat")
    return sum(int(task.read_text().split()[0]) for task in tasks)


def carriers(agent):
    """The agent, and the one behind it where it is a filter, without the processes that they started."""
    behind = carriers(agent.behind) if isinstance(agent, Before) else []
    return [agent.process.pid, *behind]


def family(agent):
    """The agent and the processes that it started, and those of the agent behind a filter."""
    return [pid for carrier in carriers(agent) for pid in (carrier, *children(carrier))]


def load(agent, clients, messages, seconds=SECONDS, count=10**12, first=None):
    """How many replies came to the messages. Each client sends `first` before, where there is one."""
    (WORK / "messages").write_bytes(b"".join(map(string, messages)))
    words = [WORK / "load", agent.path, str(clients), str(seconds), str(count), WORK / "messages"]
    if first is not None:
        (WORK / "first").write_bytes(string(first))
        words.append(WORK / "first")
    return int(subprocess.run(words, check=True, stdout=subprocess.PIPE, text=True).stdout)


def cost(agent, clients, messages, first=None, counted=family):
    """Processor microseconds a reply, of those processes that are counted."""
    pids = counted(agent)
    before = sum(map(spent, pids))
    replies, seconds = 0, SECONDS
    # on a busy machine the first time may be too short
    while replies < 100:
        replies += load(agent, clients, messages, seconds, first=first)
        seconds *= 4
    return (sum(map(spent, pids)) - before) / replies / 1000


class Before(Agent):
    """A program before an agent, started by these words and its socket."""

    def __init__(self, behind, name, *words):
        path = WORK / f"{name}.sock"
        path.unlink(missing_ok=True)
        process = subprocess.Popen([*words, path], stdin=subprocess.DEVNULL, stderr=subprocess.DEVNULL)
        super().__init__(process, path)
        self.behind = behind
        until(lambda: rig.listens(self.path, True), 60, name)


def filter_before(agent, before=()):
    """A filter that lets all the agent's keys pass."""
    keys = WORK / "filter.keys"
    keys.write_text(agent.run("ssh-add", "-L"))
    return Before(agent, "filter", *before, rig.BUILT / "filter_proxy", keys, agent.path)


def relay_before(agent):
    """A relay that passes on what comes."""
    return Before(agent, "relay", WORK / "relay", agent.path)


def null_agent():
    path = WORK / "null.sock"
    process = subprocess.Popen([WORK / "null", path])
    until(path.exists, what="the null agent")
    return Agent(process, path)


def limit(seconds):
    """The constraint that a key lives for so many seconds."""
    return b"\x01" + seconds.to_bytes(4, "big")


def fill(agent, numbers, life=None):
    """Adds keys, one for each number; where a life is told, each lives for as many seconds more as its number says."""
    with agent.peer(seconds=60) as peer:
        for number in numbers:
            fields, comment, _ = plain_key(number.to_bytes(2, "big") * 16, b"key %d" % number)
            words = (ADD, fields, comment) if life is None else (ADD_LIMITED, fields, comment, limit(life + number))
            assert peer.ask(*words)[0] == SUCCESS


def memory(agent):
    """Resident kB."""
    return int(re.search(r"VmRSS:\s+(\d+)", pathlib.Path(f"/proc/{agent.process.pid}/status").read_text())[1])


def compare(what, agents, clients, messages, unit="us"):
    """Measures agents in turn, and prints the median of each and of the ratios to OpenSSH's."""
    seen = {name: [] for name in agents}
    for _ in range(ROUNDS):
        for name, agent in agents.items():
            seen[name].append(cost(agent, clients, messages))
    tell(
        what,
        {name: statistics.median(found) for name, found in seen.items()},
        unit,
        statistics.median(ours / theirs for ours, theirs in zip(seen["ours"], seen["ssh-agent"])),
    )


def tell_load(when):
    """A line of what else runs on the machine, by which the numbers are to be read."""
    minute, five, _ = os.getloadavg()
    print(f"load at {when}: {minute:.1f}, {five:.1f} before, on {os.cpu_count()} processors", flush=True)


# What is aimed at: of the ratio to ssh-agent's, or of our own number.
GOALS = {
    "a refusal, 1 clients": ("ratio", 0.6),
    "a refusal, 16 clients": ("ratio", 0.6),
    "a refusal, 100 clients": ("ratio", 0.6),
    "system calls a refusal, 1 clients": ("ours", 3),
    "system calls a refusal, 16 clients": ("ours", 2.2),
    "system calls a refusal, 100 clients": ("ours", 2.2),
    "instructions a refusal, 1 client": ("ours", 5000),
    "instructions a list of 100 keys": ("ratio", 0.05),
    "a signature of ed25519 256, 1 clients": ("ratio", 0.4),
    "a signature of ed25519 256, 16 clients": ("ratio", 0.4),
}
FOUND, RATIOS = {}, {}


def tell(what, found, unit, ratio=None):
    """Prints a line of what was found, and whether the goal is met where there is one."""
    ratio = found["ours"] / found["ssh-agent"] if ratio is None else ratio
    FOUND[what], RATIOS[what] = found, ratio
    others = ", ".join(f"{name} {value:.4g} {unit}".rstrip() for name, value in found.items())
    of, most = GOALS.get(what, (None, 0))
    # to two decimals, since a few calls are those of the clients' coming
    is_met = round(ratio if of == "ratio" else found["ours"], 2) <= most
    goal = f"; goal {of} at most {most}: {'met' if is_met else 'not met'}" if of else ""
    print(f"{what}: {others}; ours beside ssh-agent {ratio:.2g}{goal}", flush=True)


def table(path):
    """Writes what was found as a table, a row for each measurement."""
    lines = ["| What | Ours | ssh-agent | Null agent | Ratio | Goal |", "|---|---|---|---|---|---|"]
    for what, found in FOUND.items():
        of, most = GOALS.get(what, (None, 0))
        goal = f"{of} at most {most}" if of else ""
        cells = [f"{found[name]:.4g}" if name in found else "" for name in ("ours", "ssh-agent", "null")]
        lines.append(f"| {what} | {' | '.join(cells)} | {RATIOS[what]:.2g} | {goal} |")
    pathlib.Path(path).write_text("\n".join(lines) + "\n")


def system_calls(agent, clients, message=b"\xc8"):
    """System calls a request of the agent and of what it started, by tracepoints, which don't slow them."""
    words = [PERF, "stat", "-x,", "-e", "raw_syscalls:sys_enter", "-p", ",".join(map(str, family(agent)))]
    counter = subprocess.Popen(words, stderr=subprocess.PIPE, text=True)
    time.sleep(0.3)
    replies = load(agent, clients, [message], 1)
    counter.send_signal(2)
    said = counter.communicate()[1]
    return int(said.split(",")[0]) / replies


def share(agent, disturb):
    """The replies that 15 clients get while another client does something, as a part of those that they get else."""
    counts = []
    for during in (lambda: None, disturb):
        (WORK / "messages").write_bytes(string(b"\xc8"))
        words = [WORK / "load", agent.path, "15", "1.5", str(10**12), WORK / "messages"]
        others = subprocess.Popen(words, stdout=subprocess.PIPE, text=True)
        time.sleep(0.1)
        during()
        counts.append(int(others.communicate()[0]))
    return counts[1] / counts[0]


def tell_shares(what, found):
    """Lines of shares, for which more is better."""
    print(f"{what}: " + ", ".join(f"{name} {100 * value:.0f} %" for name, value in found.items()), flush=True)


def guess(agent):
    """Locks the agent, and tries three wrong passphrases."""
    with agent.peer(seconds=60) as peer:
        peer.ask(LOCK, string(b"right"))
        for _ in range(3):
            assert peer.ask(UNLOCK, string(b"wrong"))[0] == FAILURE
        assert peer.ask(UNLOCK, string(b"right"))[0] == SUCCESS


def await_confirmation(agent):
    """Asks for a signature that the user refuses after a second."""
    fields, comment, blob = plain_key(b"c" * 32)
    with agent.peer(seconds=60) as peer:
        assert peer.ask(ADD_LIMITED, fields, comment, b"\x02")[0] == SUCCESS
        assert peer.ask(SIGN, string(blob), string(b"message"), bytes(4))[0] == FAILURE


def others_wait(agents):
    """What 15 clients get while one unlocks with wrong passphrases, and while one waits for a confirmation."""
    found = {name: share(agent, lambda: guess(agent)) for name, agent in agents.items()}
    tell_shares("refusals of 15 clients while one guesses the passphrase of the lock", found)
    relay = rig.BUILT / "confirm_relay"
    if not os.path.exists(relay):
        print("serve: no confirmations: bin/confirm_relay isn't built")
        return
    asker = rig.script(WORK / "ask", "sleep 1; exit 1")
    variables = dict(os.environ, SSH_ASKPASS=str(asker), SSH_ASKPASS_REQUIRE="force", DISPLAY=":none")
    words = ("--relay", relay, "--askpass", asker)
    with our_agent(PROGRAM, WORK, *words, name="asks", stderr=subprocess.DEVNULL) as ours:
        with openssh_agent(WORK, name="theirs", env=variables, stderr=subprocess.DEVNULL) as theirs:
            agents = {"ours": ours, "ssh-agent": theirs}
            found = {name: share(agent, lambda: await_confirmation(agent)) for name, agent in agents.items()}
            tell_shares("refusals of 15 clients while one waits for a confirmation", found)


def counted(text):
    """The instructions that callgrind's file tells of, and how often memory was asked for."""
    names = dict(re.findall(r"(?m)^c?fn=\((\d+)\) ([^\s'@]+)", text))
    asks = {number for number, name in names.items() if name in ("malloc", "calloc", "realloc", "aligned_alloc", "posix_memalign")}
    calls = re.findall(r"(?m)^cfn=\((\d+)\).*\ncalls=(\d+)", text)
    total = int(re.search(r"(?m)^(?:summary|totals): (\d+)", text)[1])
    return total, sum(int(count) for number, count in calls if number in asks)


def instructions(start, messages, keys=0, few=1000, more=10000, clients=1, life=None, key=None):
    """Instructions and allocations a reply, of many replies less those of few, so that the start doesn't count."""
    totals = []
    for count in (few, few + more):
        out = WORK / "callgrind"
        agent = start([VALGRIND, "--tool=callgrind", f"--callgrind-out-file={out}"])
        fill(agent, range(keys), life)
        if key is not None:
            with agent.peer(seconds=60) as peer:
                assert peer.ask(ADD, key.private, string(b""))[0] == SUCCESS
        load(agent, clients, messages, 600, count)
        agent.process.terminate()
        agent.process.wait()
        if os.path.exists(agent.path):
            os.unlink(agent.path)
        totals.append(counted(out.read_text()))
    return [(many - less) / more for less, many in zip(*totals)]


def tell_instructions():
    """What valgrind counts of both agents, each in a process of its own."""
    # valgrind runs no program with its group's rights
    shutil.copyfile(shutil.which("ssh-agent"), WORK / "ssh-agent")
    (WORK / "ssh-agent").chmod(0o755)

    def theirs(before):
        path = str(WORK / "t.sock")
        words = [*before, WORK / "ssh-agent", "-D", "-a", path]
        process = subprocess.Popen(words, stdout=subprocess.DEVNULL, stderr=subprocess.DEVNULL)
        until(lambda: rig.listens(path, True), 60, "ssh-agent under valgrind")
        return Agent(process, path)

    starts = {
        "ours": lambda before: our_agent(PROGRAM, WORK, name="v", limits=before, stderr=subprocess.DEVNULL),
        "ssh-agent": theirs,
    }
    fields, comment, blob = plain_key(b"\xff" * 32)
    gone = bytes([REMOVE]) + string(blob)
    pair = [bytes([ADD]) + fields + comment, gone]
    limited = [bytes([ADD_LIMITED]) + fields + comment + limit(36_500), gone]
    for what, messages, more in (
        ("a refusal, 1 client", [b"\xc8"], dict()),
        ("a refusal, 100 clients", [b"\xc8"], dict(clients=100)),
        ("an addition or a removal, no keys", pair, dict()),
        ("an addition or a removal, 1000 keys", pair, dict(keys=1000)),
        ("an addition or a removal, 1000 keys of 1000 lifetimes", limited, dict(keys=1000, life=36_000)),
        ("a list of 1 key", [bytes([LIST])], dict(keys=1, few=500, more=2000)),
        ("a list of 100 keys", [bytes([LIST])], dict(keys=100, few=50, more=200)),
    ):
        found = {name: instructions(start, messages, **more) for name, start in starts.items()}
        tell(f"instructions {what}", {name: counts[0] for name, counts in found.items()}, "")
        # neither may take any, so that there is no ratio
        print(f"allocations {what}: " + ", ".join(f"{name} {counts[1]:.4g}" for name, counts in found.items()), flush=True)
    if rig.HELPER.exists():
        key = openssh.generate(WORK, "ed25519", "256")
        request = bytes([SIGN]) + string(key.blob) + string(bytes(200)) + bytes(4)
        for clients in (1, 16):
            found = instructions(starts["ours"], [request], few=200, more=2000, clients=clients, key=key)
            print(f"instructions a signature of ed25519 256, {clients} clients, without the helper's: ours {found[0]:.4g}", flush=True)


def refusals(agents, null):
    """What a reply costs that the agent gives at once, and what quiet clients add to it."""
    for clients in (1, 16, 100):
        compare(f"a refusal, {clients} clients", dict(agents, null=null), clients, [b"\xc8"])
    quiet = [agent.peer() for agent in agents.values() for _ in range(100)]
    compare("a refusal, 1 client beside 100 quiet ones", agents, 1, [b"\xc8"])
    for peer in quiet:
        peer.close()
    beside, alone = FOUND["a refusal, 1 client beside 100 quiet ones"], FOUND["a refusal, 1 clients"]
    print(f"quiet clients: ours takes {beside['ours'] / alone['ours']:.2f} of its time without them")


def calls(agents, null):
    if PERF is None:
        print("serve: no system calls: perf isn't there")
        return
    for clients in (1, 16, 100):
        found = {name: system_calls(agent, clients) for name, agent in dict(agents, null=null).items()}
        tell(f"system calls a refusal, {clients} clients", found, "calls")
    if rig.HELPER.exists():
        request = signs(agents, "ed25519", "256")
        for clients in (1, 16, 100):
            found = {name: system_calls(agent, clients, request) for name, agent in agents.items()}
            tell(f"system calls a signature of ed25519 256, {clients} clients, of agent and helper", found, "calls")


def keys(agents, null):
    """Lists, additions and removals, by the number of keys held."""
    fields, comment, blob = plain_key(b"\xff" * 32)
    pair = [bytes([ADD]) + fields + comment, bytes([REMOVE]) + string(blob)]
    compare("an addition or a removal, no keys", agents, 1, pair)
    held = 0
    for count in (1, 100, 1000):
        for agent in agents.values():
            fill(agent, range(held, count))
        held = count
        compare(f"a list of {count} keys", agents, 1, [bytes([LIST])])
    compare("an addition or a removal, 1000 keys", agents, 1, pair)
    for agent in agents.values():
        fill(agent, range(1000), 36_000)
    limited = [bytes([ADD_LIMITED]) + fields + comment + limit(36_500), pair[1]]
    compare("an addition or a removal, 1000 keys of 1000 lifetimes", agents, 1, limited)
    compare("a refusal, 1000 keys of 1000 lifetimes", agents, 1, [b"\xc8"])
    for agent in agents.values():
        with agent.peer() as peer:
            peer.ask(REMOVE_ALL)


def memories(agents, null):
    """Memory of agents that were just started, with no keys and with 1000: it changes from start to start by some 300 kB,
    since the kernel maps a file's pages 64 kB at a time."""
    counts, seen = (0, 1000), {}
    for turn in range(ROUNDS):
        silent = dict(name=f"memory{turn}", stderr=subprocess.DEVNULL)
        with our_agent(PROGRAM, WORK, **silent) as ours, openssh_agent(WORK, **silent | dict(name=f"theirs{turn}")) as theirs:
            for count in counts:
                for name, agent in dict(ours=ours, **{"ssh-agent": theirs}).items():
                    fill(agent, range(count))
                    seen.setdefault((name, count), []).append(memory(agent))
    for count in counts:
        found = {name: statistics.median(seen[name, count]) for name in agents}
        tell(f"memory with {count or 'no'} keys", found, "kB")
        least, most = min(seen["ours", count]), max(seen["ours", count])
        print(f"memory with {count or 'no'} keys: ours {least} to {most} kB in {ROUNDS} starts", flush=True)


def signs(agents, kind, bits, flags=0):
    """A request that each agent answers with a signature, by a fresh key which it holds."""
    key = openssh.generate(WORK, kind, bits)
    request = bytes([SIGN]) + string(key.blob) + string(bytes(200)) + flags.to_bytes(4, "big")
    for agent in agents.values():
        with agent.peer() as peer:
            assert peer.ask(ADD, key.private, string(b""))[0] == SUCCESS
            assert peer.ask(SIGN, request[1:])[0] == SIGNATURE
    return request


def signatures(agents, null):
    """Signatures over one key at a time, agent and helper together."""
    if not rig.HELPER.exists():
        print("serve: no signatures: bin/mortarleek_signer isn't built")
        return
    for kind, bits, flags in (("ed25519", "256", 0), ("rsa", "2048", 4), ("ecdsa", "256", 0)):
        request = signs(agents, kind, bits, flags)
        for clients in (1, 16, 100):
            compare(f"a signature of {kind} {bits}, {clients} clients", agents, clients, [request])


# What a filter may add, in microseconds, at 1 and 16 clients.
MOST_THROUGH = {"a list of 100 keys": {1: 20, 16: 15}, "a signature": {1: 14, 16: 10}}


def refused_bind(key):
    """A session-bind that is refused: its signature isn't the host's. Who sent one keeps its connection behind a filter."""
    signature = string(b"ssh-ed25519") + string(bytes(64))
    return bytes([EXTENSION]) + b"".join(
        map(string, (b"session-bind@openssh.com", key.blob, bytes(32), signature))
    ) + bytes(1)


def through(agents, null):
    """What a list of 100 keys and a signature take through a filter that lets them all pass, beside the agent alone: of
    clients that bind, as ssh does, and of others, whose connections to the agent are spare between requests. Helpers
    aren't counted: they sign the same with and without a filter, and what one signature takes more than another is more
    than the filter's part. Beside it is the part of a relay that looks at nothing: what the way through another program
    costs by itself."""
    if not (rig.BUILT / "filter_proxy").exists():
        print("serve: no filter: bin/filter_proxy isn't built")
        return
    key = openssh.generate(WORK, "ed25519", "256")
    request = bytes([SIGN]) + string(key.blob) + string(bytes(200)) + bytes(4)
    asked = {"a list of 100 keys": bytes([LIST]), "a signature": request}
    kinds = {"that bind": refused_bind(key), "that don't": None}
    for name, agent in agents.items():
        fill(agent, range(99))
        with agent.peer() as peer:
            assert peer.ask(ADD, key.private, string(b""))[0] == SUCCESS
        with filter_before(agent) as before, relay_before(agent) as relay:
            for kind, first in kinds.items():
                for what, most in MOST_THROUGH.items():
                    for clients, goal in most.items():
                        ways, message = (agent, before, relay), [asked[what]]
                        taken = [[cost(way, clients, message, first, carriers) for way in ways] for _ in range(ROUNDS)]
                        alone, both, _ = map(statistics.median, zip(*taken))
                        more = statistics.median(both - alone for alone, both, _ in taken)
                        least = statistics.median(passed - alone for alone, _, passed in taken)
                        print(
                            f"{what} through a filter, {clients} clients {kind}: {name} alone {alone:.4g} us, both {both:.4g} us, "
                            f"{more:.3g} us more, a relay {least:.3g}; goal at most {goal}: {'met' if more <= goal else 'not met'}",
                            flush=True,
                        )
        if VALGRIND and name == "ours":
            for what, message in asked.items():
                counts = instructions(lambda words: filter_before(agent, words), [message], few=100, more=1000)
                print(f"{what} through a filter: {counts[0]:.0f} instructions and {counts[1]:.4g} allocations of its own", flush=True)
        with agent.peer() as peer:
            peer.ask(REMOVE_ALL)


MOST_RECORDED = 2


def records(agents, null):
    """What a refusal takes where a record is made, beside the same agent without one, and what memory a record costs."""
    with open(WORK / "record", "wb") as file:
        more = dict(name="recorded", stdout=file, stderr=subprocess.DEVNULL)
        with our_agent(PROGRAM, WORK, "--record", **more) as recorded:
            for clients in (1, 16, 100):
                pairs = [[cost(each, clients, [b"\xc8"]) for each in (agents["ours"], recorded)] for _ in range(ROUNDS)]
                alone, both = map(statistics.median, zip(*pairs))
                ratio = statistics.median(both / alone for alone, both in pairs)
                print(
                    f"a refusal with a record, {clients} clients: without {alone:.4g} us, with {both:.4g} us, "
                    f"ratio {ratio:.2g}; goal at most {MOST_RECORDED}: {'met' if ratio <= MOST_RECORDED else 'not met'}",
                    flush=True,
                )
            before = memory(recorded)
            load(recorded, 16, [b"\xc8"], 600, 300_000)
            grown, written = memory(recorded) - before, os.path.getsize(file.name)
            print(f"memory behind 300000 refusals with a record: {grown} kB more, in a record of {written >> 20} MB", flush=True)


def waits(agents, null):
    others_wait(agents)


def instruction_counts(agents, null):
    if VALGRIND is None:
        print("serve: no instructions: valgrind isn't there")
        return
    tell_instructions()


PARTS = {
    "refusals": refusals,
    "calls": calls,
    "keys": keys,
    "memory": memories,
    "waits": waits,
    "signatures": signatures,
    "filter": through,
    "records": records,
    "instructions": instruction_counts,
}


def main():
    if not PROGRAM.exists():
        print(f"serve: skipped: {PROGRAM} isn't built")
        return
    if set(CHOSEN) - set(PARTS):
        sys.exit(f"serve: the parts are {' '.join(PARTS)}")
    for name in CHOSEN or PARTS:
        tell_load(name)
        silent = dict(stderr=subprocess.DEVNULL)
        with our_agent(PROGRAM, WORK, **silent) as ours, openssh_agent(WORK, **silent) as theirs, null_agent() as null:
            PARTS[name]({"ours": ours, "ssh-agent": theirs}, null)
        for socket in WORK.glob("*.sock*"):
            socket.unlink()
    tell_load("the end")
    if "PLOTS" in os.environ:
        plots.draw(os.environ["PLOTS"], FOUND)
    if "TABLE" in os.environ:
        table(os.environ["TABLE"])


main()
