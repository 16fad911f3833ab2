"""What a user meets in a word, a path or a file: odd characters, links, passphrases, what is in the way of a lock, folders
that went, signals, programs that ask, and the errors of a first minute. tests/daily.py runs these too."""

import contextlib
import fcntl
import os
import pathlib
import re
import shutil
import signal
import subprocess
import time

import rig
from front_words import answer
from installed import Installed, Keys, check, keygen
from rig import children, is_alive, openssh_agent, run, until


@check
def no_word_is_ever_run(folder):
    installed = Installed(folder)
    key = keygen(folder / "key")
    made = folder / "made"
    bad = [f"host\ntouch {made}", f"$(touch {made})", f"`touch {made}`", f"a'; touch {made}; '", f"x\ntouch {made}\n"]
    with installed.start() as daemon:
        for word in bad:
            for words in (["-h", word, key], ["-H", word, "-h", "host", key], ["-t", word, key], [word], ["-d", word]):
                status, _, errors = answer(installed.add, words, daemon.environment)
                assert status != 0 and not made.exists(), (words, status)
                assert "\n" not in word or "control character" in errors and errors.count("\n") == 1, errors
    for word in bad:
        asker = {"SSH_ASKPASS": f"{folder}/{word}", "SSH_ASKPASS_REQUIRE": "force"}
        for more, words in ((asker, ["-s"]), ({"TMPDIR": f"{folder}/{word}"}, ["-s"]), ({}, ["-a", f"{folder}/{word}/s"])):
            status, _, errors = answer(installed.agent, words, dict(installed.environment, **more))
            assert not made.exists(), (words, more)
            assert "\n" not in word or status == 1 and "control characters" in errors, (status, errors)
    # a program that asks may have any other name
    asker = rig.script(folder / "it's `a` $(b) \"c\"; d", f'printf "%s|%s|%s" "$1" "$LC_ALL" "$LANGUAGE" > {folder}/asked')
    asks = {"SSH_ASKPASS": str(asker), "SSH_ASKPASS_REQUIRE": "force", "LC_ALL": "de_DE.UTF-8", "LANGUAGE": "it's"}
    with installed.start(environment=asks) as daemon:
        daemon.run(installed.add, "-qc", key)
        daemon.run("ssh-add", "-T", f"{key}.pub")
        asked = (folder / "asked").read_text()
        assert "Allow use of key" in asked and asked.endswith("|de_DE.UTF-8|it's"), asked


@check
def a_link_named_ssh_add_hands_over_to_openssh_s(folder):
    installed, keys = Installed(folder), Keys(folder)
    links = folder / "links"
    links.mkdir()
    (links / "ssh-add").symlink_to(installed.add)
    asks = {"SSH_ASKPASS": str(keys.asker), "SSH_ASKPASS_REQUIRE": "force"}
    with installed.start() as daemon:
        path = f"{links}:{os.environ['PATH']}"
        said = daemon.run("ssh-add", keys.locked, environment=dict(asks, PATH=path), timeout=20)
        assert f"Identity added: {keys.locked}" in said, said
        # a copy is told by what it was started with
        (links / "ssh-add").unlink()
        shutil.copy(installed.add, links / "ssh-add")
        daemon.run("ssh-add", "-D")
        (folder / "libexec").symlink_to(installed.prefix / "libexec")
        said = daemon.run(installed.add, keys.locked, status=1, environment=dict(asks, PATH=path), timeout=20)
        assert "OpenSSH's own is needed" in said, said


@check
def a_passphrase_of_several_keys_is_asked_for_once(folder):
    installed = Installed(folder)
    keys = [keygen(folder / name, passphrase=said) for name, said in (("a", "x"), ("b", ""), ("c", "x"), ("d", ""))]
    asker = rig.script(folder / "ask", f"echo asked >> {folder}/asked; echo x")
    asks = {"SSH_ASKPASS": str(asker), "SSH_ASKPASS_REQUIRE": "force"}
    with installed.start() as ours, openssh_agent(folder) as theirs:
        ours.run(installed.add, *keys, environment=asks)
        assert (folder / "asked").read_text() == "asked\n"
        theirs.run("ssh-add", *keys, env=asks)
        # and in the order of the words, as by ssh-add alone
        assert ours.run("ssh-add", "-l") == theirs.run("ssh-add", "-l")


@check
def an_open_key_passes_through_no_other_program(folder):
    """Of the programs that are started while a key is added, OpenSSH's ssh-add and ssh-keygen alone read its file."""
    installed = Installed(folder)
    key = keygen(folder / "key")
    tools, log = folder / "tools", folder / "log"
    tools.mkdir()
    log.write_text("")
    # Each program of PATH that a script may start leaves its words, and what it was given on standard input.
    for tool in ("sed", "grep", "tr", "cat", "head", "tail", "awk", "cut", "dd"):
        rig.script(tools / tool, f'echo {tool} "$@" >> {log}; {shutil.which("tee")} -a {log} | {shutil.which(tool)} "$@"')
    with installed.start() as daemon:
        said = daemon.run(installed.add, key, environment={"PATH": f"{tools}:{os.environ['PATH']}"})
        assert "Identity added" in said
    seen = log.read_text()
    for line in key.read_text().splitlines()[1:-1]:
        assert line not in seen, seen
    assert str(key) not in seen, seen


@check
def a_helper_that_hangs_is_refused_within_two_seconds(folder):
    installed = Installed(folder)
    helper = installed.prefix / "libexec/mortarleek/mortarleek_signer"
    helper.unlink()
    rig.script(helper, "trap '' TERM; exec sleep 100")
    begin = time.monotonic()
    said = run([installed.agent], 1, env=installed.environment, timeout=60)
    # a busy machine is given ten
    limit = re.fullmatch(r".* didn't end within (2|10) seconds, .*\n", said)
    assert limit and (limit[1] == "2" or os.getloadavg()[0] > 1), (said, os.getloadavg())
    assert time.monotonic() - begin < int(limit[1]) + 10
    assert installed.folders() == []


# The lock and the folder.


@check
def what_is_in_the_way_of_the_lock_is_named(folder):
    installed, path, lock = Installed(folder), folder / "s", folder / "s.lock"
    # A lock that nobody holds is no obstacle, whoever left it.
    lock.write_text("")
    with installed.start("-a", path) as daemon:
        assert "no identities" in daemon.run("ssh-add", "-l", status=1)
        # No process of the agent has the lock.
        for pid in [daemon.pid, *children(daemon.pid)]:
            for number in pathlib.Path(f"/proc/{pid}/fd").iterdir():
                with contextlib.suppress(OSError):
                    assert os.readlink(number) != str(lock), pid
    until(lambda: not path.exists())
    assert lock.is_file()
    lock.unlink()
    for make in (lock.mkdir, lambda: lock.symlink_to(folder / "elsewhere"), lambda: os.mkfifo(lock)):
        make()
        said = run([installed.agent, "-a", path], 1, env=installed.environment, timeout=30)
        assert str(lock) in said and "remove it" in said and not path.exists(), said
        lock.rmdir() if lock.is_dir() else lock.unlink()
    assert not (folder / "elsewhere").exists()
    # One that another program holds.
    with open(lock, "w") as held:
        fcntl.flock(held, fcntl.LOCK_EX)
        said = run([installed.agent, "-a", path], 1, env=installed.environment, timeout=60)
        assert str(lock) in said and "held this lock" in said, said
    with installed.start("-a", path):
        pass


@check
def an_agent_whose_folder_was_deleted_ends(folder):
    installed = Installed(folder)
    daemon = installed.start()
    pids = daemon.agents()
    shutil.rmtree(pathlib.Path(daemon.path).parent)
    until(lambda: not any(map(is_alive, pids)), 40, "the end of an agent that nobody can reach")
    # The name of -a alone is made anew.
    path = folder / "s"
    with installed.start("-a", path) as daemon:
        path.unlink()
        until(path.exists, 40, "the agent's name")
        assert "no identities" in daemon.run("ssh-add", "-l", status=1)


@check
def folders_of_killed_agents_are_removed(folder):
    installed = Installed(folder)

    def killed():
        daemon = installed.start("-U")
        pids = daemon.agents()
        os.kill(daemon.pid, signal.SIGKILL)
        until(lambda: not any(map(is_alive, pids)), what="the end of an agent without a guard")

    with installed.start("-T") as alive:
        killed()
        killed()
        assert len(installed.folders()) == 3
        said = run([installed.agent, "-u"], env=installed.environment)
        assert said == f"Deleted stale agent sockets in {installed.temporary}\n", said
        assert installed.folders() == [pathlib.Path(alive.path).parent]
        killed()
        assert len(installed.folders()) == 2
        with installed.start():
            assert len(installed.folders()) == 2
        for words in (["-uu"], ["-T", "-u"]):
            run([installed.agent, *words], env=installed.environment)
        assert "no identities" in alive.run("ssh-add", "-l", status=1)
    runtime = folder / "runtime"
    runtime.mkdir(mode=0o700)
    with installed.start("-T", environment={"XDG_RUNTIME_DIR": str(runtime)}) as daemon:
        assert daemon.path.startswith(f"{installed.temporary}/")


@check
def signals_to_the_agent_s_number_do_what_ssh_agent_10_does(folder):
    installed, key = Installed(folder), keygen(folder / "key")
    with installed.start() as daemon:
        daemon.run("ssh-add", "-q", key)
        os.kill(daemon.pid, signal.SIGUSR1)
        until(lambda: "no identities" in daemon.run("ssh-add", "-l", status=None), what="the removal of the keys")
        daemon.run("ssh-add", "-q", key)
        # A locked agent removes none, so it is ended.
        daemon.run(installed.add, "-x", input="a\n", start_new_session=True)
        pids = daemon.agents()
        os.kill(daemon.pid, signal.SIGUSR1)
        until(lambda: not any(map(is_alive, pids)), what="the end of a locked agent")
    for number in (signal.SIGUSR2, signal.SIGALRM):
        installed.start().signal(number)
        until(lambda: installed.folders() == [], what="the removal of the folder")


@check
def descriptors_of_who_started_it_are_closed(folder):
    installed = Installed(folder)
    with open(folder / "held", "w") as held:
        numbers = [os.dup2(held.fileno(), number) for number in (5, 9, 10, 63, 200)]
        try:
            said = run([installed.agent, "-s"], env=installed.environment, pass_fds=numbers)
            # A command has them, as under ssh-agent.
            kept = run([installed.agent, "readlink", "/proc/self/fd/63"], env=installed.environment, pass_fds=numbers)
        finally:
            for number in numbers:
                os.close(number)
    assert kept == f"{folder}/held\n", kept
    guard = int(re.search(r"pid (\d+);", said)[1])
    for pid in [guard, *children(guard)]:
        for number in pathlib.Path(f"/proc/{pid}/fd").iterdir():
            with contextlib.suppress(OSError):
                assert os.readlink(number) != f"{folder}/held", (pid, number)
    assert os.readlink(f"/proc/{guard}/cwd") == "/"
    os.kill(guard, signal.SIGTERM)


# Asking.


@check
def a_program_asks_where_ssh_agent_would_ask(folder):
    installed, key = Installed(folder), keygen(folder / "key")
    asker = rig.script(folder / "ask", "exit 0")
    for variables, asks in (
        ({}, False),
        ({"DISPLAY": ":7"}, True),
        ({"DISPLAY": ""}, False),
        ({"DISPLAY": ":7", "SSH_ASKPASS_REQUIRE": "never"}, False),
        ({"SSH_ASKPASS_REQUIRE": "force"}, True),
        ({"SSH_ASKPASS_REQUIRE": "FORCE"}, True),
        ({"SSH_ASKPASS_REQUIRE": "prefer"}, False),
    ):
        environment = dict(installed.environment, SSH_ASKPASS=str(asker), **variables)
        script = f"{{}} -c {key}; ssh-add -T {key}.pub"
        seen = []
        for agent, add in ((installed.agent, installed.add), ("ssh-agent", "ssh-add")):
            done = subprocess.run(
                [agent, "sh", "-c", script.format(add)], capture_output=True, text=True, timeout=60, env=environment
            )
            seen.append(done.returncode)
            if agent == installed.agent:
                assert ("without a program that asks" in done.stderr) is not asks, (variables, done.stderr)
        assert seen == ([0, 0] if asks else [1, 1]), (variables, seen)
    # beside a path of -a the agent's folder is found too
    words = ["-a", folder / "s", installed.add, "-c", key]
    assert "without a program that asks" in run([installed.agent, *words], env=installed.environment)


@check
def a_lock_is_asked_for_by_a_program_where_there_is_no_terminal(folder):
    installed = Installed(folder)
    asker = rig.script(folder / "ask", f'echo "$1" >> {folder}/asked; echo "a long passphrase"')
    with installed.start() as daemon, openssh_agent(folder) as other:
        for variables in ({"DISPLAY": ":7"}, {"SSH_ASKPASS_REQUIRE": "force"}):
            seen = []
            for program, path in ((installed.add, daemon.path), ("ssh-add", other.path)):
                environment = dict(installed.environment, SSH_AUTH_SOCK=path, SSH_ASKPASS=str(asker), **variables)
                told = [answer(program, words, environment) for words in (["-x"], ["-X"])]
                seen.append((told, (folder / "asked").read_text()))
                (folder / "asked").unlink()
            assert seen[0] == seen[1] and seen[0][0][0][0] == 0, seen


@check
def known_hosts_are_looked_up_where_ssh_add_does(folder):
    installed, key = Installed(folder), keygen(folder / "key")
    home = folder / "home"
    (home / ".ssh").mkdir(parents=True)
    line = "host.example " + keygen(folder / "host").with_suffix(".pub").read_text()
    with installed.start() as daemon:
        add = lambda host, status: daemon.run(
            installed.add, "-h", host, key, status=status, environment={"HOME": str(home)}
        )
        add("host.example", 255)
        (home / ".ssh/known_hosts2").write_text(line)
        assert "Identity added" in add("host.example", 0)
        said = add("other.example", 255)
        remedy = "mortarleek-add: -h: each host has to stand by this name in known_hosts: connect to it once (ssh), or name a file"
        assert said.startswith("No host keys") and f"\n{remedy} that has it by -H\n" in said, said
        assert run(["ssh-add", "-h", "other.example", key], 255, env=daemon.environment).startswith("No host keys")


@check
def errors_of_a_first_minute_name_cause_and_remedy(folder):
    installed = Installed(folder)
    locked = keygen(folder / "locked", passphrase="x")
    tools = folder / "tools"
    tools.mkdir()
    for tool in ("sh", "ls", "id", "readlink", "stat", "env", "make", "bash", "dirname", "mkdir", "cat", "find"):
        (tools / tool).symlink_to(shutil.which(tool))
    bare = dict(installed.environment, PATH=str(tools))
    with installed.start() as daemon:
        said = run([installed.add, locked], 1, env=dict(daemon.environment, PATH=str(tools)))
        assert "install openssh-client" in said, said
    long = folder / ("x" * 100)
    long.mkdir()
    said = run([installed.agent], 1, env=dict(installed.environment, TMPDIR=str(long)))
    assert "107 bytes" in said and "TMPDIR" in said, said
    said = run([installed.agent, "-a", "/proc/s"], 1, env=installed.environment)
    assert said == "mortarleek-agent: /proc: no folder can be made there: name a folder of yours by -a\n", said
    said = run([installed.agent], 1, env=bare)
    assert "timeout isn't there: install coreutils" in said, said
    # the build: no toolchain, no packages of the helper
    source = folder / "source"
    source.mkdir()
    parts = ("Makefile", "front", "scripts", "helper", "crates.txt", "crates/agent_prog")
    files = run(["git", "ls-files", "-z", *parts], cwd=rig.TOP).rstrip("\0").split("\0")
    run(["cp", "--parents", *files, source], cwd=rig.TOP)
    for goal in ("proofs", "install"):
        said = run(["make", goal, f"PREFIX={folder}/local"], 2, cwd=source, env=dict(bare, RT="no-such-rt"))
        assert "no no-such-rt: it is the command of the Rattle kit" in said, said
