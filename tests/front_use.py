"""The agent in use: whether it is ours and what it holds, by `mortarleek status`; what mortarleek-add says where it isn't;
and one agent for all logins, by `mortarleek agent --reuse`. tests/daily.py runs these too."""

import contextlib
import os
import pathlib
import re
import shutil
import signal
import subprocess
import tempfile

import rig
from installed import Daemon, Installed, agent_of, call_proved, check, keygen
from rig import is_alive, openssh_agent, our_agent, run, until


def status(installed, path, wanted):
    """What `mortarleek status` tells of a socket: the words behind each name, and the lines of keys."""
    environment = dict(installed.environment)
    if path is not None:
        environment["SSH_AUTH_SOCK"] = str(path)
    said = run([installed.prefix / "bin/mortarleek", "status"], wanted, env=environment)
    told = dict(re.findall(r"(?m)^(socket|agent|locked|record|keys):(?: (.*))?$", said))
    return told, said.partition("keys:\n")[2].splitlines()


@check
def status_tells_whose_agent_answers_and_what_it_holds(folder):
    installed = Installed(folder)
    (installed.prefix / "libexec/mortarleek/version").write_text("mortarleek 9.8.7\ncommit abc\na kit\n")
    key, record = keygen(folder / "key"), folder / "record"
    for words in ((), ("-a", folder / "s"), ("--record", record)):
        with installed.start(*words) as daemon:
            told, keys = status(installed, daemon.path, 0)
            assert told["socket"] == daemon.path and told["locked"] == "no", told
            assert told["agent"] == f"mortarleek 9.8.7, number {daemon.pid}", told
            assert told["record"] == (str(record) if "--record" in words else "none"), told
            assert keys == ["The agent has no identities."]
            assert "no identities" in daemon.run("ssh-add", "-l", status=1)
            daemon.run("ssh-add", "-q", key)
            told, keys = status(installed, daemon.path, 0)
            assert keys == daemon.run("ssh-add", "-l").splitlines() and told["locked"] == "no", (told, keys)
            daemon.run(installed.add, "-x", input="a\n", start_new_session=True)
            told, keys = status(installed, daemon.path, 0)
            assert told["locked"] == "yes" and told["keys"] == "none is shown" and keys == [], (told, keys)
            # By another name it is the same agent.
            (folder / "link").symlink_to(daemon.path)
            assert status(installed, folder / "link", 0)[0]["agent"] == f"mortarleek 9.8.7, number {daemon.pid}"
            (folder / "link").unlink()


@check
def status_calls_every_other_agent_unknown_and_none_none(folder):
    installed = Installed(folder)
    with openssh_agent(folder) as other, our_agent(rig.agent_program(), folder) as bare:
        for path in (other.path, bare.path):
            told, keys = status(installed, path, 1)
            assert told["agent"].startswith("unknown") and told["locked"] == told["record"] == "unknown", told
            assert keys == ["The agent has no identities."]
        key = keygen(folder / "key")
        other.run("ssh-add", "-q", key)
        assert status(installed, other.path, 1)[0]["locked"] == "no"
        # A folder that looks like one of ours, of which nobody keeps the file locked, makes no agent ours.
        forged = folder / "mortarleek-abcdefgh"
        forged.mkdir(mode=0o700)
        os.link(other.path, forged / "agent.7")
        (forged / "running").write_text(f"number {os.getpid()}\nversion 1\n")
        assert status(installed, forged / "agent.7", 1)[0]["agent"].startswith("unknown")
    for path in (None, folder / "none", other.path):
        assert status(installed, path, 2)[0].get("agent", "none answers") == "none answers"
    with installed.start("-U") as daemon:
        # Another name in a folder of its own is not beside the agent's.
        (folder / "aside").mkdir()
        os.link(daemon.path, folder / "aside/s")
        assert status(installed, folder / "aside/s", 1)[0]["agent"].startswith("unknown")
        pids = daemon.agents()
        os.kill(daemon.pid, signal.SIGKILL)
        until(lambda: not any(map(is_alive, pids)), what="the end of an agent without a guard")
    assert status(installed, daemon.path, 2)[0]["agent"] == "none answers"
    for words in (["-x"], ["x"], ["--try", "x"]):
        assert run([installed.prefix / "bin/mortarleek", "status", *words], 1) == "usage: mortarleek-status [--try]\n"


@check
def status_tells_whether_what_was_started_is_proved(folder):
    installed = Installed(folder)
    libexec, records = installed.prefix / "libexec/mortarleek", installed.prefix / "share/mortarleek/PROVED"
    records.parent.mkdir(parents=True)
    names = ("agent_prog", helper_of(installed).name)
    other = "its bytes are others than those that were proved"

    def told(daemon):
        said = daemon.run(installed.prefix / "bin/mortarleek", "status")
        return re.findall(r"(?m)^((?:NOT )?proved: .*)$", said)

    with installed.start() as daemon:
        assert told(daemon) == [f"NOT proved: {', '.join(names)}: no file PROVED tells of it"], told(daemon)
    proved = call_proved(records, libexec, *names)
    with installed.start() as daemon:
        assert told(daemon) == [f"proved: {', '.join(names)}: {proved}"], told(daemon)
        # As it was when they were started, whatever is written later.
        records.write_text(records.read_text().replace("program: agent_prog", "program: another"))
        assert told(daemon) == [f"proved: {', '.join(names)}: {proved}"], told(daemon)
        said = run([installed.prefix / "bin/mortarleek", "--version"])
        assert re.search("(?m)^NOT proved: agent_prog, .*: PROVED does not tell of it$", said), said
    call_proved(records, libexec, *names)
    with open(libexec / "agent_prog", "ab") as program:
        program.write(b"\0")
    with installed.start() as daemon:
        assert told(daemon) == [f"NOT proved: agent_prog: {other}", f"proved: {names[1]}: {proved}"], told(daemon)


def swap(path):
    """Puts a copy in a program's place."""
    shutil.copy(path, f"{path}.new")
    os.rename(f"{path}.new", path)


def helper_of(installed):
    """The helper that the agent starts: the proved one, where it is there."""
    libexec = installed.prefix / "libexec/mortarleek"
    return next(path for path in (libexec / "mortarleek_signer", libexec / "mortarleek-helper") if path.exists())


def not_started(daemon):
    """The programs of which `mortarleek status` tells that they are started no more."""
    said = daemon.run(daemon.installed.prefix / "bin/mortarleek", "status")
    return re.findall(r"(?m)^not started: (\S+), which isn't the file that it was when the agent started: ", said)


@check
def status_tells_of_a_program_that_was_swapped_and_is_started_no_more(folder):
    installed, key = Installed(folder), keygen(folder / "key")
    libexec, asker = installed.prefix / "libexec/mortarleek", rig.script(folder / "ask", "exit 1")
    programs = [str(path) for path in (helper_of(installed), libexec / "confirm_relay", asker)]
    with installed.start(environment={"DISPLAY": ":0", "SSH_ASKPASS": str(asker)}) as daemon:
        daemon.run("ssh-add", "-q", key)
        assert not_started(daemon) == []
        for count, path in enumerate(programs, 1):
            swap(path)
            assert not_started(daemon) == programs[:count]
        daemon.run("ssh-keygen", "-Y", "sign", "-f", f"{key}.pub", "-n", "file", status=255, input="text")
    with installed.start() as daemon:
        assert not_started(daemon) == []
        os.chmod(programs[0], 0o700)
        assert not_started(daemon) == programs[:1]


@check
def status_tells_of_no_upgrade_by_root_but_in_a_user_namespace(folder):
    if os.geteuid() != 0:
        raise rig.Skip("it takes root")
    with tempfile.TemporaryDirectory(dir="/usr/local/lib", prefix="mk-") as place:
        installed, key = Installed(pathlib.Path(place)), keygen(folder / "key")
        # The agent's own folder is in none that others may write.
        installed.environment["TMPDIR"] = str(folder)
        helper = helper_of(installed)
        agent, inside = installed.agent, rig.script(folder / "inside", f'exec unshare -U {installed.agent} "$@"')
        for start, mode, told, status in (
            (agent, 0o755, [], 0),
            (agent, 0o775, [str(helper)], 255),
            (inside, 0o755, [str(helper)], 255),
        ):
            installed.agent = start
            with installed.start() as daemon:
                daemon.run("ssh-add", "-q", key)
                assert not_started(daemon) == []
                os.chmod(place, mode)
                swap(helper)
                assert not_started(daemon) == told, (start, oct(mode))
                # So does the agent.
                daemon.run("ssh-keygen", "-Y", "sign", "-f", f"{key}.pub", "-n", "file", status=status, input="text")
                os.chmod(place, 0o755)


@check
def status_of_an_agent_that_hangs_comes(folder):
    installed = Installed(folder)
    with installed.start() as daemon:
        agent = daemon.agents()[1]
        os.kill(agent, signal.SIGSTOP)
        try:
            assert status(installed, daemon.path, 2)[0]["agent"] == "none answers"
        finally:
            os.kill(agent, signal.SIGCONT)


@check
def the_file_by_which_an_agent_is_known_is_locked_while_it_runs(folder):
    installed = Installed(folder)
    with installed.start() as daemon:
        running = pathlib.Path(daemon.path).parent / "running"
        assert running.stat().st_mode & 0o777 == 0o600
        assert running.read_text().startswith(f"number {daemon.pid}\nversion ")
        run(["flock", "-n", running, "true"], 1)
        # It is the guard alone that keeps it.
        for pid in daemon.agents()[1:]:
            for number in pathlib.Path(f"/proc/{pid}/fd").iterdir():
                with contextlib.suppress(OSError):
                    assert os.readlink(number) != str(running), pid


@check
def add_says_where_the_agent_that_answers_is_not_ours(folder):
    installed, key = Installed(folder), keygen(folder / "key")
    line = "isn't one that mortarleek agent started here: mortarleek status\n"
    with installed.start() as daemon, openssh_agent(folder) as other:
        for words, asked in (([key], ""), (["-d", key], ""), (["-D"], ""), (["-x"], "a\n"), (["-X"], "a\n")):
            more = dict(input=asked, start_new_session=True)
            said = run([installed.add, *words], env=dict(installed.environment, SSH_AUTH_SOCK=other.path), **more)
            goes = f"the key goes to another agent: the one at {other.path} isn't one that mortarleek agent started here (mortarleek status)\n"
            assert said.startswith(f"mortarleek-add: {goes if words == [key] else f'the agent at {other.path} {line}'}"), (words, said)
            assert "isn't one that" not in daemon.run(installed.add, *words, **more), words
        said = run([installed.add, "-q", key], env=dict(installed.environment, SSH_AUTH_SOCK=other.path))
        assert said == "", said
        assert "isn't" not in run([installed.add, "-l"], env=dict(installed.environment, SSH_AUTH_SOCK=other.path))


# One agent for all logins.


def told_by(lines):
    """The socket and the number that lines for a shell tell."""
    return tuple(re.search(rf"{name}[= ]([^;]+);", lines)[1] for name in ("SSH_AUTH_SOCK", "SSH_AGENT_PID"))


@check
def reuse_prints_the_lines_of_the_agent_that_is_there(folder):
    installed, path = Installed(folder), folder / "s"
    words = ("--reuse", "-a", path)
    with installed.start(*words) as daemon:
        assert run([installed.agent, *words], env=installed.environment) == (
            f"SSH_AUTH_SOCK={path}; export SSH_AUTH_SOCK;\nSSH_AGENT_PID={daemon.pid}; export SSH_AGENT_PID;\n"
            f"echo Agent pid {daemon.pid};\n"
        )
        for more in (["-c"], ["-t", "1h", "-s"]):
            lines = run([installed.agent, "--reuse", *more, "-a", path], env=installed.environment)
            assert told_by(lines) == (str(path), str(daemon.pid)), lines
        # Without the word the path is in use.
        assert run([installed.agent, "-a", path], 1, env=installed.environment) == f"mortarleek-agent: {path}: in use\n"
        pids = daemon.agents()
        os.kill(daemon.pid, signal.SIGKILL)
        until(lambda: not any(map(is_alive, pids)), what="the end of an agent without a guard")
    # A socket that was left behind is none to use again.
    with installed.start(*words) as daemon:
        assert "no identities" in daemon.run("ssh-add", "-l", status=1)
    with openssh_agent(folder, name="other") as other:
        said = run([installed.agent, "--reuse", "-a", other.path], 1, env=installed.environment)
        assert said == f"mortarleek-agent: {other.path}: in use\n", said
    for words in (["--reuse"], ["--reuse", "-a", path, "true"], ["--reuse", "-D", "-a", path], ["--reuse", "-k"]):
        assert run([installed.agent, *words], 1, env=installed.environment).startswith("usage: "), words
    said = run([installed.agent, "--reuse", "-a", folder / "none/s"], 1, env=installed.environment)
    assert said == f"mortarleek-agent: {folder}/none: no such folder, or not a readable one\n", said


@check
def a_restart_starts_the_installed_agent_in_the_place_of_the_one_that_runs(folder):
    installed, path, key = Installed(folder), folder / "s", keygen(folder / "key")
    program = installed.prefix / "libexec/mortarleek/agent_prog"
    status = [installed.agent.with_name("mortarleek-status")]

    def restarted(*words, status=0, **more):
        words = [installed.agent, "--restart", *words]
        done = subprocess.run(words, env=installed.environment | more, capture_output=True, text=True, timeout=60)
        assert done.returncode == status, done
        return done.stdout, done.stderr

    def line_of(daemon):
        return pathlib.Path(f"/proc/{agent_of(daemon.pid)}/cmdline").read_text().split("\0")

    with installed.start("-a", path, "-t", "1h", "--confirm-limit", "20") as daemon:
        daemon.run("ssh-add", "-q", key)
        assert "replaced:" not in run(status, env=daemon.environment)
        # As another installation lays it.
        shutil.copy(program, folder / "anew")
        os.replace(folder / "anew", program)
        how = f"replaced: {program} isn't the file any more of which the agent runs: eval \"$(mortarleek agent --restart)\" starts that one"
        assert how in run(status, env=daemon.environment)
        # What would keep another from starting ends nothing.
        (folder / "there").write_text("")
        for words in (["--record", folder / "there"], ["-a", folder / "none/s"], ["-P", "a", "-P", "b"]):
            restarted(*words, status=255 if "-P" in words else 1, SSH_AUTH_SOCK=daemon.path)
        for words in (["true"], ["-D"], ["-k"], ["-u"], ["--reuse", "-a", path]):
            assert restarted(*words, status=1, SSH_AUTH_SOCK=daemon.path)[1].startswith("usage: "), words
        assert "which agent? SSH_AUTH_SOCK isn't set" in restarted(status=1)[1]
        assert "key" in daemon.run("ssh-add", "-l")
        lines, said = restarted(SSH_AUTH_SOCK=str(path))
        assert said == f"mortarleek-agent: the agent of number {daemon.pid} has ended, and its keys are gone: add them again (mortarleek add)\n"
        assert not is_alive(daemon.pid) and told_by(lines)[0] == str(path)
        with Daemon(installed, path, int(told_by(lines)[1])) as second:
            assert "no identities" in second.run("ssh-add", "-l", status=1)
            assert "replaced:" not in run(status, env=second.environment)
            words = line_of(second)
            assert words[words.index("-t") + 1] == "1h" and words[words.index("--confirm-limit") + 1] == "20", words
            # Two at once: one after the other.
            starts = [
                subprocess.Popen([installed.agent, "--restart", "-a", path, "-t", "2h"], env=installed.environment, stdout=subprocess.PIPE, text=True)
                for _ in range(2)
            ]
            told = [told_by(start.communicate(timeout=60)[0]) for start in starts]
            (third,) = [int(number) for _, number in told if is_alive(int(number))]
            with Daemon(installed, path, third) as third:
                words = line_of(third)
                assert words[words.index("-t") + 1] == "2h" and "--confirm-limit" not in words, words
                assert "no identities" in third.run("ssh-add", "-l", status=1)
    until(lambda: not list(folder.glob(".mortarleek-*")), what="the end of each")


@check
def a_restart_ends_no_agent_that_is_another_s(folder):
    installed = Installed(folder)
    words = [installed.agent, "--restart"]
    with openssh_agent(folder, name="other") as other:
        for more, variables in ((["-a", other.path], {}), ([], {"SSH_AUTH_SOCK": str(other.path)})):
            said = run([*words, *more], 1, env=installed.environment | variables)
            assert said == f"mortarleek-agent: {other.path}: no agent that mortarleek agent started here as you: none is ended\n", said
        assert "no identities" in other.run("ssh-add", "-l", status=1)
    assert "none is ended" in run([*words, "-a", folder / "s"], 1, env=installed.environment)
    # One with a command, and one in front.
    said = run([installed.agent, "-a", folder / "s", installed.agent, "--restart"], 1, env=installed.environment)
    assert f"{folder}/s: this agent stands in front or before a command" in said and "systemctl --user restart" in said, said
    with subprocess.Popen([installed.agent, "-D", "-a", folder / "t"], env=installed.environment, stdout=subprocess.PIPE) as front:
        try:
            until(lambda: rig.serves(folder / "t"), what="the agent in front")
            assert "stands in front" in run([*words, "-a", folder / "t"], 1, env=installed.environment)
        finally:
            front.terminate()
    # The socket of a private folder goes with it.
    with installed.start() as daemon:
        lines = run([*words], env=daemon.environment)
        path, number = told_by(lines)
        with Daemon(installed, path, int(number)) as second:
            assert path != daemon.path and "no identities" in second.run("ssh-add", "-l", status=1)


@check
def of_twenty_starts_at_one_path_all_have_the_same_agent_or_an_error(folder):
    installed, path = Installed(folder), folder / "s"
    for words in (["--reuse"], []):
        starts = [
            subprocess.Popen(
                [installed.agent, *words, "-a", path],
                stdout=subprocess.PIPE,
                stderr=subprocess.PIPE,
                text=True,
                env=installed.environment,
            )
            for _ in range(20)
        ]
        said = [(*start.communicate(timeout=120), start.returncode) for start in starts]
        told = {told_by(lines) for lines, errors, ended in said if ended == 0 and errors == ""}
        assert len(told) == 1, said
        if words:
            assert all(ended == 0 for _, _, ended in said), said
        else:
            assert all(lines == "" and errors.count("\n") == 1 for lines, errors, ended in said if ended), said
        ((_, pid),) = told
        os.kill(int(pid), signal.SIGTERM)
        until(lambda: not path.exists(), what="the removal of the socket")


@check
def several_logins_share_one_agent_by_the_profile_s_line(folder):
    """DAILY's lines for bash, zsh and fish, each in two logins."""
    installed, runtime = Installed(folder), folder / "runtime"
    runtime.mkdir(mode=0o700)
    page = (rig.TOP / "docs/DAILY.md").read_text()
    environment = dict(installed.environment, XDG_RUNTIME_DIR=str(runtime), HOME=str(folder))
    environment["PATH"] = f"{installed.prefix}/bin:{environment['PATH']}"
    (bash_line,) = set(re.findall(r"(?m)^\[ -n .*--reuse.*$", page))
    (fish_line,) = set(re.findall(r"(?m)^.*--reuse -c .*$", page))
    # A desktop's agent, which is set already, isn't the one that is used; one that is forwarded is.
    environment["SSH_AUTH_SOCK"] = "/a/desktop's"
    seen = set()
    for shell, line in (("bash", bash_line), ("zsh", bash_line), ("fish", fish_line), ("dash", bash_line)):
        if shutil.which(shell) is None:
            continue
        for _ in range(2):
            said = run([shell, "-c", f"{line}\necho $SSH_AUTH_SOCK $SSH_AGENT_PID"], env=environment)
            seen.add(said)
        forwarded = dict(environment, SSH_CONNECTION="a 1 b 2")
        said = run([shell, "-c", f"{line}\necho $SSH_AUTH_SOCK"], env=forwarded)
        assert said == "/a/desktop's\n", (shell, said)
    (said,) = seen
    path, pid = said.split()
    assert path == f"{runtime}/mortarleek.sock", said
    os.kill(int(pid), signal.SIGTERM)
    until(lambda: not os.path.exists(path), what="the removal of the socket")
