"""How mortarleek-agent starts, beside ssh-agent: what it tells a shell, a command under it, the foreground, and what the
agent gets of the environment. tests/daily.py runs these too."""

import os
import pathlib
import re
import shutil
import signal
import subprocess
import time

import rig
from installed import Installed, agent_of, both, check, keygen, plain
from rig import children, is_alive, openssh_agent, run, until


@check
def the_scripts_are_plain_sh(folder):
    scripts = [*sorted((rig.TOP / "front").glob("mortarleek*")), *(rig.TOP / "front" / part for part in rig.SHELL_PARTS)]
    run(["shellcheck", "-x", "-s", "sh", *scripts], cwd=rig.TOP)
    for script in scripts:
        run(["dash", "-n", script])
        run(["bash", "--posix", "-n", script])


@check
def lines_for_both_kinds_of_shell_are_those_of_ssh_agent(folder):
    installed = Installed(folder)
    for words in ([], ["-s"], ["-c"], ["-t", "1h30m"], ["-ct60"], ["-s", "-t", "0"]):
        both(installed, words, 0)
    for shell in ("/bin/csh", "/bin/tcsh", "/bin/bash", "/usr/bin/fish", ""):
        both(installed, [], 0, {"SHELL": shell})


@check
def words_that_ssh_agent_refuses_are_refused(folder):
    installed = Installed(folder)
    for words in (
        ["-s", "-c"],
        ["-c", "-s"],
        ["-d", "-D"],
        ["-D", "-D"],
        ["-D", "true"],
        ["-s", "true"],
        ["-k", "true"],
        ["-Z"],
        ["-a"],
        ["-t"],
        ["-t", "1x"],
        ["-t", ""],
        ["-t", "-1"],
        ["-k"],
    ):
        both(installed, words, 1)
    # Of no number a process group of the caller's own comes, nor of one that a shell can't hold.
    for pid in ("", "1", "0", "x", "12x", "-5", "00", "01", "0000", "2147483648", "18446744073709551616", "0" * 400):
        both(installed, ["-k"], 1, {"SSH_AGENT_PID": pid})
    assert installed.folders() == []


@check
def what_isn_t_there_is_refused_with_a_line(folder):
    installed = Installed(folder)
    for words in (["-E", "md5"], ["-a", "/tmp/a/"], ["-a", "/"]):
        said = run([installed.agent, *words], 1, env=installed.environment)
        assert said.startswith("mortarleek-agent: ") and said.count("\n") == 1, said
    assert installed.folders() == []


@check
def k_ends_the_agent_as_ssh_agent_does(folder):
    installed = Installed(folder)
    for words in (["-k"], ["-s", "-k"], ["-ck"]):
        with installed.start() as daemon, openssh_agent(folder) as other:
            pids = daemon.agents()
            ours = daemon.run(installed.agent, *words)
            theirs = other.run("ssh-agent", *words, env={"SSH_AGENT_PID": str(other.process.pid), "SHELL": "/bin/sh"})
            assert plain(ours) == plain(theirs), (ours, theirs)
            assert len(pids) == 2
            until(lambda: not any(map(is_alive, pids)))
            until(lambda: installed.folders() == [], what="the removal of the folder")


@check
def a_command_runs_under_the_agent_and_its_status_is_kept(folder):
    installed = Installed(folder)
    script = 'echo "$SSH_AUTH_SOCK"; echo "$SSH_AGENT_PID"; umask; echo "$KEPT"; ssh-add -l; exit 7'
    said = run([installed.agent, "-t", "5m", "sh", "-c", script], 7, env=dict(installed.environment, KEPT="a b"))
    path, pid, mask, kept, listed = said.splitlines()
    assert path.startswith(str(installed.temporary)) and mask == run(["sh", "-c", "umask"]).strip() and kept == "a b"
    assert listed == "The agent has no identities."
    until(lambda: not is_alive(int(pid)) and installed.folders() == [], what="the agent's end with its command")
    both(installed, ["/nowhere/at/all"], 1)
    both(installed, ["sh", "-c", "kill -9 $$"], -9)
    until(lambda: installed.folders() == [])


@check
def a_command_s_end_is_seen_where_the_kernel_doesn_t_tell(folder):
    installed = Installed(folder)
    tools = folder / "tools"
    tools.mkdir()
    for tool in (
        "sh",
        "id",
        "ls",
        "mktemp",
        "mkfifo",
        "rm",
        "sed",
        "grep",
        "sleep",
        "env",
        "ps",
        "tr",
        "wc",
        "timeout",
        "flock",
        "stat",
        "head",
        "printenv",
        "ln",
        "mkdir",
        "rmdir",
        "cat",
        "chmod",
        "readlink",
        "true",
        "python3",
        "ssh-agent",
    ):
        if found := shutil.which(tool):
            (tools / tool).symlink_to(found)
    run([installed.agent, "true"], env=dict(installed.environment, PATH=str(tools)))
    assert installed.folders() != []
    until(lambda: installed.folders() == [], 14, "the agent's end")


@check
def d_and_D_stay_in_front_and_end_as_ssh_agent_does(folder):
    installed = Installed(folder)
    for word in ("-d", "-D", "-Dc"):
        for number in (signal.SIGTERM, signal.SIGHUP, signal.SIGINT):
            seen = []
            for program in (installed.agent, "ssh-agent"):
                process = subprocess.Popen(
                    [program, word],
                    stdout=subprocess.PIPE,
                    stderr=subprocess.DEVNULL,
                    text=True,
                    env=installed.environment,
                )
                lines = [process.stdout.readline(), process.stdout.readline()]
                assert str(process.pid) in lines[1], lines
                path = re.search(r"\S*/agent\.\d+", lines[0])[0].removeprefix("SSH_AUTH_SOCK=")
                assert "no identities" in run(
                    ["ssh-add", "-l"], 1, env={"SSH_AUTH_SOCK": path, "PATH": os.environ["PATH"]}
                )
                process.send_signal(number)
                seen.append((plain("".join(lines)), process.wait(10), process.stdout.read()))
                process.stdout.close()
            assert seen[0] == seen[1], seen
            assert installed.folders() == [], installed.folders()


@check
def nobody_who_reads_the_output_waits_for_the_agent_s_end(folder):
    installed = Installed(folder)
    start = time.monotonic()
    said = run([installed.agent], env=installed.environment, timeout=20)
    pid = int(re.search(r"pid (\d+);", said)[1])
    for name in ("0", "1", "2"):
        assert os.readlink(f"/proc/{pid}/fd/{name}") == "/dev/null"
    (private,) = installed.folders()
    for agent in children(pid):
        assert os.readlink(f"/proc/{agent}/fd/1") in ("/dev/null", f"{private}/said"), agent
    assert os.readlink(f"/proc/{pid}/cwd") == "/"
    assert time.monotonic() - start < 10
    os.kill(pid, signal.SIGTERM)


# What the agent is started with.


@check
def the_agent_gets_a_clean_environment_and_no_core(folder):
    installed = Installed(folder)
    kept = {
        "LANG": "C",
        "TERM": "vt100",
        "DISPLAY": ":7",
        "XAUTHORITY": "/x y",
        "WAYLAND_DISPLAY": "w",
        "DBUS_SESSION_BUS_ADDRESS": "unix:path=/d",
    }
    with installed.start(environment=dict(kept, SECRET="s", LD_LIBRARY_PATH="/l", SSH_AUTH_SOCK="/other")) as daemon:
        agent = agent_of(daemon.pid)
        found = dict(
            entry.split("=", 1)
            for entry in pathlib.Path(f"/proc/{agent}/environ").read_bytes().decode().rstrip("\0").split("\0")
        )
        assert found == dict(kept, PATH=os.environ["PATH"], HOME=str(folder)), found
        for pid in daemon.agents():
            limits = pathlib.Path(f"/proc/{pid}/limits").read_text()
            assert re.search(r"Max core file size +0 +0 ", limits), limits


@check
def words_reach_the_agent(folder):
    installed = Installed(folder)
    asker = rig.script(folder / "ask me", "exit 1")
    with installed.start("--confirm-limit", "2m", "-t", "90m", environment={"SSH_ASKPASS": str(asker), "SSH_ASKPASS_REQUIRE": "force"}) as daemon:
        agent = agent_of(daemon.pid)
        words = pathlib.Path(f"/proc/{agent}/cmdline").read_text().rstrip("\0").split("\0")
        words = words[words.index("serve") :]
        assert words[:4] == ["serve", "-a", daemon.path, "--helper"] and words[-4:] == ["--confirm-limit", "2m", "-t", "90m"], words
        assert words[4] == str(installed.prefix / "libexec/mortarleek/mortarleek_signer"), words
        assert "--helper-data" not in words, words
        if "--relay" in words:
            assert words[words.index("--askpass") + 1] == str(asker), words
        elif (rig.BUILT / "confirm_relay").exists():
            raise AssertionError(words)


@check
def without_a_helper_that_signs_it_says_so(folder):
    installed = Installed(folder, helper=False)
    said = run([installed.agent], 1, env=installed.environment)
    assert "mortarleek_signer" in said and "install mortarleek anew" in said and said.count("\n") == 1, said
    assert installed.folders() == []
    if (installed.prefix / "libexec/mortarleek/standin_helper").exists():
        with installed.start("--stand-in") as daemon:
            assert "no identities" in daemon.run("ssh-add", "-l", status=1)


@check
def a_helper_that_can_t_be_run_is_refused(folder):
    for name in ("mortarleek_signer", "mortarleek-helper"):
        place = folder / name
        place.mkdir()
        installed = Installed(place, helper=False)
        rig.script(installed.prefix / "libexec/mortarleek" / name, "exit 0").write_text("#!/nowhere/at/all\n")
        said = run([installed.agent], 1, env=installed.environment)
        assert f"{name} can't be run" in said and said.count("\n") == 1, said
        assert installed.folders() == []


@check
def the_proved_helper_signs_and_the_other_one_where_it_isn_t_built(folder):
    for name in ("mortarleek_signer", "mortarleek-helper"):
        place = folder / name
        place.mkdir()
        installed = Installed(place, helper=False)
        libexec = installed.prefix / "libexec/mortarleek"
        for helper in {name, "mortarleek-helper"}:
            shutil.copy(rig.built(helper), libexec)
        with installed.start() as daemon:
            agent = agent_of(daemon.pid)
            words = pathlib.Path(f"/proc/{agent}/cmdline").read_text().split("\0")
            assert words[words.index("--helper") + 1] == str(libexec / name), words
            for bits, kind in ((None, "ed25519"), (2048, "rsa"), (256, "ecdsa"), (384, "ecdsa"), (521, "ecdsa")):
                key = keygen(place / f"{kind}{bits}", *(["-b", str(bits)] if bits else []), kind=kind)
                daemon.run("ssh-add", "-q", key)
                # -T has the agent sign something, and verifies that.
                daemon.run("ssh-add", "-T", f"{key}.pub")
            (helper,) = rig.children(agent)
            assert rig.children(helper) == [], "the helper started another"
