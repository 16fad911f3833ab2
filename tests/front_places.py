"""Where mortarleek-agent makes its folder, who can enter it, and what else stands at a path. tests/daily.py runs these
too."""

import os
import pathlib
import re
import shutil
import signal
import stat
import subprocess

import rig
from installed import Installed, agent_of, check, keygen
from rig import Skip, children, is_alive, run, until


@check
def folder_and_socket_are_the_user_s_alone(folder):
    installed = Installed(folder)
    previous = os.umask(0)
    try:
        with installed.start() as daemon:
            (private,) = installed.folders()
            assert private.stat().st_mode & 0o7777 == 0o700
            assert os.stat(daemon.path).st_mode & 0o777 == 0o600
            for file in private.iterdir():
                assert file.stat().st_mode & 0o77 == 0, file
    finally:
        os.umask(previous)


def for_all_users(folder):
    """The programs, installed where another user can start them."""
    if os.geteuid() != 0:
        raise Skip("it takes root to be another user")
    folder.chmod(0o755)
    installed = Installed(folder)
    installed.temporary.chmod(0o1777)
    return installed


@check
def another_user_can_t_reach_it(folder):
    installed = for_all_users(folder)
    with installed.start() as daemon:
        other = rig.AS_NOBODY
        assert "Permission denied" in run([*other, "ls", str(pathlib.Path(daemon.path).parent)], 2)
        run([*other, "ssh-add", "-l"], 2, env=dict(installed.environment, SSH_AUTH_SOCK=daemon.path))
        run([*other, "kill", str(daemon.pid)], 1)
        # and the other way round: two users' agents in one place, each with a folder of its own
        said = run([*other, installed.agent], env=dict(installed.environment, HOME="/"))
        pid = int(re.search(r"pid (\d+);", said)[1])
        assert len(installed.folders()) == 2
        os.kill(pid, signal.SIGTERM)
        until(lambda: len(installed.folders()) == 1)


@check
def what_root_installed_is_closed_to_its_user(folder):
    installed = for_all_users(folder)
    for program in (installed.prefix / "libexec/mortarleek").iterdir():
        if program.name not in rig.SHELL_PARTS:
            program.chmod(0o711)
    other = rig.AS_NOBODY
    key = keygen(folder / "key")
    said = run([*other, installed.agent], env=dict(installed.environment, HOME="/"))
    path, guard = re.search(r"SSH_AUTH_SOCK=([^;]+);", said)[1], int(re.search(r"pid (\d+);", said)[1])
    environment = dict(installed.environment, SSH_AUTH_SOCK=path)
    run(["ssh-add", "-q", key], env=environment)
    run(["ssh-add", "-T", f"{key}.pub"], env=environment)
    agent = agent_of(guard)
    (helper,) = children(agent)
    for pid in (agent, helper):
        # Its user is nobody, and yet its memory is root's to read.
        assert f"Uid:\t{rig.NOBODY}\t" in pathlib.Path(f"/proc/{pid}/status").read_text()
        assert os.stat(f"/proc/{pid}/mem").st_uid == 0
        for file in ("mem", "environ", "maps"):
            assert "Permission denied" in run([*other, "cat", f"/proc/{pid}/{file}"], 1)
    os.kill(guard, signal.SIGKILL)
    until(lambda: not is_alive(agent) and not is_alive(helper), what="the end of an agent without a guard")


@check
def the_folder_stands_where_the_session_s_is_private(folder):
    installed = Installed(folder)
    runtime = folder / "runtime"
    runtime.mkdir(mode=0o700)
    with installed.start(environment={"XDG_RUNTIME_DIR": str(runtime)}) as daemon:
        assert daemon.path.startswith(f"{runtime}/mortarleek-")
    until(lambda: list(runtime.iterdir()) == [])
    for mode in (0o750, 0o701, 0o777):
        runtime.chmod(mode)
        with installed.start(environment={"XDG_RUNTIME_DIR": str(runtime)}) as daemon:
            assert daemon.path.startswith(f"{installed.temporary}/mortarleek-")
    with installed.start(environment={"XDG_RUNTIME_DIR": str(folder / "none")}) as daemon:
        assert daemon.path.startswith(f"{installed.temporary}/mortarleek-")
    if os.geteuid() == 0:
        runtime.chmod(0o700)
        os.chown(runtime, rig.NOBODY, rig.NOBODY)
        with installed.start(environment={"XDG_RUNTIME_DIR": str(runtime)}) as daemon:
            assert daemon.path.startswith(f"{installed.temporary}/mortarleek-")


@check
def paths_with_odd_characters_work(folder):
    installed = Installed(folder)
    for number, name in enumerate(["a b", "it's", "$HOME `x` \\", "ü", "a!b;c&d"]):
        odd = folder / name
        odd.mkdir()
        with installed.start(environment={"TMPDIR": str(odd)}) as daemon:
            assert daemon.path.startswith(f"{odd}/"), daemon.path
            assert "no identities" in daemon.run("ssh-add", "-l", status=1)
        for words in (["-a", f"{odd}/my agent"], ["-a", f"{odd}/-x"]):
            with installed.start(*words) as daemon:
                assert daemon.path == words[1]
                assert "no identities" in daemon.run("ssh-add", "-l", status=1)
            until(lambda: [place.name for place in odd.iterdir() if not place.name.endswith(".lock")] == [])
        if csh := shutil.which("tcsh"):
            said = run([installed.agent, "-c"], env=dict(installed.environment, TMPDIR=str(odd)))
            run_by_csh = said + "printenv SSH_AUTH_SOCK\n"
            path = run([csh, "-f"], input=run_by_csh).splitlines()[1]
            assert path.startswith(f"{odd}/"), path
            os.kill(int(re.search(r"pid (\d+);", said)[1]), signal.SIGTERM)
    assert "control" in run([installed.agent, "-a", f"{folder}/a\nb"], 1, env=installed.environment)


@check
def a_path_that_is_too_long_is_refused(folder):
    installed = Installed(folder)
    long = folder / ("x" * 90)
    long.mkdir()
    for more in ({"TMPDIR": str(long)}, {}):
        words = [] if more else ["-a", f"{long}/s"]
        assert "too long" in run([installed.agent, *words], 1, env=dict(installed.environment, **more))
    assert list(long.iterdir()) == []


@check
def a_full_or_missing_folder_is_refused_with_a_line(folder):
    installed = Installed(folder)
    for place in (folder / "none", pathlib.Path("/proc")):
        said = run([installed.agent], 1, env=dict(installed.environment, TMPDIR=str(place)))
        assert said.count("\n") == 1 and said.startswith("mortarleek-agent: "), said
        said = run([installed.agent, "-a", f"{place}/s"], 1, env=installed.environment)
        assert said.count("\n") == 1 and said.startswith("mortarleek-agent: "), said
    if os.geteuid() != 0:
        raise Skip("it takes root to mount a small file system")
    for inodes in (1, 2, 3, 4):
        full = folder / "full"
        full.mkdir(exist_ok=True)
        if subprocess.run(["mount", "-t", "tmpfs", "-o", f"nr_inodes={inodes},size=4k", "none", full]).returncode:
            raise Skip("no file system can be mounted here")
        try:
            said = run([installed.agent], 1, env=dict(installed.environment, TMPDIR=str(full)))
            assert said.splitlines()[-1].startswith("mortarleek-agent: "), said
            assert list(full.iterdir()) == [], (inodes, list(full.iterdir()))
        finally:
            subprocess.run(["umount", full])


@check
def a_folder_in_which_others_can_swap_things_is_refused(folder):
    installed = Installed(folder)
    outer, inner = folder / "outer", folder / "outer/inner"
    inner.mkdir(parents=True)
    outer.chmod(0o755)

    def start(*words, status=1, **environment):
        return run([installed.agent, *words], status, env=dict(installed.environment, **environment))

    for place, mode in ((inner, 0o777), (inner, 0o775), (outer, 0o777), (outer, 0o770)):
        place.chmod(mode)
        for said in (start("-a", inner / "s"), start("--reuse", "-a", inner / "s"), start(TMPDIR=str(inner))):
            by = "TMPDIR" if said.endswith("TMPDIR\n") else "-a"
            assert said == f"mortarleek-agent: {place}: others may change what stands there: name a folder of yours by {by}\n"
        place.chmod(0o755)
        assert list(inner.iterdir()) == []
    # Where it is sticky nobody takes away what is another's, and a link leads to what it leads to.
    for mode in (0o1777, 0o1775, 0o700):
        inner.chmod(mode)
        with installed.start("-a", inner / "s"):
            pass
        until(lambda: not (inner / "s").exists())
    outer.chmod(0o777)
    (folder / "link").symlink_to(inner)
    assert f"{outer}: others may" in start("-a", folder / "link/s")
    if os.geteuid() == 0:
        outer.chmod(0o755)
        os.chown(inner, rig.NOBODY, rig.NOBODY)
        assert f"{inner}: others may" in start("-a", inner / "s")


@check
def of_another_user_s_folder_no_socket_is_looked_at(folder):
    """Folders with sockets in the place of killed agents': only one of this user's, with one socket, is asked."""
    installed = Installed(folder)
    asked = folder / "asked"
    tools = folder / "tools"
    tools.mkdir()
    rig.script(tools / "timeout", f'case $2 in */add_tool) echo "$SSH_AUTH_SOCK" >> {asked} ;; esac; exec {shutil.which("timeout")} "$@"')
    environment = {"PATH": f"{tools}:{os.environ['PATH']}"}
    for name, mode, numbers in (("aaaaaaaa", 0o755, range(300)), ("bbbbbbbb", 0o700, range(300)), ("cccccccc", 0o700, [4194303])):
        place = installed.temporary / f"mortarleek-{name}"
        place.mkdir()
        for number in numbers:
            os.mknod(place / f"agent.{number}", 0o600 | stat.S_IFSOCK)
        place.chmod(mode)
    with installed.start(environment=environment):
        assert asked.read_text().splitlines() == [f"{installed.temporary}/mortarleek-cccccccc/agent.4194303"]
        left = {place.name for place in installed.folders()}
        assert {"mortarleek-aaaaaaaa", "mortarleek-bbbbbbbb"} < left and len(left) == 3, left
