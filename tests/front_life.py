"""An agent as a daemon: a second start, signals, crashes, many starts at once, confirmations. tests/daily.py runs these
too."""

import contextlib
import os
import pathlib
import re
import shutil
import signal
import stat
import subprocess
import time

import rig
from installed import Installed, a_display, agent_of, check, dialog_on, keygen
from rig import children, is_alive, openssh_agent, run, until, zombies


@check
def a_second_start_at_a_live_path_is_refused(folder):
    installed = Installed(folder)
    path = folder / "s"
    with installed.start("-a", path) as daemon:
        key = keygen(folder / "key")
        daemon.run("ssh-add", "-q", key)
        for words in (["-a", str(path)], ["-D", "-a", str(path)], ["-a", str(path), "true"]):
            said = run([installed.agent, *words], 1, env=installed.environment)
            assert said == f"mortarleek-agent: {path}: in use\n", said
        assert "key" in daemon.run("ssh-add", "-l")
        (private,) = [place for place in folder.iterdir() if place.name.startswith(".mortarleek")]
        assert os.stat(path).st_mode & 0o777 == 0o600
    until(lambda: not private.exists() and not path.exists())


@check
def a_stopped_agent_is_a_live_one(folder):
    installed = Installed(folder)
    path = folder / "s"
    with installed.start("-a", path) as daemon:
        agent = agent_of(daemon.pid)
        stopped = [agent, *children(agent)]
        for pid in stopped:
            os.kill(pid, signal.SIGSTOP)
        assert "in use" in run([installed.agent, "-a", str(path)], 1, env=installed.environment)
        for pid in stopped:
            os.kill(pid, signal.SIGCONT)
        assert "no identities" in daemon.run("ssh-add", "-l", status=1)


@check
def a_stale_socket_is_replaced_and_nothing_else_is(folder):
    installed = Installed(folder)
    path = folder / "s"
    daemon = installed.start("-a", path)
    os.kill(daemon.pid, signal.SIGKILL)
    until(lambda: run(["ssh-add", "-l"], None, env=daemon.environment).startswith("Error connecting"))
    assert path.exists()
    with installed.start("-a", path) as daemon:
        assert "no identities" in daemon.run("ssh-add", "-l", status=1)
    until(lambda: not path.exists())
    path.write_text("a file\n")
    said = run([installed.agent, "-a", str(path)], 1, env=installed.environment)
    assert "no socket" in said and path.read_text() == "a file\n", said
    path.unlink()
    path.symlink_to(folder / "nowhere")
    assert "no socket" in run([installed.agent, "-a", str(path)], 1, env=installed.environment)
    assert path.is_symlink()


@check
def a_socket_that_took_the_path_over_stays(folder):
    installed = Installed(folder)
    path = folder / "s"
    with installed.start("-a", path):
        path.unlink()
        with openssh_agent(folder, name="s") as other:
            other.path = str(path) + ".sock"
            os.rename(folder / "s.sock", path)
        os.mknod(path, 0o600) if not path.exists() else None
    time.sleep(0.2)
    assert path.exists()


@check
def signals_end_it_and_leave_nothing(folder):
    installed = Installed(folder)
    for number in (signal.SIGTERM, signal.SIGHUP):
        for words in ([], ["-a", folder / "s"]):
            daemon = installed.start(*words)
            daemon.signal(number)
            assert installed.folders() == []
            assert not (folder / "s").exists()
    # in the background ssh-agent goes on at SIGINT
    with installed.start() as daemon:
        os.kill(daemon.pid, signal.SIGINT)
        time.sleep(0.2)
        assert "no identities" in daemon.run("ssh-add", "-l", status=1)


@check
def a_stopped_agent_ends_too(folder):
    installed = Installed(folder)
    daemon = installed.start()
    os.kill(agent_of(daemon.pid), signal.SIGSTOP)
    daemon.signal(signal.SIGTERM)
    assert installed.folders() == []


@check
def a_crash_of_either_process_ends_both(folder):
    installed = Installed(folder)
    daemon = installed.start()
    pids = daemon.agents()
    os.kill(pids[1], signal.SIGKILL)
    until(lambda: not any(map(is_alive, pids)) and installed.folders() == [])
    daemon = installed.start()
    pids = daemon.agents()
    os.kill(pids[0], signal.SIGKILL)
    until(lambda: not any(map(is_alive, pids)), what="the end of an agent without a guard")
    with installed.start() as again:
        assert "no identities" in again.run("ssh-add", "-l", status=1)


@check
def a_hundred_start_at_once(folder):
    installed = Installed(folder)
    starts = [
        subprocess.Popen([installed.agent], stdout=subprocess.PIPE, text=True, env=installed.environment)
        for _ in range(100)
    ]
    said = [start.communicate(timeout=120)[0] for start in starts]
    assert all(start.returncode == 0 for start in starts)
    pids = [int(re.search(r"pid (\d+);", lines)[1]) for lines in said]
    paths = {re.search(r"SSH_AUTH_SOCK=([^;]+);", lines)[1] for lines in said}
    assert len(set(pids)) == 100 and len(paths) == 100
    for path in sorted(paths)[::9]:
        assert "no identities" in run(["ssh-add", "-l"], 1, env=dict(installed.environment, SSH_AUTH_SOCK=path))
    for pid in pids:
        os.kill(pid, signal.SIGTERM)
    until(lambda: installed.folders() == [], 60)


@check
def of_twenty_starts_at_one_path_one_has_it(folder):
    installed = Installed(folder)
    path = folder / "s"
    for stale in (False, True):
        if stale:
            daemon = installed.start("-a", path)
            os.kill(daemon.pid, signal.SIGKILL)
            until(lambda: "Error" in run(["ssh-add", "-l"], None, env=daemon.environment))
        starts = [
            subprocess.Popen(
                [installed.agent, "-a", path],
                stdout=subprocess.PIPE,
                stderr=subprocess.PIPE,
                text=True,
                env=installed.environment,
            )
            for _ in range(20)
        ]
        said = [start.communicate(timeout=120) for start in starts]
        won = [lines for (lines, _), start in zip(said, starts) if start.returncode == 0]
        assert len(won) == 1, said
        lost = [(lines, errors) for (lines, errors), start in zip(said, starts) if start.returncode != 0]
        assert all(lines == "" and errors.count("\n") == 1 for lines, errors in lost), lost
        assert "no identities" in run(["ssh-add", "-l"], 1, env=dict(installed.environment, SSH_AUTH_SOCK=str(path)))
        os.kill(int(re.search(r"pid (\d+);", won[0])[1]), signal.SIGTERM)
        until(lambda: not path.exists(), what="the removal of the socket")
        lock = os.lstat(folder / "s.lock")
        assert stat.S_ISREG(lock.st_mode) and lock.st_mode & 0o777 == 0o600 and lock.st_size == 0


@check
def confirmations_leave_no_process_behind(folder):
    rig.built("confirm_relay")
    installed = Installed(folder)
    asker = rig.script(folder / "ask", f'echo "$1" >> {folder}/asked; exit "$(cat {folder}/status)"')
    key = keygen(folder / "key")
    with installed.start(environment={"SSH_ASKPASS": str(asker), "SSH_ASKPASS_REQUIRE": "force"}) as daemon:
        daemon.run("ssh-add", "-q", "-c", key)
        for number in range(50):
            denied = number % 5 == 4
            (folder / "status").write_text("1" if denied else "0")
            daemon.run("ssh-add", "-T", f"{key}.pub", status=1 if denied else 0)
        asked = (folder / "asked").read_text()
        assert asked.count("Allow use of key") == 50 and run(["ssh-keygen", "-lf", f"{key}.pub"]).split()[1] in asked
        agent = agent_of(daemon.pid)
        assert len(children(agent)) <= 2 and zombies(agent) <= 17, (children(agent), zombies(agent))


@check
def a_dialog_asks_on_a_display(folder):
    """With the variable PICTURE a picture of the dialog is written there."""
    rig.built("confirm_relay")
    installed = Installed(folder)
    rig.install("dialog")
    key = keygen(folder / "key", comment="a key of mine")
    with a_display() as display:
        environment = {"DISPLAY": display}
        with installed.start(environment=environment) as daemon:
            daemon.run("ssh-add", "-q", "-c", key)
            for typed, status in (("Return", 0), ("Escape", 1)):
                words = ["ssh-add", "-T", f"{key}.pub"]
                quiet = dict(stdout=subprocess.DEVNULL, stderr=subprocess.DEVNULL)
                waiting = subprocess.Popen(words, env=daemon.environment, **quiet)
                dialog_on(display)
                time.sleep(1)
                if "PICTURE" in os.environ and typed == "Return":
                    time.sleep(5)
                    run(["import", "-display", display, "-window", "root", "-trim", os.environ["PICTURE"]])
                run(["xdotool", "key", typed], env=dict(os.environ, **environment))
                assert waiting.wait(60) == status, typed


# Debian's programs that ask.
ASKPASS = ("/usr/libexec/ssh-askpass/x11-ssh-askpass", "/usr/lib/openssh/gnome-ssh-askpass")


def words_on(display, program):
    """The words of each process of the program that shows a dialog on the display."""
    found = []
    for place in pathlib.Path("/proc").glob("[0-9]*"):
        with contextlib.suppress(OSError):
            words = (place / "cmdline").read_bytes().split(b"\0")[:-1]
            if words[:1] == [program.encode()] and f"DISPLAY={display}".encode() in (place / "environ").read_bytes():
                found.append([word.decode() for word in words[1:]])
    return found


@check
def a_dialog_about_a_key_with_purposes_has_three_lines(folder):
    """By each of Debian's programs that is there: it is given these lines alone, and its window is on the screen whole. With
    the variable PICTURES pictures are written into that folder."""
    rig.built("confirm_relay")
    installed = Installed(folder)
    rig.install("dialog")
    key = keygen(folder / "key", comment="a key of mine")
    public = folder / "public"
    public.write_text(pathlib.Path(f"{key}.pub").read_text())
    fingerprint = run(["ssh-keygen", "-lf", public]).split()[1]
    quiet = dict(stdin=subprocess.DEVNULL, stdout=subprocess.DEVNULL, stderr=subprocess.DEVNULL)
    sizes = {"X": 1024, "Y": 400}
    for program in filter(os.path.exists, ASKPASS):
        with a_display(*sizes.values()) as display:
            shown = dict(os.environ, DISPLAY=display)
            with installed.start(environment={"DISPLAY": display, "SSH_ASKPASS": program}) as daemon:
                daemon.run(installed.add, "-q", "-c", "--for", "all", key)
                for namespace, typed, status in (("git", "Return", 0), ("n" * 65, "Escape", 255)):
                    words = ["ssh-keygen", "-Y", "sign", "-f", public, "-n", namespace]
                    waiting = subprocess.Popen(words, env=daemon.environment, **quiet)
                    window = dialog_on(display)
                    lines = ["Allow use of key a key of mine?", f"Key fingerprint {fingerprint}."]
                    lines.append(f"For a signature in namespace {namespace[:64]}.")
                    assert words_on(display, program) == [["\n".join(lines)]], words_on(display, program)
                    said = run(["xdotool", "getwindowgeometry", "--shell", window], env=shown)
                    at = {name: int(number) for name, number in re.findall(r"(?m)^([A-Z]+)=(-?\d+)$", said)}
                    for side, size in (("X", at["WIDTH"]), ("Y", at["HEIGHT"])):
                        assert at[side] >= 0 and at[side] + size <= sizes[side], (program, at)
                    time.sleep(1)
                    if "PICTURES" in os.environ:
                        picture = f"{os.environ['PICTURES']}/{os.path.basename(program)}-{len(namespace)}.png"
                        run(["import", "-display", display, "-window", "root", picture])
                    run(["xdotool", "key", typed], env=shown)
                    assert waiting.wait(60) == status, (program, typed)


@check
def a_record_is_a_new_file_that_is_opened_once(folder):
    installed, path = Installed(folder), folder / "record"
    for make in (
        lambda: os.mkfifo(path),
        lambda: path.symlink_to(folder / "elsewhere"),
        lambda: path.write_text("kept\n"),
    ):
        make()
        said = run([installed.agent, "--record", path], 1, env=installed.environment, timeout=20)
        assert said.startswith(f"mortarleek-agent: --record: {path}: is there already") and said.count("\n") == 1, said
        path.unlink()
    assert not (folder / "elsewhere").exists() and installed.folders() == []
    # What takes the file's place once it is made gets nothing.
    for words in (["--record", path], ["--record", path, "-a", folder / "s"]):
        tools = folder / "tools"
        tools.mkdir(exist_ok=True)
        rig.script(tools / "mktemp", f'mv {path} {path}.moved && ln -s {folder}/other {path}; exec {shutil.which("mktemp")} "$@"')
        with installed.start(*words, environment={"PATH": f"{tools}:{os.environ['PATH']}"}) as daemon:
            daemon.run("ssh-add", "-l", status=1)
            until(lambda: "hear 1 000000010b" in pathlib.Path(f"{path}.moved").read_text(), what="the record")
            assert not (folder / "other").exists()
            # The agent alone has it open.
            for pid in [daemon.pid, *(pid for pid in children(daemon.pid) if pid != daemon.agents()[1])]:
                for number in pathlib.Path(f"/proc/{pid}/fd").iterdir():
                    with contextlib.suppress(OSError):
                        assert "record" not in os.readlink(number), pid
        path.unlink()
        os.unlink(f"{path}.moved")
    # A folder gets a file for each start.
    (folder / "records").mkdir()
    for number in (1, 2):
        with installed.start("--record", folder / "records"):
            assert len(list((folder / "records").glob("record-20*-*-*"))) == number
    listed = run([installed.agent, "--record", path, "ls", "/proc/self/fd"], env=installed.environment)
    assert listed.split() == ["0", "1", "2", "3"], listed
    assert path.read_text().startswith("schedule 2\n") and path.stat().st_mode & 0o777 == 0o600


@check
def what_agent_and_children_say_is_bounded(folder):
    installed = Installed(folder)
    key = keygen(folder / "key")
    helper = installed.prefix / "libexec/mortarleek/mortarleek_signer"
    real = helper.rename(folder / "real")
    rig.script(helper, f"[ $# = 0 ] || dd if=/dev/zero bs=65536 count=320 2> /dev/null | tr '\\0' x >&2\nexec {real} \"$@\"")
    with installed.start() as daemon:
        private = pathlib.Path(daemon.path).parent
        daemon.run("ssh-add", "-q", key)
        daemon.run("ssh-add", "-T", f"{key}.pub")
        assert sum(file.stat().st_size for file in private.iterdir()) < 70000
        assert (private / "said").stat().st_size <= 65536
        pids = [*daemon.agents(), *children(daemon.pid)]
    until(lambda: not any(map(is_alive, pids)), what="the end of all")
    # Of a start that fails it is told.
    program = installed.prefix / "libexec/mortarleek/agent_prog"
    program.unlink()
    rig.script(program, "head -c 200000 /dev/zero | tr '\\0' x >&2; echo; exit 3")
    said = run([installed.agent], 1, env=installed.environment)
    assert said.endswith("mortarleek-agent: the agent didn't start\n") and 60000 < len(said) < 66000, len(said)
    assert installed.folders() == []
