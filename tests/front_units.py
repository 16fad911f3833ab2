"""The units: well formed, hardened, found by a user's manager, and at work under one. tests/daily.py runs these too."""

import os
import pathlib
import pwd
import re
import shutil
import subprocess

import rig
from installed import check
from rig import Skip, run, until
from user_manager import USER, UserManager

PLACE = rig.TOP / "contrib/systemd"
UNITS = ("mortarleek-agent.service", "mortarleek-agent.own.service")


def copy_of(name, folder):
    """A unit as it is installed, of a program that any machine has."""
    unit = folder / name.replace(".own", "")
    unit.write_text((PLACE / name).read_text().replace("/usr/local/bin/mortarleek-agent", "/bin/true"))
    return unit


@check
def the_units_are_well_formed_and_hardened(folder):
    manager = dict(os.environ, XDG_RUNTIME_DIR=str(folder))
    for name, most in (("mortarleek-agent.service", 1.5), ("mortarleek-agent.own.service", 6.1)):
        unit = copy_of(name, folder)
        said = run(["systemd-analyze", "verify", "--user", "--man=no", unit], None, env=manager)
        ours = [line for line in said.splitlines() if "mortarleek" in line]
        assert ours == [], said
        said = run(["systemd-analyze", "security", "--user", "--offline=true", unit], None, env=manager)
        if "Overall exposure" not in said:
            raise Skip(f"systemd-analyze says nothing: {said[:200]}")
        exposure = float(re.search(r"level for \S+: ([\d.]+)", said)[1])
        print(f"daily: the exposure of {name} is {exposure}")
        assert exposure <= most, said


@check
def a_unit_for_an_own_installation_makes_no_user_namespace(folder):
    """By systemd.exec(5) of 252 each of these makes one in a user's manager."""
    own = (PLACE / "mortarleek-agent.own.service").read_text()
    for word in ("PrivateUsers", "Private", "ProtectSystem", "ProtectHome", "ProtectKernel", "ProtectClock", "ProtectHostname"):
        assert not re.search(rf"(?m)^{word}", own), word
    for word in ("BindReadOnlyPaths", "CapabilityBoundingSet", "ReadOnlyPaths", "InaccessiblePaths"):
        assert not re.search(rf"(?m)^{word}", own), word
    # Both say the same of all else.
    for word in ("Type", "NotifyAccess", "ExecStart", "RuntimeDirectory", "StateDirectory", "Environment", "MemoryMax", "TasksMax", "LimitNOFILE"):
        lines = [re.findall(rf"(?m)^{word}=.*$", (PLACE / name).read_text()) for name in UNITS]
        assert lines[0] == lines[1] and len(lines[0]) == 1, (word, lines)


def reads_memory_of(program, folder, *before):
    """Whether the program's user reads its memory from outside, where that user starts it behind these words: by /proc,
    and by process_vm_readv of what the kernel tells root of the place of its words."""
    as_user = dict(user=pwd.getpwnam(USER).pw_uid, group=pwd.getpwnam(USER).pw_gid, extra_groups=[], cwd="/")
    started = subprocess.Popen([*before, program, "1000"], stdin=subprocess.DEVNULL, **as_user)
    try:
        exe = pathlib.Path(f"/proc/{started.pid}/exe")
        until(lambda: os.readlink(exe) == str(program), what="the program in the place of the words before it")
        place = re.match("([0-9a-f]+)-", pathlib.Path(f"/proc/{started.pid}/maps").read_text())[1]
        read = subprocess.run(["/usr/bin/python3", "-c", READS, str(started.pid), place], capture_output=True, text=True, **as_user)
        opened = subprocess.run(["head", "-c", "1", f"/proc/{started.pid}/maps"], capture_output=True, **as_user)
        assert (opened.returncode == 0) == (read.stdout == "read\n"), (opened, read)
        return opened.returncode == 0
    finally:
        started.kill()
        started.wait()


READS = """
import ctypes, sys
class Piece(ctypes.Structure):
    _fields_ = [("base", ctypes.c_void_p), ("len", ctypes.c_size_t)]
room = ctypes.create_string_buffer(4)
ours, theirs = Piece(ctypes.addressof(room), 4), Piece(int(sys.argv[2], 16), 4)
count = ctypes.CDLL(None).process_vm_readv(int(sys.argv[1]), ctypes.byref(ours), 1, ctypes.byref(theirs), 1, 0)
print("read" if count == 4 and room.raw == b"\\x7fELF" else "refused")
"""


@check
def in_a_user_namespace_memory_is_closed_to_its_user_where_the_file_is_root_s_alone(folder):
    """So the unit for an own installation makes none, and root's may."""
    if os.geteuid() != 0:
        raise Skip("it takes root to start programs of two users")
    folder.chmod(0o755)
    own, roots = folder / "own", folder / "roots"
    for program, mode in ((own, 0o111), (roots, 0o711)):
        shutil.copy(shutil.which("sleep"), program)
        program.chmod(mode)
    shutil.chown(own, USER, pwd.getpwnam(USER).pw_gid)
    namespace = ["unshare", "-U", "-c"]
    if subprocess.run(["setpriv", f"--reuid={USER}", "--clear-groups", *namespace, "true"], cwd="/").returncode != 0:
        raise Skip("this machine lets users make no user namespace")
    assert not reads_memory_of(own, folder)
    assert not reads_memory_of(roots, folder)
    assert not reads_memory_of(roots, folder, *namespace)
    assert reads_memory_of(own, folder, *namespace), "the kernel keeps it now: the unit may have PrivateUsers"


def installed_for(folder, home, own):
    """An installation as the user's own in the home, or as root's, whose unit the user's manager finds as well."""
    source = folder / "source"
    source.mkdir()
    files = run(["git", "ls-files", "-z", "--cached", "--others", "--exclude-standard"], cwd=rig.TOP).rstrip("\0").split("\0")
    parts = ("Makefile", "front/", "man/", "contrib/", "scripts/", "tests/packages", "helper/build", "crates.txt", "CHANGELOG.md")
    run(["cp", "--parents", *(name for name in files if name.startswith(parts)), source], cwd=rig.TOP)
    (source / "bin").mkdir()
    for name in ("agent_prog", "mortarleek_signer", "add_tool", "confirm_relay", "log_prog"):
        shutil.copy(rig.built(name), source / "bin")
    make = ["make", "--no-print-directory", "-C", source, "-o", "bin/agent_prog", "UNPROVED=yes", "install"]
    if own:
        run(["chown", "-R", USER, source, home])
        becomes = ["setpriv", f"--reuid={USER}", "--clear-groups"]
        run([*becomes, *make, f"PREFIX={home}/.local"], env={"PATH": os.environ["PATH"], "HOME": str(home)})
        return home / ".local", home / ".local/share/systemd/user"
    run([*make, f"PREFIX={home}/root"])
    units = home / ".config/systemd/user"
    units.mkdir(parents=True)
    shutil.copy(home / "root/lib/systemd/user/mortarleek-agent.service", units)
    run(["chown", USER, home])
    return home / "root", units


@check
def the_units_run_under_a_user_s_manager(folder):
    """Started, answered, closed to the user, recorded, reloaded and stopped, by DAILY's lines."""
    if os.geteuid() != 0:
        raise Skip("it takes root to start a user's manager")
    page = (rig.TOP / "docs/DAILY.md").read_text()
    (enable,) = re.findall(r"(?m)^\$ (systemctl --user enable .*)$", page)
    (variable,) = re.findall(r"(?m)^SSH_AUTH_SOCK=\$\{XDG_RUNTIME_DIR\}.*$", page)
    folder.chmod(0o755)
    for own in (True, False):
        place, home = folder / str(own), folder / str(own) / "home"
        home.mkdir(parents=True)
        (home / ".config/environment.d").mkdir(parents=True)
        (home / ".config/environment.d/mortarleek.conf").write_text(f"{variable}\n")
        prefix, units = installed_for(place, home, own)
        # The folder of tests lies in /tmp, which the unit for root's installation has empty.
        unit = units / "mortarleek-agent.service"
        unit.write_text(unit.read_text().replace("PrivateTmp=yes", "PrivateTmp=no"))
        run(["chown", "-R", USER, home / ".config"])
        with UserManager(place, home) as manager:
            at_work(manager, prefix, own, enable)


def at_work(manager, prefix, own, enable):
    socket = f"{manager.runtime}/mortarleek/agent.sock"
    assert f"SSH_AUTH_SOCK={socket}\n" in manager.run("systemctl --user show-environment")
    path = manager.run("systemctl --user show -P FragmentPath mortarleek-agent").strip()
    assert path.endswith("mortarleek-agent.service"), path
    assert not own or path == f"{manager.home}/.local/share/systemd/user/mortarleek-agent.service", path
    # What is started behind it finds the agent at once.
    manager.run(enable)
    status = f"SSH_AUTH_SOCK={socket} {prefix}/bin/mortarleek status"
    said = manager.run(status)
    assert "agent: mortarleek " in said and "record: none" in said, said
    folder = pathlib.Path(re.search(r"(?m)^log: (/.*), of 30 days$", said)[1])
    behind = "systemd-run --user --wait --pipe -q -p After=mortarleek-agent.service ssh-add -l"
    for _ in range(3):
        manager.run("systemctl --user stop mortarleek-agent")
        assert manager.run(f"systemctl --user --no-block start mortarleek-agent; {behind}", 1) == "The agent has no identities.\n"
    limits = manager.run("systemctl --user show mortarleek-agent -p Type,MemoryMax,TasksMax,LimitNOFILE,LimitCORE")
    for line in ("Type=notify", "MemoryMax=402653184", "TasksMax=256", "LimitNOFILE=512", "LimitCORE=0"):
        assert line in limits.splitlines(), limits
    # A key is held and signs.
    key = f"{manager.home}/key"
    manager.run(f"umask 077; ssh-keygen -q -t ed25519 -N '' -f {key} && SSH_AUTH_SOCK={socket} {prefix}/bin/mortarleek add -q {key}")
    manager.run(f"SSH_AUTH_SOCK={socket} ssh-add -T {key}.pub")
    # The log tells it, in a file of the day that nobody else reads; the record that it is made of stands nowhere.
    (day,) = until(lambda: manager.run(f"find {folder} -name 'log-*' -size +0").split(), what="a day of the log")
    assert manager.run(f"stat -c %a {day}") == "600\n"
    said = manager.run(f"{prefix}/bin/mortarleek log {folder}")
    assert re.fullmatch(r"(?:[0-9: -]{19}  other data, \d+ bytes  key \"[^\"]*\" SHA256:\S+  signed\n)+", said), (said, manager.run(f"cat {day}"), manager.run(f"sh -x {prefix}/bin/mortarleek-log {folder}", None)[-3000:])
    assert sorted(path.name for path in folder.iterdir()) == [pathlib.Path(day).name]
    # Nobody but root reads the memory of agent and helper.
    (agent,) = manager.run("pgrep -x agent_prog -P $(systemctl --user show -P MainPID mortarleek-agent)").split()
    (helper,) = manager.run(f"pgrep -P {agent}").split()
    for pid in (agent, helper):
        assert pathlib.Path(f"/proc/{pid}/mem").stat().st_uid == 0
        assert "Permission denied" in manager.run(f"cat /proc/{pid}/maps", 1)
    # Each start has a record of its own.
    added = f"{manager.home}/.config/systemd/user/mortarleek-agent.service.d"
    manager.run(f"mkdir -p {added}; sed 's,/usr/local/bin,{prefix}/bin,' {PLACE}/record.conf > {added}/record.conf")
    manager.run("systemctl --user daemon-reload")
    for number in (1, 2):
        manager.run("systemctl --user restart mortarleek-agent")
        record = re.search(r"(?m)^record: (/.*)$", manager.run(status))[1]
        assert pathlib.Path(record).read_text().startswith("schedule 2\n"), record
        assert len(list(pathlib.Path(record).parent.glob("record-*"))) == number
    assert "log:" not in manager.run(status)
    manager.run("systemctl --user stop mortarleek-agent")
    assert manager.run(f"ls -A {manager.runtime}/mortarleek 2> /dev/null || :") == ""
    assert "inactive" in manager.run("systemctl --user is-active mortarleek-agent", None)


@check
def a_unit_stands_where_its_user_s_manager_looks(folder):
    """By make install as each kind of user, with and without XDG_DATA_HOME."""
    make = ["make", "--no-print-directory", "-C", rig.TOP, "-o", "bin/agent_prog", "-n", "install"]
    home = folder / "home"
    plain = {"PATH": os.environ["PATH"], "HOME": str(home)}
    for prefix, more, place, name in (
        (f"{home}/.local", {}, f"{home}/.local/share/systemd/user", "mortarleek-agent.own.service"),
        (f"{home}/.local", {"XDG_DATA_HOME": "/d"}, "/d/systemd/user", "mortarleek-agent.own.service"),
        ("/usr/local", {}, "/usr/local/lib/systemd/user", "mortarleek-agent.service"),
        ("/usr", {"DESTDIR": f"{folder}/x"}, f"{folder}/x/usr/lib/systemd/user", "mortarleek-agent.service"),
    ):
        words = [f"PREFIX={prefix}", *(f"{key}={word}" for key, word in more.items() if key == "DESTDIR")]
        said = run([*make, *words], env=dict(plain, **more))
        own = os.geteuid() != 0 and "DESTDIR" not in more
        if own and "own" not in name:
            continue
        assert f"contrib/systemd/{name} > {place}/mortarleek-agent.service" in said, (words, said)
