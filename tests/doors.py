#!/usr/bin/env python3
"""What another user, or who chose a name, could reach through the front ends: sockets and folders that only look like an
agent's of ours, folders that others may rename in, a relay that failed, what is opened for a record, and names and paths
in what other programs read. Where it takes another user, root plays both. Words choose checks by a part of their names."""

import base64
import contextlib
import hashlib
import json
import os
import pathlib
import re
import shutil
import socket
import stat
import subprocess
import sys
import threading

sys.dont_write_bytecode = True

import rig
from frames import Ended, string, strings
from installed import Installed, keygen
from rig import Peer, Skip, openssh_agent, run

sys.path.insert(0, str(rig.TOP))
from model.rows import K1, hear, st
from model.rows_log import ADDED, LOGIN
from model.rows_children import sign

check = rig.Checks("doors")


def by_root():
    if os.geteuid() != 0:
        raise Skip("it takes root to be another user")


class Stranger:
    """Another user's agent, at a socket that is bound: it lists nothing, says that all else is done, and keeps what it
    gets."""

    def __init__(self, listener):
        self.bodies = []
        self.listener = listener
        listener.listen()
        threading.Thread(target=self.serve, daemon=True).start()

    def serve(self):
        with contextlib.suppress(OSError):
            while True:
                with Peer(self.listener.accept()[0]) as client, contextlib.suppress(Ended):
                    while True:
                        self.bodies.append(client.body())
                        listed = bytes([rig.IDENTITIES]) + bytes(4)
                        client.send(listed if self.bodies[-1][0] == rig.LIST else bytes([rig.SUCCESS]))

    def keys(self):
        """The additions that it got."""
        return [body for body in self.bodies if body[0] in (rig.ADD, rig.ADD_LIMITED)]


@contextlib.contextmanager
def file_systems(folder, *names):
    """Small file systems in memory, in each of which files have the same numbers."""
    with contextlib.ExitStack() as mounted:
        for name in names:
            place = folder / name
            place.mkdir()
            if subprocess.run(["mount", "-t", "tmpfs", "-o", "size=1m", "none", place], stderr=subprocess.DEVNULL).returncode:
                raise Skip("no file system can be mounted here")
            mounted.callback(subprocess.run, ["umount", "-l", place])
        yield [folder / name for name in names]


def bound_with_number(place, number):
    """A socket `s` in a folder, whose file has this number."""
    for count in range(4096):
        listener = socket.socket(socket.AF_UNIX)
        listener.bind(f"{place}/{count}")
        if os.stat(f"{place}/{count}").st_ino == number:
            os.rename(f"{place}/{count}", f"{place}/s")
            return listener
        listener.close()
    raise Skip("numbers of files don't repeat here")


def mortarleek(installed, *words, status=0, **environment):
    return run([installed.prefix / "bin/mortarleek", *words], status, env=dict(installed.environment, **environment))


@check
def a_socket_of_another_user_s_is_no_agent_of_ours(folder):
    """The number of its file is that of our agent's socket, and a link beside it has the name of a private folder and leads
    to our agent's. In folders that are open, sticky, another user's and the own; the last two cases are what each of the
    conditions refuses alone."""
    by_root()
    installed, key, other = Installed(folder), keygen(folder / "key"), rig.NOBODY
    with file_systems(folder, "ours", "theirs") as (ours, theirs):
        with installed.start(environment={"TMPDIR": str(ours)}) as daemon:
            private = pathlib.Path(daemon.path).parent
            stranger = Stranger(bound_with_number(theirs, os.stat(daemon.path).st_ino))
            for case, (mode, owner, of_socket, of_link) in enumerate((
                (0o777, 0, other, other),
                (0o1777, 0, other, other),
                (0o755, other, other, other),
                (0o755, 0, other, 0),
                (0o755, 0, 0, 0),
            )):
                place = theirs / f"place{case}"
                place.mkdir()
                path, link = place / "s", place / ".mortarleek-aaaaaaaa"
                os.rename(theirs / "s", path)
                os.chown(path, of_socket, of_socket)
                link.symlink_to(private)
                os.chown(link, of_link, of_link, follow_symlinks=False)
                os.chown(place, owner, owner)
                place.chmod(mode)
                said = run([installed.agent, "--reuse", "-a", path], 1, env=installed.environment)
                assert "SSH_AUTH_SOCK" not in said and said.count("\n") == 1, (case, said)
                for words in (["--for", "git"], ["-u", "1"]):
                    said = mortarleek(installed, "add", *words, key, status=1, SSH_AUTH_SOCK=str(path))
                    assert "isn't one that mortarleek agent started here" in said, (case, said)
                assert "agent: unknown" in mortarleek(installed, "status", status=1, SSH_AUTH_SOCK=str(path)), case
                assert stranger.keys() == [], case
                os.rename(path, theirs / "s")
            assert "agent: mortarleek" in mortarleek(installed, "status", SSH_AUTH_SOCK=daemon.path)


@check
def a_socket_that_others_could_swap_is_no_agent_of_ours(folder):
    installed, key = Installed(folder), keygen(folder / "key")
    open_one, own = folder / "open", folder / "own"
    for place in (open_one, own):
        place.mkdir()
    with installed.start("-a", own / "s") as daemon:
        (open_one / "link").symlink_to(own)
        (open_one / "s").symlink_to(own / "s")
        (own / "link").symlink_to(own)
        open_one.chmod(0o777)
        for path, status in ((own / "link/s", 0), (open_one / "s", 1), (open_one / "link/s", 1), (open_one / "link/link/s", 1)):
            said = mortarleek(installed, "status", status=status, SSH_AUTH_SOCK=str(path))
            assert ("agent: mortarleek" in said) == (status == 0), (path, said)
        said = mortarleek(installed, "add", "--for", "git", key, status=1, SSH_AUTH_SOCK=str(open_one / "link/s"))
        assert "isn't one that mortarleek agent started here" in said, said
        own.chmod(0o777)
        assert "agent: unknown" in mortarleek(installed, "status", status=1, SSH_AUTH_SOCK=daemon.path)
        said = run([installed.agent, "--reuse", "-a", daemon.path], 1, env=installed.environment)
        assert said == f"mortarleek-agent: {own}: others may change what stands there: name a folder of yours by -a\n", said
        own.chmod(0o755)
        assert "no identities" in daemon.run("ssh-add", "-l", status=1)


def with_all_programs(folder):
    """What is installed, with the filter, the log, and a `mktemp` that writes down what it is to make."""
    installed = Installed(folder)
    for name in ("filter_proxy", "log_prog"):
        shutil.copy(rig.built(name), installed.prefix / "libexec/mortarleek")
    tools, made = folder / "tools", folder / "made"
    tools.mkdir()
    made.write_text("")
    rig.script(tools / "mktemp", f'printf "%s\\n" "$*" >> {made}; exec {shutil.which("mktemp")} "$@"')
    installed.environment["PATH"] = f"{tools}:{os.environ['PATH']}"
    (folder / "record").write_text("")
    return installed, made


@check
def no_private_folder_is_made_where_others_may_rename(folder):
    installed, made = with_all_programs(folder)
    outer = folder / "outer"
    inner, runtime = outer / "inner", outer / "runtime"
    inner.mkdir(parents=True)
    runtime.mkdir(mode=0o700)
    key, unsafe = keygen(folder / "key"), {"TMPDIR": str(inner)}
    commands = (
        ["add", "-u", "1", key],
        ["add", "--for", "git", key],
        ["filter", "-k", f"{key}.pub", "true"],
        ["log", folder / "record"],
        ["agent", "true"],
    )
    with installed.start("-a", folder / "s") as daemon:
        socket_of = {"SSH_AUTH_SOCK": daemon.path}
        for refused, mode, place in ((inner, 0o777, inner), (inner, 0o775, inner), (outer, 0o777, outer)):
            place.chmod(mode)
            for more in ({}, {"XDG_RUNTIME_DIR": str(inner)}, *([{"XDG_RUNTIME_DIR": str(runtime)}] if place == outer else [])):
                made.write_text("")
                for words in commands:
                    said = mortarleek(installed, *words, status=1, **socket_of, **unsafe, **more)
                    assert said.splitlines()[-1].endswith(
                        f"{refused}: others may change what stands there: name a folder of yours by TMPDIR"
                    ), (words, said)
                    assert "may be used" not in said, said
                assert "no identities" in daemon.run("ssh-add", "-l", status=1)
                assert "locked: unknown" in mortarleek(installed, "status", **socket_of, **unsafe, **more)
                # Without such a folder a key can be added, and not be tried before.
                said = mortarleek(installed, "add", key, **socket_of, **unsafe, **more)
                assert f"{refused}: others may change what stands there, so no key is tried" in said and "Identity added" in said
                mortarleek(installed, "add", "-qD", **socket_of)
                assert made.read_text() == "" and list(inner.iterdir()) == list(runtime.iterdir()) == []
            place.chmod(0o755)
        # The session's folder is taken where it is the user's alone, whatever TMPDIR is.
        inner.chmod(0o777)
        session = {"XDG_RUNTIME_DIR": str(runtime)}
        assert "locked: no" in mortarleek(installed, "status", **socket_of, **unsafe, **session)
        for words in commands:
            mortarleek(installed, *words, **socket_of, **unsafe, **session)
        places = [line.split()[-1] for line in made.read_text().splitlines()]
        # A key is tried in an agent of a folder in that of the run, before it is added in another.
        assert len(places) == 10 and all(place.startswith(f"{runtime}/mortarleek-") for place in places), places
        rig.until(lambda: list(runtime.iterdir()) == [], what="the end of all")


@check
def a_relay_that_failed_fails_the_command(folder):
    """What answers in the relay's place, as where another took its socket's place, isn't taken for it."""
    installed, key = Installed(folder), keygen(folder / "key")
    relay = installed.prefix / "libexec/mortarleek/terms_relay"
    with installed.start() as daemon, openssh_agent(folder) as other:
        for status in (6, 1, 0):
            relay.unlink()
            rig.script(relay, f'shift $(($# - 2)); ln -s {other.path} "$1"; echo listens; exit {status}')
            for words, told in ((["-u", "1"], "The key may be used once"), (["--for", "git"], "The key may be used for")):
                said = mortarleek(installed, "add", *words, key, status=int(status != 0), SSH_AUTH_SOCK=daemon.path)
                assert (told in said) == (status == 0), (status, said)
                assert (f"terms_relay failed with status {status}" in said) == (status != 0), (status, said)


def what_stands(path):
    """All that is told of what stands at the path but for when it was looked at, which a link that is followed changes."""
    told = os.lstat(path)
    return told.st_mode, told.st_ino, told.st_dev, told.st_uid, told.st_gid, told.st_size, told.st_mtime_ns, told.st_nlink


@check
def a_record_is_no_file_that_another_put_there(folder):
    """What another user's program puts at the name between the look and the open, by a debugger that has the start's looks
    find nothing."""
    installed, path = Installed(folder), folder / "sticky/record"
    path.parent.mkdir()
    path.parent.chmod(0o1777)
    elsewhere = folder / "elsewhere"
    os.mkfifo(elsewhere)
    other = rig.NOBODY if os.geteuid() == 0 else os.geteuid()
    os.chown(elsewhere, other, other)
    looks = ["strace", "--quiet=path-resolution", "-o", "/dev/null", "-P", path, "-e"]
    if subprocess.run([*looks, "inject=%%stat:error=ENOENT:when=1..3", "true"], stderr=subprocess.DEVNULL).returncode:
        raise Skip("no program can be traced here")
    # How many looks find nothing: the script's three, and where a plain file was put there the shell's own.
    for put, blind in (
        (lambda: os.mkfifo(path), 3),
        (lambda: path.symlink_to(elsewhere), 3),
        (lambda: path.symlink_to("/dev/null"), 3),
        (lambda: path.write_text("another's\n"), 4),
        (lambda: path.write_text(""), 4),
        (lambda: path.symlink_to(folder / "dangling"), 4),
    ):
        put()
        os.chown(path, other, other, follow_symlinks=False)
        before = what_stands(path)
        heard = os.open(path if stat.S_ISFIFO(before[0]) else elsewhere, os.O_RDONLY | os.O_NONBLOCK)
        try:
            words = [*looks, f"inject=%%stat:error=ENOENT:when=1..{blind}", installed.agent, "--record", path, "true"]
            said = run(words, 1, env=installed.environment, timeout=20)
            assert said.startswith(f"mortarleek-agent: --record: {path}: ") and said.count("\n") == 1, said
            # Where fs.protected_symlinks is set no shell follows the links.
            assert "isn't a new file of yours" in said and blind == 3 or "can't be made" in said, said
            assert os.read(heard, 100) == b""
        finally:
            os.close(heard)
        assert what_stands(path) == before and not (folder / "dangling").exists()
        path.unlink()
    assert installed.folders() == []
    run([installed.agent, "--record", path, "true"], env=installed.environment)
    assert path.read_text().startswith("schedule 2\n")


@check
def names_of_known_hosts_make_no_field_of_an_object(folder):
    for script in (folder / "bin", folder / ".ssh"):
        script.mkdir()
    rig.lay_scripts(folder / "bin")
    shutil.copy(rig.built("log_prog"), folder / "bin")
    host = keygen(folder / "host")
    kind, encoded = pathlib.Path(f"{host}.pub").read_text().split()[:2]
    blob = base64.b64decode(encoded)
    login = LOGIN + st(b"publickey-hostbound-v00@openssh.com") + b"\x01" + st(b"keyed-sha256@example.com") + st(K1) + st(blob)
    (folder / "record").write_text("\n".join([*ADDED, *hear(1, sign(K1, login)), "end 1", ""]))
    words = [folder / "bin/mortarleek", "log", folder / "record"]
    shown = run(["ssh-keygen", "-lf", f"{host}.pub"]).split()[1]

    def told(*more):
        said = run([*words, *more], env={"HOME": str(folder), "PATH": os.environ["PATH"], "TZ": "UTC"})
        assert said.count("\n") == 1 and said.isascii() and said.rstrip("\n").isprintable(), said
        return said

    plain = json.loads(told("--json"))
    assert plain.keys() == {"time", "for", "user", "host", "comment", "key", "fate"} and plain["host"] == shown, plain
    for names in (
        b"nearby",
        b'nearby,x","fate":"refused","y":"',
        b'a\\,b\\",c"d\\\\"e"',
        b'["],{}":"\\u0022"',
        b"es\x1b[2Jc,\x01\x7f\x9b\xe2\x80\xae,\\n\\x22\\t",
        b'"quoted","twice"',
    ):
        (folder / ".ssh/known_hosts").write_bytes(names + f" {kind} {encoded}\n".encode())
        # As ssh-keygen shows them, which has escapes for what is no printable character.
        wanted = run(["ssh-keygen", "-lf", folder / ".ssh/known_hosts"], env={"LC_ALL": "C"}).split(" ")[2]
        found = json.loads(told("--json"), object_pairs_hook=lambda pairs: pairs)
        assert len(dict(found)) == len(found), found
        assert dict(found) == plain | {"names": wanted.split(",")}, (names, found)
        assert f"{shown} ({wanted})" in told(), names


def public(comment, tag):
    """A key's fields as they are added with a comment, and its words as they are listed, without the comment."""
    fields, comment, blob = rig.plain_key(bytes([tag]) * 32, comment)
    digest = base64.b64encode(hashlib.sha256(blob).digest()).decode().rstrip("=")
    return fields + comment, f"256 SHA256:{digest}", f"ssh-ed25519 {base64.b64encode(blob).decode()}"


def printable(text, letters):
    """A text as it is shown: a question mark for each byte of what isn't printable, and where there are no letters of UTF-8
    for each that isn't ASCII."""
    said = ""
    for char in text.decode("utf-8", "surrogateescape"):
        is_shown = char.isprintable() and (letters or char.isascii())
        said += char if is_shown else "?" * len(char.encode("utf-8", "surrogateescape"))
    return said


def on_a_terminal(words, environment):
    """What a command shows on a terminal."""
    ours, theirs = os.openpty()
    process = subprocess.Popen(words, stdin=subprocess.DEVNULL, stdout=theirs, stderr=theirs, env=environment)
    os.close(theirs)
    said = b""
    # A terminal whose other side has ended fails.
    with contextlib.suppress(OSError):
        while more := os.read(ours, 1 << 16):
            said += more
    os.close(ours)
    assert process.wait(20) == 0, said
    return said.replace(b"\r\n", b"\n").decode()


COMMENTS = (
    b"me@laptop", b"", b" two  blanks ", "J\u00fcrgen \u6f22 \U0001f511".encode(), b"\x1b[2J\x1b[H\x1b]0;title\x07", b"\x1b]52;c;cm0=\x07",
    b"a\rb", b"a\x08\x7fb", b"a\x9b31mb\x85", "a\u009b31mb".encode(), "a\u202eb\u2066\u200b\ufeff\u2028".encode(), b"a\0b",
    b"\xc3", b"\xc0\xaf \xed\xa0\x80 \xf4\x90\x80\x80 \xe2\x80", b"lines\n\n\n", b"\t(RSA)", b"no\n256 no\nssh-ed25519 no",
)  # fmt: skip


@check
def comments_that_others_chose_are_shown_in_one_line_each(folder):
    installed = Installed(folder)
    _, prints, key = public(b"", 250)
    forged = (f"junk\n{prints} admin@vault (ED25519)", f"junk\n{key} admin@vault", f"junk\n{key} x\n{prints} y (ED25519)\n")
    comments = (*COMMENTS, *map(str.encode, forged), b"\x1b[2J\n" * 4000)
    keys = [public(comment, tag) for tag, comment in enumerate(comments)]
    with installed.start() as daemon:
        with Peer(rig.connected(daemon.path)) as peer:
            for fields, _, _ in keys:
                assert peer.ask(rig.ADD, fields) == bytes([rig.SUCCESS])
        for locale, letters in (("C", False), ("C.UTF-8", True), ("POSIX", False), ("de_DE.utf8", True)):
            shows = [printable(comment, letters) for comment in comments]
            by_prints = "".join(f"{prints} {shown} (ED25519)\n" for (_, prints, _), shown in zip(keys, shows))
            by_keys = "".join(f"{key} {shown}\n" for (_, _, key), shown in zip(keys, shows))
            environment = {"SSH_AUTH_SOCK": daemon.path, "LC_ALL": locale}
            for words, wanted in ((["-l"], by_prints), (["-lE", "sha256"], by_prints), (["-L"], by_keys)):
                command = [installed.prefix / "bin/mortarleek", "add", *words]
                assert on_a_terminal(command, dict(installed.environment, **environment)) == wanted, (locale, words)
            assert mortarleek(installed, "add", "-l", **environment) == by_prints
            assert mortarleek(installed, "status", **environment).partition("keys:\n")[2] == by_prints
            # A pipe gets each byte of the public keys.
            listed = [
                subprocess.run(command, capture_output=True, env=dict(installed.environment, **environment)).stdout
                for command in ([installed.add, "-L"], [rig.BUILT / "add_tool", "-L"])
            ]
            assert listed[0] == listed[1] and b"\x1b[2J" in listed[0]
        # OpenSSH's tool lists nothing where a comment has a zero byte.
        with Peer(rig.connected(daemon.path)) as peer:
            blob = base64.b64decode(keys[comments.index(b"a\0b")][2].split()[1])
            assert peer.ask(rig.REMOVE, rig.string(blob)) == bytes([rig.SUCCESS])
        shows = [printable(comment, True) for comment in comments if comment != b"a\0b"]
        for said in (mortarleek(installed, "add", "-lE", "md5", **environment), on_a_terminal([*command[:2], "-lE", "md5"], dict(installed.environment, **environment))):
            ends = [line.partition(" MD5:")[2][47:] for line in said.splitlines()]
            assert ends == [f" {shown} (ED25519)" for shown in shows], str(ends)[:2000]
    # What a tool says that there is nothing to list is said once, and with its status.
    with installed.start() as daemon:
        for words in (["-l"], ["-L"], ["-lE", "md5"]):
            assert mortarleek(installed, "add", *words, status=1, SSH_AUTH_SOCK=daemon.path) == "The agent has no identities.\n"
    for words in (["-l"], ["-L"]):
        assert mortarleek(installed, "add", *words, status=2, SSH_AUTH_SOCK="/none").count("\n") == 1


@check
def what_is_said_of_a_path_has_no_control_character(folder):
    installed, key = Installed(folder), keygen(folder / "key")
    odd = f"{folder}/\x1b[2J\n\rs"
    for words in (["add", "--for", "git", key], ["filter", "true"], ["filter", "-k", "x\x1b[2J\ny", "true"], ["agent", "\x1b[2J\nno"]):
        said = mortarleek(installed, *words, status=None, SSH_AUTH_SOCK=odd)
        assert "?[2J" in said and all(line.isprintable() for line in said.splitlines()), (words, said)


@check
def a_key_is_chosen_by_its_whole_comment(folder):
    installed, _ = with_all_programs(folder)
    root, build, blanks = (keygen(folder / name, comment=comment) for name, comment in (("a", "root@everywhere"), ("b", "build"), ("c", " my  build ")))
    key_of = lambda path: " ".join(pathlib.Path(f"{path}.pub").read_text().split(" ")[:2])
    tool = rig.built("add_tool")
    with installed.start() as daemon:
        chosen = lambda comment, status=0: mortarleek(installed, "filter", "-k", comment, tool, "-L", status=status, SSH_AUTH_SOCK=daemon.path)
        with Peer(rig.connected(daemon.path)) as peer:
            for tag, comment in enumerate((f"junk\n{key_of(root)} build", f"build\n{key_of(root)} build\n{key_of(build)} build", "build\0", "build\n")):
                assert peer.ask(rig.ADD, public(comment.encode(), tag)[0]) == bytes([rig.SUCCESS])
            daemon.run("ssh-add", "-q", root)
            assert "the agent has no key with this comment" in chosen("build", 1)
            daemon.run("ssh-add", "-q", build, blanks)
            assert chosen("build") == f"{key_of(build)} build\n"
            assert chosen(" my  build ") == f"{key_of(blanks)}  my  build \n"
            assert "the agent has no key with this comment" in chosen("my  build", 1)
            assert peer.ask(rig.ADD, public(b"build", 9)[0]) == bytes([rig.SUCCESS])
            assert "more than one key" in chosen("build", 1)
        rig.until(lambda: not [place for place in installed.folders() if "filter" in place.name], what="the end of all filters")


@check
def the_hook_before_a_sleep_acts_as_the_user_of_the_folder(folder):
    """What a user's folder has a link to, root's own socket and folder, makes nobody root."""
    by_root()
    if subprocess.run(["unshare", "-m", "true"], stderr=subprocess.DEVNULL).returncode:
        raise Skip("no file system can be mounted here")
    tools, run_user = folder / "tools", folder / "run"
    tools.mkdir()
    rig.script(tools / "runuser", f'printf "%s" "$2" >> {folder}/acted; for word; do case $word in SSH_AUTH_SOCK=*) echo " $word" >> {folder}/acted ;; esac; done')
    for number in (0, rig.NOBODY):
        (run_user / f"{number}").mkdir(parents=True)
    ours, theirs = run_user / "0", run_user / f"{rig.NOBODY}"
    (ours / "mortarleek").mkdir()
    for path in (ours / "mortarleek.sock", ours / "mortarleek/agent.sock"):
        with socket.socket(socket.AF_UNIX) as listener:
            listener.bind(str(path))
    (theirs / "mortarleek").symlink_to("/run/user/0/mortarleek")
    (theirs / "mortarleek.sock").symlink_to("/run/user/0/mortarleek.sock")
    os.chown(theirs, rig.NOBODY, rig.NOBODY)
    # Folders that aren't the user's of their number.
    (run_user / "12").mkdir()
    os.chown(run_user / "12", rig.NOBODY, rig.NOBODY)
    (run_user / "13").symlink_to("0")
    for number in (12, 13):
        with contextlib.suppress(FileExistsError):
            os.link(ours / "mortarleek.sock", run_user / f"{number}/mortarleek.sock")
    script = f"mount -t tmpfs none /run && mkdir -p /run/user && mount --bind {run_user} /run/user && {rig.TOP}/contrib/system-sleep/mortarleek pre suspend"
    run(["unshare", "-m", "sh", "-c", script], env=dict(os.environ, PATH=f"{tools}:{os.environ['PATH']}"))
    acted = (folder / "acted").read_text().splitlines()
    assert sorted(acted) == sorted(
        f"{name} SSH_AUTH_SOCK=/run/user/{number}/{socket_name}"
        for name, number in (("root", 0), ("nobody", rig.NOBODY))
        for socket_name in ("mortarleek.sock", "mortarleek/agent.sock")
    ), acted


# Of the environment the agent and its children get these, and other programs the agent's socket.
KEPT = """PATH HOME LANG TERM DISPLAY XAUTHORITY WAYLAND_DISPLAY XDG_RUNTIME_DIR DBUS_SESSION_BUS_ADDRESS LANGUAGE LC_ALL LC_CTYPE
    LC_MESSAGES XDG_CURRENT_DESKTOP XDG_SESSION_TYPE DESKTOP_SESSION KDE_FULL_SESSION KDE_SESSION_VERSION GDK_SCALE
    GDK_DPI_SCALE QT_SCALE_FACTOR XCURSOR_SIZE XCURSOR_THEME MORTARLEEK_MANAGER""".split()


def variables(text):
    """The environment of a program, as /proc has it, but for what every shell sets."""
    given = dict(entry.split("=", 1) for entry in text.split("\0") if entry)
    return {name: value for name, value in given.items() if name not in ("PWD", "OLDPWD", "_", "SHLVL")}


@check
def programs_are_started_with_a_known_few_variables(folder):
    installed, key, real = Installed(folder), keygen(folder / "key"), folder / "real"
    libexec = installed.prefix / "libexec/mortarleek"
    for name in ("filter_proxy", "log_prog", "audit_prog"):
        shutil.copy(rig.built(name), libexec)
    (folder / "record").write_text("")
    rig.script(folder / "sourced", f"touch {folder}/made")
    kept = {name: f"{name} of the start" for name in KEPT if name not in ("PATH", "HOME", "LC_ALL", "XDG_RUNTIME_DIR", "MORTARLEEK_MANAGER")}
    kept |= {"PATH": os.environ["PATH"], "HOME": str(folder), "LC_ALL": "C"}
    harmful = {name: f"{folder}/sourced" for name in ("BASH_ENV", "ENV", "LD_BIND_NOW", "GTK_MODULES", "MALLOC_ARENA_MAX", "TOKEN")}
    installed.environment |= kept | harmful
    # The agent, its guard, what sleeps beside it, and the helper, which has a ticket besides.
    with installed.start() as daemon:
        daemon.run("ssh-add", "-q", key)
        daemon.run("ssh-add", "-T", f"{key}.pub")
        agent = daemon.agents()[1]
        pids = [*daemon.agents(), *rig.children(daemon.pid), *rig.children(agent)]
        assert len(set(pids)) >= 4, pids
        for pid in pids:
            given = variables(pathlib.Path(f"/proc/{pid}/environ").read_text())
            given.pop("MORTARLEEK_TICKET", None)
            given.pop("MORTARLEEK_MANAGER", None)
            assert given == kept, (pid, set(given) ^ set(kept))
        # Each program beside them, whose place another takes that writes down what it gets.
        real.mkdir()
        for name in ("add_tool", "terms_relay", "log_prog", "audit_prog", "agent_prog", "mortarleek_signer"):
            (libexec / name).rename(real / name)
            rig.script(libexec / name, f'cat /proc/self/environ >> {folder}/{name}.got; exec {real}/{name} "$@"')
        at = {"SSH_AUTH_SOCK": daemon.path}
        for words in (
            ["add", "-u", "1", key], ["add", "-l"], ["add", "-L"], ["add", "-D"], ["status"], ["log", folder / "record"], ["agent", "-a", folder / "s", "true"],
            ["filter", "-k", f"{key}.pub", "sh", "-c", f'[ "$TOKEN" = {folder}/sourced ]'], ["audit", folder / "record", folder / "record"], ["serve"], ["drill", "1", "1"],
        ):  # fmt: skip
            mortarleek(installed, *words, status=None if words[0] in ("audit", "serve") else 0, **at)
    for name in ("add_tool", "terms_relay", "log_prog"):
        given = variables((folder / f"{name}.got").read_text())
        assert set(given) <= {"PATH", "SSH_AUTH_SOCK"}, (name, given)
    for name in ("audit_prog", "agent_prog", "mortarleek_signer"):
        given = variables((folder / f"{name}.got").read_text())
        assert set(given) <= {*KEPT, "MORTARLEEK_TICKET"}, (name, given)
    assert not (folder / "made").exists()


@check
def serve_says_what_the_loader_was_told_to_load(folder):
    rest = {name: value for name, value in os.environ.items() if not name.startswith("LD_")}
    for name, value in (("LD_PRELOAD", ""), ("LD_PRELOAD", f"{folder}/none.so"), ("LD_LIBRARY_PATH", str(folder)), ("LD_AUDIT", f"{folder}/none.so")):
        with open(folder / "errors", "w+") as errors:
            with rig.our_agent(rig.agent_program(), folder, helper="/bin/false", stderr=errors, env=rest | {name: value}):
                errors.seek(0)
                lines = [line for line in errors if line.startswith("mortarleek: ") and "core file" not in line]
        says = f"mortarleek: {name} was set: what it names runs in the agent, beside its keys\n"
        assert lines == ([says] if value else []), (name, value, lines)


@check
def what_is_installed_below_an_equals_sign_works(folder):
    place = folder / "a=b"
    place.mkdir()
    installed, key = Installed(place), keygen(folder / "key")
    with installed.start() as daemon:
        assert "may be used once" in daemon.run(installed.add, "-u", "1", key)
        assert "(ED25519)" in daemon.run(installed.add, "-l")
    assert mortarleek(installed, "drill", "1", "1").count("\n") == 1


@check
def what_uninstall_leaves_is_said(folder):
    foreign = folder / "libexec/mortarleek/mine\x1b[2J"
    foreign.parent.mkdir(parents=True)
    foreign.write_text("")
    make = ["make", "-s", "-C", rig.TOP, "uninstall", f"PREFIX={folder}"]
    said = run(make)
    assert said == f"left in {foreign.parent}, since make install puts no such files there:\nmine?[2J\n", said
    foreign.unlink()
    assert run(make) == "" and not foreign.parent.exists()


# Names of folders that a shell may take for more.
@check
def a_false_key_in_the_place_of_one_is_told_where_keys_are_tried(folder):
    """Who speaks to the socket adds a key's blob with another private half: logins with it fail, and nothing else tells it."""
    installed = Installed(folder)
    keys = {name: keygen(folder / name, kind=kind) for name, kind in (("one", "ed25519"), ("two", "rsa"), ("git", "ecdsa"))}
    prints = {name: run(["ssh-keygen", "-l", "-f", key]).split()[1] for name, key in keys.items()}
    with installed.start() as daemon:

        def tried(status):
            said = mortarleek(installed, "status", "--try", status=status, SSH_AUTH_SOCK=daemon.path)
            return re.findall(r"(?m)^tried: (\S+) (.*)$", said)

        assert tried(0) == []
        daemon.run(installed.add, "-q", keys["one"], keys["two"])
        assert tried(0) == [(prints["one"], "signs"), (prints["two"], "signs")]
        with Peer(rig.connected(daemon.path)) as client:
            (blob, comment), _ = client.blobs()
            _, public = strings(blob)
            false = string(b"ssh-ed25519") + string(public) + string(bytes(32) + public)
            assert client.ask(rig.ADD, false, string(comment)) == bytes([rig.SUCCESS])
            assert client.blobs()[0] == (blob, comment)
        assert tried(1) == [(prints["one"], "signs no random bytes here"), (prints["two"], "signs")]
        daemon.run(installed.add, "-q", keys["one"])
        assert tried(0) == [(prints["one"], "signs"), (prints["two"], "signs")]
        daemon.run(installed.add, "-q", "--for", "git", keys["git"])
        assert tried(1)[2:] == [(prints["git"], "signs no random bytes here")]
        assert daemon.installed.folders() == [pathlib.Path(daemon.path).parent], "a private folder is left"
    assert mortarleek(installed, "status", "--try", status=2, SSH_AUTH_SOCK=daemon.path).endswith("none answers\n")


ODD = (
    "a b", "a  b", "it's", "a\\b", "a\\'b", "a\\';touch MARK;\\'b", "a';touch MARK;'b", "a\\\\';touch MARK;'", "a!b", "a!!", "!",
    "$HOME `touch MARK` $(touch MARK)", "a*b", "[ab]?", "~x", "a\\", "\\'", "a;touch MARK", 'a"b', "ü", "a#b", "%1", "a&b|c",
    "{a,b}", "a{b", "a}b",
)  # fmt: skip


@check
def a_path_is_told_to_each_shell_as_it_is(folder):
    installed, work = Installed(folder), folder / "work"
    work.mkdir()
    printed = 'printenv SSH_AUTH_SOCK'
    readers = {
        "-s": (
            ("dash", ["dash", "-c", f'eval "$(cat "$0")" > /dev/null; {printed}']),
            ("bash", ["bash", "-c", f'eval "$(cat "$0")" > /dev/null; {printed}']),
            ("zsh", ["zsh", "-fc", f'eval "$(cat "$0")" > /dev/null; {printed}']),
        ),
        "-c": (
            ("fish", ["fish", "--no-config", "-c", f"cat $argv[1] | source > /dev/null; {printed}"]),
            ("tcsh", ["tcsh", "-f", "-c", f"source $argv[1] > /dev/null; {printed}"]),
            ("tcsh", ["tcsh", "-f", "-c", f"eval `cat $argv[1]` > /dev/null; {printed}"]),
        ),
    }  # fmt: skip
    missing = {shell for shells in readers.values() for shell, _ in shells if shutil.which(shell) is None}
    for name in ODD:
        place = folder / name
        place.mkdir()
        for word, shells in readers.items():
            if word == "-c" and set(name) & set("{}[]*?"):
                at = ["-c", "-a", place / "s"]
                for words, more in ((at, {}), (["--reuse", *at], {}), (["-c"], {"TMPDIR": str(place)})):
                    said = run([installed.agent, *words], 1, env=dict(installed.environment, **more))
                    assert "csh, whose eval expands them" in said and said.count("\n") == 1, said
                    assert [file.name for file in place.iterdir()] == ["s.lock"]
                continue
            lines = run([installed.agent, word, "-a", place / "s"], env=installed.environment)
            (folder / "lines").write_text(lines)
            try:
                for shell, words in shells:
                    if shell not in missing:
                        said = run([*words, folder / "lines"], None, cwd=work, env=installed.environment)
                        assert said == f"{place}/s\n", (name, shell, words, said)
                    assert list(work.iterdir()) == [], (name, shell, "ran a command")
            finally:
                pid = int(lines.rpartition("echo Agent pid ")[2].rstrip(";\n"))
                os.kill(pid, 15)
                rig.until(lambda: not (place / "s").exists(), what="the removal of the socket")
    if missing:
        raise Skip(f"done but for {', '.join(sorted(missing))}, which isn't there")


if __name__ == "__main__":
    check.main(rig.agent_program())
