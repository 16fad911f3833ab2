"""`mortarleek setup`: what it writes into the profile of each shell, what a login then has, and that it is taken away again.
tests/daily.py runs these too."""

import os
import shutil
import signal

import rig
from front_add import typed_at
from installed import Installed, check
from rig import run, until

# Where each shell's lines stand in a new home, and the words that log in.
SHELLS = {
    "dash": (".profile", ["dash", "-l", "-c"]),
    "bash": (".profile", ["bash", "-l", "-c"]),
    "zsh": (".zprofile", ["zsh", "-l", "-c"]),
    "fish": (".config/fish/config.fish", ["fish", "-l", "-c"]),
}


class Login:
    """A user's home and shell, where a desktop has set another agent."""

    def __init__(self, folder, shell, runtime=True):
        self.installed, self.home, self.runtime = Installed(folder), folder / "a user's home", folder / "runtime"
        self.home.mkdir()
        self.runtime.mkdir(mode=0o700)
        self.environment = dict(self.installed.environment, HOME=str(self.home), SHELL=f"/usr/bin/{shell}")
        self.environment["SSH_AUTH_SOCK"] = "/a/desktop's"
        if runtime:
            self.environment["XDG_RUNTIME_DIR"] = str(self.runtime)
        self.file, self.words = self.home / SHELLS[shell][0], SHELLS[shell][1]

    def setup(self, *words, status=0):
        command = [self.installed.prefix / "bin/mortarleek", "setup", *words]
        return run(command, status, env=self.environment, stdin=rig.subprocess.DEVNULL)

    def typed(self, answer, status):
        command = [str(self.installed.prefix / "bin/mortarleek"), "setup"]
        return typed_at(command, [answer], self.environment, status, prompt="] ")

    def says(self, **more):
        """What a login says of the agent that it has."""
        return run([*self.words, "echo $SSH_AUTH_SOCK $SSH_AGENT_PID"], env={**self.environment, **more})


@check
def each_shell_has_its_lines_and_one_agent_for_all_logins(folder):
    for shell in SHELLS:
        for runtime in (True, False):
            if shutil.which(shell) is None:
                continue
            place = folder / f"{shell}{runtime}"
            place.mkdir()
            login = Login(place, shell, runtime)
            socket = (login.runtime if runtime else login.home / ".ssh") / "mortarleek.sock"
            if not runtime:
                (login.home / ".ssh").mkdir(mode=0o700)
            said = login.setup(status=1)
            assert str(login.file) in said and said.endswith("without a terminal it wants --yes\n"), said
            assert not login.file.exists(), said
            assert login.setup("--yes").endswith("all logins share one agent.\n")
            text = login.file.read_bytes()
            assert login.setup("--yes") == login.setup() == f"{login.file}: has the lines already\n"
            assert login.file.read_bytes() == text
            told = {login.says() for _ in range(2)}
            (said,) = told
            path, _, pid = said.strip().rpartition(" ")
            assert path == str(socket), (shell, said)
            assert login.says(SSH_CONNECTION="a 1 b 2") == "/a/desktop's\n", shell
            os.kill(int(pid), signal.SIGTERM)
            until(lambda socket=socket: not socket.exists(), what="the removal of the socket")
            # The lines do nothing where the program was uninstalled, and say nothing.
            program = login.installed.prefix / "bin/mortarleek"
            program.rename(place / "kept")
            assert login.says() == "/a/desktop's\n", shell
            (place / "kept").rename(program)
            assert login.setup("--remove") == f"{login.file}: without the lines of mortarleek setup\n"
            assert not login.file.exists(), login.file.read_text()
            assert login.setup("--remove") == "no file has lines of mortarleek setup\n"


@check
def bash_has_them_in_the_file_that_it_reads(folder):
    login = Login(folder, "bash")
    for name in (".profile", ".bash_login", ".bash_profile"):
        file = login.home / name
        file.write_text(f"export FROM={name}\n")
        assert f"At the end of {file}:" in login.setup("--yes"), name
        assert run(["bash", "-l", "-c", "echo $FROM"], env={**login.environment, "PATH": "/usr/bin:/bin"}) == f"{name}\n"
    said = login.setup("--remove")
    assert said.count(": without the lines of mortarleek setup\n") == 3, said
    for name in (".profile", ".bash_login", ".bash_profile"):
        assert (login.home / name).read_text() == f"export FROM={name}\n"
    _end(login)


def _end(login):
    socket = login.runtime / "mortarleek.sock"
    if socket.exists():
        said = run(["sh", "-c", 'eval "$("$0" agent --reuse -a "$1")"; echo $SSH_AGENT_PID', login.installed.prefix / "bin/mortarleek", socket], env=login.environment)
        os.kill(int(said.split()[-1]), signal.SIGTERM)
        until(lambda: not socket.exists(), what="the removal of the socket")


@check
def it_asks_on_a_terminal_and_writes_after_a_yes_alone(folder):
    login = Login(folder, "dash")
    for answer in ("n", "", "yess"):
        assert "nothing was written" in login.typed(answer, 1)
        assert not login.file.exists()
    said = login.typed("y", 0)
    assert "Write this? [y/N]" in said and "agent --reuse -a" in said, said
    assert login.file.read_text().count("agent --reuse -a") == 1


@check
def what_else_stands_in_the_file_stays_to_the_byte(folder):
    login = Login(folder, "dash")
    real = folder / "dotfiles"
    # Without a line feed at its end, with bytes that are no text, behind a link, for the user alone.
    for old in (b"", b"A=1\n", b"A=1", b"\xff\\n\n\n\n", b"a\\tb `c` $d\n"):
        real.write_bytes(old)
        real.chmod(0o640)
        login.file.symlink_to(real)
        login.setup("--yes")
        new = real.read_bytes()
        assert new.startswith(old) and new.count(b"mortarleek agent --reuse") == 1, new
        assert login.file.is_symlink() and real.stat().st_mode & 0o777 == 0o640
        login.setup("--remove")
        assert real.read_bytes() == old + (b"" if old.endswith(b"\n") or not old else b"\n"), real.read_bytes()
        assert login.file.is_symlink() and real.stat().st_mode & 0o777 == 0o640
        login.file.unlink()
    assert [file.name for file in folder.iterdir() if file.name.startswith("dotfiles")] == ["dotfiles"]


@check
def what_it_cannot_tell_apart_it_leaves(folder):
    login = Login(folder, "dash")
    login.setup("--yes")
    lines = login.file.read_text().splitlines(True)
    for broken in (lines[:-1], lines[1:], [lines[0], *lines], [*lines, lines[-1]]):
        login.file.write_text("".join(broken))
        for words in (["--yes"], ["--remove"]):
            said = login.setup(*words, status=1)
            assert "is missing, so nothing was written" in said, said
            assert login.file.read_text() == "".join(broken)
    # An older place of the programs is replaced.
    login.file.write_text("A=1\n" + "".join(lines).replace("/bin/mortarleek", "/old/mortarleek") + "B=1\n")
    login.setup("--yes")
    assert login.file.read_text() == "A=1\nB=1\n" + "".join(lines)
    # Lines of the user's own start one already.
    for own in ('eval "$(mortarleek agent --reuse -a s)"\n', "mortarleek-agent -a s\n"):
        login.file.write_text(own)
        assert "a line there starts an agent already" in login.setup("--yes", status=1)
        assert login.file.read_text() == own
    login.file.write_text("# mortarleek agent\n")
    login.setup("--yes")
    login.file.unlink()
    login.file.mkdir()
    assert "it is no file" in login.setup("--yes", status=1)


@check
def wrong_words_of_setup_are_told(folder):
    login = Login(folder, "dash")
    usage = "usage: mortarleek-setup [--yes | --remove]\n"
    for words in (["x"], ["-x"], ["--yes", "--remove"], ["--yes", "x"]):
        assert login.setup(*words, status=1) == usage, words
    assert login.setup("--help") == usage
    assert not login.file.exists()
    login.environment["SHELL"] = "/bin/tcsh"
    assert "csh reads no such lines" in login.setup("--yes", status=1)
    login.environment["HOME"] = ""
    assert "HOME names no folder" in login.setup("--yes", status=1)
