"""DAILY's recipes, each as it stands there: its lines are run, with a host of this machine where they log in. The profile's
lines are tried in front_use.py, the unit in front_units.py, AddKeysToAgent in clients.py. tests/daily.py runs these too."""

import os
import pathlib
import re
import shlex
import shutil
import subprocess

import rig
from hosts import Hosts
from installed import Installed, check, keygen
from rig import Skip, needs, openssh_agent, run, until

PAGE = (rig.TOP / "docs/DAILY.md").read_text()


def recipe(head):
    """The lines of the blocks of code under a heading, without the prompts of a console."""
    part = PAGE[PAGE.index(f"## {head}\n") :]
    part = part[: part.index("\n## ", 5)]
    return [re.sub(r"(?m)^\$ ", "", block) for block in re.findall(r"(?ms)^```\w+\n(.*?)^```", part)]


class Home:
    """A user's home, with the programs installed, a session's folder, and one agent for all logins."""

    def __init__(self, folder):
        self.installed, self.home, self.runtime = Installed(folder), folder / "home", folder / "runtime"
        (self.home / ".ssh").mkdir(parents=True, mode=0o700)
        self.runtime.mkdir(mode=0o700)
        self.environment = dict(self.installed.environment, HOME=str(self.home), XDG_RUNTIME_DIR=str(self.runtime))
        self.environment["PATH"] = f"{self.installed.prefix}/bin:{self.environment['PATH']}"
        self.socket = self.runtime / "mortarleek.sock"
        self.daemon = self.installed.start("-a", self.socket)

    def __enter__(self):
        return self

    def __exit__(self, *_):
        self.daemon.__exit__()

    def run(self, script, status=0, **more):
        """What a line prints, without a terminal, where a desktop has set another agent."""
        environment = {**self.environment, "SSH_AUTH_SOCK": "/a/desktop's", **more.pop("environment", {})}
        if "input" not in more:
            more["stdin"] = subprocess.DEVNULL
        return run(["sh", "-c", script], status, env=environment, start_new_session=True, **more)

    def with_ours(self, script, status=0, **more):
        environment = {"SSH_AUTH_SOCK": str(self.socket), **more.pop("environment", {})}
        return self.run(script, status, environment=environment, **more)

    def config(self, hosts, lines):
        """The user's ssh_config: the recipe's lines, and where this machine's hosts are. ssh reads it by -F, since it
        looks for ~ in the user's entry."""
        file = self.home / ".ssh/config"
        file.write_text(lines + hosts.config.read_text())
        return file


@check
def a_desktop_s_agent_stays_and_ssh_goes_to_ours(folder):
    (config,) = recipe("A desktop that has another agent")
    with Home(folder) as home, openssh_agent(folder) as desktop, Hosts(folder, "here") as hosts:
        key = keygen(home.home / ".ssh/id")
        hosts.allow(key)
        (line,) = re.findall(r"`(SSH_AUTH_SOCK=\S+ mortarleek add)`", PAGE)
        home.run(f"{line} -q ~/.ssh/id && rm ~/.ssh/id")
        file = home.config(hosts, config)
        other = {"SSH_AUTH_SOCK": desktop.path}
        assert home.run(f"ssh -F {file} here echo in", environment=other) == "in\n"
        home.run(f"ssh -F {hosts.config} here echo in", 255, environment=other)


@check
def tmux_keeps_ours_whoever_attaches(folder):
    needs("tmux")
    (lines,) = recipe("Without a display, and in tmux")
    with Home(folder) as home:
        (home.home / ".tmux.conf").write_text(lines)
        tmux = f"tmux -S {folder}/t -f ~/.tmux.conf"
        try:
            for number in (1, 2):
                home.run(f"{tmux} new -d 'echo $SSH_AUTH_SOCK > {folder}/seen{number}; sleep 30'")
                seen = folder / f"seen{number}"
                until(lambda: seen.exists() and seen.read_text(), what="the shell in tmux")
                assert seen.read_text() == f"{home.socket}\n", seen.read_text()
        finally:
            home.run(f"{tmux} kill-server")


@check
def keychain_takes_the_agent_that_is_there(folder):
    needs("keychain")
    (line,) = recipe("keychain")
    with Home(folder) as home:
        keygen(home.home / ".ssh/id_ed25519")
        for told in ("once", "twice"):
            # As each login does: the number is the guard's.
            script = f"export SSH_AGENT_PID={home.daemon.pid}; {line}echo $SSH_AUTH_SOCK; ssh-add -l"
            socket, *keys = home.with_ours(script).splitlines()
            assert socket == str(home.socket) and len(keys) == 1 and "id_ed25519" in keys[0], (told, socket, keys)


@check
def a_passphrase_comes_out_of_the_keyring(folder):
    needs("dbus-run-session", "gnome-keyring-daemon", "secret-tool")
    program, lines = recipe("A passphrase out of the desktop's keyring")
    with Home(folder) as home:
        asker = home.home / ".local/bin/askpass-keyring"
        asker.parent.mkdir(parents=True)
        asker.write_text(program)
        asker.chmod(0o755)
        (folder / "tools").mkdir()
        dialog = rig.script(folder / "tools/ssh-askpass", f"printf '%s\\n' \"$1\" >> {folder}/asked; echo 'by a dialog'")
        for name, passphrase in (("id_ed25519", "of the keyring"), ("other", "by a dialog")):
            keygen(home.home / f".ssh/{name}", passphrase=passphrase)
        script = f"""printf 'a login' | gnome-keyring-daemon --unlock --components=secrets
printf 'of the keyring' > {folder}/typed
{lines.replace("id_ed25519" + chr(10), f"id_ed25519 < {folder}/typed" + chr(10), 1)}
SSH_ASKPASS=~/.local/bin/askpass-keyring SSH_ASKPASS_REQUIRE=force mortarleek add -q ~/.ssh/other
ssh-add -l"""
        environment = {"PATH": f"{dialog.parent}:{home.environment['PATH']}"}
        said = home.with_ours(f"dbus-run-session -- sh -c {shlex.quote(script)}", environment=environment)
        assert "id_ed25519 (ED25519)" in said and "other (ED25519)" in said, said
        assert (folder / "asked").read_text() == f"Enter passphrase for {home.home}/.ssh/other: \n", said


@check
def commits_are_signed_with_a_key_of_the_agent(folder):
    (lines,) = recipe("Signed commits")
    with Home(folder) as home:
        key = keygen(home.home / ".ssh/id_ed25519", comment="me@example.org")
        (home.home / ".ssh/allowed").write_text("me@example.org " + pathlib.Path(f"{key}.pub").read_text())
        home.with_ours("mortarleek add -q ~/.ssh/id_ed25519 && rm ~/.ssh/id_ed25519")
        home.with_ours(lines + "git config --global user.email me@example.org; git config --global user.name me")
        home.run("git config --global gpg.ssh.allowedSignersFile ~/.ssh/allowed")
        home.with_ours("cd && git init -q r && cd r && git commit -q --allow-empty -m one")
        assert "Good \"git\" signature for me@example.org" in home.run("cd ~/r && git verify-commit -v HEAD")
        home.with_ours("mortarleek add -D; cd ~/r && git commit -q --allow-empty -m two", 128)


@check
def an_authority_s_key_signs_certificates_alone(folder):
    (lines,) = recipe("An authority's key")
    with Home(folder) as home:
        for name in ("user_ca", "id_ed25519"):
            keygen(home.home / f".ssh/{name}")
        home.with_ours(lines.replace("mortarleek add", "mortarleek add -q"))
        said = home.run("ssh-keygen -Lf ~/.ssh/id_ed25519-cert.pub")
        assert "user certificate" in said and "Key ID: \"me\"" in said, said
        home.with_ours("echo text > ~/text; ssh-keygen -q -Y sign -n file -f ~/.ssh/user_ca.pub ~/text", 255)


@check
def each_host_is_shown_its_own_of_twenty_keys(folder):
    (lines,) = recipe("Bastions and twenty keys")
    bastion_line, forge_line = lines.splitlines()
    with Home(folder) as home, Hosts(folder, "bastion", "inner", "forge", options="MaxAuthTries 3") as hosts:
        keys = [keygen(home.home / f".ssh/{name}") for name in ("forge", "work")]
        others = [keygen(home.home / f".ssh/other{number}") for number in range(18)]
        hosts.allow(*keys)
        add = lambda line: home.with_ours(line.replace("mortarleek add", f"mortarleek add -q -H {hosts.known}"))
        login = f"ssh -F {hosts.config} "
        # Eighteen keys that aren't narrowed are too many before the right one.
        home.with_ours(f"mortarleek add -q {' '.join(map(str, others))} ~/.ssh/forge")
        assert "Too many authentication failures" in home.with_ours(f"{login} forge echo in", 255)
        home.with_ours("mortarleek add -qD")
        for other in others:
            add(f"mortarleek add -h inner {other}")
        add(forge_line)
        add(bastion_line)
        assert home.with_ours(f"{login} forge echo in") == "in\n"
        inner = shutil.copy(hosts.config, folder / "inner_config")
        said = home.with_ours(f"{login} -A bastion 'ssh-add -l; ssh -F {inner} inner echo in; ssh -F {inner} forge echo in'", 255)
        assert re.findall(r"(?m)^256 \S+ (\S+)", said) == ["work"] and said.splitlines()[1] == "in", said
        assert "Permission denied" in said or "Too many" in said, said


@check
def a_host_gets_the_key_of_a_socket_that_stays(folder):
    start, lines = recipe("One key for a host")
    with Home(folder) as home, Hosts(folder, "build") as hosts:
        keys = [keygen(home.home / f".ssh/{name}") for name in ("build", "other")]
        hosts.allow(*keys)
        shutil.copy(rig.built("filter_proxy"), home.installed.prefix / "libexec/mortarleek")
        home.with_ours("mortarleek add -q ~/.ssh/build ~/.ssh/other")
        home.with_ours(start)
        file = home.config(hosts, lines)
        for _ in range(2):
            said = home.with_ours(f"ssh -F {file} build ssh-add -l")
            assert re.findall(r"(?m)^256 \S+ (\S+)", said) == ["build"], said
        ends = '`mortarleek filter --end -a "$XDG_RUNTIME_DIR/build.sock"`'
        assert ends in PAGE
        home.with_ours(ends.strip("`"))
        assert not (home.runtime / "build.sock").exists()


@check
def a_key_signs_commits_and_logs_in_nowhere(folder):
    lines, question = recipe("A key that signs commits and logs in nowhere")
    signing_line, forge_line = lines.splitlines()
    # tests/purposes.py hears the whole question: here it is of the host of the recipe.
    assert "-h forge" in forge_line and question.endswith("\nFor a login as git to forge.\n"), question
    with Home(folder) as home, Hosts(folder, "forge") as hosts:
        keys = [keygen(home.home / f".ssh/{name}") for name in ("signing", "forge")]
        hosts.allow(*keys)
        home.with_ours(signing_line)
        home.with_ours(forge_line.replace("mortarleek add", f"mortarleek add -H {hosts.known}"))
        home.with_ours("rm ~/.ssh/signing ~/.ssh/forge")
        settings = ("user.name=me", "user.email=me@example.org", "gpg.format=ssh")
        for key, signs, logs_in in zip(keys, (0, 128), (255, 0)):
            git = " ".join(f"-c {setting}" for setting in (*settings, f"user.signingkey={key}.pub"))
            place = folder / f"repository of {key.name}"
            home.with_ours(f"git init -q '{place}'; git -C '{place}' {git} commit -q -S --allow-empty -m signed", signs)
            only = f"ssh -F {hosts.config} -o IdentitiesOnly=yes -i {key}.pub"
            assert ("in\n" == home.with_ours(f"{only} forge echo in", logs_in)) == (logs_in == 0)


@check
def a_host_signs_commits_with_a_key_and_logs_in_nowhere(folder):
    start, lines = recipe("A host that signs commits and logs in nowhere")
    with Home(folder) as home, Hosts(folder, "build", "two") as hosts:
        key = keygen(home.home / ".ssh/id_ed25519", comment="me@example.org")
        hosts.allow(key)
        shutil.copy(rig.built("filter_proxy"), home.installed.prefix / "libexec/mortarleek")
        home.with_ours("mortarleek add -q ~/.ssh/id_ed25519")
        home.with_ours(start)
        file = home.config(hosts, lines)
        shown = shutil.copy(f"{key}.pub", folder / "shown.pub")
        settings = ("user.name=me", "user.email=me@example.org", "gpg.format=ssh", f"user.signingkey={shown}")
        git = " ".join(f"-c {setting}" for setting in settings)
        place = folder / "repository"
        commit = f"git init -q {place} && git -C {place} {git} commit -q -S --allow-empty -m signed"
        assert home.with_ours(f"ssh -F {file} build '{commit}; echo $?'") == "0\n"
        only = f"ssh -F {hosts.config} -o IdentitiesOnly=yes -i {shown} two 'echo in; exit 3'"
        assert "in\n" not in home.with_ours(f'ssh -F {file} build "{only}"', 255)
        # The owner's own logins are as ever.
        assert home.with_ours(f"ssh -F {file} two echo in") == "in\n"
        home.with_ours('mortarleek filter --end -a "$XDG_RUNTIME_DIR/git.sock"')


@check
def a_deployment_s_key_stands_in_no_file(folder):
    (line,) = recipe("Deployments")
    with Home(folder) as home, Hosts(folder, "forge") as hosts:
        key = keygen(folder / "deploy")
        hosts.allow(key)
        text = key.read_text().rstrip("\n")
        key.unlink()
        assert line.rstrip("\n").endswith(" sh git push"), line
        line = line.replace("git push", f"sh -c 'ssh-add -l; ssh -F {hosts.config} forge echo in'")
        said = home.run(line, environment={"DEPLOY_KEY": text})
        assert said.splitlines()[0].endswith("deploy (ED25519)") and said.splitlines()[1] == "in", said
        until(lambda: not list(home.runtime.glob("mortarleek-*")), what="the end of the agent")


@check
def a_screen_locker_locks_the_agent(folder):
    (line,) = recipe("Locked while the machine sleeps")
    with Home(folder) as home:
        key = keygen(home.home / ".ssh/id")
        (home.home / ".ssh/agent-lock").write_text("a word\n")
        home.with_ours("mortarleek add -q ~/.ssh/id")
        assert home.with_ours(line, environment={"DISPLAY": ":7"}) == ""
        assert "no identities" in home.with_ours("mortarleek add -l", 1)
        home.with_ours("mortarleek add -X", input="a word\n")
        assert key.name in home.with_ours("mortarleek add -l")


@check
def the_hook_locks_the_agents_of_users_who_want_it_before_a_sleep(folder):
    if os.geteuid() != 0:
        raise Skip("it takes root to put a session's folder in its place")
    with Home(folder) as home:
        keygen(home.home / ".ssh/id")
        home.with_ours("mortarleek add -q ~/.ssh/id")
        (home.home / ".local").symlink_to(home.installed.prefix)
        tools = folder / "tools"
        tools.mkdir()
        # The entry of the user whose home is the test's.
        rig.script(tools / "getent", f"echo root:x:0:0:root:{home.home}:/bin/sh")
        hook = rig.TOP / "contrib/system-sleep/mortarleek"

        def sleeps(when):
            """The hook's run where the session's folder is the test's."""
            script = f"mount -t tmpfs none /run && mkdir -p /run/user/0 && mount --bind {home.runtime} /run/user/0 && {hook} {when}"
            run(["unshare", "-m", "sh", "-c", script], env=dict(os.environ, PATH=f"{tools}:{os.environ['PATH']}"))

        held = lambda: home.with_ours("mortarleek add -l", None).endswith("id (ED25519)\n")
        sleeps("pre suspend")
        assert held(), "locked without a passphrase"
        lock = home.home / ".ssh/agent-lock"
        lock.write_text("a word\n")
        lock.chmod(0o644)
        sleeps("pre suspend")
        assert held(), "locked by a file that others can read"
        lock.chmod(0o600)
        sleeps("post suspend")
        assert held(), "locked after the sleep"
        sleeps("pre suspend")
        assert not held()
        home.with_ours("mortarleek add -X", input="a word\n")
        assert held()


@check
def two_agents_stand_beside_each_other(folder):
    (config,) = recipe("Beside another agent, for security keys")
    with Home(folder) as home, openssh_agent(home.runtime, name="other") as other:
        os.link(other.path, home.runtime / "openssh_agent")
        with Hosts(folder, "touch", "here") as hosts:
            keys = [keygen(folder / name) for name in ("hardware", "plain")]
            other.run("ssh-add", "-q", keys[0])
            home.with_ours(f"mortarleek add -q {keys[1]}")
            file = home.config(hosts, config.replace("touch.example.org", "touch"))
            for key, host, status in ((keys[0], "touch", 0), (keys[0], "here", 255), (keys[1], "here", 0), (keys[1], "touch", 255)):
                hosts.allow(key)
                home.run(f"ssh -F {file} {host} true", status)


@check
def the_agents_of_the_table_are_where_debian_has_them(folder):
    """Of openssh-client, which is installed: its unit and what turns it off."""
    launch = pathlib.Path("/usr/lib/openssh/agent-launch")
    if not launch.exists():
        raise Skip("no agent-launch of Debian's openssh-client")
    text = launch.read_text()
    assert "/etc/X11/Xsession.options" in text and "$XDG_RUNTIME_DIR/openssh_agent" in text
    assert pathlib.Path("/usr/lib/systemd/user/ssh-agent.service").exists()
    for name in ("`no-use-ssh-agent`", "systemctl --user mask ssh-agent.service", "$XDG_RUNTIME_DIR/openssh_agent"):
        assert name in PAGE, name
