"""What the front ends say of words, files and agents that are none: the reason and the remedy, once, by the own name.
tests/daily.py runs these too."""

import os
import shutil
import subprocess

import rig
from installed import Installed, check, keygen
from rig import our_agent, run


def told(program, *words, status, **more):
    """What a front end says on standard error, one line; nothing else."""
    done = subprocess.run(
        [str(word) for word in (program, *words)],
        capture_output=True,
        text=True,
        **dict(dict(timeout=60, stdin=subprocess.DEVNULL, start_new_session=True), **more),
    )
    assert done.returncode == status and done.stdout == "", (words, done)
    assert done.stderr.count("\n") == 1, (words, done.stderr)
    return done.stderr.rstrip("\n")


def front(installed, name):
    return installed.prefix / "bin" / f"mortarleek{name}"


@check
def help_is_told_on_standard_output(folder):
    installed = Installed(folder)
    for name in ("", "-agent", "-add", "-status", "-log", "-filter"):
        done = subprocess.run([front(installed, name), "--help"], capture_output=True, text=True, timeout=20, env=installed.environment)
        assert done.returncode == 0 and done.stderr == "" and done.stdout.startswith(f"usage: mortarleek{name or ' agent'}"), (name, done)
    for word in ("help", "-h"):
        assert run([front(installed, ""), word]).startswith("usage: "), word


@check
def a_word_that_is_none_is_named(folder):
    installed = Installed(folder)
    for name, words, status, named in (
        ("", ["stauts"], 1, "mortarleek: stauts: no such command"),
        ("-agent", ["--foo"], 1, "unknown option --foo"),
        ("-agent", ["-t", "1h", "--recrod", "x", "true"], 1, "unknown option --recrod"),
        ("-add", ["--foo"], 1, "unknown option --foo"),
        ("-log", ["--foo", "x"], 2, "mortarleek-log: unknown option --foo"),
        ("-filter", ["--foo", "true"], 1, "mortarleek-filter: unknown option --foo"),
    ):
        said = run([front(installed, name), *words], status, env=installed.environment)
        assert said.startswith(f"{named}\nusage: mortarleek"), (name, words, said)
    for word, meant in (("commit", "git"), ("ssh", "login"), ("files", "file"), ("certs", "ca")):
        said = told(installed.add, "--for", word, "x", status=1, env=installed.environment)
        assert said.startswith(f"mortarleek-add: --for {word}: did you mean {meant}? a purpose is login, "), said


@check
def long_words_stand_anywhere_before_the_command(folder):
    installed, record = Installed(folder), folder / "record"
    for words in (["-a", folder / "s", "--record", record], ["-a", folder / "s", f"--record={record}", "--record-or-stop", "-s"]):
        with installed.start(*words) as daemon:
            assert daemon.path == str(folder / "s") and record.read_text().startswith("schedule 2\n"), (daemon.path, record.read_text())
        record.unlink()
    said = run([installed.agent, "-t", "1h", "--confirm-limit", "30", "sh", "-c", "echo $1 $2", "sh", "--record", "--foo"], env=installed.environment)
    assert said == "--record --foo\n", said
    assert run([installed.agent, "-t", "1h", "--", "printf", "%s\\n", "--help"], env=installed.environment) == "--help\n"


@check
def a_place_that_is_none_is_told_with_its_reason(folder):
    installed = Installed(folder)
    env, none, old = installed.environment, folder / "none", folder / "old"
    old.write_text("kept\n")
    for words, said in (
        (["-a", none / "dir/s"], f"mortarleek-agent: {none}/dir: no such folder: name a folder of yours by -a"),
        (["--record", old], f"mortarleek-agent: --record: {old}: is there already: a record is written to a new file"),
        (["--record", none / "r"], f"mortarleek-agent: --record: {none}: no such folder"),
        (["--record", "/proc/r"], "mortarleek-agent: --record: /proc/r: can't be made: in a folder where you may make files it can"),
    ):
        assert told(installed.agent, *words, status=1, env=env) == said
    assert old.read_text() == "kept\n" and installed.folders() == []


@check
def a_user_without_a_folder_for_keys_gets_it(folder):
    installed, home = Installed(folder), folder / "home"
    home.mkdir()
    with installed.start("--reuse", "-a", home / ".ssh/agent.sock", environment={"HOME": str(home)}) as daemon:
        assert (home / ".ssh").stat().st_mode & 0o7777 == 0o700 and daemon.path == str(home / ".ssh/agent.sock")


@check
def an_agent_that_is_gone_is_told_once(folder):
    installed = Installed(folder)
    done = subprocess.Popen(["true"])
    done.wait()
    assert told(installed.agent, "-k", status=1, env=dict(installed.environment, SSH_AGENT_PID=str(done.pid))) == "kill: No such process"
    key, start = keygen(folder / "key"), 'start one by eval "$(mortarleek agent)"'
    for words in (["-l"], ["-L"], [key], ["-D"], ["-d", key], ["-x"], ["-X"]):
        said = told(installed.add, *words, status=2, env=installed.environment)
        assert said == f"mortarleek-add: no agent answers, since SSH_AUTH_SOCK isn't set: {start}", (words, said)
        said = told(installed.add, *words, status=2, env=dict(installed.environment, SSH_AUTH_SOCK=str(key)))
        assert said == f"mortarleek-add: no agent answers, since {key} is no socket: {start}", (words, said)


@check
def a_program_that_is_missing_is_told_with_what_to_do(folder):
    installed = Installed(folder)
    libexec, key = installed.prefix / "libexec/mortarleek", keygen(folder / "key")
    with installed.start() as daemon:
        for name, program, words in (
            ("agent_prog", "-agent", []),
            ("agent_guard", "-agent", []),
            ("mortarleek_signer", "-agent", []),
            ("agent_prog", "", ["drill", "1", "1"]),
            ("add_tool", "-add", ["-l"]),
            ("add_tool", "-status", []),
            ("log_prog", "-log", ["x"]),
            ("audit_prog", "", ["audit", "x", "y"]),
            ("filter_proxy", "-filter", ["-k", f"{key}.pub", "true"]),
            ("terms_relay", "-add", ["-u", "1", key]),
        ):
            there = (libexec / name).exists()
            if there:
                (libexec / name).rename(folder / name)
            said = told(front(installed, program), *words, status=1, env=daemon.environment)
            assert name in said and said.endswith("is missing beside this program: install mortarleek anew"), (name, words, said)
            if there:
                (folder / name).rename(libexec / name)


@check
def a_helper_that_signs_nothing_is_told_and_no_key_is_blamed(folder):
    installed, key = Installed(folder), keygen(folder / "key")
    helper = installed.prefix / "libexec/mortarleek/mortarleek_signer"
    helper.unlink()
    shutil.copy("/bin/true", helper)
    with installed.start() as daemon:
        said = told(installed.add, key, status=1, env=daemon.environment)
        assert said.startswith("mortarleek-add: the program that signs, which the agent starts, signs with no key"), said
        assert "no identities" in daemon.run(installed.add, "-l", status=1)


@check
def a_program_that_was_changed_is_told_with_the_remedy(folder):
    installed = Installed(folder)
    helper = installed.prefix / "libexec/mortarleek/mortarleek_signer"
    with installed.start() as daemon:
        # As another installation lays it.
        shutil.copy(helper, folder / "anew")
        os.replace(folder / "anew", helper)
        said = run([front(installed, ""), "status"], env=daemon.environment)
        assert f"not started: {helper}, which isn't the file that it was when the agent started: end it (mortarleek agent -k) and start it anew\n" in said


@check
def a_refusal_of_the_agent_is_told_with_its_cause(folder):
    installed, key = Installed(folder), keygen(folder / "key")
    with installed.start() as daemon:

        def refused(*words, typed):
            said = subprocess.run(
                [installed.add, *words], input=typed, capture_output=True, text=True, timeout=60, env=daemon.environment, start_new_session=True
            )
            assert said.returncode == 1 and said.stdout == "" and said.stderr.count("\n") == 1, said
            return said.stderr.rstrip("\n").removeprefix("mortarleek-add: ")

        assert refused("-X", typed="a passphrase\n") == "the agent stays as it is: the passphrase is another one, or it isn't locked"
        daemon.run(installed.add, key)
        daemon.run(installed.add, "-x", input="a passphrase\n", start_new_session=True)
        assert refused("-x", typed="a passphrase\n") == "the agent refused the lock: it is locked already"
        assert refused("-X", typed="another one\n") == "the agent stays as it is: the passphrase is another one, or it isn't locked"
        assert refused("-D", typed="") == "the agent removed nothing: it is locked"
        daemon.run(installed.add, "-X", input="a passphrase\n", start_new_session=True)
        assert "key" in daemon.run(installed.add, "-l")


@check
def a_file_that_is_no_private_key_is_told_as_what_it_is(folder):
    installed, key = Installed(folder), keygen(folder / "key")
    text = key.read_text()
    profile, empty, cut, putty, bare = (folder / name for name in ("profile", "empty", "cut", "putty", "bare"))
    profile.write_text("export A=1\n")
    empty.write_text("")
    cut.write_text(text[: len(text) // 2])
    putty.write_text("PuTTY-User-Key-File-3: ssh-ed25519\nEncryption: none\n")
    shutil.copy(f"{key}.pub", bare)
    for path in (empty, cut, putty):
        path.chmod(0o600)
    with installed.start() as daemon:
        for path, said in (
            (f"{key}.pub", f"a public key: name {key}"),
            (bare, "a public key"),
            (profile, "no private key"),
            (empty, "no private key"),
            (cut, "a private key that is cut or damaged, or has too few bits"),
            (putty, f"a key of PuTTY: puttygen {putty} -O private-openssh -o NEWFILE"),
        ):
            assert told(installed.add, path, status=1, env=daemon.environment) == f"mortarleek-add: {path}: {said}"
        # What stands before a key is passed over, as OpenSSL does.
        run(["ssh-keygen", "-q", "-p", "-m", "PEM", "-t", "rsa", "-N", "", "-f", keygen(folder / "pem", kind="rsa")])
        (folder / "pem").write_text("Bag Attributes\n" + (folder / "pem").read_text())
        daemon.run(installed.add, "-q", folder / "pem")
        assert daemon.run(installed.add, "-l").count("\n") == 1


@check
def without_keys_in_the_home_it_says_how_to_make_one(folder):
    installed, home = Installed(folder), folder / "home"
    home.mkdir()
    with installed.start() as daemon:
        said = told(installed.add, status=1, env=dict(daemon.environment, HOME=str(home)))
        assert said == f"mortarleek-add: no key in {home}/.ssh (id_rsa, id_ecdsa, id_ed25519): ssh-keygen -t ed25519 makes one"


@check
def a_key_for_another_agent_is_told_before_it_goes(folder):
    installed, key = Installed(folder), keygen(folder / "key")
    with our_agent(rig.agent_program(), folder) as bare:
        said = run([installed.add, key], env=dict(installed.environment, SSH_AUTH_SOCK=bare.path))
        assert said.startswith(f"mortarleek-add: the key goes to another agent: the one at {bare.path} isn't one that "), said


@check
def a_record_that_is_none_is_told_with_its_reason(folder):
    installed, text, none = Installed(folder), folder / "text", folder / "none"
    log = front(installed, "-log")
    shutil.copy(rig.built("log_prog"), installed.prefix / "libexec/mortarleek")
    text.write_text("export A=1\n")
    for words, status, said in (
        ([none], 3, f"{none}: no such file"),
        ([folder], 3, f"{folder}: is a folder: name a record in it"),
        (["--since", "yesteryear", text], 2, "--since yesteryear: date(1) knows no such time: try today, yesterday, '2 hours ago' or 2026-11-30"),
    ):
        assert told(log, *words, status=status, env=installed.environment) == f"mortarleek-log: {said}"
    said = run([log, text], 4, env=installed.environment)
    assert said.endswith(f"mortarleek-log: {text}: its first line isn't `schedule 2`, so it is no record of --record\n"), said


@check
def without_a_tool_of_the_system_no_agent_is_called_another_s(folder):
    installed, tools = Installed(folder), folder / "tools"
    tools.mkdir()
    for name in ("readlink", "ls", "stat", "sh"):
        (tools / name).symlink_to(shutil.which(name))
    with installed.start() as daemon:
        said = told("/bin/sh", front(installed, "-status"), status=1, env=dict(daemon.environment, PATH=str(tools)))
        assert said == "mortarleek-status: id isn't there: PATH lacks it, or install coreutils", said
