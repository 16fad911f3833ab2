"""The words of ssh-agent and ssh-add, each beside the installed tool: what docs/DAILY.md's table calls the same has the
same status and both outputs here, and what it calls refused ends with one line. tests/daily.py runs these too."""

import os
import re
import signal
import subprocess

import rig
from frames import string
from front_add import private_file
from installed import Installed, Keys, check, keygen, plain
from rig import openssh_agent, run, until


PAGE = rig.TOP / "docs/DAILY.md"


def answer(program, words, environment, **more):
    """Status, standard output and standard error, without numbers, paths of sockets, and the program's own name. An
    agent that stays behind is ended."""
    done = subprocess.run(
        [str(word) for word in (program, *words)],
        capture_output=True,
        text=True,
        env=environment,
        **dict(dict(timeout=60, stdin=subprocess.DEVNULL, start_new_session=True), **more),
    )
    for pid in re.findall(r"Agent pid (\d+);", done.stdout):
        os.kill(int(pid), signal.SIGTERM)
    # A usage is told in lines of one's own.
    told = re.sub(r"(?s)usage: .*", "usage", done.stderr)
    return done.returncode, plain(done.stdout), told


def table():
    """The rows of DAILY's table of words: tool, words, what it says of them."""
    found = {}
    for line in PAGE.read_text().splitlines():
        if row := re.fullmatch(r"\| (ssh-agent|ssh-add) \| `([^`]+)` \| (same|differs|refused)\b.*", line):
            found[row[1], row[2]] = row[3]
    return found


# What is the same: words for a run of each tool, or of several in turn. FOLDER stands for the test's folder.
AGENT_SAME = {
    "-a PATH": [["-a", "{name}", "true"]],
    "-c": [["-c"], ["-c", "-s"]],
    "-s": [["-s"], ["-s", "true"]],
    "-d": [["-d", "-D"], ["-d", "true"]],
    "-D": [["-D", "-D"], ["-D", "true"]],
    "-k": [["-k"], ["-k", "true"]],
    "-t LIFE": [["-t", "1h30m", "true"], ["-t", "0", "true"], ["-t", "1x"], ["-t", ""], ["-t", "-1"], ["-t"]]
    + [["-t", "99999999999w"], ["-t", "2147483648"], ["-t", "2147483647", "true"], ["-t", "010", "true"]],
    "-E sha256": [["-E", "sha256", "true"], ["-E", "SHA256", "true"], ["-E", "none", "true"]],
    "-O allow-remote-pkcs11": [["-O", "allow-remote-pkcs11", "true"], ["-O", "none", "true"]],
    "-O no-restrict-websafe": [["-O", "no-restrict-websafe", "true"]],
    "-P PATTERNS": [["-P", "/usr/lib/*", "true"], ["-P", "x", "-P", "y", "true"]],
    "COMMAND": [["sh", "-c", "echo a; echo b >&2; exit 7"], ["/nowhere/at/all"], ["/"], ["/etc/passwd"], ["no-such-program"]]
    + [["sh", "-c", "kill -9 $$"]],
    "any other word": [["-Z"], ["-Z", "true"]],
}

ADD_SAME = {
    "no words": [[]],
    "FILE": [["{plain}"], ["{plain}", "{none}"], ["{none}"]],
    "-c": [["-c", "{plain}"]],
    "-": [["-"], ["{plain}"], ["-d", "-"]],
    "-v": [["-v", "{plain}"], ["-vv", "-d", "{plain}"]],
    "-d": [["{plain}"], ["-d", "{plain}"], ["-d", "{plain}"], ["-d", "{none}"], ["{plain}"], ["-qd", "{plain}.pub"]],
    "-D": [["{plain}"], ["-D"], ["-q", "-D"], ["-D", "-D"]],
    "-k": [["-k", "{certified}"], ["-dk", "{certified}"]],
    "-l": [["-l"], ["{plain}"], ["-l"], ["-l", "x"], ["-ql"], ["-lL"], ["-l", "-D"], ["-dl"], ["-c", "-l"]],
    "-L": [["-L"], ["{plain}"], ["-L"]],
    "-q": [["-q", "{plain}"], ["-q", "-t", "60", "-c", "{plain}"]],
    "-t LIFE": [["-t", "90m", "{plain}"], ["-t", "1x", "{plain}"], ["-t", "0", "{plain}"], ["-t"], ["-ct5m", "{plain}"]],
    "-E HASH": [["{plain}"], ["-E", "md5", "-l"], ["-E", "sha256", "-l"], ["-E", "none", "-l"], ["-E", "md5", "-L"]],
    "-T": [["{plain}"], ["-T", "{plain}.pub"], ["-T", "{none}.pub"]],
    "-x": [["-xX"], ["-x", "-x"]],
    "-X": [["-X", "-l"]],
    "any other word": [["-Z"]],
}


def fill(words, places):
    return [word.format(**places) for word in words]


@check
def what_daily_calls_the_same_of_ssh_agent_is(folder):
    installed = Installed(folder)
    environment = dict(installed.environment, SHELL="/bin/sh")
    environment.pop("SSH_AGENT_PID", None)
    for row, runs in AGENT_SAME.items():
        assert table().get(("ssh-agent", row)) == "same", row
        for words in runs:
            ours, theirs = (
                answer(program, fill(words, {"name": folder / name}), environment)
                for program, name in ((installed.agent, "ours"), ("ssh-agent", "theirs"))
            )
            assert ours == theirs, (words, ours, theirs)
    assert {row for (tool, row), said in table().items() if tool == "ssh-agent" and said == "same"} == set(AGENT_SAME)
    until(lambda: installed.folders() == [], what="the removal of the folders")


@check
def what_daily_calls_the_same_of_ssh_add_is(folder):
    installed, keys = Installed(folder), Keys(folder)
    places = dict(plain=keys.plain, certified=keys.certified, none=folder / "none")
    environment = {k: v for k, v in installed.environment.items() if not k.startswith("SSH_")}
    asks = {"SSH_ASKPASS": "/bin/true", "SSH_ASKPASS_REQUIRE": "force"}
    with installed.start(environment=asks) as ours, openssh_agent(folder, env=dict(os.environ, **asks)) as theirs:
        for row, runs in ADD_SAME.items():
            assert table().get(("ssh-add", row)) == "same", row
            for path in (ours.path, theirs.path):
                run(["ssh-add", "-qD"], env=dict(environment, SSH_AUTH_SOCK=path))
            for words in runs:
                seen = []
                for program, path in ((installed.add, ours.path), ("ssh-add", theirs.path)):
                    given = fill(words, places)
                    if program == "ssh-add" and words == []:
                        # It looks in the home of the user's entry, whatever HOME says.
                        given = [str(key) for key in keys.defaults]
                    home = dict(environment, HOME=str(keys.home), SSH_AUTH_SOCK=path)
                    status, told, errors = answer(program, given, home)
                    seen.append((status, told, errors))
                assert seen[0] == seen[1], (words, seen)
    assert {row for (tool, row), said in table().items() if tool == "ssh-add" and said == "same"} == set(ADD_SAME)


@check
def what_daily_calls_refused_ends_with_a_line(folder):
    installed, key = Installed(folder), keygen(folder / "key")
    # The fields of an authenticator's key are those of OpenSSH's PROTOCOL.u2f: flags, a handle and a reserved string.
    public = (bytes(range(32)), b"ssh:")
    fields = b"".join(map(string, public)) + b"\1" + string(b"a handle") + string(b"")
    hosted = private_file(folder / "hosted", b"sk-ssh-ed25519@openssh.com", fields, public)
    with installed.start() as daemon:
        for (tool, row), said in table().items():
            if said != "refused":
                continue
            words = row.split()
            if len(words) == 2 and words[-1].isupper():
                words[-1:] = [str(key)]
            if tool == "ssh-agent":
                status, told, errors = answer(installed.agent, words, installed.environment)
            else:
                status, told, errors = answer(installed.add, words, daemon.environment)
            assert status == 1 and told == "" and errors.count("\n") == 1 and ": " in errors, (words, errors)
        said = daemon.run(installed.add, hosted, status=1)
        assert "FIDO" in said and "ssh-agent" in said and said.count("\n") == 1, said
        assert "no identities" in daemon.run(installed.add, "-l", status=1)


# The three places that name words.


@check
def manuals_completions_and_daily_name_the_same_words(folder):
    fish = (rig.TOP / "contrib/completions/mortarleek.fish").read_text()
    zsh = (rig.TOP / "contrib/completions/_mortarleek").read_text()
    bash = (rig.TOP / "contrib/completions/mortarleek.bash").read_text()
    for tool, name in (("ssh-agent", "agent"), ("ssh-add", "add")):
        page = (rig.TOP / f"man/mortarleek-{name}.1").read_text()
        synopsis = page[page.index(".Sh SYNOPSIS") : page.index(".Sh DESCRIPTION")]
        manual = set("".join(re.findall(r"Fl ([A-Za-z]+)", synopsis)))
        described = set("".join(re.findall(r"(?m)^\.It Fl ([A-Za-z])\b", page)))
        rows = {row for (of, row), said in table().items() if of == tool and said != "refused"}
        daily = {row[1] for row in rows if row.startswith("-") and row != "-"}
        refused = {row[1] for (of, row), said in table().items() if of == tool and said == "refused"} - daily
        part = fish[fish.index(f"function __mortarleek_{name}") :]
        by_fish = set(re.findall(r"-s (\w)", part[: part.index("\nend")]))
        part = zsh[zsh.index(f"    mortarleek-{name})") :]
        by_zsh = set(re.findall(r"'(?:\([^)]*\)|\*)?-(\w)\[", part[: part.index(";;")]))
        part = bash[bash.index(f"_mortarleek_{name}()") :]
        by_bash = set(re.findall(r"[ ']-(\w)(?=[ '])", re.search(r"-W '([^']* -D [^']*)'", part)[0]))
        assert manual == described == daily == by_fish == by_zsh == by_bash, (
            name, *(sorted(words) for words in (manual, described, daily, by_fish, by_zsh, by_bash))
        )
        usage = run([rig.TOP / f"front/mortarleek-{name}", "-Z"], 1)
        assert set("".join(re.findall(r"[\[ |]-([A-Za-z]+)", usage.partition("usage")[2]))) == manual, usage
        assert not refused & manual, refused
        # The installed tool knows no word that the table leaves out.
        theirs = subprocess.run([tool, "-Z"], capture_output=True, text=True).stderr.partition("usage")[2]
        known = set("".join(re.findall(r"[\[ |]-([A-Za-z]+)", theirs)))
        assert known <= manual | refused, sorted(known - manual - refused)
