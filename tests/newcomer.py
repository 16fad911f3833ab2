#!/usr/bin/env python3
"""What a new user types first: packages that are installed or named, crates that are proved side by side and once, and
what is said where the toolchain is missing. A stand-in for `rt` and for apt-get writes down what it was asked for; of
`make demo` itself tests/transcripts.sh has the output."""

import hashlib
import itertools
import json
import os
import pty
import re
import select
import shutil
import subprocess
import sys
import time

sys.dont_write_bytecode = True

import rig
from rig import run

check = rig.Checks("newcomer")

# Writes each call down with its times, proves what isn't called bad, and leaves what rt leaves. As rt it keeps the crate
# and all below it to itself, and wants what is below it to be there.
RT = """#!/usr/bin/env python3
import fcntl, json, os, pathlib, sys, time
words, name, log = sys.argv[1:], os.path.basename(os.getcwd()), pathlib.Path(os.environ["CALLS"])
def tell(what):
    with open(log, "a") as out:
        out.write(json.dumps([what, name, time.monotonic(), *words]) + "\\n")
if words == ["version"]:
    print("a stand-in")
    sys.exit()
if words == ["ci"]:
    tell("begins")
    print("9 passed, 0 failed")
    sys.exit()
lines = (line.partition(":") for line in open("../../crates.txt") if not line.startswith("#"))
uses, needed = {crate: rest.split() for crate, _, rest in lines}, {name}
for crate in list(uses) * len(uses):
    needed |= {used for used in uses.get(crate, ()) if crate in needed and used in uses}
for crate in sorted(needed):
    fcntl.flock(os.open(f"../{crate}", os.O_RDONLY), fcntl.LOCK_EX)
    assert crate == name or pathlib.Path(f"../{crate}/out/rlib/{crate}.rlib").exists(), crate
tell("begins")
time.sleep(0.2)
tell("ends")
if "bad" in name:
    print("a goal is open in", name)
    sys.exit(1)
kept = pathlib.Path("out") / (f"rlib/{name}.rlib" if words[0] == "lib" else name)
kept.parent.mkdir(parents=True, exist_ok=True)
kept.write_text("proved")
if words[0] == "run":
    kept.chmod(0o755)
    print("logic=proved by a stand-in")
sys.exit(0 if words[0] == "lib" else 2)
"""


class Repository:
    """A repository of small crates, of which those with `prog` in their names are programs."""

    def __init__(self, folder, crates):
        self.folder, self.calls = folder, folder / "calls"
        for part in ("Makefile", "scripts", "tests", "front", "CHANGELOG.md"):
            run(["cp", "-r", rig.TOP / part, folder])
        self.lay(crates)
        rt = folder / "rt"
        rt.write_text(RT)
        rt.chmod(0o700)
        self.environment = dict(os.environ, RT=str(rt), CALLS=str(self.calls))

    def lay(self, crates):
        lines = []
        for name, uses in crates.items():
            source = self.folder / "crates" / name / "src" / ("main.rt" if "prog" in name else "lib.rt")
            source.parent.mkdir(parents=True)
            source.write_text("//\n" * 40)
            lines.append(f"{name}: {' '.join(uses)}\n")
        (self.folder / "crates.txt").write_text("# crates\n" + "".join(lines))

    def prove(self, *words, status=0, **more):
        self.calls.write_text("")
        return run([self.folder / "scripts/prove", *words], status, env=self.environment, **more)

    def gate(self, status=0):
        """What the toolchain's gate prints, with what .ci/run takes down around it."""
        self.calls.write_text("")
        lines = 'scripts/prove --before-gate && "$RT" ci > bin/gate.log && cat bin/gate.log && scripts/prove --passed bin/gate.log'
        return run(["sh", "-c", lines], status, cwd=self.folder, env=self.environment)

    def make(self, *words, status=0, **more):
        make = ["make", "--no-print-directory", "-C", self.folder, *words]
        return run(make, status, env=self.environment, **more)

    def proof(self, status=0):
        """What is said of the program in bin/."""
        return run([self.folder / "front/proof_of", self.folder / "bin/prog"], status)

    def record(self, file="bin/PROVED"):
        lines = (self.folder / file).read_text().splitlines()
        return dict(line.split(": ", 1) for line in lines)

    def lay_for_installation(self):
        for part in ("man", "contrib", "debian"):
            run(["cp", "-r", rig.TOP / part, self.folder])

    def told(self):
        """What the toolchain was asked for."""
        return [json.loads(line) for line in self.calls.read_text().splitlines() if line.startswith("[")]

    def proved(self):
        """The crates that the toolchain was asked to prove, in the order in which they were begun."""
        return [name for what, name, _, *words in self.told() if what == "begins" and words[0] in ("lib", "run")]

    def moments(self, what):
        return {name: moment for said, name, moment, *_ in self.told() if said == what}

    def change(self, name):
        (source,) = (self.folder / "crates" / name / "src").iterdir()
        source.write_text(source.read_text() + "// more\n")


def memory():
    """The bytes that are left."""
    with open("/proc/meminfo") as lines:
        return int(re.search(r"MemAvailable:\s+(\d+)", lines.read())[1]) << 10


CRATES = {
    "low": [],
    "long_a": ["low"],
    "long_b": ["long_a"],
    "prog": ["long_b"],
    "aside": ["low", "a_crate_of_the_kit"],
    "tests_of_low": ["low"],
}


@check
def crates_are_proved_side_by_side_below_first_and_the_longest_chain_first(folder):
    repository = Repository(folder, CRATES)
    said = repository.prove()
    begins, ends = repository.moments("begins"), repository.moments("ends")
    for name, uses in CRATES.items():
        assert all(ends[used] <= begins[name] for used in uses if used in CRATES), (name, begins, ends)
    if len(os.sched_getaffinity(0)) > 1 and memory() > 7 << 30:
        pairs = itertools.combinations(("long_a", "aside", "tests_of_low"), 2)
        assert any(max(begins[a], begins[b]) < min(ends[a], ends[b]) for a, b in pairs), (begins, ends)
    lines = said.splitlines()
    assert len(lines) == 6 and lines[0].startswith("low ") and lines[0].endswith(", 5 left"), said
    assert all(re.fullmatch(r"\w+ +proved +\d+ s, \d left", line) for line in lines), said
    # On one processor one after another.
    shutil.rmtree(folder / "crates")
    repository.lay(CRATES)
    (processor, *_) = os.sched_getaffinity(0)
    repository.prove(preexec_fn=lambda: os.sched_setaffinity(0, [processor]))
    assert repository.proved()[:3] == ["low", "long_a", "long_b"], repository.proved()
    begins, ends = sorted(repository.moments("begins").values()), sorted(repository.moments("ends").values())
    assert all(end <= begin for end, begin in zip(ends, begins[1:])), (begins, ends)


@check
def what_is_proved_is_not_proved_again_and_what_changed_is_with_all_above_it(folder):
    repository = Repository(folder, CRATES)
    repository.prove()
    assert repository.prove() == "6 crates are proved already, 0 are to be proved\n"
    assert repository.proved() == []
    repository.change("long_a")
    repository.prove()
    assert repository.proved() == ["long_a", "long_b", "prog"], repository.proved()
    repository.change("low")
    repository.prove("long_a")
    assert repository.proved() == ["low", "long_a"], repository.proved()
    (folder / "crates/prog/out/prog").unlink()
    repository.prove("prog")
    assert repository.proved() == ["long_b", "prog"], repository.proved()


@check
def a_failed_proof_is_shown_and_nothing_more_is_begun(folder):
    repository = Repository(folder, {"low": [], "bad": ["low"], "above": ["bad"], "bad_prog": ["low"]})
    said = repository.prove(status=1)
    assert "a goal is open in bad\nbad              not proved\n" in said, said
    assert "above" not in repository.proved()
    assert not (folder / "crates/bad_prog/out/bad_prog").exists()
    assert run([folder / "scripts/prove", "nothing"], 1, env=repository.environment) == (
        "prove: no crate nothing stands in crates.txt\n"
    )


@check
def behind_the_gate_nothing_is_proved_that_no_program_needs(folder):
    """Where the gate keeps nothing: what programs are linked of is proved again, and said so."""
    repository = Repository(folder, CRATES)
    assert repository.gate() == "9 passed, 0 failed\n"
    assert repository.proved() == []
    assert repository.prove().startswith("2 crates are proved already, 4 are to be proved\n")
    assert sorted(repository.proved()) == ["long_a", "long_b", "low", "prog"], repository.proved()
    assert repository.prove() == "6 crates are proved already, 0 are to be proved\n"
    repository.change("aside")
    repository.prove()
    assert repository.proved() == ["aside"], repository.proved()


@check
def make_builds_of_what_is_proved_and_wants_no_package(folder):
    repository = Repository(folder, CRATES)
    (folder / "helper").mkdir()
    rig.script(folder / "helper/build", 'echo "the other helper" >> "$CALLS"')
    tools = folder / "tools"
    tools.mkdir()
    rig.script(tools / "apt-get", 'echo "apt-get $*" >> "$CALLS"')
    rig.script(tools / "dpkg-query", "exit 1")
    rig.script(tools / "id", "echo 0")
    environment = dict(repository.environment, PATH=f"{tools}:{os.environ['PATH']}")
    make = ["make", "--no-print-directory", "-C", folder]
    run(make, env=environment)
    calls = repository.calls.read_text()
    assert "begins" in calls and "apt-get" not in calls and "other helper" not in calls, calls
    assert (folder / "bin/prog").read_text() == "proved"
    repository.calls.write_text("")
    run(make, env=environment)
    assert repository.proved() == []
    run([*make, "helper"], env=environment)
    calls = repository.calls.read_text()
    assert calls.index("apt-get -qy") < calls.index("the other helper"), calls


QUICK = "prog: NOT proved: `make quick` built it\n"
OTHER = "prog: NOT proved: its bytes are others than those that were proved\n"


@check
def what_make_quick_built_is_called_not_proved_until_make_proves_it(folder):
    repository = Repository(folder, CRATES)
    (folder / "bin").mkdir()
    built, unproved = folder / "bin/prog", folder / "bin/unproved"
    for words in ([], ["bin/prog"]):
        built.write_text("not proved")
        # As scripts/quick leaves them.
        os.utime(built, (0, 0))
        unproved.write_text("prog\n")
        assert repository.proof(1) == QUICK
        repository.make(*words)
        assert built.read_text() == "proved" and not unproved.exists(), words
        assert repository.proof().startswith("prog: proved: "), words


@check
def a_record_tells_which_bytes_were_proved_of_which_sources(folder):
    repository = Repository(folder, CRATES)
    (folder / "HANDLES").write_text("Handles allowed: none.\n")
    repository.make()
    record = repository.record()
    made = (folder / "crates/prog/out/prog").read_bytes()
    assert record["sha256"] == hashlib.sha256(made).hexdigest() and record["size"] == str(len(made)), record
    assert (record["kit"], record["checker"]) == ("a stand-in", "logic=proved by a stand-in"), record
    assert (record["commit"], record["changed"]) == ("unknown", "unknown"), record
    assert re.fullmatch(r"2\d{3}-\d\d-\d\dT\d\d:\d\d:\d\dZ", record["time"]), record
    # By hand, as docs/DAILY.md says it: of the crate and those below it, and of no other.
    below = ("long_a", "long_b", "low", "prog")
    files = [f"crates/{name}/src/{'main' if name == 'prog' else 'lib'}.rt" for name in below]
    lines = "long_a: low\nlong_b: long_a\nlow:\nprog: long_b\nHandles allowed: none.\n" + run(["sha256sum", *files], cwd=folder)
    assert run([folder / "scripts/sources", "prog"]) == lines
    assert record["sources"] == hashlib.sha256(lines.encode()).hexdigest()
    # In a repository of git the commit, and whether a source of this program differs from it.
    git = ["git", "-c", "user.name=me", "-c", "user.email=me@here", "-c", "commit.gpgsign=false"]
    (folder / ".gitignore").write_text("out/\nbin/\n")
    for words in (["init", "-q"], ["add", "-A"], ["commit", "-qm", "first"]):
        run([*git, *words], cwd=folder)
    commit = run([*git, "rev-parse", "HEAD"], cwd=folder).strip()
    for change, changed in ((lambda: None, "no"), (lambda: repository.change("aside"), "no"), (lambda: repository.change("low"), "yes")):
        change()
        (folder / "crates/prog/out/prog").unlink()
        repository.make()
        record = repository.record()
        assert (record["commit"], record["changed"]) == (commit, changed), record
    assert repository.proof() == f"prog: proved: commit {commit}, with changes, a stand-in\n"


@check
def no_program_is_recorded_that_the_toolchain_did_not_call_proved(folder):
    repository = Repository(folder, CRATES)
    rt = folder / "rt"
    rt.write_text(RT.replace('print("logic=proved by a stand-in")', "pass"))
    repository.prove("--into-bin", "prog", status=1)
    assert not (folder / "bin/PROVED").exists() and not (folder / "bin/prog").exists()
    # What somebody put into out/ meanwhile is proved anew.
    rt.write_text(RT)
    repository.prove("--into-bin", "prog")
    (folder / "crates/prog/out/prog").write_text("somebody's")
    repository.make()
    assert repository.proved() and (folder / "bin/prog").read_text() == "proved"
    # Nor what a gate that failed, or that meets other sources in its end, left there.
    for wrong in ("sys.exit(1)", 'open("crates/low/src/lib.rt", "a").write("// more\\n")'):
        rt.write_text(RT.replace('    print("9 passed, 0 failed")\n', f'    print("9 passed, 0 failed")\n    {wrong}\n'))
        (folder / "crates/prog/out/prog").write_text("a gate's")
        repository.gate(status=1)
        assert "a gate" not in (folder / "bin/PROVED").read_text()
        assert repository.record("crates/prog/out/PROVED")["checker"] == "logic=proved by a stand-in"
    rt.write_text(RT)
    # And nothing is taken down by a log of a gate that failed, nor where none began.
    (folder / "bin/gate.log").write_text("9 passed, 1 failed\n")
    repository.prove("--before-gate")
    repository.prove("--passed", "bin/gate.log", status=1)
    (folder / "bin/gate.log").write_text("9 passed, 0 failed\n")
    (folder / "bin/gate.sources").unlink()
    repository.prove("--passed", "bin/gate.log", status=1)
    assert repository.record("crates/prog/out/PROVED")["checker"] == "logic=proved by a stand-in"
    repository.gate()
    assert repository.record("crates/prog/out/PROVED")["checker"] == "rt ci: 9 passed, 0 failed"
    repository.make()
    assert (folder / "bin/prog").read_text() == "a gate's" and repository.proof().startswith("prog: proved: ")


@check
def a_program_with_one_byte_more_is_called_not_proved(folder):
    repository = Repository(folder, CRATES)
    repository.make()
    built, records = folder / "bin/prog", folder / "bin/PROVED"
    assert repository.proof() == "prog: proved: commit unknown, a stand-in\n"
    built.write_text("proved ")
    assert repository.proof(1) == OTHER
    built.write_text("proveD")
    assert repository.proof(1) == OTHER
    # Its proof is there still.
    repository.make()
    assert repository.proof().startswith("prog: proved: ")
    for text, why in (
        (None, "no file PROVED tells of it"),
        ("", "PROVED does not tell of it"),
        (records.read_text().replace("program: prog", "program: progs"), "PROVED does not tell of it"),
        (records.read_text().replace("sha256: ", "sha256: 0"), "PROVED does not tell of it"),
        ("program: prog\nsize: 6\n\n" + records.read_text(), "PROVED does not tell of it"),
    ):
        kept = records.read_text() if records.exists() else ""
        records.unlink()
        if text is not None:
            records.write_text(text)
        assert repository.proof(1) == f"prog: NOT proved: {why}\n", text
        records.write_text(kept)
    # What a record says can't act on a terminal.
    records.write_text(records.read_text().replace("a stand-in", "a \x1b[2Jstand-in"))
    assert repository.proof() == "prog: proved: commit unknown, a ?[2Jstand-in\n"


# With a program that is installed.
WITH_AGENT = {**{name: uses for name, uses in CRATES.items() if name != "prog"}, "agent_prog": ["long_b"]}


@check
def what_is_not_proved_is_installed_and_packed_only_where_that_is_asked_for(folder):
    repository = Repository(folder, WITH_AGENT)
    repository.lay_for_installation()
    target = folder / "target"
    words = ["-o", "bin/agent_prog", f"DESTDIR={target}"]
    installed, front = target / "usr/local/libexec/mortarleek", target / "usr/local/bin/mortarleek"
    repository.make()
    assert "NOT proved" not in repository.make(*words, "install", stdin=subprocess.DEVNULL)
    told = "mortarleek [0-9.]+\ncommit unknown\na stand-in\nproved: agent_prog: commit unknown, a stand-in\n"
    assert re.fullmatch(told, run([front, "--version"])), run([front, "--version"])
    (installed / "agent_prog").write_text("proved ")
    assert "NOT proved: agent_prog: its bytes are others" in run([front, "--version"])
    repository.make(*words, "uninstall")
    (folder / "bin/agent_prog").write_text("proved ")
    told = f"agent_{OTHER}install: not proved: `make` proves it, `make install UNPROVED=yes` takes it as it is\n"
    for goal in ("install", "deb"):
        said = repository.make(*words, goal, status=2, stdin=subprocess.DEVNULL)
        assert told.replace("install", goal) in said, said
    assert not installed.exists()
    for typed, status in ((b"n\n", 2), (b"\n", 2), (b"y\n", 0)):
        make = ["make", "--no-print-directory", "-C", folder, *words, "install"]
        shown, ended = on_a_terminal(make, repository.environment, typed)
        assert ended == status and "Take them all the same? [y/N]" in shown and OTHER in shown, (typed, shown)
        assert installed.exists() == (status == 0), typed
    for mark, why in (("", "no file PROVED tells of it"), ("agent_prog\n", "`make quick` built it")):
        (folder / "bin/unproved").write_text(mark)
        said = repository.make(*words, "UNPROVED=yes", "install", stdin=subprocess.DEVNULL)
        assert f"agent_prog: NOT proved: {why if mark else 'its bytes are'}" in said, said
        assert f"NOT proved: agent_prog: {why}\n" in run([front, "--version"]), (mark, run([front, "--version"]))
    repository.make(*words, "uninstall")
    assert [file for file in target.rglob("*") if file.is_file()] == []


@check
def an_installed_program_that_its_user_cannot_read_is_known_by_what_was_installed(folder):
    """Installed by root and by a user, who both keep it from the user's programs and so from the user; and packed."""
    if os.geteuid() != 0:
        raise rig.Skip("it takes root to be another user")
    folder.chmod(0o755)
    repository = Repository(folder, WITH_AGENT)
    repository.lay_for_installation()
    repository.make()
    unknown = "agent_prog: NOT compared: only root may read it: sudo mortarleek --version\n"
    for case, installer in (("root's", []), ("packed", []), ("the user's", rig.AS_NOBODY)):
        prefix = folder / f"prefix of {case}"
        if installer:
            run(["chown", "-R", f"{rig.NOBODY}:{rig.NOBODY}", folder])
        run(["chmod", "-R", "a+rX", folder])
        make = ["make", "--no-print-directory", "-C", folder, "-o", "bin/agent_prog", "install"]
        words = [f"PREFIX={folder}/prefix", f"UNITS={folder}/units"]
        run([*installer, *make, *words], env=repository.environment, stdin=subprocess.DEVNULL)
        (folder / "prefix").rename(prefix)
        teller, program = prefix / "libexec/mortarleek/proof_of", prefix / "libexec/mortarleek/agent_prog"
        assert program.stat().st_mode & 0o777 == (0o111 if installer else 0o711)
        records = prefix / "share/mortarleek/PROVED"
        if case == "packed":
            records.write_text(re.sub("(?m)^installed: .*\n", "", records.read_text()))
        proved = "agent_prog: proved: commit unknown, a stand-in\n"
        assert run([teller, program]) == proved
        said = run([*rig.AS_NOBODY, teller, program], None)
        assert said == (unknown if case == "packed" else proved), (case, said)
        # Where a tool is missing nothing is called proved.
        for missing, user in (("stat", rig.AS_NOBODY), ("sha256sum", [])):
            tools = folder / f"without {missing} in {case}"
            tools.mkdir()
            for tool in {"sh", "setpriv", "awk", "sed", "head", "tr", "grep", "stat", "sha256sum"} - {missing}:
                (tools / tool).symlink_to(shutil.which(tool))
            said = run([*user, teller, program], 2, env={"PATH": str(tools)})
            assert said == f"agent_prog: NOT compared: {missing} cannot be run\n", (case, said)
        # The second of the last change tells one file from another.
        time.sleep(1.1)
        for text, to_its_user in (("proveD", unknown), ("proved ", f"agent_{OTHER}")):
            program.write_text(text)
            assert run([teller, program], 1) == f"agent_{OTHER}"
            assert run([*rig.AS_NOBODY, teller, program], None) == to_its_user, (case, text)


@check
def a_missing_toolchain_is_told_in_readme_s_words(folder):
    repository = Repository(folder, CRATES)
    (folder / ".ci").mkdir()
    shutil.copy(rig.TOP / ".ci/run", folder / ".ci")
    environment = dict(repository.environment, RT="no-such-rt")
    said = "the command of the Rattle kit: unpack the kit's archive anywhere and put its bin/ into PATH"
    assert said in (rig.TOP / "README.md").read_text()
    for words in (
        ["make", "-C", folder],
        ["make", "-C", folder, "proofs"],
        ["make", "-C", folder, "bin/prog"],
        ["make", "-C", folder, "check"],
        ["make", "-C", folder, "demo"],
        [folder / "scripts/prove"],
        [folder / "scripts/demo"],
        [folder / ".ci/run"],
    ):
        told = run(words, None, env=environment)
        assert f"no no-such-rt: it is {said}\n" in told, (words, told)
    assert not repository.calls.exists() or repository.proved() == []


def on_a_terminal(words, environment, typed):
    """What a command shows on a terminal where this is typed once it asks, and its status."""
    process, terminal = pty.fork()
    if process == 0:
        os.execvpe(words[0], [str(word) for word in words], environment)
    shown, sent = b"", False
    while True:
        if not select.select([terminal], [], [], 20)[0]:
            raise AssertionError(shown)
        try:
            more = os.read(terminal, 4096)
        except OSError:
            break
        if not more:
            break
        shown += more
        if not sent and b"[y/N]" in shown:
            os.write(terminal, typed)
            sent = True
    return shown.decode().replace("\r\n", "\n"), os.waitstatus_to_exitcode(os.waitpid(process, 0)[1])


class Apt:
    """A machine without packages, in which apt-get and sudo write down what they are asked for."""

    def __init__(self, folder, user, *, sudo=True):
        self.tools, self.calls = folder / "tools", folder / "asked"
        self.tools.mkdir()
        self.calls.touch()
        for name in ("bash", "sed", "sort", "grep", "env", "sh"):
            (self.tools / name).symlink_to(shutil.which(name))
        rig.script(self.tools / "dpkg-query", 'case $* in *held*) echo "install ok installed" ;; *) exit 1 ;; esac')
        rig.script(self.tools / "id", f"echo {user}")
        rig.script(self.tools / "apt-get", f'echo "apt-get $*" >> {self.calls}')
        if sudo:
            rig.script(self.tools / "sudo", f'echo sudo >> {self.calls}; "$@"')
        self.words = [rig.TOP / "tests/packages.sh", "demo"]
        self.environment = {"PATH": str(self.tools)}

    def asked(self):
        return self.calls.read_text()

    def on_a_terminal(self, typed, *names):
        return on_a_terminal([*self.words, *names], self.environment, typed)


INSTALL = "apt-get -qy -o DPkg::Lock::Timeout=300 install --no-install-recommends one two\n"


@check
def root_gets_missing_packages_at_once(folder):
    apt = Apt(folder, 0)
    said = run([*apt.words, "one", "held", "two"], env=apt.environment)
    assert said == "demo: installing one two\n", said
    assert apt.asked() == f"apt-get -q update\n{INSTALL}", apt.asked()
    assert run([*apt.words, "held"], env=apt.environment) == ""


@check
def another_user_is_told_what_it_would_be_and_asked_on_a_terminal(folder):
    apt = Apt(folder, 1000)
    shown, status = apt.on_a_terminal(b"y\n", "one", "held", "two")
    typed = "sudo apt-get update && sudo apt-get install --no-install-recommends one two\n"
    assert shown.index(typed) < shown.index("Install them now? [y/N]"), shown
    assert status == 0 and apt.asked() == f"sudo\napt-get -q update\nsudo\n{INSTALL}", (status, apt.asked())
    for answer in (b"\n", b"n\n", b"\x04"):
        apt.calls.write_text("")
        shown, status = apt.on_a_terminal(answer, "one")
        assert status == 1 and apt.asked() == "" and "demo: not installed" in shown, (shown, status)
    shown, _ = apt.on_a_terminal(b"n\n", "openssh-server")
    assert "starts a server of the machine's, on port 22" in shown, shown


@check
def without_a_terminal_or_sudo_one_line_says_what_to_type(folder):
    line = "demo: first, as root: apt-get update && apt-get install --no-install-recommends one two\n"
    for sudo in (True, False):
        place = folder / str(sudo)
        place.mkdir()
        apt = Apt(place, 1000, sudo=sudo)
        assert run([*apt.words, "one", "two"], 1, env=apt.environment, stdin=subprocess.DEVNULL) == line
        assert apt.asked() == ""
    shown, status = apt.on_a_terminal(b"", "one", "two")
    assert (shown, status) == (line, 1), shown


@check
def each_line_of_packages_is_there_and_the_gate_s_has_those_of_all_that_it_runs(folder):
    lines = dict(re.findall(r"(?m)^(\w+): (.*)$", (rig.TOP / "tests/packages.txt").read_text()))
    for name, words in lines.items():
        for word in words.split():
            assert not word.startswith("@") or word[1:] in lines, (name, word)
    gate = (rig.TOP / ".ci/checks").read_text()
    for name in re.findall(r"tests/(\w+)\.(?:py|sh)", gate):
        name = "helper_tests" if name == "helper" else name
        assert name not in lines or f"@{name}" in lines["check"], name


if __name__ == "__main__":
    check.run(sys.argv[1:])
