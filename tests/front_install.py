"""Manuals, completions, the unit, and what is installed: by root, by a new user as README says, and as a package.
tests/daily.py runs these too."""

import functools
import json
import os
import pathlib
import re
import shutil
import signal
import subprocess
import tempfile
import time

import rig
from front_add import typed_at
from hosts import Hosts
from installed import Installed, call_proved, check, keygen
from provenance import sum_of_sources
from rig import Skip, is_alive, needs, run, until


@check
def manuals_are_clean_and_name_every_option(folder):
    pages = sorted((rig.TOP / "man").iterdir())
    assert {page.name for page in pages} >= {
        "mortarleek.1",
        "mortarleek-agent.1",
        "mortarleek-add.1",
        "agent_prog.1",
        "audit_prog.1",
        "mortarleek_signer.8",
        "mortarleek-helper.8",
        "standin_helper.8",
        "confirm_relay.8",
        "terms_relay.8",
        "mortarleek-filter.1",
        "mortarleek-log.1",
        "mortarleek-setup.1",
        "mortarleek-status.1",
        "filter_proxy.8",
    }
    # Of the day of the release.
    day, month, year = re.search(r"(?m)^## [0-9.]+, (\d+) (\w+) (\d+)$", (rig.TOP / "CHANGELOG.md").read_text()).groups()
    for page in pages:
        assert f".Dd {month} {day}, {year}\n" in page.read_text(), page
        said = run(["mandoc", "-T", "lint", "-W", "style", page], None)
        said = "".join(
            line
            for line in said.splitlines(True)
            if "referenced manual not found" not in line and "outdated mandoc.db" not in line
        )
        assert said == "", said
    agent, add, filtered, told = (
        run(["mandoc", "-T", "ascii", rig.TOP / "man" / name])
        for name in ("mortarleek-agent.1", "mortarleek-add.1", "mortarleek-filter.1", "mortarleek-log.1")
    )
    text = re.sub(".\b", "", agent)
    for option in "acDdEkOPsTtUu":
        assert f"-{option}" in text, option
    text = re.sub(".\b", "", add)
    for option in "CcDdEeHhKklLMmNqSsTtuvXx":
        assert f"-{option}" in text, option
    assert "-k" in re.sub(".\b", "", filtered)
    for option in ("-f", "-t", "--confirm-limit", "--json", "--key", "--since", "--host"):
        assert option in re.sub(".\b", "", told), option


@check
def completions_are_read_by_their_shells(folder):
    place = rig.TOP / "contrib/completions"
    for shell, name in (("bash", "mortarleek.bash"), ("zsh", "_mortarleek"), ("fish", "mortarleek.fish")):
        needs(shell)
        run([shell, "-n", place / name])
    script = f"""source {place}/mortarleek.bash
COMP_WORDS=(mortarleek-agent -); COMP_CWORD=1; _mortarleek_agent mortarleek-agent - mortarleek-agent; echo ${{COMPREPLY[*]}}
COMP_WORDS=(mortarleek-add -); COMP_CWORD=1; _mortarleek_add mortarleek-add - mortarleek-add; echo ${{COMPREPLY[*]}}
COMP_WORDS=(mortarleek-filter -); COMP_CWORD=1; _mortarleek_filter mortarleek-filter - mortarleek-filter; echo ${{COMPREPLY[*]}}
COMP_WORDS=(mortarleek-log -); COMP_CWORD=1; _mortarleek_log mortarleek-log - mortarleek-log; echo ${{COMPREPLY[*]}}"""
    agent, add, filtered, told = run(["bash", "-c", script]).splitlines()
    assert {"-a", "-c", "-D", "-d", "-k", "-s", "-t", "--stand-in", "--confirm-limit"} <= set(agent.split()), agent
    assert {"-c", "-D", "-d", "-h", "-H", "-l", "-L", "-t", "-x", "-X", "-k", "-q"} <= set(add.split()), add
    assert set(filtered.split()) == {"-a", "-k", "--end", "--sign-only"}, filtered
    assert set(told.split()) == {"-f", "-t", "--confirm-limit", "--host", "--json", "--key", "--since"}, told
    said = run(["fish", "-c", f"source {place}/mortarleek.fish; complete -C 'mortarleek-agent -'"])
    assert "-k" in said and "-a" in said, said


@check
def what_is_installed_works_and_is_taken_away_again(folder):
    target = folder / "target"
    make = ["make", "--no-print-directory", "-C", rig.TOP, f"DESTDIR={target}", "PREFIX=/usr", "UNPROVED=yes"]
    agents = ["agent_prog"] if (rig.BUILT / "agent_prog").exists() else []
    run([*make, f"INSTALLED={' '.join(agents)}", "-o", "bin/agent_prog", "install"])
    found = {str(file.relative_to(target / "usr")): file for file in target.rglob("*") if file.is_file()}
    for name in (
        *(f"libexec/mortarleek/{name}" for name in agents),
        "bin/mortarleek",
        "bin/mortarleek-agent",
        "bin/mortarleek-add",
        "bin/mortarleek-filter",
        "bin/mortarleek-log",
        "share/man/man1/mortarleek.1",
        "share/man/man1/mortarleek-agent.1",
        "share/man/man1/mortarleek-add.1",
        "share/man/man1/mortarleek-filter.1",
        "share/man/man1/mortarleek-log.1",
        "share/man/man1/mortarleek-setup.1",
        "share/man/man1/mortarleek-status.1",
        "share/man/man1/mortarleek-serve.1",
        "share/man/man1/mortarleek-replay.1",
        "share/man/man1/mortarleek-drill.1",
        "share/man/man1/mortarleek-audit.1",
        "share/man/man1/agent_prog.1",
        "share/man/man1/audit_prog.1",
        "share/man/man8/mortarleek_signer.8",
        "share/man/man8/mortarleek-helper.8",
        "share/bash-completion/completions/mortarleek",
        "share/bash-completion/completions/mortarleek-agent",
        "share/zsh/site-functions/_mortarleek",
        "share/fish/vendor_completions.d/mortarleek-agent.fish",
        "lib/systemd/user/mortarleek-agent.service",
    ):
        assert name in found, (name, sorted(found))
    assert not [name for name in found if name.startswith("bin/") and "mortarleek" not in name], sorted(found)
    for name in ("agent_prog", "mortarleek_signer"):
        name = f"libexec/mortarleek/{name}"
        if name in found:
            assert found[name].stat().st_mode & 0o7777 == 0o711, name
    assert found["bin/mortarleek-agent"].stat().st_mode & 0o7777 == 0o755
    # What is typed has a manual.
    usage = run([target / "usr/bin/mortarleek"], 1)
    for word in re.findall(r"mortarleek ([a-z]+)", usage):
        said = run(["mandoc", "-T", "ascii", target / f"usr/share/man/man1/mortarleek-{word}.1"])
        assert f"mortarleek-{word}" in re.sub(".\b", "", said), word
    assert "ExecStart=/usr/bin/mortarleek-agent" in found["lib/systemd/user/mortarleek-agent.service"].read_text()
    if "libexec/mortarleek/mortarleek_signer" in found:
        said = run(
            [target / "usr/bin/mortarleek", "agent", "sh", "-c", "ssh-add -l || :"],
            env={"PATH": os.environ["PATH"], "TMPDIR": str(folder)},
        )
        assert "no identities" in said
        schedule = (rig.TOP / "examples/demo.schedule").read_text()
        replayed = run([target / "usr/bin/mortarleek", "replay"], input=schedule)
        assert replayed == run([rig.BUILT / "agent_prog", "replay"], input=schedule) and replayed.endswith("end\n")
        assert run([target / "usr/bin/mortarleek", "serve"], 2).startswith("mortarleek: ")
    assert run([target / "usr/bin/mortarleek"], 1).startswith("usage: mortarleek agent")
    for word in ("nothing", "../mortarleek"):
        assert run([target / "usr/bin/mortarleek", word], 1).startswith(f"mortarleek: {word}: no such command\nusage: ")
    run([*make, "uninstall"])
    assert not (target / "usr/libexec/mortarleek").exists()
    assert [file for file in target.rglob("*") if file.is_file() or file.is_symlink()] == []


PACKAGES = tempfile.TemporaryDirectory(prefix="mk-packages-")


def copy_of_the_repository(folder):
    files = run(["git", "ls-files", "-z"], cwd=rig.TOP).rstrip("\0").split("\0")
    run(["cp", "--parents", *files, folder], cwd=rig.TOP)
    (folder / "bin").mkdir()


@check
def what_a_user_installed_is_closed_to_that_user_s_programs(folder):
    if os.geteuid() != 0:
        raise Skip("it takes root to be another user")
    folder.chmod(0o755)
    source, home = folder / "source", folder / "home"
    source.mkdir()
    home.mkdir()
    copy_of_the_repository(source)
    for name in ("agent_prog", "confirm_relay"):
        shutil.copy(rig.built(name), source / "bin")
    run(["chown", "-R", f"{rig.NOBODY}:{rig.NOBODY}", source, home])
    other = rig.AS_NOBODY
    environment = {"PATH": os.environ["PATH"], "HOME": str(home)}
    make = ["make", "--no-print-directory", "-o", "bin/agent_prog", "install", f"PREFIX={home}/.local", "UNPROVED=yes"]
    for _ in range(2):
        run([*other, *make], cwd=source, env=environment)
    program = home / ".local/libexec/mortarleek/agent_prog"
    for file in (program, home / ".local/libexec/mortarleek/confirm_relay"):
        assert file.stat().st_mode & 0o7777 == 0o111, file
    words = [program, "serve", "-a", home / "s", "--helper", "/bin/false"]
    with subprocess.Popen([*other, *words], stdin=subprocess.DEVNULL, env=environment) as agent:
        until(lambda: rig.serves(home / "s"), what="the agent's socket")
        assert os.stat(f"/proc/{agent.pid}/mem").st_uid == 0
        for file in ("mem", "environ", "maps"):
            assert "Permission denied" in run([*other, "cat", f"/proc/{agent.pid}/{file}"], 1)
        agent.terminate()


def typed():
    """The lines that README gives to type, from the installation to a login."""
    page = (rig.TOP / "README.md").read_text()
    return re.findall(r"(?m)^\$ (.*)$", page[page.index("## Use it") : page.index("## What you can say")])


@check
def a_new_user_installs_it_and_logs_in(folder):
    """By README's own lines, but for the build, in a home that has nothing else."""
    install, profile, add, listed, login = typed()
    home, source = folder / "home", folder / "source"
    (home / ".ssh").mkdir(parents=True, mode=0o700)
    source.mkdir()
    copy_of_the_repository(source)
    for name in ("agent_prog", "mortarleek_signer", "add_tool"):
        shutil.copy(rig.built(name), source / "bin")
    environment = {"PATH": os.environ["PATH"], "HOME": str(home), "TMPDIR": str(folder), "UNPROVED": "yes"}
    assert install.startswith("make && make install "), install
    install = install.replace("make && make install", "make --no-print-directory -o bin/agent_prog install")
    run(["sh", "-c", install], cwd=source, env=environment)
    shutil.rmtree(source)
    (home / ".profile").write_text("PATH=$HOME/.local/bin:$PATH\n")
    typed_at(["sh", "-c", profile], ["y"], environment, 0, prompt="] ")
    with Hosts(folder, "somewhere") as hosts:
        for kind in ("ed25519", "rsa", "ecdsa"):
            key = keygen(home / f".ssh/id_{kind}", kind=kind)
            hosts.allow(key)
            # The file goes once the agent holds the key. A shell within the session has the same agent.
            lines = (
                add.replace("id_ed25519", key.name),
                f"rm {key}",
                login.replace("ssh ", f"ssh -F {hosts.config} ") + " 'echo in'",
                "echo $SSH_AGENT_PID",
                f"sh -l -c '{listed}; echo $SSH_AGENT_PID'",
            )
            added, logged, pid, shown, same = run(["sh", "-l", "-c", "\n".join(lines)], env=environment).splitlines()
            os.kill(int(pid), signal.SIGTERM)
            assert added.startswith("Identity added: ") and logged == "in" and pid == same, (added, logged, pid, same)
            assert key.name in shown, shown
            until(lambda: not is_alive(int(pid)) and not list((home / ".ssh").glob(".mortarleek-*")), what="the agent's end")


@functools.cache
def packed(place="source"):
    """A package of what is built, made in a copy of the repository; a program of no use stands for what isn't built.
    Made once for all checks, in a folder that goes with this process."""
    folder = pathlib.Path(PACKAGES.name) / place
    folder.mkdir()
    copy_of_the_repository(folder)
    (folder / "none.c").write_text("int main(void) { return 2; }\n")
    run(["gcc", "-O2", "-o", folder / "none", folder / "none.c"])
    programs = ("agent_prog", "mortarleek_signer", "mortarleek-helper", "confirm_relay", "standin_helper", "add_tool", "terms_relay", "filter_proxy")
    for name in programs:
        shutil.copy(rig.BUILT / name if (rig.BUILT / name).exists() else folder / "none", folder / "bin" / name)
    call_proved(folder / "bin/PROVED", folder / "bin", *(name for name in programs if name != "mortarleek-helper"))
    if place == "changed":
        with open(folder / "bin/add_tool", "ab") as program:
            program.write(b"\0")
    quick = {"DPKG_DEB_COMPRESSOR_TYPE": "gzip", "DPKG_DEB_COMPRESSOR_LEVEL": "1"}
    environment = dict(os.environ, RT=str(rig.script(folder / "rt", "echo a-kit of this test")), **quick)
    make = ["make", "--no-print-directory", "-o", "bin/agent_prog", "deb"]
    if place == "changed":
        told = run(make, 2, cwd=folder, env=environment, stdin=subprocess.DEVNULL)
        assert "add_tool: NOT proved: " in told and "deb: not proved: " in told and not list((folder / "bin").glob("*.deb")), told
        make.append("UNPROVED=yes")
    said = run(make, cwd=folder, env=environment, timeout=900)
    (package,) = (folder / "bin").glob("*.deb")
    return package, said


@check
def the_package_has_no_faults_and_says_what_it_is_of(folder):
    package, said = packed()
    version = (package.parent / "version").read_text()
    assert version in said and version.splitlines()[2] == "a-kit of this test", said[-300:]
    number = version.split()[1]
    assert package.name == f"mortarleek_{number}_amd64.deb", package
    said = run(["lintian", "--allow-root", "--fail-on", "error,warning", package], timeout=900)
    assert "E:" not in said and "W:" not in said, said
    listed = run(["dpkg", "-c", package])
    for name in ("agent_prog", "mortarleek_signer", "mortarleek-helper"):
        assert re.search(rf"(?m)^-rwx--x--x root/root .*/{name}$", listed), listed
    for name in ("SECURITY.md", "sbom.cdx.json", "changelog", "copyright"):
        assert re.search(rf"/usr/share/doc/mortarleek/{name}(\.gz)?$", listed, re.MULTILINE), (name, listed)
    assert "./usr/lib/systemd/system-sleep/mortarleek\n" in listed and "/doc/mortarleek/examples/record.conf" in listed, listed
    assert "standin_helper" not in re.sub(r"\S*/man8/\S*", "", listed), listed
    told = run(["dpkg", "-I", package])
    assert "Depends: openssh-client, " in told, told
    assert "Architecture: amd64" in told and f"Built as {number} of commit " in told and "a-kit of this test" in told, told
    linked = run([rig.TOP / "scripts/sbom", "--built-using"]).strip()
    assert f"Built-Using: {linked}\n" in told and "rust-openssl (= " in linked, told
    assert "Suggests: ssh-askpass-gnome\n" in told, told


@check
def the_package_has_the_very_bytes_that_were_proved_or_says_not(folder):
    for words, line, status in (
        ((), "Proved, each of the 6 programs that can be.", 0),
        (("changed",), "NOT proved: add_tool.", 1),
    ):
        package, _ = packed(*words)
        told = run(["dpkg", "-I", package])
        assert f" {line}\n" in told, told
        unpacked = folder / f"unpacked{len(words)}"
        run(["dpkg", "-x", package, unpacked])
        libexec = unpacked / "usr/libexec/mortarleek"
        programs = [libexec / name for name in ("add_tool", "agent_prog", "confirm_relay", "filter_proxy", "mortarleek_signer")]
        told = run([libexec / "proof_of", *programs], status)
        assert told.count(": proved: commit 12ab, a kit\n") == 5 - status, told
        assert not status or "add_tool: NOT proved: PROVED does not tell of it\n" in told, told
        (others,) = re.findall(r"(?m)^NOT proved: (.*): ", run([unpacked / "usr/bin/mortarleek", "--version"]))
        assert set(others.split(", ")) == {"mortarleek-helper", *(["add_tool"] if status else [])}, others


def is_at_work_from(release, number, home, proved):
    """Who has a release's folder and nothing else has a key that signs within two minutes, and learns what of it is proved."""
    begun = time.monotonic()
    home.mkdir()
    run(["tar", "-xzf", release / f"mortarleek-{number}-x86_64.tar.gz", "-C", home])
    script = """mortarleek --version && ssh-keygen -q -t ed25519 -N '' -f key && eval "$(mortarleek agent)" > /dev/null &&
        mortarleek add key && ssh-add -T key.pub && mortarleek status && mortarleek agent -k"""
    path = f"{home}/usr/local/bin:{os.environ['PATH']}"
    said = run(["sh", "-c", script], env={"PATH": path, "HOME": str(home), "TMPDIR": str(home)}, cwd=home)
    assert said.count(proved) == 1 and said.startswith(f"mortarleek {number}\n"), said
    assert re.search(r"(?m)^Identity added: key ", said) and "NOT proved" not in said.partition("agent: ")[2], said
    assert time.monotonic() - begun < 120, time.monotonic() - begun


@check
def a_release_is_made_of_what_the_gate_proved_alone_and_is_checked(folder):
    source = folder / "source"
    source.mkdir()
    copy_of_the_repository(source)
    git = ["git", "-c", "user.name=me", "-c", "user.email=me@here", "-c", "commit.gpgsign=false"]
    for words in (["init", "-q"], ["add", "-A"], ["commit", "-qm", "a version"]):
        run([*git, *words], cwd=source)
    commit = run([*git, "rev-parse", "HEAD"], cwd=source).strip()
    names = ("agent_prog", "mortarleek_signer", "add_tool")
    for name in names:
        shutil.copy(rig.built(name), source / "bin")
    quick = {"DPKG_DEB_COMPRESSOR_TYPE": "gzip", "DPKG_DEB_COMPRESSOR_LEVEL": "1"}
    kit = rig.script(folder / "rt", "echo a-kit of this test")
    make = ["make", "--no-print-directory", "-C", source]
    environment = dict(os.environ, RT=str(kit), **quick)

    def released(status=0):
        return run([*make, "release"], status, env=environment, stdin=subprocess.DEVNULL, timeout=900)

    assert "release: no bin/PROVED: .ci/run\n" in released(2)
    call_proved(source / "bin/PROVED", source / "bin", *names)
    told = released(2)
    assert f"{sorted(names)[0]} was proved at commit 12ab, changed: no: run the gate (.ci/run) at this one" in told, told
    call_proved(source / "bin/PROVED", source / "bin", *names, commit=commit)
    assert "it wasn't the gate that proved all" in released(2)
    of_gate = {"commit": commit, "checker": "rt ci: 9 passed, 0 failed", "sources": lambda name: sum_of_sources(source, name)}
    call_proved(source / "bin/PROVED", source / "bin", *names, **of_gate)
    (source / "more").write_text("")
    assert "release: the tree has changes" in released(2)
    (source / "more").unlink()
    made = source / released().splitlines()[-1]
    number = run([source / "scripts/version"], cwd=source).split()[1]
    names_of = {"GATE", "PROVED", "SHA256SUMS", "sbom.cdx.json", f"mortarleek_{number}_amd64.deb"}
    names_of |= {f"mortarleek-{number}-{part}.tar.gz" for part in ("source", "x86_64")}
    assert {file.name for file in made.iterdir()} == names_of, sorted(made.iterdir())
    notices = run(["tar", "-xzOf", made / f"mortarleek-{number}-x86_64.tar.gz", "./usr/local/share/mortarleek/NOTICES"])
    assert "MIO contributors" in notices and "TERMS AND CONDITIONS FOR USE" in notices, notices
    linked = json.loads((made / "sbom.cdx.json").read_text())["dependencies"][0]["dependsOn"]
    assert sorted(linked) == sorted(names), linked
    is_at_work_from(made, number, folder / "alone", f"proved: agent_prog, mortarleek_signer, add_tool: commit {commit}, a kit\n")
    looks = [*make, "check-release"]
    told = run([*looks, f"FOLDER={made}"]).splitlines()
    assert len(told) == 5 and told[-1] == f"proved at commit {commit} by a kit: 9 passed, 0 failed", told
    for name, text, why in (
        ("GATE", "9 passed, 1 failed\n", "GATE: not the bytes of SHA256SUMS"),
        ("more", "", "SHA256SUMS doesn't list what is there: more"),
        ("PROVED", (made / "PROVED").read_text().replace("sha256: ", "sha256: 0", 1), "_amd64.deb: add_tool isn't what PROVED tells of|x86_64.tar.gz: add_tool"),
        ("PROVED", re.sub("(?m)^sources: .", "sources: x", (made / "PROVED").read_text(), count=1), "not the sources of add_tool of which PROVED"),
    ):
        changed = folder / "changed"
        shutil.copytree(made, changed)
        (changed / name).write_text(text)
        if name == "PROVED":
            # With sums that fit.
            lines = run(["sha256sum", *sorted(names_of - {"SHA256SUMS"})], cwd=changed)
            (changed / "SHA256SUMS").write_text(lines)
        told = run([*looks, f"FOLDER={changed}"], 2)
        assert re.search(f"release: .*({why})" if name != "more" else why, told), (name, told)
        shutil.rmtree(changed)


@check
def the_demo_says_whether_what_it_shows_is_proved(folder):
    source = folder / "source"
    source.mkdir()
    copy_of_the_repository(source)
    names = ("agent_prog", "mortarleek_signer")
    for name in names:
        shutil.copy(rig.built(name), source / "bin")
    proved = call_proved(source / "bin/PROVED", source / "bin", *names)
    with open(source / "bin/mortarleek_signer", "ab") as program:
        program.write(b"\0")
    shown = run([source / "scripts/demo"], timeout=300)
    assert f"# The agent is bin/agent_prog, proved: {proved}.\n" in shown, shown
    other = "NOT proved: its bytes are others than those that were proved"
    assert f"# The helper that signs is bin/mortarleek_signer, {other}.\n" in shown, shown


@check
def versions_licences_and_the_bill_agree(folder):
    bills = rig.TOP / "scripts/sbom"
    number = run([rig.TOP / "scripts/version"]).split()[1]
    assert run(["dpkg-parsechangelog", "-l", rig.TOP / "debian/changelog", "-S", "Version"]).strip() == number
    (folder / "quick").mkdir()
    (folder / "quick/log_prog").write_bytes(b"__asan_init")
    licences = [*run([bills, "--licences"]).splitlines(), *run([bills, "--licences", folder / "quick"]).splitlines()]
    paragraphs = [" ".join(text.split()) for text in (rig.TOP / "debian/copyright").read_text().partition("\n\n")[0].split("\n .\n")]
    kits_own = next(text for text in paragraphs if text.startswith("The other crates of the kit")).rstrip(".").replace(",", "").split()
    text = run([bills])
    bill = json.loads(text)
    parts = {part["name"]: part for part in bill["components"]}
    assert len({name for name in parts if name.startswith("rattle/")}) > 20 and "openssl" in parts, parts
    for line in licences:
        told, _, rest = line.partition(": ")
        (name, version), (expression, *holders) = told.split(" ", 1), rest.split("; ")
        if expression == "the kit names none":
            assert name in kits_own, line
        else:
            said = expression.replace("MIT", "Expat").replace(" OR ", " or ").replace(" WITH ", " with ")
            (found,) = [text for text in paragraphs if text.startswith(f"{name},")]
            assert found.endswith(f": {said}") and all(holder in found for holder in holders), (line, found)
        if name == "compiler-rt":
            continue
        part = parts[name]
        part = part["pedigree"]["ancestors"][0] if "pedigree" in part else part
        assert part["version"] == version, (line, part)
    assert any(line.startswith("compiler-rt ") for line in licences), licences
    assert bill["metadata"]["component"]["version"] == number and {"libcrypto", "rust-std"} <= set(parts), parts
    links = {entry["ref"]: set(entry["dependsOn"]) for entry in bill["dependencies"]}
    assert links["mortarleek"] == set(links) - {"mortarleek"} and {"agent_prog", "mortarleek_signer", "mortarleek-helper"} < set(links)
    assert set(parts) == set().union(*links.values())
    for program in links["mortarleek"] - {"mortarleek-helper"}:
        assert {"rattle/core", "rattle/std"} <= links[program], program
        # What a program has code of is listed: crates of the kit by the names of its symbols.
        if (rig.BUILT / program).exists():
            names = set(re.findall(r"(?m)^[0-9a-f]* *\w ([a-z]\w*)::", run(["nm", rig.BUILT / program])))
            of_kit = {name for name in names if f"rattle/{name}" in parts}
            assert of_kit and {f"rattle/{name}" for name in of_kit} <= links[program], (program, of_kit)
    assert "rattle/mio" in links["agent_prog"] and "rattle/mio" not in links["mortarleek_signer"], links
    assert "openssl" in links["mortarleek-helper"] and "rattle/std" not in links["mortarleek-helper"], links
    assert run([bills]) == text
    assert "compiler-rt" in run([bills, folder / "quick"]) and "rattle/mio" not in run([bills, folder / "quick"])


@check
def two_packages_of_two_clones_are_the_same_bytes(folder):
    """Of the same programs: docs/DAILY.md says what came of two builds of these."""
    assert packed()[0].read_bytes() == packed("elsewhere")[0].read_bytes()


@check
def the_package_s_own_test_passes_where_it_is_installed(folder):
    """debian/tests, in a copy of this system: installed, at work, and removed without a trace."""
    if os.geteuid() != 0:
        raise Skip("it takes root to install a package")
    for name in ("agent_prog", "mortarleek_signer", "add_tool"):
        rig.built(name)
    package, _ = packed()
    shutil.copytree(rig.TOP / "debian/tests", folder / "tests")
    script = f"""mount -t tmpfs none {folder}/top && cd {folder}/top && mkdir upper work all
mount -t overlay -o lowerdir=/,upperdir=upper,workdir=work none all || exit 77
for place in proc dev sys tmp; do mount --rbind /$place all/$place; done
chroot all dpkg --purge mortarleek > /dev/null 2>&1
chroot all dpkg --force-depends -i {package} && chroot all {folder}/tests/installed && chroot all dpkg --purge mortarleek || exit 1
cd upper && echo left: && find . -path '*mortarleek*' ! -type c ! -path './var/*' ! -path './run/*'"""
    (folder / "top").mkdir()
    done = subprocess.run(["unshare", "-m", "sh", "-c", script], capture_output=True, text=True, timeout=300)
    if done.returncode == 77:
        raise Skip("no overlay of the system can be mounted here")
    assert done.returncode == 0 and "installed: works" in done.stdout, done.stdout[-1500:] + done.stderr[-1500:]
    assert done.stdout.endswith("left:\n"), done.stdout[-500:]


@check
def an_uninstallation_ends_the_agent_and_says_how_others_end(folder):
    installed = Installed(folder)
    with installed.start("-a", folder / "s") as daemon:
        said = daemon.run("make", "-s", "-C", rig.TOP, "uninstall", f"PREFIX={installed.prefix}")
        assert said.startswith(f"The agent of number {daemon.pid} has ended, with its keys.\nAnother agent "), said
        until(lambda: not is_alive(daemon.pid), what="the end of the agent")
        assert not (folder / "s").exists() and not (installed.prefix / "bin").exists() or os.listdir(installed.prefix / "bin") == []
