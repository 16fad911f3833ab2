"""The log of an agent, a file a day, as the units keep one. tests/daily.py runs these too."""

import contextlib
import datetime
import os
import re
import shutil
import signal

import rig
from installed import Installed, check, keygen
from rig import run, until


def logging(folder):
    """The programs with what keeps a log, a folder for it, and a key."""
    installed = Installed(folder)
    shutil.copy(rig.built("log_prog"), installed.prefix / "libexec/mortarleek")
    kept = folder / "kept"
    kept.mkdir(mode=0o700)
    return installed, kept, keygen(folder / "key")


def signs(daemon, key):
    daemon.run("ssh-add", "-q", key)
    daemon.run("ssh-add", "-T", f"{key}.pub")


@check
def a_log_has_a_file_a_day_and_no_record_stands_anywhere(folder):
    installed, kept, key = logging(folder)
    now = datetime.datetime.now(datetime.timezone.utc)
    days = [kept / f"log-{now - datetime.timedelta(days=ago):%Y-%m-%d}" for ago in range(4)]
    for path in (*days[1:], kept / "log-of-mine", kept / "record-1"):
        path.write_text("2026-01-01T00:00:00Z  certificate, 3 bytes  key SHA256:x  signed\n")
    with installed.start("--log", kept, "--log-days", "3") as daemon:
        signs(daemon, key)
        line = r"[0-9T:-]{19}Z  other data, \d+ bytes  key \"[^\"]*\" SHA256:\S+  signed\n"
        until(lambda: days[0].exists() and re.fullmatch(line, days[0].read_text()), what="the log's line")
        assert days[0].stat().st_mode & 0o777 == 0o600
        names = [path.name for path in (*days[:3], kept / "log-of-mine", kept / "record-1")]
        assert sorted(os.listdir(kept)) == sorted(names), os.listdir(kept)
        assert f"log: {kept}, of 3 days\n" in daemon.run(installed.prefix / "bin/mortarleek", "status")
        assert [path for path in folder.rglob("*") if path.is_file() and b"schedule 2" in path.read_bytes()[:20]] == []
        # As lines of a record's log.
        told = daemon.run(installed.prefix / "bin/mortarleek", "log", "--json", "--since", "1 hour ago", kept)
        assert re.fullmatch(r'\{"time":"[^"]*","for":"other","bytes":\d+,.*,"fate":"signed"\}\n', told), told
        assert len(daemon.run(installed.prefix / "bin/mortarleek", "log", kept).splitlines()) == 3
        assert len(daemon.run(installed.prefix / "bin/mortarleek", "log", days[1]).splitlines()) == 1
        # A restart keeps to it.
        said = daemon.run(installed.agent, "--restart", "-a", daemon.path)
        restarted = int(re.search(r"SSH_AGENT_PID=(\d+)", said)[1])
        path = re.search(r"SSH_AUTH_SOCK=([^;]+)", said)[1]
        told = run([installed.prefix / "bin/mortarleek", "status"], env=dict(installed.environment, SSH_AUTH_SOCK=path))
        assert f"log: {kept}, of 3 days\n" in told, told
        os.kill(restarted, signal.SIGTERM)
    # None is kept, and none stays.
    with installed.start("--log", kept, "--log-days", "0") as daemon:
        assert "log:" not in daemon.run(installed.prefix / "bin/mortarleek", "status")
        signs(daemon, key)
    assert sorted(os.listdir(kept)) == ["log-of-mine", "record-1"]


@check
def an_end_of_the_log_is_no_end_of_the_agent(folder):
    installed, kept, key = logging(folder)
    with installed.start("--log", kept) as daemon:
        signs(daemon, key)
        (day,) = until(lambda: list(kept.iterdir()), what="a day of the log")
        before = day.read_text()
        (logger,) = (int(name) for name in os.listdir("/proc") if name.isdigit() and is_log_of(name, daemon))
        os.kill(logger, signal.SIGKILL)
        for _ in range(40):
            daemon.run("ssh-add", "-T", f"{key}.pub")
        assert day.read_text() == before


def is_log_of(pid, daemon):
    with contextlib.suppress(OSError):
        program = daemon.installed.prefix / "libexec/mortarleek/log_prog"
        return os.path.samefile(f"/proc/{pid}/exe", program)
    return False


@check
def a_log_is_refused_where_others_could_write_it(folder):
    installed, kept, _ = logging(folder)
    kept.chmod(0o755)
    for words, wanted in (
        (("--log", kept), f"mortarleek-agent: --log: {kept}: no folder of yours alone: make one (mkdir -m 700)\n"),
        (("--log", folder / "none"), f"mortarleek-agent: --log: {folder}/none: no folder of yours alone: make one (mkdir -m 700)\n"),
    ):
        assert run([installed.agent, *words], 1, env=installed.environment) == wanted
    for words in (("--log", kept, "--record", folder / "r"), ("--log-days", "3"), ("--log", kept, "--log-days", "x"), ("--log", kept, "-k")):
        assert "usage: mortarleek-agent" in run([installed.agent, *words], 1, env=installed.environment), words
