"""A user's manager of systemd, on a machine that systemd need not have booted: it takes root, for control groups and a
mount namespace of its own."""

import contextlib
import os
import pathlib
import pwd
import subprocess
import time

from rig import Skip, run, until

GROUPS = pathlib.Path("/sys/fs/cgroup")
# A user of Debian's that nobody logs in as.
USER = "games"


class UserManager:
    """`systemd --user` of a user who isn't root, with a home of its own and an empty /run."""

    def __init__(self, folder, home):
        self.program = pathlib.Path("/lib/systemd/systemd")
        if os.geteuid() != 0 or not self.program.exists():
            raise Skip("it takes root and systemd to start a user's manager")
        entry = pwd.getpwnam(USER)
        self.runtime, self.home = f"/run/user/{entry.pw_uid}", home
        # One hierarchy, or those that systemd uses beside others.
        tops = [GROUPS / name for name in ("systemd", "unified") if (GROUPS / name).is_dir()] or [GROUPS]
        self.groups = [top / f"mortarleek-test-{os.getpid()}" for top in tops]
        try:
            for group in self.groups:
                group.mkdir()
                for file in (group, *(group / name for name in ("cgroup.procs", "cgroup.subtree_control", "cgroup.threads"))):
                    if file.exists():
                        os.chown(file, entry.pw_uid, entry.pw_gid)
        except OSError as fault:
            self.remove_groups()
            raise Skip(f"no control group can be made here: {fault}")
        self.becomes = ["setpriv", f"--reuid={entry.pw_uid}", f"--regid={entry.pw_gid}", "--clear-groups"]
        self.environment = {
            "HOME": str(home),
            "USER": USER,
            "PATH": f"{home}/.local/bin:/usr/bin:/bin",
            "XDG_RUNTIME_DIR": self.runtime,
        }
        # What the machine's own manager would have made.
        script = f"""for group; do echo $$ > $group/cgroup.procs || exit 9; done
mount -t tmpfs tmpfs /run && mkdir -p /run/systemd/system /run/systemd/unit-root /run/user || exit 9
install -d -m 700 -o {entry.pw_uid} -g {entry.pw_gid} {self.runtime} || exit 9
exec {" ".join(self.becomes)} {self.program} --user"""
        self.process = subprocess.Popen(
            ["unshare", "-m", "sh", "-c", script, "sh", *map(str, self.groups)],
            env=dict(self.environment, SYSTEMD_LOG_TARGET="console"),
            stdin=subprocess.DEVNULL,
            stdout=subprocess.DEVNULL,
            stderr=open(folder / "manager.log", "w"),
            start_new_session=True,
        )
        try:
            until(self.is_up, 30, "the user's manager")
        except AssertionError:
            self.__exit__()
            raise Skip(f"no user's manager starts here: {(folder / 'manager.log').read_text()[-300:]}")

    def is_up(self):
        return self.run("systemctl --user is-system-running", None).strip() in ("running", "degraded")

    def __enter__(self):
        return self

    def __exit__(self, *_):
        with contextlib.suppress(AssertionError, subprocess.TimeoutExpired):
            self.run("systemctl --user exit", None)
            self.process.wait(20)
        if self.process.poll() is None:
            self.process.kill()
            self.process.wait()
        self.remove_groups()

    def remove_groups(self):
        for group in self.groups:
            for _ in range(50):
                below = sorted((at for at, _, _ in os.walk(group)), key=len, reverse=True)
                with contextlib.suppress(OSError):
                    for at in below:
                        os.rmdir(at)
                if not group.exists():
                    break
                time.sleep(0.1)

    def run(self, script, status=0, user=True, **more):
        """What a line prints in the user's session, as the user or as root."""
        inside = ["nsenter", "-t", str(self.process.pid), "-m", *(self.becomes if user else [])]
        return run([*inside, "sh", "-c", script], status, env=self.environment, **more)
