"""What the process shows to others: no core, no memory, no environment, no configuration."""

import os
import pathlib
import pwd
import shutil
import socket
import struct
import subprocess
import tempfile
import unittest

import openssh
from frames import string
from peer import HELLO, PROGRAM, Helper

# A configuration that leaves libcrypto no algorithm that it could use.
CONFIGURATION = """openssl_conf = all
[all]
alg_section = properties
[properties]
default_properties = fips=yes
"""

def opens_memory(pid, **user):
    """Whether a process of the user may open the memory of another."""
    words = ["sh", "-c", f": < /proc/{pid}/mem"]
    run = subprocess.run(words, stderr=subprocess.PIPE, env={**os.environ, "LC_ALL": "C"}, **user)
    assert run.returncode == 0 or b"Permission denied" in run.stderr
    return run.returncode == 0


def same_user():
    """Words that make a process one of a user without rights, where the test has them all."""
    nobody = pwd.getpwnam("nobody")
    if os.geteuid() == 0:
        return {"user": nobody.pw_uid, "group": nobody.pw_gid, "extra_groups": []}
    return {}


class Process(unittest.TestCase):
    def test_no_core_file_is_written(self):
        with Helper() as helper:
            limits = pathlib.Path(f"/proc/{helper.process.pid}/limits").read_text().splitlines()
            core = [line.split() for line in limits if line.startswith("Max core file size")]
            self.assertEqual(core[0][4:6], ["0", "0"])

    def test_few_descriptors_no_processes_and_no_more_rights_are_to_be_had(self):
        with Helper() as helper:
            limits = pathlib.Path(f"/proc/{helper.process.pid}/limits").read_text()
            for name, most in (("Max processes", "0"), ("Max open files", "16")):
                (line,) = (line for line in limits.splitlines() if line.startswith(name))
                self.assertEqual(line[len(name) :].split()[:2], [most, most])
            status = pathlib.Path(f"/proc/{helper.process.pid}/status").read_text()
            self.assertIn("NoNewPrivs:\t1\n", status)

    def test_the_connection_may_be_the_standard_input(self):
        ours, theirs = socket.socketpair()
        ticket = bytes(range(16))
        with ours:
            with theirs:
                words = [PROGRAM, "-", "7", "-"]
                environment = {"MORTARLEEK_TICKET": ticket.hex()}
                process = subprocess.Popen(words, stdin=theirs, env=environment)
            ours.settimeout(20)
            hello = struct.pack(">BQ", HELLO, 7) + string(ticket)
            self.assertEqual(ours.recv(100), string(hello))
        self.assertEqual(process.wait(20), 0)

    def test_the_memory_is_closed_to_others_of_the_same_user(self):
        user = same_user()
        with tempfile.TemporaryDirectory() as folder:
            os.chmod(folder, 0o755)
            program = shutil.copy(PROGRAM, folder)
            with Helper(program=program, **user) as helper:
                self.assertFalse(opens_memory(helper.process.pid, **user))
        with subprocess.Popen(["sleep", "60"], **user) as other:
            self.assertTrue(opens_memory(other.pid, **user))
            other.kill()

    def test_a_ticket_stands_in_the_environment_and_not_in_the_words(self):
        ticket = bytes(range(16))
        with Helper(word="-", env={"MORTARLEEK_TICKET": ticket.hex()}) as helper:
            self.assertTrue(helper.hello.endswith(ticket))
            words = pathlib.Path(f"/proc/{helper.process.pid}/cmdline").read_bytes()
            self.assertNotIn(ticket.hex().encode(), words)
        run = subprocess.run([PROGRAM, "none", "1", "-"], env={}, stderr=subprocess.DEVNULL)
        self.assertEqual(run.returncode, 2)

    def test_no_configuration_of_libcrypto_is_read(self):
        with tempfile.TemporaryDirectory() as folder:
            path = pathlib.Path(folder) / "openssl.cnf"
            path.write_text(CONFIGURATION)
            environment = {"OPENSSL_CONF": str(path), "PATH": os.environ["PATH"]}
            control = subprocess.run(["openssl", "dgst", "-sha256"], input=b"", env=environment,
                                     capture_output=True)
            self.assertNotEqual(control.returncode, 0)
            key = openssh.generate(folder, "ecdsa", "256")
            with Helper(env=environment) as helper:
                self.assertIsNotNone(helper.sign(key.private, key.blob, b"message"))


if __name__ == "__main__":
    unittest.main()
