#!/usr/bin/env python3
"""Whether OpenSSH accepts what the helper signs for an agent, with a key of each type that ssh-keygen makes.

Without words this script is the agent. With a built agent_prog as its word, `agent_prog replay` is: its frames are
carried to the helper, and the helper's to it, as lines of one schedule.
"""

import pathlib
import struct
import subprocess
import sys
import tempfile

TOP = pathlib.Path(__file__).resolve().parents[1]
sys.path.insert(0, str(TOP / "helper/tests"))
sys.dont_write_bytecode = True

import openssh
from peer import Helper, string, strings

MESSAGE = b"a message\n"
SIGNED = openssh.signed_text(MESSAGE)
SESSION = bytes(range(32))
ADD, SIGN_REQUEST, EXTENSION, SUCCESS, SIGN_RESPONSE = 17, 13, 27, 6, 14
TICKET = bytes(range(16))


class OwnAgent:
    """This script as the agent."""

    def __init__(self):
        self.helper = Helper(ticket=TICKET)
        assert self.helper.hello == struct.pack(">BQ", 1, 1) + string(TICKET)

    def add(self, key):
        pass

    def sign(self, key, flags):
        return self.helper.sign(key.private, key.blob, SIGNED, flags)

    def binds(self, host, signature):
        return self.helper.verify(host.blob, signature, SESSION)

    def end(self):
        assert self.helper.end() == 0


class ReplayedAgent:
    """`agent_prog replay`, which is run again on the whole schedule for each line that is added."""

    CLIENT = 1

    def __init__(self, program):
        self.program, self.schedule, self.seen, self.helper = program, [], 0, None
        self.owed = b""
        self.step("join client")

    def replay(self, schedule):
        """The lines that the agent writes for a schedule."""
        text = "\n".join(schedule) + "\n"
        run = subprocess.run([self.program, "replay"], input=text, capture_output=True, text=True)
        return run.stdout.splitlines()

    def step(self, line):
        """Adds a line, and carries out the new deeds of the agent."""
        self.schedule.append(line)
        *deeds, last = self.replay(self.schedule)
        assert last == "end", f"{last}: {line[:60]}"
        new, self.seen = deeds[self.seen :], len(deeds)
        for deed in new:
            self.carry_out(*deed.split(" "))

    def carry_out(self, what, number, rest=""):
        number = int(number)
        if (what, rest) == ("start", "helper"):
            self.helper = Helper(job=number, ticket=TICKET)
            self.step(f"started {number} {TICKET.hex()}")
            self.step("join child")
            self.child = self.CLIENT + 1
            self.step(f"hear {self.child} {string(self.helper.hello).hex()}")
        elif what == "to" and number == self.CLIENT:
            self.owed += bytes.fromhex(rest)
        elif what == "to" and number == self.child:
            self.helper.peer.sendall(bytes.fromhex(rest))
            self.step(f"hear {self.child} {string(self.helper.body()).hex()}")
        else:
            raise AssertionError(f"{what} {number} {rest}"[:100])

    def request(self, number, *content):
        """The body that answers a request of the client."""
        self.owed = b""
        self.step(f"hear {self.CLIENT} {string(bytes([number]) + b''.join(content)).hex()}")
        (body,) = strings(self.owed)
        return body

    def add(self, key):
        assert self.request(ADD, key.private, string(b"")) == bytes([SUCCESS])

    def sign(self, key, flags):
        fields = string(key.blob), string(SIGNED), struct.pack(">I", flags)
        body = self.request(SIGN_REQUEST, *fields)
        assert body[0] == SIGN_RESPONSE, body[:1].hex()
        return strings(body[1:])[0]

    def binds(self, host, signature):
        fields = map(string, (b"session-bind@openssh.com", host.blob, SESSION, signature))
        return self.request(EXTENSION, *fields, b"\0") == bytes([SUCCESS])

    def end(self):
        assert self.helper.end() == 0


def main(words):
    with tempfile.TemporaryDirectory() as folder:
        authority = openssh.generate(folder, "ed25519", "256")
        keys = [openssh.generate(folder, kind, bits) for kind, bits in openssh.KINDS]
        keys += [openssh.certify(key, authority) for key in keys]
        host = keys[0]
        with Helper() as helper:
            binding = helper.sign(host.private, host.blob, SESSION)
        count = 0
        agent = ReplayedAgent(words[0]) if words else OwnAgent()
        for key in keys:
            agent.add(key)
            for flags in key.flags:
                signature = agent.sign(key, flags)
                signer = authority if key.certified else None
                assert openssh.accepts(folder, key, signature, MESSAGE, signer), (key, flags)
                count += 1
        assert agent.binds(host, binding)
        agent.end()
    print(f"helper_signs: {count} signatures are accepted by ssh-keygen, and a connection is bound")


main(sys.argv[1:])
