"""What clients send, from schedules: that of OpenSSH's ssh-add and ssh, recorded, in examples/ and in the logins of
crates/part_table, and the rest of the literal rows of model/."""

import re
import sys

from rig import TOP

sys.path.insert(0, str(TOP))
from model.rows_format2 import EVERY_ROW

LONGEST = 1 << 17


def clients(schedule):
    """The bytes that each client of a schedule sends."""
    ports, doors = {}, []
    for line in schedule.splitlines():
        if found := re.fullmatch(rb"join (client|child)", line):
            doors.append(found[1])
        elif found := re.fullmatch(rb"hear ([0-9]+) ((?:[0-9a-fA-F]{2})+)", line):
            if int(found[1]) <= len(doors) and doors[int(found[1]) - 1] == b"client":
                ports.setdefault(int(found[1]), bytearray()).extend(bytes.fromhex(found[2].decode()))
    return [bytes(text) for text in ports.values() if len(text) <= LONGEST]


def recordings():
    """The real ones, and those that were put together."""
    real = [text for path in sorted(TOP.glob("examples/*.schedule")) for text in clients(path.read_bytes())]
    made = []
    for row in EVERY_ROW:
        is_real = re.match(r"(certificates|plain_keys): ", row.name)
        if len(row.schedule) <= 2 * LONGEST:
            (real if is_real else made).extend(clients(row.schedule))
    return sorted(set(real)), sorted(set(made))
