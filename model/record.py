"""The record of a run: a schedule of format 2 of what happened to an agent, without the secrets.

It is made of the calls that the agent's loop makes to the outside, each with its answer.
"""

from __future__ import annotations

from collections.abc import Callable
from dataclasses import dataclass

from . import formats
from .agent import LIMITS
from .wire import Fault, string, take_frame

LONGEST_HEARD = 16384  # bytes of a line `hear`
MOST_KEPT = 4194304  # bytes of all passphrases, each its own and those of its place
PLACE = 64
SERVED = (11, 13, 17, 18, 19, 22, 23, 25, 27)  # others may hold a PIN or a private key
SECRET = (17, 22, 23, 25)  # additions, locks and unlocks, which hold secrets


@dataclass(frozen=True)
class Entry:
    """A call to the outside, what it is about, and its answer.

    bind DOOR, poll and close PORT have no answer that counts. accept DOOR gives a port's number,
    read PORT bytes, write PORT how many bytes it took, start JOB a ticket, and now a moment. Other
    answers are "NotNow", "End" of a read, "Failed" and "Memory".
    """

    call: str
    about: str | int | None
    answer: object = None


def without_secrets(added: bytes) -> bytes:
    """An added key, type included, with zeros in its private fields."""
    fields = list(formats.strings(added))
    for place in range(-len(formats.PRIVATE[formats.plain_type(fields[0])]), 0):
        fields[place] = bytes(len(fields[place]))
    return b"".join(map(string, fields))


def redacted(body: bytes, passphrases: list[bytes]) -> bytes:
    """A body without its secrets. A passphrase is told by its place among those that there were."""
    if body[0] not in SERVED:
        return body[:1]
    if body[0] not in SECRET:
        return body
    try:
        number, *fields = formats.request(body)
        if number in (22, 23):
            return body[:1] + string(numbered(fields[0], passphrases))
        _, added, comment, terms = fields
        formats.constraints(terms)
    except Fault:
        return body[:1]  # its number alone
    return body[:1] + without_secrets(added) + string(comment) + terms


def numbered(passphrase: bytes, passphrases: list[bytes]) -> bytes:
    """The number of a passphrase in decimal; one that is new is put behind the others."""
    if passphrase == b"":
        return b""
    if passphrase not in passphrases:
        passphrases.append(passphrase)
    return b"%d" % (passphrases.index(passphrase) + 1)


class Recorder:
    """Writes the lines of each entry; what it writes to tells whether it took them.

    Where it didn't, or the passphrases take too much room, nothing more is written.
    """

    def __init__(self, write: Callable[[bytes], bool]) -> None:
        self.write = write
        self.broken = self.short = self.began = False
        self.doors: dict[int, str] = {}
        self.unrecorded: dict[int, bytearray] = {}  # what clients sent that is no whole frame yet
        self.bad: set[int] = set()  # clients that announced a bad length
        self.held: set[int] = set()
        self.passphrases: list[bytes] = []
        self.event: tuple[int | None, list[str]] = (None, [])  # who is heard; the lines that wait

    def record(self, entry: Entry) -> None:
        lines = self.lines(entry)
        self.short |= entry.answer == "Memory"
        self.broken |= sum(len(one) + PLACE for one in self.passphrases) > MOST_KEPT
        for line in lines:
            if not self.broken and not self.short:
                self.broken = not self.write(line.encode() + b"\n")

    def lines(self, entry: Entry) -> list[str]:
        (heard, waiting), self.event = self.event, (None, [])
        if entry.call == "bind" and not self.began:
            self.began = True
            return ["schedule 2"]
        if entry.call == "now" and isinstance(entry.answer, tuple):
            moment = "at %d %d" % entry.answer
            hold = [] if heard is None or heard in self.held else [f"hold {heard}"]
            self.held |= {heard} if hold else set()
            return [moment, *hold, *waiting]
        self.event = self.happened(entry.call, entry.about, entry.answer)
        return []

    def happened(self, call: str, about: object, answer: object) -> tuple[int | None, list[str]]:
        """The event of a call, if it is one: its lines, and the port that is heard in them."""
        if call == "accept" and isinstance(answer, int):
            self.doors[answer], self.unrecorded[answer] = about, bytearray()
            return None, [f"join {about}"]
        if call == "read" and isinstance(answer, bytes):
            told = [answer] if self.doors[about] == "child" else self.leaving(about, answer)
            return about if told else None, [f"hear {about} {piece.hex()}" for piece in told]
        if call == "write" and isinstance(answer, int):
            return None, [f"take {about} {answer}"]
        if call in ("read", "write") and answer in ("End", "Failed"):
            return None, [f"end {about}"]
        if call == "start" and isinstance(answer, bytes):
            return None, [f"started {about} {answer.hex()}"]
        if call == "start" and answer == "Failed":
            return None, [f"failed {about}"]
        return None, []

    def leaving(self, port: int, piece: bytes) -> list[bytes]:
        """What of a client's bytes is told as this piece comes: whole frames, or a bad length."""
        if port in self.bad:
            return []
        unrecorded, told = self.unrecorded[port], b""
        unrecorded += piece
        try:
            while (body := take_frame(unrecorded, LIMITS["body of a client"])) is not None:
                told += string(redacted(body, self.passphrases))
        except Fault:
            self.bad.add(port)
            told += bytes(unrecorded[:4])
        return [told[at : at + LONGEST_HEARD] for at in range(0, len(told), LONGEST_HEARD)]


def record(journal: list[Entry]) -> bytes:
    """The record of a journal."""
    told: list[bytes] = []
    recorder = Recorder(lambda line: told.append(line) is None)
    for entry in journal:
        recorder.record(entry)
    return b"".join(told)
