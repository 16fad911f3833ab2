"""Frames, as clients and helpers send them: a length in four bytes, and a body of so many bytes."""

import struct


def string(content):
    """A string of RFC 4251: its length and its bytes."""
    return struct.pack(">I", len(content)) + content


def strings(content):
    """The strings that the bytes hold, to their end."""
    found = []
    while content:
        (length,) = struct.unpack_from(">I", content)
        found.append(content[4 : 4 + length])
        content = content[4 + length :]
    return found


class Ended(Exception):
    """The other side closed the connection where a frame was due."""


class Frames:
    """What comes over a socket, frame by frame."""

    def __init__(self, connection):
        self.socket, self.heard = connection, b""

    def body(self):
        """The body of the next frame."""
        while len(self.heard) < 4 or len(self.heard) < 4 + int.from_bytes(self.heard[:4], "big"):
            more = self.socket.recv(1 << 16)
            if not more:
                raise Ended()
            self.heard += more
        end = 4 + int.from_bytes(self.heard[:4], "big")
        body, self.heard = self.heard[4:end], self.heard[end:]
        return body
