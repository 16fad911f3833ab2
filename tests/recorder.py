#!/usr/bin/env python3
"""An agent that answers additions and removals as done, all else as refused, and writes each request down.

    tests/recorder.py SOCKET FILE

One client after another; a line of hexadecimal digits in FILE for each body. It goes on until it is killed.
"""

import socket
import sys

sys.dont_write_bytecode = True

from frames import Ended, Frames, string

ADD, REMOVE, REMOVE_ALL, ADD_LIMITED = 17, 18, 19, 25
FAILURE, SUCCESS = 5, 6


def main(path, file):
    with socket.socket(socket.AF_UNIX) as listener, open(file, "w") as sent:
        listener.bind(path)
        listener.listen()
        while True:
            client = Frames(listener.accept()[0])
            try:
                while True:
                    body = client.body()
                    sent.write(body.hex() + "\n")
                    sent.flush()
                    done = body[0] in (ADD, REMOVE, REMOVE_ALL, ADD_LIMITED)
                    client.socket.sendall(string(bytes([SUCCESS if done else FAILURE])))
            except Ended:
                client.socket.close()


main(*sys.argv[1:])
