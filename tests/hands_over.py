"""A program for an agent to start, which hands its connection, its words and its ticket to the process that listens at the
path of its first word, and stays until that one lets it go."""

import os
import socket
import sys

with socket.socket(socket.AF_UNIX) as taker:
    taker.connect(sys.argv[1])
    told = [str(os.getpid()), os.environ["MORTARLEEK_TICKET"], *sys.argv[2:]]
    socket.send_fds(taker, ["\0".join(told).encode()], [0])
    os.close(0)
    taker.recv(1)
