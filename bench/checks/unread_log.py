#!/usr/bin/env python3
"""A log that nobody reads: the server goes on, and says later how many lines were left out.

    bench/checks/unread_log.py WOZHINNAM

Standard error is a pipe of 8,192 bytes. For ten seconds connections are reset, each of which is worth a line, and nobody
reads: a small GET beside them never waits for a quarter of a second. Then the pipe is read, more connections are reset,
and a line has the number of those that were left out. At last the pipe is full again, and a stop ends the program with 0.
"""
import fcntl
import os
import socket
import struct
import sys
import time

HERE = os.path.dirname(os.path.abspath(__file__))
sys.path.insert(0, os.path.join(HERE, "../tools"))
from server import Client, built, fail, wozhinnam

# A small file's cap: it stands in its own text.
SMALL = "URI:LIT:mzxw6ytboi"
F_SETPIPE_SZ = 1031


def reset(server, count):
    """Opens so many connections, and ends each in the middle of a request, with a reset."""
    for _ in range(count):
        stream = server.connect()
        stream.sendall(b"GET /uri/")
        stream.setsockopt(socket.SOL_SOCKET, socket.SO_LINGER, struct.pack("ii", 1, 0))
        stream.close()


def flood(server, seconds):
    """Resets connections for so long; the longest time that a small GET took beside them, in seconds."""
    client, longest, end = Client(server.address), 0.0, time.monotonic() + seconds
    client.connection.timeout = 5
    while time.monotonic() < end:
        reset(server, 20)
        began = time.monotonic()
        if client.get(SMALL)[0] != 200:
            fail("a small GET was not answered")
        longest = max(longest, time.monotonic() - began)
        time.sleep(0.05)
    client.close()
    return longest


def main():
    program = built("wozhinnam")
    reads, writes = os.pipe()
    fcntl.fcntl(writes, F_SETPIPE_SZ, 8192)
    server = wozhinnam(program, control=True, errors=writes)
    os.close(writes)
    longest = flood(server, 10)
    if longest > 0.25:
        fail("a small GET waited %.2f s beside a log that nobody reads" % longest)
    os.set_blocking(reads, False)
    first = os.read(reads, 65536).decode()
    if "cut" not in first or "nobody read" in first:
        fail("the log began with %r" % first[:200])
    reset(server, 20)
    time.sleep(1)
    second = os.read(reads, 65536).decode()
    if "lines were left out that nobody read" not in second:
        fail("the log went on with %r" % second[:200])
    flood(server, 6)
    server.stop()
    print("a small GET waited %.0f ms at most; %s" % (longest * 1000, second.splitlines()[0]))


main()
