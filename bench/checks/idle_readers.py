#!/usr/bin/env python3
"""Connections that took their reply, or never take it, and what they cost others: memory, time, and a stop.

    bench/checks/idle_readers.py WOZHINNAM

- 50 connections ask for a file of 16 MiB, read nothing and are all cut at once: a small GET beside them never waits for
  0.4 seconds, though what waited for them was some 800 MB.
- 300 such connections are open at a stop: the program ends within eleven seconds (ten are promised).
- 30 connections each read a file of 8 MiB over stores on disks and stay open: the program has less than 64 MiB more than before.
"""
import os
import socket
import struct
import sys
import tempfile
import threading
import time

HERE = os.path.dirname(os.path.abspath(__file__))
sys.path.insert(0, os.path.join(HERE, "../tools"))
from server import Client, built, fail, wozhinnam

MIB = 1 << 20
# A small file's cap: it stands in its own text.
SMALL = "URI:LIT:mzxw6ytboi"


def get_of(cap):
    return b"GET /uri/%s HTTP/1.1\r\nHost: g\r\n\r\n" % cap


def readers(server, cap, count):
    """Connections that asked for a file and read nothing of it, once the server has made all their replies."""
    streams = [server.connect() for _ in range(count)]
    for stream in streams:
        stream.sendall(get_of(cap))
    client, quick = Client(server.address), 0
    while quick < 20:
        began = time.monotonic()
        client.get(SMALL)
        quick = quick + 1 if time.monotonic() - began < 0.05 else 0
        time.sleep(0.02)
    client.close()
    return streams


def cut(streams):
    """Ends them with a reset each."""
    for stream in streams:
        stream.setsockopt(socket.SOL_SOCKET, socket.SO_LINGER, struct.pack("ii", 1, 0))
        stream.close()


def longest_wait(server, cap, seconds, during):
    """The longest time that a small GET took, while something is done and for so many seconds."""
    client = Client(server.address)
    worker = threading.Thread(target=during)
    worker.start()
    longest, end = 0.0, time.monotonic() + seconds
    while time.monotonic() < end:
        began = time.monotonic()
        client.get(cap)
        longest = max(longest, time.monotonic() - began)
        time.sleep(0.002)
    worker.join()
    client.close()
    return longest


def cut_readers(program):
    server = wozhinnam(program)
    cap = server.ask("PUT", "/uri", os.urandom(16 * MIB))
    streams = readers(server, cap, 50)
    wait = longest_wait(server, SMALL, 4, lambda: cut(streams))
    server.kill()
    print("50 readers of 16 MiB cut at once: a small GET waited %.0f ms at most" % (1000 * wait))
    if wait > 0.4:
        fail("a small GET waited %.2f s" % wait)


def stop_beside_readers(program):
    server = wozhinnam(program, control=True)
    cap = server.ask("PUT", "/uri", os.urandom(16 * MIB))
    streams = readers(server, cap, 300)
    began = time.monotonic()
    server.stop()
    seconds = time.monotonic() - began
    cut(streams)
    print("a stop beside 300 readers of 16 MiB: %.1f s" % seconds)
    if seconds > 11:
        fail("a stop took %.1f s" % seconds)


def read_whole(stream, cap, size):
    stream.sendall(get_of(cap))
    got = 0
    while got < size:
        got += len(stream.recv(MIB))


def idle_after_their_reply(program):
    with tempfile.TemporaryDirectory() as folder:
        stores = [word for at in range(5) for word in ("--store", "dir:%s/%d:%d,disk" % (folder, at, 1 << 30))]
        server = wozhinnam(program, "--no-sync", *stores)
        size = 8 * MIB
        cap = server.ask("PUT", "/uri", os.urandom(size))
        with server.connect() as stream:
            read_whole(stream, cap, size)
        before = server.memory()
        streams = [server.connect() for _ in range(30)]
        for stream in streams:
            read_whole(stream, cap, size)
        grown = server.memory() - before
        server.kill()
    print("30 idle connections that each read 8 MiB over disks: %.0f MiB more" % (grown / MIB))
    if grown > 64 * MIB:
        fail("30 idle connections hold %.0f MiB" % (grown / MIB))


if __name__ == "__main__":
    program = built("wozhinnam")
    cut_readers(program)
    stop_beside_readers(program)
    idle_after_their_reply(program)
