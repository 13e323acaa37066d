#!/usr/bin/env python3
"""Tries whether strangers can keep a newcomer out of a running wozhinnam by holding its connections.

Each time a server is started over stores in memory, and one client holds connections on which it has asked once:

  all        as many as may be open (--connections): a newcomer is answered, and so are those that come after it
  address    as many as an address may have (--per-address), from one address of the loopback: a newcomer of that address is
             answered, and none of another address is closed
  halves     the same, each with half a request: a newcomer of that address is refused, one of another address is answered
  default    --connections alone: of this machine's own addresses all places may be one's

usage: bench/checks/newcomers.py PROGRAM
"""
import pathlib
import re
import socket
import subprocess
import sys
import time
import urllib.request

ASKED = b"GET /uri/URI:LIT:mzxw6 HTTP/1.1\r\nHost: g\r\n\r\n"
HALF = b"GET /uri/URI:LIT:mz"
MOST = 200
OWN = 20


class Server:
    def __init__(self, program, *options):
        words = [program, "serve", "--listen", "127.0.0.1:0", "--control", "127.0.0.1:0", "--servers", "3", "--shares", "1,3", *options]
        self.process = subprocess.Popen(words, stdout=subprocess.PIPE, stderr=subprocess.DEVNULL, text=True)
        self.port = self.read_port("listening on")
        self.control = self.read_port("control on")

    def read_port(self, words):
        return int(re.search(words + r" 127\.0\.0\.1:(\d+)", self.process.stdout.readline()).group(1))

    def figure(self, name):
        with urllib.request.urlopen("http://127.0.0.1:%d/metrics" % self.control, timeout=10) as reply:
            return int(re.search(r"^wozhinnam_%s (\d+)$" % name, reply.read().decode(), re.M).group(1))

    def client(self, address, sent=ASKED):
        stream = socket.create_connection(("127.0.0.1", self.port), 10, source_address=(address, 0))
        stream.settimeout(10)
        stream.sendall(sent)
        return stream

    def __enter__(self):
        return self

    def __exit__(self, *_):
        self.process.kill()
        self.process.wait()


def answer(stream):
    """What a connection is given until it has a whole reply, or ends, or nothing came for ten seconds."""
    given = b""
    try:
        while not given.endswith(b"foo"):
            more = stream.recv(4096)
            if not more:
                break
            given += more
    except (ConnectionResetError, TimeoutError):
        pass
    return given


def is_answered(stream):
    return answer(stream).endswith(b"foo")


def is_open(stream):
    """Whether it is answered still, on a connection that was answered before."""
    try:
        stream.sendall(ASKED)
    except OSError:
        return False
    return is_answered(stream)


def hold(server, address, count):
    held = [server.client(address) for _ in range(count)]
    return held if all(is_answered(stream) for stream in held) else None


def all_places(program):
    with Server(program, "--connections", str(MOST)) as server:
        held = hold(server, "127.0.0.1", MOST)
        yield "those that came first are answered", held is not None
        began = time.monotonic()
        newcomers = [server.client("127.0.0.1") for _ in range(10)]
        yield "ten newcomers are answered", all(is_answered(stream) for stream in newcomers)
        yield "within a second", time.monotonic() - began < 1
        yield "ten were closed for them", server.figure("connections_replaced_total") == 10
        yield "those that were idle longest", [is_open(stream) for stream in held[:12]] == [False] * 10 + [True] * 2


def one_address(program):
    with Server(program, "--connections", str(MOST), "--per-address", str(OWN)) as server:
        others = hold(server, "127.0.0.3", OWN)
        held = hold(server, "127.0.0.2", OWN)
        yield "two addresses have their shares", bool(others and held)
        yield "one more of the second is answered", is_answered(server.client("127.0.0.2"))
        yield "in the place of its own", [is_open(stream) for stream in held[:2]] == [False, True]
        yield "none of the first was closed", all(is_open(stream) for stream in others)
        yield "a third address is answered", is_answered(server.client("127.0.0.4"))


def half_requests(program):
    with Server(program, "--connections", str(MOST), "--per-address", str(OWN)) as server:
        held = [server.client("127.0.0.2", HALF) for _ in range(OWN)]
        time.sleep(0.5)
        yield "one more is refused", answer(server.client("127.0.0.2")) == b""
        yield "and counted", server.figure("sockets_refused_total") == 1
        yield "another address is answered", is_answered(server.client("127.0.0.3"))
        held[0].sendall(b"xw6 HTTP/1.1\r\nHost: g\r\n\r\n")
        yield "who had sent half a request is answered", is_answered(held[0])


def by_default(program):
    with Server(program, "--connections", str(MOST)) as server:
        yield "all places are this machine's own", hold(server, "127.0.0.2", MOST) is not None
        yield "none was closed for another", server.figure("connections_replaced_total") == 0


def main():
    program = str(pathlib.Path(sys.argv[1]).resolve())
    faults = 0
    for trial in (all_places, one_address, half_requests, by_default):
        for words, holds in trial(program):
            if not holds:
                faults += 1
                print("newcomers.py: %s: NOT %s" % (trial.__name__, words))
    print("newcomers.py: %d faults" % faults)
    sys.exit(faults > 0)


main()
