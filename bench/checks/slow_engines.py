#!/usr/bin/env python3
"""Runs `wozhinnam serve` over five Redis servers that end connections while these are idle, hang, or give a byte now and then.

Idle: two programs run over the servers, 3 of 10, two shares a server. Each server is started anew, one after the other
(append-only files, synced), or told to close the connections of all clients (CLIENT KILL), and nobody asks meanwhile. The
next read of each file at each program is to be 200 with its bytes, the next check is to say that the file is healthy, and the
next upload, of 2,000 to 16,777,216 bytes, is to be 200.

Rotten: each share of a file is cut or is no bytes at all. A read is 410; the same upload is 200, and the file is healthy.

Hung: one server is stopped (SIGSTOP) as an upload of 16,777,216 bytes begins, and beside it small files whose bytes are in
their cap are read all the time. None may take longer than 5 seconds: the puts at the servers before it, and the second that an
exchange may take without a byte. Then all five are stopped, and a file is read that the program doesn't keep. No small read may
take longer than 10 seconds: those that were asked together take a second, and each that is asked again, since its rest of a
second is over by then, one more.

Slow: a proxy before one server gives a byte of its replies each half second. A read of a file, and one of a small file beside
it, may take 7 seconds: an exchange has five, and two exchanges may be under way.

All bytes that are compared were made here. It needs redis-server (Debian's package of that name).

usage: bench/checks/slow_engines.py PROGRAM
"""

import argparse
import os
import random
import shutil
import socket
import sys
import tempfile
import threading
import time

sys.path.insert(0, os.path.join(os.path.dirname(os.path.abspath(__file__)), "../tools"))

from fleet import Engine
from server import Client, fail, wozhinnam

SERVERS = 5
LENGTHS = (2_000, 100_000, 2_000_000)
LONG = 16_777_216
SMALL = "URI:LIT:nbswy3dp"  # hello
HUNG, ALL_HUNG, SLOW = 5, 10, 7  # seconds


class Drip:
    """A proxy before a port that gives a byte of what comes back each half second, once it is told to."""

    def __init__(self, port):
        self.target = port
        self.drips = False
        self.listener = socket.socket()
        self.listener.bind(("127.0.0.1", 0))
        self.listener.listen(64)
        self.port = self.listener.getsockname()[1]
        threading.Thread(target=self.accept, daemon=True).start()

    def accept(self):
        while True:
            near = self.listener.accept()[0]
            far = socket.create_connection(("127.0.0.1", self.target))
            threading.Thread(target=self.copy, args=(near, far, False), daemon=True).start()
            threading.Thread(target=self.copy, args=(far, near, True), daemon=True).start()

    def copy(self, source, sink, is_reply):
        try:
            while part := source.recv(65536):
                if not (is_reply and self.drips):
                    sink.sendall(part)
                    continue
                for at in range(len(part)):
                    sink.sendall(part[at:at + 1])
                    time.sleep(0.5)
            sink.shutdown(socket.SHUT_WR)
        except OSError:
            sink.close()


class Beside:
    """Reads a small file all the time, and keeps the longest wait."""

    def __init__(self, address):
        self.longest = 0.0
        self.ends = False
        self.client = Client(address)
        self.thread = threading.Thread(target=self.read)
        self.thread.start()

    def read(self):
        while not self.ends:
            began = time.monotonic()
            answer = self.client.get(SMALL)
            self.longest = max(self.longest, time.monotonic() - began)
            if answer != (200, b"hello"):
                fail("a small file is answered %r" % (answer,))
            time.sleep(0.01)

    def end(self):
        self.ends = True
        self.thread.join()
        self.client.close()
        return self.longest


class Trial:
    def __init__(self, program, folder):
        self.program = program
        self.random = random.Random("slow engines")
        self.engines = [Engine(os.path.join(folder, "r%d" % at)) for at in range(SERVERS)]
        for engine in self.engines:
            engine.start()
        self.faults = 0

    def wants(self, what, found, wanted):
        if found != wanted:
            self.faults += 1
            print("slow_engines.py: %s: %.100r" % (what, found), file=sys.stderr)

    def within(self, what, seconds, limit):
        print("%s: %.2f s" % (what, seconds), flush=True)
        if seconds > limit:
            self.faults += 1
            print("slow_engines.py: %s: above %.1f s" % (what, limit), file=sys.stderr)

    def start(self, ports):
        words = ["--shares", "3,10"]
        for at, port in enumerate(ports):
            words += ["--store", "redis:127.0.0.1:%d/%d" % (port, at)]
        return wozhinnam(self.program, *words)

    def bytes(self, length):
        return self.random.randbytes(length)

    def put(self, client, length):
        body = self.bytes(length)
        status, cap = client.put(body)
        self.wants("an upload of %d bytes" % length, status, 200)
        return cap, body

    def ended(self, how, end):
        """Each server ends its connections; then the first requests at two programs."""
        gates = [self.start([engine.port for engine in self.engines]) for _ in range(2)]
        files = [self.put(Client(gates[0].address), length) for length in LENGTHS]
        # The second program knows no file yet: each read asks its servers.
        for cap, body in files:
            for engine in self.engines:
                end(engine)
            self.wants("%s, the first read of %d bytes" % (how, len(body)), Client(gates[1].address).get(cap), (200, body))
            for engine in self.engines:
                end(engine)
            status, text = Client(gates[1].address).ask("POST", "/uri/%s?t=check&output=JSON&verify=true" % cap, b"")
            self.wants("%s, the first check" % how, (status, b'"healthy":true' in text), (200, True))
        for length in LENGTHS + (LONG,):
            for engine in self.engines:
                end(engine)
            for gate in gates:
                self.put(Client(gate.address), length)
        for gate in gates:
            gate.kill()
        print("%s: done" % how, flush=True)

    def restart(self, engine):
        engine.kill()
        engine.start()

    def close_clients(self, engine):
        engine.told(b"CLIENT", b"KILL", b"TYPE", b"normal", b"SKIPME", b"yes")

    def spoil(self, engine):
        """Every second share is cut, and the others are a list."""
        keys = [key for key in engine.told(b"KEYS", b"wozhinnam:*").split(b"\r\n") if key.startswith(b"wozhinnam:") and not key.endswith(b":grid")]
        for at, key in enumerate(sorted(keys)):
            engine.told(b"DEL", key)
            engine.told(b"SET", key, b"cut") if at % 2 else engine.told(b"RPUSH", key, b"a list")

    def rotten(self):
        """Shares that rot, and the same upload again."""
        for engine in self.engines:
            engine.empty()
        gates = [self.start([engine.port for engine in self.engines]) for _ in range(3)]
        for length in LENGTHS[:2]:
            cap, body = self.put(Client(gates[0].address), length)
            for engine in self.engines:
                self.spoil(engine)
            self.wants("a read of rotten shares", Client(gates[1].address).get(cap)[0], 410)
            self.wants("the same upload", Client(gates[1].address).put(body), (200, cap))
            status, text = Client(gates[1].address).ask("POST", "/uri/%s?t=check&output=JSON&verify=true" % cap, b"")
            self.wants("a check behind it", (status, b'"healthy":true' in text), (200, True))
            self.wants("a read at another program", Client(gates[2].address).get(cap), (200, body))
        for gate in gates:
            gate.kill()
        print("rotten shares: done", flush=True)

    def hung(self):
        gate = self.start([engine.port for engine in self.engines])
        client = Client(gate.address)
        files = [self.put(client, length) for length in LENGTHS]
        gate.kill()
        client.close()
        gate = self.start([engine.port for engine in self.engines])
        client = Client(gate.address)
        beside = Beside(gate.address)
        self.engines[2].pause()
        began = time.monotonic()
        status, text = client.put(self.bytes(LONG))
        self.within("one of five hangs, an upload of 16 MiB", time.monotonic() - began, 2 * HUNG)
        self.wants("it", (status, text), (503, "store down"))
        cap, body = files[0]
        self.wants("a read without that server", client.get(cap), (200, body))
        self.within("the longest wait beside it", beside.end(), HUNG)
        self.engines[2].resume()
        time.sleep(4)
        for engine in self.engines:
            engine.pause()
        beside = Beside(gate.address)
        began = time.monotonic()
        status, _text = client.get(files[1][0])
        self.within("all five hang, a read", time.monotonic() - began, ALL_HUNG)
        self.within("the longest wait beside it", beside.end(), ALL_HUNG)
        for engine in self.engines:
            engine.resume()
        client.close()
        gate.kill()

    def slow(self):
        drip = Drip(self.engines[0].port)
        ports = [drip.port] + [engine.port for engine in self.engines[1:]]
        gate = self.start(ports)
        client = Client(gate.address)
        files = [self.put(client, length) for length in LENGTHS]
        gate.kill()
        client.close()
        gate = self.start(ports)
        client = Client(gate.address)
        drip.drips = True
        beside = Beside(gate.address)
        for cap, body in files[1:]:
            began = time.monotonic()
            self.wants("a read beside a slow server", client.get(cap), (200, body))
            self.within("one of five gives a byte now and then, a read", time.monotonic() - began, SLOW)
        self.within("the longest wait beside it", beside.end(), SLOW)
        client.close()
        gate.kill()

    def end(self):
        for engine in self.engines:
            engine.end()


def main():
    parser = argparse.ArgumentParser()
    parser.add_argument("program")
    options = parser.parse_args()
    folder = tempfile.mkdtemp()
    trial = Trial(options.program, folder)
    try:
        trial.ended("servers that were started anew", trial.restart)
        trial.ended("connections that were closed", trial.close_clients)
        trial.rotten()
        trial.hung()
        trial.slow()
    finally:
        trial.end()
        shutil.rmtree(folder)
    print("slow_engines.py: %d faults" % trial.faults)
    sys.exit(trial.faults > 0)


main()
