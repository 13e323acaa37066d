#!/usr/bin/env python3
"""Slow callers and stuck ones: `wozhinnam serve` keeps the first and cuts the others.

Kept: readers that take 2,000, 10,000 and 40,000 bytes of a file of 4 MiB each second, for two minutes, where a connection
may be silent for one; and a body that comes at 2,000 bytes a second.
Cut: a reader that takes nothing, and one that takes a byte now and then; a body that came but for its end, and then comes
at a byte now and then (within three times what a connection may be silent).

It takes two minutes and a half. usage: bench/checks/slow_ones.py WOZHINNAM [--seconds N]
"""

import argparse
import os
import socket
import sys
import threading
import time

sys.path.insert(0, os.path.join(os.path.dirname(os.path.abspath(__file__)), "../tools"))

from server import wozhinnam

# What the client's system may hold of a reply: little, so that what isn't taken stays with the server.
HELD = 4096


def connect(server):
    stream = socket.socket()
    stream.setsockopt(socket.SOL_SOCKET, socket.SO_RCVBUF, HELD)
    stream.settimeout(300)
    stream.connect(server.address)
    return stream


class Slow:
    """What became of the callers: `words` has a line for each that went wrong."""

    def __init__(self):
        self.words = []
        self.threads = []

    def start(self, work, *given):
        thread = threading.Thread(target=work, args=given)
        thread.start()
        self.threads.append(thread)

    def end(self):
        for thread in self.threads:
            thread.join()

    def reads(self, server, cap, size, rate, seconds):
        """Takes so many bytes of the reply each second; it is not to be cut."""
        stream = connect(server)
        stream.sendall(b"GET /uri/%s HTTP/1.1\r\nHost: slow\r\n\r\n" % cap)
        taken, until = 0, time.monotonic() + seconds
        while time.monotonic() < until and taken < size:
            got = stream.recv(max(rate // 10, 1))
            if not got:
                self.words.append("a reader of %d bytes a second was cut after %d seconds" % (rate, seconds - (until - time.monotonic())))
                break
            taken += len(got)
            time.sleep(0.1)
        stream.close()

    def stops(self, server, cap, silence, drips):
        """Takes the head of the reply, and then nothing, or a byte now and then; it is to be cut."""
        stream = connect(server)
        stream.sendall(b"GET /uri/%s HTTP/1.1\r\nHost: stuck\r\n\r\n" % cap)
        stream.recv(100)
        until = time.monotonic() + 4 * silence
        while time.monotonic() < until:
            time.sleep(silence * 0.8)
            if drips:
                stream.recv(1)
        # What is left is what both systems hold, and then the connection's end.
        left = 0
        stream.settimeout(5)
        try:
            while got := stream.recv(1 << 20):
                left += len(got)
        except TimeoutError:
            self.words.append("a reader that %s was not cut" % ("takes a byte now and then" if drips else "stopped"))
        except OSError:
            pass
        stream.close()
        if left > 2_000_000:
            self.words.append("a stuck reader was given %d bytes" % left)

    def puts(self, server, rate, seconds):
        """Sends a body at so many bytes a second; it is to be answered."""
        stream = connect(server)
        stream.sendall(b"PUT /uri HTTP/1.1\r\nHost: slow\r\nContent-Length: %d\r\n\r\n" % (rate * seconds))
        try:
            for _ in range(seconds * 10):
                stream.sendall(b"a" * (rate // 10))
                time.sleep(0.1)
            head = stream.recv(100)
        except OSError:
            head = b""
        if not head.startswith(b"HTTP/1.1 200 "):
            self.words.append("a body of %d bytes a second is answered %r" % (rate, head[:20]))
        stream.close()

    def drips(self, server, silence):
        """Sends a body fast but for its end, and then a byte now and then; it is to be cut."""
        stream = connect(server)
        size = 16_000_000
        stream.sendall(b"PUT /uri HTTP/1.1\r\nHost: stuck\r\nContent-Length: %d\r\n\r\n" % size + b"a" * (size - 1000))
        began = time.monotonic()
        stream.settimeout(silence * 0.9)
        try:
            while time.monotonic() < began + 6 * silence:
                try:
                    # An end that comes meanwhile, and no reply.
                    if not stream.recv(1):
                        break
                except TimeoutError:
                    stream.sendall(b"a")
        except OSError:
            pass
        took = time.monotonic() - began
        if took > 3.5 * silence:
            self.words.append("a body that drips was still taken after %d seconds" % took)
        stream.close()


def main():
    parser = argparse.ArgumentParser()
    parser.add_argument("program")
    parser.add_argument("--seconds", type=int, default=120)
    options = parser.parse_args()
    size = 4 << 20
    patient = wozhinnam(options.program, "--shares", "1,1", "--servers", "1")
    strict = wozhinnam(options.program, "--shares", "1,1", "--servers", "1", "--idle", "5")
    caps = [server.ask("PUT", "/uri", os.urandom(size)) for server in (patient, strict)]
    slow = Slow()
    for rate in (2_000, 10_000, 40_000):
        slow.start(slow.reads, patient, caps[0], size, rate, options.seconds)
    slow.start(slow.puts, patient, 2_000, options.seconds)
    slow.start(slow.stops, strict, caps[1], 5, False)
    slow.start(slow.stops, strict, caps[1], 5, True)
    slow.start(slow.drips, strict, 5)
    slow.end()
    patient.kill()
    strict.kill()
    for words in slow.words:
        print("slow_ones.py: " + words, file=sys.stderr)
    print("slow_ones.py: %s" % ("%d faults" % len(slow.words) if slow.words else "all is well"))
    sys.exit(1 if slow.words else 0)


if __name__ == "__main__":
    main()
