#!/usr/bin/env python3
"""The budget of memory of the built `wozhinnam`: more uploads, and more replies that nobody takes, than there is memory for.

1. Many clients send long bodies, and stop before their end. Meanwhile small requests are answered, each within a limit, and the process has no more
   memory than it had with nothing kept, the budget, and 64 MiB.
2. Beside ten of them others send theirs whole: each is answered its cap, and nobody is refused.
3. Many clients send whole bodies at once, four times the budget: each is answered its cap.
4. Many clients ask for the `t=json` of a directory whose text has 16 MB, and read nothing; for files of 16 MiB whose shares stand in memory; and, over a
   folder whose shares stay on the disk, for files of 16 MiB, whole or in part. Small requests are answered, and the memory is as in 1.
5. Beside ten of these others take such replies whole: each has all of it, and nobody is refused.

Each crowd of 4 is looked at for 20 seconds, and setting it up takes as long, so the whole takes some five minutes.

usage: bench/checks/budget.py [PROGRAM] [--stuck COUNT] [--whole COUNT] [--takers COUNT]
"""

import argparse
import multiprocessing
import os
import socket
import sys
import tempfile
import threading
import time

HERE = os.path.dirname(os.path.abspath(__file__))
sys.path.insert(0, os.path.join(HERE, "../tools"))
from directory_texts import children  # noqa: E402
from server import Client, as_installed, built, fail, wozhinnam  # noqa: E402

BUDGET = 64 * 1024 * 1024
BODY = 16 * 1024 * 1024
SLACK = 64 * 1024 * 1024
# How many of those that stop are left beside others that don't.
FEW = 10
# Seconds for a small request beside uploads that only arrive, and beside some that are carried out.
BESIDE = 1.0


class Watch:
    """Looks at the memory of a server, again and again, and asks it for something small: in a process of its own, so that it waits for the server alone."""

    def __init__(self, server):
        self.mine, theirs = multiprocessing.Pipe()
        self.process = multiprocessing.Process(target=self.look, args=(server, theirs), daemon=True)
        self.process.start()

    def look(self, server, theirs):
        client = Client(server.address)
        _, cap = client.put(b"small " * 20)
        most, waits = 0, []
        while not theirs.poll():
            began = time.monotonic()
            status, body = client.get(cap)
            waits.append(time.monotonic() - began)
            if (status, body) != (200, b"small " * 20):
                fail("a small request was answered %d" % status)
            most = max(most, server.memory())
            time.sleep(0.01)
        theirs.send((most, waits))

    def ended(self):
        """How many bytes the server had at most, and how long each small request took."""
        self.mine.send(None)
        most, waits = self.mine.recv()
        self.process.join()
        return most, sorted(waits)


def stuck(address, count):
    """Clients that send all but the last bytes of a body, as far as they are read."""
    peers = []

    request = b"PUT /uri HTTP/1.1\r\nHost: g\r\nContent-Length: %d\r\n\r\n" % BODY + bytes(BODY - 100)

    def send(peer):
        try:
            peer.sendall(request)
        except OSError:
            pass

    for _ in range(count):
        peer = socket.create_connection(address)
        threading.Thread(target=send, args=(peer,), daemon=True).start()
        peers.append(peer)
    return peers


def whole(server, count):
    """Clients that send a body each, all at once. How long all of it took."""
    told = [None] * count

    def put(at):
        try:
            told[at] = Client(server.address).put(at.to_bytes(4, "big") * (BODY // 4))
        except OSError as error:
            told[at] = (0, str(error))

    threads = [threading.Thread(target=put, args=(at,)) for at in range(count)]
    began = time.monotonic()
    for thread in threads:
        thread.start()
    for thread in threads:
        thread.join()
    for status, text in told:
        if status != 200 or not text.startswith("URI:CHK:"):
            fail("an upload was answered %d %s" % (status, text))
    if len({text for _, text in told}) != count:
        fail("two bodies have one cap")
    return time.monotonic() - began


def silent(address, requests, count):
    """Clients that ask, by turns, and read nothing."""
    peers = []
    for at in range(count):
        peer = socket.socket()
        peer.setsockopt(socket.SOL_SOCKET, socket.SO_RCVBUF, 4096)
        peer.connect(address)
        peer.sendall(requests[at % len(requests)])
        peers.append(peer)
    return peers


def taken(address, request, wanted):
    """Takes a whole reply, whose status and length are these; a length of None is any of 16 MB or more."""
    status, length = wanted
    with socket.create_connection(address, timeout=600) as peer:
        peer.sendall(request)
        head = b""
        while b"\r\n\r\n" not in head:
            got = peer.recv(65_536)
            if not got:
                fail("a reply ended in its head")
            head += got
        fields, _, body = head.partition(b"\r\n\r\n")
        if not fields.startswith(b"HTTP/1.1 %d " % status):
            fail("a request was answered %r" % fields[:60])
        told = int(fields.split(b"Content-Length: ")[1].split(b"\r\n")[0])
        if told != length if length is not None else told < 16_000_000:
            fail("a reply has %d bytes" % told)
        count = len(body)
        while count < told:
            got = peer.recv(1 << 20)
            if not got:
                fail("a reply ended after %d of %d bytes" % (count, told))
            count += len(got)


def asks_for(cap, query="", fields=b""):
    return b"GET /uri/%s%s HTTP/1.1\r\nHost: g\r\n%s\r\n" % (cap.encode(), query.encode(), fields)


def crowd(words, begin, count, wanted):
    """Clients that ask and take nothing; and on another server a few of them, and two that take all. `begin` gives a server, and requests, and `wanted` is
    the status of their replies and the length."""
    server, requests = begin()
    empty = server.memory()
    watch = Watch(server)
    peers = silent(server.address, requests, count)
    time.sleep(20)
    slowest = report("%d %s that nobody takes" % (count, words), watch.ended(), empty + BUDGET + SLACK)
    if slowest > BESIDE:
        fail("a small request waited for %.1f seconds" % slowest)
    for peer in peers:
        peer.close()
    server.kill()

    server, requests = begin()
    peers = silent(server.address, requests, FEW)
    began = time.monotonic()
    for request in requests[:2]:
        taken(server.address, request, wanted)
    print("two that are taken beside %d of these: %.1f seconds" % (FEW, time.monotonic() - began))
    for peer in peers:
        peer.close()
    server.kill()


def serving(store, count):
    server = wozhinnam(built("wozhinnam"), "--store", store, "--shares", "1,1", "--memory", str(BUDGET), "--connections", str(count + 50), control=True, env=as_installed())
    time.sleep(1)
    return server


def listings(count):
    """`t=json` over a store in memory."""

    def begin():
        server = serving("mem:4G", count)
        _, cap = Client(server.address).put(children(400_000))
        return server, [asks_for(cap.replace("URI:CHK:", "URI:DIR2-CHK:"), "?t=json")] * 2

    crowd("listings", begin, count, (200, None))


def files(count, store, words, wanted=(200, BODY), fields=b""):
    """Files of 16 MiB over such a store."""

    def begin():
        server = serving(store, count)
        caps = [Client(server.address).put(at.to_bytes(4, "big") * (BODY // 4))[1] for at in range(20)]
        return server, [asks_for(cap, fields=fields) for cap in caps]

    crowd(words, begin, count, wanted)


def report(words, seen, limit):
    """Prints what a watch saw. How long the slowest small request took."""
    most, waits = seen
    print("%s: at most %d MiB; of %d small requests the slowest took %.0f ms, 99 of 100 at most %.0f"
          % (words, most >> 20, len(waits), waits[-1] * 1000, waits[len(waits) * 99 // 100] * 1000))
    if most > limit:
        fail("the process has %d MiB, and %d at most are allowed" % (most >> 20, limit >> 20))
    return waits[-1]


def main():
    reader = argparse.ArgumentParser(usage=__doc__)
    reader.add_argument("program", nargs="?")
    reader.add_argument("--stuck", type=int, default=100)
    reader.add_argument("--whole", type=int, default=16)
    reader.add_argument("--takers", type=int, default=900)
    given = reader.parse_args()
    sys.argv = sys.argv[:1] + ([given.program] if given.program else [])
    server = wozhinnam(built("wozhinnam"), "--store", "mem:4G", "--shares", "1,1", "--memory", str(BUDGET), control=True, env=as_installed())
    Client(server.address).put(b"x" * 1000)
    empty = server.memory()

    watch = Watch(server)
    peers = stuck(server.address, given.stuck)
    time.sleep(8)
    slowest = report("%d uploads that stop" % given.stuck, watch.ended(), empty + BUDGET + SLACK)
    if slowest > BESIDE:
        fail("a small request waited for %.1f seconds" % slowest)

    # each that stops holds up the others until it is cut, two seconds and a half
    for peer in peers[FEW:]:
        peer.close()
    watch = Watch(server)
    seconds = whole(server, 2)
    print("two whole ones beside %d of these: %.1f seconds" % (FEW, seconds))
    report("with two whole ones", watch.ended(), empty + BUDGET + SLACK + 2 * 2 * BODY)
    for peer in peers[:FEW]:
        peer.close()

    watch = Watch(server)
    seconds = whole(server, given.whole)
    print("%d whole ones at once: %.1f seconds" % (given.whole, seconds))
    report("%d whole ones" % given.whole, watch.ended(), empty + BUDGET + SLACK + (2 + given.whole) * 2 * BODY)
    server.stop()
    listings(given.takers)
    files(given.takers, "mem:4G", "files in memory")
    with tempfile.TemporaryDirectory() as folder:
        disk = "dir:%s:4G,disk" % folder
        files(given.takers, disk, "files from a disk")
        files(given.takers, disk, "parts of files from a disk", (206, 7_900_001), b"Range: bytes=100000-8000000\r\n")
    print("budget.py: all is well")


if __name__ == "__main__":
    main()
