#!/usr/bin/env python3
"""`woz`, the built client, puts a tree of Debian's and gets it again over `wozhinnam serve`, the built server, and over a proxy that
lies: /usr/share/doc unless another folder is named, which nobody may change meanwhile.

Each file and folder is compared with what came back, by its bytes; links and special files are passed over, which status 8 tells. The
cap is one over one connection and over several, and what a second program makes of the tree's top (`ls --json`) is the gateway's. Then a
proxy changes one bit of one reply, at places that a seed chooses: no cap is printed, and nothing stands under the name that was asked for.

usage: bench/checks/documents.py WOZ PROGRAM [--folder FOLDER] [--lies COUNT] [--seed NUMBER]
"""

import argparse
import hashlib
import itertools
import os
import random
import stat
import sys
import tempfile
import unicodedata

sys.path.insert(0, os.path.join(os.path.dirname(os.path.abspath(__file__)), "../tools"))

from client import Client, no_leftovers, proxy
from server import checked_program, fail, wozhinnam

# Bytes that each of the five stores has room for: the documents are some 120 MB, and their shares 400.
ROOM = str(4 << 30)


def digest(path):
    with open(path, "rb") as file:
        return hashlib.sha256(file.read()).hexdigest()


def listed(top):
    """What each file and folder below has, by its path in NFC, and how many are neither."""
    found, passed_over = {}, 0
    waiting = [""]
    while waiting:
        place = waiting.pop()
        for name in os.listdir(os.path.join(top, place)):
            path = os.path.join(place, name)
            mode = os.lstat(os.path.join(top, path)).st_mode
            key = unicodedata.normalize("NFC", path)
            if stat.S_ISDIR(mode):
                found[key] = "folder"
                waiting.append(path)
            elif stat.S_ISREG(mode):
                found[key] = digest(os.path.join(top, path))
            else:
                passed_over += 1
    return found, passed_over


def compared(wanted, top):
    found, others = listed(top)
    if others:
        fail("%d that came back are neither files nor folders" % others)
    for path in sorted(set(wanted) | set(found)):
        if wanted.get(path) != found.get(path):
            fail("%r is %s and not %s" % (path, found.get(path), wanted.get(path)))


def lying(server, place, bit):
    """A proxy that changes a bit of the reply at a place, and how many replies it gave."""
    count = itertools.count(1)
    seen = [0]

    def change(stream, head, body):
        seen[0] = now = next(count)
        spoiled = bytearray(body)
        if now == place:
            spoiled[bit // 8 % len(spoiled)] ^= 1 << bit % 8
        stream.sendall(head + b"\r\n\r\n" + bytes(spoiled))
        return True

    return proxy(server, change), seen


def main():
    words = argparse.ArgumentParser()
    words.add_argument("woz")
    words.add_argument("program")
    words.add_argument("--folder", default="/usr/share/doc")
    words.add_argument("--lies", type=int, default=6)
    words.add_argument("--seed", type=int, default=1)
    given = words.parse_args()
    woz, program = checked_program(given.woz), checked_program(given.program)
    top = os.path.abspath(given.folder)
    wanted, passed_over = listed(top)
    status = 8 if passed_over else 0
    chosen = random.Random(given.seed)
    server = wozhinnam(program, "--room", ROOM, control=True)
    server.port = server.address[1]
    url = "http://%s:%d" % server.address
    with tempfile.TemporaryDirectory() as folder:
        client = Client(woz, folder)
        put = client.run(url, "put", "-r", top, wanted=status, timeout=3600)
        if put.stderr.count(b"is passed over") != passed_over:
            fail("of %d that are passed over %d are told" % (passed_over, put.stderr.count(b"is passed over")))
        cap = put.stdout.decode().strip()
        if client.text(url, "put", "-r", "--jobs", "1", top, wanted=status, timeout=3600).strip() != cap:
            fail("the documents have two caps")
        client.run(url, "get", "-r", cap, "back", timeout=3600)
        compared(wanted, os.path.join(folder, "back"))
        client.run(url, "check", "--read", "-r", cap, timeout=3600)
        if client.run(url, "ls", "--json", cap).stdout.rstrip(b"\n") != server.ask("GET", "/uri/" + cap + "?t=json").rstrip(b"\n"):
            fail("ls --json isn't what the gateway's t=json is")
        honest, seen = lying(server, 0, 0)
        client.run(honest.url, "get", "-r", cap, "again", timeout=3600)
        compared(wanted, os.path.join(folder, "again"))
        honest.close()
        for _ in range(given.lies):
            place, bit = chosen.randint(1, seen[0] - 1), chosen.randrange(1 << 40)
            gateway, _ = lying(server, place, bit)
            client.run(gateway.url, "get", "-r", cap, "lied", wanted=6, timeout=3600)
            no_leftovers(folder, "lied")
            gateway.close()
            gateway, _ = lying(server, place, bit)
            if client.run(gateway.url, "put", "-r", top, wanted=6, timeout=3600).stdout:
                fail("a put with a changed answer prints a cap")
            gateway.close()
    server.stop()
    files = sum(what != "folder" for what in wanted.values())
    print("documents.py: %d files and %d folders came back, and no lie of %d was believed" % (files, len(wanted) - files, 2 * given.lies))


if __name__ == "__main__":
    main()
