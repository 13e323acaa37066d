#!/usr/bin/env python3
"""Requests of all kinds from a seed to `wozhinnam serve`, the built program: each reply is checked, and memory after a tenth of them and at the
end differs by no more than what was stored in between (by then all files and directories that it makes stand, from some 50,000 requests on).

usage: bench/checks/soak.py PROGRAM [COUNT [SEED]]

Files of 0 to 40,000 bytes and one of 1,000,000, directories of them, walks, ranges, HEAD, JSON, checks, caps that name nothing, and heads that
are refused. 1,000,000 requests (the default) take some ten minutes.
"""

import json
import os
import random
import re
import sys
import urllib.parse

sys.path.insert(0, os.path.join(os.path.dirname(os.path.abspath(__file__)), "../tools"))

from server import fail, wozhinnam

NAMES = ["a", "b c", "é", "日", "x/y", "?", "%"]
OCTETS = "application/octet-stream"
TEXT = "text/plain; charset=utf-8"
JSON = "application/json"
BROKEN = [
    b"GET  /uri/URI:LIT: HTTP/1.1\r\nHost: g\r\n\r\n",
    b"GET /uri/URI:LIT: HTTP/1.1\r\n\r\n",
    b"GET /uri/URI:LIT: HTTP/1.1\r\nHost: g\r\nHost: h\r\n\r\n",
    b"PUT /uri HTTP/1.1\r\nHost: g\r\nContent-Length: 1\r\nContent-Length: 1\r\n\r\n",
    b"PUT /uri HTTP/1.1\r\nHost: g\r\nContent-Length: +1\r\n\r\n",
    b"PUT /uri HTTP/1.1\r\nHost: g\r\nTransfer-Encoding: chunked\r\n\r\nz\r\n",
]
REFUSED = [
    ("GET", "/uri/URI:CHK:nothing", 400), ("GET", "/uri/URI:LIT:my/child", 400), ("GET", "/elsewhere", 404), ("DELETE", "/uri", 405),
    ("GET", "/uri/" + "URI:CHK:aaaqeayeaudaocajbifqydiob4:aaaqeayeaudaocajbifqydiob4ireeyuculbogazdinryhi6d4pq:3:10:100", 410),
]

# What memory may grow by beside what is stored: the system counts by pages, and the C library keeps some of what was freed.
SLACK = 2 << 20


class Client:
    """One kept connection."""

    def __init__(self, server):
        self.server = server
        self.stream = None

    def ask(self, sent, head_only=False):
        """The status, the type and the body of a reply, and whether the connection closes."""
        if self.stream is None:
            self.stream = self.server.connect()
            self.file = self.stream.makefile("rb")
        self.stream.sendall(sent)
        status = int(self.file.readline().split()[1])
        fields = {}
        while (line := self.file.readline()) != b"\r\n":
            name, value = line.decode().rstrip("\r\n").split(": ", 1)
            fields[name.lower()] = value
        length = int(fields["content-length"])
        body = b"" if head_only else self.file.read(length)
        if fields.get("connection") == "close":
            if self.file.read(1) != b"":
                raise ValueError("bytes after a reply that closes")
            self.stream.close()
            self.stream = None
        return status, fields, body, length


def request(method, target, body=b"", fields=""):
    length = "Content-Length: %d\r\n" % len(body) if body or method in ("PUT", "POST") else ""
    return ("%s %s HTTP/1.1\r\nHost: g\r\n%s%s\r\n" % (method, target, fields, length)).encode() + body


class Soak:
    def __init__(self, program, seed):
        self.chance = random.Random(seed)
        self.server = wozhinnam(program, control=True)
        self.clients = [Client(self.server) for _ in range(8)]
        self.files = {}
        self.directories = {}
        self.stored = 0

    def wants(self, right, what, got):
        if not right:
            fail("%s: %r" % (what, got))

    def held(self):
        """How many bytes of shares the stores hold."""
        text = self.server.asked_control("GET", "/metrics")
        return sum(int(number) for number in re.findall(rb"wozhinnam_store_held_bytes\{.*?\} (\d+)", text))

    def bytes_of(self, number):
        """One of 600 files: the same number is the same file."""
        chance = random.Random(number)
        size = 1_000_000 if number == 0 else chance.choice([0, 1, 55, 56, chance.randrange(2000), chance.randrange(40_000)])
        return chance.randbytes(size)

    def put(self, client):
        body = self.bytes_of(self.chance.randrange(600))
        status, fields, cap, _ = client.ask(request("PUT", "/uri", body))
        cap = cap.decode()
        self.wants(status == 200 and fields["content-type"] == TEXT, "put", (status, cap))
        self.wants(self.files.setdefault(cap, body) == body, "a cap of two files", cap)
        self.wants(len(body) <= 55 or cap.endswith(":3:10:%d" % len(body)), "put", cap)

    def get(self, client):
        cap, body = self.chance.choice(self.listed)
        status, fields, given, _ = client.ask(request("GET", "/uri/" + cap))
        self.wants((status, fields["content-type"], given) == (200, OCTETS, body), "get of " + cap, status)

    def head(self, client):
        cap, body = self.chance.choice(self.listed)
        status, _, _, length = client.ask(request("HEAD", "/uri/" + cap), head_only=True)
        self.wants((status, length) == (200, len(body)), "head of " + cap, (status, length))

    def range(self, client):
        cap, body = self.chance.choice(self.listed)
        first = self.chance.randrange(len(body) + 2)
        last = first + self.chance.randrange(5000)
        status, fields, given, _ = client.ask(request("GET", "/uri/" + cap, fields="Range: bytes=%d-%d\r\n" % (first, last)))
        if first >= len(body):
            self.wants(status == 416, "range past the end of " + cap, status)
        else:
            said = "bytes %d-%d/%d" % (first, min(last, len(body) - 1), len(body))
            self.wants((status, fields["content-range"], given) == (206, said, body[first:last + 1]), "range of " + cap, (status, fields))

    def json(self, client):
        cap, body = self.chance.choice(self.listed)
        status, fields, given, _ = client.ask(request("GET", "/uri/" + cap + "?t=json"))
        kind, told = json.loads(given)
        self.wants((status, fields["content-type"], kind, told["size"], told["ro_uri"]) == (200, JSON, "filenode", len(body), cap), "json of " + cap, given)

    def check(self, client):
        cap, body = self.chance.choice(self.listed)
        verify = self.chance.choice(["", "&verify=true"])
        status, _, given, _ = client.ask(request("POST", "/uri/" + cap + "?t=check&output=JSON" + verify))
        told = json.loads(given)
        self.wants(status == 200 and told["results"]["healthy"] is True, "check of " + cap, given)

    def make(self, client):
        """A new directory, or once 500 stand one of these again."""
        if len(self.directories) == 500:
            cap = self.chance.choice(self.under)
            self.made(client, self.directories[cap], cap)
            return
        names = self.chance.sample(NAMES, self.chance.randrange(len(NAMES) + 1))
        below = {name: self.chance.choice(self.listed)[0] for name in names}
        if self.directories and self.chance.random() < 0.5:
            below["sub"] = self.chance.choice(self.under)
        cap = self.made(client, below)
        self.directories[cap] = below
        self.under = list(self.directories)

    def made(self, client, below, wanted=None):
        children = {name: ["dirnode" if cap in self.directories else "filenode", {"ro_uri": cap}] for name, cap in below.items()}
        status, _, cap, _ = client.ask(request("POST", "/uri?t=mkdir-immutable", json.dumps(children).encode()))
        self.wants(status == 200 and wanted in (None, cap.decode()), "mkdir", (status, cap))
        return cap.decode()

    def walk(self, client):
        cap = self.chance.choice(self.under)
        target = cap
        while cap in self.directories and self.directories[cap]:
            name = self.chance.choice(list(self.directories[cap]))
            target += "/" + urllib.parse.quote(name, safe="")
            cap = self.directories[cap][name]
        if cap in self.directories:
            status, _, given, _ = client.ask(request("GET", "/uri/" + target + "/missing"))
            self.wants(status == 404, "walk to nothing", (status, target))
        else:
            status, _, given, _ = client.ask(request("GET", "/uri/" + target))
            self.wants((status, given) == (200, self.files[cap]), "walk along " + target, status)

    def list(self, client):
        cap = self.chance.choice(self.under)
        status, _, given, _ = client.ask(request("GET", "/uri/" + cap + "?t=json"))
        kind, told = json.loads(given)
        caps = {name: child[1]["ro_uri"] for name, child in told["children"].items()}
        self.wants((status, kind, caps) == (200, "dirnode", self.directories[cap]), "json of " + cap, given)

    def refused(self, client):
        method, target, wanted = self.chance.choice(REFUSED)
        status, _, given, _ = client.ask(request(method, target))
        self.wants(status == wanted, "%s %s" % (method, target), (status, given))

    def broken(self, client):
        status, _, given, _ = client.ask(self.chance.choice(BROKEN))
        self.wants(status == 400 and client.stream is None, "a broken head", (status, given))

    def run(self, count):
        self.put(self.clients[0])
        self.listed = list(self.files.items())
        self.make(self.clients[0])
        kinds = [self.put, self.get, self.get, self.get, self.head, self.range, self.range, self.json, self.check, self.make, self.walk, self.walk,
                 self.list, self.refused, self.broken]
        marks = []
        for at in range(count):
            if at == count // 10:
                marks.append((self.server.memory(), self.held()))
            self.chance.choice(kinds)(self.chance.choice(self.clients))
            if len(self.listed) != len(self.files):
                self.listed = list(self.files.items())
        marks.append((self.server.memory(), self.held()))
        print("%d requests, each answered right; %d files; memory after a tenth %d KiB, of which %d KiB are shares, at the end %d and %d KiB" % (
            count, len(self.files), *(bytes_ >> 10 for mark in marks for bytes_ in mark)))
        self.server.stop()


def main():
    if not 2 <= len(sys.argv) <= 4:
        sys.exit(__doc__)
    count = int(sys.argv[2]) if len(sys.argv) > 2 else 1_000_000
    Soak(sys.argv[1], int(sys.argv[3]) if len(sys.argv) > 3 else 1).run(count)


main()
