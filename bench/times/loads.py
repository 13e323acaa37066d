#!/usr/bin/env python3
"""Loads on `wozhinnam serve`, the built program, on the loopback, with times and memory; each takes a minute or two at most.

usage: bench/times/loads.py PROGRAM [open|readers|many_readers|slow_readers|untaken|came|million|pipelined|cut|listings|puts|many_puts|chunks|walks|forms|metadata|makes|makes_many|verifies|parts|wide|disk_LOAD|redis_LOAD|mixed|again|tokens|falling|text|name|lists_metadata|lists_falling|makes_falling|no_children|few ..] [--steps]

open          10,000 connections, a reply on each
readers       8 readers of 4 MiB beside small GETs; many_readers: 200 of them; slow_readers: 200 that take 10 KB a second
untaken       200 GETs of one file of 4 MiB, of 200 files, and of 100 bytes of one, each on its own connection, of which nothing is read
came          100,000 connections that come and go, one after the other; million: 1,000,000
pipelined     500 GETs of a file of 4 MiB on one connection, written before anything is read
cut           a minute of connections that send and take a part of something and are cut, some by a reset, beside small GETs
listings      20 GETs of the `t=json` of a directory of names that JSON escapes six times as long, of which nothing is read,
              and 20 of which all is but the last 1,000,000 bytes

Beside small GETs, each by a client that asks again and again:
puts          puts of 16 MiB; many_puts: by four clients
chunks        puts of 16 MiB in chunks of 65,536 bytes
walks         GETs of small files behind ten directories of 16 MB each, each of another name in the last one
forms         the same walks, in forms in which such a request was once not seen: its head in two parts, another request before it
              in one piece, a body, empty lines before it, a whole URI as its target
metadata      GETs of names that a directory doesn't have whose one child has 1.3 million members of metadata
makes         such a directory, made of children JSON; makes_many: one of 300,000 children
verifies      checks with verify of a file of 16 MiB
parts         GETs of 1,000 bytes of two files of 16 MiB, by turns
wide          the `t=json` of a directory of 20,000 children
mixed         all of these at once, by a client each; again: metadata and makes, so that a directory is stored again and again while
              names are looked for in it

And beside what is long in another way, of some 15.6 MB each:
tokens        GETs through a directory whose one child has metadata of 3.1 million times `true`; falling: of 1.3 million members whose
              keys fall
text          GETs through one whose one child has metadata of one text; name: whose one child has a name of accented letters
lists_metadata the `t=json` of a directory whose one child has 1.3 million members of metadata; lists_falling: whose keys fall
makes_falling directories made of one child with metadata whose keys fall
no_children   children JSON that is refused, since its 1.6 million members are no children
few           directories made of 245 children with 63,000 bytes of metadata each

Of those from `puts` to `wide` each may begin with `disk_` or `redis_`, as `disk_parts`: over five folders whose shares stay on the
disk, or three Redis servers (redis-server of Debian). Without a name these aren't tried.

With --steps (as root; linux-perf of Debian) each of these loads also tells the longest step of the server between two system calls, and how
long the machine stood still meanwhile: a wait is the server's only where it has a step as long.
"""

import contextlib
import functools
import itertools
import json
import os
import random
import resource
import socket
import struct
import subprocess
import sys
import tempfile
import threading
import time

sys.path.insert(0, os.path.join(os.path.dirname(os.path.abspath(__file__)), "../tools"))

from directory_texts import children, entry
from server import fail, wozhinnam
from steps import Steps

SMALL = b"GET /uri/URI:LIT:mzxw6 HTTP/1.1\r\nHost: g\r\n\r\n"
# docs/FORMATS.md, "For browsers": what stands in a reply behind the length of a file.
OF_FILES = b"Accept-Ranges: bytes\r\nX-Content-Type-Options: nosniff\r\nContent-Security-Policy: sandbox\r\n"
REPLY = b"HTTP/1.1 200 OK\r\nContent-Type: application/octet-stream\r\nContent-Length: 3\r\n" + OF_FILES + b"\r\nfoo"
LONG = 4_194_304
SECONDS = 120
# Whether the steps of the server are looked at.
STEPS = "--steps" in sys.argv[2:]


def served(program, connections):
    return wozhinnam(program, "--connections", str(connections), control=True)


def taken(stream, count):
    """So many bytes of a stream, which are dropped but for the first 300."""
    first = b""
    while count > 0:
        got = stream.recv(min(count, 1 << 20))
        if not got:
            fail("a connection ended %d bytes too early" % count)
        if len(first) < 300:
            first += got[:300]
        count -= len(got)
    return first


def small(stream):
    """The time of a small GET."""
    began = time.monotonic()
    stream.sendall(SMALL)
    if taken(stream, len(REPLY))[:len(REPLY)] != REPLY:
        fail("another reply")
    return time.monotonic() - began


def stored(server, number=0):
    """The request for a stored file of 4 MiB, which begins with this number, and how long its reply is."""
    with server.connect() as stream:
        stream.sendall(b"PUT /uri HTTP/1.1\r\nHost: g\r\nConnection: close\r\nContent-Length: %d\r\n\r\n" % LONG)
        stream.sendall((struct.pack(">Q", number) + bytes(range(251)) * (LONG // 251 + 1))[:LONG])
        reply = b""
        while got := stream.recv(65536):
            reply += got
    cap = reply.split(b"\r\n\r\n", 1)[1]
    # The tag is as long as the text of the verify cap, in which the storage index has the place of the key, and as many letters.
    tag = b'ETag: "%s"\r\n' % cap.replace(b"URI:CHK:", b"URI:CHK-Verifier:")
    head = b"HTTP/1.1 200 OK\r\nContent-Type: application/octet-stream\r\nContent-Length: %d\r\n" % LONG + OF_FILES + tag + b"\r\n"
    return b"GET /uri/%s HTTP/1.1\r\nHost: g\r\n\r\n" % cap, len(head) + LONG


def times(name, taken_by):
    ordered = sorted(taken_by)
    at = lambda share: ordered[min(len(ordered) - 1, int(share * len(ordered)))] * 1000
    print("%s: %d, median %.3f ms, 99 of 100 %.2f ms, longest %.1f ms" % (name, len(ordered), at(0.5), at(0.99), ordered[-1] * 1000))


def open_ones(program):
    count = 10_000
    server = served(program, count + 100)
    small(server.connect())
    before = server.memory()
    began = time.monotonic()
    streams = [server.connect() for _ in range(count)]
    opened = time.monotonic() - began
    began = time.monotonic()
    for stream in streams:
        stream.sendall(SMALL)
    for stream in streams:
        taken(stream, len(REPLY))
    answered = time.monotonic() - began
    print("%d connections: opened in %.2f s, a reply on each in %.2f s, %d bytes of memory each" % (count, opened, answered, (server.memory() - before) // count))
    times("small GETs on one of them", [small(streams[0]) for _ in range(2000)])
    for stream in streams:
        stream.close()
    server.stop()


def readers(program, count):
    server = served(program, count + 100)
    request, length = stored(server)
    quick = server.connect()
    times("small GETs alone", [small(quick) for _ in range(2000)])
    over = time.monotonic() + 15
    replies = []

    def read():
        stream = server.connect()
        while time.monotonic() < over:
            stream.sendall(request)
            taken(stream, length)
            replies.append(1)
        stream.close()

    threads = [threading.Thread(target=read) for _ in range(count)]
    for thread in threads:
        thread.start()
    time.sleep(1)
    began = time.monotonic()
    waits = []
    while time.monotonic() < over - 1:
        waits.append(small(quick))
        time.sleep(0.001)
    times("small GETs beside %d readers of 4 MiB" % count, waits)
    for thread in threads:
        thread.join(SECONDS)
    print("replies of 4 MiB a second: %.1f; memory at most %d MB" % (len(replies) / (time.monotonic() - began + 1), server.memory("VmHWM") >> 20))
    server.stop()


def slow_readers(program):
    """200 readers of a file of 4 MiB that take 10 KB a second each."""
    server = served(program, 300)
    request, _ = stored(server)
    quick = server.connect()
    times("small GETs alone", [small(quick) for _ in range(2000)])
    over = time.monotonic() + 20

    def read():
        stream = socket.socket()
        stream.setsockopt(socket.SOL_SOCKET, socket.SO_RCVBUF, 4096)
        stream.connect(server.address)
        stream.sendall(request)
        while time.monotonic() < over:
            stream.recv(1000)
            time.sleep(0.1)
        stream.close()

    threads = [threading.Thread(target=read) for _ in range(200)]
    for thread in threads:
        thread.start()
    waits = []
    while time.monotonic() < over - 1:
        waits.append(small(quick))
        time.sleep(0.001)
    times("small GETs beside 200 readers of 10 KB a second", waits)
    for thread in threads:
        thread.join(SECONDS)
    print("memory at most %d MB" % (server.memory("VmHWM") >> 20))
    server.stop()


def untaken(program):
    """What waits untaken on 200 connections."""
    server = served(program, 500)
    requests = [stored(server, number)[0] for number in range(200)]
    ranged = requests[0].replace(b"\r\n\r\n", b"\r\nRange: bytes=2000000-2000099\r\n\r\n")
    for name, asked in (("one file of 4 MiB", requests[:1] * 200), ("200 files of 4 MiB", requests), ("100 bytes of 4 MiB", [ranged] * 200)):
        before = server.memory()
        streams = []
        for request in asked:
            stream = socket.socket()
            stream.setsockopt(socket.SOL_SOCKET, socket.SO_RCVBUF, 4096)
            stream.connect(server.address)
            stream.sendall(request)
            streams.append(stream)
        quick = server.connect()
        small(quick)
        print("200 GETs of %s that nobody takes: %.1f MB of memory beside" % (name, (server.memory() - before) / 1e6))
        for stream in streams + [quick]:
            stream.close()
        time.sleep(1)
    server.stop()


def beside(name, server, quick, load, count, seconds=15):
    """Small GETs on one connection, while so many threads call `load` again and again; how often they did, a second."""
    over = time.monotonic() + seconds
    done = []

    def go_on():
        while time.monotonic() < over:
            load()
            done.append(time.monotonic())

    threads = [threading.Thread(target=go_on) for _ in range(count)]
    for thread in threads:
        thread.start()
    began = time.monotonic()
    time.sleep(1)
    waits = []
    with Steps(server.process.pid) if STEPS else contextlib.nullcontext() as steps:
        while time.monotonic() < over - 1:
            waits.append(small(quick))
            time.sleep(0.001)
    for thread in threads:
        thread.join(SECONDS)
    times("small GETs beside %s" % name, waits)
    if steps:
        print(steps.said())
    return len(done) / (done[-1] - began)


def once(server, request, body=b"", status=b"200"):
    """What sends a request on a connection of its own and takes its reply, which has to have this status."""
    return in_parts(server, [request, body], status)


def in_parts(server, parts, status=b"200", pause=0):
    """The same of a request that is sent in parts, with so many seconds between them."""

    def load():
        with server.connect() as stream:
            stream.setsockopt(socket.IPPROTO_TCP, socket.TCP_NODELAY, 1)
            for part in parts:
                stream.sendall(part)
                time.sleep(pause)
            first = stream.recv(65536)
            if not first.startswith(b"HTTP/1.1 " + status):
                fail("refused: %r" % first[:80])
            while stream.recv(1 << 20):
                pass

    return load


def asked(method, target, length=0):
    return b"%s /uri%s HTTP/1.1\r\nHost: g\r\nConnection: close\r\nContent-Length: %d\r\n\r\n" % (method, target.encode(), length)


def putter(server):
    body = random.Random(16).randbytes(16 << 20)
    return once(server, asked(b"PUT", "", len(body)), body)


def chunk_putter(server):
    """Puts of 16 MiB in chunks of 65,536 bytes."""
    body = random.Random(15).randbytes(16 << 20)
    chunks = b"".join(b"10000\r\n" + body[at:at + 65536] + b"\r\n" for at in range(0, len(body), 65536))
    return once(server, b"PUT /uri HTTP/1.1\r\nHost: g\r\nConnection: close\r\nTransfer-Encoding: chunked\r\n\r\n", chunks + b"0\r\n\r\n")


def put_text(server, text):
    """The cap of a directory with this text."""
    return server.ask("PUT", "/uri", text).decode().replace("URI:CHK:", "URI:DIR2-CHK:").replace("URI:LIT:", "URI:DIR2-LIT:")


def long_way(server):
    """The target that leads through ten directories of 16 MB each, but for the last name."""
    cap, others = "URI:LIT:mzxw6", children(16_000_000 // len(entry(b"%08d" % 0, b"{}")))
    for _ in range(10):
        cap = put_text(server, others + entry(b"~", b"{}", cap.encode()))
    return "/" + cap + "/~" * 9


def walker(server):
    """GETs of small files behind ten directories of 16 MB each, each of another name in the last one."""
    way, names = long_way(server), itertools.count()
    return lambda: once(server, asked(b"GET", "%s/%08d" % (way, next(names))))()


def hidden(request):
    """A request in parts that hide it: its head is cut; another comes first in one piece; it has a body; empty lines come first; its target is a URI."""
    return [
        [request[:2], request[2:]],
        [SMALL + request],
        [request.replace(b"Content-Length: 0", b"Content-Length: 1") + b"x"],
        [b"\r\n\r\n" + request],
        [request.replace(b" /uri", b" http://g/uri", 1)],
    ]


def hider(server):
    """The same walks, in such parts by turns."""
    way, names = long_way(server), itertools.count()

    def load():
        at = next(names)
        in_parts(server, hidden(asked(b"GET", "%s/%08d" % (way, at)))[at % 5], pause=0.01)()

    return load


def many_members():
    """Metadata of 1.3 million members, 15.6 MB, whose keys rise."""
    return b"{" + b",".join(b'"%06x":{}' % at for at in range(1_300_000)) + b"}"


def through(server, text):
    """GETs through a directory with this text, each of another name that is missing."""
    cap, names = put_text(server, text), itertools.count()
    return lambda: once(server, asked(b"GET", "/%s/%08d" % (cap, next(names))), status=b"404")()


def getter(server):
    """GETs through a directory whose one child has 1.3 million members of metadata."""
    return through(server, entry(b"child", many_members()))


def made_of(server, members, status=b"200"):
    """A directory made of children JSON with these members, again and again."""
    body = b"{%s}" % b",".join(members)
    return once(server, asked(b"POST", "?t=mkdir-immutable", len(body)), body, status)


def member(name, metadata=b"{}"):
    return b'"%s":["filenode",{"ro_uri":"URI:LIT:mzxw6","metadata":%s}]' % (name, metadata)


def maker_of_directories(server):
    """Directories whose one child has such metadata."""
    return made_of(server, [member(b"child", many_members())])


def maker_of_long_directories(server):
    """Directories of 300,000 children, made of 14.4 MB of children JSON."""
    return made_of(server, [b'"%06d":["filenode",{"ro_uri":"URI:LIT:mzxw6"}]' % at for at in range(300_000)])


def verifier(server):
    """Checks with verify of a file of 16 MiB."""
    cap = server.ask("PUT", "/uri", random.Random(17).randbytes(16 << 20)).decode()
    return once(server, asked(b"POST", "/%s?t=check&verify=true&output=JSON" % cap))


def reader(server):
    """GETs of 1,000 bytes of two files of 16 MiB, by turns."""
    loads = []
    for at in (18, 19):
        cap = server.ask("PUT", "/uri", random.Random(at).randbytes(16 << 20))
        head = b"GET /uri/%s HTTP/1.1\r\nHost: g\r\nConnection: close\r\nRange: bytes=5000000-5000999\r\n\r\n" % cap
        loads.append(once(server, head, status=b"206"))
    turns = itertools.cycle(loads)
    return lambda: next(turns)()


def lister(server):
    """The `t=json` of a directory of 20,000 children."""
    return once(server, asked(b"GET", "/%s?t=json" % put_text(server, children(20_000))))


# Loads beside which a quick client is timed: what makes one, and what it is called.
BESIDE = {
    "puts": (putter, "puts of 16 MiB"),
    "chunks": (chunk_putter, "puts of 16 MiB in chunks"),
    "walks": (walker, "GETs along ten directories of 16 MB"),
    "forms": (hider, "the same GETs, hidden"),
    "metadata": (getter, "GETs through 15.6 MB of metadata"),
    "makes": (maker_of_directories, "directories made of 15.6 MB of metadata"),
    "makes_many": (maker_of_long_directories, "directories made of 300,000 children"),
    "verifies": (verifier, "checks of 16 MiB with verify"),
    "parts": (reader, "GETs of 1,000 bytes of two files of 16 MiB"),
    "wide": (lister, "listings of 20,000 children"),
}


def falling_members():
    return b"{" + b",".join(b'"%06x":{}' % at for at in reversed(range(1_300_000))) + b"}"


def listed(server, metadata):
    """The `t=json` of a directory of one child with such metadata, which has them as Python writes them, with keys in order."""
    target = "/%s?t=json" % put_text(server, entry(b"child", metadata))
    spelling = json.dumps(json.loads(metadata), separators=(",", ":"), sort_keys=True).encode()
    if server.ask("GET", "/uri" + target).count(spelling) != 1:
        fail("another listing")
    return once(server, asked(b"GET", target))


# The same of what is long in another way.
STRANGE = {
    "tokens": (lambda server: through(server, entry(b"child", b'{"a":[%s]}' % b",".join([b"true"] * 3_100_000))), "GETs through 3.1 million values"),
    "text": (lambda server: through(server, entry(b"child", b'{"a":"%s"}' % (b"x" * 15_600_000))), "GETs through one text of 15.6 MB"),
    "name": (lambda server: through(server, entry("é".encode() * 7_800_000)), "GETs by a name of 15.6 MB"),
    "falling": (lambda server: through(server, entry(b"child", falling_members())), "GETs through falling keys"),
    "lists_metadata": (lambda server: listed(server, many_members()), "listings of 15.6 MB of metadata"),
    "lists_falling": (lambda server: listed(server, falling_members()), "listings of falling keys"),
    "makes_falling": (lambda server: made_of(server, [member(b"child", falling_members())]), "directories made of falling keys"),
    "no_children": (lambda server: made_of(server, [b'"%05x":0' % at for at in range(1_600_000)], b"400"), "refusals of 1.6 million members"),
    "few": (lambda server: made_of(server, [member(b"%03d" % at, b'{"a":"%s"}' % (b"x" * 63_000)) for at in range(245)]), "directories made of 245 children"),
}


@contextlib.contextmanager
def in_memory(folder):
    """A store in memory, which is the program's own choice."""
    yield []


@contextlib.contextmanager
def on_disks(folder):
    """Five folders whose shares stay on the disk."""
    yield ["dir:%s/%d:2G,disk" % (folder, at) for at in range(5)]


@contextlib.contextmanager
def over_redis(folder):
    """Three Redis servers, on ports that are free now."""
    servers, places = [], []
    for at in range(3):
        with socket.create_server(("127.0.0.1", 0)) as free:
            port = free.getsockname()[1]
        words = ["redis-server", "--port", str(port), "--bind", "127.0.0.1", "--save", "", "--dir", folder]
        servers.append(subprocess.Popen(words, stdout=subprocess.DEVNULL))
        places.append("redis:127.0.0.1:%d" % port)
    time.sleep(1)
    yield places
    for each in servers:
        each.kill()


def loaded(program, load, count=1, stores=in_memory):
    """One of these loads, by so many clients at once, over such stores."""
    with tempfile.TemporaryDirectory() as folder:
        with stores(folder) as places:
            loaded_over(program, load, count, places)


def loaded_over(program, load, count, places):
    maker, called = load
    stores = [word for place in places for word in ("--store", place)]
    server = wozhinnam(program, "--connections", "100", *stores, control=True)
    load = maker(server)
    quick = server.connect()
    times("small GETs alone", [small(quick) for _ in range(2000)])
    each = beside("%s, by %d" % (called, count), server, quick, load, count)
    print("%s a second: %.2f; memory at most %d MB" % (called, each, server.memory("VmHWM") >> 20))
    server.stop()


def mixed(program, names=None):
    """All of them at once, or those with these names, by a client each."""
    server = served(program, 100)
    loads = [BESIDE[name][0](server) for name in names or BESIDE]
    quick = server.connect()
    turn, mine = itertools.count(), threading.local()

    def load():
        if not hasattr(mine, "load"):
            mine.load = loads[next(turn)]
        mine.load()

    each = beside("all of these", server, quick, load, len(loads), seconds=30)
    print("all of these a second: %.2f; memory at most %d MB" % (each, server.memory("VmHWM") >> 20))
    server.stop()


def listings(program):
    server = served(program, 100)
    names = [b"%08d" % at + b"\x01" * 240 for at in range(55_000)]
    cap = put_text(server, b"".join(entry(name, b"{}") for name in names))
    quick = server.connect()
    small(quick)
    before = server.memory()
    streams = []
    for _ in range(20):
        stream = socket.socket()
        stream.setsockopt(socket.SOL_SOCKET, socket.SO_RCVBUF, 4096)
        stream.connect(server.address)
        stream.sendall(listing_request(cap))
        streams.append(stream)
    time.sleep(10)
    small(quick)
    print("20 GETs of a listing that nobody takes: %.1f MB of memory beside, %d MB at most" % ((server.memory() - before) / 1e6, server.memory("VmHWM") >> 20))
    for stream in streams:
        stream.close()
    streams = [all_but_the_end(server, cap) for _ in range(20)]
    small(quick)
    print("20 of which all but 1 MB is taken: %.1f MB of memory beside" % ((server.memory() - before) / 1e6))
    for stream in streams + [quick]:
        stream.close()
    server.stop()


def listing_request(cap):
    return b"GET /uri/%s?t=json HTTP/1.1\r\nHost: g\r\n\r\n" % cap.encode()


def all_but_the_end(server, cap):
    """A connection on which all of a listing was taken but the last 1,000,000 bytes."""
    stream = server.connect()
    stream.sendall(listing_request(cap))
    head = b""
    while b"\r\n\r\n" not in head:
        head += stream.recv(65_536)
    fields, _, body = head.partition(b"\r\n\r\n")
    length = int(fields.split(b"Content-Length: ")[1].split(b"\r\n")[0])
    taken(stream, length - len(body) - 1_000_000)
    return stream


def cut(program):
    """Connections that end at any place, with what waits left unread."""
    server = served(program, 300)
    request, length = stored(server)
    put = b"PUT /uri HTTP/1.1\r\nHost: g\r\nContent-Length: 100000\r\n\r\n" + bytes(100_000)
    quick = server.connect()
    small(quick)
    memory, handles = server.memory(), server.handles()
    over = time.monotonic() + 60
    counts = []

    def come(seed):
        chance = random.Random(seed)
        count = 0
        while time.monotonic() < over:
            stream = server.connect()
            stream.settimeout(0.05)
            sent = chance.choice([request, put, SMALL * 50, b"GET /uri/%00 HTTP/1.1\r\n\r\n", b"\x00" * 20_000])
            try:
                stream.sendall(sent[:chance.randrange(1, len(sent) + 1)])
                if chance.random() < 0.5:
                    stream.recv(chance.randrange(1, 65_536))
            except OSError:
                pass
            if chance.random() < 0.5:
                stream.setsockopt(socket.SOL_SOCKET, socket.SO_LINGER, struct.pack("ii", 1, 0))
            stream.close()
            count += 1
        counts.append(count)

    threads = [threading.Thread(target=come, args=(seed,)) for seed in range(16)]
    for thread in threads:
        thread.start()
    waits = []
    while time.monotonic() < over:
        waits.append(small(quick))
        time.sleep(0.005)
    for thread in threads:
        thread.join(SECONDS)
    times("small GETs beside %d connections that were cut" % sum(counts), waits)
    time.sleep(15)
    small(quick)
    print("15 s later: %d KiB of memory more than before, %d handles more" % ((server.memory() - memory) >> 10, server.handles() - handles))
    server.stop()


def came(program, most, seconds):
    server = served(program, 1000)
    marks = []
    began = time.monotonic()
    for at in range(most):
        if at % (most // 4) == 0:
            marks.append(server.memory())
        with server.connect() as stream:
            small(stream)
        if time.monotonic() - began > seconds:
            break
    marks.append(server.memory())
    print("%d connections one after the other: %.0f µs each; memory that stays: %d bytes each, at each quarter: %s KiB" % (
        at + 1, (time.monotonic() - began) / (at + 1) * 1e6, (marks[-1] - marks[1]) // max(1, at - most // 4), [m >> 10 for m in marks]))
    server.stop()


def pipelined(program):
    server = served(program, 100)
    request, length = stored(server)
    before = server.memory("VmHWM")
    stream = server.connect()
    count = 500
    sender = threading.Thread(target=lambda: stream.sendall(request * count))
    sender.start()
    time.sleep(1)
    held = server.memory("VmHWM") - before
    began = time.monotonic()
    for at in range(count):
        taken(stream, length)
        if time.monotonic() - began > SECONDS:
            break
    print("%d of %d pipelined GETs of 4 MiB: %.1f a second; memory beside: %.1f MB before any was read, %.1f MB at most" % (
        at + 1, count, (at + 1) / (time.monotonic() - began), held / 1e6, (server.memory("VmHWM") - before) / 1e6))
    stream.close()
    sender.join(10)
    server.stop()


LOADS = {
    "open": open_ones,
    "readers": lambda program: readers(program, 8),
    "many_readers": lambda program: readers(program, 200),
    "slow_readers": slow_readers,
    "untaken": untaken,
    "came": lambda program: came(program, 100_000, SECONDS),
    "million": lambda program: came(program, 1_000_000, 600),
    "pipelined": pipelined,
    "cut": cut,
    "listings": listings,
    **{name: functools.partial(loaded, load=load) for name, load in BESIDE.items()},
    **{"disk_" + name: functools.partial(loaded, load=load, stores=on_disks) for name, load in BESIDE.items()},
    **{"redis_" + name: functools.partial(loaded, load=load, stores=over_redis) for name, load in BESIDE.items()},
    "many_puts": functools.partial(loaded, load=BESIDE["puts"], count=4),
    "mixed": mixed,
    "again": functools.partial(mixed, names=("metadata", "makes")),
    **{name: functools.partial(loaded, load=load) for name, load in STRANGE.items()},
}


def main():
    names = [name for name in sys.argv[2:] if name != "--steps"]
    if len(sys.argv) < 2 or any(name not in LOADS for name in names):
        sys.exit(__doc__)
    _, most = resource.getrlimit(resource.RLIMIT_NOFILE)
    resource.setrlimit(resource.RLIMIT_NOFILE, (most, most))
    for name in names or [name for name in LOADS if not name.startswith(("disk_", "redis_"))]:
        print("%s" % name, flush=True)
        LOADS[name](sys.argv[1])


main()
