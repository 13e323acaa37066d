#!/usr/bin/env python3
"""Times `wozhinnam serve` over Redis servers of this machine, beside redis-benchmark in the same minute: it is no test. It needs Linux, the built program,
redis-server and redis-benchmark (apt-get install redis-server redis-tools).

share   a put and a get of a file of 500,000 bytes at 1 of 1 over one server, less what they take over a store in memory, the
        least of 240 turns each, beside the least of six runs of redis-benchmark, `SET` and `GET` of as many bytes under as
        many names, one connection
paced   `SET` and `GET` of as many bytes by a plain client that rests between two of them
file    a put and a get of 4 MiB at 3 of 10 over five servers, and over stores in memory
grid    files of 4 MiB, ten times as many bytes of shares as the program may have memory (ulimit -v), put, read and checked

Servers keep their data in memory alone (no append-only file), so that the disk isn't timed.

usage: bench/times/engine_times.py PROGRAM [share|paced|file|grid ..]
"""

import os
import re
import socket
import statistics
import subprocess
import sys
import tempfile
import time

HERE = os.path.dirname(os.path.abspath(__file__))
sys.path[:0] = [os.path.join(HERE, "../tools"), os.path.join(HERE, "../checks")]

from engines import Engine
from server import fail, wozhinnam

TURNS = 40
ROUNDS = 6
SHARE, FILE = 500_000, 4_194_304
PAUSE = 0.004
MEMORY = 256 << 20


def served(program, options, **how):
    return wozhinnam(program, "--room", str(1 << 40), *options, **how)


def median_of(turns, call):
    times = []
    for at in range(turns):
        began = time.monotonic()
        call(at)
        times.append(time.monotonic() - began)
    return statistics.median(times)


def body(at, size):
    return os.urandom(16) + bytes([at % 256]) * (size - 16)


def timed(program, words, size, turns):
    """The median seconds of a put and of a get."""
    server = served(program, words)
    caps = []
    put = median_of(turns, lambda at: caps.append(server.ask("PUT", "/uri", body(at, size)).decode()))
    got = median_of(turns, lambda at: server.ask("GET", "/uri/" + caps[at]))
    server.kill()
    return put, got


def store(engine, at):
    return ["--store", "redis:127.0.0.1:%d/%d" % (engine.port, at)]


def benchmark(engine):
    """The seconds of SET and of GET of as many bytes as a share, under as many names as there are shares."""
    text = subprocess.run(["redis-benchmark", "-p", str(engine.port), "-t", "set,get", "-d", str(SHARE), "-n", str(5 * TURNS), "-r", str(ROUNDS * TURNS),
                           "-c", "1", "--csv"], capture_output=True, text=True, check=True).stdout
    rows = dict(re.findall(r'"(SET|GET)","([0-9.]+)"', text))
    return 1 / float(rows["SET"]), 1 / float(rows["GET"])


def seconds_of(call):
    began = time.monotonic()
    call()
    return time.monotonic() - began


def share(program, engines):
    """The least of each kind of call, over rounds in which the two servers and redis-benchmark take turns, so that all meet the same neighbours."""
    one = ["--shares", "1,1"]
    servers = [served(program, one + ["--store", "mem:1000000000"]), served(program, one + store(engines[0], 0))]
    least = {(kind, place): float("inf") for kind in ("put", "get") for place in range(3)}
    caps = [[], []]

    def note(kind, place, seconds):
        least[kind, place] = min(least[kind, place], seconds)

    for at in range(ROUNDS * TURNS):
        content = body(at, SHARE)
        for place, server in enumerate(servers):
            note("put", place, seconds_of(lambda: caps[place].append(server.ask("PUT", "/uri", content).decode())))
    for at in range(ROUNDS * TURNS):
        for place, server in enumerate(servers):
            note("get", place, seconds_of(lambda: server.ask("GET", "/uri/" + caps[place][at])))
        if at % TURNS == 0:
            for kind, seconds in zip(("put", "get"), benchmark(engines[0])):
                note(kind, 2, seconds)
    for server in servers:
        server.kill()
    for kind in ("put", "get"):
        memory, redis, plain = (least[kind, place] for place in range(3))
        print("a %s of a share of %d bytes: %.2f ms beside %.2f ms by redis-benchmark: %.2f times (%.2f ms whole, %.2f in memory)" % (
            kind, SHARE, (redis - memory) * 1e3, plain * 1e3, (redis - memory) / plain, redis * 1e3, memory * 1e3))


def paced(engine, command, wanted):
    """The least seconds of an exchange of a plain client that rests before each: what it tells, and how many bytes it is answered."""
    room = memoryview(bytearray(wanted))
    least = float("inf")
    with socket.create_connection(("127.0.0.1", engine.port)) as client:
        client.setsockopt(socket.IPPROTO_TCP, socket.TCP_NODELAY, 1)
        for _ in range(TURNS):
            until = time.monotonic() + PAUSE
            while time.monotonic() < until:
                pass
            began = time.monotonic()
            client.sendall(command)
            came = 0
            while came < wanted:
                count = client.recv_into(room[came:])
                if count == 0:
                    fail("the server ended the connection")
                came += count
            least = min(least, time.monotonic() - began)
    return least


def clients(program, engines):
    head = b"$%d\r\n" % SHARE
    exchanges = ((b"*3\r\n$3\r\nSET\r\n$6\r\npaced:\r\n" + head + bytes(SHARE) + b"\r\n", len("+OK\r\n")), (b"GET paced:\r\n", len(head) + SHARE + 2))
    pauses = [float("inf")] * 2
    for _ in range(8):
        for kind, (command, wanted) in enumerate(exchanges):
            pauses[kind] = min(pauses[kind], paced(engines[1], command, wanted))
    print("a plain client that asks every %d ms: SET %.2f ms, GET %.2f ms" % (PAUSE * 1e3, pauses[0] * 1e3, pauses[1] * 1e3))


def file(program, engines):
    words = ["--shares", "3,10"]
    memory = timed(program, words + ["--store", "mem:2000000000"] * 5, FILE, TURNS)
    redis = timed(program, words + sum([store(engine, 10 + at) for at, engine in enumerate(engines)], []), FILE, TURNS)
    for name, at in (("put", 0), ("get", 1)):
        print("a %s of 4 MiB at 3 of 10 over five servers: %.1f ms, in memory %.1f ms: %.2f times" % (
            name, redis[at] * 1e3, memory[at] * 1e3, redis[at] / memory[at]))


def grid(program, engines):
    words = ["--shares", "3,10"] + sum([store(engine, 20 + at) for at, engine in enumerate(engines)], [])
    server = served(program, words, limit=MEMORY)
    count = 10 * MEMORY // (FILE * 10 // 3)
    caps = [server.ask("PUT", "/uri", body(at, FILE)).decode() for at in range(count)]
    most = server.memory("VmPeak")
    for at in range(0, count, 7):
        if len(server.ask("GET", "/uri/" + caps[at])) != FILE:
            fail("other bytes")
        if b'"healthy":true' not in server.ask("POST", "/uri/%s?t=check&output=JSON&verify=true" % caps[at], b""):
            fail("not healthy")
    print("%d files of 4 MiB, %d bytes of shares, under a limit of %d bytes: %d bytes of address space at most, %d resident" % (
        count, count * FILE * 10 // 3, MEMORY, most, server.memory("VmHWM")))
    server.kill()


def main():
    if len(sys.argv) < 2:
        sys.exit(__doc__)
    program, *parts = sys.argv[1:]
    with tempfile.TemporaryDirectory() as folder:
        engines = [Engine(os.path.join(folder, "r%d" % at), durable=False) for at in range(5)]
        for engine in engines:
            engine.start()
        try:
            for part in parts or ("share", "paced", "file", "grid"):
                {"share": share, "paced": clients, "file": file, "grid": grid}[part](program, engines)
        finally:
            for engine in engines:
                engine.kill()


if __name__ == "__main__":
    main()
