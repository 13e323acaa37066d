#!/usr/bin/env python3
"""Times `woz put` and `woz get` of one file over `wozhinnam serve`, beside a put and a get alone: by a plain client of this script, on
a kept connection, which verifies nothing. It is no test, but what comes back is compared, and with `--aims` it ends with status 1 where
an aim isn't reached by the middle times: a put and its verification in 2.2 of a put alone, a get and its verification in 2 of a get
alone; of memory 2.5 bodies at most, and less than 64 MiB for a long file, which is put in parts.

Each put is of bytes of its own, and the two kinds take turns. The time of `woz` is of the whole program, with its start and its
connection; a get is timed to nowhere, and once more into a new file, which is synced. It needs Linux and the built programs.

usage: bench/times/client_files.py WOZ PROGRAM [--size BYTES] [--long BYTES] [--rounds COUNT] [--where FOLDER] [--aims]
"""

import argparse
import filecmp
import os
import sys
import tempfile
import time

sys.path.insert(0, os.path.join(os.path.dirname(os.path.abspath(__file__)), "../tools"))

from measured import measured
from server import checked_program, fail, wozhinnam

PART = 1 << 24
MOST_PUT, MOST_GET = 2.2, 2.0
MOST_BODIES = 2.5
MOST_MEMORY = 64 << 20


def middle(numbers):
    return sorted(numbers)[len(numbers) // 2]


def write_random(path, size):
    with open(path, "wb") as file:
        for start in range(0, size, 1 << 20):
            file.write(os.urandom(min(1 << 20, size - start)))


def told(words, times, alone=None):
    beside = "  %5.2f times" % (middle(times) / middle(alone)) if alone else ""
    print("%-28s %8.1f ms, %.1f to %.1f%s" % (words, 1000 * middle(times), 1000 * min(times), 1000 * max(times), beside), flush=True)


def aim(words, found, most):
    print("%-28s %6.2f, %.2f is the aim%s" % (words, found, most, "" if found <= most else ": NOT REACHED"), flush=True)
    return found <= most


def short_file(server, start, folder, size, rounds):
    """Times and memory of a file that goes in one piece; whether the aims are reached."""
    file, back = os.path.join(folder, "file"), os.path.join(folder, "back")
    server.ask("GET", "/uri/URI:LIT:")
    plain_put, put, plain_get, get, written, put_memory, get_memory = ([] for _ in range(7))
    for _ in range(rounds):
        body = os.urandom(size)
        began = time.monotonic()
        server.ask("PUT", "/uri", body)
        plain_put.append(time.monotonic() - began)
        write_random(file, size)
        done = measured(start + ["put", file])
        put.append(done.seconds)
        put_memory.append(done.memory)
        cap = done.text.decode().strip()
        began = time.monotonic()
        text = server.ask("GET", "/uri/" + cap)
        plain_get.append(time.monotonic() - began)
        with open(file, "rb") as given:
            if given.read() != text:
                fail("a plain client got other bytes")
        done = measured(start + ["get", cap], keep=False)
        get.append(done.seconds)
        get_memory.append(done.memory)
        written.append(measured(start + ["get", cap, back]).seconds)
        if not filecmp.cmp(file, back, shallow=False):
            fail("woz got other bytes")
        os.remove(back)
    print("a file of %d bytes" % size)
    told("put alone", plain_put)
    told("woz put", put, plain_put)
    told("get alone", plain_get)
    told("woz get, to nowhere", get, plain_get)
    told("woz get, into a file", written, plain_get)
    reached = [aim("put, times one alone", middle(put) / middle(plain_put), MOST_PUT),
               aim("get, times one alone", middle(get) / middle(plain_get), MOST_GET),
               aim("memory of a put, in bodies", max(put_memory) / size, MOST_BODIES),
               aim("memory of a get, in bodies", max(get_memory) / size, MOST_BODIES)]
    return all(reached)


def long_file(server, start, folder, size):
    """The memory of a file in parts: put, got on standard output and into a file, and read by a check; whether it is as little as it
    is to be."""
    file, back = os.path.join(folder, "long"), os.path.join(folder, "long back")
    write_random(file, size)
    done = measured(start + ["put", file])
    cap = done.text.decode().strip()
    memory = {"put": done.memory}
    memory["get, to nowhere"] = measured(start + ["get", cap], keep=False).memory
    memory["get, into a file"] = measured(start + ["get", cap, back]).memory
    memory["check --read"] = measured(start + ["check", "--read", cap], keep=False).memory
    if not filecmp.cmp(file, back, shallow=False):
        fail("a file in parts came back as another")
    print("a file of %d bytes, in %d parts" % (size, (size + PART - 1) // PART))
    return all([aim("MiB of memory, " + words, most / (1 << 20), MOST_MEMORY / (1 << 20)) for words, most in memory.items()])


def main():
    words = argparse.ArgumentParser()
    words.add_argument("woz")
    words.add_argument("program")
    words.add_argument("--size", type=int, default=PART)
    words.add_argument("--long", type=int, default=5 * PART + 1)
    words.add_argument("--rounds", type=int, default=5)
    words.add_argument("--where")
    words.add_argument("--aims", action="store_true")
    given = words.parse_args()
    woz, program = checked_program(given.woz), checked_program(given.program)
    server = wozhinnam(program, control=True)
    start = [woz, "--gateway", "http://%s:%d" % server.address, "--quiet"]
    with tempfile.TemporaryDirectory(dir=given.where) as folder:
        reached = short_file(server, start, folder, given.size, given.rounds)
        reached = long_file(server, start, folder, given.long) and reached
    server.stop()
    if given.aims and not reached:
        fail("an aim isn't reached")


if __name__ == "__main__":
    main()
