#!/usr/bin/env python3
"""Times `wozhinnam serve` over five folders of one disk: it is no test. It needs Linux and the built program.

puts    an acknowledged put of 4 MiB at 3 of 10, and its get: in folders with syncs, in folders without, in memory; beside
        ten files of the same length, written by this script as a folder's shares are (written, synced, renamed, and the
        folder of the name synced), with syncs and without
opens   a start over shares of 50 KB, 10,000 of them unless told otherwise, and the memory that the program then has,
        beside reading those files and hashing them, which this script does; the files are read once before each

usage: bench/times/folders.py PROGRAM [--folder WHERE] [--puts COUNT] [--shares COUNT] [puts|opens ..]
"""

import argparse
import hashlib
import os
import re
import shutil
import signal
import sys
import tempfile
import time

sys.path.insert(0, os.path.join(os.path.dirname(os.path.abspath(__file__)), "../tools"))

from server import fail, wozhinnam

SERVERS = 5
NEEDED, MADE = 3, 10
FILE = 4_194_304
SHARE = 50_000


def served(program, options):
    return wozhinnam(program, "--room", str(1 << 40), *options)


def stores_in(folder):
    words = []
    for server in range(SERVERS):
        words += ["--store", "dir:%s/s%d" % (folder, server)]
    return words


def middle(times):
    return sorted(times)[len(times) // 2]


def told(words, times):
    print("%-48s %7.1f ms, %.1f to %.1f" % (words, 1000 * middle(times), 1000 * min(times), 1000 * max(times)), flush=True)


def timed(work):
    began = time.monotonic()
    answer = work()
    return time.monotonic() - began, answer


def sync(path):
    handle = os.open(path, os.O_RDONLY)
    os.fsync(handle)
    os.close(handle)


def write_plain(folder, number, bodies, synced):
    """Writes the files as the shares of one upload are written."""
    for at, body in enumerate(bodies):
        top = os.path.join(folder, "p%d" % (at % SERVERS))
        place = os.path.join(top, "0")
        unfinished = os.path.join(top, "new", "%d.%d" % (number, at))
        with open(unfinished, "wb", buffering=0) as file:
            file.write(body)
            if synced:
                os.fsync(file.fileno())
        os.rename(unfinished, os.path.join(place, "%d.%d" % (number, at)))
        if synced:
            sync(place)


def sha256(text):
    return hashlib.sha256(text).digest()


def seal(share):
    """The seal of a share: of the tagged hashes of its four parts."""
    quarter = (len(share) + 3) // 4
    parts = (share[place * quarter : (place + 1) * quarter if place < 3 else None] for place in range(4))
    return sha256(b"".join(sha256(sha256(b"20:wozhinnam shelf seal," + part)) for part in parts))[:8]


def share_files(folder):
    for top, _, names in os.walk(folder):
        for name in names:
            if re.fullmatch(r"[a-z2-7]{26}\.\d+", name):
                yield os.path.join(top, name)


def puts(program, folder, count):
    for words, stores in (("folders, synced", stores_in(folder + "/synced")),
                          ("folders, --no-sync", stores_in(folder + "/unsynced") + ["--no-sync"]),
                          ("memory", [])):
        for top in ("/synced", "/unsynced"):
            os.makedirs(folder + top, exist_ok=True)
        server = served(program, stores)
        put_times, get_times = [], []
        for _ in range(count):
            body = os.urandom(FILE)
            took, cap = timed(lambda: server.ask("PUT", "/uri", body))
            put_times.append(took)
            took, text = timed(lambda: server.ask("GET", "/uri/" + cap.decode().strip()))
            get_times.append(took)
            if text != body:
                fail("other bytes")
        server.kill()
        told("put of 4 MiB, " + words, put_times)
        told("get of 4 MiB, " + words, get_times)
    lengths = sorted(os.path.getsize(path) for path in share_files(folder + "/synced"))
    for server in range(SERVERS):
        for name in ("new", "0"):
            os.makedirs("%s/p%d/%s" % (folder, server, name))
    for synced in (True, False):
        times = []
        for number in range(count):
            bodies = [os.urandom(lengths[0]) for _ in range(MADE)]
            took, _ = timed(lambda: write_plain(folder, number, bodies, synced))
            times.append(took)
        told("ten files of %d bytes, %s" % (lengths[0], "synced" if synced else "not synced"), times)


def opens(program, folder, count):
    top = folder + "/opens"
    os.makedirs(top)
    stores = stores_in(top)
    server = served(program, stores + ["--no-sync"])
    body_length = NEEDED * (SHARE - 400)
    for _ in range(count // MADE):
        server.ask("PUT", "/uri", os.urandom(body_length))
    server.kill()

    def read_and_hash():
        files = bytes_read = 0
        for path in share_files(top):
            with open(path, "rb") as file:
                text = file.read()
            if seal(text[:-8]) != text[-8:]:
                fail("rotten " + path)
            files += 1
            bytes_read += len(text) - 8
        return files, bytes_read

    read_and_hash()
    for _ in range(2):
        took, (files, length) = timed(read_and_hash)
        print("read and hashed by this script: %d files, %d bytes, %.2f s" % (files, length, took), flush=True)
        server = served(program, stores)
        print("opened: %.2f s; memory %.1f MB, at its highest %.1f MB, of shares %.1f MB" % (
            server.seconds, server.memory("VmRSS") / 1e6, server.memory("VmHWM") / 1e6, length / 1e6), flush=True)
        server.kill()


def main():
    signal.signal(signal.SIGTERM, lambda *_: sys.exit(1))
    parser = argparse.ArgumentParser()
    parser.add_argument("program")
    parser.add_argument("what", nargs="*")
    parser.add_argument("--folder", help="where the folders are made; a temporary folder unless told")
    parser.add_argument("--puts", type=int, default=15)
    parser.add_argument("--shares", type=int, default=10_000)
    options = parser.parse_intermixed_args()
    folder = tempfile.mkdtemp(prefix="folders.", dir=options.folder)
    try:
        if not options.what or "puts" in options.what:
            puts(options.program, folder, options.puts)
        if not options.what or "opens" in options.what:
            opens(options.program, folder, options.shares)
    finally:
        shutil.rmtree(folder)


if __name__ == "__main__":
    main()
