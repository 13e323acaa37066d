#!/usr/bin/env python3
"""Runs the built `wozhinnam` over a grid that is larger than the memory that it is allowed. It needs Linux.

Five servers over `dir:PATH:BYTES,disk` are filled at 3 of 10 with files of 4 MiB, random from a seed, until their shares
have ten times the bytes of address space that the program may have. Some of the files are read back and compared, and
checked by `POST ..?t=check`, also with verify=true. Then `check` looks through the folders, `image` writes their image,
`restore` lays it into five new folders, and a file is read from these. Each process of the program has that limit
(RLIMIT_AS), and its highest resident memory is told. The disk wants three times the bytes of the shares.

usage: bench/checks/larger.py PROGRAM [--folder WHERE] [--limit BYTES] [--shares BYTES] [--sample COUNT] [--seed NUMBER]
"""

import argparse
import json
import os
import random
import re
import resource
import shutil
import signal
import subprocess
import sys
import tempfile
import time

sys.path.insert(0, os.path.join(os.path.dirname(os.path.abspath(__file__)), "../tools"))

from server import checked_program, fail, wozhinnam

SERVERS = 5
NEEDED, MADE = 3, 10
FILE = 4_194_304
ROOM = 1 << 40


def limited(limit):
    def set_limit():
        resource.setrlimit(resource.RLIMIT_AS, (limit, limit))

    return set_limit


def served(options, folders):
    """The program as it serves these folders from the disk."""
    stores = []
    for folder in folders:
        stores += ["--store", "dir:%s:%d,disk" % (folder, ROOM)]
    return wozhinnam(options.program, "--no-sync", *stores, limit=options.limit)


def run(words, limit, output=None):
    """Runs the program to its end: how long it took, and its highest resident memory."""
    began = time.monotonic()
    process = subprocess.Popen(words, stdout=output or subprocess.DEVNULL, stderr=subprocess.PIPE,
                               preexec_fn=limited(limit))
    told = process.stderr.read()
    process.stderr.close()
    _, status, used = os.wait4(process.pid, 0)
    process.returncode = os.waitstatus_to_exitcode(status)
    if process.returncode != 0:
        fail("%s ended with %d: %s" % (words[1], process.returncode, told.decode(errors="replace")[-300:]))
    return time.monotonic() - began, used.ru_maxrss * 1024


def tell(words, took, length, highest):
    print("%-34s %8.1f s %8.1f MB/s, memory at its highest %6.1f MB" % (words, took, length / took / 1e6, highest / 1e6),
          flush=True)


def file_of(seed, number):
    return random.Random("%d.%d" % (seed, number)).randbytes(FILE)


def read_back(server, caps, number, seed):
    if server.ask("GET", "/uri/" + caps[number]) != file_of(seed, number):
        fail("other bytes of file %d" % number)


def checked(server, cap, verify):
    text = server.ask("POST", "/uri/%s?t=check&output=JSON%s" % (cap, "&verify=true" if verify else ""))
    if json.loads(text)["results"]["healthy"] is not True:
        fail("a file isn't healthy: %s" % text[:300])


def shares_in(folders):
    """How many bytes the shares have: each file has 8 bytes of its own beside them."""
    return sum(os.path.getsize(os.path.join(top, name)) - 8 for folder in folders for top, _, names in os.walk(folder)
               for name in names if re.fullmatch(r"[a-z2-7]{26}\.\d+", name))


def serve(options, folders, seed):
    """Fills the grid, and looks at some of its files."""
    server = served(options, folders)
    count = max(1, -(-options.shares * NEEDED // (FILE * MADE)))
    sample = random.Random(seed).sample(range(count), min(options.sample, count))
    began, caps = time.monotonic(), []
    for number in range(count):
        caps.append(server.ask("PUT", "/uri", file_of(seed, number)).decode().strip())
    tell("%d files put" % count, time.monotonic() - began, count * FILE, server.memory("VmHWM"))
    began = time.monotonic()
    for number in sample:
        read_back(server, caps, number, seed)
    tell("%d of them read and compared" % len(sample), time.monotonic() - began, len(sample) * FILE, server.memory("VmHWM"))
    began = time.monotonic()
    for number in sample:
        checked(server, caps[number], False)
        checked(server, caps[number], True)
    tell("as many checked and verified", time.monotonic() - began, len(sample) * FILE, server.memory("VmHWM"))
    server.kill()
    return caps


def move(options, top, folders):
    """Looks through the folders, writes their image, and lays it into new ones."""
    length = shares_in(folders)
    print("%d bytes of shares, %.1f times the limit of %d bytes" % (length, length / options.limit, options.limit), flush=True)
    took, highest = run([options.program, "check"] + folders, options.limit)
    tell("check", took, length, highest)
    image = os.path.join(top, "image")
    with open(image, "wb") as output:
        took, highest = run([options.program, "image"] + folders, options.limit, output)
    tell("image", took, os.path.getsize(image), highest)
    restored = [os.path.join(top, "r%d" % place) for place in range(SERVERS)]
    took, highest = run([options.program, "restore", "--no-sync", image] + restored, options.limit)
    tell("restore", took, length, highest)
    if shares_in(restored) != length:
        fail("other shares were restored")
    return restored


def main():
    signal.signal(signal.SIGTERM, lambda *_: sys.exit(1))
    parser = argparse.ArgumentParser()
    parser.add_argument("program")
    parser.add_argument("--folder", help="where the folders are made; a temporary folder unless told")
    parser.add_argument("--limit", type=int, default=400_000_000, help="of each process's address space, in bytes")
    parser.add_argument("--shares", type=int, help="bytes of shares; ten times the limit unless told")
    parser.add_argument("--sample", type=int, default=20, help="how many files are read back")
    parser.add_argument("--seed", type=int, default=1)
    options = parser.parse_args()
    options.program = checked_program(options.program)
    options.shares = options.shares or 10 * options.limit
    top = tempfile.mkdtemp(prefix="larger.", dir=options.folder)
    try:
        folders = [os.path.join(top, "s%d" % place) for place in range(SERVERS)]
        caps = serve(options, folders, options.seed)
        restored = move(options, top, folders)
        server = served(options, restored)
        read_back(server, caps, len(caps) // 2, options.seed)
        print("opened anew in %.1f s, a file read and compared; memory at its highest %.1f MB" % (
            server.seconds, server.memory("VmHWM") / 1e6), flush=True)
        server.kill()
    finally:
        shutil.rmtree(top)


if __name__ == "__main__":
    main()
