#!/usr/bin/env python3
"""Prints how much memory replies take that wait untaken in the gateway, each on a connection of its own, by a script of the built `gate_main replay`: 200 GETs
of one file of 4 MiB, 60 of 60 such files (as many as a script has room for), and 200 of 100 bytes of one. It is no test. It needs Linux and, so that memory
that was freed doesn't count, the GNU C library.

usage: bench/times/untaken.py [PROGRAM]
"""

import os
import subprocess
import sys
import tempfile
import time

sys.path.insert(0, os.path.join(os.path.dirname(os.path.abspath(__file__)), "../tools"))

from server import built, fail

PROGRAM = built("gate_main")
LENGTH = 4_194_304
FILES = 60


class Replay:
    def __init__(self, answers):
        alone = {"MALLOC_TRIM_THRESHOLD_": "0", "MALLOC_MMAP_THRESHOLD_": "32768"}
        self.process = subprocess.Popen([PROGRAM, "replay"], stdin=subprocess.PIPE, stdout=answers, env={**os.environ, **alone})
        self.id = 0

    def ask(self, request, takes):
        """A request on a connection of its own."""
        self.id += 1
        lines = b"open %d\nbytes %d %s\n" % (self.id, self.id, request)
        self.process.stdin.write(lines + (b"take %d 1000\n" % self.id if takes else b""))

    def memory(self):
        """What it has once it waits for its next line."""
        self.process.stdin.flush()
        waits = 0
        while waits < 10:
            time.sleep(0.05)
            with open("/proc/%d/stat" % self.process.pid) as stat:
                waits = waits + 1 if stat.read().rpartition(")")[2].split()[0] == "S" else 0
        with open("/proc/%d/statm" % self.process.pid) as statm:
            return int(statm.read().split()[1]) * os.sysconf("SC_PAGE_SIZE")


def stored(answers):
    """The caps of the files, by a run of their own, since a run may write its answers at its end."""
    replay = Replay(answers)
    put_each(replay)
    replay.process.communicate()
    answers.seek(0)
    return [line.rpartition(b"\\n")[2] for line in answers.read().split(b"\n") if b"URI:CHK:" in line]


def put_each(replay):
    replay.process.stdin.write(b"grid 3 10 5 1073741824 -\n")
    for number in range(FILES):
        body = b"%08d" % number + b"a" * (LENGTH - 8)
        replay.ask(b"PUT /uri HTTP/1.1\\r\\nHost: g\\r\\nContent-Length: %d\\r\\n\\r\\n" % LENGTH + body, True)


def main():
    with tempfile.TemporaryFile() as answers:
        caps = stored(answers)
    if len(caps) != FILES:
        fail("%d caps of %d" % (len(caps), FILES))
    replay = Replay(subprocess.DEVNULL)
    put_each(replay)
    rows = (("200 GETs of one file", caps[:1] * 200, b""), ("%d GETs of %d files" % (FILES, FILES), caps, b""),
            ("200 GETs of 100 bytes of one", caps[:1] * 200, b"Range: bytes=2000000-2000099\\r\\n"))
    for name, asked, field in rows:
        before = replay.memory()
        for cap in asked:
            replay.ask(b"GET /uri/%s HTTP/1.1\\r\\nHost: g\\r\\n%s\\r\\n" % (cap, field), False)
        print("%s, untaken: %.2f MiB of memory beside" % (name, (replay.memory() - before) / 2**20), flush=True)
    replay.process.kill()


main()
