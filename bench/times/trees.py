#!/usr/bin/env python3
"""Times `woz put -r` and `woz get -r` of a tree of small files over `wozhinnam serve`, over one connection and over several.
It is no test, but the trees that come back are compared (`diff -r`), and the caps with one another; and with `--aims` it ends
with status 1 where a put takes more than 1.3 times the server's processor time over more than one connection, by the least of all
rounds, or where `woz` has 64 MiB of memory or more.

For each number of connections a server over five stores in memory is started; the tree is put into it and got again. Beside
the time that `woz` took stand the processor time that the server took meanwhile, how many times as long `woz` took, its own
processor time, and the most memory that it had. It needs Linux and the built programs.

    trees.py WOZ PROGRAM --aims                                    10,000 files of 2,048 bytes
    trees.py WOZ PROGRAM --aims --files 100000 --jobs 8            100,000; the server's shares have some 1.1 GB
    trees.py WOZ PROGRAM --aims --files 100000 --folder 100000     all of them in one folder, whose text is some 14 MB
    trees.py WOZ PROGRAM --files 10000 --folder 5                  many small folders

With `--late MS` a proxy stands between the two, which gives each reply so many milliseconds late, as a gateway far away.

usage: bench/times/trees.py WOZ PROGRAM [--files COUNT] [--size BYTES] [--folder COUNT] [--jobs N,N..] [--late MS] [--rounds COUNT] [--where FOLDER]
       [--aims]
"""

import argparse
import os
import random
import shutil
import subprocess
import sys
import tempfile
import time

sys.path.insert(0, os.path.join(os.path.dirname(os.path.abspath(__file__)), "../tools"))
sys.path.insert(0, os.path.join(os.path.dirname(os.path.abspath(__file__)), "../checks"))

from client import proxy
from measured import measured
from server import checked_program, fail, wozhinnam

TICKS = os.sysconf("SC_CLK_TCK")
# How many times the server's processor time a put may take, and how much memory `woz` may have.
MOST_TIMES = 1.3
MOST_MEMORY = 64 << 20


def make_tree(top, files, size, in_each):
    chosen = random.Random(files)
    for at in range(files):
        folder = os.path.join(top, "folder %05d" % (at // in_each))
        if at % in_each == 0:
            os.mkdir(folder)
        with open(os.path.join(folder, "file %05d" % at), "wb") as file:
            file.write(chosen.randbytes(size))


def processor_seconds(process):
    """What a process has taken of processors so far."""
    with open("/proc/%d/stat" % process) as file:
        fields = file.read().rsplit(")", 1)[1].split()
    return (int(fields[11]) + int(fields[12])) / TICKS


def run(server, folder, words):
    """Runs `woz`; its output, seconds, the server's and its own processor seconds, and its most memory in bytes."""
    before = processor_seconds(server.process.pid)
    done = measured(words, folder)
    served = processor_seconds(server.process.pid) - before
    return done.text.decode().strip(), done.seconds, served, done.processor, done.memory


def far(server, late):
    """A gateway whose replies are those of the server, so many milliseconds late."""
    server.port = server.address[1]

    def change(stream, head, body):
        time.sleep(late / 1000)
        stream.sendall(head + b"\r\n\r\n" + body)
        return True

    return proxy(server, change)


def told(words, outcome):
    _, seconds, served, own, memory = outcome
    print("%-20s %8.2f s  server %8.2f s  %5.2f times  woz %8.2f s  %6.1f MiB"
          % (words, seconds, served, seconds / max(served, 0.01), own, memory / (1 << 20)), flush=True)


def main():
    words = argparse.ArgumentParser()
    words.add_argument("woz")
    words.add_argument("program")
    words.add_argument("--files", type=int, default=10_000)
    words.add_argument("--size", type=int, default=2048)
    words.add_argument("--folder", type=int, default=1000)
    words.add_argument("--jobs", default="1,8")
    words.add_argument("--late", type=float)
    words.add_argument("--rounds", type=int, default=1)
    words.add_argument("--where")
    words.add_argument("--aims", action="store_true")
    given = words.parse_args()
    woz, program = checked_program(given.woz), checked_program(given.program)
    with tempfile.TemporaryDirectory(dir=given.where) as folder:
        tree = os.path.join(folder, "tree")
        os.mkdir(tree)
        make_tree(tree, given.files, given.size, given.folder)
        caps = set()
        times, memory = [], []
        for turn in range(given.rounds):
            for jobs in given.jobs.split(","):
                server = wozhinnam(program, control=True)
                url = far(server, given.late).url if given.late else "http://%s:%d" % tuple(server.address)
                start = [woz, "--gateway", url, "--quiet"]
                put = run(server, folder, start + ["put", "-r", "--jobs", jobs, "tree"])
                told("put -r --jobs " + jobs, put)
                caps.add(put[0])
                if jobs != "1":
                    times.append(put[1] / max(put[2], 0.01))
                back = "back %s %d" % (jobs, turn)
                got = run(server, folder, start + ["get", "-r", "--jobs", jobs, put[0], back])
                told("get -r --jobs " + jobs, got)
                memory += [put[4], got[4]]
                if subprocess.run(["diff", "-r", tree, os.path.join(folder, back)], stdout=subprocess.DEVNULL).returncode != 0:
                    fail("the tree that came back is another")
                shutil.rmtree(os.path.join(folder, back))
                server.stop()
        if len(caps) != 1:
            fail("a tree has %d caps" % len(caps))
        if given.aims and times and min(times) > MOST_TIMES:
            fail("a put takes %.2f times the server's processor time, and %.2f is the aim" % (min(times), MOST_TIMES))
        if given.aims and max(memory) >= MOST_MEMORY:
            fail("woz has %.1f MiB, and less than %d is the aim" % (max(memory) / (1 << 20), MOST_MEMORY >> 20))


if __name__ == "__main__":
    main()
