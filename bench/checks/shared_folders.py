#!/usr/bin/env python3
"""Runs three gateways over the same folders (`--store dir:PATH,shared`): what one answered is read through every other at once.

Four clients upload files of random bytes, each to a gateway by lot, and read each file through every gateway right after it
was answered, and an older one by lot. Some files are uploaded by two clients at once. Meanwhile gateways are killed by
kill -9 and started again. In the end each file that was acknowledged is read through every gateway.

Then who may use the folders: while a gateway serves them, a start that wants them alone is refused (status 15), and so are
other numbers and another order of the folders; and once none serves them, `check` finds nothing wrong, and a start that has
them alone, with an index, reads each file, which refuses a start that would share them.

usage: bench/checks/shared_folders.py WOZHINNAM [--seconds N] [--size BYTES] [--seed SEED]
"""

import argparse
import http.client
import os
import random
import shutil
import subprocess
import sys
import tempfile
import threading
import time

sys.path.insert(0, os.path.join(os.path.dirname(os.path.abspath(__file__)), "../tools"))

from server import Client, Server, fail, serve_words, started

GATES, FOLDERS, CLIENTS = 3, 3, 4
# The statuses of a folder that another process uses, of one of another grid, and of one in another place.
IN_USE, OTHER_GRID, OTHER_PLACE = 15, 19, 18
# The status of a start that met a grid which another start had just begun; it is started again.
BEGUN = 31


class Grid:
    """The folders, their gateways, and what was acknowledged."""

    def __init__(self, options, folder):
        self.options, self.folder = options, folder
        self.paths = [os.path.join(folder, "f%d" % at) for at in range(FOLDERS)]
        self.secret = os.path.join(folder, "secret")
        with open(self.secret, "w") as file:
            file.write("a secret of all")
        self.gates = [None] * GATES
        self.kept, self.counts, self.lock = [], {}, threading.Lock()

    def words(self, kind=",shared", shares="2,6", paths=None):
        stores = [word for path in paths or self.paths for word in ("--store", "dir:%s%s" % (path, kind))]
        return serve_words(self.options.program, "--shares", shares, "--secret-file", self.secret, *stores)

    def start(self, at):
        for _ in range(5):
            gate = Server(self.words())
            if gate.address is not None or gate.process.wait() != BEGUN:
                break
        self.gates[at] = started(gate)

    def start_all(self):
        threads = [threading.Thread(target=self.start, args=(at,)) for at in range(GATES)]
        for thread in threads:
            thread.start()
        for thread in threads:
            thread.join()
        if None in self.gates:
            fail("a gateway did not start")

    def add(self, what):
        with self.lock:
            self.counts[what] = self.counts.get(what, 0) + 1

    def asked(self, at, call):
        """What a gateway answers, or None where its connection was cut."""
        client = Client(self.gates[at].address)
        try:
            return call(client)
        except (OSError, http.client.HTTPException):
            return None
        finally:
            client.close()

    def read(self, at, cap, body, what):
        answer = self.asked(at, lambda client: client.get(cap))
        if answer is None:
            self.add(what + " cut")
            return False
        if answer[0] == 200 and answer[1] != body:
            self.add("OTHER BYTES")
        self.add("%s %d" % (what, answer[0]))
        return answer == (200, body)

    def client(self, number, until):
        source = random.Random("%s %d" % (self.options.seed, number))
        # Clients 0 and 1 upload the same files, at gateways of their own.
        bodies = random.Random("%s %d" % (self.options.seed, max(number, 1)))
        while time.monotonic() < until:
            body = bodies.randbytes(self.options.size)
            answer = self.asked(source.randrange(GATES), lambda client: client.put(body))
            if answer is None:
                self.add("uploads cut")
            elif answer[0] != 200:
                self.add("OTHER ANSWER %d %s" % answer)
            else:
                self.add("uploads taken")
                with self.lock:
                    self.kept.append((answer[1], body))
                    before = source.choice(self.kept)
                for at in range(GATES):
                    self.read(at, answer[1], body, "at once")
                self.read(source.randrange(GATES), *before, "before")

    def run(self):
        until = time.monotonic() + self.options.seconds
        threads = [threading.Thread(target=self.client, args=(at, until)) for at in range(CLIENTS)]
        for thread in threads:
            thread.start()
        lot = random.Random(self.options.seed)
        while time.monotonic() < until - 3:
            time.sleep(lot.uniform(1, 3))
            at = lot.randrange(GATES)
            self.gates[at].kill()
            self.start(at)
            self.add("gateways killed")
        for thread in threads:
            thread.join()

    def bad(self):
        """What is wrong, after each file was read through every gateway."""
        lost = sum(not self.read(at, cap, body, "in the end") for cap, body in self.kept for at in range(GATES))
        wrong = [what for what in self.counts if what.startswith("OTHER")]
        wrong += [what for what in self.counts if what.startswith(("at once", "before")) and not what.endswith(("200", "cut"))]
        if lost:
            wrong.append("%d readings in the end failed" % lost)
        if not self.kept:
            wrong.append("nothing was uploaded")
        return wrong

    def refused(self, what, words, status):
        """Nothing, or that a start wasn't refused by this status."""
        other = Server(words)
        if other.address is not None:
            other.kill()
            return ["%s was started" % what]
        ended = other.process.wait()
        return [] if ended == status else ["%s ended with %d and not %d" % (what, ended, status)]

    def owners(self):
        """What is wrong in who may use the folders."""
        wrong = self.refused("one that wants the folders alone", self.words(":1G,disk"), IN_USE)
        wrong += self.refused("one of other numbers", self.words(shares="3,6"), OTHER_GRID)
        wrong += self.refused("one of another order", self.words(paths=self.paths[1:] + self.paths[:1]), OTHER_PLACE)
        for gate in self.gates:
            gate.kill()
        checked = subprocess.run([self.options.program, "check", *self.paths], capture_output=True, text=True)
        if checked.returncode:
            wrong.append("check ended with %d: %s" % (checked.returncode, checked.stderr.strip()[-200:]))
        alone = started(Server(self.words(":1G,disk")))
        self.gates[0] = alone
        wrong += ["a file isn't read by one that has the folders alone" for cap, body in self.kept if not self.read(0, cap, body, "alone")][:1]
        wrong += self.refused("one that shares folders that another has alone", self.words(), IN_USE)
        alone.kill()
        return wrong


def main():
    parser = argparse.ArgumentParser()
    parser.add_argument("program")
    parser.add_argument("--seconds", type=float, default=15)
    parser.add_argument("--size", type=int, default=20_000)
    parser.add_argument("--seed", default="1")
    options = parser.parse_args()
    folder = tempfile.mkdtemp()
    grid = Grid(options, folder)
    grid.start_all()
    try:
        grid.run()
        wrong = grid.bad() + grid.owners()
    finally:
        for gate in grid.gates:
            gate.kill()
    print(", ".join("%s %d" % item for item in sorted(grid.counts.items())))
    shutil.rmtree(folder)
    for what in wrong:
        print("shared_folders.py: " + what, file=sys.stderr)
    print("shared_folders.py: %s" % ("%d faults" % len(wrong) if wrong else "all is well"))
    sys.exit(1 if wrong else 0)


main()
