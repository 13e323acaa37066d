#!/usr/bin/env python3
"""Runs three gateways over five Redis servers, behind HAProxy: what one gateway answered is read through every other at once.

Four clients upload files of random bytes through HAProxy, and read each file through every gateway by itself, right after
it was answered, and a file by lot through HAProxy. Meanwhile, in a round of each kind:

    calm      nothing else happens
    gates     gateways are killed by kill -9 and started again
    stop      Redis servers are stopped (SIGSTOP) for up to seven seconds
    kill      Redis servers are killed by kill -9 and started again
    full      a Redis server has no memory left
    failover  one server's primary is killed, and its replica takes its place

In the end each file that was acknowledged is read again through every gateway. A read is to be answered 200 with the file's
bytes, and an upload 200 or one of the two 503; a connection may be cut where gateways are killed. While servers are down
or stopped a file may be out of reach (410), and in the end none may be. A gateway of other numbers, and one with its
servers in another order, are refused at their start by the status that is for it.

Redis servers keep what they acknowledge (`appendfsync always`). A replica lags, so a fail-over may lose the last shares of
one server; seven others of each file stand.

It needs redis-server and haproxy (Debian's packages of these names).

usage: bench/checks/together.py WOZHINNAM [--seconds N] [--size BYTES] [--kinds calm,gates,..] [--seed SEED]
"""

import argparse
import http.client
import os
import random
import shutil
import sys
import tempfile
import threading
import time

sys.path.insert(0, os.path.join(os.path.dirname(os.path.abspath(__file__)), "../tools"))

from fleet import Engine, Fleet, Replicated
from server import Client, Server, fail, serve_words

GATES = 3
SERVERS = 5
CLIENTS = 4
KINDS = ("calm", "gates", "stop", "kill", "full", "failover")
# The statuses of a server of another grid, and of one in another place.
OTHER_GRID, OTHER_PLACE = 19, 18
SAID = ("store full", "store down")
# Seconds after which a server that was down is asked again at the latest.
REST = 65


class Round:
    """One kind of trouble, from the start of all servers to their end."""

    def __init__(self, options, kind, folder):
        os.mkdir(folder)
        self.options, self.kind, self.folder = options, kind, folder
        self.random = random.Random("%s %s" % (options.seed, kind))
        self.engines = [Engine(os.path.join(folder, "r%d" % at)) for at in range(SERVERS)]
        if kind == "failover":
            self.engines[0] = Replicated(os.path.join(folder, "r0r"))
        for engine in self.engines:
            engine.start()
        self.fleet = Fleet(options.program, self.engines, GATES, folder)
        self.kept, self.counts, self.lock = [], {}, threading.Lock()
        self.until = time.monotonic() + options.seconds

    def add(self, what):
        with self.lock:
            self.counts[what] = self.counts.get(what, 0) + 1

    def read(self, address, cap, body, what):
        client = Client(address)
        try:
            status, got = client.get(cap)
        except (OSError, http.client.HTTPException):
            self.add(what + " cut")
            return False
        finally:
            client.close()
        if status == 200 and got != body:
            self.add("OTHER BYTES")
        self.add("%s %d" % (what, status))
        return status == 200 and got == body

    def put(self, body):
        client = Client(self.fleet.front.address)
        try:
            return client.put(body)
        except (OSError, http.client.HTTPException):
            return 0, ""
        finally:
            client.close()

    def client(self, number):
        source = random.Random("%s %s %d" % (self.options.seed, self.kind, number))
        while time.monotonic() < self.until:
            body = source.randbytes(self.options.size)
            status, cap = self.put(body)
            if status == 200:
                self.add("uploads taken")
                with self.lock:
                    self.kept.append((cap, body))
                    before = source.choice(self.kept)
                for address in self.fleet.addresses():
                    self.read(address, cap, body, "at once")
                self.read(self.fleet.front.address, *before, "before")
            elif status == 0:
                self.add("uploads cut")
            else:
                self.add("refused: " + cap if status == 503 and cap in SAID else "OTHER ANSWER %d %s" % (status, cap))

    def trouble(self):
        """Once the trouble of this kind."""
        time.sleep(self.random.uniform(1, 3))
        if self.kind == "gates":
            at = self.random.randrange(GATES)
            self.fleet.gates[at].kill()
            self.fleet.start(at)
            self.add("gateways killed")
        elif self.kind in ("stop", "kill"):
            engine = self.random.choice(self.engines)
            if self.kind == "stop":
                engine.pause()
            else:
                engine.kill()
            time.sleep(self.random.uniform(0.5, 7))
            if self.kind == "stop":
                engine.resume()
            else:
                engine.start()
            self.add("servers down for a while")

    def run(self):
        threads = [threading.Thread(target=self.client, args=(at,)) for at in range(CLIENTS)]
        for thread in threads:
            thread.start()
        if self.kind == "full":
            time.sleep(2)
            self.engines[0].limit(1_000_000)
        if self.kind == "failover":
            time.sleep(self.options.seconds / 2)
            self.engines[0].fail_over()
        while time.monotonic() < self.until - 3 and self.kind in ("gates", "stop", "kill"):
            self.trouble()
        for thread in threads:
            thread.join()

    def lost(self):
        """How many files aren't read through some gateway, each asked until servers that were down are asked again."""
        until = time.monotonic() + (REST if self.kind in ("stop", "kill", "failover") else 0)
        lost = 0
        for cap, body in self.kept:
            for address in self.fleet.addresses():
                while not self.read(address, cap, body, "in the end"):
                    if time.monotonic() > until:
                        lost += 1
                        break
                    time.sleep(1)
        return lost

    def bad(self, lost):
        """What is wrong in what was counted."""
        wrong = [what for what in self.counts if what.startswith("OTHER")]
        calm = self.kind in ("calm", "gates", "full")
        wrong += [what for what in self.counts if what.startswith(("at once", "before")) and calm and not what.endswith(("200", "cut"))]
        wrong += [what for what in self.counts if what.endswith("cut") and self.kind != "gates"]
        if lost:
            wrong.append("%d readings in the end failed" % lost)
        if not self.kept:
            wrong.append("nothing was uploaded")
        return wrong

    def end(self):
        self.fleet.end()
        for engine in self.engines:
            engine.end()


def refusals(program, folder):
    """A second gateway with other numbers, or with its servers in another order: what is wrong."""
    os.mkdir(folder)
    engines = [Engine(os.path.join(folder, "r%d" % at)) for at in range(2)]
    for engine in engines:
        engine.start()
    fleet = Fleet(program, engines, 1, folder, shares="1,2")
    wrong = []
    stores = fleet.stores
    for what, shares, these, status in (("other numbers", "2,2", stores, OTHER_GRID), ("another order", "1,2", stores[2:] + stores[:2], OTHER_PLACE)):
        other = Server(serve_words(program, "--shares", shares, "--secret-file", fleet.secret, *these))
        if other.address is not None:
            wrong.append("a gateway with %s was started" % what)
            other.kill()
        elif other.process.wait() != status:
            wrong.append("a gateway with %s ended with %d" % (what, other.process.returncode))
    fleet.end()
    for engine in engines:
        engine.end()
    return wrong


def main():
    parser = argparse.ArgumentParser()
    parser.add_argument("program")
    parser.add_argument("--seconds", type=float, default=15)
    parser.add_argument("--size", type=int, default=20_000)
    parser.add_argument("--kinds", default=",".join(KINDS))
    parser.add_argument("--seed", default="1")
    options = parser.parse_args()
    if unknown := [kind for kind in options.kinds.split(",") if kind not in KINDS]:
        fail("no kind of trouble: %s" % ", ".join(unknown))
    folder = tempfile.mkdtemp()
    wrong = refusals(options.program, os.path.join(folder, "refusals"))
    for kind in options.kinds.split(","):
        trial = Round(options, kind, os.path.join(folder, kind))
        try:
            trial.run()
            lost = trial.lost()
        finally:
            trial.end()
        wrong += ["%s: %s" % (kind, what) for what in trial.bad(lost)]
        print("%s: %s; %d not read in the end" % (kind, ", ".join("%s %d" % item for item in sorted(trial.counts.items())), lost), flush=True)
    shutil.rmtree(folder)
    for what in wrong:
        print("together.py: " + what, file=sys.stderr)
    print("together.py: %s" % ("%d faults" % len(wrong) if wrong else "all is well"))
    sys.exit(1 if wrong else 0)


if __name__ == "__main__":
    main()
