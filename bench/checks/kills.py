#!/usr/bin/env python3
"""Kills `wozhinnam serve` over folders, and looks for what it had acknowledged.

A round: the program is started over five folders; four clients upload files of random bytes, 60 to 200,000 of them, each on its own connection;
at a random moment the program is killed by kill -9 (in one round of six while it starts). Then it is started again, and
read: each file of this round whose cap came, some of earlier rounds, and the upload that each client had under way. Its
cap is what a second program answers, one in memory that is told no more than these files. Such a file has to be whole or
refused (404 or 410), and to be readable once it is uploaded again. In the end every file is read.

All bytes that are compared were made here.

A file that is lost, or bytes that nobody stored, end it with status 1.

usage: bench/checks/kills.py PROGRAM [ROUNDS [SEED]] [--no-sync] [--folder WHERE] [--most BYTES] [--time SECONDS]
"""

import argparse
import http.client
import os
import random
import shutil
import signal
import subprocess
import sys
import tempfile
import threading
import time

sys.path.insert(0, os.path.join(os.path.dirname(os.path.abspath(__file__)), "../tools"))

from server import Client, Server, fail, serve_words, wozhinnam

CLIENTS = 4
SERVERS = 5
REFUSALS = (404, 410)


def body_of(seed, most):
    """The bytes of a file, 60 of them to so many."""
    source = random.Random(seed)
    return source.randbytes(int(60 * (most / 60) ** source.random()))


class Trial:
    def __init__(self, options, folder):
        self.options = options
        self.folder = folder
        self.random = random.Random(options.seed)
        self.folders = [os.path.join(folder, "s%d" % at) for at in range(SERVERS)]
        self.errors = open(os.path.join(folder, "errors"), "w+")
        self.kept = []  # (cap, seed) of each upload that was answered
        self.count = {"killed in uploads": 0, "killed at start": 0, "answered": 0, "cut": 0, "cut whole": 0,
                      "cut refused": 0, "unfinished files": 0, "lost": 0, "other bytes": 0, "other faults": 0}
        self.running = None
        self.other = wozhinnam(options.program, "--servers", str(SERVERS), "--room", str(1 << 40))

    def started(self):
        server = Server(self.words(), errors=self.errors)
        if not server.address:
            server.kill()
            self.errors.seek(0)
            fail("the program did not start: " + self.errors.read()[-2000:])
        return server

    def words(self):
        words = serve_words(self.options.program, "--room", str(1 << 40))
        for folder in self.folders:
            words += ["--store", "dir:" + folder]
        return words + (["--no-sync"] if self.options.no_sync else [])

    def fault(self, kind, words):
        self.count[kind] += 1
        print("kills.py: %s: %s" % (kind, words), file=sys.stderr)

    def body(self, seed):
        return body_of(seed, self.options.most)

    def upload(self, address, seeds, kept, cut):
        """Uploads files until the connection breaks: the one that was under way is cut."""
        client = Client(address)
        for seed in seeds:
            try:
                status, cap = client.put(self.body(seed))
            except (OSError, http.client.HTTPException):
                cut.append(seed)
                break
            if status != 200:
                self.fault("other faults", "an upload is answered %d" % status)
                break
            kept.append((cap, seed))
        client.close()

    def round(self, number):
        """Uploads until the kill; what was acknowledged in it, and what was cut."""
        kept, cut = [], []
        threads = []
        for client in range(CLIENTS):
            seeds = ["%s %d %d %d" % (self.options.seed, number, client, at) for at in range(10_000)]
            threads.append(threading.Thread(target=self.upload, args=(self.running.address, seeds, kept, cut)))
        for thread in threads:
            thread.start()
        time.sleep(self.random.uniform(0, self.options.time))
        self.running.kill()
        for thread in threads:
            thread.join()
        self.count["killed in uploads"] += 1
        self.count["answered"] += len(kept)
        self.count["cut"] += len(cut)
        self.kept += kept
        return kept, cut

    def unfinished(self):
        for folder in self.folders:
            if os.path.isdir(os.path.join(folder, "new")):
                self.count["unfinished files"] += len(os.listdir(os.path.join(folder, "new")))

    def start(self):
        """Starts the program, which is killed while it starts once in six times."""
        while self.random.random() < 1 / 6:
            process = subprocess.Popen(self.words(), stdout=subprocess.DEVNULL, stderr=self.errors)
            time.sleep(self.random.uniform(0, 0.3))
            process.kill()
            process.wait()
            self.count["killed at start"] += 1
        self.running = self.started()

    def read(self, files):
        client = Client(self.running.address)
        for cap, seed in files:
            status, text = client.get(cap)
            if status != 200:
                self.fault("lost", "%s is answered %d" % (cap, status))
            elif text != self.body(seed):
                self.fault("other bytes", cap)
        client.close()

    def read_cut(self, seeds):
        client, other = Client(self.running.address), Client(self.other.address)
        for seed in seeds:
            body = self.body(seed)
            _, cap = other.put(body)
            status, text = client.get(cap)
            if status == 200 and text == body:
                self.count["cut whole"] += 1
            elif status in REFUSALS:
                self.count["cut refused"] += 1
            elif status == 200:
                self.fault("other bytes", cap)
            else:
                self.fault("other faults", "an upload that was cut is answered %d" % status)
            if client.put(body) != (200, cap) or client.get(cap) != (200, body):
                self.fault("other faults", "an upload that was cut can't be made again")
            self.kept.append((cap, seed))
        client.close()
        other.close()

    def check(self):
        words = [self.options.program, "check"] + self.folders
        answer = subprocess.run(words, capture_output=True, text=True)
        if answer.returncode != 0:
            self.fault("other faults", "check ends with %d: %s" % (answer.returncode, answer.stderr[-2000:]))
        return answer.stdout

    def run(self):
        self.start()
        for number in range(self.options.rounds):
            kept, cut = self.round(number)
            self.unfinished()
            if number % 10 == 9:
                self.check()
            self.start()
            self.read(kept + self.random.sample(self.kept, min(20, len(self.kept))))
            self.read_cut(cut)
            if sys.stdout.isatty():
                print("\r%d of %d" % (number + 1, self.options.rounds), end="", flush=True)
        self.read(self.kept)
        self.running.kill()
        self.other.kill()
        print(self.check(), end="")
        print(", ".join("%s %d" % (words, count) for words, count in self.count.items()))
        bad = self.count["lost"] + self.count["other bytes"] + self.count["other faults"]
        return 1 if bad else 0


def main():
    signal.signal(signal.SIGTERM, lambda *_: sys.exit(1))
    parser = argparse.ArgumentParser()
    parser.add_argument("program")
    parser.add_argument("rounds", type=int, nargs="?", default=200)
    parser.add_argument("seed", nargs="?", default="1")
    parser.add_argument("--no-sync", action="store_true")
    parser.add_argument("--folder", help="where the folders are made; a temporary folder unless told")
    parser.add_argument("--most", type=int, default=200_000, help="how many bytes a file has at most")
    parser.add_argument("--time", type=float, default=0.8, help="for how many seconds a round may upload")
    options = parser.parse_intermixed_args()
    folder = tempfile.mkdtemp(prefix="kills.", dir=options.folder)
    trial = None
    try:
        trial = Trial(options, folder)
        status = trial.run()
    finally:
        for program in (trial.running, trial.other) if trial else ():
            if program and program.process.poll() is None:
                program.kill()
        shutil.rmtree(folder)
    sys.exit(status)


if __name__ == "__main__":
    main()
