#!/usr/bin/env python3
"""Runs `wozhinnam serve` over five Redis servers that are killed, stopped and filled under four clients.

A round: five servers run (append-only files, synced with each change), and the program is started over them, 3 of 10, two
shares a server. Four clients upload files of random bytes, 60 to 200,000 of them, and read files of this round and of
earlier ones. Meanwhile two servers are killed by kill -9 and started again at random moments, and a third is stopped
(SIGSTOP) for some seconds; in the last rounds a fourth has no memory left
(`maxmemory`). Two servers or more are left at any time, which hold four shares of each file. Once all run again an upload
is to be taken within fifteen seconds, by the same program, unless one is full. Then the program is started anew, and each
file that was acknowledged in this round is read.

Before the rounds one server alone is filled, and read right after it refused uploads, as `store full`; and emptied
(FLUSHALL), after which the same uploads put their files again at once. Two programs over the same servers read what the
other one answered, at once. A program whose standard error is closed tells no line of its log to a server. And a start
is tried over servers that are down, at other places, of another K, N or secret, with a rotten text, and with a
password: its status is looked at, or that it goes on.

A read is to be answered 200 with the file's bytes. An upload is to be answered 200 or one of the two 503. All bytes that
are compared were made here.

It needs redis-server (Debian's package of that name).

usage: bench/checks/engines.py PROGRAM [--rounds N] [--seed SEED] [--time SECONDS]
"""

import argparse
import http.client
import os
import random
import shutil
import socket
import subprocess
import sys
import tempfile
import threading
import time

sys.path.insert(0, os.path.join(os.path.dirname(os.path.abspath(__file__)), "../tools"))

from fleet import Engine
from kills import body_of
from server import Client, Server, fail, serve_words, started, wozhinnam

CLIENTS = 4
SERVERS = 5
BACK = 15  # seconds
REFUSALS = (b"store full\n", b"store down\n")
SAID = {text.decode().strip() for text in REFUSALS}


class Trial:
    def __init__(self, options, folder):
        self.options = options
        self.random = random.Random(options.seed)
        self.engines = [Engine(os.path.join(folder, "r%d" % at)) for at in range(SERVERS)]
        for engine in self.engines:
            engine.start()
        self.errors = open(os.path.join(folder, "errors"), "w+")
        self.kept = []  # (cap, seed) of each upload that was answered
        self.lock = threading.Lock()
        self.count = {"uploads taken": 0, "refused: store down": 0, "refused: store full": 0, "reads": 0, "reads in trouble": 0,
                      "kills": 0, "pauses": 0, "came back": 0, "lost": 0, "other bytes": 0, "other faults": 0}
        self.running = None

    def words(self):
        words = serve_words(self.options.program, "--shares", "3,10")
        for at, engine in enumerate(self.engines):
            words += ["--store", "redis:127.0.0.1:%d/%d" % (engine.port, at)]
        return words

    def start(self):
        self.running = Server(self.words(), errors=self.errors)
        if not self.running.address:
            self.running.kill()
            self.errors.seek(0)
            fail("the program did not start: " + self.errors.read()[-2000:])

    def add(self, what, words=None):
        with self.lock:
            self.count[what] += 1
        if words:
            print("engines.py: %s: %s" % (what, words), file=sys.stderr)

    def read(self, client, cap, seed, what):
        status, body = client.get(cap)
        if status != 200:
            self.add("lost", "%s is answered %d %r" % (cap, status, body[:40]))
        elif body != body_of(seed, self.options.most):
            self.add("other bytes", cap)
        else:
            self.add(what)

    def upload(self, client, seed):
        status, text = client.put(body_of(seed, self.options.most))
        if status == 200:
            with self.lock:
                self.count["uploads taken"] += 1
                self.kept.append((text, seed))
        elif status == 503 and text in SAID:
            self.add("refused: " + text)
        else:
            self.add("other faults", "an upload is answered %d %r" % (status, text))

    def client(self, number, at, until, trouble):
        source = random.Random("%s %d %d" % (self.options.seed, number, at))
        client = Client(self.running.address)
        made = 0
        try:
            while time.monotonic() < until:
                with self.lock:
                    known = source.choice(self.kept) if self.kept else None
                if known and source.random() < 0.6:
                    self.read(client, *known, "reads in trouble" if trouble.is_set() else "reads")
                else:
                    made += 1
                    self.upload(client, "%s %d %d %d" % (self.options.seed, number, at, made))
        except (OSError, http.client.HTTPException) as fault:
            self.add("other faults", repr(fault))
        client.close()

    def torment(self, engines, trouble):
        """Kills the first two and starts them again, and stops the third and lets it go on."""
        first, second, third = engines
        time.sleep(self.random.uniform(1, 2))
        trouble.set()
        for engine in (first, second):
            engine.kill()
            self.add("kills")
            time.sleep(self.random.uniform(0, 2))
        third.pause()
        self.add("pauses")
        time.sleep(self.random.uniform(1, 3))
        first.start()
        time.sleep(self.random.uniform(0, 2))
        third.resume()
        second.start()

    def comes_back(self, number):
        """Uploads until one is taken."""
        client = Client(self.running.address)
        until = time.monotonic() + BACK
        while True:
            before = len(self.kept)
            self.upload(client, "%s back %d %f" % (self.options.seed, number, time.monotonic()))
            if len(self.kept) > before:
                self.add("came back")
                break
            if time.monotonic() > until:
                self.add("other faults", "no upload is taken %d seconds after all servers run again" % BACK)
                break
            time.sleep(0.5)
        client.close()

    def round(self, number):
        began = len(self.kept)
        self.start()
        is_full = number >= self.options.rounds - 2
        if is_full:
            self.engines[0].limit(1_000_000)
        trouble = threading.Event()
        until = time.monotonic() + self.options.time
        threads = [threading.Thread(target=self.client, args=(number, at, until, trouble)) for at in range(CLIENTS)]
        for thread in threads:
            thread.start()
        self.torment(self.random.sample(self.engines[1:], 3), trouble)
        for thread in threads:
            thread.join()
        if not is_full:
            self.comes_back(number)
        self.running.kill()
        self.start()
        client = Client(self.running.address)
        for cap, seed in self.kept[began:]:
            self.read(client, cap, seed, "reads")
        client.close()
        self.running.kill()
        print("round %d: %s" % (number, ", ".join("%s %d" % item for item in self.count.items())), flush=True)

    def end(self):
        for engine in self.engines:
            if engine.process:
                engine.resume()
                engine.kill()


class Faults:
    """What isn't as it is to be: each is told, and counted."""

    def __init__(self):
        self.count = 0

    def add(self, what, found):
        self.count += 1
        print("engines.py: %s: %r" % (what, found), file=sys.stderr)

    def wants(self, what, answer, status, text=None):
        if answer[0] != status or text is not None and answer[1] != text:
            self.add(what, (answer[0], answer[1][:60]))


def healthy(client, cap):
    status, text = client.ask("POST", "/uri/%s?t=check&output=JSON&verify=true" % cap, b"")
    return status == 200 and b'"healthy":true' in text


def one_server(options, folder, faults):
    """What a server alone does to uploads and reads once it is full, and once it was emptied."""
    engine = Engine(os.path.join(folder, "one"), durable=False)
    engine.start()
    running = wozhinnam(options.program, "--shares", "1,1", "--store", "redis:127.0.0.1:%d/one" % engine.port)
    client = Client(running.address)
    # Two are longer than what the gateway keeps whole, and of the one that was begun last alone it keeps shares: they are read
    # by turns, so each read of them asks the server. The third is kept.
    lengths = (("long", 1_500_000), ("longer", 1_600_000), ("short", 20_000))
    bodies = [random.Random(text).randbytes(size) for text, size in lengths]
    caps = []
    for body in bodies:
        status, cap = client.put(body)
        faults.wants("an upload to one server", (status, cap), 200)
        faults.wants("a read of it", client.get(cap), 200, body)
        caps.append(cap)
    # Half of what it uses, so that nothing that it gives back makes room.
    engine.limit(-engine.used() // 2)
    for at in range(100):
        faults.wants("an upload to a full server", client.put(body_of("more %d" % at, options.most)), 503, "store full")
        for cap, body in zip(caps, bodies):
            faults.wants("a read of a full server, right after it refused an upload", client.get(cap), 200, body)
    engine.limit(1 << 30)
    faults.wants("an upload to a server that has room again", client.put(body_of("room", options.most)), 200)
    for round_ in range(2):
        if not engine.asked(b"FLUSHALL\r\n").startswith(b"+OK"):
            fail("FLUSHALL was refused")
        for cap, body in zip(caps, bodies):
            if healthy(client, cap):
                faults.add("a check of a server that was emptied", "healthy")
            # In the second round a read comes first, and finds what is missing or what is in the gateway's memory.
            lost = client.get(cap) if round_ else None
            if lost and (lost[0] == 200 and lost[1] != body or lost[0] == 200 and len(body) > 1 << 20):
                faults.add("a read of a server that was emptied", lost[0])
            faults.wants("the same upload, after the server was emptied", client.put(body), 200, cap)
            if not healthy(client, cap):
                faults.add("a check of what was put again", "not healthy")
            faults.wants("a read of what was put again", client.get(cap), 200, body)
    client.close()
    running.kill()
    engine.kill()


def without_errors(options, folder, faults):
    """A program whose standard error is closed: no connection to a server has its number and is told the log."""
    engine = Engine(os.path.join(folder, "unlogged"), durable=False)
    engine.start()
    words = serve_words(options.program, "--shares", "1,1", "--store", "redis:127.0.0.1:%d" % engine.port)
    running = started(Server(["/bin/sh", "-c", 'exec "$@" 2>&-', "sh"] + words))
    client = Client(running.address)
    body = body_of("unlogged", options.most)
    status, cap = client.put(body)
    faults.wants("an upload without standard error", (status, cap), 200)
    faults.wants("a read of it", client.get(cap), 200, body)
    refused = int(engine.info(b"stats").split(b"total_error_replies:")[1].split(b"\r\n")[0])
    if refused:
        faults.add("lines that a server refused from a program without standard error", refused)
    client.close()
    running.kill()
    engine.kill()


def over(engines, *options):
    """The words of a grid over these servers, each under the same name."""
    return list(options) + sum([["--store", "redis:127.0.0.1:%d/both" % engine.port] for engine in engines], [])


def two_programs(options, engines, faults):
    """Two programs over the same servers: what one answers the other reads at once. How many files were put."""
    running = [wozhinnam(options.program, *over(engines, "--shares", "3,10")) for _ in range(2)]
    clients = [Client(one.address) for one in running]
    caps = []
    for at in range(200):
        body = body_of("both %d" % at, options.most)
        status, cap = clients[at % 2].put(body)
        faults.wants("an upload at one of two programs", (status, cap), 200)
        faults.wants("a read at the other one", clients[1 - at % 2].get(cap), 200, body)
        if at % 10 == 0:
            faults.wants("the same upload at the other one", clients[1 - at % 2].put(body), 200, cap)
        caps.append((cap, body))
    for client, one in zip(clients, running):
        client.close()
        one.kill()
    return caps


def refused(options, faults, what, words, status):
    """A start that is to end with a status, and to name a server on standard error."""
    ended = subprocess.run(serve_words(options.program, *words), capture_output=True, text=True, timeout=60)
    if ended.returncode != status or "redis:" not in ended.stderr:
        faults.add(what, (ended.returncode, ended.stderr[-300:]))


def strangers(options, engines, caps, folder, faults):
    """Starts over servers that are another's, or want a password."""
    secret, password, wrong = [os.path.join(folder, name) for name in ("secret", "password", "wrong")]
    for path, text in ((secret, "another"), (password, "open\n"), (wrong, "closed")):
        with open(path, "w") as file:
            file.write(text)
    refused(options, faults, "servers at other places", over(engines[1:] + engines[:1], "--shares", "3,10"), 18)
    refused(options, faults, "servers of another K", over(engines, "--shares", "2,10"), 19)
    refused(options, faults, "fewer servers", over(engines[:4], "--shares", "3,10"), 19)
    refused(options, faults, "another secret", over(engines, "--shares", "3,10", "--secret-file", secret), 19)
    name = b"wozhinnam:both:grid"
    text = engines[2].told(b"GET", name).split(b"\r\n", 1)[1][:64]
    engines[2].told(b"SET", name, b"rotten")
    refused(options, faults, "a rotten text", over(engines, "--shares", "3,10"), 17)
    engines[2].told(b"SET", name, text)
    engines[1].told(b"CONFIG", b"SET", b"requirepass", b"open")
    refused(options, faults, "a wrong password", over(engines[1:2], "--shares", "3,10", "--redis-password-file", wrong), 29)
    refused(options, faults, "a password where none is wanted", over(engines[2:3], "--shares", "3,10", "--redis-password-file", wrong), 29)
    refused(options, faults, "an unknown host", ["--store", "redis:no.such.host.invalid:6379"], 29)
    refused(options, faults, "no Redis server", ["--store", "redis:127.0.0.1:%d" % stranger()], 29)
    running = wozhinnam(options.program, *over(engines, "--shares", "3,10"))
    client = Client(running.address)
    faults.wants("a read where a server wants a password", client.get(caps[0][0]), 200, caps[0][1])
    client.close()
    running.kill()
    engines[1].asked(b"AUTH open\r\nCONFIG SET requirepass \"\"\r\n")


def stranger():
    """A port on which HTTP is answered."""
    listener = socket.socket()
    listener.bind(("127.0.0.1", 0))
    listener.listen(8)

    def answer():
        while True:
            stream = listener.accept()[0]
            stream.recv(4096)
            stream.sendall(b"HTTP/1.1 400 Bad Request\r\n\r\n")
            stream.close()

    threading.Thread(target=answer, daemon=True).start()
    return listener.getsockname()[1]


def without_a_server(options, engines, caps, faults):
    """A start while a server is down: reads are answered, uploads refused, and taken once it is back."""
    engines[4].kill()
    with tempfile.TemporaryFile("w+") as errors:
        running = wozhinnam(options.program, *over(engines, "--shares", "3,10"), errors=errors)
        errors.seek(0)
        told = errors.read()
        if "redis:127.0.0.1:%d: served without" % engines[4].port not in told:
            faults.add("a start without a server", told[-300:])
    client = Client(running.address)
    for cap, body in caps[:20]:
        faults.wants("a read without a server", client.get(cap), 200, body)
    faults.wants("an upload without a server", client.put(body_of("without", options.most)), 503, "store down")
    engines[4].start()
    until = time.monotonic() + BACK
    while (answer := client.put(body_of("without", options.most)))[0] != 200 and time.monotonic() < until:
        time.sleep(0.5)
    faults.wants("an upload once the server is there", answer, 200)
    client.close()
    running.kill()


def starts(options, folder):
    """How many faults there were of one server, of two programs, and of starts."""
    faults = Faults()
    one_server(options, folder, faults)
    without_errors(options, folder, faults)
    engines = [Engine(os.path.join(folder, "s%d" % at)) for at in range(SERVERS)]
    for engine in engines:
        engine.start()
    try:
        caps = two_programs(options, engines, faults)
        strangers(options, engines, caps, folder, faults)
        without_a_server(options, engines, caps, faults)
    finally:
        for engine in engines:
            engine.kill()
    print("one server, two programs, starts: %d faults" % faults.count, flush=True)
    return faults.count


def main():
    parser = argparse.ArgumentParser()
    parser.add_argument("program")
    parser.add_argument("--rounds", type=int, default=10)
    parser.add_argument("--seed", default="1")
    parser.add_argument("--time", type=float, default=12)
    parser.add_argument("--most", type=int, default=200_000)
    options = parser.parse_args()
    folder = tempfile.mkdtemp()
    alone = starts(options, folder)
    trial = Trial(options, folder)
    try:
        for number in range(options.rounds):
            trial.round(number)
    finally:
        trial.end()
    shutil.rmtree(folder)
    bad = alone + sum(trial.count[kind] for kind in ("lost", "other bytes", "other faults"))
    print("engines.py: %s" % ("%d faults" % bad if bad else "all is well"))
    sys.exit(1 if bad else 0)


if __name__ == "__main__":
    main()
