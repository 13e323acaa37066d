"""Several gateways over the same Redis servers, behind HAProxy, for the scripts of bench/.

    from fleet import Engine, Fleet
    fleet = Fleet(program, engines, count=3, folder=folder)
    fleet.front.address            # where HAProxy listens
    fleet.gates[1].kill()          # kill -9
    fleet.start(1)                 # at the same port
    fleet.end()

It needs redis-server and haproxy (Debian's packages of these names).
"""

import os
import signal
import socket
import subprocess
import time

from server import Server, fail, serve_words

# Seconds until what was started listens.
START = 20


def free_port():
    with socket.socket() as listener:
        listener.bind(("127.0.0.1", 0))
        return listener.getsockname()[1]


def wait_for(port):
    until = time.monotonic() + START
    while time.monotonic() < until:
        try:
            socket.create_connection(("127.0.0.1", port), 1).close()
            return
        except OSError:
            time.sleep(0.05)
    fail("nothing listens at %d" % port)


class Engine:
    """A Redis server with a folder of its own."""

    def __init__(self, folder, durable=True):
        self.folder = folder
        self.durable = durable
        os.mkdir(folder)
        self.port = free_port()
        self.process = None

    def start(self, *options):
        with open(os.path.join(self.folder, "log"), "a") as log:
            self.process = subprocess.Popen(
                ["redis-server", "--port", str(self.port), "--bind", "127.0.0.1", "--save", "", "--appendonly",
                 "yes" if self.durable else "no", "--appendfsync", "always", "--maxmemory-policy", "noeviction", "--dir", self.folder, *options], stdout=log, stderr=log)
        for _ in range(200):
            if self.asked(b"PING\r\n").startswith(b"+PONG"):
                return
            time.sleep(0.05)
        fail("a Redis server did not start: see " + self.folder)

    def asked(self, command):
        """What it answers to a command, nothing where it doesn't."""
        try:
            with socket.create_connection(("127.0.0.1", self.port), timeout=5) as stream:
                stream.sendall(command)
                return stream.recv(4096)
        except OSError:
            return b""

    def told(self, *words):
        """What it answers to a command of these words."""
        return self.asked(b"*%d\r\n" % len(words) + b"".join(b"$%d\r\n%s\r\n" % (len(word), word) for word in words))

    def info(self, section):
        """What INFO says of a section."""
        with socket.create_connection(("127.0.0.1", self.port), timeout=5) as stream:
            stream.sendall(b"INFO %s\r\n" % section)
            return stream.recv(65536)

    def used(self):
        return int(self.info(b"memory").split(b"used_memory:")[1].split(b"\r\n")[0])

    def limit(self, more):
        """Leaves it memory for so many bytes more."""
        if not self.asked(b"CONFIG SET maxmemory %d\r\n" % (self.used() + more)).startswith(b"+OK"):
            fail("maxmemory was refused")

    def empty(self):
        if not self.asked(b"FLUSHALL\r\n").startswith(b"+OK"):
            fail("FLUSHALL was refused")

    def kill(self):
        self.process.kill()
        self.process.wait()

    def pause(self):
        self.process.send_signal(signal.SIGSTOP)

    def resume(self):
        self.process.send_signal(signal.SIGCONT)

    def end(self):
        if self.process:
            self.resume()
            self.kill()


class Front:
    """HAProxy before some ports, each connection to the one that has the fewest."""

    def __init__(self, folder, ports, check=""):
        self.port = free_port()
        self.address = ("127.0.0.1", self.port)
        path = os.path.join(folder, "front-%d.cfg" % self.port)
        with open(path, "w") as text:
            text.write("global\n    nbthread 1\n    maxconn 4000\ndefaults\n    mode tcp\n    timeout connect 2s\n    timeout client 60s\n    timeout server 60s\n"
                       "    retries 3\n    option redispatch 1\nfrontend front\n    bind 127.0.0.1:%d\n    default_backend back\nbackend back\n    balance leastconn\n%s" % (self.port, check))
            for at, port in enumerate(ports):
                text.write("    server s%d 127.0.0.1:%d check inter 200ms fall 1 rise 1 on-marked-down shutdown-sessions\n" % (at, port))
        self.process = subprocess.Popen(["haproxy", "-db", "-f", path], stdout=subprocess.DEVNULL, stderr=subprocess.DEVNULL)
        wait_for(self.port)

    def end(self):
        self.process.kill()
        self.process.wait()


class Replicated(Engine):
    """A Redis server with a replica, and HAProxy before both, which leads to the one that is the primary."""

    CHECK = "    option tcp-check\n    tcp-check send info\\ replication\\r\\n\n    tcp-check expect string role:master\n"

    def __init__(self, folder):
        super().__init__(folder)
        self.replica = Engine(folder + "-replica")
        self.primary_port = self.port

    def start(self):
        super().start()
        self.replica.start("--replicaof", "127.0.0.1", str(self.primary_port))
        for _ in range(200):
            if b"master_link_status:up" in self.replica.info(b"replication"):
                break
            time.sleep(0.1)
        self.front = Front(os.path.dirname(self.folder), [self.primary_port, self.replica.port], self.CHECK)
        self.port = self.front.port

    def fail_over(self):
        """The primary is killed, and the replica takes its place."""
        self.kill()
        time.sleep(0.5)
        if not self.replica.asked(b"REPLICAOF NO ONE\r\n").startswith(b"+OK"):
            fail("the replica was not made a primary")

    def end(self):
        super().end()
        self.replica.end()
        self.front.end()


class Fleet:
    """So many gateways over the servers, one NAME for all, and HAProxy before them."""

    def __init__(self, program, engines, count, folder, shares="3,10"):
        self.program = program
        self.stores = [word for engine in engines for word in ("--store", "redis:127.0.0.1:%d/fleet" % engine.port)]
        self.shares = shares
        self.secret = os.path.join(folder, "secret")
        with open(self.secret, "wb") as secret:
            secret.write(os.urandom(32))
        self.log = open(os.path.join(folder, "log"), "a")
        self.ports = [free_port() for _ in range(count)]
        self.gates = [None] * count
        for at in range(count):
            self.start(at)
        self.front = Front(folder, self.ports)

    def words(self, at):
        return [self.program, "serve", "--listen", "127.0.0.1:%d" % self.ports[at], "--shares", self.shares, "--secret-file", self.secret] + self.stores

    def start(self, at):
        gate = Server(self.words(at), errors=self.log)
        if gate.address is None:
            gate.kill()
            fail("a gateway did not start: see " + self.log.name)
        self.gates[at] = gate

    def addresses(self):
        return [("127.0.0.1", port) for port in self.ports]

    def end(self):
        self.front.end()
        for gate in self.gates:
            gate.kill()
        self.log.close()
