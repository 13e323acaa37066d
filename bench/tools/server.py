"""One start of a server, for all Python scripts of bench/: the program is started, waited for until it listens, asked, and ended.

    from server import built, wozhinnam
    server = wozhinnam(program, "--shares", "3,10", control=True)
    cap = server.ask("PUT", "/uri", b"text")
    server.stop()

A script puts this folder on its path first: `sys.path.insert(0, os.path.join(HERE, "../tools"))`.
"""

import http.client
import os
import re
import resource
import socket
import subprocess
import sys
import time

ROOT = os.path.abspath(os.path.join(os.path.dirname(os.path.abspath(__file__)), "../.."))
# Seconds that a reply may take.
PATIENCE = 300


def fail(words):
    """Ends the script with status 1."""
    sys.exit("%s: %s" % (os.path.basename(sys.argv[0]), words))


def checked_program(program):
    """The path of a program that is there, whole, so that it means the same in every folder."""
    if not (os.path.isfile(program) and os.access(program, os.X_OK)):
        fail("there is no program %s: build it by `rt run` in its crate's folder, or name another one" % program)
    return os.path.abspath(program)


def built(name):
    """The program that the first argument names, or else the one that `rt run` builds in crates/NAME."""
    place = os.path.join(ROOT, "crates", name, "out", name)
    return checked_program(sys.argv[1] if len(sys.argv) > 1 else place)


class Client:
    """One kept connection, opened at the first request. Its calls give the status and the body."""

    def __init__(self, address):
        self.connection = http.client.HTTPConnection(*address, timeout=PATIENCE)

    def ask(self, method, path, body=None):
        self.connection.request(method, path, body)
        reply = self.connection.getresponse()
        return reply.status, reply.read()

    def put(self, body):
        status, text = self.ask("PUT", "/uri", body)
        return status, text.decode("ascii", "replace").strip()

    def get(self, cap):
        return self.ask("GET", "/uri/" + cap)

    def close(self):
        self.connection.close()


class Server:
    """A program that was started. `address` and `control` are None where it ended before it said them."""

    def __init__(self, words, has_control=False, errors=subprocess.DEVNULL, env=None, limit=None):
        """`limit` is of its address space, in bytes; `errors` is where its standard error goes."""
        began = time.monotonic()
        limits = (lambda: resource.setrlimit(resource.RLIMIT_AS, (limit, limit))) if limit else None
        self.process = subprocess.Popen([checked_program(words[0])] + words[1:], stdout=subprocess.PIPE, stderr=errors, env=env, preexec_fn=limits)
        self.address = self.said("listening on ")
        self.control = self.said("control on ") if has_control and self.address else None
        self.seconds = time.monotonic() - began
        self.client = None

    def said(self, words):
        """The address on the next line of its standard output."""
        line = self.process.stdout.readline().decode()
        if not line.startswith(words):
            return None
        host, port = line[len(words):].strip().rsplit(":", 1)
        return host, int(port)

    def connect(self, address=None, patience=PATIENCE):
        """A connection of bytes, to the gateway's port unless another one is named."""
        stream = socket.create_connection(address or self.address, timeout=patience)
        stream.setsockopt(socket.IPPROTO_TCP, socket.TCP_NODELAY, 1)
        return stream

    def ask(self, method, path, body=None):
        """The body of a reply 200; any other ends the script."""
        self.client = self.client or Client(self.address)
        status, text = self.client.ask(method, path, body)
        if status != 200:
            fail("%s %s is answered %d: %r" % (method, path, status, text[:100]))
        return text

    def asked_control(self, method, path):
        """What its control port answers, head and body."""
        with self.connect(self.control) as stream:
            stream.sendall(("%s %s HTTP/1.1\r\nHost: %s:%d\r\n\r\n" % ((method, path) + self.control)).encode())
            text = b""
            while got := stream.recv(65536):
                text += got
        return text

    def memory(self, field="VmRSS"):
        """Bytes of memory: resident, or another field of Linux's status file (`VmHWM` at its highest, `VmPeak` of addresses)."""
        with open("/proc/%d/status" % self.process.pid) as status:
            return int(re.search(field + r":\s+(\d+) kB", status.read()).group(1)) * 1024

    def handles(self):
        return len(os.listdir("/proc/%d/fd" % self.process.pid))

    def stop(self):
        """Asks it to stop; a status other than 0 ends the script."""
        if self.client:
            self.client.close()
        self.asked_control("POST", "/stop")
        status = self.process.wait(30)
        self.process.stdout.close()
        if status != 0:
            fail("the program ended with %d" % status)

    def kill(self):
        """Ends it by kill -9, if it still runs."""
        if self.client:
            self.client.close()
        self.process.kill()
        self.process.wait()
        self.process.stdout.close()


def started(server):
    """The server, if it listens; else its end is the script's."""
    if server.address is None:
        server.kill()
        fail("the program did not start: %s" % " ".join(server.process.args))
    return server


def wozhinnam(program, *options, control=False, **how):
    """`wozhinnam serve` on a free port of the loopback, with these options; it listens."""
    return started(Server(serve_words(program, *options, control=control), control, **how))


def as_installed():
    """The environment of this process, with what the unit of `install/` sets for the C library's memory."""
    with open(os.path.join(os.path.dirname(os.path.abspath(__file__)), "../../install/wozhinnam.service")) as unit:
        words = [line.strip().partition("Environment=")[2] for line in unit if line.startswith("Environment=MALLOC_")]
    return dict(os.environ, **dict(word.split("=") for word in words))


def serve_words(program, *options, control=False):
    return [program, "serve", "--listen", "127.0.0.1:0"] + (["--control", "127.0.0.1:0"] if control else []) + list(options)


def gate_main(program, connections, **how):
    """`gate_main serve` for so many connections, one after the other; it listens."""
    return started(Server([program, "serve", "127.0.0.1:0", str(connections)], **how))
