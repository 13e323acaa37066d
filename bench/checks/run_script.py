#!/usr/bin/env python3
"""`install/run.sh` around the built server: at TERM, INT and HUP a reply that is under way goes out and the status is 0, a second signal cuts
it, USR1 and USR2 do nothing; control addresses that are given, in a file or not at all, with a token or without; by curl and by wget; refusals
and statuses; as the first process of a container, where the program alone takes no TERM (that part needs root and unshare). It needs curl,
wget, dash and bash, and takes half a minute.
usage: bench/checks/run_script.py WOZHINNAM
"""

import os
import shutil
import signal
import socket
import subprocess
import sys
import tempfile
import time

HERE = os.path.dirname(os.path.abspath(__file__))
sys.path.insert(0, os.path.join(HERE, "../tools"))
from server import Server, built, fail, serve_words, started

RUN = os.path.join(HERE, "../../install/run.sh")
# More than the system buffers of a reply, here and there.
LONG = os.urandom(400000)
CUT = 128 + signal.SIGTERM


def run(*words, before=(), **variables):
    """The server behind run.sh, which is started by these words before it."""
    words = list(before) + [RUN, "--listen", "127.0.0.1:0"] + list(words)
    return started(Server([shutil.which(words[0])] + words[1:], True, env=dict(os.environ, **variables)))


def half_a_reply(server, cap):
    """A connection that has taken the beginning of a long reply."""
    stream = socket.socket()
    stream.setsockopt(socket.SOL_SOCKET, socket.SO_RCVBUF, 8192)
    stream.settimeout(60)
    stream.connect(server.address)
    stream.sendall(("GET /uri/%s HTTP/1.1\r\nHost: g\r\nConnection: close\r\n\r\n" % cap).encode())
    return stream, stream.recv(1000)


def rest_of(stream, text):
    try:
        while got := stream.recv(1 << 20):
            text += got
    except ConnectionError:
        pass
    return text


def ends(what, process, wanted, seconds=20):
    try:
        status = process.wait(seconds)
    except subprocess.TimeoutExpired:
        fail("%s: it doesn't end" % what)
    if status != wanted:
        fail("%s: the status is %d and not %d" % (what, status, wanted))


def finishes(what, server, cap, number=signal.SIGTERM, pid=None):
    """The first signal: the reply that is under way goes out."""
    stream, text = half_a_reply(server, cap)
    os.kill(pid or server.process.pid, number)
    time.sleep(0.5)
    if server.process.poll() is not None:
        fail("%s: it ends before the reply is out" % what)
    if not rest_of(stream, text).endswith(LONG):
        fail("%s: the reply is cut" % what)
    ends(what, server.process, 0)


def refused(what, words, wanted, said, **variables):
    done = subprocess.run([RUN] + words, capture_output=True, text=True, timeout=20, env=dict(os.environ, **variables))
    if done.returncode != wanted or said not in done.stderr or len(done.stderr.splitlines()) != 1:
        fail("%s: %d, %r" % (what, done.returncode, done.stderr))


def main():
    program = built("wozhinnam")
    os.environ["WOZHINNAM"] = program
    # A script that was started in the background hands on that INT is ignored.
    for number in (signal.SIGINT, signal.SIGHUP):
        signal.signal(number, lambda *_: sys.exit(1))
    folder = tempfile.mkdtemp()
    stores = ["--shares", "1,1", "--store", "dir:%s/store" % folder]
    try:
        server = run(*stores)
        cap = server.ask("PUT", "/uri", LONG).decode()
        server.process.terminate()
        ends("TERM beside a kept connection", server.process, 0)
        for shell in ("dash", "bash"):
            for number in (signal.SIGTERM, signal.SIGINT, signal.SIGHUP):
                server = run(*stores, before=[shell])
                for other in (signal.SIGUSR1, signal.SIGUSR2):
                    server.process.send_signal(other)
                finishes("%s at %s" % (shell, number.name), server, cap, number)
            server = run(*stores, before=[shell])
            stream, text = half_a_reply(server, cap)
            server.process.send_signal(signal.SIGTERM)
            time.sleep(0.5)
            server.process.send_signal(signal.SIGTERM)
            ends("%s at a second signal" % shell, server.process, CUT, 3)
            if rest_of(stream, text).endswith(LONG):
                fail("%s at a second signal: the reply isn't cut" % shell)

        # two beside each other, and a port that the words name already
        first = run()
        second = run("--listen", "127.0.0.1:%d" % (first.control[1] + 1))
        if first.control[1] < 3457 or second.said("control on ")[1] <= first.control[1] + 1:
            fail("the control addresses: %s" % first.control)
        for server in (first, second):
            server.process.terminate()
            ends("one of two", server.process, 0)

        # addresses that are given, and a token
        token, options = os.path.join(folder, "token"), os.path.join(folder, "options")
        with open(token, "w") as text:
            text.write("a/token+of=bytes\n")
        port = run()
        port.process.terminate()
        ends("one that frees a port", port.process, 0)
        for host in ("127.0.0.1", "0.0.0.0", "localhost"):
            finishes("at " + host, run(*stores, "--control", "%s:%d" % (host, port.control[1])), cap)
        control = "--control=127.0.0.1:%d" % port.control[1]
        finishes("a token", run(*stores, control, "--control-token-file", token), cap)
        with open(options, "w") as text:
            text.write('control = "127.0.0.1:%d" # here\ncontrol-token-file = \'%s\'\n' % (port.control[1], token))
        finishes("a file of options", run(*stores, "--config", options), cap)

        # wget alone, and neither
        for word in ("sh", "sed", "grep", "cat", "wget"):
            os.symlink(shutil.which(word), os.path.join(folder, word))
        finishes("wget", run(*stores, PATH=folder), cap)
        finishes("wget with a token", run(*stores, control, "--control-token-file=" + token, PATH=folder), cap)
        os.remove(os.path.join(folder, "wget"))
        refused("neither curl nor wget", [], 127, "there is no curl and no wget", PATH=folder)

        # refusals, and the program's own
        refused("a control port of 0", ["--control", "127.0.0.1:0"], 2, "a port other than 0")
        refused("a program that isn't there", [], 127, "none", WOZHINNAM=folder + "/none")
        refused("an address that is none", ["--listen", "127.0.0.1"], 3, "address")

        # a signal while it starts, when nobody answers yet
        slow = os.path.join(folder, "slow")
        with open(slow, "w") as text:
            text.write("#!/bin/sh\nexec sleep 60\n")
        os.chmod(slow, 0o755)
        process = subprocess.Popen([RUN], env=dict(os.environ, WOZHINNAM=slow), stderr=subprocess.DEVNULL)
        time.sleep(0.5)
        process.terminate()
        ends("while it starts", process, CUT)

        # the first process of a container
        if os.geteuid() == 0 and shutil.which("unshare"):
            inside = [shutil.which("unshare"), "-fp", "--mount-proc"]
            child = lambda server: int(subprocess.check_output(["pgrep", "-P", str(server.process.pid)]))
            server = run(*stores, before=inside)
            finishes("as the first process", server, cap, pid=child(server))
            alone = started(Server(inside + serve_words(program)))
            os.kill(child(alone), signal.SIGTERM)
            time.sleep(1)
            if alone.process.poll() is not None:
                fail("the program alone, as the first process, ends at TERM: run.sh isn't needed, and docs/OPERATING.md says so")
            os.kill(child(alone), signal.SIGKILL)
            alone.process.wait()
        else:
            print("not tried: the first process of a container (it needs root and unshare)")
    finally:
        shutil.rmtree(folder)
    print("run.sh: a signal lets replies go out, a second one cuts them, and the status is the program's")


if __name__ == "__main__":
    main()
