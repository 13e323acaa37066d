#!/usr/bin/env python3
"""Prints how much memory `gate_main serve` has at its highest during a put and a get of a body at 3 of 10, in bodies: what
it has before is taken off, so what the stores hold counts for the put and not for the get. It is no test. It needs Linux, and the
built program: run `rt run` in crates/gate_main first.

usage: bench/times/memory.py [PROGRAM [BYTES]]        4,194,304 bytes unless told otherwise
"""

import os
import sys

sys.path.insert(0, os.path.join(os.path.dirname(os.path.abspath(__file__)), "../tools"))

from server import Client, built, fail, gate_main

LENGTH = int(sys.argv[2]) if len(sys.argv) > 2 else 4_194_304
BODY = (bytes(i % 251 for i in range(251)) * (LENGTH // 251 + 1))[:LENGTH]


def ask(server, method, path, body=None):
    """The body of the reply, on a connection of its own."""
    client = Client(server.address)
    answer = client.ask(method, path, body)[1]
    client.close()
    return answer


def during(server, what):
    """What is answered, and how much more memory the server has at its highest than before."""
    # 5 sets the highest to what it is now.
    with open("/proc/%d/clear_refs" % server.process.pid, "w") as refs:
        refs.write("5")
    before = server.memory()
    answer = what()
    return answer, server.memory("VmHWM") - before


def main():
    server = gate_main(built("gate_main"), 9)
    try:
        ask(server, "GET", "/uri/URI:LIT:")
        cap, put = during(server, lambda: ask(server, "PUT", "/uri", BODY))
        held = server.memory()
        bytes_, get = during(server, lambda: ask(server, "GET", "/uri/" + cap.decode()))
        if bytes_ != BODY:
            fail("other bytes came back")
    finally:
        server.kill()
    print("put: %.1f bodies at its highest" % (put / len(BODY)))
    print("get: %.1f bodies at its highest, beside the %.1f that the server has before it" % (get / len(BODY), held / len(BODY)))


main()
