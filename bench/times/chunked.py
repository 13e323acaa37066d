#!/usr/bin/env python3
"""Times puts of one body through `gate_main serve`: with a Content-Length, in chunks of 65,536 bytes and in chunks of one byte, and the
last two at half the length, in interleaved rounds. Prints the least seconds of each, the first beside the second, and how the times grow
with the length. It is no test. It needs the built program: run `rt run -- replay < stdin` in crates/gate_main first.

usage: bench/times/chunked.py [PROGRAM [ROUNDS]]
"""

import os
import sys
import time

sys.path.insert(0, os.path.join(os.path.dirname(os.path.abspath(__file__)), "../tools"))

from server import built, fail, gate_main

PROGRAM = built("gate_main")
ROUNDS = int(sys.argv[2]) if len(sys.argv) > 2 else 5
LENGTH = 16_777_216


def body_of(length):
    return (bytes(i % 251 for i in range(251)) * (length // 251 + 1))[:length]


def plain(body):
    return b"Content-Length: %d\r\n\r\n" % len(body) + body


def in_chunks(body, size):
    parts = [b"Transfer-Encoding: chunked\r\n\r\n"]
    for at in range(0, len(body), size):
        part = body[at:at + size]
        parts.append(b"%x\r\n%s\r\n" % (len(part), part))
    parts.append(b"0\r\n\r\n")
    return b"".join(parts)


def put(server, message):
    """The seconds from the first byte sent to the reply, and the cap."""
    with server.connect() as connection:
        began = time.perf_counter()
        connection.sendall(b"PUT /uri HTTP/1.1\r\nHost: g\r\nConnection: close\r\n" + message)
        reply = b""
        while True:
            more = connection.recv(65536)
            if not more:
                break
            reply += more
        taken = time.perf_counter() - began
    if not reply.startswith(b"HTTP/1.1 200 "):
        fail("answered %r" % reply[:40])
    return taken, reply.split(b"\r\n\r\n")[1]


def main():
    whole, half = body_of(LENGTH), body_of(LENGTH // 2)
    messages = {
        "plain": plain(whole),
        "chunks of 65,536": in_chunks(whole, 65536),
        "chunks of 1": in_chunks(whole, 1),
        "half, chunks of 65,536": in_chunks(half, 65536),
        "half, chunks of 1": in_chunks(half, 1),
    }
    least, caps = {}, {}
    server = gate_main(PROGRAM, ROUNDS * len(messages))
    try:
        for _ in range(ROUNDS):
            for name, message in messages.items():
                taken, caps[name] = put(server, message)
                least[name] = min(taken, least.get(name, taken))
        server.process.wait(60)
    finally:
        server.kill()
    if not caps["plain"] == caps["chunks of 65,536"] == caps["chunks of 1"]:
        fail("not one cap")
    for name, taken in least.items():
        print("%-24s %7.1f ms" % (name, 1000 * taken))
    print("chunks of 65,536 / plain: %.2f" % (least["chunks of 65,536"] / least["plain"]))
    for size in ("65,536", "1"):
        print("chunks of %s, whole / half: %.2f" % (size, least["chunks of " + size] / least["half, chunks of " + size]))


main()
