#!/usr/bin/env python3
"""Times directories of more and more children, and the largest inputs that a body may be, by `gate_main replay`: seconds of a
processor for one request of each kind. It is no test, but it stops where an answer isn't the right one. It needs the built
program: run `rt run` in crates/gate_main first.

usage: bench/times/directories.py [PROGRAM]
"""

import os
import resource
import subprocess
import sys

sys.path.insert(0, os.path.join(os.path.dirname(os.path.abspath(__file__)), "../tools"))

from server import built, fail

PROGRAM = built("gate_main")
# The most bytes that a body has.
LIMIT = 4_194_304
# How often each request is made in a run, and how many runs there are.
TURNS = 5
RUNS = 4


def escaped(text):
    """The bytes as a script has them."""
    return text.replace(b"\\", b"\\\\").replace(b"\r", b"\\r").replace(b"\n", b"\\n")


def script_of(requests):
    lines = [b"grid 3 10 5 1000000000 -", b"open 1"]
    for request in requests:
        lines += [b"bytes 1 " + escaped(request), b"take 1 4294967295"]
    return b"\n".join(lines) + b"\n"


def run(requests):
    """The answers to some requests, and the seconds of a processor that they took."""
    before = resource.getrusage(resource.RUSAGE_CHILDREN)
    answers = subprocess.run([PROGRAM, "replay"], input=script_of(requests), stdout=subprocess.PIPE, check=True).stdout
    after = resource.getrusage(resource.RUSAGE_CHILDREN)
    seconds = after.ru_utime + after.ru_stime - before.ru_utime - before.ru_stime
    return [line[6:] for line in answers.split(b"\n") if line.startswith(b"bytes ")], seconds


def send(line, body=b""):
    length = b"Content-Length: %d\r\n" % len(body) if body else b""
    return line + b" HTTP/1.1\r\nHost: g\r\n" + length + b"\r\n" + body


def timed(before, request, end):
    """The seconds that a request takes after those before it, by the least times of some runs. Each answer ends so."""
    first = min(run(before)[1] for _ in range(RUNS))
    whole = None
    for _ in range(RUNS):
        answers, seconds = run(before + TURNS * [request])
        whole = seconds if whole is None else min(whole, seconds)
        for answer in answers[len(before):]:
            if not answer.endswith(end):
                fail("another answer: %r" % answer[-200:])
    return (whole - first) / TURNS


def cap_of(request):
    answers, _ = run([request])
    return answers[0].rsplit(b"\\n", 1)[1]


def name(number):
    return b"child%06d" % number


def children(count):
    return b"{" + b",".join(b'"%s":["filenode",{"ro_uri":"URI:LIT:my"}]' % name(i) for i in range(count)) + b"}"


def netstring(text):
    return b"%d:%s," % (len(text), text)


def directory_text(limit):
    """The text of as many entries as the limit has room for, and the name of the last."""
    entries, size, number = [], 0, 0
    while True:
        entry = netstring(netstring(name(number)) + netstring(b"URI:LIT:my") + netstring(b"") + netstring(b"{}"))
        if size + len(entry) > limit:
            return b"".join(entries), name(number - 1)
        entries.append(entry)
        size += len(entry)
        number += 1


def main():
    make = b"POST /uri?t=mkdir-immutable"
    print("children   made ms   walked ms   listed ms")
    for count in (5_000, 10_000, 20_000, 40_000, 80_000):
        request = send(make, children(count))
        cap = cap_of(request)
        made = timed([], request, cap)
        walked = timed([request], send(b"GET /uri/%s/%s" % (cap, name(count - 1))), b"\\r\\n\\r\\nf")
        listed = timed([request], send(b"GET /uri/%s?t=json" % cap), b'"}]')
        print("%8d %9.1f %11.1f %11.1f" % (count, 1000 * made, 1000 * walked, 1000 * listed))
    print("one request of each of the longest inputs, in ms")
    text, last = directory_text(LIMIT)
    put = send(b"PUT /uri", text)
    cap = cap_of(put).replace(b"URI:CHK:", b"URI:DIR2-CHK:")
    show("a text of %d entries, walked" % text.count(b"child"), timed([put], send(b"GET /uri/%s/%s" % (cap, last)), b"f"))
    refused = b"bad children\\n"
    show("JSON of as many brackets as a body has bytes", timed([], send(make, b"[" * LIMIT), refused))
    show("JSON of one string", timed([], send(make, b'"' + b"a" * (LIMIT - 2) + b'"'), refused))
    deep = b'{"a":["filenode",{"ro_uri":"URI:LIT:my","metadata":{"a":' + 120 * b"[" + 120 * b"]" + b"}}]}"
    show("metadata nested 121 levels deep", timed([], send(make, deep), refused))
    show("a target of 16,000 bytes", timed([], send(b"GET /uri/URI:LIT:my/" + b"%41" * 5_320), b"not a directory\\n"))
    show("a target of 8,000 names", timed([], send(b"GET /uri/URI:LIT:my" + b"/a" * 8_000), b"too many names\\n"))


def show(what, seconds):
    print("%9.1f  %s" % (1000 * seconds, what))


main()
