#!/usr/bin/env python3
"""Images of ten shares that are cut off, or have a bit changed, restored by the built program: each proper beginning is refused, and so is what one bit
makes no image; what still is one is read, and what stands is what its bytes say. What each is to be is told by a reader of its own here, after
docs/FORMATS.md, and so is the field at which an image is refused; the program says the fault and not the place. It takes some minutes.

usage: bench/checks/torn_images.py [PROGRAM]
"""

import collections
import struct
import subprocess

from script_kit import LETTERS, built, escape, fail, image

SERVERS = 5
SIZES = {b"TGRIDIM1": (">I", ">I"), b"TGRIDIM2": (">Q", ">Q")}


class BadImage(Exception):
    """The place of a field, and what it is."""


class Reader:
    def __init__(self, data):
        self.data, self.at = data, 0

    def field(self, size, name):
        if len(self.data) - self.at < size:
            raise BadImage(self.at, name)
        self.at += size
        return self.data[self.at - size:self.at]

    def number(self, form, name, allowed):
        at = self.at
        value, = struct.unpack(form, self.field(struct.calcsize(form), name))
        if not allowed(value):
            raise BadImage(at, name)
        return value


def read_share(reader, form, last):
    at = reader.at
    server = reader.number(">I", "server", lambda value: value < SERVERS)
    index = reader.field(16, "index")
    number = reader.number(">I", "number", lambda value: value < 256)
    key = server, index, number
    if last is not None and key <= last:
        raise BadImage(at, "order")
    length = reader.number(form, "length", lambda value: value > 0)
    return key, reader.field(length, "bytes")


def read_image(data):
    """What stands, or BadImage."""
    reader = Reader(data)
    name = reader.field(8, "name")
    if name not in SIZES:
        raise BadImage(0, "name")
    reader.number(">I", "servers", lambda value: value == SERVERS)
    stand, last = {}, None
    for _ in range(reader.number(SIZES[name][0], "count", lambda value: True)):
        last, share = read_share(reader, SIZES[name][1], last)
        stand[last] = share
    if reader.at != len(data):
        raise BadImage(reader.at, "too many")
    return stand


def restored(program, data):
    script = b"grid 3 10 %d 18446744073709551615 -\nrestore %s\nimage\n" % (SERVERS, escape(data))
    ran = subprocess.run([program, "replay"], input=script, stdout=subprocess.PIPE, stderr=subprocess.PIPE, env={}, timeout=60)
    return ran.returncode, ran.stdout, ran.stderr


def tried(program, data):
    """What the image is to be by the reader here, once the program said the same."""
    try:
        wanted = 0, b"ok\nok\nimage " + escape(image(read_image(data), SERVERS)) + b"\n", b""
        kind = "read"
    except BadImage as bad:
        wanted = 1, b"ok\ngrid 4 BadImage\n", b"gate_main: line 2 is bad\n"
        kind = bad.args[1]
    got = restored(program, data)
    if got != wanted:
        fail("%r: %r in place of %r (%s)" % (escape(data), got, wanted, kind))
    return kind


def short_shares():
    """Ten shares of a few bytes on five servers."""
    return {(at % SERVERS, bytes([at * 7] * 16), at * 25): bytes([at]) * (1 + at % 3) for at in range(10)}


def main():
    program = built("gate_main")
    whole = [("version %d" % version, image(short_shares(), SERVERS, version)) for version in (1, 2)] + [("letters", image(LETTERS.placed(SERVERS), SERVERS))]
    for name, data in whole:
        if tried(program, data) != "read" or tried(program, data + b"\0") != "too many":
            fail("%s: the whole image" % name)
        kinds = collections.Counter(tried(program, data[:size]) for size in range(len(data)))
        if "read" in kinds:
            fail("%s: a beginning is read" % name)
        print("%s: %d beginnings, cut off in: %s" % (name, len(data), dict(kinds)), flush=True)
    for name, data in whole[:2]:
        changed = (data[:at] + bytes([data[at] ^ 1 << bit]) + data[at + 1:] for at in range(len(data)) for bit in range(8))
        kinds = collections.Counter(tried(program, one) for one in changed)
        print("%s: %d images with one bit changed: %s" % (name, 8 * len(data), dict(kinds)), flush=True)
        if not kinds["read"] or not kinds["order"]:
            fail("%s: no changed image is read, or none is out of order" % name)


main()
