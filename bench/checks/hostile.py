#!/usr/bin/env python3
"""Stores that are full, shares, caps, directories and heads that somebody made to harm, by the built program: each is refused by name or answered as it
is to be, and no allocation has more than some times the bytes that stand. What each is to be is worked out here and in models/uploads.py. It needs gcc and
python3, and takes some seconds.

usage: bench/checks/hostile.py [PROGRAM]
"""

from script_kit import (BAD_REQUEST, BIG, BIG_CAP, FULL, GONE, LETTERS, OCTETS, TEXT, Faults, Script, Upload, base32, built, escape, fail, image, refusal,
                        reply, request)
import shares
from apart import texts_of
from uploads import tagged16

MOST = 2 ** 64 - 1
# The buffers for reading and writing.
BUFFER = 65_536


def netstrings(*texts):
    return b"".join(map(shares.netstring, texts))


def flipped(share, place):
    return share[:place] + bytes([share[place] ^ 1]) + share[place + 1:]


def rooms():
    """A share of the letters has 394 bytes, so 1,182 are room for three of ten, which are enough, and 1,181 are not."""
    for room, standing, given in ((1182, 3, reply(200, OCTETS, LETTERS.text)), (1181, 2, GONE)):
        stand = dict(sorted(LETTERS.placed(1).items())[:standing])
        script = Script(servers=1, room=room)
        script.open(1)
        for _turn in range(2):
            script.asks(1, request("PUT", "/uri", LETTERS.text), FULL)
        script.asks(1, request("PUT", "/uri", b"a" * 55), reply(200, TEXT, Upload(3, 10, b"", b"a" * 55).cap.encode()))
        script.asks(1, request("GET", "/uri/" + LETTERS.cap), given)
        script.checks(1, LETTERS.verify_cap, True, standing)
        script.line("image", b"image " + escape(image(stand, 1)))
        yield script
        script = Script(servers=1)
        script.line(b"restore " + escape(image(stand, 1)))
        script.open(1)
        script.asks(1, request("GET", "/uri/" + LETTERS.cap), given)
        yield script


def numbers():
    """A cap of a file of 2^64 - 1 bytes, and a share whose extension block says so too."""
    cap = "URI:CHK:%s:%s:256:256:%d" % ("a" * 26, "a" * 52, MOST)
    index = base32(tagged16(b"webgate_key_to_storage_index_v1", bytes(16)))
    script = Script()
    script.open(1)
    script.asks(1, request("GET", "/uri/" + cap), GONE)
    script.shows(1, cap, '["filenode",{"mutable":false,"ro_uri":"%s","size":%d,"verify_uri":"URI:CHK-Verifier:%s:%s:256:256:%d"}]' % (
        cap, MOST, index, "a" * 52, MOST))
    script.checks(1, cap, True, 0, k=256, n=256, index=index)
    for size in (MOST + 1, "-1", "01"):
        script.asks(1, request("GET", "/uri/URI:CHK:%s:%s:1:1:%s" % ("a" * 26, "a" * 52, size)), refusal(400, b"bad cap"))
    yield script
    texts = {b"crypttext_root_hash": bytes(32), b"needed_shares": b"1", b"num_segments": b"%d" % 2 ** 47, b"segment_size": b"131072",
             b"share_root_hash": bytes(32), b"size": b"%d" % MOST, b"total_shares": b"1"}
    extension = b"".join(key + b":" + netstrings(value) for key, value in texts.items())
    cap = "URI:CHK:%s:%s:1:1:%d" % ("a" * 26, base32(shares.tagged(b"webgate_uri_extension_v1", extension)), MOST)
    for share in (netstrings(b"1", b"0", extension, b"", b"", b""), netstrings(b"1", b"0", extension, bytes(32), b"", b"a" * 1000), b"%d:" % MOST, b"1:1,1:0,%d:" % MOST):
        script = Script()
        script.line(b"restore " + escape(image({(0, tagged16(b"webgate_key_to_storage_index_v1", bytes(16)), 0): share}, 5)))
        script.open(1)
        script.asks(1, request("GET", "/uri/" + cap), GONE)
        script.checks(1, cap, True, 0, [(0, 0)], k=1, n=1, index=index)
        yield script


def contents():
    """Stores that hold, under the index of the letters, shares of another file, shares that are cut off, and shares under other numbers."""
    other = Upload(3, 10, b"", b"b" * 56)
    kinds = ([*other.shares], [share[:-1] for share in LETTERS.shares], LETTERS.shares[1:] + LETTERS.shares[:1], [b"\0"] * 10,
             [share + b"," for share in LETTERS.shares], [flipped(share, 3) for share in LETTERS.shares])
    for kind in kinds:
        stand = {(server, index, number): kind[number] for server, index, number in LETTERS.placed(5)}
        bad = [((LETTERS.index[-1] + number) % 5, number) for number in range(10)]
        script = Script()
        script.line(b"restore " + escape(image(stand, 5)))
        script.open(1)
        script.checks(1, LETTERS.cap, False, 10, index=base32(LETTERS.index))
        script.puts(1, LETTERS)
        script.asks(1, request("GET", "/uri/" + LETTERS.cap), GONE)
        script.asks(1, request("GET", "/uri/" + LETTERS.cap), GONE)
        script.checks(1, LETTERS.cap, True, 0, bad, index=base32(LETTERS.index))
        script.asks(1, request("PUT", "/uri", BIG), reply(200, TEXT, BIG_CAP.encode()))
        script.asks(1, request("GET", "/uri/" + BIG_CAP), reply(200, OCTETS, BIG))
        script.asks(1, request("GET", "/uri/" + LETTERS.cap), GONE)
        yield script


def forged_root():
    """A share of 1 of 1 whose extension block and segment hash are changed alike, and the cap of that block: the share is good, but its bytes aren't the
    crypttext that the block names."""
    file = Upload(1, 1, b"", LETTERS.text)
    share = flipped(flipped(file.shares[0], 35), 204)
    forged = file.cap_of(shares.tagged(b"webgate_uri_extension_v1", texts_of(share)[2]))
    index = base32(file.index)
    script = Script(servers=1, k=1, n=1)
    script.open(1)
    script.puts(1, file)
    script.gets(1, file.cap, file.text)
    for place in (35, 204):
        script.line("spoil 0 %s 0 %d" % (index, place), "yes")
    script.line("image", b"image " + escape(image({(0, file.index, 0): share}, 1)))
    script.checks(1, forged, True, 1, k=1, n=1, index=index)
    script.asks(1, request("GET", "/uri/" + forged), GONE)
    script.checks(1, file.cap, True, 0, [(0, 0)], k=1, n=1, index=index)
    script.asks(1, request("GET", "/uri/" + file.cap), GONE)
    yield script


def directories():
    """Bytes that are no directory's text, got as the directory of which they are the shares."""
    good = netstrings(netstrings(b"a", b"URI:LIT:my", b"", b"{}"))
    later = netstrings(netstrings(b"b", b"URI:LIT:my", b"", b"{}"))
    script = Script()
    script.open(1)
    for text, is_one in (
            (good + later, True), (later + good, False), (good + good, False), (good[:-1], False), (good + b"x", False),
            *((good + netstrings(netstrings(name, cap, write, metadata)), False) for name, cap, write, metadata in (
                (b"e\xcc\x81", b"URI:LIT:my", b"", b"{}"), (b"", b"URI:LIT:my", b"", b"{}"), (b"\xff", b"URI:LIT:my", b"", b"{}"),
                (b"b", LETTERS.verify_cap.encode(), b"", b"{}"), (b"b", b"URI:SSK:x", b"", b"{}"), (b"b", b"URI:LIT:mz", b"", b"{}"),
                (b"b", b"URI:LIT:my", b"x", b"{}"), (b"b", b"URI:LIT:my", b"", b'{"t":1.5}'), (b"b", b"URI:LIT:my", b"", b"[]"),
                (b"b", b"URI:LIT:my", b"", b'{"t":%d}' % (MOST + 1)), (b"b", b"URI:LIT:my", b"", b'{"a":' * 100 + b"{}" + b"}" * 100))),
            (good + netstrings(netstrings(b"b", b"URI:LIT:my", b"", b'{"a":' * 99 + b"{}" + b"}" * 99)), True),
            (b"%d:" % MOST, False), (b"0" + good, False)):
        file = Upload(3, 10, b"", text.ljust(56, b" ") if not is_one and len(text) < 56 else text)
        script.puts(1, file)
        directory = file.cap.replace("URI:CHK:", "URI:DIR2-CHK:").replace("URI:LIT:", "URI:DIR2-LIT:")
        if is_one:
            script.gets(1, directory + "/a", b"f")
        else:
            script.asks(1, request("GET", "/uri/" + directory + "/a"), refusal(400, b"not a directory"))
            script.asks(1, request("GET", "/uri/" + directory + "?t=json"), refusal(400, b"not a directory"))
    yield script


FOUND = reply(200, OCTETS, b"f")
TOO_LONG = refusal(413, b"body too long", b"Connection: close\r\n")
CODING = refusal(501, b"transfer coding not supported", b"Connection: close\r\n")


def get(fields):
    return b"GET /uri/URI:LIT:my HTTP/1.1\r\n" + fields + b"\r\n"


def put(fields, body=b""):
    return b"PUT /uri HTTP/1.1\r\nHost: g\r\n" + fields + b"\r\n" + body


def heads():
    """What is sent on connections of their own, and the reply."""
    padded = len(get(b"Host: g\r\nA: \r\n"))
    chunked = b"Transfer-Encoding: chunked\r\n"
    literal = reply(200, TEXT, b"URI:LIT:mztg633c")
    return (
        (get(b"Host: g\r\n" + b"A: b\r\n" * 63), FOUND), (get(b"Host: g\r\n" + b"A: b\r\n" * 64), BAD_REQUEST),
        (get(b"Host: g\r\nA: %s\r\n" % (b"a" * (16_384 - padded))), FOUND), (get(b"Host: g\r\nA: %s\r\n" % (b"a" * (16_385 - padded))), BAD_REQUEST),
        (b"a" * 16_384, BAD_REQUEST), (b"a" * 16_383, b""), (b"\r\n" * 20_000 + get(b"Host: g\r\n"), FOUND),
        (get(b""), BAD_REQUEST), (get(b"Host: g\r\nHost: g\r\n"), BAD_REQUEST), (get(b"Host: g\r\n folded\r\n"), BAD_REQUEST), (b"\0\r\n\r\n", BAD_REQUEST),
        (put(b"Content-Length: 1\r\nContent-Length: 1\r\n", b"f"), BAD_REQUEST), (put(b"Content-Length: +1\r\n", b"f"), BAD_REQUEST),
        (put(b"Content-Length: -1\r\n", b"f"), BAD_REQUEST), (put(b"Content-Length: 1, 1\r\n", b"f"), BAD_REQUEST), (put(b"Content-Length: \r\n", b"f"), BAD_REQUEST),
        (put(b"Content-Length: 0x1\r\n", b"f"), BAD_REQUEST), (put(b"Content-Length: 0004\r\n", b"ffoo"), reply(200, TEXT, b"URI:LIT:mztg63y")),
        (put(b"Content-Length: 16777217\r\n"), TOO_LONG), (put(b"Content-Length: %s\r\n" % (b"9" * 1000)), TOO_LONG),
        (put(b"Content-Length: %d\r\n" % (2 ** 64 + 1), b"f"), TOO_LONG), (put(b"Content-Length: 16777216\r\n"), b""),
        (put(b"Transfer-Encoding: gzip, chunked\r\n"), CODING), (put(chunked + chunked), CODING), (put(chunked + b"Content-Length: 1\r\n", b"1\r\nf\r\n0\r\n\r\n"), BAD_REQUEST),
        (put(chunked, b"1000001\r\n"), TOO_LONG), (put(chunked, b"ffffffffffffffff\r\n"), TOO_LONG), (put(chunked, b"fffffffffffffffff"), BAD_REQUEST),
        (put(chunked, b"-1\r\n"), BAD_REQUEST), (put(chunked, b"2\r\nfoo"), BAD_REQUEST), (put(chunked, b"1\nf"), BAD_REQUEST), (put(chunked, b"\r\n"), BAD_REQUEST),
        (put(chunked, b"2;" + b"a" * 1022), BAD_REQUEST), (put(chunked, b"1;x=y\r\nf\r\n4 \t\r\nfoob\r\n0\r\nA: b\r\n\r\n"), literal),
        (put(chunked, b"5\r\nffoob\r\n0\r\n" + b"A: b\r\n" * 2730), b""), (put(chunked, b"5\r\nffoob\r\n0\r\n" + b"A: b\r\n" * 2731), BAD_REQUEST))


def sent():
    script = Script()
    at = 0
    for data, given in heads():
        closes = b"Connection: close" in given
        for step in (len(data), 1000, 1) if len(data) < 2000 else (len(data), 1000):
            at += 1
            script.open(at)
            for place in range(0, len(data), step):
                script.send(at, data[place:place + step])
            if closes or not given:
                script.send(at, get(b"Host: g\r\n") if closes else b"")
            script.gives(at, given)
    yield script


def main():
    faults = Faults(built("gate_main"))
    for made in (rooms, numbers, contents, forged_root, directories, sent):
        count, largest = 0, 0
        for script in made():
            status, answers, words, counts = faults.run(script.text())
            if status or script.first_fault(answers):
                fail("%s: status %d, %r: %s" % (made.__name__, status, words, script.first_fault(answers)))
            count += sum(line.startswith(b"take") for line in script.lines)
            largest = max(largest, counts[3])
            if counts[3] > BUFFER + 4 * len(script.text()):
                fail("%s: an allocation of %d bytes" % (made.__name__, counts[3]))
        print("%s: %d replies, each as it is to be; the largest allocation has %d bytes" % (made.__name__, count, largest), flush=True)


main()
