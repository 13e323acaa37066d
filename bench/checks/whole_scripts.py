#!/usr/bin/env python3
"""Whole scripts with their answers: files, directories, ranges, checks of shares that were lost and spoiled, a reply that is taken while its shares are
lost, images, and callers at once. Run by itself it runs each with ample memory.

usage: bench/checks/whole_scripts.py [PROGRAM]
"""

import json

from script_kit import (ALL, BIG, BIG_CAP, BIG_INDEX, BIG_SHARE, BAD_REQUEST, GONE, LETTERS, OCTETS, TEXT, Faults, Script, Upload, base32, built, escape,
                        fail, image, refusal, reply, request)

# A directory of the file `f`, and one of the letters, both by their texts (docs/FORMATS.md).
LITERAL = "URI:DIR2-LIT:gi3dumj2mewdcmb2kvjesosmjfkdu3lzfqydulbshj5x2lbm"


def entry(name, cap):
    parts = b"".join(b"%d:%s," % (len(part), part) for part in (name, cap.encode(), b"", b"{}"))
    return b"%d:%s," % (len(parts), parts)


STORED = Upload(3, 10, b"", entry(b"letters", LETTERS.cap) + entry("\u00e9".encode(), LITERAL), kind="DIR2-")


def files():
    script = Script()
    script.open(1)
    for text in (b"", b"foobar", b"a" * 55):
        upload = Upload(3, 10, b"", text)
        script.puts(1, upload)
        script.gets(1, upload.cap, text)
    script.puts(1, LETTERS)
    script.gets(1, LETTERS.cap, LETTERS.text)
    script.asks(1, request("PUT", "/uri", BIG), reply(200, TEXT, BIG_CAP.encode()))
    given = reply(200, OCTETS, BIG)
    for _turn in range(2):
        script.send(1, request("GET", "/uri/" + BIG_CAP))
        for at in (0, 1, 1000, 131_072):
            script.gives(1, given[at:], {0: 1, 1: 999, 1000: 130_072, 131_072: ALL}[at])
    script.line("end 1")
    script.line("take 1 1", "bytes ")
    script.line("bytes 1 x", "fault 2 NotOpen")
    return script


def directories():
    script = Script()
    script.open(1)
    script.makes(1, '{"a":["filenode",{"ro_uri":"URI:LIT:my"}]}', LITERAL)
    script.gets(1, LITERAL + "/a", b"f")
    script.puts(1, LETTERS)
    script.makes(1, json.dumps({"e\u0301": ["dirnode", {"ro_uri": LITERAL}], "letters": ["filenode", {"ro_uri": LETTERS.cap}]}), STORED.cap)
    script.gets(1, STORED.cap + "/letters", LETTERS.text)
    script.gets(1, STORED.cap + "/%C3%A9/a", b"f")
    script.gets(1, STORED.cap + "/e%CC%81/a", b"f")
    child = '["filenode",{"metadata":{},"mutable":false,"ro_uri":"%s","size":56,"verify_uri":"%s"}]' % (LETTERS.cap, LETTERS.verify_cap)
    below = '["dirnode",{"metadata":{},"mutable":false,"ro_uri":"%s"}]' % LITERAL
    script.shows(1, STORED.cap, '["dirnode",{"children":{"letters":%s,"\u00e9":%s},"mutable":false,"ro_uri":"%s","verify_uri":"%s"}]' % (
        child, below, STORED.cap, STORED.verify_cap))
    script.shows(1, STORED.cap + "/letters", '["filenode",{"mutable":false,"ro_uri":"%s","size":56,"verify_uri":"%s"}]' % (LETTERS.cap, LETTERS.verify_cap))
    for target, status, words in ((STORED.cap + "/none", 404, b"no such child"), (LITERAL + "/a/b", 400, b"not a directory"), (LITERAL, 400, b"directory needs t=json"),
                                  (STORED.verify_cap, 400, b"not a readable cap"), ("URI:LIT:my/" + "x/" * 65, 400, b"too many names"), ("URI:LIT:MY", 400, b"bad cap")):
        script.asks(1, request("GET", "/uri/" + target), refusal(status, words))
    script.asks(1, request("POST", "/uri?t=mkdir-immutable", b'{"a":["x",{"ro_uri":"%s"}]}' % LETTERS.verify_cap.encode()), refusal(400, b"bad children"))
    return script


def ranges():
    script = Script()
    script.open(1)
    script.send(1, request("PUT", "/uri", BIG))
    script.gives(1, reply(200, TEXT, BIG_CAP.encode()))
    for said, first, last in (("131072-131074", 131_072, 131_074), ("0-0", 0, 0), ("-2", 199_998, 199_999), ("199999-300000", 199_999, 199_999)):
        fields = b"Content-Range: bytes %d-%d/200000\r\n" % (first, last)
        script.asks(1, request("GET", "/uri/" + BIG_CAP, fields="Range: bytes=%s\r\n" % said), reply(206, OCTETS, BIG[first:last + 1], fields))
    script.asks(1, request("GET", "/uri/" + BIG_CAP, fields="Range: bytes=200000-\r\n"), refusal(416, b"range not satisfiable", b"Content-Range: bytes */200000\r\n"))
    script.asks(1, request("HEAD", "/uri/" + BIG_CAP), reply(200, OCTETS, BIG, sent=b""))
    return script


def checks():
    script = Script(servers=1)
    script.open(1)
    script.asks(1, request("PUT", "/uri", BIG), reply(200, TEXT, BIG_CAP.encode()))
    script.line("spoil 0 %s 4 %d" % (BIG_INDEX, BIG_SHARE - 1), "yes")
    script.line("spoil 0 %s 4 %d" % (BIG_INDEX, BIG_SHARE), "no")
    script.checks(1, BIG_CAP, False, 10, index=BIG_INDEX)
    script.checks(1, BIG_CAP, True, 9, [(0, 4)], index=BIG_INDEX)
    script.asks(1, request("GET", "/uri/" + BIG_CAP), reply(200, OCTETS, BIG))
    for number in range(7):
        script.line("lose 0 %s %d" % (BIG_INDEX, number), "yes")
    script.asks(1, request("GET", "/uri/" + BIG_CAP), reply(200, OCTETS, BIG))
    script.line("lose 0 %s 7" % BIG_INDEX, "yes")
    script.line("lose 0 %s 7" % BIG_INDEX, "no")
    script.asks(1, request("GET", "/uri/" + BIG_CAP), GONE)
    script.checks(1, BIG_CAP, True, 2, index=BIG_INDEX)
    script.asks(1, request("PUT", "/uri", BIG), reply(200, TEXT, BIG_CAP.encode()))
    script.checks(1, BIG_CAP, True, 10, index=BIG_INDEX)
    given = reply(200, OCTETS, BIG)
    script.send(1, request("GET", "/uri/" + BIG_CAP))
    script.gives(1, given, 1000)
    for number in range(10):
        script.line("lose 0 %s %d" % (BIG_INDEX, number), "yes")
    script.gives(1, given[1000:])
    script.asks(1, request("GET", "/uri/" + BIG_CAP), GONE)
    return script


def images():
    script = Script()
    stand = {**LETTERS.placed(5), **STORED.placed(5)}
    script.line(b"restore " + escape(image(stand, 5)))
    script.open(1)
    script.gets(1, STORED.cap + "/letters", LETTERS.text)
    other = Upload(3, 10, b"", b"b" * 57)
    script.puts(1, other)
    stand.update(other.placed(5))
    script.line("image", b"image " + escape(image(stand, 5)))
    script.line("lose %d %s 3" % ((LETTERS.index[-1] + 3) % 5, base32(LETTERS.index)), "yes")
    del stand[(LETTERS.index[-1] + 3) % 5, LETTERS.index, 3]
    script.line("image", b"image " + escape(image(stand, 5)))
    return script


def callers():
    """One puts a file in chunks and in pieces under its own secret, one waits in the middle of a request, one sends what is no request."""
    script = Script()
    own = Upload(3, 10, b"my secret", LETTERS.text)
    script.open(1, 2, "3 " + base32(b"my secret"))
    script.send(1, b"GET /uri/URI:LIT:my HTTP/1.1\r")
    script.send(3, request("PUT", "/uri", b"", fields="Transfer-Encoding: chunked\r\nExpect: 100-continue\r\n", length=False))
    script.send(2, request("PUT", "/uri", LETTERS.text)[:-1])
    script.gives(3, b"HTTP/1.1 100 Continue\r\n\r\n")
    for size in (5, 50, 1):
        script.send(3, b"%x\r\n%s\r\n" % (size, b"a" * size))
    script.send(1, b"\nHost: g\r\n\r\n" + request("GET", "/uri/" + LETTERS.cap))
    script.send(2, b"a" + request("GET", "/uri/" + LETTERS.cap))
    script.send(3, b"0\r\n\r\n")
    script.gives(1, reply(200, OCTETS, b"f") + GONE)
    script.gives(2, reply(200, TEXT, LETTERS.cap.encode()) + reply(200, OCTETS, LETTERS.text))
    script.gives(3, reply(200, TEXT, own.cap.encode()))
    script.gets(1, own.cap, LETTERS.text)
    script.asks(3, b"GET / HTTP/1.1\r\n\r\n" + request("GET", "/uri/URI:LIT:my"), BAD_REQUEST)
    script.gets(2, "URI:LIT:my", b"f")
    return script


WHOLE = (files, directories, ranges, checks, images, callers)


def main():
    faults = Faults(built("gate_main"))
    for made in WHOLE:
        script = made()
        status, answers, words, counts = faults.run(script.text())
        if status or script.first_fault(answers):
            fail("%s: status %d, %r: %s" % (made.__name__, status, words, script.first_fault(answers)))
        print("%s: %d lines, %d allocations, each answered right" % (made.__name__, len(script.lines), counts[0]))


if __name__ == "__main__":
    main()
