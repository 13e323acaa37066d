"""Scripts for `gate_main replay` with the answers that docs/FORMATS.md asks for, and what `wozhinnam` sends beside these for browsers. Caps and images are
those of models/uploads.py and of other programs, never the program's own. The scripts that let memory, readers and writers fail run these, and hostile.py
runs rows of its own."""

import os
import subprocess
import sys
import tempfile

HERE = os.path.dirname(os.path.abspath(__file__))
sys.path[:0] = [os.path.join(HERE, "../tools"), os.path.join(HERE, "../../models")]

import apart
from server import built, fail
from uploads import Upload, base32, image

OCTETS, TEXT, JSON = b"application/octet-stream", b"text/plain; charset=utf-8", b"application/json"
PHRASES = {200: b"OK", 206: b"Partial Content", 400: b"Bad Request", 404: b"Not Found", 405: b"Method Not Allowed", 410: b"Gone",
           413: b"Content Too Large", 416: b"Range Not Satisfiable", 501: b"Not Implemented", 503: b"Service Unavailable"}
ALL = 4_294_967_295

LETTERS = Upload(3, 10, b"", b"a" * 56)
BIG = bytes(at % 251 for at in range(200_000))
# Made by another program.
BIG_CAP = "URI:CHK:cpgmyfu7y4nqyhvkcqfcsmnqvq:cvffjve3vt7bw5r2bn4fpzm22wnb5vsv7pduk635eeclhal7bo5q:3:10:200000"
BIG_INDEX = "qg2arnqdrcwls5l3fr6ulmwa4y"
BIG_SHARE = 67_085


def openssl_crypt(key, text):
    """Bytes under AES-128 in counter mode from block 0, by OpenSSL."""
    return subprocess.run(["openssl", "enc", "-aes-128-ctr", "-K", key.hex(), "-iv", "0" * 32], input=text, stdout=subprocess.PIPE, check=True).stdout


def large_upload(k, n, secret, text):
    """An upload of many bytes. OpenSSL is its cipher, as the plain one would take two minutes for a megabyte."""
    plain, apart.crypt = apart.crypt, openssl_crypt
    try:
        return Upload(k, n, secret, text)
    finally:
        apart.crypt = plain


ESCAPES = [{13: b"\\r", 10: b"\\n", 92: b"\\\\"}.get(byte, b"%c" % byte if 32 <= byte <= 126 else b"\\x%02x" % byte) for byte in range(256)]


def escape(data):
    """Bytes as the text that a script writes."""
    return b"".join(map(ESCAPES.__getitem__, data))


def request(method, target, body=b"", fields="", length=True):
    said = "Content-Length: %d\r\n" % len(body) if length and (body or method in ("PUT", "POST")) else ""
    return ("%s %s HTTP/1.1\r\nHost: g\r\n%s%s\r\n" % (method, target, fields, said)).encode() + body


def reply(status, kind, body, fields=b"", sent=None):
    head = b"HTTP/1.1 %d %s\r\nContent-Type: %s\r\nContent-Length: %d\r\n%s\r\n" % (status, PHRASES[status], kind, len(body), fields)
    return head + (body if sent is None else sent)


def refusal(status, words, fields=b""):
    return reply(status, TEXT, words + b"\n", fields)


# What `wozhinnam` has in replies with bytes of a file, and in refusals of a request.
OF_FILES = b"Accept-Ranges: bytes\r\nX-Content-Type-Options: nosniff\r\nContent-Security-Policy: sandbox\r\n"
NOT_KEPT = b"Cache-Control: no-store\r\n"


def file_reply(file, data=None, status=200, fields=b""):
    """A reply of `wozhinnam` with the bytes of an upload, or with these of them."""
    tag = b'ETag: "%s"\r\n' % file.verify_cap.encode() if file.shares else b""
    return reply(status, OCTETS, file.text if data is None else data, fields + OF_FILES + tag)


GONE = refusal(410, b"not enough shares")
FULL = refusal(503, b"store full")
BAD_REQUEST = refusal(400, b"bad request", b"Connection: close\r\n")


def checked(cap, good, bad=(), k=3, n=10, index=None, beside=""):
    """The reply to a check of a cap: how many numbers are good, and the shares that aren't, by server and number."""
    index = index or cap.split(":")[2]
    listed = ",".join('[%d,"%s",%d]' % (server, index, number) for server, number in bad)
    return reply(200, JSON, ('{"results":{"count-corrupt-shares":%d,"count-shares-expected":%d,"count-shares-good":%d,"count-shares-needed":%d,"healthy":%s,'
                             '"list-corrupt-shares":[%s],"recoverable":%s%s},"storage-index":"%s"}' % (
                                 len(bad), n, good, k, str(good == n).lower(), listed, str(good >= k).lower(), beside, index)).encode())


def file_checked(file, servers, numbers=None, bad=()):
    """The reply of `wozhinnam` to a check of an upload, of which the shares of these numbers are good, or all, each at its own server alone."""
    places = sorted((number, server) for server, _, number in file.placed(servers) if numbers is None or number in numbers)
    told = ',"sharemap":{%s}' % ",".join('"%d":[%d]' % place for place in places)
    return checked(file.cap, len(places), bad, file.k, file.n, base32(file.index), told)


class Script:
    """Lines, each with its answer."""

    def __init__(self, servers=5, room=10_000_000, secret="-", k=3, n=10):
        self.lines, self.answers = [], []
        self.line("grid %d %d %d %d %s" % (k, n, servers, room, secret))

    def line(self, line, answer="ok"):
        self.lines.append(line if isinstance(line, bytes) else line.encode())
        self.answers.append(answer if isinstance(answer, bytes) else answer.encode())

    def open(self, *ids):
        for id in ids:
            self.line("open %s" % id)

    def send(self, id, data):
        self.line(b"bytes %d " % id + escape(data))

    def gives(self, id, data, most=ALL):
        self.line("take %d %d" % (id, most), b"bytes " + escape(data[:most]))

    def asks(self, id, sent, given):
        self.send(id, sent)
        self.gives(id, given)

    def puts(self, id, upload):
        self.asks(id, request("PUT", "/uri", upload.text), reply(200, TEXT, upload.cap.encode()))

    def gets(self, id, cap, data):
        self.asks(id, request("GET", "/uri/" + cap), reply(200, OCTETS, data))

    def makes(self, id, children, cap):
        self.asks(id, request("POST", "/uri?t=mkdir-immutable", children.encode()), reply(200, TEXT, cap.encode()))

    def shows(self, id, target, text):
        self.asks(id, request("GET", "/uri/" + target + "?t=json"), reply(200, JSON, text.encode()))

    def checks(self, id, cap, verify, good, bad=(), **other):
        target = "/uri/%s?t=check&output=JSON%s" % (cap, "&verify=true" if verify else "")
        self.asks(id, request("POST", target), checked(cap, good, bad, **other))

    def text(self):
        return b"".join(line + b"\n" for line in self.lines)

    def wanted(self):
        return b"".join(answer + b"\n" for answer in self.answers)

    def first_fault(self, got):
        """The first line whose answer is another one, with both answers' beginnings, or None."""
        for line, want, have in zip(self.lines, self.answers, got.split(b"\n")):
            if want != have:
                return "%r: %r in place of %r" % (line[:200], have[:300], want[:300])
        return None if got == self.wanted() else "%d bytes of answers in place of %d" % (len(got), len(self.wanted()))


class Faults:
    """The library faults.c, built, and runs of a program under it."""

    def __init__(self, program):
        self.program = os.path.abspath(program)
        self.folder = tempfile.TemporaryDirectory()
        self.library = os.path.join(self.folder.name, "faults.so")
        self.counts = os.path.join(self.folder.name, "counts")
        subprocess.run(["gcc", "-shared", "-fPIC", "-O1", "-o", self.library, os.path.join(HERE, "faults.c")], check=True)

    def environment(self, **faults):
        return {"LD_PRELOAD": self.library, "FAULT_COUNTS": self.counts, **{"FAULT_" + name.upper(): str(calls) for name, calls in faults.items()}}

    def run(self, text, **faults):
        """The status, the answers, the words and how many allocations, reads and writes there were, and the largest allocation."""
        # From a file: what a pipe gives at a time is left to chance.
        with tempfile.TemporaryFile() as script:
            script.write(text)
            script.seek(0)
            ran = subprocess.run([self.program, "replay"], stdin=script, stdout=subprocess.PIPE, stderr=subprocess.PIPE, env=self.environment(**faults),
                                 timeout=120)
        if ran.returncode < 0:
            fail("a signal %d ended a run with %r" % (-ran.returncode, faults))
        with open(self.counts) as counts:
            return ran.returncode, ran.stdout, ran.stderr, [int(word) for word in counts.read().split()]
