#!/usr/bin/env python3
"""The fields by which browsers, caches and clients keep, resume, name and show the files of the built `wozhinnam serve`.

usage: bench/checks/fields.py PROGRAM [--only WORD..]

Entity tags and what If-None-Match and If-Range make of them, names and types that a query asks for, what isn't kept, and where a check says that
shares are; on connections that are kept, so that a byte too many spoils the next reply. Then curl, wget, and nginx as a cache in front. What is
expected comes from the RFCs, from Python's email and urllib, from models/ (caps, their hashes and their shares) and from the files in the folders.

It needs curl, wget and nginx.
"""

import argparse
import base64
import contextlib
import email
import email.utils
import hashlib
import http.client
import itertools
import json
import os
import re
import shutil
import subprocess
import sys
import tempfile
import time
import urllib.parse

HERE = os.path.dirname(os.path.abspath(__file__))
sys.path[:0] = [os.path.join(HERE, "../tools"), os.path.join(HERE, "../../models")]
import shares  # noqa: E402
import uploads  # noqa: E402
from server import checked_program, fail, wozhinnam  # noqa: E402

SERVERS, K, N = 5, 3, 10
OCTETS, TEXT, JSON = "application/octet-stream", "text/plain; charset=utf-8", "application/json"
# Each reply with bytes of a file has these. Film and sound have an origin, as browsers ask for more of their bytes from it.
OF_FILES = {"accept-ranges": "bytes", "x-content-type-options": "nosniff", "content-security-policy": "sandbox"}
OF_FILMS = {**OF_FILES, "content-security-policy": "sandbox allow-same-origin"}
NOT_KEPT = {"cache-control": "no-store"}


def check(holds, what):
    if not holds:
        raise AssertionError(what)


def check_same(found, wanted, what=""):
    check(found == wanted, "%sfound %r, wanted %r" % (what and what + ": ", found, wanted))


# ---- replies, read strictly

STATUS_LINE = re.compile(rb"HTTP/1\.1 ([0-9]{3}) [A-Za-z ]+")
# RFC 9110, section 5: no field here has anything but visible ASCII and spaces between.
FIELD_LINE = re.compile(rb"([!#$%&'*+.^_`|~0-9A-Za-z-]+): ([\x21-\x7e](?:[\x20-\x7e]*[\x21-\x7e])?)")


class Reply:
    def __init__(self, status, fields, body):
        self.status, self.fields, self.body = status, fields, body

    def __repr__(self):
        return "%d %r and %d bytes" % (self.status, self.fields, len(self.body))


class Peer:
    """One connection that is kept. What it reads is what was sent, byte by byte."""

    def __init__(self, server):
        self.stream, self.read = server.connect(), b""

    def more(self):
        got = self.stream.recv(65536)
        check(got, "the connection ended, with %r read" % self.read[:200])
        self.read += got

    def cut(self, size):
        while len(self.read) < size:
            self.more()
        text, self.read = self.read[:size], self.read[size:]
        return text

    def send(self, method, target, fields=(), body=b"", version="1.1"):
        lines = ["%s %s HTTP/%s" % (method, target, version), "Host: gate"] + ["%s: %s" % pair for pair in fields]
        lines += ["Content-Length: %d" % len(body)] if body else []
        self.stream.sendall("".join(line + "\r\n" for line in lines + [""]).encode() + body)

    def reply(self, method):
        while b"\r\n\r\n" not in self.read:
            self.more()
        first, *lines = self.cut(self.read.index(b"\r\n\r\n") + 4)[:-4].split(b"\r\n")
        status = STATUS_LINE.fullmatch(first)
        check(status, "no status line: %r" % first[:200])
        status, fields = int(status[1]), {}
        for line in lines:
            field = FIELD_LINE.fullmatch(line)
            check(field, "no field: %r" % line[:200])
            name = field[1].decode().lower()
            check(name not in fields, "two fields " + name)
            fields[name] = field[2].decode()
        # RFC 9110, sections 8.6 and 15.4.5: a 304 could have the length of what a 200 had, but never a body
        if status == 304:
            return Reply(status, fields, b"")
        size = int(fields["content-length"])
        return Reply(status, fields, b"" if method == "HEAD" else self.cut(size))

    def ask(self, method, target, fields=(), body=b""):
        self.send(method, target, fields, body)
        return self.reply(method)

    def ended(self):
        """Whether nothing more came, and the other side closed."""
        return not self.read and self.stream.recv(1) == b""

    def close(self):
        self.stream.close()


# ---- a grid in folders

def seal(text):
    """What a folder's file has behind its share: crates/folder_shelf/README.md."""
    quarter = -(-len(text) // 4)
    cuts = [0, quarter, 2 * quarter, 3 * quarter, None]
    hashes = [shares.tagged(b"wozhinnam shelf seal", text[here:there]) for here, there in zip(cuts, cuts[1:])]
    return hashlib.sha256(b"".join(hashes)).digest()[:8]


class Grid:
    """A server over five folders, and a connection to it."""

    def __init__(self, program):
        self.work = tempfile.TemporaryDirectory(prefix="fields-")
        self.program, self.count = program, itertools.count()
        self.stores = [self.path("store%d" % place) for place in range(SERVERS)]
        self.pages = self.path("pages")
        os.makedirs(self.pages)
        with open(os.path.join(self.pages, "index.html"), "w") as file:
            file.write("<!doctype html><title>a page</title>\n")
        self.start()

    def path(self, *names):
        return os.path.join(self.work.name, *names)

    def start(self):
        words = [word for store in self.stores for word in ("--store", "dir:%s:4000000000,disk" % store)]
        self.server = wozhinnam(self.program, "--no-sync", "--pages", self.pages, *words, control=True)
        self.front = self.server.address
        self.url = "http://%s:%d" % self.front
        self.peer = Peer(self.server)

    def stop(self):
        self.peer.close()
        self.server.stop()

    def again(self):
        """A start over the same folders, which has read nothing yet."""
        self.stop()
        self.start()

    def close(self):
        self.peer.close()
        self.server.kill()
        self.work.cleanup()

    def ask(self, *words):
        return self.peer.ask(*words)

    def new(self, size=1000):
        """The model of a file that nobody has read yet, which is stored."""
        text = hashlib.shake_128(b"file %d" % next(self.count)).digest(size)
        file = uploads.Upload(K, N, b"", text)
        check_same(self.put(text), file.cap)
        return file

    def put(self, text):
        reply = self.ask("PUT", "/uri", (), text)
        check_same(reply.status, 200)
        return reply.body.decode()

    def folder(self, children):
        body = {name: ["filenode", {"ro_uri": cap}] for name, cap in children.items()}
        reply = self.ask("POST", "/uri?t=mkdir-immutable", (), json.dumps(body).encode())
        check_same(reply.status, 200)
        return reply.body.decode()

    def files(self, file):
        """The paths of the shares of a file by number and server, as they lie in the folders."""
        found, index = {}, uploads.base32(file.index)
        for server, store in enumerate(self.stores):
            for top, _, names in os.walk(store):
                for name in names:
                    if name.startswith(index + "."):
                        found[int(name.split(".")[1]), server] = os.path.join(top, name)
        return found


def verify_cap(cap):
    """The verify cap of a read cap, by docs/FORMATS.md: the storage index has the place of the key."""
    kind, key, rest = re.fullmatch("URI:(CHK|DIR2-CHK):([a-z2-7]{26}):(.*)", cap).groups()
    index = uploads.tagged16(b"webgate_key_to_storage_index_v1", base64.b32decode(key.upper() + "======"))
    return "URI:%s-Verifier:%s:%s" % (kind, uploads.base32(index), rest)


@contextlib.contextmanager
def beside(g, *options):
    """A connection to another server, which has nothing in folders."""
    server = wozhinnam(g.program, *options)
    try:
        peer = Peer(server)
        yield peer
        peer.close()
    finally:
        server.kill()


def tag_of(file):
    return '"%s"' % file.verify_cap


def guards(kind):
    return OF_FILMS if kind.startswith(("video/", "audio/")) else OF_FILES


def wanted_fields(file, kind=OCTETS, **more):
    """The fields of a reply with bytes of a file: no others."""
    tag = {"etag": tag_of(file)} if file.shares else {}
    return {"content-type": kind, **guards(kind), **tag, **{name.replace("_", "-"): value for name, value in more.items()}}


def check_reply(reply, status, fields, body=b"", size=None, what=""):
    """All of a reply. `size` is of the body that isn't sent."""
    wanted = {**fields, **({} if status == 304 else {"content-length": str(len(body) if size is None else size)})}
    check_same((reply.status, reply.fields), (status, wanted), what)
    check(reply.body == body, "%s: another body: %r" % (what, reply.body[:100]))


def check_whole(reply, file, what="", **more):
    check_reply(reply, 200, wanted_fields(file, **more), file.text, what=what)


def check_part(reply, file, first, last, what="", **more):
    place = "bytes %d-%d/%d" % (first, last, len(file.text))
    check_reply(reply, 206, wanted_fields(file, content_range=place, **more), file.text[first:last + 1], what=what)


def check_unchanged(reply, file, what=""):
    check_reply(reply, 304, {"etag": tag_of(file)}, what=what)


def check_refused(reply, status, what="", **more):
    fields = {"content-type": TEXT, **NOT_KEPT, **{name.replace("_", "-"): value for name, value in more.items()}}
    check_same((reply.status, {name: value for name, value in reply.fields.items() if name != "content-length"}), (status, fields), what)


# ---- tags and conditions

def each_file_has_the_text_of_its_verify_cap_as_tag(g):
    for size in [56, 1000, 3001]:
        file = g.new(size)
        check_same(verify_cap(file.cap), file.verify_cap)
        check_whole(g.ask("GET", "/uri/" + file.cap), file)
        check_reply(g.ask("HEAD", "/uri/" + file.cap), 200, wanted_fields(file), size=size)
        # RFC 9110, section 8.8.3: etagc
        check(re.fullmatch(r'"[\x21\x23-\x7e]*"', tag_of(file)), tag_of(file))
    # of two segments, by the cap alone
    text = hashlib.shake_128(b"long").digest(200000)
    cap = g.put(text)
    check_same(g.ask("GET", "/uri/" + cap).fields["etag"], '"%s"' % verify_cap(cap))


def if_none_match(file):
    """Values of If-None-Match fields, and whether they list the file's tag (RFC 9110, sections 8.8.3 and 13.1.2, and 5.6.1 on lists)."""
    tag, other = tag_of(file), tag_of(file).replace(":1000", ":1001")
    yes = [[tag], ["W/" + tag], ["*"], [' \t* \t'], ['"xyzzy", ' + tag], [tag + ', W/"xyzzy"'], ['"r2d2xxxx" ,\t W/' + tag + ' , "c3piozzzz"'],
           [", ," + tag + ",,"], ['"xyzzy"', tag], [tag, '"xyzzy"'], [other + "," + tag], ['""', "W/" + tag]]
    no = [['"xyzzy"'], ['W/"xyzzy"'], ['"xyzzy", "r2d2xxxx", "c3piozzzz"'], [other], [tag.strip('"')], [tag[:-1]], [tag[1:]], ["w/" + tag],
          ["W/ " + tag], ["W/W/" + tag], [tag.upper()], ['"%s"' % file.cap], [""], ['""'], ['"*"'], ["W/*"], ["**"],
          # one tag with commas and a star in it, which etagc has
          ['"a,*,b"'], ['"a, *"', '"xyzzy"']]
    return [(values, True) for values in yes] + [(values, False) for values in no]


def who_has_the_file_is_told_so(g):
    file = g.new()
    for values, is_had in if_none_match(file):
        for name in ["If-None-Match", "if-none-MATCH"]:
            for target in ["/uri/" + file.cap, "/uri/%s/?filename=x.png&save=true" % file.cap, "http://gate/uri/" + file.cap]:
                fields, what = [(name, value) for value in values], "%s of %s" % (values, target)
                got, head = g.ask("GET", target, fields), g.ask("HEAD", target, fields)
                if is_had:
                    check_unchanged(got, file, what)
                    check_unchanged(head, file, what)
                else:
                    check_same((got.status, got.body, got.fields["etag"]), (200, file.text, tag_of(file)), what)
                    check_same((head.status, head.body, head.fields), (200, b"", got.fields), what)


def dates_are_no_conditions(g):
    """There is no date of a change, so such fields are ignored (RFC 9110, sections 13.1.3 and 13.1.4)."""
    file = g.new()
    for date in ["Sat, 29 Oct 1994 19:43:31 GMT", "Fri, 31 Dec 2199 23:59:59 GMT"]:
        for name in ["If-Modified-Since", "If-Unmodified-Since"]:
            check_whole(g.ask("GET", "/uri/" + file.cap, [(name, date)]), file, name)
        check_whole(g.ask("GET", "/uri/" + file.cap, [("If-None-Match", '"xyzzy"'), ("If-Modified-Since", date)]), file)
        check_unchanged(g.ask("GET", "/uri/" + file.cap, [("If-None-Match", tag_of(file)), ("If-Modified-Since", date)]), file)


def a_range_on_condition_is_of_the_same_file(g):
    file, date = g.new(), "Sat, 29 Oct 1994 19:43:31 GMT"
    tag, target = tag_of(file), "/uri/" + file.cap
    # RFC 9110, section 14.1.2, of 1,000 bytes
    for value, first, last in [("bytes=0-499", 0, 499), ("bytes=500-999", 500, 999), ("bytes=-500", 500, 999), ("bytes=0-0", 0, 0),
                               ("bytes=-1", 999, 999), ("bytes=900-", 900, 999), ("bytes=900-5000", 900, 999), ("BYTES=1-2", 1, 2)]:
        for condition in [[], [("If-Range", tag)], [("iF-rANGE", "  " + tag + "\t")]]:
            fields = [("Range", value)] + condition
            check_part(g.ask("GET", target, fields), file, first, last, "%s" % fields)
            check_part(g.ask("GET", target, fields[::-1]), file, first, last, "%s" % fields)
            check_reply(g.ask("HEAD", target, fields), 200, wanted_fields(file), size=1000)
        others = [["W/" + tag], ['"xyzzy"'], [date], [tag.strip('"')], [tag + ', "xyzzy"'], ["*"], [""], [tag, '"xyzzy"'], ['"xyzzy"', tag]]
        for values in others:
            check_whole(g.ask("GET", target, [("If-Range", one) for one in values] + [("Range", value)]), file, "%s, If-Range %s" % (value, values))
    # several ranges, several fields, none
    for values in [["bytes=0-0,-1"], ["bytes=0-1", "bytes=5-6"], ["bytes=0-1", "bytes=0-1"], ["pages=1-2"], ["bytes=5-4"], []]:
        for condition in [[], [("If-Range", tag)]]:
            check_whole(g.ask("GET", target, condition + [("Range", one) for one in values]), file, "%s" % values)
    for value in ["bytes=1000-", "bytes=1000-1001", "bytes=-0"]:
        for condition in [[], [("If-Range", tag)]]:
            check_refused(g.ask("GET", target, condition + [("Range", value)]), 416, value, content_range="bytes */1000")
        check_whole(g.ask("GET", target, [("If-Range", '"xyzzy"'), ("Range", value)]), file, value)
    # a name and a type belong to a part as well
    named = g.ask("GET", target + "?filename=x.PNG", [("If-Range", tag), ("Range", "bytes=2-5")])
    check_part(named, file, 2, 5, kind="image/png", content_disposition="inline; filename=\"x.PNG\"; filename*=UTF-8''x.PNG")


def who_has_the_file_needs_no_range(g):
    """A Range field counts only where there is no 304 without it (RFC 9110, sections 13.2.2 and 14.2)."""
    file = g.new()
    for value in ["bytes=0-499", "bytes=0-0,-1", "bytes=1000-", "bytes=-0", "pages=1-2"]:
        for condition in [[], [("If-Range", tag_of(file))], [("If-Range", '"xyzzy"')]]:
            had = [("If-None-Match", tag_of(file)), ("Range", value)] + condition
            check_unchanged(g.ask("GET", "/uri/" + file.cap, had), file, "%s" % had)
    check_part(g.ask("GET", "/uri/" + file.cap, [("If-None-Match", '"xyzzy"'), ("Range", "bytes=0-499")]), file, 0, 499)


def what_follows_a_304_is_the_next_reply(g):
    file = g.new()
    had = [("If-None-Match", tag_of(file))]
    for method in ["GET", "HEAD"]:
        peer = Peer(g.server)
        # all sent before anything is read
        for i in range(20):
            peer.send(method, "/uri/%s?%d" % (file.cap, i), had)
            peer.send("GET", "/uri/URI:LIT:mzxw6ytboi")
        peer.send(method, "/uri/" + file.cap, had + [("Connection", "close")])
        for i in range(20):
            check_unchanged(peer.reply(method), file)
            check_same(peer.reply("GET").body, b"foobar")
        check_reply(peer.reply(method), 304, {"etag": tag_of(file), "connection": "close"})
        check(peer.ended(), "something follows the last 304")
        peer.close()
        peer = Peer(g.server)
        peer.send(method, "/uri/" + file.cap, had, version="1.0")
        check_reply(peer.reply(method), 304, {"etag": tag_of(file), "connection": "close"})
        check(peer.ended(), "something follows a 304 of HTTP/1.0")
        peer.close()
    # a body beside the condition, which is read and ignored
    check_unchanged(g.ask("GET", "/uri/" + file.cap, had, b"a body"), file)
    check_whole(g.ask("GET", "/uri/" + file.cap), file)
    connection = http.client.HTTPConnection(*g.server.address, timeout=60)
    for fields, status, body in [(dict(had), 304, b""), ({}, 200, file.text)] * 3:
        connection.request("GET", "/uri/" + file.cap, headers=fields)
        got = connection.getresponse()
        check_same((got.status, got.read(), got.getheader("ETag")), (status, body, tag_of(file)))
    connection.close()


def a_file_in_a_folder_has_the_tag_of_its_own_cap(g):
    file, other = g.new(), g.new()
    name = "gr\u00fcn & 100%.png"
    inner = g.folder({name: file.cap, "other": other.cap, "short": "URI:LIT:mzxw6ytboi"})
    top = g.folder({"inner": inner})
    escaped = urllib.parse.quote(name, safe="")
    for target in ["/uri/%s/%s" % (inner, escaped), "/uri/%s/inner/%s" % (top, escaped)]:
        # the name on the way says nothing: only a query's does
        check_whole(g.ask("GET", target), file, target)
        check_whole(g.ask("GET", target + "?filename=x.png"), file, kind="image/png", content_disposition="inline; filename=\"x.png\"; filename*=UTF-8''x.png")
        for method in ["GET", "HEAD"]:
            check_unchanged(g.ask(method, target, [("If-None-Match", tag_of(file))]), file)
        for tag in [tag_of(other), '"%s"' % verify_cap(inner), '"%s"' % verify_cap(top)]:
            check_whole(g.ask("GET", target, [("If-None-Match", tag)]), file)
            check_whole(g.ask("GET", target, [("If-Range", tag), ("Range", "bytes=0-1")]), file)
        check_part(g.ask("GET", target, [("If-Range", tag_of(file)), ("Range", "bytes=0-1")]), file, 0, 1)
    for star in ["*", tag_of(file)]:
        check_refused(g.ask("GET", "/uri/%s/nobody" % inner, [("If-None-Match", star)]), 404)
        check_refused(g.ask("GET", "/uri/" + inner, [("If-None-Match", star)]), 400)


def a_file_in_its_cap_has_no_tag(g):
    file = uploads.Upload(K, N, b"", b"foobar")
    target = "/uri/" + file.cap
    check_whole(g.ask("GET", target), file)
    check_reply(g.ask("HEAD", target), 200, wanted_fields(file), size=6)
    for tag in ['"%s"' % file.cap, '"xyzzy"', '""']:
        check_whole(g.ask("GET", target, [("If-None-Match", tag)]), file)
        check_whole(g.ask("GET", target, [("If-Range", tag), ("Range", "bytes=0-1")]), file)
    check_part(g.ask("GET", target, [("Range", "bytes=1-2")]), file, 1, 2)
    named = g.ask("GET", target + "?filename=x.txt&save=1")
    check_whole(named, file, kind=TEXT, content_disposition="attachment; filename=\"x.txt\"; filename*=UTF-8''x.txt")
    check_whole(g.ask("GET", "/uri/%s/short" % g.folder({"short": file.cap})), file)


# ---- names

ATTR_CHAR = "!#$&+-.^_`|~0123456789abcdefghijklmnopqrstuvwxyzABCDEFGHIJKLMNOPQRSTUVWXYZ"
# RFC 6266, section 4.1, with the quoted-string of RFC 9110, section 5.6.4, and the ext-value of RFC 8187, section 3.2.1
DISPOSITION = re.compile(r"""(inline|attachment)(?:; filename="((?:[\t \x21\x23-\x5b\x5d-\x7e]|\\[\t\x20-\x7e])*)"; """
                         r"""filename\*=UTF-8''((?:%[0-9A-F]{2}|[!#$&+.^_`|~0-9A-Za-z-])*))?""")

NAMES = [
    "plain.txt", "a name.txt", "it's.txt", 'a "quoted" one.txt', '"', "back\\slash.txt", "\\", "end\\", "C:\\x.txt",
    "a\r\nSet-Cookie: a=b", "\r\n\r\n<html>", "a\nb", "a\rb", "\0", "a\tb", "\x7f", "\x1b[31m", " around ", "a;b=c", "a, b", "a=b&c", "100%.txt", "%41.txt",
    "%0d%0a", "..", ".", "../../etc/passwd", "/etc/passwd", "a/b", "~/.bashrc", "-rf", "*", "(1).txt", "'", "UTF-8''x", "=?UTF-8?Q?x?=", "{x}[y]<z>@:",
    "\u20ac rates", "gr\u00fcn.txt", "e\u0301.txt", "\u6587\u4ef6.txt", "\U0001f600.png", "\u202egnp.txt", "\ufeffx", "\u2028", "\u0080", "\ufffd",
    "x" * 4000, "\u00e9" * 2000, ATTR_CHAR,
]
# Queries as they stand in a target, whose names are those that Python's urllib finds.
QUERIES = [
    "filename=a+b%2Bc.txt", "filename=%ff%fe.txt", "filename=a%C3", "filename=%zz%4", "filename=gr\u00fcn.txt", "filename=a&filename=b", "x=1&filename=a=b",
    "&&filename=a&", "file%6eame=a", "filename=a;save=true", "t=&filename=a",
    "filename=?", "filename=a/b?c", "FILENAME=a", "filename", "filename=", "filename=&filename=b", "",
    "verify=no&output=x&filename=a", "filename=" + "%20" * 4000,
]


def by_email(value):
    """The kind, and the parameters by name, as Python's email library reads them."""
    message = email.message_from_bytes(b"Content-Disposition: " + value.encode() + b"\r\n\r\n")
    pairs = message.get_params(header="content-disposition")[1:]
    return message.get_content_disposition(), [(name, email.utils.collapse_rfc2231_value(text)) for name, text in pairs]


def check_disposition(reply, kind, name):
    value = reply.fields.get("content-disposition")
    if not name:
        return check_same(value, None if kind == "inline" else kind, "no name")
    parts = DISPOSITION.fullmatch(value)
    check(parts, "no disposition: %r" % value[:200])
    plain = "".join(c if c in ATTR_CHAR + " " else "_" for c in name.encode().decode("latin-1"))
    check_same((parts[1], parts[2]), (kind, plain))
    check_same(urllib.parse.unquote_to_bytes(parts[3]), name.encode())
    # its unquoting takes away what stands behind a backslash
    if "\\\\" not in name and '\\"' not in name:
        check_same(by_email(value), (kind, [("filename", plain), ("filename", name)]))


def a_name_is_told_as_it_was_given(g):
    file = g.new(100)
    queries = ["filename=" + urllib.parse.quote(name, safe="") for name in NAMES] + QUERIES
    for query in queries:
        (name, *_) = urllib.parse.parse_qs(query, keep_blank_values=True, errors="replace").get("filename", [""])
        for more, kind in [("", "inline"), ("&save=true", "attachment")]:
            target = "/uri/%s?%s%s" % (file.cap, query, more)
            reply, head = g.ask("GET", target), g.ask("HEAD", target)
            told = {} if not name and kind == "inline" else {"content_disposition": reply.fields.get("content-disposition")}
            given = reply.fields.get("content-type") if name else OCTETS
            check_whole(reply, file, query[:80], kind=given, **told)
            check_same(head.fields, reply.fields)
            check_disposition(reply, kind, name)
    # what RFC 8187, section 3.2.3, and RFC 6266, section 5, write of such names
    value = g.ask("GET", "/uri/%s?filename=%%C2%%A3%%20and%%20%%E2%%82%%AC%%20rates" % file.cap).fields["content-disposition"]
    check(value.split("filename*=")[1].lower() == "utf-8''%c2%a3%20and%20%e2%82%ac%20rates", value)
    value = g.ask("GET", "/uri/%s?filename=%%E2%%82%%AC%%20rates&save=t" % file.cap).fields["content-disposition"]
    check(value.startswith("attachment; ") and value.endswith("; filename*=UTF-8''%E2%82%AC%20rates"), value)
    value = g.ask("GET", "/uri/%s?filename=example.html&save=t" % file.cap).fields["content-disposition"]
    check_same(by_email(value)[1][0], by_email('Attachment; filename=example.html')[1][0])


def only_what_says_yes_saves(g):
    file = g.new(100)
    for value, kind in [("true", "attachment"), ("TRUE", "attachment"), ("t", "attachment"), ("1", "attachment"), ("On", "attachment"), ("false", "inline"),
                        ("f", "inline"), ("0", "inline"), ("off", "inline"), ("", "inline"), ("yes", "inline"), ("true%20", "inline"), ("11", "inline"),
                        ("false&save=true", "inline"), ("true&save=false", "attachment")]:
        for query, name in [("save=%s", ""), ("filename=a&save=%s", "a"), ("save=%s&filename=a", "a"), ("filename=&save=%s", "")]:
            check_disposition(g.ask("GET", "/uri/%s?%s" % (file.cap, query % value)), kind, name)


TYPES = {
    "txt": TEXT, "md": TEXT, "csv": TEXT, "log": TEXT, "png": "image/png", "jpg": "image/jpeg", "jpeg": "image/jpeg", "gif": "image/gif", "webp": "image/webp",
    "avif": "image/avif", "mp4": "video/mp4", "webm": "video/webm", "mp3": "audio/mpeg", "ogg": "audio/ogg", "wav": "audio/wav", "flac": "audio/flac",
}
# In these something may run, or a browser may look into them for more.
NEVER = ("html htm xhtml xht shtml mhtml xml xsl xslt svg svgz js mjs css json pdf swf wasm manifest webmanifest appcache hta htc vbs exe jar class xul rdf "
         "atom rss zip gz doc ico bmp eml").split()


def only_what_runs_nothing_is_given_a_type(g):
    file = g.new(100)
    cases = [("a." + end, kind) for end, kind in TYPES.items()] + [("A.B." + end.upper(), kind) for end, kind in TYPES.items()]
    cases += [("." + end, kind) for end, kind in TYPES.items()] + [("a." + end, OCTETS) for end in NEVER]
    for end in TYPES:
        cases += [(end, OCTETS), ("a" + end, OCTETS), ("a.%s.html" % end, OCTETS), ("a.%s " % end, OCTETS), ("a.%s." % end, OCTETS), ("a.x" + end, OCTETS),
                  ("a.%s/" % end, OCTETS), ("a.%s\0" % end, OCTETS), ("a.%s;.html" % end, OCTETS), ("a.html.%s" % end, TYPES[end])]
    for name, kind in cases + [("a.\uff50\uff4e\uff47", OCTETS), ("a.\u017fvg", OCTETS), ("\u212a.png", "image/png")]:
        reply = g.ask("GET", "/uri/%s?filename=%s" % (file.cap, urllib.parse.quote(name, safe="")))
        check_same((name, reply.fields["content-type"]), (name, kind))
        check_same({field: reply.fields.get(field) for field in OF_FILES}, guards(kind))


# ---- what is as it was, and what isn't kept

def other_replies_are_as_they_were(g):
    file = g.new()
    folder = g.folder({"a": file.cap})
    for cap in [file.cap, folder, "URI:LIT:mzxw6ytboi", file.verify_cap]:
        for query in ["", "&filename=x.png&save=true"]:
            reply = g.ask("GET", "/uri/%s?t=json%s" % (cap, query), [("If-None-Match", tag_of(file)), ("Range", "bytes=0-1"), ("If-Range", tag_of(file))])
            if cap == file.verify_cap:
                check_refused(reply, 400)
                continue
            check_reply(reply, 200, {"content-type": JSON}, reply.body)
            check_same(json.loads(reply.body)[1]["ro_uri"], cap)
            checked = g.ask("POST", "/uri/%s?t=check&output=JSON%s" % (cap, query), [("If-None-Match", "*")])
            check_reply(checked, 200, {"content-type": JSON}, checked.body)
    cap = g.ask("PUT", "/uri?filename=x.png&save=true", [("If-None-Match", "*")], file.text)
    check_reply(cap, 200, {"content-type": TEXT}, file.cap.encode())
    made = g.ask("POST", "/uri?t=mkdir-immutable&filename=x.png", (), b"{}")
    check_reply(made, 200, {"content-type": TEXT}, b"URI:DIR2-LIT:")
    page = g.ask("GET", "/?filename=x.png&save=true", [("If-None-Match", "*")])
    check_same((page.status, page.fields["content-type"], page.fields["cache-control"], page.fields.get("etag"), page.fields.get("content-disposition")),
               (200, "text/html; charset=utf-8", "no-cache", None, None))


def refusals_are_not_kept(g):
    file = g.new()
    folder = g.folder({"a": file.cap})
    asks = [("GET", "/uri/" + file.verify_cap, 400), ("GET", "/uri/nothing", 400), ("GET", "/uri/" + folder, 400), ("GET", "/uri/%s/a/b" % folder, 400),
            ("GET", "/uri/%s?t=info" % file.cap, 400), ("GET", "/uri/%s/b" % folder, 404), ("GET", "/elsewhere", 404), ("POST", "/uri?t=mkdir-immutable", 400)]
    for method, target, status in asks:
        for query in ["", "&" if "?" in target else "?"]:
            named = target + (query + "filename=x.png&save=true" if query else "")
            check_refused(g.ask(method, named, [("If-None-Match", "*")]), status, named)
    for method, target, methods in [("GET", "/uri", "POST, PUT"), ("DELETE", "/uri/" + file.cap, "GET, HEAD, POST"),
                                    ("PUT", "/uri/" + file.cap, "GET, HEAD, POST")]:
        check_refused(g.ask(method, target), 405, allow=methods)
    check_refused(g.ask("GET", "/uri/" + file.cap, [("Range", "bytes=1000-")]), 416, content_range="bytes */1000")
    with beside(g, "--store", "mem:1") as peer:
        check_refused(peer.ask("PUT", "/uri", (), b"no room for it " * 9), 503)
        # of which nothing is stored
        check_refused(peer.ask("GET", "/uri/" + file.cap, [("If-None-Match", "*")]), 410)


def moved_away(g, file, keep):
    """Takes the files of all shares but so many away, and gives back how to put them back."""
    paths = [path for _, path in sorted(g.files(file).items())]
    check_same(len(paths), N)
    gone = [(path, g.path("away-" + os.path.basename(path))) for path in paths[keep:]]
    for path, place in gone:
        shutil.move(path, place)

    def back():
        for path, place in gone:
            shutil.move(place, path)
    return back


def a_file_that_is_gone_is_not_unchanged(g):
    file = g.new()
    folder = g.folder({"a": file.cap})
    back = moved_away(g, file, K - 1)
    # a start that doesn't find them, and one that has them again
    for started in [lambda: None, g.again]:
        started()
        for target in ["/uri/" + file.cap, "/uri/%s/a" % folder, "/uri/%s?filename=x.png" % file.cap]:
            for fields in [[], [("If-None-Match", tag_of(file))], [("If-None-Match", "*")], [("If-Range", tag_of(file)), ("Range", "bytes=0-1")]]:
                check_refused(g.ask("GET", target, fields), 410, "%s" % fields)
                check_refused(g.ask("HEAD", target, fields), 410, "%s" % fields)
    back()
    g.again()
    check_unchanged(g.ask("GET", "/uri/" + file.cap, [("If-None-Match", tag_of(file))]), file)
    check_whole(g.ask("GET", "/uri/" + file.cap), file)
    # what was read before is asked for again all the same
    back = moved_away(g, file, K - 1)
    g.again()
    check_refused(g.ask("GET", "/uri/" + file.cap, [("If-None-Match", tag_of(file))]), 410)
    back()
    g.again()


# ---- where shares are

def report(g, cap, verify=None):
    reply = g.ask("POST", "/uri/%s?t=check&output=json%s" % (cap, "" if verify is None else "&verify=" + verify))
    check_reply(reply, 200, {"content-type": JSON}, reply.body)
    return reply.body.decode()


def wanted_report(file, places, bad=()):
    """What docs/FORMATS.md says of shares that stand at these pairs of number and server, and of bad ones."""
    numbers, index = sorted({number for number, _ in places}), uploads.base32(file.index)
    at = {str(number): [server for each, server in sorted(places) if each == number] for number in numbers}
    results = {
        "count-corrupt-shares": len(bad), "count-shares-expected": file.n, "count-shares-good": len(numbers), "count-shares-needed": file.k,
        "healthy": len(numbers) == file.n, "list-corrupt-shares": [[server, index, number] for number, server in sorted(bad)],
        "recoverable": len(numbers) >= file.k, "sharemap": at}
    return json.dumps({"results": results, "storage-index": index}, separators=(",", ":"))


def a_check_says_where_shares_are(g):
    file = g.new()
    files = g.files(file)
    # by the folders, and by the model
    check_same(sorted(files), sorted((number, server) for server, _, number in file.placed(SERVERS)))
    for cap in [file.cap, file.verify_cap]:
        for verify in [None, "false", "true"]:
            check_same(report(g, cap, verify), wanted_report(file, files))
    folder = g.folder({"a": file.cap})
    check_same(json.loads(report(g, folder))["results"]["sharemap"].keys(), {str(number) for number in range(N)})
    check_same(json.loads(report(g, folder + "/a"))["results"]["sharemap"], json.loads(wanted_report(file, files))["results"]["sharemap"])
    for cap in ["URI:LIT:mzxw6ytboi", "URI:DIR2-LIT:"]:
        check_same(report(g, cap), '{"results":{"healthy":true},"storage-index":""}')
    # nothing of it is stored
    other = uploads.Upload(K, N, b"", b"nobody stored it " * 9)
    for verify in ["false", "true"]:
        check_same(report(g, other.cap, verify), wanted_report(other, {}))


def a_check_says_which_shares_are_lost_and_rotten(g):
    file = g.new()
    files = g.files(file)
    servers = {number: server for number, server in files}
    os.remove(files[0, servers[0]])
    os.remove(files[9, servers[9]])
    # rotten, but sealed; at another server it is whole
    with open(files[1, servers[1]], "rb") as share:
        text = share.read()[:-8]
    rotten = bytearray(text)
    rotten[-10] ^= 1
    with open(files[1, servers[1]], "wb") as share:
        share.write(rotten + seal(bytes(rotten)))
    elsewhere = (servers[1] + 2) % SERVERS
    copied = files[1, servers[1]].replace("store%d" % servers[1], "store%d" % elsewhere)
    os.makedirs(os.path.dirname(copied), exist_ok=True)
    with open(copied, "wb") as share:
        share.write(text + seal(text))
    # rotten everywhere, and one at two servers
    with open(files[4, servers[4]], "wb") as share:
        share.write(b"no share at all" + seal(b"no share at all"))
    twice = (servers[6] + 1) % SERVERS
    copied = files[6, servers[6]].replace("store%d" % servers[6], "store%d" % twice)
    os.makedirs(os.path.dirname(copied), exist_ok=True)
    shutil.copy(files[6, servers[6]], copied)
    g.again()
    stand = set(g.files(file))
    check_same(len(stand), 10)
    bad = {(1, servers[1]), (4, servers[4])}
    check_same(report(g, file.cap, "false"), wanted_report(file, stand))
    check_same(report(g, file.cap, "true"), wanted_report(file, stand - bad, bad))
    check_same(report(g, file.verify_cap, "true"), wanted_report(file, stand - bad, bad))
    check_whole(g.ask("GET", "/uri/" + file.cap), file)
    # lost while it is served
    file = g.new()
    files = g.files(file)
    for number, server in list(files)[:8]:
        os.remove(files[number, server])
    check_same(report(g, file.cap, "true"), wanted_report(file, g.files(file)))
    check_refused(g.ask("GET", "/uri/" + file.cap), 410)


def more_shares_come_in_the_order_of_their_numbers(g):
    file = uploads.Upload(2, 12, b"", b"of twelve shares, on three servers in memory " * 3)
    places = {(number, server) for server, _, number in file.placed(3)}
    with beside(g, "--servers", "3", "--shares", "2,12") as peer:
        check_same(peer.ask("PUT", "/uri", (), file.text).body.decode(), file.cap)
        for verify in ["false", "true"]:
            reply = peer.ask("POST", "/uri/%s?t=check&output=json&verify=%s" % (file.cap, verify))
            check_same(reply.body.decode(), wanted_report(file, places))


# ---- clients

def ran(*words, folder, status=0):
    done = subprocess.run(words, cwd=folder, capture_output=True, timeout=120)
    check_same((done.returncode, done.stderr[-300:] if done.returncode != status else b""), (status, b""), words[0])
    return done.stdout.decode()


def fresh(g):
    """A folder in a folder, so that it would be seen where something lands outside."""
    place = g.path("client%d" % next(g.count), "own")
    os.makedirs(place)
    return place


def only_file(place):
    """The one file that lies at or above a place, by its name, and its bytes."""
    found = [os.path.join(top, name) for top, _, names in os.walk(os.path.dirname(place)) for name in names]
    check_same(len(found), 1, "%s" % found)
    check_same(os.path.dirname(found[0]), place)
    with open(found[0], "rb") as file:
        return os.path.basename(found[0]), file.read()


CURL = ["curl", "-q", "--silent", "--show-error", "--fail", "--noproxy", "*"]
WGET = ["wget", "--no-config", "--quiet", "--tries=1", "--no-proxy"]
# No name of a folder above, and none that leads there.
HOSTILE = ["../evil", "../../evil", "/tmp/evil", "a/b", "..\\evil", "a\0b", "a\r\nb: c", '"; filename="../evil', "%2e%2e%2fevil", ".bashrc"]


def curl_and_wget_save_under_the_name(g):
    file = g.new()
    for name in ["a name.txt", "it_is-1.0.tar.gz", "x" * 200]:
        url = "%s/uri/%s?filename=%s&save=true" % (g.url, file.cap, urllib.parse.quote(name, safe=""))
        for client in [[*CURL, "-OJ", url], [*WGET, "--content-disposition", url]]:
            place = fresh(g)
            ran(*client, folder=place)
            check_same(only_file(place), (name, file.text), client[0])
    for name in HOSTILE:
        url = "%s/uri/%s?filename=%s" % (g.url, file.cap, urllib.parse.quote(name, safe=""))
        for client in [[*CURL, "-OJ", url], [*WGET, "--content-disposition", url]]:
            place = fresh(g)
            ran(*client, folder=place)
            check(only_file(place)[1] == file.text, "%s: other bytes" % client)


def curl_keeps_a_tag_and_asks_by_it(g):
    file, other, place = g.new(), g.new(), fresh(g)
    url, told = g.url + "/uri/" + file.cap, [*CURL, "-w", "%{http_code} %{size_download}"]
    check_same(ran(*told, "--etag-save", "tag", "-o", "body", url, folder=place), "200 1000")
    with open(os.path.join(place, "tag")) as saved:
        check_same(saved.read().strip(), tag_of(file))
    check_same(ran(*told, "--etag-compare", "tag", "--etag-save", "tag", "-o", "body", url, folder=place), "304 0")
    with open(os.path.join(place, "body"), "rb") as kept:
        check(kept.read() == file.text, "what was kept is another")
    check_same(ran(*told, "--etag-compare", "tag", "-o", "body", g.url + "/uri/" + other.cap, folder=place), "200 1000")
    # what it sends after a 304 on the connection, and after the head alone
    two = ran(*told, "-H", "If-None-Match: " + tag_of(file), "-o", "body", url, "-o", "more", url + "?x", folder=place)
    check_same(two, "304 0304 0")
    check_same(ran(*CURL, "-I", "-H", "If-None-Match: *", url, folder=place).split("\r\n")[0], "HTTP/1.1 304 Not Modified")


def what_broke_off_is_resumed(g):
    text = hashlib.shake_128(b"resumed").digest(300000)
    url = "%s/uri/%s" % (g.url, g.put(text))
    for client in [[*CURL, "-C", "-", "-o", "body", url], [*WGET, "-c", "-O", "body", url]]:
        for size in [1, 131072, 299999]:
            place = fresh(g)
            with open(os.path.join(place, "body"), "wb") as file:
                file.write(text[:size])
            before = g.server.asked_control("GET", "/metrics")
            ran(*client, folder=place)
            check(only_file(place) == ("body", text), "%s: other bytes" % client)
            parts = [int(re.search(rb'replies_total\{[^}]*"206"\} (\d+)', told)[1]) for told in (before, g.server.asked_control("GET", "/metrics"))]
            check_same(parts[1] - parts[0], 1, client[0])


NGINX = """worker_processes 1; daemon off; master_process off; pid {folder}/pid; error_log {folder}/errors info;
events {{ worker_connections 64; }}
http {{
    client_body_temp_path {folder}/a; proxy_temp_path {folder}/b; fastcgi_temp_path {folder}/c; uwsgi_temp_path {folder}/d; scgi_temp_path {folder}/e;
    access_log off;
    proxy_cache_path {folder}/cache keys_zone=files:1m;
    server {{
        listen 127.0.0.1:{port};
        location / {{
            proxy_pass http://{gate}; proxy_http_version 1.1; proxy_set_header Connection "";
            proxy_cache files; proxy_cache_valid 200 1s; proxy_cache_valid any 10m; proxy_cache_revalidate on;
            add_header X-Cache $upstream_cache_status always;
        }}
    }}
}}
"""


class Cache:
    """nginx, which keeps replies of the server, files for a second and all others for ten minutes, unless they say otherwise."""

    def __init__(self, g):
        folder = g.path("nginx%d" % next(g.count))
        os.makedirs(folder)
        port = int(ran(sys.executable, "-c", "import socket; s = socket.socket(); s.bind(('127.0.0.1', 0)); print(s.getsockname()[1])", folder=folder))
        with open(os.path.join(folder, "conf"), "w") as file:
            file.write(NGINX.format(folder=folder, port=port, gate="%s:%d" % g.front))
        program = shutil.which("nginx", path=os.environ["PATH"] + ":/usr/sbin")
        self.process = subprocess.Popen([program, "-c", os.path.join(folder, "conf"), "-e", os.path.join(folder, "errors")])
        self.address = "127.0.0.1", port
        for _ in range(100):
            try:
                return self.ask("/uri/URI:LIT:") and None
            except OSError:
                time.sleep(0.1)
        fail("nginx doesn't listen")

    def ask(self, target, **fields):
        connection = http.client.HTTPConnection(*self.address, timeout=60)
        connection.request("GET", target, headers={name.replace("_", "-"): value for name, value in fields.items()})
        got = connection.getresponse()
        body = got.read()
        connection.close()
        return got.status, got.getheader("X-Cache"), got, body

    def close(self):
        self.process.terminate()
        self.process.wait(20)


def a_cache_in_front_asks_by_the_tag(g):
    file, gone = g.new(), g.new()
    moved_away(g, gone, K - 1)
    cache = Cache(g)
    try:
        for target, kind in [("/uri/" + file.cap, OCTETS), ("/uri/%s?filename=x.png" % file.cap, "image/png")]:
            for wanted in ["MISS", "HIT", "REVALIDATED", "REVALIDATED"]:
                time.sleep(0 if wanted in ("MISS", "HIT") else 2.2)
                status, came, got, body = cache.ask(target)
                check_same((status, came, got.getheader("ETag"), got.getheader("Content-Type")), (200, wanted, tag_of(file), kind))
                check_same({name: got.getheader(name) for name in OF_FILES}, OF_FILES)
                check(body == file.text, "other bytes from nginx")
            check_same(cache.ask(target, If_None_Match=tag_of(file))[0], 304)
            check_same(cache.ask(target, If_None_Match='"xyzzy"')[0], 200)
            status, _, got, body = cache.ask(target, Range="bytes=5-9", If_Range=tag_of(file))
            check_same((status, body, got.getheader("Content-Range")), (206, file.text[5:10], "bytes 5-9/1000"))
        # refusals aren't kept, though all else would be for ten minutes
        for _ in range(2):
            check_same(cache.ask("/uri/" + gone.cap)[:2], (410, "MISS"))
            check_same(cache.ask("/uri/%s/b" % g.folder({"a": file.cap}))[:2], (404, "MISS"))
            check_same(cache.ask("/uri/nothing")[:2], (400, "MISS"))
        # who puts the same bytes again has all shares back
        check_same(g.put(gone.text), gone.cap)
        check_same(cache.ask("/uri/" + gone.cap)[::3], (200, gone.text))
    finally:
        cache.close()


TESTS = [
    each_file_has_the_text_of_its_verify_cap_as_tag, who_has_the_file_is_told_so, dates_are_no_conditions, a_range_on_condition_is_of_the_same_file,
    who_has_the_file_needs_no_range, what_follows_a_304_is_the_next_reply, a_file_in_a_folder_has_the_tag_of_its_own_cap, a_file_in_its_cap_has_no_tag,
    a_name_is_told_as_it_was_given, only_what_says_yes_saves, only_what_runs_nothing_is_given_a_type, other_replies_are_as_they_were, refusals_are_not_kept,
    a_file_that_is_gone_is_not_unchanged, a_check_says_where_shares_are, a_check_says_which_shares_are_lost_and_rotten,
    more_shares_come_in_the_order_of_their_numbers, curl_and_wget_save_under_the_name, curl_keeps_a_tag_and_asks_by_it, what_broke_off_is_resumed,
    a_cache_in_front_asks_by_the_tag,
]


def run(program, only=None):
    """Runs the tests, or those whose names have one of these words, and tells each; how many failed."""
    failed = 0
    for test in TESTS:
        if only and not any(word in test.__name__ for word in only):
            continue
        grid = Grid(program)
        try:
            test(grid)
            check(not grid.peer.read, "bytes are left over: %r" % grid.peer.read[:200])
            print("%-62s ok" % test.__name__, flush=True)
        except Exception as error:
            failed += 1
            print("%-62s FAILED: %s: %s" % (test.__name__, type(error).__name__, error), flush=True)
        finally:
            grid.close()
    return failed


def main():
    words = argparse.ArgumentParser()
    words.add_argument("program")
    words.add_argument("--only", nargs="*")
    given = words.parse_args()
    for name in ["curl", "wget", "nginx"]:
        if not shutil.which(name, path=os.environ["PATH"] + ":/usr/sbin"):
            fail("there is no " + name)
    failed = run(checked_program(given.program), given.only)
    print("fields.py: %d failed" % failed)
    sys.exit(1 if failed else 0)


if __name__ == "__main__":
    main()
