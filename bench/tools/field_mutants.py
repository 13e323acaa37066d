#!/usr/bin/env python3
"""Has the server lie in one thing at a time, and sees that fields.py notices each: a test that would miss one lacks a line.

usage: bench/tools/field_mutants.py WOZHINNAM [WORD..]    all, or those whose names have one of these words
"""

import http.client
import http.server
import os
import re
import sys
import threading

HERE = os.path.dirname(os.path.abspath(__file__))
sys.path.insert(0, os.path.join(HERE, "../checks"))
import fields  # noqa: E402
from server import checked_program, fail  # noqa: E402


def line(name, value):
    """Puts another value, or no line, in the place of that of a field."""
    def change(head, _):
        return re.sub(rb"(?m)^%s: .*\r\n" % name, b"%s: %s\r\n" % (name, value) if value else b"", head)
    return change


def swap(old, new, status=b""):
    """Puts other bytes in the place of some, in heads of this status."""
    return lambda head, _: head.replace(old, new) if head.startswith(b"HTTP/1.1 " + status) else head


def add(more, status):
    """Adds a line to heads of this status."""
    return lambda head, _: head[:-2] + more + b"\r\n\r\n" if head.startswith(b"HTTP/1.1 " + status) else head


def body(old, new):
    """Other bytes in a body, as many."""
    def change(head, peer):
        size = re.search(rb"Content-Length: (\d+)", head)
        while size and len(peer.read) < int(size[1]):
            peer.more()
        peer.read = re.sub(old, new, peer.read)
        return head
    return change


def behind(text, status):
    """Bytes behind a head of this status."""
    def change(head, peer):
        peer.read = (text if head.startswith(b"HTTP/1.1 " + status) else b"") + peer.read
        return head
    return change


def without(name):
    """The request without a field."""
    return lambda method, target, pairs: (method, target, [pair for pair in pairs if pair[0].lower() != name])


def asked(old, new):
    """The request with another target."""
    return lambda method, target, pairs: (method, re.sub(old, new, target), pairs)


SANDBOX, TYPE = b"Content-Security-Policy", b"Content-Type"
# What is changed of replies, and a word of the test that is to notice it.
REPLIES = [
    ("no tag", line(b"ETag", None), "each_file"), ("a weak tag", swap(b'ETag: "', b'ETag: W/"'), "each_file"),
    ("a tag without quotes", lambda head, _: re.sub(rb'ETag: "(.*)"', rb"ETag: \1", head), "each_file"),
    ("a tag of the read cap", swap(b"CHK-Verifier:", b"CHK:"), "each_file"), ("a tag in a 416", add(b'ETag: "x"', b"416"), "a_range"),
    ("no Accept-Ranges", line(b"Accept-Ranges", None), "each_file"), ("Accept-Ranges: none", line(b"Accept-Ranges", b"none"), "each_file"),
    ("no nosniff", line(b"X-Content-Type-Options", None), "each_file"), ("no sandbox", line(SANDBOX, None), "each_file"),
    ("a sandbox with scripts", line(SANDBOX, b"sandbox allow-scripts"), "given_a_type"),
    ("a 304 with a length", add(b"Content-Length: 0", b"304"), "told_so"), ("a 304 with a type", add(b"Content-Type: text/plain", b"304"), "told_so"),
    ("a 304 without a tag", swap(b"ETag", b"Etog", b"304"), "told_so"), ("a 304 with a body", behind(b"x", b"304"), "next_reply"),
    ("412 for 304", swap(b"304 Not Modified", b"412 Not Modified"), "told_so"),
    ("a file that isn't kept", add(b"Cache-Control: no-store", b"200"), "each_file"),
    ("304 for 410", swap(b"410 Gone", b"304 Gone"), "is_gone"), ("a refusal that is kept", line(b"Cache-Control", None), "refusals"),
    ("no-cache for no-store", swap(b"no-store", b"no-cache"), "refusals"), ("206 without a place", line(b"Content-Range", None), "a_range"),
    ("another place", swap(b"bytes 0-", b"bytes 1-"), "a_range"), ("no disposition", line(b"Content-Disposition", None), "as_it_was_given"),
    ("attachment for inline", swap(b": inline", b": attachment"), "saves"), ("inline for attachment", swap(b": attachment", b": inline"), "saves"),
    ("a + for a space", swap(b"%20", b"+"), "as_it_was_given"), ("Latin-1 for UTF-8", swap(b"UTF-8''", b"ISO-8859-1''"), "as_it_was_given"),
    ("no filename*", lambda head, _: re.sub(rb"; filename\*=.*\r", b"\r", head), "as_it_was_given"),
    ("quotes in a name", swap(b"_quoted_", b'\\"quoted\\"'), "as_it_was_given"), ("a quote unescaped", swap(b"%22", b'"'), "as_it_was_given"),
    ("a line end in a name", swap(b"%0D%0A", b"\r\n"), "as_it_was_given"), ("a % unescaped", swap(b"%25", b"%"), "as_it_was_given"),
    ("SVG as a picture", swap(b"application/octet-stream", b"image/svg+xml"), "given_a_type"), ("HTML", line(TYPE, b"text/html"), "given_a_type"),
    ("no charset", swap(b"; charset=utf-8", b""), "given_a_type"), ("JSON with a tag", add(b'ETag: "x"', b"200"), "as_they_were"),
    ("a number at another server", body(rb'("\d":)\[0\]', rb"\1[1]"), "says_where"), ("another number", body(rb'"0":\[', b'"9":['), "says_where"),
    ("numbers in another order", body(rb'"9":(\[.\]),"10":(\[.\])', rb'"10":\2,"9":\1'), "order_of_their"),
    ("servers in another order", body(rb"\[(\d),(\d)\]", rb"[\2,\1]"), "lost_and_rotten"),
]
# What is changed of requests, as by a server that doesn't look at it, or looks at more.
REQUESTS = [
    ("If-None-Match isn't looked at", without("if-none-match"), "told_so"), ("If-Range isn't looked at", without("if-range"), "a_range"),
    ("Range isn't looked at", without("range"), "a_range"), ("save isn't looked at", asked("save=", "s="), "saves"),
    ("a name on the way counts", lambda method, target, pairs: (method, re.sub(r"/([^/?]+)$", r"/\1?filename=\1", target), pairs), "in_a_folder"),
    ("the last name counts", asked(r"filename=a&filename=b", "filename=b"), "as_it_was_given"),
    ("each 304 is one", lambda method, target, pairs: (method, target, [*pairs, ("If-None-Match", "*")]), "told_so"),
    ("shares aren't verified", asked("verify=true", "verify=false"), "lost_and_rotten"),
    ("shares are verified", asked("verify=false", "verify=true"), "lost_and_rotten"),
]
# What is changed of replies to curl, wget and nginx: fields and their values by name.
CLIENTS = [
    ("no tag for curl", {"ETag": None}, "curl_keeps"), ("another tag for curl", {"ETag": '"x"'}, "curl_keeps"),
    ("another name", {"Content-Disposition": "inline; filename=x"}, "under_the_name"),
    ("no name for curl", {"Content-Disposition": None}, "under_the_name"), ("no ranges", {"Content-Range": "bytes 0-1/2"}, "resumed"),
    ("no tag for nginx", {"ETag": None}, "in_front"), ("a refusal that nginx keeps", {"Cache-Control": None}, "in_front"),
    ("files that nginx doesn't keep", {"Cache-Control": "no-store"}, "in_front"),
]


def lying_peer(own, reply=None, request=None):
    class Peer(own):
        def send(self, method, target, pairs=(), *more, **named):
            super().send(*(request(method, target, list(pairs)) if request else (method, target, pairs)), *more, **named)

        def reply(self, method):
            while reply and b"\r\n\r\n" not in self.read:
                self.more()
            if reply:
                head = self.cut(self.read.index(b"\r\n\r\n") + 4)
                self.read = reply(head, self) + self.read
            return super().reply(method)
    return Peer


class Relay(http.server.ThreadingHTTPServer):
    """A server of other fields before another one."""

    def __init__(self, address, changes):
        class Handler(http.server.BaseHTTPRequestHandler):
            protocol_version = "HTTP/1.1"

            def log_message(self, *words):
                pass

            def do_GET(self):
                behind_it = http.client.HTTPConnection(*address, timeout=60)
                behind_it.request(self.command, self.path, headers={name: value for name, value in self.headers.items() if name != "Host"})
                got = behind_it.getresponse()
                text = got.read()
                behind_it.close()
                self.send_response_only(got.status)
                put = {name: value for name, value in changes.items() if value is None or name in got.headers or name == "Cache-Control"}
                told = {**dict(got.getheaders()), **put}
                for name, value in told.items():
                    if value is not None:
                        self.send_header(name, value)
                self.end_headers()
                self.wfile.write(b"" if self.command == "HEAD" else text)

            do_HEAD = do_GET

        self.handle_error = lambda request, address: None
        super().__init__(("127.0.0.1", 0), Handler)
        threading.Thread(target=self.serve_forever, daemon=True).start()


def noticed(program, only, peer, grid):
    """What the one test of this name fails by; None where it passes."""
    (test,) = [each for each in fields.TESTS if only in each.__name__]
    own, fields.Peer = fields.Peer, peer
    made = grid(program)
    try:
        test(made)
        fields.check(not made.peer.read, "bytes are left over")
        return None
    except Exception as error:
        return "%s: %s" % (type(error).__name__, error)
    finally:
        fields.Peer = own
        made.close()


def client_grid(changes):
    class Grid(fields.Grid):
        def start(self):
            super().start()
            relay = Relay(self.server.address, changes)
            self.url = "http://127.0.0.1:%d" % relay.server_address[1]
            self.front = relay.server_address
    return Grid


def main():
    if len(sys.argv) < 2:
        fail("a PROGRAM is wanted")
    program, missed, own = checked_program(sys.argv[1]), 0, fields.Peer
    lies = [(name, only, lying_peer(own, reply=change), fields.Grid) for name, change, only in REPLIES]
    lies += [(name, only, lying_peer(own, request=change), fields.Grid) for name, change, only in REQUESTS]
    lies += [(name, only, own, client_grid(changes)) for name, changes, only in CLIENTS]
    for name, only, peer, grid in lies:
        if sys.argv[2:] and not any(word in name for word in sys.argv[2:]):
            continue
        why = noticed(program, only, peer, grid)
        missed += why is None
        print("%-7s %-32s %s" % ("MISSED" if why is None else "noticed", name, (why or "")[:110]), flush=True)
    print("field_mutants.py: %d missed" % missed)
    sys.exit(1 if missed else 0)


if __name__ == "__main__":
    main()
