#!/usr/bin/env python3
"""`woz`, the built client, against `wozhinnam serve`, the built server, and against gateways that lie.

usage: bench/checks/client.py WOZ PROGRAM

A folder is put and got again, file by file, and by paths; files in parts, which a file is of more than 16 MiB; listings are those of the gateway; checks and repairs; each exit status by its cause.
Over several connections at once trees are the same, also where answers are late, exchanged, spoiled and cut.
With `--skip-existing` only what changed is sent again, told by the requests that reach the gateway.
Then a proxy stands between the two that changes one bit of a reply's body (at each of many places), cuts replies, gives them byte by byte or in
chunks, and gateways that answer with endless heads, interim replies without end, rubbish in chunks, redirects, pages of HTML and bodies that are
too long: a get is right or refused with its status, and then nothing stands under the name that was asked for. Gateways that are silent, or drip, are
left soon after `--patience`. Each byte of a reply's head is
changed too, and the answers to a check, a repair and a new directory; folders change while they are put; output that is full. At last a disk that is
full (a file system in memory, where this user may mount one). It takes two or three minutes.
"""

import json
import os
import pty
import random
import re
import shutil
import socket
import subprocess
import sys
import tempfile
import threading
import time
import urllib.request

sys.path.insert(0, os.path.join(os.path.dirname(os.path.abspath(__file__)), "../tools"))

from server import wozhinnam

LIMIT = 1 << 24


def fail(words):
    print("client.py: " + words, file=sys.stderr)
    sys.exit(1)


class Server:
    def __init__(self, program):
        self.process = subprocess.Popen(
            [program, "serve", "--listen", "127.0.0.1:0", "--control", "127.0.0.1:0"], stdout=subprocess.PIPE, stderr=subprocess.DEVNULL, text=True)
        address, self.control = (self.process.stdout.readline().split()[-1] for _ in range(2))
        self.port = int(address.rsplit(":", 1)[1])
        self.url = "http://" + address

    def stop(self):
        urllib.request.urlopen(urllib.request.Request("http://%s/stop" % self.control, method="POST"), timeout=30).read()
        self.process.wait(timeout=60)


class Gateway:
    """A listener whose connections `serve` answers, each in a thread of its own."""

    def __init__(self, serve):
        self.listener = socket.create_server(("127.0.0.1", 0))
        self.url = "http://127.0.0.1:%d" % self.listener.getsockname()[1]
        self.serve = serve
        self.connections = 0
        threading.Thread(target=self.accept, daemon=True).start()

    def accept(self):
        while True:
            try:
                stream, _ = self.listener.accept()
            except OSError:
                return
            self.connections += 1
            threading.Thread(target=self.answer, args=(stream,), daemon=True).start()

    def answer(self, stream):
        with stream:
            try:
                self.serve(stream)
            except OSError:
                pass

    def close(self):
        self.listener.close()


def read_request(stream):
    """The head and the body of a request, or None at the end."""
    data = b""
    while b"\r\n\r\n" not in data:
        got = stream.recv(65536)
        if not got:
            return None
        data += got
    head, body = data.split(b"\r\n\r\n", 1)
    length = 0
    for line in head.split(b"\r\n")[1:]:
        name, value = line.split(b":", 1)
        if name.lower() == b"content-length":
            length = int(value)
    while len(body) < length:
        body += stream.recv(1 << 20)
    return head + b"\r\n\r\n" + body


def read_reply(stream):
    """The head and the body of a reply of a given length."""
    reply = read_request(stream)
    return reply.split(b"\r\n\r\n", 1)


def proxy(server, change):
    """A gateway that passes requests on, and gives what `change` makes of the head and the body of each reply."""

    def serve(stream):
        with socket.create_connection(("127.0.0.1", server.port)) as behind:
            while request := read_request(stream):
                behind.sendall(request)
                head, body = read_reply(behind)
                if not change(stream, head, body):
                    return

    return Gateway(serve)


class Client:
    def __init__(self, program, folder):
        self.program = program
        self.folder = folder

    def run(self, url, *words, given=None, wanted=0, timeout=300):
        done = subprocess.run([self.program, "--gateway", url, *words], input=given, capture_output=True, cwd=self.folder, timeout=timeout)
        if wanted is not None and done.returncode != wanted:
            fail("%s ends with %d and not %d: %s" % (words[:1], done.returncode, wanted, done.stderr.decode(errors="replace")))
        if b"URI:" in done.stderr:
            fail("%s tells a cap on standard error" % (words[:1],))
        if any(byte < 32 and byte != 10 or byte == 127 for byte in done.stderr):
            fail("%s tells control characters on standard error: %r" % (words[:1], done.stderr))
        return done

    def text(self, url, *words, **how):
        return self.run(url, *words, **how).stdout.decode()


def make_tree(top):
    chosen = random.Random(7)
    os.makedirs(os.path.join(top, "a folder", "é", "deep", "deeper"))
    os.makedirs(os.path.join(top, "empty"))
    for at, size in enumerate([0, 1, 55, 56, 57, 1000, 131071, 131072, 131073, 400000]):
        place = [top, os.path.join(top, "a folder"), os.path.join(top, "a folder", "é"), os.path.join(top, "a folder", "é", "deep", "deeper")][at % 4]
        with open(os.path.join(place, "file %d \"quoted\" \\ 日.bin" % size), "wb") as file:
            file.write(chosen.randbytes(size))


def same_trees(one, other):
    if subprocess.run(["diff", "-r", one, other], stdout=subprocess.DEVNULL).returncode != 0:
        fail("%s and %s differ" % (one, other))


def written_heads(place):
    """Changes a bit of the byte at a place of each reply's head, or of the empty line behind it, and closes."""

    def change(stream, head, body):
        spoiled = bytearray(head + b"\r\n\r\n")
        if place < len(spoiled):
            spoiled[place] ^= 1 << place % 8
        stream.sendall(bytes(spoiled) + body)
        return False

    return change


def no_leftovers(folder, name):
    for found in os.listdir(folder):
        if found == name or ".woz-" in found:
            fail("%s stands after a get that was refused" % found)


def honest(client, server, folder):
    tree = os.path.join(folder, "tree")
    make_tree(tree)
    cap = client.text(server.url, "put", "-r", "tree").strip()
    if cap != client.text(server.url, "put", "-r", "tree/").strip():
        fail("a folder has two caps")
    client.run(server.url, "get", "-r", cap, "back")
    same_trees(tree, os.path.join(folder, "back"))
    with open(os.path.join(folder, "cap"), "w") as file:
        file.write(cap + "\n")
    client.run(server.url, "get", "-r", "@cap/a folder", "part")
    same_trees(os.path.join(tree, "a folder"), os.path.join(folder, "part"))
    name = "file 57 \"quoted\" \\ 日.bin"
    got = client.run(server.url, "get", "@cap/" + name).stdout
    with open(os.path.join(tree, name), "rb") as file:
        if got != file.read():
            fail("a file by its path differs")
    listed = client.text(server.url, "ls", "@cap").splitlines()
    if len(listed) != len(os.listdir(tree)):
        fail("a listing has %d lines" % len(listed))
    told = client.run(server.url, "ls", "--json", "@cap").stdout
    with urllib.request.urlopen(server.url + "/uri/" + cap + "?t=json", timeout=30) as reply:
        if told.rstrip(b"\n") != reply.read().rstrip(b"\n"):
            fail("ls --json isn't what the gateway's t=json is")
    json.loads(told)
    client.run(server.url, "check", "-r", "@cap")
    client.run(server.url, "check", "--verify", "-r", "@cap")
    client.run(server.url, "check", "--read", "-r", "@cap")
    client.run(server.url, "repair", "-r", "@cap")
    for size in [0, 56, 200000, LIMIT]:
        given = random.Random(size).randbytes(size)
        own = client.text(server.url, "put", "-", given=given).strip()
        if client.run(server.url, "get", own).stdout != given:
            fail("%d bytes came back as others" % size)
        made = client.text(server.url, "mkdir", "one=" + own, "two=" + own).strip()
        if client.run(server.url, "get", made + "/two").stdout != given:
            fail("a directory's child differs")
    return cap


def parts(client, server, folder):
    """Files of more than 16 MiB: stored as directories of their parts, which others read as such, and joined again."""
    for size in [LIMIT - 1, LIMIT, LIMIT + 1, 2 * LIMIT, 2 * LIMIT + 12345]:
        given = random.Random(size).randbytes(size)
        cap = client.text(server.url, "put", "-", given=given).strip()
        if cap.startswith("URI:DIR2-CHK:") != (size > LIMIT):
            fail("%d bytes are stored as %s" % (size, cap[:13]))
        if client.run(server.url, "get", cap).stdout != given:
            fail("%d bytes in parts came back as others" % size)
        if size <= LIMIT:
            continue
        told = json.loads(client.run(server.url, "ls", "--json", cap).stdout)[1]["children"]
        count = (size + LIMIT - 1) // LIMIT
        if sorted(told) != ["%010d" % at for at in range(count)]:
            fail("the parts of %d bytes have other names" % size)
        for at, name in enumerate(sorted(told)):
            node = told[name][1]
            if node["metadata"] != {"wozhinnam-parts": {"count": count, "size": size}} or node["size"] != min(LIMIT, size - at * LIMIT):
                fail("part %d of %d bytes is another" % (at, size))
        joined = b"".join(urllib.request.urlopen(server.url + "/uri/" + cap + "/" + name, timeout=60).read() for name in sorted(told))
        if joined != given:
            fail("the parts of %d bytes aren't what was put" % size)
    with open(os.path.join(folder, "long"), "wb") as file:
        file.write(given)
    if client.text(server.url, "put", "long").strip() != cap:
        fail("a long file has another cap than its bytes")
    client.run(server.url, "get", cap, "long again")
    os.mkdir(os.path.join(folder, "with long"))
    os.rename(os.path.join(folder, "long"), os.path.join(folder, "with long", "long"))
    if subprocess.run(["cmp", "with long/long", "long again"], cwd=folder).returncode != 0:
        fail("a long file differs")
    tree = client.text(server.url, "put", "-r", "with long").strip()
    client.run(server.url, "get", "-r", tree, "with long again")
    same_trees(os.path.join(folder, "with long"), os.path.join(folder, "with long again"))
    client.run(server.url, "check", "--read", cap)
    if len(client.text(server.url, "check", cap).splitlines()) != 1 + count:
        fail("a check of a file in parts doesn't look at each part")
    if len(client.text(server.url, "check", tree).splitlines()) != 1:
        fail("a check of a folder looks at more than its directory")
    client.run(server.url, "repair", cap)

    seen = []

    def second_spoiled(stream, head, body):
        seen.append(len(body))
        spoiled = bytearray(body)
        if seen.count(LIMIT) == 2 and len(body) == LIMIT:
            spoiled[LIMIT // 2] ^= 1
        stream.sendall(head + b"\r\n\r\n" + bytes(spoiled))
        return True

    gateway = proxy(server, second_spoiled)
    client.run(gateway.url, "get", cap, "lied", wanted=6)
    no_leftovers(folder, "lied")
    seen.clear()
    told = client.run(gateway.url, "get", cap, wanted=6).stdout
    if told != given[:LIMIT]:
        fail("of a spoiled file in parts %d bytes are written" % len(told))
    gateway.close()


def statuses(client, server, folder, cap):
    client.run(server.url, "nothing", wanted=2)
    client.run(server.url, cap, wanted=2)
    client.run(server.url, "ls", cap, cap, wanted=2)
    client.run(server.url, "put", cap, wanted=8)
    client.run(server.url, "put", "-r", cap, wanted=8)
    for seconds in ["0", "3601", "1.5", "-1", "x"]:
        client.run(server.url, "--patience=" + seconds, "ls", cap, wanted=2)
    client.run(server.url, "--patience", "3600", "ls", cap)
    client.run("https://127.0.0.1:1", "ls", cap, wanted=2)
    client.run("http://127.0.0.1/path", "ls", cap, wanted=2)
    client.run(server.url, "ls", "URI:CHK:nothing", wanted=3)
    for name, shown in [("no such name", b'"no such name"'), ("red \x1b[31m", b'"red \\u{1b}[31m"'), (cap, b"isn't told"), ("no" + cap, b"no(what")]:
        told = client.run(server.url, "get", cap + "/" + name, wanted=3).stderr
        if b"no such child: " not in told or shown not in told:
            fail("a child that isn't there is told by %r" % told)
    client.run(server.url, "get", cap, wanted=3)
    client.run(server.url, "ls", cap + "/file 56 \"quoted\" \\ 日.bin/below", wanted=3)
    client.run("http://127.0.0.1:1", "ls", cap, wanted=4)
    gone = "URI:CHK:aaaqeayeaudaocajbifqydiob4:aaaqeayeaudaocajbifqydiob4ireeyuculbogazdinryhi6d4pq:3:10:100"
    client.run(server.url, "get", gone, "gone", wanted=7)
    no_leftovers(folder, "gone")
    client.run(server.url, "check", gone, wanted=7)
    client.run(server.url, "put", "no such file", wanted=8)
    os.symlink("tree", os.path.join(folder, "tree", "link"))
    passed = client.run(server.url, "put", "-r", "tree", wanted=8)
    if passed.stdout.decode().strip() != cap:
        fail("a link changes a folder's cap")
    os.remove(os.path.join(folder, "tree", "link"))
    for name, shown in [("..", b'".."'), ("a\x1b/b", b'"a\\u{1b}/b"')]:
        up = client.text(server.url, "mkdir", name + "=URI:LIT:ge").strip()
        if shown not in client.run(server.url, "get", "-r", up, "up", wanted=8).stderr:
            fail("a name that no file can have isn't told")
        no_leftovers(folder, "up")
    client.run(server.url, "get", "-r", cap, "tree/empty/../../back", wanted=8)


def idle(client, server):
    """A connection that a gateway closes after each reply is opened again."""

    def once(stream, head, body):
        stream.sendall(head + b"\r\n\r\n" + body)
        return False

    gateway = proxy(server, once)
    cap = client.text(gateway.url, "put", "-r", "tree").strip()
    if gateway.connections < 5:
        fail("few connections")
    gateway.close()
    return cap


def lies(client, server, folder):
    given = random.Random(3).randbytes(3000)
    cap = client.text(server.url, "put", "-", given=given).strip()
    made = client.text(server.url, "mkdir", "name=" + cap, "other=" + cap).strip()
    text = urllib.request.urlopen(server.url + "/uri/" + made.replace("URI:DIR2-CHK:", "URI:CHK:"), timeout=30).read()

    def spoiling(place):
        def change(stream, head, body):
            spoiled = bytearray(body)
            if place < len(spoiled):
                spoiled[place] ^= 1 << place % 8
            stream.sendall(head + b"\r\n\r\n" + bytes(spoiled))
            return True

        return change

    for place in [*range(0, 3000, 101), 2999]:
        gateway = proxy(server, spoiling(place))
        client.run(gateway.url, "get", cap, "lied", wanted=6)
        no_leftovers(folder, "lied")
        gateway.close()
    for place in range(0, len(text), 7):
        gateway = proxy(server, spoiling(place))
        client.run(gateway.url, "get", "-r", made, "lied", wanted=6)
        client.run(gateway.url, "ls", made, wanted=6)
        no_leftovers(folder, "lied")
        gateway.close()
    for place in range(0, len(cap), 3):
        gateway = proxy(server, spoiling(place))
        told = client.run(gateway.url, "put", "-", given=given, wanted=None)
        if told.returncode != 6 or told.stdout:
            fail("a put with a spoiled answer ends with %d" % told.returncode)
        gateway.close()


def more_lies(client, server, folder):
    """Lies in the answers to a new directory, to a check and to a repair, and in heads: a figure of a check may be another, since it is
    the gateway's word, and nothing else."""
    given = random.Random(5).randbytes(3000)
    cap = client.text(server.url, "put", "-", given=given).strip()
    made = client.text(server.url, "mkdir", "name=" + cap, "other=" + cap).strip()
    lengths = []

    def spoiling(place):
        def change(stream, head, body):
            lengths.append(len(body))
            spoiled = bytearray(body)
            if place is not None and place < len(spoiled):
                spoiled[place] ^= 1 << place % 8
            stream.sendall(head + b"\r\n\r\n" + bytes(spoiled))
            return True

        return change

    for place in range(0, len(made), 3):
        gateway = proxy(server, spoiling(place))
        if client.run(gateway.url, "mkdir", "name=" + cap, "other=" + cap, wanted=6).stdout:
            fail("a new directory with a spoiled answer prints a cap")
        gateway.close()
    gateway = proxy(server, spoiling(None))
    honest = client.run(gateway.url, "check", "--verify", cap).stdout
    gateway.close()
    for place in range(0, lengths[-1], 3):
        gateway = proxy(server, spoiling(place))
        told = client.run(gateway.url, "check", "--verify", cap, wanted=None)
        if told.returncode not in (0, 6, 7) or len(told.stdout.splitlines()) != (told.returncode != 6):
            fail("a check with a spoiled answer ends with %d: %r" % (told.returncode, told.stdout))
        if told.stdout.split(b":")[0] not in (b"", b"healthy", b"not healthy"):
            fail("a check with a spoiled answer prints %r, and %r without" % (told.stdout, honest))
        told = client.run(gateway.url, "repair", cap, wanted=None)
        if told.returncode not in (0, 6):
            fail("a repair with a spoiled answer ends with %d" % told.returncode)
        client.run(gateway.url, "check", "--read", cap, wanted=6 if place < len(given) else 0)
        gateway.close()
    for place in range(200):
        gateway = proxy(server, written_heads(place))
        got = client.run(gateway.url, "get", cap, "headed", wanted=None)
        if got.returncode == 0:
            with open(os.path.join(folder, "headed"), "rb") as file:
                if file.read() != given:
                    fail("a spoiled head gives other bytes")
            os.remove(os.path.join(folder, "headed"))
        elif got.returncode not in (4, 5, 6):
            fail("a get with a spoiled head ends with %d" % got.returncode)
        no_leftovers(folder, "headed")
        put = client.run(gateway.url, "put", "-", given=given, wanted=None)
        if put.stdout.decode().strip() != (cap if put.returncode == 0 else "") or put.returncode not in (0, 4, 5, 6):
            fail("a put with a spoiled head ends with %d" % put.returncode)
        gateway.close()

    def with_length(count, closes):
        def change(stream, head, body):
            lines = [line for line in head.split(b"\r\n") if not line.lower().startswith(b"content-length")]
            stream.sendall(b"\r\n".join(lines) + b"\r\nContent-Length: %d\r\n\r\n" % count + body)
            return not closes

        return change

    for count, closes, wanted in [(0, False, 6), (1, False, 6), (2999, False, 6), (3001, True, 4), (1 << 40, True, 4)]:
        gateway = proxy(server, with_length(count, closes))
        client.run(gateway.url, "get", cap, "lengths", wanted=wanted)
        no_leftovers(folder, "lengths")
        gateway.close()


def names(client, server, folder):
    """Names that no file can have are refused once their directory's text is there, and nothing below is asked for."""
    cap = client.text(server.url, "put", "-", given=random.Random(6).randbytes(500)).strip()
    count = [0]

    def counted(stream, head, body):
        count[0] += 1
        stream.sendall(head + b"\r\n\r\n" + body)
        return True

    for name in [".", "..", "a/b", "/", "../up", "n" * 256, ""]:
        made = client.run(server.url, "mkdir", name + "=" + cap, wanted=None)
        if made.returncode != 0:
            continue
        top = client.text(server.url, "mkdir", "below=" + made.stdout.decode().strip()).strip()
        for cap_of, asked in [(made.stdout.decode().strip(), 1), (top, 2)]:
            count[0] = 0
            gateway = proxy(server, counted)
            told = client.run(gateway.url, "get", "-r", cap_of, "named", wanted=8).stderr
            if count[0] != asked:
                fail("%r is refused after %d answers and not %d: %s" % (name[:9], count[0], asked, told))
            no_leftovers(folder, "named")
            gateway.close()
    client.run(server.url, "get", "-r", client.text(server.url, "mkdir", "n" * 255 + "=" + cap).strip(), "long name")
    for kind, found in [("no text", [b"a\xff"]), ("one name", ["\u00e9".encode(), "e\u0301".encode()])]:
        os.mkdir(os.path.join(folder, kind))
        for name in found:
            with open(os.path.join(os.fsencode(folder), kind.encode(), name), "wb") as file:
                file.write(name)
        put = client.run(server.url, "put", "-r", kind, wanted=8)
        if put.stdout or not put.stderr:
            fail("a folder of %s is refused with %r and %r" % (kind, put.stdout, put.stderr))
        # as std's Debug writes a text: a combining mark is escaped
        if kind == "one name" and not any(name in put.stderr for name in [*found, b"e\\u{301}"]):
            fail("which names are one isn't told: %r" % put.stderr)


def killed(client, server, folder, cap):
    """A get that is killed before all is there leaves nothing under the name that was asked for."""
    for most in [1, 4, 9]:
        count, stalled = [0], threading.Event()

        def stalling(stream, head, body):
            count[0] += 1
            if count[0] > most:
                stalled.set()
                stream.sendall(head + b"\r\n\r\n" + body[:1])
                time.sleep(30)
            stream.sendall(head + b"\r\n\r\n" + body)
            return True

        gateway = proxy(server, stalling)
        process = subprocess.Popen([client.program, "--gateway", gateway.url, "get", "-r", "--jobs", "1", cap, "killed"], cwd=folder)
        if not stalled.wait(60):
            fail("a get isn't stalled after %d answers" % most)
        time.sleep(0.2)
        process.kill()
        process.wait()
        gateway.close()
        for found in os.listdir(folder):
            if found == "killed":
                fail("a get that is killed leaves something under its name")
            if found.startswith(".woz-"):
                shutil.rmtree(os.path.join(folder, found))


def repairs(client, program, folder):
    """Shares that are gone with a store's folder are told by a check, and put back by a repair."""
    stores = [os.path.join(folder, "grid", str(at)) for at in range(5)]
    os.mkdir(os.path.dirname(stores[0]))
    options = [word for store in stores for word in ("--store", "dir:" + store)]
    server = wozhinnam(program, *options, control=True)
    url = "http://%s:%d" % server.address
    caps = [client.text(url, "put", "-r", "tree").strip(), client.text(url, "put", "-", given=random.Random(12).randbytes(LIMIT + 1)).strip()]
    server.stop()
    shutil.rmtree(stores[2])
    server = wozhinnam(program, *options, "--new", stores[2], control=True)
    url = "http://%s:%d" % server.address
    for cap in caps:
        client.run(url, "check", "-r", cap, wanted=7)
        client.run(url, "check", "--verify", "-r", cap, wanted=7)
        client.run(url, "repair", "-r", cap)
        client.run(url, "check", "--verify", "-r", cap)
        client.run(url, "check", "--read", "-r", cap)
    client.run(url, "get", "-r", caps[0], "repaired")
    same_trees(os.path.join(folder, "tree"), os.path.join(folder, "repaired"))
    server.stop()


def changing(client, server, folder):
    """A folder whose files are replaced, grow, go and come while it is put: a put is refused by name, or each file that comes back is one
    that stood under its path."""
    top = os.path.join(folder, "changing")
    stop = threading.Event()
    chosen = random.Random(8)
    paths = [os.path.join(top, "folder %d" % (at % 4), "file %d" % at) for at in range(40)]

    def body(path, version):
        return (b"%s %d\n" % (os.path.basename(path).encode(), version)) * 300

    def write(path, version):
        spare = os.path.join(folder, "spare file")
        with open(spare, "wb") as file:
            file.write(body(path, version))
        os.replace(spare, path)

    for path in paths:
        os.makedirs(os.path.dirname(path), exist_ok=True)
        write(path, 0)
    growing = os.path.join(top, "growing")
    open(growing, "wb").close()

    def change():
        version = 0
        while not stop.is_set():
            version += 1
            path = chosen.choice(paths)
            kind = chosen.randrange(4)
            if kind == 0 and version % 20 == 0:
                os.rename(os.path.dirname(path), os.path.join(top, "elsewhere"))
                os.rename(os.path.join(top, "elsewhere"), os.path.dirname(path))
            elif kind == 1 and version % 10 == 0:
                os.remove(path)
                write(path, version)
            else:
                write(path, version)
            with open(growing, "ab") as file:
                file.write(b"%08d\n" % (version - 1))
            time.sleep(0.0005)

    changer = threading.Thread(target=change)
    changer.start()
    try:
        for turn in range(12):
            put = client.run(server.url, "put", "-r", "changing", wanted=None)
            if put.returncode == 8:
                if put.stdout or not put.stderr:
                    fail("a put of a folder that changes is refused with %r and %r" % (put.stdout, put.stderr))
                continue
            if put.returncode != 0:
                fail("a put of a folder that changes ends with %d" % put.returncode)
            back = os.path.join(folder, "changed %d" % turn)
            client.run(server.url, "get", "-r", put.stdout.decode().strip(), back)
            for place, _, files in os.walk(back):
                for name in files:
                    with open(os.path.join(place, name), "rb") as file:
                        text = file.read()
                    lines = text.split(b"\n")
                    if name == "growing":
                        same = b"".join(b"%08d\n" % at for at in range(len(text) // 9 + 1)).startswith(text)
                    else:
                        same = text == body(name, int(lines[0].split()[-1]))
                    if not same:
                        fail("%s of a folder that changes comes back as what never stood there" % name)
    finally:
        stop.set()
        changer.join()


def around(client, server, folder):
    """The gateway's URL in the environment, progress on a terminal, and output that is full."""
    listed = client.run(server.url, "ls", "@cap").stdout

    def run(url, *words, **how):
        there = dict(os.environ)
        there.pop("WOZHINNAM_URL", None)
        if url is not None:
            there["WOZHINNAM_URL"] = url
        return subprocess.run([client.program, *words], cwd=folder, env=there, timeout=300, **how)

    if run(server.url, "ls", "@cap", capture_output=True).stdout != listed:
        fail("WOZHINNAM_URL isn't asked")
    if run("http://127.0.0.1:1", "--gateway", server.url, "ls", "@cap", capture_output=True).stdout != listed:
        fail("WOZHINNAM_URL counts for more than --gateway")
    for url, wanted in [("http://127.0.0.1:1", 4), ("https://127.0.0.1", 2), ("", 2)]:
        if run(url, "ls", "@cap", capture_output=True).returncode != wanted:
            fail("WOZHINNAM_URL=%r doesn't end with %d" % (url, wanted))
    with open("/dev/full", "wb") as full:
        for words in [["ls", "@cap"], ["ls", "--json", "@cap"], ["put", "-"], ["get", "@cap/file 57 \"quoted\" \\ 日.bin"], ["mkdir", "a=URI:LIT:ge"]]:
            done = run(server.url, *words, input=b"some", stdout=full, stderr=subprocess.PIPE)
            if done.returncode != 8 or b"URI:" in done.stderr:
                fail("%s on an output that is full ends with %d" % (words[0], done.returncode))
    with open(os.path.join(folder, "long"), "wb") as file:
        file.write(random.Random(13).randbytes(3 * LIMIT))
    for words in [quiet + verb for quiet in [[], ["--quiet"]] for verb in
                  [["put", "-r", "tree"], ["put", "long"], ["get", "@cap/file 57 \"quoted\" \\ 日.bin"], ["get", "-r", "@cap", "back again"]]]:
        shutil.rmtree(os.path.join(folder, "back again"), ignore_errors=True)
        here, there = pty.openpty()
        process = subprocess.Popen([client.program, "--gateway", server.url, *words], cwd=folder, stdout=subprocess.DEVNULL, stderr=there)
        os.close(there)
        told = b""
        try:
            while got := os.read(here, 65536):
                told += got
        except OSError:
            pass  # the terminal has ended with the program
        os.close(here)
        if process.wait(timeout=60) != 0:
            fail("%s on a terminal ends with %d" % (words, process.returncode))
        size = rb"\d+(\.\d k| |\.\d M|\.\d G)B"
        if words[0] == "--quiet":
            if told:
                fail("on a terminal %s tells %r" % (words, told[-100:]))
        elif not re.fullmatch(rb"(\r\d+ files?, %s, %s/s *)+\r\n" % (size, size), told):
            fail("on a terminal %s tells %r" % (words, told[-200:]))
    os.remove(os.path.join(folder, "long"))
    shutil.rmtree(os.path.join(folder, "back again"))


def many(client, server, folder):
    """Several connections at once: each answer belongs to what was asked over its own connection, whichever comes first."""
    top = os.path.join(folder, "many")
    chosen = random.Random(11)
    for at in range(60):
        place = os.path.join(top, "folder %d" % (at % 3), "below") if at % 4 == 0 else os.path.join(top, "folder %d" % (at % 3))
        os.makedirs(place, exist_ok=True)
        with open(os.path.join(place, "file %02d" % at), "wb") as file:
            file.write(chosen.randbytes([0, 30, 56, 2000, 5000, 262144, 262145, 300000][at % 8]))
    cap = client.text(server.url, "put", "-r", "--jobs", "1", "many").strip()
    for jobs in ["2", "8", "64"]:
        if client.text(server.url, "put", "-r", "--jobs", jobs, "many").strip() != cap:
            fail("a folder has another cap over %s connections" % jobs)
        client.run(server.url, "get", "-r", "--jobs", jobs, cap, "many " + jobs)
        same_trees(top, os.path.join(folder, "many " + jobs))
    client.run(server.url, "check", "--read", "-r", cap)
    for jobs in ["0", "65", "-1", "x", ""]:
        client.run(server.url, "put", "-r", "--jobs", jobs, "many", wanted=2)

    def late(stream, head, body):
        time.sleep(random.random() / 50)
        stream.sendall(head + b"\r\n\r\n" + body)
        return random.random() < 0.9

    gateway = proxy(server, late)
    if client.text(gateway.url, "put", "-r", "--jobs", "8", "many").strip() != cap:
        fail("a folder has another cap over connections that are late, and end")
    if gateway.connections < 8:
        fail("8 connections are %d" % gateway.connections)
    client.run(gateway.url, "get", "-r", "--jobs", "8", cap, "late")
    same_trees(top, os.path.join(folder, "late"))
    gateway.close()

    waiting = []
    both = threading.Condition()

    def exchanged(stream, head, body):
        """Two connections are each given what belongs to the other one; one for which no other comes has its own."""
        own = [head, body]
        with both:
            if waiting and waiting[0][0] != own:
                other = waiting.pop()
                own[:], other[0][:] = list(other[0]), list(own)
                other[1].append(True)
                both.notify_all()
            else:
                mark = []
                waiting.append((own, mark))
                both.wait_for(lambda: mark, timeout=0.5)
                waiting[:] = [one for one in waiting if one[0] is not own]
        stream.sendall(own[0] + b"\r\n\r\n" + own[1])
        return True

    gateway = proxy(server, exchanged)
    if client.run(gateway.url, "get", "-r", "--jobs", "8", cap, "exchanged", wanted=None).returncode not in (4, 6):
        fail("a get with exchanged answers is done")
    no_leftovers(folder, "exchanged")
    if client.run(gateway.url, "put", "-r", "--jobs", "8", "many", wanted=6).stdout:
        fail("a put with exchanged answers prints a cap")
    gateway.close()

    for place in [1, 5, 9, 20]:
        count = [0]

        def one_spoiled(stream, head, body):
            count[0] += 1
            spoiled = bytearray(body)
            if count[0] == place:
                spoiled[len(spoiled) // 2] ^= 1
            stream.sendall(head + b"\r\n\r\n" + bytes(spoiled))
            return True

        gateway = proxy(server, one_spoiled)
        client.run(gateway.url, "get", "-r", "--jobs", "8", cap, "spoiled", wanted=6)
        no_leftovers(folder, "spoiled")
        count[0] = 0
        if client.run(gateway.url, "put", "-r", "--jobs", "8", "many", wanted=6).stdout:
            fail("a put with a spoiled answer prints a cap")
        gateway.close()

    def cut(stream, head, body):
        stream.sendall((head + b"\r\n\r\n" + body)[:-1])
        return False

    gateway = proxy(server, cut)
    client.run(gateway.url, "get", "-r", "--jobs", "8", cap, "cut", wanted=4)
    no_leftovers(folder, "cut")
    client.run(gateway.url, "put", "-r", "--jobs", "8", "many", wanted=4)
    gateway.close()


def listening(server, seen):
    """A gateway that passes requests and replies on, and keeps the beginning of each request's first line."""

    def serve(stream):
        with socket.create_connection(("127.0.0.1", server.port)) as behind:
            while request := read_request(stream):
                seen.append(request.split(b" ", 1)[0])
                behind.sendall(request)
                head, body = read_reply(behind)
                stream.sendall(head + b"\r\n\r\n" + body)

    return Gateway(serve)


def skipping(client, server, folder):
    """Files that were stored before aren't sent again, those that changed are, and the folder's cap is what it is without a state."""
    top = os.path.join(folder, "skipped")
    state = os.path.join(folder, "seen")
    chosen = random.Random(13)
    os.makedirs(os.path.join(top, "below", "é"))

    def write(name, size):
        with open(os.path.join(top, name), "wb") as file:
            file.write(chosen.randbytes(size))

    for name, size in [("one", 30), ("two words", 3000), ("100%", 300000), ("below/three", 5000), ("below/é/日\n", 70), ("below/none", 0)]:
        write(name, size)
    seen = []
    gateway = listening(server, seen)

    def put(sent, *words, what):
        """The cap of a put that sends so many files, which is that of one without a state."""
        seen.clear()
        cap = client.text(gateway.url, "put", "-r", "--skip-existing", "seen", *words, "skipped").strip()
        if seen.count(b"PUT") != sent:
            fail("%s: %d files are sent and not %d" % (what, seen.count(b"PUT"), sent))
        return cap

    def whole():
        return client.text(server.url, "put", "-r", "skipped").strip()

    def lines():
        with open(state, "rb") as file:
            first, *rest = file.read().split(b"\n")
        if first != b"woz state 1" or rest.pop() != b"":
            fail("a state begins or ends otherwise")
        return sorted(rest)

    cap = put(6, what="a first put")
    told = lines()
    if cap != whole() or len(told) != 6 or os.stat(state).st_mode & 0o777 != 0o600:
        fail("a first put has another cap, or its state is another: %d lines" % len(told))
    if put(0, what="the same again") != cap or put(0, "--verify", what="the same, verified") != cap or lines() != told:
        fail("a folder that stayed has another cap or state")

    one = os.path.join(top, "one")
    os.utime(one, ns=(0, 1))
    if put(1, what="one touched") != cap or put(0, what="one touched, again") != cap or lines() == told:
        fail("a file that was touched has another cap, or its time isn't kept")
    write("below/three", 5000)
    changed = put(1, what="one changed")
    if changed == cap or changed != whole():
        fail("a file that was changed isn't stored")
    write("below/four", 100)
    os.remove(os.path.join(top, "two words"))
    os.rename(os.path.join(top, "100%"), os.path.join(top, "200%"))
    moved = put(2, what="one added, one removed, one with another name")
    if moved != whole() or len(lines()) != 6 or any(b" two%20words " in line for line in lines()):
        fail("a file that was added or removed isn't in the cap or the state")

    three = os.path.join(top, "below", "three")
    kept = os.stat(three).st_mtime_ns
    with open(three, "r+b") as file:
        file.seek(2500)
        byte = file.read(1)[0]
        file.seek(2500)
        file.write(bytes([byte ^ 1]))
    os.utime(three, ns=(kept, kept))
    if put(0, what="one changed behind its time") != moved:
        fail("a file with its old size and time is read without --verify")
    verified = put(1, "--verify", what="one changed behind its time, verified")
    if verified == moved or verified != whole():
        fail("a file that isn't what its cap is of is skipped with --verify")
    client.run(server.url, "get", "-r", verified, "skipped again")
    same_trees(top, os.path.join(folder, "skipped again"))

    with open(os.path.join(top, "long"), "wb") as file:
        file.write(chosen.randbytes(2 * LIMIT + 5))
    long = put(3, what="a file in parts")
    if long != whole() or put(0, what="a file in parts, again") != long or put(3, "--verify", what="a file in parts, verified") != long:
        fail("a file in parts has another cap")
    os.remove(os.path.join(top, "long"))
    put(0, what="without the file in parts")

    with open(state, "rb") as file:
        good = file.read()
    last = good.rstrip(b"\n").rsplit(b"\n", 1)[1] + b"\n"
    size, rest = last.split(b" ", 1)
    bad = [
        b"", b"rubbish", b"woz state 2\n", b"woz state 1", good[:-1], good + b"x\n", good + b"\n", good + last, good + b"0" + last.replace(b"%", b"_"),
        good.replace(size + b" " + rest, size + b"  " + rest), good.replace(last, last.rsplit(b":", 1)[0] + b"\n"), good.replace(b"URI:CHK:", b"URI:CHK-Verifier:"),
        good.replace(b" URI:", b"\x00 URI:"), random.Random(1).randbytes(3000), good.replace(last, b"-1 " + rest), good.replace(last, b"99999999999999999999 " + rest)]
    for at, text in enumerate(bad):
        with open(state, "wb") as file:
            file.write(text)
        if client.run(gateway.url, "put", "-r", "--skip-existing", "seen", "skipped", wanted=9).stdout:
            fail("a cap is printed over a bad state, no. %d" % at)
        with open(state, "rb") as file:
            if file.read() != text:
                fail("a bad state is written over, no. %d" % at)
    with open(state, "wb") as file:
        file.write(good)
    write("one", 30)
    client.run("http://127.0.0.1:1", "put", "-r", "--skip-existing", "seen", "skipped", wanted=4)
    client.run(gateway.url, "put", "--skip-existing", "seen", "skipped/one", wanted=2)
    client.run(gateway.url, "put", "-r", "--verify", "skipped", wanted=2)
    client.run(gateway.url, "put", "-r", "--skip-existing", "skipped", "skipped", wanted=8)
    with open(state, "rb") as file:
        if file.read() != good:
            fail("a state is written after a fault")
    client.run(gateway.url, "put", "-r", "--skip-existing", "no such folder/seen", "skipped", wanted=8)
    for name in os.listdir(folder):
        if ".woz-" in name:
            fail("%s stands after a put" % name)
    gateway.close()


def shapes(client, server, folder):
    """Replies that are cut, dripped and in chunks, and answers that are none."""
    given = random.Random(4).randbytes(2000)
    cap = client.text(server.url, "put", "-", given=given).strip()

    def drip(stream, head, body):
        for byte in head + b"\r\n\r\n" + body[:200]:
            stream.sendall(bytes([byte]))
        stream.sendall(body[200:])
        return True

    def chunks(stream, head, body):
        lines = [line for line in head.split(b"\r\n") if not line.lower().startswith(b"content-length")]
        stream.sendall(b"\r\n".join(lines) + b"\r\nTransfer-Encoding: chunked\r\n\r\n")
        for at in range(0, len(body), 300):
            piece = body[at:at + 300]
            stream.sendall(b"%x\r\n%s\r\n" % (len(piece), piece))
        stream.sendall(b"0\r\n\r\n")
        return True

    def to_the_end(stream, head, body):
        lines = [line for line in head.split(b"\r\n") if not line.lower().startswith(b"content-length")]
        stream.sendall(b"\r\n".join(lines) + b"\r\nConnection: close\r\n\r\n" + body)
        return False

    def interim(stream, head, body):
        stream.sendall(b"HTTP/1.1 102 Processing\r\n\r\n" + head + b"\r\n\r\n" + body)
        return True

    for change in [drip, chunks, to_the_end, interim]:
        gateway = proxy(server, change)
        if client.run(gateway.url, "get", cap).stdout != given:
            fail("%s gives other bytes" % change.__name__)
        gateway.close()

    def cutting(count):
        def change(stream, head, body):
            stream.sendall((head + b"\r\n\r\n" + body)[:count])
            return False

        return change

    for count in [1, 10, 50, 100, 500, 1999]:
        gateway = proxy(server, cutting(count))
        client.run(gateway.url, "get", cap, "cut", wanted=4)
        if gateway.connections != 1:
            fail("half a reply is asked for again")
        no_leftovers(folder, "cut")
        gateway.close()

    ok = b"HTTP/1.1 200 OK\r\n"
    answers = [
        ("endless fields", lambda: iter(lambda: b"A: " + b"b" * 1000 + b"\r\n", None), ok, 4),
        ("endless interim replies", lambda: iter(lambda: b"HTTP/1.1 100 Continue\r\n\r\n", None), b"", 4),
        ("an endless body", lambda: iter(lambda: b"x" * 65536, None), ok + b"\r\n", 4),
        ("endless chunks", lambda: iter(lambda: b"10\r\n" + b"y" * 16 + b"\r\n", None), ok + b"Transfer-Encoding: chunked\r\n\r\n", 4),
        ("rubbish for chunks", lambda: iter([b"zz\r\nrubbish"]), ok + b"Transfer-Encoding: chunked\r\n\r\n", 4),
        ("two lengths", lambda: iter([b"xx"]), ok + b"Content-Length: 1\r\nContent-Length: 2\r\n\r\n", 4),
        ("a length too large", lambda: iter([b"x"]), ok + b"Content-Length: 99999999999999999999\r\n\r\n", 4),
        ("rubbish", lambda: iter([b"SSH-2.0-OpenSSH_9.0\r\n"]), b"", 4),
        ("a page", lambda: iter([b"<html>hello"]), ok + b"Content-Type: text/html\r\nContent-Length: 11\r\n\r\n", 6),
        ("a redirect", lambda: iter([]), b"HTTP/1.1 302 Found\r\nLocation: http://127.0.0.1:1/\r\nContent-Length: 0\r\n\r\n", 5),
        ("a refusal", lambda: iter([]), b"HTTP/1.1 503 Busy\r\nContent-Length: 0\r\n\r\n", 5),
        ("nothing", lambda: iter([]), b"", 4),
    ]
    for words, rest, first, wanted in answers:

        def serve(stream, rest=rest, first=first):
            read_request(stream)
            stream.sendall(first)
            for piece in rest():
                stream.sendall(piece)

        gateway = Gateway(serve)
        client.run(gateway.url, "get", cap, "shaped", wanted=wanted, timeout=60)
        no_leftovers(folder, "shaped")
        gateway.close()


def slow(client, server, folder):
    """Gateways that say nothing, or a byte now and then, or take a body so, are left soon after --patience is over, and aren't asked again; one
    of a kilobyte a second isn't."""
    given = random.Random(12).randbytes(3000)
    cap = client.text(server.url, "put", "-", given=given).strip()
    ok = b"HTTP/1.1 200 OK\r\n"

    def silent(stream):
        read_request(stream)
        time.sleep(30)

    def dripping(first, drop):
        def serve(stream):
            read_request(stream)
            stream.sendall(first)
            for _ in range(600):
                stream.sendall(drop)
                time.sleep(0.05)

        return serve

    def takes_little(stream):
        for _ in range(300):
            stream.recv(100)
            time.sleep(0.1)

    lies = [
        ("says nothing", silent),
        ("says nothing behind a head", dripping(ok + b"Content-Length: 3000\r\n\r\n", b"")),
        ("drips a head", dripping(ok, b"A")),
        ("drips a body", dripping(ok + b"Content-Length: 3000\r\n\r\n", b"x")),
        ("drips chunks", dripping(ok + b"Transfer-Encoding: chunked\r\n\r\n", b"1\r\nx\r\n")),
        ("drips interim replies", dripping(b"", b"HTTP/1.1 100 Continue\r\n\r\n")),
    ]
    for name, serve in lies:
        gateway = Gateway(serve)
        begun = time.monotonic()
        told = client.run(gateway.url, "--patience", "2", "get", cap, "slow", wanted=4, timeout=60).stderr
        took = time.monotonic() - begun
        if took > 8 or (b"too slow" not in told and name != "drips interim replies") or gateway.connections != 1:
            fail("a gateway that %s: %d connections, %.1f seconds, %r" % (name, gateway.connections, took, told))
        no_leftovers(folder, "slow")
        gateway.close()
    gateway = Gateway(takes_little)
    begun = time.monotonic()
    client.run(gateway.url, "--patience", "2", "put", "-", given=random.Random(14).randbytes(LIMIT), wanted=4, timeout=60)
    if time.monotonic() - begun > 15:
        fail("a gateway that takes little has %.1f seconds" % (time.monotonic() - begun))
    gateway.close()

    def steady(stream, head, body):
        for at in range(0, len(body), 150):
            stream.sendall((head + b"\r\n\r\n" if at == 0 else b"") + body[at:at + 150])
            time.sleep(0.1)
        return True

    gateway = proxy(server, steady)
    if client.run(gateway.url, "--patience", "1", "get", cap).stdout != given:
        fail("a slow gateway gives other bytes")
    gateway.close()


def full_disk(client, server, folder, cap):
    disk = os.path.join(folder, "disk")
    os.mkdir(disk)
    if subprocess.run(["mount", "-t", "tmpfs", "-o", "size=200k", "tmpfs", disk], stderr=subprocess.DEVNULL).returncode != 0:
        print("client.py: no disk may be mounted here, so none was filled")
        return
    try:
        client.run(server.url, "get", "-r", cap, "disk/back", wanted=8)
        long = client.text(server.url, "put", "-", given=random.Random(9).randbytes(LIMIT + 1)).strip()
        for own in [client.text(server.url, "put", "-", given=random.Random(10).randbytes(400000)).strip(), long]:
            client.run(server.url, "get", own, "disk/one", wanted=8)
        if os.listdir(disk):
            fail("something stands on the full disk: %s" % os.listdir(disk))
    finally:
        subprocess.run(["umount", disk], check=True)


def main():
    woz, program = (os.path.abspath(name) for name in sys.argv[1:])
    with tempfile.TemporaryDirectory() as folder:
        server = Server(program)
        client = Client(woz, folder)
        try:
            cap = honest(client, server, folder)
            statuses(client, server, folder, cap)
            parts(client, server, folder)
            if idle(client, server) != cap:
                fail("a folder has another cap over many connections")
            around(client, server, folder)
            lies(client, server, folder)
            more_lies(client, server, folder)
            names(client, server, folder)
            killed(client, server, folder, cap)
            changing(client, server, folder)
            repairs(client, program, folder)
            many(client, server, folder)
            skipping(client, server, folder)
            shapes(client, server, folder)
            slow(client, server, folder)
            full_disk(client, server, folder, cap)
        finally:
            server.stop()
    print("client.py: all as it should be")


if __name__ == "__main__":
    main()
