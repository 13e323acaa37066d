#!/usr/bin/env python3
"""A copy of folders that are served, as docs/OPERATING.md says under "Backup", while two clients put files: another server over the copy reads
each file that was acknowledged before the copy began, and of those that were put meanwhile each is read or refused. Over memory and folders, over
folders alone, and over shared ones. A second copy over the first one has the rest; without its secret a copy is refused. It needs rsync.
usage: bench/checks/backup.py WOZHINNAM [FILES]        so many files before the copy, 200 without it
"""

import os
import shutil
import subprocess
import sys
import tempfile
import threading

HERE = os.path.dirname(os.path.abspath(__file__))
sys.path.insert(0, os.path.join(HERE, "../tools"))
from server import ROOT, Client, Server, built, fail, serve_words, wozhinnam

FOLDERS = range(5)


def lines_of_the_page(grid, copy, program):
    """The lines of the page, over other folders."""
    with open(os.path.join(ROOT, "docs/OPERATING.md")) as text:
        lines = [line.strip() for line in text.read().partition("### Backup")[2].partition("Each file")[0].split("\n") if line.startswith("    ")]
    if len(lines) != 2 or "rsync" not in lines[0] or "check" not in lines[1]:
        fail("the page has other lines for a backup")
    return "\n".join(lines).replace("/srv/grid", grid).replace("/backup", copy).replace("wozhinnam", program)


class Putting(threading.Thread):
    """A client that puts files until it is stopped: their bytes by their caps."""

    def __init__(self, address, length):
        super().__init__(daemon=True)
        self.client, self.length, self.caps, self.go_on = Client(address), length, {}, True

    def run(self):
        while self.go_on:
            body = os.urandom(self.length)
            status, cap = self.client.put(body)
            if status != 200:
                print("backup.py: a put is answered %d" % status, file=sys.stderr)
                os._exit(1)
            self.caps[cap] = body
        self.client.close()


def read(server, caps, all_of_them):
    """How many of these files are there; none has other bytes."""
    there = 0
    for cap, body in caps.items():
        status, text = server.client.get(cap)
        if status == 200 and text != body or status not in (200, 410):
            fail("a file is answered %d, with %d bytes of %d" % (status, len(text), len(body)))
        there += status == 200
    if all_of_them and there != len(caps):
        fail("%d of %d files are gone" % (len(caps) - there, len(caps)))
    return there


def tried(program, kind, count, top):
    grid, copy, secret = [os.path.join(top, name) for name in ("grid", "copy", "secret")]
    for folder in (grid, copy):
        os.mkdir(folder)
    with open(secret, "w") as text:
        text.write("a secret of this grid")

    def stores(place):
        return [word for at in FOLDERS for word in ("--store", "dir:%s/%d%s" % (place, at, kind))] + ["--secret-file", secret]

    def over_the_copy():
        server = wozhinnam(program, *stores(copy), control=True)
        server.client = Client(server.address)
        return server

    server = wozhinnam(program, *stores(grid), control=True)
    putting = [Putting(server.address, length) for length in (100, 20000)]
    for one in putting:
        one.start()
    while sum(len(one.caps) for one in putting) < count:
        threading.Event().wait(0.05)
    before = {cap: body for one in putting for cap, body in list(one.caps.items())}
    lines = lines_of_the_page(grid, copy, program)
    if subprocess.call(["bash", "-ec", lines], stdout=subprocess.DEVNULL, stderr=subprocess.DEVNULL):
        fail("the lines of the page fail")
    if any(os.path.exists("%s/%d/new" % (copy, at)) for at in FOLDERS):
        fail("what is unfinished is copied")
    for one in putting:
        one.go_on = False
    for one in putting:
        one.join()
    put = {cap: body for one in putting for cap, body in one.caps.items()}
    meanwhile = {cap: body for cap, body in put.items() if cap not in before}
    second = over_the_copy()
    read(second, before, True)
    there = read(second, meanwhile, False)
    second.stop()
    if subprocess.call(["bash", "-ec", lines], stdout=subprocess.DEVNULL, stderr=subprocess.DEVNULL):
        fail("the lines of the page fail over the first copy")
    second = over_the_copy()
    read(second, put, True)
    second.stop()
    server.stop()
    other = Server(serve_words(program, *stores(copy)[:-2]))
    if other.address or other.process.wait(20) != 19:
        fail("a copy is served without its secret")
    print("%s: %d files before the copy, each read; of %d meanwhile %d" % (kind or "memory and folders", len(before), len(meanwhile), there))


def main():
    program = built("wozhinnam")
    if not shutil.which("rsync"):
        fail("there is no rsync")
    for kind in ("", ":1G,disk", ",shared"):
        top = tempfile.mkdtemp()
        try:
            tried(program, kind, int(sys.argv[2]) if len(sys.argv) > 2 else 200, top)
        finally:
            shutil.rmtree(top, ignore_errors=True)


if __name__ == "__main__":
    main()
