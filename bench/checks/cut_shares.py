#!/usr/bin/env python3
"""One share that lacks its last byte, each of ten in turn, by the built programs: in an image that `gate_main replay` restores, and as a file in a folder
under `wozhinnam serve --store dir:PATH` and `dir:PATH:BYTES,disk`, where the file is cut off, or the share is and its seal is that of what is left; before
the start, or while it is served. The file is read from the other shares, what is said of the cut one is what docs/FORMATS.md and the pages of wozhinnam
and folder_shelf say, and so is whether an upload puts it again. What is expected is made here. It needs gcc, openssl and
python3, and takes a minute.

usage: bench/checks/cut_shares.py [GATE_MAIN [WOZHINNAM]]
"""

import concurrent.futures
import hashlib
import json
import os
import subprocess
import sys
import tempfile

from script_kit import BIG, BIG_CAP, GONE, LETTERS, OCTETS, Faults, Script, base32, built, escape, fail, file_checked, image, large_upload, reply, request
from server import ROOT, checked_program, wozhinnam
import shares

SERVERS = 5
LARGER = large_upload(3, 10, b"", BIG)
FILES = (LETTERS, LARGER)
# The exit status of `check` where something isn't as it is to be.
BAD = 28


def cut_image(file, servers, numbers):
    """An image in which the shares of these numbers are cut, read and mended."""
    stand = file.placed(servers)
    places = sorted((key for key in stand if key[2] in numbers), key=lambda key: key[2])
    stand.update((key, stand[key][:-1]) for key in places)
    bad, given = [(server, number) for server, _, number in places], reply(200, OCTETS, file.text)
    script = Script(servers=servers)
    script.line(b"restore " + escape(image(stand, servers, 1 if servers == 1 else 2)))
    script.open(1, 2)
    script.asks(1, request("GET", "/uri/" + file.cap), given if len(bad) <= 7 else GONE)
    for _turn in range(2):
        for cap in (file.cap, file.verify_cap):
            script.checks(2, cap, False, 10, index=base32(file.index))
            script.checks(2, cap, True, 10 - len(bad), bad, index=base32(file.index))
        # What is there under its number is kept as it is.
        script.puts(1, file)
        script.line("image", b"image " + escape(image(stand, servers)))
    for server, number in bad:
        script.line("lose %d %s %d" % (server, base32(file.index), number), "yes")
    script.checks(2, file.cap, True, 10 - len(bad), index=base32(file.index))
    script.puts(1, file)
    script.checks(2, file.cap, True, 10, index=base32(file.index))
    script.asks(2, request("GET", "/uri/" + file.cap), given)
    script.line("image", b"image " + escape(image(file.placed(servers), servers)))
    return script


def images(program):
    faults, count = Faults(program), 0
    for file in FILES:
        for servers in (1, SERVERS):
            for numbers in [{number} for number in range(10)] + [set(range(7)), set(range(3, 10)), set(range(8)), set(range(10))]:
                script = cut_image(file, servers, numbers)
                status, answers, words, _ = faults.run(script.text())
                if status or words or script.first_fault(answers):
                    fail("image, %d bytes, shares %s: status %d, %r: %s" % (len(file.text), sorted(numbers), status, words, script.first_fault(answers)))
                count += 1
    print("images: %d with shares cut, each answered right" % count, flush=True)


def seal(text):
    """Of a share's file, after the page of folder_shelf."""
    quarter = -(-len(text) // 4)
    cuts = [0, quarter, 2 * quarter, 3 * quarter, None]
    hashes = [shares.tagged(b"wozhinnam shelf seal", text[here:there]) for here, there in zip(cuts, cuts[1:])]
    return hashlib.sha256(b"".join(hashes)).digest()[:8]


class Folders:
    """Five folders that are served, and one share's file among them."""

    def __init__(self, program, file, number, kind, story, top):
        self.program, self.file, self.number, self.kind, self.story = program, file, number, kind, story
        self.place = (file.index[-1] + number) % SERVERS
        self.paths = [os.path.join(top, str(at)) for at in range(SERVERS)]
        name = "%s.%d" % (base32(file.index), number)
        self.path = os.path.join(self.paths[self.place], str(file.index[0] >> 4), name)
        self.errors = os.path.join(top, "errors")
        self.server = None
        self.whole = file.shares[number] + seal(file.shares[number])

    def start(self):
        words = [word for path in self.paths for word in ("--store", "dir:%s%s" % (path, self.kind))]
        with open(self.errors, "wb") as errors:
            self.server = wozhinnam(self.program, "--no-sync", *words, control=True, errors=errors)

    def stop(self):
        self.server.stop()

    def wrong(self, words):
        fail("%s, dir:..%s, share %d of a file of %d bytes: %s" % (self.story, self.kind, self.number, len(self.file.text), words))

    def put(self):
        if self.server.ask("PUT", "/uri", self.file.text) != self.file.cap.encode():
            self.wrong("another cap")

    def cut(self, sealed):
        share = self.file.shares[self.number]
        with open(self.path, "r+b") as output:
            if output.read() != self.whole:
                self.wrong("the file isn't the share and its seal")
            output.seek(0)
            output.truncate()
            output.write(share[:-1] + seal(share[:-1]) if sealed else self.whole[:-1])

    def stands(self, whole):
        """Whether the file is whole, or is cut."""
        with open(self.path, "rb") as text:
            if (text.read() == self.whole) != whole:
                self.wrong("its file is to be %s" % ("whole" if whole else "cut"))

    def told(self, verify, good, bad=False):
        """A check, with so many numbers good, all or all but the share's, and the share named or not."""
        given = self.server.ask("POST", "/uri/%s?t=check&output=JSON%s" % (self.file.cap, "&verify=true" if verify else ""))
        numbers = set(range(10)) - ({self.number} if good == 9 else set())
        wanted = file_checked(self.file, SERVERS, numbers, [(self.place, self.number)] if bad else []).split(b"\r\n\r\n", 1)[1]
        if given != wanted:
            self.wrong("a check is answered %r in place of %r" % (given, wanted))

    def given(self):
        if self.server.ask("GET", "/uri/" + self.file.cap) != self.file.text:
            self.wrong("other bytes")

    def failures(self, some):
        """Failures are counted of the one store, if any."""
        counts = [store["failures"] for store in json.loads(self.server.asked_control("GET", "/status").split(b"\r\n\r\n", 1)[1])["stores"]]
        if (counts[self.place] > 0) != some or any(count for place, count in enumerate(counts) if place != self.place):
            self.wrong("failures %r" % counts)

    def looked_through(self, named):
        """`check`, which names the file or finds nothing wrong."""
        ran = subprocess.run([self.program, "check"] + self.paths, capture_output=True, timeout=60)
        if ran.returncode != (BAD if named else 0) or (self.path.encode() in ran.stdout + ran.stderr) != named:
            self.wrong("check ends with %d, %r" % (ran.returncode, ran.stderr))

    def started(self, named):
        """A start, which names the file or doesn't."""
        self.start()
        with open(self.errors, "rb") as words:
            if (self.path.encode() in words.read()) != named:
                self.wrong("a start %s the file" % ("doesn't name" if named else "names"))

    def whole_again(self):
        """After an upload that put the share again: now, and after a start."""
        self.told(True, 10)
        self.given()
        self.stands(True)
        self.looked_through(False)
        self.stop()
        self.started(False)
        self.told(True, 10)
        self.given()
        self.stop()


def rotten_at_start(grid):
    """The file is cut off: the share is missing, and an upload puts it again."""
    grid.cut(False)
    grid.looked_through(True)
    grid.started(True)
    for verify in (False, True):
        grid.told(verify, 9)
    grid.given()
    grid.failures(False)
    grid.stands(False)
    grid.put()
    grid.whole_again()


def shorter_at_start(grid):
    """The share is cut off under a seal of its own: it is there, it is bad, and an upload keeps it until its file is taken away."""
    grid.cut(True)
    grid.looked_through(False)
    grid.started(False)
    for _turn in range(2):
        grid.told(False, 10)
        grid.told(True, 9, True)
        grid.given()
        grid.put()
    grid.failures(False)
    grid.stands(False)
    grid.stop()
    os.remove(grid.path)
    grid.started(False)
    grid.told(True, 9)
    grid.put()
    grid.whole_again()


def while_served(grid, sealed):
    """A store with memory answers from it, and its file stays as it is; one without finds the share missing, and an upload puts it again."""
    grid.start()
    grid.cut(sealed)
    grid.looked_through(not sealed)
    if grid.kind:
        # A check fetches each share, verified or not; which comes first is no matter.
        for verify in (grid.number % 2 == 0, grid.number % 2 == 1):
            grid.told(verify, 9)
        grid.given()
        grid.failures(True)
        grid.stands(False)
        grid.put()
        grid.whole_again()
        return
    for verify in (False, True):
        grid.told(verify, 10)
    grid.given()
    grid.put()
    grid.failures(False)
    grid.stands(False)
    grid.stop()
    grid.started(not sealed)
    grid.told(True, 9, sealed)
    grid.given()
    grid.stop()


def read_first(grid):
    """The file is read before anything else looks at the share, and an upload comes right behind. A read finds a share of a number below k missing, and
    asks for no other one; a check finds each."""
    grid.start()
    grid.cut(False)
    grid.given()
    grid.failures(bool(grid.kind) and grid.number < grid.file.k)
    grid.put()
    grid.stands(bool(grid.kind) and grid.number < grid.file.k)
    if not grid.kind:
        grid.told(True, 10)
        grid.stop()
        return
    if grid.number >= grid.file.k:
        grid.told(True, 9)
        grid.put()
    grid.whole_again()


STORIES = {"cut before a start": rotten_at_start, "shorter before a start": shorter_at_start, "cut while served": lambda grid: while_served(grid, False),
           "shorter while served": lambda grid: while_served(grid, True), "read right after": read_first}


def folder(program, file, number, kind, story):
    """What is wrong in this story, or None."""
    with tempfile.TemporaryDirectory() as top:
        grid = Folders(program, file, number, kind, story, top)
        try:
            grid.start()
            grid.put()
            grid.told(True, 10)
            grid.stop()
            STORIES[story](grid)
        except SystemExit as end:
            return end.code
        finally:
            if grid.server.process.poll() is None:
                grid.server.kill()


def main():
    programs = built("gate_main"), checked_program(sys.argv[2] if len(sys.argv) > 2 else os.path.join(ROOT, "crates/wozhinnam/out/wozhinnam"))
    if LARGER.cap != BIG_CAP:
        fail("the model's cap isn't that of another program")
    images(programs[0])
    wrong = 0
    for kind in ("", ":1000000000,disk"):
        for story in STORIES:
            runs = [(file, number) for file, numbers in ((LETTERS, range(10)), (LARGER, (0, 4, 9))) for number in numbers]
            with concurrent.futures.ThreadPoolExecutor(8) as workers:
                told = [words for words in workers.map(lambda run: folder(programs[1], *run, kind, story), runs) if words]
            print("dir:..%s, %s: %d of %d as they are to be%s" % (kind, story, len(runs) - len(told), len(runs), "".join("\n    " + words for words in told[:1])), flush=True)
            wrong += len(told)
    if wrong:
        fail("%d runs are not as they are to be" % wrong)


main()
