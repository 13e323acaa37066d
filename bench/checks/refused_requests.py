#!/usr/bin/env python3
"""Each allocation refused in turn that `wozhinnam serve`, the built program, asks for while one caller makes a directory with a name that isn't in NFC,
walks it, asks for ranges, for checks, or for a file of more than 1,048,576 bytes, and another one waits in the middle of a request. Stores are in memory,
in folders and memory, and in folders alone. The caller is given a beginning of the replies, and the other one all of them, or the other way round; then
a third one reads and verifies all that is stored, whole, and makes what was cut again. Folders that were only read are as they were, byte by byte. It
needs gcc, openssl and python3, and takes a quarter of an hour.

usage: bench/checks/refused_requests.py [PROGRAM [CASE..]]
"""

import collections
import concurrent.futures
import json
import os
import shutil
import subprocess
import sys
import tempfile
import unicodedata
import urllib.parse

from refused_serving import FaultyServer, exchanged
from script_kit import BIG, BIG_CAP, JSON, LETTERS, TEXT, Faults, Upload, built, fail, file_checked, file_reply, large_upload, reply, request
from whole_scripts import LITERAL, entry

SERVERS = 5
WORKERS = 16
MARGIN = 70
# A letter with an accent behind it, marks out of their order, and a Hangul syllable in its parts.
LOOSE = "e\u0301q\u0307\u0323\u1112\u1161\u11ab"
NAME = unicodedata.normalize("NFC", LOOSE)
# Made by another program: the reply to t=json of the directory of the file `f`.
LITERAL_JSON = ('["dirnode",{"children":{"a":["filenode",{"metadata":{},"mutable":false,"ro_uri":"URI:LIT:my","size":1}]},"mutable":false,'
                '"ro_uri":"URI:DIR2-LIT:gi3dumj2mewdcmb2kvjesosmjfkdu3lzfqydulbshj5x2lbm"}]')
SHORT = Upload(3, 10, b"", b"f")
BOTH = large_upload(3, 10, b"", BIG)
# One byte more than a file that is kept after it was read.
LARGE = large_upload(3, 10, b"", bytes((at * at >> 8) % 253 for at in range(1_048_577)))
FOLDER = Upload(3, 10, b"", entry(b"letters", LETTERS.cap) + entry(NAME.encode(), LITERAL), kind="DIR2-")
CHILDREN = json.dumps({LOOSE: ["dirnode", {"ro_uri": LITERAL}], "letters": ["filenode", {"ro_uri": LETTERS.cap}]}).encode()


def got(path, file):
    return request("GET", "/uri/" + path), file_reply(file)


def put(file):
    return request("PUT", "/uri", file.text), reply(200, TEXT, file.cap.encode())


def ranged(file, said, first, last):
    fields = b"Content-Range: bytes %d-%d/%d\r\n" % (first, last, len(file.text))
    return request("GET", "/uri/" + file.cap, fields="Range: bytes=%s\r\n" % said), file_reply(file, file.text[first:last + 1], 206, fields)


def health(file, verify):
    target = "/uri/%s?t=check&output=JSON%s" % (file.cap, "&verify=true" if verify else "")
    return request("POST", target), file_checked(file, SERVERS)


MAKE = request("POST", "/uri?t=mkdir-immutable", CHILDREN), reply(200, TEXT, FOLDER.cap.encode())
BELOW = FOLDER.cap + "/" + urllib.parse.quote(LOOSE)
WALK = [got(BELOW + "/a", SHORT), (request("GET", "/uri/" + BELOW + "?t=json"), reply(200, JSON, LITERAL_JSON.encode())),
        got(FOLDER.cap + "/letters", LETTERS), got(FOLDER.cap + "/" + urllib.parse.quote(NAME) + "/a", SHORT)]
CASES = {
    "make": [MAKE],
    "walk": WALK,
    "check": [health(file, verify) for file in (BOTH, FOLDER) for verify in (False, True)],
    "range": [ranged(LARGE, "131070-131074", 131_070, 131_074), ranged(LARGE, "900000-1030000", 900_000, 1_030_000), ranged(LARGE, "-2", 1_048_575, 1_048_576)],
    "download": [got(LARGE.cap, LARGE)],
}
WAITS = [got(LETTERS.cap, LETTERS), health(LETTERS, True)]
STORES = {"memory": None, "folders and memory": "", "folders": ":1000000000,disk"}


def files_of(case):
    return LETTERS, LARGE if case in ("range", "download") else BOTH


def reads_of(case):
    """What is read and verified after a case, and made again where it was cut."""
    return [exchange for file in files_of(case) for exchange in (got(file.cap, file), health(file, True))] + [MAKE, health(FOLDER, True), *WALK]


def joined(exchanges):
    """What is sent, and what is given for it."""
    return tuple(b"".join(parts) for parts in zip(*exchanges))


class Grid:
    """Where the shares of a case stand, and what is stored before it."""

    def __init__(self, faults, stores, case, top):
        self.faults, self.stores, self.case, self.top = faults, STORES[stores], case, top
        self.stored = joined([put(file) for file in files_of(case)] + ([] if case == "make" else [MAKE]))
        self.whole = None
        if self.stores is not None:
            whole = self.folders("whole")
            server = self.serve(whole)
            given = exchanged(server.connect(), self.stored[0])
            if given != self.stored[1] or server.stop()[0] != 0:
                fail("%s: the files aren't stored" % case)
            self.whole = whole

    def folders(self, name):
        folder = os.path.join(self.top, name)
        if self.stores is not None and self.whole:
            shutil.copytree(self.whole, folder)
        else:
            os.makedirs(folder)
        return folder

    def serve(self, folder, **calls):
        options = ["--room", "1000000000"]
        if self.stores is not None:
            options = ["--no-sync"] + [word for at in range(SERVERS) for word in ("--store", "dir:%s/%d%s" % (folder, at, self.stores))]
        return FaultyServer(self.faults, *options, **calls)

    def prepared(self, server):
        """Whether all is stored that is to be there before the case."""
        return self.whole is not None or exchanged(server.connect(), self.stored[0]) == self.stored[1]

    def kept(self, folder):
        """Whether the folders are as they were or, where a directory was made, as they are to be by the program's own look."""
        if self.stores is None:
            return True
        if self.case == "make":
            words = [self.faults.program, "check"] + [os.path.join(folder, str(at)) for at in range(SERVERS)]
            return subprocess.run(words, stdout=subprocess.DEVNULL, stderr=subprocess.DEVNULL).returncode == 0
        return contents(folder) == contents(self.whole)


def contents(folder):
    """The bytes of each file below a folder, by its path."""
    found = {}
    for top, _, names in os.walk(folder):
        for name in names:
            with open(os.path.join(top, name), "rb") as file:
                found[os.path.relpath(file.name, folder)] = file.read()
    return found


def both(server, case):
    """What the caller of the case and the one that waits are given."""
    sent, waits = joined(CASES[case])[0], joined(WAITS)[0]
    waiting = server.connect()
    waiting.sendall(waits[:30])
    caller = server.connect()
    caller.sendall(sent)
    given_other = exchanged(waiting, waits[30:])
    return exchanged(caller, b""), given_other


def read_again(server, case, name):
    """Whether the first caller that reads all is given all. Only one may be cut."""
    sent, right = joined(reads_of(case))
    for turn in range(2):
        given = exchanged(server.connect(), sent)
        if given == right:
            return turn == 0
        if not right.startswith(given):
            break
    place = next((at for at, (one, other) in enumerate(zip(given, right)) if one != other), min(len(given), len(right)))
    fail("%s: what is stored is given as %r, from byte %d of %d on, in place of %r" % (name, given[place - 20:place + 200], place, len(right), right[place - 20:place + 200]))


def told(grid, server, name):
    """Who was cut: the caller, the one that waits, the reader, or nobody."""
    if not grid.prepared(server):
        return "before"
    rights = joined(CASES[grid.case])[1], joined(WAITS)[1]
    given = both(server, grid.case)
    for right, one in zip(rights, given):
        if not right.startswith(one):
            fail("%s: given %r" % (name, one[-300:]))
    cut = [one != right for right, one in zip(rights, given)] + [not read_again(server, grid.case, name)]
    if sum(cut) > 1:
        fail("%s: %d callers cut" % (name, sum(cut)))
    return ("caller", "other", "reader")[cut.index(True)] if any(cut) else "nobody"


def run(grid, number):
    """What came of a run in which this allocation is refused."""
    name = "%s, allocation %d" % (grid.case, number)
    counts, folder = "%s.%d" % (grid.faults.counts, number), grid.folders("run%d" % number)
    server = grid.serve(folder, alloc=number, counts=counts)
    try:
        kind = told(grid, server, name) if server.address and server.control else "before"
    except ConnectionError:
        kind = "before"
    status, words = server.stop()
    # The end before anything is served is out of memory.
    if status != 0 and (kind, status) != ("before", 10) or b"cut" in words and kind == "before" and status == 10:
        fail("%s: status %d, %r" % (name, status, words))
    if kind != "before" and not grid.kept(folder):
        fail("%s: the folders aren't as they are to be" % name)
    shutil.rmtree(folder)
    return kind


def counted(grid, with_case):
    """How many allocations there are where nothing is refused: before the case, or with it."""
    case, folder = grid.case, grid.folders("count")
    server = grid.serve(folder)
    if not grid.prepared(server):
        fail("%s: with ample memory the files aren't stored" % case)
    if with_case and both(server, case) != (joined(CASES[case])[1], joined(WAITS)[1]):
        fail("%s: other replies with ample memory" % case)
    server.stop()
    shutil.rmtree(folder)
    with open(grid.faults.counts) as text:
        return int(text.read().split()[0])


def tried(faults, stores, case):
    with tempfile.TemporaryDirectory() as top:
        grid = Grid(faults, stores, case, top)
        # A stop takes some too, so that the first ones are before the case, and the last ones behind it.
        first, last = counted(grid, False) - MARGIN, counted(grid, True)
        with concurrent.futures.ThreadPoolExecutor(WORKERS) as workers:
            kinds = collections.Counter(workers.map(lambda number: run(grid, number), range(first, last + 1)))
    print("%s, stores in %s: %d allocations refused in turn; cut: %s" % (
        case, stores, last + 1 - first, ", ".join("%s %d" % pair for pair in sorted(kinds.items()))), flush=True)
    for kind in ("before", "caller", "other", "reader"):
        if not kinds[kind]:
            fail("%s, stores in %s: no refusal cuts %s" % (case, stores, kind))


def main():
    if BOTH.cap != BIG_CAP:
        fail("the model's cap isn't that of another program")
    faults = Faults(built("wozhinnam"))
    for stores in STORES:
        for case in sys.argv[2:] or (["make"] if stores == "folders and memory" else CASES):
            tried(faults, stores, case)


main()
