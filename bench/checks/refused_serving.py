#!/usr/bin/env python3
"""Each allocation of `wozhinnam serve`, the built program, refused in turn, while three clients are connected. One waits in the middle of a request while
two put a file each and get it; then it checks both files and gets them. A client is given a beginning of its replies, and all of them where it isn't the
one whose memory was refused; of a file whose upload was cut some shares stand, all good, and it is given where they are enough. It needs gcc and
python3, and takes a minute or two.

usage: bench/checks/refused_serving.py [PROGRAM]
"""

import collections
import concurrent.futures
import socket
import subprocess

from script_kit import LETTERS, NOT_KEPT, TEXT, Faults, Upload, built, fail, file_checked, file_reply, refusal, reply, request
from server import Server, serve_words

SERVERS = 5
OTHER = Upload(3, 10, b"", b"b" * 57)
END = (10, b"out of memory\n")
FOO = Upload(3, 10, b"", b"foo")
WAITING = request("GET", "/uri/" + FOO.cap)
GONE = refusal(410, b"not enough shares", NOT_KEPT)


class FaultyServer(Server):
    """The program with these faults. It has no address where it ended at once."""

    def __init__(self, faults, *options, **calls):
        super().__init__(serve_words(faults.program, *options, control=True), True, subprocess.PIPE, faults.environment(**calls))

    def connect(self, address=None):
        if not (address or self.address):
            raise ConnectionError
        return super().connect(address, 20)

    def stop(self):
        """The status and the words of the end. The request to stop may be what is refused memory, so it is made again."""
        for _turn in range(3 if self.control else 0):
            try:
                exchanged(self.connect(self.control), b"POST /stop HTTP/1.0\r\n\r\n")
                self.process.wait(2)
                break
            except ConnectionError:
                # It ends, or is about to.
                break
            except subprocess.TimeoutExpired:
                pass
        words = self.process.communicate(timeout=20)[1]
        return self.process.returncode, words


def exchanged(stream, data):
    """What is given for these last bytes, up to the end of the connection."""
    given = b""
    try:
        with stream:
            stream.sendall(data)
            stream.shutdown(socket.SHUT_WR)
            while more := stream.recv(65536):
                given += more
    except OSError:
        # The server cut it.
        pass
    return given


def exchange(file):
    sent = request("PUT", "/uri", file.text) + request("GET", "/uri/" + file.cap)
    return sent, reply(200, TEXT, file.cap.encode()) + file_reply(file)


def asked_last():
    return b"".join(request("POST", "/uri/%s?t=check&output=JSON&verify=true" % file.cap) + request("GET", "/uri/" + file.cap) for file in (LETTERS, OTHER))


def given_last(standing):
    """What the client that waited is given where so many shares of the two files stand: the first ones."""
    given = file_reply(FOO)
    for file, good in zip((LETTERS, OTHER), standing):
        given += file_checked(file, SERVERS, range(good)) + (file_reply(file) if good >= 3 else GONE)
    return given


def uploaded(given, file, name):
    """How many shares of a file may stand: all where its cap was answered, else any number of them."""
    right = exchange(file)[1]
    if not right.startswith(given):
        fail("%s: %r" % (name, given))
    return range(10, 11) if len(given) >= len(reply(200, TEXT, file.cap.encode())) else range(11)


def told(server):
    """What the three clients are given. ConnectionError where the server ended before all of them connected."""
    waiting = server.connect()
    waiting.sendall(WAITING[:30])
    given = [exchanged(server.connect(), exchange(file)[0]) for file in (LETTERS, OTHER)]
    return given, exchanged(waiting, WAITING[30:] + asked_last())


def run(faults, number):
    """What came of a run in which this allocation is refused."""
    name = "allocation %d" % number
    counts = "%s.%d" % (faults.counts, number)
    server = FaultyServer(faults, alloc=number, counts=counts)
    try:
        given, last = told(server)
    except ConnectionError:
        status, words = server.stop()
        if (status, words[-14:]) != END or b"cut" in words:
            fail("%s: status %d, %r" % (name, status, words))
        return "did not start"
    standing = [uploaded(one, file, name) for one, file in zip(given, (LETTERS, OTHER))]
    rights = {given_last((first, second)) for first in standing[0] for second in standing[1]}
    if not any(right.startswith(last) for right in rights):
        fail("%s: the client that waited is given %r" % (name, last))
    cut = [one != exchange(file)[1] for one, file in zip(given, (LETTERS, OTHER))] + [last not in rights]
    status, words = server.stop()
    if sum(cut) > 1 or status != 0:
        fail("%s: %d clients cut, status %d, %r" % (name, sum(cut), status, words))
    with open(counts) as text:
        if int(text.read().split()[0]) < number:
            return "refused nothing"
    return "cut client %d" % (1 + cut.index(True)) if any(cut) else "answered all"


def main():
    faults = Faults(built("wozhinnam"))
    kinds = collections.Counter()
    # The runs wait more than they work.
    with concurrent.futures.ThreadPoolExecutor(8) as workers:
        for first in range(1, 10_000, 100):
            kinds.update(workers.map(lambda number: run(faults, number), range(first, first + 100)))
            if kinds["refused nothing"] > 50:
                break
    print("%d runs: %s" % (kinds.total(), ", ".join("%d %s" % (count, kind) for kind, count in sorted(kinds.items()))))
    if not all(kinds["cut client %d" % at] for at in (1, 2, 3)):
        fail("a client is never cut")


if __name__ == "__main__":
    main()
