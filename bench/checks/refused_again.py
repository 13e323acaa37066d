#!/usr/bin/env python3
"""Each allocation of `gate_bench again`, the built program, refused in turn: a put, a get, an image, losses, a restore and a get from it, through the
gateway, and an upload and a download below it. A call that was refused memory is made again and gives what it would have given; a piece cuts its own
connection, and the same request on another one is answered. It needs gcc and python3.

usage: bench/checks/refused_again.py [PROGRAM]
"""

import collections
import subprocess

from script_kit import Faults, built, fail


def run(faults, **refused):
    """What a run said, and how many allocations it asked for."""
    ran = subprocess.run([faults.program, "again"], capture_output=True, env=faults.environment(**refused), timeout=60)
    with open(faults.counts) as counts:
        return (ran.returncode, ran.stdout, ran.stderr), int(counts.read().split()[0])


def main():
    faults = Faults(built("gate_bench"))
    said, count = run(faults)
    if said != (0, b"served\n", b""):
        fail("with ample memory: %r" % (said,))
    told = collections.Counter()
    for number in range(1, count + 1):
        said, _ = run(faults, alloc=number)
        if said[0] == 0 and said[1] in (b"served\n", b"cut\n", b"refused\n") and not said[2]:
            told[said[1].decode().strip()] += 1
        elif said[:2] == (1, b"") and said[2] == b"gate_bench: out of memory\n":
            told["not begun"] += 1
        else:
            fail("allocation %d: %r" % (number, said))
    if not told["cut"] or not told["refused"] or told["not begun"] > 10:
        fail("%r" % dict(told))
    print("%d allocations, each refused in turn: %s" % (count, ", ".join("%d %s" % (told[words], words) for words in sorted(told))))


main()
