#!/usr/bin/env python3
"""Checks a crate from nothing by one processor and prints which parts took longest: the prover writes a file as soon as a part of a
function's proof is done, so the times between these files are the parts' (`Lts` is what the borrow checker needs of a
function, `Proof` its goals, `Tie` and `Layout` what its memory needs). It wants a machine with nothing else running.

usage: bench/tools/function_times.py CRATE [COUNT]        the 20 longest unless told otherwise
"""

import os
import shutil
import subprocess
import sys

ROOT = os.path.join(os.path.dirname(os.path.abspath(__file__)), "../..")


def main():
    if len(sys.argv) not in (2, 3):
        sys.exit(__doc__.rstrip().rpartition("\n")[2])
    folder = os.path.join(ROOT, "crates", sys.argv[1])
    kept = os.path.join(folder, "out", "incremental")
    # The libraries below are built first, so that their time isn't the crate's.
    subprocess.run(["rt", "check"], cwd=folder, stdout=subprocess.DEVNULL, stderr=subprocess.DEVNULL)
    shutil.rmtree(kept, ignore_errors=True)
    status = subprocess.run(["rt", "check", "--jobs", "1"], cwd=folder, stdout=subprocess.DEVNULL).returncode
    files = sorted((os.stat(os.path.join(at, name)).st_mtime, name) for at, _, names in os.walk(kept) for name in names if name.endswith(".oantt"))
    if status or not files:
        sys.exit("function_times.py: the crate isn't proved")
    prefix = "Rattle-%s-proofs." % sys.argv[1]
    times = [(time - before, name.replace(prefix, "").replace(".oantt", "")) for (before, _), (time, name) in zip(files, files[1:])]
    print("%d files in %.0f seconds" % (len(files), files[-1][0] - files[0][0]))
    for seconds, name in sorted(times, reverse=True)[:int((sys.argv[2:] or [20])[0])]:
        print("%6.1f  %s" % (seconds, name))


main()
