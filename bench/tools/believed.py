#!/usr/bin/env python3
"""Prints what has to be believed of a theorem: the files of definitions that it reaches, each with its lines, comments and empty ones aside.
What it takes of the code's own types and of the toolchain's library isn't counted.

usage: bench/tools/believed.py [CRATE/specs/NAME.antt]        gate_core/specs/Isolated.antt, the theorem's sentence, unless told otherwise
"""

import os
import re
import sys

CRATES = os.path.join(os.path.dirname(os.path.abspath(__file__)), "../../crates")
USED = re.compile(r"^(?:pub )?use Rattle\.(\w+)\.specs\.([\w.]+?)(?:\.\{|\s|$)")


def file_of(crate, path):
    """The file of a module of a crate's definitions, if it is one of this repository."""
    words = path.split(".")
    while words and words[0] != "declared":
        file = "%s/specs/%s.antt" % (crate, "/".join(words))
        if os.path.exists(os.path.join(CRATES, file)):
            return file
        words.pop()
    return None


def lines_of(file):
    with open(os.path.join(CRATES, file), encoding="utf-8") as text:
        return [line for line in text.read().split("\n") if line.strip()]


def main():
    if len(sys.argv) > 2 or sys.argv[1:2] == ["--help"]:
        sys.exit(__doc__)
    first = (sys.argv[1:] or ["gate_core/specs/Isolated.antt"])[0].removeprefix("crates/")
    found, left = {}, [first]
    while left:
        file = left.pop()
        if file in found:
            continue
        lines = lines_of(file)
        found[file] = sum(not line.lstrip().startswith("--") and not USED.match(line) for line in lines)
        left += [it for it in (file_of(*match.groups()) for match in map(USED.match, lines) if match) if it]
    for file in sorted(found):
        print("%5d  crates/%s" % (found[file], file))
    print("%d files, %d lines" % (len(found), sum(found.values())))


if __name__ == "__main__":
    main()
