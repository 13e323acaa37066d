#!/usr/bin/env python3
"""Counts how large the repository is, and holds it against the ceilings in bench/size.txt: it ends with status 1 where a number is above its
ceiling, or a line of that file names no number. A ceiling is raised by hand, with a line in docs/DECISIONS.md that says for what.

usage: bench/tools/size.py          counts, and compares
       bench/tools/size.py --lower  also lowers each ceiling to what is counted now

What is counted, but for what is made (out/) and what begins with a dot:
  crates       lines of crates.txt that name one
  code         lines of crates/*/src/*.rt, of tests/*.rs and of cases/*.rs
  proof        lines of crates/*/proofs/*.antt
  specs        lines of crates/*/specs/*.antt
  words        words of all pages, *.md
  edits        wrong bodies, crates/*/edits and crates/*/must-fail
  duplicates   pairs of files, or one file with itself, that share a run of six lines or more, letter by letter: blank lines, comments, imports
               and lines without a letter or a digit aside, and runs that stand in more than eight places
  contracts    functions whose contract has more than 25 lines
"""

import collections
import itertools
import os
import re
import sys

ROOT = os.path.realpath(os.path.join(os.path.dirname(os.path.abspath(__file__)), "../.."))
CEILINGS = os.path.join(ROOT, "bench/size.txt")
RUN, PLACES, CONTRACT = 6, 8, 25
IMPORT = re.compile(r"(pub )?(ghost )?(pub )?use ")
CODE = (".rt", ".rs", ".antt", ".py", ".sh", ".js", ".css", ".html", ".c")


def files():
    """The files of the repository, without what is made: out/, and what begins with a dot."""
    found = []
    for folder, folders, names in os.walk(ROOT):
        folders[:] = [name for name in folders if name not in ("out", "__pycache__") and not name.startswith(".")]
        found += [os.path.relpath(os.path.join(folder, name), ROOT) for name in names]
    return sorted(found)


def lines_of(name):
    with open(os.path.join(ROOT, name), encoding="utf-8", errors="replace") as text:
        return text.read().split("\n")


def meant(name):
    """The lines of a file that a run is made of."""
    comment = "//" if name.endswith((".rt", ".rs", ".js", ".c")) else "--" if name.endswith(".antt") else "#"
    for line in lines_of(name):
        line = " ".join(line.split())
        if re.search(r"\w", line) and not line.startswith(comment) and not IMPORT.match(line):
            yield line


def duplicates(names):
    """The pairs of files that share a run."""
    places = collections.defaultdict(list)
    for name in names:
        lines = list(meant(name))
        for at in range(len(lines) - RUN + 1):
            places[tuple(lines[at : at + RUN])].append(name)
    return {pair for found in places.values() if 1 < len(found) <= PLACES for pair in itertools.combinations(sorted(found), 2)}


def long_contracts(name):
    """The functions of a file whose contract is too long: the lines from the first `requires` or `ensures` behind `fn` to its body."""
    found, called, at = [], None, None
    for line in lines_of(name):
        if match := re.match(r"\s*(?:pub(?:\(\w+\))? )?(?:const )?fn (\w+)", line):
            called, at = match[1], None
        elif called and at is None and re.match(r"\s*(requires|ensures)\b", line):
            at = 1
        elif called and re.match(r"\s*(\{|;)\s*$", line):
            if at and at > CONTRACT:
                found.append("%s: %s, %d" % (name, called, at))
            called = None
        elif at:
            at += 1
    return found


def counted():
    names = files()
    within = lambda folder, end: [name for name in names if re.match(r"crates/[^/]+/%s/" % folder, name) and name.endswith(end)]
    lines = lambda folder, end: sum(len(lines_of(name)) - 1 for name in within(folder, end))
    return {
        "crates": sum(bool(re.match(r"\w+\b.*:", line)) for line in lines_of("crates.txt")),
        "code": lines("src", ".rt") + sum(len(lines_of(name)) - 1 for name in names if name.startswith(("tests/", "cases/")) and name.endswith(".rs")),
        "proof": lines("proofs", ".antt"),
        "specs": lines("specs", ".antt"),
        "words": sum(len(line.split()) for name in names if name.endswith(".md") for line in lines_of(name)),
        "edits": len(within("(?:edits|must-fail)", ".edit")),
        "duplicates": len(duplicates([name for name in names if name.endswith(CODE)])),
        "contracts": sum(len(long_contracts(name)) for name in within("src", ".rt")),
    }


def main():
    if sys.argv[1:] not in ([], ["--lower"]):
        sys.exit(__doc__)
    now = counted()
    ceilings = {}
    if os.path.exists(CEILINGS):
        ceilings = {name: int(most) for name, most in (line.split() for line in lines_of("bench/size.txt") if line and not line.startswith("#"))}
    if sys.argv[1:]:
        with open(CEILINGS, "w", encoding="utf-8") as text:
            text.write("# The most that each number of bench/tools/size.py may be. The gate fails above one.\n")
            text.writelines("%s %d\n" % (name, min(most, ceilings.get(name, most))) for name, most in now.items())
        return
    above = ["%s: %d, and %d is its ceiling" % (name, now[name], ceilings[name]) for name in now if name in ceilings and now[name] > ceilings[name]]
    above += ["%s has no ceiling" % name for name in now if name not in ceilings] + ["%s is no number that is counted" % name for name in ceilings if name not in now]
    for line in above:
        print("size.py: " + line, file=sys.stderr)
    if above:
        sys.exit("size.py: make something smaller, or raise the ceiling in bench/size.txt with a line in docs/DECISIONS.md")
    print("size.py: " + ", ".join("%s %d of %d" % (name, now[name], ceilings[name]) for name in now))


if __name__ == "__main__":
    main()
