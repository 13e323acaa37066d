#!/usr/bin/env python3
"""Lists the names that the definitions of two crates have in common: a fact, a type or a value of `crates/*/specs/` is to have a name of its own, so that
a reader meets one meaning by it; and the crates that a crate names without having them in its line of crates.txt, which its proof would tell only once
all below it is proved. It ends with status 1 where there is one of either.

usage: bench/tools/names.py
"""

import collections
import os
import re
import sys

CRATES = os.path.join(os.path.dirname(os.path.abspath(__file__)), "../../crates")
# `abbrev pub name : ..`, `unfoldable pub name : ..`, `pub name : ..`, `pub record Name ..`, `pub data Name ..`
DEFINED = re.compile(r"^(?:abbrev |unfoldable )?pub (?:record |data )?(?!mod |use )(\S+)")

# `use name::..`, `ghost use Rattle.name...`
USED = re.compile(r"^\s*(?:pub )?(?:ghost )?use (?:Rattle\.)?([a-z0-9_]+)(?:\.|::)", re.M)


def texts(crate):
    """The paths of a crate's code, definitions and proofs."""
    for part in ("src", "specs", "proofs"):
        for folder, _, files in sorted(os.walk(os.path.join(CRATES, crate, part))):
            yield from (os.path.join(folder, file) for file in sorted(files) if file.endswith((".rt", ".antt")))


def unlisted():
    """Each path that names a crate which the line of its own crate lacks, with that crate."""
    with open(os.path.join(CRATES, "../crates.txt"), encoding="utf-8") as lines:
        below = dict((line.split(":")[0].split()[0], line.split(":")[1].split()) for line in lines if re.match(r"\w+\b.*:", line))
    for crate in below:
        for path in texts(crate):
            with open(path, encoding="utf-8") as text:
                named = set(USED.findall(text.read()))
            yield from ((os.path.relpath(path, CRATES), name) for name in sorted(named & below.keys() - {crate} - set(below[crate])))


def places():
    """Each name, with the crates whose specs define it, and where."""
    found = collections.defaultdict(dict)
    for crate in sorted(os.listdir(CRATES)):
        for folder, _, files in sorted(os.walk(os.path.join(CRATES, crate, "specs"))):
            for file in sorted(files):
                path = os.path.join(folder, file)
                with open(path, encoding="utf-8") as text:
                    for number, line in enumerate(text, 1):
                        if match := DEFINED.match(line):
                            found[match[1]].setdefault(crate, "crates/%s:%d" % (os.path.relpath(path, CRATES), number))
    return found


def main():
    if sys.argv[1:]:
        sys.exit(__doc__)
    found = places()
    shared = sorted(name for name in found if len(found[name]) > 1)
    for name in shared:
        print("names.py: %s stands for two things: %s" % (name, ", ".join(found[name].values())), file=sys.stderr)
    lacking = list(unlisted())
    for path, name in lacking:
        print("names.py: crates/%s names %s, which crates.txt doesn't list for it" % (path, name), file=sys.stderr)
    if shared or lacking:
        sys.exit(1)
    print("names.py: %d names of definitions, none of them in two crates; each crate names those of its line in crates.txt" % len(found))


if __name__ == "__main__":
    main()
