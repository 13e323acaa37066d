#!/usr/bin/env python3
"""Sees that each link of a page leads to a file that is there, and to a heading of it where it names one, and that each path that a page
names in `code` is there, from the top or in some crate. It ends with status 1 where one isn't.

usage: bench/tools/links.py
"""

import glob
import os
import re
import sys

ROOT = os.path.realpath(os.path.join(os.path.dirname(os.path.abspath(__file__)), "../.."))
LINK = re.compile(r"\]\(([^)\s]+)\)")
# A path from the top, or in some crate, as `src/lib.rt` is.
PATH = re.compile(r"`((?:bench|crates|docs|install|models|pages|tests|src|specs|edits|must-fail)/[\w./-]+\.\w+)`")


def pages():
    for folder, folders, names in os.walk(ROOT):
        folders[:] = [name for name in folders if name != "out" and not name.startswith(".")]
        yield from (os.path.join(folder, name) for name in sorted(names) if name.endswith(".md"))


def headings(text):
    """The anchors of a page's headings, as its readers are taken to them."""
    return {re.sub(r"[^\w -]", "", line.lstrip("# ").lower()).replace(" ", "-") for line in text.split("\n") if line.startswith("#")}


def wrong_in(page):
    with open(page, encoding="utf-8") as file:
        text = file.read()
    here = os.path.dirname(page)
    for link in LINK.findall(text):
        if re.match(r"[a-z]+:", link):
            continue
        path, _, anchor = link.partition("#")
        there = os.path.join(here, path) if path else page
        if not os.path.exists(there):
            yield link
        elif anchor and there.endswith(".md"):
            with open(there, encoding="utf-8") as file:
                if anchor not in headings(file.read()):
                    yield link
    for path in PATH.findall(text):
        if "NAME" not in path and not os.path.exists(os.path.join(ROOT, path)) and not glob.glob(os.path.join(ROOT, "crates/*", path)):
            yield path


def main():
    if sys.argv[1:]:
        sys.exit(__doc__)
    wrong, count = [], 0
    for page in pages():
        count += 1
        wrong += ["%s: there is no %s" % (os.path.relpath(page, ROOT), what) for what in wrong_in(page)]
    for line in wrong:
        print("links.py: " + line, file=sys.stderr)
    if wrong:
        sys.exit(1)
    print("links.py: each link of %d pages leads somewhere" % count)


if __name__ == "__main__":
    main()
