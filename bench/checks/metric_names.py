#!/usr/bin/env python3
"""`install/alerts.yml` and `install/dashboard.json` against the figures of a server that runs: each name in them stands in what /metrics prints,
with each label by which it is chosen, and no name of another program is asked for but Prometheus's own `up`. `promtool` checks the rules where it
is there.
usage: bench/checks/metric_names.py WOZHINNAM
"""

import json
import os
import re
import subprocess
import sys

HERE = os.path.dirname(os.path.abspath(__file__))
sys.path.insert(0, os.path.join(HERE, "../tools"))
from server import built, fail, wozhinnam

INSTALL = os.path.join(HERE, "../../install")
# A name that isn't called, by whatever it is chosen: `name`, `name{..}`, `name[..]`.
NAME = re.compile(r'\b([a-z_]\w*)\b(?!\s*\()(?:\{([^}]*)\})?')
# What stands in expressions and names no figure: words of the language, and labels behind `by`.
WORDS = {"by", "sum", "instance"}
# Labels that Prometheus adds.
ADDED = {"job", "instance"}


def figures(server):
    """The names of the figures, and what each label of them says."""
    names = {}
    for line in server.asked_control("GET", "/metrics").decode().split("\r\n\r\n", 1)[1].splitlines():
        if not line.startswith("#"):
            name, labels = re.match(r"(\w+)(?:\{(.*)\})? ", line).groups()
            said = names.setdefault(name, {})
            for label, value in re.findall(r'(\w+)="([^"]*)"', labels or ""):
                said.setdefault(label, set()).add(value)
    return names


def expressions():
    """Those of both files, with the file's name."""
    with open(os.path.join(INSTALL, "alerts.yml")) as text:
        for rule in re.split(r"- alert: ", text.read())[1:]:
            yield "alerts.yml", re.search(r"expr: (?:>-\s*)?(.*?)\n\s+(?:for|labels):", rule, re.S).group(1)
    with open(os.path.join(INSTALL, "dashboard.json")) as text:
        board = json.load(text)
    for panel in board["panels"]:
        yield from (("dashboard.json", target["expr"]) for target in panel["targets"])
    for variable in board["templating"]["list"]:
        if variable["type"] == "query":
            yield "dashboard.json", re.match(r"label_values\((\w+), \w+\)", variable["query"]["query"]).group(1)


def names_of(expression):
    """The names in an expression, each with the labels that choose among its figures."""
    bare = re.sub(r"\bby \([^)]*\)", "", re.sub(r"\[[^\]]*\]", "", expression))
    for name, labels in NAME.findall(bare):
        if name not in WORDS:
            yield name, re.findall(r'(\w+)(=~?)"([^"]*)"', labels)


def main():
    server = wozhinnam(built("wozhinnam"), control=True)
    known = figures(server)
    server.stop()
    asked, count = set(), 0
    for file, expression in expressions():
        count += 1
        names = list(names_of(expression))
        if not names:
            fail("%s asks for nothing: %s" % (file, expression))
        for name, labels in names:
            if name != "up" and name not in known:
                fail("%s: /metrics has no %s" % (file, name))
            asked.add(name)
            for label, how, value in labels:
                if label not in ADDED and (label not in known[name] or how == "=" and value not in known[name][label]):
                    fail("%s: no %s of /metrics has %s=%s" % (file, name, label, value))
    more = ""
    try:
        if subprocess.call(["promtool", "check", "rules", os.path.join(INSTALL, "alerts.yml")], stdout=subprocess.DEVNULL):
            fail("promtool refuses the rules")
    except FileNotFoundError:
        more = "; promtool isn't here"
    print("%d expressions ask for %d names, each of which /metrics has%s" % (count, len(asked), more))


if __name__ == "__main__":
    main()
