#!/usr/bin/env python3
"""Runs the gate and prints, besides what it prints, how long each crate's proof, tests and edits took: processor minutes, by looking at
the prover's processes twice a second, and the minute in which each ended. It needs Linux, and nothing else running.

usage: bench/tools/gate_times.py [COMMAND..]        .ci/run unless told otherwise
"""

import collections
import os
import re
import subprocess
import sys
import threading
import time

ROOT = os.path.join(os.path.dirname(os.path.abspath(__file__)), "../..")
TICKS = os.sysconf("SC_CLK_TCK")
KINDS = ("proof", "tests", "edits")


def processes():
    """Each process: its parent, its words, and its processor seconds, with those of children that have ended."""
    found = {}
    for name in os.listdir("/proc"):
        if not name.isdigit():
            continue
        try:
            with open("/proc/%s/stat" % name) as stat:
                fields = stat.read().rpartition(")")[2].split()
            with open("/proc/%s/cmdline" % name, "rb") as line:
                words = line.read().decode(errors="replace").split("\0")
        except (OSError, ValueError):
            continue
        found[int(name)] = (int(fields[1]), words, sum(map(int, fields[11:15])) / TICKS)
    return found


def task_of(words):
    """The crate and the kind of a prover's process, if it is one."""
    if "--crate-name" not in words or not words[0].endswith("rattle"):
        return None
    line = " ".join(words)
    kind = "edits" if "rt-edit" in line or "must-fail" in line else "tests" if "--test" in words or "_tests" in line else "proof"
    return words[words.index("--crate-name") + 1], kind


def main():
    began = time.time()
    gate = subprocess.Popen(sys.argv[1:] or ["bash", ".ci/run"], cwd=ROOT, stdout=subprocess.PIPE, stderr=subprocess.STDOUT, text=True)
    ended, taken, done = {}, {}, threading.Event()

    def sample():
        while not done.is_set():
            found = processes()
            for pid, (parent, words, seconds) in found.items():
                task = task_of(words)
                if not task or (parent in found and task_of(found[parent][1])):
                    continue
                below = sum(it[2] for it in found.values() if it[0] == pid)
                cwd = ""
                try:
                    cwd = os.readlink("/proc/%d/cwd" % pid)
                except OSError:
                    pass
                if not cwd.startswith(os.path.realpath(ROOT)):
                    task = (task[0], "edits")
                taken[pid, task] = max(seconds + below, taken.get((pid, task), 0))
            time.sleep(0.5)

    watcher = threading.Thread(target=sample)
    watcher.start()
    for line in gate.stdout:
        print("%6.1f  %s" % ((time.time() - began) / 60, line), end="", flush=True)
        match = re.match(r"(?:rt: )?(\w+)(: its tests are)? proved$", line.strip())
        if match:
            ended[match[1], "tests" if match[2] else "proof"] = (time.time() - began) / 60
    status = gate.wait()
    done.set()
    watcher.join()
    minutes = collections.Counter()
    for (_, task), seconds in taken.items():
        minutes[task] += seconds / 60
    print("\n| crate | proof | tests | edits | proved after | tests proved after |\n|---|---|---|---|---|---|")
    for crate in sorted({crate for crate, _ in minutes}):
        print("| `%s` | %s | %s | %s |" % (
            crate,
            " | ".join("%.1f" % minutes[crate, kind] for kind in KINDS),
            ended.get((crate, "proof"), 0) and "%.0f" % ended[crate, "proof"],
            ended.get((crate, "tests"), 0) and "%.0f" % ended[crate, "tests"],
        ))
    print("| all | %s | | |" % " | ".join("%.1f" % sum(v for (_, kind), v in minutes.items() if kind == it) for it in KINDS))
    print("%.1f minutes, status %d" % ((time.time() - began) / 60, status))
    sys.exit(status)


main()
