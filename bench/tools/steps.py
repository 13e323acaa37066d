"""The steps of a server: what its one thread does between two system calls, and how long the machine stood still meanwhile.

    from steps import Steps
    with Steps(server.process.pid) as steps:
        ...
    print(steps.said())

A wait that a client sees may be the server's, or the machine's: a virtual machine whose processor is taken away counts that as
time of the process that had it. `perf` tells them apart (linux-perf of Debian, as root): while a thread runs it is looked at
1,000 times a second, and where a thousandth of a second is missing without the thread having been exchanged for another, the
machine stood still.
"""

import collections
import os
import re
import signal
import subprocess
import tempfile
import time

# From how many seconds without a look on the machine stood still. A look comes each 0.001 seconds.
STILL = 0.005


class Steps:
    def __init__(self, process):
        self.process = process

    def __enter__(self):
        self.folder = tempfile.TemporaryDirectory()
        self.data = os.path.join(self.folder.name, "perf.data")
        # A look each 1,000,000 nanoseconds; of the other events each one counts.
        words = ["perf", "record", "-q", "-o", self.data, "-p", str(self.process)]
        words += ["-c", "1", "-e", "cpu-clock/period=1000000/", "-e", "context-switches/period=1/", "-e", "raw_syscalls:sys_enter"]
        self.perf = subprocess.Popen(words, stdout=subprocess.DEVNULL, stderr=subprocess.DEVNULL)
        time.sleep(0.5)
        return self

    def __exit__(self, *_):
        self.perf.send_signal(signal.SIGINT)
        self.perf.wait()
        words = ["perf", "script", "-i", self.data, "-F", "tid,time,event,ip,sym"]
        script = subprocess.run(words, stdout=subprocess.PIPE, stderr=subprocess.DEVNULL, text=True).stdout
        self.folder.cleanup()
        self.read(script)

    def read(self, script):
        """Takes the lines of `perf script`: each step as its looks, and how long the machine stood still in each gap."""
        self.steps, self.stills = [], []
        looks, before, looked = [], None, False
        for line in script.splitlines():
            found = re.match(r"\s*\d+\s+(\d+\.\d+):\s+(?:\d+\s+)?(\S+?):?\s+(.*)", line)
            if not found:
                continue
            now, event, place = float(found[1]), found[2], found[3]
            if looked and now - before > STILL and "switch" not in event:
                self.stills.append(now - before)
            looked = event.startswith("cpu-clock")
            if looked:
                looks.append(place.split(" ", 1)[-1])
            elif "sys_enter" in event:
                self.steps.append(looks)
                looks = []
            before = now

    def said(self):
        """The longest step, where it was most of the time, and how long the machine stood still."""
        if not self.steps:
            return "steps: perf told nothing"
        longest = max(self.steps, key=len)
        where = ", ".join("%s %d" % place for place in collections.Counter(longest).most_common(3))
        over = sum(len(step) > 30 for step in self.steps)
        return "steps: the longest %d ms of the processor (%s), %d above 30; the machine stood still %d times for 5 ms or more, %.0f ms at most" % (
            len(longest), where, over, len(self.stills), max(self.stills, default=0) * 1000)
