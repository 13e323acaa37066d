"""One run of a program, measured by a small process that starts it and waits for it.

    from measured import measured
    done = measured([woz, "put", "FILE"], folder)        # done.text, done.seconds, done.processor, done.memory

Linux counts as memory of a program what the process that started it had at its highest. So a script that holds bodies would find
its own memory; the process in between has some 10 MiB, and less than that isn't told apart.
"""

import collections
import json
import os
import subprocess
import sys

from server import fail

# Seconds, the status of the end, seconds of a processor, and the most memory in bytes.
RUNNER = """
import json, os, sys, time
out = int(sys.argv[1])
os.set_inheritable(out, False)
began = time.monotonic()
child = os.posix_spawn(sys.argv[2], sys.argv[2:], os.environ)
_, status, used = os.wait4(child, 0)
seconds = time.monotonic() - began
told = [seconds, os.waitstatus_to_exitcode(status), used.ru_utime + used.ru_stime, used.ru_maxrss * 1024]
os.write(out, json.dumps(told).encode())
"""

Run = collections.namedtuple("Run", "text seconds status processor memory")


def measured(words, folder=None, keep=True, wanted=0):
    """Runs a program whose path is whole; its standard output is kept, or thrown away. Another status than the one that is wanted
    ends the script; None is any."""
    here, there = os.pipe()
    stdout = subprocess.PIPE if keep else subprocess.DEVNULL
    runner = subprocess.Popen([sys.executable, "-I", "-S", "-c", RUNNER, str(there), *words], stdout=stdout, cwd=folder, pass_fds=[there])
    os.close(there)
    text = runner.communicate()[0]
    with os.fdopen(here) as told:
        said = told.read()
    if not said:
        fail("%s was not run" % words[0])
    seconds, status, processor, memory = json.loads(said)
    if wanted is not None and status != wanted:
        fail("%s ends with %d and not %d" % (" ".join(words[1:6]), status, wanted))
    return Run(text, seconds, status, processor, memory)
