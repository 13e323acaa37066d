#!/usr/bin/env python3
"""Standard input and output that fail at each place of whole scripts, by the built program. They move one byte at a time, and input fails at a
read: then the lines that were read whole are answered, and no other. Output fails at a write: a beginning of the answers is written. Each such run ends
with status 1 and its words; interrupted reads and writes change nothing. One script is tried at each of its bytes, of the others some hundred
places and those around line ends. It needs gcc and python3, and takes some minutes.

usage: bench/checks/failing_io.py [PROGRAM]
"""

from script_kit import Faults, built, fail
from whole_scripts import WHOLE, callers

NOT_READ = b"gate_main: the script could not be read\n"
NOT_WRITTEN = b"gate_main: an answer could not be written\n"
PLACES = 100
# A call of a text longer than this one moves many bytes.
SHORT = 50_000


def places(text, every):
    """How many bytes are moved before a fault."""
    if every:
        return range(len(text) + 1)
    ends = [at for at, byte in enumerate(text) if byte == 10]
    ends = ends[::max(1, len(ends) // PLACES)]
    return sorted({0, *range(0, len(text), max(1, len(text) // PLACES)), *ends, *(at + 1 for at in ends)})


def answers_of(script, read):
    """The answers of the lines that stand whole in so many bytes."""
    return b"".join(answer + b"\n" for answer in script.answers[:script.text()[:read].count(b"\n")])


def ends(faults, script, wanted, words, **how):
    """A run with these faults writes this and ends with these words."""
    status, answers, said, _ = faults.run(script.text(), short=1, **how)
    if (status, answers, said) != (1, wanted, words):
        fail("%r: status %d, %r, %d bytes of answers in place of %d" % (how, status, said, len(answers), len(wanted)))


def goes_on(faults, script, **how):
    status, answers, said, _ = faults.run(script.text(), **how)
    if status or said or answers != script.wanted():
        fail("%r: status %d, %r: %s" % (how, status, said, script.first_fault(answers)))


def fails_once(faults, script, at):
    """A write fails, and those after it don't: still the run says so, and writes nothing but a beginning of the answers."""
    status, answers, said, _ = faults.run(script.text(), short=1, write=at + 1)
    if status != 1 or said != NOT_WRITTEN or not script.wanted().startswith(answers) or len(answers) < at:
        fail("write %d: status %d, %r, %d bytes of answers" % (at + 1, status, said, len(answers)))


def in_few_calls(faults, script):
    """Each read and write fails where calls move as many bytes as they can."""
    reads, writes = faults.run(script.text())[3][1:3]
    for number in range(1, reads + 1):
        read = min(len(script.text()), (number - 1) * 65_536)
        status, answers, said, _ = faults.run(script.text(), read=number)
        if (status, said) != (1, NOT_READ) or answers != answers_of(script, len(script.text()) if number == reads else read):
            fail("read %d: status %d, %r, %d bytes of answers" % (number, status, said, len(answers)))
    for number in range(1, writes + 1):
        status, answers, said, _ = faults.run(script.text(), write="%d-" % number)
        if (status, said) != (1, NOT_WRITTEN) or answers == script.wanted() or not script.wanted().startswith(answers):
            fail("write %d: status %d, %r, %d bytes of answers" % (number, status, said, len(answers)))
    return reads + writes


def main():
    faults = Faults(built("gate_main"))
    for made in WHOLE:
        script = made()
        runs = in_few_calls(faults, script)
        goes_on(faults, script, interrupt=1)
        goes_on(faults, script, short=1, interrupt=1)
        if len(script.text()) <= SHORT:
            read_at = places(script.text(), made is callers)
            write_at = [at for at in places(script.wanted(), made is callers) if at < len(script.wanted())]
            for at in read_at:
                ends(faults, script, answers_of(script, at), NOT_READ, read=at + 1)
            for at in write_at:
                ends(faults, script, script.wanted()[:at], NOT_WRITTEN, write="%d-" % (at + 1))
                fails_once(faults, script, at)
            runs += len(read_at) + 2 * len(write_at)
        print("%s: %d runs that a fault ended, as it is to be" % (made.__name__, runs), flush=True)


main()
