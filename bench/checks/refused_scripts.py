#!/usr/bin/env python3
"""Each allocation of whole scripts refused in turn, and then each with all later ones, by the built program: a run answers a beginning of the
script's lines, each right, and ends with status 1 and `out of memory`, or answers all. A run that is refused nothing answers all. It needs gcc
and python3, and takes some minutes.

usage: bench/checks/refused_scripts.py [PROGRAM]
"""

from script_kit import Faults, built, fail
from whole_scripts import WHOLE

WORDS = b"gate_main: out of memory\n"


def beginnings(script):
    """What a run may write: the answers of the first lines."""
    sizes, at = {0}, 0
    for answer in script.answers:
        at += len(answer) + 1
        sizes.add(at)
    return sizes


def whole(faults, script, name):
    """How many allocations a run asks for that is refused none."""
    status, answers, words, counts = faults.run(script.text())
    if status or words or script.first_fault(answers):
        fail("%s: status %d, %r: %s" % (name, status, words, script.first_fault(answers)))
    return counts[0]


def refused(faults, script, name, calls, sizes):
    """Whether the run ended for want of memory. Where all later allocations are refused too, its words may be missing."""
    status, answers, words, _ = faults.run(script.text(), alloc=calls)
    if not script.wanted().startswith(answers) or len(answers) not in sizes:
        fail("%s, allocation %s: %s" % (name, calls, script.first_fault(answers)))
    if status == 0 and words == b"" and answers == script.wanted():
        return False
    if status != 1 or words != WORDS and not (calls.endswith("-") and words == b""):
        fail("%s, allocation %s: status %d, words %r" % (name, calls, status, words))
    return True


def main():
    faults = Faults(built("gate_main"))
    for made in WHOLE:
        script, name = made(), made.__name__
        sizes = beginnings(script)
        count = whole(faults, script, name)
        for form in ("%d", "%d-"):
            ended = sum(refused(faults, script, name, form % number, sizes) for number in range(1, count + 1))
            if refused(faults, script, name, form % (count + 1), sizes) or not ended:
                fail("%s: %d runs of %d ended for want of memory" % (name, ended, count + 1))
            print("%s, %s: %d runs ended out of memory, %d answered all" % (
                name, "one allocation refused" if form == "%d" else "all from one on refused", ended, count + 1 - ended), flush=True)


main()
