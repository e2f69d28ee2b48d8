#!/usr/bin/env python3
"""How many instructions a step takes, by valgrind's callgrind, which has to be installed.

    bench/instructions.py [NAME ..]      the programs bench/NAME.pl, those of bench/compare.py where none is named

Each program makes its rounds until --steps ends it, once after 20,000 steps and once after 120,000; the difference is
that of 100,000 steps, without the start, the loading and what is made before. Other work on the machine changes nothing
in it, so a change of some per cent shows, which times do not tell.
"""
import os
import re
import subprocess
import sys
import tempfile

import compare

FEW, MANY = 20000, 120000
# More than any program makes in so many steps.
ROUNDS = 1000000
# The program that ./prolog builds and runs.
BUILT = os.path.join(os.path.dirname(compare.PROLOG), "crates", "prolog", "out", "prolog")


def instructions(path, steps):
    """The instructions of a run that is ended after so many steps."""
    words = ["valgrind", "--tool=callgrind", "--callgrind-out-file=/dev/null", BUILT] + compare.ours(path, "rounds", steps)[1:]
    said = subprocess.run(words, stdin=subprocess.DEVNULL, stdout=subprocess.DEVNULL, stderr=subprocess.PIPE)
    found = re.search(rb"Collected\s*:\s*(\d+)", said.stderr)
    if not found:
        sys.exit("instructions.py: valgrind tells no count: is it installed, and is ./prolog built?")
    return int(found[1])


def main():
    with tempfile.TemporaryDirectory() as folder:
        for name in sys.argv[1:] or compare.NAMES:
            path = compare.Bench(name, folder).file(ROUNDS)
            taken = instructions(path, MANY) - instructions(path, FEW)
            print(f"{name:<10}{taken / (MANY - FEW):>8.0f}", flush=True)


main()
