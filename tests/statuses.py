#!/usr/bin/env python3
"""Runs the built program once for each status that it can end with, and compares the status and the line on standard
error with README's table. Nothing is told where all agree; the first fault ends it with 1.

    tests/statuses.py [PROGRAM]     PROGRAM is the built program; ./prolog at the top without it, which builds it first

71 comes of a run that is given 128 MB of memory (`ulimit -v`), 74 of output to /dev/full.
"""
import os
import resource
import subprocess
import sys
import tempfile

HERE = os.path.dirname(os.path.realpath(__file__))
PROGRAM = os.path.join(os.path.dirname(HERE), "prolog")
MEMORY = 128 << 20
# A list that grows without end: what it holds is in use, so memory gives out long before the steps do.
GROWING = ":- initialization(main).\nmain :- grow([]).\ngrow(L) :- grow([a,b,c,d,e,f,g,h|L]).\n"
# (what is shown, the program's text or none, the words before the path, status, line on standard error, how it is run)
CASES = [
    ("main ends true", ":- initialization(true).\n", ["run"], 0, "", None),
    ("main ends false", ":- initialization(fail).\n", ["run"], 1, "", None),
    ("main ends with an exception", ":- initialization(throw(a)).\n", ["run"], 2, "", None),
    ("no steps are left", ":- initialization(main).\nmain :- main.\n", ["run", "--steps", "10"], 4, "", None),
    ("halt", ":- initialization(halt).\n", ["run"], 0, "", None),
    ("halt with a number", ":- initialization(halt(3)).\n", ["run"], 3, "", None),
    ("halt with the largest number", ":- initialization(halt(255)).\n", ["run"], 255, "", None),
    ("halt with the number of a fault", ":- initialization(halt(66)).\n", ["run"], 66, "", None),
    ("check", "a.\n", ["check"], 0, "", None),
    ("list", "a.\n", ["list"], 0, "", None),
    ("no such form", "a.\n", ["walk"], 64, "usage", None),
    ("a goal that is none", "a.\n", ["run", "--goal", "1"], 64, "usage", None),
    ("a text that is refused", "a :- .\n", ["run"], 65, "", None),
    ("a text that is not there", None, ["run"], 66, "cannot read", None),
    ("a text that is too long", " " * 16777217, ["check"], 67, "too long", None),
    ("memory gives out", GROWING, ["run"], 71, "no memory", "memory"),
    ("the output gives out", ":- initialization(true).\n", ["run"], 74, "cannot write", "full"),
]


def little():
    resource.setrlimit(resource.RLIMIT_AS, (MEMORY, MEMORY))


def run(program, words, how):
    """The status and the text on standard error."""
    with open("/dev/full" if how == "full" else os.devnull, "wb") as out:
        done = subprocess.run([program] + words, stdout=out, stderr=subprocess.PIPE, timeout=600,
                              preexec_fn=little if how == "memory" else None)
    return done.returncode, done.stderr.decode()


def main():
    program = sys.argv[1] if len(sys.argv) > 1 else PROGRAM
    if program == PROGRAM:
        # The program is built with all memory, and what is told of that is not the program's.
        if subprocess.run([PROGRAM, "run", os.devnull], stdout=subprocess.DEVNULL).returncode:
            sys.exit("statuses.py: the program was not built")
        program = os.path.join(os.path.dirname(HERE), "crates", "prolog", "out", "prolog")
    with tempfile.TemporaryDirectory() as folder:
        for shown, text, words, status, line, how in CASES:
            path = os.path.join(folder, "text.pl")
            if text is None:
                path = os.path.join(folder, "none.pl")
            else:
                with open(path, "w") as file:
                    file.write(text)
            got = run(program, words + [path], how)
            wanted = (status, line + "\n" if line else "")
            if got != wanted:
                sys.exit(f"{shown}: status and line are {got}, not {wanted}")


if __name__ == "__main__":
    main()
