#!/usr/bin/env python3
"""How many instructions, and how much memory, the start of one more solver takes; valgrind has to be installed.

    bench/starts.py                of an empty text, of 1,000 rules with 2,000 functors, and of 100,000 facts
    bench/starts.py --check        says besides whether each is within what is allowed: 15,000 instructions and 8 KB, and
                                   20 instructions and 16 bytes more for each functor of the text
    bench/starts.py --keep FILE    leaves the program in FILE, or takes it from there where it stands

A run has one thread so far, and so one start. The script makes a copy of the tree in which a run makes some more before
it, as many as the last three digits of its limit of steps tell, in a function of their own, and leaves their memory where
it is. It builds that as bench/unproved.py does, without proofs, and runs it with 100 more and with 200 more: the difference
is that of 100 starts. callgrind counts the instructions of that function, with all that it calls; memcheck tells the bytes
that are in use at the end. (To valgrind an instruction that fills or copies a row of bytes is one for each byte, so the C
library is told to use none of these.) It takes some five minutes.
"""
import argparse
import os
import re
import shutil
import subprocess
import sys
import tempfile

import compare

sys.path.insert(0, os.path.join(os.path.dirname(compare.HERE), "door"))
import build_unproved

FEW, MANY = 100, 200
LIMIT = 1000000
# The function that makes them: what it is given is what Solver::new is given, but for where each starts, which is as main does.
TYPES = {"alloc": "Global", "shared": "&Shared", "program": "&Program", "steps": "u64"}
START = {"given": "Start { thread: ThreadId::NONE, alias: None, goal: None }"}
MORE = """
#[inline(never)]
fn more_starts({params}) -> Result<(), AllocError> {{
    for _ in 0..steps % 1000 {{
        std::mem::forget(Solver::new({args})?);
    }}
    Ok(())
}}
"""
# What each may take: instructions and bytes, and for each functor of the text besides.
MOST = (15000, 8192)
EACH = (20, 16)
TEXTS = {
    "an empty text": ("", 0),
    "1,000 rules": ("".join(f"p{i}(X) :- q{i}(X).\n" for i in range(1000)), 2000),
    "100,000 facts": ("".join(f"f({i}, a).\n" for i in range(100000)), 1),
}


def with_starts(root, folder):
    """A copy of the tree whose runs make more starts."""
    tree = os.path.join(folder, "tree")
    os.makedirs(os.path.join(tree, "crates"))
    shutil.copy(os.path.join(root, "crates.txt"), tree)
    for name in os.listdir(os.path.join(root, "crates")):
        if name != "plrun":
            os.symlink(os.path.join(root, "crates", name), os.path.join(tree, "crates", name))
    shutil.copytree(os.path.join(root, "crates", "plrun", "src"), os.path.join(tree, "crates", "plrun", "src"))
    path = os.path.join(tree, "crates", "plrun", "src", "schedule.rt")
    with open(path, encoding="utf-8") as file:
        text = file.read()
    found = re.search(r"let solver = Solver::new\(([^;]*)\)\?;", text)
    if not found:
        sys.exit("starts.py: plrun's schedule.rt makes its solver in another way")
    names = found[1].split(", ")
    handed = [name for name in names if name not in START]
    call = f"more_starts({', '.join(handed)})?;\n"
    params = ", ".join(f"{name}: {TYPES[name]}" for name in handed)
    args = ", ".join(START.get(name, name) for name in names)
    text = text[: found.start()] + call + text[found.start() :] + MORE.format(params=params, args=args)
    with open(path, "w", encoding="utf-8") as file:
        file.write(text)
    return tree


def told(tool, pattern, program, path, starts):
    """The number that a tool of valgrind tells of a run with so many more starts."""
    words = ["valgrind", *tool, program] + compare.ours(path, "true", LIMIT + starts)[1:]
    bytewise = "glibc.cpu.x86_rep_stosb_threshold=1000000000:glibc.cpu.x86_rep_movsb_threshold=1000000000"
    said = subprocess.run(words, stdin=subprocess.DEVNULL, stdout=subprocess.DEVNULL, stderr=subprocess.PIPE, env={**os.environ, "GLIBC_TUNABLES": bytewise})
    return int(re.search(pattern, said.stderr)[1].replace(b",", b""))


def one(tool, pattern, program, path):
    """The same number of one start."""
    return (told(tool, pattern, program, path, MANY) - told(tool, pattern, program, path, FEW)) / (MANY - FEW)


def instructions(program, path):
    tool = ["--tool=callgrind", "--callgrind-out-file=/dev/null", "--toggle-collect=*more_starts"]
    return one(tool, rb"Collected\s*:\s*(\d+)", program, path)


def held(program, path):
    tool = ["--tool=memcheck", "--undef-value-errors=no", "--leak-check=no"]
    return one(tool, rb"in use at exit: ([\d,]+) bytes", program, path)


def built(given, folder):
    """The program that makes more starts."""
    if given and os.path.exists(given):
        return given
    build_unproved.ROOT = with_starts(build_unproved.ROOT, folder)
    program = build_unproved.built(folder)
    return shutil.copy(program, given) if given else program


def main():
    words = argparse.ArgumentParser(description=__doc__.splitlines()[0])
    words.add_argument("--check", action="store_true")
    words.add_argument("--keep", metavar="FILE")
    given = words.parse_args()
    fits = True
    with tempfile.TemporaryDirectory() as folder:
        program = built(given.keep, folder)
        for name, (text, functors) in TEXTS.items():
            path = os.path.join(folder, "text.pl")
            with open(path, "w", encoding="utf-8") as file:
                file.write(text)
            taken = instructions(program, path), held(program, path)
            fits = fits and all(a <= m + e * functors for a, m, e in zip(taken, MOST, EACH))
            print(f"{name:<15}{taken[0]:>12,.0f} instructions{taken[1]:>12,.0f} bytes", flush=True)
    if given.check and not fits:
        sys.exit("starts.py: a start takes more than is allowed")


main()
