#!/usr/bin/env python3
"""Writes src/pairs.rt: pairs of terms that look random, and what each comes to by SWI-Prolog's unify_with_occurs_check/2.

    crates/plheaptests/pairs.py            writes the file
    crates/plheaptests/pairs.py --check    says whether it is as it would be written
"""
import os
import random
import subprocess
import sys

HERE = os.path.dirname(os.path.realpath(__file__))
PATH = os.path.join(HERE, "src", "pairs.rt")
COUNT = 200
VARIABLES = ["X", "Y", "Z", "U"]
ATOMS = ["a", "b"]
COMPOUNDS = 7
HEAD = '''//! Pairs of terms that look random, made by pairs.py.

/// A pair on each line: two terms, as the sides of a goal, and behind a colon what the left one is once they are unified, its variables _1,
/// _2, .. by first occurrence; `no`, where they have no unifier. Told by SWI-Prolog, with the occurs check. They are one text, since a table
/// of so many takes the prover long.
pub(crate) const PAIRS: &str = "\\
'''
TELL = """
tell(L, R) :- ( unify_with_occurs_check(L, R) -> tell(L) ; write(no) ), nl.
tell(T) :- term_variables(T, Vs), names(Vs, 1, Names), write_term(T, [quoted(true), variable_names(Names)]).
names([], _, []).
names([V|Vs], N, [Name = V|Names]) :- atom_concat('_', N, Name), M is N + 1, names(Vs, M, Names).
"""


def pair(random_):
    """The last two of some terms, each of which is made of earlier ones."""
    terms = VARIABLES + ATOMS
    for _ in range(COMPOUNDS):
        terms.append(f"f({random_.choice(terms)},{random_.choice(terms)})")
    return terms[-1], terms[-2]


def told(pairs):
    goals = "".join(f":- tell({left}, {right}).\n" for left, right in pairs)
    words = ["swipl", "-q", "-f", "none", "-g", "load_files(pairs, [stream(user_input)]), halt"]
    run = subprocess.run(words, input=TELL + goals, capture_output=True, text=True, check=True)
    return run.stdout.split("\n")[:-1]


def main():
    random_ = random.Random(7)
    pairs = []
    while len(pairs) < COUNT:
        left, right = pair(random_)
        if len(left) + len(right) < 120 and (left, right) not in pairs:
            pairs.append((left, right))
    lines = [f"{left} = {right}: {answer}\n" for (left, right), answer in zip(pairs, told(pairs), strict=True)]
    text = HEAD + "".join(lines) + '";\n'
    if sys.argv[1:] == ["--check"]:
        with open(PATH, encoding="utf-8") as file:
            same = file.read() == text
        print("the same" if same else "differs")
        sys.exit(not same)
    with open(PATH, "w", encoding="utf-8") as file:
        file.write(text)


main()
