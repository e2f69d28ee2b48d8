#!/usr/bin/env python3
"""Tests the reference: programs that look random are run by it and by SWI-Prolog, and their outputs and last clauses are compared.

    crates/plcases/programs.py [--count N] [--seed S] [--show]

What is made means the same on both. So all procedures are declared, since SWI-Prolog keeps those that a dropped transaction made; and
retract/1 is run once, or in a loop whose body erases nothing, since SWI-Prolog gives a clause that was erased while retract/1 is open.
A program that takes more than LIMIT steps counts for none.
"""
import argparse
import collections
import random
import subprocess
import tempfile

from interpreter.run import ENDS, Run
from interpreter.swipl import unnamed
from reference import deep

LIMIT = 3000
BATCH = 500
DECLARED = ":- dynamic p/1. :- dynamic q/1. :- dynamic k/2.\n"
HARNESS = """
:- set_prolog_flag(occurs_check, true).
:- initialization(main, main).
main([Path]) :- open(Path, read, Stream), programs(Stream), close(Stream).
programs(Stream) :-
    read_term(Stream, Program, []),
    ( Program == end_of_file -> true ; run(Program), programs(Stream) ).
run(program(Number, Facts, Goal)) :-
    atom_concat(m, Number, Module),
    dynamic(Module:p/1), dynamic(Module:q/1), dynamic(Module:k/2),
    forall(member(Fact, Facts), assertz(Module:Fact)),
    format("\\x01\\"),
    ( call(Module:Goal) -> true ; write(fails) ).
"""


class Maker:
    """Makes goals. Variables have numbers; `bound` are those that stand for a constant."""

    def __init__(self, random_):
        self.random, self.variables, self.forms = random_, 0, collections.Counter()

    def variable(self):
        self.variables += 1
        return f"V{self.variables}"

    def constant(self, bound):
        if bound and self.random.random() < 0.5:
            return self.random.choice(bound)
        return str(self.random.randrange(4))

    def head(self, bound, open_=False):
        """A goal of one of the procedures, with a variable where it is to be open: the goal, and the variable."""
        name = self.random.choice("ppqk")
        x = self.variable() if open_ else self.constant(bound)
        if name == "k":
            return f"k({self.random.choice('abc')}, {x})" if self.random.random() < 0.7 else f"k({x}, {self.constant(bound)})", x
        return f"{name}({x})", x

    def some(self, names):
        return self.random.choice(names.split())

    def update(self, bound):
        form = self.some("add add add rule drop drop all")
        self.forms[form] += 1
        if form == "add":
            return f"{self.some('asserta assertz assertz')}({self.head(bound)[0]})"
        if form == "rule":
            x = self.variable()
            body = self.some("q(X) q(X),X>1 k(a,X) k(_,X),X<3 k(b,X),!").replace("X", x)
            return f"{self.some('asserta assertz')}((p({x}) :- {body.replace(',', ', ')}))"
        if form == "drop":
            goal = self.head(bound, self.random.random() < 0.5)[0]
            return self.random.choice([f"once(retract({goal}))", f"( retract({goal}) -> true ; true )"])
        return f"retractall({self.head(bound, self.random.random() < 0.5)[0]})"

    def told(self, bound):
        form = self.random.randrange(5)
        goal, x = self.head(bound, True)
        if form == 0:
            return f"findall({x}, {goal}, L{x}), write(L{x})", []
        if form == 1:
            return f"\\+ {self.head(bound)[0]}", []
        if form == 2:
            return f"clause({goal}, true), write({x})", [x]
        if form == 3:
            return f"once(( {goal}, write({x}) ))", [x]
        return f"{goal}, write({x})", [x]

    def goal(self, depth, bound):
        """A goal, and the variables that are bound behind it."""
        if depth == 0:
            return (self.update(bound), []) if self.random.random() < 0.55 else self.told(bound)
        form = self.some("both both both both loop loop retracting within within within either if not once call catch cut findall throw fail")
        self.forms[form] += 1
        return getattr(self, "make_" + form)(depth - 1, bound)

    def make_both(self, depth, bound):
        left, more = self.goal(depth, bound)
        if self.random.random() < 0.6:
            left, more = self.random.choice(["( {} -> true ; true )", "( {} -> true ; true )", "( {} ; true )"]).format(left), []
        right, further = self.goal(depth, bound + more)
        return f"{left}, {right}", more + further

    def make_loop(self, depth, bound):
        goal, x = self.head(bound, True)
        if self.random.random() < 0.2:
            goal = f"clause({goal}, true)"
        body, _ = self.goal(depth, bound + [x])
        return f"( {goal}, write({x}), {body}, fail ; true )", []

    def make_retracting(self, depth, bound):
        goal, x = self.head(bound, True)
        body, _ = self.goal(depth, bound + [x])
        if "retract" in body:
            return f"( retract({goal}) -> {body} ; true )", []
        return f"( retract({goal}), write({x}), {body}, fail ; true )", []

    def make_within(self, depth, bound):
        kind = self.some("transaction snapshot")
        goal, more = self.goal(depth, bound)
        if self.random.random() < 0.4:
            return f"( {kind}(( {goal} )) ; true )", []
        return f"{kind}(( {goal} ))", more

    def make_either(self, depth, bound):
        return f"( {self.goal(depth, bound)[0]} ; {self.goal(depth, bound)[0]} )", []

    def make_if(self, depth, bound):
        condition, more = self.goal(depth, bound)
        return f"( {condition} -> {self.goal(depth, bound + more)[0]} ; {self.goal(depth, bound)[0]} )", []

    def make_not(self, depth, bound):
        return f"\\+ ( {self.goal(depth, bound)[0]} )", []

    def make_once(self, depth, bound):
        goal, more = self.goal(depth, bound)
        return f"once(( {goal} ))", more

    def make_call(self, depth, bound):
        goal, more = self.goal(depth, bound)
        return f"call(( {goal} ))", more

    def make_catch(self, depth, bound):
        return f"catch(( {self.goal(depth, bound)[0]} ), {self.some('b1 b2 _')}, ( {self.goal(depth, bound)[0]} ))", []

    def make_cut(self, depth, bound):
        left, more = self.goal(depth, bound)
        return f"call(( {left}, !, {self.goal(depth, bound + more)[0]} ))", []

    def make_findall(self, depth, bound):
        goal, more = self.goal(depth, bound)
        found = self.variable()
        return f"findall({more[-1] if more else 'x'}, ( {goal} ), {found}), write({found})", []

    def make_throw(self, depth, bound):
        goal, more = self.goal(depth, bound)
        return self.random.choice([f"{goal}, throw(b1)", f"{goal}, throw(b2)", f"( {goal} -> true ; throw(b1) )"]), more

    def make_fail(self, depth, bound):
        return f"{self.goal(depth, bound)[0]}, fail", []


class Program:
    def __init__(self, number, random_):
        self.number, maker = number, Maker(random_)
        self.facts = [maker.head([])[0] for _ in range(random_.randrange(3, 9))]
        self.body = f"transaction(( {maker.goal(5, [])[0]} ))" if random_.random() < 0.5 else maker.goal(6, [])[0]
        self.goal = (
            f"catch(( ( {self.body} ) -> E = true ; E = false ), B, E = thrown(B)), write(E), "
            "findall(X-C, clause(p(X), C), P), write(P), findall(Y, q(Y), Q), write(Q), findall(Z/U, k(Z, U), K), write(K)"
        )
        self.forms = maker.forms

    def reference(self):
        """What it writes by the reference; None, where it takes too many steps."""
        run = Run(DECLARED + "".join(f"{fact}.\n" for fact in self.facts), self.goal, LIMIT)
        return None if run.status == ENDS["budget"] else unnamed("".join(run.search.out))

    def text(self):
        return f"program({self.number}, [{', '.join(self.facts)}], ( {self.goal} )).\n"


def swipl(programs):
    """What SWI-Prolog writes for each of some programs."""
    with tempfile.NamedTemporaryFile("w", suffix=".pl") as harness, tempfile.NamedTemporaryFile("w", suffix=".txt") as file:
        harness.write(HARNESS)
        harness.flush()
        file.write("".join(program.text() for program in programs))
        file.flush()
        run = subprocess.run(["swipl", "-f", "none", harness.name, file.name], capture_output=True, text=True, timeout=600, check=False)
    found = [unnamed(part) for part in run.stdout.split("\x01")[1:]]
    if len(found) != len(programs):
        raise ValueError(f"SWI-Prolog ran {len(found)} of {len(programs)} programs: {run.stderr[:2000]}")
    return found


def nesting(text):
    """How deep transactions and snapshots stand in each other."""
    depth, most, open_ = 0, 0, []
    for place, character in enumerate(text):
        if character == "(":
            opens = text[:place].endswith(("transaction", "snapshot"))
            open_.append(opens)
            depth += opens
            most = max(most, depth)
        elif character == ")":
            depth -= open_.pop()
    return most


def compare(programs, wanted, totals):
    wrong = 0
    for program, mine, other in zip(programs, wanted, swipl(programs), strict=True):
        totals["compared"] += 1
        totals[f"nested {min(3, nesting(program.body))} deep"] += 1
        if mine != other:
            wrong += 1
            print(f"differs: {program.facts}\n    {program.body}\n    reference  {mine}\n    SWI-Prolog {other}")
    return wrong


def main():
    words = argparse.ArgumentParser(description=__doc__, formatter_class=argparse.RawDescriptionHelpFormatter)
    words.add_argument("--count", type=int, default=20000)
    words.add_argument("--seed", type=int, default=1)
    words.add_argument("--show", action="store_true")
    given = words.parse_args()
    random_, totals = random.Random(given.seed), collections.Counter()
    number, wrong, programs, wanted = 0, 0, [], []
    while totals["compared"] + len(programs) < given.count:
        number += 1
        program = Program(number, random_)
        found = program.reference()
        if found is None:
            totals["too long"] += 1
            continue
        if given.show:
            print(program.facts, program.body, found, sep="\n    ")
        programs.append(program)
        wanted.append(found)
        if len(programs) == BATCH or totals["compared"] + len(programs) == given.count:
            wrong += compare(programs, wanted, totals)
            programs, wanted = [], []
    print(", ".join(f"{name}: {count}" for name, count in sorted(totals.items())))
    print(f"{wrong} differ")
    return 1 if wrong else 0


deep(main)
