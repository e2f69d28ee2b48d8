#!/usr/bin/env python3
"""An interpreter of the language of the cases, apart from the program: what each case of data/ has to come to.

    crates/plcases/reference.py --check       compares all cases of data/transactions with it: outputs, statuses and journals
    crates/plcases/reference.py --others      the other cases that are run, and the examples, as far as it has their predicates
    crates/plcases/reference.py --swipl       compares the cases of data/transactions with SWI-Prolog; where the two differ, the
                                              comment in front of the case, or the one above, behind which a line is empty, has to say so
    crates/plcases/reference.py TEXT GOAL     runs a program's text with a goal: the report, and what the journal gets

It is written from the standard and from these rules:

- A view is the batches below a place of the journal, and behind them the own updates so far as one last batch. A clause is alive where
  one of these made it and none behind erased it. Clauses in front come first, the latest first, and then those behind, the oldest first.
  A procedure exists where some update names it.
- The outermost transaction or snapshot asks for a view when it begins, before its goal is looked at; a call inside sees that view with
  the own updates made before it, and goes on to see them.
- Its goal is run once. An inner transaction that succeeds leaves its updates to the outer one, and the outermost publishes them as one
  batch, of which there is none without an update. Failure, a ball that passes, the end of the run or of the steps, and the end of a
  snapshot drop the updates since the beginning. Backtracking inside drops none.
- retract/1 erases a clause when it comes to it, and passes over one that is not alive any more.
"""
import glob
import os
import sys
import threading

from interpreter.cases import cases, example
from interpreter.errors import Refused, Unsupported
from interpreter.run import ENDS, REFUSED, STEPS, Run
from interpreter.swipl import Swipl, ours

HERE = os.path.dirname(os.path.realpath(__file__))
DATA = os.path.join(HERE, "data")
OTHERS = "arithmetic build calls clauses control cuts database ends erased findall format library numbers order output parts programs searches sorting type_tests".split()
# A case of these that takes more steps is left out, since it would take long.
MOST = 20000


def transactions():
    """The cases with transactions and snapshots."""
    for path in sorted(glob.glob(os.path.join(DATA, "transactions", "*.cases"))):
        for case in cases(path):
            yield path, case


def run_of(case, most=STEPS):
    """The run of a case; at most so many steps where it has no limit of its own."""
    return Run(case.text, case.option("--goal"), int(case.option("--steps") or most))


def comes_to(case, run):
    """Whether a run comes to what the case says."""
    if case.journal is not None:
        return run.journal() == case.journal
    return run.output == case.output and run.status == case.status


def tell(path, case, found):
    wanted = case.journal if case.journal is not None else (case.output, case.status)
    print(f"{os.path.relpath(path, HERE)}:{case.line}: {case.words} {case.text}\n    the case has {wanted!r}\n    it comes to {found!r}")


def told(case, run):
    return run.journal() if case.journal is not None else (run.output, run.status)


def check():
    """Compares the cases with transactions: how many differ."""
    reports = journals = wrong = 0
    for path, case in transactions():
        run = run_of(case)
        journals += case.journal is not None
        reports += case.journal is None
        if not comes_to(case, run):
            tell(path, case, told(case, run))
            wrong += 1
    print(f"{reports} programs, {journals} journals: {wrong} differ")
    return wrong


def other_cases():
    """Other cases of predicates that it has, and the examples."""
    for name in OTHERS:
        path = os.path.join(DATA, name + ".cases")
        for case in cases(path):
            yield path, case
    for path in sorted(glob.glob(os.path.join(DATA, "examples", "*.pl"))):
        yield path, example(path)


def other_run(case):
    """The run of another case; None, where it has none here."""
    if case.words[:2] != ["prolog", "run"] or case.words[-1] != "P" or case.status == 64:
        return None
    limit = int(case.option("--steps") or STEPS)
    try:
        run = Run(case.text, case.option("--goal"), min(limit, MOST))
    except (Refused, Unsupported):
        return None
    return run if limit <= MOST or run.status != ENDS["budget"] else None


def others():
    same = wrong = left_out = 0
    for path, case in other_cases():
        run = other_run(case)
        if run is None:
            left_out += 1
        elif comes_to(case, run):
            same += 1
        else:
            tell(path, case, told(case, run))
            wrong += 1
    print(f"{same} the same, {wrong} differ, {left_out} left out")
    return wrong


def swipl():
    """Compares with SWI-Prolog: how many differences no comment names."""
    same = named = wrong = 0
    for path, case in transactions():
        if case.option("--steps") or case.status == REFUSED:
            continue
        run = run_of(case)
        if run.search is None:
            continue
        other = Swipl(case.text, case.option("--goal"))
        if ours(run) == (other.out, other.end):
            same += 1
        elif "SWI-Prolog" in case.comment + case.said:
            named += 1
        else:
            tell(path, case, (ours(run), (other.out, other.end, other.log)))
            wrong += 1
    print(f"{same} the same, {named} differ as their comments say, {wrong} differ")
    return wrong


def main():
    words = sys.argv[1:]
    modes = {"--check": check, "--others": others, "--swipl": swipl}
    if len(words) == 1 and words[0] in modes:
        return 1 if modes[words[0]]() else 0
    if len(words) == 2:
        try:
            run = Run(*words)
        except Refused as refused:
            print(f"the goal: {refused}")
            return 1
        print(run.output + (run.journal() if run.search else ""), end="")
        return 0
    print(__doc__)
    return 2


def deep(run):
    """Runs a main with room for deep terms."""
    ended = []
    sys.setrecursionlimit(1000000)
    threading.stack_size(512 * 1024 * 1024)
    thread = threading.Thread(target=lambda: ended.append(run()))
    thread.start()
    thread.join()
    sys.exit(ended[0] if ended else 3)


if __name__ == "__main__":
    deep(main)
