"""Runs of programs: their report and status, and the journal's text."""
from .errors import Refused, named
from .loading import goal_of, load
from .operators import Operators
from .search import Search
from .terms import Struct, atom, copy, listed, struct
from .writing import written

STEPS = 1073741824
# The numbers that a process ends with.
ENDS = {"true": 0, "false": 1, "exception": 2, "budget": 4}
REFUSED = 65


class Run:
    """What words `run [--steps S] [--goal TEXT] P` make of a text: the output, the number that the process ends with, and the search, if it was run."""

    def __init__(self, text, goal=None, steps=STEPS):
        self.search = None
        try:
            program = load(text)
        except Refused as refused:
            before = text[: refused.place].encode()
            line, column = before.count(b"\n") + 1, len(before) - before.rfind(b"\n")
            self.output = f"refused: line {line} column {column}: {refused.kind}\n"
            self.status = REFUSED
            return
        if goal is not None:
            program.goals.append(goal_of(goal))
        self.search = Search(program, steps)
        self.end = self.search.run()
        written_ = "".join(self.search.out)
        self.output = f"% thread 1 main: {self.end_text()}\n" + written_ + ("\n" if written_ and not written_.endswith("\n") else "")
        self.status = self.end.held if self.end.kind == "halt" else ENDS[self.end.kind]

    def end_text(self):
        if self.end.kind == "exception":
            return f"exception({written(self.end.held, Operators.standard(), 'quoted')})"
        return f"halt({self.end.held})" if self.end.kind == "halt" else self.end.kind

    def journal(self):
        """What the run added to the journal: an act a line, from main's start on; and then the places of what it asked, and its steps."""
        lines = [canonical(act(kind, held)) for kind, held in self.search.journal.entries[2:]]
        places = ",".join(map(str, self.search.places))
        return "".join(line + "\n" for line in lines) + f"places [{places}] steps {self.search.steps}\n"


def canonical(term):
    return written(term, Operators.standard(), "canonical")


def act(kind, held):
    if kind == "batch":
        return struct("batch", listed([update(one) for one in held]))
    if kind == "halt":
        return struct("halt", held)
    end = struct("exception", held.held) if held.kind == "exception" else atom(held.kind)
    return struct("end", end)


def update(one):
    kind, held = one
    if kind in ("first", "last"):
        return struct(kind, copy(Struct(":-", (held.head, held.body))))
    if kind == "declare":
        return struct("declare", named(held))
    return struct("erase", *held) if kind == "erase" else struct("erase", held)
