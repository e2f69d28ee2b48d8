"""Runs of programs on SWI-Prolog, to compare with."""
import os
import re
import subprocess
import tempfile

from .operators import Operators
from .terms import Struct
from .writing import written

# The text is loaded, the goal is run once, and how it ended is written on a line of its own behind what it wrote.
HARNESS = """
:- set_prolog_flag(occurs_check, true).
:- style_check(-singleton).
:- style_check(-discontiguous).
:- set_prolog_flag(toplevel_print_anon, false).
:- set_prolog_flag(verbose_load, silent).
'$tell'(Path, Goal) :-
    load_files(user:Path, [silent(true)]),
    term_to_atom(Term, Goal),
    catch(( user:Term -> End = true ; End = false ), Ball, End = exception(Ball)),
    format("~n\\x01\\"), '$end'(End).
'$end'(exception(error(E, _))) :- !, writeq(exception(error(E))).
'$end'(End) :- writeq(End).
"""
PRELUDE = ":- set_prolog_flag(double_quotes, codes).\n"


def unnamed(text):
    """A text without the names of variables, without modules, and with indicators in place of contexts."""
    text = re.sub(r"(?<![A-Za-z0-9_'])_[A-Za-z0-9]*", "_", text)
    text = text.replace("'$transaction'/2", "transaction/1").replace("'$snapshot'/1", "snapshot/1")
    text = re.sub(r"context\(system:(\S+?/[0-9]),_\)", r"(\1)", text)
    return text.replace("user:", "")


class Swipl:
    """What main writes, and how it ends, for a text and a goal."""

    def __init__(self, text, goal):
        with tempfile.TemporaryDirectory() as folder:
            program, harness = os.path.join(folder, "program.pl"), os.path.join(folder, "harness.pl")
            with open(program, "w", encoding="utf-8") as file:
                file.write(PRELUDE + text)
            with open(harness, "w", encoding="utf-8") as file:
                file.write(HARNESS)
            quoted = goal.replace("\\", "\\\\").replace("'", "\\'").replace("\n", "\\n")
            words = ["swipl", "-f", "none", "-q", "-g", f"'$tell'('{program}', '{quoted}')", "-t", "halt", harness]
            run = subprocess.run(words, capture_output=True, text=True, timeout=60, check=False)
        self.log = run.stderr
        if "\x01" in run.stdout:
            out, end = run.stdout.split("\n\x01")
        else:
            out, end = run.stdout, f"halt({run.returncode})"
        self.out, self.end = unnamed(out), unnamed(end)


def ours(run):
    """The same of a run of the reference."""
    end = run.end_text()
    held = run.end.held
    if run.end.kind == "exception" and isinstance(held, Struct) and (held.name, len(held.args)) == ("error", 2):
        end = f"exception(error({written(held.args[0], Operators.standard(), 'quoted')}))"
    return unnamed("".join(run.search.out)), unnamed(end)
