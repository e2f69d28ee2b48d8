"""Programs from texts."""
import functools

from .errors import Refused
from .library import TEXT
from .operators import Operators
from .reading import Reader
from .terms import Atom, Struct, Var, converted, deref, elements, indicator, is_callable, is_pair
from .tokens import Tokens

CONTROL = {(",", 2), (";", 2), ("->", 2), ("!", 0), ("true", 0), ("fail", 0), ("false", 0), ("\\+", 1), ("once", 1), ("catch", 3), ("throw", 1),
           ("findall", 3), ("transaction", 1), ("snapshot", 1), ("halt", 0), ("halt", 1), ("asserta", 1), ("assertz", 1), ("assert", 1),
           ("clause", 2), ("retract", 1), ("retractall", 1), ("dynamic", 1)} | {("call", n) for n in range(1, 9)}
BUILT_IN = {(name, arity) for arity, names in {
    0: "nl flush_output",
    1: "var nonvar atom integer number atomic compound callable is_list ground write writeq print write_canonical writeln put_char tab format",
    2: "= \\= unify_with_occurs_check == \\== @< @=< @> @>= =.. copy_term term_variables is =:= =\\= < =< > >= sort msort keysort atom_length"
       " atom_chars atom_codes char_code number_chars number_codes atom_number format set_prolog_flag current_prolog_flag",
    3: "compare functor arg atom_concat op current_op",
    5: "sub_atom"}.items() for name in names.split()}
KEPT = {("with_mutex", 2), ("thread_exit", 1), ("thread_self", 1), ("thread_detach", 1), ("thread_send_message", 2), ("message_queue_destroy", 1)}
KEPT |= {("thread_create", n) for n in (1, 2, 3)} | {(name, n) for name in ("thread_join", "thread_get_message", "thread_peek_message", "message_queue_create") for n in (1, 2)}
KEPT |= {(f"mutex_{name}", 1) for name in ("create", "destroy", "lock", "unlock", "trylock")}
FIXED = CONTROL | BUILT_IN | KEPT
DIRECTIVES = {("dynamic", 1), ("discontiguous", 1), ("multifile", 1), ("op", 3), ("set_prolog_flag", 2), ("initialization", 1),
              ("use_module", 1), ("use_module", 2), ("module", 2), ("thread_local", 1)}


class Clause:
    """A head and a converted body."""

    __slots__ = ("head", "body")

    def __init__(self, head, body):
        self.head, self.body = head, body


class Program:
    """Static procedures, the updates of the first batch, the goals, and the operators and flags at the end."""

    def __init__(self):
        self.static, self.first, self.goals = {}, [], []
        self.ops = Operators.standard()
        self.flags = {"double_quotes": "codes", "unknown": "error"}


def wrong(place):
    return Refused("bad_directive", place)


def indicators(term, place):
    """The indicators that a directive names: one, a sequence of them, or a list."""
    term = deref(term)
    if isinstance(term, Struct) and term.name == "," and len(term.args) == 2:
        return one(term.args[0], place) + indicators(term.args[1], place)
    if is_pair(term) or (isinstance(term, Atom) and term.name == "[]"):
        items, end = elements(term)
        if not (isinstance(end, Atom) and end.name == "[]"):
            raise wrong(place)
        return [found for item in items for found in one(item, place)]
    return one(term, place)


def one(term, place):
    term = deref(term)
    if isinstance(term, Struct) and term.name == "/" and len(term.args) == 2:
        name, arity = deref(term.args[0]), deref(term.args[1])
        if isinstance(name, Atom) and isinstance(arity, int) and 0 <= arity <= 1024:
            return [(name.name, arity)]
    raise wrong(place)


class Loader:
    def __init__(self, text):
        self.tokens = Tokens(text)
        self.program = Program()
        self.declared, self.clauses = [], []

    def load(self):
        while True:
            tokens = self.tokens.clause()
            if not tokens:
                return self.finish()
            term = Reader(tokens, self.program.ops, self.program.flags["double_quotes"]).clause()
            self.clause(term, tokens[0].start)

    def clause(self, term, place):
        if isinstance(term, Struct) and term.name in (":-", "?-") and len(term.args) == 1:
            self.directive(term.args[0], place, term.name)
            return
        head, body = (deref(term.args[0]), term.args[1]) if isinstance(term, Struct) and indicator(term) == (":-", 2) else (term, Atom.made["true"])
        goal = converted(body)
        if not is_callable(head) or goal is None:
            raise Refused("not_callable", place)
        if indicator(head) in FIXED | {("-->", 2)}:
            raise Refused("static_redefined", place)
        self.clauses.append(Clause(head, goal))

    def directive(self, term, place, mark):
        term = deref(term)
        if isinstance(term, Var) or not is_callable(term):
            raise wrong(place)
        name, args = term.name, term.args if isinstance(term, Struct) else ()
        if mark == ":-" and not args and any(name == known for known, _ in DIRECTIVES):
            raise wrong(place)
        if mark == ":-" and (name, len(args)) in DIRECTIVES:
            self.known(name, args, place)
        else:
            self.goal(term, place)

    def goal(self, term, place):
        if converted(term) is None:
            raise wrong(place)
        self.program.goals.append(term)

    def known(self, name, args, place):
        if name == "dynamic":
            for pi in indicators(args[0], place):
                if pi in FIXED:
                    raise wrong(place)
                if pi not in self.declared:
                    self.declared.append(pi)
        elif name in ("discontiguous", "multifile"):
            indicators(args[0], place)
        elif name == "initialization":
            term = deref(args[0])
            if isinstance(term, (Var, int)):
                raise wrong(place)
            self.goal(term, place)
        elif name == "op":
            priority, kind, names = (deref(arg) for arg in args)
            for found in [names] if isinstance(names, Atom) else [deref(item) for item in elements(names)[0]]:
                self.program.ops.add(priority, kind.name, found.name)
        elif name == "set_prolog_flag":
            flag, value = deref(args[0]).name, deref(args[1]).name
            if flag not in self.program.flags:
                raise wrong(place)
            self.program.flags[flag] = value
        elif name in ("module", "thread_local"):
            raise wrong(place)

    def finish(self):
        program = self.program
        program.first = [("declare", pi) for pi in self.declared]
        for clause in self.clauses:
            pi = indicator(clause.head)
            if pi in self.declared:
                program.first.append(("last", clause))
            else:
                program.static.setdefault(pi, []).append(clause)
        return program


@functools.cache
def library():
    """The procedures of the library."""
    return Loader(TEXT).load().static


def load(text):
    """The program of a text, with the library."""
    loader = Loader(text)
    program = loader.load()
    own = set(program.static) | set(loader.declared)
    for pi, clauses in library().items():
        if pi not in own:
            program.static[pi] = clauses
    return program


def goal_of(text):
    """A goal, by its text under the standard operators."""
    tokens = Tokens(text + " .")
    return Reader(tokens.clause(), Operators.standard()).clause()
