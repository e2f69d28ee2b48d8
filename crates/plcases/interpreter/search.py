"""The search of main: goals, choice points, handlers, and what a run asks and is answered.

A continuation is a chain of goals and marks. Each goal has the handlers that are active while it runs: catchers, and the transactions and
snapshots that are open there. So a goal behind a catch/3 that was left has the handlers that catch/3 itself had.
"""
from . import errors
from .builtins import BUILTINS
from .errors import Raised, Unsupported
from .journal import Journal, Own, living
from .loading import BUILT_IN, CONTROL, FIXED, Clause
from .terms import NIL, Atom, Struct, Var, atom, converted, copy, deref, elements, indicator, is_callable, struct, undo, unify


class Goal:
    __slots__ = ("term", "cut", "handlers", "rest")

    def __init__(self, term, cut, handlers, rest):
        self.term, self.cut, self.handlers, self.rest = term, cut, handlers, rest


class Mark:
    """What is done between two goals, without a step."""

    __slots__ = ("act", "rest")

    def __init__(self, act, rest):
        self.act, self.rest = act, rest


class Choice:
    """A choice point: what is done on backtracking, which answers what goes on, or None where that fails."""

    __slots__ = ("trail", "again")

    def __init__(self, trail, again):
        self.trail, self.again = trail, again


class Handler:
    """A catcher, or something open, with the choice points and the trail as they were, and the handlers outside of it."""

    __slots__ = ("choices", "trail", "catch", "outer")

    def __init__(self, choices, trail, catch, outer):
        self.choices, self.trail, self.catch, self.outer = choices, trail, catch, outer


class Ends(Exception):
    """The thread ends."""

    def __init__(self, kind, held=None):
        super().__init__(kind)
        self.kind, self.held = kind, held


class Search:
    def __init__(self, program, steps):
        self.program = program
        self.ops, self.flags = program.ops.copy(), dict(program.flags)
        self.journal, self.own = Journal(program.first), Own()
        self.limit, self.steps, self.places = steps, 0, []
        self.trail, self.choices, self.out = [], [], []

    # The run

    def run(self):
        """Runs main's goals: how it ended, and the ball or the number."""
        goals = None
        for goal in reversed(self.program.goals):
            goals = Goal(struct("once", copy(goal)), 0, None, goals)
        try:
            self.go(goals)
            ended = Ends("true")
        except Ends as end:
            ended = end
        if ended.kind != "halt":
            self.ask(("end", ended))
        return ended

    def ask(self, entry=None):
        """A view or a request: its place is noted, and an act is an entry of the journal."""
        self.places.append(len(self.journal.entries))
        if entry:
            self.journal.entries.append(entry)
        return self.places[-1]

    def go(self, at):
        while at is not None:
            try:
                at = self.next(at)
            except Raised as raised:
                handlers = at.handlers if isinstance(at, Goal) else at.act.handlers
                at = self.throw(raised.ball if raised.whole else errors.error(raised.ball, indicator(deref(at.term))), handlers)
            while at is False:
                at = self.backtrack()

    def next(self, at):
        if isinstance(at, Mark):
            return at.rest if at.act() else False
        if self.steps == self.limit:
            raise Ends("budget")
        self.steps += 1
        open_here, handler = 0, at.handlers
        while handler:
            open_here += handler.catch is None
            handler = handler.outer
        assert open_here == len(self.own.stack), "what is open is what the handlers say"
        return self.select(at, deref(at.term))

    def backtrack(self):
        if not self.choices:
            raise Ends("false")
        choice = self.choices.pop()
        undo(self.trail, choice.trail)
        return choice.again()

    def choose(self, again):
        self.choices.append(Choice(len(self.trail), again))

    def cut(self, height):
        del self.choices[height:]
        return True

    # Balls

    def throw(self, ball, handlers):
        ball = copy(ball)
        while handlers:
            undo(self.trail, handlers.trail)
            self.cut(handlers.choices)
            if handlers.catch is None:
                self.own.end(False)
            else:
                goal, catcher, recovery = handlers.catch
                if unify(catcher, copy(ball), self.trail):
                    return self.called(recovery, ("catch", 3), handlers.outer, goal.rest)
                undo(self.trail, handlers.trail)
            handlers = handlers.outer
        raise Ends("exception", ball)

    # Goals

    def called(self, term, pi, handlers, rest):
        """A term as a goal, opaque to cuts; what it raises as none is raised under these handlers."""
        term = deref(term)
        ball = None
        if isinstance(term, Var):
            ball = errors.instantiation().ball
        goal = None if ball else converted(term)
        if goal is None:
            return self.throw(errors.error(ball or errors.type_error("callable", term).ball, pi), handlers)
        return Goal(goal, len(self.choices), handlers, rest)

    def select(self, at, term):
        pi = indicator(term)
        if pi in CONTROL:
            return getattr(self, "do_" + NAMES[pi[0]])(at, term, getattr(term, "args", ()))
        if pi in BUILTINS:
            return at.rest if BUILTINS[pi](self, *term.args if isinstance(term, Struct) else ()) else False
        if pi in BUILT_IN:
            raise Unsupported(pi)
        if pi in self.program.static:
            clauses = [(None, clause) for clause in self.program.static[pi]]
        else:
            clauses = self.seen(pi)
            if clauses is None:
                if self.flags["unknown"] == "fail":
                    return False
                raise Raised(errors.error(struct("existence_error", atom("procedure"), errors.named(pi)), pi), whole=True)
        return self.resolve(at, term, clauses)

    def seen(self, pi):
        """The clauses of a dynamic procedure: those of the view on which what is open began, and of the own updates so far; where nothing
        is open those of a view that is asked for."""
        if self.own.is_open():
            return living(self.journal.batches(self.own.base) + [("own", self.own.updates)], pi)
        return living(self.journal.batches(self.ask()), pi)

    def resolve(self, at, goal, clauses):
        for place, (_, clause) in enumerate(clauses):
            head, body = copy(Struct(":-", (clause.head, clause.body))).args
            mark = len(self.trail)
            if unify(goal, head, self.trail):
                later = clauses[place + 1 :]
                height = len(self.choices)
                if later:
                    self.choices.append(Choice(mark, lambda: self.resolve(at, goal, later)))
                if isinstance(body, Atom) and body.name == "true":
                    return at.rest
                return Goal(body, height, at.handlers, at.rest)
            undo(self.trail, mark)
        return False

    def do_true(self, at, _term, _args):
        return at.rest

    def do_fail(self, _at, _term, _args):
        return False

    def do_and(self, at, _term, args):
        return Goal(args[0], at.cut, at.handlers, Goal(args[1], at.cut, at.handlers, at.rest))

    def do_or(self, at, _term, args):
        left = deref(args[0])
        if isinstance(left, Struct) and indicator(left) == ("->", 2):
            return self.if_then_else(at, *left.args, args[1])
        self.choose(lambda: Goal(args[1], at.cut, at.handlers, at.rest))
        return Goal(left, at.cut, at.handlers, at.rest)

    def do_if(self, at, _term, args):
        return self.if_then_else(at, *args, atom("fail"))

    def if_then_else(self, at, condition, then, otherwise):
        height = len(self.choices)
        self.choose(lambda: Goal(otherwise, at.cut, at.handlers, at.rest))
        then = Mark(lambda: self.cut(height), Goal(then, at.cut, at.handlers, at.rest))
        return Goal(condition, height + 1, at.handlers, then)

    def do_cut(self, at, _term, _args):
        self.cut(at.cut)
        return at.rest

    def do_once(self, at, _term, args):
        height = len(self.choices)
        return self.called(args[0], ("once", 1), at.handlers, Mark(lambda: self.cut(height), at.rest))

    def do_not(self, at, _term, args):
        height = len(self.choices)
        self.choose(lambda: at.rest)
        return self.called(args[0], ("\\+", 1), at.handlers, Mark(lambda: not self.cut(height), None))

    def do_call(self, at, _term, args):
        goal, more, pi = deref(args[0]), args[1:], ("call", len(args))
        if more and isinstance(goal, (Atom, Struct)):
            own = goal.args if isinstance(goal, Struct) else ()
            if len(own) + len(more) > 1024:
                raise errors.representation_error("max_arity")
            goal = Struct(goal.name, own + more)
        return self.called(goal, pi, at.handlers, at.rest)

    def do_throw(self, at, _term, args):
        ball = deref(args[0])
        if isinstance(ball, Var):
            raise errors.instantiation()
        return self.throw(ball, at.handlers)

    def do_catch(self, at, _term, args):
        handler = Handler(len(self.choices), len(self.trail), (at, args[1], args[2]), at.handlers)
        return self.called(args[0], ("catch", 3), handler, at.rest)

    def do_findall(self, at, _term, args):
        template, goal, wanted = args
        end = elements(wanted)[1]
        if not isinstance(end, Var) and end is not NIL:
            raise errors.type_error("list", wanted)
        found = []

        def collected():
            whole = NIL
            for term in reversed(found):
                whole = struct(".", copy(term), whole)
            return at.rest if unify(wanted, whole, self.trail) else False

        def collect():
            found.append(copy(template))
            return False

        self.choose(collected)
        return self.called(goal, ("findall", 3), at.handlers, Mark(collect, None))

    def do_halt(self, _at, _term, args):
        number = deref(args[0]) if args else 0
        if isinstance(number, Var):
            raise errors.instantiation()
        if not isinstance(number, int):
            raise errors.type_error("integer", number)
        self.ask(("halt", number % 256))
        raise Ends("halt", number % 256)

    # Transactions and snapshots

    def do_transaction(self, at, term, args):
        """The outermost one asks for a view; then its goal is run, once. It ends with success behind the goal, and without where the goal
        fails or a ball passes."""
        self.own.begin(term.name, None if self.own.is_open() else self.ask())
        height = len(self.choices)
        handler = Handler(height, len(self.trail), None, at.handlers)

        def fails():
            self.own.end(False)
            return False

        def succeeds():
            self.cut(height)
            updates = self.own.end(True)
            if updates:
                self.ask(("batch", updates))
            return True

        self.choose(fails)
        return self.called(args[0], indicator(term), handler, Mark(succeeds, at.rest))

    # Clauses

    def make(self, updates):
        """Updates are made: by what is open, or else as one batch, of which there is none without an update."""
        if self.own.is_open():
            self.own.add(updates)
        elif updates:
            self.ask(("batch", updates))

    def check_changeable(self, pi):
        if pi in FIXED or pi in self.program.static:
            raise errors.permission_error("modify", "static_procedure", errors.named(pi))

    def do_add(self, at, term, args):
        clause = deref(args[0])
        head, body = clause.args if isinstance(clause, Struct) and indicator(clause) == (":-", 2) else (clause, atom("true"))
        head = deref(head)
        check_head(head)
        goal = converted(body)
        if goal is None:
            raise errors.type_error("callable", body)
        self.check_changeable(indicator(head))
        kept = copy(Struct(":-", (head, goal)))
        self.make([("first" if term.name == "asserta" else "last", Clause(*kept.args))])
        return at.rest

    def do_clause(self, at, _term, args):
        head, body = deref(args[0]), deref(args[1])
        check_head(head)
        if isinstance(body, int):
            raise errors.type_error("callable", body)
        pi = indicator(head)
        if pi in FIXED:
            raise errors.permission_error("access", "private_procedure", errors.named(pi))
        if pi in self.program.static:
            clauses = [(None, clause) for clause in self.program.static[pi]]
        else:
            clauses = self.seen(pi) or []
        return self.told(at, Struct(":-", (head, body)), clauses, None)

    def told(self, at, wanted, clauses, erase):
        """Clauses that unify with a head and a body, each of which may be erased before the list goes on."""
        for place, (name, clause) in enumerate(clauses):
            mark = len(self.trail)
            if unify(wanted, copy(Struct(":-", (clause.head, clause.body))), self.trail):
                later = clauses[place + 1 :]
                if later:
                    self.choices.append(Choice(mark, lambda: self.told(at, wanted, later, erase)))
                return Mark(lambda: erase(name), at.rest) if erase else at.rest
            undo(self.trail, mark)
        return False

    def do_retract(self, at, _term, args):
        clause = deref(args[0])
        head, body = clause.args if isinstance(clause, Struct) and indicator(clause) == (":-", 2) else (clause, atom("true"))
        head = deref(head)
        check_head(head)
        self.check_changeable(indicator(head))
        return self.told(at, Struct(":-", (head, body)), self.seen(indicator(head)) or [], self.erase)

    def erase(self, name):
        """Erases a clause; one that is not alive any more fails."""
        if self.own.is_open():
            return self.own.erase(name)
        alive = self.journal.is_alive(name)
        self.ask(("batch", [("erase", name)]) if alive else None)
        return alive

    def do_retractall(self, at, _term, args):
        head = deref(args[0])
        check_head(head)
        pi = indicator(head)
        self.check_changeable(pi)
        clauses = self.seen(pi)
        if clauses is None:
            self.make([("declare", pi)])
            return at.rest
        updates = []
        for name, clause in clauses:
            mark = len(self.trail)
            if unify(head, copy(clause.head), self.trail):
                updates.append(("erase", name))
            undo(self.trail, mark)
        self.make(updates)
        return at.rest

    def do_dynamic(self, at, _term, args):
        named = []
        self.sequence(deref(args[0]), named)
        if any(isinstance(term, Var) or (is_slash(term) and any(isinstance(deref(arg), Var) for arg in term.args)) for term in named):
            raise errors.instantiation()
        for term in named:
            if not is_slash(term) or not isinstance(deref(term.args[0]), Atom) or not isinstance(deref(term.args[1]), int) or not 0 <= deref(term.args[1]) <= 1024:
                raise errors.type_error("predicate_indicator", term)
        found = [(deref(term.args[0]).name, deref(term.args[1])) for term in named]
        for pi in found:
            self.check_changeable(pi)
        self.make([("declare", pi) for pi in found])
        return at.rest

    def sequence(self, term, named):
        term = deref(term)
        if isinstance(term, Struct) and indicator(term) == (",", 2):
            self.sequence(term.args[0], named)
            self.sequence(term.args[1], named)
        elif isinstance(term, Struct) and indicator(term) == (".", 2):
            items, end = elements(term)
            named.extend(deref(item) for item in items)
            if end is not NIL:
                named.append(end)
        elif term is not NIL:
            named.append(term)


def is_slash(term):
    return isinstance(term, Struct) and indicator(term) == ("/", 2)


def check_head(head):
    if isinstance(head, Var):
        raise errors.instantiation()
    if not is_callable(head):
        raise errors.type_error("callable", head)


NAMES = {",": "and", ";": "or", "->": "if", "!": "cut", "\\+": "not", "false": "fail", "snapshot": "transaction", "asserta": "add", "assertz": "add", "assert": "add"}
NAMES |= {name: name for name, _ in CONTROL if name not in NAMES}
