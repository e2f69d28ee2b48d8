#!/usr/bin/env python3
"""Tests the cases with transactions: how many of them notice each of some wrong bodies of the reference.

    crates/plcases/wrong.py
"""
from interpreter import journal, search
from interpreter.errors import Raised
from interpreter.journal import Own
from interpreter.search import Goal, Search
from reference import comes_to, deep, run_of, transactions

# A wrong body may go on for ever. Cases that take more steps are left out.
STEPS = 600


class Patched:
    """Puts other functions in place of some of a class or a module, and then the old ones again."""

    def __init__(self, owner, **others):
        self.owner, self.others = owner, others
        self.old = {name: getattr(owner, name) for name in others}

    def __enter__(self):
        for name, other in self.others.items():
            setattr(self.owner, name, other)

    def __exit__(self, *_):
        for name, old in self.old.items():
            setattr(self.owner, name, old)


ask, end, erase = Search.ask, Own.end, Own.erase
throw, seen, resolve, living, transaction = Search.throw, Search.seen, Search.resolve, journal.living, Search.do_transaction


def in_two_batches(self, entry=None):
    if entry and entry[0] == "batch" and len(entry[1]) > 1:
        ask(self, ("batch", entry[1][:1]))
        entry = ("batch", entry[1][1:])
    return ask(self, entry)


def leaves_one(self, success):
    """A discard that leaves an update."""
    kind, kept = self.stack[-1]
    self.stack[-1] = (kind, min(kept + 1, len(self.updates)))
    return end(self, success)


def drops_all(self, success):
    """An inner discard that drops the outer's updates."""
    kind, _ = self.stack[-1]
    self.stack[-1] = (kind, 0)
    return end(self, success)


def snapshot_stays(self, success):
    kind, kept = self.stack[-1]
    self.stack[-1] = ("transaction", kept)
    return end(self, success)


def inner_snapshot_stays(self, success):
    return snapshot_stays(self, success) if len(self.stack) > 1 else end(self, success)


def failure_stays(self, success):
    kind, _ = self.stack[-1]
    return end(self, success or kind == "transaction")


def passed_without_end(self, ball, handlers):
    """A ball that passes a transaction keeps what it did."""
    kept = list(self.own.updates) if self.own.stack else []
    at = throw(self, ball, handlers)
    if self.own.stack and len(self.own.updates) < len(kept):
        self.own.updates[:] = kept
    return at


class Known(list):
    """Clauses of a call, with the names of all that it has come to know."""

    names = frozenset()

    def __getitem__(self, place):
        found = list.__getitem__(self, place)
        return known(found, self.names) if isinstance(place, slice) else found


def known(clauses, names):
    made = Known(clauses)
    made.names = names
    return made


def sees_too_early(self, at, goal, clauses):
    """A call that is open sees own updates that come later."""
    pi = search.indicator(goal)
    if self.own.is_open() and pi not in self.program.static:
        if isinstance(clauses, Known):
            clauses = known(list(clauses) + [one for one in seen(self, pi) or [] if one[0] not in clauses.names], clauses.names)
        clauses = known(clauses, {name for name, _ in clauses} | getattr(clauses, "names", set()))
    return resolve(self, at, goal, clauses)


def erased_seen(self, pi):
    """A call inside sees the clauses of the base that own updates erased."""
    if not self.own.is_open():
        return seen(self, pi)
    own = [("nothing", None) if update[0] == "erase" else update for update in self.own.updates]
    return living(self.journal.batches(self.own.base) + [("own", own)], pi)


def own_erased_seen(self, pi):
    if not self.own.is_open():
        return seen(self, pi)
    own = [("nothing", None) if update[0] == "erase_own" else update for update in self.own.updates]
    return living(self.journal.batches(self.own.base) + [("own", own)], pi)


def own_unseen(self, pi):
    """A call inside sees the base alone."""
    return living(self.journal.batches(self.own.base), pi) if self.own.is_open() else seen(self, pi)


def asserted_order(batches, pi):
    """Those in front in the order in which they were added."""
    found = living(batches, pi)
    if found is None:
        return None
    front = {(place, number) for place, updates in batches for number, update in enumerate(updates) if update[0] == "first"}
    fronts = [one for one in found if one[0] in front]
    return fronts[::-1] + [one for one in found if one[0] not in front]


def own_behind(batches, pi):
    """Own clauses all behind the others."""
    found = living(batches, pi)
    return found and [one for one in found if one[0][0] != "own"] + [one for one in found if one[0][0] == "own"]


def exists_by_clauses(batches, pi):
    """A procedure exists while it has clauses."""
    return living(batches, pi) or None


def inner_published(self, success):
    """An inner transaction that succeeds publishes what there is so far."""
    kind, kept = self.stack[-1]
    if success and kind == "transaction" and len(self.stack) > 1 and self.updates[kept:]:
        self.search.ask(("batch", self.updates[kept:]))
    return end(self, success)


def with_search(self, at, term, args):
    """What is open can ask."""
    self.own.search = self
    return transaction(self, at, term, args)


def end_of_empty(self, success):
    """A commit without an update is a batch too."""
    outermost = len(self.stack) == 1 and success and self.stack[-1][0] == "transaction" and not self.updates
    updates = end(self, success)
    if outermost:
        self.search.ask(("batch", []))
    return updates


def views_inside(self, at, term, args):
    """An inner beginning asks for a view too."""
    if self.own.is_open():
        self.ask()
    return transaction(self, at, term, args)


def goal_first(self, at, term, args):
    """The goal is looked at before the view is asked for."""
    goal = search.deref(args[0])
    if isinstance(goal, search.Var):
        raise Raised(search.atom("instantiation_error"))
    if search.converted(goal) is None:
        raise Raised(search.struct("type_error", search.atom("callable"), goal))
    return transaction(self, at, term, args)


def again_and_again(self, at, term, args):
    """What the goal left to do is done on backtracking."""
    choices = self.cut
    self.cut = lambda height: True
    try:
        made = transaction(self, at, term, args)
    finally:
        self.cut = choices
    succeeds = made.rest.act if isinstance(made, Goal) and isinstance(made.rest, search.Mark) else None
    if succeeds:
        def act():
            kept = list(self.choices)
            done = succeeds()
            self.choices[:] = kept
            return done
        made.rest.act = act
    return made


def transparent(self, at, term, args):
    """A cut in the goal is that of the clause."""
    made = transaction(self, at, term, args)
    if isinstance(made, Goal):
        made.cut = at.cut
    return made


def erased_twice(self, name):
    self.updates.append(("erase_own", name[1]) if name[0] == "own" else ("erase", name))
    return True


def gives_erased(self, name):
    """retract/1 gives a clause that was erased since it began."""
    erase(self, name)
    return True


def halt_publishes(self, entry=None):
    if entry and entry[0] in ("halt", "end") and self.own.updates:
        ask(self, ("batch", self.own.updates))
        self.own.updates = []
    return ask(self, entry)


def nothing_kept(self, success):
    """A transaction is a snapshot."""
    return end(self, False)


WRONG = {
    "a commit in two batches": Patched(Search, ask=in_two_batches),
    "a discard that leaves an update": Patched(Own, end=leaves_one),
    "an inner discard that drops the outer's updates": Patched(Own, end=drops_all),
    "a snapshot that publishes": Patched(Own, end=snapshot_stays),
    "an inner snapshot that stays": Patched(Own, end=inner_snapshot_stays),
    "a failure that stays": Patched(Own, end=failure_stays),
    "an exception that passes without an end": Patched(Search, throw=passed_without_end),
    "an own update that an open call sees": Patched(Search, resolve=sees_too_early),
    "an erased clause of the base that is seen": Patched(Search, seen=erased_seen),
    "an erased own clause that is seen": Patched(Search, seen=own_erased_seen),
    "own updates that are not seen": Patched(Search, seen=own_unseen),
    "clauses in front in the order of their assertion": Patched(search, living=asserted_order),
    "own clauses behind all others": Patched(search, living=own_behind),
    "a procedure that exists by its clauses": Patched(search, living=exists_by_clauses),
    "an inner view": Patched(Search, do_transaction=views_inside),
    "a goal that is looked at before its view": Patched(Search, do_transaction=goal_first),
    "a goal that is entered again": Patched(Search, do_transaction=again_and_again),
    "a cut that is not local": Patched(Search, do_transaction=transparent),
    "a second erasure that counts": Patched(Own, erase=erased_twice),
    "a clause that was erased and is given": Patched(Own, erase=gives_erased),
    "an end inside that publishes": Patched(Search, ask=halt_publishes),
    "a transaction that keeps nothing": Patched(Own, end=nothing_kept),
}
BOTH = {
    "an inner commit that is published at once": (Patched(Search, do_transaction=with_search), Patched(Own, end=inner_published)),
    "a commit of no update": (Patched(Search, do_transaction=with_search), Patched(Own, end=end_of_empty)),
}


def comes_through(case):
    """Whether a case comes to what it says."""
    try:
        return comes_to(case, run_of(case, STEPS))
    except (AssertionError, IndexError, TypeError):
        return False


def main():
    cases = [case for _, case in transactions() if comes_through(case)]
    print(f"{len(cases):>4} cases")
    unnoticed = 0
    for name, patches in [(name, (patch,)) for name, patch in WRONG.items()] + list(BOTH.items()):
        for patch in patches:
            patch.__enter__()
        count = sum(not comes_through(case) for case in cases)
        for patch in patches:
            patch.__exit__()
        unnoticed += not count
        print(f"{count:>4} notice {name}", flush=True)
    return 1 if unnoticed else 0


if __name__ == "__main__":
    deep(main)
