"""The journal, the own updates of what is open, and the clauses that are alive in a view.

An update is ("first", clause), ("last", clause), ("erase", name), ("erase_own", number) or ("declare", indicator). A clause is named by
the place of its batch and its number there; an own one by "own" and its number among the own updates.
"""
from .terms import indicator


def names(update):
    """The procedure that an update names, if it names one."""
    if update[0] in ("first", "last"):
        return indicator(update[1].head)
    return update[1] if update[0] == "declare" else None


def living(batches, pi):
    """The clauses of a procedure that are alive after these batches, each a place and its updates, in their order; None, where it does
    not exist."""
    made, gone, exists = [], set(), False
    for place, updates in batches:
        for number, update in enumerate(updates):
            if names(update) == pi:
                exists = True
                if update[0] != "declare":
                    made.append(((place, number), update))
            elif update[0] == "erase":
                gone.add(update[1])
            elif update[0] == "erase_own":
                gone.add((place, update[1]))
    if not exists:
        return None
    alive = [(name, update) for name, update in made if name not in gone]
    front = [(name, update[1]) for name, update in reversed(alive) if update[0] == "first"]
    return front + [(name, update[1]) for name, update in alive if update[0] == "last"]


class Journal:
    """The entries of a run: each a kind and what it holds."""

    def __init__(self, first):
        self.entries = [("batch", first), ("start", None)]

    def batches(self, g):
        return [(place, held) for place, (kind, held) in enumerate(self.entries[:g]) if kind == "batch"]

    def is_alive(self, name):
        place, number = name
        kind, updates = self.entries[place]
        made = kind == "batch" and updates[number][0] in ("first", "last")
        return made and not any(
            update == ("erase", name) or (update == ("erase_own", number) and at == place) for at, batch in self.batches(None) for update in batch
        )


class Own:
    """What is open: nothing, or a base, the own updates, and a stack of kinds, each with the number of updates at its start."""

    def __init__(self):
        self.base, self.updates, self.stack = None, [], []

    def is_open(self):
        return bool(self.stack)

    def begin(self, kind, base):
        if not self.stack:
            self.base, self.updates = base, []
        self.stack.append((kind, len(self.updates)))

    def end(self, success):
        """Ends the innermost one: the updates that are to be published, if there are any."""
        kind, kept = self.stack.pop()
        if not (success and kind == "transaction"):
            del self.updates[kept:]
        if self.stack:
            return []
        updates, self.updates, self.base = self.updates, [], None
        return updates

    def add(self, updates):
        for update in updates:
            if update[0] == "erase":
                self.erase(update[1])
            else:
                self.updates.append(update)

    def erase(self, name):
        """Whether the clause of this name was not erased before."""
        update = ("erase_own", name[1]) if name[0] == "own" else ("erase", name)
        if update in self.updates:
            return False
        self.updates.append(update)
        return True
