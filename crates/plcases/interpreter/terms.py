"""Terms: integers are Python's; atoms, variables and compounds are these classes. Unification makes the occurs check."""


class Atom:
    """An atom; there is one of each name."""

    __slots__ = ("name",)
    made = {}

    def __init__(self, name):
        self.name = name


def atom(name):
    found = Atom.made.get(name)
    if found is None:
        found = Atom.made[name] = Atom(name)
    return found


class Var:
    """A variable, with what it is bound to, if it is. A later one has a greater age."""

    __slots__ = ("ref", "age")
    count = 0

    def __init__(self):
        Var.count += 1
        self.age = Var.count
        self.ref = None


class Struct:
    """A compound: a name and its arguments."""

    __slots__ = ("name", "args")

    def __init__(self, name, args):
        self.name = name
        self.args = tuple(args)


NIL = atom("[]")
TRUE = atom("true")


def struct(name, *args):
    return Struct(name, args)


def listed(items, end=NIL):
    """The list of these items."""
    for item in reversed(items):
        end = Struct(".", (item, end))
    return end


def deref(term):
    while isinstance(term, Var) and term.ref is not None:
        term = term.ref
    return term


def is_pair(term):
    return isinstance(term, Struct) and term.name == "." and len(term.args) == 2


def elements(term):
    """The elements of a list and what stands at its end."""
    items = []
    term = deref(term)
    while is_pair(term):
        items.append(term.args[0])
        term = deref(term.args[1])
    return items, term


def indicator(term):
    """The name and the number of arguments of an atom or a compound."""
    return (term.name, len(term.args)) if isinstance(term, Struct) else (term.name, 0)


def is_callable(term):
    return isinstance(term, (Atom, Struct))


def occurs(var, term):
    todo = [term]
    while todo:
        term = deref(todo.pop())
        if term is var:
            return True
        if isinstance(term, Struct):
            todo.extend(term.args)
    return False


def bind(var, term, trail):
    if occurs(var, term):
        return False
    var.ref = term
    trail.append(var)
    return True


def unify(a, b, trail):
    """Whether the two have a unifier: then it is bound, the younger of two variables to the older. Bindings go on the trail."""
    todo = [(a, b)]
    while todo:
        a, b = todo.pop()
        a, b = deref(a), deref(b)
        if a is b:
            continue
        if isinstance(a, Var) and isinstance(b, Var):
            young, old = (a, b) if a.age > b.age else (b, a)
            young.ref = old
            trail.append(young)
        elif isinstance(a, Var):
            if not bind(a, b, trail):
                return False
        elif isinstance(b, Var):
            if not bind(b, a, trail):
                return False
        elif isinstance(a, Struct) and isinstance(b, Struct):
            if a.name != b.name or len(a.args) != len(b.args):
                return False
            todo.extend(reversed(list(zip(a.args, b.args))))
        elif isinstance(a, int) and isinstance(b, int):
            if a != b:
                return False
        else:
            return False
    return True


def undo(trail, length):
    while len(trail) > length:
        trail.pop().ref = None


def copy(term, seen=None):
    """The term with new variables, made by first occurrence."""
    seen = {} if seen is None else seen
    term = deref(term)
    if isinstance(term, Var):
        if term not in seen:
            seen[term] = Var()
        return seen[term]
    if is_pair(term):
        items, end = elements(term)
        items = [copy(item, seen) for item in items]
        return listed(items, copy(end, seen))
    if isinstance(term, Struct):
        return Struct(term.name, [copy(arg, seen) for arg in term.args])
    return term


def variables(term, found=None):
    """The variables by first occurrence."""
    found = {} if found is None else found
    todo = [term]
    while todo:
        term = deref(todo.pop())
        if isinstance(term, Var):
            found.setdefault(term, len(found) + 1)
        elif isinstance(term, Struct):
            todo.extend(reversed(term.args))
    return found


def rank(term):
    return 0 if isinstance(term, Var) else 1 if isinstance(term, int) else 2 if isinstance(term, Atom) else 3


def compare(a, b):
    """The order of terms (7.2): -1, 0 or 1."""
    a, b = deref(a), deref(b)
    if a is b:
        return 0
    if rank(a) != rank(b):
        return -1 if rank(a) < rank(b) else 1
    if isinstance(a, Var):
        key, other = a.age, b.age
    elif isinstance(a, int):
        key, other = a, b
    elif isinstance(a, Atom):
        key, other = a.name.encode(), b.name.encode()
    else:
        key, other = (len(a.args), a.name.encode()), (len(b.args), b.name.encode())
        if key == other:
            return next((order for order in map(compare, a.args, b.args) if order), 0)
    return (key > other) - (key < other)


def converted(term):
    """The goal that a body converts to (7.6.2), or None."""
    term = deref(term)
    if isinstance(term, Var):
        return struct("call", term)
    if isinstance(term, int):
        return None
    if isinstance(term, Struct) and len(term.args) == 2 and term.name in (",", ";", "->"):
        left, right = converted(term.args[0]), converted(term.args[1])
        return None if left is None or right is None else Struct(term.name, (left, right))
    return term
