"""The built-in predicates that rows need: each answers whether it succeeds."""
from . import errors
from .arithmetic import evaluated
from .terms import NIL, Atom, Struct, Var, atom, compare, copy, deref, elements, is_callable, listed, undo, unify, variables
from .writing import written

ORDERS = {"==": lambda c: c == 0, "\\==": lambda c: c != 0, "@<": lambda c: c < 0, "@=<": lambda c: c <= 0, "@>": lambda c: c > 0, "@>=": lambda c: c >= 0}
NUMBERS = {"=:=": lambda a, b: a == b, "=\\=": lambda a, b: a != b, "<": lambda a, b: a < b, "=<": lambda a, b: a <= b, ">": lambda a, b: a > b, ">=": lambda a, b: a >= b}
TESTS = {
    "var": lambda t: isinstance(t, Var),
    "nonvar": lambda t: not isinstance(t, Var),
    "atom": lambda t: isinstance(t, Atom),
    "integer": lambda t: isinstance(t, int),
    "number": lambda t: isinstance(t, int),
    "atomic": lambda t: isinstance(t, (int, Atom)),
    "compound": lambda t: isinstance(t, Struct),
    "callable": is_callable,
    "is_list": lambda t: elements(t)[1] is NIL,
    "ground": lambda t: not variables(t),
}


def differ(search, a, b):
    mark = len(search.trail)
    same = unify(a, b, search.trail)
    undo(search.trail, mark)
    return not same


def write(search, term, style):
    search.out.append(written(term, search.ops, style))
    return True


def put(search, text):
    search.out.append(text)
    return True


def tab(search, expression):
    return put(search, " " * max(0, evaluated(expression)))


def put_char(search, char):
    char = deref(char)
    if isinstance(char, Var):
        raise errors.instantiation()
    if not isinstance(char, Atom) or len(char.name) != 1:
        raise errors.type_error("character", char)
    return put(search, char.name)


def order(search, wanted, a, b):
    wanted = deref(wanted)
    if not isinstance(wanted, (Var, Atom)):
        raise errors.type_error("atom", wanted)
    if isinstance(wanted, Atom) and wanted.name not in ("<", "=", ">"):
        raise errors.domain_error("order", wanted)
    return unify(wanted, atom("=" if compare(a, b) == 0 else "<" if compare(a, b) < 0 else ">"), search.trail)


def whole_list(term):
    items, end = elements(term)
    if isinstance(end, Var):
        raise errors.instantiation()
    if end is not NIL:
        raise errors.type_error("list", term)
    return [deref(item) for item in items]


class Key:
    """An item of a list that is put in the order of terms."""

    def __init__(self, term):
        self.term = term

    def __lt__(self, other):
        return compare(self.term, other.term) < 0


def msort(search, items, result):
    return unify(result, listed(sorted(whole_list(items), key=Key)), search.trail)


def sort(search, items, result):
    kept = []
    for item in sorted(whole_list(items), key=Key):
        if not kept or compare(kept[-1], item):
            kept.append(item)
    return unify(result, listed(kept), search.trail)


def keysort(search, items, result):
    pairs = whole_list(items)
    for pair in pairs:
        if isinstance(pair, Var):
            raise errors.instantiation()
        if not isinstance(pair, Struct) or (pair.name, len(pair.args)) != ("-", 2):
            raise errors.type_error("pair", pair)
    return unify(result, listed(sorted(pairs, key=lambda pair: Key(pair.args[0]))), search.trail)


def functor(search, term, name, arity):
    term, name, arity = deref(term), deref(name), deref(arity)
    if isinstance(term, Struct):
        return unify(name, atom(term.name), search.trail) and unify(arity, len(term.args), search.trail)
    if not isinstance(term, Var):
        return unify(name, term, search.trail) and unify(arity, 0, search.trail)
    if isinstance(name, Var) or isinstance(arity, Var):
        raise errors.instantiation()
    if isinstance(name, Struct):
        raise errors.type_error("atomic", name)
    if not isinstance(arity, int):
        raise errors.type_error("integer", arity)
    if arity < 0:
        raise errors.domain_error("not_less_than_zero", arity)
    if arity > 1024:
        raise errors.representation_error("max_arity")
    if arity and isinstance(name, int):
        raise errors.type_error("callable", name)
    return unify(term, Struct(name.name, [Var() for _ in range(arity)]) if arity else name, search.trail)


def arg(search, number, term, wanted):
    number, term = deref(number), deref(term)
    if isinstance(number, Var) or isinstance(term, Var):
        raise errors.instantiation()
    if not isinstance(number, int):
        raise errors.type_error("integer", number)
    if not isinstance(term, Struct):
        raise errors.type_error("compound", term)
    if number < 0:
        raise errors.domain_error("not_less_than_zero", number)
    return 1 <= number <= len(term.args) and unify(wanted, term.args[number - 1], search.trail)


def univ(search, term, items):
    term = deref(term)
    if isinstance(term, Struct):
        return unify(items, listed([atom(term.name), *term.args]), search.trail)
    if not isinstance(term, Var):
        return unify(items, listed([term]), search.trail)
    found, end = elements(items)
    if isinstance(end, Var) or (end is NIL and found and isinstance(deref(found[0]), Var)):
        raise errors.instantiation()
    if end is not NIL:
        raise errors.type_error("list", items)
    if not found:
        raise errors.domain_error("non_empty_list", NIL)
    head = deref(found[0])
    if isinstance(head, Struct):
        raise errors.type_error("atomic", head)
    if isinstance(head, int) and len(found) > 1:
        raise errors.type_error("callable", head)
    if len(found) > 1025:
        raise errors.representation_error("max_arity")
    return unify(term, Struct(head.name, found[1:]) if len(found) > 1 else head, search.trail)


def set_flag(search, flag, value):
    flag, value = deref(flag), deref(value)
    if isinstance(flag, Var) or isinstance(value, Var):
        raise errors.instantiation()
    allowed = {"unknown": ("error", "fail"), "double_quotes": ("codes", "chars", "atom")}
    if not isinstance(flag, Atom) or flag.name not in allowed or not isinstance(value, Atom) or value.name not in allowed[flag.name]:
        raise errors.Unsupported("set_prolog_flag/2 of another flag")
    search.flags[flag.name] = value.name
    return True


def operator(search, priority, kind, names):
    priority, kind, names = deref(priority), deref(kind), deref(names)
    if not isinstance(priority, int) or not isinstance(kind, Atom) or not isinstance(names, Atom):
        raise errors.Unsupported("op/3 of other terms")
    search.ops.add(priority, kind.name, names.name)
    return True


def flag_value(search, flag, value):
    flag = deref(flag)
    if not isinstance(flag, Atom) or flag.name not in search.flags:
        raise errors.Unsupported("current_prolog_flag/2 of another flag")
    return unify(value, atom(search.flags[flag.name]), search.trail)


BUILTINS = {
    ("=", 2): lambda search, a, b: unify(a, b, search.trail),
    ("unify_with_occurs_check", 2): lambda search, a, b: unify(a, b, search.trail),
    ("\\=", 2): differ,
    ("compare", 3): order,
    ("is", 2): lambda search, x, e: unify(x, evaluated(e), search.trail),
    ("write", 1): lambda search, t: write(search, t, "plain"),
    ("writeq", 1): lambda search, t: write(search, t, "quoted"),
    ("print", 1): lambda search, t: write(search, t, "quoted"),
    ("write_canonical", 1): lambda search, t: write(search, t, "canonical"),
    ("writeln", 1): lambda search, t: write(search, t, "plain") and put(search, "\n"),
    ("nl", 0): lambda search: put(search, "\n"),
    ("flush_output", 0): lambda search: True,
    ("put_char", 1): put_char,
    ("tab", 1): tab,
    ("copy_term", 2): lambda search, a, b: unify(b, copy(a), search.trail),
    ("term_variables", 2): lambda search, t, vs: unify(vs, listed(list(variables(t))), search.trail),
    ("functor", 3): functor,
    ("arg", 3): arg,
    ("=..", 2): univ,
    ("msort", 2): msort,
    ("sort", 2): sort,
    ("keysort", 2): keysort,
    ("set_prolog_flag", 2): set_flag,
    ("current_prolog_flag", 2): flag_value,
    ("op", 3): operator,
}
for _name, _holds in ORDERS.items():
    BUILTINS[_name, 2] = lambda search, a, b, holds=_holds: holds(compare(a, b))
for _name, _holds in NUMBERS.items():
    BUILTINS[_name, 2] = lambda search, a, b, holds=_holds: holds(evaluated(a), evaluated(b))
for _name, _holds in TESTS.items():
    BUILTINS[_name, 1] = lambda search, t, holds=_holds: holds(deref(t))
