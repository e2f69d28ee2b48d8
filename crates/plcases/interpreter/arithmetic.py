"""Expressions (9.1 to 9.4), with integers of 64 bits."""
from . import errors
from .terms import Atom, Struct, Var, deref


def bounded(value):
    if not -(2**63) <= value < 2**63:
        raise errors.evaluation_error("int_overflow")
    return value


def divisor(y):
    if y == 0:
        raise errors.evaluation_error("zero_divisor")
    return y


def quotient(x, y):
    return abs(x) // abs(divisor(y)) * (1 if (x < 0) == (y < 0) else -1)


def exact(x, y):
    if x % divisor(y):
        raise errors.evaluation_error("undefined")
    return x // y


def power(x, y):
    if y < 0:
        if x not in (1, -1):
            raise errors.type_error("float", x)
        return x if y % 2 else 1
    if abs(x) > 1 and y > 64:
        raise errors.evaluation_error("int_overflow")
    return x**y


def shifted(x, y):
    if y < 0:
        raise errors.evaluation_error("undefined")
    return x << min(y, 64 if x else 0) if y <= 64 or not x else bounded(2**64)


def shifted_down(x, y):
    if y < 0:
        raise errors.evaluation_error("undefined")
    return x >> y


BINARY = {
    "+": lambda x, y: x + y, "-": lambda x, y: x - y, "*": lambda x, y: x * y, "//": quotient,
    "/": exact, "rem": lambda x, y: x - quotient(x, y) * y, "mod": lambda x, y: x % divisor(y), "**": power, "^": power,
    "<<": shifted, ">>": shifted_down, "/\\": lambda x, y: x & y, "\\/": lambda x, y: x | y, "max": max, "min": min,
}
UNARY = {"-": lambda x: -x, "+": lambda x: x, "abs": abs, "sign": lambda x: (x > 0) - (x < 0), "\\": lambda x: ~x}


def evaluated(expression):
    expression = deref(expression)
    if isinstance(expression, Var):
        raise errors.instantiation()
    if isinstance(expression, int):
        return expression
    if isinstance(expression, Atom):
        raise errors.type_error("evaluable", errors.named((expression.name, 0)))
    assert isinstance(expression, Struct)
    args = expression.args
    found = {1: UNARY, 2: BINARY}.get(len(args), {}).get(expression.name)
    if not found:
        raise errors.type_error("evaluable", errors.named((expression.name, len(args))))
    values = [evaluated(arg) for arg in args]
    return bounded(found(*values))
