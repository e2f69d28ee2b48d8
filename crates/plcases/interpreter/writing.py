"""The text of a term (7.10.5)."""
from .terms import Atom, Var, deref, elements, is_pair, variables
from .tokens import SMALL, SYMBOLS, WORD

SHOWN = {"\\": "\\\\", "'": "\\'", "\a": "\\a", "\b": "\\b", "\f": "\\f", "\n": "\\n", "\r": "\\r", "\t": "\\t", "\v": "\\v"}


def is_bare(name):
    if name in ("[]", "{}", "!", ";"):
        return True
    if name and name[0] in SMALL and all(c in WORD for c in name):
        return True
    return bool(name) and name != "." and not name.startswith("/*") and all(c in SYMBOLS for c in name)


def quoted(name):
    made = []
    for c in name:
        if c in SHOWN:
            made.append(SHOWN[c])
        elif ord(c) < 32 or ord(c) == 127:
            made.append(f"\\x{ord(c):x}\\")
        else:
            made.append(c)
    return "'" + "".join(made) + "'"


def is_word(c):
    return c in WORD or ord(c) > 127


class Writer:
    """Writes in the style plain, quoted or canonical."""

    def __init__(self, operators, style, numbers=None):
        self.ops, self.style, self.numbers = operators, style, numbers
        self.made = ""

    def text(self, term, most=1200):
        if self.numbers is None:
            self.numbers = variables(term)
        self.term(deref(term), most)
        return self.made

    def put(self, token):
        """Adds a token, behind a space where the two would touch wrongly."""
        if self.made and token:
            left, right = self.made[-1], token[0]
            if (is_word(left) and is_word(right)) or (left in SYMBOLS and right in SYMBOLS) or ((is_word(left) or left == "'") and right == "'"):
                self.made += " "
        self.made += token

    def name(self, name, functor=False):
        if self.style == "plain":
            return name
        return name if is_bare(name) and not (functor and name in ("[]", "{}")) else quoted(name)

    def term(self, term, most):
        if isinstance(term, Var):
            self.put(f"_{self.numbers[term]}")
        elif isinstance(term, int):
            self.put(str(term))
        elif isinstance(term, Atom):
            self.put(self.name(term.name))
        elif is_pair(term):
            self.list(term)
        else:
            self.compound(term, most)

    def list(self, term):
        items, end = elements(term)
        self.put("[")
        for place, item in enumerate(items):
            if place:
                self.made += ","
            self.argument(item)
        if not (isinstance(end, Atom) and end.name == "[]"):
            self.made += "|"
            self.argument(end)
        self.made += "]"

    def argument(self, term):
        self.term(deref(term), 999)

    def compound(self, term, most):
        name, args = term.name, term.args
        if name == "{}" and len(args) == 1:
            self.put("{")
            self.term(deref(args[0]), 1200)
            self.made += "}"
        elif name == "$VAR" and len(args) == 1 and self.style in ("plain", "quoted") and isinstance(deref(args[0]), int) and deref(args[0]) >= 0:
            number = deref(args[0])
            self.put(chr(ord("A") + number % 26) + (str(number // 26) if number >= 26 else ""))
        elif self.style != "canonical" and len(args) == 2 and name in self.ops.infix:
            self.infix(name, args, most)
        elif self.style != "canonical" and len(args) == 1 and name in self.ops.prefix:
            self.prefix(name, args[0], most)
        elif self.style != "canonical" and len(args) == 1 and name in self.ops.postfix:
            self.postfix(name, args[0], most)
        else:
            self.put(self.name(name, functor=True) + "(")
            for place, arg in enumerate(args):
                if place:
                    self.made += ","
                self.argument(arg)
            self.made += ")"

    def bracketed(self, own, most, write):
        if own <= most:
            return write()
        self.put("(")
        write()
        self.made += ")"
        return None

    def infix(self, name, args, most):
        own, kind = self.ops.infix[name]
        left, right = deref(args[0]), deref(args[1])

        def write():
            self.left_operand(left, own, kind)
            if name == ",":
                self.made += ","
            else:
                self.put(self.name(name))
            self.operand(right, own if kind == "xfy" else own - 1)

        self.bracketed(own, most, write)

    def left_operand(self, term, own, kind):
        """On the left of yfx stands an operand of the same priority, unless its own operator goes on to the right of it."""
        found = self.operator_of(term)
        if kind in ("yfx", "yf") and found and found[0] == own and found[1] in ("fy", "xfy"):
            self.operand(term, own - 1)
        else:
            self.operand(term, own if kind in ("yfx", "yf") else own - 1)

    def operator_of(self, term):
        if not hasattr(term, "args") or is_pair(term):
            return None
        if len(term.args) == 2:
            return self.ops.infix.get(term.name)
        if len(term.args) == 1:
            return self.ops.prefix.get(term.name) or self.ops.postfix.get(term.name)
        return None

    def operand(self, term, most):
        if isinstance(term, Atom) and self.ops.is_operator(term.name):
            self.put("(")
            self.made += self.name(term.name) + ")"
        elif isinstance(term, Atom):
            self.put(self.name(term.name))
        else:
            self.term(term, most)

    def prefix(self, name, arg, most):
        own, kind = self.ops.prefix[name]
        arg = deref(arg)
        if name == "-" and isinstance(arg, int):
            self.put("-(")
            self.made += f"{arg})"
            return

        def write():
            self.put(self.name(name))
            before = len(self.made)
            self.operand(arg, own if kind == "fy" else own - 1)
            added = self.made[before:]
            if added.startswith("(") or (name == "-" and added[:1].isdigit()):
                self.made = self.made[:before] + " " + added

        self.bracketed(own, most, write)

    def postfix(self, name, arg, most):
        own, kind = self.ops.postfix[name]

        def write():
            self.left_operand(deref(arg), own, kind)
            self.put(self.name(name))

        self.bracketed(own, most, write)


def written(term, operators, style, numbers=None):
    return Writer(operators, style, numbers).text(term)
