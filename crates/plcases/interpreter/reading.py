"""Terms from tokens (6.3)."""
from .errors import Refused
from .terms import NIL, Struct, Var, atom, listed


class Reader:
    """Reads the term of one clause, under some operators and with double-quoted items of a kind."""

    def __init__(self, tokens, operators, quotes="codes"):
        self.tokens, self.ops, self.quotes = tokens, operators, quotes
        self.at = 0
        self.names = {}

    def fault(self):
        return Refused("syntax", self.tokens[0].start)

    def next(self):
        return self.tokens[self.at]

    def take(self):
        token = self.tokens[self.at]
        self.at += 1
        return token

    def is_punctuation(self, value, token=None):
        token = token or self.next()
        return token.kind == "punctuation" and token.value == value

    def expect(self, value):
        if not self.is_punctuation(value):
            raise self.fault()
        self.at += 1

    def clause(self):
        term = self.term(1200)
        if self.next().kind != "end":
            raise self.fault()
        return term

    def opens(self, token):
        """Whether a bracket stands directly behind a name."""
        after = self.tokens[self.at]
        return self.is_punctuation("(", after) and after.start == token.end

    def term(self, most):
        left, priority = self.operand(most)
        while True:
            found = self.infix(left, priority, most) or self.postfix(left, priority, most)
            if not found:
                return left
            left, priority = found

    def operator_name(self):
        token = self.next()
        if token.is_name() or self.is_punctuation(","):
            return token.value
        return None

    def infix(self, left, priority, most):
        name = self.operator_name()
        if name not in self.ops.infix:
            return None
        own, kind = self.ops.infix[name]
        if own > most or priority > (own if kind == "yfx" else own - 1):
            return None
        self.at += 1
        right = self.term(own if kind == "xfy" else own - 1)
        return Struct(name, (left, right)), own

    def postfix(self, left, priority, most):
        name = self.operator_name()
        if name not in self.ops.postfix:
            return None
        own, kind = self.ops.postfix[name]
        if own > most or priority > (own if kind == "yf" else own - 1):
            return None
        self.at += 1
        return Struct(name, (left,)), own

    def operand(self, most):
        token = self.take()
        if token.kind == "integer":
            if token.value == 2**63:
                raise self.fault()
            return token.value, 0
        if token.kind == "variable":
            return self.variable(token.value), 0
        if token.kind == "codes":
            return self.double_quoted(token.value), 0
        if token.is_name():
            return self.named(token, most)
        if token.kind == "end" or token.value not in "([{":
            raise self.fault()
        return self.bracketed(token), 0

    def variable(self, name):
        if name == "_":
            return Var()
        return self.names.setdefault(name, Var())

    def double_quoted(self, text):
        if self.quotes == "atom":
            return atom(text)
        return listed([ord(c) if self.quotes == "codes" else atom(c) for c in text])

    def bracketed(self, token):
        if token.value == "(":
            term = self.term(1200)
            self.expect(")")
            return term
        closing = "]" if token.value == "[" else "}"
        if self.is_punctuation(closing):
            return self.empty(token.value + closing)
        if token.value == "{":
            term = self.term(1200)
            self.expect("}")
            return Struct("{}", (term,))
        items = [self.term(999)]
        while self.is_punctuation(","):
            self.at += 1
            items.append(self.term(999))
        end = NIL
        if self.is_punctuation("|"):
            self.at += 1
            end = self.term(999)
        self.expect("]")
        return listed(items, end)

    def empty(self, name):
        """The atom of two brackets, which is no functor."""
        if self.opens(self.take()):
            raise self.fault()
        return atom(name)

    def named(self, token, most):
        number = self.next()
        if token.kind == "name" and token.value == "-" and number.kind == "integer" and number.start == token.end:
            self.at += 1
            return -number.value, 0
        if self.opens(token):
            return self.functional(token.value), 0
        if token.value in self.ops.prefix and self.begins(number):
            own, kind = self.ops.prefix[token.value]
            if own > most:
                raise self.fault()
            return Struct(token.value, (self.term(own if kind == "fy" else own - 1),)), own
        return atom(token.value), 0

    def functional(self, name):
        self.expect("(")
        args = [self.term(999)]
        while self.is_punctuation(","):
            self.at += 1
            args.append(self.term(999))
        self.expect(")")
        return Struct(name, args)

    def begins(self, token):
        """Whether a term can begin with this token, which is the next one."""
        if token.kind == "end" or (token.kind == "punctuation" and token.value in ",|)]}"):
            return False
        if not token.is_name():
            return True
        name = token.value
        if name in self.ops.prefix or (name not in self.ops.infix and name not in self.ops.postfix):
            return True
        after = self.tokens[self.at + 1]
        if self.is_punctuation("(", after) and after.start == token.end:
            return True
        return token.kind == "name" and name == "-" and after.kind == "integer" and after.start == token.end
