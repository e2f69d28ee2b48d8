"""The tokens of a text (6.4)."""
import functools
import re

from .errors import Refused

LAYOUT = " \t\n\r\f\v"
SYMBOLS = "+-*/\\^<>=~:.?@#&$"
DIGITS = "0123456789"
SMALL = "abcdefghijklmnopqrstuvwxyz"
CAPITALS = SMALL.upper()
WORD = SMALL + CAPITALS + DIGITS + "_"
ESCAPES = {"a": "\a", "b": "\b", "f": "\f", "n": "\n", "r": "\r", "t": "\t", "v": "\v", "\\": "\\", "'": "'", '"': '"', "`": "`"}


@functools.cache
def among(characters):
    return re.compile(f"[{re.escape(characters)}]*")


class Token:
    """Its kind is name, quoted, variable, integer, codes (a double-quoted item), punctuation or end."""

    __slots__ = ("kind", "value", "start", "end")

    def __init__(self, kind, value, start, end):
        self.kind, self.value, self.start, self.end = kind, value, start, end

    def is_name(self):
        return self.kind in ("name", "quoted")


class Tokens:
    """Reads the tokens of clauses, one clause after the other."""

    def __init__(self, text):
        self.text = text
        self.at = 0

    def peek(self, ahead=0):
        place = self.at + ahead
        return self.text[place] if place < len(self.text) else ""

    def layout(self):
        while self.at < len(self.text):
            if self.peek() in LAYOUT:
                self.run(LAYOUT)
            elif self.peek() == "%":
                while self.at < len(self.text) and self.peek() != "\n":
                    self.at += 1
            elif self.text.startswith("/*", self.at):
                end = self.text.find("*/", self.at + 2)
                if end < 0:
                    raise Refused("lex", self.at)
                self.at = end + 2
            else:
                return

    def clause(self):
        """The tokens of the next clause, its end the last; none where only layout is left."""
        found = []
        while True:
            self.layout()
            if self.at >= len(self.text):
                if found:
                    raise Refused("lex", found[0].start)
                return []
            found.append(self.token())
            if found[-1].kind == "end":
                return found

    def run(self, characters):
        """Takes the characters from here on that are among these."""
        found = among(characters).match(self.text, self.at)
        self.at = found.end()
        return found[0]

    def token(self):
        start, c = self.at, self.peek()
        if c in DIGITS:
            kind, value = "integer", self.integer()
        elif c in SMALL:
            kind, value = "name", self.run(WORD)
        elif c in CAPITALS or c == "_":
            kind, value = "variable", self.run(WORD)
        elif c == "'":
            kind, value = "quoted", self.quoted("'")
        elif c == '"':
            kind, value = "codes", self.quoted('"')
        elif c in "()[]{},|":
            self.at += 1
            kind, value = "punctuation", c
        elif c in "!;":
            self.at += 1
            kind, value = "name", c
        elif c == "." and (self.peek(1) == "" or self.peek(1) in LAYOUT + "%"):
            self.at += 1
            kind, value = "end", c
        elif c in SYMBOLS:
            kind, value = "name", self.run(SYMBOLS)
        else:
            raise Refused("lex", start)
        return Token(kind, value, start, self.at)

    def integer(self):
        start = self.at
        if self.peek() == "0" and self.peek(1) == "'":
            return self.character()
        for mark, base, digits in (("x", 16, DIGITS + "abcdefABCDEF"), ("o", 8, "01234567"), ("b", 2, "01")):
            if self.peek() == "0" and self.peek(1) == mark and self.peek(2) and self.peek(2) in digits:
                self.at += 2
                return self.bounded(int(self.run(digits), base), start)
        value = int(self.run(DIGITS))
        if self.peek() == "." and self.peek(1) and self.peek(1) in DIGITS:
            raise Refused("lex", start)
        return self.bounded(value, start)

    def bounded(self, value, start):
        if value > 2**63:
            raise Refused("lex", start)
        return value

    def character(self):
        self.at += 2
        c = self.peek()
        if c == "\\":
            return ord(self.escape())
        if c == "'" and self.peek(1) == "'":
            self.at += 2
            return ord("'")
        if not c or c in "'\n":
            raise Refused("lex", self.at)
        self.at += 1
        return ord(c)

    def quoted(self, quote):
        start = self.at
        self.at += 1
        made = []
        while True:
            c = self.peek()
            if not c or c == "\n":
                raise Refused("lex", start)
            if c == quote:
                self.at += 1
                if self.peek() != quote:
                    return "".join(made)
                made.append(quote)
                self.at += 1
            elif c == "\\" and self.peek(1) == "\n":
                self.at += 2
            elif c == "\\":
                made.append(self.escape())
            else:
                made.append(c)
                self.at += 1

    def escape(self):
        start = self.at
        c = self.peek(1)
        self.at += 2
        if c in ESCAPES and c:
            return ESCAPES[c]
        base, digits = (16, DIGITS + "abcdefABCDEF") if c == "x" else (8, "01234567")
        if c != "x":
            self.at -= 1
        code = self.run(digits)
        if not code or self.peek() != "\\" or int(code, base) > 0x10FFFF:
            raise Refused("lex", start)
        self.at += 1
        return chr(int(code, base))
