"""Operators."""


class Operators:
    def __init__(self):
        self.prefix, self.infix, self.postfix = {}, {}, {}

    @staticmethod
    def standard():
        table = Operators()
        rows = [
            (1200, "xfx", ":- -->"),
            (1200, "fx", ":- ?-"),
            (1150, "fx", "dynamic discontiguous initialization multifile thread_local"),
            (1100, "xfy", ";"),
            (1050, "xfy", "->"),
            (1000, "xfy", ","),
            (900, "fy", "\\+"),
            (700, "xfx", "= \\= == \\== @< @=< @> @>= =.. is =:= =\\= < =< > >="),
            (500, "yfx", "+ - /\\ \\/"),
            (400, "yfx", "* / // rem mod << >>"),
            (200, "xfx", "**"),
            (200, "xfy", "^"),
            (200, "fy", "- \\"),
        ]
        for priority, kind, names in rows:
            for name in names.split():
                table.add(priority, kind, name)
        return table

    def of(self, kind):
        return self.prefix if kind in ("fx", "fy") else self.postfix if kind in ("xf", "yf") else self.infix

    def add(self, priority, kind, name):
        table = self.of(kind)
        if priority:
            table[name] = (priority, kind)
        else:
            table.pop(name, None)

    def copy(self):
        other = Operators()
        other.prefix, other.infix, other.postfix = dict(self.prefix), dict(self.infix), dict(self.postfix)
        return other

    def is_operator(self, name):
        return name in self.prefix or name in self.infix or name in self.postfix
