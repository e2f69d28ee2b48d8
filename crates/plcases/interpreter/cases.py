"""The cases of a file: words, a text, and what they come to, with the comments that stand in front of them."""

TRUE = "% thread 1 main: true\n"
MARK = "%% "


class Case:
    """A case: the words of the command line, the text of the program, and either the output and the status or what the journal gets.

    `comment` stands directly before it, `said` before an empty line further up, and `line` is where it begins."""

    def __init__(self, words, text, wanted, said, comment, line):
        self.words, self.text, self.said, self.comment, self.line = words, text, said, comment, line
        self.output = self.status = self.journal = None
        if len(wanted) == 1:
            (self.journal,) = wanted
        else:
            self.output, self.status = wanted

    def fields(self):
        """All that it is, without its place."""
        return tuple(self.words), self.text, self.output, self.status, self.journal

    def option(self, name):
        """The value of an option, if it is given as a word of its own."""
        return self.words[self.words.index(name) + 1] if name in self.words[:-1] else None


def option_of(mark):
    return mark.split(" ", 1)


def line_of(words):
    """All words of a command line."""
    return words if words[:1] == ["prolog"] else ["prolog", *words, "P"]


class Reader:
    """Reads the lines of a file. A line is of no case where an AssertionError is raised."""

    def __init__(self, path):
        with open(path, encoding="utf-8", newline="") as file:
            self.lines = file.read().split("\n")
        self.path, self.at = path, 0
        self.said, self.comment = [], []

    def next(self):
        self.at += 1
        return self.lines[self.at - 1]

    def cases(self):
        while self.at < len(self.lines):
            line = self.next()
            if line.startswith(MARK):
                words = line[len(MARK) :].split()
                if words[0] == "memory":
                    continue
                yield from self.goals() if words == ["goals"] else [self.case(words)]
                self.comment = []
            elif line:
                assert line.startswith("%"), f"{self.path}:{self.at}: of no case"
                self.comment.append(line[1:].strip())
            elif self.comment:
                self.said, self.comment = self.comment, []

    def text(self):
        """The options, the lines of a text, and the mark behind them."""
        options, lines = [], []
        while True:
            line = self.next()
            mark = line[len(MARK) :] if line.startswith(MARK) else None
            if mark is None:
                lines.append(line)
            elif mark.startswith("--") and not lines:
                options += option_of(mark)
            else:
                return options, "\n".join(lines), mark

    def case(self, words):
        line = self.at
        options, text, mark = self.text()
        wanted = ""
        while (row := self.next()) != MARK + "end":
            assert not row.startswith(MARK), f"{self.path}:{self.at}: no mark of a case"
            wanted += row + "\n"
        asked = (wanted,) if mark == "journal" else (wanted, int(mark.removeprefix("status ")))
        return Case(line_of(words + options), text, asked, " ".join(self.said), " ".join(self.comment), line)

    def goals(self):
        """The cases of goals that share programs."""
        programs, options, mark = [], [], "and"
        while mark == "and":
            more, text, mark = self.text()
            options, programs = options + more, programs + [text]
        assert mark == "are", f"{self.path}:{self.at}: no goals"
        said, comment, rows = " ".join(self.said + self.comment), [], []
        while (row := self.next()) != MARK + "end":
            if row.startswith("%"):
                comment.append(row[1:].strip())
            elif row.startswith("=> "):
                rows[-1][1] += row[3:] + "\n"
            elif row:
                goal, arrow, written = row.partition(" => ")
                rows.append([goal, TRUE + (written + "\n" if arrow else ""), " ".join(comment), self.at])
                comment = []
        for goal, output, comment, line in rows:
            for program in programs:
                text = program.replace("GOAL", goal, 1)
                words = line_of(["run", *options] + ([] if "GOAL" in program else ["--goal", goal]))
                yield Case(words, text, (output, 0), said, comment, line)


def cases(path):
    """All cases of a file."""
    return Reader(path).cases()


def example(path):
    """The case of a program with its output beside it."""
    with open(path, encoding="utf-8") as file:
        text = file.read()
    with open(path.removesuffix(".pl") + ".out", encoding="utf-8") as file:
        output = file.read()
    end = output.split("\n", 1)[0].removeprefix("% thread 1 main: ")
    if end.startswith("halt("):
        status = int(end[5:-1])
    else:
        status = 2 if end.startswith("exception(") else {"true": 0, "false": 1}[end]
    return Case(["prolog", "run", "P"], text, (output, status), "", "", 1)
