#!/usr/bin/env python3
"""Tests ../prolog, the script before the program: every form, option, status and kind of refusal, in a terminal and out of one.

    tests/door.py [--shell WORDS] [--path FOLDER] [PROGRAM]

PROGRAM is a program that is built, crates/prolog/out/prolog where none is named; --shell runs the script by another
shell than /bin/sh, as `busybox sh`, and --path with the utilities of a folder. The script stands in a folder of its own, with PROGRAM and a few sources, and with
commands in the place of the toolchain's. The last line is 'N passed, M failed'.
"""
import argparse
import os
import pty
import re
import resource
import shutil
import signal
import subprocess
import sys
import tempfile
import threading
import time

sys.dont_write_bytecode = True
from wrong_texts import TEXTS

TOP = os.path.dirname(os.path.dirname(os.path.realpath(__file__)))
LIMIT = 16777216
RUN, CHECK, LIST = "    ./prolog run [--steps S] [--goal TEXT] PROGRAM", "    ./prolog check PROGRAM", "    ./prolog list PROGRAM"
CRATES = "low:\n\n# between\nmiddle: low itoa\n\nprolog: middle\n\n# none of the program's\ntests: low\n"
NOBODY = {"user": 65534, "group": 65534, "extra_groups": []} if os.geteuid() == 0 else {}
# A toolchain that leaves a program and the stamps of libraries; what it is to do stands in files beside it.
RT = """#!/bin/sh
[ "$1" != version ] || { echo 'a toolchain'; exit; }
here=$(dirname "$0")
echo "rt $*" >>"$here/calls"
[ ! -f "$here/fails" ] || { echo 'low: not proved'; exit 1; }
for crate in low middle; do
    mkdir -p "../$crate/out/rlib"; sleep 0.02; : >"../$crate/out/rlib/stamp"; sleep "$(cat "$here/sleeps" 2>/dev/null || echo 0)"
done
[ ! -f "$here/edits" ] || echo '// late' >>../low/src/lib.rt
cp "$here/program" out/prolog
"""
BUILD_UNPROVED = """import shutil, sys, os
if os.path.exists(os.path.join(os.path.dirname(__file__), "..", "tools", "fails")): sys.exit("it is not lowered")
shutil.copy(os.path.join(os.path.dirname(__file__), "..", "tools", "program"), sys.argv[1])
"""


class Ended:
    """What a run came to."""

    def __init__(self, status, out, err):
        self.status, self.out, self.err = status, out, err.replace(b"\r\n", b"\n").decode(errors="surrogateescape")

    def __repr__(self):
        return f"status {self.status}, output {self.out[:300]!r}, error:\n{self.err}"


class Tests:
    def __init__(self, program, shell, path):
        self.program, self.shell, self.path, self.passed, self.failed = os.path.abspath(program), shell, path, 0, 0
        self.top = tempfile.mkdtemp(prefix="door-")
        os.chmod(self.top, 0o755)
        self.room = os.path.join(self.top, "room")
        os.mkdir(self.room)

    def is_so(self, what, holds, told=""):
        self.passed, self.failed = self.passed + bool(holds), self.failed + (not holds)
        if not holds:
            print(f"FAILED: {what}: {told}", flush=True)

    # --- the script in a folder of its own

    def tree(self, name, built=True):
        """A repository with the script, a few sources, a toolchain, and the program if it is built."""
        top = os.path.join(self.top, name)
        shutil.copytree(os.path.join(TOP, "door"), os.path.join(top, "door"), ignore=shutil.ignore_patterns("__pycache__"))
        shutil.copy(os.path.join(TOP, "prolog"), os.path.join(top, "prolog"))
        for path, text in {"crates.txt": CRATES, "tools/rt": RT, "door/build_unproved.py": BUILD_UNPROVED}.items():
            self.write(os.path.join(top, path), text)
        os.chmod(os.path.join(top, "tools/rt"), 0o755)
        for crate in ("low", "middle", "tests"):
            self.write(os.path.join(top, "crates", crate, "src/lib.rt"), f"// {crate}\n")
            self.write(os.path.join(top, "crates", crate, "specs/Lib.antt"), f"-- {crate}\n")
        self.write(os.path.join(top, "crates/prolog/src/main.rt"), "// main\n")
        shutil.copy(self.program, os.path.join(top, "tools/program"))
        if built:
            os.makedirs(os.path.join(top, "crates/prolog/out"))
            shutil.copy(self.program, os.path.join(top, "crates/prolog/out/prolog"))
        return top

    def write(self, path, text):
        path = os.path.join(self.room, path)
        os.makedirs(os.path.dirname(path), exist_ok=True)
        with open(path, "wb") as file:
            file.write(text if isinstance(text, bytes) else text.encode())
        return path

    def words(self, top, words):
        return [*self.shell, os.path.join(top, "prolog"), *words]

    def run(self, top, *words, terminal=False, tools=True, **how):
        """Runs the script, with standard error a terminal or a pipe."""
        path = [*[f"{top}/tools"] * tools, *[self.path] * bool(self.path), "/usr/bin", "/bin"]
        how = {"cwd": self.room, "stdin": subprocess.DEVNULL, "stdout": subprocess.PIPE, "env": {**os.environ, "PATH": ":".join(path)}, **how}
        if not terminal:
            ran = subprocess.run(self.words(top, words), stderr=subprocess.PIPE, **how)
            return Ended(ran.returncode, ran.stdout, ran.stderr)
        own, its = pty.openpty()
        with subprocess.Popen(self.words(top, words), stderr=its, **how) as ran:
            os.close(its)
            said = []
            reader = threading.Thread(target=lambda: said.extend(read_all(own)))
            reader.start()
            out = ran.stdout.read() if ran.stdout else b""
            ran.wait()
            reader.join()
        os.close(own)
        return Ended(ran.returncode, out, b"".join(said))

    def row(self, what, top, words, status, err, out=None, **how):
        """One run, with its status, and what it says, as a whole."""
        ran = self.run(top, *words, **how)
        self.is_so(what, ran.status == status and ran.err == err and out in (None, ran.out), ran)
        return ran

    # --- the words

    def of_words(self, top):
        hello = self.write("hello.pl", ":- initialization((write(hello), nl)).\n")
        for words in (["--help"], ["help"]):
            for terminal in (False, True):
                ran = self.run(top, *words, terminal=terminal)
                parts = [*(line.replace("./prolog ", "") for line in (RUN, CHECK, LIST)), "--steps S", "--goal TEXT", "--unproved", "Statuses", "Examples"]
                told = ran.out.decode()
                numbers = [int(it) for it in re.findall(r"^    (\d+) ", told, re.M)]
                self.is_so(f"{words}", ran.status == 0 and ran.err == "" and all(it in told for it in parts), ran)
                self.is_so(f"{words}: statuses", numbers == [0, 1, 2, 3, 4, 64, 65, 66, 67, 69, 71, 74], numbers)
                self.is_so(f"{words}: three examples", len(re.findall(r"^    \./prolog .*examples/", told, re.M)) == 3, told)
        help = self.run(top, "--help").out.decode()
        for terminal in (False, True):
            self.row("no words", top, [], 64, help, b"", terminal=terminal)
            ran = self.run(top, "--version", terminal=terminal)
            self.is_so("the version", ran.status == 0 and ran.out.endswith(b"\na toolchain\n") and ran.out.startswith(b"Retzolva ") and ran.err == "", ran)
        ran = self.run(top, "--version", tools=False)
        self.is_so("the version without a toolchain", ran.status == 0 and b"no toolchain" in ran.out, ran)
        every = [RUN, CHECK, LIST]
        for words, fault, lines in [
            (["walk", hello], "'walk' is none of the forms", every),
            (["help", "run"], "'help' is none of the forms", every),
            (["--help", "run", hello], "there is no option '--help'", [RUN]),
            (["-h"], "there is no option '-h'", every),
            (["--steps", "5"], "the name of a form is missing", every),
            (["run"], "the form run lacks a path", [RUN]),
            (["check"], "the form check lacks a path", [CHECK]),
            (["list", "--"], "the form list lacks a path", [LIST]),
            (["run", hello, "more"], "'more' is a word too many", [RUN]),
            (["check", "--", hello, "--steps"], "'--steps' is a word too many", [CHECK]),
            (["run", "--steps", "0", hello], "--steps takes a number from 1 to 1099511627776, and not '0'", [RUN]),
            (["run", "--steps", "1099511627777", hello], "and not '1099511627777'", [RUN]),
            (["run", "--steps=-1", hello], "and not '-1'", [RUN]),
            (["run", "--steps=", hello], "and not ''", [RUN]),
            (["run", "--steps", "ten", hello], "and not 'ten'", [RUN]),
            (["run", "--steps", "99999999999999999999999", hello], "and not '99999999999999999999999'", [RUN]),
            (["run", hello, "--steps"], "the option --steps has no value", [RUN]),
            (["run", "--goal", "-X", hello], "the option --goal has no value", [RUN]),
            (["run", "--steps", "5", "--steps", "5", hello], "the option --steps is given twice", [RUN]),
            (["check", "--steps", "5", hello], "the form check takes no option --steps", [CHECK]),
            (["list", hello, "--goal=true"], "the form list takes no option --goal", [LIST]),
            (["run", "--step", "5", hello], "there is no option '--step'", [RUN]),
            (["run", "--history", hello], "there is no option '--history'", [RUN]),
            (["run", "--goal", "a b", hello], "the TEXT of --goal is no goal", [RUN]),
            (["run", "--goal=", hello], "the TEXT of --goal is no goal", [RUN]),
            (["run", "--goal", "1", hello], "the TEXT of --goal is no goal", [RUN]),
            (["run", "--goal", "true.", hello], "the TEXT of --goal is no goal", [RUN]),
            (["run", b"\xff.pl"], "a word is no UTF-8", [RUN]),
            (["run", "a\\nb", "c\x1b[31md"], "'c?[31md' is a word too many", [RUN]),
        ]:
            ran = self.run(top, *words, terminal=True)
            said = ran.err.splitlines()
            self.is_so(f"wrong words {words}", ran.status == 64 and ran.out == b"" and said[0] == "usage" and fault in said[1] and said[2:] == lines, ran)
            self.row(f"wrong words {words}, no terminal", top, words, 64, "usage\n", b"")
        for words, out in [
            (["run", hello], b"% thread 1 main: true\nhello\n"),
            (["--steps", "+7", "run", "--goal", "nl", "--", hello], b"% thread 1 main: true\nhello\n\n"),
            (["run", "--goal=write(1)", hello, "--steps=007"], b"% thread 1 main: true\nhello\n1\n"),
            (["check", hello], b"clauses 0 directives 1\n"),
            (["list", hello], b":-initialization write(hello),nl.\n"),
        ]:
            for terminal in (False, True):
                self.row(f"{words}", top, words, 0, "", out, terminal=terminal)

    # --- files and statuses

    def of_files(self, top):
        self.write("closed.pl", "a.\n")
        os.chmod(os.path.join(self.room, "closed.pl"), 0)
        os.makedirs(os.path.join(self.room, "folder"), exist_ok=True)
        self.write("long.pl", b"\n" * (LIMIT + 1))
        self.write("most.pl", b"\n" * LIMIT)
        for form in ("run", "check", "list"):
            for path, status, line, why, how in [
                ("none.pl", 66, "cannot read", "none.pl: there is no such file", {}),
                ("folder", 66, "cannot read", "folder: it is a folder", {}),
                ("closed.pl", 66, "cannot read", "closed.pl: you may not read it", NOBODY),
                ("long.pl", 67, "too long", "long.pl: it has 16777217 bytes, and a text may have 16,777,216", {}),
            ]:
                self.row(f"{form} {path}", top, [form, path], status, f"{line}\nprolog: {why}\n", b"", terminal=True, **how)
                self.row(f"{form} {path}, no terminal", top, [form, path], status, f"{line}\n", b"", **how)
        self.row("a text of the most bytes", top, ["run", "most.pl"], 0, "", b"% thread 1 main: true\n", terminal=True)
        for text, name in ((b"a.\n", "a pipe"), (b"`\n", "a refused text in a pipe")):
            read, write = os.pipe()
            os.write(write, text)
            os.close(write)
            ran = self.run(top, "check", "/dev/stdin", terminal=True, stdin=read)
            os.close(read)
            out = b"clauses 1 directives 0\n" if text == b"a.\n" else b"refused: line 1 column 1: lex\n"
            self.is_so(name, ran.out == out and ran.err == "" and ran.status == (0 if text == b"a.\n" else 65), ran)

    def of_statuses(self, top):
        main = {0: "true", 1: "false", 2: "exception(x)", 4: "budget"}
        for goal, status in (("true", 0), ("fail", 1), ("throw(x)", 2), ("repeat, fail", 4)):
            words = ["run", "--steps", "1000", "--goal", goal, "/dev/null"]
            out = f"% thread 1 main: {main[status]}\n".encode()
            ran = self.run(top, *words, terminal=True)
            said = ran.err.startswith(f"prolog: status {status}: main ") and ran.err.count("\n") == 1 if status else ran.err == ""
            self.is_so(f"{goal}", ran.status == status and ran.out == out and said, ran)
            self.row(f"{goal}, no terminal", top, words, status, "", out)
        for number in (*range(9), *range(62, 80), *range(124, 148), 255):
            text = self.write(f"halt/{number}.pl", f":- initialization(halt({number})).\n")
            ran = self.run(top, "run", text, terminal=True)
            said = "" if number not in (1, 2, 3, 4, 71, 74) else f"prolog: status {number}: .*\\(or the text ended the run itself, by halt\\({number}\\)\\)\n"
            self.is_so(f"halt({number})", ran.status == number and ran.out == f"% thread 1 main: halt({number})\n".encode() and re.fullmatch(said, ran.err), ran)
        goal = self.run(top, "run", "--goal", "halt(64)", "/dev/null", terminal=True)
        self.is_so("halt(64) as a goal", goal.status == 64 and goal.err == "", goal)
        with open("/dev/full", "wb") as full:
            for terminal in (False, True):
                ran = self.run(top, "run", "--goal", "write(x)", "/dev/null", terminal=terminal, stdout=full)
                said = ran.err.splitlines()
                self.is_so("a full disk", ran.status == 74 and said[0] == "cannot write" and ([it for it in said[1:] if "the output could not be written" in it] if terminal else said[1:] == []), ran)
        grows = self.write("grows.pl", "l(L) :- l([x|L]).\n:- initialization(l([])).\n")
        little = {"preexec_fn": lambda: resource.setrlimit(resource.RLIMIT_AS, (300_000_000, 300_000_000))}
        for terminal in (False, True):
            ran = self.run(top, "run", grows, terminal=terminal, **little)
            said = ran.err.splitlines()
            self.is_so("no memory", ran.status == 71 and said[0] == "no memory" and (len(said) == 2 and "no more memory" in said[1] if terminal else len(said) == 1), ran)

    # --- texts that are refused

    def of_refusals(self, top):
        for at, (what, text, line, column, kind, cause) in enumerate(TEXTS):
            path = f"wrong/{at}.pl"
            self.write(path, text)
            out = f"refused: line {line} column {column}: {kind}\n".encode()
            for words, terminal in ((["run", path], True), (["check", path], True), (["check", path], False), (["list", path], True)):
                ran = self.run(top, *words, terminal=terminal)
                said = ran.err.splitlines()
                causes = [it for it in said if it.startswith("    - ")]
                self.is_so(f"{what}: {words[0]}", ran.status == 65 and ran.out == out and said and said[0].startswith(f"{path}:{line}:{column}: {kind}: ") and any(cause in it for it in causes), ran)
                self.is_so(f"{what}: the mark", marked(text, line, column, said[1 + len(causes) :]), ran)
            for words in (["run", path], ["list", path]):
                self.row(f"{what}, no terminal", top, words, 65, "", out)

    def shown(self, top, text):
        """The lines that show the text at the place where it is refused."""
        self.write("shown.pl", text)
        ran = self.run(top, "check", "shown.pl")
        return [it[4:] for it in ran.err.split("\n")[1:-1] if not it.startswith("    - ")], ran

    def of_places(self, top):
        for what, text, wanted in [
            ("a tab before the place", b"p :-\n\tX\t= `a`.\n", ["\tX\t= `a`.", "\t \t  ^"]),
            ("characters past ASCII before it", "p('é€😀', `a`).\n".encode(), ["p('é€😀', `a`).", "         ^"]),
            ("bad UTF-8", b"p :- a.\np('x\xe9').\n", ["p('x?').", "    ^"]),
            ("bad UTF-8 behind it", b"p(`a\xc3\x28\xf0\x9f\x98').", ["p(`a?(???').", "  ^"]),
            ("no newline at the end", b"p(`a`).", ["p(`a`).", "  ^"]),
            ("control characters", b"p(`\x1b[31m\x07\x7f\x00z`).\n", ["p(`?[31m???z`).", "  ^"]),
            ("a clause of six lines", b"p.\nq(\n a,\n b,\n c,\n d,\n e f).\nr.\n", ["q(", "^", " a,", " b,", " c,", " d,"]),
            ("a clause of three lines", b"p.\nq(\n a b,\n c). % d\nr.\ns.\n", ["q(", "^", " a b,", " c). % d"]),
            ("a clause that ends in its line", b"p. q r. s.\nt.\n", ["p. q r. s.", "   ^"]),
            ("a clause that does not end", b"p.\nq :-\n  r,\n  s\n", ["q :-", "^", "  r,", "  s"]),
            ("a clause that can be read", b"p.\nfoo,\n  bar.\n", ["foo,", "^"]),
            ("carriage returns", b"p(\r\n a b).\r\nc.\r\n", ["p(", "^", " a b)."]),
        ]:
            lines, ran = self.shown(top, text)
            self.is_so(what, lines == wanted, f"{lines} {ran}")
        for what, text, at in [
            ("a line of a megabyte, the place in the middle", b"p(" + b"a," * 250000 + b"`x`" + b",a" * 250000 + b").\n", "`"),
            ("a line of a megabyte, the place at its end", b"p(" + b"a," * 500000 + b"`", "`"),
            ("a line of a megabyte, the place at its start", b"p(`" + b"x" * 1000000 + b").\n", "`"),
            ("a line of a megabyte past ASCII", b'p("' + "é".encode() * 250000 + b"\\q" + "é".encode() * 250000 + b'").\n', "\\"),
            ("a clause of a line of a megabyte", b"p(" + b"a " * 500000 + b").\n", "p"),
        ]:
            lines, ran = self.shown(top, text)
            self.is_so(what, len(lines) == 2 and len(lines[0].strip(".").encode()) <= 160 and lines[1].strip(" ") == "^" and lines[0][len(lines[1]) - 1] == at and ran.status == 65, ran)

    # --- signals, and what the script adds

    def of_signals(self, top):
        loop = self.write("loop.pl", "l :- l.\n:- initialization(l).\n")
        for terminal in (False, True):
            for number in (signal.SIGTERM, signal.SIGINT, signal.SIGHUP, signal.SIGQUIT):
                own, its = pty.openpty()
                words = self.words(top, ["run", "--steps", "1099511627776", loop])
                ran = subprocess.Popen(words, cwd=self.room, stdin=subprocess.DEVNULL, stdout=subprocess.PIPE, stderr=its if terminal else subprocess.DEVNULL, preexec_fn=lambda: resource.setrlimit(resource.RLIMIT_CORE, (0, 0)))
                os.close(its)
                time.sleep(0.5)
                became = os.readlink(f"/proc/{ran.pid}/exe") == os.path.join(top, "crates/prolog/out/prolog")
                self.is_so(f"the script becomes the program exactly where there is no terminal: {terminal}", became != terminal, became)
                ran.send_signal(number)
                try:
                    status, told = ran.wait(10), ran.stdout.read()
                except subprocess.TimeoutExpired:
                    ran.kill()
                    status, told = None, b""
                # (some shells never end by SIGQUIT; the program has ended by then)
                wanted = (-number, 128 + signal.SIGTERM) if number == signal.SIGQUIT and terminal else (-number,)
                self.is_so(f"{number.name}{' in a terminal' if terminal else ''}", status in wanted and told == b"", status)
                os.close(own)

    def of_keys(self, top):
        """A terminal of its own for all: what is written on it, and the key that ends a run."""
        loop = self.write("loop.pl", "l :- l.\n:- initialization(l).\n")
        for words, key, wanted, said in [
            (["run", "hello.pl"], b"", 0, "% thread 1 main: true\nhello\n"),
            (["check", "none.pl"], b"", 66, "cannot read\nprolog: none.pl: there is no such file\n"),
            (["run", "--steps", "1099511627776", loop], b"\x03", -signal.SIGINT, "^C"),
        ]:
            child, own = pty.fork()
            if child == 0:
                os.chdir(self.room)
                os.execvp(self.words(top, words)[0], self.words(top, words))
            if key:
                time.sleep(0.5)
                os.write(own, key)
            told = b"".join(read_all(own)).decode().replace("\r\n", "\n")
            ended = os.waitstatus_to_exitcode(os.waitpid(child, 0)[1])
            self.is_so(f"{words} on a terminal", ended == wanted and told == said, f"{ended} {told!r}")

    def of_time(self, top):
        def least(words):
            found = []
            for _ in range(20):
                begun = time.perf_counter()
                subprocess.run(words, cwd=TOP, stdin=subprocess.DEVNULL, stdout=subprocess.DEVNULL, stderr=subprocess.DEVNULL)
                found.append(time.perf_counter() - begun)
            return 1000 * min(found)

        hello = os.path.join(TOP, "examples/hello.pl")
        whole = os.path.join(self.top, "whole")
        shutil.copytree(os.path.join(TOP, "crates"), os.path.join(whole, "crates"), ignore=shutil.ignore_patterns("out"))
        shutil.copytree(os.path.join(TOP, "door"), os.path.join(whole, "door"), ignore=shutil.ignore_patterns("__pycache__"))
        for name in ("prolog", "crates.txt"):
            shutil.copy(os.path.join(TOP, name), os.path.join(whole, name))
        os.makedirs(os.path.join(whole, "crates/prolog/out"))
        program = shutil.copy(self.program, os.path.join(whole, "crates/prolog/out/prolog"))
        subprocess.run(self.words(whole, ["check", hello]), stdout=subprocess.DEVNULL, check=True)
        alone, by_script = least([program, "run", hello]), least(self.words(whole, ["run", hello]))
        print(f"a run of hello.pl takes {alone:.1f} ms, by ./prolog {by_script - alone:.1f} ms more")
        # (without -cnewer the sources are summed each time)
        self.is_so("the time of the script", by_script - alone <= 30 or self.path, by_script - alone)

    # --- the build

    def calls(self, top):
        """How often the toolchain was called since the last question."""
        path = os.path.join(top, "tools/calls")
        found = open(path).read().count("rt run") if os.path.exists(path) else 0
        if found:
            os.remove(path)
        return found

    def of_builds(self):
        hello = os.path.join(self.room, "hello.pl")
        for terminal in (False, True):
            top = self.tree(f"new-{terminal}", built=False)
            self.row("wrong words before a build", top, ["walk", hello], 64, "usage\n" + (f"prolog: 'walk' is none of the forms:\n{RUN}\n{CHECK}\n{LIST}\n" if terminal else ""), b"", terminal=terminal)
            self.row("no file before a build", top, ["run", "none.pl"], 66, "cannot read\n" + ("prolog: none.pl: there is no such file\n" if terminal else ""), b"", terminal=terminal)
            ran = self.run(top, "run", hello, terminal=terminal, tools=False)
            self.is_so("no toolchain", ran.status == 69 and "could not be built: there is no rt on the PATH" in ran.err and ran.out == b"", ran)
            self.is_so("no build so far", self.calls(top) == 0)
            self.write(f"{top}/tools/fails", "")
            ran = self.run(top, "run", hello, terminal=terminal)
            self.is_so("a build that fails", ran.status == 69 and "low: not proved" in ran.err and "could not be built" in ran.err and ran.out == b"", ran)
            os.remove(f"{top}/tools/fails")
            self.calls(top)
            ran = self.run(top, "run", hello, terminal=terminal)
            self.is_so("a build", ran.status == 0 and ran.out == b"% thread 1 main: true\nhello\n" and "--unproved" in ran.err and "hour" in ran.err, ran)
            self.is_so("one build", self.calls(top) == 1)
            self.row("no second build", top, ["run", hello], 0, "", b"% thread 1 main: true\nhello\n", terminal=terminal)
            self.is_so("no second build, no call", self.calls(top) == 0)
        top = self.tree("changes")
        changes = [
            ("a program of the gate", lambda: None, 0),
            ("a source that changed", lambda: self.write(f"{top}/crates/low/src/lib.rt", "// other\n"), 1),
            ("the same text again", lambda: self.write(f"{top}/crates/low/src/lib.rt", "// other\n"), 0),
            ("a definition that changed", lambda: self.write(f"{top}/crates/middle/specs/Lib.antt", "-- other\n"), 1),
            ("a new source", lambda: self.write(f"{top}/crates/low/src/new.rt", "// new\n"), 1),
            ("a source with an old time", lambda: (self.write(f"{top}/crates/low/src/new.rt", "// old\n"), os.utime(f"{top}/crates/low/src/new.rt", (1, 1))), 1),
            ("a source that went", lambda: os.remove(f"{top}/crates/low/src/new.rt"), 1),
            ("other crates", lambda: self.write(f"{top}/crates.txt", CRATES + "# more\n"), 1),
            ("no change", lambda: None, 0),
        ]
        for what, change, builds in changes:
            change()
            time.sleep(0.02)
            ran = self.run(top, "run", hello)
            self.is_so(f"{what}: builds", self.calls(top) == builds and ran.out == b"% thread 1 main: true\nhello\n" and ran.status == 0, ran)
        self.write(f"{top}/tools/edits", "")
        self.write(f"{top}/crates/low/src/lib.rt", "// third\n")
        ran = self.run(top, "run", hello)
        self.is_so("a source that changes in a build is told", self.calls(top) == 1 and "changed while" in ran.err, ran)
        os.remove(f"{top}/tools/edits")
        ran = self.run(top, "run", hello)
        self.is_so("a source that changes in a build: it is built again", self.calls(top) == 1 and ran.status == 0, ran)
        other = os.path.join(self.top, "copied")
        subprocess.run(["cp", "-r", top, other], check=True)
        ran = self.run(other, "run", hello)
        self.is_so("a copy of a tree that is built", self.calls(other) == 0 and ran.status == 0 and ran.err == "", ran)
        top = self.tree("kept")
        self.run(top, "check", hello)
        for terminal in (False, True):
            self.row("a tree that may not be written", top, ["run", hello], 0, "", b"% thread 1 main: true\nhello\n", terminal=terminal, **NOBODY)
        os.chmod(f"{top}/crates/prolog/out", 0o555)
        self.write(f"{top}/crates/low/src/lib.rt", "// other\n")
        ran = self.run(top, "run", hello, **NOBODY)
        self.is_so("a build where nothing can be written", ran.status == 69 and "nothing can be written in" in ran.err and self.calls(top) == 0, ran)
        top = self.tree("slow", built=False)
        self.write(f"{top}/tools/sleeps", "2.5")
        ran = self.run(top, "run", hello, terminal=True)
        self.is_so("the progress of a build", len(set(re.findall(r"([012]) of 3 crates are proved, after 0 min", ran.err))) > 1, ran)

    def of_unproved(self):
        hello = os.path.join(self.room, "hello.pl")
        note = "prolog: nothing was proved: this is the program without its proofs\n"
        for terminal in (False, True):
            top = self.tree(f"unproved-{terminal}", built=False)
            ran = self.run(top, "--unproved", "run", hello, terminal=terminal)
            self.is_so("the first run without proofs", ran.status == 0 and ran.out == b"% thread 1 main: true\nhello\n" and ran.err.startswith(note) and ran.err.count("\n") == 2, ran)
            self.row("a later run without proofs", top, ["--unproved", "run", hello], 0, note, b"% thread 1 main: true\nhello\n", terminal=terminal)
            self.row("a refusal without proofs", top, ["--unproved", "check", "none.pl"], 66, note + "cannot read\n" + ("prolog: none.pl: there is no such file\n" if terminal else ""), b"", terminal=terminal)
            self.write(f"{top}/crates/low/src/lib.rt", "// other\n")
            self.write(f"{top}/tools/fails", "")
            ran = self.run(top, "--unproved", "run", hello, terminal=terminal)
            self.is_so("another tree is lowered again, and what fails is told", ran.status == 69 and "it is not lowered" in ran.err, ran)
            self.is_so("no proof", self.calls(top) == 0)
            self.row("no form without proofs", top, ["--unproved"], 64, self.run(top, "--help").out.decode(), b"", terminal=terminal)


def read_all(file):
    while True:
        try:
            piece = os.read(file, 65536)
        except OSError:
            return
        if not piece:
            return
        yield piece


def marked(text, line, column, lines):
    """Whether the lines show the source line of a place with a mark under it; the line is short."""
    source = text.split(b"\n")[line - 1].rstrip(b"\r")
    before = source[: column - 1].decode()
    shown = "".join(it if it >= " " or it == "\t" else "?" for it in source.decode(errors="replace").replace("\ufffd", "?"))
    return lines[:2] == ["    " + shown, "    " + re.sub(r"[^\t]", " ", before) + "^"]


def main():
    words = argparse.ArgumentParser(description=__doc__.splitlines()[0])
    words.add_argument("--shell", default="")
    words.add_argument("--path", default="")
    words.add_argument("program", nargs="?", default=os.path.join(TOP, "crates/prolog/out/prolog"))
    given = words.parse_args()
    if not os.access(given.program, os.X_OK):
        print(f"the tests of ./prolog were not run: {given.program} is not built\n0 passed, 1 failed")
        return 1
    tests = Tests(given.program, given.shell.split(), given.path)
    try:
        top = tests.tree("built")
        for part in (tests.of_words, tests.of_files, tests.of_statuses, tests.of_refusals, tests.of_places, tests.of_signals, tests.of_keys, tests.of_time):
            part(top)
        tests.of_builds()
        tests.of_unproved()
    finally:
        shutil.rmtree(tests.top, ignore_errors=True)
    print(f"{tests.passed} passed, {tests.failed} failed")
    return 1 if tests.failed else 0


if __name__ == "__main__":
    sys.exit(main())
