#!/usr/bin/env python3
"""How long a step takes, and how much memory a run takes, beside SWI-Prolog and GNU Prolog where they are installed.

    bench/compare.py [--steps N] [--times N] [NAME ..]      the programs bench/NAME.pl

Each program has a goal round/1, which does one round of work, or before/1, which makes something once, and round/2,
which is given it. The script puts a goal behind the text that makes a given number of rounds, each undone by failure,
and ends. It chooses the number so that a run takes about so many steps of ours (1,000,000 where --steps says nothing).
The same text runs on all systems, in turn, as often as --times says (3); the least processor time counts, and the time
of a run of no rounds, which is that of the start, of the loading and of what is made before, is taken off. All times
are divided by the same count, our steps. Before that, one round's answer is written by each system and compared.

A round of `upto`, `findall`, `facts`, `commits` or `explore` is millions of steps long, and a run has one at least, so these
take minutes. GNU Prolog has no transactions, so it does not run those programs that have some.
`loop` is an endless loop, ended by --steps, for this system alone. A peak below some 15 MB is that of this script,
before the program takes its place. GNU Prolog is given more room for terms than it takes by itself, where ROOM says so.
"""
import argparse
import os
import re
import shutil
import subprocess
import sys
import tempfile

HERE = os.path.dirname(os.path.realpath(__file__))
PROLOG = os.path.join(os.path.dirname(HERE), "prolog")
NAMES = ["nrev", "tak", "queens", "zebra", "deriv", "unify", "deep", "up", "upvar", "catch", "control", "lookup", "output", "count", "itak", "iqueens", "sort", "findall", "codes", "parts", "upto", "counter", "queue", "facts", "commits", "explore", "nested", "among", "amongmany", "ownmany"]
FACTS = 100000
# GNU Prolog's room for terms, in kilobytes: with its own 32,768 it breaks off in long loops.
ROOM = {"GLOBALSZ": "1000000"}


def ours(text, goal, steps=None):
    limit = ["--steps", str(steps)] if steps else []
    return [PROLOG, "run"] + limit + ["--goal", goal, text]


def swipl(text, goal):
    return ["swipl", "-f", "none", "-q", "-g", goal, "-t", "halt", text]


def gprolog(text, goal):
    return ["gprolog", "--consult-file", text, "--query-goal", goal, "--query-goal", "halt"]


SYSTEMS = {"ours": ours, "swipl": swipl, "gprolog": gprolog}


def program(name):
    """The text of a program, with the facts that it looks up."""
    with open(os.path.join(HERE, name + ".pl"), encoding="utf-8") as file:
        text = file.read()
    if name == "lookup":
        keys = ", ".join(str(i * (FACTS // 100)) for i in range(100))
        facts = "".join(f"f({i}, v{i % 1000}).\n" for i in range(FACTS))
        text += f"keys([{keys}]).\n{facts}"
    return text


def driver(text, rounds):
    """Goals behind the text: `rounds` makes so many rounds, `answer` one, whose answer it writes."""
    tens = 0
    while rounds > 9 and rounds % 10 == 0:
        rounds, tens = rounds // 10, tens + 1
    first = "before(X)" if "\nbefore(" in text else "true"
    one = "round(X, A)" if "\nbefore(" in text else "round(A)"
    again = ", ".join([first] + ["some"] + ["ten"] * tens + [one, "fail"])
    some = "".join("some. " for _ in range(rounds)) if rounds else "some :- fail."
    return (
        f"\nten. ten. ten. ten. ten. ten. ten. ten. ten. ten.\n{some}\n"
        f"rounds :- {again}.\nrounds.\nanswer :- {first}, {one}, writeq(A), nl, !.\n"
    )


def run(words):
    """Runs a command: its output, its processor time in seconds, and the peak of its memory in kilobytes."""
    with tempfile.TemporaryFile() as out:
        child = subprocess.Popen(words, stdin=subprocess.DEVNULL, stdout=out, stderr=subprocess.DEVNULL, env={**ROOM, **os.environ})
        _, status, used = os.wait4(child.pid, 0)
        child.returncode = os.waitstatus_to_exitcode(status)
        out.seek(0)
        return out.read(1 << 20).decode("utf-8", "replace"), used.ru_utime + used.ru_stime, used.ru_maxrss


class Bench:
    def __init__(self, name, folder):
        self.name = name
        self.text = program(name)
        self.folder = folder

    def file(self, rounds):
        path = os.path.join(self.folder, f"{self.name}-{rounds}.pl")
        if not os.path.exists(path):
            with open(path, "w", encoding="utf-8") as file:
                file.write(self.text + driver(self.text, rounds))
        return path

    def steps(self, rounds):
        """How many steps a run of so many rounds takes: the least limit within which it ends, to one part in 10,000."""
        low, high = 0, 1000
        while not self.ends(rounds, high):
            low, high = high, high * 2
        while high - low > max(1, high // 10000):
            middle = (low + high) // 2
            if self.ends(rounds, middle):
                high = middle
            else:
                low = middle
        return high

    def ends(self, rounds, steps):
        said, _, _ = run(ours(self.file(rounds), "rounds", steps))
        return said.startswith("% thread 1 main: true")

    def answers(self, system):
        said, _, _ = run(SYSTEMS[system](self.file(1), "answer"))
        lines = [line for line in said.splitlines() if line and not line.startswith("%")]
        wanted = [line for line in lines if not re.match(r"(compiling|Compiled|/|\(|yes|GNU|Copyright|By Daniel|\|)", line)]
        return re.sub(r"\b_[A-Za-z0-9]+", "_", "".join(wanted)).replace(" ", "")


def rounds_for(steps, a_round):
    """A number of rounds with one figure that is not 0, for about so many steps."""
    rounds = max(1, steps // a_round)
    tens = 10 ** (len(str(rounds)) - 1)
    return max(1, round(rounds / tens)) * tens


def compare(name, folder, steps, times, systems):
    bench = Bench(name, folder)
    if re.search(r"\b(transaction|snapshot)\(", bench.text):
        systems = [system for system in systems if system != "gprolog"]
    answers = {system: bench.answers(system) for system in systems}
    for system, answer in answers.items():
        if answer != answers["ours"]:
            print(f"{name}: {system} answers {answer[:60]}, ours {answers['ours'][:60]}", file=sys.stderr)
    none = bench.steps(0)
    a_round = bench.steps(2) - bench.steps(1)
    rounds = rounds_for(steps, a_round)
    taken = a_round * rounds
    least, peak = {}, {}
    for _ in range(times):
        for system in systems:
            for count in (0, rounds):
                _, used, most = run(SYSTEMS[system](bench.file(count), "rounds"))
                key = (system, count)
                least[key] = min(used, least.get(key, used))
                peak[system] = most
    row = [f"{name:<9}{none:>9}{a_round:>10}{taken:>12}"]
    mine = least["ours", rounds] - least["ours", 0]
    for system in systems:
        used = least[system, rounds] - least[system, 0]
        ratio = f"{mine / used:>7.1f}" if used > 0 else f"{'-':>7}"
        row.append(f"{used * 1e9 / taken:>9.0f}" + (ratio if system != "ours" else "") + f"{peak[system]:>9}")
    print("".join(row), flush=True)


def loop(steps):
    """The endless loop, which takes exactly so many steps."""
    text = os.path.join(HERE, "loop.pl")
    _, start, _ = run([PROLOG, "run", "--steps", "10", text])
    _, used, most = run([PROLOG, "run", "--steps", str(steps), text])
    print(f"{'loop':<9}{'':>9}{1:>10}{steps:>12}{(used - start) * 1e9 / steps:>9.0f}{most:>9}", flush=True)


def main():
    words = argparse.ArgumentParser(description=__doc__, formatter_class=argparse.RawDescriptionHelpFormatter)
    words.add_argument("--steps", type=int, default=1000000)
    words.add_argument("--times", type=int, default=3)
    words.add_argument("names", nargs="*", default=NAMES + ["loop"])
    given = words.parse_args()
    systems = ["ours"] + [system for system in ("swipl", "gprolog") if shutil.which(system)]
    head = "".join(f"{system + ' ns':>9}" + (f"{'ratio':>7}" if system != "ours" else "") + f"{'peak KB':>9}" for system in systems)
    print(f"{'program':<9}{'before':>9}{'a round':>10}{'steps':>12}{head}")
    with tempfile.TemporaryDirectory() as folder:
        for name in given.names:
            if name == "loop":
                loop(given.steps)
            else:
                compare(name, folder, given.steps, given.times, systems)


if __name__ == "__main__":
    main()
