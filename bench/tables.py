#!/usr/bin/env python3
"""Whether the microstep engine decides what it should, cell by cell: random kernels, beside the least closed table.

usage: tables.py PROGRAM [KERNELS] [SEED]
       tables.py port [KERNELS] [SEED]

PROGRAM is the built `crates/benches/out/benches`. In its place `port` takes the port of the engine to Rust (bench/port.py), so that a change
is tried before anything is proved. KERNELS random kernels are made from SEED on (2,000 and 0 if they are left out), each with the inputs of
eight instants. The cells of each and their gates are laid out here, by bench/worklist.py, with a gate more for each test of several signals.
In each instant they are decided one after another, each as soon as its gate decides it, until no gate decides more: that is the least closed
table. In the engine's table each cell has to have the same value, and has to be open where it is open here, also where there is no reaction.
The next instant goes on from the pauses that these cells tell, or from the same state where there is none.

The last line says how many kernels, instants and cells were compared, and how many instants and cells were open. It exits with 1 at the first
difference, which it prints. With the port a second line says at how many statements an instant looked, over its cells: more than 6 is a fault.
And each kernel runs once more on a port without the order of sides and without passes, which guess what is best looked at first: no cell may
change by that.
"""
import concurrent.futures
import os
import pathlib
import random
import subprocess
import sys
import tempfile

import port
from worklist import Layout, NOTHING, Other, PAUSE, module_of

INPUTS = ("I", "J", "K")
OUTPUTS = ("O", "P", "Q", "R")
INSTANTS = 8
MOST_LOCALS = 3
MOST_TRAPS = 3
AT_ONCE = 500
MOST_LOOKS = 6  # over the cells of an instant
COUNTED = ("cells", "open", "stuck", "most", "looks")


# Statements, as bench/worklist.py has them. A test is a name, or a tuple of `not`, `and` or `or` and tests.

class Maker:
    """Makes statements; `room` is how many more it may make."""

    def __init__(self, seed):
        self.random = random.Random(seed)
        self.room = self.random.choice((3, 6, 10, 16, 30))

    def signal(self, locals_, outer):
        inside = [f"S{n}" for n in range(locals_)]
        return self.random.choice(inside + inside + list(outer))

    def test(self, locals_, depth=0):
        kind = self.random.random()
        if depth > 1 or kind < 0.75:
            return self.signal(locals_, INPUTS + OUTPUTS + OUTPUTS)
        if kind < 0.85:
            return ("not", self.test(locals_, depth + 1))
        return ("and" if kind < 0.93 else "or", self.test(locals_, depth + 1), self.test(locals_, depth + 1))

    def leaf(self, locals_, traps):
        kind = self.random.random()
        if kind < 0.3:
            return PAUSE
        if kind < 0.8:
            return ("emit", self.signal(locals_, OUTPUTS))
        if traps and kind < 0.93:
            return ("exit", f"T{self.random.randrange(traps)}")
        return NOTHING

    def timed(self, locals_, traps):
        """A statement that ends in no instant in which it begins."""
        body = self.statement(locals_, traps)
        return self.random.choice((("seq", body, PAUSE), ("seq", PAUSE, body), ("par", body, PAUSE)))

    def statement(self, locals_, traps):
        self.room -= 1
        kind = self.random.randrange(20) if self.room > 0 else 0
        if kind < 3:
            return self.leaf(locals_, traps)
        if kind < 10:
            return ("seq" if kind < 7 else "par", self.statement(locals_, traps), self.statement(locals_, traps))
        if kind < 13:
            return ("present", self.test(locals_), self.statement(locals_, traps), self.statement(locals_, traps))
        if kind < 15:
            return ("loop", self.timed(locals_, traps))
        if kind < 17:
            return ("suspend", self.test(locals_), self.statement(locals_, traps))
        if kind == 17 and traps < MOST_TRAPS:
            return ("trap", f"T{traps}", self.statement(locals_, traps + 1))
        if locals_ < MOST_LOCALS:
            return ("local", f"S{locals_}", self.statement(locals_ + 1, traps))
        return self.leaf(locals_, traps)


def test_text(test):
    """A test, as it is written."""
    if isinstance(test, str):
        return test
    if test[0] == "not":
        return f"not {test_text(test[1])}"
    return f"({test_text(test[1])} {test[0]} {test_text(test[2])})"


def written(p):
    """The statement, with each test as it is written."""
    if p[0] in ("present", "suspend"):
        return (p[0], f"[{test_text(p[1])}]", *map(written, p[2:]))
    return tuple(written(part) if isinstance(part, tuple) else part for part in p)


class Tables(Layout):
    """The nets of a kernel, and one for each test of several signals."""

    def net_of(self, test, place):
        if isinstance(test, str):
            return place.signals[test]
        nets = [self.net_of(part, place) for part in test[1:]]
        self.others.append(({"not": "NOT", "and": "BOTH", "or": "EITHER"}[test[0]], *nets))
        return Other(len(self.others) - 1)

    def named(self, p, place):
        """The statement with a name for its test, and the place where that is the test's net."""
        signals = {**place.signals, "": self.net_of(p[1], place)}
        return (p[0], "", *p[2:]), place.inside(place.around, signals=signals)

    def lay_present(self, p, cell, place, statement):
        return super().lay_present(*self.renamed(p, cell, place, statement))

    def lay_suspend(self, p, cell, place, statement):
        return super().lay_suspend(*self.renamed(p, cell, place, statement))

    def renamed(self, p, cell, place, statement):
        p, place = self.named(p, place)
        return p, cell, place, statement


# Three values: True, False, and None for what is open.

def negated(a):
    return None if a is None else not a


def both(a, b):
    return False if a is False or b is False else True if a and b else None


def either(a, b):
    return negated(both(negated(a), negated(b)))


class Run:
    """A kernel from its beginning, instant by instant."""

    def __init__(self, statement):
        made = Tables(INPUTS, OUTPUTS, statement)
        self.cells = len(made.gates)
        self.gates = [self.placed(gate) for gate in made.gates + made.others]
        self.statements, self.nodes = made.statements, made.nodes
        self.state = None  # not begun
        self.readers = [[] for _ in self.gates]
        for number, gate in enumerate(self.gates):
            for net in self.nets_of(gate):
                self.readers[net].append(number)

    def placed(self, gate):
        """A gate over places of one list, in which the other nets follow the cells."""
        return (gate[0], *(self.cells + n if isinstance(n, Other) else n for n in gate[1:]))

    @staticmethod
    def nets_of(gate):
        """The nets that a gate reads."""
        kind, o = gate[0], gate[1:]
        if kind in ("COPY", "BOTH", "BUT", "EITHER", "NOT", "ANY"):
            return o
        if kind == "MOST":
            codes = range(o[6] + 1)
            return [*(net for net in o[1:2] if net >= 0), *(o[4] + code for code in codes), *(o[5] + code for code in codes)]
        taken = {"ENDS": o[1:2], "AGAIN": o[1:2], "OUT": o[1:3], "HELD": o[1:4], "RUNS": o[1:3]}.get(kind, ())
        return [net for net in taken if net >= 0]

    def lives(self):
        """For each statement whether a pause in it is set."""
        pauses = self.state or ()
        return [any(first <= n < past for n in pauses) for _, _, first, past in self.statements]

    def instant(self, inputs):
        """The least closed table of an instant with these inputs."""
        values = [None] * len(self.gates)
        live, waiting = self.lives(), list(range(len(self.gates)))
        while waiting:
            net = waiting.pop()
            if values[net] is None:
                values[net] = inputs[net - self.cells] if self.gates[net][0] == "INPUT" else self.asked(self.gates[net], values, live)
                if values[net] is not None:
                    waiting += self.readers[net]
        return values, live

    def asked(self, gate, values, live):
        """What a gate says."""
        kind, o = gate[0], gate[1:]

        def reach(net):
            return True if net < 0 else values[net]
        if kind == "BEGUN":
            return self.state is None
        if kind == "COPY":
            return values[o[0]]
        if kind == "NOT":
            return negated(values[o[0]])
        if kind == "BOTH":
            return both(values[o[0]], values[o[1]])
        if kind == "BUT":
            return both(values[o[0]], negated(values[o[1]]))
        if kind == "EITHER":
            return either(values[o[0]], values[o[1]])
        if kind == "ANY":
            found = [values[net] for net in o]
            return True if True in found else None if None in found else False
        if kind == "ENDS":
            return reach(o[1]) if live[o[0]] else False
        if kind == "AGAIN":
            return values[o[1]] if live[o[0]] else False
        if kind == "OUT":
            return values[o[2] if live[o[0]] else o[1]]
        if kind == "HELD":
            return either(values[o[1]], both(reach(o[2]), values[o[3]])) if live[o[0]] else values[o[1]]
        if kind == "RUNS":
            return both(reach(o[1]), negated(values[o[2]])) if live[o[0]] else False
        return self.most(o, values, live) if kind == "MOST" else False

    def most(self, o, values, live):
        """Whether a parallel gives a code: one of its sides does, and the other one no higher code."""
        statement, runs, left, right, a, b, code = o

        def side(start, cell, k):
            if statement >= 0 and live[statement] and not live[start]:
                return False if k else True if runs < 0 else values[runs]
            return values[cell + k]
        low_a = low_b = False
        for k in range(code + 1):
            low_a, low_b = either(low_a, side(left, a, k)), either(low_b, side(right, b, k))
        return either(both(side(left, a, code), low_b), both(side(right, b, code), low_a))

    def go_on(self, values, live):
        """Goes on to the state after an instant, if its cells tell one."""
        root = len(OUTPUTS)
        if values[root + 2]:
            self.state = self.next_pauses(values, live)
        elif values[root + 1] or self.state == ():
            self.state = ()

    def next_pauses(self, values, live):
        found, n = [], 0
        while n < len(self.nodes):
            pause, statement, runs, code1, past = self.nodes[n]
            if not values[code1]:
                n = past
            elif statement >= 0 and live[statement] and values[self.cells + runs] is False:
                first, last = self.statements[statement][2:]
                found += [each for each in self.state if first <= each < last]
                n = past
            else:
                found += [pause] if pause >= 0 else []
                n += 1
        return tuple(found)


class Case:
    """A kernel, and the inputs of its instants."""

    def __init__(self, seed):
        maker = Maker(seed)
        self.statement = maker.statement(0, 0)
        self.masks = [maker.random.randrange(1 << len(INPUTS)) for _ in range(INSTANTS)]

    def lines(self):
        """What the port reads of it."""
        masks = " ".join(f"{mask:x}" for mask in self.masks)
        return f"{masks}\n{' '.join(INPUTS)}\n{' '.join(OUTPUTS)}\n{port.flat(self.statement)}\n"

    def text(self):
        """Its module."""
        return module_of(INPUTS, OUTPUTS, written(self.statement))

    def work(self):
        """The line that the program reads of it."""
        return f"tables {INSTANTS} {','.join(f'{mask:x}' for mask in self.masks)} {self.text()}\n"

    def tables(self, counts):
        """The program's line, worked out here."""
        run = Run(self.statement)
        shown = [str(run.cells)]
        for mask in self.masks:
            values, live = run.instant([bool(mask >> n & 1) for n in range(len(INPUTS))])
            table = "".join("?" if value is None else str(int(value)) for value in values[: run.cells])
            counts["cells"] += run.cells
            counts["open"] += table.count("?")
            counts["stuck"] += "?" in table
            shown.append(table)
            run.go_on(values, live)
        return " ".join(shown)


class Ported:
    """The port, with its guesses and without them."""

    def __init__(self, folder):
        self.folder = folder
        self.programs = [port.built(folder / name, looks=True, guesses=name == "guessing") for name in ("guessing", "plain")]

    def answers(self, cases):
        """What becomes of both with these cases, and at how many statements each instant of the first looked, over its cells."""
        given = self.folder / f"cases{os.getpid()}"
        given.write_text("".join(case.lines() for case in cases), encoding="utf-8")
        ran = [subprocess.run([program, given], capture_output=True, text=True, check=False) for program in self.programs]
        given.unlink()
        looks = [int(looked) / int(cells) for cells, looked in map(str.split, ran[0].stderr.splitlines()[: len(cases) * INSTANTS])]
        return ran, looks


class Built:
    """The program of crates/benches."""

    def __init__(self, program):
        self.program = program

    def answers(self, cases):
        given = "".join(case.work() for case in cases)
        done = subprocess.run([self.program], input=given, capture_output=True, text=True, check=False)
        return [done], []


def compare(program, seeds):
    """Runs these cases. Answers what was counted, and the first case that differs."""
    cases, counts = [Case(seed) for seed in seeds], dict.fromkeys(COUNTED, 0)
    ran, looks = program.answers(cases)
    wanted = [case.tables(counts) for case in cases]
    counts |= {"most": max(looks, default=0), "looks": sum(looks)}
    for done in ran:
        lines = done.stdout.splitlines()
        for seed, case, line, table in zip(seeds, cases, lines, wanted):
            if line != table:
                return counts, f"seed {seed}: the tables differ\n{case.text()}\n{line}\n{table}"
        if done.returncode or len(lines) != len(cases):
            return counts, f"seed {seeds[min(len(lines), len(cases) - 1)]}: it ended with {done.returncode}: {done.stderr.strip()}"
    if counts["most"] > MOST_LOOKS:
        return counts, f"seeds from {seeds[0]} on: an instant looks at {counts['most']:.2f} statements a cell"
    return counts, None


def compare_all(program, seeds):
    """Compares all cases, on all processors. Answers what was counted. Ends at the first difference."""
    counts = dict.fromkeys(COUNTED, 0)
    parts = [seeds[start : start + AT_ONCE] for start in range(0, len(seeds), AT_ONCE)]
    with concurrent.futures.ProcessPoolExecutor() as pool:
        for part, fault in pool.map(compare, [program] * len(parts), parts):
            if fault:
                pool.shutdown(cancel_futures=True)
                sys.exit(fault)
            counts = {name: max(counts[name], part[name]) if name == "most" else counts[name] + part[name] for name in COUNTED}
    return counts


def main(words):
    if not words or len(words) > 3:
        sys.exit(__doc__.strip())
    kernels, seed = (int(word) for word in (*words[1:], *("2000", "0")[len(words) - 1 :]))
    with tempfile.TemporaryDirectory() as made:
        program = Ported(pathlib.Path(made)) if words[0] == "port" else Built(words[0])
        counts = compare_all(program, range(seed, seed + kernels))
    instants = kernels * INSTANTS
    print(f"{kernels} kernels, {instants} instants, {counts['stuck']} of them with open cells, {counts['cells']} cells, "
          f"{counts['open']} of them open: no difference")
    if counts["most"]:
        print(f"statements looked at, over the cells of an instant: at most {counts['most']:.2f}, {counts['looks'] / instants:.2f} in the mean")


if __name__ == "__main__":
    main(sys.argv[1:])
