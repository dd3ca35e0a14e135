#!/usr/bin/env python3
"""Whether the two engines agree: random modules, instant by instant, on the plain engine and on the microstep engine.

usage: engines.py PROGRAM [KERNELS] [SEED]
       engines.py --cases KERNELS [SEED]

PROGRAM is the built `crates/benches/out/benches`. KERNELS random modules are made from SEED on (2,000 and 0 if they are left out),
each with the inputs of eight instants. In each instant the two engines have to answer the same: the outputs and the next state, or the
undecided outputs; and where there is a reaction, the microstep engine has to have decided each cell of its table. --cases prints the
cases and runs nothing.

The last line says how many modules and instants were compared, how many of them were stuck, and how many cells the tables had together.
It exits with 1 at the first difference, which it prints.
"""
import random
import re
import subprocess
import sys

HEAD = "module M: input I, J; inputoutput B; output O, P, Q; "
SIGNALS = ("I", "J", "B", "O", "P", "Q")
EMITTED = ("B", "O", "P", "Q")
INSTANTS = 8
MOST_LOCALS = 6
MOST_TRAPS = 4
AT_ONCE = 500
ANSWER = re.compile(r"^(\?[0-9a-f]+|[0-9a-f]+[.!]?)([=!])(\?[0-9a-f]+|[0-9a-f]+[.!]?)/(\d+)$")


class Maker:
    """Makes statements; `room` is how many more it may make."""

    def __init__(self, seed):
        self.random = random.Random(seed)
        self.room = self.random.choice((4, 8, 14, 24, 40))

    def signal(self, locals_):
        inside = [f"S{n}" for n in range(locals_)]
        return self.random.choice(inside + inside + list(SIGNALS))

    def emitted(self, locals_):
        inside = [f"S{n}" for n in range(locals_)]
        return self.random.choice(inside + inside + list(EMITTED))

    def test(self, locals_, depth=0):
        kind = self.random.random()
        if depth > 2 or kind < 0.75:
            return self.signal(locals_)
        if kind < 0.85:
            return f"not {self.test(locals_, depth + 1)}"
        word = "and" if kind < 0.93 else "or"
        return f"({self.test(locals_, depth + 1)} {word} {self.test(locals_, depth + 1)})"

    def leaf(self, locals_, traps):
        kind = self.random.random()
        if kind < 0.3:
            return "pause"
        if kind < 0.8:
            return f"emit {self.emitted(locals_)}"
        if traps and kind < 0.93:
            return f"exit T{self.random.randrange(traps)}"
        return "nothing"

    def timed(self, locals_, traps):
        """A statement that ends in no instant in which it begins."""
        body = self.statement(locals_, traps)
        return self.random.choice((f"[{body}]; pause", f"pause; [{body}]", f"[{body}] || pause"))

    def statement(self, locals_, traps):
        self.room -= 1
        if self.room <= 0:
            return self.leaf(locals_, traps)
        kind = self.random.randrange(20)
        if kind < 3:
            return self.leaf(locals_, traps)
        if kind < 7:
            return f"{self.statement(locals_, traps)}; {self.part(locals_, traps)}"
        if kind < 10:
            return f"[{self.part(locals_, traps)} || {self.part(locals_, traps)}]"
        if kind < 13:
            first, second = self.statement(locals_, traps), self.statement(locals_, traps)
            return f"present {self.test(locals_)} then {first} else {second} end"
        if kind == 13:
            return f"loop {self.timed(locals_, traps)} end"
        if kind == 14:
            word = self.random.choice(("", "immediate "))
            return f"suspend {self.statement(locals_, traps)} when {word}{self.bracketed(locals_)}"
        if kind == 15 and traps < MOST_TRAPS:
            return f"trap T{traps} in {self.statement(locals_, traps + 1)} end"
        if kind in (16, 17) and locals_ < MOST_LOCALS:
            return f"signal S{locals_} in {self.statement(locals_ + 1, traps)} end"
        if kind == 18:
            word = self.random.choice(("abort", "weak abort"))
            return f"{word} {self.statement(locals_, traps)} when {self.bracketed(locals_)}"
        return self.random.choice((f"await {self.bracketed(locals_)}", f"sustain {self.emitted(locals_)}"))

    def bracketed(self, locals_):
        return f"[{self.test(locals_)}]"

    def part(self, locals_, traps):
        """A statement that may stand beside others."""
        return f"[{self.statement(locals_, traps)}]"


def case(seed):
    """A line of the program's input."""
    maker = Maker(seed)
    body = maker.statement(0, 0)
    inputs = ",".join(f"{maker.random.randrange(8):x}" for _ in range(INSTANTS))
    return f"pairs {INSTANTS} {inputs} {HEAD}{body} end module"


def fault_of(line, counts):
    """What is wrong with an answer, if anything."""
    cells, *answers = line.split(" ")
    if len(answers) != INSTANTS:
        return "not as many instants as inputs"
    counts["cells"] += int(cells)
    for answer in answers:
        found = ANSWER.match(answer)
        if not found:
            return f"no answer: {answer}"
        plain, same, micro, steps = found.groups()
        counts["instants"] += 1
        counts["stuck"] += plain.startswith("?")
        if same != "=" or plain != micro:
            return f"the engines differ: {answer}"
        if not plain.startswith("?") and steps != cells:
            return f"a reaction, and an open cell: {answer}"
    return None


def run(program, seeds, counts):
    """Runs these cases, and answers the first that is wrong."""
    cases = [case(seed) for seed in seeds]
    done = subprocess.run([program], input="\n".join(cases) + "\n", capture_output=True, text=True, check=False)
    lines = done.stdout.splitlines()
    if done.returncode or len(lines) != len(cases):
        seed = min(len(lines), len(cases) - 1)
        return f"seed {seeds[seed]}: it ended with {done.returncode}: {done.stderr.strip()}\n{cases[seed]}"
    for seed, text, line in zip(seeds, cases, lines):
        fault = fault_of(line, counts)
        if fault:
            return f"seed {seed}: {fault}\n{text}\n{line}"
    return None


def main(words):
    if not words or len(words) > 3:
        sys.exit(__doc__.strip())
    program, kernels, seed = words[0], int((words + ["2000"])[1]), int(words[2] if len(words) > 2 else 0)
    seeds = range(seed, seed + kernels)
    if program == "--cases":
        for each in seeds:
            print(case(each))
        return
    counts = {"instants": 0, "stuck": 0, "cells": 0}
    for start in range(0, kernels, AT_ONCE):
        fault = run(program, seeds[start : start + AT_ONCE], counts)
        if fault:
            print(fault)
            sys.exit(1)
    print(
        f"{kernels} modules, {counts['instants']} instants, {counts['stuck']} of them stuck, {counts['cells']} cells: no difference"
    )


if __name__ == "__main__":
    main(sys.argv[1:])
