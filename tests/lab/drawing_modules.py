"""Random modules of at most four inputs, drawn by a fixed sequence, and claims on them."""
from __future__ import annotations

import dataclasses
import random
from typing import List

INPUTS = ("A", "B", "C", "D")
OUTPUTS = ("O", "P", "Q")
BOTH = "L"  # an inputoutput
LEAVES = ("emit", "emit", "pause", "pause", "await", "sustain", "nothing", "exit", "halt")
PARTS = ("seq", "seq", "par", "present", "loop", "abort", "weak_abort", "suspend", "every", "each")
PARTS += ("trap", "signal")
DEEPEST = 5


@dataclasses.dataclass
class Names:
    """The names that a statement sees: signals to test, signals to emit, traps."""

    tested: List[str]
    emitted: List[str]
    traps: List[str]


class Drawer:
    """Draws modules, one after the other."""

    def __init__(self, seed: int) -> None:
        self.dice = random.Random(seed)
        self.locals = 0

    def test(self, names: Names, deep: int = 0) -> str:
        """A test of signals."""
        kind = self.dice.choice(("name", "name", "name", "not", "and", "or"))
        if kind == "name" or deep > 1:
            return self.dice.choice(names.tested)
        first = self.test(names, deep + 1)
        if kind == "not":
            return f"not ({first})"
        return f"({first}) {kind} ({self.test(names, deep + 1)})"

    def leaf(self, names: Names) -> str:
        """A statement without others in it."""
        kind = self.dice.choice(LEAVES)
        if kind in ("emit", "sustain"):
            return f"{kind} {self.dice.choice(names.emitted)}"
        if kind == "await":
            return f"await {self.dice.choice(('', 'immediate '))}{self.test(names)}"
        if kind == "exit" and names.traps:
            return f"exit {self.dice.choice(names.traps)}"
        return "pause" if kind == "exit" else kind

    def statement(self, names: Names, deep: int = 0) -> str:
        """A statement, in brackets where it needs them."""
        if deep >= DEEPEST or self.dice.random() < 0.15:
            return self.leaf(names)
        return getattr(self, "draw_" + self.dice.choice(PARTS))(names, deep + 1)

    def draw_seq(self, names: Names, deep: int) -> str:
        parts = [self.statement(names, deep) for _ in range(self.dice.choice((2, 3)))]
        return f"[ {'; '.join(parts)} ]"

    def draw_par(self, names: Names, deep: int) -> str:
        return f"[ {self.statement(names, deep)} || {self.statement(names, deep)} ]"

    def draw_present(self, names: Names, deep: int) -> str:
        first, second = self.statement(names, deep), self.statement(names, deep)
        return f"present {self.test(names)} then {first} else {second} end"

    def draw_loop(self, names: Names, deep: int) -> str:
        return f"loop {self.statement(names, deep)}; pause end"

    def draw_abort(self, names: Names, deep: int) -> str:
        return f"abort {self.statement(names, deep)} when {self.test(names)}"

    def draw_weak_abort(self, names: Names, deep: int) -> str:
        return f"weak abort {self.statement(names, deep)} when {self.test(names)}"

    def draw_suspend(self, names: Names, deep: int) -> str:
        return f"suspend {self.statement(names, deep)} when {self.test(names)}"

    def draw_every(self, names: Names, deep: int) -> str:
        return f"every {self.test(names)} do {self.statement(names, deep)} end"

    def draw_each(self, names: Names, deep: int) -> str:
        return f"loop {self.statement(names, deep)} each {self.test(names)}"

    def draw_trap(self, names: Names, deep: int) -> str:
        trap = f"T{len(names.traps)}"
        inner = Names(names.tested, names.emitted, [*names.traps, trap])
        return f"trap {trap} in {self.statement(inner, deep)} end"

    def draw_signal(self, names: Names, deep: int) -> str:
        self.locals += 1
        name = f"S{self.locals}"
        inner = Names([*names.tested, name], [*names.emitted, name, name], names.traps)
        return f"signal {name} in {self.statement(inner, deep)} end"

    def module(self) -> str:
        """The text of a module M. Its loads may be refused: some loops take no time."""
        inputs = INPUTS[: self.dice.choice((1, 1, 2, 2, 2, 3, 4))]
        outputs = OUTPUTS[: self.dice.choice((1, 2, 3))]
        has_both = self.dice.random() < 0.3 and len(inputs) < 4
        lines = [f"module M:\ninput {', '.join(inputs)};\noutput {', '.join(outputs)};"]
        lines += [f"inputoutput {BOTH};"] * has_both
        if len(inputs) > 1 and self.dice.random() < 0.5 or len(inputs) > 2:
            lines.append(f"relation {self.dice.choice(('A # B', 'A => B', ' # '.join(inputs)))};")
        both = [BOTH] * has_both
        names = Names([*inputs, *outputs, *both], [*outputs, *both], [])
        return "\n".join([*lines, self.body(names), "end module\n"])

    def body(self, names: Names) -> str:
        """The body of a module: parts with waiting between them, often over and over again."""
        parts = [f"{self.statement(names, 2)}; await {self.test(names, 1)}" for _ in range(2)]
        whole = f"[ {self.dice.choice((' || ', '; ')).join(parts)} ]"
        again = f"loop {whole}; pause end", f"loop {whole} each {names.tested[0]}"
        return self.dice.choice((whole, *again))

    def claims(self, signals: List[str]) -> List[str]:
        """Claims on these signals of an interface."""
        names = Names(signals, [], [])
        return [f"{self.dice.choice(('never', 'always'))} {self.test(names)}" for _ in range(4)]
