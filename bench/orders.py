#!/usr/bin/env python3
"""Programs whose parts tell each other across the text, in random orders of the parts: by the port of the engine to Rust (bench/port.py).

usage: orders.py [RELAYS] [RINGS] [SEED]

A relay is a `||` of parts, each of which makes a signal present where the one before it is; a ring is the arbiter of bench/worklist.py.
Made from SEED on (0 if it is left out) are RELAYS random orders of relays of 8 to 63 signals (300), and RINGS of rings of 4 to 32 cells (100).
Some of the relays begin without a signal, some go on from a pause in each part, some stand under a `present` or in a `signal`, after another
one or inside it, and some are of local signals. Each runs for a few instants on the port and on
`bench/worklist.c`, and on a port that goes by sweeps alone, without the order of sides and without passes. All have to decide as many cells and
to give one sum of outputs; else the script ends with 1, as where an instant looks at more than three statements a cell.

Then it prints the instructions an instant of relays of 16, 32 and 63 signals and of rings of 8, 16 and 32 cells, by callgrind: in order, and
the mean of a few random orders, and how many times as many these are; and at how many statements an instant looks at most, over its cells.
Some of the relays never begin. Last come relays whose order doesn't help: of local signals of which none is present. They may look at more
statements.
"""
import pathlib
import random
import statistics
import subprocess
import sys
import tempfile

import port
import worklist
from worklist import PAUSE, emit, loop, names, par, present, tellers

INSTANTS = 12
COUNTED = 3  # random orders whose instructions are counted
KINDS = ("sure", "asked", "paused")
INSIDE = ("under a present", "in a signal", "of local signals", "after another one", "inside another one")
SLOW = "of local signals that never begin"


def relay(count, kind, shuffle, masks=(0, 1)):
    """A relay of this many signals: the first is surely emitted, or where an input is present, or after a pause as the others are."""
    parts = tellers(count)
    if kind == "asked":
        parts[0] = present("I", parts[0])
    if kind == "paused":
        parts = [loop(PAUSE, part) for part in parts]
    shuffle(parts)
    body = par(*parts) if kind == "paused" else loop(par(*parts), PAUSE)
    return ["I"], names("O", count), body, list(masks)


def inside(count, kind, shuffle):
    """A relay of this many signals that stands inside a statement, after or inside another one, or is of local signals."""
    if kind.startswith("of local signals"):
        signals = names("S", count)
        first = emit("S0") if kind == "of local signals" else present("I", emit("S0"))
        parts = [first, *(present(a, emit(b)) for a, b in zip(signals, [*signals[1:], "O0"]))]
        shuffle(parts)
        return ["I"], names("O", 1), loop(told_by(signals, par(*parts)), PAUSE), [0]
    parts = tellers(count)
    shuffle(parts)
    if kind == "after another one":
        first, second = tellers(count)[: count // 2], [emit(f"O{count // 2}"), *tellers(count)[count // 2 + 1 :]]
        shuffle(first)
        shuffle(second)
        return [], names("O", count), loop(par(*first), PAUSE, par(*second), PAUSE), [0]
    if kind == "inside another one":
        first, second = tellers(count)[: count // 2], tellers(count)[count // 2 :]
        shuffle(first)
        shuffle(second)
        return [], names("O", count), loop(par(par(*first), *second), PAUSE), [0]
    body = present("I", par(*parts)) if kind == "under a present" else told_by(["S0"], par(*parts))
    return ["I"], names("O", count), loop(body, PAUSE), [1]


def random_relay(generator, number):
    """A relay of the kind that has its turn."""
    kinds = (*KINDS, *INSIDE)
    kind = kinds[number % len(kinds)]
    if kind in KINDS:
        return relay(generator.randrange(8, 64), kind, generator.shuffle)
    return inside(generator.randrange(8, 32), kind, generator.shuffle)


def told_by(signals, body):
    """The body, inside the binders of these local signals."""
    for signal in reversed(signals):
        body = ("local", signal, body)
    return body


def ring(count, shuffle):
    """The arbiter of this many cells."""
    _, *cells = sides(worklist.ring(count), count)
    shuffle(cells)
    return [], names("P", count) + names("T", count), par(emit("T0"), *cells), [0]


def sides(statement, count):
    """The sides of this many `||`s, each the second side of the one before."""
    found = []
    for _ in range(count):
        found.append(statement[1])
        statement = statement[2]
    return [*found, statement]


def none(parts):
    """The order of the text."""


class Programs:
    """The port, one that counts, one without guesses, and the worklist."""

    def __init__(self, folder):
        self.folder = folder
        subprocess.run(["cc", "-O2", "-o", folder / "worklist", pathlib.Path(__file__).parent / "worklist.c"], check=True)
        self.port = port.built(folder)
        self.counting = port.built(folder / "counting", looks=True)
        self.sweeping = port.built(folder / "sweeping", guesses=False)
        self.most = 0

    def looks(self, given):
        """At how many statements an instant of this case looks at most, over its cells."""
        return max(port.looked(self.counting, given, INSTANTS))

    def fault_of(self, made, is_ordered):
        """What is wrong, if anything. Where the engine has an order of the sides, it may look at three statements a cell."""
        program, given = worklist.Program("order", self.folder, made), port.case("order", self.folder, made)
        words = [[each, given, str(INSTANTS)] for each in (self.port, self.sweeping)] + [[self.folder / "worklist", program.net, str(INSTANTS)]]
        lines = [subprocess.run(each, capture_output=True, text=True, check=False).stdout for each in words]
        looks = self.looks(given) if is_ordered else 0
        self.most = max(self.most, looks)
        return None if lines[0] and len(set(lines)) == 1 and looks <= port.MOST_LOOKS else (*lines, looks)


def compare(count, make, first_seed, programs, is_ordered=True):
    """Runs random orders, and ends where one is wrong."""
    for seed in range(first_seed, first_seed + count):
        generator = random.Random(seed)
        if fault := programs.fault_of(make(generator, seed), is_ordered):
            sys.exit(f"orders.py: seed {seed}: {fault}")


def spent(made, programs, built):
    given = port.case("order", programs.folder, made)
    return port.counted(lambda count: [built, given, str(count)])[0]


def print_row(name, make, programs):
    """Prints the instructions in order and at random, those by sweeps alone at random, and the most statements looked at."""
    orders = [make(random.Random(seed).shuffle) for seed in range(COUNTED)]
    ordered = spent(make(none), programs, programs.port)
    mixed, sweeping = (statistics.mean(spent(made, programs, built) for made in orders) for built in (programs.port, programs.sweeping))
    looks = max(programs.looks(port.case("order", programs.folder, made)) for made in orders)
    print(f"{name}: {ordered:,.0f} in order, {mixed:,.0f} at random, {mixed / ordered:.2f} times; {sweeping:,.0f} by sweeps alone; "
          f"at most {looks:.2f} statements looked at over cells", flush=True)


def main(words):
    if len(words) > 3:
        sys.exit(__doc__.strip())
    relays, rings, seed = (int(word) for word in (*words, *("300", "100", "0")[len(words):]))
    sys.setrecursionlimit(20000)
    with tempfile.TemporaryDirectory() as made:
        programs = Programs(pathlib.Path(made))
        compare(relays, random_relay, seed, programs)
        compare(rings, lambda r, n: ring(r.randrange(4, 33), r.shuffle), seed, programs)
        print(f"{relays} orders of relays and {rings} of rings: no difference; at most {programs.most:.2f} statements looked at over cells", flush=True)
        compare(relays // 10, lambda r, n: inside(r.randrange(8, 32), SLOW, r.shuffle), seed, programs, is_ordered=False)
        for count in (16, 32, 63):
            print_row(f"relay of {count}", lambda shuffle, count=count: relay(count, "sure", shuffle), programs)
        for count in (16, 32, 63):
            print_row(f"relay of {count} that never begins", lambda shuffle, count=count: relay(count, "asked", shuffle, [0]), programs)
        for count in (32, 63):
            print_row(f"relay of {count} from pauses", lambda shuffle, count=count: relay(count, "paused", shuffle), programs)
        for count in (8, 16, 32):
            print_row(f"ring of {count}", lambda shuffle, count=count: ring(count, shuffle), programs)
        for kind in (*INSIDE, SLOW):
            for count in (8, 16, 31):
                print_row(f"relay of {count} {kind}", lambda shuffle, count=count, kind=kind: inside(count, kind, shuffle), programs)


if __name__ == "__main__":
    main(sys.argv[1:])
